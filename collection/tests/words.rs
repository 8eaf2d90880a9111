//! The words of each number: `floors explain`, the README's table and the C header say the same.

mod kit;

use std::fs;

use collection::words::{Words, NUMBERS};
use kit::Folder;

fn file(name: &str) -> String {
    fs::read_to_string(format!("{}/../{name}", env!("CARGO_MANIFEST_DIR"))).expect("a file of the repository")
}

#[test]
fn the_numbers_come_in_order() {
    assert!(NUMBERS.iter().zip(0..).all(|(words, number)| words.number == number));
}

#[test]
fn the_readme_has_them() {
    let readme = file("README.md");
    let (_, behind) =
        readme.split_once("| number | meaning | what to do |\n|---|---|---|\n").expect("a table of numbers");
    let (table, _) = behind.split_once("\n\n").expect("its end");
    let row = |words: &Words| format!("| {} | {} | {} |", words.number, words.says, words.advice);
    let rows: Vec<String> = NUMBERS.iter().map(row).collect();
    assert_eq!(table.lines().collect::<Vec<_>>(), rows);
}

#[test]
fn the_header_has_them() {
    let header = file("include/cartfloor.h");
    let (_, behind) = header.split_once("enum {").expect("an enum");
    let (constants, _) = behind.split_once("};").expect("its end");
    // Comments over several lines begin each of them with a star.
    let found: Vec<&str> = constants.split_whitespace().filter(|word| *word != "*").collect();
    let last = NUMBERS.len() - 1;
    let constant = |words: &Words| {
        let Words { number, name, says, advice, .. } = words;
        let comma = if usize::from(*number) == last { "" } else { "," };
        format!("/* {says}. To do: {advice}. */ CARTFLOOR_{name} = {number}{comma}")
    };
    let expected: Vec<String> = NUMBERS.iter().map(constant).collect();
    assert_eq!(found.join(" "), expected.join(" "));
}

#[test]
fn explain_has_them() {
    let folder = Folder::new();
    let mut all = String::new();
    for words in &NUMBERS {
        let Words { number, name, says, advice, of_lines } = words;
        let explained = folder.floors(&["explain", &number.to_string()]).out;
        assert!(explained.starts_with(&format!("{number} {name}: {says}\n")), "{explained}");
        assert!(explained.ends_with(&format!("\n    to do: {advice}\n")), "{explained}");
        for (word, says) in *of_lines {
            assert!(explained.contains(&format!("\n    on a {word} line: {says}\n")), "{explained}");
        }
        all += &explained;
    }
    folder.floors(&["explain"]).expect(0, &all, "");
}

/// What goes with a line is said of its kind, also where fields are missing or the word is longer.
#[test]
fn words_of_a_line() {
    let doubled = &NUMBERS[7];
    let text = b"FLOOR\t2\nTRACK\t0\t0\nCART\t0\nCALL\t0\nCARTS\t0\nBAY\t0\n";
    let says = [(2, "TRACK"), (3, "CART"), (4, "CALL"), (6, "BAY")];
    for (line, word) in says {
        let own = doubled.of_lines.iter().find(|(own, _)| *own == word).expect("words of that line").1;
        assert_eq!(doubled.of_line(text, line), own);
    }
    for line in [0, 1, 5, 7, 8, u64::MAX] {
        assert_eq!(doubled.of_line(text, line), doubled.says, "{line}");
    }
}

/// The program and the header have one version.
#[test]
fn one_version() {
    let version = env!("CARGO_PKG_VERSION").strip_suffix(".0").expect("no third number");
    assert!(file("include/cartfloor.h").contains(&format!("#define CARTFLOOR_VERSION \"{version}\"\n")));
    assert!(file("bindings/Cargo.toml").contains(&format!("\nversion = \"{version}.0\"\n")));
    Folder::new().floors(&["--version"]).expect(0, &format!("floors {version}\n"), "");
}
