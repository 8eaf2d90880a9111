//! What the README shows of jobs, sheets, a map and `floors`, and how much it says is to be believed. Tabs are shown there as
//! spaces.

mod kit;

use std::fs;
use std::os::unix::fs::symlink;
use std::process::Command;

use collection::help;
use collection::words::NUMBERS;
use kit::{is_right, ran, Folder};

const ROOT: &str = concat!(env!("CARGO_MANIFEST_DIR"), "/..");

fn readme() -> String {
    fs::read_to_string(format!("{ROOT}/README.md")).expect("a README")
}

/// The indented lines behind the first line that has these words.
fn shown_behind(words: &str) -> Vec<String> {
    let readme = readme();
    let behind = readme.lines().skip_while(|line| !line.contains(words)).skip(1);
    let indented = behind.skip_while(|line| !line.starts_with("    ")).map_while(|line| line.strip_prefix("    "));
    indented.map(str::to_string).collect()
}

#[test]
fn the_plan_of_the_first_command() {
    let shown = shown_behind("and plans a job of eight calls:");
    let job = fs::read(format!("{ROOT}/examples/hall.job")).expect("an example");
    let ran = Folder::new().floors_with(&["plan", "-"], &job);
    assert_eq!((ran.status, ran.err.as_str()), (0, ""));
    assert!(is_right(&job, ran.out.as_bytes()));
    let written: Vec<String> = ran.out.lines().map(|line| line.replace('\t', " ")).collect();
    assert_eq!(written.len(), 9);
    assert_eq!(shown.len(), 4);
    assert_eq!(shown[..3], written[..3]);
}

/// The lines that are shown without what is said of them.
fn lines(shown: &[String]) -> Vec<u8> {
    let line = |line: &String| line.split("  ").next().unwrap_or_default().replace(' ', "\t") + "\n";
    shown.iter().map(line).collect::<String>().into_bytes()
}

/// The job and its plan, that of a job whose calls are in another order than their cells, those of two jobs with a spare cart, a
/// job that has none, one that needs an early lift and one that needs a whole call.
#[test]
fn the_examples() {
    let example = |name: &str| fs::read(format!("{ROOT}/examples/{name}.job")).expect("an example");
    let sheet = |words: &str| lines(&shown_behind(words));
    let job = lines(&shown_behind("## A job"));
    assert_eq!(job, example("bay"));
    let named = |name: &str| (example(name), sheet(&format!("In `examples/{name}.job`")));
    let others = ["a", "spare", "aside", "closed", "early", "whole"].map(named);
    for (job, sheet) in [(job, sheet("## Its sheet"))].into_iter().chain(others) {
        Folder::new().floors_with(&["plan", "-"], &job).expect(0, std::str::from_utf8(&sheet).expect("text"), "");
    }
}

/// A plan that the planner does not write, with a spare cart that makes way.
#[test]
fn the_sheet_from_another_hand() {
    let folder = Folder::new();
    folder.put("aside.job", example("aside.job"));
    folder.put("aside.sheet", lines(&shown_behind("This sheet, from another hand")));
    let summary = "1 job: 1 plan, 0 cannot, 0 refused; sheets: 1 right, 0 missing, 0 wrong\n";
    folder.floors(&["status"]).expect(0, &format!("aside.sheet: right PLAN\n{summary}"), "");
}

/// The commands are those of `floors --help`.
#[test]
fn the_commands() {
    let shown = shown_behind("`floors` keeps the sheets of many jobs");
    let helped: Vec<&str> = help::ALL.lines().filter_map(|line| line.strip_prefix("    floors ")).collect();
    assert_eq!(shown.len(), 4);
    for (shown, helped) in shown.iter().zip(helped) {
        let (_, shown) = shown.split_once("./floors ").expect("a command");
        assert!(helped.starts_with(shown), "{shown}; {helped}");
    }
}

/// Faults are shown in the words of their numbers.
#[test]
fn the_faults() {
    let shown = shown_behind("Without PATH it is the folder one is in.");
    let mut faults = 0;
    for pair in shown.windows(2) {
        let Some((_, fault)) = pair[0].split_once(": error[") else { continue };
        let (number, says) = fault.split_once("]: ").expect("a number");
        let words = NUMBERS.iter().find(|words| words.number.to_string() == number).expect("a number of the library's");
        assert!(says == words.says || words.of_lines.iter().any(|&(_, own)| own == says), "{says}");
        assert_eq!(pair[1], format!("    to do: {}", words.advice));
        faults += 1;
    }
    assert_eq!(faults, 2, "{shown:?}");
}

fn example(name: &str) -> String {
    fs::read_to_string(format!("{ROOT}/examples/{name}")).expect("an example")
}

/// The map is the filed one, without what is said of its lines, and each of its cells has its number.
#[test]
fn the_map() {
    let said = shown_behind("This is `examples/packing.map`");
    let shown: Vec<&str> = said.iter().map(|line| line.split("  ").next().unwrap_or_default()).collect();
    let map = example("packing.map");
    assert_eq!(shown, map.lines().collect::<Vec<_>>());
    let numbered = shown_behind("Cells are numbered row by row from the top left");
    let mut next = 0;
    for (row, numbers) in shown[4..].iter().zip(&numbered) {
        for (letter, number) in row.chars().zip(numbers.as_bytes().chunks(3)) {
            let number = std::str::from_utf8(number).expect("text").trim();
            assert_eq!(number, if letter == '.' { next.to_string() } else { String::new() });
            next += usize::from(letter == '.');
        }
    }
    assert_eq!((numbered.len(), next), (4, 20));
}

#[test]
fn the_start_of_its_floor() {
    let shown = shown_behind("So the text opens");
    let floor = example("packing.floor").replace('\t', " ");
    let (first, more): (Vec<&str>, Vec<&str>) = (floor.lines().take(4).collect(), floor.lines().skip(4).collect());
    assert_eq!(shown[..4], first);
    assert_eq!(shown[4..], [format!("and {} tracks more", more.len())]);
}

/// The lines of shell as they are shown, in a folder that has what they name.
#[test]
fn from_a_drawing_to_a_plan() {
    let script = shown_behind("three lines of shell");
    assert_eq!(script.len(), 3);
    let folder = Folder::new();
    for name in ["floormap", "floorplan", "examples"] {
        symlink(format!("{ROOT}/{name}"), folder.path(name)).expect("a link");
    }
    let mut shell = Command::new("sh");
    shell.args(["-e", "-c", &script.join("\n")]).current_dir(&folder.0);
    let sheet = lines(&shown_behind("this is their only plan"));
    ran(shell, b"").expect(0, std::str::from_utf8(&sheet).expect("text"), "");
}

/// Lines of definitions, neither blank nor comments, rounded to tens.
#[test]
fn the_lines_to_be_believed() {
    let specs = fs::read_dir(format!("{ROOT}/crates/model/specs")).expect("a folder");
    let texts = specs.map(|file| fs::read_to_string(file.expect("a file").path()).expect("a text"));
    let says = |line: &&str| !line.trim().is_empty() && !line.trim_start().starts_with("--");
    let lines: usize = texts.map(|text| text.lines().filter(says).count()).sum();
    let said = format!("`crates/model/specs/`, some {} lines,", (lines + 5) / 10 * 10);
    assert!(readme().contains(&said), "{lines} lines");
}
