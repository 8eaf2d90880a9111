//! The C header: the names in it, and a C program that says what they are and what the library answers to them.

use std::collections::BTreeSet;
use std::fs;
use std::path::Path;
use std::process::Command;

use crate::child::output;

const ROOT: &str = concat!(env!("CARGO_MANIFEST_DIR"), "/..");

/// The header with its comments.
fn manual() -> String {
    fs::read_to_string(format!("{ROOT}/include/cartfloor.h")).expect("a header")
}

/// The header without its comments.
fn text() -> String {
    without_comments(&manual())
}

pub fn without_comments(source: &str) -> String {
    let mut parts = source.split("/*");
    let first = parts.next().unwrap_or_default().to_string();
    let behind = |comment: &str| comment.split_once("*/").expect("the end of a comment").1.to_string();
    parts.map(behind).fold(first, |all, part| all + " " + &part)
}

/// Words as C has them.
pub fn words(text: &str) -> impl Iterator<Item = &str> {
    text.split(|c: char| !c.is_ascii_alphanumeric() && c != '_').filter(|word| !word.is_empty())
}

/// Whether a word is a name of this library's.
pub fn is_ours(word: &str) -> bool {
    word.to_ascii_lowercase().starts_with("cartfloor_")
}

/// Every name that the header brings: what it defines, its enum constants, and whatever else is ours.
pub fn names() -> BTreeSet<String> {
    let text = text();
    let ours = words(&text).filter(|word| is_ours(word));
    constants(&text).chain(ours).map(str::to_string).chain(macros()).collect()
}

/// What the header defines, its guard too.
pub fn macros() -> BTreeSet<String> {
    let text = text();
    let all: Vec<&str> = words(&text).collect();
    all.windows(2).filter(|pair| pair[0] == "define").map(|pair| pair[1].to_string()).collect()
}

/// The passages of the manual that are set in.
fn passages() -> Vec<Vec<String>> {
    let manual = manual();
    let set_in = |line: &str| line.strip_prefix(" *     ").map(str::to_string);
    let lines: Vec<Option<String>> = manual.lines().map(set_in).collect();
    lines.split(Option::is_none).map(|passage| passage.iter().flatten().cloned().collect()).collect()
}

/// The passage that shows how to use a call: the one that has it.
pub fn example(call: &str) -> String {
    let shows_the_call = |passage: &Vec<String>| passage.iter().any(|line| line.contains(&format!("{call}(")));
    passages().into_iter().find(shows_the_call).expect("an example in the header").join("\n")
}

/// The jobs, sheets and maps that the manual shows, without what is said of their lines: the passages that open with a word
/// and its number, or as maps do.
pub fn shown() -> Vec<String> {
    let is_text = |passage: &Vec<String>| {
        let mut opens = passage.first().map_or("", String::as_str).split(' ');
        match opens.next() {
            Some("FLOOR" | "PLAN" | "CANNOT") => opens.next().is_some_and(|number| number.parse::<usize>().is_ok()),
            word => word == Some("type"),
        }
    };
    let line = |line: &String| line.split("  ").next().unwrap_or_default().to_string() + "\n";
    passages().iter().filter(|passage| is_text(passage)).map(|passage| passage.iter().map(line).collect()).collect()
}

/// The names of the enum constants, without their numbers.
fn constants(text: &str) -> impl Iterator<Item = &str> {
    let enums = text.split("enum").skip(1).filter_map(|behind| behind.split(['{', '}']).nth(1));
    enums.flat_map(words).filter(|word| !word.starts_with(|c: char| c.is_ascii_digit()))
}

/// The header's name of each answer, without `CARTFLOOR_`.
pub fn answers() -> Vec<String> {
    constants(&text()).filter_map(|name| name.strip_prefix("CARTFLOOR_")).map(str::to_string).collect()
}

/// The names of a call's parameters, in the order of its prototype.
pub fn parameters(call: &str) -> Vec<String> {
    let text = text();
    let (_, behind) = text.split_once(&format!("{call}(")).expect("a prototype");
    let (list, _) = behind.split_once(')').expect("the end of a prototype");
    list.split(',').map(|one| words(one).last().expect("a name").to_string()).collect()
}

/// A statement for `harness/header/rows.c`, and the line that it is to print.
pub struct Row {
    statement: String,
    expected: String,
}

impl Row {
    /// Whether the line has this word.
    pub fn expects(&self, word: &str) -> bool {
        words(&self.expected).any(|one| one == word)
    }
}

pub fn row(statement: impl Into<String>, expected: impl ToString) -> Row {
    Row { statement: statement.into(), expected: expected.to_string() }
}

/// Builds the C program with these rows in a folder, runs it, and tells all that differs.
pub fn assert_rows(folder: &str, name: &str, rows: &[Row]) {
    let (file, program) = (format!("{folder}/{name}.rows"), format!("{folder}/{name}"));
    let statements: String = rows.iter().map(|row| format!("{};\n", row.statement)).collect();
    fs::write(&file, statements).expect("a file of rows");
    build(&file, &program);
    let printed = String::from_utf8(output(Command::new(&program), Vec::new())).expect("text");
    assert_eq!(printed.lines().count(), rows.len(), "lines printed");
    let differs = |(row, found): (&Row, &str)| {
        let start: String = row.statement.chars().take(150).collect();
        (found != row.expected).then(|| format!("{start}: {found}; expected {}", row.expected))
    };
    let faults: Vec<String> = rows.iter().zip(printed.lines()).filter_map(differs).collect();
    assert!(faults.is_empty(), "\n{}", faults.join("\n"));
}

/// Where the library is.
pub fn library() -> String {
    let library = format!("{ROOT}/target/staticlib/libcartfloor.a");
    assert!(Path::new(&library).is_file(), "there is no {library}: `rt lib` in crates/cartfloor_c builds it");
    library
}

fn build(rows: &str, program: &str) {
    let mut gcc = Command::new("gcc");
    gcc.args(["-std=c11", "-Wall", "-Wextra", "-Werror", "-O1", "-I", &format!("{ROOT}/include"), "-o", program]);
    gcc.arg(format!("-DROWS=\"{rows}\""));
    gcc.arg(format!("-DPLAN_ORDER={}", parameters("cartfloor_plan").join(",")));
    gcc.arg(format!("-DCHECK_ORDER={}", parameters("cartfloor_check").join(",")));
    gcc.arg(format!("-DMAP_ORDER={}", parameters("cartfloor_map").join(",")));
    gcc.args([&format!("{ROOT}/harness/header/rows.c"), &library()]);
    output(gcc, Vec::new());
}
