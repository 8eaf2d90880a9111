//! The C header under compilers that let no warning pass: a program that expands every macro, and the examples that the
//! header itself shows. Each is built, linked to the library and run, on job A or on the header's map.

use std::collections::BTreeSet;
use std::fs;
use std::process::Command;

use harness::child::output;
use harness::examples::{tabs, A};
use harness::header::{example, library, macros, shown, without_comments, words};

const INCLUDE: &str = concat!(env!("CARGO_MANIFEST_DIR"), "/../include");
const SOURCE: &str = concat!(env!("CARGO_MANIFEST_DIR"), "/header/strict.c");

/// The language by gcc's name, and the compiler with its flags.
struct Compiler(&'static str, &'static [&'static str]);

const C99: Compiler = Compiler("c", &["gcc", "-std=c99", "-Wall", "-Wextra", "-Wpedantic", "-Wconversion", "-Werror"]);
const CPP: Compiler = Compiler(
    "c++",
    &["g++", "-std=c++11", "-Wall", "-Wextra", "-Wpedantic", "-Wconversion", "-Wold-style-cast", "-Werror"],
);

/// Builds a program and runs it; what it prints.
fn printed(Compiler(language, command): Compiler, source: &str, name: &str, input: Vec<u8>) -> Vec<u8> {
    let program = format!("{}/{name}", env!("CARGO_TARGET_TMPDIR"));
    let mut compile = Command::new(command[0]);
    compile.args(&command[1..]).args(["-I", INCLUDE, "-o", &program]);
    compile.args(["-x", language, source, "-x", "none", &library()]);
    output(compile, Vec::new());
    output(Command::new(program), input)
}

fn assert_plans_a(compiler: Compiler, source: &str, name: &str) {
    assert_eq!(printed(compiler, source, name, tabs(A.job)), tabs(A.sheet), "{name}");
}

#[test]
fn every_macro_as_c99() {
    assert_plans_a(C99, SOURCE, "strict_c");
}

#[test]
fn every_macro_as_cpp() {
    assert_plans_a(CPP, SOURCE, "strict_cpp");
}

/// A header's warnings come where a macro is expanded: one that the program leaves out is not looked at.
#[test]
fn the_program_has_every_macro() {
    let program = without_comments(&fs::read_to_string(SOURCE).expect("a program"));
    let used: BTreeSet<&str> = words(&program).collect();
    let unused: Vec<String> = macros().into_iter().filter(|name| !used.contains(name.as_str())).collect();
    assert_eq!(unused, ["CARTFLOOR_H"], "macros that the program does not use, with the header's guard");
}

/// The file of a program that has an example of the header's in it, and these statements behind.
fn program_with(name: &str, example: &str, behind: &str) -> String {
    let source = format!("{}/{name}.c", env!("CARGO_TARGET_TMPDIR"));
    let includes = "#include \"cartfloor.h\"\n#include <stdio.h>\n#include <stdlib.h>\n";
    let program = format!("{includes}int main(void)\n{{\n{example}\n{behind}return 0;\n}}\n");
    fs::write(&source, program).expect("a file of the example");
    source
}

#[test]
fn the_example_of_a_plan() {
    let source = program_with("shown", &example("cartfloor_plan"), "free(store);\nfree(sheet);\n");
    assert_plans_a(C99, &source, "shown");
}

#[test]
fn the_example_of_a_map() {
    let source = program_with("shown_map", &example("cartfloor_map"), "");
    let [.., map, floor] = &shown()[..] else { panic!("no map in the header") };
    let long = format!("{map}{}", "x".repeat(10_000));
    let inputs = [(map.as_str(), floor.as_str()), ("", "REFUSED 13 1\n"), (&long, "REFUSED 13 7\n")];
    for (input, expected) in inputs {
        assert_eq!(printed(C99, &source, "shown_map", input.into()), tabs(expected));
    }
}
