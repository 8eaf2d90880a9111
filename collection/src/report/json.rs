//! One JSON object: the findings as an array, and the summary.

use std::fmt::Write;
use std::path::Path;

use super::{states, Summary};
use crate::finding::Finding;

pub const HEAD: &str = "{\"jobs\": [";

pub fn row(finding: &Finding, is_first: bool) -> String {
    let [job, sheet, filing] = states(finding);
    let comma = if is_first { "" } else { "," };
    let path = path(&finding.job);
    let mut text = format!("{comma}\n  {{{path}, \"job\": \"{job}\", \"sheet\": \"{sheet}\", \"filing\": \"{filing}\"");
    if let Some(answer) = finding.answer() {
        push(&mut text, format_args!(", \"number\": {}, \"line\": {}", answer.number, answer.line));
    }
    push(&mut text, format_args!(", \"words\": {}, \"to_do\": {}}}", string(finding.says), string(finding.advice)));
    text
}

pub fn tail(summary: &Summary) -> String {
    let mut text = String::from("\n], \"summary\": {");
    for (i, name) in Summary::NAMES.into_iter().enumerate() {
        let comma = if i == 0 { "" } else { ", " };
        push(&mut text, format_args!("{comma}\"{name}\": {}", summary.of(name)));
    }
    text.push_str("}}\n");
    text
}

/// The name as text, and its bytes where that is not the same.
fn path(path: &Path) -> String {
    let mut text = format!("\"path\": {}", string(&path.to_string_lossy()));
    if path.to_str().is_none() {
        let hex: String = path.as_os_str().as_encoded_bytes().iter().map(|byte| format!("{byte:02x}")).collect();
        push(&mut text, format_args!(", \"path_hex\": \"{hex}\""));
    }
    text
}

fn string(value: &str) -> String {
    let mut text = String::from("\"");
    for c in value.chars() {
        match c {
            '"' | '\\' => push(&mut text, format_args!("\\{c}")),
            c if c < ' ' => push(&mut text, format_args!("\\u{:04x}", u32::from(c))),
            c => text.push(c),
        }
    }
    text.push('"');
    text
}

fn push(text: &mut String, more: std::fmt::Arguments) {
    text.write_fmt(more).expect("a string takes everything");
}
