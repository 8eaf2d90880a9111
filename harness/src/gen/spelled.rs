//! Numbers of a job written in other ways: 250 as 25e1, 25E+1 or 250e0, and 0 as 0e7. The values stay what they are.

use super::Rng;
use crate::model::lines::{number, LF, TAB};

/// The powers of ten that can be written behind a number.
pub const POWERS: std::ops::RangeInclusive<u32> = 0..=9;

/// A number with a power of ten behind it, in the four ways there are.
pub fn with_power(number: usize, power: u32) -> [String; 4] {
    ["e", "E", "e+", "E+"].map(|between| format!("{number}{between}{power}"))
}

/// Every way to write a value of up to three digits, the plain one first.
pub fn spellings(value: usize) -> Vec<String> {
    let powers = POWERS.filter(|&power| value.is_multiple_of(10_usize.pow(power)));
    let others = powers.flat_map(|power| with_power(value / 10_usize.pow(power), power));
    [value.to_string()].into_iter().chain(others).collect()
}

/// One of these ways.
pub fn some_spelling(value: usize, rng: &mut Rng) -> String {
    rng.pick(&spellings(value)).clone()
}

/// The text with each plain number written in one of its ways. What is no plain number is left as it is.
pub fn respelled(text: &[u8], rng: &mut Rng) -> Vec<u8> {
    let mut respell = |field_and_end: &[u8]| {
        let is_ended = field_and_end.ends_with(&[TAB]) || field_and_end.ends_with(&[LF]);
        let (field, end) = field_and_end.split_at(field_and_end.len() - usize::from(is_ended));
        match number(field) {
            Some(value) => [some_spelling(value, rng).as_bytes(), end].concat(),
            None => field_and_end.to_vec(),
        }
    };
    text.split_inclusive(|b| [TAB, LF].contains(b)).flat_map(&mut respell).collect()
}

/// The text with the longest spelling of each number: three digits as `250e+0`.
pub fn at_full_length(text: &[u8]) -> Vec<u8> {
    let spelled = |part: &str| match number(part.as_bytes()) {
        Some(value) => with_power(value, 0)[2].clone(),
        None => part.to_string(),
    };
    let line = |line: &str| line.split('\t').map(spelled).collect::<Vec<_>>().join("\t") + "\n";
    String::from_utf8_lossy(text).lines().map(line).collect::<String>().into_bytes()
}

/// The text with something else for a field, counted from 0, of a line, counted from 1.
pub fn with_field(text: &[u8], line: usize, field: usize, with: &str) -> Vec<u8> {
    let mut lines: Vec<String> = String::from_utf8_lossy(text).lines().map(str::to_string).collect();
    let mut parts: Vec<&str> = lines[line - 1].split('\t').collect();
    parts[1 + field] = with;
    lines[line - 1] = parts.join("\t");
    (lines.join("\n") + "\n").into_bytes()
}
