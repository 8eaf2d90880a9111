//! Damaged maps: bytes, lines, numbers and rows changed, lost or added.

use super::damage::{
    changed_by, cut_off, damaged_by, lines, lost_byte, lost_line, swapped_lines, with_byte_more, with_other_byte,
    Damage,
};
use super::maps::LETTERS;
use super::spelled::some_spelling;
use super::Rng;
use crate::model::lines::LF;

const BYTES: [Damage; 6] = [changed_byte, lost_byte, doubled_byte, added_byte, cut_off, trailing];
const LINES: [Damage; 5] = [lost_line, doubled_line, swapped_lines, other_end, other_head];
const NUMBERS: [Damage; 3] = [other_number, other_number, near_number];
const ROWS: [Damage; 5] = [other_letter, strange_letter, other_width, one_row_more, one_column_more];

/// A text with one damage, now and then with more. It can be the same text, and it can still be a map.
fn damaged_map(text: &[u8], rng: &mut Rng) -> Vec<u8> {
    damaged_by(&[&BYTES, &LINES, &NUMBERS, &ROWS], text, rng)
}

/// A damaged map that is not the same.
pub fn changed_map(text: &[u8], rng: &mut Rng) -> Vec<u8> {
    changed_by(damaged_map, text, rng)
}

/// Bytes that could stand in a map, and some that could not.
const ANY: &[u8] = b"..GG@OT\n\n  \t\r0123456789hwtypemapE+-#SW\0\xff";

fn changed_byte(text: &[u8], rng: &mut Rng) -> Vec<u8> {
    with_other_byte(ANY, text, rng)
}

fn doubled_byte(text: &[u8], rng: &mut Rng) -> Vec<u8> {
    let mut text = text.to_vec();
    if !text.is_empty() {
        let at = rng.below(text.len());
        text.insert(at, text[at]);
    }
    text
}

fn added_byte(text: &[u8], rng: &mut Rng) -> Vec<u8> {
    with_byte_more(ANY, text, rng)
}

/// Something behind the last row: an empty line, a row more, a byte.
fn trailing(text: &[u8], rng: &mut Rng) -> Vec<u8> {
    let last = lines(text).pop().unwrap_or_default();
    let more = match rng.below(4) {
        0 => vec![LF],
        1 => last,
        2 => last[..last.len().saturating_sub(1)].to_vec(),
        _ => vec![*rng.pick(ANY)],
    };
    [text, &more].concat()
}

fn doubled_line(text: &[u8], rng: &mut Rng) -> Vec<u8> {
    let mut lines = lines(text);
    if !lines.is_empty() {
        let at = rng.below(lines.len());
        lines.insert(at, lines[at].clone());
    }
    lines.concat()
}

/// A CR, a space or a tab before the LF of a line, or of all lines.
fn other_end(text: &[u8], rng: &mut Rng) -> Vec<u8> {
    let mut lines = lines(text);
    let end = *rng.pick(b"\r\r \t");
    let (at, all) = (rng.below(lines.len().max(1)), rng.once_in(3));
    for (i, line) in lines.iter_mut().enumerate().filter(|(_, line)| line.ends_with(&[LF])) {
        if all || i == at {
            line.insert(line.len() - 1, end);
        }
    }
    lines.concat()
}

/// Another word, or a space more or less, in one of the first four lines.
fn other_head(text: &[u8], rng: &mut Rng) -> Vec<u8> {
    let mut lines = lines(text);
    let at = rng.below(4);
    if let Some(line) = lines.get_mut(at) {
        let was = String::from_utf8_lossy(line).into_owned();
        let now = match rng.below(8) {
            0 => was.replace(' ', "  "),
            1 => was.replace(' ', "\t"),
            2 => was.replace(' ', ""),
            3 => format!(" {was}"),
            4 => was.to_uppercase(),
            5 => was.replace("octile", "tile"),
            6 => was.replace("height", "width"),
            _ => was.replace("width", "height"),
        };
        *line = now.into_bytes();
    }
    lines.concat()
}

/// The line of `height` or `width` with another number.
fn with_number(line: &[u8], other: impl FnOnce(usize) -> String) -> Vec<u8> {
    let word: Vec<u8> = line.iter().copied().take_while(|&b| b != b' ').collect();
    let digits: Vec<u8> = line.iter().copied().filter(u8::is_ascii_digit).collect();
    let was = String::from_utf8_lossy(&digits).parse().unwrap_or(0);
    [word, format!(" {}\n", other(was)).into_bytes()].concat()
}

/// Puts another number behind `height` or `width`.
fn set_number(text: &[u8], rng: &mut Rng, other: impl Fn(usize, &mut Rng) -> String) -> Vec<u8> {
    let mut lines = lines(text);
    if let Some(line) = lines.get_mut(1 + rng.below(2)) {
        *line = with_number(line, |was| other(was, rng));
    }
    lines.concat()
}

/// The edges, and what is no number.
fn other_number(text: &[u8], rng: &mut Rng) -> Vec<u8> {
    const NUMBERS: [&str; 25] = [
        "0",
        "1",
        "2",
        "9",
        "10",
        "63",
        "64",
        "65",
        "99",
        "100",
        "256",
        "320",
        "999",
        "1000",
        "064",
        "00",
        "+5",
        "-1",
        "",
        "1e1",
        "1e0",
        "2E0",
        "6e+1",
        "6 4",
        "4294967297",
    ];
    set_number(text, rng, |_, rng| rng.pick(&NUMBERS).to_string())
}

/// One more, one less, 256 more, and the same with a byte before or behind it or written as in a job.
fn near_number(text: &[u8], rng: &mut Rng) -> Vec<u8> {
    set_number(text, rng, |was, rng| match rng.below(8) {
        7 => some_spelling(was, rng),
        6 => (was + 256).to_string(),
        0 => (was + 1).to_string(),
        1 => was.saturating_sub(1).to_string(),
        2 => format!("0{was}"),
        3 => format!("+{was}"),
        4 => format!(" {was}"),
        _ => format!("{was}{}", char::from(*rng.pick(ANY) & 127)),
    })
}

/// Changes a row, where the text has one.
fn on_row(text: &[u8], rng: &mut Rng, change: fn(&mut Vec<u8>, &mut Rng)) -> Vec<u8> {
    let mut lines = lines(text);
    if lines.len() > 4 {
        let at = 4 + rng.below(lines.len() - 4);
        change(&mut lines[at], rng);
    }
    lines.concat()
}

/// The map stays one.
fn other_letter(text: &[u8], rng: &mut Rng) -> Vec<u8> {
    on_row(text, rng, |row, rng| {
        let at = rng.below(row.len());
        if row[at] != LF {
            row[at] = *rng.pick(LETTERS);
        }
    })
}

/// The public format's swamp and water among them, which are no letters here.
fn strange_letter(text: &[u8], rng: &mut Rng) -> Vec<u8> {
    on_row(text, rng, |row, rng| {
        let at = rng.below(row.len());
        row[at] = *rng.pick(b"SWgot# 0,\r\t\n\0\x2f\x3f\x41\xae");
    })
}

fn other_width(text: &[u8], rng: &mut Rng) -> Vec<u8> {
    on_row(text, rng, |row, rng| match rng.once_in(2) {
        true => row.insert(rng.below(row.len()), *rng.pick(LETTERS)),
        false => drop(row.remove(rng.below(row.len()))),
    })
}

/// The map stays one, unless it had 64 rows.
fn one_row_more(text: &[u8], _: &mut Rng) -> Vec<u8> {
    let mut lines = lines(text);
    if lines.len() > 4 {
        lines[1] = with_number(&lines[1], |height| (height + 1).to_string());
        lines.push(lines[lines.len() - 1].clone());
    }
    lines.concat()
}

/// The map stays one, unless it had 64 columns.
fn one_column_more(text: &[u8], rng: &mut Rng) -> Vec<u8> {
    let mut lines = lines(text);
    if lines.len() > 4 {
        lines[2] = with_number(&lines[2], |width| (width + 1).to_string());
        for row in &mut lines[4..] {
            row.insert(0, *rng.pick(LETTERS));
        }
    }
    lines.concat()
}
