//! Damaged texts, jobs and sheets alike: bytes, lines and fields changed, lost or added, and numbers written otherwise.

use super::spelled::some_spelling;
use super::Rng;
use crate::model::limits;
use crate::model::lines::{number, LF, TAB};

pub type Damage = fn(&[u8], &mut Rng) -> Vec<u8>;

const BYTES: [Damage; 6] = [changed_byte, lost_byte, added_byte, cut_off, trailing, repeated];
const LINES: [Damage; 11] = [
    lost_line,
    lost_cart,
    doubled_line,
    swapped_lines,
    other_word,
    other_end,
    added_bay,
    other_choke,
    added_whole_call,
    added_spare,
    other_sheet_word,
];
const FIELDS: [Damage; 8] =
    [other_number, leading_zero, lost_field, added_field, other_count, other_length, other_spelling, added_exponent];

/// A text with one damage, now and then with more. A changed number comes most often, since it mostly leaves the form
/// whole and so gets furthest. It can be the same text: a number changed into itself, a line swapped with itself.
pub fn damaged(text: &[u8], rng: &mut Rng) -> Vec<u8> {
    damaged_by(&[&BYTES, &LINES, &FIELDS, &[other_number]], text, rng)
}

/// A damaged text that is not the same.
pub fn changed(text: &[u8], rng: &mut Rng) -> Vec<u8> {
    changed_by(damaged, text, rng)
}

/// A text with a damage of one of the kinds, now and then with more.
pub(super) fn damaged_by(kinds: &[&[Damage]], text: &[u8], rng: &mut Rng) -> Vec<u8> {
    let kind = rng.pick(kinds);
    let once = rng.pick(kind)(text, rng);
    if rng.once_in(4) {
        return damaged_by(kinds, &once, rng);
    }
    once
}

pub(super) fn changed_by(damage: Damage, text: &[u8], rng: &mut Rng) -> Vec<u8> {
    loop {
        let other = damage(text, rng);
        if other != text {
            return other;
        }
    }
}

/// Bytes that could stand in a text, and some that could not.
const ANY: &[u8] = b"\t\t\n\n00123456789ABCFHKLNOPRTYeE+-. \rx\0\xff";

fn changed_byte(text: &[u8], rng: &mut Rng) -> Vec<u8> {
    with_other_byte(ANY, text, rng)
}

/// One byte changed, into one of these or by a bit.
pub(super) fn with_other_byte(bytes: &[u8], text: &[u8], rng: &mut Rng) -> Vec<u8> {
    let mut text = text.to_vec();
    if !text.is_empty() {
        let at = rng.below(text.len());
        text[at] = if rng.once_in(2) { *rng.pick(bytes) } else { text[at] ^ (1 << rng.below(8)) };
    }
    text
}

pub(super) fn lost_byte(text: &[u8], rng: &mut Rng) -> Vec<u8> {
    let mut text = text.to_vec();
    if !text.is_empty() {
        text.remove(rng.below(text.len()));
    }
    text
}

fn added_byte(text: &[u8], rng: &mut Rng) -> Vec<u8> {
    with_byte_more(ANY, text, rng)
}

/// One of these bytes more.
pub(super) fn with_byte_more(bytes: &[u8], text: &[u8], rng: &mut Rng) -> Vec<u8> {
    let mut text = text.to_vec();
    text.insert(rng.below(text.len() + 1), *rng.pick(bytes));
    text
}

/// Often only the last LF is lost.
pub(super) fn cut_off(text: &[u8], rng: &mut Rng) -> Vec<u8> {
    let lost = if rng.once_in(2) { 1 } else { rng.below(text.len() + 1) };
    text[..text.len().saturating_sub(lost)].to_vec()
}

fn trailing(text: &[u8], rng: &mut Rng) -> Vec<u8> {
    let more: Vec<u8> = (0..=rng.below(3)).map(|_| *rng.pick(ANY)).collect();
    [text, &more].concat()
}

/// The text over and over, past the longest job that is read.
fn repeated(text: &[u8], _: &mut Rng) -> Vec<u8> {
    text.repeat(limits::TEXT / text.len().max(1) + 1)
}

/// The lines with their LF.
pub(super) fn lines(text: &[u8]) -> Vec<Vec<u8>> {
    text.split_inclusive(|&b| b == LF).map(<[u8]>::to_vec).collect()
}

pub(super) fn lost_line(text: &[u8], rng: &mut Rng) -> Vec<u8> {
    let mut lines = lines(text);
    if !lines.is_empty() {
        lines.remove(rng.below(lines.len()));
    }
    lines.concat()
}

/// A CART line less: there may be fewer carts than calls then. Other texts are left as they are.
fn lost_cart(text: &[u8], rng: &mut Rng) -> Vec<u8> {
    let mut lines = lines(text);
    let carts: Vec<usize> = (0..lines.len()).filter(|&at| word(&lines[at]) == Some(b"CART")).collect();
    if !carts.is_empty() {
        lines.remove(*rng.pick(&carts));
    }
    lines.concat()
}

/// Often behind the last line of its kind: there it is one too many, if the job is full.
fn doubled_line(text: &[u8], rng: &mut Rng) -> Vec<u8> {
    let mut lines = lines(text);
    if !lines.is_empty() {
        let line = rng.pick(&lines).clone();
        let last_of_kind = lines.iter().rposition(|other| word(other) == word(&line));
        let to = if rng.once_in(2) { last_of_kind.map_or(0, |at| at + 1) } else { rng.below(lines.len() + 1) };
        lines.insert(to, line);
    }
    lines.concat()
}

fn word(line: &[u8]) -> Option<&[u8]> {
    line.split(|&b| b == TAB).next()
}

pub(super) fn swapped_lines(text: &[u8], rng: &mut Rng) -> Vec<u8> {
    let mut lines = lines(text);
    if !lines.is_empty() {
        let (one, other) = (rng.below(lines.len()), rng.below(lines.len()));
        lines.swap(one, other);
    }
    lines.concat()
}

/// The parts of a line between tabs, the word first; the last one keeps the LF.
fn on_parts(text: &[u8], rng: &mut Rng, change: fn(&mut Vec<Vec<u8>>, &mut Rng)) -> Vec<u8> {
    let mut lines = lines(text);
    if !lines.is_empty() {
        let at = rng.below(lines.len());
        let mut parts: Vec<Vec<u8>> = lines[at].split(|&b| b == TAB).map(<[u8]>::to_vec).collect();
        change(&mut parts, rng);
        lines[at] = parts.join(&TAB);
    }
    lines.concat()
}

fn other_word(text: &[u8], rng: &mut Rng) -> Vec<u8> {
    on_parts(text, rng, |parts, rng| {
        let words = [
            "FLOOR", "TRACK", "CART", "CALL", "BAY", "PLAN", "PATH", "SPARE", "CANNOT", "CHOKE", "", "Path", "CARTS",
            "BAYS",
        ];
        parts[0] = rng.pick(&words).as_bytes().to_vec();
    })
}

/// A call that becomes a bay, or a bay that becomes a call: a job stays one. Other texts are left as they are.
fn other_end(text: &[u8], rng: &mut Rng) -> Vec<u8> {
    let mut lines = lines(text);
    let is_end = |line: &[u8]| matches!(word(line), Some(b"CALL" | b"BAY"));
    let ends: Vec<usize> = (0..lines.len()).filter(|&at| is_end(&lines[at])).collect();
    if !ends.is_empty() {
        let line = &mut lines[*rng.pick(&ends)];
        let (new, old): (&[u8], usize) = if line.starts_with(b"CALL") { (b"BAY", 4) } else { (b"CALL", 3) };
        line.splice(..old, new.iter().copied());
    }
    lines.concat()
}

/// A choke point that becomes a whole call, or a whole call that becomes a cell at a step: a list stays in the form, if the
/// numbers are known. Other texts are left as they are.
fn other_choke(text: &[u8], rng: &mut Rng) -> Vec<u8> {
    let mut lines = lines(text);
    let chokes: Vec<usize> = (0..lines.len()).filter(|&at| word(&lines[at]) == Some(b"CHOKE")).collect();
    if !chokes.is_empty() {
        let line = &mut lines[*rng.pick(&chokes)];
        let step = any_number(rng);
        *line = match line.starts_with(b"CHOKE\tCALL\t") {
            true => format!("CHOKE\t{}\t{step}\n", any_number(rng)),
            false => format!("CHOKE\tCALL\t{}\n", any_number(rng)),
        }
        .into_bytes();
    }
    lines.concat()
}

/// A whole call more, mostly behind all others, where it may stand.
fn added_whole_call(text: &[u8], rng: &mut Rng) -> Vec<u8> {
    with_line_more(format!("CHOKE\tCALL\t{}\n", any_number(rng)), text, rng)
}

/// A BAY line more, mostly behind all others, where it may stand.
fn added_bay(text: &[u8], rng: &mut Rng) -> Vec<u8> {
    with_line_more(format!("BAY\t{}\t{}\n", any_number(rng), any_number(rng)), text, rng)
}

/// A SPARE line more, mostly behind all others, where one may stand.
fn added_spare(text: &[u8], rng: &mut Rng) -> Vec<u8> {
    let cells: String = (0..=rng.below(3)).map(|_| format!("\t{}", any_number(rng))).collect();
    with_line_more(format!("SPARE\t{}{cells}\n", any_number(rng)), text, rng)
}

/// A path that becomes a spare cart's walk, or a spare cart's walk that becomes a path, with or without the number of a
/// call. Other texts are left as they are.
fn other_sheet_word(text: &[u8], rng: &mut Rng) -> Vec<u8> {
    let mut lines = lines(text);
    let walks: Vec<usize> = (0..lines.len()).filter(|&at| is_walk(&lines[at])).collect();
    if !walks.is_empty() {
        let line = &mut lines[*rng.pick(&walks)];
        let mut parts: Vec<Vec<u8>> = line.split(|&b| b == TAB).map(<[u8]>::to_vec).collect();
        let is_path = parts[0] == b"PATH";
        parts[0] = if is_path { b"SPARE".to_vec() } else { b"PATH".to_vec() };
        if parts.len() > 2 && rng.once_in(2) {
            match is_path {
                true => drop(parts.remove(2)),
                false => parts.insert(2, any_number(rng).to_string().into_bytes()),
            }
        }
        *line = parts.join(&TAB);
    }
    lines.concat()
}

/// Whether the line is a PATH or a SPARE.
fn is_walk(line: &[u8]) -> bool {
    matches!(word(line), Some(b"PATH" | b"SPARE"))
}

fn with_line_more(line: String, text: &[u8], rng: &mut Rng) -> Vec<u8> {
    let mut lines = lines(text);
    let at = if rng.once_in(3) { rng.below(lines.len() + 1) } else { lines.len() };
    lines.insert(at, line.into_bytes());
    lines.concat()
}

/// Small numbers mostly, so that many are known carts, calls, cells and steps; and the numbers about the limits.
fn any_number(rng: &mut Rng) -> usize {
    match rng.once_in(3) {
        true => *rng.pick(&[9, 10, 63, 64, 65, 99, 100, 254, 255, 256, 257, 511, 512, 513, 999, 1000]),
        false => rng.below(6),
    }
}

/// Puts digits for those of a part and leaves the LF behind them.
fn set_digits(part: &mut Vec<u8>, digits: &str) {
    part.retain(|&b| b == LF);
    part.splice(0..0, digits.bytes());
}

fn other_number(text: &[u8], rng: &mut Rng) -> Vec<u8> {
    on_parts(text, rng, |parts, rng| {
        let at = rng.below(parts.len()).max(1);
        let number = any_number(rng).to_string();
        if let Some(part) = parts.get_mut(at) {
            set_digits(part, &number);
        }
    })
}

fn leading_zero(text: &[u8], rng: &mut Rng) -> Vec<u8> {
    on_parts(text, rng, |parts, rng| {
        let at = rng.below(parts.len()).max(1);
        if let Some(part) = parts.get_mut(at) {
            part.insert(0, b'0');
        }
    })
}

/// The same value written in another way: a job stays the same, and a sheet is none any more.
fn other_spelling(text: &[u8], rng: &mut Rng) -> Vec<u8> {
    on_parts(text, rng, |parts, rng| {
        let at = rng.below(parts.len()).max(1);
        let Some(part) = parts.get_mut(at) else { return };
        if let Some(value) = number(part.strip_suffix(&[LF]).unwrap_or(part)) {
            set_digits(part, &some_spelling(value, rng));
        }
    })
}

/// A power of ten behind a number, or what is none. Half of the powers leave the value as it is.
fn added_exponent(text: &[u8], rng: &mut Rng) -> Vec<u8> {
    const WRONG: [&str; 16] =
        ["e", "E+", "e-0", "e-1", "e10", "E00", ".0", ".", "e.1", " e1", "ee1", "e++1", "e1e1", "e1 ", "e1\r", "%1"];
    on_parts(text, rng, |parts, rng| {
        let at = rng.below(parts.len()).max(1);
        let power = if rng.once_in(2) { 0 } else { rng.below(10) };
        let right = format!("{}{power}", rng.pick(&["e", "E", "e+", "E+"]));
        let behind = if rng.once_in(4) { rng.pick(&WRONG) } else { right.as_str() };
        if let Some(part) = parts.get_mut(at) {
            let end = part.len() - usize::from(part.ends_with(&[LF]));
            part.splice(end..end, behind.bytes());
        }
    })
}

/// Any part, the word and the last one too, which takes the LF with it.
fn lost_field(text: &[u8], rng: &mut Rng) -> Vec<u8> {
    on_parts(text, rng, |parts, rng| drop(parts.remove(rng.below(parts.len()))))
}

fn added_field(text: &[u8], rng: &mut Rng) -> Vec<u8> {
    on_parts(text, rng, |parts, rng| {
        let field = if rng.once_in(4) { String::new() } else { any_number(rng).to_string() };
        parts.insert(rng.below(parts.len()), field.into_bytes());
    })
}

/// The first line counts: the cells of a job, the lines of a sheet.
fn other_count(text: &[u8], rng: &mut Rng) -> Vec<u8> {
    let mut lines = lines(text);
    if let Some(first) = lines.first_mut() {
        let word: Vec<u8> = first.iter().copied().take_while(u8::is_ascii_alphabetic).collect();
        *first = [word.as_slice(), format!("\t{}\n", any_number(rng)).as_bytes()].concat();
    }
    lines.concat()
}

/// A path or a spare cart's walk that ends earlier, down to none of its cells, or stands on. Other texts are left as they
/// are.
fn other_length(text: &[u8], rng: &mut Rng) -> Vec<u8> {
    let mut lines = lines(text);
    let walks: Vec<usize> = (0..lines.len()).filter(|&at| is_walk(&lines[at])).collect();
    if !walks.is_empty() {
        let line = &mut lines[*rng.pick(&walks)];
        let stripped = line.strip_suffix(&[LF]).unwrap_or(line);
        let mut parts: Vec<Vec<u8>> = stripped.split(|&b| b == TAB).map(<[u8]>::to_vec).collect();
        // The word, the cart and, in a path, the call come before the cells.
        let before = if parts[0] == b"PATH" { 3 } else { 2 };
        let (least, last) = (parts.len().min(before), parts[parts.len() - 1].clone());
        match rng.once_in(2) {
            true => parts.truncate(least + rng.below(parts.len() - least + 1)),
            false => parts.resize(parts.len() + 1 + rng.below(4), last),
        }
        *line = [parts.join(&TAB), vec![LF]].concat();
    }
    lines.concat()
}
