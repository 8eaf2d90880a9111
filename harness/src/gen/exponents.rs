//! Job texts with exponents, and texts near them, of several kinds. They are the same each time.

use super::damage::damaged;
use super::early::about_early_lifts;
use super::large::{full_text, longest_text};
use super::places::{fields_over, places};
use super::small::small;
use super::spelled::{respelled, with_power, POWERS};
use super::Rng;
use crate::examples::exponents::{NO_NUMBERS, ONE_MORE, READ, REFUSED};
use crate::examples::tabs;

/// Makes the texts of a kind.
pub type Texts = fn() -> Vec<Vec<u8>>;

pub const TEXTS: [(&str, Texts); 6] = [
    ("told by hand", told_by_hand),
    ("no numbers", no_numbers),
    ("short fields", short_fields),
    ("some powers", some_powers),
    ("at the limits", at_the_limits),
    ("damaged", damaged_texts),
];

/// Where cells end: one digit, two and three.
pub const FLOORS: [usize; 6] = [1, 2, 10, 100, 250, 256];

fn told_by_hand() -> Vec<Vec<u8>> {
    let refused = REFUSED.iter().map(|(text, ..)| tabs(text));
    refused.chain(READ.iter().map(|(text, _)| tabs(text))).collect()
}

/// In every place.
fn no_numbers() -> Vec<Vec<u8>> {
    let fields =
        |cells| NO_NUMBERS.iter().flat_map(move |field| places(cells).into_iter().map(|place| place.with(field)));
    FLOORS.into_iter().flat_map(fields).collect()
}

/// Every field of up to four bytes that numbers have, and some more, in every place.
fn short_fields() -> Vec<Vec<u8>> {
    let places = places(10);
    fields_over("0129eE+-.", 4).iter().flat_map(|field| places.iter().map(move |place| place.with(field))).collect()
}

/// Every number with every power, in one of the ways and the places by turns.
fn some_powers() -> Vec<Vec<u8>> {
    let floors = FLOORS.map(places);
    let mut turn = 0;
    let mut text = |number: usize, power: u32| {
        turn += 1;
        let floor = &floors[turn % floors.len()];
        floor[turn / floors.len() % floor.len()].with(&with_power(number, power)[turn % 4])
    };
    (0..=999)
        .flat_map(|number| POWERS.map(move |power| (number, power)))
        .map(|(number, power)| text(number, power))
        .collect()
}

/// The longest text with a line put in at a place, counted from 1.
pub fn longest_with(at: usize, line: &str) -> Vec<u8> {
    let longest = longest_text();
    let mut lines: Vec<&[u8]> = longest.split_inclusive(|&b| b == b'\n').collect();
    let line = tabs(line);
    lines.insert(at - 1, &line);
    lines.concat()
}

/// The longest text spun out with lines of the last kind, the last one cut off, to so many bytes.
pub fn spun_out(length: usize) -> Vec<u8> {
    let mut text = longest_text();
    text.extend(tabs("BAY 100e+0 255e+0\n").into_iter().cycle().take(length - text.len()));
    text
}

fn at_the_limits() -> Vec<Vec<u8>> {
    let mut rng = Rng::new(1);
    let mut all: Vec<Vec<u8>> = ONE_MORE.iter().map(|&(at, line, _)| longest_with(at, line)).collect();
    all.extend((0..20).map(|_| respelled(&full_text(), &mut rng)));
    all.extend([longest_text(), spun_out(16_384), spun_out(16_385)]);
    all
}

/// Small jobs, spelled by chance and damaged.
fn damaged_texts() -> Vec<Vec<u8>> {
    let mut rng = Rng::new(2);
    let mut text = |i: usize| {
        let job = if i.is_multiple_of(4) { about_early_lifts(&mut rng) } else { small(&mut rng) };
        let spelled = respelled(&job.text(), &mut rng);
        damaged(&spelled, &mut rng)
    };
    (0..20_000).map(&mut text).collect()
}
