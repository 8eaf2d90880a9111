//! The places where a number stands in a job: each of a line of each kind.

use std::ops::Range;

use crate::examples::tabs;
use crate::model::limits::{CELLS, DEADLINE};

/// The text of a job but for one field, whose number is in range there or not.
pub struct Place {
    before: Vec<u8>,
    behind: Vec<u8>,
    pub line: usize,
    pub range: Range<usize>,
}

impl Place {
    /// The text with a field in that place.
    pub fn with(&self, field: &str) -> Vec<u8> {
        [&self.before, field.as_bytes(), &self.behind].concat()
    }
}

/// Each place, on a floor of so many cells. With a number in range the text is a job but for a call that has no cart, or has
/// a track from cell 0 to itself.
pub fn places(cells: usize) -> Vec<Place> {
    let place = |text: &str, range: Range<usize>| {
        let (before, behind) = text.split_once('#').expect("a place");
        Place { before: tabs(before), behind: tabs(behind), line: before.lines().count(), range }
    };
    let on_floor = |line: &str, range| place(&format!("FLOOR {cells}\n{line}\n"), range);
    vec![
        place("FLOOR #\n", 1..CELLS + 1),
        on_floor("TRACK # 0", 0..cells),
        on_floor("TRACK 0 #", 0..cells),
        on_floor("CART #", 0..cells),
        on_floor("CALL # 0", 0..cells),
        on_floor("CALL 0 #", 0..DEADLINE + 1),
        on_floor("BAY # 0", 0..cells),
        on_floor("BAY 0 #", 0..DEADLINE + 1),
    ]
}

/// Every field of one to so many bytes that are among these.
pub fn fields_over(bytes: &str, most: usize) -> Vec<String> {
    let mut of_length = vec![vec![String::new()]];
    for length in 0..most {
        let longer = |field: &String| bytes.chars().map(|byte| format!("{field}{byte}")).collect::<Vec<_>>();
        of_length.push(of_length[length].iter().flat_map(longer).collect());
    }
    of_length.concat().split_off(1)
}
