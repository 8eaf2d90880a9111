//! What each answer means and what to do about it. The README's table and the C header have the same words, which
//! `tests/words.rs` holds.

use std::fmt;

pub struct Words {
    pub number: u8,
    /// Its name in the C header, without `CARTFLOOR_`.
    pub name: &'static str,
    pub says: &'static str,
    pub advice: &'static str,
    /// The same said of one kind of line, by its first word, where that says more.
    pub of_lines: &'static [(&'static str, &'static str)],
}

pub const PLAN: u8 = 0;
pub const CANNOT: u8 = 1;
pub const STORE_TOO_SHORT: u8 = 9;
pub const SHEET_TOO_SHORT: u8 = 10;
pub const BAD_SHEET: u8 = 11;
pub const WRONG_SHEET: u8 = 12;

pub const NUMBERS: [Words; 15] = [
    Words { number: PLAN, name: "PLAN", says: "PLAN: the sheet has a plan", advice: "run it", of_lines: &[] },
    Words {
        number: CANNOT,
        name: "CANNOT",
        says: "CANNOT: there is no plan, and the sheet has the choke points that show it",
        advice: "let calls and bays be later, first those that are no choke point themselves, \
                 then other bays, or drop some",
        of_lines: &[],
    },
    Words {
        number: 2,
        name: "TEXT_TOO_LONG",
        says: "the text is over 16,384 bytes",
        advice: "send less: no job within the limits needs more",
        of_lines: &[],
    },
    Words {
        number: 3,
        name: "BAD_LINE",
        says: "a line has no LF, a wrong word, a word out of order or a wrong count of fields; or the text is empty",
        advice: "mend that line: one FLOOR, then TRACK, then CART, then CALL and BAY lines, one tab before each field",
        of_lines: &[],
    },
    Words {
        number: 4,
        name: "NO_NUMBER",
        says: "a field is no number",
        advice: "mend that line: one to three digits, no leading zero, no sign, no space, no CR; \
                 and behind them nothing, or e or E, an optional + and one digit",
        of_lines: &[],
    },
    Words {
        number: 5,
        name: "OUT_OF_RANGE",
        says: "a number is out of range",
        advice: "mend that line: 1 to 256 cells, cells below their number, deadlines and steps to 255",
        of_lines: &[
            ("FLOOR", "no number of cells from 1 to 256"),
            ("TRACK", "a track to a cell that the floor has not"),
            ("CART", "a cart on a cell that the floor has not"),
            ("CALL", "a call on a cell that the floor has not, or a deadline over 255"),
            ("BAY", "a bay on a cell that the floor has not, or a step over 255"),
        ],
    },
    Words {
        number: 6,
        name: "TOO_MANY",
        says: "more tracks, carts, or calls and bays together than allowed",
        advice: "split the job: at most 512 tracks, 64 carts, and 64 calls and bays",
        of_lines: &[
            ("TRACK", "more than 512 tracks"),
            ("CART", "more than 64 carts"),
            ("CALL", "more than 64 calls and bays"),
            ("BAY", "more than 64 calls and bays"),
        ],
    },
    Words {
        number: 7,
        name: "DOUBLED",
        says: "a track joins a cell to itself or a pair joined already, or there is a second cart, \
               or a second call or bay, on a cell",
        advice: "strike that line",
        of_lines: &[
            ("TRACK", "a track from a cell to itself or between cells joined already"),
            ("CART", "a second cart on a cell"),
            ("CALL", "a second call or bay on a cell"),
            ("BAY", "a second call or bay on a cell"),
        ],
    },
    Words {
        number: 8,
        name: "UNEVEN",
        says: "there are fewer carts than calls and bays together",
        advice: "add carts, or drop calls or bays",
        of_lines: &[],
    },
    Words {
        number: STORE_TOO_SHORT,
        name: "STORE_TOO_SHORT",
        says: "the store is too short",
        advice: "lend twice as much and call again",
        of_lines: &[],
    },
    Words {
        number: SHEET_TOO_SHORT,
        name: "SHEET_TOO_SHORT",
        says: "the buffer for the sheet or the floor's text is too short",
        advice: "lend twice as much and call again",
        of_lines: &[],
    },
    Words {
        number: BAD_SHEET,
        name: "BAD_SHEET",
        says: "the sheet is not in the form",
        advice: "do not run it: see that line's word, numbers and count of fields, or plan the job again (floors plan --again)",
        of_lines: &[],
    },
    Words {
        number: WRONG_SHEET,
        name: "WRONG_SHEET",
        says: "the sheet is in the form, yet no plan, no true choke list, or out of order",
        advice: "do not run it: plan the job again (floors plan --again)",
        of_lines: &[],
    },
    Words {
        number: 13,
        name: "BAD_MAP",
        says: "the map is not in the form",
        advice: "mend that line: type octile, height and width from 1 to 64, map, then so many rows of so many letters, \
                 each . G @ O or T; no CR",
        of_lines: &[],
    },
    Words {
        number: 14,
        name: "NO_FLOOR",
        says: "the map has no cell, or more than 256",
        advice: "draw 1 to 256 cells, or split the drawing",
        of_lines: &[],
    },
];

/// The same of a job that has no sheet, for which the library has no number.
pub const NO_SHEET: (&str, &str) = ("no sheet", "floors plan writes it");

/// The words of a number, if it is one.
pub fn of(number: u8) -> Option<&'static Words> {
    NUMBERS.get(usize::from(number))
}

impl Words {
    /// What it says of this line of the text, told by the line's first word.
    pub fn of_line(&self, text: &[u8], line: u64) -> &'static str {
        let index = usize::try_from(line).ok().and_then(|line| line.checked_sub(1));
        let line = index.and_then(|index| text.split(|&b| b == b'\n').nth(index)).unwrap_or_default();
        let opens = |word: &str| line.strip_prefix(word.as_bytes()).is_some_and(|rest| rest.starts_with(b"\t"));
        self.of_lines.iter().find(|(word, _)| opens(word)).map_or(self.says, |&(_, says)| says)
    }
}

/// What `floors explain` prints.
impl fmt::Display for Words {
    fn fmt(&self, f: &mut fmt::Formatter) -> fmt::Result {
        writeln!(f, "{} {}: {}", self.number, self.name, self.says)?;
        for (word, says) in self.of_lines {
            writeln!(f, "    on a {word} line: {says}")?;
        }
        writeln!(f, "    to do: {}", self.advice)
    }
}
