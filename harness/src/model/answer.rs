//! The answers, and the 64-bit number in which a call gives one back, packed with a length or a line.
//!
//! Answers that are told by hand go by these names. The tests of the header and of the program, whose users see the
//! numbers, have them once more.

pub const PLAN: u8 = 0;
/// A map's floor is written.
pub const FLOOR: u8 = 0;
pub const CANNOT: u8 = 1;
pub const TEXT_TOO_LONG: u8 = 2;
pub const BAD_LINE: u8 = 3;
pub const NO_NUMBER: u8 = 4;
pub const OUT_OF_RANGE: u8 = 5;
pub const TOO_MANY: u8 = 6;
pub const DOUBLED: u8 = 7;
/// Fewer carts than calls and bays.
pub const UNEVEN: u8 = 8;
pub const STORE_TOO_SHORT: u8 = 9;
/// The buffer that is written to: the sheet's, or the text's of a map.
pub const SHEET_TOO_SHORT: u8 = 10;
pub const BAD_SHEET: u8 = 11;
pub const WRONG_SHEET: u8 = 12;
pub const BAD_MAP: u8 = 13;
pub const NO_FLOOR: u8 = 14;

/// Every answer but PLAN and CANNOT, which come with a sheet, written or passed, and FLOOR, the same number as PLAN.
pub fn is_refusal(answer: u8) -> bool {
    answer != PLAN && answer != CANNOT
}

/// A refusal: its number, and its line counted from 1, or 0 where it concerns no line.
#[derive(Clone, Copy, Debug, PartialEq, Eq)]
pub struct Refusal {
    pub number: u8,
    pub line: usize,
}

/// A refusal that concerns no line.
pub fn refusal(number: u8) -> Refusal {
    Refusal { number, line: 0 }
}

/// The lowest byte is the answer, the rest the bytes written or the line.
pub fn pack(answer: u8, value: usize) -> u64 {
    256 * value as u64 + u64::from(answer)
}

/// The answer, and the bytes written or the line.
pub fn unpack(packed: u64) -> (u8, usize) {
    ((packed % 256) as u8, (packed / 256) as usize)
}
