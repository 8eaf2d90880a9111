//! The form of a map, in one pass over its bytes.

use super::MapFault;
use crate::model::answer::{refusal, Refusal, BAD_MAP, NO_FLOOR};
use crate::model::limits;

/// The letters of all rows, one row behind the other.
pub struct Grid {
    pub height: usize,
    pub width: usize,
    pub letters: Vec<u8>,
}

/// The bytes that are left to read, and the line they begin in.
struct Rest<'a> {
    bytes: &'a [u8],
    line: usize,
    fault: MapFault,
}

pub fn read(text: &[u8], fault: MapFault) -> Result<Grid, Refusal> {
    let mut rest = Rest { bytes: text, line: 1, fault };
    rest.whole_line(|rest| rest.kind())?;
    let (mut height, mut width) = rest.sides()?;
    if fault == MapFault::MixesUpHeightAndWidth {
        (height, width) = (width, height);
    }
    rest.whole_line(|rest| rest.word(b"map"))?;
    let mut grid = Grid { height, width, letters: Vec::new() };
    for _ in 0..height {
        if fault == MapFault::PassesMissingRow && rest.bytes.is_empty() {
            break;
        }
        grid.letters.extend(rest.whole_line(|rest| rest.row(width))?);
        if fault == MapFault::CountsCellsBeforeForm && cells(&grid.letters) > limits::CELLS {
            return Err(refusal(NO_FLOOR));
        }
    }
    grid.letters.resize(height * width, b'@');
    rest.end()?;
    Ok(grid)
}

fn cells(letters: &[u8]) -> usize {
    letters.iter().filter(|letter| b".G".contains(letter)).count()
}

impl Rest<'_> {
    /// What is read of the next line, if its LF stands behind that; else the refusal of this line.
    fn whole_line<T>(&mut self, read: impl Fn(&mut Self) -> Option<T>) -> Result<T, Refusal> {
        let line = self.bytes;
        let found = read(self).and_then(|found| self.line_end().map(|()| found));
        self.line += 1;
        found.ok_or_else(|| self.refused(self.line - 1, line))
    }

    /// `line` is where it began.
    fn refused(&self, number: usize, line: &[u8]) -> Refusal {
        let line = match self.fault {
            MapFault::CountsLinesFromZero => number - 1,
            MapFault::CountsRowsFromOne if number > 4 => number - 4,
            MapFault::NamesLastLineForMissing if line.is_empty() && number > 1 => number - 1,
            MapFault::NamesLineBehindUnended if !line.is_empty() && !line.contains(&b'\n') => number + 1,
            _ => number,
        };
        Refusal { number: BAD_MAP, line }
    }

    fn word(&mut self, word: &[u8]) -> Option<()> {
        self.bytes = self.bytes.strip_prefix(word)?;
        Some(())
    }

    /// One byte, if the fault has it passed.
    fn passed(&mut self, fault: MapFault, byte: u8) {
        if self.fault == fault {
            self.bytes = self.bytes.strip_prefix(&[byte]).unwrap_or(self.bytes);
        }
    }

    fn line_end(&mut self) -> Option<()> {
        self.passed(MapFault::PassesCr, b'\r');
        self.passed(MapFault::PassesSpaceBehind, b' ');
        if self.fault == MapFault::PassesMissingLf && self.bytes.is_empty() {
            return Some(());
        }
        self.word(b"\n")
    }

    fn kind(&mut self) -> Option<()> {
        if self.fault == MapFault::PassesOtherType && self.bytes.starts_with(b"type tile\n") {
            return self.word(b"type tile");
        }
        self.word(b"type octile")
    }

    /// Height and width.
    fn sides(&mut self) -> Result<(usize, usize), Refusal> {
        if self.fault == MapFault::PassesWidthBeforeHeight && self.bytes.starts_with(b"width") {
            let width = self.whole_line(|rest| rest.side(b"width"))?;
            return Ok((self.whole_line(|rest| rest.side(b"height"))?, width));
        }
        let height = self.whole_line(|rest| rest.side(b"height"))?;
        Ok((height, self.whole_line(|rest| rest.side(b"width"))?))
    }

    fn side(&mut self, word: &[u8]) -> Option<usize> {
        self.word(word)?;
        match (self.fault, self.bytes) {
            (MapFault::PassesTabForSpace, [b'\t', ..]) => self.word(b"\t")?,
            _ => self.word(b" ")?,
        }
        self.passed(MapFault::PassesTwoSpaces, b' ');
        self.passed(MapFault::PassesPlus, b'+');
        self.passed(MapFault::PassesLeadingZero, b'0');
        let (least, most) = match self.fault {
            MapFault::PassesSide0 => (0, limits::SIDE),
            MapFault::PassesSide65 => (1, limits::SIDE + 1),
            MapFault::RefusesSide64 => (1, limits::SIDE - 1),
            _ => (1, limits::SIDE),
        };
        let number = self.number()?;
        (least <= number && number <= most).then_some(number)
    }

    fn number(&mut self) -> Option<usize> {
        let digits = self.bytes.iter().take_while(|b| b.is_ascii_digit()).count();
        let (number, rest) = self.bytes.split_at(digits);
        self.bytes = rest;
        let number: usize = match number {
            [b'0', _, ..] => return None,
            _ if digits > 3 => return None,
            _ => std::str::from_utf8(number).ok()?.parse().ok()?,
        };
        match self.fault {
            MapFault::WrapsNumbers => Some(number % 256),
            MapFault::PassesExponent => Some(number * 10_usize.pow(self.power())),
            _ => Some(number),
        }
    }

    /// The power behind a number, as in a job; none where nothing of the kind follows.
    fn power(&mut self) -> u32 {
        let (power, rest) = match self.bytes {
            [b'e' | b'E', b'+', power @ b'0'..=b'9', rest @ ..] => (power, rest),
            [b'e' | b'E', power @ b'0'..=b'9', rest @ ..] => (power, rest),
            _ => return 0,
        };
        self.bytes = rest;
        u32::from(power - b'0')
    }

    fn row(&mut self, width: usize) -> Option<Vec<u8>> {
        let (row, rest) = self.bytes.split_at_checked(width)?;
        self.bytes = rest;
        if self.fault == MapFault::PassesLongRows {
            let more = rest.iter().take_while(|&&b| b != b'\n').count();
            self.bytes = &rest[more..];
        }
        row.iter().map(|&letter| self.letter(letter)).collect()
    }

    /// One of the five letters, or one that the fault takes for such a letter.
    fn letter(&self, letter: u8) -> Option<u8> {
        match (self.fault, letter) {
            (_, b'.' | b'G' | b'@' | b'O' | b'T') => Some(letter),
            (MapFault::TakesSwampForCell, b'S') => Some(b'.'),
            (MapFault::TakesWaterForWall, b'W') => Some(b'@'),
            (MapFault::TakesSmallLetters, b'g' | b'o' | b't') => Some(letter.to_ascii_uppercase()),
            _ => None,
        }
    }

    /// Nothing stands behind the last row.
    fn end(&mut self) -> Result<(), Refusal> {
        self.passed(MapFault::PassesEmptyLineBehind, b'\n');
        match (self.fault, self.bytes) {
            (_, []) | (MapFault::PassesTextBehind, _) => Ok(()),
            (MapFault::NamesNoLineBeyond, _) => Err(refusal(BAD_MAP)),
            _ => Err(self.refused(self.line, self.bytes)),
        }
    }
}
