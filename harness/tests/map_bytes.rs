//! Each byte of a map changed, lost or added, each beginning of a map, and each length of the text buffer. The answers are
//! told by hand; the comparison has the model's too.

use harness::compare::answer_to_map;
use harness::gen::maps::{scattered, Drawing, LETTERS};
use harness::gen::Rng;
use harness::model::answer::*;
use harness::model::limits::CELLS;

const ENOUGH: usize = cartfloor::FLOOR_MOST;

/// 3 by 4, with every letter.
const SMALL: &[u8] = b"type octile\nheight 3\nwidth 4\nmap\n.G@T\nO..@\nG.TO\n";

/// The line that a byte stands in, an LF in the line that it ends.
fn line_of(text: &[u8], at: usize) -> usize {
    1 + text[..at].iter().filter(|&&b| b == b'\n').count()
}

/// Each byte of a map changed into each other byte. In a number another digit is another number, so that a later line may
/// be the first bad one; any other change is seen in its own line, or leaves a map.
#[test]
fn each_single_byte() {
    for at in 0..SMALL.len() {
        let line = line_of(SMALL, at);
        for byte in (0..=255).filter(|&byte| byte != SMALL[at]) {
            let mut map = SMALL.to_vec();
            map[at] = byte;
            let found = answer_to_map(&map, ENOUGH);
            let is_letter = LETTERS.contains(&SMALL[at]) && LETTERS.contains(&byte) && line > 4;
            let is_digit = SMALL[at].is_ascii_digit() && (b'1'..=b'9').contains(&byte);
            match (is_letter, is_digit) {
                (true, _) => assert_eq!(found.0, FLOOR, "byte {at} is {byte}"),
                // Rows beyond the last, a row that is missing, or rows of another width.
                (_, true) if line == 2 => {
                    let height = usize::from(byte - b'0');
                    assert_eq!(found, (BAD_MAP, if height < 3 { 5 + height } else { 8 }), "height {height}");
                }
                (_, true) => assert_eq!(found, (BAD_MAP, 5), "byte {at} is {byte}"),
                _ => assert_eq!(found, (BAD_MAP, line), "byte {at} is {byte}"),
            }
        }
    }
}

/// A byte put in anywhere, and each byte lost.
#[test]
fn each_byte_more_and_less() {
    for at in 0..=SMALL.len() {
        for byte in 0..=255 {
            let map = [&SMALL[..at], &[byte], &SMALL[at..]].concat();
            assert_eq!(answer_to_map(&map, ENOUGH).0, BAD_MAP, "{byte} at {at}");
        }
    }
    for at in 0..SMALL.len() {
        let map = [&SMALL[..at], &SMALL[at + 1..]].concat();
        assert_eq!(answer_to_map(&map, ENOUGH), (BAD_MAP, line_of(SMALL, at)), "without byte {at}");
    }
}

/// What ends too soon is bad in the line that it ends in, or in the one that is missing.
#[test]
fn each_beginning() {
    for whole in [SMALL.to_vec(), Drawing::of(b'.', 64, 3).text(), Drawing::of(b'@', 2, 64).text()] {
        for len in 0..whole.len() {
            assert_eq!(answer_to_map(&whole[..len], ENOUGH), (BAD_MAP, line_of(&whole, len)), "{len} bytes");
        }
    }
}

/// Every length of the text buffer. The comparison looks at each of its bytes.
#[test]
fn each_buffer() {
    let mut rng = Rng::new(2);
    for map in [
        SMALL.to_vec(),
        Drawing::of(b'.', 1, 1).text(),
        Drawing::of(b'G', 16, 16).text(),
        scattered(64, 64, CELLS, &mut rng).text(),
    ] {
        let (_, len) = answer_to_map(&map, ENOUGH);
        for text_len in 0..len {
            assert_eq!(answer_to_map(&map, text_len), (SHEET_TOO_SHORT, 0), "{text_len} bytes for {len}");
        }
        for text_len in len..len + 4 {
            assert_eq!(answer_to_map(&map, text_len), (FLOOR, len), "{text_len} bytes for {len}");
        }
    }
}
