//! What of map and text the call reads and writes: nothing outside of them, and of a long text nothing behind the byte that
//! shows it to be no map. A call that goes further is ended by the system, and the test with it.

use harness::fenced::{Fence, Fenced, FENCES};
use harness::gen::map_cases::{damaged_maps, large_maps, small_maps, MapCase};
use harness::gen::maps::{scattered, Drawing};
use harness::gen::Rng;
use harness::model::answer::*;
use harness::model::limits::CELLS;
use harness::model::map::{buffer_after, text_of};

/// As long as no text ever is.
const TIB: usize = 1 << 40;

const SMALL: &[u8] = b"type octile\nheight 3\nwidth 4\nmap\n.G@T\nO..@\nG.TO\n";

fn call(map: &mut Fenced, text: &mut Fenced) -> (u8, usize) {
    let ((map, map_len), (text, text_len)) = (map.parts(), text.parts());
    // Safety: two buffers; of what they are said to be, only what is there may be touched, as is to be shown.
    unpack(unsafe { cartfloor::cartfloor_map(map, map_len, text, text_len) })
}

/// The call with fences on these sides of map and text, held against the model.
fn assert_within(case: &MapCase, map_fence: Fence, text_fence: Fence, rng: &mut Rng) {
    let lent = rng.noise(case.text_len);
    let mut map = Fenced::new(&case.map, map_fence).read_only();
    let mut text = Fenced::new(&lent, text_fence);
    let answer = text_of(&case.map, case.text_len);
    let expected = match &answer {
        Ok(text) => (FLOOR, text.len()),
        Err(refusal) => (refusal.number, refusal.line),
    };
    assert_eq!(call(&mut map, &mut text), expected);
    assert_eq!(text.bytes(), buffer_after(&answer, &lent));
    assert_eq!(map.bytes(), case.map);
}

#[test]
fn nothing_outside_of_map_and_text() {
    let mut rng = Rng::new(1);
    for kind in [small_maps, large_maps, damaged_maps] {
        for _ in 0..300 {
            let case = kind(&mut rng);
            for map_fence in FENCES {
                for text_fence in FENCES {
                    assert_within(&case, map_fence, text_fence, &mut rng);
                }
            }
        }
    }
}

#[test]
fn nothing_behind_the_beginning_of_a_map() {
    let mut rng = Rng::new(2);
    for len in 0..=SMALL.len() {
        let case = MapCase { map: SMALL[..len].to_vec(), text_len: 100 };
        assert_within(&case, Fence::Behind, Fence::Behind, &mut rng);
    }
}

#[test]
fn nothing_behind_a_buffer_of_any_length() {
    let mut rng = Rng::new(3);
    for text_len in 0..100 {
        let case = MapCase { map: SMALL.to_vec(), text_len };
        assert_within(&case, Fence::Behind, Fence::Behind, &mut rng);
    }
}

/// The answer to a text of a TiB with this beginning. Neither what follows nor the text buffer may be touched.
fn answer_to_beginning(beginning: &[u8]) -> (u8, usize) {
    let mut map = Fenced::said_to_be(TIB, beginning, Fence::Behind).read_only();
    let mut text = Fenced::new(&[0; 8192], Fence::Behind).untouchable();
    call(&mut map, &mut text)
}

/// The line that a byte stands in.
fn line_of(text: &[u8], at: usize) -> usize {
    1 + text[..at].iter().filter(|&&b| b == b'\n').count()
}

/// Every byte of a map, and one in its place that may not stand there, with a TiB behind it.
#[test]
fn a_long_text_is_read_up_to_its_first_bad_byte() {
    for map in [SMALL.to_vec(), Drawing::of(b'.', 64, 64).text(), Drawing::of(b'@', 64, 1).text()] {
        for at in 0..map.len() {
            let beginning = [&map[..at], b"x"].concat();
            assert_eq!(answer_to_beginning(&beginning), (BAD_MAP, line_of(&map, at)), "{at} bytes");
        }
    }
}

/// A row that does not end where it should, and one that ends too soon.
#[test]
fn a_long_text_is_read_up_to_a_row_of_another_width() {
    for map in [SMALL.to_vec(), Drawing::of(b'.', 64, 64).text()] {
        let first = (0..map.len()).find(|&at| line_of(&map, at) == 5).expect("a row");
        for at in first..map.len() {
            let byte = if map[at] == b'\n' { b'.' } else { b'\n' };
            let beginning = [&map[..at], &[byte]].concat();
            assert_eq!(answer_to_beginning(&beginning), (BAD_MAP, line_of(&map, at)), "{at} bytes");
        }
    }
}

/// A number is at most three digits and the LF, whichever way it is read.
#[test]
fn a_long_text_is_read_up_to_a_bad_number() {
    for number in ["1000", "9999", "0000", "065\n", "100\n", "65\n", "0\n", "00\n", "-1\n", "\n"] {
        assert_eq!(answer_to_beginning(format!("type octile\nheight {number}").as_bytes()), (BAD_MAP, 2), "{number:?}");
        let beginning = format!("type octile\nheight 64\nwidth {number}");
        assert_eq!(answer_to_beginning(beginning.as_bytes()), (BAD_MAP, 3), "{number:?}");
    }
}

/// That there is more is enough: what it is, is not read. Also 14 comes after it.
#[test]
fn nothing_is_read_beyond_the_last_row() {
    assert_eq!(answer_to_beginning(SMALL), (BAD_MAP, 8));
    for letter in [b'.', b'@'] {
        assert_eq!(answer_to_beginning(&Drawing::of(letter, 64, 64).text()), (BAD_MAP, 69));
        assert_eq!(answer_to_beginning(&Drawing::of(letter, 1, 1).text()), (BAD_MAP, 6));
    }
}

/// Of a buffer of a TiB only what is written is touched.
#[test]
fn nothing_is_touched_behind_the_text() {
    let mut rng = Rng::new(4);
    for map in [SMALL.to_vec(), Drawing::of(b'.', 16, 16).text(), scattered(64, 64, CELLS, &mut rng).text()] {
        let expected = text_of(&map, TIB).expect("a floor");
        let mut text = Fenced::said_to_be(TIB, &vec![0; expected.len()], Fence::Behind);
        let mut map = Fenced::new(&map, Fence::Behind).read_only();
        assert_eq!(call(&mut map, &mut text), (FLOOR, expected.len()));
        assert_eq!(text.bytes(), expected);
    }
}

/// After a refusal the buffer is as lent; here nobody may even look at it.
#[test]
fn a_refusal_does_not_touch_the_buffer() {
    let open = Drawing::of(b'.', 16, 16).text();
    let rows: [(Vec<u8>, usize, (u8, usize)); 5] = [
        (Vec::new(), 8192, (BAD_MAP, 1)),
        (open[..open.len() - 1].to_vec(), 8192, (BAD_MAP, 20)),
        (Drawing::of(b'@', 16, 16).text(), 8192, (NO_FLOOR, 0)),
        (Drawing::of(b'.', 16, 17).text(), 8192, (NO_FLOOR, 0)),
        (open, 4096, (SHEET_TOO_SHORT, 0)),
    ];
    for (map, text_len, expected) in rows {
        let mut map = Fenced::new(&map, Fence::Behind).read_only();
        let mut text = Fenced::new(&vec![0; text_len], Fence::Behind).untouchable();
        assert_eq!(call(&mut map, &mut text), expected);
    }
}
