//! The numbers of the C header as a compiler sees them, and those of the definitions: both have to be the README's.

use std::collections::BTreeSet;
use std::fs;

use harness::examples::spares::FULL;
use harness::examples::{A, BAY, CLOSED, WHOLE};
use harness::header::{assert_rows, is_ours, names, row, shown, words};

const SPECS: &str = concat!(env!("CARGO_MANIFEST_DIR"), "/../crates/model/specs");

/// What the header has for a C program to write down, and its number.
const NUMBERS: &[(&str, u64)] = &[
    ("CARTFLOOR_VERSION_MAJOR", 1),
    ("CARTFLOOR_VERSION_MINOR", 6),
    ("CARTFLOOR_PLAN", 0),
    ("CARTFLOOR_CANNOT", 1),
    ("CARTFLOOR_TEXT_TOO_LONG", 2),
    ("CARTFLOOR_BAD_LINE", 3),
    ("CARTFLOOR_NO_NUMBER", 4),
    ("CARTFLOOR_OUT_OF_RANGE", 5),
    ("CARTFLOOR_TOO_MANY", 6),
    ("CARTFLOOR_DOUBLED", 7),
    ("CARTFLOOR_UNEVEN", 8),
    ("CARTFLOOR_STORE_TOO_SHORT", 9),
    ("CARTFLOOR_SHEET_TOO_SHORT", 10),
    ("CARTFLOOR_BAD_SHEET", 11),
    ("CARTFLOOR_WRONG_SHEET", 12),
    ("CARTFLOOR_BAD_MAP", 13),
    ("CARTFLOOR_NO_FLOOR", 14),
    ("CARTFLOOR_CELLS_MAX", 256),
    ("CARTFLOOR_TRACKS_MAX", 512),
    ("CARTFLOOR_CARTS_MAX", 64),
    ("CARTFLOOR_CALLS_MAX", 64),
    ("CARTFLOOR_DEADLINE_MAX", 255),
    ("CARTFLOOR_TEXT_MAX", 16_384),
    ("CARTFLOOR_SIDE_MAX", 64),
    // Lines of 12, 10, 9 and 4 bytes, and 64 rows of 65.
    ("CARTFLOOR_MAP_MOST", 4195),
    // 10 + 512 × 14.
    ("CARTFLOOR_FLOOR_MOST", 7178),
    // What programs in Rust have of these.
    ("CARTFLOOR_TEXT_MAX", cartfloor::TEXT_MAX as u64),
    ("CARTFLOOR_SHEET_MOST", cartfloor::SHEET_MOST as u64),
    ("CARTFLOOR_MAP_MOST", cartfloor::MAP_MOST as u64),
    ("CARTFLOOR_FLOOR_MOST", cartfloor::FLOOR_MOST as u64),
    // (H + 1) × 32 × (cells + 2 × tracks) + 4,096.
    ("CARTFLOOR_STORE_LEAST(0, 1, 0)", 4128),
    ("CARTFLOOR_STORE_LEAST(1, 3, 2)", 4544),
    ("CARTFLOOR_STORE_LEAST(0 + 1, 1 + 2, 1 + 1)", 4544),
    ("CARTFLOOR_STORE_LEAST(9, 192, 0)", 65_536),
    ("CARTFLOOR_STORE_LEAST(127, 13, 1)", 65_536),
    ("CARTFLOOR_STORE_LEAST(16, 113, 0)", 65_568),
    ("CARTFLOOR_STORE_LEAST(255, 256, 512)", 10_489_856),
    ("CARTFLOOR_STORE_MOST", 10_489_856),
    ("2 * CARTFLOOR_STORE_MOST", 20_979_712),
    // carts × (4 × (H + 1) + 16) + 64.
    ("CARTFLOOR_SHEET_LEAST(0, 0)", 64),
    ("CARTFLOOR_SHEET_LEAST(255, 0)", 64),
    ("CARTFLOOR_SHEET_LEAST(0, 1)", 84),
    ("CARTFLOOR_SHEET_LEAST(1, 2)", 112),
    ("CARTFLOOR_SHEET_LEAST(0 + 1, 1 + 1)", 112),
    ("CARTFLOOR_SHEET_LEAST(29, 64)", 8768),
    ("CARTFLOOR_SHEET_LEAST(255, 64)", 66_624),
    ("CARTFLOOR_SHEET_MOST", 66_624),
    ("2 * CARTFLOOR_SHEET_MOST", 133_248),
    // The lowest byte, and the rest.
    ("CARTFLOOR_ANSWER(0)", 0),
    ("CARTFLOOR_ANSWER(256 * 514 + 6)", 6),
    ("CARTFLOOR_ANSWER(0x100 | 0x0b)", 11),
    ("CARTFLOOR_ANSWER(UINT64_C(0x0123456789abcdef))", 0xef),
    ("CARTFLOOR_ANSWER(UINT64_MAX)", 255),
    ("CARTFLOOR_VALUE(0)", 0),
    ("CARTFLOOR_VALUE(255)", 0),
    ("CARTFLOOR_VALUE(256 * 514 + 6)", 514),
    ("CARTFLOOR_VALUE(0x100 | 0x0b)", 1),
    ("CARTFLOOR_VALUE(UINT64_C(0x0123456789abcdef))", 0x0001_2345_6789_abcd),
    ("CARTFLOOR_VALUE(UINT64_MAX)", 0x00ff_ffff_ffff_ffff),
    ("sizeof CARTFLOOR_VALUE(0)", 8),
    ("CARTFLOOR_AS(uint8_t, 256 + 7)", 7),
    ("sizeof CARTFLOOR_AS(uint8_t, 256 + 7)", 1),
];

/// What it has that is no number.
const TEXTS: &[(&str, &str)] = &[("CARTFLOOR_VERSION", "1.6")];

/// The guard of the header, and the calls, which `header_calls.rs` and `header_map.rs` hold.
const NO_NUMBERS: &[&str] = &["CARTFLOOR_H", "cartfloor_plan", "cartfloor_check", "cartfloor_map"];

#[test]
fn every_name_of_the_header_has_a_row() {
    let expressions = NUMBERS.iter().map(|row| row.0).chain(TEXTS.iter().map(|row| row.0));
    let in_rows = expressions.flat_map(words).filter(|word| is_ours(word));
    let held: BTreeSet<String> = in_rows.chain(NO_NUMBERS.iter().copied()).map(str::to_string).collect();
    let found = names();
    let unheld: Vec<_> = found.difference(&held).collect();
    let missing: Vec<_> = held.difference(&found).collect();
    assert!(unheld.is_empty() && missing.is_empty(), "no row for {unheld:?}, not in the header: {missing:?}");
}

#[test]
fn every_number_and_text_as_a_compiler_sees_it() {
    let numbers = NUMBERS.iter().map(|(expression, number)| row(format!("number({expression})"), number));
    let texts = TEXTS.iter().map(|(expression, text)| row(format!("string({expression})"), text));
    assert_rows(env!("CARGO_TARGET_TMPDIR"), "numbers", &numbers.chain(texts).collect::<Vec<_>>());
}

/// The lines of the definitions that give these numbers. Here they stand once more as they are there, so that a changed
/// one is looked at together with the header.
const LINES: &[(&str, &str)] = &[
    ("Answers", "number Plan = 0"),
    ("Answers", "number Cannot = 1"),
    ("Answers", "number TextTooLong = 2"),
    ("Answers", "number BadLine = 3"),
    ("Answers", "number NoNumber = 4"),
    ("Answers", "number OutOfRange = 5"),
    ("Answers", "number TooMany = 6"),
    ("Answers", "number Doubled = 7"),
    ("Answers", "number Uneven = 8"),
    ("Answers", "number StoreTooShort = 9"),
    ("Answers", "number SheetTooShort = 10"),
    ("Answers", "number BadSheet = 11"),
    ("Answers", "number WrongSheet = 12"),
    ("Answers", "number BadMap = 13"),
    ("Answers", "number NoFloor = 14"),
    ("Limits", "max_cells = 256"),
    ("Limits", "max_tracks = 512"),
    ("Limits", "max_carts = 64"),
    ("Limits", "max_calls = 64"),
    // A deadline is below this.
    ("Limits", "max_steps = 256"),
    ("Limits", "max_side = 64"),
    ("Limits", "max_text = 16384"),
    ("Job", "store_least j = (horizon j + 1) * 32 * (j.cells + 2 * length j.tracks) + 4096"),
    ("Job", "sheet_least j = length j.carts * (4 * (horizon j + 1) + 16) + 64"),
    ("ReadJob", READ_BY),
    ("ReadJob", "read_job s = read_by scaled_of s"),
    ("ReadJob", FIELDS_SAY),
    ("ReadJob", "(wrong BadLine)))))"),
    ("ReadJob", "lines_say number j n cut = refused BadLine n"),
    ("ReadJob", "numbers_say j k none = wrong NoNumber"),
    ("ReadJob", NUMBERS_SAY),
    ("ReadJob", WHOLE_JOB),
    ("Promises", WITH_STORE),
    ("Promises", WITH_ROOM),
    ("Promises", WRITTEN_PLAN),
    ("Promises", WRITTEN_CANNOT),
    ("Promises", "Told (refused a l) r b = (r ≡ number a + 256 * l) × (b ≡ [])"),
    ("Promises", "Decided (refused a l) sheet r = r ≡ number a + 256 * l"),
    ("Promises", "Judged j (bad l) r = r ≡ number answer.BadSheet + 256 * l"),
    ("Promises", JUDGED_PLAN),
    ("Promises", JUDGED_CANNOT),
    ("Promises", "text_answer (refused a l) = number a + 256 * l"),
    ("Promises", "text_answer (accepted b) = 256 * length b"),
    ("GridMap", "is_cell b = member b (bytes \".G\")"),
    ("GridMap", "is_wall b = member b (bytes \"@OT\")"),
    ("GridMap", "line_due bad (word_line (bytes \"type octile\")) 1 (lines_of s) (λ _ ls₁."),
    ("GridMap", "line_due bad (size_line (bytes \"height \")) 2 ls₁ (λ h ls₂."),
    ("GridMap", "line_due bad (size_line (bytes \"width \")) 3 ls₂ (λ w ls₃."),
    ("GridMap", "line_due bad (word_line (bytes \"map\")) 4 ls₃ (λ _ ls₄."),
    ("GridMap", "rest_says bad (row_line w) drawn [] h 5 ls₄))))"),
    ("GridMap", "tracks_at m r c = cond (cell_at m r c) (track_to m r c r (suc c) ++ track_to m r c (suc r) c) []"),
    ("GridMap", "floor_text room (bad l) = refused BadMap l"),
    ("GridMap", "floor_text room (drawn m) = cond (ltb 0 (map_cells m) && leb (map_cells m) max_cells)"),
    ("GridMap", FLOOR_FITS),
];

const FLOOR_FITS: &str = "(cond (leb (length (map_text m)) room) (accepted (map_text m)) (refused SheetTooShort 0))";
const READ_BY: &str = "read_by number s = \
    cond (ltb max_text (length s)) (refused TextTooLong 0) (lines_say number no_job 1 (lines_of s))";
const FIELDS_SAY: &str = "fields_say number j k fs = \
    cond (may_follow j k && eqb (length fs) (field_count k)) (numbers_say j k (numbers_by number fs)) (wrong BadLine)";
const NUMBERS_SAY: &str = "cond (in_range j k a b) \
    (cond (has_room j k) (cond (is_new j k a b) (right (add j k a b)) (wrong Doubled)) (wrong TooMany)) (wrong OutOfRange)";
const WHOLE_JOB: &str = "whole_job j n = cond (eqb j.cells 0) (refused BadLine n) \
    (cond (leb (length j.calls) (length j.carts)) (accepted j) (refused Uneven 0))";
const WITH_STORE: &str = "with_store n (accepted j) = \
    cond (ltb n (store_least j)) (refused answer.StoreTooShort 0) (accepted j)";
const WITH_ROOM: &str = "with_room n (accepted j) = \
    cond (ltb n (sheet_least j)) (refused answer.SheetTooShort 0) (accepted j)";
const WRITTEN_PLAN: &str = "((ps : List Path) × (ss : List Ride) × RightPlan j ps ss × (b ≡ plan_text ps ss) × \
    (r ≡ number answer.Plan + 256 * length b))";
const WRITTEN_CANNOT: &str = "⊎ ((xs : List Choke) × RightChokes j xs × (b ≡ cannot_text xs) × \
    (r ≡ number answer.Cannot + 256 * length b) × \
    ((ps : List Path) (ss : List Ride) → Plan j ps ss → ⊥))";
const JUDGED_PLAN: &str = "Judged j (plan ps ss) r = (RightPlan j ps ss × (r ≡ number answer.Plan)) \
    ⊎ ((RightPlan j ps ss → ⊥) × (r ≡ number answer.WrongSheet))";
const JUDGED_CANNOT: &str = "Judged j (cannot xs) r = (RightChokes j xs × (r ≡ number answer.Cannot)) \
    ⊎ ((RightChokes j xs → ⊥) × (r ≡ number answer.WrongSheet))";

#[test]
fn the_definitions_have_these_numbers() {
    for &(name, line) in LINES {
        let file = format!("{SPECS}/{name}.antt");
        let text = fs::read_to_string(&file).expect("a file of definitions");
        assert!(text.lines().any(|found| found.trim() == line), "no line {line:?} in {file}");
    }
}

/// The job and the sheets that its manual shows are filed ones. `header_map.rs` holds the map and its text, which are last.
#[test]
fn the_examples_it_shows() {
    assert_eq!(shown()[..6], [BAY.job, BAY.sheet, A.sheet, FULL.sheet, CLOSED.sheet, WHOLE.sheet]);
}
