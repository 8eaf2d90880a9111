//! Numbers with exponents in jobs: every number with every power in every place, by plain arithmetic, and the sheet that a
//! value gets however it is written.

use harness::compare::plan;
use harness::examples::exponents::READ;
use harness::examples::{tabs, BUFFER};
use harness::gen::exponents::{spun_out, FLOORS};
use harness::gen::large::{full_text, longest_text};
use harness::gen::places::{places, Place};
use harness::gen::spelled::{spellings, with_field, with_power, POWERS};
use harness::gen::Rng;
use harness::model::answer::*;
use harness::model::job::{Call, Job};
use harness::model::limits::{self, sheet_least, store_least};
use harness::model::lines::{number, LF, TAB};
use harness::model::reader;

/// What the planner and the check say to a text without any buffer: a refusal, of the store if of nothing else.
fn refusals(text: &[u8]) -> [(u8, usize); 2] {
    [cartfloor::plan(text, &mut [], &mut []), cartfloor::check(text, &mut [], &[])].map(unpack)
}

/// 5 where the value is out of range, and else what the same value gets in plain digits.
fn assert_by_value(place: &Place) {
    let plain: Vec<_> = (0..=limits::CELLS).map(|value| refusals(&place.with(&value.to_string()))).collect();
    for number in 0..=999 {
        for power in POWERS {
            let value = number as u64 * 10_u64.pow(power);
            let in_range = place.range.start as u64 <= value && value < place.range.end as u64;
            let expected = if in_range { plain[value as usize] } else { [(OUT_OF_RANGE, place.line); 2] };
            assert!(!in_range || expected[0].0 != OUT_OF_RANGE);
            for spelled in with_power(number, power) {
                let text = place.with(&spelled);
                assert_eq!(refusals(&text), expected, "{}", text.escape_ascii());
            }
        }
    }
}

#[test]
fn every_number_with_every_power_on_small_floors() {
    FLOORS[..3].iter().flat_map(|&cells| places(cells)).for_each(|place| assert_by_value(&place));
}

#[test]
fn every_number_with_every_power_on_large_floors() {
    FLOORS[3..].iter().flat_map(|&cells| places(cells)).for_each(|place| assert_by_value(&place));
}

/// Jobs in which a value decides what is written or how long a store has to be: with the line and the field of it.
fn deciding(value: usize) -> Vec<(Job, usize, usize)> {
    let on_cells = |cells, tracks, cart, call| Job { cells, tracks, carts: vec![cart], calls: vec![call] };
    let mut all = Vec::new();
    if value > 0 {
        all.push((on_cells(value, vec![], value - 1, Call::bay(value - 1, 0)), 1, 0));
    }
    if value < limits::CELLS {
        let next = (value + 1) % limits::CELLS;
        all.push((on_cells(256, vec![(value, next)], value, Call::bay(next, 1)), 2, 0));
        all.push((on_cells(256, vec![(next, value)], next, Call::bay(value, 1)), 2, 1));
        all.push((on_cells(256, vec![], value, Call::lift(value, 0)), 2, 0));
        all.push((on_cells(256, vec![], value, Call::lift(value, 0)), 3, 0));
        all.push((on_cells(256, vec![], value, Call::bay(value, 0)), 3, 0));
        all.push((on_cells(1, vec![], 0, Call::lift(0, value)), 3, 1));
        all.push((on_cells(1, vec![], 0, Call::bay(0, value)), 3, 1));
    }
    all
}

/// Each field is a word or a plain number.
fn is_plain(sheet: &[u8]) -> bool {
    let is_word = |part: &[u8]| [&b"PLAN"[..], b"PATH", b"SPARE", b"CANNOT", b"CHOKE", b"CALL"].contains(&part);
    let lines = sheet.strip_suffix(&[LF]).unwrap_or(sheet);
    lines.split(|b| [TAB, LF].contains(b)).all(|part| is_word(part) || number(part).is_some())
}

/// Also the store that it needs is the same, to the byte.
#[test]
fn a_value_gets_the_same_sheet_however_it_is_written() {
    let mut rng = Rng::new(1);
    for value in 0..=limits::CELLS {
        for (job, line, field) in deciding(value) {
            let (store, sheet) = (store_least(&job), sheet_least(&job));
            let plain = plan(&job.text(), store, sheet, &mut rng);
            assert_eq!(plain.0, PLAN, "{job:?}");
            for spelled in &spellings(value)[1..] {
                let text = with_field(&job.text(), line, field, spelled);
                assert_eq!(plan(&text, store, sheet, &mut rng), plain, "{}", text.escape_ascii());
                assert_eq!(plan(&text, store - 1, sheet, &mut rng).0, STORE_TOO_SHORT, "{}", text.escape_ascii());
            }
        }
    }
}

#[test]
fn jobs_told_by_hand() {
    let mut rng = Rng::new(2);
    for (text, plain) in READ {
        let planned = plan(&tabs(text), 4 * BUFFER, BUFFER, &mut rng);
        assert_eq!(planned, plan(&tabs(plain), 4 * BUFFER, BUFFER, &mut rng), "{text:?}");
        assert!(!is_refusal(planned.0) && is_plain(&planned.1), "{text:?}");
    }
}

/// Six bytes a number: a FLOOR line of 13, 512 TRACK lines of 20, 64 CART lines of 12 and 64 CALL lines of 19.
#[test]
fn the_longest_text() {
    let text = longest_text();
    assert_eq!(text.len(), 13 + 512 * 20 + 64 * 12 + 64 * 19);
    assert_eq!(text.len(), 12_237);
    let job = reader::read(&text).expect("a job");
    let planned = |text: &[u8]| plan(text, store_least(&job), sheet_least(&job), &mut Rng::new(3));
    let (answer, sheet) = planned(&text);
    assert_eq!(answer, PLAN);
    assert!(is_plain(&sheet));
    assert_eq!((answer, sheet), planned(&full_text()));
}

/// Behind the longest job each line is one too many, up to the longest text that is looked at.
#[test]
fn texts_about_the_limit() {
    assert_eq!(refusals(&spun_out(limits::TEXT)), [(TOO_MANY, 642); 2]);
    assert_eq!(refusals(&spun_out(limits::TEXT + 1)), [(TEXT_TOO_LONG, 0); 2]);
    let mut rng = Rng::new(4);
    assert_eq!(plan(&spun_out(limits::TEXT), BUFFER, BUFFER, &mut rng).0, TOO_MANY);
    assert_eq!(plan(&spun_out(limits::TEXT + 1), BUFFER, BUFFER, &mut rng).0, TEXT_TOO_LONG);
}
