//! Job texts with exponents, as the check reads them: the answers told by hand, and those of the model. Tabs are shown as
//! spaces.

use harness::compare::{answer_to, assert_turned_back, plan};
use harness::examples::exponents::{NO_NUMBERS, ONE_MORE, REFUSED};
use harness::examples::{tabs, BUFFER};
use harness::gen::exponents::{longest_with, FLOORS, TEXTS};
use harness::gen::places::{fields_over, places};
use harness::gen::Rng;
use harness::model::answer::*;
use harness::tally::Tally;

#[test]
fn jobs_told_by_hand() {
    for &(job, number, line) in REFUSED {
        assert_turned_back(number, &[(job, line)]);
        assert_eq!(plan(&tabs(job), BUFFER, BUFFER, &mut Rng::new(1)).0, number, "{job:?}");
    }
}

/// In every place. The comparison sees that no byte changes.
#[test]
fn what_is_no_number_is_4() {
    for place in FLOORS.into_iter().flat_map(places) {
        for field in NO_NUMBERS {
            let text = place.with(field);
            assert_eq!(answer_to(&text), (NO_NUMBER, place.line), "{}", text.escape_ascii());
            assert_eq!(plan(&text, 5000, 100, &mut Rng::new(2)).0, NO_NUMBER, "{}", text.escape_ascii());
        }
    }
}

/// 6 comes behind 5 and before 7.
#[test]
fn one_line_too_many() {
    for &(at, line, number) in ONE_MORE {
        assert_eq!(answer_to(&longest_with(at, line)), (number, at), "{line:?} at line {at}");
    }
}

/// Every field of up to five bytes that numbers have, and some more. What comes next, where it is a number in range, is that
/// a call has no cart, or that the store is too short for a cart without a call.
fn assert_short_fields(line: &str, next: u8) {
    let (before, behind) = line.split_once('#').expect("a place");
    let mut tally = Tally::default();
    for field in fields_over("0129eE+-.", 5) {
        tally.count(answer_to(&tabs(&format!("FLOOR 10\n{before}{field}{behind}\n"))).0);
    }
    tally.assert_only(&[NO_NUMBER, OUT_OF_RANGE, next]);
    tally.assert_each(&[NO_NUMBER, OUT_OF_RANGE, next], 30);
}

#[test]
fn short_fields_for_a_cart() {
    assert_short_fields("CART #", STORE_TOO_SHORT);
}

#[test]
fn short_fields_for_the_cell_of_a_call() {
    assert_short_fields("CALL # 0e0", UNEVEN);
}

#[test]
fn short_fields_for_a_deadline() {
    assert_short_fields("CALL 0e0 #", UNEVEN);
}

/// In both fields at once.
#[test]
fn short_fields_side_by_side() {
    let fields = fields_over("01eE+-", 3);
    let mut rng = Rng::new(3);
    for one in &fields {
        for _ in 0..50 {
            let other = rng.pick(&fields);
            answer_to(&tabs(&format!("FLOOR 10\nTRACK {one} {other}\n")));
            answer_to(&tabs(&format!("FLOOR 10\nCALL {other} {one}\n")));
        }
    }
}

/// All the texts that the faults of a second reader are found with.
#[test]
fn as_the_model_reads_them() {
    for (name, texts) in TEXTS {
        let mut tally = Tally::default();
        texts().iter().for_each(|text| tally.count(answer_to(text).0));
        println!("{name}: {tally}");
    }
}

/// The damaged ones are planned as well, where they are jobs still.
#[test]
fn damaged_texts() {
    let (name, texts) = TEXTS[TEXTS.len() - 1];
    assert_eq!(name, "damaged");
    let mut rng = Rng::new(4);
    let mut tally = Tally::default();
    texts().iter().for_each(|text| tally.count(plan(text, BUFFER, BUFFER, &mut rng).0));
    tally.assert_each(&[PLAN, CANNOT, BAD_LINE, NO_NUMBER, OUT_OF_RANGE, DOUBLED, UNEVEN], 200);
}
