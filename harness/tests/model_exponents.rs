//! Numbers of jobs with exponents, as the model reads them: by hand, by plain arithmetic, and against the second reader.
//! Tabs are shown as spaces.

use std::collections::BTreeSet;

use harness::examples::exponents::{NO_NUMBERS, READ, REFUSED};
use harness::examples::tabs;
use harness::faulty::job::{self, JobFault};
use harness::gen::places::{fields_over, places};
use harness::gen::small::small;
use harness::gen::spelled::{at_full_length, respelled, spellings, with_power, POWERS};
use harness::gen::Rng;
use harness::model::answer::*;
use harness::model::lines::{number, scaled};
use harness::model::reader::read;

#[test]
fn every_number_with_every_power() {
    for number in 0..=999 {
        for power in POWERS {
            let value = (0..power).fold(number, |value, _| 10 * value);
            for spelled in with_power(number, power) {
                assert_eq!(scaled(spelled.as_bytes()), Some(value), "{spelled}");
            }
        }
        assert_eq!(scaled(number.to_string().as_bytes()), Some(number));
    }
    for value in 0..=999 {
        assert!(spellings(value).iter().all(|spelled| scaled(spelled.as_bytes()) == Some(value)), "{value}");
    }
}

/// What is read as a number and has no letter is one without exponents too, and the other way round.
#[test]
fn a_field_without_a_letter_is_what_it_was() {
    for field in fields_over("0129eE+-.", 5) {
        let plain = number(field.as_bytes());
        match field.contains(['e', 'E']) {
            true => assert_eq!(plain, None, "{field}"),
            false => assert_eq!(scaled(field.as_bytes()), plain, "{field}"),
        }
    }
}

#[test]
fn what_is_no_number() {
    for field in NO_NUMBERS {
        assert_eq!(scaled(field.as_bytes()), None, "{field:?}");
        for place in places(256) {
            let refusal = Refusal { number: NO_NUMBER, line: place.line };
            assert_eq!(read(&place.with(field)), Err(refusal), "{field:?}");
        }
    }
}

#[test]
fn jobs_told_by_hand() {
    for &(text, number, line) in REFUSED {
        assert_eq!(read(&tabs(text)), Err(Refusal { number, line }), "{text:?}");
    }
    for (text, plain) in READ {
        let job = read(&tabs(plain)).expect("a job");
        assert_eq!((job.text(), read(&tabs(text))), (tabs(plain), Ok(job)), "{text:?}");
    }
}

/// A job that is written in other ways is the same, and all ways come.
#[test]
fn what_is_respelled_is_read_to_the_same_job() {
    let mut rng = Rng::new(1);
    let mut fields = BTreeSet::new();
    for _ in 0..2000 {
        let job = small(&mut rng);
        let text = respelled(&job.text(), &mut rng);
        fields.extend(text.split(|b| b"\t\n".contains(b)).map(<[u8]>::to_vec));
        assert_eq!(read(&text), Ok(job.clone()), "{}", text.escape_ascii());
        assert_eq!(read(&at_full_length(&job.text())), Ok(job));
    }
    let ways = (0..5).flat_map(spellings).filter(|way| fields.contains(way.as_bytes())).count();
    assert_eq!(ways, 41 + 4 * 5);
}

/// So that it makes no difference whether a reader has 32 bits or more.
#[test]
fn no_value_comes_into_range_by_wrapping_in_32_bits() {
    let values = (1..=999).flat_map(|number: u64| POWERS.map(move |power| number * 10_u64.pow(power)));
    let wrapped = |bits: u32| values.clone().filter(|value| *value > 256 && value % (1 << bits) <= 256).count();
    assert_eq!([8, 16, 31, 32].map(wrapped), [9707, 36, 0, 0]);
}

#[test]
fn the_second_reader_reads_every_field_alike() {
    for field in fields_over("0129eE+-.", 4) {
        for place in places(10) {
            let text = place.with(&field);
            assert_eq!(job::read(&text, JobFault::None), read(&text), "{field}");
        }
    }
}
