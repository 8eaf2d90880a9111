//! Sheets and maps have plain digits, whatever the job has: an exponent in any of their numbers is out of the form. Tabs are
//! shown as spaces.

use harness::compare::{answer_to_map, library};
use harness::examples::spares::SPARES;
use harness::examples::{tabs, Example, BUFFER, EARLY, EARLY_PLAN, EXAMPLES};
use harness::gen::spelled::{at_full_length, respelled, spellings, with_field};
use harness::gen::Rng;
use harness::model::answer::*;

/// Each field of a sheet that is a number: line, field and value.
fn numbers(sheet: &str) -> Vec<(usize, usize, usize)> {
    let in_line = |(line, text): (usize, &str)| {
        let fields = text.split(' ').skip(1).enumerate();
        fields.filter_map(move |(i, field)| Some((line + 1, i, field.parse().ok()?))).collect::<Vec<_>>()
    };
    sheet.lines().enumerate().flat_map(in_line).collect()
}

/// The filed examples, those with spare carts and a plan with early lifts: CHOKE and CHOKE CALL lines are among them.
fn examples() -> Vec<Example> {
    let early = Example { name: EARLY.name, job: EARLY.job, sheet: EARLY_PLAN, answer: PLAN };
    EXAMPLES.iter().chain(SPARES).map(|x| Example { ..*x }).chain([early]).collect()
}

#[test]
fn an_exponent_in_a_sheet_is_11_at_its_line() {
    for example in examples() {
        let (job, sheet) = (tabs(example.job), tabs(example.sheet));
        for (line, field, value) in numbers(example.sheet) {
            for spelled in &spellings(value)[1..] {
                let changed = with_field(&sheet, line, field, spelled);
                for job in [&job, &at_full_length(&job)] {
                    let found = library(job, BUFFER, &changed);
                    assert_eq!(found, (BAD_SHEET, line), "{}, {}", example.name, changed.escape_ascii());
                }
            }
        }
    }
}

#[test]
fn a_job_with_exponents_and_its_plain_sheet_pass() {
    let mut rng = Rng::new(1);
    for example in examples() {
        for _ in 0..20 {
            let job = respelled(&tabs(example.job), &mut rng);
            assert_eq!(library(&job, BUFFER, &tabs(example.sheet)), (example.answer, 0), "{}", job.escape_ascii());
        }
    }
}

/// Of lines that are right but for a number, each kind has been tried.
#[test]
fn the_examples_have_lines_of_every_kind() {
    let words = ["PLAN ", "PATH ", "SPARE ", "CANNOT ", "CHOKE ", "CHOKE CALL "];
    let has = |word: &str| examples().iter().any(|x| x.sheet.lines().any(|line| line.starts_with(word)));
    assert!(words.into_iter().all(has));
}

#[test]
fn an_exponent_in_a_map_is_13_at_its_line() {
    let map = |height: &str, width: &str| format!("type octile\nheight {height}\nwidth {width}\nmap\n.\n").into_bytes();
    assert_eq!(answer_to_map(&map("1", "1"), 8), (FLOOR, 8));
    for one in &spellings(1)[1..] {
        assert_eq!(answer_to_map(&map(one, "1"), 8), (BAD_MAP, 2), "{one}");
        assert_eq!(answer_to_map(&map("1", one), 8), (BAD_MAP, 3), "{one}");
    }
    let wide = |width: &str| format!("type octile\nheight 1\nwidth {width}\nmap\n{}\n", ".".repeat(20)).into_bytes();
    assert_eq!(answer_to_map(&wide("20"), 1000).0, FLOOR);
    for twenty in &spellings(20)[1..] {
        assert_eq!(answer_to_map(&wide(twenty), 1000), (BAD_MAP, 3), "{twenty}");
    }
}
