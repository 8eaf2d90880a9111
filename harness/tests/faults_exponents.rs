//! The faults that are put into the second reader of jobs, each on one text told by hand: what is read, and what the fault
//! makes of it. Tabs are shown as spaces, and spaces as underscores.

use harness::examples::tabs;
use harness::faulty::job::{read, JobFault, JOB_FAULTS};
use harness::gen::exponents::longest_with;
use harness::gen::large::longest_text;
use harness::model::answer::Refusal;
use harness::model::job::Job;
use harness::model::reader;

/// The job's text without exponents, or the refusal.
fn shown(read: Result<Job, Refusal>) -> String {
    match read {
        Ok(job) => String::from_utf8_lossy(&job.text()).replace('\t', " "),
        Err(Refusal { number, line }) => format!("REFUSED {number} {line}"),
    }
}

fn assert_shows(fault: JobFault, text: &[u8], right: &str, wrong: &str) {
    assert_eq!(shown(reader::read(text)), right, "{fault:?}");
    assert_eq!(shown(read(text, JobFault::None)), right, "{fault:?}");
    assert_eq!(shown(read(text, fault)), wrong, "{fault:?}");
}

const ROWS: &[(JobFault, &str, &str, &str)] = &[
    (JobFault::ReadsNoExponent, "FLOOR 25e1\n", "FLOOR 250\n", "REFUSED 4 1"),
    (JobFault::TakesSmallEOnly, "FLOOR 25E1\n", "FLOOR 250\n", "REFUSED 4 1"),
    (JobFault::TakesCapitalEOnly, "FLOOR 25e1\n", "FLOOR 250\n", "REFUSED 4 1"),
    (JobFault::TakesBytesLikeE, "FLOOR 25%1\n", "REFUSED 4 1", "FLOOR 250\n"),
    (JobFault::RefusesPlus, "FLOOR 25e+1\n", "FLOOR 250\n", "REFUSED 4 1"),
    (JobFault::RefusesZeroWithPower, "FLOOR 0e5\n", "REFUSED 5 1", "REFUSED 4 1"),
    (JobFault::RefusesPowerNine, "FLOOR 9e9\n", "REFUSED 5 1", "REFUSED 4 1"),
    (JobFault::RefusesSixBytes, "FLOOR 100e+0\n", "FLOOR 100\n", "REFUSED 4 1"),
    (JobFault::RefusesLongValue, "FLOOR 1e3\n", "REFUSED 5 1", "REFUSED 4 1"),
    (JobFault::TakesMinusForPlus, "FLOOR 1e-1\n", "REFUSED 4 1", "FLOOR 10\n"),
    (JobFault::TakesMinusAsSign, "FLOOR 10e-1\n", "REFUSED 4 1", "FLOOR 1\n"),
    (JobFault::TakesPoint, "FLOOR 1.0\n", "REFUSED 4 1", "FLOOR 1\n"),
    (JobFault::TakesSecondDigit, "FLOOR 1e10\n", "REFUSED 4 1", "REFUSED 5 1"),
    (JobFault::TakesMissingDigitForZero, "FLOOR 1e\n", "REFUSED 4 1", "FLOOR 1\n"),
    (JobFault::TakesLonePlus, "FLOOR 1e+\n", "REFUSED 4 1", "FLOOR 1\n"),
    (JobFault::TakesDoubledPlus, "FLOOR 1e++1\n", "REFUSED 4 1", "FLOOR 10\n"),
    (JobFault::TakesDoubledE, "FLOOR 1ee1\n", "REFUSED 4 1", "FLOOR 10\n"),
    (JobFault::TakesSecondExponent, "FLOOR 1e0e1\n", "REFUSED 4 1", "FLOOR 10\n"),
    (JobFault::TakesPlusBefore, "FLOOR +1e1\n", "REFUSED 4 1", "FLOOR 10\n"),
    (JobFault::TakesSpaceBeforeE, "FLOOR 1_e1\n", "REFUSED 4 1", "FLOOR 10\n"),
    (JobFault::TakesSpaceBehind, "FLOOR 1e1_\n", "REFUSED 4 1", "FLOOR 10\n"),
    (JobFault::TakesCrBehind, "FLOOR 1e1\r\n", "REFUSED 4 1", "FLOOR 10\n"),
    (JobFault::TakesPowerAlone, "FLOOR e1\n", "REFUSED 4 1", "FLOOR 10\n"),
    (JobFault::TakesBytesBesideDigits, "FLOOR 1e/\n", "REFUSED 4 1", "FLOOR 1\n"),
    (JobFault::PassesLeadingZero, "FLOOR 01e1\n", "REFUSED 4 1", "FLOOR 10\n"),
    (JobFault::PassesFourDigits, "FLOOR 1000e0\n", "REFUSED 4 1", "REFUSED 5 1"),
    (JobFault::WrapsIn8Bits, "FLOOR 1e4\n", "REFUSED 5 1", "FLOOR 16\n"),
    (JobFault::WrapsIn16Bits, "FLOOR 33e8\n", "REFUSED 5 1", "FLOOR 256\n"),
    (JobFault::TakesSignIn16Bits, "FLOOR 1\nCALL 0 4e4\n", "REFUSED 5 2", "REFUSED 8 0"),
    (JobFault::TakesSignIn32Bits, "FLOOR 1\nCALL 0 3e9\n", "REFUSED 5 2", "REFUSED 8 0"),
    (JobFault::SaturatesAt255, "FLOOR 999e9\n", "REFUSED 5 1", "FLOOR 255\n"),
    (JobFault::SaturatesAt256, "FLOOR 999e9\n", "REFUSED 5 1", "FLOOR 256\n"),
    (JobFault::AddsOneToPower, "FLOOR 1e1\n", "FLOOR 10\n", "FLOOR 100\n"),
    (JobFault::TakesOneFromPower, "FLOOR 1e1\n", "FLOOR 10\n", "FLOOR 1\n"),
    (JobFault::TakesPowersOfTwo, "FLOOR 1e1\n", "FLOOR 10\n", "FLOOR 2\n"),
    (JobFault::RaisesToPower, "FLOOR 2e2\n", "FLOOR 200\n", "FLOOR 4\n"),
    (JobFault::DropsPower, "FLOOR 2e2\n", "FLOOR 200\n", "FLOOR 2\n"),
    (JobFault::TakesPowerForDigit, "FLOOR 2e2\n", "FLOOR 200\n", "FLOOR 22\n"),
    (JobFault::KeepsPowerForNextField, "FLOOR 2\nTRACK 0e9 1\n", "FLOOR 2\nTRACK 0 1\n", "REFUSED 5 2"),
    (JobFault::RefusesInFloor, "FLOOR 1e0\n", "FLOOR 1\n", "REFUSED 4 1"),
    (JobFault::RefusesInTracks, "FLOOR 2\nTRACK 0 1e0\n", "FLOOR 2\nTRACK 0 1\n", "REFUSED 4 2"),
    (JobFault::RefusesInCarts, "FLOOR 1\nCART 0e0\n", "FLOOR 1\nCART 0\n", "REFUSED 4 2"),
    (JobFault::RefusesInCalls, "FLOOR 1\nCALL 0e0 0\n", "REFUSED 8 0", "REFUSED 4 2"),
    (JobFault::RefusesInBays, "FLOOR 1\nBAY 0 0e0\n", "REFUSED 8 0", "REFUSED 4 2"),
    (JobFault::RefusesInDeadlines, "FLOOR 1\nCALL 0 0e0\n", "REFUSED 8 0", "REFUSED 4 2"),
    (JobFault::RefusesInFirstField, "FLOOR 2\nTRACK 0e0 1\n", "FLOOR 2\nTRACK 0 1\n", "REFUSED 4 2"),
    (JobFault::RefusesInLastField, "FLOOR 2\nTRACK 0 1e0\n", "FLOOR 2\nTRACK 0 1\n", "REFUSED 4 2"),
    (JobFault::TestsRangeBeforePower, "FLOOR 2e3\n", "REFUSED 5 1", "FLOOR 2000\n"),
    (JobFault::FindsDoubledBySpelling, "FLOOR 2\nTRACK 1 1e0\n", "REFUSED 7 2", "FLOOR 2\nTRACK 1 1\n"),
    (JobFault::TestsNumbersBeforeForm, "FLOOR 1e-1 1\n", "REFUSED 3 1", "REFUSED 4 1"),
    (JobFault::TestsFieldByField, "FLOOR 2\nTRACK 999e9 x\n", "REFUSED 4 2", "REFUSED 5 2"),
    (JobFault::RefusesSpareCarts, "FLOOR 1\nCART 0e0\n", "FLOOR 1\nCART 0\n", "REFUSED 8 0"),
    (JobFault::TakesFewerCarts, "FLOOR 1\nCALL 0e0 0\n", "REFUSED 8 0", "FLOOR 1\nCALL 0 0\n"),
];

#[test]
fn short_texts() {
    for &(fault, text, right, wrong) in ROWS {
        let text: Vec<u8> = tabs(text).into_iter().map(|b| if b == b'_' { b' ' } else { b }).collect();
        assert_shows(fault, &text, right, wrong);
    }
}

/// The faults that only a long text shows.
const LONG: [JobFault; 3] =
    [JobFault::CountsBeforeRange, JobFault::FindsDoubledBeforeCount, JobFault::LimitsTextAsBefore];

#[test]
fn long_texts() {
    let [count, doubled, limit] = LONG;
    assert_shows(count, &longest_with(514, "TRACK 0e0 1e3\n"), "REFUSED 5 514", "REFUSED 6 514");
    assert_shows(doubled, &longest_with(514, "TRACK 1e1 10\n"), "REFUSED 6 514", "REFUSED 7 514");
    assert_shows(limit, &longest_with(642, "CALL 0 00\n"), "REFUSED 4 642", "REFUSED 2 0");
    assert_shows(limit, &longest_text(), &shown(reader::read(&longest_text())), "REFUSED 2 0");
}

#[test]
fn no_fault_is_left_out() {
    let told: Vec<JobFault> = ROWS.iter().map(|row| row.0).chain(LONG).collect();
    assert_eq!(told, JOB_FAULTS);
}
