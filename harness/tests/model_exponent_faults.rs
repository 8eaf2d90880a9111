//! The texts with exponents show each fault in a reader of jobs, and none where there is none.

use harness::compare::show;
use harness::faulty::job::{self, JobFault, HARMLESS, JOB_FAULTS};
use harness::gen::exponents::TEXTS;
use harness::model::answer::Refusal;
use harness::model::job::Job;
use harness::model::reader;

/// A text, and what the model reads.
type Read = (Vec<u8>, Result<Job, Refusal>);

/// The texts of each kind.
fn texts() -> Vec<Vec<Read>> {
    let read = |text: Vec<u8>| {
        let job = reader::read(&text);
        (text, job)
    };
    TEXTS.iter().map(|(_, texts)| texts().into_iter().map(read).collect()).collect()
}

/// The texts of a kind that show a fault by number and line alone: `check_exponents` tries all of them.
fn showing(fault: JobFault, texts: &[Read]) -> impl Iterator<Item = &Read> {
    texts.iter().filter(move |(text, right)| job::read(text, fault).err() != right.as_ref().err().copied())
}

/// Nor where the fault is harmless. The jobs are the same as well.
#[test]
fn no_fault_is_found_where_there_is_none() {
    for (text, right) in texts().into_iter().flatten() {
        for fault in [JobFault::None].into_iter().chain(HARMLESS) {
            assert_eq!(job::read(&text, fault), right, "{fault:?}: {}", show(&text));
        }
    }
}

/// More than once each by one kind of texts, so that it is not left to luck.
#[test]
fn each_fault_is_found() {
    let texts = texts();
    for &fault in JOB_FAULTS {
        let finds = |texts: &Vec<Read>| showing(fault, texts).take(5).count() == 5;
        let kind = texts.iter().position(finds).unwrap_or_else(|| panic!("{fault:?} is not found"));
        println!("{fault:?}: {}", TEXTS[kind].0);
    }
}
