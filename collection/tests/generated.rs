//! Generated collections with right, wrong, missing and stale sheets and refused jobs, held against the harness's model
//! row by row.

mod kit;

use std::collections::BTreeMap;

use harness::gen::collection::collection;
use harness::gen::damage::changed;
use harness::gen::spelled::respelled;
use harness::gen::Rng;
use harness::model::answer::{is_refusal, CANNOT, PLAN};
use harness::model::reader;
use kit::{has_plan, is_right, judged, sheet_name, Folder};

/// A row of the table without its words: job, sheet, number, line.
type Row = [String; 4];

/// A job text and what stands beside it.
struct Case {
    name: String,
    job: Vec<u8>,
    sheet: Option<Vec<u8>>,
}

impl Case {
    /// What `status` must show.
    fn row(&self) -> Row {
        let shown = |job: &str, sheet: &str, (number, line): (u8, usize)| {
            [job.to_string(), sheet.to_string(), number.to_string(), line.to_string()]
        };
        let job = match reader::read(&self.job) {
            Ok(job) => job,
            Err(refusal) => return shown("refused", "unknown", (refusal.number, refusal.line)),
        };
        let (answer, verdict) = if has_plan(&job) { (PLAN, "plan") } else { (CANNOT, "cannot") };
        match &self.sheet {
            None => [verdict, "missing", "", ""].map(str::to_string),
            Some(sheet) => match judged(&self.job, sheet) {
                (number, line) if is_refusal(number) => shown(verdict, "wrong", (number, line)),
                passed => {
                    assert_eq!(passed, (answer, 0), "{}: baseline and model differ", self.name);
                    shown(verdict, "right", passed)
                }
            },
        }
    }
}

/// Some with their numbers written in other ways. By turns: as it is, without a sheet, with a damaged sheet, with the sheet
/// of the job as it was before, damaged itself.
fn cases(count: usize, seed: u64, folder: &Folder) -> Vec<Case> {
    let rng = &mut Rng::new(seed);
    let mut former: Vec<u8> = b"PLAN\t0\n".to_vec();
    let mut case = |(i, entry): (usize, harness::gen::collection::Entry)| {
        let plain = entry.job.text();
        let job = if i % 4 == 0 { respelled(&plain, rng) } else { plain };
        let right = folder.floors_with(&["plan", "-"], &job).out.into_bytes();
        assert!(is_right(&job, &right), "{}", entry.name);
        let (job, sheet) = match i % 6 {
            0 | 1 => (job, Some(right.clone())),
            2 => (job, None),
            3 => (job, Some(changed(&right, rng))),
            4 => (job, Some(former.clone())),
            _ => (changed(&job, rng), Some(right.clone())),
        };
        former = right;
        Case { name: entry.name, job, sheet }
    };
    collection(count, seed).into_iter().enumerate().map(&mut case).collect()
}

/// The rows of a table by the names of the jobs.
fn rows(table: &str) -> BTreeMap<String, Row> {
    let row = |line: &str| {
        let fields: Vec<&str> = line.split('\t').collect();
        let [name, job, sheet, _, number, line, _] = fields[..] else { panic!("{line:?}") };
        (name.to_string(), [job, sheet, number, line].map(str::to_string))
    };
    table.lines().skip(1).map(row).collect()
}

fn count(rows: &BTreeMap<String, Row>, at: usize, word: &str) -> usize {
    rows.values().filter(|row| row[at] == word).count()
}

fn summary(rows: &BTreeMap<String, Row>) -> String {
    let [plan, cannot, refused] = ["plan", "cannot", "refused"].map(|word| count(rows, 0, word));
    let [right, missing, wrong] = ["right", "missing", "wrong"].map(|word| count(rows, 1, word));
    let jobs = rows.len();
    format!("{jobs} jobs: {plan} plan, {cannot} cannot, {refused} refused; sheets: {right} right, {missing} missing, {wrong} wrong")
}

#[test]
fn every_row_is_the_models() {
    for seed in 10..13 {
        let folder = Folder::new();
        let cases = cases(240, seed, &folder);
        for case in &cases {
            folder.put(&case.name, &case.job);
            if let Some(sheet) = &case.sheet {
                folder.put(&sheet_name(&case.name), sheet);
            }
        }
        let before = folder.files();
        let expected: BTreeMap<String, Row> = cases.iter().map(|case| (case.name.clone(), case.row())).collect();
        for (at, word) in [(0, "refused"), (1, "right"), (1, "missing"), (1, "wrong"), (2, "11"), (2, "12")] {
            assert!(count(&expected, at, word) > 5, "few {word}");
        }
        let status = folder.floors(&["status", "--format", "tsv"]);
        let found = rows(&status.out);
        let differs = |case: &&Case| found.get(&case.name) != expected.get(&case.name);
        let other: Vec<_> =
            cases.iter().filter(differs).map(|case| (&case.name, found.get(&case.name), case.row())).collect();
        assert!(other.is_empty() && found.len() == cases.len(), "found and expected: {other:?}");
        assert_eq!((status.status, status.err), (1, format!("{}\n", summary(&expected))));
        assert_eq!(folder.files(), before);

        assert_planned(&folder, &cases, &["plan"], |row| row[1] == "missing");
        assert_planned(&folder, &cases, &["plan", "--again"], |row| ["missing", "wrong"].contains(&row[1].as_str()));
    }
}

/// Those sheets that are due have been filed and are right, and no other file has changed.
fn assert_planned(folder: &Folder, cases: &[Case], words: &[&str], is_due: fn(&Row) -> bool) {
    let before = folder.files();
    let planned = folder.floors(words);
    assert_eq!((planned.status, planned.err.as_str()), (1, ""));
    let mut after = folder.files();
    for case in cases {
        let name = sheet_name(&case.name).into_bytes();
        if is_due(&case.row()) {
            let filed = after.remove(&name).expect("a sheet");
            assert!(is_right(&case.job, &filed), "{}", case.name);
        } else {
            assert_eq!(after.remove(&name), before.get(&name).cloned(), "{}", case.name);
        }
    }
    let jobs = before.iter().filter(|(name, _)| name.ends_with(b".job"));
    assert!(after.iter().eq(jobs));
}
