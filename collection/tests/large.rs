//! A collection of 10,000 jobs, planned and looked at.

mod kit;

use kit::{has_plan, is_right, sheet_name, Folder};

#[test]
fn ten_thousand_jobs() {
    let (folder, entries) = Folder::with_jobs(10_000, 1);
    let plans = entries.iter().filter(|entry| has_plan(&entry.job)).count();
    let summary = format!(
        "10000 jobs: {plans} plan, {} cannot, 0 refused; sheets: 10000 right, 0 missing, 0 wrong",
        10_000 - plans
    );
    let planned = folder.floors(&["plan"]);
    assert_eq!((planned.status, planned.err.as_str()), (0, ""));
    assert_eq!(planned.summary(), format!("{summary}; 10000 filed"));
    for entry in &entries {
        assert!(is_right(&entry.job.text(), &folder.get(&sheet_name(&entry.name))), "{}", entry.name);
    }
    assert_eq!(folder.files().len(), 20_000);

    let one = folder.floors(&["status", "-j1"]);
    assert_eq!((one.status, one.summary()), (0, summary.as_str()));
    let names: Vec<&str> =
        one.out.lines().filter_map(|line| line.split_once(": right ")).map(|(name, _)| name).collect();
    let expected: Vec<String> = entries.iter().map(|entry| sheet_name(&entry.name)).collect();
    assert_eq!(names, expected, "in the order of the names");
    for threads in ["2", "16"] {
        folder.floors(&["status", "-j", threads]).expect(0, &one.out, "");
    }
}
