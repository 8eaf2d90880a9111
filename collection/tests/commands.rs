//! What each command shows, writes and ends with. Expected sheets and verdicts are the filed examples', or the harness's.

mod kit;

use std::fs;
use std::os::unix::fs::MetadataExt;

use collection::words::{Words, NUMBERS};
use harness::examples::spares::{D_WITHOUT_CALL, FULL, GATE};
use harness::examples::{e_in_bay, A, A_BY_CALL, B, C, D, F, G, PLANNED, WHOLE};
use kit::mixed::mixed;
use kit::{is_right, tabs, Folder};

const DOUBLED: &str = "r.job:3: error[7]: a second cart on a cell\n    to do: strike that line\n";
const BAD: &str = "floor 2/d.sheet:2: error[11]: the sheet is not in the form\n    \
    to do: do not run it: see that line's word, numbers and count of fields, or plan the job again (floors plan --again)\n";
const WRONG: &str =
    "floor 2/f.sheet: error[12]: the sheet is in the form, yet no plan, no true choke list, or out of order\n    \
    to do: do not run it: plan the job again (floors plan --again)\n";
const NONE_OF_C: &str = "floor 1/c.job: error: no sheet; the answer is PLAN\n    to do: floors plan writes it\n";
const NONE_OF_G: &str = "g.job: error: no sheet; the answer is CANNOT\n    to do: floors plan writes it\n";

/// Fewer carts than calls, in the words that `words` holds against the README.
fn uneven() -> String {
    let Words { says, advice, .. } = &NUMBERS[8];
    format!("u.job: error[8]: {says}\n    to do: {advice}\n")
}

#[test]
fn status_shows_every_job() {
    let right = "floor 1/a.sheet: right PLAN\nfloor 1/b.sheet: right CANNOT\n";
    let summary = "8 jobs: 4 plan, 2 cannot, 2 refused; sheets: 2 right, 2 missing, 2 wrong\n";
    let all = [right, NONE_OF_C, BAD, WRONG, NONE_OF_G, DOUBLED, &uneven(), summary].concat();
    let folder = mixed();
    let before = folder.files();
    folder.floors(&["status"]).expect(1, &all, "");
    folder.floors(&["status", "."]).expect(1, &all, "");
    folder.floors(&["status", "-j1", "floor 1", "floor 2", "g.job", "r.job", "--", "u.job"]).expect(1, &all, "");
    assert_eq!(folder.files(), before);
}

#[test]
fn check_shows_what_is_wrong() {
    let summary = "8 jobs: 4 plan, 2 cannot, 2 refused; sheets: 2 right, 2 missing, 2 wrong\n";
    let wrong = [NONE_OF_C, BAD, WRONG, NONE_OF_G, DOUBLED, &uneven(), summary].concat();
    let folder = mixed();
    let before = folder.files();
    folder.floors(&["check"]).expect(1, &wrong, "");
    let quiet: String =
        wrong.lines().filter(|line| !line.starts_with("    ")).map(|line| format!("{line}\n")).collect();
    folder.floors(&["check", "-q"]).expect(1, quiet.strip_suffix(summary).expect("a summary"), "");
    folder.floors(&["check", "-q", "floor 1/a.job", "floor 1/b.job"]).expect(0, "", "");
    assert_eq!(folder.files(), before);
}

#[test]
fn plan_writes_the_missing_sheets() {
    let folder = mixed();
    let mut files = folder.files();
    let filed = "floor 1/c.sheet: filed PLAN\n";
    let filed_too = "g.sheet: filed CANNOT\n";
    let summary = "8 jobs: 4 plan, 2 cannot, 2 refused; sheets: 4 right, 0 missing, 2 wrong; 2 filed\n";
    let shown = [filed, BAD, WRONG, filed_too, DOUBLED, &uneven(), summary].concat();
    folder.floors(&["plan"]).expect(1, &shown, "");
    files.insert(b"floor 1/c.sheet".to_vec(), tabs(C.sheet));
    files.insert(b"g.sheet".to_vec(), tabs(G.sheet));
    assert_eq!(folder.files(), files);
    let summary = "8 jobs: 4 plan, 2 cannot, 2 refused; sheets: 4 right, 0 missing, 2 wrong\n";
    folder.floors(&["plan"]).expect(1, &[BAD, WRONG, DOUBLED, &uneven(), summary].concat(), "");
    assert_eq!(folder.files(), files);
}

#[test]
fn plan_again_writes_wrong_sheets_too() {
    let folder = mixed();
    let mut files = folder.files();
    let lines = "floor 1/c.sheet: filed PLAN\nfloor 2/d.sheet: filed PLAN\nfloor 2/f.sheet: filed PLAN\ng.sheet: filed CANNOT\n";
    let summary = "8 jobs: 4 plan, 2 cannot, 2 refused; sheets: 6 right, 0 missing, 0 wrong; 4 filed\n";
    folder.floors(&["plan", "--again"]).expect(1, &[lines, DOUBLED, &uneven(), summary].concat(), "");
    for (name, sheet) in [("floor 1/c", C.sheet), ("floor 2/d", D.sheet), ("g", G.sheet)] {
        files.insert(format!("{name}.sheet").into_bytes(), tabs(sheet));
    }
    let of_f = folder.get("floor 2/f.sheet");
    assert!(is_right(&tabs(F.job), &of_f));
    files.insert(b"floor 2/f.sheet".to_vec(), of_f);
    assert_eq!(folder.files(), files);
    folder.floors(&["plan", "--again", "-q", "floor 1", "floor 2"]).expect(0, "", "");
}

/// Equal deadlines in the order of the job, as sheets were filed once.
#[test]
fn plan_again_writes_sheets_in_the_former_order_anew() {
    let folder = Folder::new();
    folder.put("a.job", tabs(A.job));
    folder.put("a.sheet", tabs(A_BY_CALL));
    let wrong = "a.sheet: error[12]: the sheet is in the form, yet no plan, no true choke list, or out of order\n";
    folder.floors(&["check", "-q"]).expect(1, wrong, "");
    folder.floors(&["plan", "-q"]).expect(1, wrong, "");
    assert_eq!(folder.get("a.sheet"), tabs(A_BY_CALL));
    folder.floors(&["plan", "-q", "--again"]).expect(0, "", "");
    assert_eq!(folder.get("a.sheet"), tabs(A.sheet));
}

#[test]
fn a_dry_run_writes_nothing() {
    let folder = mixed();
    let before = folder.files();
    let due = "floor 1/c.sheet: would be filed: PLAN\nfloor 2/d.sheet: would be filed: PLAN\n\
               floor 2/f.sheet: would be filed: PLAN\ng.sheet: would be filed: CANNOT\n";
    let summary = "8 jobs: 4 plan, 2 cannot, 2 refused; sheets: 2 right, 2 missing, 2 wrong; 4 to be filed\n";
    folder.floors(&["plan", "--again", "--dry-run"]).expect(1, &[due, DOUBLED, &uneven(), summary].concat(), "");
    assert_eq!(folder.files(), before);
}

/// A job with several right sheets; one may be the planner's, the other comes from another hand.
#[test]
fn only_force_replaces_a_right_sheet() {
    let folder = Folder::new();
    let job = tabs("FLOOR 2\nTRACK 0 1\nCART 0\nCALL 0 2\n");
    let planned = folder.floors_with(&["plan", "-"], &job).out.into_bytes();
    let right = ["PLAN 1\nPATH 0 0 0 0 0\n", "PLAN 1\nPATH 0 0 0\n"].map(tabs);
    let other = right.iter().find(|sheet| **sheet != planned).expect("two sheets that differ");
    assert!(is_right(&job, &planned) && is_right(&job, other));
    folder.put("x.job", &job);
    folder.put("x.sheet", other);
    let summary = "1 job: 1 plan, 0 cannot, 0 refused; sheets: 1 right, 0 missing, 0 wrong";
    for words in [&["plan"][..], &["plan", "--again"]] {
        folder.floors(words).expect(0, &format!("{summary}\n"), "");
        assert_eq!(&folder.get("x.sheet"), other, "{words:?}");
    }
    let due = format!("x.sheet: would be filed: PLAN\n{summary}; 1 to be filed\n");
    folder.floors(&["plan", "--force", "--dry-run"]).expect(0, &due, "");
    assert_eq!(&folder.get("x.sheet"), other);
    let filed = format!("x.sheet: filed PLAN\n{summary}; 1 filed\n");
    folder.floors(&["plan", "--force"]).expect(0, &filed, "");
    assert_eq!(folder.get("x.sheet"), planned);
    for words in [["plan", "--force", "--again"], ["plan", "--again", "--force"]] {
        folder.put("x.sheet", other);
        folder.floors(&words).expect(0, &filed, "");
    }
    // The same bytes once more: nothing to be filed.
    let inode = || fs::metadata(folder.path("x.sheet")).expect("a sheet").ino();
    let before = inode();
    folder.floors(&["plan", "--force"]).expect(0, &format!("{summary}\n"), "");
    assert_eq!(inode(), before);
}

#[test]
fn a_right_cannot_is_a_fault_where_that_is_asked_for() {
    let folder = Folder::new();
    folder.put("b.job", tabs(B.job));
    let right = "1 job: 0 plan, 1 cannot, 0 refused; sheets: 1 right, 0 missing, 0 wrong";
    folder.floors(&["plan"]).expect(0, &format!("b.sheet: filed CANNOT\n{right}; 1 filed\n"), "");
    folder.floors(&["status"]).expect(0, &format!("b.sheet: right CANNOT\n{right}\n"), "");
    folder.floors(&["check"]).expect(0, &format!("{right}\n"), "");
    let fault = "b.sheet: error[1]: CANNOT: there is no plan, and the sheet has the choke points that show it\n";
    for command in ["status", "check", "plan"] {
        folder.floors(&[command, "--fail-on", "cannot", "-q"]).expect(1, fault, "");
        folder.floors(&[command, "--fail-on=cannot", "-q"]).expect(1, fault, "");
    }
    folder.floors_with(&["plan", "--fail-on=cannot", "-q", "-"], &tabs(B.job)).expect(
        1,
        "CANNOT\t1\nCHOKE\t1\t0\n",
        &fault.replace("b.sheet", "-"),
    );
}

#[test]
fn one_job_on_standard_input() {
    let folder = Folder::new();
    let examples = [A, B, C, D, G, WHOLE].map(|example| (tabs(example.job), tabs(example.sheet)));
    for (job, sheet) in examples.into_iter().chain([e_in_bay()]) {
        folder.floors_with(&["plan", "-"], &job).expect(0, std::str::from_utf8(&sheet).expect("text"), "");
    }
    for job in PLANNED.iter().map(|example| tabs(example.job)) {
        let planned = folder.floors_with(&["plan", "-"], &job);
        assert_eq!((planned.status, planned.err.as_str()), (0, ""));
        assert!(is_right(&job, planned.out.as_bytes()));
    }
    folder.floors_with(&["plan", "-"], &tabs("FLOOR 2\nCART 0\nCART 0\n")).expect(
        1,
        "",
        &DOUBLED.replace("r.job", "-"),
    );
    folder.floors_with(&["plan", "-q", "-"], b"").expect(
        1,
        "",
        "-:1: error[3]: a line has no LF, a wrong word, a word out of order or a wrong count of fields; or the text is empty\n",
    );
    folder.floors_with(&["plan", "-q", "-"], &b"x".repeat(16_385)).expect(
        1,
        "",
        "-: error[2]: the text is over 16,384 bytes\n",
    );
    folder.floors_with(&["plan", "--dry-run", "-"], &tabs(A.job)).expect(1, "", "-: would be filed: PLAN\n");
    folder.floors_with(&["status", "-q", "-"], &tabs(A.job)).expect(1, "-: error: no sheet; the answer is PLAN\n", "");
    assert!(folder.files().is_empty());
}

/// Bays are planned, checked and filed with the calls.
#[test]
fn bays() {
    let folder = Folder::new();
    let bay = "FLOOR 5\nTRACK 0 1\nTRACK 1 2\nTRACK 1 3\nTRACK 3 4\nCART 0\nCART 4\nBAY 1 2\nCALL 2 2\n";
    let closed = "FLOOR 3\nTRACK 0 1\nTRACK 1 2\nCART 0\nCART 1\nBAY 1 0\nCALL 2 2\n";
    folder.put("bay.job", tabs(bay));
    folder.put("closed.job", tabs(closed));
    let summary = "2 jobs: 1 plan, 1 cannot, 0 refused; sheets: 2 right, 0 missing, 0 wrong; 2 filed\n";
    let filed = format!("bay.sheet: filed PLAN\nclosed.sheet: filed CANNOT\n{summary}");
    folder.floors(&["plan"]).expect(0, &filed, "");
    assert_eq!(folder.get("bay.sheet"), tabs("PLAN 2\nPATH 1 0 4 3 1\nPATH 0 1 0 1 2\n"));
    assert_eq!(folder.get("closed.sheet"), tabs("CANNOT 1\nCHOKE 1 0\n"));
    // Right as long as the bay is a call: cart 0 goes over cell 1 at step 1.
    folder.put("closed.sheet", tabs("PLAN 2\nPATH 1 0 1\nPATH 0 1 0 1 2\n"));
    let wrong = "closed.sheet: error[12]: the sheet is in the form, yet no plan, no true choke list, or out of order\n";
    folder.floors(&["check", "-q"]).expect(1, wrong, "");
    folder.put("closed.job", tabs(&closed.replace("BAY", "CALL")));
    folder.floors(&["check", "-q"]).expect(0, "", "");
}

/// Jobs with more carts than calls are planned, and their sheets need the lines of the spare carts.
#[test]
fn spare_carts() {
    let folder = Folder::new();
    for (name, example) in [("d.job", D_WITHOUT_CALL), ("full.job", FULL), ("gate.job", GATE)] {
        folder.put(name, tabs(example.job));
    }
    let summary = "3 jobs: 2 plan, 1 cannot, 0 refused; sheets: 3 right, 0 missing, 0 wrong; 3 filed\n";
    let filed = format!("d.sheet: filed PLAN\nfull.sheet: filed PLAN\ngate.sheet: filed CANNOT\n{summary}");
    folder.floors(&["plan"]).expect(0, &filed, "");
    for (name, example) in [("d.sheet", D_WITHOUT_CALL), ("full.sheet", FULL), ("gate.sheet", GATE)] {
        assert_eq!(folder.get(name), tabs(example.sheet), "{name}");
    }
    // Without its SPARE line, and with a spare cart that comes into the bay.
    folder.put("d.sheet", tabs("PLAN 0\n"));
    folder.put("full.sheet", tabs("PLAN 1\nPATH 0 0 0 0\nSPARE 1 1 0\n"));
    let [bad, wrong] = [11, 12].map(|number| NUMBERS[number].says);
    let told = format!("d.sheet:2: error[11]: {bad}\nfull.sheet: error[12]: {wrong}\n");
    folder.floors(&["check", "-q"]).expect(1, &told, "");
}

/// What is refused about a bay, told with the line's word.
#[test]
fn refused_bays() {
    let second = "-:5: error[7]: a second call or bay on a cell\n";
    let out_of_range = "-:4: error[5]: a bay on a cell that the floor has not, or a step over 255\n";
    let uneven = format!("-: error[8]: {}\n", NUMBERS[8].says);
    let jobs = [
        ("CALL 0 0\nBAY 0 1\n", second),
        ("BAY 0 1\nCALL 0 0\n", second),
        ("BAY 0 1\nBAY 0 0\n", second),
        ("BAY 3 0\n", out_of_range),
        ("BAY 0 256\n", out_of_range),
        ("BAY 0 0\nCALL 1 0\nBAY 2 0\n", &uneven),
    ];
    for (lines, told) in jobs {
        let job = tabs(&format!("FLOOR 3\nCART 0\nCART 1\n{lines}"));
        Folder::new().floors_with(&["plan", "-q", "-"], &job).expect(1, "", told);
    }
    let carts: String = (0..64).map(|cell| format!("CART {cell}\n")).collect();
    for words in [["CALL", "BAY"], ["BAY", "CALL"]] {
        let both: String = (0..65).map(|cell| format!("{} {cell} 0\n", words[cell / 33])).collect();
        let job = tabs(&format!("FLOOR 65\n{carts}{both}"));
        let told = "-:130: error[6]: more than 64 calls and bays\n";
        Folder::new().floors_with(&["plan", "-q", "-"], &job).expect(1, "", told);
    }
}

/// A sheet without its job cannot be checked: it is named, and left alone.
#[test]
fn a_sheet_without_its_job() {
    let folder = Folder::new();
    folder.put("1/a.job", tabs(A.job));
    folder.put("1/a.sheet", tabs(A.sheet));
    folder.put("1/b.sheet", tabs(B.sheet));
    folder.put("2/.c.sheet", tabs(C.sheet));
    let summary = "1 job: 1 plan, 0 cannot, 0 refused; sheets: 1 right, 0 missing, 0 wrong\n";
    for command in ["check", "plan"] {
        folder.floors(&[command]).expect(0, summary, "1/b.sheet: warning: no job beside it\n");
        folder.floors(&[command, "-q"]).expect(0, "", "");
    }
    folder.floors(&["check", "1/a.job"]).expect(0, summary, "");
    assert_eq!(folder.files().len(), 4);
}

/// Hidden names are left out of a search, and not where they are named.
#[test]
fn a_hidden_job_that_is_named() {
    let folder = Folder::new();
    folder.put(".a.job", tabs(A.job));
    folder.put(".git/b.job", tabs(B.job));
    folder.floors(&["plan", "-q"]).expect(0, "", "");
    assert_eq!(folder.files().len(), 2);
    let summary = "2 jobs: 1 plan, 1 cannot, 0 refused; sheets: 2 right, 0 missing, 0 wrong; 2 filed\n";
    let filed = format!(".a.sheet: filed PLAN\n.git/b.sheet: filed CANNOT\n{summary}");
    folder.floors(&["plan", ".a.job", ".git"]).expect(0, &filed, "");
}
