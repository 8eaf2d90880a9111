//! Help, and what is wrong use.

mod kit;

use harness::examples::A;
use kit::{tabs, Folder};

#[test]
fn wrong_use() {
    let folder = Folder::new();
    folder.put("a.job", tabs(A.job));
    folder.put("a.txt", tabs(A.job));
    let cases: [(&[&str], &str); 22] = [
        (&[], "floors: which command? `floors --help` lists them\n"),
        (&["stat"], "floors: there is no command \"stat\"; `floors --help` lists them\n"),
        (&["status", "--what"], "floors: there is no option \"--what\"; `floors status --help` lists what there is\n"),
        (&["status", "-x"], "floors: there is no option \"-x\"; `floors status --help` lists what there is\n"),
        (
            &["status", "--again"],
            "floors: there is no option \"--again\"; `floors status --help` lists what there is\n",
        ),
        (&["check", "--force"], "floors: there is no option \"--force\"; `floors check --help` lists what there is\n"),
        (
            &["check", "--dry-run"],
            "floors: there is no option \"--dry-run\"; `floors check --help` lists what there is\n",
        ),
        (
            &["plan", "--again=yes"],
            "floors: there is no option \"--again=yes\"; `floors plan --help` lists what there is\n",
        ),
        (&["plan", "-j"], "floors: -j takes a value; `floors plan --help` lists what there is\n"),
        (
            &["plan", "-j0"],
            "floors: \"0\" is no number of threads from 1 to 1024; `floors plan --help` lists what there is\n",
        ),
        (
            &["plan", "--jobs=many"],
            "floors: \"many\" is no number of threads from 1 to 1024; `floors plan --help` lists what there is\n",
        ),
        (
            &["plan", "--format", "xml"],
            "floors: there is no format \"xml\", but tty, tsv and json; `floors plan --help` lists what there is\n",
        ),
        (
            &["plan", "--fail-on", "plan"],
            "floors: --fail-on takes cannot, not \"plan\"; `floors plan --help` lists what there is\n",
        ),
        (&["plan", "-", "a.job"], "floors: - stands alone: one job on standard input\n"),
        (&["help", "stat"], "floors: there is no command \"stat\"; `floors --help` lists them\n"),
        (&["help", "plan", "check"], "floors: help is for one command\n"),
        (&["--help", "plans"], "floors: there is no command \"plans\"; `floors --help` lists them\n"),
        (&["--version", "1"], "floors: --version stands alone\n"),
        (&["explain", "15"], "floors: \"15\" is no number of the library's; those are 0 to 14\n"),
        (&["explain", "x"], "floors: \"x\" is no number of the library's; those are 0 to 14\n"),
        (&["explain", "1", "2"], "floors: `floors explain` takes one number\n"),
        (
            &["plan", "a.job", "--dry"],
            "floors: there is no option \"--dry\"; `floors plan --help` lists what there is\n",
        ),
    ];
    for (words, err) in cases {
        folder.floors(words).expect(2, "", err);
    }
    let none = "0 jobs: 0 plan, 0 cannot, 0 refused; sheets: 0 right, 0 missing, 0 wrong; 1 not read or not written\n";
    let missing = "b.job: error: cannot be read: No such file or directory (os error 2)\n";
    folder.floors(&["status", "b.job"]).expect(2, none, missing);
    let no_job = "a.txt: error: is neither a folder nor called NAME.job\n";
    folder.floors(&["status", "a.txt"]).expect(2, none, no_job);
    let unnamed = "'': error: cannot be read: No such file or directory (os error 2)\n";
    folder.floors(&["status", ""]).expect(2, none, unnamed);
    assert_eq!(folder.files().len(), 2);
}

#[test]
fn help_for_all_and_each() {
    let folder = Folder::new();
    let all = folder.floors(&["--help"]);
    assert_eq!((all.status, all.err.as_str()), (0, ""));
    for command in ["status", "plan", "check", "explain"] {
        assert!(all.out.contains(&format!("floors {command} [")), "{command}");
        let own = folder.floors(&[command, "--help"]);
        assert!(own.status == 0 && own.out.starts_with(&format!("floors {command} [")), "{command}: {}", own.out);
        for words in [[command, "-h"], ["help", command], ["--help", command]] {
            folder.floors(&words).expect(0, &own.out, "");
        }
    }
    folder.floors(&["-h"]).expect(0, &all.out, "");
    assert!(folder.floors(&["--version"]).out.starts_with("floors "));
    for option in
        ["--jobs", "--format", "--fail-on", "--quiet", "--help", "--version", "--again", "--force", "--dry-run"]
    {
        assert!(all.out.contains(option), "{option}");
    }
}
