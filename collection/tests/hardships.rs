//! Files and folders that cannot be read or written, odd names, and things that are no files. Each is named on standard
//! error, the rest goes on, and nothing else changes.

mod kit;

use std::ffi::OsStr;
use std::fs;
use std::os::unix::ffi::OsStrExt;
use std::os::unix::fs::{symlink, PermissionsExt};
use std::process::Command;

use harness::examples::{A, B, C, D, F, G};
use kit::nobody::Theirs;
use kit::{ran, tabs, Folder};

const DENIED: &str = "Permission denied (os error 13)";

#[test]
fn files_that_cannot_be_read() {
    let theirs = Theirs::new();
    let folder = theirs.folder();
    folder.put("a.job", tabs(A.job));
    folder.put("b.job", tabs(B.job));
    folder.put("b.sheet", tabs("PLAN 0\n"));
    folder.put("shut/c.job", tabs(C.job));
    folder.put("z.job", tabs(D.job));
    let closed = ["a.job", "b.sheet", "shut"];
    for name in closed {
        theirs.close(name, 0);
    }
    for options in [&["plan"][..], &["plan", "--again"], &["plan", "--force", "-j1"]] {
        let _ = fs::remove_file(folder.path("z.sheet"));
        let ran = theirs.floors(options);
        let filed = "z.sheet: filed PLAN\n3 jobs: 1 plan, 1 cannot, 0 refused; \
                     sheets: 1 right, 0 missing, 0 wrong; 1 filed; 3 not read or not written\n";
        let named = format!(
            "shut: error: cannot be read: {DENIED}\na.job: error: cannot be read: {DENIED}\n\
             b.sheet: error: cannot be read: {DENIED}\n"
        );
        ran.expect(2, filed, &named);
    }
    for name in closed {
        theirs.close(name, 0o755);
    }
    assert_eq!(folder.get("b.sheet"), tabs("PLAN 0\n"), "what cannot be read is not replaced");
    assert_eq!(folder.get("z.sheet"), tabs(D.sheet));
    assert_eq!(folder.files().len(), 6);
}

#[test]
fn folders_that_cannot_be_written_to() {
    let theirs = Theirs::new();
    let folder = theirs.folder();
    folder.put("1/a.job", tabs(A.job));
    folder.put("2/f.job", tabs(F.job));
    folder.put("2/f.sheet", tabs("PLAN 0\n"));
    folder.put("3/g.job", tabs(G.job));
    for name in ["1", "2"] {
        theirs.close(name, 0o555);
    }
    let shown = "1/a.job: error: no sheet; the answer is PLAN\n2/f.sheet:1: error[11]: the sheet is not in the form\n";
    let named =
        format!("1/a.sheet: error: cannot be written: {DENIED}\n2/f.sheet: error: cannot be written: {DENIED}\n");
    theirs.floors(&["plan", "--again", "-q"]).expect(2, shown, &named);
    theirs.floors(&["check", "-q"]).expect(1, shown, "");
    let table = "path\tjob\tsheet\tfiling\tnumber\tline\twords\n1/a.job\tplan\tmissing\tfailed\t\t\tno sheet\n";
    let first = named.split_inclusive('\n').next().expect("a line");
    theirs.floors(&["plan", "-q", "--format=tsv", "1"]).expect(2, table, first);
    assert_eq!(folder.get("2/f.sheet"), tabs("PLAN 0\n"));
    assert_eq!(folder.get("3/g.sheet"), tabs(G.sheet));
    assert_eq!(folder.files().len(), 5);
    for name in ["1", "2"] {
        theirs.close(name, 0o755);
    }
}

/// A wrong sheet is replaced also where only its folder can be written to; the new one has its permissions.
#[test]
fn permissions_stay() {
    let folder = Folder::new();
    folder.put("a.job", tabs(A.job));
    folder.put("a.sheet", tabs("PLAN 0\n"));
    let mode = || fs::metadata(folder.path("a.sheet")).expect("a sheet").permissions().mode() & 0o777;
    fs::set_permissions(folder.path("a.sheet"), fs::Permissions::from_mode(0o460)).expect("other permissions");
    folder.floors(&["plan", "--again", "-q"]).expect(0, "", "");
    assert_eq!((mode(), folder.get("a.sheet")), (0o460, tabs(A.sheet)));
}

/// Pipes, folders and links that lead nowhere in the place of files; links to folders, also round in a ring.
#[test]
fn things_that_are_no_files() {
    let folder = Folder::new();
    folder.put("a.job", tabs(A.job));
    fs::create_dir(folder.path("a.sheet")).expect("a folder");
    let pipe = Command::new("mkfifo").arg(folder.path("b.job")).status().expect("mkfifo");
    assert!(pipe.success());
    symlink("nowhere", folder.path("c.job")).expect("a link");
    folder.put("d.job/d.job", tabs(D.job));
    symlink("a.job", folder.path("e.job")).expect("a link");
    symlink(".", folder.path("ring")).expect("a link");
    symlink("..", folder.path("d.job/ring.job")).expect("a link");
    let before = folder.files();
    let shown = "d.job/d.sheet: filed PLAN\ne.sheet: filed PLAN\n\
        5 jobs: 3 plan, 0 cannot, 0 refused; sheets: 2 right, 0 missing, 0 wrong; 2 filed; 3 not read or not written\n";
    let named = "a.sheet: error: cannot be read: it is no file\nb.job: error: cannot be read: it is no file\n\
        c.job: error: cannot be read: No such file or directory (os error 2)\n";
    folder.floors(&["plan", "--force"]).expect(2, shown, named);
    let mut after = folder.files();
    assert_eq!(after.remove(b"d.job/d.sheet".as_slice()), Some(tabs(D.sheet)));
    assert_eq!(after.remove(b"e.sheet".as_slice()), Some(tabs(A.sheet)));
    assert_eq!(after, before);
}

#[test]
fn odd_names() {
    let folder = Folder::new();
    let names: [&[u8]; 8] = [
        b"-j.job",
        b"a b.job",
        b"back\\slash.job",
        b"bell\x07.job",
        b"line\nbreak.job",
        b"no utf \xff\xfe.job",
        b"tab\tbed.job",
        "öß.job".as_bytes(),
    ];
    let path = |name: &[u8]| folder.0.join(OsStr::from_bytes(name));
    for name in names {
        fs::write(path(name), tabs(D.job)).expect("a job");
    }
    let shown =
        "-j.sheet: filed PLAN\na b.sheet: filed PLAN\nback\\\\slash.sheet: filed PLAN\nbell\\x07.sheet: filed PLAN\n\
        line\\nbreak.sheet: filed PLAN\nno utf \\xff\\xfe.sheet: filed PLAN\ntab\\tbed.sheet: filed PLAN\n\
        öß.sheet: filed PLAN\n8 jobs: 8 plan, 0 cannot, 0 refused; sheets: 8 right, 0 missing, 0 wrong; 8 filed\n";
    folder.floors(&["plan"]).expect(0, shown, "");
    for name in names {
        let sheet = [name.strip_suffix(b".job").expect("a job"), b".sheet"].concat();
        assert_eq!(fs::read(path(&sheet)).expect("a sheet"), tabs(D.sheet), "{:?}", OsStr::from_bytes(name));
    }
    folder.floors(&["check", "-q", "--", "-j.job"]).expect(0, "", "");
    folder.floors(&["check", "-q", "./-j.job"]).expect(0, "", "");
    let table = folder.floors(&["status", "--format", "tsv"]);
    assert_eq!(table.out.lines().count(), 9);
    assert!(table.out.lines().all(|line| line.split('\t').count() == 7), "{}", table.out);
    let json = folder.floors(&["status", "--format", "json"]).out;
    let parsed = paths_of(&json);
    let named = names.map(|name| String::from_utf8_lossy(name).into_owned());
    assert_eq!(parsed, named.join("\0") + "\0");
    assert!(
        json.contains("\"path\": \"no utf \u{fffd}\u{fffd}.job\", \"path_hex\": \"6e6f2075746620fffe2e6a6f62\""),
        "{json}"
    );
    assert!(json.contains("\"path\": \"bell\\u0007.job\""), "{json}");
}

/// The names in a report, as a reader of JSON sees them, each with a zero behind it.
fn paths_of(json: &str) -> String {
    let read = "import json,sys; [sys.stdout.write(job['path'] + chr(0)) for job in json.load(sys.stdin)['jobs']]";
    let mut python = Command::new("python3");
    python.args(["-c", read]).env("PYTHONIOENCODING", "utf-8");
    let ended = ran(python, json.as_bytes());
    assert_eq!((ended.status, ended.err.as_str()), (0, ""));
    ended.out
}

/// A folder that is removed while one is in it is named; its jobs are no longer there to be found.
#[test]
fn a_folder_that_has_been_removed() {
    let folder = Folder::new();
    folder.put("here/a.job", tabs(A.job));
    let mut shell = Command::new("sh");
    shell.args(["-c", "rm -r ../here; exec \"$0\" status -q"]).arg(env!("CARGO_BIN_EXE_floors"));
    shell.current_dir(folder.path("here"));
    ran(shell, b"").expect(2, "", ".: error: has been removed\n");
}

/// The sheet's name is longer than the job's, and too long where the job's is at the limit of 255 bytes.
#[test]
fn the_longest_names() {
    let folder = Folder::new();
    let (fits, too_long) = ("x".repeat(249), "y".repeat(250));
    for name in [&fits, &too_long] {
        folder.put(&format!("{name}.job"), tabs(D.job));
    }
    let named = format!("{too_long}.sheet: error: cannot be read: File name too long (os error 36)\n");
    let filed = format!("{fits}.sheet: filed PLAN\n");
    let ran = folder.floors(&["plan"]);
    assert_eq!((ran.status, ran.err.as_str()), (2, named.as_str()));
    assert!(ran.out.starts_with(&filed), "{}", ran.out);
    assert_eq!(folder.files().len(), 3);
}

/// A job comes once, by the first of its names.
#[test]
fn a_job_named_twice() {
    let folder = Folder::new();
    folder.put("1/a.job", tabs(A.job));
    folder.put("1/a.sheet", tabs(A.sheet));
    let here = folder.0.to_str().expect("text").to_string();
    let shown = "1/a.sheet: right PLAN\n1 job: 1 plan, 0 cannot, 0 refused; sheets: 1 right, 0 missing, 0 wrong\n";
    folder.floors(&["status", "1", "1/a.job", "./1/../1", &here, "."]).expect(0, shown, "");
}

/// Longer than any job or sheet can be: refused by the library, without reading all of it.
#[test]
fn long_files() {
    let folder = Folder::new();
    folder.put("a.job", [tabs(A.job), b"x".repeat(20_000_000)].concat());
    folder.put("d.job", tabs(D.job));
    folder.put("d.sheet", [tabs(D.sheet), b"\n".repeat(20_000_000)].concat());
    folder.put("f.job", tabs(F.job));
    folder.put("f.sheet", [tabs("PLAN 2\nPATH 0 0"), b"\t0".repeat(10_000_000), b"\n".to_vec()].concat());
    let shown = "a.job: error[2]: the text is over 16,384 bytes\nd.sheet:3: error[11]: the sheet is not in the form\n\
        f.sheet:2: error[11]: the sheet is not in the form\n";
    folder.floors(&["check", "-q"]).expect(1, shown, "");
}
