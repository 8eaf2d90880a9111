//! A small collection with an entry of each kind.

use harness::examples::{A, B, C, D, F, F_TRADED, G};

use super::{tabs, Folder};

/// A job of each kind: with a right sheet (a PLAN, a CANNOT), a wrong one (12, 11), none, and jobs that are refused.
pub fn mixed() -> Folder {
    let folder = Folder::new();
    folder.put("floor 1/a.job", tabs(A.job));
    folder.put("floor 1/a.sheet", tabs(A.sheet));
    folder.put("floor 1/b.job", tabs(B.job));
    folder.put("floor 1/b.sheet", tabs(B.sheet));
    folder.put("floor 1/c.job", tabs(C.job));
    folder.put("floor 2/d.job", tabs(D.job));
    folder.put("floor 2/d.sheet", tabs("PLAN 1\nPATH 0 0 1\n"));
    folder.put("floor 2/f.job", tabs(F.job));
    folder.put("floor 2/f.sheet", tabs(F_TRADED));
    folder.put("g.job", tabs(G.job));
    folder.put("r.job", tabs("FLOOR 2\nCART 0\nCART 0\n"));
    folder.put("r.sheet", tabs("PLAN 0\n"));
    folder.put("u.job", tabs("FLOOR 1\nCALL 0 0\n"));
    for name in ["notes.txt", "xjob", "x.jobs", "x.JOB", "x.job~"] {
        folder.put(name, "no job");
    }
    folder.put(".hidden.job", "no job");
    folder.put(".git/x.job", "no job");
    folder
}
