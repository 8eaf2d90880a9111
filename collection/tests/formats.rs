//! The forms for programs: a table with tabs, and JSON.

mod kit;

use collection::words::NUMBERS;
use harness::examples::{A, G};
use kit::mixed::mixed;
use kit::{tabs, Folder};

#[test]
fn a_table_with_tabs() {
    let rows = "\
        path\tjob\tsheet\tfiling\tnumber\tline\twords\n\
        floor 1/a.job\tplan\tright\tleft\t0\t0\tPLAN: the sheet has a plan\n\
        floor 1/b.job\tcannot\tright\tleft\t1\t0\tCANNOT: there is no plan, and the sheet has the choke points that show it\n\
        floor 1/c.job\tplan\tright\tfiled\t0\t0\tPLAN: the sheet has a plan\n\
        floor 2/d.job\tplan\twrong\tleft\t11\t2\tthe sheet is not in the form\n\
        floor 2/f.job\tplan\twrong\tleft\t12\t0\tthe sheet is in the form, yet no plan, no true choke list, or out of order\n\
        g.job\tcannot\tright\tfiled\t1\t0\tCANNOT: there is no plan, and the sheet has the choke points that show it\n\
        r.job\trefused\tunknown\tleft\t7\t3\ta second cart on a cell\n\
        u.job\trefused\tunknown\tleft\t8\t0\t#8\n";
    let rows = rows.replace("#8", NUMBERS[8].says);
    let folder = mixed();
    let summary = "8 jobs: 4 plan, 2 cannot, 2 refused; sheets: 4 right, 0 missing, 2 wrong";
    let changes: String = rows.split_inclusive('\n').filter(|row| !row.contains("right\tleft")).collect();
    folder.floors(&["plan", "--format", "tsv"]).expect(1, &changes, &format!("{summary}; 2 filed\n"));
    let later = rows.replace("\tfiled\t", "\tleft\t");
    folder.floors(&["status", "--format=tsv"]).expect(1, &later, &format!("{summary}\n"));
    let wrong: String = later.split_inclusive('\n').filter(|row| !row.contains("\tright\t")).collect();
    folder.floors(&["status", "--format=tsv", "-q"]).expect(1, &wrong, "");
    folder.put("h.job", tabs(G.job));
    let missing = "path\tjob\tsheet\tfiling\tnumber\tline\twords\nh.job\tcannot\tmissing\tdue\t\t\tno sheet\n";
    folder.floors(&["plan", "--dry-run", "--format=tsv", "-q", "h.job"]).expect(1, missing, "");
}

#[test]
fn json() {
    let folder = Folder::new();
    folder.put("a \"b\"\n.job", tabs(A.job));
    folder.put("r.job", tabs("FLOOR 1\nCART 1\n"));
    let shown = "{\"jobs\": [\n  \
        {\"path\": \"a \\\"b\\\"\\u000a.job\", \"job\": \"plan\", \"sheet\": \"missing\", \"filing\": \"left\", \
        \"words\": \"no sheet\", \"to_do\": \"floors plan writes it\"},\n  \
        {\"path\": \"r.job\", \"job\": \"refused\", \"sheet\": \"unknown\", \"filing\": \"left\", \
        \"number\": 5, \"line\": 2, \"words\": \"a cart on a cell that the floor has not\", \
        \"to_do\": \"mend that line: 1 to 256 cells, cells below their number, deadlines and steps to 255\"}\n], \
        \"summary\": {\"jobs\": 2, \"plan\": 1, \"cannot\": 0, \"refused\": 1, \"right\": 0, \"missing\": 1, \"wrong\": 0, \
        \"filed\": 0, \"due\": 0, \"troubles\": 0}}\n";
    folder.floors(&["status", "--format", "json"]).expect(1, shown, "");
    let nothing =
        "{\"jobs\": [\n], \"summary\": {\"jobs\": 0, \"plan\": 0, \"cannot\": 0, \"refused\": 0, \"right\": 0, \
        \"missing\": 0, \"wrong\": 0, \"filed\": 0, \"due\": 0, \"troubles\": 0}}\n";
    Folder::new().floors(&["check", "--format", "json"]).expect(0, nothing, "");
}
