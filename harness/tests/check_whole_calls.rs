//! Choke lists with whole calls, with the answers told by hand. Tabs are shown as spaces.

use harness::compare::{assert_sheets, library};
use harness::examples::{tabs, A, BUFFER, WHOLE};
use harness::gen::large::late_star;
use harness::model::answer::*;
use harness::model::limits::store_least;
use harness::model::limits::{CALLS, DEADLINE};
use harness::model::sheet::{Choke, Sheet};

#[test]
fn no_list_of_one_cell_stops_two_carts_beside_a_lift() {
    assert_sheets(
        WHOLE.job,
        &[
            ("CANNOT 1\nCHOKE CALL 0\n", CANNOT, 0),
            // Of the call that nobody comes to.
            ("CANNOT 1\nCHOKE CALL 1\n", WRONG_SHEET, 0),
            ("CANNOT 0\n", WRONG_SHEET, 0),
            ("CANNOT 2\nCHOKE CALL 0\nCHOKE CALL 1\n", BAD_SHEET, 1),
            ("PLAN 2\nPATH 0 0 1 0\nPATH 1 1 2 3\n", WRONG_SHEET, 0),
        ],
    );
    for cell in 0..4 {
        for step in 0..=2 {
            let sheet = format!("CANNOT 1\nCHOKE {cell} {step}\n");
            assert_sheets(WHOLE.job, &[(&sheet, WRONG_SHEET, 0)]);
        }
    }
    // With one step to come there is such a cell.
    let near = WHOLE.job.replace("CALL 0 2", "CALL 0 1");
    assert_sheets(&near, &[("CANNOT 1\nCHOKE 0 1\n", CANNOT, 0), ("CANNOT 1\nCHOKE CALL 0\n", CANNOT, 0)]);
}

/// Two calls that no cart comes to and one that two carts come to: room for a list of two.
const ROOM: &str = "FLOOR 6\nTRACK 0 1\nTRACK 1 2\nCART 0\nCART 2\nCART 3\nCALL 4 5\nCALL 1 5\nBAY 5 4\n";

#[test]
fn the_form_of_a_whole_call() {
    assert_sheets(
        ROOM,
        &[
            ("CANNOT 1\nCHOKE CALL 1\n", CANNOT, 0),
            ("CANNOT 1\nCHOKE CALL\n", BAD_SHEET, 2),
            ("CANNOT 1\nCHOKE CALL \n", BAD_SHEET, 2),
            ("CANNOT 1\nCHOKE CALL 1 \n", BAD_SHEET, 2),
            ("CANNOT 1\nCHOKE CALL 1 1\n", BAD_SHEET, 2),
            ("CANNOT 1\nCHOKE CALL 1", BAD_SHEET, 2),
            ("CANNOT 1\nCHOKE CALL 01\n", BAD_SHEET, 2),
            ("CANNOT 1\nCHOKE CALL 1\r\n", BAD_SHEET, 2),
            ("CANNOT 1\nCHOKE CALL -1\n", BAD_SHEET, 2),
            ("CANNOT 1\nCHOKE CALL x\n", BAD_SHEET, 2),
            ("CANNOT 1\nCHOKE CALL CALL\n", BAD_SHEET, 2),
            ("CANNOT 1\nCHOKE CALL CALL 1\n", BAD_SHEET, 2),
            ("CANNOT 1\nCHOKE  CALL 1\n", BAD_SHEET, 2),
            ("CANNOT 1\nCHOKE CALL  1\n", BAD_SHEET, 2),
            ("CANNOT 1\nCHOKE call 1\n", BAD_SHEET, 2),
            ("CANNOT 1\nCHOKE CALLS 1\n", BAD_SHEET, 2),
            ("CANNOT 1\nCHOKE CAL 1\n", BAD_SHEET, 2),
            ("CANNOT 1\nCHOKE BAY 2\n", BAD_SHEET, 2),
            ("CANNOT 1\nCHOKE CART 1\n", BAD_SHEET, 2),
            ("CANNOT 1\nCHOKE 1 CALL\n", BAD_SHEET, 2),
            ("CANNOT 1\nCALL 1\n", BAD_SHEET, 2),
            ("CANNOT 1\nPATH CALL 1\n", BAD_SHEET, 2),
            ("CANNOT CALL 1\n", BAD_SHEET, 1),
        ],
    );
    assert_eq!(library(&tabs(ROOM), BUFFER, b"CANNOT\t1\nCHOKE CALL\t1\n"), (BAD_SHEET, 2));
    assert_eq!(library(&tabs(ROOM), BUFFER, b"CANNOT\t1\nCHOKE\tCALL 1\n"), (BAD_SHEET, 2));
    assert_sheets(
        A.job,
        &[
            ("PLAN 2\nCHOKE CALL 0\nPATH 1 0 1 2\n", BAD_SHEET, 2),
            ("PLAN 2\nPATH CALL 0 0 1\nPATH 1 0 1 2\n", BAD_SHEET, 2),
        ],
    );
}

#[test]
fn a_known_call_that_is_no_bay() {
    assert_sheets(
        ROOM,
        &[
            ("CANNOT 1\nCHOKE CALL 0\n", WRONG_SHEET, 0),
            ("CANNOT 1\nCHOKE CALL 2\n", BAD_SHEET, 2),
            ("CANNOT 1\nCHOKE CALL 3\n", BAD_SHEET, 2),
            ("CANNOT 1\nCHOKE CALL 64\n", BAD_SHEET, 2),
            ("CANNOT 1\nCHOKE CALL 255\n", BAD_SHEET, 2),
            ("CANNOT 1\nCHOKE CALL 256\n", BAD_SHEET, 2),
            ("CANNOT 1\nCHOKE CALL 999\n", BAD_SHEET, 2),
            ("CANNOT 1\nCHOKE CALL 1000\n", BAD_SHEET, 2),
            ("CANNOT 2\nCHOKE CALL 1\nCHOKE CALL 2\n", BAD_SHEET, 3),
            // The form comes before the order.
            ("CANNOT 2\nCHOKE CALL 2\nCHOKE CALL 1\n", BAD_SHEET, 2),
            ("CANNOT 2\nCHOKE CALL 1\nCHOKE 6 0\n", BAD_SHEET, 3),
        ],
    );
    assert_sheets(&ROOM.replace("BAY", "CALL"), &[("CANNOT 2\nCHOKE CALL 1\nCHOKE CALL 2\n", CANNOT, 0)]);
}

#[test]
fn whole_calls_stand_behind_the_cells_and_rise() {
    assert_sheets(
        ROOM,
        &[
            ("CANNOT 2\nCHOKE CALL 0\nCHOKE CALL 1\n", CANNOT, 0),
            ("CANNOT 2\nCHOKE 0 0\nCHOKE CALL 1\n", CANNOT, 0),
            ("CANNOT 2\nCHOKE 5 5\nCHOKE CALL 1\n", CANNOT, 0),
            ("CANNOT 2\nCHOKE CALL 1\nCHOKE CALL 0\n", WRONG_SHEET, 0),
            ("CANNOT 2\nCHOKE CALL 1\nCHOKE CALL 1\n", WRONG_SHEET, 0),
            ("CANNOT 2\nCHOKE CALL 1\nCHOKE 0 0\n", WRONG_SHEET, 0),
            ("CANNOT 2\nCHOKE CALL 1\nCHOKE 5 5\n", WRONG_SHEET, 0),
        ],
    );
}

#[test]
fn each_whole_call_is_one_point() {
    assert_sheets(
        ROOM,
        &[
            ("CANNOT 0\nCHOKE CALL 1\n", BAD_SHEET, 2),
            ("CANNOT 2\nCHOKE CALL 1\n", BAD_SHEET, 3),
            ("CANNOT 1\nCHOKE CALL 0\nCHOKE CALL 1\n", BAD_SHEET, 3),
            ("CANNOT 1\nCHOKE 0 0\nCHOKE CALL 1\n", BAD_SHEET, 3),
            ("CANNOT 3\nCHOKE 0 0\nCHOKE CALL 0\nCHOKE CALL 1\n", BAD_SHEET, 1),
        ],
    );
}

/// Whoever goes to cell 2 crosses cell 1, where there is a lift too.
#[test]
fn a_walk_stands_on_no_call_that_it_crosses() {
    let on_the_way = "FLOOR 4\nTRACK 3 0\nTRACK 0 1\nTRACK 1 2\nCART 0\nCART 3\nCALL 2 3\nCALL 1 3\n";
    assert_sheets(
        on_the_way,
        &[
            ("CANNOT 1\nCHOKE CALL 0\n", WRONG_SHEET, 0),
            ("CANNOT 1\nCHOKE CALL 1\n", WRONG_SHEET, 0),
            ("PLAN 2\nPATH 1 1 3 0 1\nPATH 0 0 0 1 2\n", PLAN, 0),
        ],
    );
    // A third that nobody comes to makes room for both.
    let lost = on_the_way.replace("FLOOR 4", "FLOOR 6").replace("CART 3\n", "CART 3\nCART 4\n") + "CALL 5 0\n";
    assert_sheets(
        &lost,
        &[
            ("CANNOT 2\nCHOKE CALL 0\nCHOKE CALL 1\n", CANNOT, 0),
            ("CANNOT 2\nCHOKE 2 3\nCHOKE CALL 1\n", WRONG_SHEET, 0),
            ("CANNOT 2\nCHOKE 1 1\nCHOKE CALL 1\n", WRONG_SHEET, 0),
            ("CANNOT 2\nCHOKE 0 0\nCHOKE 3 0\n", CANNOT, 0),
            ("CANNOT 2\nCHOKE CALL 1\nCHOKE CALL 2\n", WRONG_SHEET, 0),
        ],
    );
}

/// Cell 1 at step 1 stops who would be lifted there in time, and who goes on to cell 2 in time.
#[test]
fn cells_and_whole_calls_in_one_list() {
    let job =
        "FLOOR 7\nTRACK 0 1\nTRACK 1 2\nTRACK 3 4\nTRACK 4 5\nCART 0\nCART 3\nCART 5\nCALL 2 2\nCALL 4 7\nCALL 6 7\n";
    assert_sheets(
        job,
        &[
            ("CANNOT 2\nCHOKE 1 1\nCHOKE CALL 1\n", CANNOT, 0),
            ("CANNOT 2\nCHOKE 0 0\nCHOKE CALL 1\n", CANNOT, 0),
            ("CANNOT 2\nCHOKE 2 2\nCHOKE CALL 1\n", CANNOT, 0),
            ("CANNOT 2\nCHOKE CALL 0\nCHOKE CALL 1\n", CANNOT, 0),
            ("CANNOT 2\nCHOKE 1 2\nCHOKE CALL 1\n", WRONG_SHEET, 0),
            ("CANNOT 2\nCHOKE 1 1\nCHOKE 4 7\n", WRONG_SHEET, 0),
            ("CANNOT 2\nCHOKE 1 1\nCHOKE CALL 2\n", WRONG_SHEET, 0),
        ],
    );
}

/// Of 64 calls 63 stand on the list, each of them needed.
#[test]
fn whole_calls_at_every_limit() {
    for lost in [0, 20, CALLS - 1] {
        let (job, list) = late_star(CALLS, lost, DEADLINE);
        let answer = |list: &[Choke]| library(&job.text(), store_least(&job), &Sheet::Cannot(list.to_vec()).text());
        assert_eq!(answer(&list), (CANNOT, 0));
        for at in [0, 31, 62] {
            let mut other = list.clone();
            other.remove(at);
            assert_eq!(answer(&other), (WRONG_SHEET, 0), "without {at}");
            other.push(Choke::Call(CALLS));
            assert_eq!(answer(&other), (BAD_SHEET, 64), "with an unknown call for {at}");
            other.pop();
            other.insert(0, Choke::Cell { step: 1, cell: 0 });
            assert_eq!(answer(&other), (WRONG_SHEET, 0), "with the middle for {at}");
        }
        let mut falling = list.clone();
        falling.swap(61, 62);
        assert_eq!(answer(&falling), (WRONG_SHEET, 0));
        let all: Vec<Choke> = (0..CALLS).map(Choke::Call).collect();
        assert_eq!(answer(&all), (BAD_SHEET, 1));
    }
}
