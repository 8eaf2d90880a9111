//! The filed examples: jobs with the answers that whoever asked for the planner, and later for bays, for early lifts, for
//! exponents and for spare carts, wrote down. Tabs are shown as spaces. Each job is in `examples/` too, with its sheet, under
//! its name in small letters; those of `spares` but for one are here alone.

pub mod exponents;
pub mod spares;

use crate::model::answer::*;

/// A text with its tabs.
pub fn tabs(text: &str) -> Vec<u8> {
    text.replace(' ', "\t").into_bytes()
}

/// The store and the sheet buffer that the examples are filed with: those of the program `floorplan`.
pub const BUFFER: usize = 65_536;

/// A job with the only sheet it has, and the answer that goes with it.
pub struct Example {
    pub name: &'static str,
    pub job: &'static str,
    pub sheet: &'static str,
    pub answer: u8,
}

pub const EXAMPLES: &[Example] = &[A, B, C, D, G, BAY, CLOSED, WHOLE, OFFICE, spares::FULL];

/// A job that has plans. Which of them is written is left open.
pub struct Planned {
    pub name: &'static str,
    pub job: &'static str,
}

pub const PLANNED: &[Planned] = &[E, F, EARLY, ASIDE];

pub const A: Example = Example {
    name: "A",
    job: "FLOOR 3\nTRACK 0 1\nTRACK 1 2\nCART 0\nCART 1\nCALL 2 1\nCALL 1 1\n",
    sheet: "PLAN 2\nPATH 0 1 0 1\nPATH 1 0 1 2\n",
    answer: PLAN,
};

/// A's paths in the order of its calls, as they were filed at first.
pub const A_BY_CALL: &str = "PLAN 2\nPATH 1 0 1 2\nPATH 0 1 0 1\n";

pub const B: Example = Example {
    name: "B",
    job: "FLOOR 3\nTRACK 0 1\nTRACK 1 2\nCART 0\nCART 1\nCALL 2 1\nCALL 1 0\n",
    sheet: "CANNOT 1\nCHOKE 1 0\n",
    answer: CANNOT,
};

pub const C: Example = Example { name: "C", job: "FLOOR 1\n", sheet: "PLAN 0\n", answer: PLAN };

pub const D: Example =
    Example { name: "D", job: "FLOOR 1\nCART 0\nCALL 0 0\n", sheet: "PLAN 1\nPATH 0 0 0\n", answer: PLAN };

/// D with deadline 255.
pub const E: Planned = Planned { name: "E", job: "FLOOR 1\nCART 0\nCALL 0 255\n" };

/// A plan of E, if the zeros are 1 to 256.
pub fn zeros(count: usize) -> Vec<u8> {
    tabs(&format!("PLAN 1\nPATH 0 0{}\n", " 0".repeat(count)))
}

/// E with a bay for its lift: job and sheet. Who parks does so at the bay's very step, so that there are 256 zeros.
pub fn e_in_bay() -> (Vec<u8>, Vec<u8>) {
    (tabs(&E.job.replace("CALL", "BAY")), zeros(256))
}

pub const F: Planned = Planned { name: "F", job: "FLOOR 2\nTRACK 0 1\nCART 0\nCART 1\nCALL 0 1\nCALL 1 1\n" };

/// F with carts that wait for their deadlines, as it was filed at first.
pub const F_WAITING: &str = "PLAN 2\nPATH 0 0 0 0\nPATH 1 1 1 1\n";

/// F with the carts trading places.
pub const F_TRADED: &str = "PLAN 2\nPATH 1 0 1 0\nPATH 0 1 0 1\n";

pub const G: Example = Example { name: "G", job: "FLOOR 2\nCART 0\nCALL 1 5\n", sheet: "CANNOT 0\n", answer: CANNOT };

/// Cart 0 crosses the bay's cell at step 1, before cart 1 parks there at step 2.
pub const BAY: Example = Example {
    name: "bay",
    job: "FLOOR 5\nTRACK 0 1\nTRACK 1 2\nTRACK 1 3\nTRACK 3 4\nCART 0\nCART 4\nBAY 1 2\nCALL 2 2\n",
    sheet: "PLAN 2\nPATH 1 0 4 3 1\nPATH 0 1 0 1 2\n",
    answer: PLAN,
};

/// Cart 1 is parked from step 0 on, on the only way to cell 2.
pub const CLOSED: Example = Example {
    name: "closed",
    job: "FLOOR 3\nTRACK 0 1\nTRACK 1 2\nCART 0\nCART 1\nBAY 1 0\nCALL 2 2\n",
    sheet: "CANNOT 1\nCHOKE 1 0\n",
    answer: CANNOT,
};

/// The same with a lift for the bay, which alone is the reason.
pub const CLOSED_BY_NO_BAY: Example = Example {
    name: "closed, with a lift",
    job: "FLOOR 3\nTRACK 0 1\nTRACK 1 2\nCART 0\nCART 1\nCALL 1 0\nCALL 2 2\n",
    sheet: "PLAN 2\nPATH 1 0 1\nPATH 0 1 0 1 2\n",
    answer: PLAN,
};

/// The carts beside cell 0 can come to it at step 1 or 2, so that no cell at a step stops both; cell 3 is out of reach.
pub const WHOLE: Example = Example {
    name: "whole",
    job: "FLOOR 4\nTRACK 1 0\nTRACK 2 0\nCART 1\nCART 2\nCALL 0 2\nCALL 3 2\n",
    sheet: "CANNOT 1\nCHOKE CALL 0\n",
    answer: CANNOT,
};

/// 250 cells, with a track between the cells 100 and 120, as the recipe office writes numbers.
pub const OFFICE: Example = Example {
    name: "office",
    job: "FLOOR 25e1\nTRACK 1E+2 12e1\nCART 10e1\nCALL 120e0 1e0\n",
    sheet: "PLAN 1\nPATH 0 0 100 120\n",
    answer: PLAN,
};

/// Only an early lift serves it: a cart is lifted before its deadline, so that another may cross its cell.
pub const EARLY: Planned = Planned {
    name: "early",
    job: "FLOOR 6\nTRACK 0 1\nTRACK 0 2\nTRACK 0 4\nTRACK 0 5\nTRACK 1 4\nTRACK 2 3\nTRACK 2 4\n\
        CART 5\nCART 1\nCART 4\nCART 0\nCALL 2 2\nCALL 0 1\nCALL 3 2\nCALL 4 1\n",
};

/// A plan of it. Cart 3 is lifted from cell 0 at step 0, and cart 0 crosses the cell at step 1.
pub const EARLY_PLAN: &str = "PLAN 4\nPATH 3 1 0\nPATH 1 3 1 4\nPATH 0 0 5 0 2\nPATH 2 2 4 2 3\n";

/// What stops its walks that end at the deadlines, and no others: true as long as calls were met at their deadlines only.
pub const EARLY_BY_DEADLINES: &str = "CANNOT 3\nCHOKE 0 1\nCHOKE 2 1\nCHOKE 4 1\n";

/// One of the two carts is spare. If that on cell 0 is lifted, the other one has to make way for it.
pub const ASIDE: Planned = Planned {
    name: "aside",
    job: "FLOOR 4\nTRACK 0 1\nTRACK 1 2\nTRACK 1 3\nCART 0\nCART 1\nCALL 2 2\n",
};

/// Jobs that are turned back: text, number, line.
pub const REFUSED: &[(&str, u8, usize)] = &[
    ("", BAD_LINE, 1),
    ("FLOOR 0\n", OUT_OF_RANGE, 1),
    ("FLOOR 257\n", OUT_OF_RANGE, 1),
    ("FLOOR 1\nCART 0\nCALL 0 256\n", OUT_OF_RANGE, 3),
    ("FLOOR 2\nTRACK 0 0\n", DOUBLED, 2),
    ("FLOOR 1\nTRACK 0 0\n", DOUBLED, 2),
    ("FLOOR 2\nTRACK 0 1\nTRACK 1 0\n", DOUBLED, 3),
    ("FLOOR 1\nCALL 0 0\n", UNEVEN, 0),
    ("FLOOR 2\nCART 0\nCALL 0 0\nCALL 1 0\n", UNEVEN, 0),
    ("FLOOR 1\nCART 00\nCALL 0 0\n", NO_NUMBER, 2),
    ("FLOOR 1\nCART 1e0\nCALL 0 0\n", OUT_OF_RANGE, 2),
    ("FLOOR 1\nCART 999e9\nCALL 0 0\n", OUT_OF_RANGE, 2),
    ("FLOOR 1\nCART 1e-1\nCALL 0 0\n", NO_NUMBER, 2),
    ("FLOOR 1\nCART 1e10\nCALL 0 0\n", NO_NUMBER, 2),
    ("FLOOR 1\nCART 0\nBAY 0\n", BAD_LINE, 3),
    ("FLOOR 2\nCART 0\nBAY 0 0\nCART 1\n", BAD_LINE, 4),
    ("FLOOR 1\nCART 0\nBAY 0 256\n", OUT_OF_RANGE, 3),
    ("FLOOR 2\nCART 0\nCART 1\nBAY 0 0\nBAY 0 1\n", DOUBLED, 5),
    ("FLOOR 2\nCART 0\nCART 1\nCALL 0 0\nBAY 0 1\n", DOUBLED, 5),
    ("FLOOR 2\nCART 0\nCART 1\nBAY 0 0\nCALL 0 1\n", DOUBLED, 5),
    ("FLOOR 1\nBAY 0 0\n", UNEVEN, 0),
];
