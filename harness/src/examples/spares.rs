//! Jobs with spare carts and the only sheet that each has. Tabs are shown as spaces.
//!
//! Wherever calls can be served, they can be with all spare carts standing still, so that in an only plan they do. Plans in
//! which they move are in `tests/check_spares.rs`.

use super::Example;
use crate::model::answer::*;

pub const SPARES: &[Example] = &[D_WITHOUT_CALL, NO_CALLS, FULL, APART, NO_WAY, GATE];

/// D without its call.
pub const D_WITHOUT_CALL: Example =
    Example { name: "D without its call", job: "FLOOR 1\nCART 0\n", sheet: "PLAN 0\nSPARE 0 0\n", answer: PLAN };

/// With no call there is no step but 0, and nobody has time to move.
pub const NO_CALLS: Example = Example {
    name: "no calls",
    job: "FLOOR 3\nTRACK 0 1\nTRACK 1 2\nCART 2\nCART 0\n",
    sheet: "PLAN 0\nSPARE 0 2\nSPARE 1 0\n",
    answer: PLAN,
};

/// A cart on each of two cells. If cart 1 went into the bay, cart 0 could only share its cell or trade with it.
pub const FULL: Example = Example {
    name: "spare",
    job: "FLOOR 2\nTRACK 0 1\nCART 0\nCART 1\nBAY 0 1\n",
    sheet: "PLAN 1\nPATH 0 0 0 0\nSPARE 1 1 1\n",
    answer: PLAN,
};

/// The spare carts stand where no track leads to, up to the step of the bay.
pub const APART: Example = Example {
    name: "apart",
    job: "FLOOR 4\nTRACK 0 1\nCART 3\nCART 0\nCART 2\nBAY 1 1\n",
    sheet: "PLAN 1\nPATH 1 0 0 1\nSPARE 0 3 3\nSPARE 2 2 2\n",
    answer: PLAN,
};

/// Nobody comes to the call, and that there are more carts does not help.
pub const NO_WAY: Example = Example {
    name: "no way",
    job: "FLOOR 3\nTRACK 0 1\nCART 0\nCART 1\nCALL 2 1\n",
    sheet: "CANNOT 0\n",
    answer: CANNOT,
};

/// Three carts round a gate, and two bays behind it. Whoever parks is in the gate at step 1.
pub const GATE: Example = Example {
    name: "gate",
    job: "FLOOR 6\nTRACK 0 3\nTRACK 1 3\nTRACK 2 3\nTRACK 3 4\nTRACK 3 5\nCART 0\nCART 1\nCART 2\nBAY 4 2\nBAY 5 2\n",
    sheet: "CANNOT 1\nCHOKE 3 1\n",
    answer: CANNOT,
};
