//! A fault of the second check on a sheet told by hand.

use super::check;
use crate::examples::{tabs, BUFFER};
use crate::faulty::{Fault, Faulty};
use crate::ffi;
use crate::gen::cases::Case;
use crate::gen::Rng;
use crate::model;
use crate::model::answer::unpack;

/// Answer and line.
type Answer = (u8, usize);

/// The second check gives the right answer without the fault and the wrong one with it, the model the right one, and the
/// comparison finds the fault.
pub fn assert_found(fault: Fault, job: &str, sheet: &str, right: Answer, wrong: Answer) {
    let mut rng = Rng::new(1);
    let case = Case { job: tabs(job), store_len: BUFFER, sheet: tabs(sheet) };
    let mut given = |fault| {
        let checked = ffi::check(&Faulty(fault), &case.job, BUFFER, &case.sheet, &mut rng);
        unpack(checked.expect("no byte changed").packed)
    };
    assert_eq!((given(Fault::None), given(fault)), (right, wrong));
    assert_eq!(model::check::check(&case.job, BUFFER, &case.sheet), right);
    assert!(check(&Faulty(fault), &case, &mut rng).is_err());
}
