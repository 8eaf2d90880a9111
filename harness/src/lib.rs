//! Tests of the library `cartfloor` from outside, through its C interface.
//!
//! `model` says what the README describes, `examples` has the filed examples; `ffi` calls the library between guard
//! bytes; `gen` makes jobs, sheets and maps; `compare` holds one call against the model, `tally` counts what was
//! answered. `shortcuts` has planners that are wrong. `faulty` is a second check, a second reader of jobs and a second
//! converter of maps, into which faults can be put to see that the comparison finds them; `painted` measures stacks,
//! `fenced` lends memory beside which nothing may be touched. `child` runs programs: `program` is where floorplan and
//! floormap are, `header` has one in C that uses the header. The tests themselves are in `tests/`. Two programs go with
//! them: `soak` tries as much as one has time for, and `bench` times the library, against `baseline` among others. The
//! program `floors` has tests of its own in `collection/`, which use the jobs, the model and the child processes from here.

pub mod baseline;
pub mod child;
pub mod compare;
pub mod examples;
pub mod faulty;
pub mod fenced;
pub mod ffi;
pub mod gen;
pub mod header;
pub mod model;
pub mod painted;
pub mod program;
pub mod shortcuts;
pub mod tally;
