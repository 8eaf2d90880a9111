//! This library and a former one as shared objects that `./bench` makes alike, the code of each at four places on the
//! lines of the cache. Where a loop lies tells as much in a short call as a change of its code: one place would not do.

use crate::before::Before;

const PLACES: usize = 4;

/// Both libraries at one place.
#[derive(Clone, Copy)]
pub struct Placed {
    pub now: Before,
    pub before: Before,
}

pub fn load(folder: &str) -> Vec<Placed> {
    let object = |name: &str, place: usize| {
        Before::load(&format!("{folder}/{name}.{place}.so")).expect("a shared object with the calls")
    };
    (0..PLACES).map(|place| Placed { now: object("now", place), before: object("before", place) }).collect()
}
