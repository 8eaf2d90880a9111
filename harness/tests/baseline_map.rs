//! The converter of maps in plain Rust, which the library's call is timed against: it answers as the model says.

use harness::baseline;
use harness::compare;
use harness::ffi::Converter;
use harness::gen::map_cases::MAP_KINDS;
use harness::gen::Rng;

struct Baseline;

impl Converter for Baseline {
    unsafe fn map(&self, map: (*const u8, usize), text: (*mut u8, usize)) -> u64 {
        baseline::map::map(std::slice::from_raw_parts(map.0, map.1), std::slice::from_raw_parts_mut(text.0, text.1))
    }
}

#[test]
fn maps_whole_and_damaged() {
    let mut rng = Rng::new(1);
    for (_, kind) in MAP_KINDS {
        for _ in 0..10_000 {
            let case = kind(&mut rng);
            compare::map(&Baseline, &case, &mut rng).unwrap_or_else(|difference| panic!("{difference}"));
        }
    }
}
