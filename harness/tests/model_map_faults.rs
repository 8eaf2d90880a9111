//! The comparison itself, on maps: it finds each fault in a converter, and blames none that has none.

use harness::compare;
use harness::faulty::map::{FaultyMap, MapFault, MAP_FAULTS};
use harness::gen::map_cases::MAP_KINDS;
use harness::gen::Rng;

/// How often a kind of cases shows a fault, up to what is enough, among so many.
fn found(fault: MapFault, kind: usize, cases: usize, enough: usize) -> usize {
    let mut rng = Rng::new(7);
    let mut is_found = |_: &usize| {
        let case = MAP_KINDS[kind].1(&mut rng);
        compare::map(&FaultyMap(fault), &case, &mut rng).is_err()
    };
    (0..cases).filter(|i| is_found(i)).take(enough).count()
}

#[test]
fn no_fault_is_found_where_there_is_none() {
    let found: Vec<usize> = (0..MAP_KINDS.len()).map(|kind| found(MapFault::None, kind, 3000, 1)).collect();
    assert_eq!(found, [0; MAP_KINDS.len()]);
}

/// More than once each, so that it is not left to luck; and on fewer maps than `map_random` tries.
#[test]
fn each_fault_is_found() {
    for &fault in MAP_FAULTS {
        // Most faults are about damage.
        let found: Vec<usize> =
            [800, 800, 3000].into_iter().enumerate().map(|(kind, n)| found(fault, kind, n, 5)).collect();
        let by: Vec<String> = MAP_KINDS.iter().zip(&found).map(|(kind, times)| format!("{} {times}", kind.0)).collect();
        println!("{fault:?}: {}", by.join(", "));
        assert!(found.contains(&5), "{fault:?} was found: {}", by.join(", "));
    }
}
