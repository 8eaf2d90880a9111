//! The comparison itself: it finds each fault in a check, and blames no check that has none. And the measure of stacks,
//! and the fences.

use std::ffi::c_void;
use std::fs::File;
use std::io::pipe;
use std::os::fd::AsRawFd;

use harness::compare;
use harness::faulty::{Fault, Faulty, FAULTS};
use harness::fenced::{Fence, Fenced, FENCES};
use harness::gen::cases::{Known, KINDS};
use harness::gen::small::small;
use harness::gen::Rng;
use harness::painted::depth_of;

/// What the cases of `check_small` show of a fault on one job after the other: the first so many differences, or fewer
/// if the jobs do not show more.
fn differences(fault: Fault, jobs: usize, enough: usize) -> Vec<String> {
    let mut rng = Rng::new(7);
    let mut found = Vec::new();
    for _ in 0..jobs {
        let known = Known::of(small(&mut rng));
        found.extend(differences_on(&known, fault, &mut rng));
        if found.len() >= enough {
            break;
        }
    }
    found
}

fn differences_on(known: &Known, fault: Fault, rng: &mut Rng) -> Vec<String> {
    let cases: Vec<_> = KINDS.iter().flat_map(|kind| kind(known, rng)).collect();
    cases.iter().filter_map(|case| compare::check(&Faulty(fault), case, rng).err()).collect()
}

#[test]
fn no_fault_is_found_where_there_is_none() {
    assert_eq!(differences(Fault::None, 500, 1), Vec::<String>::new());
}

/// More than once each, so that it is not left to luck; and on fewer jobs than `check_small` tries.
#[test]
fn each_fault_is_found() {
    for &fault in FAULTS {
        let found = differences(fault, 1000, 5).len();
        assert!(found >= 5, "{fault:?} was found {found} times");
    }
}

/// A call with a table of 100,000 bytes goes just so much deeper.
#[test]
fn the_depth_of_a_call_is_seen() {
    #[inline(never)]
    fn with_table<const LEN: usize>() -> u8 {
        let mut table = [0; LEN];
        for byte in std::hint::black_box(&mut table) {
            *byte = 1;
        }
        table[LEN / 2]
    }
    let depth = |call: fn() -> u8| depth_of(|| assert_eq!(call(), 1));
    let (little, much) = (depth(with_table::<1>), depth(with_table::<100_000>));
    assert!(little < 4096, "{little}");
    assert!((100_000..104_096).contains(&much), "{much}");
}

extern "C" {
    fn read(file: i32, to: *mut c_void, len: usize) -> isize;
    fn write(file: i32, from: *const c_void, len: usize) -> isize;
}

/// Whether a byte may be read, and whether it may be written: the system itself reads and writes it, and says so.
fn access(byte: *mut u8) -> (bool, bool) {
    let (_reader, writer) = pipe().expect("a pipe");
    let zeros = File::open("/dev/zero").expect("zeros");
    // Safety: the system looks whether it may touch the byte, and does nothing else where it may not.
    unsafe {
        let (read, written) = (read(zeros.as_raw_fd(), byte.cast(), 1), write(writer.as_raw_fd(), byte.cast(), 1));
        (written == 1, read == 1)
    }
}

#[test]
fn fences_stand_where_they_should() {
    for len in [1, 2, 4095, 4096, 4097, 10_000] {
        for fence in FENCES {
            for said in [len, 1 << 40] {
                let mut fenced = Fenced::said_to_be(said, &vec![1; len], fence);
                let (start, claimed) = fenced.parts();
                assert_eq!(claimed, said);
                let outside = match fence {
                    Fence::Before => start.wrapping_sub(1),
                    Fence::Behind => start.wrapping_add(len),
                };
                let last = start.wrapping_add(len - 1);
                assert_eq!([start, last, outside].map(access), [(true, true), (true, true), (false, false)]);
                fenced = fenced.read_only();
                assert_eq!([start, last, outside].map(access), [(true, false), (true, false), (false, false)]);
                fenced = fenced.untouchable();
                assert_eq!([start, last, outside].map(access), [(false, false); 3]);
                drop(fenced);
            }
        }
    }
}
