//! The call under valgrind, where that is installed: in blocks of the heap just as long as map and text, with nothing in
//! the text buffer yet, no byte outside is touched and nothing is read that nobody wrote.

use std::env;
use std::process::Command;

use harness::child::{finish, piped};
use harness::gen::map_cases::{damaged_maps, large_maps, small_maps, MapCase};
use harness::gen::Rng;
use harness::model::answer::*;
use harness::model::map::text_of;

fn assert_call(case: &MapCase) {
    let map: Box<[u8]> = case.map.as_slice().into();
    let mut text: Vec<u8> = Vec::with_capacity(case.text_len);
    let lent = text.spare_capacity_mut();
    // Safety: two buffers of their own, each as long as it says.
    let packed = unsafe { cartfloor::cartfloor_map(map.as_ptr(), map.len(), lent.as_mut_ptr().cast(), case.text_len) };
    let found = unpack(packed);
    match text_of(&case.map, case.text_len) {
        Ok(expected) => {
            assert_eq!(found, (FLOOR, expected.len()));
            // Safety: so many bytes were written.
            unsafe { text.set_len(expected.len()) };
            assert_eq!(text, expected);
        }
        Err(refusal) => assert_eq!(found, (refusal.number, refusal.line)),
    }
}

#[test]
fn on_the_heap() {
    let mut rng = Rng::new(1);
    for kind in [small_maps, large_maps, damaged_maps] {
        (0..200).for_each(|_| assert_call(&kind(&mut rng)));
    }
}

/// The test above once more, by this very program.
#[test]
fn under_valgrind() {
    let mut command = Command::new("valgrind");
    command.args(["--quiet", "--error-exitcode=9"]).arg(env::current_exe().expect("this program"));
    command.args(["--exact", "on_the_heap", "--test-threads=1"]);
    match piped(command).spawn() {
        Err(missing) => println!("not tried: valgrind: {missing}"),
        Ok(child) => {
            let ended = finish(child, Vec::new()).expect("an end");
            let (out, err) = (String::from_utf8_lossy(&ended.out), String::from_utf8_lossy(&ended.err));
            assert!(ended.status.success() && out.contains("1 passed"), "{}\n{out}{err}", ended.status);
        }
    }
}
