//! The same call again gives the same number and the same bytes, whatever is in store, sheet and text buffer.

use harness::compare::{plan, show};
use harness::examples::{tabs, BUFFER, EXAMPLES};
use harness::gen::damage::changed;
use harness::gen::floors::grid;
use harness::gen::large::scattered;
use harness::gen::map_cases::{damaged_maps, large_maps, small_maps, MapCase};
use harness::gen::sizes::{at_the_limits, medium};
use harness::gen::small::small;
use harness::gen::spelled::respelled;
use harness::gen::Rng;
use harness::model::answer::*;
use harness::model::job::Job;
use harness::model::limits::{sheet_least, store_least};
use harness::model::reader;

/// What the buffers are filled with. The last fill is what a call leaves behind: the call comes straight again.
const FILLS: [Option<u8>; 4] = [Some(0), Some(0xff), Some(b'0'), None];

fn fill(bytes: &mut [u8], with: Option<u8>) {
    if let Some(byte) = with {
        bytes.fill(byte);
    }
}

/// The planner's answer, packed, and what it writes, the same for every fill.
fn planned(job: &[u8], store_len: usize, sheet_len: usize) -> (u64, Vec<u8>) {
    let (mut store, mut sheet) = (vec![0; store_len], vec![0; sheet_len]);
    let mut all = FILLS.map(|with| {
        fill(&mut store, with);
        fill(&mut sheet, with);
        let packed = cartfloor::plan(job, &mut store, &mut sheet);
        let (answer, value) = unpack(packed);
        let written = if is_refusal(answer) { 0 } else { value };
        (packed, sheet[..written].to_vec())
    });
    assert!(all.windows(2).all(|pair| pair[0] == pair[1]), "not the same twice: {}", show(job));
    std::mem::take(&mut all[0])
}

/// The check's answer, packed, the same for every fill.
fn checked(job: &[u8], store_len: usize, sheet: &[u8]) -> u64 {
    let mut store = vec![0; store_len];
    let all = FILLS.map(|with| {
        fill(&mut store, with);
        cartfloor::check(job, &mut store, sheet)
    });
    assert!(all.windows(2).all(|pair| pair[0] == pair[1]), "{all:?}: {}\n{}", show(job), show(sheet));
    all[0]
}

/// A map's answer, packed, and what is written for it, the same for every fill.
fn mapped(case: &MapCase) {
    let mut text = vec![0; case.text_len];
    let all = FILLS.map(|with| {
        fill(&mut text, with);
        let packed = cartfloor::map(&case.map, &mut text);
        let (answer, value) = unpack(packed);
        let written = if is_refusal(answer) { 0 } else { value };
        (packed, text[..written].to_vec())
    });
    assert!(all.windows(2).all(|pair| pair[0] == pair[1]), "not the same twice: {}", show(&case.map));
}

/// A job and its sheet, the job written otherwise, and both damaged.
fn try_out(job: &Job, rng: &mut Rng) {
    let (text, store_len) = (job.text(), store_least(job));
    let (packed, sheet) = planned(&text, store_len, sheet_least(job));
    assert_eq!(planned(&respelled(&text, rng), store_len, sheet_least(job)), (packed, sheet.clone()));
    assert_eq!(unpack(checked(&text, store_len, &sheet)), (unpack(packed).0, 0));
    checked(&text, store_len, &changed(&sheet, rng));
    let damaged = changed(&text, rng);
    let (store_len, sheet_len) = reader::read(&damaged).map_or((0, 0), |job| (store_least(&job), sheet_least(&job)));
    planned(&damaged, store_len, sheet_len);
    checked(&damaged, store_len, &sheet);
}

#[test]
fn small_jobs_twice() {
    let mut rng = Rng::new(1);
    (0..3000).for_each(|_| try_out(&small(&mut rng), &mut rng));
}

#[test]
fn medium_jobs_twice() {
    let mut rng = Rng::new(2);
    (0..100).for_each(|_| try_out(&medium(&mut rng), &mut rng));
}

#[test]
fn jobs_at_the_limits_twice() {
    let mut rng = Rng::new(3);
    (0..10).for_each(|_| try_out(&at_the_limits(&mut rng), &mut rng));
}

#[test]
fn maps_twice() {
    let mut rng = Rng::new(5);
    for kind in [small_maps, large_maps, damaged_maps] {
        (0..2000).for_each(|_| mapped(&kind(&mut rng)));
    }
}

/// The same job gives the same bytes, whatever is in the store and wherever the buffers stand.
#[test]
fn what_is_lent_does_not_show_in_the_sheet() {
    let mut rng = Rng::new(4);
    for example in EXAMPLES {
        for _ in 0..100 {
            let (_, sheet) = plan(&tabs(example.job), BUFFER, BUFFER, &mut rng);
            assert_eq!(sheet, tabs(example.sheet));
        }
    }
    let job = scattered(grid(8, 8), 20, 30, &mut rng);
    let mut sheets = (0..20).map(|_| plan(&job.text(), store_least(&job), sheet_least(&job), &mut rng).1);
    let first = sheets.next();
    assert!(sheets.all(|sheet| Some(sheet) == first));
}
