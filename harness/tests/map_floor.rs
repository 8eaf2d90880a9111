//! The floors that maps give, without the model of maps: by the letters alone two cells are joined exactly if they are
//! next to each other, and what is written is a job, which is planned.

use std::collections::BTreeSet;
use std::fs;

use harness::compare::plan;
use harness::gen::maps::{block, corridor, scattered, some_map, winding, Drawing};
use harness::gen::Rng;
use harness::model::answer::*;
use harness::model::job::Job;
use harness::model::limits::{sheet_least, store_least, CELLS};
use harness::model::reader;

/// The text that the library writes for a map of 1 to 256 cells.
fn written(map: &[u8]) -> Vec<u8> {
    let mut text = vec![0; cartfloor::FLOOR_MOST];
    let (answer, len) = unpack(cartfloor::map(map, &mut text));
    assert_eq!(answer, FLOOR);
    text.truncate(len);
    text
}

/// The lower cell of each pair first, and pairs by that cell: to the right, then below.
fn neighbours(map: &Drawing) -> BTreeSet<(usize, usize)> {
    let cells = map.cells();
    let mut pairs = BTreeSet::new();
    for (a, from) in cells.iter().enumerate() {
        for (b, to) in cells.iter().enumerate().skip(a) {
            if from.0.abs_diff(to.0) + from.1.abs_diff(to.1) == 1 {
                pairs.insert((a, b));
            }
        }
    }
    pairs
}

/// The floor, read from the text as a job is.
fn assert_floor(map: &Drawing) -> Job {
    let job = reader::read(&written(&map.text())).expect("a job");
    assert_eq!((job.cells, job.carts.len(), job.calls.len()), (map.cells().len(), 0, 0));
    assert!(job.tracks.iter().copied().eq(neighbours(map)), "{:?}", job.tracks);
    job
}

/// There is nothing to plan, and that is a plan.
fn assert_planned(job: &Job, rng: &mut Rng) {
    let planned = plan(&job.text(), store_least(job), sheet_least(job), rng);
    assert_eq!(planned, (PLAN, b"PLAN\t0\n".to_vec()));
}

#[test]
fn neighbours_and_no_others_are_joined() {
    let mut rng = Rng::new(1);
    let mut floors = 0;
    while floors < 1500 {
        let map = some_map(&mut rng);
        if (1..=CELLS).contains(&map.cells().len()) {
            let job = assert_floor(&map);
            assert_planned(&job, &mut rng);
            floors += 1;
        }
    }
}

/// At the limit of cells, in every shape: open, in corridors, scattered, and in columns and rows of one.
#[test]
fn floors_of_256_cells() {
    let mut rng = Rng::new(2);
    let open = [(16, 16), (4, 64), (64, 4), (8, 32), (32, 8)].map(|(height, width)| Drawing::of(b'.', height, width));
    let corridors = [corridor(64, 64, CELLS), corridor(64, 7, CELLS), corridor(9, 64, CELLS)];
    let scattered = (0..20).map(|_| scattered(64, 64, CELLS, &mut rng)).collect::<Vec<Drawing>>();
    for map in open.into_iter().chain(corridors).chain(scattered) {
        assert_eq!(map.cells().len(), CELLS);
        let job = assert_floor(&map);
        assert_planned(&job, &mut Rng::new(3));
    }
}

#[test]
fn halls_and_corridors() {
    let mut rng = Rng::new(4);
    for _ in 0..300 {
        for map in [block(&mut rng), winding(&mut rng)] {
            if !map.cells().is_empty() {
                assert_floor(&map);
            }
        }
    }
}

/// The maps of `examples/`, each with its floor written down beside it.
#[test]
fn the_example_files() {
    const FILES: &str = concat!(env!("CARGO_MANIFEST_DIR"), "/../examples");
    let files = fs::read_dir(FILES).expect("a folder of examples").map(|file| file.expect("a file").path());
    let maps: Vec<_> = files.filter(|file| file.extension().is_some_and(|end| end == "map")).collect();
    assert!(maps.len() >= 2, "{} maps in {FILES}", maps.len());
    for file in maps {
        let [map, floor] = ["map", "floor"].map(|end| fs::read(file.with_extension(end)).expect("an example"));
        assert_eq!(written(&map), floor, "{}", file.display());
        let job = reader::read(&floor).expect("a job");
        assert_planned(&job, &mut Rng::new(5));
    }
}
