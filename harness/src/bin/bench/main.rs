//! How fast the library is. `./bench` at the top of the repository builds and runs it.
//!
//! For every job of every family, by turns in one process and in processor time of the thread: the planner's call, the
//! baseline's, the wiping of the store alone, the check of the planner's sheet, the max-flow libraries that are there, and
//! with `--before OBJECT` the calls of a former library. Jobs with spare carts beside jobs with as many calls more. Maps
//! turned into floors, and job texts read alone, by the call and by plain Rust; with `--placed FOLDER` texts also by objects
//! of this library and of a former one. With `--floors PROGRAM` also a collection planned by that program.

mod before;
mod clock;
mod collection;
mod counts;
mod families;
mod floors;
mod maps;
mod measure;
mod pairs;
mod peers;
mod placed;
mod report;
mod shared;
mod spares;
mod table;
mod texts;
mod tight;

use before::Before;
use families::{renumbered, Size, FAMILIES, LIMITS, OPEN_GRID};
use harness::gen::Rng;
use harness::model::job::Job;
use measure::{measure, Effort};
use peers::Peer;
use report::Measured;
use spares::SPARE_FAMILIES;

const FULL: Effort = Effort { rounds: 40, peer_rounds: 4 };
const QUICK: Effort = Effort { rounds: 3, peer_rounds: 0 };
/// Jobs of the collection, and how often it is planned.
const COLLECTION: (usize, usize) = (10_000, 3);
const SMALL_COLLECTION: (usize, usize) = (500, 1);
const SIDES: [usize; 5] = [4, 7, 10, 13, 16];

/// What the tables mean.
const WORDS: &str = "\
- plan: the library's call whole. baseline: `harness/src/baseline.rs`, the same algorithm in plain Rust, in the same buffers.
- memset: the wiping of the store alone, which both of these include. check: the library's check of the planner's sheet.
- Peers: max flow on the network of calls, and of cells and steps without closed cells, from numbers instead of a text, building included, in the
  better direction: LEMON Preflow, igraph_maxflow_value, Boost push_relabel_max_flow, as their manuals have it. The best peer is that of each job.
  `lemon_static` is LEMON tuned by hand: a static graph, capacities that take no memory, only the cut where there is no plan.
- before: a former library's calls, where `./bench --before ARCHIVE` names one, on the jobs that it answers alike; its check gets its own sheet.
- Families with spare carts, more carts than calls, have rows of their own above, and no part in the others. Peers serve their calls and leave out
  the spare carts. How these are kept out of the way is not told by a count of visits.
- 56 spares: a job at the limits with 64 carts and 8 calls, one of them at the last step. As many lifts: the same job with 56 calls more, each due when
  a cart can be there. As many bays: 56 bays at the last step on the same cells, which have as many cells on the sheet as spare carts. Lifts are met
  early, and have far fewer.
- Times are processor time of the thread, by turns in one process; the best of many runs counts.
- map: the library's call for maps, for eight maps of a family in turn. Its baseline: `harness/src/baseline/map.rs`, the same in plain Rust.
- read: a job text read alone, by the planner's call with an empty store, which is found too short once the whole text is accepted; for eight
  texts of a family in turn. Its baseline: `harness/src/baseline/job.rs`, which tests nothing, but lists the neighbours and sorts the calls too.
  Respelled: most numbers with a power of ten behind them, 250 as 25e1. At full length: all of them, 250 as 250e+0.
  read / before: both libraries as shared objects made alike, each at four places in memory, on the average: where a loop lies on the lines of the
  cache changes a call this short by up to 15 %.
- floors: a collection (`harness/src/gen/collection.rs`) planned, checked and filed by one run of `floors plan`, beside both calls of the library and
  the file system's own (write, flush, rename) for the same sheets, by as many threads. Time on the clock; the best of three runs each.
- A node is a cell at a step. A visit puts a position, a node or a call, on the search's stack; a look is at one of its neighbours. Place
  kept: the looks, if each node on the stack kept its place in the neighbour list.
";

fn main() {
    let words: Vec<String> = std::env::args().collect();
    let after = |word: &str| words.iter().skip_while(|w| *w != word).nth(1);
    let is_quick = words.iter().any(|w| w == "--quick");
    let effort = if is_quick { QUICK } else { FULL };
    let peers = peers::load(after("--peers").map_or("target/peers", |folder| folder));
    let before = after("--before").map(|file| Before::load(file).expect("a shared object with the calls"));
    let placed = after("--placed").map_or(Vec::new(), |folder| placed::load(folder));
    let measured = |name: &str, jobs: &[Job], peers: &[Peer]| Measured {
        name: name.into(),
        jobs: jobs.iter().map(|job| measure(job, peers, before, effort)).collect(),
        has_bays: jobs.iter().any(Job::has_bays),
        has_spares: jobs.iter().any(|job| job.carts.len() > job.calls.len()),
    };

    let mut families = Vec::new();
    let all = FAMILIES.iter().chain(&SPARE_FAMILIES);
    for family in all.filter(|f| after("--only").is_none_or(|name| f.name == name)) {
        eprintln!("{}", family.name);
        let plain = family.jobs(is_quick);
        let other: Vec<Job> = plain.iter().zip(1..).map(|(job, seed)| renumbered(job, &mut Rng::new(seed))).collect();
        families.push(measured(family.name, &plain, &peers));
        families.push(measured(&format!("{}, renumbered", family.name), &other, &peers));
    }
    let at_limits: Vec<Job> = (0..6).map(|i| OPEN_GRID.job(LIMITS, i)).collect();
    let open_grid = measured("open grid at the limits", &at_limits, &[]);
    let sizes: Vec<(Size, Measured)> = SIDES.into_iter().map(of_side).collect();

    eprintln!("spare carts beside calls");
    let has_spares = families.iter().any(|family| family.has_spares);
    let pairs = if has_spares { pairs::measure(effort.rounds) } else { Vec::new() };

    eprintln!("maps");
    let maps = maps::measure(before, effort.rounds);

    eprintln!("texts");
    let texts = texts::measure(&placed, effort.rounds);

    eprintln!("collection");
    let (count, rounds) = if is_quick { SMALL_COLLECTION } else { COLLECTION };
    let filed = after("--floors").map(|program| collection::measure(program, count, rounds));

    report::ratios(&families, &open_grid, &pairs, &maps, &texts, filed);
    let names: Vec<&str> = peers.iter().map(|p| p.name).collect();
    let missing: Vec<&str> = peers::NAMES.into_iter().filter(|name| !names.contains(name)).collect();
    println!("Peers: {}. Missing: {}.\n", listed(&names), listed(&missing));
    println!("{WORDS}");
    println!("## Ratios, the median of a family and its worst job\n");
    report::family_ratios(&families);
    println!("## Microseconds, the median of a family and its longest\n");
    report::family_times(&families, &names);
    println!("## Spare carts beside as many calls, microseconds, the median of a floor and its worst\n");
    report::pairs(&pairs);
    println!("## Maps, microseconds each\n");
    report::maps(&maps);
    println!("## Job texts, nanoseconds each\n");
    report::texts(&texts);
    println!("## Growth\n");
    report::growth(&sizes);
}

/// An open grid with a cart for each four cells, and as many steps as cells.
fn of_side(side: usize) -> (Size, Measured) {
    let size = Size { side, carts: side * side / 4, last: side * side - 1 };
    let jobs: Vec<Job> = (0..20).map(|i| OPEN_GRID.job(size, i)).collect();
    let jobs = jobs.iter().map(|job| measure(job, &[], None, QUICK)).collect();
    (size, Measured { name: String::new(), jobs, has_bays: false, has_spares: false })
}

fn listed(names: &[&str]) -> String {
    if names.is_empty() {
        "none".into()
    } else {
        names.join(", ")
    }
}
