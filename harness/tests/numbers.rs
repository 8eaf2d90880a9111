//! Every number that sheets and floors can have, in each place where it can stand, and the line of every refusal that the
//! programs can tell of: each text in full. Tabs are shown as spaces.

use std::collections::BTreeSet;
use std::ops::RangeInclusive;

use harness::compare::{plan, show};
use harness::examples::tabs;
use harness::gen::large::late_star;
use harness::gen::Rng;
use harness::model::answer::*;
use harness::model::limits::{self, sheet_least, store_least};
use harness::model::reader;
use harness::model::sheet::Sheet;
use harness::program::{assert_rows, floormap, floorplan, refused, Row};

fn lines(count: usize, line: impl Fn(usize) -> String) -> String {
    (0..count).map(line).collect()
}

/// What the library writes for a job, and its answer.
fn planned(job: &str) -> (u8, Vec<u8>) {
    let job = reader::read(&tabs(job)).expect("a job");
    plan(&job.text(), store_least(&job), sheet_least(&job), &mut Rng::new(1))
}

/// The numbers that stand in a place: behind a word, so many fields further.
struct Seen(Vec<Vec<u8>>);

impl Seen {
    fn assert_all(&self, word: &str, field: usize, range: RangeInclusive<usize>) {
        let number = |line: &str| {
            let mut parts = line.split('\t');
            (parts.next() == Some(word)).then(|| parts.nth(field).expect("a field").parse::<usize>().expect("a number"))
        };
        let texts = self.0.iter().map(|text| std::str::from_utf8(text).expect("a text"));
        let seen: BTreeSet<usize> =
            texts.flat_map(|text| text.lines().filter_map(number).collect::<Vec<_>>()).collect();
        assert!(seen.iter().copied().eq(range), "{word}, field {field}: {seen:?}");
    }
}

/// Carts that stand in their bays, on a floor without a track: there is one plan.
#[test]
fn plans() {
    let counts = (0..=limits::CARTS).map(|carts| (carts, 0, 0));
    let cells = (0..4).map(|quarter| (limits::CARTS, quarter * limits::CARTS, 0));
    let long = [(1, 0, limits::DEADLINE), (limits::CARTS, limits::CELLS - limits::CARTS, limits::DEADLINE)];
    let seen = counts.chain(cells).chain(long).map(|(carts, first, deadline)| {
        let floor = format!("FLOOR {}\n", limits::CELLS);
        let starts = lines(carts, |i| format!("CART {}\n", first + i));
        let calls = lines(carts, |i| format!("BAY {} {deadline}\n", first + i));
        let path = |i| format!("PATH {i} {i}{}\n", format!(" {}", first + i).repeat(deadline + 1));
        let sheet = tabs(&format!("PLAN {carts}\n{}", lines(carts, path)));
        assert_eq!(planned(&(floor + &starts + &calls)), (PLAN, sheet.clone()));
        sheet
    });
    let seen = Seen(seen.collect());
    seen.assert_all("PLAN", 0, 0..=limits::CALLS);
    seen.assert_all("PATH", 0, 0..=limits::CARTS - 1);
    seen.assert_all("PATH", 1, 0..=limits::CALLS - 1);
    seen.assert_all("PATH", 2, 0..=limits::CELLS - 1);
}

/// Carts that stand without a call, up to the step of one bay or without any: there is one plan.
#[test]
fn spare_carts() {
    let at_once = (0..4).map(|quarter| (quarter * limits::CARTS, None));
    let long = [(0, Some(1)), (limits::CELLS - limits::CARTS, Some(limits::DEADLINE))];
    let seen = at_once.chain(long).map(|(first, bay)| {
        let (calls, deadline) = (usize::from(bay.is_some()), bay.unwrap_or(0));
        let floor = format!("FLOOR {}\n", limits::CELLS);
        let starts = lines(limits::CARTS, |i| format!("CART {}\n", first + i));
        let bays = lines(calls, |i| format!("BAY {} {deadline}\n", first + i));
        let walk = |i| format!(" {}", first + i).repeat(deadline + 1);
        let paths = lines(calls, |i| format!("PATH {i} {i}{}\n", walk(i)));
        let spares = lines(limits::CARTS - calls, |i| format!("SPARE {}{}\n", calls + i, walk(calls + i)));
        let sheet = tabs(&format!("PLAN {calls}\n{paths}{spares}"));
        assert_eq!(planned(&(floor + &starts + &bays)), (PLAN, sheet.clone()));
        sheet
    });
    let seen = Seen(seen.collect());
    seen.assert_all("SPARE", 0, 0..=limits::CARTS - 1);
    seen.assert_all("SPARE", 1, 0..=limits::CELLS - 1);
}

/// Carts that park where they stand at step 0, and one more that can never come to its call: a list with fewer points than
/// calls has just one point for each of the others, on its cell.
fn parked(cells: &[usize]) -> String {
    let free: Vec<usize> = (0..limits::CELLS).filter(|cell| !cells.contains(cell)).take(2).collect();
    let carts: String = cells.iter().chain([&free[0]]).map(|cell| format!("CART {cell}\n")).collect();
    let bays: String = cells.iter().map(|cell| format!("BAY {cell} 0\n")).collect();
    format!("FLOOR {}\n{carts}{bays}CALL {} 0\n", limits::CELLS, free[1])
}

/// Two carts beside a bay, and a call that neither comes to: the only cell on which both have to be is the bay's, at its
/// step.
fn beside(bay: usize, step: usize) -> String {
    let [one, other, lost] = [1, 2, 3].map(|far| (bay + far) % limits::CELLS);
    let tracks = format!("TRACK {bay} {one}\nTRACK {other} {bay}\n");
    format!("FLOOR {}\n{tracks}CART {one}\nCART {other}\nBAY {bay} {step}\nCALL {lost} 0\n", limits::CELLS)
}

/// Each job has one list alone.
#[test]
fn choke_lists() {
    let counts = (0..limits::CALLS).map(|points| (0..points).collect());
    let cells = (0..limits::CELLS).map(|cell| vec![cell]);
    let at_step_0 = counts.chain(cells).map(|cells: Vec<usize>| {
        let points = lines(cells.len(), |i| format!("CHOKE {} 0\n", cells[i]));
        (parked(&cells), format!("CANNOT {}\n{points}", cells.len()))
    });
    let later = (1..=limits::DEADLINE).flat_map(|step| {
        let both = [step, limits::DEADLINE - step].map(|cell| (cell, step));
        both.map(|(cell, step)| (beside(cell, step), format!("CANNOT 1\nCHOKE {cell} {step}\n")))
    });
    let seen = at_step_0.chain(later).map(|(job, sheet)| {
        assert_eq!(planned(&job), (CANNOT, tabs(&sheet)), "{job:?}");
        tabs(&sheet)
    });
    let seen = Seen(seen.collect());
    seen.assert_all("CANNOT", 0, 0..=limits::CALLS - 1);
    seen.assert_all("CHOKE", 0, 0..=limits::CELLS - 1);
    seen.assert_all("CHOKE", 1, 0..=limits::DEADLINE);
}

/// Every call but one as a whole, whichever that one is.
#[test]
fn whole_calls() {
    let seen = (0..limits::CALLS).map(|lost| {
        let (job, list) = late_star(limits::CARTS, lost, limits::CARTS + 1);
        let sheet = Sheet::Cannot(list).text();
        assert_eq!(planned(std::str::from_utf8(&job.text()).expect("a text")), (CANNOT, sheet.clone()));
        sheet
    });
    let seen = Seen(seen.collect());
    seen.assert_all("CHOKE", 1, 0..=limits::CALLS - 1);
}

/// The first places of 64 by 4 are cells, row by row.
#[test]
fn floors() {
    let (height, width) = (limits::CELLS / limits::SIDE, limits::SIDE);
    let seen = (1..=limits::CELLS).map(|cells| {
        let letters = ".".repeat(cells) + &"@".repeat(limits::CELLS - cells);
        let rows = lines(height, |i| format!("{}\n", &letters[i * width..(i + 1) * width]));
        let map = format!("type octile\nheight {height}\nwidth {width}\nmap\n{rows}");
        let right = |cell: usize| !(cell + 1).is_multiple_of(width) && cell + 1 < cells;
        let track = |cell: usize| match (right(cell), cell + width < cells) {
            (true, true) => format!("TRACK {cell} {}\nTRACK {cell} {}\n", cell + 1, cell + width),
            (true, false) => format!("TRACK {cell} {}\n", cell + 1),
            (false, true) => format!("TRACK {cell} {}\n", cell + width),
            (false, false) => String::new(),
        };
        let floor = tabs(&format!("FLOOR {cells}\n{}", lines(cells, track)));
        let mut text = vec![0; floor.len()];
        assert_eq!(unpack(cartfloor::map(map.as_bytes(), &mut text)), (FLOOR, floor.len()), "{cells} cells");
        assert_eq!(show(&text), show(&floor));
        floor
    });
    let seen = Seen(seen.collect());
    seen.assert_all("FLOOR", 0, 1..=limits::CELLS);
    seen.assert_all("TRACK", 0, 0..=limits::CELLS - 2);
    seen.assert_all("TRACK", 1, 1..=limits::CELLS - 1);
}

/// A job at each limit, up to a line, and there a bad one. No job is refused further on: it has 641 lines at most.
#[test]
fn each_line_of_a_job() {
    let track = |i: usize| format!("TRACK {} {}\n", i % 256, (i % 256 + 1 + i / 256) % 256);
    let job = format!("FLOOR {}\n", limits::CELLS)
        + &lines(limits::TRACKS, track)
        + &lines(limits::CARTS, |i| format!("CART {i}\n"))
        + &lines(limits::CALLS, |i| format!("CALL {i} 0\n"));
    assert_rows(floorplan(), up_to_each_line(&tabs(&job), BAD_LINE));
}

/// A map of 64 rows. No map is refused further on than behind its last line.
#[test]
fn each_line_of_a_map() {
    let row = ".".repeat(limits::SIDE) + "\n";
    let map = format!("type octile\nheight {0}\nwidth {0}\nmap\n", limits::SIDE) + &row.repeat(limits::SIDE);
    assert_rows(floormap(), up_to_each_line(map.as_bytes(), BAD_MAP));
}

fn up_to_each_line(text: &[u8], number: u8) -> Vec<Row> {
    let lines: Vec<&[u8]> = text.split_inclusive(|&b| b == b'\n').collect();
    let cut = |line: usize| {
        let text = [&lines[..line].concat()[..], b"x\n"].concat();
        refused(&format!("a bad line behind {line}"), text, number, line + 1)
    };
    (0..=lines.len()).map(cut).collect()
}
