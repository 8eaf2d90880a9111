//! What is printed: the ratios that are asked for, then the families, the spare carts, the maps, the job texts, and the
//! growth.

use crate::collection::Filed;
use crate::families::Size;
use crate::maps;
use crate::measure::Figures;
use crate::pairs::{self, OnFloor, SPARES};
use crate::table::{geometric_mean, least, median, most, Table};
use crate::texts::{self, Spelled};

/// The figures of a family, its jobs as they are made or renumbered.
pub struct Measured {
    pub name: String,
    pub jobs: Vec<Figures>,
    pub has_bays: bool,
    pub has_spares: bool,
}

impl Measured {
    fn median(&self, of: impl Fn(&Figures) -> f64) -> f64 {
        median(self.jobs.iter().map(of))
    }
    fn most(&self, of: impl Fn(&Figures) -> f64) -> f64 {
        most(self.jobs.iter().map(of))
    }
}

fn to_baseline(f: &Figures) -> f64 {
    f.plan / f.baseline
}

fn to_memset(f: &Figures) -> f64 {
    f.plan / f.memset
}

fn of_check(f: &Figures) -> f64 {
    f.check / f.plan
}

fn of_peer(f: &Figures) -> f64 {
    f.best_plain / f.plan
}

fn of_tuned(f: &Figures) -> f64 {
    f.best / f.plan
}

fn of_before(f: &Figures) -> f64 {
    f.plan / f.plan_before
}

fn of_check_before(f: &Figures) -> f64 {
    f.check / f.check_before
}

fn visits(f: &Figures) -> f64 {
    f.counts.map_or(f64::NAN, |(library, _)| library.visits as f64 / f.nodes as f64)
}

fn looks(f: &Figures) -> f64 {
    f.counts.map_or(f64::NAN, |(library, _)| library.looks as f64 / library.visits as f64)
}

fn looks_keeping(f: &Figures) -> f64 {
    f.counts.map_or(f64::NAN, |(library, keeping)| keeping.looks as f64 / library.visits as f64)
}

fn to_bays(f: &pairs::Figures) -> f64 {
    f.spares / f.bays
}

fn to_lifts(f: &pairs::Figures) -> f64 {
    f.spares / f.lifts
}

impl OnFloor {
    fn median(&self, of: fn(&pairs::Figures) -> f64) -> f64 {
        median(self.jobs.iter().map(of))
    }
}

/// Each ratio beside what is asked of it. `open_grid` has the jobs at the limits. Families with spare carts have rows of
/// their own.
pub fn ratios(
    families: &[Measured],
    open_grid: &Measured,
    pairs: &[OnFloor],
    maps: &[maps::Figures],
    texts: &[Spelled],
    filed: Option<Filed>,
) {
    let of_kind = |has_spares: bool| families.iter().filter(move |family| family.has_spares == has_spares);
    let all = || of_kind(false).flat_map(|family| &family.jobs);
    let medians = |of: fn(&Figures) -> f64| of_kind(false).map(move |family| family.median(of));
    let without = |of: fn(&Figures) -> f64| of_kind(false).filter(|f| !f.has_bays).map(move |family| family.median(of));
    let with_spares = |of: fn(&Figures) -> f64| of_kind(true).map(move |family| family.median(of));
    let mut table = Table::new(&["ratio", "asked", "measured"]);
    let mut row = |name: &str, asked: &str, value: f64| table.row([name.into(), asked.into(), shown(value, 2)]);
    row("plan / baseline, geometric mean of the families", "at most 1.1", geometric_mean(medians(to_baseline)));
    row("plan / baseline, geometric mean without bays", "", geometric_mean(without(to_baseline)));
    row("plan / baseline, worst family", "at most 2", most(medians(to_baseline)));
    row("best peer / plan, geometric mean of the families", "at least 25", geometric_mean(medians(of_peer)));
    row("best peer / plan, geometric mean without bays", "", geometric_mean(without(of_peer)));
    row("best peer / plan, worst job", "at least 2", least(all().map(of_peer)));
    row("best peer / plan with LEMON tuned, geometric mean", "", geometric_mean(medians(of_tuned)));
    row("best peer / plan with LEMON tuned, worst job", "", least(all().map(of_tuned)));
    row("plan / memset, open grid at the limits", "at most 1.6", open_grid.median(to_memset));
    row("check / plan, worst family", "at most 1", most(medians(of_check)));
    row("check / plan, worst job", "", most(all().map(of_check)));
    row("plan / plan before, geometric mean of the families", "", geometric_mean(medians(of_before)));
    row("plan / plan before, worst family", "", most(medians(of_before)));
    row("check / check before, geometric mean of the families", "", geometric_mean(medians(of_check_before)));
    row("plan / baseline with spare carts, geometric mean", "", geometric_mean(with_spares(to_baseline)));
    row("plan / baseline with spare carts, worst family", "", most(with_spares(to_baseline)));
    row("best peer / plan with spare carts, geometric mean", "", geometric_mean(with_spares(of_peer)));
    let jobs_with_spares = of_kind(true).flat_map(|family| &family.jobs);
    row("best peer / plan with spare carts, worst job", "", least(jobs_with_spares.map(of_peer)));
    row("check / plan with spare carts, worst family", "", most(with_spares(of_check)));
    let in_place = |of: fn(&pairs::Figures) -> f64| most(pairs.iter().map(|floor| floor.median(of)));
    row(&format!("plan with {SPARES} spares / as many bays, worst floor"), "at most 1", in_place(to_bays));
    row(&format!("plan with {SPARES} spares / as many lifts, worst floor"), "", in_place(to_lifts));
    let map_ratios = || maps.iter().map(|f| f.map / f.baseline);
    row("map / baseline, geometric mean of the families", "", geometric_mean(map_ratios()));
    row("map / baseline, worst family", "at most 1.5", most(map_ratios()));
    row("map / map before, worst family", "", most(maps.iter().map(|f| f.map / f.before)));
    let read_ratios = || texts.iter().map(|f| f.plain.to_before());
    let to_reader = texts.iter().map(|f| f.plain.read / f.plain.baseline);
    row("read / baseline, geometric mean of the families", "", geometric_mean(to_reader));
    row("read / read before, geometric mean of the families", "", geometric_mean(read_ratios()));
    row("read / read before, worst family", "at most 1.05", most(read_ratios()));
    if let Some(Filed { jobs, one, all }) = filed {
        row(&format!("floors / calls and files, {jobs} jobs, one thread"), "at most 2", one);
        row(&format!("floors / calls and files, {jobs} jobs, all cores"), "at most 2", all);
    }
    table.print();
}

/// Ratios a family: the median, then the worst job.
pub fn family_ratios(families: &[Measured]) {
    let head = [
        "family",
        "plans",
        "plan / baseline",
        "plan / before",
        "best peer / plan",
        "plan / memset",
        "check / plan",
        "visits / node",
        "looks / visit",
        "place kept",
    ];
    let mut table = Table::new(&head);
    for family in families {
        let pair = |of: fn(&Figures) -> f64| format!("{} {}", shown(family.median(of), 2), shown(family.most(of), 2));
        let plans = family.jobs.iter().filter(|f| f.is_plan).count();
        table.row([
            family.name.clone(),
            format!("{plans} of {}", family.jobs.len()),
            pair(to_baseline),
            pair(of_before),
            format!("{} {}", shown(family.median(of_peer), 1), shown(least(family.jobs.iter().map(of_peer)), 1)),
            pair(to_memset),
            pair(of_check),
            format!("{} {}", shown(family.median(visits), 3), shown(family.most(visits), 3)),
            shown(family.median(looks), 2),
            shown(family.median(looks_keeping), 2),
        ]);
    }
    table.print();
}

/// Microseconds a family: the median, then the longest.
pub fn family_times(families: &[Measured], peers: &[&str]) {
    let head: Vec<&str> = ["family", "plan", "baseline", "memset", "check"].iter().chain(peers).copied().collect();
    let mut table = Table::new(&head);
    for family in families {
        let pair = |of: &dyn Fn(&Figures) -> f64| format!("{} {}", time(family.median(of)), time(family.most(of)));
        let own: [&dyn Fn(&Figures) -> f64; 4] = [&|f| f.plan, &|f| f.baseline, &|f| f.memset, &|f| f.check];
        let mut row = vec![family.name.clone()];
        row.extend(own.into_iter().map(pair));
        row.extend((0..peers.len()).map(|i| pair(&|f: &Figures| f.peers[i])));
        table.row(row);
    }
    table.print();
}

/// Spare carts beside as many calls, a floor: the median, then the longest or the worst.
pub fn pairs(floors: &[OnFloor]) {
    let head = ["floor", "spares", "bays", "lifts", "spares / bays", "spares / lifts"];
    let mut table = Table::new(&head);
    for floor in floors {
        let pair = |shown: &dyn Fn(f64) -> String, of: fn(&pairs::Figures) -> f64| {
            format!("{} {}", shown(floor.median(of)), shown(most(floor.jobs.iter().map(of))))
        };
        table.row([
            floor.name.into(),
            pair(&time, |f| f.spares),
            pair(&time, |f| f.bays),
            pair(&time, |f| f.lifts),
            pair(&|ratio| shown(ratio, 2), to_bays),
            pair(&|ratio| shown(ratio, 2), to_lifts),
        ]);
    }
    table.print();
}

/// Maps a family, and how many bytes of them a second.
pub fn maps(families: &[maps::Figures]) {
    let head = ["family", "answer", "bytes", "map", "baseline", "map / baseline", "map / before", "MB of map a second"];
    let mut table = Table::new(&head);
    for f in families {
        table.row([
            f.name.into(),
            f.answer.to_string(),
            shown(f.bytes, 0),
            shown(f.map, 2),
            shown(f.baseline, 2),
            shown(f.map / f.baseline, 2),
            shown(f.map / f.before, 2),
            shown(f.bytes / f.map, 0),
        ]);
    }
    table.print();
}

/// Job texts a family, each spelling beside the plain one.
pub fn texts(families: &[Spelled]) {
    let head = ["family", "bytes", "read", "baseline", "read / baseline", "read / before", "with exponents / plain"];
    let mut table = Table::new(&head);
    let mut row = |f: &texts::Figures, plain: f64| {
        table.row([
            f.name.clone(),
            shown(f.bytes(), 0),
            shown(f.read, 0),
            shown(f.baseline, 0),
            shown(f.read / f.baseline, 2),
            shown(f.to_before(), 2),
            shown(f.read / plain, 2),
        ])
    };
    for Spelled { plain, some, all } in families {
        row(plain, f64::NAN);
        row(some, plain.read);
        row(all, plain.read);
    }
    table.print();
}

/// A time, with a digit behind the point if it is short.
fn time(value: f64) -> String {
    shown(value, (value < 100.0) as usize)
}

/// A number, or a dash for none.
fn shown(value: f64, digits: usize) -> String {
    if value.is_nan() {
        "-".into()
    } else {
        format!("{value:.digits$}")
    }
}

/// Visits on open grids of several sizes.
pub fn growth(sizes: &[(Size, Measured)]) {
    let mut table = Table::new(&["open grid", "carts", "last step", "nodes", "visits / node, mean", "most"]);
    for (size, family) in sizes {
        table.row([
            format!("{0} by {0}", size.side),
            size.carts.to_string(),
            size.last.to_string(),
            format!("{:.0}", family.median(|f| f.nodes as f64)),
            format!("{:.3}", family.jobs.iter().map(visits).sum::<f64>() / family.jobs.len() as f64),
            format!("{:.3}", family.most(visits)),
        ]);
    }
    table.print();
}
