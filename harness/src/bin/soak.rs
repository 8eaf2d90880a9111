//! Damaged jobs, sheets and maps in great number, each call held against the model. The same seed tries the same texts.

use std::env;
use std::process::ExitCode;
use std::time::{Duration, Instant, SystemTime};

use harness::compare::{self, show};
use harness::ffi::Library;
use harness::gen::cases::{
    changed_jobs, changed_sheets, choke_lists, doubled_points, other_lengths, other_orders, right_sheets, spare_carts,
    stores, whole_calls, wrong_plans, Case, Kind, Known,
};
use harness::gen::early::{about_early_lifts, lifts_early};
use harness::gen::map_cases::MAP_KINDS;
use harness::gen::orders;
use harness::gen::sizes::{at_the_limits, medium};
use harness::gen::small::{small, small_at_one_step};
use harness::gen::spares::small_with_spares;
use harness::gen::spelled::respelled;
use harness::gen::Rng;
use harness::model::job::Job;
use harness::model::limits::{sheet_least, store_least};
use harness::model::reader;
use harness::model::sheet::{self, Choke, Sheet};
use harness::tally::Tally;

const USAGE: &str = "\
soak [--seconds N] [--texts M] [--seed S] [--first T]
  --seconds N  for N seconds (10)
  --texts M    until M damaged texts, jobs, sheets and maps, are tried, however long that takes;
               1000000 take some 3 minutes of processor time
  --seed S     which texts (else by the clock)
  --first T    from turn T on: with the seed of a run that found a difference, the turn it was found in";

/// Damaged texts come from the first two.
const KINDS: [(&str, Kind); 11] = [
    ("damaged jobs", changed_jobs),
    ("damaged sheets", changed_sheets),
    ("right sheets", right_sheets),
    ("wrong plans", wrong_plans),
    ("plans in other orders", other_orders),
    ("paths of other lengths", other_lengths),
    ("wrong SPARE lines", spare_carts),
    ("choke lists", choke_lists),
    ("doubled choke points", doubled_points),
    ("whole calls", whole_calls),
    ("stores of any length", stores),
];

/// Makes a job.
type Make = fn(&mut Rng) -> Job;

const SIZES: [(&str, Make); 6] = [
    ("small", small),
    ("small at one step", small_at_one_step),
    ("small with spare carts", small_with_spares),
    ("about early lifts", about_early_lifts),
    ("medium", medium),
    ("at the limits", at_the_limits),
];
const SMALL: usize = 0;
const SMALL_AT_ONE_STEP: usize = 1;
const SMALL_WITH_SPARES: usize = 2;
const ABOUT_EARLY_LIFTS: usize = 3;
const MEDIUM: usize = 4;
const AT_THE_LIMITS: usize = 5;

/// How many maps of each kind a turn tries: the damaged ones come last.
const MAPS: [usize; MAP_KINDS.len()] = [2, 2, 12];
const DAMAGED_MAPS: usize = MAP_KINDS.len() - 1;

/// What was tried, and what was answered.
#[derive(Default)]
struct Tried {
    sizes: [usize; SIZES.len()],
    with_bays: usize,
    with_spares: usize,
    /// Jobs with calls of one step in another order than their cells.
    with_other_order: usize,
    /// Jobs planned with a cart that is lifted before its deadline.
    lifted_early: usize,
    /// Jobs that got a choke list with a whole call.
    with_whole_calls: usize,
    kinds: [usize; KINDS.len()],
    map_kinds: [usize; MAP_KINDS.len()],
    plans: Tally,
    checks: Tally,
    maps: Tally,
}

fn main() -> ExitCode {
    let Some(run) = Run::from_arguments() else {
        println!("{USAGE}");
        return ExitCode::from(2);
    };
    println!("seed {}", run.seed);
    let start = Instant::now();
    let mut tried = Tried::default();
    let mut turn = run.first;
    while run.goes_on(&tried, start.elapsed()) {
        if let Err(difference) = tried.turn(run.seed, turn) {
            println!("seed {}, turn {turn}: {difference}", run.seed);
            return ExitCode::FAILURE;
        }
        turn += 1;
    }
    tried.print(start.elapsed());
    ExitCode::SUCCESS
}

struct Run {
    seconds: u64,
    texts: Option<usize>,
    seed: u64,
    first: u64,
}

impl Run {
    /// Nothing if the arguments are not in order.
    fn from_arguments() -> Option<Run> {
        let clock = SystemTime::UNIX_EPOCH.elapsed().map_or(1, |since| since.as_secs());
        let mut run = Run { seconds: 10, texts: None, seed: clock, first: 0 };
        let mut arguments = env::args().skip(1);
        while let Some(name) = arguments.next() {
            let number: u64 = arguments.next()?.parse().ok()?;
            match name.as_str() {
                "--seconds" => run.seconds = number,
                "--texts" => run.texts = Some(number as usize),
                "--seed" => run.seed = number,
                "--first" => run.first = number,
                _ => return None,
            }
        }
        Some(run)
    }

    fn goes_on(&self, tried: &Tried, elapsed: Duration) -> bool {
        match self.texts {
            Some(texts) => tried.damaged() < texts,
            None => elapsed.as_secs() < self.seconds,
        }
    }
}

impl Tried {
    /// A job, planned, in plain digits and otherwise, and the kinds of cases it gives; then maps. Each turn has its own
    /// chance, so that it can be had alone.
    fn turn(&mut self, seed: u64, turn: u64) -> Result<(), String> {
        let mut rng = Rng::new(seed.wrapping_add(turn << 32));
        // A call at the limits takes a thousand times as long as a small one.
        let size = match (turn % 100, turn % 10) {
            (9, _) => AT_THE_LIMITS,
            (_, 4) => MEDIUM,
            (_, 1 | 6) => SMALL_AT_ONE_STEP,
            (_, 2 | 7) => ABOUT_EARLY_LIFTS,
            (_, 3 | 8) => SMALL_WITH_SPARES,
            _ => SMALL,
        };
        self.sizes[size] += 1;
        let job = SIZES[size].1(&mut rng);
        self.with_bays += usize::from(job.has_bays());
        self.with_spares += usize::from(job.spares() > 0);
        self.with_other_order += usize::from(orders::differ(&job));
        let right = self.plan(&job.text(), store_least(&job), sheet_least(&job), &mut rng)?;
        let other = respelled(&job.text(), &mut rng);
        if self.plan(&other, store_least(&job), sheet_least(&job), &mut rng)? != right {
            return Err(format!("another sheet than in plain digits for the job\n{}", show(&other)));
        }
        // The planner's sheet has passed the model's check.
        let right = sheet::read(&right, &job).expect("a sheet in the form");
        match &right {
            Sheet::Plan(plan) => self.lifted_early += usize::from(lifts_early(&job, &plan.paths)),
            Sheet::Cannot(chokes) => self.with_whole_calls += usize::from(has_whole_call(chokes)),
        }
        let known = match size {
            SMALL | SMALL_AT_ONE_STEP | SMALL_WITH_SPARES => Known::of(job),
            _ => Known::by_sheet(job, right),
        };
        match size {
            AT_THE_LIMITS => self.try_kind(rng.below(KINDS.len()), &known, &mut rng),
            _ => (0..KINDS.len()).try_for_each(|kind| self.try_kind(kind, &known, &mut rng)),
        }?;
        (0..MAP_KINDS.len()).try_for_each(|kind| self.try_maps(kind, &mut rng))
    }

    fn try_maps(&mut self, kind: usize, rng: &mut Rng) -> Result<(), String> {
        for _ in 0..MAPS[kind] {
            let case = MAP_KINDS[kind].1(rng);
            self.map_kinds[kind] += 1;
            self.maps.count(compare::map(&Library, &case, rng)?.0);
        }
        Ok(())
    }

    fn try_kind(&mut self, kind: usize, known: &Known, rng: &mut Rng) -> Result<(), String> {
        for case in KINDS[kind].1(known, rng) {
            self.kinds[kind] += 1;
            self.checks.count(compare::check(&Library, &case, rng)?.0);
            if reader::read(&case.job).as_ref() != Ok(&known.job) {
                self.plan_near(&case, rng)?;
            }
        }
        Ok(())
    }

    /// Plans a case's job, with buffers just long enough or, now and then, one byte short.
    fn plan_near(&mut self, case: &Case, rng: &mut Rng) -> Result<(), String> {
        let sheet_len = reader::read(&case.job).map_or(64, |job| sheet_least(&job));
        let (short_store, short_sheet) = (rng.once_in(8), rng.once_in(8));
        let (store_len, sheet_len) = (case.store_len - usize::from(short_store), sheet_len - usize::from(short_sheet));
        self.plan(&case.job, store_len, sheet_len, rng).map(drop)
    }

    fn plan(&mut self, job: &[u8], store_len: usize, sheet_len: usize, rng: &mut Rng) -> Result<Vec<u8>, String> {
        let (answer, sheet) = compare::planned(job, store_len, sheet_len, rng)?;
        self.plans.count(answer);
        Ok(sheet)
    }

    /// Texts that differ from the whole ones.
    fn damaged(&self) -> usize {
        self.kinds[0] + self.kinds[1] + self.map_kinds[DAMAGED_MAPS]
    }

    fn print(&self, elapsed: Duration) {
        let counted = |names: &[&str], counts: &[usize]| {
            let each: Vec<String> = names.iter().zip(counts).map(|(name, count)| format!("{count} {name}")).collect();
            each.join(", ")
        };
        let sizes = counted(&SIZES.map(|size| size.0), &self.sizes);
        println!("turns: {sizes}");
        let (bays, spares, other_order) = (self.with_bays, self.with_spares, self.with_other_order);
        println!(
            "jobs: {bays} with bays, {spares} with spare carts, {other_order} with calls of one step in another order than their cells"
        );
        println!("sheets: {} with early lifts, {} with whole calls", self.lifted_early, self.with_whole_calls);
        println!("cases: {}", counted(&KINDS.map(|kind| kind.0), &self.kinds));
        println!("maps: {}", counted(&MAP_KINDS.map(|kind| kind.0), &self.map_kinds));
        println!("answers of the planner: {}", self.plans);
        println!("answers of the check: {}", self.checks);
        println!("answers to maps: {}", self.maps);
        let (texts, seconds) = (self.damaged(), elapsed.as_secs_f64());
        println!("{texts} damaged texts in {seconds:.1} s, {:.0} a second: no difference", texts as f64 / seconds);
    }
}

fn has_whole_call(chokes: &[Choke]) -> bool {
    chokes.iter().any(|choke| matches!(choke, Choke::Call(_)))
}
