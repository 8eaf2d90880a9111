//! Job texts read: by the library, by the baseline, and by a former library. By turns in one process, the best of many
//! counts.

use std::hint::black_box;

use harness::baseline;
use harness::gen::floors::ring;
use harness::gen::large::standing;
use harness::gen::small::small;
use harness::gen::spelled::{at_full_length, respelled};
use harness::gen::Rng;
use harness::model::answer::{pack, STORE_TOO_SHORT};
use harness::model::job::Job;
use harness::model::limits::{CARTS, DEADLINE};

use crate::before::Before;
use crate::clock::timed;
use crate::families::{BELOW, HALF_BAYS, LIMITS, OPEN_GRID, SMALL_HALL};
use crate::placed::Placed;

/// A family of jobs, whose texts are gone through in turn.
struct Family {
    name: &'static str,
    job: fn(usize) -> Job,
}

/// The texts of a family in one spelling, and nanoseconds a text.
pub struct Figures {
    pub name: String,
    texts: Vec<Vec<u8>>,
    /// How often the texts are gone through at once.
    times: usize,
    pub read: f64,
    pub baseline: f64,
    /// None where the library before refuses these texts.
    places: Vec<Placed>,
    /// At each place, of this library and of the one before.
    at_places: Vec<[f64; 2]>,
}

/// The same jobs in three spellings.
pub struct Spelled {
    pub plain: Figures,
    /// Most numbers with a power of ten, as chance has it.
    pub some: Figures,
    /// Every number with one, and as long as it can be.
    pub all: Figures,
}

const TEXTS: usize = 8;
/// What is shorter is timed several times at once.
const SHORTEST: f64 = 200_000.0;
/// One run of a text is so short, and the ratio asked for so near to 1, that more rounds are made than of other calls.
const MORE: usize = 5;

const FAMILIES: [Family; 6] = [
    Family { name: "1 to 5 cells", job: |i| small(&mut Rng::new(i as u64)) },
    Family { name: "small hall", job: |i| SMALL_HALL.job(LIMITS, i) },
    Family { name: "open grid, 12 by 12", job: |i| OPEN_GRID.job(BELOW, i) },
    Family { name: "open grid, 16 by 16", job: |i| OPEN_GRID.job(LIMITS, i) },
    Family { name: "open grid, half bays", job: |i| HALF_BAYS.job(LIMITS, i) },
    Family { name: "every limit, three digits", job: full },
];

pub fn measure(places: &[Placed], rounds: usize) -> Vec<Spelled> {
    FAMILIES.iter().map(|family| of_family(family, places, MORE * rounds)).collect()
}

fn of_family(family: &Family, places: &[Placed], rounds: usize) -> Spelled {
    let plain: Vec<Vec<u8>> = (0..TEXTS).map(|i| (family.job)(i).text()).collect();
    let some = plain.iter().zip(1..).map(|(text, seed)| respelled(text, &mut Rng::new(seed))).collect();
    let all = plain.iter().map(|text| at_full_length(text)).collect();
    let named = |more: &str| format!("{}{more}", family.name);
    let mut spelled = Spelled {
        plain: Figures::new(named(""), plain, places),
        some: Figures::new(named(", respelled"), some, places),
        all: Figures::new(named(", at full length"), all, places),
    };
    for _ in 0..rounds + 1 {
        spelled.plain.round();
        spelled.some.round();
        spelled.all.round();
    }
    spelled
}

impl Figures {
    fn new(name: String, texts: Vec<Vec<u8>>, places: &[Placed]) -> Figures {
        let is_known = |place: &&Placed| texts.iter().all(|text| is_read(place.before.plan(text, &mut [], &mut [])));
        let places: Vec<Placed> = places.iter().filter(is_known).copied().collect();
        let at_places = vec![[f64::NAN; 2]; places.len()];
        Figures { name, texts, times: 1, read: f64::NAN, baseline: f64::NAN, places, at_places }
    }

    /// Of a text, on the average.
    pub fn bytes(&self) -> f64 {
        self.texts.iter().map(Vec::len).sum::<usize>() as f64 / TEXTS as f64
    }

    /// This library to the one before, on the average of the places: no number where there is none.
    pub fn to_before(&self) -> f64 {
        let sum = |library: usize| self.at_places.iter().map(|times| times[library]).sum::<f64>();
        sum(0) / sum(1)
    }

    fn round(&mut self) {
        self.read = self.read.min(self.timed(|text| assert!(is_read(cartfloor::plan(text, &mut [], &mut [])))));
        self.baseline = self.baseline.min(self.timed(|text| _ = black_box(&baseline::read(text))));
        let by = |library: Before| self.timed(|text| assert!(is_read(library.plan(text, &mut [], &mut []))));
        let round: Vec<[f64; 2]> = self.places.iter().map(|place| [place.now, place.before].map(by)).collect();
        for (best, time) in self.at_places.iter_mut().flatten().zip(round.into_iter().flatten()) {
            *best = best.min(time);
        }
        self.times = (SHORTEST / (TEXTS as f64 * self.read)).ceil() as usize;
    }

    fn timed(&self, read: impl Fn(&[u8])) -> f64 {
        1e3 * timed(self.times, || self.texts.iter().for_each(|text| read(text))) / TEXTS as f64
    }
}

/// What the planner answers without a store, once it has accepted the whole text. It has done nothing else by then.
fn is_read(packed: u64) -> bool {
    packed == pack(STORE_TOO_SHORT, 0)
}

/// The longest text without an exponent, its lines of each kind in any order.
fn full(i: usize) -> Job {
    let mut rng = Rng::new(i as u64);
    let mut job = standing(ring(), CARTS, DEADLINE).0;
    rng.shuffle(&mut job.tracks);
    rng.shuffle(&mut job.carts);
    rng.shuffle(&mut job.calls);
    job
}
