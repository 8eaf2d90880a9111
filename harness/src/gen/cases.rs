//! What is tried on a job, mostly a small one: right plans, wrong ones, plans in other orders, paths of other lengths,
//! SPARE lines, choke lists, whole calls, damaged sheets, damaged jobs, short stores.

use super::bays::{spare_walks_over_bays, walks_over_bays};
use super::damage::{changed, damaged, Damage};
use super::orders::{exchanged_at_one_step, ORDERS};
use super::plans::{early_and_late_plans, plans_by, plans_of};
use super::spelled::respelled;
use super::{lists, spare_lines, wrong, Rng};
use crate::model::job::{Call, Job};
use crate::model::limits::{self, store_least};
use crate::model::plan::{is_plan, keep_apart};
use crate::model::reader;
use crate::model::sheet::{Choke, Path, Plan, Sheet};
use crate::model::walks::{all_walks, Walk};

/// One call of the check.
pub struct Case {
    pub job: Vec<u8>,
    pub store_len: usize,
    pub sheet: Vec<u8>,
}

/// A job with its walks, its plans (300 at most, early ones and late ones) and its true choke lists; if it is not small,
/// with one of these.
pub struct Known {
    pub job: Job,
    pub walks: Vec<Vec<Vec<Walk>>>,
    pub plans: Vec<Plan>,
    pub lists: Vec<Vec<Choke>>,
    /// What would be a plan if the bays closed nothing, and is none only because a cart stands on a closed cell.
    pub over_bays: Vec<Plan>,
}

impl Known {
    pub fn of(job: Job) -> Known {
        let (walks, lists, over_bays) = (all_walks(&job), lists::true_lists(&job), over_bays(&job));
        Known { walks, plans: early_and_late_plans(&job, 150), lists, over_bays, job }
    }

    /// What is known of a larger job by one right sheet of it. No walk is written out.
    pub fn by_sheet(job: Job, right: Sheet) -> Known {
        let walks = vec![vec![Vec::new(); job.calls.len()]; job.carts.len()];
        let (plans, lists) = match right {
            Sheet::Plan(plan) => (vec![plan], Vec::new()),
            Sheet::Cannot(list) => (Vec::new(), vec![list]),
        };
        Known { job, walks, plans, lists, over_bays: Vec::new() }
    }

    /// A right sheet of the job: it has a plan or a true choke list, whichever it is.
    fn right_sheet(&self, rng: &mut Rng) -> Sheet {
        match self.plans.is_empty() {
            false => Sheet::Plan(rng.pick(&self.plans).clone()),
            true => Sheet::Cannot(rng.pick(&self.lists).clone()),
        }
    }

    /// The sheet with a store that is long enough, often just so.
    fn case(&self, sheet: Vec<u8>, rng: &mut Rng) -> Case {
        let more = if rng.once_in(3) { rng.below(100) } else { 0 };
        Case { job: some_text(&self.job, rng), store_len: store_least(&self.job) + more, sheet }
    }
}

/// The job's text, now and then with its numbers written in other ways.
fn some_text(job: &Job, rng: &mut Rng) -> Vec<u8> {
    match rng.once_in(3) {
        true => respelled(&job.text(), rng),
        false => job.text(),
    }
}

fn over_bays(job: &Job) -> Vec<Plan> {
    let mut all = plans_by(job, &walks_over_bays(job), keep_apart, 300);
    if job.has_bays() && job.spares() > 0 {
        all.extend(plans_of(job, &all_walks(job), &spare_walks_over_bays(job), 300));
    }
    all.retain(|plan| !is_plan(job, plan));
    all
}

/// A kind of cases: some of them for a job.
pub type Kind = fn(&Known, &mut Rng) -> Vec<Case>;

pub const KINDS: &[Kind] = &[
    right_sheets,
    wrong_plans,
    other_orders,
    other_lengths,
    spare_carts,
    choke_lists,
    doubled_points,
    whole_calls,
    damaged_sheets,
    damaged_jobs,
    stores,
];

pub fn right_sheets(known: &Known, rng: &mut Rng) -> Vec<Case> {
    (0..8).map(|_| known.case(known.right_sheet(rng).text(), rng)).collect()
}

/// Plans that conflict or not as chance has it, right ones with one thing changed, where there are any, and those that
/// lead over closed cells.
pub fn wrong_plans(known: &Known, rng: &mut Rng) -> Vec<Case> {
    let mut all = Vec::new();
    for _ in 0..8 {
        let by_chance = wrong::plan_by_chance(&known.job, &known.walks, rng);
        let near = if known.plans.is_empty() { &by_chance } else { rng.pick(&known.plans) };
        all.push(wrong::tampered_plan(&known.job, near, rng));
        all.push(by_chance);
        if !known.over_bays.is_empty() {
            all.push(rng.pick(&known.over_bays).clone());
        }
    }
    all.into_iter().map(|plan| known.case(Sheet::Plan(plan).text(), rng)).collect()
}

/// A right plan, if there is one, with its PATH lines in other orders. One of these can be the written order by chance.
pub fn other_orders(known: &Known, rng: &mut Rng) -> Vec<Case> {
    if known.plans.is_empty() {
        return Vec::new();
    }
    let right = rng.pick(&known.plans);
    let mut all: Vec<Vec<Path>> = ORDERS.iter().map(|order| order(&known.job, &right.paths)).collect();
    let exchanged = exchanged_at_one_step(&known.job, &right.paths);
    if !exchanged.is_empty() {
        all.push(rng.pick(&exchanged).clone());
    }
    all.into_iter().map(|paths| known.case(with_paths(right, paths).text(), rng)).collect()
}

/// The plan with other paths and the same spare carts.
fn with_paths(plan: &Plan, paths: Vec<Path>) -> Sheet {
    Sheet::Plan(Plan { paths, spares: plan.spares.clone() })
}

/// A right plan, if there is one, with a path that ends earlier, down to none of its cells, or stands on, up to one cell too
/// many; and with carts that wait for their deadlines.
pub fn other_lengths(known: &Known, rng: &mut Rng) -> Vec<Case> {
    if known.plans.is_empty() || known.job.calls.is_empty() {
        return Vec::new();
    }
    let mut all = Vec::new();
    for _ in 0..4 {
        let right = rng.pick(&known.plans);
        let at = rng.below(right.paths.len());
        let (deadline, has) = (known.job.calls[right.paths[at].call].deadline, right.paths[at].cells.len());
        let with_length = |length: usize| {
            let mut paths = right.paths.clone();
            let last = paths[at].cells[has - 1];
            paths[at].cells.resize(length, last);
            with_paths(right, paths)
        };
        all.extend([0, rng.below(has), deadline + 1, deadline + 2].map(with_length));
        let mut waiting = right.paths.clone();
        waiting.iter_mut().for_each(|path| wrong::wait_for_the_deadline(path, &known.job));
        all.push(with_paths(right, waiting));
    }
    all.into_iter().map(|sheet| known.case(sheet.text(), rng)).collect()
}

/// A right plan of a job with spare carts, if there is one, with SPARE lines that are wrong, each in one way: all the ways
/// in the form, and all that are out of it.
pub fn spare_carts(known: &Known, rng: &mut Rng) -> Vec<Case> {
    if known.plans.is_empty() || known.job.spares() == 0 {
        return Vec::new();
    }
    let mut sheets = Vec::new();
    for _ in 0..2 {
        let right = rng.pick(&known.plans);
        let in_the_form = spare_lines::in_the_form(&known.job, right, rng);
        sheets.extend(in_the_form.into_iter().map(|plan| Sheet::Plan(plan).text()));
        sheets.extend(spare_lines::out_of_the_form(&known.job, right, rng));
    }
    sheets.into_iter().map(|sheet| known.case(sheet, rng)).collect()
}

/// True lists and untrue ones, as short as can be and longer, below the calls, as many as they are, and more.
pub fn choke_lists(known: &Known, rng: &mut Rng) -> Vec<Case> {
    let (job, calls) = (&known.job, known.job.calls.len());
    let mut all = vec![Vec::new(), lists::ends(job), lists::longer(job, &lists::ends(job), calls + 1, rng)];
    for _ in 0..4 {
        let count = rng.below(calls + 2);
        all.push(lists::some_points(job, count, rng));
    }
    if let Some(shortest) = known.lists.first() {
        let any = rng.pick(&known.lists).clone();
        all.extend(lists_near(job, shortest, rng));
        all.extend(lists_near(job, &any, rng));
    }
    let changed: Vec<_> = all.iter().map(|list| wrong::tampered_list(job, list, rng)).collect();
    all.extend(changed);
    all.into_iter().map(|list| known.case(Sheet::Cannot(list).text(), rng)).collect()
}

/// A true list as it is, longer but still below the calls, as long as them, with a point twice, and with points on closed
/// cells.
fn lists_near(job: &Job, list: &[Choke], rng: &mut Rng) -> Vec<Vec<Choke>> {
    let calls = job.calls.len();
    vec![
        list.to_vec(),
        lists::longer(job, list, calls - 1, rng),
        lists::longer(job, list, calls, rng),
        wrong::doubled_point(list, rng),
        wrong::closed_point_more(job, list, rng),
        wrong::closed_point_instead(job, list, rng),
    ]
}

/// Lists that are true but for a point that stands twice. Two calls more, which no cart can come to, leave room for it:
/// so the count is below the calls, and nothing but the doubled point turns the sheet back.
pub fn doubled_points(known: &Known, rng: &mut Rng) -> Vec<Case> {
    let job = with_stranded_cart(with_stranded_cart(known.job.clone()));
    if known.job.calls.is_empty() || job.cells > limits::CELLS || job.carts.len() > limits::CARTS {
        return Vec::new();
    }
    let ends = lists::ends(&known.job);
    let with_points: Vec<&Vec<Choke>> = known.lists.iter().chain([&ends]).filter(|list| !list.is_empty()).collect();
    let case = |_| {
        let true_list = *rng.pick(&with_points);
        let list = wrong::doubled_point(true_list, rng);
        Case { job: job.text(), store_len: store_least(&job), sheet: Sheet::Cannot(list).text() }
    };
    (0..4).map(case).collect()
}

/// Lists of whole calls, and of cells at the steps of bays, that stop every walk, with one thing changed: the order, a call,
/// or what is counted. Two calls more, which no cart can come to, leave room for a point more.
pub fn whole_calls(known: &Known, rng: &mut Rng) -> Vec<Case> {
    let job = with_stranded_cart(with_stranded_cart(known.job.clone()));
    if known.job.calls.is_empty() || job.cells > limits::CELLS || job.carts.len() > limits::CARTS {
        return Vec::new();
    }
    let ends = lists::ends(&known.job);
    let (mut fewer, more) = (ends.clone(), lists::longer(&job, &ends, ends.len() + 1, rng));
    fewer.remove(rng.below(ends.len()));
    let mut all = vec![wrong::last_cell_instead(&job, &ends, rng), wrong::doubled_point(&ends, rng)];
    for list in [&ends, &fewer, &more] {
        let mut shuffled = list.clone();
        rng.shuffle(&mut shuffled);
        all.extend([list.clone(), shuffled]);
    }
    // As many as the calls, and a call whose number is a bay's or nobody's.
    all.push(lists::ends(&job));
    all.push([ends.as_slice(), &[Choke::Call(rng.below(job.calls.len() + 2))]].concat());
    let mut sheets: Vec<Vec<u8>> = all.into_iter().map(|list| Sheet::Cannot(list).text()).collect();
    sheets.push(counting_cells_alone(&ends));
    sheets.into_iter().map(|sheet| Case { job: job.text(), store_len: store_least(&job), sheet }).collect()
}

/// The list with a count of its cells alone.
fn counting_cells_alone(list: &[Choke]) -> Vec<u8> {
    let cells = list.iter().filter(|choke| matches!(choke, Choke::Cell { .. })).count();
    let counted = |count: usize| format!("CANNOT\t{count}\n").into_bytes();
    let text = Sheet::Cannot(list.to_vec()).text();
    [counted(cells), text[counted(list.len()).len()..].to_vec()].concat()
}

/// The job with one cart more and one call more, each on a cell of its own that no track leads to.
fn with_stranded_cart(mut job: Job) -> Job {
    job.carts.push(job.cells);
    job.calls.push(Call::lift(job.cells + 1, job.last()));
    job.cells += 2;
    job
}

/// Damage to right sheets and to wrong ones.
pub fn damaged_sheets(known: &Known, rng: &mut Rng) -> Vec<Case> {
    sheets_after(damaged, known, rng)
}

/// The same, where no sheet is left as it was.
pub fn changed_sheets(known: &Known, rng: &mut Rng) -> Vec<Case> {
    sheets_after(changed, known, rng)
}

fn sheets_after(damage: Damage, known: &Known, rng: &mut Rng) -> Vec<Case> {
    let mut all = Vec::new();
    for _ in 0..8 {
        let by_chance = Sheet::Plan(wrong::plan_by_chance(&known.job, &known.walks, rng));
        all.push(damage(&known.right_sheet(rng).text(), rng));
        all.push(damage(&by_chance.text(), rng));
    }
    all.into_iter().map(|sheet| known.case(sheet, rng)).collect()
}

/// Damage to the job, with a right sheet of the whole one. The store is long enough if the job is still one.
pub fn damaged_jobs(known: &Known, rng: &mut Rng) -> Vec<Case> {
    jobs_after(damaged, known, rng)
}

/// The same, where no job is left as it was.
pub fn changed_jobs(known: &Known, rng: &mut Rng) -> Vec<Case> {
    jobs_after(changed, known, rng)
}

fn jobs_after(damage: Damage, known: &Known, rng: &mut Rng) -> Vec<Case> {
    let case = |_| {
        let job = damage(&some_text(&known.job, rng), rng);
        let store_len = reader::read(&job).map_or(4096, |job| store_least(&job));
        let sheet = known.right_sheet(rng).text();
        Case { job, store_len, sheet }
    };
    (0..16).map(case).collect()
}

/// Stores of just the least length, shorter and longer.
pub fn stores(known: &Known, rng: &mut Rng) -> Vec<Case> {
    let least = store_least(&known.job);
    let lengths = [0, 1, 4095, 4096, least - 1, least, least + 1, 2 * least];
    let case = |store_len| Case { job: known.job.text(), store_len, sheet: known.right_sheet(rng).text() };
    lengths.into_iter().map(case).collect()
}
