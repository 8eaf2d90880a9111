//! Max-flow libraries on the job's network: shared objects that `./bench` builds where the packages are installed.

use std::ffi::{c_int, c_void};

use harness::model::job::Job;

use crate::shared::function;

pub const NAMES: [&str; 4] = ["lemon", "igraph", "boost", TUNED];

/// Tuned by hand; the others are used as their manuals have it.
const TUNED: &str = "lemon_static";

const M_TRIM_THRESHOLD: c_int = -1;
const M_MMAP_THRESHOLD: c_int = -3;

/// A job as `harness/peers/network.hpp` has it.
#[repr(C)]
struct Handed {
    cells: c_int,
    tracks: c_int,
    carts: c_int,
    calls: c_int,
    from: *const c_int,
    to: *const c_int,
    starts: *const c_int,
    lifts: *const c_int,
    deadlines: *const c_int,
    bays: *const c_int,
}

type MaxFlow = unsafe extern "C" fn(*const Handed, c_int) -> c_int;

extern "C" {
    fn mallopt(what: c_int, value: c_int) -> c_int;
}

#[derive(Clone, Copy)]
pub struct Peer {
    pub name: &'static str,
    pub is_tuned: bool,
    max_flow: MaxFlow,
}

/// Those that are there.
pub fn load(folder: &str) -> Vec<Peer> {
    // Safety: no other thread allocates. Freed memory is kept: only the first run of a peer asks the system for it.
    unsafe {
        mallopt(M_TRIM_THRESHOLD, 1 << 30);
        mallopt(M_MMAP_THRESHOLD, 1 << 30);
    }
    NAMES.into_iter().filter_map(|name| open(folder, name)).collect()
}

fn open(folder: &str, name: &'static str) -> Option<Peer> {
    let symbol = function(&format!("{folder}/{name}.so"), c"max_flow")?;
    // Safety: the object is one of harness/peers, where the symbol is such a function.
    let max_flow = unsafe { std::mem::transmute::<*mut c_void, MaxFlow>(symbol) };
    Some(Peer { name, is_tuned: name == TUNED, max_flow })
}

/// The numbers of a job, one array a column.
pub struct Columns {
    cells: c_int,
    from: Vec<c_int>,
    to: Vec<c_int>,
    starts: Vec<c_int>,
    lifts: Vec<c_int>,
    deadlines: Vec<c_int>,
    bays: Vec<c_int>,
}

impl Columns {
    pub fn of(job: &Job) -> Columns {
        Columns {
            cells: job.cells as c_int,
            from: job.tracks.iter().map(|t| t.0 as c_int).collect(),
            to: job.tracks.iter().map(|t| t.1 as c_int).collect(),
            starts: job.carts.iter().map(|&c| c as c_int).collect(),
            lifts: job.calls.iter().map(|c| c.cell as c_int).collect(),
            deadlines: job.calls.iter().map(|c| c.deadline as c_int).collect(),
            bays: job.calls.iter().map(|c| c.is_bay() as c_int).collect(),
        }
    }
}

impl Peer {
    /// Builds the network, from the calls to the carts if `backward`, and finds out how many calls can be served.
    pub fn max_flow(&self, job: &Columns, backward: bool) -> usize {
        let handed = Handed {
            cells: job.cells,
            tracks: job.from.len() as c_int,
            carts: job.starts.len() as c_int,
            calls: job.lifts.len() as c_int,
            from: job.from.as_ptr(),
            to: job.to.as_ptr(),
            starts: job.starts.as_ptr(),
            lifts: job.lifts.as_ptr(),
            deadlines: job.deadlines.as_ptr(),
            bays: job.bays.as_ptr(),
        };
        // Safety: the columns are as long as it says, and only read.
        unsafe { (self.max_flow)(&handed, backward as c_int) as usize }
    }
}
