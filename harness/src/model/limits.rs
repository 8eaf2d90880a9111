//! The limits of a job, and the least lengths of the buffers it is planned in.

use super::job::Job;

pub const CELLS: usize = 256;
pub const TRACKS: usize = 512;
pub const CARTS: usize = 64;
/// Bays are counted with them.
pub const CALLS: usize = 64;
pub const DEADLINE: usize = 255;
pub const TEXT: usize = 16_384;
/// The most rows of a map, and the most letters of a row.
pub const SIDE: usize = 64;

/// The least work store.
pub fn store_least(job: &Job) -> usize {
    (job.last() + 1) * 32 * (job.cells + 2 * job.tracks.len()) + 4096
}

/// The least sheet buffer of the planner.
pub fn sheet_least(job: &Job) -> usize {
    job.carts.len() * (4 * (job.last() + 1) + 16) + 64
}
