//! Jobs of every size, as chance has them, for long runs.

use super::bays::{all_bays, some_bays};
use super::early::{early_and_joined, early_many_times, whole_calls};
use super::floors::{grid, ring, some_floor, with_most_tracks};
use super::large::{
    crowded_star, late_star, moving, moving_to_bays, moving_with_spares, put_off, put_off_with_spares, scattered,
    scattered_with_bays, shut_line, standing, with_lost_call,
};
use super::spares::{fewer_calls, one_cart_more};
use super::Rng;
use crate::model::job::Job;
use crate::model::limits::{CARTS, DEADLINE};

/// A job that has a plan, has none, or has one as chance has it. Half of them have bays, a third spare carts, and some need
/// an early lift or a whole call.
pub fn medium(rng: &mut Rng) -> Job {
    let floor = some_floor(rng);
    let carts = rng.below(floor.cells.min(CARTS));
    let most = rng.below(24);
    match rng.below(15) {
        0 => moving(floor, carts, 0, most, rng).0,
        1 => with_lost_call(moving(floor, carts, 0, most, rng).0).0,
        2 => scattered(floor, carts, most, rng),
        3 => moving_to_bays(floor, carts, 0, most, rng).0,
        4 => with_lost_call(moving_to_bays(floor, carts, 0, most, rng).0).0,
        5 => scattered_with_bays(floor, carts, most, rng),
        6 => put_off(moving(floor, carts, 0, most, rng), 24, rng).0,
        7 => early_and_joined(rng).0,
        8 => early_many_times(1 + rng.below(4), 3, 1 + rng.below(6), rng).0,
        9 => whole_calls(12, rng).0,
        10 => put_off_with_spares(moving_with_spares(floor, (carts, carts / 2), 0, most, rng), 24, rng).0,
        11 => with_lost_call(moving_with_spares(floor, (carts, carts / 3), 0, most, rng).0).0,
        12 => fewer_calls(scattered(floor, carts, most, rng), rng),
        13 => fewer_calls(scattered_with_bays(floor, carts, most, rng), rng),
        _ => one_cart_more(scattered_with_bays(floor, carts, most, rng), rng),
    }
}

/// The same at the limits, and the jobs with the longest sheet and the widest cell.
pub fn at_the_limits(rng: &mut Rng) -> Job {
    match rng.below(18) {
        0 => moving(with_most_tracks(grid(16, 16), rng), CARTS, 200, DEADLINE, rng).0,
        1 => with_lost_call(moving(grid(15, 17), CARTS - 1, 100, DEADLINE, rng).0).0,
        2 => scattered(with_most_tracks(grid(16, 16), rng), CARTS, DEADLINE, rng),
        3 => in_any_order(standing(ring(), CARTS, DEADLINE).0, rng),
        4 => crowded_star(255, CARTS, CARTS).0,
        5 => moving_to_bays(with_most_tracks(grid(16, 16), rng), CARTS, 200, DEADLINE, rng).0,
        6 => with_lost_call(moving_to_bays(grid(15, 17), CARTS - 1, 100, DEADLINE, rng).0).0,
        7 => scattered_with_bays(with_most_tracks(grid(16, 16), rng), CARTS, DEADLINE, rng),
        8 => in_any_order(all_bays(standing(ring(), CARTS, DEADLINE).0), rng),
        9 => some_bays(crowded_star(255, CARTS, CARTS).0, rng),
        10 => shut_line(CARTS, CARTS - 1, DEADLINE).0,
        11 => put_off(moving_to_bays(with_most_tracks(grid(16, 16), rng), CARTS, 100, 200, rng), DEADLINE, rng).0,
        12 => early_many_times(1 + rng.below(CARTS / 4), 12, 12, rng).0,
        13 => late_star(CARTS, rng.below(CARTS), DEADLINE).0,
        14 => {
            let floor = with_most_tracks(grid(16, 16), rng);
            moving_with_spares(floor, (CARTS, rng.below(CARTS)), 200, DEADLINE, rng).0
        }
        15 => fewer_calls(scattered_with_bays(with_most_tracks(grid(16, 16), rng), CARTS, DEADLINE, rng), rng),
        16 => fewer_calls(all_bays(standing(ring(), CARTS, DEADLINE).0), rng),
        _ => with_lost_call(fewer_calls(moving(grid(15, 17), CARTS - 1, 100, DEADLINE, rng).0, rng)).0,
    }
}

/// The job with its calls in any order.
fn in_any_order(mut job: Job, rng: &mut Rng) -> Job {
    rng.shuffle(&mut job.calls);
    job
}
