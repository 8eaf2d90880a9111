//! Jobs, sheets and maps to try, all from seeds, so that a failing case comes again.

pub mod bays;
pub mod cases;
pub mod collection;
pub mod damage;
pub mod early;
pub mod exponents;
pub mod floors;
pub mod large;
pub mod lists;
pub mod map_cases;
pub mod map_damage;
pub mod maps;
pub mod orders;
pub mod places;
pub mod plans;
pub mod renumbered;
mod rng;
pub mod sizes;
pub mod small;
pub mod spare_lines;
pub mod spares;
pub mod spelled;
pub mod wrong;

pub use rng::Rng;
