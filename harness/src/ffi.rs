//! The library's calls, made with buffers that stand between guard bytes.

mod lent;
mod map;
mod planner;

pub use map::{map, Converter, Mapped};
pub use planner::{plan, Planned};

use cartfloor::cartfloor_check;

use crate::gen::Rng;
use lent::Lent;

/// What checks sheets: the library, or a check with a fault in it.
pub trait Checker {
    /// # Safety
    /// No pointer is null, the buffers have their lengths and do not overlap, and store may be written.
    unsafe fn check(&self, job: (*const u8, usize), store: (*mut u8, usize), sheet: (*const u8, usize)) -> u64;
}

/// The library under test.
pub struct Library;

impl Checker for Library {
    unsafe fn check(&self, job: (*const u8, usize), store: (*mut u8, usize), sheet: (*const u8, usize)) -> u64 {
        cartfloor_check(job.0, job.1, store.0, store.1, sheet.0, sheet.1)
    }
}

/// What a check gave back: its answer, packed, and the store as it was lent and as it is now.
pub struct Checked {
    pub packed: u64,
    pub store_lent: Vec<u8>,
    pub store: Vec<u8>,
}

/// Checks a sheet, with noise in the store. `Err` says what was changed that may not be: a guard, the job, or the sheet.
pub fn check(
    checker: &dyn Checker,
    job: &[u8],
    store_len: usize,
    sheet: &[u8],
    rng: &mut Rng,
) -> Result<Checked, String> {
    let store_lent = rng.noise(store_len);
    let mut job_buffer = Lent::new(job, rng);
    let mut store_buffer = Lent::new(&store_lent, rng);
    let mut sheet_buffer = Lent::new(sheet, rng);
    // Safety: three buffers of their own, each as long as it says.
    let packed = unsafe {
        let (job, job_len) = job_buffer.parts();
        let (sheet, sheet_len) = sheet_buffer.parts();
        checker.check((job, job_len), store_buffer.parts(), (sheet, sheet_len))
    };
    job_buffer.is_unchanged("job", job)?;
    sheet_buffer.is_unchanged("sheet", sheet)?;
    let store = store_buffer.take("store")?;
    Ok(Checked { packed, store_lent, store })
}
