//! The planner's call, made with buffers that stand between guard bytes.

use cartfloor::cartfloor_plan;

use super::lent::Lent;
use crate::gen::Rng;

/// What the planner gave back: its answer, packed, and store and sheet as they were lent and as they are now.
pub struct Planned {
    pub packed: u64,
    pub store_lent: Vec<u8>,
    pub store: Vec<u8>,
    pub sheet_lent: Vec<u8>,
    pub sheet: Vec<u8>,
}

/// Plans a job. Store and sheet are full of noise. `Err` says which byte was changed that may not be.
pub fn plan(job: &[u8], store_len: usize, sheet_len: usize, rng: &mut Rng) -> Result<Planned, String> {
    let store_lent = rng.noise(store_len);
    let sheet_lent = rng.noise(sheet_len);
    let mut job_buffer = Lent::new(job, rng);
    let mut store_buffer = Lent::new(&store_lent, rng);
    let mut sheet_buffer = Lent::new(&sheet_lent, rng);
    // Safety: three buffers of their own, each as long as it says.
    let packed = unsafe {
        let (job, job_len) = job_buffer.parts();
        let (store, store_len) = store_buffer.parts();
        let (sheet, sheet_len) = sheet_buffer.parts();
        cartfloor_plan(job, job_len, store, store_len, sheet, sheet_len)
    };
    job_buffer.is_unchanged("job", job)?;
    let store = store_buffer.take("store")?;
    let sheet = sheet_buffer.take("sheet")?;
    Ok(Planned { packed, store_lent, store, sheet_lent, sheet })
}
