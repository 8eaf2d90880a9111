//! The calls of the library `cartfloor` for programs in Rust: as C has them, and on slices. `include/cartfloor.h` says what
//! they do and what their answers mean.

/// As the header has them: the longest job text, and a sheet buffer that is enough for every job.
pub const TEXT_MAX: usize = 16_384;
pub const SHEET_MOST: usize = 66_624;
/// The longest map, and a text buffer that is enough for every map.
pub const MAP_MOST: usize = 4_195;
pub const FLOOR_MOST: usize = 7_178;

extern "C" {
    pub fn cartfloor_plan(
        job: *const u8,
        job_len: usize,
        store: *mut u8,
        store_len: usize,
        sheet: *mut u8,
        sheet_len: usize,
    ) -> u64;

    pub fn cartfloor_check(
        job: *const u8,
        job_len: usize,
        store: *mut u8,
        store_len: usize,
        sheet: *const u8,
        sheet_len: usize,
    ) -> u64;

    pub fn cartfloor_map(map: *const u8, map_len: usize, text: *mut u8, text_len: usize) -> u64;
}

pub fn plan(job: &[u8], store: &mut [u8], sheet: &mut [u8]) -> u64 {
    let (store, store_len) = (store.as_mut_ptr(), store.len());
    let (sheet, sheet_len) = (sheet.as_mut_ptr(), sheet.len());
    // Safety: slices do not overlap, have no null pointer and are as long as they say.
    unsafe { cartfloor_plan(job.as_ptr(), job.len(), store, store_len, sheet, sheet_len) }
}

pub fn check(job: &[u8], store: &mut [u8], sheet: &[u8]) -> u64 {
    let (store, store_len) = (store.as_mut_ptr(), store.len());
    // Safety: slices do not overlap, have no null pointer and are as long as they say.
    unsafe { cartfloor_check(job.as_ptr(), job.len(), store, store_len, sheet.as_ptr(), sheet.len()) }
}

pub fn map(map: &[u8], text: &mut [u8]) -> u64 {
    let (text, text_len) = (text.as_mut_ptr(), text.len());
    // Safety: slices do not overlap, have no null pointer and are as long as they say.
    unsafe { cartfloor_map(map.as_ptr(), map.len(), text, text_len) }
}
