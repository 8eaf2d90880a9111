//! The library as it was before a change: what the change costs, measured in one run.

use std::ffi::{c_void, CStr};

use crate::shared::function;

type Call = unsafe extern "C" fn(*const u8, usize, *mut u8, usize, *mut u8, usize) -> u64;
type MapCall = unsafe extern "C" fn(*const u8, usize, *mut u8, usize) -> u64;

#[derive(Clone, Copy)]
pub struct Before {
    plan: Call,
    check: Call,
    /// From version 1.3 on.
    map: Option<MapCall>,
}

impl Before {
    /// Of a shared object with the calls.
    pub fn load(file: &str) -> Option<Before> {
        // Safety: the object is a former library, where the symbols are such functions.
        let call = |name: &CStr| {
            function(file, name).map(|symbol| unsafe { std::mem::transmute::<*mut c_void, Call>(symbol) })
        };
        // Safety: the same.
        let map = function(file, c"cartfloor_map")
            .map(|symbol| unsafe { std::mem::transmute::<*mut c_void, MapCall>(symbol) });
        Some(Before { plan: call(c"cartfloor_plan")?, check: call(c"cartfloor_check")?, map })
    }

    pub fn plan(&self, job: &[u8], store: &mut [u8], sheet: &mut [u8]) -> u64 {
        made(self.plan, job, store, sheet)
    }

    pub fn check(&self, job: &[u8], store: &mut [u8], sheet: &mut [u8]) -> u64 {
        made(self.check, job, store, sheet)
    }

    /// Nothing where there is no such call.
    pub fn map(&self, map: &[u8], text: &mut [u8]) -> Option<u64> {
        let (text, text_len) = (text.as_mut_ptr(), text.len());
        // Safety: slices do not overlap and are as long as they say.
        self.map.map(|call| unsafe { call(map.as_ptr(), map.len(), text, text_len) })
    }
}

fn made(call: Call, job: &[u8], store: &mut [u8], sheet: &mut [u8]) -> u64 {
    let (store, store_len) = (store.as_mut_ptr(), store.len());
    let (sheet, sheet_len) = (sheet.as_mut_ptr(), sheet.len());
    // Safety: slices do not overlap and are as long as they say.
    unsafe { call(job.as_ptr(), job.len(), store, store_len, sheet, sheet_len) }
}
