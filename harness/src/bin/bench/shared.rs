//! Functions of shared objects that `./bench` makes.

use std::ffi::{c_char, c_int, c_void, CStr, CString};

const RTLD_NOW: c_int = 2;

extern "C" {
    fn dlopen(file: *const c_char, flags: c_int) -> *mut c_void;
    fn dlsym(library: *mut c_void, name: *const c_char) -> *mut c_void;
}

/// The address of a function of the object, if both are there.
pub fn function(file: &str, name: &CStr) -> Option<*mut c_void> {
    let file = std::fs::canonicalize(file).ok()?;
    let file = CString::new(file.to_str()?).ok()?;
    // Safety: both are strings that end; an object of ours does nothing when it is opened.
    let symbol = unsafe {
        let library = dlopen(file.as_ptr(), RTLD_NOW);
        if library.is_null() {
            library
        } else {
            dlsym(library, name.as_ptr())
        }
    };
    (!symbol.is_null()).then_some(symbol)
}
