//! One call for a map held against the model: the answer, and every byte of map and text buffer.

use super::show;
use crate::ffi::{self, Converter, Library};
use crate::gen::map_cases::MapCase;
use crate::gen::Rng;
use crate::model::answer::{unpack, FLOOR};
use crate::model::map::{buffer_after, text_of};

/// The answer, and the bytes written or the line, if they are the model's and all bytes are as they must be; else what
/// differs.
pub fn map(converter: &dyn Converter, case: &MapCase, rng: &mut Rng) -> Result<(u8, usize), String> {
    let MapCase { map, text_len } = case;
    let report = |what: String| format!("{what}\ntext of {text_len} bytes, map\n{}", show(map));
    let answer = text_of(map, *text_len);
    let expected = match &answer {
        Ok(text) => (FLOOR, text.len()),
        Err(refusal) => (refusal.number, refusal.line),
    };
    let mapped = ffi::map(converter, map, *text_len, rng).map_err(report)?;
    let found = unpack(mapped.packed);
    if found != expected {
        return Err(report(format!("answers {found:?}, not {expected:?}")));
    }
    if mapped.text != buffer_after(&answer, &mapped.text_lent) {
        return Err(report(format!("text not as it must be after {expected:?}:\n{}", show(&mapped.text))));
    }
    Ok(expected)
}

/// The library's; panics where anything differs from the model.
pub fn library_on_map(case: &MapCase, rng: &mut Rng) -> (u8, usize) {
    map(&Library, case, rng).unwrap_or_else(|difference| panic!("{difference}"))
}

/// The same for a map told by hand, its noise from a seed of its own.
pub fn answer_to_map(map: &[u8], text_len: usize) -> (u8, usize) {
    let seed = map.len() as u64 ^ (text_len as u64) << 32;
    library_on_map(&MapCase { map: map.to_vec(), text_len }, &mut Rng::new(seed))
}
