//! The call for maps, made with buffers that stand between guard bytes.

use cartfloor::cartfloor_map;

use super::lent::Lent;
use super::Library;
use crate::gen::Rng;

/// What turns maps into floors: the library, or a converter with a fault in it.
pub trait Converter {
    /// # Safety
    /// No pointer is null, the buffers have their lengths and do not overlap, and text may be written.
    unsafe fn map(&self, map: (*const u8, usize), text: (*mut u8, usize)) -> u64;
}

impl Converter for Library {
    unsafe fn map(&self, map: (*const u8, usize), text: (*mut u8, usize)) -> u64 {
        cartfloor_map(map.0, map.1, text.0, text.1)
    }
}

/// What the call gave back: its answer, packed, and the text buffer as it was lent and as it is now.
pub struct Mapped {
    pub packed: u64,
    pub text_lent: Vec<u8>,
    pub text: Vec<u8>,
}

/// Turns a map into a floor, with noise in the text buffer. `Err` says what was changed that may not be: a guard, or the
/// map.
pub fn map(converter: &dyn Converter, map: &[u8], text_len: usize, rng: &mut Rng) -> Result<Mapped, String> {
    let text_lent = rng.noise(text_len);
    let mut map_buffer = Lent::new(map, rng);
    let mut text_buffer = Lent::new(&text_lent, rng);
    // Safety: two buffers of their own, each as long as it says.
    let packed = unsafe {
        let (map, map_len) = map_buffer.parts();
        converter.map((map, map_len), text_buffer.parts())
    };
    map_buffer.is_unchanged("map", map)?;
    let text = text_buffer.take("text")?;
    Ok(Mapped { packed, text_lent, text })
}
