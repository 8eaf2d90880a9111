//! How much the search does: free of noise. The baseline is made to go as the library goes, and counts.

use harness::baseline::{plan_by, Mode};
use harness::model::answer::unpack;

#[derive(Clone, Copy, Default)]
pub struct Counts {
    /// Positions put on the stack.
    pub visits: usize,
    /// Neighbours looked at from a position.
    pub looks: usize,
}

/// Standing first, as the library goes. It begins every scan of a node with the first neighbour; the same positions come in
/// the same order where each one's place in the neighbour list is kept.
#[derive(Default)]
struct Counting<const KEEP_PLACE: bool>(Counts);

impl<const KEEP_PLACE: bool> Mode for Counting<KEEP_PLACE> {
    const STAND_FIRST: bool = true;
    const KEEP_PLACE: bool = KEEP_PLACE;
    fn visit(&mut self) {
        self.0.visits += 1;
    }
    fn look(&mut self) {
        self.0.looks += 1;
    }
}

/// The counts of the library's search, and of one that keeps places. That they are the library's shows in the sheet. Not so
/// with spare carts, which each may keep out of the way as it likes.
pub fn counts(text: &[u8], store: &mut [u8], sheet: &mut [u8], library_sheet: &[u8]) -> (Counts, Counts) {
    let (mut library, mut keeping) = (Counting::<false>::default(), Counting::<true>::default());
    let (_, len) = unpack(plan_by(&mut library, text, store, sheet));
    assert_eq!(&sheet[..len], library_sheet, "the library searches in another way");
    plan_by(&mut keeping, text, store, sheet);
    (library.0, keeping.0)
}
