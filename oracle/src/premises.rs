//! What must hold of a call for the crate and the Rattle side to be comparable at all: the crate's own assertions, the
//! sheet and options that 01 accepts, sums that stay within an i32, live tickets, and tables with room. Each
//! function panics where its premise fails, so a list or a replay that ends has kept them.

use crate::view::{leaves, NodeKind, State};
use crate::{size2, AllocatorOptions, Rectangle, Size};

/// The slots of the tables that the list is run on.
pub const SLOTS: usize = 256;
/// The entries of each list's table: more than any list here grows to, so that none is ever swept.
pub const ENTRIES: usize = 1_024;

/// Start and reset: 01 accepts the setup.
pub fn setup(size: Size, options: &AllocatorOptions) {
    assert!(size.width > 0 && size.height > 0, "sheet {size:?}");
    assert!(options.alignment.width > 0 && options.alignment.height > 0, "alignment {options:?}");
    assert!(options.large_size_threshold >= options.small_size_threshold, "thresholds {options:?}");
}

/// A side rounded up without leaving i32.
fn rounded_side(alignment: i32, side: i32) -> i32 {
    let (step, length) = (i64::from(alignment), i64::from(side));
    let exact = (length + step - 1) / step * step;
    let rounded = i32::try_from(exact).expect("a rounded side fits an i32");
    assert_eq!(leaves::adjust_size(alignment, side), rounded);
    rounded
}

/// Allocate: the request rounded up, on both axes.
pub fn rounded(state: &State, request: Size) -> Size {
    let alignment = state.options.alignment;
    size2(rounded_side(alignment.width, request.width), rounded_side(alignment.height, request.height))
}

/// The most that an area counts for when the crate compares two.
pub const MOST_AREA: i64 = i32::MAX as i64;

/// The areas of the right and the bottom candidate of a cut, whole. The crate compares them up to `MOST_AREA`.
pub fn candidate_areas(chosen: &Rectangle, rounded: Size) -> (i64, i64) {
    let spare_width = i64::from(chosen.width()) - i64::from(rounded.width);
    let spare_height = i64::from(chosen.height()) - i64::from(rounded.height);
    (spare_width * i64::from(rounded.height), i64::from(rounded.width) * spare_height)
}

/// Deallocate: the ticket is live.
pub fn live(state: &State, ticket: u32) {
    let slot = (ticket & 0x00FF_FFFF) as usize;
    assert!(slot < state.slots.len(), "ticket {ticket}: slot");
    assert_eq!(u32::from(state.generations[slot]), ticket >> 24, "ticket {ticket}: generation");
    assert_eq!(state.slots[slot].kind(), NodeKind::Alloc, "ticket {ticket}: kind");
}

/// Grow: no side gets shorter, and 01 accepts the new sheet.
pub fn growth(state: &State, size: Size) {
    assert!(size.width >= state.size.width && size.height >= state.size.height, "grow to {size:?}");
    setup(size, &state.options);
}

/// After each call: everything fits the tables.
pub fn room(state: &State) {
    assert!(state.slots.len() <= SLOTS, "{} slots", state.slots.len());
    assert_eq!(state.generations.len(), state.slots.len());
    for list in &state.lists {
        assert!(list.len() <= ENTRIES, "{} entries", list.len());
    }
}
