//! Parts of a base, and small changes that several damages share.

use crate::rules::bucket_of;
use crate::tables::{Kind, Rect, Slot, Tables};

/// The live slots that aren't Containers.
pub fn leaves(tables: &Tables) -> Vec<u32> {
    tables.live().into_iter().filter(|&slot| tables.kind(slot) != Kind::Container).collect()
}

pub fn containers(tables: &Tables) -> Vec<u32> {
    tables.live().into_iter().filter(|&slot| tables.kind(slot) == Kind::Container).collect()
}

pub fn unused(tables: &Tables) -> Vec<u32> {
    tables.below_count().filter(|&slot| tables.kind(slot) == Kind::Unused).collect()
}

/// The live slots with this parent, in slot order.
pub fn children(tables: &Tables, parent: u32) -> Vec<u32> {
    tables.live().into_iter().filter(|&slot| tables.slot(slot).parent == parent).collect()
}

pub fn with_rect(mut tables: Tables, slot: u32, place: Rect) -> Tables {
    tables.put(slot, Slot { rect: place, ..tables.slot(slot) });
    tables
}

/// Gives each Free slot that lacks it an entry in its own bucket's list, while there is room.
pub fn with_entries(mut tables: Tables) -> Tables {
    for free in tables.free() {
        let size = tables.slot(free).rect;
        let bucket = bucket_of(&tables.head, size.width(), size.height());
        let length = tables.head.lengths[bucket] as usize;
        if !tables.entries(bucket).contains(&free) && length < tables.lists[bucket].len() {
            tables.lists[bucket][length] = free;
            tables.head.lengths[bucket] += 1;
        }
    }
    tables
}

/// These slots with the other orientation.
pub fn flipped(base: &Tables, slots: &[u32]) -> Tables {
    let mut tables = base.clone();
    for &number in slots {
        let slot = tables.slot(number);
        tables.put(number, Slot { orientation: slot.orientation.other(), ..slot });
    }
    tables
}
