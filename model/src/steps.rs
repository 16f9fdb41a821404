//! What the calls are made of: 01's "Leaves, in port order", and the writing of slots and lists.

use crate::rules::bucket_of;
use crate::tables::{code, rect, Kind, Orientation, Rect, Slot, Tables, BUCKETS, LARGE, NONE};

// Numbers and rectangles

/// Up to a multiple of the alignment; nothing where that exceeds 2,147,483,647.
pub fn adjust_size(alignment: i32, side: i32) -> Option<i32> {
    let (alignment, side) = (i64::from(alignment), i64::from(side));
    let mut rounded = side;
    if rounded % alignment != 0 {
        rounded += alignment - rounded % alignment;
    }
    i32::try_from(rounded).ok()
}

/// What a cut leaves beside the request: nothing after an exact fit; else a split, maybe a leftover, and the orientation.
#[derive(Clone, Copy, Debug, PartialEq, Eq)]
pub enum Cut {
    Exact,
    Pieces { split: Rect, leftover: Option<Rect>, orientation: Orientation },
}

/// What an area counts for in the cut: 2,147,483,647 at most.
fn area_compared(piece: Rect) -> i64 {
    (piece.width() * piece.height()).min(2_147_483_647)
}

/// Cuts a request out of the min corner of the chosen rectangle, which is as wide and as tall.
pub fn guillotine_rect(chosen: Rect, width: u32, height: u32) -> Cut {
    let (x, y) = (chosen.x0 + width, chosen.y0 + height);
    let right = rect(x, chosen.y0, chosen.x1, y);
    let bottom = rect(chosen.x0, y, x, chosen.y1);
    if (x, y) == (chosen.x1, chosen.y1) {
        return Cut::Exact;
    }
    let (split, leftover, orientation) = if area_compared(right) > area_compared(bottom) {
        (rect(x, chosen.y0, chosen.x1, chosen.y1), bottom, Orientation::Horizontal)
    } else {
        (rect(chosen.x0, y, chosen.x1, chosen.y1), right, Orientation::Vertical)
    };
    Cut::Pieces { split, leftover: Some(leftover).filter(|leftover| !leftover.is_empty()), orientation }
}

// Slots

/// Spare slots are N − n plus all Unused ones.
pub fn spare_slots(tables: &Tables) -> u32 {
    let unused = tables.below_count().filter(|&slot| tables.kind(slot) == Kind::Unused).count();
    tables.room() - tables.head.count + unused as u32
}

/// Takes a slot: the head of the spare chain, its generation one up and wrapping; else slot n with generation 0. The caller
/// has counted the spare slots, and writes the slot next.
pub fn new_node(tables: &mut Tables) -> u32 {
    let spare = tables.head.spare;
    if spare != NONE {
        tables.head.spare = tables.slot(spare).next;
        let generation = &mut tables.generations[spare as usize];
        *generation = generation.wrapping_add(1);
        return spare;
    }
    let slot = tables.head.count;
    tables.head.count += 1;
    tables.generations[slot as usize] = 0;
    slot
}

pub fn set_parent(tables: &mut Tables, slot: u32, parent: u32) {
    tables.words[8 * slot as usize] = parent;
}

pub fn set_next(tables: &mut Tables, slot: u32, next: u32) {
    tables.words[8 * slot as usize + 1] = next;
}

pub fn set_prev(tables: &mut Tables, slot: u32, prev: u32) {
    tables.words[8 * slot as usize + 2] = prev;
}

/// Changes a slot's kind; its orientation stays.
pub fn set_kind(tables: &mut Tables, slot: u32, kind: Kind) {
    tables.words[8 * slot as usize + 3] = code(kind, tables.slot(slot).orientation);
}

pub fn set_rect(tables: &mut Tables, slot: u32, place: Rect) {
    tables.put(slot, Slot { rect: place, ..tables.slot(slot) });
}

/// Writes kind and next only; the slot becomes the head of the spare chain.
pub fn mark_node_unused(tables: &mut Tables, slot: u32) {
    set_kind(tables, slot, Kind::Unused);
    set_next(tables, slot, tables.head.spare);
    tables.head.spare = slot;
}

// Lists

/// The last entry takes the removed one's place; the old last place keeps its bytes.
pub fn swap_remove(tables: &mut Tables, bucket: usize, place: usize) {
    let last = tables.head.lengths[bucket] as usize - 1;
    tables.lists[bucket][place] = tables.lists[bucket][last];
    tables.head.lengths[bucket] = last as u32;
}

/// Keeps, in order, the first entries of Free slots other than the pushed one. Places past the new length keep their bytes.
fn sweep(tables: &mut Tables, bucket: usize, pushed: u32) {
    let mut kept: Vec<u32> = Vec::new();
    for &entry in tables.entries(bucket) {
        if tables.kind(entry) == Kind::Free && entry != pushed && !kept.contains(&entry) {
            kept.push(entry);
        }
    }
    tables.lists[bucket][..kept.len()].copy_from_slice(&kept);
    tables.head.lengths[bucket] = kept.len() as u32;
}

/// Appends a Free slot to its own bucket's list, which is swept first if it is full.
pub fn push(tables: &mut Tables, slot: u32) {
    let size = tables.slot(slot).rect;
    let bucket = bucket_of(&tables.head, size.width(), size.height());
    if tables.head.lengths[bucket] as usize == tables.lists[bucket].len() {
        sweep(tables, bucket, slot);
    }
    tables.lists[bucket][tables.head.lengths[bucket] as usize] = slot;
    tables.head.lengths[bucket] += 1;
}

/// Swap-removes the first occurrence of a slot, buckets small to large, then pushes it.
pub fn move_entry(tables: &mut Tables, slot: u32) {
    for bucket in BUCKETS {
        if let Some(place) = tables.entries(bucket).iter().position(|&entry| entry == slot) {
            swap_remove(tables, bucket, place);
            break;
        }
    }
    push(tables, slot);
}

/// The bucket and the place of the entry that is chosen for a rounded request. Dead entries on the way are swap-removed; the
/// chosen one stays in.
pub fn find_suitable_rect(tables: &mut Tables, width: i64, height: i64) -> Option<(usize, usize)> {
    let own = bucket_of(&tables.head, width, height);
    for bucket in own..=LARGE {
        let mut best: Option<(i64, usize)> = None;
        let mut place = 0;
        while place < tables.entries(bucket).len() {
            let entry = tables.entries(bucket)[place];
            if tables.kind(entry) != Kind::Free {
                swap_remove(tables, bucket, place);
                continue;
            }
            let size = tables.slot(entry).rect;
            let (spare_width, spare_height) = (size.width() - width, size.height() - height);
            if spare_width == 0 && spare_height >= 0 || spare_height == 0 && spare_width >= 0 {
                return Some((bucket, place));
            }
            if spare_width > 0 && spare_height > 0 {
                let score = spare_width.min(spare_height);
                let better = match best {
                    None => true,
                    Some((so_far, _)) if own == LARGE => score > so_far,
                    Some((so_far, _)) => score < so_far,
                };
                if better {
                    best = Some((score, place));
                }
            }
            place += 1;
        }
        if let Some((_, place)) = best {
            return Some((bucket, place));
        }
    }
    None
}
