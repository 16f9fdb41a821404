//! The public calls of 01 on lent tables. Each answers the first number of its order that applies; the answers are 01's
//! own numbers. A refusal changes nothing, but for 6 and 7 of allocate, which leave the lists as the search left them.

use crate::rules::{answer, bucket_of, last_top, lengths_in_range, setup_valid};
use crate::steps::{
    adjust_size, find_suitable_rect, guillotine_rect, mark_node_unused, move_entry, new_node, push, set_kind, set_next,
    set_parent, set_prev, set_rect, spare_slots, swap_remove, Cut,
};
use crate::tables::{rect, Head, Kind, Options, Orientation, Rect, Slot, Tables, NONE};

/// A ticket is slot + generation × this.
pub const GENERATION: u32 = 16_777_216;

/// The ticket that names a slot with its present generation.
pub fn ticket_of(tables: &Tables, slot: u32) -> u32 {
    slot + u32::from(tables.generations[slot as usize]) * GENERATION
}

// Start, clear, reset

/// Slot 0 Free, Vertical, whole sheet, no links; root 0, no spare chain, n = 1; only its bucket has an entry. Other places stay.
fn begin(tables: &mut Tables, head: Head) {
    tables.head = Head { root: 0, spare: NONE, count: 1, lengths: [0; 3], ..head };
    let sheet = rect(0, 0, head.width as u32, head.height as u32);
    tables.put(
        0,
        Slot {
            parent: NONE,
            next: NONE,
            prev: NONE,
            kind: Kind::Free,
            orientation: Orientation::Vertical,
            rect: sheet,
        },
    );
    tables.generations[0] = 0;
    let bucket = bucket_of(&head, sheet.width(), sheet.height());
    tables.lists[bucket][0] = 0;
    tables.head.lengths[bucket] = 1;
}

/// Start takes tables and a head as they lie. Its answers are 1, 3.
pub fn start(tables: &mut Tables, width: i32, height: i32, options: Options) -> u32 {
    if !lengths_in_range(tables) {
        return 1;
    }
    let head = Head { width, height, options, ..tables.head };
    if !setup_valid(&head) {
        return 3;
    }
    begin(tables, head);
    0
}

/// Reset is start on tables in use.
pub fn reset(tables: &mut Tables, width: i32, height: i32, options: Options) -> u32 {
    start(tables, width, height, options)
}

/// Clear starts again with the setup in the head. Its answers are 1, 3.
pub fn clear(tables: &mut Tables) -> u32 {
    if !lengths_in_range(tables) {
        return 1;
    }
    if !setup_valid(&tables.head) {
        return 3;
    }
    begin(tables, tables.head);
    0
}

// Allocate

/// Answer, ticket and rectangle. Its answers are 1, 2, 4, 5, 6, 7.
pub fn allocate(tables: &mut Tables, width: i32, height: i32) -> (u32, u32, Rect) {
    let refuse = |number| (number, 0, Rect::ZERO);
    let unfit = answer(tables);
    if unfit != 0 {
        return refuse(unfit);
    }
    if width <= 0 || height <= 0 {
        return refuse(4);
    }
    let options = tables.head.options;
    let rounded = (adjust_size(options.align_width, width), adjust_size(options.align_height, height));
    let (Some(width), Some(height)) = rounded else {
        return refuse(5);
    };
    let Some((bucket, place)) = find_suitable_rect(tables, width.into(), height.into()) else {
        return refuse(6);
    };
    let chosen = tables.entries(bucket)[place];
    let cut = guillotine_rect(tables.slot(chosen).rect, width as u32, height as u32);
    if spare_slots(tables) < slots_needed(&cut, tables.slot(chosen).orientation) {
        return refuse(7);
    }
    swap_remove(tables, bucket, place);
    let taken = place_request(tables, chosen, &cut, width as u32, height as u32);
    (0, ticket_of(tables, taken), tables.slot(taken).rect)
}

/// New slots needed: 0 exact, 1 along, 3 along with leftover, 2 across, 4 across with leftover.
fn slots_needed(cut: &Cut, present: Orientation) -> u32 {
    match cut {
        Cut::Exact => 0,
        Cut::Pieces { leftover, orientation, .. } => match (*orientation == present, leftover.is_some()) {
            (true, false) => 1,
            (true, true) => 3,
            (false, false) => 2,
            (false, true) => 4,
        },
    }
}

/// Makes the pieces of a cut and pushes split, then leftover. Gives the slot that holds the request.
fn place_request(tables: &mut Tables, chosen: u32, cut: &Cut, width: u32, height: u32) -> u32 {
    let before = tables.slot(chosen);
    let request = rect(before.rect.x0, before.rect.y0, before.rect.x0 + width, before.rect.y0 + height);
    let Cut::Pieces { split, leftover, orientation } = *cut else {
        set_kind(tables, chosen, Kind::Alloc);
        return chosen;
    };
    let (taken, split_slot, leftover_slot) = if orientation == before.orientation {
        cut_along(tables, chosen, request, split, leftover)
    } else {
        cut_across(tables, chosen, request, split, leftover)
    };
    push(tables, split_slot);
    if let Some(leftover_slot) = leftover_slot {
        push(tables, leftover_slot);
    }
    taken
}

/// Split becomes the next sibling; with a leftover the chosen slot turns Container over Alloc, leftover, and keeps its
/// rectangle; without, it turns Alloc.
fn cut_along(
    tables: &mut Tables,
    chosen: u32,
    request: Rect,
    split: Rect,
    leftover: Option<Rect>,
) -> (u32, u32, Option<u32>) {
    let before = tables.slot(chosen);
    let split_slot = new_node(tables);
    tables.put(split_slot, Slot { prev: chosen, rect: split, ..before });
    set_next(tables, chosen, split_slot);
    if before.next != NONE {
        set_prev(tables, before.next, split_slot);
    }
    let Some(leftover) = leftover else {
        set_kind(tables, chosen, Kind::Alloc);
        set_rect(tables, chosen, request);
        return (chosen, split_slot, None);
    };
    set_kind(tables, chosen, Kind::Container);
    let (taken, left) = put_pair(tables, chosen, before.orientation.other(), request, leftover);
    (taken, split_slot, Some(left))
}

/// The chosen slot turns Container; new split; with a leftover, then an inner Container with zero rectangle, Alloc, leftover;
/// without, Alloc.
fn cut_across(
    tables: &mut Tables,
    chosen: u32,
    request: Rect,
    split: Rect,
    leftover: Option<Rect>,
) -> (u32, u32, Option<u32>) {
    let before = tables.slot(chosen);
    let across = before.orientation.other();
    set_kind(tables, chosen, Kind::Container);
    let split_slot = new_node(tables);
    let beside = new_node(tables);
    tables.put(
        split_slot,
        Slot { parent: chosen, next: NONE, prev: beside, kind: Kind::Free, orientation: across, rect: split },
    );
    let first =
        Slot { parent: chosen, next: split_slot, prev: NONE, kind: Kind::Alloc, orientation: across, rect: request };
    let Some(leftover) = leftover else {
        tables.put(beside, first);
        return (beside, split_slot, None);
    };
    tables.put(beside, Slot { kind: Kind::Container, rect: Rect::ZERO, ..first });
    let (taken, left) = put_pair(tables, beside, before.orientation, request, leftover);
    (taken, split_slot, Some(left))
}

/// Alloc, then leftover, as the two children of a Container.
fn put_pair(tables: &mut Tables, parent: u32, orientation: Orientation, request: Rect, leftover: Rect) -> (u32, u32) {
    let taken = new_node(tables);
    let left = new_node(tables);
    tables.put(taken, Slot { parent, next: left, prev: NONE, kind: Kind::Alloc, orientation, rect: request });
    tables.put(left, Slot { parent, next: NONE, prev: taken, kind: Kind::Free, orientation, rect: leftover });
    (taken, left)
}

// Tickets

/// 0 and the slot of a live ticket; else 1, 2, 8, 9 or 10.
fn named_slot(tables: &Tables, ticket: u32) -> (u32, u32) {
    let unfit = answer(tables);
    if unfit != 0 {
        return (unfit, 0);
    }
    let (slot, generation) = (ticket % GENERATION, ticket / GENERATION);
    if slot >= tables.head.count {
        return (8, 0);
    }
    if generation != u32::from(tables.generations[slot as usize]) {
        return (9, 0);
    }
    if tables.kind(slot) != Kind::Alloc {
        return (10, 0);
    }
    (0, slot)
}

/// A live ticket's rectangle.
pub fn lookup(tables: &Tables, ticket: u32) -> (u32, Rect) {
    match named_slot(tables, ticket) {
        (0, slot) => (0, tables.slot(slot).rect),
        (refusal, _) => (refusal, Rect::ZERO),
    }
}

/// Marks a live ticket's slot Free and climbs.
pub fn deallocate(tables: &mut Tables, ticket: u32) -> u32 {
    match named_slot(tables, ticket) {
        (0, slot) => {
            set_kind(tables, slot, Kind::Free);
            climb(tables, slot);
            0
        }
        (refusal, _) => refusal,
    }
}

/// Absorbs a Free next; is absorbed by a Free prev; an only child gives its rectangle to its parent, becomes spare, and the
/// climb starts again at the parent; otherwise the slot is pushed.
fn climb(tables: &mut Tables, freed: u32) {
    let mut slot = freed;
    let Slot { next, prev, .. } = tables.slot(slot);
    if next != NONE && tables.kind(next) == Kind::Free {
        absorb_next(tables, slot);
    }
    if prev != NONE && tables.kind(prev) == Kind::Free {
        absorb_next(tables, prev);
        slot = prev;
    }
    let Slot { parent, next, prev, rect, .. } = tables.slot(slot);
    if parent != NONE && next == NONE && prev == NONE {
        set_rect(tables, parent, rect);
        set_kind(tables, parent, Kind::Free);
        mark_node_unused(tables, slot);
        climb(tables, parent);
    } else {
        push(tables, slot);
    }
}

/// A slot takes over the rectangle and the next of its next, which becomes spare.
fn absorb_next(tables: &mut Tables, slot: u32) {
    let (kept, gone) = (tables.slot(slot), tables.slot(slot).next);
    let absorbed = tables.slot(gone);
    // The two adjoin with equal span across, so the join runs from the one's min corner to the other's max corner.
    set_rect(tables, slot, rect(kept.rect.x0, kept.rect.y0, absorbed.rect.x1, absorbed.rect.y1));
    set_next(tables, slot, absorbed.next);
    if absorbed.next != NONE {
        set_prev(tables, absorbed.next, slot);
    }
    mark_node_unused(tables, gone);
}

// Grow

/// Its answers are 1, 2, 11, 3, 7.
pub fn grow(tables: &mut Tables, width: i32, height: i32) -> u32 {
    let unfit = answer(tables);
    if unfit != 0 {
        return unfit;
    }
    let old = tables.head;
    if width < old.width || height < old.height {
        return 11;
    }
    let grown = Head { width, height, ..old };
    if !setup_valid(&grown) {
        return 3;
    }
    let root = tables.slot(old.root);
    if root.kind == Kind::Free && root.next == NONE {
        tables.head = grown;
        set_rect(tables, old.root, rect(0, 0, width as u32, height as u32));
        move_entry(tables, old.root);
        return 0;
    }
    let (down, aside) = (height > old.height, width > old.width);
    let (along, across) = match root.orientation {
        Orientation::Vertical => (down, aside),
        Orientation::Horizontal => (aside, down),
    };
    let append = along && tables.kind(last_top(tables)) != Kind::Free;
    if spare_slots(tables) < u32::from(append) + 2 * u32::from(across) {
        return 7;
    }
    tables.head = grown;
    if along {
        grow_along(tables, root.orientation, old);
    }
    if across {
        grow_across(tables, root.orientation, old);
    }
    0
}

/// Stretches a Free last slot of the top chain, or appends a Free slot to the chain. The chain fills the old sheet, so what is
/// new along it lies past the old sheet's end and is as wide across as the old sheet.
fn grow_along(tables: &mut Tables, orientation: Orientation, old: Head) {
    let (old_width, old_height) = (old.width as u32, old.height as u32);
    let (width, height) = (tables.head.width as u32, tables.head.height as u32);
    let last = last_top(tables);
    let (corner, strip) = match orientation {
        Orientation::Vertical => ((old_width, height), rect(0, old_height, old_width, height)),
        Orientation::Horizontal => ((width, old_height), rect(old_width, 0, width, old_height)),
    };
    if tables.kind(last) == Kind::Free {
        let before = tables.slot(last).rect;
        set_rect(tables, last, rect(before.x0, before.y0, corner.0, corner.1));
        move_entry(tables, last);
    } else {
        let appended = new_node(tables);
        set_next(tables, last, appended);
        tables.put(appended, Slot { parent: NONE, next: NONE, prev: last, kind: Kind::Free, orientation, rect: strip });
        push(tables, appended);
    }
}

/// Takes a Free slot for the strip beside the whole old chain, then a new root with zero rectangle over that chain.
fn grow_across(tables: &mut Tables, orientation: Orientation, old: Head) {
    let (width, height) = (tables.head.width as u32, tables.head.height as u32);
    let strip = match orientation {
        Orientation::Vertical => rect(old.width as u32, 0, width, height),
        Orientation::Horizontal => rect(0, old.height as u32, width, height),
    };
    let free = new_node(tables);
    let root = new_node(tables);
    let orientation = orientation.other();
    tables.put(free, Slot { parent: NONE, next: NONE, prev: root, kind: Kind::Free, orientation, rect: strip });
    tables
        .put(root, Slot { parent: NONE, next: free, prev: NONE, kind: Kind::Container, orientation, rect: Rect::ZERO });
    let mut member = old.root;
    while member != NONE {
        set_parent(tables, member, root);
        member = tables.slot(member).next;
    }
    tables.head.root = root;
    push(tables, free);
}

// Listings and questions

/// Fills a lent list with records of the slots of one kind, in slot order. Places past the listing keep their bytes.
fn listing<T>(tables: &Tables, kind: Kind, lent: &mut [T], record: impl Fn(u32) -> T) -> (u32, u32) {
    let unfit = answer(tables);
    if unfit != 0 {
        return (unfit, 0);
    }
    let slots: Vec<u32> = tables.below_count().filter(|&slot| tables.kind(slot) == kind).collect();
    if lent.len() < slots.len() {
        return (12, 0);
    }
    for (place, &slot) in slots.iter().enumerate() {
        lent[place] = record(slot);
    }
    (0, slots.len() as u32)
}

/// Tickets and rectangles of the Alloc slots: answer and count.
pub fn list_alloc(tables: &Tables, lent: &mut [(u32, Rect)]) -> (u32, u32) {
    listing(tables, Kind::Alloc, lent, |slot| (ticket_of(tables, slot), tables.slot(slot).rect))
}

/// Rectangles of the Free slots: answer and count.
pub fn list_free(tables: &Tables, lent: &mut [Rect]) -> (u32, u32) {
    listing(tables, Kind::Free, lent, |slot| tables.slot(slot).rect)
}

/// Answer, and whether one Free slot is the whole sheet.
pub fn is_empty(tables: &Tables) -> (u32, bool) {
    let unfit = answer(tables);
    if unfit != 0 {
        return (unfit, false);
    }
    let sheet = rect(0, 0, tables.head.width as u32, tables.head.height as u32);
    (0, tables.free().iter().any(|&slot| tables.slot(slot).rect == sheet))
}

/// The sheet's sides. 01 gives this question no refusal.
pub fn size(tables: &Tables) -> (i32, i32) {
    (tables.head.width, tables.head.height)
}
