//! Sound tables with every slot below n: one wide chain, a random mix, the deepest nesting, and the deepest calls.

use model::bases::{nested, LOW};
use model::random::Stream;
use model::rules::bucket_of;
use model::tables::{rect, Head, Kind, Options, Orientation, Rect, Slot, Tables, BUCKETS, NONE};

/// Enters every Free slot in its own bucket's list; with `full`, fills each list to the end of its table with repeats of what
/// stands there, or with slot 0.
fn enter_free(tables: &mut Tables, full: bool) {
    for free in tables.free() {
        let place = tables.slot(free).rect;
        let bucket = bucket_of(&tables.head, place.width(), place.height());
        let length = tables.head.lengths[bucket] as usize;
        tables.lists[bucket][length] = free;
        tables.head.lengths[bucket] += 1;
    }
    if full {
        for bucket in BUCKETS {
            let length = tables.head.lengths[bucket] as usize;
            for place in length..tables.lists[bucket].len() {
                tables.lists[bucket][place] = if length == 0 { 0 } else { tables.lists[bucket][place - length] };
            }
            tables.head.lengths[bucket] = tables.lists[bucket].len() as u32;
        }
    }
}

/// One top chain along x, Alloc and Free by turns, in slot order.
pub fn wide(slots: u32) -> Tables {
    let mut tables = Tables::zero(slots as usize, slots as usize);
    for slot in 0..slots {
        tables.put(
            slot,
            Slot {
                parent: NONE,
                next: if slot + 1 == slots { NONE } else { slot + 1 },
                prev: if slot == 0 { NONE } else { slot - 1 },
                kind: if slot % 2 == 0 { Kind::Alloc } else { Kind::Free },
                orientation: Orientation::Horizontal,
                rect: rect(10 * slot, 0, 10 * slot + 10, 6),
            },
        );
    }
    let width = 10 * slots as i32;
    tables.head = Head { width, height: 6, options: LOW, root: 0, spare: NONE, count: slots, lengths: [0; 3] };
    enter_free(&mut tables, false);
    tables
}

/// A chain to be laid out: in which rectangle, below which slot, and by how many slots at most.
struct Chain {
    parent: u32,
    orientation: Orientation,
    place: Rect,
    budget: u32,
}

/// Where each of so many members of a chain ends.
fn cuts(from: u32, to: u32, members: u32, stream: &mut Stream) -> Vec<u32> {
    let mut ends: Vec<u32> = (1..members).map(|_| from + 1 + stream.below(to - from - 1)).collect();
    ends.push(to);
    ends.sort_unstable();
    ends.dedup();
    ends
}

/// A tree drawn at random: chains of up to 8 members, a tenth of the slots or more spare, the numbers in no order, the lists full.
pub fn mixed(slots: u32, seed: u64) -> Tables {
    let mut stream = Stream::new(seed);
    let mut numbers: Vec<u32> = (0..slots).collect();
    for place in (1..numbers.len()).rev() {
        numbers.swap(place, stream.below(place as u32 + 1) as usize);
    }
    let spares = numbers.split_off((slots - slots / 10) as usize);
    let mut tables = Tables::zero(slots as usize, slots as usize);
    let options = Options { align_width: 1, align_height: 1, small: 64, large: 2048 };
    tables.head =
        Head { width: 65_536, height: 65_536, options, root: NONE, spare: NONE, count: slots, lengths: [0; 3] };
    let top = Chain {
        parent: NONE,
        orientation: Orientation::Vertical,
        place: rect(0, 0, 65_536, 65_536),
        budget: numbers.len() as u32,
    };
    let mut waiting = vec![top];
    while let Some(chain) = waiting.pop() {
        lay_out(&mut tables, chain, &mut numbers, &mut waiting, &mut stream);
    }
    for &slot in spares.iter().chain(&numbers) {
        let next = tables.head.spare;
        let rect = rect(stream.word(), stream.word(), stream.word(), stream.word());
        let slot_of = Slot {
            parent: stream.word(),
            next,
            prev: stream.word(),
            kind: Kind::Unused,
            orientation: Orientation::Vertical,
            rect,
        };
        tables.put(slot, slot_of);
        tables.head.spare = slot;
    }
    enter_free(&mut tables, true);
    tables
}

fn lay_out(tables: &mut Tables, chain: Chain, numbers: &mut Vec<u32>, waiting: &mut Vec<Chain>, stream: &mut Stream) {
    let Chain { parent, orientation, place, budget } = chain;
    let down = orientation == Orientation::Vertical;
    let (from, to) = if down { (place.y0, place.y1) } else { (place.x0, place.x1) };
    let wanted = (2 + stream.below(7)).min(budget);
    let ends = if to - from > wanted { cuts(from, to, wanted, stream) } else { vec![to] };
    let slots: Vec<u32> = ends.iter().map(|_| numbers.pop().expect("the budget is kept to")).collect();
    let mut left = budget - slots.len() as u32;
    let (mut start, mut before_free) = (from, ends.len() == 1);
    if parent == NONE {
        tables.head.root = slots[0];
    }
    for (member, (&slot, &end)) in slots.iter().zip(&ends).enumerate() {
        let rect = if down { rect(place.x0, start, place.x1, end) } else { rect(start, place.y0, end, place.y1) };
        let share = if member + 1 == slots.len() { left } else { stream.below(left / 2 + 1) };
        let across = if down { rect.x1 - rect.x0 } else { rect.y1 - rect.y0 };
        let kind = if share >= 4 && across >= 16 {
            left -= share;
            waiting.push(Chain { parent: slot, orientation: orientation.other(), place: rect, budget: share });
            Kind::Container
        } else if before_free || stream.below(2) == 0 {
            Kind::Alloc
        } else {
            Kind::Free
        };
        before_free = kind == Kind::Free || ends.len() == 1;
        let prev = if member == 0 { NONE } else { slots[member - 1] };
        let next = if member + 1 == slots.len() { NONE } else { slots[member + 1] };
        tables.put(slot, Slot { parent, next, prev, kind, orientation, rect });
        start = end;
    }
}

/// Containers, each the only child of the one before it, and one Alloc at the bottom.
pub fn deep(slots: u32) -> Tables {
    nested(slots)
}

/// Chains of a Container and an Alloc, each inside the Container before it, two Allocs at the bottom: an even number of slots.
/// The walk passes over a Container whose only child is one, so no tables have more of its calls stand at a time.
pub fn paired(slots: u32) -> Tables {
    let mut tables = Tables::zero(slots as usize, slots as usize);
    let mut place = rect(0, 0, 65_536, 65_536);
    for level in 0..slots / 2 {
        let (first, second) = (2 * level, 2 * level + 1);
        let orientation = if level % 2 == 0 { Orientation::Vertical } else { Orientation::Horizontal };
        let (mut near, mut far) = (place, place);
        if orientation == Orientation::Vertical {
            near.y1 -= 1;
            far.y0 = near.y1;
        } else {
            near.x1 -= 1;
            far.x0 = near.x1;
        }
        let kind = if second + 1 == slots { Kind::Alloc } else { Kind::Container };
        let parent = if level == 0 { NONE } else { first - 2 };
        tables.put(first, Slot { parent, next: second, prev: NONE, kind, orientation, rect: near });
        tables.put(second, Slot { parent, next: NONE, prev: first, kind: Kind::Alloc, orientation, rect: far });
        place = near;
    }
    let (width, height) = (65_536, 65_536);
    tables.head = Head { width, height, options: LOW, root: 0, spare: NONE, count: slots, lengths: [0; 3] };
    tables
}
