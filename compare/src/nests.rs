//! Damaged tables that lead a walk from the root down as far as they can: Containers, each inside the one before it, alone or in a pair with an Alloc
//! slot, with links that nothing answers. Every rectangle is the whole sheet, and no tables here are sound.

use model::bases::PLAIN;
use model::random::Stream;
use model::tables::{rect, Head, Kind, Orientation, Rect, Slot, Tables, NONE};

const SIDE: u32 = 5_000;
const SHEET: Rect = rect(0, 0, SIDE, SIDE);

/// Tables without a slot in them yet.
fn bare(slots: u32, root: u32) -> Tables {
    let mut tables = Tables::zero(slots as usize, slots as usize);
    let (width, height) = (SIDE as i32, SIDE as i32);
    tables.head = Head { width, height, options: PLAIN, root, spare: NONE, count: slots, lengths: [0; 3] };
    tables
}

/// The orientation of the chain at this level, the top chain's being the first.
fn along(level: u32) -> Orientation {
    [Orientation::Vertical, Orientation::Horizontal][level as usize % 2]
}

/// A Container at each level, without prev, and an Alloc slot at the bottom: only children, but for the next that each Container names.
fn alone(slots: u32, next: impl Fn(u32) -> u32) -> Tables {
    let mut tables = bare(slots, 0);
    for slot in 0..slots {
        let last = slot + 1 == slots;
        let of = Slot {
            parent: slot.checked_sub(1).unwrap_or(NONE),
            next: if last { NONE } else { next(slot) },
            prev: NONE,
            kind: if last { Kind::Alloc } else { Kind::Container },
            orientation: along(slot),
            rect: SHEET,
        };
        tables.put(slot, of);
    }
    tables
}

/// A Container and its sibling, with their numbers.
struct Pair {
    at: u32,
    container: Slot,
    beside: u32,
    sibling: Slot,
}

/// A pair at each level, the sibling first or last, each pair harmed. The Container at the bottom has no child.
fn pairs(slots: u32, first: bool, harm: impl Fn(&mut Pair)) -> Tables {
    let mut tables = bare(slots, 0);
    let mut parent = NONE;
    for level in 0..slots / 2 {
        let (before, after) = (2 * level, 2 * level + 1);
        let of = |prev, next, kind| Slot { parent, next, prev, kind, orientation: along(level), rect: SHEET };
        let mut pair = if first {
            let (container, sibling) = (of(before, NONE, Kind::Container), of(NONE, after, Kind::Alloc));
            Pair { at: after, container, beside: before, sibling }
        } else {
            let (container, sibling) = (of(NONE, after, Kind::Container), of(before, NONE, Kind::Alloc));
            Pair { at: before, container, beside: after, sibling }
        };
        harm(&mut pair);
        tables.put(pair.at, pair.container);
        tables.put(pair.beside, pair.sibling);
        parent = pair.at;
    }
    tables
}

/// A nest's name, and how it is made of so many slots, an even number.
pub type Nest = (&'static str, fn(u32) -> Tables);

pub const NESTS: [Nest; 16] = [
    ("alone, next itself", |slots| alone(slots, |slot| slot)),
    ("alone, next past the tables", |slots| alone(slots, |_| slots)),
    ("alone, next the root", |slots| alone(slots, |_| 0)),
    ("alone, next its child", |slots| alone(slots, |slot| slot + 1)),
    ("alone, next its parent", |slots| alone(slots, |slot| slot.checked_sub(1).unwrap_or(NONE))),
    ("alone, next the bottom slot", |slots| alone(slots, |_| slots - 1)),
    ("pairs", |slots| pairs(slots, false, |_| ())),
    ("pairs of Containers", |slots| pairs(slots, false, |pair| pair.sibling.kind = Kind::Container)),
    ("pairs, the sibling's parent its own", |slots| pairs(slots, false, |pair| pair.sibling.parent = pair.beside)),
    ("pairs, the sibling's parent the Container", |slots| pairs(slots, false, |pair| pair.sibling.parent = pair.at)),
    ("pairs, the sibling's prev its own", |slots| pairs(slots, false, |pair| pair.sibling.prev = pair.beside)),
    ("pairs, the sibling's next the Container", |slots| pairs(slots, false, |pair| pair.sibling.next = pair.at)),
    ("pairs, one sibling for all", |slots| pairs(slots, false, |pair| pair.container.next = 1)),
    ("pairs, the sibling first", |slots| pairs(slots, true, |_| ())),
    ("pairs, the sibling first, next itself", |slots| pairs(slots, true, |pair| pair.container.next = pair.at)),
    ("pairs, the sibling first, its next itself", |slots| pairs(slots, true, |pair| pair.sibling.next = pair.beside)),
];

/// A nest drawn by this seed: at each level a Container alone, some with a next that doesn't answer, or among up to two Alloc slots; the numbers in order
/// or in none; some links drawn anew. The Container at the bottom has no child.
pub fn drawn(slots: u32, seed: u64) -> Tables {
    let mut stream = Stream::new(seed);
    let mut numbers: Vec<u32> = (0..slots).rev().collect();
    if stream.below(2) == 0 {
        for place in (1..numbers.len()).rev() {
            numbers.swap(place, stream.below(place as u32 + 1) as usize);
        }
    }
    let (lone, stray) = (stream.pick(&[0, 1, 32, 63]), stream.pick(&[0, 32, 64]));
    let (most, wrong) = (stream.pick(&[2, 3]), stream.pick(&[0, 1, 16, 256]));
    let mut tables = bare(slots, *numbers.last().expect("a slot"));
    let (mut parent, mut level) = (NONE, 0);
    while !numbers.is_empty() {
        let wanted = if stream.below(64) < lone { 1 } else { stream.between(2, most) };
        let chain: Vec<u32> = (0..wanted).filter_map(|_| numbers.pop()).collect();
        let inner = stream.below(chain.len() as u32) as usize;
        for (place, &slot) in chain.iter().enumerate() {
            let other = [NONE, 0, slots, slot, parent, stream.below(slots)];
            let mut link = |right| if stream.below(4_096) < wrong { stream.pick(&other) } else { right };
            let mut of = Slot {
                parent: link(parent),
                next: link(chain.get(place + 1).copied().unwrap_or(NONE)),
                prev: link(if place == 0 { NONE } else { chain[place - 1] }),
                kind: if place == inner { Kind::Container } else { Kind::Alloc },
                orientation: along(level),
                rect: SHEET,
            };
            if chain.len() == 1 && stream.below(64) < stray {
                of.next = stream.pick(&other[1..]);
            }
            tables.put(slot, of);
        }
        (parent, level) = (chain[inner], level + 1);
    }
    tables
}
