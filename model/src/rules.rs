//! The rules of "Sound tables", each as literally as can be. A rule is looked at only when those before it hold, so each
//! may lean on them.
//!
//! A broken rule names a place: the lowest slot or list place that breaks it by itself where there is one, else 0. It also
//! says which of its sentences are broken, so that the list of damaged tables can be shown to try each of them.

use crate::tables::{rect, Head, Kind, Orientation, Rect, Tables, BUCKETS, LARGE, MEDIUM, NONE, SMALL};

/// The longest side of a sheet, the most slots, and the most entries of a list table.
pub const LONGEST: i32 = i32::MAX;
pub const MOST_SLOTS: usize = 4_096;
pub const MOST_ENTRIES: usize = 16_384;

/// What is wrong with tables that break a rule.
#[derive(Clone, Debug, PartialEq, Eq)]
pub struct Fault {
    pub place: u32,
    /// The broken sentences. After a rule that is followed step by step (2 and 5), the one met first.
    pub sentences: Vec<&'static str>,
}

type Holds = Result<(), Fault>;

fn fault(place: u32, sentence: &'static str) -> Fault {
    Fault { place, sentences: vec![sentence] }
}

/// Every table length is in 01's ranges; else a call answers 1.
pub fn lengths_in_range(tables: &Tables) -> bool {
    let slots = tables.generations.len();
    (1..=MOST_SLOTS).contains(&slots)
        && tables.words.len() == 8 * slots
        && tables.lists.iter().all(|list| (slots..=MOST_ENTRIES).contains(&list.len()))
}

/// Sheet sides are above 0, alignment sides are positive, and the large threshold is at least the small one.
pub fn setup_valid(head: &Head) -> bool {
    head.width > 0
        && head.height > 0
        && head.options.align_width > 0
        && head.options.align_height > 0
        && head.options.large >= head.options.small
}

/// The bucket of a size: large if either side reaches the large threshold, else medium if either reaches the small one,
/// else small.
pub fn bucket_of(head: &Head, width: i64, height: i64) -> usize {
    let (small, large) = (i64::from(head.options.small), i64::from(head.options.large));
    if width >= large || height >= large {
        LARGE
    } else if width >= small || height >= small {
        MEDIUM
    } else {
        SMALL
    }
}

/// 1 ≤ n ≤ N; setup valid; list lengths within their tables; root and every list entry below n. While the head breaks
/// this, no list is looked at and the place is 0.
pub fn rule1(tables: &Tables) -> Holds {
    let head = &tables.head;
    let mut sentences = Vec::new();
    if head.count < 1 || head.count > tables.room() {
        sentences.push("1: n is from 1 to N");
    }
    if !setup_valid(head) {
        sentences.push("1: setup valid");
    }
    if BUCKETS.iter().any(|&bucket| head.lengths[bucket] as usize > tables.lists[bucket].len()) {
        sentences.push("1: list lengths within their tables");
    }
    if head.root >= head.count {
        sentences.push("1: root below n");
    }
    if !sentences.is_empty() {
        return Err(Fault { place: 0, sentences });
    }
    for bucket in BUCKETS {
        for (place, &entry) in tables.entries(bucket).iter().enumerate() {
            if entry >= head.count {
                return Err(fault(place as u32, "1: list entries below n"));
            }
        }
    }
    Ok(())
}

/// The spare chain visits each Unused slot below n once, visits nothing else, and ends. It ends by the none-link alone.
pub fn rule2(tables: &Tables) -> Holds {
    let mut visited = Vec::new();
    let mut link = tables.head.spare;
    while link != NONE {
        if link >= tables.head.count {
            return Err(fault(0, "2: visits no slot past n"));
        }
        if tables.kind(link) != Kind::Unused {
            return Err(fault(0, "2: visits no live slot"));
        }
        if visited.contains(&link) {
            return Err(fault(0, "2: ends"));
        }
        visited.push(link);
        link = tables.slot(link).next;
    }
    for slot in tables.below_count() {
        if tables.kind(slot) == Kind::Unused && !visited.contains(&slot) {
            return Err(fault(0, "2: visits each Unused slot"));
        }
    }
    Ok(())
}

fn none_or_live(tables: &Tables, link: u32) -> bool {
    link == NONE || tables.is_live(link)
}

/// Whether the slot is a child without prev of this parent. A child is a live slot.
fn is_first_child(tables: &Tables, slot: u32, parent: u32) -> bool {
    tables.is_live(slot) && tables.slot(slot).parent == parent && tables.slot(slot).prev == NONE
}

type Sentence = (&'static str, fn(&Tables, u32) -> bool);

/// Rule 3's sentences that one live slot can break, each as seen from that slot. A sentence about the slot that a link
/// names is left to the first three where the link names no live slot.
pub const SEEN_FROM_A_SLOT: [Sentence; 13] = [
    ("3: parent is none or live", |tables, slot| none_or_live(tables, tables.slot(slot).parent)),
    ("3: next is none or live", |tables, slot| none_or_live(tables, tables.slot(slot).next)),
    ("3: prev is none or live", |tables, slot| none_or_live(tables, tables.slot(slot).prev)),
    ("3: the next's prev is the slot", |tables, slot| {
        let next = tables.slot(slot).next;
        !tables.is_live(next) || tables.slot(next).prev == slot
    }),
    ("3: the prev's next is the slot", |tables, slot| {
        let prev = tables.slot(slot).prev;
        !tables.is_live(prev) || tables.slot(prev).next == slot
    }),
    ("3: siblings share the parent", |tables, slot| {
        let next = tables.slot(slot).next;
        !tables.is_live(next) || tables.slot(next).parent == tables.slot(slot).parent
    }),
    ("3: siblings share the orientation", |tables, slot| {
        let next = tables.slot(slot).next;
        !tables.is_live(next) || tables.slot(next).orientation == tables.slot(slot).orientation
    }),
    ("3: a parent is a Container", |tables, slot| {
        let parent = tables.slot(slot).parent;
        !tables.is_live(parent) || tables.kind(parent) == Kind::Container
    }),
    ("3: a parent is of the other orientation", |tables, slot| {
        let parent = tables.slot(slot).parent;
        !tables.is_live(parent) || tables.slot(parent).orientation == tables.slot(slot).orientation.other()
    }),
    ("3: a Container has a first child", |tables, slot| {
        tables.kind(slot) != Kind::Container || tables.below_count().any(|child| is_first_child(tables, child, slot))
    }),
    ("3: a Container has only one first child", |tables, slot| {
        let parent = tables.slot(slot).parent;
        !tables.is_live(parent)
            || !is_first_child(tables, slot, parent)
            || !tables.below_count().any(|higher| higher > slot && is_first_child(tables, higher, parent))
    }),
    ("3: only root has neither parent nor prev", |tables, slot| {
        let links = tables.slot(slot);
        links.parent != NONE || links.prev != NONE || slot == tables.head.root
    }),
    ("3: root has neither parent nor prev", |tables, slot| {
        let links = tables.slot(slot);
        slot != tables.head.root || (links.parent == NONE && links.prev == NONE)
    }),
];

/// Whether following a link from this slot ends; more steps than there are slots is a walk without end.
fn following_ends(tables: &Tables, from: u32, link: fn(&Tables, u32) -> u32) -> bool {
    let mut slot = from;
    for _ in tables.below_count() {
        slot = link(tables, slot);
        if slot == NONE {
            return true;
        }
    }
    false
}

/// Links of live slots are none or live. Next and prev agree both ways. Siblings share parent and orientation. A parent is
/// a Container of the other orientation, and every Container has exactly one child without prev. Following parents ends,
/// and so does following next. Root is the only live slot with neither parent nor prev.
pub fn rule3(tables: &Tables) -> Holds {
    let mut first = None;
    let mut sentences = Vec::new();
    for slot in tables.live() {
        for (sentence, holds) in SEEN_FROM_A_SLOT {
            if !holds(tables, slot) {
                first = first.or(Some(slot));
                if !sentences.contains(&sentence) {
                    sentences.push(sentence);
                }
            }
        }
    }
    if let Some(place) = first {
        return Err(Fault { place, sentences });
    }
    if !tables.is_live(tables.head.root) {
        sentences.push("3: root is live");
    }
    if !tables.live().iter().all(|&slot| following_ends(tables, slot, |tables, slot| tables.slot(slot).parent)) {
        sentences.push("3: following parents ends");
    }
    if !tables.live().iter().all(|&slot| following_ends(tables, slot, |tables, slot| tables.slot(slot).next)) {
        sentences.push("3: following next ends");
    }
    if !sentences.is_empty() {
        return Err(Fault { place: 0, sentences });
    }
    Ok(())
}

/// No two linked siblings are both Free. No Free slot with a parent lacks a sibling.
pub fn rule4(tables: &Tables) -> Holds {
    let mut first = None;
    let mut sentences = Vec::new();
    for free in tables.free() {
        let slot = tables.slot(free);
        let beside_free = slot.next != NONE && tables.kind(slot.next) == Kind::Free;
        let only_child = slot.parent != NONE && slot.next == NONE && slot.prev == NONE;
        if beside_free {
            sentences.push("4: no two linked siblings are both Free");
        }
        if only_child {
            sentences.push("4: no Free slot with a parent lacks a sibling");
        }
        if beside_free || only_child {
            first = first.or(Some(free));
        }
    }
    sentences.sort_unstable();
    sentences.dedup();
    match first {
        Some(place) => Err(Fault { place, sentences }),
        None => Ok(()),
    }
}

/// The place of a slot: an Alloc's or a Free's is its rectangle, a Container's is that of its chain of children. `above` holds
/// the slots on the way down; rule 3 keeps a slot from turning up below itself.
fn place_of_slot(tables: &Tables, slot: u32, above: &mut Vec<u32>) -> Result<Rect, &'static str> {
    assert!(!above.contains(&slot), "rule 3 holds");
    match tables.kind(slot) {
        Kind::Alloc | Kind::Free => Ok(tables.slot(slot).rect),
        Kind::Container => {
            above.push(slot);
            let first = tables.below_count().find(|&child| is_first_child(tables, child, slot));
            let place = place_of_chain(tables, first.expect("rule 3 holds"), above);
            above.pop();
            place
        }
        Kind::Unused => panic!("rule 3 holds"),
    }
}

/// The place of the chain that starts at this slot: its members' places joined, each adjoining the one before it.
fn place_of_chain(tables: &Tables, first: u32, above: &mut Vec<u32>) -> Result<Rect, &'static str> {
    let orientation = tables.slot(first).orientation;
    let mut joined = place_of_slot(tables, first, above)?;
    let mut member = tables.slot(first).next;
    let mut seen = vec![first];
    while member != NONE {
        assert!(!seen.contains(&member), "rule 3 holds");
        seen.push(member);
        let place = place_of_slot(tables, member, above)?;
        joined = match orientation {
            Orientation::Vertical => {
                if place.x0 != joined.x0 || place.x1 != joined.x1 {
                    return Err("5: equal span across, Vertical");
                }
                if place.y0 != joined.y1 {
                    return Err("5: members adjoin, Vertical");
                }
                rect(joined.x0, joined.y0, joined.x1, place.y1)
            }
            Orientation::Horizontal => {
                if place.y0 != joined.y0 || place.y1 != joined.y1 {
                    return Err("5: equal span across, Horizontal");
                }
                if place.x0 != joined.x1 {
                    return Err("5: members adjoin, Horizontal");
                }
                rect(joined.x0, joined.y0, place.x1, joined.y1)
            }
        };
        member = tables.slot(member).next;
    }
    Ok(joined)
}

/// The place of an Alloc or Free slot is its rectangle, never empty. Members of each chain adjoin in link order with equal
/// span across. The top chain fills (0,0) to the sheet size.
pub fn rule5(tables: &Tables) -> Holds {
    for slot in tables.live() {
        if tables.kind(slot) != Kind::Container && tables.slot(slot).rect.is_empty() {
            return Err(fault(slot, "5: never empty"));
        }
    }
    let sheet = rect(0, 0, tables.head.width as u32, tables.head.height as u32);
    match place_of_chain(tables, tables.head.root, &mut Vec::new()) {
        Err(sentence) => Err(fault(0, sentence)),
        Ok(place) if place != sheet => Err(fault(0, "5: the top chain fills the sheet")),
        Ok(_) => Ok(()),
    }
}

/// Each Free slot has an entry in its own bucket's list.
pub fn rule6(tables: &Tables) -> Holds {
    for free in tables.free() {
        let place = tables.slot(free).rect;
        if !tables.entries(bucket_of(&tables.head, place.width(), place.height())).contains(&free) {
            let anywhere = BUCKETS.iter().any(|&bucket| tables.entries(bucket).contains(&free));
            return Err(fault(free, if anywhere { "6: in its own bucket's list" } else { "6: has an entry" }));
        }
    }
    Ok(())
}

/// The last slot of the top chain.
pub fn last_top(tables: &Tables) -> u32 {
    let mut slot = tables.head.root;
    while tables.slot(slot).next != NONE {
        slot = tables.slot(slot).next;
    }
    slot
}

/// If the last slot of the top chain is a Container, its stored rectangle is its place.
pub fn rule7(tables: &Tables) -> Holds {
    let last = last_top(tables);
    if tables.kind(last) == Kind::Container
        && place_of_slot(tables, last, &mut Vec::new()) != Ok(tables.slot(last).rect)
    {
        return Err(fault(last, "7: the last top Container's rectangle is its place"));
    }
    Ok(())
}

pub const RULES: [fn(&Tables) -> Holds; 7] = [rule1, rule2, rule3, rule4, rule5, rule6, rule7];

/// The lowest-numbered broken rule and what is wrong. Asks for table lengths in range.
pub fn examine(tables: &Tables) -> Option<(u32, Fault)> {
    assert!(lengths_in_range(tables), "table lengths are in range");
    for (place, rule) in RULES.iter().enumerate() {
        if let Err(fault) = rule(tables) {
            return Some((place as u32 + 1, fault));
        }
    }
    None
}

/// The lowest-numbered broken rule and its place; (0, 0) on sound tables.
pub fn audit(tables: &Tables) -> (u32, u32) {
    examine(tables).map_or((0, 0), |(rule, fault)| (rule, fault.place))
}

/// What a call answers of the tables alone: 1 for lengths out of range, 2 for tables that aren't sound, else 0.
pub fn answer(tables: &Tables) -> u32 {
    if !lengths_in_range(tables) {
        1
    } else if audit(tables) != (0, 0) {
        2
    } else {
        0
    }
}
