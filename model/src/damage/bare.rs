//! Tables that are no base with a change, and cases made one by one.

use super::links::appended;
use super::parts::{with_entries, with_rect};
use crate::bases;
use crate::list::List;
use crate::tables::{code, rect, Head, Kind, Orientation, Slot, Tables, BUCKETS, HEAD_FIELDS, MEDIUM, NONE};

/// Tables that are no sound ones with a change: all zero, all ones, and heads over them.
pub fn bare(list: &mut List) {
    for (slots, entries) in [(1, 1), (2, 5), (12, 12)] {
        let zero = Tables::zero(slots, entries);
        list.open(&zero);
        let ones = Tables {
            head: Head::default(),
            words: vec![NONE; 8 * slots],
            generations: vec![255; slots],
            lists: [vec![NONE; entries], vec![NONE; entries], vec![NONE; entries]],
        };
        let mut all_ones = ones.clone();
        for number in 0..HEAD_FIELDS {
            all_ones.head.set_field(number, NONE);
        }
        list.show(&all_ones);
        for mut tables in [zero, ones] {
            tables.head = Head { width: 5, height: 5, options: bases::LOW, ..Head::default() };
            list.show(&tables);
            for count in 1..=slots as u32 + 1 {
                tables.head.count = count;
                for spare in [NONE, 0, count] {
                    for root in [0, count - 1, count] {
                        tables.head.spare = spare;
                        tables.head.root = root;
                        list.show(&tables);
                    }
                }
            }
            tables.head = Head { count: 1, root: 0, spare: NONE, ..tables.head };
            for bucket in BUCKETS {
                tables.head.lengths[bucket] = 1;
                list.show(&tables);
                tables.head.lengths[bucket] = entries as u32 + 1;
                list.show(&tables);
                tables.head.lengths[bucket] = 0;
            }
        }
    }
}

/// Cases made one by one, that the other parts may miss.
pub fn by_hand(list: &mut List) {
    let alone = Slot {
        parent: NONE,
        next: NONE,
        prev: NONE,
        kind: Kind::Alloc,
        orientation: Orientation::Horizontal,
        rect: rect(0, 0, 9, 5),
    };
    let over = Slot { kind: Kind::Container, orientation: Orientation::Vertical, ..alone };
    let mut base = Tables::zero(6, 6);
    base.head = Head { width: 9, height: 5, options: bases::LOW, spare: NONE, count: 2, ..Head::default() };
    base.put(0, over);
    base.put(1, Slot { parent: 0, ..alone });
    list.open(&base);
    // A ring of siblings whose members have the kinds and rectangles of a proper chain.
    for kinds in [(Kind::Alloc, Kind::Free), (Kind::Free, Kind::Free), (Kind::Container, Kind::Alloc)] {
        let one = Slot { parent: 0, next: 3, prev: 3, kind: kinds.0, rect: rect(0, 0, 4, 5), ..alone };
        let two = Slot { parent: 0, next: 2, prev: 2, kind: kinds.1, rect: rect(4, 0, 9, 5), ..alone };
        list.show(&appended(&base, &[one, two]));
        let child = Slot { parent: 2, orientation: Orientation::Vertical, ..alone };
        list.show(&appended(&base, &[one, two, child]));
        list.show(&appended(&base, &[one, Slot { next: NONE, ..two }]));
        list.show(&appended(&base, &[Slot { prev: NONE, ..one }, Slot { next: NONE, ..two }]));
    }
    // A chain that runs into a ring, which one prev can't answer.
    let member = |next, prev| Slot { parent: 0, next, prev, ..alone };
    list.show(&appended(&base, &[member(3, NONE), member(4, 2), member(3, 3)]));
    // Two Containers each the other's parent, one of them the root.
    let mut mutual = base.clone();
    mutual.put(0, Slot { parent: 1, ..over });
    mutual.put(1, Slot { parent: 0, orientation: Orientation::Horizontal, ..over });
    list.show(&mutual);
    // The root second in the top chain, and the same as it should be.
    let mut pair = Tables::zero(4, 4);
    pair.head = Head { width: 9, height: 5, options: bases::LOW, spare: NONE, count: 2, ..Head::default() };
    for root in [0, 1] {
        pair.put(1 - root, Slot { next: root, rect: rect(0, 0, 4, 5), ..alone });
        pair.put(root, Slot { prev: 1 - root, rect: rect(4, 0, 9, 5), ..alone });
        pair.head.root = root;
        if root == 0 {
            list.open(&pair);
        } else {
            list.show(&pair);
        }
        pair.head.root = 1 - root;
        list.show(&pair);
        // An entry in each other bucket doesn't make up for one in its own: 5×5 is medium.
        pair.put(root, Slot { kind: Kind::Free, ..pair.slot(root) });
        for lengths in 0..8 {
            pair.lists = [vec![root; 4], vec![root; 4], vec![root; 4]];
            pair.head.lengths = [lengths & 1, lengths >> 1 & 1, lengths >> 2];
            list.show(&pair);
            pair.lists[MEDIUM][0] = 1 - root;
            list.show(&pair);
        }
        pair.head.lengths = [0; 3];
    }
    // Rule 1's ends: sides, alignment, thresholds.
    let fresh = bases::Bench::start(2, 2, 5, 5, bases::LOW).0;
    list.open(&fresh);
    let sides = [i32::MIN, -1, 0, 1, 65_535, 65_536, 65_537, i32::MAX];
    for width in sides {
        for height in sides {
            let mut tables = fresh.clone();
            (tables.head.width, tables.head.height) = (width, height);
            list.show(&tables);
            list.show(&with_entries(with_rect(tables, 0, rect(0, 0, width as u32, height as u32))));
        }
    }
    let ends = [i32::MIN, -1, 0, 1, 4, 5, 6, i32::MAX];
    for one in ends {
        for two in ends {
            let mut tables = fresh.clone();
            (tables.head.options.small, tables.head.options.large) = (one, two);
            list.show(&tables);
            list.show(&with_entries(tables));
            let mut tables = fresh.clone();
            (tables.head.options.align_width, tables.head.options.align_height) = (one, two);
            list.show(&tables);
        }
    }
    // Every code word of a small tree, in all ways.
    let tree = bases::Bench::start(3, 3, 5, 5, bases::LOW).take(2, 5).0;
    list.open(&tree);
    for codes in 0..9u32.pow(3) {
        let mut tables = tree.clone();
        for slot in 0..3 {
            tables.words[8 * slot + 3] = codes / 9u32.pow(slot as u32) % 9;
        }
        list.show(&tables);
    }
    assert_eq!(tree.words[3], code(Kind::Container, Orientation::Vertical));
}
