//! Chains and parents changed: rule 3, and rule 5 where rule 3 still holds.

use super::parts::{containers, flipped, unused};
use crate::list::List;
use crate::tables::{rect, Kind, Orientation, Slot, Tables, NONE};

/// The members of the chain that starts at a slot.
fn chain(tables: &Tables, first: u32) -> Vec<u32> {
    let mut members = vec![first];
    while tables.slot(members[members.len() - 1]).next != NONE {
        members.push(tables.slot(members[members.len() - 1]).next);
    }
    members
}

/// These slots linked in this order.
fn linked(base: &Tables, members: &[u32]) -> Tables {
    let mut tables = base.clone();
    for (place, &number) in members.iter().enumerate() {
        let next = members.get(place + 1).copied().unwrap_or(NONE);
        let prev = if place == 0 { NONE } else { members[place - 1] };
        tables.put(number, Slot { next, prev, ..tables.slot(number) });
    }
    tables
}

/// A chain put in another order; the top chain with the root as it was, then with the root at the new front.
fn reordered(list: &mut List, base: &Tables, was_first: u32, order: &[u32]) {
    let mut tables = linked(base, order);
    list.show(&tables);
    if was_first == base.head.root {
        tables.head.root = order[0];
        list.show(&tables);
    }
}

/// Rules 3 and 5: chains turned round, with a member moved to the front, cut in two, cut short, or closed to a ring.
pub fn chains(list: &mut List, base: &Tables) {
    for first in base.live().into_iter().filter(|&slot| base.slot(slot).prev == NONE) {
        let members = chain(base, first);
        let last = members[members.len() - 1];
        let turned: Vec<u32> = members.iter().rev().copied().collect();
        reordered(list, base, first, &turned);
        for place in 1..members.len() {
            let mut order = members.clone();
            order[..=place].rotate_right(1);
            reordered(list, base, first, &order);
            reordered(list, base, first, &members[..place]);
            reordered(list, base, first, &members[place..]);
            list.show(&linked(&linked(base, &members[..place]), &members[place..]));
            // A member and its next no longer of one parent, from there to the end.
            for parent in [NONE, members[0], base.head.root] {
                let mut tables = base.clone();
                for &member in &members[place..] {
                    tables.put(member, Slot { parent, ..tables.slot(member) });
                }
                list.show(&tables);
            }
            list.show(&flipped(base, &members[place..]));
        }
        let mut ring = base.clone();
        ring.put(first, Slot { prev: last, ..ring.slot(first) });
        ring.put(last, Slot { next: first, ..ring.slot(last) });
        list.show(&ring);
    }
}

/// New slots at n and up, as many as are given; the tables have room for them.
pub fn appended(base: &Tables, slots: &[Slot]) -> Tables {
    let mut tables = base.clone();
    for &slot in slots {
        tables.put(tables.head.count, slot);
        tables.head.count += 1;
    }
    tables
}

/// Rule 3: live slots beside a sound tree that no walk from the root meets. Rings of one to three siblings under each Container
/// and under none; Containers that are each other's parents, alone, and with a sibling beside them.
pub fn astray(list: &mut List, base: &Tables) {
    let (n, room) = (base.head.count, base.room() - base.head.count);
    let place = rect(0, 0, base.head.width as u32, base.head.height as u32);
    for parent in containers(base).into_iter().chain([NONE]) {
        let orientation = if parent == NONE { Orientation::Vertical } else { base.slot(parent).orientation.other() };
        for size in 1..=room.min(3) {
            let ring: Vec<Slot> = (0..size)
                .map(|member| Slot {
                    parent,
                    next: n + (member + 1) % size,
                    prev: n + (member + size - 1) % size,
                    kind: Kind::Alloc,
                    orientation,
                    rect: place,
                })
                .collect();
            list.show(&appended(base, &ring));
        }
        // A stray single child, which is a second first child or a second slot with neither parent nor prev.
        if room >= 1 {
            let alone = Slot { parent, next: NONE, prev: NONE, kind: Kind::Alloc, orientation, rect: place };
            list.show(&appended(base, &[alone]));
            list.show(&appended(base, &[Slot { kind: Kind::Container, ..alone }]));
            list.show(&appended(base, &[Slot { orientation: orientation.other(), ..alone }]));
            // The same with a prev that names no live slot.
            for prev in unused(base).into_iter().chain([n + 1, NONE - 1]) {
                list.show(&appended(base, &[Slot { prev, ..alone }]));
            }
        }
    }
    for size in [1, 2, 3, 4] {
        if room < size {
            continue;
        }
        let mut ring: Vec<Slot> = (0..size)
            .map(|member| Slot {
                parent: n + (member + 1) % size,
                next: NONE,
                prev: NONE,
                kind: Kind::Container,
                orientation: if member % 2 == 0 { Orientation::Vertical } else { Orientation::Horizontal },
                rect: place,
            })
            .collect();
        list.show(&appended(base, &ring));
        if room > size {
            let beside = Slot { next: NONE, prev: n, kind: Kind::Free, ..ring[0] };
            ring[0].next = n + size;
            ring.push(beside);
            list.show(&appended(base, &ring));
        }
    }
}
