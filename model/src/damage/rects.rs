//! Kinds and rectangles changed under a tree whose links stay sound: rules 4 to 7.

use super::parts::{children, containers, flipped, leaves, with_entries, with_rect};
use crate::list::List;
use crate::random::Stream;
use crate::rules::last_top;
use crate::tables::{rect, Kind, Orientation, Rect, Slot, Tables, NONE};

/// Rules 4 and 6: Alloc and Free changed for each other in sets of leaves, first with the lists as they are, then with the
/// missing entries added.
pub fn leaf_kinds(list: &mut List, base: &Tables, stream: &mut Stream) {
    let leaves = leaves(base);
    let every = 1u32 << leaves.len().min(16);
    let sets: Vec<u32> =
        if every <= 64 { (1..every).collect() } else { (0..64).map(|_| stream.below(every)).collect() };
    for set in sets {
        let mut tables = base.clone();
        for (place, &leaf) in leaves.iter().enumerate() {
            if set >> place & 1 == 1 {
                let slot = tables.slot(leaf);
                let kind = if slot.kind == Kind::Alloc { Kind::Free } else { Kind::Alloc };
                tables.put(leaf, Slot { kind, ..slot });
            }
        }
        list.show(&tables);
        list.show(&with_entries(tables));
    }
}

/// Rules 5 and 6: the border between two neighbouring leaves moved, on both sides of it.
pub fn borders(list: &mut List, base: &Tables) {
    for leaf in leaves(base) {
        let (slot, next) = (base.slot(leaf), base.slot(leaf).next);
        if next == NONE || base.kind(next) == Kind::Container {
            continue;
        }
        let beside = base.slot(next);
        for shift in [-300, -4, -1, 1, 3, 250, i64::from(NONE)] {
            let moved = |corner: u32| (i64::from(corner) + shift) as u32;
            let (mut one, mut two) = (slot.rect, beside.rect);
            match slot.orientation {
                Orientation::Vertical => (one.y1, two.y0) = (moved(one.y1), moved(two.y0)),
                Orientation::Horizontal => (one.x1, two.x0) = (moved(one.x1), moved(two.x0)),
            }
            list.show(&with_rect(with_rect(base.clone(), leaf, one), next, two));
        }
        // The two rectangles changed for each other, and both the same.
        list.show(&with_rect(with_rect(base.clone(), leaf, beside.rect), next, slot.rect));
        list.show(&with_rect(base.clone(), next, slot.rect));
    }
}

/// Every rectangle of these slots put through a change.
fn rects_changed(base: &Tables, slots: &[u32], change: impl Fn(Rect) -> Rect) -> Tables {
    slots.iter().fold(base.clone(), |tables, &slot| {
        let place = change(tables.slot(slot).rect);
        with_rect(tables, slot, place)
    })
}

/// Rules 5, 6 and 7: all rectangles scaled, moved or mirrored, with and without the sheet, with and without Containers.
pub fn geometry(list: &mut List, base: &Tables) {
    let live = base.live();
    let leaves = leaves(base);
    for factor in [0, 2, 3, 40] {
        let scaled = |place: Rect| {
            let by = |corner: u32| corner.wrapping_mul(factor);
            rect(by(place.x0), by(place.y0), by(place.x1), by(place.y1))
        };
        for slots in [&live, &leaves] {
            let mut tables = rects_changed(base, slots, scaled);
            list.show(&tables);
            tables.head.width = base.head.width.wrapping_mul(factor as i32);
            tables.head.height = base.head.height.wrapping_mul(factor as i32);
            list.show(&tables);
            list.show(&with_entries(tables));
        }
    }
    list.show(&rects_changed(base, &live, |place| rect(place.x0 + 1, place.y0, place.x1 + 1, place.y1)));
    list.show(&rects_changed(base, &live, |place| {
        rect(place.x0.wrapping_sub(1), place.y0, place.x1.wrapping_sub(1), place.y1)
    }));
    list.show(&rects_changed(base, &leaves, |place| rect(place.x1, place.y1, place.x0, place.y0)));
    // One unit more for all that touch the far side, with and without the sheet.
    let far = base.head.width as u32;
    let stretched = |slots: &[u32]| {
        rects_changed(
            base,
            slots,
            |place| if place.x1 == far { rect(place.x0, place.y0, far + 1, place.y1) } else { place },
        )
    };
    for slots in [&live, &leaves] {
        let mut tables = stretched(slots);
        list.show(&tables);
        tables.head.width += 1;
        list.show(&tables);
        list.show(&with_entries(tables));
    }
    // Width and height changed for each other: all of it, then each part alone.
    let turned = |place: Rect| rect(place.y0, place.x0, place.y1, place.x1);
    let mut tables = rects_changed(base, &live, turned);
    list.show(&tables);
    (tables.head.width, tables.head.height) = (base.head.height, base.head.width);
    list.show(&tables);
    list.show(&flipped(&tables, &live));
    list.show(&flipped(base, &live));
    list.show(&rects_changed(&flipped(base, &live), &live, turned));
    list.show(&flipped(base, &leaves));
    for slot in live {
        list.show(&flipped(base, &children(base, slot)));
    }
}

/// Rule 7, and what it leaves alone: Containers with other stored rectangles.
pub fn stored_rects(list: &mut List, base: &Tables) {
    let last = last_top(base);
    for container in containers(base) {
        let was = base.slot(container).rect;
        let sheet = rect(0, 0, base.head.width as u32, base.head.height as u32);
        let mut others = vec![Rect::ZERO, sheet, rect(NONE, NONE, NONE, NONE), rect(was.x1, was.y1, was.x0, was.y0)];
        if container == last {
            others.extend(leaves(base).iter().map(|&leaf| base.slot(leaf).rect));
            for shift in [1, 2, NONE, 1 << 31, 1 << 16] {
                let by = |corner: u32| corner.wrapping_add(shift);
                others.push(rect(by(was.x0), was.y0, by(was.x1), was.y1));
                others.push(rect(was.x0, by(was.y0), was.x1, by(was.y1)));
                others.push(rect(by(was.x0), by(was.y0), by(was.x1), by(was.y1)));
            }
        }
        for other in others {
            list.show(&with_rect(base.clone(), container, other));
        }
    }
}
