//! Shapes in the open: entries that steer the choice, generations that go round, deep climbs, every grow, and what
//! clear and reset leave behind. Where the outcome is known it is asserted.

use crate::day::Day;
use crate::days::options;
use crate::record::List;
use crate::view::NONE;
use crate::{size2, DEFAULT_OPTIONS};

pub fn write(list: &mut List) {
    steering_entries(list);
    wrapped_generations(list);
    deep_climbs(list);
    grows(list);
    clear_and_reset(list);
}

/// Dead entries whose slot becomes Free again, and repeated ones: they steer the choice.
fn steering_entries(list: &mut List) {
    let mut day = Day::start(list, size2(2, 2), &options((1, 1), (5, 9)));
    day.take(1, 1);
    day.take(1, 1);
    day.deallocate(2);
    assert_eq!(day.take(1, 1), 16_777_219);

    // Growing a lone Free root to its own size moves its entry all the same.
    let mut day = Day::start(list, size2(1, 2), &options((1, 1), (2, 3)));
    let tickets = day.take_all([(1, 1), (1, 1)]);
    day.free_all(&tickets);
    assert_eq!(day.state().lists, [vec![0], vec![0], vec![]]);
    day.grow(1, 2);
    assert_eq!(day.state().lists, [vec![], vec![0, 0], vec![]]);
    day.take_whole();
}

/// One cut taken and given back until the generations of its two slots have gone round: the tickets come again.
fn wrapped_generations(list: &mut List) {
    let mut day = Day::plain(list, 10, 10);
    let mut tickets = Vec::new();
    for _ in 0..260 {
        let ticket = day.take(5, 10);
        tickets.push(ticket);
        day.deallocate(ticket);
    }
    assert_eq!(tickets[0], 2);
    assert_eq!(tickets[1], 16_777_217);
    assert_eq!(tickets[256..], tickets[..4]);
}

/// A spiral of halves, each nested in the last: given back from outside in the climb runs through all of it at once,
/// from inside out it takes one level at a time.
fn deep_climbs(list: &mut List) {
    for inside_out in [false, true] {
        for half_width_first in [false, true] {
            let mut day = Day::plain(list, 64, 64);
            let (mut width, mut height) = (64, 64);
            let mut tickets = Vec::new();
            let mut halve_width = half_width_first;
            while width > 1 || height > 1 {
                if halve_width {
                    width /= 2;
                } else {
                    height /= 2;
                }
                halve_width = !halve_width;
                tickets.push(day.take(width, height));
            }
            if inside_out {
                tickets.reverse();
            }
            day.free_all(&tickets);
            day.take_whole();
        }
    }
}

/// Two squares of 60 in a row, beside each other or one below the other: the first is taken, the second was grown.
fn squares(list: &mut List, horizontal: bool) -> (Day<'_>, u32) {
    let mut day = Day::plain(list, 60, 60);
    let first = day.take_whole();
    day.grow(if horizontal { 120 } else { 60 }, if horizontal { 60 } else { 120 });
    let state = day.state();
    assert_eq!(state.at(state.root).orientation(), usize::from(horizontal));
    (day, first)
}

/// Every shape of grow: on a lone root and on a top chain that ends in a Free slot, an Alloc or a Container, with
/// Vertical and Horizontal root, and with growth on no axis, either and both.
fn grows(list: &mut List) {
    for (wider, taller) in [(0, 0), (7, 0), (0, 9), (7, 9), (300, 300)] {
        for horizontal in [false, true] {
            let (mut day, first) = squares(list, horizontal);
            day.deallocate(first);
            grow_by(&mut day, wider, taller);
            finish(&mut day, false);
            let part = if horizontal { (60, 20) } else { (20, 60) };
            for second in [None, Some((60, 60)), Some(part)] {
                let (mut day, _) = squares(list, horizontal);
                if let Some((width, height)) = second {
                    day.take(width, height);
                }
                grow_by(&mut day, wider, taller);
                finish(&mut day, wider > taller);
            }
        }
    }
    // Grown again and again, the tree gets a level deeper each time; given back it is one slot again.
    let mut day = Day::plain(list, 8, 8);
    for step in 1..8 {
        day.take(8, 8);
        grow_by(&mut day, 8 * (step % 2), 8 * ((step + 1) % 2));
    }
    finish(&mut day, true);
}

fn grow_by(day: &mut Day, wider: i32, taller: i32) {
    let size = day.size();
    day.grow(size.width + wider, size.height + taller);
}

/// Takes a little more, gives everything back in slot order or against it, and takes the whole sheet.
fn finish(day: &mut Day, backward: bool) {
    day.allocate(5, 5);
    day.allocate(7, 60);
    let mut tickets = day.tickets();
    if backward {
        tickets.reverse();
    }
    day.free_all(&tickets);
    day.take_whole();
}

/// Clear and reset forget slots, generations and lists; what was written past them is written anew.
fn clear_and_reset(list: &mut List) {
    let mut day = Day::plain(list, 300, 300);
    let setups = [((40, 40), (1, 1), (32, 256)), ((400, 30), (5, 2), (10, 10)), ((300, 300), (7, 3), (-3, 0))];
    for (size, alignment, thresholds) in setups {
        let tickets = day.take_all([(30, 20), (10, 10), (40, 5)]);
        day.deallocate(tickets[1]);
        day.allocate(9, 11);
        day.clear();
        assert_eq!((day.state().slots.len(), day.state().spare), (1, NONE));
        day.take(10, 10);
        day.take(12, 13);
        day.reset(size2(size.0, size.1), &options(alignment, thresholds));
        let ticket = day.take(7, 3);
        assert_eq!(ticket >> 24, 0);
        day.deallocate(ticket);
        day.reset(size2(100, 100), &DEFAULT_OPTIONS);
    }
}
