//! Known days: 01's ledger, requests that are turned down, the shortest and longest sheets, and the crate's own tests.
//! Where 01 names an outcome it is asserted here, so the list can't be made if the crate contradicts the ledger.

use crate::day::Day;
use crate::record::List;
use crate::{point2, size2, AllocatorOptions, Rectangle};

pub fn write(list: &mut List) {
    ledger(list);
    refusals(list);
    sheet_sides(list);
    crate_tests(list);
}

pub fn options(alignment: (i32, i32), thresholds: (i32, i32)) -> AllocatorOptions {
    AllocatorOptions {
        alignment: size2(alignment.0, alignment.1),
        small_size_threshold: thresholds.0,
        large_size_threshold: thresholds.1,
    }
}

fn rect(x0: i32, y0: i32, x1: i32, y1: i32) -> Rectangle {
    Rectangle { min: point2(x0, y0), max: point2(x1, y1) }
}

/// Asserts which slots are live.
fn assert_live(day: &Day, live: &[u32]) {
    let state = day.state();
    let found: Vec<u32> = (0..state.slots.len() as u32).filter(|slot| state.at(*slot).code % 4 != 3).collect();
    assert_eq!(found, live);
}

/// 01's ledger, as far as it lies within the premises.
fn ledger(list: &mut List) {
    ledger_cuts(list, [4, 6], &[5, 7, 4, 1]);
    ledger_cuts(list, [6, 4], &[5, 7, 3, 1]);

    let mut day = Day::plain(list, 1000, 1000);
    for _ in 0..2 {
        assert_eq!(day.take_whole(), 0);
        day.deallocate(0);
    }

    let mut day = Day::plain(list, 1000, 1000);
    day.take(100, 100);
    day.grow(3000, 3000);
    let state = day.state();
    assert_eq!(state.root, 5);
    assert_eq!(state.at(1).rect, rect(0, 100, 1000, 3000));
    assert_eq!(state.at(4).rect, rect(1000, 0, 3000, 3000));
    assert_eq!(state.lists[2], [3, 1, 4]);
    assert_eq!(day.take(1000, 2900), 1);

    for (width, height, slots) in [(10, 10, 1), (10, 4, 2), (5, 10, 3), (4, 4, 4), (3, 6, 5)] {
        let mut day = Day::plain(list, 10, 10);
        let ticket = day.take(width, height);
        assert_eq!(day.state().slots.len(), slots);
        day.deallocate(ticket);
        day.take_whole();
    }

    let mut day = Day::start(list, size2(1000, 1000), &options((5, 2), (32, 256)));
    assert_eq!(day.allocate(7, 3), Some((2, rect(0, 0, 10, 4))));
    let mut day = Day::start(list, size2(1000, 1000), &options((1, 1), (32, 256)));
    assert_eq!(day.allocate(i32::MAX, 1), None);

    for (side, bucket) in [(31, 0), (32, 1), (255, 1), (256, 2)] {
        let mut day = Day::plain(list, side, side);
        assert_eq!(day.state().lists[bucket], [0]);
        let ticket = day.take_whole();
        day.deallocate(ticket);
    }
}

/// The ledger's first two entries: three cuts, a refusal, two tickets given back in one order or the other.
fn ledger_cuts(list: &mut List, order: [u32; 2], large: &[u32]) {
    let mut day = Day::plain(list, 1000, 1000);
    assert_eq!(day.allocate(100, 1000), Some((2, rect(0, 0, 100, 1000))));
    assert_eq!(day.allocate(900, 200), Some((4, rect(100, 0, 1000, 200))));
    assert_eq!(day.allocate(300, 200), Some((6, rect(100, 200, 400, 400))));
    assert_eq!(day.state().lists[2], [5, 7]);
    assert_eq!(day.state().at(3).rect, rect(100, 200, 1000, 1000));
    assert_eq!(day.allocate(1000, 1), None);
    day.free_all(&order);
    assert_live(&day, &[0, 1, 2]);
    assert_eq!(day.state().at(1).rect, rect(100, 0, 1000, 1000));
    assert_eq!(day.state().lists[2], large);
    let again = day.allocate(500, 200);
    if order == [4, 6] {
        assert_eq!(again, Some((16_777_221, rect(100, 0, 600, 200))));
    }
}

/// Requests that the crate turns down, on a fresh sheet and on a full one.
fn refusals(list: &mut List) {
    let mut day = Day::plain(list, 50, 50);
    for full in [false, true] {
        if full {
            day.take_whole();
        }
        for (width, height) in
            [(0, 1), (1, 0), (0, 0), (-1, 5), (5, -1), (i32::MIN, i32::MIN), (-167_114_179, -718_142)]
        {
            assert_eq!(day.allocate(width, height), None);
        }
        for (width, height) in [(51, 1), (1, 51), (i32::MAX, 1), (1, i32::MAX), (65_537, 65_537)] {
            assert_eq!(day.allocate(width, height), None);
        }
    }
    // Rounding alone can make a request too long: up to the last number that an i32 holds.
    let mut day = Day::start(list, size2(50, 50), &options((i32::MAX, 64), (32, 256)));
    assert_eq!(day.allocate(1, 1), None);
    assert_eq!(day.allocate(0, 1), None);
    let mut day = Day::start(list, size2(50, 50), &options((49, 7), (32, 256)));
    assert_eq!(day.allocate(50, 1), None);
    assert_eq!(day.allocate(1, 50), None);
    day.take(1, 49);
}

/// Sheets with the shortest and the longest sides.
fn sheet_sides(list: &mut List) {
    for (width, height) in [(1, 1), (65_536, 1), (1, 65_536), (65_536, 32_767), (32_767, 65_536), (65_536, 65_536)] {
        let mut day = Day::plain(list, width, height);
        let ticket = day.take_whole();
        day.deallocate(ticket);
    }
    let mut day = Day::plain(list, 65_536, 32_767);
    let tickets = day.take_all([(65_535, 32_766), (1, 32_766), (65_536, 1)]);
    day.free_all(&tickets);
    day.take_whole();
    let mut day = Day::plain(list, 1, 1);
    day.grow(65_536, 65_536);
    let ticket = day.take_whole();
    day.deallocate(ticket);
    let tickets = day.take_all([(2, 2), (65_500, 2)]);
    day.free_all(&tickets);
    longest_sides(list);
}

/// Sheets with the longest sides of all: every corner up to 2,147,483,647, and areas that the crate can't tell apart.
fn longest_sides(list: &mut List) {
    const MOST: i32 = i32::MAX;
    for (width, height) in [(65_537, 1), (1, 65_537), (MOST, 1), (1, MOST), (MOST, MOST)] {
        let mut day = Day::plain(list, width, height);
        let ticket = day.take_whole();
        day.deallocate(ticket);
    }
    let mut day = Day::plain(list, MOST, MOST);
    let tickets = day.take_all([(MOST - 1, MOST - 1), (1, MOST - 1), (MOST, 1)]);
    day.free_all(&tickets);
    day.take_whole();
    let mut day = Day::plain(list, MOST, MOST);
    let [a, b, c, d] = day.take_all([(50_000, 60_000), (60_000, 50_000), (1 << 30, 1 << 30), (MOST - 50_000, 60_000)]);
    day.free_all(&[c, a, d, b]);
    let mut day = Day::plain(list, 1, 1);
    day.grow(MOST, MOST);
    let ticket = day.take_whole();
    day.deallocate(ticket);
    let mut day = Day::plain(list, 3, 5);
    let a = day.take(2, 5);
    day.grow(MOST - 1, 5);
    let b = day.take(70_000, 3);
    day.grow(MOST, MOST);
    day.free_all(&[a, b]);
    day.take_whole();
}

/// The crate's own tests of the allocator, apart from the long random one (the mixes are of its kind).
fn crate_tests(list: &mut List) {
    // atlas_basic
    let mut day = Day::plain(list, 1000, 1000);
    let ticket = day.take_whole();
    day.deallocate(ticket);
    let requests = [(100, 1000), (900, 200), (300, 200), (200, 300), (100, 300), (100, 300), (100, 300)];
    let [a, b, c, d, e, f, g] = day.take_all(requests);
    day.free_all(&[b, f, c, e]);
    let h = day.take(500, 200);
    day.deallocate(a);
    let i = day.take(500, 200);
    day.free_all(&[g, h, d, i]);
    day.take_whole();

    // test_grow
    let mut day = Day::plain(list, 1000, 1000);
    day.grow(2000, 2000);
    let ticket = day.take_whole();
    day.deallocate(ticket);
    let a = day.take(100, 100);
    day.grow(3000, 3000);
    let b = day.take(1000, 2900);
    day.grow(4000, 4000);
    day.free_all(&[b, a]);
    day.take_whole();

    // clear_empty
    let mut day = Day::plain(list, 1000, 1000);
    day.take(10, 10);
    day.clear();
    let [a, b] = day.take_all([(10, 10), (20, 20)]);
    day.free_all(&[b, a]);
    day.clear();
    day.clear();

    // issue_25, and everything freed
    let mut day = Day::plain(list, 65_536, 65_536);
    let [a, b, c] = day.take_all([(2, 2), (65_500, 2), (2, 65_500)]);
    day.free_all(&[b, a, c]);
    day.take_whole();

    // grow_free_list_bucket
    let mut day = Day::plain(list, 100, 100);
    let a = day.take(100, 90);
    day.grow(100, 1100);
    day.take(100, 500);
    day.deallocate(a);
    let mut day = Day::plain(list, 20, 20);
    day.grow(512, 512);
    day.take(500, 500);
}
