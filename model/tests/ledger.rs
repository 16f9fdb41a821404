//! "The ledger of known days", case by case, on tables with just enough room and on roomy ones, and the answers in their order.

use model::calls::{allocate, clear, deallocate, grow, is_empty, list_alloc, list_free, lookup, reset, size, start};
use model::rules::{answer, audit, bucket_of};
use model::steps::adjust_size;
use model::tables::{rect, Head, Kind, Options, Rect, Tables, LARGE, MEDIUM, NONE, SMALL};

const PLAIN: Options = Options { align_width: 1, align_height: 1, small: 32, large: 256 };

fn started(slots: usize, width: i32, height: i32, options: Options) -> Tables {
    let mut tables = Tables::zero(slots, slots);
    assert_eq!(start(&mut tables, width, height, options), 0);
    assert_eq!(audit(&tables), (0, 0));
    tables
}

fn sheet(slots: usize) -> Tables {
    started(slots, 1000, 1000, PLAIN)
}

fn taken(tables: &mut Tables, width: i32, height: i32) -> (u32, Rect) {
    let (answer, ticket, place) = allocate(tables, width, height);
    assert_eq!((answer, audit(tables)), (0, (0, 0)), "{width}x{height}");
    assert_eq!(lookup(tables, ticket), (0, place));
    (ticket, place)
}

fn freed(tables: &mut Tables, ticket: u32) {
    assert_eq!((deallocate(tables, ticket), audit(tables)), (0, (0, 0)), "ticket {ticket}");
}

fn three() -> Tables {
    let mut tables = sheet(8);
    assert_eq!(taken(&mut tables, 100, 1000), (2, rect(0, 0, 100, 1000)));
    assert_eq!(taken(&mut tables, 900, 200), (4, rect(100, 0, 1000, 200)));
    assert_eq!(taken(&mut tables, 300, 200), (6, rect(100, 200, 400, 400)));
    tables
}

#[test]
fn first_day() {
    let mut tables = three();
    assert_eq!(tables.entries(LARGE), [5, 7]);
    assert_eq!(tables.slot(3).kind, Kind::Container);
    assert_eq!(tables.slot(3).rect, rect(100, 200, 1000, 1000));
    let before = tables.clone();
    assert_eq!(allocate(&mut tables, 1000, 1), (6, 0, Rect::ZERO));
    assert_eq!(tables, before);
}

#[test]
fn frees_in_both_orders() {
    for (first, second, entries) in [(4, 6, [5, 7, 4, 1]), (6, 4, [5, 7, 3, 1])] {
        let mut tables = three();
        freed(&mut tables, first);
        freed(&mut tables, second);
        assert_eq!(tables.live(), [0, 1, 2]);
        assert_eq!((tables.kind(1), tables.slot(1).rect), (Kind::Free, rect(100, 0, 1000, 1000)));
        assert_eq!(tables.entries(LARGE), entries);
        if first == 4 {
            assert_eq!(taken(&mut tables, 500, 200), (16_777_221, rect(100, 0, 600, 200)));
        }
    }
}

#[test]
fn whole_sheet_twice() {
    let mut tables = sheet(1);
    for _ in 0..2 {
        assert_eq!(taken(&mut tables, 1000, 1000), (0, rect(0, 0, 1000, 1000)));
        assert_eq!(is_empty(&tables), (0, false));
        freed(&mut tables, 0);
        assert_eq!(is_empty(&tables), (0, true));
    }
}

#[test]
fn grown_sheet() {
    let mut tables = sheet(6);
    taken(&mut tables, 100, 100);
    assert_eq!((grow(&mut tables, 3000, 3000), audit(&tables)), (0, (0, 0)));
    assert_eq!(size(&tables), (3000, 3000));
    assert_eq!(tables.head.root, 5);
    assert_eq!(tables.slot(1).rect, rect(0, 100, 1000, 3000));
    assert_eq!(tables.slot(4).rect, rect(1000, 0, 3000, 3000));
    assert_eq!(tables.entries(LARGE), [3, 1, 4]);
    assert_eq!(taken(&mut tables, 1000, 2900).0, 1);
}

#[test]
fn slots_needed() {
    for (width, height, needed) in [(10, 10, 1), (10, 4, 2), (5, 10, 3), (4, 4, 4), (3, 6, 5)] {
        taken(&mut started(needed, 10, 10, PLAIN), width, height);
        if needed > 1 {
            let mut tables = started(needed - 1, 10, 10, PLAIN);
            let before = tables.clone();
            assert_eq!(allocate(&mut tables, width, height), (7, 0, Rect::ZERO));
            assert_eq!(tables, before);
        }
    }
}

#[test]
fn rounding() {
    let mut tables = started(9, 100, 100, Options { align_width: 5, align_height: 2, ..PLAIN });
    assert_eq!(taken(&mut tables, 7, 3).1, rect(0, 0, 10, 4));
    let mut tables = started(9, 1000, 1000, Options { align_width: 2, ..PLAIN });
    assert_eq!(allocate(&mut tables, i32::MAX, 1), (5, 0, Rect::ZERO));
    assert_eq!(allocate(&mut sheet(9), i32::MAX, 1), (6, 0, Rect::ZERO));
    assert_eq!(adjust_size(i32::MAX, 1), Some(i32::MAX));
    assert_eq!(adjust_size(i32::MAX - 1, i32::MAX), None);
}

#[test]
fn buckets_and_sides() {
    for (side, bucket) in [(31, SMALL), (32, MEDIUM), (255, MEDIUM), (256, LARGE)] {
        assert_eq!(bucket_of(&sheet(1).head, side, side), bucket);
    }
    assert_eq!(allocate(&mut sheet(1), 0, 1), (4, 0, Rect::ZERO));
    let mut tables = Tables::zero(1, 1);
    for side in [1, 65_536, 65_537, i32::MAX] {
        assert_eq!(start(&mut tables, side, side, PLAIN), 0);
    }
    let before = tables.clone();
    assert_eq!(start(&mut tables, i32::MIN, 1, PLAIN), 3);
    assert_eq!(start(&mut tables, 1, 0, PLAIN), 3);
    assert_eq!(reset(&mut tables, 1, 1, Options { align_width: 0, ..PLAIN }), 3);
    assert_eq!(reset(&mut tables, 1, 1, Options { small: 257, ..PLAIN }), 3);
    assert_eq!(tables, before);
}

/// A push to a full list whose other entries are all dead: an Alloc, the pushed slot itself, a Container.
#[test]
fn sweep_of_a_full_list() {
    // Everything is medium here.
    let mut tables = started(3, 10, 4, Options { small: 1, large: 99, ..PLAIN });
    taken(&mut tables, 4, 4); // Container 0 over Alloc 2, Free 1
    freed(&mut tables, 2);
    assert_eq!(tables.entries(MEDIUM), [1, 0]);
    taken(&mut tables, 4, 4); // the dead entry 1 goes; Container 0 over Alloc 1, Free 2 this time
    assert_eq!(tables.entries(MEDIUM), [2]);
    taken(&mut tables, 6, 4);
    assert_eq!(tables.head.lengths[MEDIUM], 0);
    tables.lists[MEDIUM] = vec![1, 2, 0];
    tables.head.lengths[MEDIUM] = 3;
    assert_eq!(audit(&tables), (0, 0));
    // The pushed slot alone is left; places past the new length keep their bytes.
    let ticket = 2 + u32::from(tables.generations[2]) * 16_777_216;
    freed(&mut tables, ticket);
    assert_eq!(tables.lists[MEDIUM], [2, 2, 0]);
    assert_eq!(tables.head.lengths[MEDIUM], 1);
}

#[test]
fn order_of_answers() {
    let short = Tables { lists: [vec![0], vec![0; 2], vec![0; 2]], ..Tables::zero(2, 2) };
    let long = Tables::zero(1, 16_385);
    let many = Tables::zero(4_097, 4_097);
    let odd = Tables { words: vec![0; 15], ..Tables::zero(2, 2) };
    for tables in [Tables::zero(0, 0), short, long, many, odd] {
        let mut lent = tables.clone();
        assert_eq!(answer(&tables), 1);
        assert_eq!(start(&mut lent, 0, 0, PLAIN), 1);
        assert_eq!(clear(&mut lent), 1);
        assert_eq!(allocate(&mut lent, 0, 0).0, 1);
        assert_eq!(deallocate(&mut lent, NONE), 1);
        assert_eq!(grow(&mut lent, 0, 0), 1);
        assert_eq!(is_empty(&lent), (1, false));
        assert_eq!(list_free(&lent, &mut []), (1, 0));
        assert_eq!(lent, tables);
    }
    let mut damaged = sheet(2);
    damaged.head.lengths[LARGE] = 0;
    let before = damaged.clone();
    assert_eq!(audit(&damaged), (6, 0));
    assert_eq!(allocate(&mut damaged, 0, 0).0, 2);
    assert_eq!(deallocate(&mut damaged, NONE), 2);
    assert_eq!(lookup(&damaged, 0), (2, Rect::ZERO));
    assert_eq!(grow(&mut damaged, 0, 0), 2);
    assert_eq!(list_alloc(&damaged, &mut []), (2, 0));
    assert_eq!(damaged, before);
    // Clear and reset ask nothing of the tables but the setup.
    assert_eq!(clear(&mut damaged), 0);
    assert_eq!(audit(&damaged), (0, 0));
    damaged.head = Head { width: 0, ..damaged.head };
    assert_eq!(clear(&mut damaged), 3);

    let mut tables = sheet(5);
    let options = Options { align_width: 2, ..PLAIN };
    assert_eq!(reset(&mut tables, 1000, 1000, options), 0);
    assert_eq!(allocate(&mut tables, i32::MAX, 0).0, 4);
    assert_eq!(deallocate(&mut tables, 1 + 16_777_216), 8);
    assert_eq!(deallocate(&mut tables, 16_777_216), 9);
    assert_eq!(deallocate(&mut tables, 0), 10);
    assert_eq!(grow(&mut tables, 999, i32::MAX), 11);
    taken(&mut tables, 1000, 1000);
    let mut crowded = started(3, 10, 10, PLAIN);
    taken(&mut crowded, 10, 10);
    let before = crowded.clone();
    assert_eq!(grow(&mut crowded, i32::MAX, 20), 7);
    assert_eq!(crowded, before);
    let mut roomy = crowded.clone();
    assert_eq!(grow(&mut roomy, 20, 10), 0);
    let before = roomy.clone();
    assert_eq!(grow(&mut roomy, 20, 11), 7);
    assert_eq!(roomy, before);
    assert_eq!(list_alloc(&roomy, &mut []), (12, 0));
    let mut lent = [rect(7, 7, 7, 7); 2];
    assert_eq!(list_free(&roomy, &mut lent), (0, 1));
    assert_eq!(lent, [rect(10, 0, 20, 10), rect(7, 7, 7, 7)]);
}

/// 7 of allocate leaves the lists as the search left them, the chosen entry still in.
#[test]
fn refusal_after_a_search() {
    let mut tables = started(5, 10, 10, PLAIN);
    taken(&mut tables, 3, 6);
    let all: Vec<u32> = tables.live();
    assert_eq!(all.len(), 5);
    // A dead entry before the others: slot 0 is a Container.
    let own = SMALL;
    let entries = tables.entries(own).to_vec();
    tables.lists[own][..3].copy_from_slice(&[0, entries[0], entries[1]]);
    tables.head.lengths[own] = 3;
    let before = tables.clone();
    assert_eq!(allocate(&mut tables, 2, 2), (7, 0, Rect::ZERO));
    assert_eq!(tables.entries(own), [entries[1], entries[0]]);
    assert_eq!(tables.lists[own][2], entries[1]);
    assert_eq!((&tables.words, &tables.generations), (&before.words, &before.generations));
    assert_eq!(audit(&tables), (0, 0));
}

/// Dropping dead entries early would show here.
#[test]
fn old_entry_steers_the_choice() {
    let mut tables = started(8, 2, 2, Options { small: 5, large: 9, ..PLAIN });
    taken(&mut tables, 1, 1);
    taken(&mut tables, 1, 1);
    freed(&mut tables, 2);
    assert_eq!(taken(&mut tables, 1, 1).0, 16_777_219);
}
