//! The library beside the crate: days drawn at random, and all calls on small sheets.

use compare::crates::Counts;
use compare::{days, every};

#[test]
fn random_days() {
    let mut counts = Counts::default();
    // The last fills a table of 4,096 slots.
    for seed in (1..=400).chain([2_037]) {
        counts.add(&days::day(seed));
    }
    println!("{counts:?}");
    assert!(counts.calls > 100_000 && counts.placed > 30_000 && counts.freed > 30_000 && counts.grown > 2_000);
    assert!(counts.refused > 10_000 && counts.begun > 100 && counts.asked > 2_000);
    assert!(counts.exact > 1_000 && counts.emptied > 1_000 && counts.past_cap > 10);
    assert!(counts.most_slots > 4_000 && counts.most_entries > 1_000);
}

/// The first steps of the crate's `atlas_random_test`; `long` makes all 500,000.
#[test]
fn random_test() {
    let counts = compare::random_test::run(50_000);
    println!("{counts:?}");
    assert!(counts.wrapped > 0);
}

#[test]
fn all_calls_on_small_sheets() {
    let mut counts = every::every(4, 3, true);
    counts.add(&every::every(3, 4, false));
    println!("{counts:?}");
    assert!(counts.calls > 250_000);
}
