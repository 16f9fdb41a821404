//! The library beside the model: tight tables, damaged ones, and the stored list of damaged tables.

use compare::papers::Answers;
use compare::trail::Trail;
use compare::{damage, tight};
use model::list::read;
use model::random::Stream;
use std::fs;

#[test]
fn tight_tables() {
    let mut answers = Answers::default();
    for seed in 1..=3_000 {
        answers.add(&tight::day(seed));
    }
    println!("{answers:?}");
    assert!(answers.calls > 150_000 && answers.swept > 5_000);
    assert!(answers.given[3..].iter().all(|&given| given > 100));
}

#[test]
fn damaged_tables() {
    let (mut answers, bases) = (Answers::default(), model::bases::small());
    for seed in 1..=3_000 {
        answers.add(&damage::day(seed, &bases));
    }
    println!("{answers:?}");
    assert!(answers.calls > 400_000 && answers.given[1] > 50_000 && answers.given[2] > 150_000);
}

/// Every table of docs/MODEL.md's list, with every call.
#[test]
fn stored_tables() {
    let stored = concat!(env!("CARGO_MANIFEST_DIR"), "/../crates/damaged/stdin");
    let (mut answers, mut stream) = (Answers::default(), Stream::new(11));
    let mut trail = Trail::new("the stored list of damaged tables", 11);
    read(&fs::read_to_string(stored).expect("the list"), |tables, _| {
        damage::all_calls(tables, &mut stream, &mut answers, &mut trail);
    });
    println!("{answers:?}");
    assert!(answers.calls > 800_000 && answers.given[2] > 300_000);
}
