//! The stored list is the one that the generator makes, and it reads back.

const STORED: &str = include_str!("../../crates/replay/stdin");

#[test]
fn the_generator_makes_the_stored_list() {
    let made = oracle::list::whole().text;
    let same = made.lines().zip(STORED.lines()).take_while(|(made, stored)| made == stored).count();
    assert!(made == STORED, "crates/replay/stdin differs from line {} on", same + 1);
}

#[test]
fn the_stored_list_reads_back_against_the_crate() {
    assert!(oracle::replay::read(STORED) >= 3_000);
}
