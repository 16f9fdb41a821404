//! Every answer of the library is guillotiere's.

use beside::{ours, theirs};

#[test]
fn days_are_the_same() {
    let mut lines = 0;
    for seed in 0..60 {
        let (ours, theirs) = (ours(seed, 3_000), theirs(seed, 3_000));
        for (place, (our, their)) in ours.iter().zip(&theirs).enumerate() {
            assert_eq!(our, their, "day {seed}, line {place}");
        }
        assert_eq!(ours.len(), theirs.len(), "day {seed}");
        lines += ours.len();
    }
    println!("60 days, {lines} lines");
}
