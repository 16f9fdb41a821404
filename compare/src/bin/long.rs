//! The long comparison: `long [CALLS | SECONDSs] [SEED]`, a million calls beside the crate from seed 1 if nothing is said.
//!
//! Each seed draws a day beside the crate, tight tables beside the model and damaged tables beside the model; before them, all calls on small
//! sheets. It ends at the first difference, with its seed, or says what was compared.

use compare::{crates, damage, days, every, papers, random_test, tight};
use model::bases;
use std::time::{Duration, Instant};

/// What one part compared, and how long it took.
#[derive(Default)]
struct Part<T>(T, Duration);

fn timed<T>(time: &mut Duration, work: impl FnOnce() -> T) -> T {
    let begun = Instant::now();
    let done = work();
    *time += begun.elapsed();
    done
}

fn main() {
    let words: Vec<String> = std::env::args().skip(1).collect();
    let amount = words.first().map_or("1000000", String::as_str);
    let (calls, seconds): (usize, f64) = match amount.strip_suffix('s') {
        Some(seconds) => (usize::MAX, seconds.parse().expect("seconds")),
        None => (amount.parse().expect("a number of calls, or of seconds with an s"), f64::MAX),
    };
    let first: u64 = words.get(1).map_or(1, |seed| seed.parse().expect("a seed, 1 or more"));

    let mut small = Part::<crates::Counts>::default();
    let mut crates = Part::<crates::Counts>::default();
    let (mut tight, mut damaged) = (Part::<papers::Answers>::default(), Part::<papers::Answers>::default());
    for (side, depth, grows) in [(5, 3, true), (4, 4, true), (3, 5, false)] {
        small.0.add(&timed(&mut small.1, || every::every(side, depth, grows)));
    }
    println!("all calls on small sheets, {:.1} s: {:?}", small.1.as_secs_f64(), small.0);
    let mut own = Part::<crates::Counts>::default();
    own.0 = timed(&mut own.1, || random_test::run(random_test::RandomTest::STEPS));
    println!("the crate's own random test, {:.1} s: {:?}", own.1.as_secs_f64(), own.0);
    let (begun, bases, mut seed) = (Instant::now(), bases::small(), first);
    while crates.0.calls < calls && begun.elapsed().as_secs_f64() < seconds {
        crates.0.add(&timed(&mut crates.1, || days::day(seed)));
        tight.0.add(&timed(&mut tight.1, || tight::day(seed)));
        damaged.0.add(&timed(&mut damaged.1, || damage::day(seed, &bases)));
        seed += 1;
    }
    println!("seeds {first} to {}", seed - 1);
    println!("beside the crate, {:.1} s: {:?}", crates.1.as_secs_f64(), crates.0);
    println!("tight tables beside the model, {:.1} s: {:?}", tight.1.as_secs_f64(), tight.0);
    println!("damaged tables beside the model, {:.1} s: {:?}", damaged.1.as_secs_f64(), damaged.0);
    println!("no difference");
}
