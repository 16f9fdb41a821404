//! Times single calls beside the crate's, both in this one run: the crate's own random test, and an allocate and a deallocate as the slots in use grow.
//!
//! With `count SLOTS` or `count random` each call is made once on either side, and nothing is timed: for a counter of instructions (bench/count).

use bench::pace::{check, crates, ours, random_test, steady, Call, Pace};
use compare::random_test::RandomTest;
use std::time::Instant;

/// How often the same calls are made again. Of each call the least time counts: what is above it came from other work on the machine.
const AGAIN: usize = 7;
const STEADY: usize = 2_000;

/// The least time of each call, in nanoseconds, over several runs of the same calls.
fn least(calls: usize, mut run: impl FnMut(&mut dyn FnMut(usize, u64))) -> Vec<u64> {
    let mut times = vec![u64::MAX; calls];
    for _ in 0..AGAIN {
        run(&mut |place, time| times[place] = times[place].min(time));
    }
    times
}

/// The time of one call, by the clock; and what the clock itself takes, which is taken off.
fn timed<T>(call: impl FnOnce() -> T) -> (T, u64) {
    let begun = Instant::now();
    let done = call();
    (done, begun.elapsed().as_nanos() as u64)
}

fn clock() -> u64 {
    (0..10_000).map(|_| timed(|| ()).1).min().expect("a time")
}

/// The least times of the crate's calls, of ours, and of the check alone on the same tables.
struct Times {
    theirs: Vec<u64>,
    ours: Vec<u64>,
    check: Vec<u64>,
}

fn measure(pace: &Pace) -> Times {
    let calls = || pace.calls.iter().zip(&pace.tickets).enumerate();
    let count = pace.calls.len();
    Times {
        theirs: least(count, |note| {
            let mut atlas = pace.atlas.clone();
            for (place, (&call, ticket)) in calls() {
                let (given, time) = timed(|| crates(&mut atlas, call));
                assert_eq!(given, *ticket);
                note(place, time);
            }
        }),
        ours: least(count, |note| {
            let mut bare = pace.bare.clone();
            for (place, (&call, ticket)) in calls() {
                let (given, time) = timed(|| ours(&mut bare, call));
                assert_eq!(given, *ticket);
                note(place, time);
            }
        }),
        check: least(count, |note| {
            let mut bare = pace.bare.clone();
            for (place, (&call, ticket)) in calls() {
                let ((), time) = timed(|| check(&mut bare, call));
                note(place, time);
                assert_eq!(ours(&mut bare, call), *ticket);
            }
        }),
    }
}

/// One line: the mean time of one call of those that count, on each side, and ratios.
fn line(label: &str, times: &Times, counts: impl Fn(usize) -> bool) {
    let clock = clock();
    let places: Vec<usize> = (0..times.ours.len()).filter(|&place| counts(place)).collect();
    let mean = |times: &[u64]| {
        places.iter().map(|&place| times[place].saturating_sub(clock)).sum::<u64>() as f64 / places.len() as f64
    };
    let (theirs, ours, check) = (mean(&times.theirs), mean(&times.ours), mean(&times.check));
    let core = ours - check;
    println!(
        "{label:30}{theirs:10.0}{ours:10.0}{check:10.0}{core:10.0}{:10.1}{:9.0}%{:10.2}",
        ours / theirs,
        100.0 * check / ours,
        core / theirs
    );
}

/// How long all steps take on each side with no clock between them, in seconds: the least of several runs.
fn whole(pace: &Pace) {
    let (mut theirs, mut our) = (f64::MAX, f64::MAX);
    for _ in 0..AGAIN {
        let mut atlas = pace.atlas.clone();
        let ((), time) = timed(|| pace.calls.iter().for_each(|&call| _ = crates(&mut atlas, call)));
        theirs = theirs.min(time as f64 / 1e9);
        let mut bare = pace.bare.clone();
        let ((), time) = timed(|| pace.calls.iter().for_each(|&call| _ = ours(&mut bare, call)));
        our = our.min(time as f64 / 1e9);
    }
    println!("all steps in one go: the crate {theirs:.3} s, ours {our:.3} s, {:.1} times", our / theirs);
}

fn count(pace: &Pace) {
    let (mut atlas, mut bare) = (pace.atlas.clone(), pace.bare.clone());
    for (&call, ticket) in pace.calls.iter().zip(&pace.tickets) {
        check(&mut bare, call);
        assert_eq!(ours(&mut bare, call), *ticket);
        assert_eq!(crates(&mut atlas, call), *ticket);
    }
    let allocates = pace.calls.iter().filter(|call| matches!(call, Call::Allocate(..))).count();
    println!("{} {}", allocates, pace.calls.len() - allocates);
}

fn main() {
    let words: Vec<String> = std::env::args().skip(1).collect();
    if let [_, which] = &words[..] {
        return match which.parse() {
            Ok(slots) => count(&steady(slots, STEADY)),
            Err(_) => count(&random_test(20_000)),
        };
    }
    println!(
        "{:30}{:>10}{:>10}{:>10}{:>10}{:>10}{:>10}{:>10}",
        "ns a call", "crate", "ours", "check", "core", "ours/cr.", "check", "core/cr."
    );
    let pace = random_test(RandomTest::STEPS);
    let times = measure(&pace);
    line("random test, all steps", &times, |_| true);
    let allocates = |pace: &Pace, place: usize| matches!(pace.calls[place], Call::Allocate(..));
    line("random test, allocate", &times, |place| allocates(&pace, place));
    line("random test, deallocate", &times, |place| !allocates(&pace, place));
    whole(&pace);
    for slots in [64, 512, 4_096] {
        let pace = steady(slots, STEADY);
        let times = measure(&pace);
        let all = (0..pace.calls.len()).filter(|&place| allocates(&pace, place)).count();
        println!("n = {}, {} of {all} allocates placed", pace.bare.head[8], pace.tickets.iter().flatten().count());
        line(&format!("{slots} slots, allocate"), &times, |place| allocates(&pace, place));
        line(&format!("{slots} slots, deallocate"), &times, |place| !allocates(&pace, place));
    }
}
