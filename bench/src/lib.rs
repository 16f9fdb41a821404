//! What the measuring programs share: `sheets` makes sound tables, `lent` lends them to the library, `pace` draws calls and makes them on either side.

pub mod lent;
pub mod pace;
pub mod sheets;

use std::time::Instant;

const SAMPLES: usize = 1_001;

/// The median time of one call in nanoseconds. Each is timed by itself, so that a call during which the machine turned to
/// something else is one long sample and no more.
pub fn median(mut call: impl FnMut()) -> f64 {
    let mut times: Vec<u128> = (0..SAMPLES)
        .map(|_| {
            let begun = Instant::now();
            call();
            begun.elapsed().as_nanos()
        })
        .collect();
    times.sort_unstable();
    times[SAMPLES / 2] as f64
}
