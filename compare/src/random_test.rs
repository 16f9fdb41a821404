//! The crate's own `atlas_random_test`, with the numbers that it draws.

use crate::call::{Call, Setup};
use crate::crates::{Beside, Counts};
use crate::trail::Trail;
use model::tables::Options;

/// A step of the test.
pub enum Step {
    /// Frees the live rectangle at this place, in the order of taking.
    Free(usize),
    Take(i32, i32),
}

/// The numbers of `atlas_random_test`.
pub struct RandomTest(usize);

impl RandomTest {
    pub const SETUP: Setup = Setup {
        width: 1_000,
        height: 1_000,
        options: Options { align_width: 5, align_height: 2, small: 32, large: 256 },
    };
    pub const STEPS: usize = 500_000;

    pub fn new() -> Self {
        RandomTest(37)
    }

    fn number(&mut self) -> usize {
        self.0 = (1_103_515_245 * self.0 + 12_345) % (1 << 31);
        self.0
    }

    pub fn step(&mut self, live: usize) -> Step {
        if self.number() % 5 > 2 && live != 0 {
            return Step::Free(self.number() % live);
        }
        let width = (self.number() % 300) as i32 + 5;
        Step::Take(width, (self.number() % 300) as i32 + 5)
    }
}

impl Default for RandomTest {
    fn default() -> Self {
        RandomTest::new()
    }
}

/// So many steps of `atlas_random_test`, on the longest lists, and its end: everything freed, the whole sheet taken, nothing left, and freed.
pub fn run(steps: usize) -> Counts {
    let mut beside = Beside::start(RandomTest::SETUP, 512, 16_384, 0);
    let (mut numbers, mut trail) = (RandomTest::new(), Trail::new("atlas_random_test", 37));
    let mut live = Vec::new();
    let mut make = |call| {
        trail.step(call);
        beside.make(call)
    };
    for _ in 0..steps {
        match numbers.step(live.len()) {
            Step::Free(place) => {
                make(Call::Deallocate(live.remove(place)));
            }
            Step::Take(width, height) => {
                if let [0, ticket, ..] = make(Call::Allocate(width, height))[..] {
                    live.push(ticket);
                }
            }
        }
    }
    while let Some(ticket) = live.pop() {
        make(Call::Deallocate(ticket));
    }
    let whole = make(Call::Allocate(1_000, 1_000));
    assert_eq!(whole[0], 0);
    assert_eq!(make(Call::Allocate(1, 1))[0], 6);
    make(Call::Deallocate(whole[1]));
    beside.counts
}
