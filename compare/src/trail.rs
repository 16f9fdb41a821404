//! Where a run is, so that a difference can be found again.

use crate::call::Call;

/// Says, when a panic goes past it, by which seed the run was drawn and which of its calls was being made.
pub struct Trail {
    what: &'static str,
    seed: u64,
    pub calls: usize,
    last: Option<Call>,
}

impl Trail {
    pub fn new(what: &'static str, seed: u64) -> Self {
        Trail { what, seed, calls: 0, last: None }
    }

    /// A call is about to be made.
    pub fn step(&mut self, call: Call) {
        self.calls += 1;
        self.last = Some(call);
    }
}

impl Drop for Trail {
    fn drop(&mut self) {
        if std::thread::panicking() {
            eprintln!("a difference: {}, seed {}, call {}: {:?}", self.what, self.seed, self.calls, self.last);
        }
    }
}
