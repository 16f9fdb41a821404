//! All calls on small sheets, to a depth: each request that the sheet has room for by its sides, each live ticket, grows by a unit, and clear.

use crate::call::{Call, Setup};
use crate::crates::{Beside, Counts};
use crate::trail::Trail;
use model::tables::Options;

/// The thresholds that small sheets are tried with: all small, all large, one or two bounds in between.
const THRESHOLDS: [(i32, i32); 5] = [(32, 256), (-1, 0), (2, 3), (3, 3), (1, 4)];

/// The calls that may come next.
fn calls(beside: &Beside, grows: bool) -> Vec<Call> {
    let size = beside.seen.size;
    let sizes = (1..=size.width).flat_map(|width| (1..=size.height).map(move |height| (width, height)));
    let mut calls: Vec<Call> = sizes.map(|(width, height)| Call::Allocate(width, height)).collect();
    calls.extend(beside.tickets().into_iter().map(Call::Deallocate));
    if grows {
        calls.extend(
            [(1, 0), (0, 1), (1, 1)].map(|(wider, taller)| Call::Grow(size.width + wider, size.height + taller)),
        );
        calls.push(Call::Clear);
    }
    calls
}

/// Makes every call on a copy of its own, and goes on from each.
fn follow(beside: &Beside, depth: usize, grows: bool, trail: &mut Trail, counts: &mut Counts) {
    if depth == 0 {
        return;
    }
    for call in calls(beside, grows) {
        let mut after = beside.clone();
        after.counts = Counts::default();
        trail.step(call);
        after.make(call);
        counts.add(&after.counts);
        follow(&after, depth - 1, grows, trail, counts);
    }
}

/// Every sequence of so many calls on each sheet of up to so many units a side, with each of the thresholds.
pub fn every(side: i32, depth: usize, grows: bool) -> Counts {
    let mut counts = Counts::default();
    for (width, height) in (1..=side).flat_map(|width| (1..=side).map(move |height| (width, height))) {
        for (number, (small, large)) in THRESHOLDS.into_iter().enumerate() {
            let setup = Setup { width, height, options: Options { align_width: 1, align_height: 1, small, large } };
            let mut trail =
                Trail::new("all calls on a small sheet", (width * 100 + height * 10) as u64 + number as u64);
            let slots = 4 * depth + 1;
            follow(&Beside::start(setup, slots, slots.max(12), 0), depth, grows, &mut trail, &mut counts);
        }
    }
    counts
}
