//! What the search of an allocate does, and what some shortcuts would do in its place.

use super::{Counts, BUCKETS};
use crate::view::{State, NONE};
use crate::Size;

/// Shortcuts in the search that 01 warns of or that come to mind; each must be caught at least once.
pub(super) const SHORTCUTS: [(&str, Rule); 4] = [
    ("shortcut caught: best exact fit", Rule::BestExact),
    ("shortcut caught: last of equals", Rule::LastOfEquals),
    ("shortcut caught: always the least", Rule::AlwaysLeast),
    ("shortcut caught: always the greatest", Rule::AlwaysGreatest),
];

/// A rule for the search: the crate's, or one of the shortcuts.
#[derive(Copy, Clone, PartialEq)]
pub(super) enum Rule {
    Crate,
    BestExact,
    LastOfEquals,
    AlwaysLeast,
    AlwaysGreatest,
}

/// What a search found: the slot, the bucket of its entry, and the spare sides.
struct Found {
    slot: u32,
    bucket: usize,
    spare: (i32, i32),
}

impl Found {
    fn is_exact(&self) -> bool {
        self.spare.0 == 0 || self.spare.1 == 0
    }

    fn score(&self) -> i32 {
        self.spare.0.min(self.spare.1)
    }
}

/// A scan of one list that swap-removes dead entries until it ends at an entry, or runs through. Gives the entries as
/// they then stand, and whether one left from before the last place and whether one left from the last.
fn scan(state: &State, bucket: usize, ends: impl Fn(u32) -> bool) -> (Vec<u32>, [bool; 2]) {
    let mut entries = state.lists[bucket].clone();
    let mut dead = [false; 2];
    let mut place = 0;
    while place < entries.len() {
        if state.at(entries[place]).is_free() {
            if ends(entries[place]) {
                break;
            }
            place += 1;
        } else {
            dead[usize::from(place + 1 == entries.len())] = true;
            entries.swap_remove(place);
        }
    }
    (entries, dead)
}

/// The choice that a rule makes, from the request's bucket upward.
fn choose(state: &State, rounded: Size, rule: Rule) -> Option<Found> {
    let own = state.bucket(rounded);
    let greatest = rule == Rule::AlwaysGreatest || (own == 2 && rule != Rule::AlwaysLeast);
    (own..3).find_map(|bucket| {
        let mut best: Option<Found> = None;
        for slot in scan(state, bucket, |_| false).0 {
            let size = state.at(slot).rect.size();
            let found = Found { slot, bucket, spare: (size.width - rounded.width, size.height - rounded.height) };
            if found.spare.0 < 0 || found.spare.1 < 0 {
                continue;
            }
            if found.is_exact() && rule != Rule::BestExact {
                return Some(found);
            }
            if best.as_ref().is_none_or(|kept| beats(&found, kept, greatest, rule)) {
                best = Some(found);
            }
        }
        best
    })
}

/// Whether a later candidate takes the place of the one kept so far.
fn beats(found: &Found, kept: &Found, greatest: bool, rule: Rule) -> bool {
    if rule == Rule::BestExact && (found.is_exact() || kept.is_exact()) {
        return found.is_exact() && (!kept.is_exact() || found.spare.0 + found.spare.1 < kept.spare.0 + kept.spare.1);
    }
    let (new, old) = (found.score(), kept.score());
    (if greatest { new > old } else { new < old }) || (rule == Rule::LastOfEquals && new == old)
}

/// What the search of an allocate does. The crate's choice is handed in; the same choice is made here by 01's words.
pub fn count(counts: &mut Counts, state: &State, rounded: Size, chosen: u32) {
    let own = state.bucket(rounded);
    counts.hit(&format!("search starts in {}", BUCKETS[own]));
    let found = choose(state, rounded, Rule::Crate);
    assert_eq!(found.as_ref().map_or(NONE, |found| found.slot), chosen, "the search has another outcome by 01's words");
    for (name, rule) in SHORTCUTS {
        counts.hit_if(choose(state, rounded, rule).map_or(NONE, |other| other.slot) != chosen, name);
    }

    let last = found.as_ref().map_or(2, |found| found.bucket);
    let exact = found.as_ref().is_some_and(Found::is_exact);
    let mut removed = [false; 2];
    for bucket in own..=last {
        let dead = scan(state, bucket, |entry| exact && bucket == last && entry == chosen).1;
        removed = [removed[0] | dead[0], removed[1] | dead[1]];
    }
    counts.hit_if(removed[0], "search removed a dead entry from before the last place");
    counts.hit_if(removed[1], "search removed a dead entry from the last place");

    let Some(found) = found else {
        counts.hit(if removed == [false; 2] {
            "search refused and changed nothing"
        } else {
            "search refused and removed dead entries"
        });
        return;
    };
    let greatest = own == 2;
    counts.hit(match (exact, greatest) {
        (true, _) => "search ended at an exact side",
        (false, true) => "search took the greatest",
        (false, false) => "search took the least",
    });
    counts.hit(if found.bucket == own {
        "search chose from its own bucket"
    } else {
        "search chose from a higher bucket"
    });
    let true_bucket = state.bucket(state.at(chosen).rect.size());
    counts.hit_if(true_bucket != found.bucket, "search chose by an entry in another bucket");
    let entries = state.lists.iter().flatten().filter(|entry| **entry == chosen).count();
    counts.hit_if(entries > 1, "search chose a slot with repeated entries");
    let rivals = |rival: &dyn Fn(i32, i32) -> bool| {
        scan(state, found.bucket, |_| false).0.into_iter().any(|slot| {
            let size = state.at(slot).rect.size();
            slot != chosen && rival(size.width - rounded.width, size.height - rounded.height)
        })
    };
    if exact {
        let also_exact = |dx: i32, dy: i32| dx >= 0 && dy >= 0 && (dx == 0 || dy == 0);
        counts.hit_if(rivals(&also_exact), "search chose the first exact of several");
    } else {
        let equal = |dx: i32, dy: i32| dx.min(dy) == found.score();
        counts.hit_if(rivals(&equal), "search chose the first of equals");
    }
}
