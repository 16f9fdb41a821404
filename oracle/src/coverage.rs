//! Which branches of the crate the list takes, counted from the state before each call. `required` names the branches
//! that must have been taken; `Counts::assert_whole` panics if one was not.

pub mod search;

use std::collections::BTreeMap;
use std::fmt;

use crate::premises::{candidate_areas, MOST_AREA};
use crate::view::{leaves, NodeKind, State, NONE};
use crate::{AllocatorOptions, Size};

const ORIENTATIONS: [&str; 2] = ["vertical", "horizontal"];
const BUCKETS: [&str; 3] = ["small", "medium", "large"];
const CUTS: [&str; 5] = ["exact", "along", "along with leftover", "across", "across with leftover"];
const MERGES: [&str; 4] = ["none", "next", "prev", "next and prev"];
const LEVELS: [&str; 2] = ["at the ticket", "higher up"];
const GROWTHS: [&str; 8] = [
    "lone root",
    "nothing",
    "stretch",
    "append",
    "across",
    "stretch and across",
    "append and across",
    "lone root to the same size",
];

/// The branches that stand outside the products of `required`.
const SINGLES: &[&str] = &[
    "allocate answers 0",
    "allocate answers 4",
    "allocate answers 6",
    "clear",
    "climb ends alone at a root other than 0",
    "climb ends alone at the top",
    "climb ends in a top chain of several",
    "climb ends inside a container",
    "climb of several levels ends in a top chain of several",
    "climb of 0 levels",
    "climb of 1 levels",
    "climb of 2 levels",
    "climb of 3 levels",
    "climb of 4 levels or more",
    "cut along before a next sibling",
    "cut with equal areas",
    "cut with an area past the cap",
    "empty yes",
    "empty no",
    "grow across over a chain of several",
    "grow appends after a container",
    "grow appends after an alloc",
    "grow moves an entry to another bucket",
    "grow moves an entry whose slot has others in its bucket",
    "grow moves an entry whose slot is in two buckets",
    "grow moves an entry that is not last",
    "new slot appended",
    "new slot appended after clear or reset",
    "new slot reused",
    "new slot reused with its generation wrapped",
    "reset",
    "search chose by an entry in another bucket",
    "search chose from a higher bucket",
    "search chose from its own bucket",
    "search chose the first exact of several",
    "search chose the first of equals",
    "search chose a slot with repeated entries",
    "search ended at an exact side",
    "search removed a dead entry from the last place",
    "search removed a dead entry from before the last place",
    "search refused and changed nothing",
    "search refused and removed dead entries",
    "search took the greatest",
    "search took the least",
    "search written out",
    "setup with alignment above 1",
    "setup with thresholds equal",
    "setup with a threshold huge",
    "setup with a threshold negative",
    "setup with a threshold zero",
    "shortcut caught: dead entries dropped early",
];

/// How often each branch was taken, and how far the tables filled.
#[derive(Default)]
pub struct Counts {
    hits: BTreeMap<String, usize>,
    most: BTreeMap<&'static str, usize>,
}

impl Counts {
    pub fn hit(&mut self, branch: &str) {
        *self.hits.entry(branch.to_string()).or_default() += 1;
    }

    fn hit_if(&mut self, taken: bool, branch: &str) {
        if taken {
            self.hit(branch);
        }
    }

    fn reach(&mut self, measure: &'static str, value: usize) {
        let most = self.most.entry(measure).or_default();
        *most = value.max(*most);
    }

    /// Panics unless every required branch was taken.
    pub fn assert_whole(&self) {
        let missing: Vec<_> = required().into_iter().filter(|branch| !self.hits.contains_key(branch)).collect();
        assert!(missing.is_empty(), "never taken: {missing:#?}");
    }
}

impl fmt::Display for Counts {
    fn fmt(&self, out: &mut fmt::Formatter) -> fmt::Result {
        for (branch, hits) in &self.hits {
            writeln!(out, "{hits:6}  {branch}")?;
        }
        for (measure, most) in &self.most {
            writeln!(out, "{most:6}  {measure}")?;
        }
        Ok(())
    }
}

/// Every branch that the list must take.
pub fn required() -> Vec<String> {
    let mut names: Vec<String> = SINGLES.iter().map(|name| name.to_string()).collect();
    names.extend(search::SHORTCUTS.iter().map(|(name, _)| name.to_string()));
    for orientation in ORIENTATIONS {
        names.extend(CUTS.iter().map(|shape| cut_name(shape, orientation)));
        names.extend(GROWTHS.iter().map(|shape| growth_name(shape, orientation)));
        for level in LEVELS {
            names.extend(MERGES.iter().map(|merge| merge_name(merge, level, orientation)));
        }
        names.push(lone_end_name(orientation));
    }
    for bucket in BUCKETS {
        names.push(format!("search starts in {bucket}"));
    }
    names
}

fn cut_name(shape: &str, orientation: &str) -> String {
    format!("cut {shape}, {orientation}")
}

fn growth_name(shape: &str, orientation: &str) -> String {
    format!("grow {shape}, {orientation}")
}

fn merge_name(merge: &str, level: &str, orientation: &str) -> String {
    format!("merge {merge}, {level}, {orientation}")
}

fn lone_end_name(orientation: &str) -> String {
    format!("climb ends alone at the top, {orientation}")
}

/// The options of a start or a reset.
pub fn setup(counts: &mut Counts, options: &AllocatorOptions) {
    let thresholds = [options.small_size_threshold, options.large_size_threshold];
    let above = |side: i32| side > 1;
    counts.hit_if(above(options.alignment.width) || above(options.alignment.height), "setup with alignment above 1");
    counts.hit_if(thresholds[0] == thresholds[1], "setup with thresholds equal");
    counts.hit_if(thresholds.iter().any(|side| *side < 0), "setup with a threshold negative");
    counts.hit_if(thresholds.contains(&0), "setup with a threshold zero");
    counts.hit_if(thresholds.iter().any(|side| *side > 65_536), "setup with a threshold huge");
}

/// How far the tables filled, after a call.
pub fn size(counts: &mut Counts, state: &State, empty: bool) {
    counts.hit(if empty { "empty yes" } else { "empty no" });
    counts.reach("most slots", state.slots.len());
    counts.reach("most entries in a list", state.lists.iter().map(Vec::len).max().unwrap_or(0));
    let live = state.slots.iter().filter(|slot| slot.kind() == NodeKind::Alloc).count();
    counts.reach("most live tickets", live);
}

/// The slots that a call took, told by their number and their generations. `seen` is how many slots this atlas has had
/// at most, before a clear or a reset too.
pub fn new_slots(counts: &mut Counts, before: &State, after: &State, seen: usize) {
    for slot in before.slots.len()..after.slots.len() {
        counts.hit(if slot < seen { "new slot appended after clear or reset" } else { "new slot appended" });
    }
    for (old, new) in before.generations.iter().zip(&after.generations) {
        counts.hit_if(old != new, "new slot reused");
        counts.hit_if(*old == 255 && *new == 0, "new slot reused with its generation wrapped");
    }
}

/// The shape of an allocate's cut.
pub fn cut(counts: &mut Counts, state: &State, rounded: Size, chosen: u32) {
    if chosen == NONE {
        return;
    }
    let slot = state.at(chosen);
    let (split, leftover, orientation) = leaves::guillotine_rect(slot.rect, rounded, slot.orientation() as u32);
    let shape = match (split.is_empty(), orientation as usize == slot.orientation(), leftover.is_empty()) {
        (true, _, _) => CUTS[0],
        (false, true, true) => CUTS[1],
        (false, true, false) => CUTS[2],
        (false, false, true) => CUTS[3],
        (false, false, false) => CUTS[4],
    };
    counts.hit(&cut_name(shape, ORIENTATIONS[slot.orientation()]));
    counts.hit_if(slot.next != NONE && shape.starts_with("along"), "cut along before a next sibling");
    let (right, bottom) = candidate_areas(&slot.rect, rounded);
    counts.hit_if(right.min(MOST_AREA) == bottom.min(MOST_AREA) && !split.is_empty(), "cut with equal areas");
    counts.hit_if(right.max(bottom) > MOST_AREA, "cut with an area past the cap");
}

/// The levels of a deallocate's climb, told from the links before it.
pub fn climb(counts: &mut Counts, state: &State, ticket_slot: u32) {
    let mut slot = ticket_slot;
    let mut levels = 0;
    loop {
        let node = state.at(slot);
        let (takes_next, goes_to_prev) = (state.names_free(node.next), state.names_free(node.prev));
        let merge = MERGES[usize::from(takes_next) + 2 * usize::from(goes_to_prev)];
        counts.hit(&merge_name(merge, LEVELS[levels.min(1)], ORIENTATIONS[node.orientation()]));
        let next = if takes_next { state.at(node.next).next } else { node.next };
        let prev = if goes_to_prev { state.at(node.prev).prev } else { node.prev };
        let alone = next == NONE && prev == NONE;
        if alone && node.parent != NONE {
            slot = node.parent;
            levels += 1;
            continue;
        }
        counts.hit(match (alone, node.parent == NONE) {
            (true, _) => "climb ends alone at the top",
            (false, true) => "climb ends in a top chain of several",
            (false, false) => "climb ends inside a container",
        });
        counts.hit_if(
            levels > 1 && !alone && node.parent == NONE,
            "climb of several levels ends in a top chain of several",
        );
        counts.hit_if(alone, &lone_end_name(ORIENTATIONS[node.orientation()]));
        counts.hit_if(alone && state.root != 0, "climb ends alone at a root other than 0");
        break;
    }
    counts.hit(&if levels < 4 { format!("climb of {levels} levels") } else { "climb of 4 levels or more".to_string() });
    counts.reach("most levels of a climb", levels);
}

/// The shape of a grow.
pub fn growth(counts: &mut Counts, state: &State, size: Size) {
    let root = state.at(state.root);
    let name = ORIENTATIONS[root.orientation()];
    if root.is_free() && root.rect.size() == state.size {
        counts.hit(&growth_name("lone root", name));
        counts.hit_if(size == state.size, &growth_name("lone root to the same size", name));
        moved_entry(counts, state, state.root, size);
        return;
    }
    let wider = size.width - state.size.width;
    let taller = size.height - state.size.height;
    let (along, across) = if root.orientation() == 1 { (wider, taller) } else { (taller, wider) };
    let mut last = state.root;
    while state.at(last).next != NONE {
        last = state.at(last).next;
    }
    let shape = match (along > 0, state.at(last).is_free(), across > 0) {
        (false, _, false) => "nothing",
        (false, _, true) => "across",
        (true, true, false) => "stretch",
        (true, true, true) => "stretch and across",
        (true, false, false) => "append",
        (true, false, true) => "append and across",
    };
    counts.hit(&growth_name(shape, name));
    if along > 0 {
        match state.at(last).kind() {
            NodeKind::Container => counts.hit("grow appends after a container"),
            NodeKind::Alloc => counts.hit("grow appends after an alloc"),
            _ => {
                let mut grown = state.at(last).rect.size();
                if root.orientation() == 1 {
                    grown.width += along;
                } else {
                    grown.height += along;
                }
                moved_entry(counts, state, last, grown);
            }
        }
    }
    counts.hit_if(across > 0 && last != state.root, "grow across over a chain of several");
}

/// The entry that a grow moves: the first of the slot's, small bucket first.
fn moved_entry(counts: &mut Counts, state: &State, slot: u32, grown: Size) {
    let held: Vec<usize> = (0..3).filter(|bucket| state.lists[*bucket].contains(&slot)).collect();
    let from = &state.lists[held[0]];
    counts.hit_if(state.bucket(grown) != held[0], "grow moves an entry to another bucket");
    counts.hit_if(held.len() > 1, "grow moves an entry whose slot is in two buckets");
    let repeats = from.iter().filter(|entry| **entry == slot).count();
    counts.hit_if(repeats > 1, "grow moves an entry whose slot has others in its bucket");
    counts.hit_if(from.last() != Some(&slot), "grow moves an entry that is not last");
}
