//! The library beside the crate, within the premises of docs/ORACLE.md.

use crate::call::{ours, Call, Setup};
use crate::fenced::Sheet;
use model::tables::{Tables, BUCKETS};
use oracle::premises::{self, candidate_areas, MOST_AREA};
use oracle::view::{state, steps, AllocId, NodeKind, State, NONE};
use oracle::{size2, AllocatorOptions, AtlasAllocator, Rectangle};

/// What was compared.
#[derive(Clone, Copy, Debug, Default)]
pub struct Counts {
    pub calls: usize,
    pub placed: usize,
    /// Answered by 6, and by 4.
    pub refused: usize,
    pub freed: usize,
    pub grown: usize,
    /// Cleared and reset.
    pub begun: usize,
    /// Lookups and listings.
    pub asked: usize,
    /// States with one free rectangle, after something was freed.
    pub emptied: usize,
    /// Slots whose generation came round to 0.
    pub wrapped: usize,
    /// Placed with no piece left over.
    pub exact: usize,
    /// Cuts with an area past the crate's cap.
    pub past_cap: usize,
    pub most_slots: usize,
    pub most_entries: usize,
}

impl Counts {
    pub fn add(&mut self, other: &Counts) {
        self.calls += other.calls;
        self.placed += other.placed;
        self.refused += other.refused;
        self.freed += other.freed;
        self.grown += other.grown;
        self.begun += other.begun;
        self.asked += other.asked;
        self.emptied += other.emptied;
        self.wrapped += other.wrapped;
        self.exact += other.exact;
        self.past_cap += other.past_cap;
        self.most_slots = self.most_slots.max(other.most_slots);
        self.most_entries = self.most_entries.max(other.most_entries);
    }
}

fn crate_options(setup: &Setup) -> AllocatorOptions {
    AllocatorOptions {
        alignment: size2(setup.options.align_width, setup.options.align_height),
        small_size_threshold: setup.options.small,
        large_size_threshold: setup.options.large,
    }
}

fn corners(place: &Rectangle) -> [u32; 4] {
    [place.min.x, place.min.y, place.max.x, place.max.y].map(|corner| corner as u32)
}

/// A sheet of the library's and an atlas of the crate's that have had the same calls.
#[derive(Clone)]
pub struct Beside {
    ours: Sheet,
    atlas: AtlasAllocator,
    /// The atlas's state, as the last comparison saw it.
    pub seen: State,
    pub counts: Counts,
}

impl Beside {
    /// Both begin; ours in tables of so many slots and entries that hold these bytes all over.
    pub fn start(setup: Setup, slots: usize, entries: usize, bytes: u8) -> Beside {
        let size = size2(setup.width, setup.height);
        premises::setup(size, &crate_options(&setup));
        let mut tables = Tables::zero(slots, entries);
        let word = u32::from_ne_bytes([bytes; 4]);
        tables.words.fill(word);
        tables.generations.fill(bytes);
        tables.lists.iter_mut().for_each(|list| list.fill(word));
        let mut sheet = Sheet::of(&tables);
        assert_eq!(ours(&mut sheet, Call::Start(setup)), [0]);
        let atlas = AtlasAllocator::with_options(size, &crate_options(&setup));
        let mut beside = Beside { ours: sheet, seen: state(&atlas), atlas, counts: Counts::default() };
        beside.compare();
        beside
    }

    /// Whether as many slots are spare as any call needs: four.
    pub fn has_slots(&self) -> bool {
        let unused = self.seen.slots.iter().filter(|slot| slot.kind() == NodeKind::Unused).count();
        self.seen.slots.len() - unused + 4 <= self.ours.generations().len()
    }

    /// Whether each list has room for what any call pushes: two entries, and one more that grow moves. Then none is swept.
    pub fn has_entries(&self) -> bool {
        BUCKETS.iter().all(|&bucket| self.seen.lists[bucket].len() + 3 <= self.ours.list(bucket).len())
    }

    /// Makes one call on both sides, and compares. Gives what both answered.
    pub fn make(&mut self, call: Call) -> Vec<u32> {
        let theirs = self.theirs(call);
        assert_eq!(ours(&mut self.ours, call), theirs, "the answer");
        self.counts.calls += 1;
        self.compare();
        theirs
    }

    /// The crate's answer, as 01 numbers it, after the premises of the call are seen to hold.
    fn theirs(&mut self, call: Call) -> Vec<u32> {
        match call {
            Call::Allocate(width, height) => self.allocate(width, height),
            Call::Deallocate(ticket) => {
                premises::live(&self.seen, ticket);
                self.atlas.deallocate(AllocId::deserialize(ticket));
                self.counts.freed += 1;
                self.counts.emptied += usize::from(self.atlas.is_empty());
                vec![0]
            }
            Call::Grow(width, height) => {
                premises::growth(&self.seen, size2(width, height));
                self.atlas.grow(size2(width, height));
                self.counts.grown += 1;
                vec![0]
            }
            Call::Clear => {
                self.atlas.clear();
                self.counts.begun += 1;
                vec![0]
            }
            Call::Reset(setup) => {
                let size = size2(setup.width, setup.height);
                premises::setup(size, &crate_options(&setup));
                self.atlas.reset(size, &crate_options(&setup));
                self.counts.begun += 1;
                vec![0]
            }
            Call::Lookup(ticket) => {
                premises::live(&self.seen, ticket);
                self.counts.asked += 1;
                [&[0][..], &corners(&self.atlas[AllocId::deserialize(ticket)])].concat()
            }
            Call::ListAllocated(_) => {
                let mut told = vec![0, 0];
                self.atlas.for_each_allocated_rectangle(|id, place| {
                    told[1] += 1;
                    told.push(id.serialize());
                    told.extend(corners(place));
                });
                self.counts.asked += 1;
                told
            }
            Call::ListFree(_) => {
                let mut told = vec![0, 0];
                self.atlas.for_each_free_rectangle(|place| {
                    told[1] += 1;
                    told.extend(corners(place));
                });
                self.counts.asked += 1;
                told
            }
            Call::Start(_) | Call::IsEmpty | Call::Size | Call::Check => panic!("compared after each call"),
        }
    }

    fn allocate(&mut self, width: i32, height: i32) -> Vec<u32> {
        let request = size2(width, height);
        if !request.is_empty() {
            let rounded = premises::rounded(&self.seen, request);
            self.counts.past_cap += usize::from(self.is_past_cap(rounded));
        }
        match self.atlas.allocate(request) {
            Some(given) => {
                self.counts.placed += 1;
                let place = self.seen.slots.get((given.id.serialize() & 0x00FF_FFFF) as usize);
                let whole = place.is_some_and(|slot| slot.kind() == NodeKind::Free && slot.rect == given.rectangle);
                self.counts.exact += usize::from(whole);
                [&[0, given.id.serialize()][..], &corners(&given.rectangle)].concat()
            }
            None => {
                self.counts.refused += 1;
                vec![if request.is_empty() { 4 } else { 6 }, 0, 0, 0, 0, 0]
            }
        }
    }

    /// Whether a candidate of the cut that comes now has an area past the crate's cap. Only a sheet that has one itself is looked at.
    fn is_past_cap(&self, rounded: oracle::Size) -> bool {
        if i64::from(self.seen.size.width) * i64::from(self.seen.size.height) <= MOST_AREA {
            return false;
        }
        let chosen = steps::find_suitable_rect(&mut self.atlas.clone(), rounded);
        if chosen == NONE {
            return false;
        }
        let (right, bottom) = candidate_areas(&self.seen.at(chosen).rect, rounded);
        right.max(bottom) > MOST_AREA
    }

    /// Everything that both hold, and that ours is sound.
    fn compare(&mut self) {
        let before = std::mem::replace(&mut self.seen, state(&self.atlas));
        let (seen, head) = (&self.seen, self.ours.head());
        assert_eq!(head.count as usize, seen.slots.len(), "n");
        for (number, slot) in seen.slots.iter().enumerate() {
            let [x0, y0, x1, y1] = corners(&slot.rect);
            let theirs = [slot.parent, slot.next, slot.prev, slot.code, x0, y0, x1, y1];
            assert_eq!(self.ours.words()[8 * number..8 * number + 8], theirs, "slot {number}");
        }
        assert_eq!(self.ours.generations()[..seen.slots.len()], seen.generations, "generations");
        let rounds = before.generations.iter().zip(&seen.generations);
        self.counts.wrapped += rounds.filter(|&generations| generations == (&255, &0)).count();
        for bucket in BUCKETS {
            let entries = &self.ours.list(bucket)[..head.lengths[bucket] as usize];
            assert_eq!(entries, seen.lists[bucket], "list {bucket}");
            self.counts.most_entries = self.counts.most_entries.max(entries.len());
        }
        assert_eq!((head.root, head.spare), (seen.root, seen.spare), "root and spare chain");
        assert_eq!((head.width, head.height), (seen.size.width, seen.size.height), "sheet");
        let (options, theirs) = (head.options, &seen.options);
        let (align, thresholds) = ((options.align_width, options.align_height), (options.small, options.large));
        assert_eq!(align, (theirs.alignment.width, theirs.alignment.height), "alignment");
        assert_eq!(thresholds, (theirs.small_size_threshold, theirs.large_size_threshold), "thresholds");
        let size = [0, seen.size.width as u32, seen.size.height as u32];
        self.counts.most_slots = self.counts.most_slots.max(seen.slots.len());
        assert_eq!(ours(&mut self.ours, Call::Size), size);
        assert_eq!(ours(&mut self.ours, Call::IsEmpty), [0, self.atlas.is_empty().into()], "emptiness");
        assert_eq!(ours(&mut self.ours, Call::Check), [0], "ours is sound");
    }

    /// The live tickets, in slot order.
    pub fn tickets(&self) -> Vec<u32> {
        let mut tickets = Vec::new();
        self.atlas.for_each_allocated_rectangle(|id, _| tickets.push(id.serialize()));
        tickets
    }

    /// Compares both listings, in lists just long enough.
    pub fn list(&mut self) {
        let of = |kind| self.seen.slots.iter().filter(|slot| slot.kind() == kind).count();
        let (allocated, free) = (of(NodeKind::Alloc), of(NodeKind::Free));
        self.make(Call::ListAllocated(5 * allocated));
        self.make(Call::ListFree(4 * free));
    }
}
