//! One atlas on the list: makes each call with the crate, asserts the premises, counts the branches, and has the call
//! written down.

use crate::coverage;
use crate::record::{answer, corners, setup_words, tag, List, SEARCH_SHOWN};
use crate::view::{self, steps, State};
use crate::{premises, size2, AllocatorOptions, AtlasAllocator, Rectangle, Size, DEFAULT_OPTIONS};

/// One atlas from its start to the next start.
pub struct Day<'a> {
    list: &'a mut List,
    atlas: AtlasAllocator,
    /// The same atlas with dead entries dropped after each call: a shortcut that 01 warns of. Where it answers otherwise
    /// the list has caught it, and it starts again from the true atlas.
    shortcut: AtlasAllocator,
}

impl Day<'_> {
    /// Starts a new atlas on the list.
    pub fn start<'a>(list: &'a mut List, size: Size, options: &AllocatorOptions) -> Day<'a> {
        premises::setup(size, options);
        coverage::setup(&mut list.counts, options);
        list.open(size, options);
        let atlas = AtlasAllocator::with_options(size, options);
        let mut day = Day { list, shortcut: atlas.clone(), atlas };
        day.close();
        day
    }

    /// Starts a new atlas of this size with the crate's default options.
    pub fn plain(list: &mut List, width: i32, height: i32) -> Day<'_> {
        Day::start(list, size2(width, height), &DEFAULT_OPTIONS)
    }

    pub fn state(&self) -> State {
        view::state(&self.atlas)
    }

    pub fn size(&self) -> Size {
        self.atlas.size()
    }

    pub fn is_empty(&self) -> bool {
        self.atlas.is_empty()
    }

    /// The live tickets, in slot order.
    pub fn tickets(&self) -> Vec<u32> {
        let mut tickets = Vec::new();
        self.atlas.for_each_allocated_rectangle(|id, _| tickets.push(id.serialize()));
        tickets
    }

    /// Ticket and rectangle, or nothing where the crate gives None.
    pub fn allocate(&mut self, width: i32, height: i32) -> Option<(u32, Rectangle)> {
        let request = size2(width, height);
        let before = self.state();
        if !request.is_empty() {
            self.search(&before, premises::rounded(&before, request));
        }
        let given = self.atlas.allocate(request);
        if self.shortcut.allocate(request) != given {
            self.list.counts.hit("shortcut caught: dead entries dropped early");
            self.shortcut = self.atlas.clone();
        }
        let mut words = vec![width as u32, height as u32];
        match &given {
            Some(allocation) => {
                words.extend([answer::DONE, allocation.id.serialize()]);
                words.extend(corners(&allocation.rectangle));
            }
            None => {
                words.push(if request.is_empty() { answer::SIDE } else { answer::NO_SPACE });
                words.extend([0; 5]);
            }
        }
        self.list.counts.hit(&format!("allocate answers {}", words[2]));
        self.list.line(tag::ALLOCATE, &words);
        self.close_after(&before);
        given.map(|allocation| (allocation.id.serialize(), allocation.rectangle))
    }

    /// Counts what the search and the cut will do, and writes the search out while the atlas is small.
    fn search(&mut self, before: &State, rounded: Size) {
        let mut tried = self.atlas.clone();
        let chosen = steps::find_suitable_rect(&mut tried, rounded);
        coverage::search::count(&mut self.list.counts, before, rounded, chosen);
        coverage::cut(&mut self.list.counts, before, rounded, chosen);
        if before.slots.len() <= SEARCH_SHOWN {
            self.list.counts.hit("search written out");
            self.list.line(tag::SEARCH, &[rounded.width as u32, rounded.height as u32, chosen]);
            for (bucket, entries) in view::state(&tried).lists.iter().enumerate() {
                let mut words = vec![bucket as u32, entries.len() as u32];
                words.extend(entries);
                self.list.line(tag::SEARCHED_LIST, &words);
            }
        }
    }

    pub fn deallocate(&mut self, ticket: u32) {
        let before = self.state();
        premises::live(&before, ticket);
        coverage::climb(&mut self.list.counts, &before, ticket & 0x00FF_FFFF);
        self.list.line(tag::DEALLOCATE, &[ticket]);
        self.both(|atlas| atlas.deallocate(view::AllocId::deserialize(ticket)));
        self.close_after(&before);
    }

    pub fn grow(&mut self, width: i32, height: i32) {
        let before = self.state();
        premises::growth(&before, size2(width, height));
        coverage::growth(&mut self.list.counts, &before, size2(width, height));
        self.list.line(tag::GROW, &[width as u32, height as u32]);
        self.both(|atlas| atlas.grow(size2(width, height)));
        self.close_after(&before);
    }

    pub fn clear(&mut self) {
        self.list.counts.hit("clear");
        self.list.line(tag::CLEAR, &[]);
        self.both(AtlasAllocator::clear);
        self.close();
    }

    pub fn reset(&mut self, size: Size, options: &AllocatorOptions) {
        premises::setup(size, options);
        coverage::setup(&mut self.list.counts, options);
        self.list.counts.hit("reset");
        self.list.line(tag::RESET, &setup_words(size, options));
        self.both(|atlas| atlas.reset(size, options));
        self.close();
    }

    fn both(&mut self, call: impl Fn(&mut AtlasAllocator)) {
        call(&mut self.atlas);
        call(&mut self.shortcut);
    }

    /// Counts the new slots of a call and closes it.
    fn close_after(&mut self, before: &State) {
        let (after, seen) = (self.state(), self.list.slots_seen());
        coverage::new_slots(&mut self.list.counts, before, &after, seen);
        self.close();
    }

    /// Writes what the call changed and whether the atlas is empty now.
    fn close(&mut self) {
        let state = self.state();
        premises::room(&state);
        let empty = self.atlas.is_empty();
        coverage::size(&mut self.list.counts, &state, empty);
        self.list.close(&state, empty);
        steps::drop_dead_entries(&mut self.shortcut);
    }

    /// Allocates where there must be space; gives the ticket.
    pub fn take(&mut self, width: i32, height: i32) -> u32 {
        self.allocate(width, height).expect("there is space").0
    }

    pub fn take_all<const N: usize>(&mut self, requests: [(i32, i32); N]) -> [u32; N] {
        requests.map(|(width, height)| self.take(width, height))
    }

    pub fn free_all(&mut self, tickets: &[u32]) {
        for ticket in tickets {
            self.deallocate(*ticket);
        }
    }

    /// The whole sheet is free, can be taken, and then nothing is left. Gives the ticket.
    pub fn take_whole(&mut self) -> u32 {
        assert!(self.is_empty());
        let size = self.size();
        let (ticket, place) = self.allocate(size.width, size.height).expect("the whole sheet is free");
        assert_eq!(place, size.into());
        assert_eq!(self.allocate(1, 1), None);
        ticket
    }
}
