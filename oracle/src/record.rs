//! Writes the list: each call, the crate's answer, and what the call changed. docs/ORACLE.md has the format; `tag`
//! names its record numbers.

use crate::coverage::Counts;
use crate::view::{Slot, State};
use crate::{AllocatorOptions, Rectangle, Size};

/// The first number of each kind of line.
pub mod tag {
    pub const START: u32 = 1;
    pub const ALLOCATE: u32 = 2;
    pub const DEALLOCATE: u32 = 3;
    pub const GROW: u32 = 4;
    pub const CLEAR: u32 = 5;
    pub const RESET: u32 = 6;
    pub const SEARCHED_LIST: u32 = 7;
    pub const SEARCH: u32 = 8;
    pub const CLOSE: u32 = 9;
    pub const SLOT: u32 = 10;
    pub const GENERATION: u32 = 11;
    pub const LENGTH: u32 = 12;
    pub const ENTRY: u32 = 13;
    pub const HEAD: u32 = 14;
    pub const BUCKET_OF: u32 = 20;
    pub const ROUNDING: u32 = 21;
    pub const CUT: u32 = 22;
}

/// The answers of 01 that the list can hold.
pub mod answer {
    pub const DONE: u32 = 0;
    pub const SIDE: u32 = 4;
    pub const NO_SPACE: u32 = 6;
}

/// A search is written out only while the atlas has at most this many slots.
pub const SEARCH_SHOWN: usize = 40;

/// What the list has said so far of this atlas, by slot and by place. Nothing said is ever taken back: clear, reset and
/// shrinking lists leave old words in the tables, and so they do here.
#[derive(Default)]
struct Said {
    slots: Vec<Option<Slot>>,
    generations: Vec<Option<u8>>,
    lengths: [Option<usize>; 3],
    entries: [Vec<Option<u32>>; 3],
    head: Option<(usize, u32, u32)>,
}

/// Notes the value at a place and tells whether it is news.
fn news<T: Copy + PartialEq>(said: &mut Vec<Option<T>>, place: usize, value: T) -> bool {
    if said.len() <= place {
        said.resize(place + 1, None);
    }
    let differs = said[place] != Some(value);
    said[place] = Some(value);
    differs
}

/// A rectangle as four words.
pub fn corners(rect: &Rectangle) -> [u32; 4] {
    [rect.min.x as u32, rect.min.y as u32, rect.max.x as u32, rect.max.y as u32]
}

/// A setup as six words.
pub fn setup_words(size: Size, options: &AllocatorOptions) -> [u32; 6] {
    [
        size.width as u32,
        size.height as u32,
        options.alignment.width as u32,
        options.alignment.height as u32,
        options.small_size_threshold as u32,
        options.large_size_threshold as u32,
    ]
}

/// The list as it grows.
#[derive(Default)]
pub struct List {
    pub text: String,
    pub counts: Counts,
    pub calls: usize,
    pub atlases: usize,
    said: Said,
}

impl List {
    /// One line: the tag and its words, with a space between.
    pub fn line(&mut self, tag: u32, words: &[u32]) {
        self.text.push_str(&tag.to_string());
        for word in words {
            self.text.push(' ');
            self.text.push_str(&word.to_string());
        }
        self.text.push('\n');
    }

    /// Opens a new atlas; what was said of the one before is forgotten.
    pub fn open(&mut self, size: Size, options: &AllocatorOptions) {
        self.said = Said::default();
        self.atlases += 1;
        self.line(tag::START, &setup_words(size, options));
    }

    /// How many slots this atlas has had at most, before a clear or a reset too.
    pub fn slots_seen(&self) -> usize {
        self.said.slots.len()
    }

    /// Closes a call: what it changed, and whether the atlas is empty now.
    pub fn close(&mut self, state: &State, empty: bool) {
        self.changes(state);
        self.line(tag::CLOSE, &[u32::from(empty)]);
        self.calls += 1;
    }

    /// Writes what of the state has not been said yet.
    fn changes(&mut self, state: &State) {
        for (place, slot) in state.slots.iter().enumerate() {
            if news(&mut self.said.slots, place, *slot) {
                let mut words = vec![place as u32, slot.parent, slot.next, slot.prev, slot.code];
                words.extend(corners(&slot.rect));
                self.line(tag::SLOT, &words);
            }
        }
        for (place, generation) in state.generations.iter().enumerate() {
            if news(&mut self.said.generations, place, *generation) {
                self.line(tag::GENERATION, &[place as u32, u32::from(*generation)]);
            }
        }
        for (bucket, entries) in state.lists.iter().enumerate() {
            if self.said.lengths[bucket] != Some(entries.len()) {
                self.said.lengths[bucket] = Some(entries.len());
                self.line(tag::LENGTH, &[bucket as u32, entries.len() as u32]);
            }
            for (place, entry) in entries.iter().enumerate() {
                if news(&mut self.said.entries[bucket], place, *entry) {
                    self.line(tag::ENTRY, &[bucket as u32, place as u32, *entry]);
                }
            }
        }
        let head = (state.slots.len(), state.root, state.spare);
        if self.said.head != Some(head) {
            self.said.head = Some(head);
            self.line(tag::HEAD, &[head.0 as u32, head.1, head.2]);
        }
    }
}
