//! The boundary: the tables of one sheet, and the proved calls on them. The only module with unsafe code.
//!
//! Each function declared here is one of crates/ferrunchju/src/lib.rt, in libferrunchju.a, with the same parameters: a slice is a pointer and a
//! length, a reference to so many words is a pointer, a number is a number. None has a `requires`, so none asks anything of the numbers that
//! it is given or of what stands in the tables: each is proved, whatever arrives, to read and write only what it is lent, and to end. What is
//! left for a caller to see to, and why each call here does:
//!
//! - Each pointer is good for its length. It is taken from a boxed slice together with that slice's own length, or from a reference to a
//!   value of so many words: `Head` has 12, `Allocation` 5, `Rectangle` 4, `Size` 2. Each is `repr(C)` and made of 32-bit numbers alone, so
//!   that it has no gaps, and any bits are a value of it.
//! - What is written is lent to one call alone, and nothing that is lent overlaps. The five tables are boxes of their own, the head is a field,
//!   and what a call hands over is a local; a call that writes the tables has `&mut self`, and one that reads them `&self`.
//! - Nothing is kept: no call stores a pointer or calls back, and none unwinds.
//! - There is stack enough: 450 KiB at most (docs/MEASURES.md of the repository), where a thread of Rust's has 2 MiB.
#![allow(unsafe_code)]

use crate::answers::{answered, Refusal};
use crate::geometry::{Rectangle, Size};
use crate::{AllocId, Allocation, AllocatorOptions};

/// The most slots that a sheet can have.
pub(crate) const MOST_SLOTS: usize = 4_096;

/// The most entries that a free list can have.
pub(crate) const MOST_ENTRIES: usize = 16_384;

/// What is kept beside the tables, in twelve numbers.
#[repr(C)]
#[derive(Copy, Clone, Default)]
struct Head {
    width: i32,
    height: i32,
    alignment_width: i32,
    alignment_height: i32,
    small_threshold: i32,
    large_threshold: i32,
    root: u32,
    spare: u32,
    count: u32,
    small_length: u32,
    medium_length: u32,
    large_length: u32,
}

/// One sheet: the five tables, and the head. Only the calls write them.
#[derive(Clone)]
pub(crate) struct Tables {
    words: Box<[u32]>,
    generations: Box<[u8]>,
    small: Box<[u32]>,
    medium: Box<[u32]>,
    large: Box<[u32]>,
    head: Head,
}

/// Declares calls that are lent the tables and the head: `writes` ones to write them, `reads` ones to read them.
macro_rules! calls {
    ($($lent:ident fn $name:ident($($more:ident: $kind:ty),*);)*) => { $(calls!(@ $lent $name($($more: $kind),*));)* };
    (@ writes $name:ident($($more:ident: $kind:ty),*)) => {
        extern "C" {
            fn $name(
                words: *mut u32, words_length: usize, generations: *mut u8, generations_length: usize,
                small: *mut u32, small_length: usize, medium: *mut u32, medium_length: usize,
                large: *mut u32, large_length: usize, head: *mut Head $(, $more: $kind)*
            ) -> u32;
        }
    };
    (@ reads $name:ident($($more:ident: $kind:ty),*)) => {
        extern "C" {
            fn $name(
                words: *const u32, words_length: usize, generations: *const u8, generations_length: usize,
                small: *const u32, small_length: usize, medium: *const u32, medium_length: usize,
                large: *const u32, large_length: usize, head: *const Head $(, $more: $kind)*
            ) -> u32;
        }
    };
}

calls! {
    writes fn ferrunchju_start(width: i32, height: i32, alignment_width: i32, alignment_height: i32, small_threshold: i32, large_threshold: i32);
    writes fn ferrunchju_reset(width: i32, height: i32, alignment_width: i32, alignment_height: i32, small_threshold: i32, large_threshold: i32);
    writes fn ferrunchju_clear();
    writes fn ferrunchju_allocate(width: i32, height: i32, out: *mut Allocation);
    writes fn ferrunchju_deallocate(ticket: u32);
    writes fn ferrunchju_grow(width: i32, height: i32);
    reads fn ferrunchju_lookup(ticket: u32, out: *mut Rectangle);
    reads fn ferrunchju_list_allocated(list: *mut u32, list_length: usize, count: *mut u32);
    reads fn ferrunchju_list_free(list: *mut u32, list_length: usize, count: *mut u32);
    reads fn ferrunchju_is_empty(empty: *mut u32);
    reads fn ferrunchju_check();
}

extern "C" {
    fn ferrunchju_size(head: *const Head, out: *mut Size);
}

/// Lends the tables and the head to a call that writes them (or, of deallocate's generations, that reads them).
macro_rules! lend_to_write {
    ($name:ident, $tables:expr $(, $more:expr)*) => {{
        let lent: &mut Tables = $tables;
        // SAFETY: the head of this module. The pointers come with their own slices' lengths, from a `&mut Tables`.
        answered(unsafe {
            $name(
                lent.words.as_mut_ptr(), lent.words.len(), lent.generations.as_mut_ptr(), lent.generations.len(),
                lent.small.as_mut_ptr(), lent.small.len(), lent.medium.as_mut_ptr(), lent.medium.len(),
                lent.large.as_mut_ptr(), lent.large.len(), &mut lent.head $(, $more)*
            )
        })
    }};
}

/// Lends the tables and the head to a call that reads them.
macro_rules! lend_to_read {
    ($name:ident, $tables:expr $(, $more:expr)*) => {{
        let lent: &Tables = $tables;
        // SAFETY: the head of this module. The pointers come with their own slices' lengths, from a `&Tables`.
        answered(unsafe {
            $name(
                lent.words.as_ptr(), lent.words.len(), lent.generations.as_ptr(), lent.generations.len(),
                lent.small.as_ptr(), lent.small.len(), lent.medium.as_ptr(), lent.medium.len(),
                lent.large.as_ptr(), lent.large.len(), &lent.head $(, $more)*
            )
        })
    }};
}

impl Tables {
    /// Tables for so many slots, with free lists of so many entries each, and no sheet yet.
    pub(crate) fn with_capacity(slots: usize, entries: usize) -> Result<Self, Refusal> {
        if slots > MOST_SLOTS || entries > MOST_ENTRIES {
            return Err(Refusal::TableLength);
        }
        let list = || vec![0; entries].into_boxed_slice();
        Ok(Tables {
            words: vec![0; slots * 8].into_boxed_slice(),
            generations: vec![0; slots].into_boxed_slice(),
            small: list(),
            medium: list(),
            large: list(),
            head: Head::default(),
        })
    }

    pub(crate) fn start(&mut self, size: Size, options: &AllocatorOptions) -> Result<(), Refusal> {
        let AllocatorOptions { alignment, small_size_threshold: small, large_size_threshold: large } = *options;
        lend_to_write!(ferrunchju_start, self, size.width, size.height, alignment.width, alignment.height, small, large)
    }

    pub(crate) fn reset(&mut self, size: Size, options: &AllocatorOptions) -> Result<(), Refusal> {
        let AllocatorOptions { alignment, small_size_threshold: small, large_size_threshold: large } = *options;
        lend_to_write!(ferrunchju_reset, self, size.width, size.height, alignment.width, alignment.height, small, large)
    }

    pub(crate) fn clear(&mut self) -> Result<(), Refusal> {
        lend_to_write!(ferrunchju_clear, self)
    }

    pub(crate) fn allocate(&mut self, size: Size) -> Result<Allocation, Refusal> {
        let mut got = Allocation { id: AllocId(0), rectangle: Rectangle::zero() };
        lend_to_write!(ferrunchju_allocate, self, size.width, size.height, &mut got)?;
        Ok(got)
    }

    pub(crate) fn deallocate(&mut self, id: AllocId) -> Result<(), Refusal> {
        lend_to_write!(ferrunchju_deallocate, self, id.0)
    }

    pub(crate) fn grow(&mut self, size: Size) -> Result<(), Refusal> {
        lend_to_write!(ferrunchju_grow, self, size.width, size.height)
    }

    pub(crate) fn lookup(&self, id: AllocId) -> Result<Rectangle, Refusal> {
        let mut found = Rectangle::zero();
        lend_to_read!(ferrunchju_lookup, self, id.0, &mut found)?;
        Ok(found)
    }

    /// The rectangle of a live ticket, where it stands in the slot table: words 4 to 7 of its slot.
    pub(crate) fn place(&self, id: AllocId) -> Result<&Rectangle, Refusal> {
        let found = self.lookup(id)?;
        let first = (id.0 & 0x00FF_FFFF) as usize * 8 + 4;
        let corners = &self.words[first..first + 4];
        // SAFETY: four words of a shared slice, which the result borrows as `self` does. A `Rectangle` is `repr(C)` and four i32, which have
        // the size and the alignment of four u32, and any bits are a value of it.
        let place = unsafe { &*corners.as_ptr().cast::<Rectangle>() };
        debug_assert_eq!(*place, found);
        Ok(place)
    }

    /// The allocated rectangles with their tickets, in slot order: five words each, ticket and corners.
    pub(crate) fn list_allocated(&self) -> Result<Vec<u32>, Refusal> {
        let mut list = vec![0; self.head.count as usize * 5];
        let mut count = 0;
        lend_to_read!(ferrunchju_list_allocated, self, list.as_mut_ptr(), list.len(), &mut count)?;
        list.truncate(count as usize * 5);
        Ok(list)
    }

    /// The free rectangles, in slot order: four words each, the corners.
    pub(crate) fn list_free(&self) -> Result<Vec<u32>, Refusal> {
        let mut list = vec![0; self.head.count as usize * 4];
        let mut count = 0;
        lend_to_read!(ferrunchju_list_free, self, list.as_mut_ptr(), list.len(), &mut count)?;
        list.truncate(count as usize * 4);
        Ok(list)
    }

    pub(crate) fn is_empty(&self) -> Result<bool, Refusal> {
        let mut empty = 0;
        lend_to_read!(ferrunchju_is_empty, self, &mut empty)?;
        Ok(empty == 1)
    }

    pub(crate) fn size(&self) -> Size {
        let mut size = Size::zero();
        // SAFETY: the head of this module. Both are references to values of the words that the call is for.
        unsafe { ferrunchju_size(&self.head, &mut size) };
        size
    }

    pub(crate) fn check(&self) -> Result<(), Refusal> {
        lend_to_read!(ferrunchju_check, self)
    }

    /// How many slots, and how many entries in a free list, there are tables for.
    pub(crate) fn capacity(&self) -> (usize, usize) {
        (self.generations.len(), self.small.len())
    }
}

#[cfg(test)]
mod tests {
    use super::*;
    use crate::{size2, DEFAULT_OPTIONS};
    use std::mem::{align_of, size_of};

    #[test]
    fn the_words_that_cross() {
        assert_eq!((size_of::<Head>(), align_of::<Head>()), (48, 4));
        assert_eq!((size_of::<Allocation>(), align_of::<Allocation>()), (20, 4));
        assert_eq!((size_of::<Rectangle>(), align_of::<Rectangle>()), (16, 4));
        assert_eq!((size_of::<Size>(), align_of::<Size>()), (8, 4));
    }

    fn begun() -> Tables {
        let mut tables = Tables::with_capacity(16, 16).expect("tables");
        tables.start(size2(1000, 1000), &DEFAULT_OPTIONS).expect("a sheet");
        tables
    }

    #[test]
    fn lengths_out_of_range_are_refused() {
        for (slots, entries) in [(MOST_SLOTS + 1, MOST_ENTRIES), (1, MOST_ENTRIES + 1), (usize::MAX, usize::MAX)] {
            assert_eq!(Tables::with_capacity(slots, entries).err(), Some(Refusal::TableLength));
        }
        for (slots, entries) in [(0, 16), (16, 15)] {
            let mut tables = Tables::with_capacity(slots, entries).expect("tables");
            assert_eq!(tables.check(), Err(Refusal::TableLength));
            assert_eq!(tables.start(size2(10, 10), &DEFAULT_OPTIONS), Err(Refusal::TableLength));
            assert_eq!(tables.head.count, 0);
        }
    }

    #[test]
    fn a_negative_threshold_keeps_its_sign() {
        let mut tables = Tables::with_capacity(1, 1).expect("tables");
        let options = AllocatorOptions { small_size_threshold: i32::MIN, large_size_threshold: -7, ..DEFAULT_OPTIONS };
        assert_eq!(tables.start(size2(10, 10), &options), Ok(()));
        assert_eq!((tables.head.small_threshold, tables.head.large_threshold), (i32::MIN, -7));
        assert_eq!((tables.head.small_length, tables.head.medium_length, tables.head.large_length), (0, 0, 1));
        assert_eq!(tables.clear(), Ok(()));
        assert_eq!((tables.head.small_threshold, tables.head.large_threshold), (i32::MIN, -7));
    }

    /// Every call but start, reset and clear says 2 to tables that are not sound, and changes nothing.
    #[test]
    fn damage_is_found() {
        let mut tables = begun();
        let id = tables.allocate(size2(100, 1000)).expect("a rectangle").id;
        tables.words[8 + 4] += 1;
        let kept = tables.clone();
        assert_eq!(tables.check(), Err(Refusal::NotSound));
        assert_eq!(tables.allocate(size2(1, 1)), Err(Refusal::NotSound));
        assert_eq!(tables.deallocate(id), Err(Refusal::NotSound));
        assert_eq!(tables.grow(size2(2000, 2000)), Err(Refusal::NotSound));
        assert_eq!(tables.lookup(id), Err(Refusal::NotSound));
        assert_eq!(tables.list_allocated(), Err(Refusal::NotSound));
        assert_eq!(tables.list_free(), Err(Refusal::NotSound));
        assert_eq!(tables.is_empty(), Err(Refusal::NotSound));
        assert_eq!(tables.size(), size2(1000, 1000));
        assert_eq!((&tables.words, &tables.generations), (&kept.words, &kept.generations));
        assert_eq!((&tables.small, &tables.medium, &tables.large), (&kept.small, &kept.medium, &kept.large));
        assert_eq!((tables.head.root, tables.head.count), (kept.head.root, kept.head.count));
        assert_eq!(tables.clear(), Ok(()));
        assert_eq!(tables.check(), Ok(()));
    }

    /// Indexing reads the slot table where the lookup does.
    #[test]
    fn a_place_is_the_rectangle() {
        let mut tables = begun();
        for size in [size2(100, 1000), size2(900, 200), size2(300, 200)] {
            let got = tables.allocate(size).expect("a rectangle");
            assert_eq!(tables.place(got.id), Ok(&got.rectangle));
        }
        assert_eq!(tables.place(AllocId(5)), Err(Refusal::NotAllocated));
    }
}
