//! The allocator by guillotiere's names.

use crate::calls::{Tables, MOST_ENTRIES, MOST_SLOTS};
use crate::geometry::{point2, size2, Rectangle, Size};
use crate::Refusal;

/// ID referring to an allocated rectangle: the paper's ticket, slot + generation × 16,777,216.
#[repr(C)]
#[derive(Copy, Clone, Debug, PartialEq, Eq, Hash)]
pub struct AllocId(pub(crate) u32);

impl AllocId {
    /// The number, all 32 bits of it: a ticket that lost some may be another's.
    pub fn serialize(&self) -> u32 {
        self.0
    }

    /// The ticket of a number. Whether it is live, the calls say.
    pub fn deserialize(bytes: u32) -> Self {
        AllocId(bytes)
    }
}

/// Options to tweak the behaviour of the atlas allocator.
#[repr(C)]
#[derive(Copy, Clone, Debug, PartialEq, Eq, Hash)]
pub struct AllocatorOptions {
    /// Sizes are rounded up to multiples of this one, whose sides are above zero.
    ///
    /// Default value: (1, 1).
    pub alignment: Size,

    /// From this side on a rectangle is medium; at most `large_size_threshold`.
    ///
    /// Default value: 32.
    pub small_size_threshold: i32,

    /// From this side on a rectangle is large; at least `small_size_threshold`.
    ///
    /// Default value: 256.
    pub large_size_threshold: i32,
}

/// What [`AllocatorOptions`] are by default.
pub const DEFAULT_OPTIONS: AllocatorOptions =
    AllocatorOptions { alignment: size2(1, 1), small_size_threshold: 32, large_size_threshold: 256 };

impl Default for AllocatorOptions {
    fn default() -> Self {
        DEFAULT_OPTIONS
    }
}

/// What an allocation hands over: a ticket, and its rectangle.
#[repr(C)]
#[derive(Copy, Clone, Debug, PartialEq)]
pub struct Allocation {
    /// The ticket.
    pub id: AllocId,
    /// The rectangle that it is for.
    pub rectangle: Rectangle,
}

/// A dynamic texture atlas allocator: guillotiere's, over proved calls.
///
/// It owns its tables, and has room for so many slots as it was made for, 4,096 if nothing else is said. A slot is a rectangle, allocated or free,
/// or the container of others; an allocation takes up to four new ones, and freed ones are used again.
///
/// The names without `try_` are guillotiere's, and do as it does: [`allocate`](Self::allocate) gives `None` where there is no room, and a ticket or a
/// setup that is wrong ends in a panic. Those with `try_` give a [`Refusal`] instead, and never panic.
///
/// ```
/// use ferrunchju::*;
///
/// let mut atlas = AtlasAllocator::new(size2(1000, 1000));
/// let a = atlas.allocate(size2(100, 1000)).unwrap();
/// assert_eq!(a.id.serialize(), 2);
/// assert_eq!(a.rectangle, Rectangle::from(size2(100, 1000)));
/// assert_eq!(atlas[a.id], a.rectangle);
/// assert_eq!(atlas.try_allocate(size2(1000, 1)), Err(Refusal::NoSpace));
/// atlas.deallocate(a.id);
/// assert!(atlas.is_empty());
/// ```
#[derive(Clone)]
pub struct AtlasAllocator {
    tables: Tables,
}

/// What was handed over, or the panic that guillotiere's asserts would be.
fn done<T>(answer: Result<T, Refusal>) -> T {
    match answer {
        Ok(value) => value,
        Err(refusal) => panic!("{refusal}"),
    }
}

/// A rectangle from its four words. Corners are at most 2,147,483,647.
fn rectangle_of(corners: &[u32]) -> Rectangle {
    Rectangle::new(point2(corners[0] as i32, corners[1] as i32), point2(corners[2] as i32, corners[3] as i32))
}

impl AtlasAllocator {
    /// An allocator for a sheet of this size, with the default options.
    ///
    /// # Panics
    /// Where a side is 0 or less.
    pub fn new(size: Size) -> Self {
        AtlasAllocator::with_options(size, &DEFAULT_OPTIONS)
    }

    /// An allocator with the options given, and room for 4,096 slots.
    ///
    /// # Panics
    /// Where a side of the sheet or an alignment is 0 or less, or the large threshold is below the small one.
    pub fn with_options(size: Size, options: &AllocatorOptions) -> Self {
        done(AtlasAllocator::try_with_options(size, options))
    }

    /// The same, with a refusal in place of a panic: [`Refusal::InvalidSetup`].
    pub fn try_with_options(size: Size, options: &AllocatorOptions) -> Result<Self, Refusal> {
        AtlasAllocator::try_with_capacity(size, options, MOST_SLOTS, MOST_ENTRIES)
    }

    /// An allocator with room for so many slots, 1 to 4,096, and free lists of so many entries, as many as slots to 16,384. It takes 33 bytes a slot
    /// and 12 an entry. A free list keeps entries that are out of date, as guillotiere's does, until it is full; so one of 16,384 entries
    /// chooses as guillotiere would for longest.
    ///
    /// ```
    /// use ferrunchju::*;
    ///
    /// let ten = size2(10, 10);
    /// let mut atlas = AtlasAllocator::with_capacity(ten, &DEFAULT_OPTIONS, 4, 4);
    /// assert_eq!(atlas.try_allocate(size2(3, 6)), Err(Refusal::NoSlots));
    /// assert!(atlas.allocate(size2(4, 4)).is_some());
    /// ```
    ///
    /// # Panics
    /// As [`with_options`](Self::with_options), and where a number is out of range.
    pub fn with_capacity(size: Size, options: &AllocatorOptions, slots: usize, entries: usize) -> Self {
        done(AtlasAllocator::try_with_capacity(size, options, slots, entries))
    }

    /// The same, with a refusal in place of a panic: [`Refusal::TableLength`], [`Refusal::InvalidSetup`].
    pub fn try_with_capacity(
        size: Size,
        options: &AllocatorOptions,
        slots: usize,
        entries: usize,
    ) -> Result<Self, Refusal> {
        let mut tables = Tables::with_capacity(slots, entries)?;
        tables.start(size, options)?;
        Ok(AtlasAllocator { tables })
    }

    /// How many slots there is room for, and how many entries each free list can have.
    pub fn capacity(&self) -> (usize, usize) {
        self.tables.capacity()
    }

    /// The total size of the atlas.
    pub fn size(&self) -> Size {
        self.tables.size()
    }

    /// Allocates a rectangle, its size rounded up to the alignment; `None` where there is no free rectangle as wide and as tall, where too few
    /// slots are spare, and where a side is 0 or less or, rounded up, no i32.
    pub fn allocate(&mut self, requested_size: Size) -> Option<Allocation> {
        match self.try_allocate(requested_size) {
            Ok(allocation) => Some(allocation),
            Err(Refusal::NotPositive | Refusal::TooLarge | Refusal::NoSpace | Refusal::NoSlots) => None,
            Err(refusal) => panic!("{refusal}"),
        }
    }

    /// The same, with the reason: [`Refusal::NotPositive`], [`Refusal::TooLarge`], [`Refusal::NoSpace`], [`Refusal::NoSlots`].
    pub fn try_allocate(&mut self, requested_size: Size) -> Result<Allocation, Refusal> {
        self.tables.allocate(requested_size)
    }

    /// Frees an allocated rectangle.
    ///
    /// # Panics
    /// Where the ticket is not live.
    pub fn deallocate(&mut self, node_id: AllocId) {
        done(self.try_deallocate(node_id))
    }

    /// The same, with a refusal in place of a panic: [`Refusal::NoSuchSlot`], [`Refusal::OtherGeneration`], [`Refusal::NotAllocated`].
    pub fn try_deallocate(&mut self, node_id: AllocId) -> Result<(), Refusal> {
        self.tables.deallocate(node_id)
    }

    /// Whether nothing is allocated: one free rectangle is the whole sheet.
    pub fn is_empty(&self) -> bool {
        done(self.try_is_empty())
    }

    /// The same, with a refusal in place of a panic; on tables that only the calls wrote there is none.
    pub fn try_is_empty(&self) -> Result<bool, Refusal> {
        self.tables.is_empty()
    }

    /// Drops all allocations. Tickets begin anew, so one from before may be another's now.
    pub fn clear(&mut self) {
        done(self.try_clear())
    }

    /// The same, with a refusal in place of a panic; on a setup that was accepted there is none.
    pub fn try_clear(&mut self) -> Result<(), Refusal> {
        self.tables.clear()
    }

    /// Drops all allocations, and sets the size and the options anew. The capacity stays.
    ///
    /// # Panics
    /// As [`with_options`](Self::with_options).
    pub fn reset(&mut self, size: Size, options: &AllocatorOptions) {
        done(self.try_reset(size, options))
    }

    /// The same, with a refusal in place of a panic, which leaves all as it was: [`Refusal::InvalidSetup`].
    pub fn try_reset(&mut self, size: Size, options: &AllocatorOptions) -> Result<(), Refusal> {
        self.tables.reset(size, options)
    }

    /// Makes the sheet larger. Every rectangle stays where it is, and what is new is free.
    ///
    /// ```
    /// use ferrunchju::*;
    ///
    /// let mut atlas = AtlasAllocator::new(size2(1000, 1000));
    /// let a = atlas.allocate(size2(100, 100)).unwrap();
    /// atlas.grow(size2(3000, 3000));
    /// assert_eq!(atlas.size(), size2(3000, 3000));
    /// assert_eq!(atlas[a.id], a.rectangle);
    /// assert_eq!(atlas.try_grow(size2(2999, 3000)), Err(Refusal::Smaller));
    /// ```
    ///
    /// # Panics
    /// Where a side is smaller than now, and where too few slots are spare.
    pub fn grow(&mut self, new_size: Size) {
        done(self.try_grow(new_size))
    }

    /// The same, with a refusal in place of a panic, which leaves all as it was: [`Refusal::Smaller`], [`Refusal::InvalidSetup`],
    /// [`Refusal::NoSlots`].
    pub fn try_grow(&mut self, new_size: Size) -> Result<(), Refusal> {
        self.tables.grow(new_size)
    }

    /// Calls back for each free rectangle, in slot order.
    pub fn for_each_free_rectangle<F>(&self, mut callback: F)
    where
        F: FnMut(&Rectangle),
    {
        for rectangle in done(self.try_free_rectangles()) {
            callback(&rectangle);
        }
    }

    /// The free rectangles, in slot order; on tables that only the calls wrote there is no refusal.
    pub fn try_free_rectangles(&self) -> Result<Vec<Rectangle>, Refusal> {
        Ok(self.tables.list_free()?.chunks_exact(4).map(rectangle_of).collect())
    }

    /// Calls back for each allocated rectangle, in slot order.
    pub fn for_each_allocated_rectangle<F>(&self, mut callback: F)
    where
        F: FnMut(AllocId, &Rectangle),
    {
        for allocation in done(self.try_allocated_rectangles()) {
            callback(allocation.id, &allocation.rectangle);
        }
    }

    /// The allocated rectangles with their tickets, in slot order; on tables that only the calls wrote there is no refusal.
    pub fn try_allocated_rectangles(&self) -> Result<Vec<Allocation>, Refusal> {
        let entry = |words: &[u32]| Allocation { id: AllocId(words[0]), rectangle: rectangle_of(&words[1..]) };
        Ok(self.tables.list_allocated()?.chunks_exact(5).map(entry).collect())
    }

    /// The rectangle of a live ticket: [`Refusal::NoSuchSlot`], [`Refusal::OtherGeneration`], [`Refusal::NotAllocated`]. Indexing,
    /// `atlas[id]`, is the same with a panic.
    pub fn try_get(&self, id: AllocId) -> Result<Rectangle, Refusal> {
        self.tables.lookup(id)
    }

    /// The check that every call but clear and reset makes first: that the tables are sound. Where only the calls wrote them, they are.
    pub fn check(&self) -> Result<(), Refusal> {
        self.tables.check()
    }
}

/// The rectangle of a live ticket; a panic where it isn't live.
impl std::ops::Index<AllocId> for AtlasAllocator {
    type Output = Rectangle;

    fn index(&self, index: AllocId) -> &Rectangle {
        done(self.tables.place(index))
    }
}
