//! A rectangle allocator for texture atlases: guillotiere 0.7.0's, by its own names, over calls that are proved to do what their paper says, on
//! any tables that arrive.
//!
//! A program that uses `guillotiere` moves over by its `use` line:
//!
//! ```
//! use ferrunchju::*; // was: use guillotiere::*;
//!
//! let mut atlas = AtlasAllocator::new(size2(1000, 1000));
//!
//! let a = atlas.allocate(size2(100, 100)).unwrap();
//! let b = atlas.allocate(size2(900, 200)).unwrap();
//!
//! atlas.deallocate(a.id);
//!
//! let c = atlas.allocate(size2(300, 200)).unwrap();
//!
//! assert_eq!(c.rectangle, atlas[c.id]);
//!
//! atlas.deallocate(c.id);
//! atlas.deallocate(b.id);
//! assert!(atlas.is_empty());
//! ```
//!
//! What it does otherwise than guillotiere is listed in docs/DIFFERENCES.md of the repository. In short: it has room for 4,096 slots, after
//! which [`allocate`](AtlasAllocator::allocate) gives `None`; a ticket that isn't live is always told; rearranging,
//! `SimpleAtlasAllocator`, drawing and serde are not there.
//!
//! # What is proved, and what isn't
//!
//! Placing, freeing, listing and checking are done by libferrunchju.a, each function of which is proved to meet its contract
//! (docs/PROMISES.md). This crate isn't proved: it owns the tables, lends them, and turns answers into `Option`s, panics and
//! [`Refusal`]s. It has unsafe code in one module, `calls`, which says why each call is sound.
//!
//! # Cost
//!
//! Each call checks the tables first, in time linear in the slots and list entries in use: some 5 to 18 ns a slot. Guillotiere's own random
//! test took some 5 µs a call on it, where guillotiere took less than half of one. A call needs up to 450 KiB of stack. docs/MEASURES.md has
//! how this was measured.

mod answers;
mod atlas;
mod calls;
mod geometry;

pub use answers::Refusal;
pub use atlas::{AllocId, Allocation, AllocatorOptions, AtlasAllocator, DEFAULT_OPTIONS};
pub use geometry::{point2, size2, Point, Rectangle, Size};
