//! The oracle: the crate guillotiere 0.7.0 made to run here, with its whole state open to view, and the fixed list of
//! calls with its answers that the Rattle side is held against.
//!
//! `allocator.rs` is the crate's own file, unchanged; `view` includes it and lets one look inside. The list is made by
//! `list::whole`: `leaves`, `days`, `shapes` and `mixes` say what is on it, `day` makes the calls and `record` writes
//! them, `premises` asserts that nothing lies outside the comparison, and `coverage` counts which branches were taken.
//! `replay` reads the list back.

#![allow(mismatched_lifetime_syntaxes)]

extern crate alloc;

pub mod coverage;
pub mod day;
pub mod days;
pub mod leaves;
pub mod list;
pub mod mixes;
pub mod premises;
pub mod random;
pub mod record;
pub mod replay;
pub mod shapes;
pub mod view;

pub use euclid::{point2, size2};
pub use view::{AllocatorOptions, AtlasAllocator, DEFAULT_OPTIONS};

pub type Point = euclid::default::Point2D<i32>;
pub type Size = euclid::default::Size2D<i32>;
pub type Rectangle = euclid::default::Box2D<i32>;
