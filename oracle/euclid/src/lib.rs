//! A stand-in for euclid, written for the oracle: points, vectors, sizes and boxes with just the operations that
//! `allocator.rs` and its tests use. Sums and differences are the machine's own, as in euclid: they panic past i32 in
//! a debug build and wrap in a release one. Euclid's second type parameter, the unit, is left out, since the allocator
//! only uses the unitless types of `euclid::default`.

#![no_std]

use core::ops::{Add, AddAssign};

/// The unitless types under the names that euclid gives them.
pub mod default {
    pub use super::{Box2D, Point2D, Size2D, Vector2D};
}

/// A place on the plane.
#[derive(Copy, Clone, Debug, PartialEq, Eq, Hash)]
pub struct Point2D<T> {
    pub x: T,
    pub y: T,
}

/// A way from one place to another.
#[derive(Copy, Clone, Debug, PartialEq, Eq, Hash)]
pub struct Vector2D<T> {
    pub x: T,
    pub y: T,
}

/// A width and a height.
#[derive(Copy, Clone, Debug, PartialEq, Eq, Hash)]
pub struct Size2D<T> {
    pub width: T,
    pub height: T,
}

/// A rectangle held by its two corners; `max` is the first place past it on each axis.
#[derive(Copy, Clone, Debug, PartialEq, Eq, Hash)]
pub struct Box2D<T> {
    pub min: Point2D<T>,
    pub max: Point2D<T>,
}

pub const fn point2<T: Copy>(x: T, y: T) -> Point2D<T> {
    Point2D { x, y }
}

pub const fn vec2<T: Copy>(x: T, y: T) -> Vector2D<T> {
    Vector2D { x, y }
}

pub const fn size2<T: Copy>(width: T, height: T) -> Size2D<T> {
    Size2D { width, height }
}

impl Add<Vector2D<i32>> for Point2D<i32> {
    type Output = Self;
    fn add(self, way: Vector2D<i32>) -> Self {
        point2(self.x + way.x, self.y + way.y)
    }
}

impl AddAssign<Vector2D<i32>> for Point2D<i32> {
    fn add_assign(&mut self, way: Vector2D<i32>) {
        *self = *self + way;
    }
}

impl Size2D<i32> {
    pub const fn new(width: i32, height: i32) -> Self {
        size2(width, height)
    }

    /// A size with a side of 0 or less holds nothing.
    pub const fn is_empty(self) -> bool {
        !(self.width > 0 && self.height > 0)
    }

    pub const fn to_vector(self) -> Vector2D<i32> {
        vec2(self.width, self.height)
    }
}

impl Box2D<i32> {
    pub const fn zero() -> Self {
        Box2D { min: point2(0, 0), max: point2(0, 0) }
    }

    pub const fn width(&self) -> i32 {
        self.max.x - self.min.x
    }

    pub const fn height(&self) -> i32 {
        self.max.y - self.min.y
    }

    pub const fn size(&self) -> Size2D<i32> {
        size2(self.width(), self.height())
    }

    /// A box is empty unless its far corner lies past the near one on both axes.
    pub const fn is_empty(&self) -> bool {
        !(self.max.x > self.min.x && self.max.y > self.min.y)
    }

    /// Two boxes meet when their spans overlap on both axes; a shared edge is no meeting.
    pub const fn intersects(&self, other: &Self) -> bool {
        self.min.x < other.max.x && other.min.x < self.max.x && self.min.y < other.max.y && other.min.y < self.max.y
    }
}

/// The box of a size has its near corner at the origin.
impl From<Size2D<i32>> for Box2D<i32> {
    fn from(size: Size2D<i32>) -> Self {
        Box2D { min: point2(0, 0), max: point2(size.width, size.height) }
    }
}

#[cfg(test)]
mod tests {
    use super::*;

    fn corners(x0: i32, y0: i32, x1: i32, y1: i32) -> Box2D<i32> {
        Box2D { min: point2(x0, y0), max: point2(x1, y1) }
    }

    #[test]
    fn a_size_is_empty_when_a_side_is_not_positive() {
        assert!(!size2(1, 1).is_empty());
        for size in [size2(0, 1), size2(1, 0), size2(-1, 1), size2(1, -1), size2(-2, -3)] {
            assert!(size.is_empty());
        }
    }

    #[test]
    fn a_box_is_empty_when_a_span_is_not_positive() {
        assert!(!corners(2, 3, 3, 4).is_empty());
        for gone in [corners(2, 3, 2, 4), corners(2, 3, 3, 3), corners(2, 3, 1, 4), Box2D::zero()] {
            assert!(gone.is_empty());
        }
    }

    #[test]
    fn boxes_that_share_an_edge_do_not_intersect() {
        let left = corners(0, 0, 2, 2);
        assert!(!left.intersects(&corners(2, 0, 4, 2)));
        assert!(!left.intersects(&corners(0, 2, 2, 4)));
        assert!(left.intersects(&corners(1, 1, 3, 3)));
        assert!(left.intersects(&left));
    }

    #[test]
    fn sums_and_sizes() {
        let mut place = point2(1, 2) + vec2(3, 4);
        place += vec2(10, 20);
        assert_eq!(place, point2(14, 26));
        assert_eq!(corners(1, 2, 14, 26).size(), size2(13, 24));
        assert_eq!(Box2D::from(size2(5, 6)), corners(0, 0, 5, 6));
        assert_eq!(Size2D::new(5, 6).to_vector(), vec2(5, 6));
    }
}
