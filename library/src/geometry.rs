//! Points, sizes and rectangles by euclid's names: what guillotiere's users and its tests use of `Point2D<i32>`, `Size2D<i32>` and
//! `Box2D<i32>`.

/// A place on the sheet.
#[repr(C)]
#[derive(Copy, Clone, Debug, Default, PartialEq, Eq, Hash)]
pub struct Point {
    /// How far to the right.
    pub x: i32,
    /// How far down.
    pub y: i32,
}

/// A width and a height.
#[repr(C)]
#[derive(Copy, Clone, Debug, Default, PartialEq, Eq, Hash)]
pub struct Size {
    /// The side along x.
    pub width: i32,
    /// The side along y.
    pub height: i32,
}

/// A rectangle by its two corners; `max` is the first place past it on each axis.
#[repr(C)]
#[derive(Copy, Clone, Debug, Default, PartialEq, Eq, Hash)]
pub struct Rectangle {
    /// The least corner.
    pub min: Point,
    /// The greatest corner, which is outside.
    pub max: Point,
}

/// The point at x and y.
pub const fn point2(x: i32, y: i32) -> Point {
    Point { x, y }
}

/// The size of this width and height.
pub const fn size2(width: i32, height: i32) -> Size {
    Size { width, height }
}

impl Point {
    /// The point at x and y.
    pub const fn new(x: i32, y: i32) -> Self {
        point2(x, y)
    }

    /// The place where a sheet begins.
    pub const fn zero() -> Self {
        point2(0, 0)
    }

    /// The point itself, whose numbers are i32 already.
    pub const fn to_i32(self) -> Self {
        self
    }

    /// Both numbers, x first.
    pub const fn to_tuple(self) -> (i32, i32) {
        (self.x, self.y)
    }
}

impl Size {
    /// The size of this width and height.
    pub const fn new(width: i32, height: i32) -> Self {
        size2(width, height)
    }

    /// The size of nothing.
    pub const fn zero() -> Self {
        size2(0, 0)
    }

    /// Whether a side is 0 or less.
    pub const fn is_empty(self) -> bool {
        !(self.width > 0 && self.height > 0)
    }

    /// Width times height. As in euclid, it is an i32, and a product that isn't overflows.
    pub const fn area(self) -> i32 {
        self.width * self.height
    }

    /// The size itself, whose numbers are i32 already.
    pub const fn to_i32(self) -> Self {
        self
    }

    /// Both sides, the width first.
    pub const fn to_tuple(self) -> (i32, i32) {
        (self.width, self.height)
    }
}

impl Rectangle {
    /// The rectangle from one corner to the other.
    pub const fn new(min: Point, max: Point) -> Self {
        Rectangle { min, max }
    }

    /// The rectangle that stands for none.
    pub const fn zero() -> Self {
        Rectangle { min: Point::zero(), max: Point::zero() }
    }

    /// The rectangle of a size at a corner.
    pub const fn from_origin_and_size(origin: Point, size: Size) -> Self {
        Rectangle { min: origin, max: point2(origin.x + size.width, origin.y + size.height) }
    }

    /// The side along x.
    pub const fn width(&self) -> i32 {
        self.max.x - self.min.x
    }

    /// The side along y.
    pub const fn height(&self) -> i32 {
        self.max.y - self.min.y
    }

    /// Both sides.
    pub const fn size(&self) -> Size {
        size2(self.width(), self.height())
    }

    /// Width times height. As in euclid, it is an i32, and a product that isn't overflows.
    pub const fn area(&self) -> i32 {
        self.size().area()
    }

    /// Whether no point lies inside.
    pub const fn is_empty(&self) -> bool {
        !(self.max.x > self.min.x && self.max.y > self.min.y)
    }

    /// Whether a point lies inside.
    pub const fn contains(&self, point: Point) -> bool {
        self.min.x <= point.x && point.x < self.max.x && self.min.y <= point.y && point.y < self.max.y
    }

    /// Whether another rectangle, if it is not empty, lies inside.
    pub const fn contains_box(&self, other: &Self) -> bool {
        other.is_empty()
            || (self.min.x <= other.min.x
                && other.max.x <= self.max.x
                && self.min.y <= other.min.y
                && other.max.y <= self.max.y)
    }

    /// Whether the two have a point in common; a shared edge is none.
    pub const fn intersects(&self, other: &Self) -> bool {
        self.min.x < other.max.x && other.min.x < self.max.x && self.min.y < other.max.y && other.min.y < self.max.y
    }

    /// The rectangle itself, whose numbers are i32 already.
    pub const fn to_i32(self) -> Self {
        self
    }
}

/// The rectangle of a size at the origin.
impl From<Size> for Rectangle {
    fn from(size: Size) -> Self {
        Rectangle::from_origin_and_size(Point::zero(), size)
    }
}

impl From<(i32, i32)> for Size {
    fn from((width, height): (i32, i32)) -> Self {
        size2(width, height)
    }
}

impl From<(i32, i32)> for Point {
    fn from((x, y): (i32, i32)) -> Self {
        point2(x, y)
    }
}

#[cfg(test)]
mod tests {
    use super::*;

    fn corners(x0: i32, y0: i32, x1: i32, y1: i32) -> Rectangle {
        Rectangle::new(point2(x0, y0), point2(x1, y1))
    }

    #[test]
    fn emptiness() {
        assert!(!size2(1, 1).is_empty());
        for size in [size2(0, 1), size2(1, 0), size2(-1, 1), size2(1, -1), Size::zero()] {
            assert!(size.is_empty());
        }
        assert!(!corners(2, 3, 3, 4).is_empty());
        for gone in [corners(2, 3, 2, 4), corners(2, 3, 3, 3), corners(2, 3, 1, 4), Rectangle::zero()] {
            assert!(gone.is_empty());
        }
    }

    #[test]
    fn edges_do_not_intersect() {
        let left = corners(0, 0, 2, 2);
        assert!(!left.intersects(&corners(2, 0, 4, 2)));
        assert!(!left.intersects(&corners(0, 2, 2, 4)));
        assert!(left.intersects(&corners(1, 1, 3, 3)));
        assert!(left.contains(point2(0, 1)) && !left.contains(point2(2, 1)));
        assert!(left.contains_box(&corners(0, 0, 2, 1)) && !left.contains_box(&corners(0, 0, 3, 1)));
    }

    #[test]
    fn sides() {
        assert_eq!(corners(1, 2, 14, 26).size(), size2(13, 24));
        assert_eq!(corners(1, 2, 14, 26).area(), 312);
        assert_eq!(Rectangle::from(size2(5, 6)), corners(0, 0, 5, 6));
        assert_eq!(Size::from((5, 6)).to_tuple(), (5, 6));
        assert_eq!(Point::new(5, 6).to_i32(), point2(5, 6));
    }
}
