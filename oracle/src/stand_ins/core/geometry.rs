//! Points, sizes and what has a box.

use crate::primitives::Rectangle;
use core::ops::{Add, AddAssign, Div, Neg, Sub, SubAssign};

/// A column and a row, signed.
#[derive(Debug, Clone, Copy, PartialEq, Eq, PartialOrd, Ord, Hash, Default)]
pub struct Point {
    /// The column.
    pub x: i32,
    /// The row.
    pub y: i32,
}

impl Point {
    /// A point of the given column and row.
    pub const fn new(x: i32, y: i32) -> Self {
        Self { x, y }
    }

    /// Column and row 0.
    pub const fn zero() -> Self {
        Self::new(0, 0)
    }
}

/// A width and a height.
#[derive(Debug, Clone, Copy, PartialEq, Eq, PartialOrd, Ord, Hash, Default)]
pub struct Size {
    /// The width.
    pub width: u32,
    /// The height.
    pub height: u32,
}

impl Size {
    /// A size of the given width and height.
    pub const fn new(width: u32, height: u32) -> Self {
        Self { width, height }
    }

    /// A square.
    pub const fn new_equal(side: u32) -> Self {
        Self::new(side, side)
    }

    /// Width and height 0.
    pub const fn zero() -> Self {
        Self::new(0, 0)
    }

    /// The width with a height of 0.
    pub const fn x_axis(self) -> Self {
        Self::new(self.width, 0)
    }

    /// Adds both sides, clipping.
    pub const fn saturating_add(self, other: Self) -> Self {
        Self::new(
            self.width.saturating_add(other.width),
            self.height.saturating_add(other.height),
        )
    }

    /// Subtracts both sides, at least 0.
    pub const fn saturating_sub(self, other: Self) -> Self {
        Self::new(
            self.width.saturating_sub(other.width),
            self.height.saturating_sub(other.height),
        )
    }
}

// "Translation adds the offset."
impl Add for Point {
    type Output = Point;
    fn add(self, other: Point) -> Point {
        Point::new(self.x + other.x, self.y + other.y)
    }
}

impl Add<Size> for Point {
    type Output = Point;
    fn add(self, size: Size) -> Point {
        Point::new(self.x + size.width as i32, self.y + size.height as i32)
    }
}

impl AddAssign for Point {
    fn add_assign(&mut self, other: Point) {
        *self = *self + other;
    }
}

impl Sub for Point {
    type Output = Point;
    fn sub(self, other: Point) -> Point {
        Point::new(self.x - other.x, self.y - other.y)
    }
}

impl SubAssign for Point {
    fn sub_assign(&mut self, other: Point) {
        *self = *self - other;
    }
}

impl Neg for Point {
    type Output = Point;
    fn neg(self) -> Point {
        Point::new(-self.x, -self.y)
    }
}

// "centre at x − (w − 1) / 2 truncated towards zero": each part is divided as Rust divides.
impl Div<i32> for Point {
    type Output = Point;
    fn div(self, by: i32) -> Point {
        Point::new(self.x / by, self.y / by)
    }
}

/// What has a bounding box.
pub trait Dimensions {
    /// The bounding box.
    fn bounding_box(&self) -> Rectangle;
}

/// What has a size and stands at column and row 0.
pub trait OriginDimensions {
    /// The size.
    fn size(&self) -> Size;
}

impl<T> Dimensions for T
where
    T: OriginDimensions,
{
    fn bounding_box(&self) -> Rectangle {
        Rectangle::new(Point::zero(), self.size())
    }
}
