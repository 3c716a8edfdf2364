//! The rectangle.

pub use rectangle::Rectangle;

use crate::geometry::Point;

/// What has points.
pub trait PointsIter {
    /// An iterator over the points.
    type Iter: Iterator<Item = Point>;

    /// The points.
    fn points(&self) -> Self::Iter;
}

/// The rectangle and its points.
pub mod rectangle {
    use super::PointsIter;
    use crate::geometry::{Dimensions, Point, Size};

    /// "A rectangle (left, top, width, height) covers left ≤ column < left + width, likewise rows;
    /// it is empty if width or height is 0, and then has no bottom right."
    #[derive(Debug, Clone, Copy, PartialEq, Eq, PartialOrd, Ord, Hash, Default)]
    pub struct Rectangle {
        /// Left and top.
        pub top_left: Point,
        /// Width and height.
        pub size: Size,
    }

    impl Rectangle {
        /// A rectangle of the given corner and size.
        pub const fn new(top_left: Point, size: Size) -> Self {
            Self { top_left, size }
        }

        /// Four zeros.
        pub const fn zero() -> Self {
            Self::new(Point::zero(), Size::zero())
        }

        /// "`with_corners` includes both corners."
        pub fn with_corners(corner_1: Point, corner_2: Point) -> Self {
            let left = corner_1.x.min(corner_2.x);
            let top = corner_1.y.min(corner_2.y);
            let right = corner_1.x.max(corner_2.x);
            let bottom = corner_1.y.max(corner_2.y);
            Self::new(
                Point::new(left, top),
                Size::new((right - left) as u32 + 1, (bottom - top) as u32 + 1),
            )
        }

        /// A rectangle around a centre; no text is drawn with it.
        pub fn with_center(center: Point, size: Size) -> Self {
            let half = size.saturating_sub(Size::new_equal(1));
            let half = Point::new(half.width as i32 / 2, half.height as i32 / 2);
            Self::new(center - half, size)
        }

        /// The centre; no text is drawn with it.
        pub fn center(&self) -> Point {
            let half = self.size.saturating_sub(Size::new_equal(1));
            self.top_left + Point::new(half.width as i32 / 2, half.height as i32 / 2)
        }

        /// Whether it covers no pixel.
        pub const fn is_zero_sized(&self) -> bool {
            self.size.width == 0 || self.size.height == 0
        }

        /// The last covered pixel, if any is.
        pub fn bottom_right(&self) -> Option<Point> {
            if self.is_zero_sized() {
                return None;
            }
            let last = Point::new(self.size.width as i32 - 1, self.size.height as i32 - 1);
            Some(self.top_left + last)
        }

        /// The pixels that both cover; four zeros if there is none.
        pub fn intersection(&self, other: &Rectangle) -> Rectangle {
            let (Some(last), Some(other_last)) = (self.bottom_right(), other.bottom_right()) else {
                return Self::zero();
            };
            let left = self.top_left.x.max(other.top_left.x);
            let top = self.top_left.y.max(other.top_left.y);
            let right = last.x.min(other_last.x);
            let bottom = last.y.min(other_last.y);
            if left > right || top > bottom {
                return Self::zero();
            }
            Self::with_corners(Point::new(left, top), Point::new(right, bottom))
        }
    }

    impl Dimensions for Rectangle {
        fn bounding_box(&self) -> Rectangle {
            *self
        }
    }

    /// "Points run row by row."
    #[derive(Debug, Clone, PartialEq, Eq)]
    pub struct Points {
        left: i32,
        right: i32,
        bottom: i32,
        next: Point,
    }

    impl PointsIter for Rectangle {
        type Iter = Points;

        fn points(&self) -> Points {
            let end = if self.is_zero_sized() {
                self.top_left
            } else {
                self.top_left + self.size
            };
            Points {
                left: self.top_left.x,
                right: end.x,
                bottom: end.y,
                next: self.top_left,
            }
        }
    }

    impl Iterator for Points {
        type Item = Point;

        #[inline]
        fn next(&mut self) -> Option<Point> {
            if self.next.y >= self.bottom {
                return None;
            }
            let point = self.next;
            self.next.x += 1;
            if self.next.x >= self.right {
                self.next = Point::new(self.left, self.next.y + 1);
            }
            Some(point)
        }
    }
}
