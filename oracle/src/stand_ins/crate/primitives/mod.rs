//! Stand-in for src/primitives/mod.rs: the traits that src/primitives/rectangle/mod.rs gives the
//! rectangle.

pub mod rectangle;

pub use embedded_graphics_core::primitives::PointsIter;
pub use rectangle::Rectangle;

use crate::geometry::{Dimensions, Point};

/// A shape.
pub trait Primitive: Dimensions {}

/// A shape that covers points.
pub trait ContainsPoint {
    /// Whether it covers the point.
    fn contains(&self, point: Point) -> bool;
}

/// A shape that can grow or shrink.
pub trait OffsetOutline {
    /// The shape with its outline moved.
    fn offset(&self, offset: i32) -> Self;
}
