//! Stand-in for src/transform.rs.

use crate::geometry::Point;

/// "Translation adds the offset."
pub trait Transform {
    /// The moved object.
    fn translate(&self, by: Point) -> Self;

    /// Moves the object.
    fn translate_mut(&mut self, by: Point) -> &mut Self;
}
