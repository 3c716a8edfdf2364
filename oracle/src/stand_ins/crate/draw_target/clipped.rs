//! Stand-in for src/draw_target/clipped.rs: named by src/draw_target/mod.rs; no text is drawn with it.

use crate::primitives::Rectangle;

/// A part of a target.
#[derive(Debug)]
pub struct Clipped<'a, T> {
    /// The target.
    pub parent: &'a mut T,
    /// The part.
    pub area: Rectangle,
}

impl<'a, T> Clipped<'a, T> {
    pub(super) fn new(parent: &'a mut T, area: &Rectangle) -> Self {
        Self {
            parent,
            area: *area,
        }
    }
}
