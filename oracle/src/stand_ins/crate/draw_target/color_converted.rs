//! Stand-in for src/draw_target/color_converted.rs: named by src/draw_target/mod.rs; no text is
//! drawn with it.

use core::marker::PhantomData;

/// A target of another colour.
#[derive(Debug)]
pub struct ColorConverted<'a, T, C> {
    /// The target.
    pub parent: &'a mut T,
    color: PhantomData<C>,
}

impl<'a, T, C> ColorConverted<'a, T, C> {
    pub(super) fn new(parent: &'a mut T) -> Self {
        Self {
            parent,
            color: PhantomData,
        }
    }
}
