//! Stand-in for src/draw_target/translated.rs: "Translation adds the offset."

use crate::{
    draw_target::DrawTarget, geometry::Dimensions, geometry::Point, iterator::PixelIteratorExt,
    primitives::Rectangle, transform::Transform, Pixel,
};

/// A target on which all is drawn at an offset of its parent.
#[derive(Debug)]
pub struct Translated<'a, T> {
    parent: &'a mut T,
    offset: Point,
}

impl<'a, T> Translated<'a, T> {
    pub(super) fn new(parent: &'a mut T, offset: Point) -> Self {
        Self { parent, offset }
    }
}

impl<T: DrawTarget> DrawTarget for Translated<'_, T> {
    type Color = T::Color;
    type Error = T::Error;

    fn draw_iter<I>(&mut self, pixels: I) -> Result<(), Self::Error>
    where
        I: IntoIterator<Item = Pixel<Self::Color>>,
    {
        self.parent
            .draw_iter(pixels.into_iter().translated(self.offset))
    }

    fn fill_contiguous<I>(&mut self, area: &Rectangle, colors: I) -> Result<(), Self::Error>
    where
        I: IntoIterator<Item = Self::Color>,
    {
        self.parent
            .fill_contiguous(&area.translate(self.offset), colors)
    }

    fn fill_solid(&mut self, area: &Rectangle, color: Self::Color) -> Result<(), Self::Error> {
        self.parent.fill_solid(&area.translate(self.offset), color)
    }

    fn clear(&mut self, color: Self::Color) -> Result<(), Self::Error> {
        self.parent.clear(color)
    }
}

impl<T: DrawTarget> Dimensions for Translated<'_, T> {
    fn bounding_box(&self) -> Rectangle {
        self.parent.bounding_box().translate(-self.offset)
    }
}
