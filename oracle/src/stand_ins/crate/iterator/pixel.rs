//! Stand-in for src/iterator/pixel.rs: "Translation adds the offset."

use crate::{geometry::Point, pixelcolor::PixelColor, Pixel};

/// The pixels of an iterator, moved.
#[derive(Debug)]
pub struct Translated<I> {
    pixels: I,
    offset: Point,
}

impl<I> Translated<I> {
    pub(super) fn new(pixels: I, offset: Point) -> Self {
        Self { pixels, offset }
    }
}

impl<I, C> Iterator for Translated<I>
where
    I: Iterator<Item = Pixel<C>>,
    C: PixelColor,
{
    type Item = Pixel<C>;

    #[inline]
    fn next(&mut self) -> Option<Pixel<C>> {
        self.pixels
            .next()
            .map(|Pixel(point, color)| Pixel(point + self.offset, color))
    }
}
