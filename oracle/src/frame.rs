//! Frames of greys as draw targets of the crate: one that paints pixel by pixel, one that fills its
//! own rows, the same with one fill of all greys where it is cleared, and one that drops everything.

use core::convert::Infallible;
use embedded_graphics::{
    draw_target::DrawTarget,
    geometry::{OriginDimensions, Point, Size},
    pixelcolor::Gray8,
    prelude::Dimensions,
    primitives::{PointsIter, Rectangle},
    Pixel,
};

/// A frame that says only how a pixel is painted; the crate does the fillings.
pub struct PixelFrame<'a> {
    greys: &'a mut [u8],
    size: Size,
}

impl<'a> PixelFrame<'a> {
    /// A frame over lent greys, by row.
    pub fn new(greys: &'a mut [u8], width: u32, height: u32) -> Self {
        assert_eq!(greys.len(), width as usize * height as usize);
        Self {
            greys,
            size: Size::new(width, height),
        }
    }

    /// "paints each covered pixel in the frame and drops the others".
    #[inline]
    fn paint(&mut self, point: Point, color: Gray8) {
        let (column, row) = (point.x as u32, point.y as u32);
        if column < self.size.width && row < self.size.height {
            self.greys[row as usize * self.size.width as usize + column as usize] = color.luma();
        }
    }
}

impl OriginDimensions for PixelFrame<'_> {
    fn size(&self) -> Size {
        self.size
    }
}

impl DrawTarget for PixelFrame<'_> {
    type Color = Gray8;
    type Error = Infallible;

    fn draw_iter<I>(&mut self, pixels: I) -> Result<(), Infallible>
    where
        I: IntoIterator<Item = Pixel<Gray8>>,
    {
        for Pixel(point, color) in pixels {
            self.paint(point, color);
        }
        Ok(())
    }
}

/// A frame that fills its own rows: the faster kind. It is cleared as the trait does it, by a filling of
/// its bounding box.
pub struct RowFrame<'a>(PixelFrame<'a>);

impl<'a> RowFrame<'a> {
    /// A frame over lent greys, by row.
    pub fn new(greys: &'a mut [u8], width: u32, height: u32) -> Self {
        Self(PixelFrame::new(greys, width, height))
    }

    /// The rows of an area in the frame, each cut to its columns.
    fn rows(&mut self, area: &Rectangle) -> impl Iterator<Item = &mut [u8]> {
        let width = self.0.size.width as usize;
        let left = area.top_left.x as usize;
        let columns = left..left + area.size.width as usize;
        self.0
            .greys
            .chunks_exact_mut(width)
            .skip(area.top_left.y as usize)
            .take(area.size.height as usize)
            .map(move |row| &mut row[columns.clone()])
    }
}

impl OriginDimensions for RowFrame<'_> {
    fn size(&self) -> Size {
        self.0.size
    }
}

impl DrawTarget for RowFrame<'_> {
    type Color = Gray8;
    type Error = Infallible;

    #[inline]
    fn draw_iter<I>(&mut self, pixels: I) -> Result<(), Infallible>
    where
        I: IntoIterator<Item = Pixel<Gray8>>,
    {
        self.0.draw_iter(pixels)
    }

    fn fill_contiguous<I>(&mut self, area: &Rectangle, colors: I) -> Result<(), Infallible>
    where
        I: IntoIterator<Item = Gray8>,
    {
        let seen = area.intersection(&self.bounding_box());
        if seen.is_zero_sized() {
            return Ok(());
        }
        let mut colors = colors.into_iter();
        if seen != *area {
            return self.0.draw_iter(
                area.points()
                    .zip(colors)
                    .map(|(point, color)| Pixel(point, color)),
            );
        }
        for row in self.rows(area) {
            for (grey, color) in row.iter_mut().zip(&mut colors) {
                *grey = color.luma();
            }
        }
        Ok(())
    }

    fn fill_solid(&mut self, area: &Rectangle, color: Gray8) -> Result<(), Infallible> {
        let seen = area.intersection(&self.bounding_box());
        if !seen.is_zero_sized() {
            self.rows(&seen).for_each(|row| row.fill(color.luma()));
        }
        Ok(())
    }
}

/// A frame that fills its own rows and, where it is cleared, all of its greys at once.
pub struct WholeFrame<'a>(RowFrame<'a>);

impl<'a> WholeFrame<'a> {
    /// A frame over lent greys, by row.
    pub fn new(greys: &'a mut [u8], width: u32, height: u32) -> Self {
        Self(RowFrame::new(greys, width, height))
    }
}

impl OriginDimensions for WholeFrame<'_> {
    fn size(&self) -> Size {
        self.0.size()
    }
}

impl DrawTarget for WholeFrame<'_> {
    type Color = Gray8;
    type Error = Infallible;

    #[inline]
    fn draw_iter<I>(&mut self, pixels: I) -> Result<(), Infallible>
    where
        I: IntoIterator<Item = Pixel<Gray8>>,
    {
        self.0.draw_iter(pixels)
    }

    #[inline]
    fn fill_contiguous<I>(&mut self, area: &Rectangle, colors: I) -> Result<(), Infallible>
    where
        I: IntoIterator<Item = Gray8>,
    {
        self.0.fill_contiguous(area, colors)
    }

    #[inline]
    fn fill_solid(&mut self, area: &Rectangle, color: Gray8) -> Result<(), Infallible> {
        self.0.fill_solid(area, color)
    }

    fn clear(&mut self, color: Gray8) -> Result<(), Infallible> {
        self.0 .0.greys.fill(color.luma());
        Ok(())
    }
}

/// A target that drops everything, for positions alone.
pub struct Nowhere;

impl OriginDimensions for Nowhere {
    fn size(&self) -> Size {
        Size::zero()
    }
}

impl DrawTarget for Nowhere {
    type Color = Gray8;
    type Error = Infallible;

    fn draw_iter<I>(&mut self, _pixels: I) -> Result<(), Infallible>
    where
        I: IntoIterator<Item = Pixel<Gray8>>,
    {
        Ok(())
    }

    fn fill_contiguous<I>(&mut self, _area: &Rectangle, _colors: I) -> Result<(), Infallible>
    where
        I: IntoIterator<Item = Gray8>,
    {
        Ok(())
    }
}
