//! Stand-in for the crate `embedded_graphics_core`: the types and traits that the listed files of
//! embedded-graphics 0.8.2 import from it. Their meaning is docs/SHEET.md, Geometry.

pub mod draw_target;
pub mod geometry;
pub mod image;
pub mod pixelcolor;
pub mod primitives;

/// What the listed files import by way of a prelude.
pub mod prelude {
    pub use crate::{
        draw_target::DrawTarget,
        geometry::{Dimensions, OriginDimensions, Point, Size},
        image::{GetPixel, ImageDrawable},
        pixelcolor::PixelColor,
        primitives::PointsIter,
        Drawable, Pixel,
    };
}

use draw_target::DrawTarget;
use geometry::Point;
use pixelcolor::PixelColor;

/// A place and its colour.
#[derive(Debug, Clone, Copy, PartialEq, Eq)]
pub struct Pixel<C>(pub Point, pub C)
where
    C: PixelColor;

/// What can be drawn on a target.
pub trait Drawable {
    /// The colour drawn.
    type Color: PixelColor;

    /// What drawing returns, as the next position of a text.
    type Output;

    /// Draws on the target.
    fn draw<D>(&self, target: &mut D) -> Result<Self::Output, D::Error>
    where
        D: DrawTarget<Color = Self::Color>;
}
