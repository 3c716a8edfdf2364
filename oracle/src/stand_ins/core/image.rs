//! What is an image.

use crate::{
    draw_target::DrawTarget,
    geometry::{OriginDimensions, Point},
    pixelcolor::PixelColor,
    primitives::Rectangle,
};

/// An image that can be drawn whole or in part.
pub trait ImageDrawable: OriginDimensions {
    /// The colour of its pixels.
    type Color: PixelColor;

    /// Draws the whole image.
    fn draw<D>(&self, target: &mut D) -> Result<(), D::Error>
    where
        D: DrawTarget<Color = Self::Color>;

    /// Draws a part of the image.
    fn draw_sub_image<D>(&self, target: &mut D, area: &Rectangle) -> Result<(), D::Error>
    where
        D: DrawTarget<Color = Self::Color>;
}

/// An image whose pixels can be asked for.
pub trait GetPixel {
    /// The colour of its pixels.
    type Color: PixelColor;

    /// The pixel at a place, if the image has it.
    fn pixel(&self, p: Point) -> Option<Self::Color>;
}
