//! Stand-in for the root of embedded-graphics 0.8.2: names the listed modules and hands on what
//! the rest of the crate would.

pub mod draw_target;
pub mod image;
pub mod iterator;
pub mod mono_font;
pub mod primitives;
pub mod text;
pub mod transform;

pub use embedded_graphics_core::{geometry, pixelcolor, Drawable, Pixel};

/// What the listed files import by way of a prelude.
pub mod prelude {
    pub use crate::{
        draw_target::{DrawTarget, DrawTargetExt},
        geometry::{Dimensions, OriginDimensions, Point, Size},
        image::{ImageDrawable, ImageDrawableExt},
        transform::Transform,
        Drawable, Pixel,
    };
}
