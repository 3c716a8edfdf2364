//! Stand-in for src/image/image_drawable_ext.rs: named by src/image/mod.rs; no text is drawn with
//! it, since a glyph is a part that `MonoFont::glyph` cuts itself.

use crate::{
    image::{ImageDrawable, SubImage},
    primitives::Rectangle,
};

/// Parts of an image.
pub trait ImageDrawableExt: Sized {
    /// The part that an area covers.
    fn sub_image(&self, area: &Rectangle) -> SubImage<'_, Self>;
}

impl<T: ImageDrawable> ImageDrawableExt for T {
    fn sub_image(&self, area: &Rectangle) -> SubImage<'_, Self> {
        SubImage::new(self, area)
    }
}
