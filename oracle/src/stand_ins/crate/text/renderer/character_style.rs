//! Stand-in for src/text/renderer/character_style.rs.

use crate::{pixelcolor::PixelColor, text::DecorationColor};

/// A style whose colours can be set.
pub trait CharacterStyle {
    /// The colour.
    type Color: PixelColor;

    /// Sets the text colour.
    fn set_text_color(&mut self, text_color: Option<Self::Color>);

    /// Sets the background colour.
    fn set_background_color(&mut self, background_color: Option<Self::Color>);

    /// Sets the underline's colour.
    fn set_underline_color(&mut self, underline_color: DecorationColor<Self::Color>);

    /// Sets the strikethrough's colour.
    fn set_strikethrough_color(&mut self, strikethrough_color: DecorationColor<Self::Color>);
}
