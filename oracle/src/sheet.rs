//! An accepted sheet as the crate's own objects: `MonoFont`, `StrGlyphMapping`, `MonoTextStyle`,
//! `TextStyle` and `Text`, and what the crate answers for them.

use crate::calls::Painter;
use crate::edits::{join, Rect};
use crate::fields::{Font, Header, Item};
use crate::frame::{Nowhere, PixelFrame, RowFrame};
use core::convert::Infallible;
use embedded_graphics::{
    draw_target::DrawTarget,
    geometry::{Dimensions, Point, Size},
    image::ImageRaw,
    mono_font::{
        mapping::{GlyphMapping, StrGlyphMapping},
        DecorationDimensions, MonoFont, MonoTextStyle, MonoTextStyleBuilder,
    },
    pixelcolor::Gray8,
    text::{
        renderer::TextRenderer, Alignment, Baseline, DecorationColor, LineHeight, Text, TextStyle,
        TextStyleBuilder,
    },
    Drawable,
};

/// A text of the crate, in 8-bit grey.
pub type GreyText<'a> = Text<'a, MonoTextStyle<'a, Gray8>>;

fn characters(bytes: &[u8]) -> &str {
    std::str::from_utf8(bytes).expect("an accepted sheet is well-formed")
}

/// The crate's mapping of a font.
pub fn glyph_mapping<'a>(sheet: &'a [u8], font: &Font) -> StrGlyphMapping<'a> {
    StrGlyphMapping::new(characters(font.mapping(sheet)), font.replacement as usize)
}

/// The crate's font over its mapping.
pub fn mono_font<'a>(
    sheet: &'a [u8],
    font: &Font,
    glyph_mapping: &'a dyn GlyphMapping,
) -> MonoFont<'a> {
    MonoFont {
        image: ImageRaw::new(font.atlas(sheet), font.atlas_width),
        character_size: Size::new(font.character_width, font.character_height),
        character_spacing: font.spacing,
        baseline: font.baseline,
        strikethrough: DecorationDimensions::new(
            font.strikethrough_offset,
            font.strikethrough_height,
        ),
        underline: DecorationDimensions::new(font.underline_offset, font.underline_height),
        glyph_mapping,
    }
}

fn character_style<'a>(item: &Item, font: &'a MonoFont<'a>) -> MonoTextStyle<'a, Gray8> {
    let mut builder = MonoTextStyleBuilder::new().font(font);
    if item.text_mode == 1 {
        builder = builder.text_color(Gray8::new(item.text_grey));
    }
    if item.background_mode == 1 {
        builder = builder.background_color(Gray8::new(item.background_grey));
    }
    builder = match item.underline_mode {
        0 => builder,
        1 => builder.underline(),
        _ => builder.underline_with_color(Gray8::new(item.underline_grey)),
    };
    builder = match item.strikethrough_mode {
        0 => builder,
        1 => builder.strikethrough(),
        _ => builder.strikethrough_with_color(Gray8::new(item.strikethrough_grey)),
    };
    builder.build()
}

fn text_style(item: &Item) -> TextStyle {
    let alignment = [Alignment::Left, Alignment::Center, Alignment::Right];
    let baseline = [
        Baseline::Top,
        Baseline::Bottom,
        Baseline::Middle,
        Baseline::Alphabetic,
    ];
    let line_height = match item.height_kind {
        0 => LineHeight::Pixels(item.height_value),
        _ => LineHeight::Percent(item.height_value),
    };
    TextStyleBuilder::new()
        .alignment(alignment[item.alignment as usize])
        .baseline(baseline[item.baseline as usize])
        .line_height(line_height)
        .build()
}

/// The crate's text of an item, in a font made from the item's font record.
pub fn text<'a>(sheet: &'a [u8], item: &Item, font: &'a MonoFont<'a>) -> GreyText<'a> {
    Text::with_text_style(
        characters(item.text(sheet)),
        Point::new(item.x, item.y),
        character_style(item, font),
        text_style(item),
    )
}

/// Lends the crate's text of an item.
pub fn with_text<R>(sheet: &[u8], item: usize, answer: impl FnOnce(&GreyText) -> R) -> R {
    let item = Item::read(sheet, item);
    let font = Font::read(sheet, item.font as usize);
    let mapping = glyph_mapping(sheet, &font);
    let font = mono_font(sheet, &font, &mapping);
    answer(&text(sheet, &item, &font))
}

/// What a call draws on a target.
pub trait Drawing {
    /// What drawing returns.
    type Output;

    /// Draws.
    fn draw<D>(self, target: &mut D) -> Self::Output
    where
        D: DrawTarget<Color = Gray8, Error = Infallible>;
}

struct WholeItem<'a, 'b>(&'a GreyText<'b>);

impl Drawing for WholeItem<'_, '_> {
    type Output = Point;

    fn draw<D>(self, target: &mut D) -> Point
    where
        D: DrawTarget<Color = Gray8, Error = Infallible>,
    {
        let Ok(next) = self.0.draw(target);
        next
    }
}

struct Whitespace<'a, 'b>(&'a GreyText<'b>, u32);

impl Drawing for Whitespace<'_, '_> {
    type Output = Point;

    // "Whitespace of width v takes an item's x, y, style and baseline."
    fn draw<D>(self, target: &mut D) -> Point
    where
        D: DrawTarget<Color = Gray8, Error = Infallible>,
    {
        let Whitespace(text, width) = self;
        let Ok(next) = text.character_style.draw_whitespace(
            width,
            text.position,
            text.text_style.baseline,
            target,
        );
        next
    }
}

/// "Fresh drawing: all paper, then items in number order."
struct Page<'a>(&'a [u8]);

impl Drawing for Page<'_> {
    type Output = ();

    fn draw<D>(self, target: &mut D)
    where
        D: DrawTarget<Color = Gray8, Error = Infallible>,
    {
        let header = Header::read(self.0);
        let Ok(()) = target.clear(Gray8::new(header.paper));
        for item in 0..header.items as usize {
            with_text(self.0, item, |text| WholeItem(text).draw(target));
        }
    }
}

/// The rows below a line's top edge that count as ink, told by the style's colours: the first, and
/// the one after the last.
fn ink_rows(style: &MonoTextStyle<Gray8>) -> Option<(u32, u32)> {
    let font = style.font;
    let has_text = style.text_color.is_some();
    let resolves =
        |color: DecorationColor<Gray8>| color.is_custom() || (color.is_text_color() && has_text);
    let cell = DecorationDimensions::new(0, font.character_size.height);
    let parts = [
        (has_text || style.background_color.is_some(), cell),
        (resolves(style.strikethrough_color), font.strikethrough),
        (resolves(style.underline_color), font.underline),
    ];
    let counting = parts
        .iter()
        .filter(|(counts, part)| *counts && part.height > 0);
    counting
        .map(|(_, part)| (part.offset, part.offset + part.height))
        .reduce(|one, other| (one.0.min(other.0), one.1.max(other.1)))
}

/// The crate's own drawing, on one of the two kinds of frame.
#[derive(Debug, Clone, Copy)]
pub struct Crate {
    /// Whether the frame fills its own rows.
    pub rows: bool,
}

impl Crate {
    fn on_frame<T: Drawing>(&self, sheet: &[u8], frame: &mut [u8], drawing: T) -> T::Output {
        let header = Header::read(sheet);
        if self.rows {
            drawing.draw(&mut RowFrame::new(frame, header.width, header.height))
        } else {
            drawing.draw(&mut PixelFrame::new(frame, header.width, header.height))
        }
    }
}

impl Painter for Crate {
    fn draw_item(&self, sheet: &[u8], frame: &mut [u8], item: usize) -> (i32, i32) {
        with_text(sheet, item, |text| {
            let next = self.on_frame(sheet, frame, WholeItem(text));
            (next.x, next.y)
        })
    }

    fn draw_whitespace(
        &self,
        sheet: &[u8],
        frame: &mut [u8],
        item: usize,
        width: u32,
    ) -> (i32, i32) {
        with_text(sheet, item, |text| {
            let next = self.on_frame(sheet, frame, Whitespace(text, width));
            (next.x, next.y)
        })
    }

    fn draw(&self, sheet: &[u8], frame: &mut [u8]) {
        self.on_frame(sheet, frame, Page(sheet));
    }

    fn bounding_box(&self, sheet: &[u8], item: usize) -> Rect {
        let area = with_text(sheet, item, |text| text.bounding_box());
        Rect {
            left: area.top_left.x,
            top: area.top_left.y,
            width: area.size.width,
            height: area.size.height,
        }
    }

    // The crate has no ink box. A line's start follows from its measured width, its top edge is
    // that of its measured box, and its advance is told by the next position of drawing it.
    fn ink_box(&self, sheet: &[u8], item: usize) -> Option<Rect> {
        with_text(sheet, item, |text| {
            let style = &text.character_style;
            let baseline = text.text_style.baseline;
            let (first, end) = ink_rows(style)?;
            let line_height = text.text_style.line_height.to_absolute(style.line_height());
            let mut boxes = None;
            for (number, line) in text.text.split('\n').enumerate() {
                let measured = style.measure_string(line, Point::zero(), baseline);
                let reach = measured.bounding_box.size.width as i32 - 1;
                let start = match text.text_style.alignment {
                    Alignment::Left => text.position.x,
                    Alignment::Center => text.position.x - reach / 2,
                    Alignment::Right => text.position.x - reach,
                };
                let y = text.position.y + number as i32 * line_height as i32;
                let position = Point::new(start, y);
                let line = line.strip_suffix('\r').unwrap_or(line);
                let Ok(next) = style.draw_string(line, position, baseline, &mut Nowhere);
                let top = style.measure_string(line, position, baseline).bounding_box;
                let line_box = Rect {
                    left: start,
                    top: top.top_left.y + first as i32,
                    width: (next.x - start) as u32,
                    height: end - first,
                };
                boxes = join(boxes, line_box.unless_empty());
            }
            boxes
        })
    }

    fn index(&self, sheet: &[u8], font: usize, character: u32) -> u32 {
        let font = Font::read(sheet, font);
        let mapping = glyph_mapping(sheet, &font);
        match char::from_u32(character) {
            Some(character) => mapping.index(character) as u32,
            None => font.replacement,
        }
    }

    fn contains(&self, sheet: &[u8], font: usize, character: u32) -> bool {
        let mapping = glyph_mapping(sheet, &Font::read(sheet, font));
        char::from_u32(character).is_some_and(|character| mapping.contains(character))
    }

    // The crate counts nothing. Its mapping is asked for each character of the lines that
    // `Text::draw` makes: split at a feed, one return at the end dropped.
    fn replaced(&self, sheet: &[u8], item: usize) -> u32 {
        let item = Item::read(sheet, item);
        let mapping = glyph_mapping(sheet, &Font::read(sheet, item.font as usize));
        let lines = characters(item.text(sheet)).split('\n');
        let drawn = lines.flat_map(|line| line.strip_suffix('\r').unwrap_or(line).chars());
        drawn.filter(|ch| !mapping.contains(*ch)).count() as u32
    }
}
