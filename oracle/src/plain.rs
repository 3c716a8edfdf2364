//! The drawing of docs/SHEET.md from its formulas alone, without the crate: the sections Mapping, Atlas,
//! One line and Text. Held against the crate's own code, it shows where the two differ.

use crate::calls::Painter;
use crate::characters::decode_all;
use crate::edits::{join, Rect};
use crate::fields::{Font, Header, Item};

/// The drawing of docs/SHEET.md.
#[derive(Debug, Clone, Copy)]
pub struct Plain;

/// One line of an item, placed.
struct Line {
    /// Where it starts, aligned.
    x: i32,
    /// The item's y lowered by the lines before.
    y: i32,
    /// "Top edge = y − baseline offset".
    top: i32,
    characters: Vec<u32>,
    advance: i32,
    measured: Rect,
}

/// An item, its font, and the two byte pieces that drawing reads.
struct Placed<'a> {
    item: Item,
    font: Font,
    atlas: &'a [u8],
    mapping: Vec<u32>,
}

/// The frame as lent.
struct Greys<'a> {
    greys: &'a mut [u8],
    width: i32,
    height: i32,
}

impl Greys<'_> {
    fn paint(&mut self, column: i32, row: i32, grey: u8) {
        if (0..self.width).contains(&column) && (0..self.height).contains(&row) {
            self.greys[(row * self.width + column) as usize] = grey;
        }
    }

    // "Filling paints each covered pixel in the frame and drops the others."
    fn fill(&mut self, left: i32, top: i32, width: i32, height: i32, grey: u8) {
        for row in top.max(0)..(top + height).min(self.height) {
            for column in left.max(0)..(left + width).min(self.width) {
                self.paint(column, row, grey);
            }
        }
    }
}

/// "`index` gives the first position of the character"; none if it is not listed.
fn place_in(mapping: &[u32], character: u32) -> Option<u32> {
    let mut before = 0;
    let mut rest = mapping;
    loop {
        let (start, end);
        (start, end, rest) = match rest {
            [] | [0] | [0, _] => return None,
            [0, start, end, rest @ ..] => (*start, *end, rest),
            [single, rest @ ..] => (*single, *single, rest),
        };
        // "all from start to end, surrogates skipped": how many come before a number.
        let counted = |number: u32| {
            let skipped =
                (number.clamp(0xd800, 0xe000) - 0xd800) - (start.clamp(0xd800, 0xe000) - 0xd800);
            number - start - skipped
        };
        if (start..=end).contains(&character) && !(0xd800..=0xdfff).contains(&character) {
            return Some(before + counted(character));
        }
        if start <= end {
            before += counted(end + 1);
        }
    }
}

impl<'a> Placed<'a> {
    fn new(sheet: &'a [u8], item: usize) -> Self {
        let item = Item::read(sheet, item);
        let font = Font::read(sheet, item.font as usize);
        Self {
            item,
            font,
            atlas: font.atlas(sheet),
            mapping: decode_all(font.mapping(sheet)).expect("an accepted sheet"),
        }
    }

    fn text_grey(&self) -> Option<u8> {
        (self.item.text_mode == 1).then_some(self.item.text_grey)
    }

    fn background(&self) -> Option<u8> {
        (self.item.background_mode == 1).then_some(self.item.background_grey)
    }

    // "A text-colour decoration without text grey is not drawn."
    fn decoration(&self, mode: u8, own: u8) -> Option<u8> {
        match mode {
            0 => None,
            1 => self.text_grey(),
            _ => Some(own),
        }
    }

    // "Top 0, Bottom ch − 1, Middle (ch − 1) / 2, Alphabetic the font's baseline; ch − 1 is 0 for
    // ch 0."
    fn baseline_offset(&self) -> i32 {
        let below = (self.font.character_height as i32 - 1).max(0);
        match self.item.baseline {
            0 => 0,
            1 => below,
            2 => below / 2,
            _ => self.font.baseline as i32,
        }
    }

    // "With either grey set the advance is n × cw + (n − 1) × s, or 0 for n = 0; with neither it is
    // n × (cw + s)."
    fn advance(&self, n: i32) -> i32 {
        let (cw, s) = (self.font.character_width as i32, self.font.spacing as i32);
        if self.text_grey().is_none() && self.background().is_none() {
            n * (cw + s)
        } else if n == 0 {
            0
        } else {
            n * cw + (n - 1) * s
        }
    }

    // "its width is n × (cw + s) − s, at least 0".
    fn measured_width(&self, n: i32) -> i32 {
        let (cw, s) = (self.font.character_width as i32, self.font.spacing as i32);
        (n * (cw + s) - s).max(0)
    }

    // "measured height is ch, or underline offset + height if the underline mode isn't none".
    fn measured_height(&self) -> u32 {
        if self.item.underline_mode == 0 {
            self.font.character_height
        } else {
            self.font.underline_offset + self.font.underline_height
        }
    }

    // "Each line is lower by the pixels given or ch × percent / 100, truncated."
    fn line_height(&self) -> i32 {
        let value = self.item.height_value as i32;
        if self.item.height_kind == 0 {
            value
        } else {
            self.font.character_height as i32 * value / 100
        }
    }

    // "Lines split at 0A, so n feeds give n + 1 lines." "With w the measured width: left starts at
    // x, right at x − (w − 1), centre at x − (w − 1) / 2 truncated towards zero. Then just one
    // trailing 0D is dropped."
    fn lines(&self, sheet: &[u8]) -> Vec<Line> {
        let mut lines = Vec::new();
        for (number, line) in self
            .item
            .text(sheet)
            .split(|byte| *byte == 0x0a)
            .enumerate()
        {
            let mut characters = decode_all(line).expect("an accepted sheet");
            let reach = self.measured_width(characters.len() as i32) - 1;
            let x = match self.item.alignment {
                0 => self.item.x,
                1 => self.item.x - reach / 2,
                _ => self.item.x - reach,
            };
            if characters.last() == Some(&0x0d) {
                characters.pop();
            }
            let n = characters.len() as i32;
            let y = self.item.y + number as i32 * self.line_height();
            let top = y - self.baseline_offset();
            lines.push(Line {
                x,
                y,
                top,
                advance: self.advance(n),
                measured: Rect {
                    left: x,
                    top,
                    width: self.measured_width(n) as u32,
                    height: self.measured_height(),
                },
                characters,
            });
        }
        lines
    }

    // "With cell width cw and height ch, let g = atlas width / cw: glyph i starts at column
    // (i mod g) × cw, row (i / g) × ch. Nothing is drawn if cw is 0, ch is 0, the atlas is narrower
    // than cw, or the cell passes its foot."
    fn glyph(&self, frame: &mut Greys, left: i32, top: i32, character: u32) {
        let font = &self.font;
        let (cw, ch) = (font.character_width, font.character_height);
        if cw == 0 || ch == 0 || font.atlas_width < cw {
            return;
        }
        let row_bytes = (font.atlas_width as usize).div_ceil(8);
        let rows = self.atlas.len() / row_bytes;
        let index = place_in(&self.mapping, character).unwrap_or(font.replacement);
        let per_row = font.atlas_width / cw;
        let first_column = (index % per_row * cw) as usize;
        let first_row = (index / per_row * ch) as usize;
        if first_row + ch as usize > rows {
            return;
        }
        for row in 0..ch as usize {
            for column in 0..cw as usize {
                // "the leftmost pixel is the highest bit, 1 is on".
                let at = first_column + column;
                let byte = self.atlas[(first_row + row) * row_bytes + at / 8];
                let on = byte >> (7 - at % 8) & 1 == 1;
                // "On pixels take the text grey, off pixels the background grey, each only if set."
                let grey = if on {
                    self.text_grey()
                } else {
                    self.background()
                };
                if let Some(grey) = grey {
                    frame.paint(left + column as i32, top + row as i32, grey);
                }
            }
        }
    }

    // "strikethrough then underline are filled, that wide, at their offset below the top edge".
    fn decorations(&self, frame: &mut Greys, left: i32, top: i32, width: i32) {
        let (item, font) = (&self.item, &self.font);
        let strikethrough = self.decoration(item.strikethrough_mode, item.strikethrough_grey);
        if let Some(grey) = strikethrough {
            let top = top + font.strikethrough_offset as i32;
            frame.fill(left, top, width, font.strikethrough_height as i32, grey);
        }
        if let Some(grey) = self.decoration(item.underline_mode, item.underline_grey) {
            let top = top + font.underline_offset as i32;
            frame.fill(left, top, width, font.underline_height as i32, grey);
        }
    }

    fn line(&self, frame: &mut Greys, line: &Line) {
        let (cw, s) = (self.font.character_width as i32, self.font.spacing as i32);
        let ch = self.font.character_height as i32;
        // "Character k of n, from 0, stands at x + k × (cw + s)."
        for (k, character) in line.characters.iter().enumerate() {
            let left = line.x + k as i32 * (cw + s);
            self.glyph(frame, left, line.top, *character);
            // "With a background, each gap between characters is filled s wide and ch high."
            if k + 1 < line.characters.len() {
                if let Some(grey) = self.background() {
                    frame.fill(left + cw, line.top, s, ch, grey);
                }
            }
        }
        // "If the advance is above 0".
        if line.advance > 0 {
            self.decorations(frame, line.x, line.top, line.advance);
        }
    }
}

fn greys<'a>(sheet: &[u8], greys: &'a mut [u8]) -> Greys<'a> {
    let header = Header::read(sheet);
    Greys {
        greys,
        width: header.width as i32,
        height: header.height as i32,
    }
}

/// "The ink box shall count the ch rows only if a text or background grey is set, and a
/// decoration's rows only if its colour resolves." The offset below a line's top edge and the
/// height of cell, strikethrough and underline, each only then.
pub fn ink_rows(sheet: &[u8], item: usize) -> [Option<(u32, u32)>; 3] {
    let placed = Placed::new(sheet, item);
    let (item, font) = (&placed.item, &placed.font);
    let grey = placed.text_grey().or(placed.background());
    let strikethrough = placed.decoration(item.strikethrough_mode, item.strikethrough_grey);
    let underline = placed.decoration(item.underline_mode, item.underline_grey);
    [
        grey.map(|_| (0, font.character_height)),
        strikethrough.map(|_| (font.strikethrough_offset, font.strikethrough_height)),
        underline.map(|_| (font.underline_offset, font.underline_height)),
    ]
}

/// "It is the smallest rectangle over these rows and the advance; none if no row counts." Joined
/// over an item's lines.
pub fn ink_over(sheet: &[u8], item: usize, rows: &[Option<(u32, u32)>]) -> Option<Rect> {
    let lines = Placed::new(sheet, item).lines(sheet);
    let boxes = lines.iter().flat_map(|line| {
        rows.iter().flatten().map(|(offset, height)| {
            let part = Rect {
                left: line.x,
                top: line.top + *offset as i32,
                width: line.advance as u32,
                height: *height,
            };
            part.unless_empty()
        })
    });
    boxes.fold(None, join)
}

impl Painter for Plain {
    // "`Text::draw` returns the last line's next position."
    fn draw_item(&self, sheet: &[u8], frame: &mut [u8], item: usize) -> (i32, i32) {
        let placed = Placed::new(sheet, item);
        let mut frame = greys(sheet, frame);
        let mut next = (0, 0);
        for line in placed.lines(sheet) {
            placed.line(&mut frame, &line);
            // "The next position is (x + advance, y)."
            next = (line.x + line.advance, line.y);
        }
        next
    }

    // "background v by ch if set, decorations, advance v; v = 0 paints nothing".
    fn draw_whitespace(
        &self,
        sheet: &[u8],
        frame: &mut [u8],
        item: usize,
        width: u32,
    ) -> (i32, i32) {
        let placed = Placed::new(sheet, item);
        let mut frame = greys(sheet, frame);
        let (x, y, width) = (placed.item.x, placed.item.y, width as i32);
        let top = y - placed.baseline_offset();
        if let Some(grey) = placed.background() {
            frame.fill(x, top, width, placed.font.character_height as i32, grey);
        }
        placed.decorations(&mut frame, x, top, width);
        (x + width, y)
    }

    fn draw(&self, sheet: &[u8], frame: &mut [u8]) {
        let header = Header::read(sheet);
        frame.fill(header.paper);
        for item in 0..header.items as usize {
            self.draw_item(sheet, frame, item);
        }
    }

    // "`Text::bounding_box` joins the nonempty measured boxes; if none, size 0 at the item's
    // position."
    fn bounding_box(&self, sheet: &[u8], item: usize) -> Rect {
        let placed = Placed::new(sheet, item);
        let lines = placed.lines(sheet);
        let boxes = lines.iter().map(|line| line.measured.unless_empty());
        boxes.fold(None, join).unwrap_or(Rect {
            left: placed.item.x,
            top: placed.item.y,
            width: 0,
            height: 0,
        })
    }

    fn ink_box(&self, sheet: &[u8], item: usize) -> Option<Rect> {
        ink_over(sheet, item, &ink_rows(sheet, item))
    }

    fn index(&self, sheet: &[u8], font: usize, character: u32) -> u32 {
        let font = Font::read(sheet, font);
        let mapping = decode_all(font.mapping(sheet)).expect("an accepted sheet");
        place_in(&mapping, character).unwrap_or(font.replacement)
    }

    fn contains(&self, sheet: &[u8], font: usize, character: u32) -> bool {
        let font = Font::read(sheet, font);
        let mapping = decode_all(font.mapping(sheet)).expect("an accepted sheet");
        place_in(&mapping, character).is_some()
    }

    fn replaced(&self, sheet: &[u8], item: usize) -> u32 {
        let placed = Placed::new(sheet, item);
        let lines = placed.lines(sheet).into_iter();
        let characters = lines.flat_map(|line| line.characters);
        let unlisted = characters.filter(|ch| place_in(&placed.mapping, *ch).is_none());
        unlisted.count() as u32
    }
}
