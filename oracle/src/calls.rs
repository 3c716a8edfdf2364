//! Every call of the host: the check, the call's own refusals, and the answer, over a painter.

use crate::characters::decode;
use crate::check::check;
use crate::edits::{batch, damage, entries, make, refusal, Rect};
use crate::fields::Header;
use crate::reply::{Area, Batch, Drawn, Edit, Glyph, Number, Position, Station, Step};

/// Who paints and measures on an accepted sheet and a frame of its size.
pub trait Painter {
    /// Paints an item; its next position.
    fn draw_item(&self, sheet: &[u8], frame: &mut [u8], item: usize) -> (i32, i32);
    /// Paints whitespace at an item; the next position.
    fn draw_whitespace(
        &self,
        sheet: &[u8],
        frame: &mut [u8],
        item: usize,
        width: u32,
    ) -> (i32, i32);
    /// Makes the fresh drawing.
    fn draw(&self, sheet: &[u8], frame: &mut [u8]);
    /// An item's measured box.
    fn bounding_box(&self, sheet: &[u8], item: usize) -> Rect;
    /// An item's ink box, if one of its lines has one.
    fn ink_box(&self, sheet: &[u8], item: usize) -> Option<Rect>;
    /// A character's index.
    fn index(&self, sheet: &[u8], font: usize, character: u32) -> u32;
    /// Whether a character is listed.
    fn contains(&self, sheet: &[u8], font: usize, character: u32) -> bool;
    /// How many characters of an item's lines are not listed.
    fn replaced(&self, sheet: &[u8], item: usize) -> u32;
}

/// The calls over a painter. "Tests 1 to 5 first; .. then the call's own, rising."
#[derive(Debug, Clone, Copy)]
pub struct Calls<P>(pub P);

fn accepted(sheet: &[u8]) -> Result<Header, u32> {
    match check(sheet) {
        0 => Ok(Header::read(sheet)),
        code => Err(code),
    }
}

// 11: "frame length not width × height".
fn framed(header: &Header, frame: &[u8]) -> Result<(), u32> {
    if frame.len() == header.area() {
        Ok(())
    } else {
        Err(11)
    }
}

// 12: "no such item or font".
fn numbered(number: u32, count: u32) -> Result<usize, u32> {
    if number < count {
        Ok(number as usize)
    } else {
        Err(12)
    }
}

/// The page's header: "`P5`, feed, width, blank, height, feed, `255`, feed".
pub fn page_header(width: u32, height: u32) -> Vec<u8> {
    format!("P5\n{width} {height}\n255\n").into_bytes()
}

// The check, 11, then 12 for an item; the item's number.
fn drawable(sheet: &[u8], frame: &[u8], item: u32) -> Result<usize, u32> {
    let header = accepted(sheet)?;
    framed(&header, frame)?;
    numbered(item, header.items)
}

impl<P: Painter> Calls<P> {
    fn edited(
        &self,
        sheet: &mut [u8],
        frame: Option<&mut [u8]>,
        item: u32,
        edit: Edit,
    ) -> Result<Rect, u32> {
        let header = accepted(sheet)?;
        if let Some(frame) = &frame {
            framed(&header, frame)?;
        }
        let item = numbered(item, header.items)?;
        match refusal(sheet, item, edit) {
            0 => {}
            code => return Err(code),
        }
        let before = self.0.ink_box(sheet, item);
        make(sheet, item, edit);
        let after = self.0.ink_box(sheet, item);
        let rect = damage(before, after, &header);
        if let Some(frame) = frame {
            self.repaint(sheet, frame, &header, &rect);
        }
        Ok(rect)
    }

    /// "inside document 01's rectangle stands the fresh drawing of the edited sheet, outside it each
    /// pixel keeps its grey" (demand 3, docs/DEMANDS.md).
    pub fn repaint(&self, sheet: &[u8], frame: &mut [u8], header: &Header, rect: &Rect) {
        let mut fresh = vec![0; frame.len()];
        self.0.draw(sheet, &mut fresh);
        for row in rect.top as usize..rect.top as usize + rect.height as usize {
            let start = row * header.width as usize + rect.left as usize;
            let columns = start..start + rect.width as usize;
            frame[columns.clone()].copy_from_slice(&fresh[columns]);
        }
    }
}

fn number(answer: Result<u32, u32>) -> Number {
    match answer {
        Ok(value) => Number { code: 0, value },
        Err(code) => Number::refused(code),
    }
}

fn area(answer: Result<Rect, u32>) -> Area {
    match answer {
        Ok(rect) => Area {
            code: 0,
            left: rect.left,
            top: rect.top,
            width: rect.width,
            height: rect.height,
        },
        Err(code) => Area::refused(code),
    }
}

impl<P: Painter> Station for Calls<P> {
    fn check(&self, sheet: &[u8]) -> u32 {
        check(sheet)
    }

    // "The glyph lookup, and with it the `index` call, must also say whether the character was
    // listed."
    fn index(&self, sheet: &[u8], font: u32, character: u32) -> Glyph {
        match accepted(sheet).and_then(|header| numbered(font, header.fonts)) {
            Ok(font) => Glyph {
                code: 0,
                index: self.0.index(sheet, font, character),
                listed: u32::from(self.0.contains(sheet, font, character)),
            },
            Err(code) => Glyph::refused(code),
        }
    }

    fn contains(&self, sheet: &[u8], font: u32, character: u32) -> Number {
        number(accepted(sheet).and_then(|header| {
            let font = numbered(font, header.fonts)?;
            Ok(u32::from(self.0.contains(sheet, font, character)))
        }))
    }

    fn bounding_box(&self, sheet: &[u8], item: u32) -> Area {
        area(accepted(sheet).and_then(|header| {
            let item = numbered(item, header.items)?;
            Ok(self.0.bounding_box(sheet, item))
        }))
    }

    // "Drawing an item returns, beside the next position, how many characters of its lines, after
    // the 0D is dropped, were not listed."
    fn draw_item(&self, sheet: &[u8], frame: &mut [u8], item: u32) -> Drawn {
        match drawable(sheet, frame, item) {
            Ok(item) => {
                let (x, y) = self.0.draw_item(sheet, frame, item);
                Drawn {
                    code: 0,
                    x,
                    y,
                    replaced: self.0.replaced(sheet, item),
                }
            }
            Err(code) => Drawn::refused(code),
        }
    }

    fn draw_whitespace(&self, sheet: &[u8], frame: &mut [u8], item: u32, width: u32) -> Position {
        match drawable(sheet, frame, item) {
            // 18: "whitespace above 65,535".
            Ok(_) if width > 65_535 => Position::refused(18),
            Ok(item) => {
                let (x, y) = self.0.draw_whitespace(sheet, frame, item, width);
                Position { code: 0, x, y }
            }
            Err(code) => Position::refused(code),
        }
    }

    fn draw(&self, sheet: &[u8], frame: &mut [u8]) -> u32 {
        let ready = accepted(sheet).and_then(|header| framed(&header, frame));
        match ready {
            Ok(()) => {
                self.0.draw(sheet, frame);
                0
            }
            Err(code) => code,
        }
    }

    fn edit(&self, sheet: &mut [u8], frame: &mut [u8], item: u32, edit: Edit) -> Area {
        area(self.edited(sheet, Some(frame), item, edit))
    }

    fn edit_on_sheet(&self, sheet: &mut [u8], item: u32, edit: Edit) -> Area {
        area(self.edited(sheet, None, item, edit))
    }

    // "Edits run in order, the first refused one stops the list, and the earlier ones stand." "It
    // refuses with 22, after 11 and before any edit".
    fn edit_list(&self, sheet: &mut [u8], frame: &mut [u8], list: &[u8]) -> Batch {
        let ready = accepted(sheet).and_then(|header| framed(&header, frame));
        match ready.and_then(|()| entries(list).ok_or(22)) {
            Ok(entries) => batch(
                entries
                    .into_iter()
                    .map(|(item, edit)| self.edit(sheet, frame, item, edit)),
            ),
            Err(code) => Batch::refused(code),
        }
    }

    fn write_page(&self, sheet: &[u8], frame: &[u8], output: &mut [u8]) -> Number {
        number(accepted(sheet).and_then(|header| {
            framed(&header, frame)?;
            let mut page = page_header(header.width, header.height);
            page.extend_from_slice(frame);
            // 17: "output shorter than the page".
            if output.len() < page.len() {
                return Err(17);
            }
            output[..page.len()].copy_from_slice(&page);
            Ok(page.len() as u32)
        }))
    }

    // "at or past its end it says so and keeps the offset, otherwise it gives character and next
    // offset, or 10".
    fn walk(&self, line: &[u8], offset: usize) -> Step {
        if offset >= line.len() {
            return Step {
                code: 0,
                ended: 1,
                character: 0,
                next: offset,
            };
        }
        match decode(line, offset) {
            Some((character, next)) => Step {
                code: 0,
                ended: 0,
                character,
                next,
            },
            None => Step {
                code: 10,
                ..Step::default()
            },
        }
    }
}
