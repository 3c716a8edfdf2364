//! One call with its arguments, as a value: made on anyone who answers, printed, and generated.

use crate::calls::page_header;
use crate::edits::{entries, entry, refusal};
use crate::fields::Header;
use crate::generate;
use crate::malformed::damaged_list;
use crate::mappings::asked;
use crate::model::SheetModel;
use crate::random::Random;
use crate::reply::{Area, Batch, Drawn, Edit, Glyph, Number, Position, Station, Step};
use std::fmt;

/// A call. The bytes of a text, a style, a list or a line stand in `Operation::data`.
#[derive(Debug, Clone, Copy, PartialEq, Eq)]
pub enum Call {
    Check,
    Index {
        font: u32,
        character: u32,
    },
    Contains {
        font: u32,
        character: u32,
    },
    BoundingBox {
        item: u32,
    },
    DrawItem {
        item: u32,
    },
    DrawWhitespace {
        item: u32,
        width: u32,
    },
    Draw,
    SetText {
        item: u32,
    },
    SetPlace {
        item: u32,
        x: i32,
        y: i32,
    },
    SetStyle {
        item: u32,
    },
    EditList,
    SetTextOnSheet {
        item: u32,
    },
    SetPlaceOnSheet {
        item: u32,
        x: i32,
        y: i32,
    },
    SetStyleOnSheet {
        item: u32,
    },
    WritePage,
    Walk {
        offset: usize,
    },
    /// No call: the frame gets other greys, so that what is painted next shows.
    NewGreys {
        seed: u64,
    },
}

/// A call and the bytes that it is given beside sheet, frame and output.
#[derive(Debug, Clone, PartialEq, Eq)]
pub struct Operation {
    pub call: Call,
    pub data: Vec<u8>,
}

/// What a call replies.
#[derive(Debug, Clone, Copy, PartialEq, Eq)]
pub enum Reply {
    Code(u32),
    Number(Number),
    Glyph(Glyph),
    Position(Position),
    Drawn(Drawn),
    Area(Area),
    Batch(Batch),
    Step(Step),
}

impl Reply {
    /// 0 or the refusal.
    pub fn code(&self) -> u32 {
        match self {
            Self::Code(code) => *code,
            Self::Number(number) => number.code,
            Self::Glyph(glyph) => glyph.code,
            Self::Position(position) => position.code,
            Self::Drawn(drawn) => drawn.code,
            Self::Area(area) => area.code,
            Self::Batch(batch) => batch.code,
            Self::Step(step) => step.code,
        }
    }
}

/// The slices lent to a call.
pub struct Lent<'a> {
    pub sheet: &'a mut [u8],
    pub frame: &'a mut [u8],
    pub output: &'a mut [u8],
    pub data: &'a [u8],
}

impl Call {
    /// Makes the call.
    pub fn run(self, station: &dyn Station, lent: Lent) -> Reply {
        let Lent {
            sheet,
            frame,
            output,
            data,
        } = lent;
        match self {
            Self::Check => Reply::Code(station.check(sheet)),
            Self::Index { font, character } => Reply::Glyph(station.index(sheet, font, character)),
            Self::Contains { font, character } => {
                Reply::Number(station.contains(sheet, font, character))
            }
            Self::BoundingBox { item } => Reply::Area(station.bounding_box(sheet, item)),
            Self::DrawItem { item } => Reply::Drawn(station.draw_item(sheet, frame, item)),
            Self::DrawWhitespace { item, width } => {
                Reply::Position(station.draw_whitespace(sheet, frame, item, width))
            }
            Self::Draw => Reply::Code(station.draw(sheet, frame)),
            Self::SetText { item } => {
                Reply::Area(station.edit(sheet, frame, item, Edit::Text(data)))
            }
            Self::SetPlace { item, x, y } => {
                Reply::Area(station.edit(sheet, frame, item, Edit::Place(x, y)))
            }
            Self::SetStyle { item } => {
                Reply::Area(station.edit(sheet, frame, item, Edit::Style(data)))
            }
            Self::EditList => Reply::Batch(station.edit_list(sheet, frame, data)),
            Self::SetTextOnSheet { item } => {
                Reply::Area(station.edit_on_sheet(sheet, item, Edit::Text(data)))
            }
            Self::SetPlaceOnSheet { item, x, y } => {
                Reply::Area(station.edit_on_sheet(sheet, item, Edit::Place(x, y)))
            }
            Self::SetStyleOnSheet { item } => {
                Reply::Area(station.edit_on_sheet(sheet, item, Edit::Style(data)))
            }
            Self::WritePage => Reply::Number(station.write_page(sheet, frame, output)),
            Self::Walk { offset } => Reply::Step(station.walk(data, offset)),
            Self::NewGreys { seed } => {
                let greys = Random::new(seed).bytes(frame.len());
                frame.copy_from_slice(&greys);
                Reply::Code(0)
            }
        }
    }

    /// The item's number, if the call has one.
    pub fn item(&mut self) -> Option<&mut u32> {
        match self {
            Self::BoundingBox { item }
            | Self::DrawItem { item }
            | Self::DrawWhitespace { item, .. }
            | Self::SetText { item }
            | Self::SetPlace { item, .. }
            | Self::SetStyle { item }
            | Self::SetTextOnSheet { item }
            | Self::SetPlaceOnSheet { item, .. }
            | Self::SetStyleOnSheet { item } => Some(item),
            _ => None,
        }
    }
}

/// Bytes as docs/SHEET.md writes them.
pub fn hex(bytes: &[u8]) -> String {
    let pairs: Vec<String> = bytes.iter().map(|byte| format!("{byte:02X}")).collect();
    pairs.join(" ")
}

impl Operation {
    /// A call without data.
    pub fn new(call: Call) -> Self {
        let data = Vec::new();
        Self { call, data }
    }

    /// An edit on the sheet alone.
    fn on_sheet(item: u32, edit: Edit) -> Self {
        let (call, data) = match edit {
            Edit::Text(text) => (Call::SetTextOnSheet { item }, text),
            Edit::Place(x, y) => (Call::SetPlaceOnSheet { item, x, y }, &[] as &[u8]),
            Edit::Style(style) => (Call::SetStyleOnSheet { item }, style),
        };
        let data = data.to_vec();
        Self { call, data }
    }

    /// The item and the edit of an edit with a frame.
    fn edit(&self) -> Option<(u32, Edit<'_>)> {
        match self.call {
            Call::SetText { item } => Some((item, Edit::Text(&self.data))),
            Call::SetPlace { item, x, y } => Some((item, Edit::Place(x, y))),
            Call::SetStyle { item } => Some((item, Edit::Style(&self.data))),
            _ => None,
        }
    }

    /// What an edit with a frame counts as in the fresh run, on the sheet alone. "a batch counts as
    /// its entries up to there, with the refused one, or as none at 22". Which one is refused is
    /// the same on each sheet of the run, since no edit changes slots and counts.
    pub fn counted(&self, sheet: &[u8]) -> Vec<Self> {
        let edits = match self.edit() {
            Some(edit) => vec![edit],
            None => entries(&self.data).unwrap_or_default(),
        };
        let mut counted = Vec::new();
        for (item, edit) in edits {
            counted.push(Self::on_sheet(item, edit));
            if is_refused(sheet, item, edit) {
                break;
            }
        }
        counted
    }
}

/// Whether an edit is refused on an accepted sheet.
fn is_refused(sheet: &[u8], item: u32, edit: Edit) -> bool {
    item >= Header::read(sheet).items || refusal(sheet, item as usize, edit) != 0
}

impl fmt::Display for Operation {
    fn fmt(&self, f: &mut fmt::Formatter<'_>) -> fmt::Result {
        write!(f, "{:?}", self.call)?;
        if !self.data.is_empty() {
            write!(f, " with {}", hex(&self.data))?;
        }
        Ok(())
    }
}

/// A number below a count, or now and then one that is not.
fn numbered(random: &mut Random, count: usize) -> u32 {
    if count > 0 && !random.once_in(16) {
        return random.below(count) as u32;
    }
    let count = count as u32;
    random.pick(&[count, count + 1, 255, 256, 65_536, 1 << 31, u32::MAX])
}

fn whitespace(random: &mut Random) -> u32 {
    match random.below(10) {
        0 => 0,
        1 => random.pick(&[65_535, 65_534]),
        2 => random.pick(&[65_536, 65_537, 1 << 31, u32::MAX]),
        _ => random.between(1, 60) as u32,
    }
}

// Texts that fit the slot, fill it, pass it, or are ill-formed.
fn new_text(random: &mut Random, sheet: &SheetModel, item: u32) -> Vec<u8> {
    let Some(item) = sheet.items.get(item as usize) else {
        return random
            .pick(&[b"A" as &[u8], b"\xff", &[b'A'; 300]])
            .to_vec();
    };
    let size = item.slot.len();
    let mapping = &sheet.fonts[item.font as usize].mapping;
    let mut text = generate::text(random, mapping, size);
    match random.below(10) {
        0 => text.resize(size, b'A'),
        1 => text.resize(size + 1 + random.below(3), random.pick(&[b'A', 0xff])),
        2 if size > 0 => {
            if text.is_empty() {
                text.push(b'A');
            }
            let at = random.below(text.len());
            text[at] = random.pick(&[0x80, 0xc0, 0xe2, 0xed, 0xf4, 0xff]);
        }
        3 => text = random.bytes(size.min(8)),
        _ => {}
    }
    text
}

fn new_style(random: &mut Random) -> Vec<u8> {
    let mut style = generate::style(random).to_vec();
    match random.below(8) {
        0 => style.resize(random.below(12), 0),
        1 => {
            let at = random.pick(&[0, 2, 4, 6]);
            style[at] = random.pick(&[2, 3, 255]);
        }
        _ => {}
    }
    style
}

fn new_place(random: &mut Random, sheet: &SheetModel) -> (i32, i32) {
    let mut x = i32::from(generate::place(random, sheet.width, 8));
    let mut y = i32::from(generate::place(random, sheet.height, 8));
    if random.once_in(8) {
        let beyond = random.pick(&[-32_769, 32_768, 65_536, 65_537, i32::MIN, i32::MAX]);
        if random.once_in(2) {
            x = beyond;
        } else {
            y = beyond;
        }
    }
    (x, y)
}

/// A random edit with a frame.
pub fn edit(random: &mut Random, sheet: &SheetModel) -> Operation {
    let item = numbered(random, sheet.items.len());
    let (call, data) = match random.below(3) {
        0 => (Call::SetText { item }, new_text(random, sheet, item)),
        1 => {
            let (x, y) = new_place(random, sheet);
            (Call::SetPlace { item, x, y }, Vec::new())
        }
        _ => (Call::SetStyle { item }, new_style(random)),
    };
    Operation { call, data }
}

/// A random list of edits: most of them are made, so that one that is refused may stand anywhere;
/// and now and then it is damaged.
pub fn edit_list(random: &mut Random, sheet: &SheetModel) -> Operation {
    let bytes = sheet.encode();
    let wanted = match random.below(10) {
        0 => 0,
        1 | 2 => 1,
        9 => random.between(9, 24),
        _ => random.between(2, 8),
    };
    let mut data = Vec::new();
    for _ in 0..wanted {
        let operation = edit(random, sheet);
        if let Some((item, edit)) = operation.edit() {
            if !is_refused(&bytes, item, edit) || random.once_in(4) {
                data.extend(entry(item.min(255) as u8, edit));
            }
        }
    }
    if random.once_in(5) {
        data = damaged_list(random, data);
    }
    let call = Call::EditList;
    Operation { call, data }
}

fn walk(random: &mut Random, sheet: &SheetModel) -> Operation {
    let data = match sheet.items.first() {
        Some(item) if random.once_in(2) => item.text().to_vec(),
        _ => {
            let length = random.below(9);
            let mut line = random.bytes(length);
            line.iter_mut()
                .for_each(|byte| *byte |= if *byte & 1 == 0 { 0x80 } else { 0 });
            line
        }
    };
    let offset = match random.below(8) {
        0 => data.len(),
        1 => random.pick(&[data.len() + 1, usize::MAX, 1 << 32]),
        _ => random.below(data.len().max(1)),
    };
    let call = Call::Walk { offset };
    Operation { call, data }
}

/// A random call on a sheet.
pub fn operation(random: &mut Random, sheet: &SheetModel) -> Operation {
    let item = numbered(random, sheet.items.len());
    let font = numbered(random, sheet.fonts.len());
    let mapping = sheet.fonts.get(font as usize).map(|font| &font.mapping[..]);
    let character = asked(random, mapping.unwrap_or(b"A"));
    let call = match random.below(20) {
        0 => Call::Check,
        1..=3 => Call::Index { font, character },
        4 => Call::Contains { font, character },
        5 => Call::BoundingBox { item },
        6..=10 => Call::DrawItem { item },
        11 => Call::DrawWhitespace {
            item,
            width: whitespace(random),
        },
        12 => Call::Draw,
        13 => Call::WritePage,
        14 => return walk(random, sheet),
        15 => {
            let edit = edit(random, sheet);
            let (item, edit) = edit.edit().expect("an edit");
            return Operation::on_sheet(item, edit);
        }
        16 | 17 => return edit_list(random, sheet),
        _ => return edit(random, sheet),
    };
    Operation::new(call)
}

/// An output's length: mostly the page's, sometimes more, sometimes too few.
pub fn output_length(random: &mut Random, sheet: &SheetModel) -> usize {
    let header = page_header(u32::from(sheet.width), u32::from(sheet.height));
    let page = header.len() + sheet.area();
    match random.below(8) {
        0 => page - 1,
        1 => random.below(page),
        2 => 0,
        3 => page + random.below(20),
        _ => page,
    }
}

/// A frame's length: mostly the right one.
pub fn frame_length(random: &mut Random, sheet: &SheetModel) -> usize {
    match random.below(24) {
        0 => 0,
        1 => sheet.area() - 1,
        2 => sheet.area() + 1,
        _ => sheet.area(),
    }
}
