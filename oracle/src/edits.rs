//! Rectangles, the damage rectangle and the edits on a sheet's bytes: docs/SHEET.md, Drawing
//! and edits.

use crate::characters::decode_all;
use crate::fields::{Header, Item};
use crate::reply::{Area, Batch, Edit};

/// "A rectangle (left, top, width, height)".
#[derive(Debug, Clone, Copy, PartialEq, Eq, Default)]
pub struct Rect {
    pub left: i32,
    pub top: i32,
    pub width: u32,
    pub height: u32,
}

impl Rect {
    /// The rectangle, if it covers a pixel.
    pub fn unless_empty(self) -> Option<Self> {
        (self.width > 0 && self.height > 0).then_some(self)
    }

    fn right(&self) -> i32 {
        self.left + self.width as i32
    }

    fn bottom(&self) -> i32 {
        self.top + self.height as i32
    }

    /// Whether both cover a pixel.
    pub fn meets(&self, other: &Self) -> bool {
        let (right, bottom) = (self.right(), self.bottom());
        self.left < other.right()
            && other.left < right
            && self.top < other.bottom()
            && other.top < bottom
    }

    fn between(left: i32, top: i32, right: i32, bottom: i32) -> Option<Self> {
        (left < right && top < bottom).then(|| Self {
            left,
            top,
            width: (right - left) as u32,
            height: (bottom - top) as u32,
        })
    }
}

/// The smallest rectangle that holds both.
pub fn join(one: Option<Rect>, other: Option<Rect>) -> Option<Rect> {
    let (Some(a), Some(b)) = (one, other) else {
        return one.or(other);
    };
    Rect::between(
        a.left.min(b.left),
        a.top.min(b.top),
        a.right().max(b.right()),
        a.bottom().max(b.bottom()),
    )
}

/// "The damage rectangle is the smallest holding the boxes before and after, cut to the frame;
/// (0, 0, 0, 0) if empty."
pub fn damage(before: Option<Rect>, after: Option<Rect>, header: &Header) -> Rect {
    let cut = join(before, after).and_then(|both| {
        Rect::between(
            both.left.max(0),
            both.top.max(0),
            both.right().min(header.width as i32),
            both.bottom().min(header.height as i32),
        )
    });
    cut.unwrap_or_default()
}

/// "Each entry is an edit kind (0 text, 1 place, 2 style; 1 byte), item number (1), data length (2)
/// and data; place data are two signed 32-bit numbers, x and y." None for "a list whose entries
/// don't fill it exactly, have an unknown kind or a place not 8 bytes long".
pub fn entries(list: &[u8]) -> Option<Vec<(u32, Edit<'_>)>> {
    let mut entries = Vec::new();
    let mut rest = list;
    while let [kind, item, low, high, data @ ..] = rest {
        let (data, behind) = data.split_at_checked(u16::from_le_bytes([*low, *high]).into())?;
        let edit = match kind {
            0 => Edit::Text(data),
            1 => {
                let number = |at| data[at..at + 4].try_into().map(i32::from_le_bytes).ok();
                if data.len() != 8 {
                    return None;
                }
                Edit::Place(number(0)?, number(4)?)
            }
            2 => Edit::Style(data),
            _ => return None,
        };
        entries.push((u32::from(*item), edit));
        rest = behind;
    }
    rest.is_empty().then_some(entries)
}

/// A list cut behind each entry; the last piece is what is left.
pub fn pieces(list: &[u8]) -> Vec<&[u8]> {
    let mut pieces = Vec::new();
    let mut rest = list;
    while !rest.is_empty() {
        let size = match rest {
            [_, _, low, high, ..] => 4 + usize::from(u16::from_le_bytes([*low, *high])),
            _ => rest.len(),
        };
        let (piece, behind) = rest.split_at(size.min(rest.len()));
        pieces.push(piece);
        rest = behind;
    }
    pieces
}

/// An entry of a list.
pub fn entry(item: u8, edit: Edit) -> Vec<u8> {
    let (kind, data) = match edit {
        Edit::Text(text) => (0, text.to_vec()),
        Edit::Place(x, y) => (1, [x.to_le_bytes(), y.to_le_bytes()].concat()),
        Edit::Style(style) => (2, style.to_vec()),
    };
    let [low, high] = (data.len() as u16).to_le_bytes();
    [&[kind, item, low, high], &data[..]].concat()
}

/// "The reply gives the number made, that refusal or 0, and the smallest rectangle holding the
/// nonempty ones of the edits made, else four zeros." From the replies to a list's edits, made
/// singly up to the first refused one.
pub fn batch(replies: impl IntoIterator<Item = Area>) -> Batch {
    let mut batch = Batch::default();
    let mut joined = None;
    for reply in replies {
        if reply.code != 0 {
            batch.code = reply.code;
            break;
        }
        let rect = Rect {
            left: reply.left,
            top: reply.top,
            width: reply.width,
            height: reply.height,
        };
        batch.made += 1;
        joined = join(joined, rect.unless_empty());
    }
    let rect = joined.unwrap_or_default();
    Batch {
        left: rect.left,
        top: rect.top,
        width: rect.width,
        height: rect.height,
        ..batch
    }
}

/// The edit's own refusal on an accepted sheet with that item, 13 to 16, or 0.
pub fn refusal(sheet: &[u8], item: usize, edit: Edit) -> u32 {
    match edit {
        Edit::Text(text) => {
            // 13: "new text past slot"; 14: "new text ill-formed".
            if text.len() > Item::read(sheet, item).slot_size as usize {
                return 13;
            }
            if decode_all(text).is_none() {
                return 14;
            }
        }
        Edit::Place(x, y) => {
            // 15: "new x or y outside −32,768 to 32,767".
            let places = -32_768..=32_767;
            if !places.contains(&x) || !places.contains(&y) {
                return 15;
            }
        }
        Edit::Style(style) => {
            // 16: "style not 8 bytes, or unknown mode".
            let [text, _, background, _, underline, _, strikethrough, _] = *style else {
                return 16;
            };
            if text > 1 || background > 1 || underline > 2 || strikethrough > 2 {
                return 16;
            }
        }
    }
    0
}

/// Makes an edit that is not refused: "new text with its length field (then 00 to the slot's end);
/// new x and y; new bytes 13 to 20 of an item".
pub fn make(sheet: &mut [u8], item: usize, edit: Edit) {
    let record = Item::read(sheet, item);
    match edit {
        Edit::Text(text) => {
            let start = record.slot_offset as usize;
            let slot = &mut sheet[start..start + record.slot_size as usize];
            slot.fill(0);
            slot[..text.len()].copy_from_slice(text);
            let length = text.len() as u16;
            sheet[record.at + 10..record.at + 12].copy_from_slice(&length.to_le_bytes());
        }
        Edit::Place(x, y) => {
            sheet[record.at..record.at + 2].copy_from_slice(&(x as i16).to_le_bytes());
            sheet[record.at + 2..record.at + 4].copy_from_slice(&(y as i16).to_le_bytes());
        }
        Edit::Style(style) => sheet[record.at + 13..record.at + 21].copy_from_slice(style),
    }
}
