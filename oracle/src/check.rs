//! The check: refusals 1 to 10 of docs/SHEET.md, Replies and refusals, in the order of its table.

use crate::characters::decode_all;
use crate::fields::{Font, Header, Item, HEADER, RECORD};

/// 0 for an accepted sheet, else its first refusal.
pub fn check(sheet: &[u8]) -> u32 {
    // "Tests 1 to 5 first; then fonts by number, each 6, 7, 8; items, each 9, 10."
    let header = match check_header(sheet) {
        Ok(header) => header,
        Err(code) => return code,
    };
    if !stands_as_laid_out(sheet, &header) {
        return 5;
    }
    let fonts = (0..header.fonts as usize).map(|font| check_font(sheet, font));
    let items = (0..header.items as usize).map(|item| check_item(sheet, item, header.fonts));
    fonts.chain(items).find(|code| *code != 0).unwrap_or(0)
}

fn check_header(sheet: &[u8]) -> Result<Header, u32> {
    // 1: "length outside limits, or unlike the length field; header zero field not 0".
    if !(HEADER..=65_536).contains(&sheet.len()) {
        return Err(1);
    }
    let header = Header::read(sheet);
    if header.length as usize != sheet.len() || header.zero != 0 {
        return Err(1);
    }
    // 2: "edition not 1".
    if header.edition != 1 {
        return Err(2);
    }
    // 3: "frame outside limits".
    let sides = 1..=512;
    if !sides.contains(&header.width) || !sides.contains(&header.height) || header.area() > 65_536 {
        return Err(3);
    }
    // 4: "F or I too large".
    if header.fonts > 4 || header.items > 64 {
        return Err(4);
    }
    Ok(header)
}

// 5: "records or pieces don't stand as laid out". "After the items, without gaps: each font's atlas
// and mapping, then each slot; the last ends the file."
fn stands_as_laid_out(sheet: &[u8], header: &Header) -> bool {
    let (fonts, items) = (header.fonts as usize, header.items as usize);
    let items_at = HEADER + RECORD * fonts;
    let mut end = (items_at + RECORD * items) as u64;
    if header.fonts_offset as usize != HEADER
        || header.items_offset as usize != items_at
        || end > sheet.len() as u64
    {
        return false;
    }
    let mut pieces = Vec::new();
    for font in 0..fonts {
        let font = Font::read(sheet, font);
        pieces.push((font.atlas_offset, font.atlas_length));
        pieces.push((font.mapping_offset, font.mapping_length));
    }
    for item in 0..items {
        let item = Item::read_at(sheet, items_at + RECORD * item);
        pieces.push((item.slot_offset, item.slot_size));
    }
    for (offset, length) in pieces {
        if u64::from(offset) != end {
            return false;
        }
        end += u64::from(length);
    }
    end == sheet.len() as u64
}

fn check_font(sheet: &[u8], font: usize) -> u32 {
    let font = Font::read(sheet, font);
    // 6: "font field outside limits or zero field not 0".
    if font.character_width > 64
        || font.character_height > 64
        || font.spacing > 64
        || font.atlas_width > 1_024
        || font.zero != 0
    {
        return 6;
    }
    // 7: "mapping ill-formed"; 8: "mapping spells too many".
    match decode_all(font.mapping(sheet)) {
        None => 7,
        Some(characters) if spelled(&characters) > 65_536 => 8,
        Some(_) => 0,
    }
}

/// How many characters a mapping's characters spell: "a single character, or 00 then start and end
/// for all from start to end, surrogates skipped. If end < start, none. A 00 lacking start or end
/// stops the list."
pub fn spelled(characters: &[u32]) -> u64 {
    let mut count = 0;
    let mut rest = characters;
    loop {
        rest = match rest {
            [] | [0] | [0, _] => return count,
            [0, start, end, rest @ ..] => {
                count += range_length(*start, *end);
                rest
            }
            [_, rest @ ..] => {
                count += 1;
                rest
            }
        }
    }
}

fn range_length(start: u32, end: u32) -> u64 {
    if end < start {
        return 0;
    }
    let all = u64::from(end - start) + 1;
    // Neither end is a surrogate, so a range has all 2,048 or none.
    if start < 0xd800 && end > 0xdfff {
        all - 2_048
    } else {
        all
    }
}

fn check_item(sheet: &[u8], item: usize, fonts: u32) -> u32 {
    let item = Item::read(sheet, item);
    // 9: "item field outside limits, unknown code, font ≥ F, text past slot, slot tail or zero
    // field not 0".
    if item.slot_size > 256
        || item.height_value > 1_000
        || item.text_mode > 1
        || item.background_mode > 1
        || item.underline_mode > 2
        || item.strikethrough_mode > 2
        || item.alignment > 2
        || item.baseline > 3
        || item.height_kind > 1
        || item.font >= fonts
        || item.text_length > item.slot_size
        || item.zero != 0
    {
        return 9;
    }
    let tail = &item.slot(sheet)[item.text_length as usize..];
    if tail.iter().any(|byte| *byte != 0) {
        return 9;
    }
    // 10: "text ill-formed".
    match decode_all(item.text(sheet)) {
        None => 10,
        Some(_) => 0,
    }
}
