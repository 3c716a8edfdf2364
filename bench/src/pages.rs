//! The measured sheets.

use oracle::characters::push;
use oracle::model::{FontModel, ItemModel, SheetModel};
use oracle::random::Random;
use std::ops::RangeInclusive;

/// ASCII, as the crate has it.
const ASCII: &str = "\0\u{20}\u{7f}";

/// A mapping of 65,536 characters in one range.
const LARGEST: &str = "\0\u{10000}\u{1ffff}";

/// ASCII, Latin and Greek, 464 characters in three ranges.
const GREEK: &str = "\0\u{20}\u{7f}\0\u{a0}\u{17f}\0\u{370}\u{3ff}";

/// A font whose atlas has 16 glyphs in a row, and six rows.
fn font(character_width: u8, character_height: u8, mapping: &str) -> FontModel {
    font_of_rows(character_width, character_height, 6, mapping)
}

fn font_of_rows(
    character_width: u8,
    character_height: u8,
    rows: usize,
    mapping: &str,
) -> FontModel {
    let atlas_width = u16::from(character_width) * 16;
    let rows = usize::from(character_height) * rows;
    FontModel {
        atlas: Random::new(1).bytes(rows * usize::from(atlas_width).div_ceil(8)),
        mapping: mapping.into(),
        replacement: 31,
        atlas_width,
        character_width,
        character_height,
        spacing: 0,
        baseline: character_height - 2,
        strikethrough: [character_height / 2, 1],
        underline: [character_height, 1],
        zero: 0,
    }
}

fn line(x: usize, y: usize, text: &[u8], background: u8) -> ItemModel {
    let mut item = ItemModel {
        x: x as i16,
        y: y as i16,
        style: [1, 20, background, 230, 0, 0, 0, 0],
        height_kind: 1,
        height_value: 100,
        ..ItemModel::default()
    };
    item.set_text(text, 0);
    item
}

/// Some letters of ASCII.
pub fn letters(seed: u64, count: usize) -> Vec<u8> {
    let mut random = Random::new(seed);
    (0..count).map(|_| random.between(33, 126) as u8).collect()
}

/// A gauge reading: the numbers of twelve of 64 lines, and a new text of 32 characters for each.
/// Another `number` has other texts.
pub fn reading(number: u64) -> Vec<(u8, Vec<u8>)> {
    let text = |line: u8| letters(100 + 12 * number + u64::from(line), 32);
    (0..12).map(|line| (5 * line + 3, text(line))).collect()
}

fn sheet(width: u16, height: u16, font: FontModel) -> SheetModel {
    SheetModel {
        width,
        height,
        paper: 255,
        fonts: vec![font],
        items: Vec::new(),
    }
}

/// 64 lines of 32 characters on 320 × 200, in two columns, with or without a background.
pub fn lines(background: u8) -> SheetModel {
    let mut sheet = sheet(320, 200, font(5, 6, ASCII));
    for number in 0..64 {
        let (x, y) = (number % 2 * 160, number / 2 * 6);
        let text = letters(number as u64, 32);
        sheet.items.push(line(x, y, &text, background));
    }
    sheet
}

/// The same lines all hanging under the lower edge: the first `shown` rows of each are on the frame.
pub fn hanging(shown: usize) -> SheetModel {
    let mut sheet = lines(1);
    for item in &mut sheet.items {
        item.y = (usize::from(sheet.height) - shown) as i16;
    }
    sheet
}

/// 64 lines of 32 characters on 320 × 200, 3 rows apart: each ink box overlaps two others.
pub fn overlapping() -> SheetModel {
    let mut sheet = sheet(320, 200, font(5, 6, ASCII));
    for number in 0..64 {
        let text = letters(number as u64, 32);
        sheet.items.push(line(0, number * 3, &text, 1));
    }
    sheet
}

/// 256 × 256, every pixel painted by one of 64 lines of 64 characters.
pub fn dense() -> SheetModel {
    let mut sheet = sheet(256, 256, font(4, 4, ASCII));
    for number in 0..64 {
        let text = letters(number as u64, 64);
        sheet.items.push(line(0, number * 4, &text, 1));
    }
    sheet
}

/// Eight characters at the end of a mapping of 65,536.
pub fn last_characters() -> SheetModel {
    let mut sheet = sheet(320, 200, font(5, 6, LARGEST));
    let mut text = Vec::new();
    for character in '\u{1fff8}'..='\u{1ffff}' {
        push(&mut text, character);
    }
    sheet.items.push(line(10, 10, &text, 1));
    sheet
}

/// The characters of ranges, one by one.
fn singly(ranges: &[RangeInclusive<char>]) -> String {
    ranges.iter().cloned().flatten().collect()
}

/// 25 lines of 32 Greek letters on 320 × 200, with the same 464 characters in three ranges or listed singly.
pub fn greek(listed_singly: bool) -> SheetModel {
    let mapping = if listed_singly {
        singly(&[' '..='\u{7f}', '\u{a0}'..='\u{17f}', '\u{370}'..='\u{3ff}'])
    } else {
        GREEK.to_string()
    };
    let mut sheet = sheet(320, 200, font_of_rows(8, 8, 29, &mapping));
    for number in 0..25 {
        let mut random = Random::new(number as u64);
        let letter = |_| char::from_u32(random.between(0x391, 0x3c9) as u32).unwrap();
        let text: String = (0..32).map(letter).collect();
        sheet.items.push(line(0, number * 8, text.as_bytes(), 1));
    }
    sheet
}

/// Four lines of 16 characters at the end of 20,000 that are listed singly.
pub fn last_listed() -> SheetModel {
    let mapping = singly(&['\u{4e00}'..='\u{9c1f}']);
    let mut sheet = sheet(320, 200, font(5, 6, &mapping));
    for number in 0..4 {
        let first = 0x9c20 - 64 + number as u32 * 16;
        let text: String = (first..first + 16).filter_map(char::from_u32).collect();
        sheet.items.push(line(10, number * 8, text.as_bytes(), 1));
    }
    sheet
}

/// A full file: 47,000 characters listed singly, and 64 lines of 256 characters that are not listed.
pub fn unlisted() -> SheetModel {
    let mapping: String = ('A'..='Z').cycle().take(47_000).collect();
    let mut sheet = sheet(512, 128, font(2, 2, &mapping));
    for number in 0..64 {
        let mut random = Random::new(number as u64);
        let text: Vec<u8> = (0..256).map(|_| random.between(97, 122) as u8).collect();
        sheet.items.push(line(0, number * 2, &text, 1));
    }
    sheet
}

/// No item.
pub fn empty() -> SheetModel {
    SheetModel {
        width: 320,
        height: 200,
        paper: 255,
        ..SheetModel::default()
    }
}

/// One glyph of a font of ASCII.
pub fn glyph() -> SheetModel {
    let mut sheet = sheet(320, 200, font(8, 13, ASCII));
    sheet.items.push(line(10, 10, b"A", 1));
    sheet
}
