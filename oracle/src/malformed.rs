//! Damage to sheets: each field outside its limits, ill-formed texts and mappings, pieces that do
//! not stand as laid out, cut and lengthened files, random bytes. Damage to lists of edits.

use crate::fields::{HEADER, RECORD};
use crate::model::{FontModel, ItemModel, SheetModel};
use crate::random::Random;

/// Sequences that RFC 3629 does not allow.
const ILL_FORMED: [&[u8]; 16] = [
    b"\x80",
    b"\xbf",
    b"\xc0\x80",
    b"\xc1\xbf",
    b"\xc3",
    b"\xc3A",
    b"\xe0\x9f\xbf",
    b"\xe2\x89",
    b"\xed\xa0\x80",
    b"\xed\xbf\xbf",
    b"\xf0\x8f\xbf\xbf",
    b"\xf0\x9f\x98",
    b"\xf4\x90\x80\x80",
    b"\xf5\x80\x80\x80",
    b"\xfe",
    b"\xff",
];

/// Mappings that spell more than 65,536.
const TOO_MANY: [&str; 6] = [
    "\0\u{10000}\u{20000}",
    "\0\0\u{10ffff}",
    "A\0\0\u{107ff}",
    "\0\u{100000}\u{10ffff}\0\u{61}\u{61}",
    "\0\0\u{7fff}\0\0\u{7fff}A",
    "A\0\u{10000}\u{1fffe}A",
];

fn ill_formed(random: &mut Random, bytes: &[u8]) -> Vec<u8> {
    let at = random.below(bytes.len() + 1);
    let sequence: &[u8] = random.pick(&ILL_FORMED);
    [&bytes[..at], sequence, &bytes[at..]].concat()
}

fn damage_font(random: &mut Random, font: &mut FontModel) {
    let over = random.pick(&[65, 66, 128, 255]);
    match random.below(10) {
        0 => font.character_width = over,
        1 => font.character_height = over,
        2 => font.spacing = over,
        3 => font.atlas_width = random.pick(&[1_025, 1_026, 32_768, 65_535]),
        4 => font.zero = random.pick(&[1, 256, 65_535]),
        5..=7 => font.mapping = ill_formed(random, &font.mapping),
        8 => font.mapping = random.pick(&TOO_MANY).into(),
        _ => {
            // Thousands of millions: the count leaves 32 bits.
            font.mapping = "\0\0\u{10ffff}".repeat(4_000).into();
        }
    }
}

fn damage_item(random: &mut Random, item: &mut ItemModel) {
    match random.below(16) {
        0 => item.style[0] = random.pick(&[2, 3, 255]),
        1 => item.style[2] = random.pick(&[2, 3, 255]),
        2 => item.style[4] = random.pick(&[3, 4, 255]),
        3 => item.style[6] = random.pick(&[3, 4, 255]),
        4 => item.alignment = random.pick(&[3, 4, 255]),
        5 => item.baseline = random.pick(&[4, 5, 255]),
        6 => item.height_kind = random.pick(&[2, 3, 255]),
        7 => item.height_value = random.pick(&[1_001, 1_024, 65_535]),
        8 => item.zero = random.pick(&[1, 256, 65_535]),
        9 => item.font = random.pick(&[item.font.wrapping_add(4), 4, 255]),
        10 => item.text_length = (item.slot.len() + 1 + random.below(4)) as u16,
        11 => item.slot.resize(random.pick(&[257, 258, 300, 513]), 0),
        12 => push_tail(random, item),
        13 => {
            set_ill_formed(random, item);
            push_tail(random, item);
        }
        _ => set_ill_formed(random, item),
    }
}

// Slot bytes past the text, one of them not 00.
fn push_tail(random: &mut Random, item: &mut ItemModel) {
    let mut tail = vec![0; random.below(4)];
    tail.push(random.pick(&[1, 0x41, 0xff]));
    tail.resize(tail.len() + random.below(3), 0);
    item.slot.extend_from_slice(&tail);
}

fn set_ill_formed(random: &mut Random, item: &mut ItemModel) {
    let length = usize::from(item.text_length).min(item.slot.len());
    let mut text = ill_formed(random, &item.slot[..length]);
    let tail = random.below(3);
    text.truncate(256 - tail);
    item.set_text(&text, tail);
}

fn set_field(sheet: &mut [u8], at: usize, length: usize, value: u32) {
    if at + length <= sheet.len() {
        sheet[at..at + length].copy_from_slice(&value.to_le_bytes()[..length]);
    }
}

fn get_field(sheet: &[u8], at: usize, length: usize) -> u32 {
    if at + length <= sheet.len() {
        crate::fields::number(sheet, at, length)
    } else {
        0
    }
}

fn damage_header(random: &mut Random, sheet: &mut [u8]) {
    let fields: [(usize, usize, &[u32]); 9] = [
        (0, 2, &[0, 2, 256, 257]),
        (2, 2, &[0, 513, 512, 32_768, 65_535]),
        (4, 2, &[0, 513, 512, 32_768, 65_535]),
        (7, 1, &[5, 6, 255]),
        (8, 2, &[65, 66, 256, 65_535]),
        (10, 2, &[1, 256, 65_535]),
        (12, 4, &[0, 23, 25, 28, u32::MAX]),
        (16, 4, &[0, 24, 52, 80, u32::MAX]),
        (20, 4, &[0, 24, 65_536, 65_537, u32::MAX]),
    ];
    let (at, length, values) = random.pick(&fields);
    set_field(sheet, at, length, random.pick(values));
}

/// Where the layout's numbers stand in a record: (field, length).
fn layout_fields(sheet: &SheetModel) -> Vec<(usize, usize)> {
    let mut fields = vec![(12, 4), (16, 4), (20, 4)];
    for font in 0..sheet.fonts.len() {
        let at = HEADER + RECORD * font;
        fields.extend([(at, 4), (at + 4, 4), (at + 8, 4), (at + 12, 2)]);
    }
    for item in 0..sheet.items.len() {
        let at = HEADER + RECORD * (sheet.fonts.len() + item);
        fields.extend([(at + 4, 4), (at + 8, 2)]);
    }
    fields
}

fn damage_layout(random: &mut Random, model: &SheetModel, sheet: &mut [u8]) {
    let (at, length) = random.pick(&layout_fields(model));
    let value = get_field(sheet, at, length);
    let other = match random.below(5) {
        0 => value.wrapping_add(1),
        1 => value.wrapping_sub(1),
        2 => value ^ 1 << random.below(length * 8),
        3 => random.number(),
        _ => random.pick(&[0, u32::MAX, 1 << 31, 65_536]),
    };
    set_field(sheet, at, length, other);
}

// Lengths whose sum is right only if it is cut to 32 bits.
fn wrap_sums(random: &mut Random, model: &SheetModel, sheet: &mut [u8]) {
    if model.fonts.is_empty() {
        return;
    }
    let font = random.below(model.fonts.len());
    let at = HEADER + RECORD * font;
    let pieces = (model.fonts[font].atlas.len() + model.fonts[font].mapping.len()) as u32;
    let back = 1 + random.below(100) as u32;
    if pieces + back > 65_535 {
        return;
    }
    let atlas_offset = get_field(sheet, at, 4);
    set_field(sheet, at + 4, 4, back.wrapping_neg());
    set_field(sheet, at + 8, 4, atlas_offset.wrapping_sub(back));
    set_field(sheet, at + 12, 2, pieces + back);
}

fn damage_length(random: &mut Random, sheet: &mut Vec<u8>) {
    match random.below(6) {
        0 => sheet.truncate(random.below(sheet.len() + 1)),
        1 => sheet.truncate(random.below(30)),
        2 => sheet.resize(sheet.len() + 1 + random.below(5), 0),
        3 => sheet.resize(random.pick(&[65_536, 65_537, 70_000]), 0),
        4 => {
            sheet.pop();
        }
        _ => sheet.push(0),
    }
    // The length field may agree all the same.
    if random.once_in(2) {
        let length = sheet.len() as u32;
        set_field(sheet, 20, 4, length);
    }
}

fn damage_bytes(random: &mut Random, sheet: &mut [u8]) {
    for _ in 0..random.between(1, 3) {
        // Mostly in the records.
        let end = if random.once_in(3) {
            sheet.len()
        } else {
            sheet.len().min(200)
        };
        if end == 0 {
            return;
        }
        let at = random.below(end);
        sheet[at] = match random.below(3) {
            0 => random.byte(),
            1 => sheet[at] ^ 1 << random.below(8),
            _ => random.pick(&[0, 1, 255]),
        };
    }
}

fn random_bytes(random: &mut Random) -> Vec<u8> {
    let length = random.below(240);
    let mut sheet = random.bytes(length);
    if random.once_in(2) && length >= HEADER {
        let header = [1, 0, 8, 0, 8, 0, 0, 1, 1, 0, 0, 0, 24, 0, 0, 0, 52, 0, 0, 0];
        sheet[..20].copy_from_slice(&header);
        set_field(&mut sheet, 20, 4, length as u32);
    }
    sheet
}

/// A sheet with one to three faults of any kind; now and then the faults are none.
pub fn damaged(random: &mut Random, model: &SheetModel) -> Vec<u8> {
    if random.once_in(20) {
        return random_bytes(random);
    }
    let mut model = model.clone();
    let kinds = random.below(8);
    if kinds < 5 {
        for _ in 0..random.between(1, 2) {
            let (fonts, items) = (model.fonts.len(), model.items.len());
            if items > 0 && random.once_in(2) {
                let item = random.below(items);
                damage_item(random, &mut model.items[item]);
            } else if fonts > 0 {
                let font = random.below(fonts);
                damage_font(random, &mut model.fonts[font]);
            }
        }
        // Too many fonts or items, laid out right.
        if random.once_in(24) {
            model.fonts.resize(5, FontModel::default());
        }
        if random.once_in(24) {
            model.items.resize(65, ItemModel::default());
        }
    }
    let mut sheet = model.encode();
    sheet.truncate(72_000);
    if kinds >= 4 {
        match random.below(10) {
            0..=2 => damage_header(random, &mut sheet),
            3..=5 => damage_layout(random, &model, &mut sheet),
            6 => wrap_sums(random, &model, &mut sheet),
            7 => damage_length(random, &mut sheet),
            _ => damage_bytes(random, &mut sheet),
        }
    }
    sheet
}

/// A list with a cut or unknown entry, a place of another length, or a byte changed.
pub fn damaged_list(random: &mut Random, mut list: Vec<u8>) -> Vec<u8> {
    let place = random.pick(&[0, 1, 4, 7, 9, 12, 16]);
    let entry = match random.below(6) {
        0 => {
            list.truncate(random.below(list.len() + 1));
            return list;
        }
        1 if !list.is_empty() => {
            let at = random.below(list.len());
            list[at] = random.pick(&[0, 1, 2, 3, 8, 255, list[at] ^ 1]);
            return list;
        }
        2 => vec![0; random.below(4)],
        3 => vec![random.pick(&[3, 4, 128, 255]), 0, 0, 0],
        4 => [&[0, 0, 1, random.pick(&[0, 1, 255])], &[b'A'; 3][..]].concat(),
        _ => [vec![1, 0, place, 0], vec![0; place.into()]].concat(),
    };
    if random.once_in(3) {
        return [entry, list].concat();
    }
    [list, entry].concat()
}
