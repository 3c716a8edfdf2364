//! Random accepted sheets of every kind.

use crate::characters::push;
use crate::mappings::{any_character, beside, listed, mapping};
use crate::model::{FontModel, ItemModel, SheetModel};
use crate::random::Random;

/// How large the sheets are.
#[derive(Debug, Clone, Copy, PartialEq, Eq)]
pub enum Scale {
    /// Up to the limits of docs/SHEET.md, Sheet.
    Full,
    /// Some hundred bytes, for a stored list.
    Small,
}

fn frame(random: &mut Random, scale: Scale) -> (u16, u16) {
    let (width, height) = match random.below(if scale == Scale::Small { 12 } else { 40 }) {
        0 => (1, random.between(1, 20)),
        1 => (random.between(1, 20), 1),
        2..=11 => (random.between(2, 16), random.between(2, 10)),
        12..=35 => (random.between(8, 64), random.between(6, 40)),
        36 => (512, random.between(1, 128)),
        37 => (random.between(1, 128), 512),
        38 => (random.between(1, 256), random.between(1, 256)),
        _ => random.pick(&[(256, 256), (320, 200), (512, 128), (1, 512), (512, 1)]),
    };
    (width as u16, height as u16)
}

fn side(random: &mut Random, scale: Scale) -> u8 {
    match random.below(16) {
        0 => 0,
        1 if scale == Scale::Full => random.pick(&[63, 64]),
        2 if scale == Scale::Full => random.between(9, 40) as u8,
        3..=6 => random.between(5, 9) as u8,
        _ => random.between(1, 4) as u8,
    }
}

fn decoration(random: &mut Random, height: u8) -> [u8; 2] {
    match random.below(12) {
        0 => [0, 0],
        1 => [255, 255],
        2 => [random.byte(), random.byte()],
        3 => [0, random.between(1, 3) as u8],
        _ => [
            random.between(0, i32::from(height) + 2) as u8,
            random.between(0, 2) as u8,
        ],
    }
}

/// Four atlases of this length leave room for the largest mappings and slots.
const MOST_ATLAS: usize = 10_000;

// Whole atlases for ASCII; wide, odd, narrow and short ones, with spare bytes and columns.
fn atlas(random: &mut Random, scale: Scale, cw: u16, ch: usize) -> (Vec<u8>, u16) {
    if scale == Scale::Full && random.once_in(3) {
        let width = cw * random.pick(&[16, 12, 13]);
        let length = ch * random.pick(&[6, 8, 7]) * usize::from(width).div_ceil(8);
        return (random.bytes(length.min(MOST_ATLAS)), width);
    }
    let most = if scale == Scale::Small { 24 } else { 160 };
    let width = match random.below(14) {
        0 => 0,
        1 => cw.saturating_sub(1),
        2 if scale == Scale::Full => random.pick(&[1_024, 1_023, 1_017]),
        3 => random.between(0, most) as u16,
        4 | 5 => cw,
        _ => (cw * random.between(1, 6) as u16 + random.between(0, 3) as u16).min(1_024),
    };
    let row = usize::from(width).div_ceil(8);
    let cells = random.between(0, if scale == Scale::Small { 2 } else { 5 }) as usize;
    let is_short = random.once_in(6);
    let rows = match random.below(10) {
        _ if is_short => (ch * cells.max(1)).saturating_sub(1),
        0 => 0,
        1 => ch * cells + 1,
        _ => ch * cells.max(1),
    };
    // A last row that lacks a byte does not count, also where the cells lack that row.
    let spare = match random.below(if is_short { 2 } else { 6 }) {
        0 => row.saturating_sub(1),
        1 => random.below(4),
        _ => 0,
    };
    let length = (rows * row + spare).min(if scale == Scale::Small {
        64
    } else {
        MOST_ATLAS
    });
    (random.bytes(length), width)
}

/// A font whose every measure is the largest.
fn largest_font(random: &mut Random) -> FontModel {
    FontModel {
        atlas: random.bytes(2 * 64 * 8),
        atlas_width: 64,
        mapping: b"AB".to_vec(),
        replacement: 1,
        character_width: 64,
        character_height: 64,
        spacing: 64,
        baseline: 255,
        strikethrough: [255, 255],
        underline: [255, 255],
        zero: 0,
    }
}

/// A random font.
pub fn font(random: &mut Random, scale: Scale) -> FontModel {
    if scale == Scale::Full && random.once_in(30) {
        return largest_font(random);
    }
    let character_width = side(random, scale);
    let character_height = side(random, scale);
    let (atlas, atlas_width) = atlas(
        random,
        scale,
        u16::from(character_width),
        usize::from(character_height),
    );
    FontModel {
        atlas,
        atlas_width,
        mapping: mapping(random),
        replacement: match random.below(8) {
            0 => random.pick(&[65_535, 32_768, 1_000]),
            1 => random.number() as u16,
            _ => random.between(0, 8) as u16,
        },
        character_width,
        character_height,
        spacing: match random.below(12) {
            0 if scale == Scale::Full => random.pick(&[63, 64]),
            1..=5 => 0,
            _ => random.between(1, 4) as u8,
        },
        baseline: match random.below(10) {
            0 => random.byte(),
            1 => 255,
            _ => random.between(0, i32::from(character_height)) as u8,
        },
        strikethrough: decoration(random, character_height),
        underline: decoration(random, character_height),
        zero: 0,
    }
}

/// A random well-formed text of at most so many bytes, in a font of the given mapping.
pub fn text(random: &mut Random, mapping: &[u8], most: usize) -> Vec<u8> {
    let wanted = match random.below(20) {
        0 | 1 => 0,
        2..=11 => random.between(1, 6) as usize,
        12..=17 => random.between(7, 20) as usize,
        18 => random.between(21, 256) as usize,
        _ => 256,
    };
    // The most lines and the widest line.
    if random.once_in(60) {
        return vec![random.pick(b"\n\rA"); wanted.min(most)];
    }
    let mut text = Vec::new();
    let mut last = Vec::new();
    for _ in 0..wanted {
        let mut next = Vec::new();
        match random.below(24) {
            0 => next.push(b'\n'),
            1 => next.push(b'\r'),
            2 => next.extend_from_slice(b"\r\n"),
            3 => {
                next.extend_from_slice(random.pick(&[b"\r\r\n" as &[u8], b"\n\n", b"\n\r", b"\0"]))
            }
            4 => push(&mut next, any_character(random)),
            5 => push(&mut next, '\u{10ffff}'),
            6 => push(&mut next, beside(random, mapping)),
            7 | 8 => next.clone_from(&last),
            _ => push(&mut next, listed(random, mapping)),
        }
        if text.len() + next.len() > most {
            break;
        }
        text.extend_from_slice(&next);
        last = next;
    }
    text
}

/// Eight random style bytes with known modes; unused greys are random too.
pub fn style(random: &mut Random) -> [u8; 8] {
    let mut style = [0; 8];
    style.iter_mut().for_each(|byte| *byte = random.byte());
    // Text and background are both, one or neither set.
    let greys = random.pick(&[(1, 1), (1, 1), (1, 0), (1, 0), (0, 1), (0, 0)]);
    (style[0], style[2]) = greys;
    style[4] = random.below(3) as u8;
    style[6] = random.below(3) as u8;
    style
}

/// A random place: mostly near the frame, sometimes such that only a text's end reaches it, and
/// sometimes an extreme one.
pub fn place(random: &mut Random, side: u16, step: i32) -> i16 {
    let side = i32::from(side);
    let place = match random.below(40) {
        0 => random.pick(&[-32_768, -32_767, 32_766, 32_767]),
        1 => random.between(-32_768, 32_767),
        2 => random.between(-700, 700),
        3 | 4 => -step * random.between(0, 255) + random.between(-3, 3),
        5 => step * random.between(0, 255) + random.between(-3, 3),
        6..=12 => random.between(-8, side + 4),
        _ => random.between(0, side - 1),
    };
    place as i16
}

fn item(random: &mut Random, scale: Scale, sheet: &SheetModel) -> ItemModel {
    let font = random.below(sheet.fonts.len());
    let chosen = &sheet.fonts[font];
    let most = if scale == Scale::Small { 24 } else { 256 };
    let step = i32::from(chosen.character_width) + i32::from(chosen.spacing);
    let mut item = ItemModel {
        x: place(random, sheet.width, step),
        y: place(random, sheet.height, i32::from(chosen.character_height)),
        font: font as u8,
        style: style(random),
        alignment: random.below(3) as u8,
        baseline: random.below(4) as u8,
        height_kind: random.below(2) as u8,
        height_value: match random.below(10) {
            0 => 0,
            1 => random.pick(&[1_000, 999]),
            2 => random.between(0, 1_000) as u16,
            3..=5 => random.between(1, 9) as u16,
            _ => random.pick(&[100, 100, 50, 99, 101, 120, 150, 199]),
        },
        ..ItemModel::default()
    };
    let text = text(random, &chosen.mapping, most);
    let tail = match random.below(8) {
        0 => most - text.len(),
        1..=4 => 0,
        _ => random.between(0, 12).min((most - text.len()) as i32) as usize,
    };
    item.set_text(&text, tail);
    item
}

/// A random sheet that is accepted.
pub fn sheet(random: &mut Random, scale: Scale) -> SheetModel {
    let (width, height) = frame(random, scale);
    let mut sheet = SheetModel {
        width,
        height,
        paper: random.byte(),
        ..SheetModel::default()
    };
    let small = scale == Scale::Small;
    let fonts = match random.below(12) {
        0 => 0,
        1..=6 => 1,
        7..=9 => 2,
        10 => 3,
        _ => 4,
    };
    for _ in 0..if small { fonts.min(2) } else { fonts } {
        sheet.fonts.push(font(random, scale));
    }
    let items = match random.below(20) {
        _ if fonts == 0 => 0,
        0 => 0,
        1..=9 => random.between(1, 3),
        10..=17 => random.between(2, 8),
        18 => random.between(9, 63),
        _ => 64,
    };
    for _ in 0..if small { items.min(3) } else { items } {
        let item = item(random, scale, &sheet);
        sheet.items.push(item);
    }
    while sheet.length() > 65_536 {
        sheet.items.pop();
    }
    // The longest file: spare bytes of an atlas fill it.
    if !small && random.once_in(60) {
        let left = 65_536 - sheet.length();
        if let Some(font) = sheet.fonts.last_mut() {
            font.atlas.resize(font.atlas.len() + left, 0xa5);
        }
    }
    sheet
}
