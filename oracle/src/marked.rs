//! The marked lines of docs/SHEET.md, Worked examples, and RFC 3629's examples, asked of anyone
//! who answers the calls.

use crate::model::{FontModel, ItemModel, SheetModel};
use crate::reply::{Drawn, Edit, Glyph, Number, Station, Step};

/// The grey of a pixel that a call leaves untouched.
const UNTOUCHED: u8 = 0xee;

/// "Atlas 4 wide, bytes 90 60; cw = ch = 2, s = 1, baseline 1, mapping `AB`, replacement 1,
/// strikethrough 0 and 1, underline 3 and 1."
pub fn sample_font() -> FontModel {
    FontModel {
        atlas: vec![0x90, 0x60],
        mapping: b"AB".to_vec(),
        replacement: 1,
        atlas_width: 4,
        character_width: 2,
        character_height: 2,
        spacing: 1,
        baseline: 1,
        strikethrough: [0, 1],
        underline: [3, 1],
        zero: 0,
    }
}

/// An item of a text with the given modes and greys: "Left, Top, at (0, 0)".
pub fn sample_item(text: &[u8], style: [u8; 8]) -> ItemModel {
    let mut item = ItemModel {
        style,
        height_kind: 1,
        height_value: 100,
        ..ItemModel::default()
    };
    item.set_text(text, 0);
    item
}

fn sample(text: &[u8], style: [u8; 8]) -> SheetModel {
    SheetModel {
        width: 8,
        height: 4,
        paper: 200,
        fonts: vec![sample_font()],
        items: vec![sample_item(text, style)],
    }
}

const BOTH: [u8; 8] = [1, 9, 1, 5, 0, 0, 0, 0];
const TEXT: [u8; 8] = [1, 9, 0, 0, 0, 0, 0, 0];

/// What is asked, and whether the answer is the expected one.
pub type Marked = (String, bool);

fn drawn(station: &dyn Station, sheet: &SheetModel, rows: [&str; 4], reply: Drawn) -> bool {
    let mut frame = vec![UNTOUCHED; sheet.area()];
    let drawn = station.draw_item(&sheet.encode(), &mut frame, 0);
    let expected: Vec<u8> = rows
        .concat()
        .bytes()
        .map(|grey| if grey == b'.' { UNTOUCHED } else { grey - b'0' })
        .collect();
    drawn == reply && frame == expected
}

/// The reply of an item whose next position lies in row 0.
fn ends_at(x: i32, replaced: u32) -> Drawn {
    Drawn {
        code: 0,
        x,
        y: 0,
        replaced,
    }
}

fn next_position(station: &dyn Station, sheet: &SheetModel) -> (i32, i32) {
    let mut frame = vec![UNTOUCHED; sheet.area()];
    let position = station.draw_item(&sheet.encode(), &mut frame, 0);
    (position.x, position.y)
}

fn pixels(station: &dyn Station, marked: &mut Vec<Marked>) {
    let both = drawn(
        station,
        &sample(b"AB", BOTH),
        ["95559...", "59595...", "........", "........"],
        ends_at(5, 0),
    );
    marked.push(("AB, text 9, background 5".into(), both));
    let background = drawn(
        station,
        &sample(b"AB", [0, 9, 1, 5, 0, 0, 0, 0]),
        [".555....", "5.5.5...", "........", "........"],
        ends_at(5, 0),
    );
    marked.push(("AB, background 5 only".into(), background));
    let underline = drawn(
        station,
        &sample(b"AB", [0, 0, 0, 0, 2, 7, 0, 0]),
        ["........", "........", "........", "777777.."],
        ends_at(6, 0),
    );
    marked.push(("neither, own underline 7".into(), underline));
    let mut beyond = sample(b"Z", TEXT);
    beyond.fonts[0].replacement = 2;
    let nothing = drawn(station, &beyond, ["........"; 4], ends_at(2, 1));
    marked.push(("replacement 2: nothing drawn, advance 2".into(), nothing));
}

fn positions(station: &dyn Station, marked: &mut Vec<Marked>) {
    let mut aligned = |text: &[u8], alignment: u8, expected: i32| {
        let mut sheet = sample(text, TEXT);
        sheet.items[0].x = 10;
        sheet.items[0].alignment = alignment;
        let good = next_position(station, &sheet) == (expected, 0);
        let name = format!("alignment {alignment} at 10, {text:02X?}: next x {expected}");
        marked.push((name, good));
    };
    aligned(b"", 2, 11);
    aligned(b"", 1, 10);
    aligned(b"AB", 2, 6 + 5);
    aligned(b"AB\r", 2, 3 + 5);
    let mut tall = sample(b"A\nA", TEXT);
    tall.fonts[0].character_height = 7;
    tall.items[0].height_value = 150;
    let good = next_position(station, &tall) == (2, 10);
    marked.push(("ch 7 at 150 percent: 10".into(), good));
}

fn mappings(station: &dyn Station, marked: &mut Vec<Marked>) {
    let glyph = |index, listed| Glyph {
        code: 0,
        index,
        listed,
    };
    let sheet = sample(b"", TEXT).encode();
    let z = station.index(&sheet, 0, u32::from('Z'));
    marked.push(("Z is index 1, not listed".into(), z == glyph(1, 0)));
    let b = station.index(&sheet, 0, u32::from('B'));
    marked.push(("B is index 1, listed".into(), b == glyph(1, 1)));
    let mut listed = |mapping: &[u8], character: u32, index: u32, listed: u32| {
        let mut sheet = sample(b"", TEXT);
        sheet.fonts[0].mapping = mapping.to_vec();
        sheet.fonts[0].replacement = 77;
        let sheet = sheet.encode();
        let contains = Number {
            code: 0,
            value: listed,
        };
        let good = station.index(&sheet, 0, character) == glyph(index, listed)
            && station.contains(&sheet, 0, character) == contains;
        marked.push((format!("mapping {mapping:02X?}: U+{character:04X}"), good));
    };
    listed(&[0, 0xed, 0x9f, 0xbf, 0xee, 0x80, 0x80], 0xe000, 1, 1);
    listed(&[0, 0x62, 0x61, 0x63], 0x63, 0, 1);
    listed(&[0, 0x41], 0x41, 77, 0);
    listed(&[0, 0, 0x41], 0x41, 0x41, 1);
    listed(&[0, 0], 0, 77, 0);
}

fn replaced(station: &dyn Station, marked: &mut Vec<Marked>) {
    let texts: [(&[u8], &[u8], u32); 9] = [
        (b"AB", b"AB", 0),
        (b"AZBZ", b"AB", 2),
        ("°↑".as_bytes(), b"AB", 2),
        (b"Z\r", b"AB", 1),
        (b"Z\r\r", b"AB", 2),
        (b"Z\r\r", b"A\r", 1),
        (b"A\rB\n\r\nZ\r", b"AB", 2),
        (b"AB\nB", b"", 3),
        (b"\n\r\n", b"", 0),
    ];
    for (text, mapping, expected) in texts {
        let replaced = |style: [u8; 8], x: i16, atlas: &[u8]| {
            let mut sheet = sample(text, style);
            sheet.fonts[0].mapping = mapping.to_vec();
            sheet.fonts[0].atlas = atlas.to_vec();
            sheet.items[0].x = x;
            let mut frame = vec![UNTOUCHED; sheet.area()];
            station.draw_item(&sheet.encode(), &mut frame, 0).replaced
        };
        let good = [
            replaced(BOTH, 0, &[0x90, 0x60]),
            replaced([0; 8], 0, &[0x90, 0x60]),
            replaced(BOTH, i16::MIN, &[0x90, 0x60]),
            replaced(BOTH, 0, &[]),
        ] == [expected; 4];
        let name = format!("{text:02X?} in {mapping:02X?}: {expected} replaced");
        marked.push((name, good));
    }
}

fn refusals(station: &dyn Station, marked: &mut Vec<Marked>) {
    let sequences: [(&[u8], bool); 4] = [
        (&[0xed, 0xa0, 0x80], false),
        (&[0xc0, 0x80], false),
        (&[0xf4, 0x90, 0x80, 0x80], false),
        (&[0xf4, 0x8f, 0xbf, 0xbf], true),
    ];
    for (bytes, passes) in sequences {
        let or_zero = |code: u32| if passes { 0 } else { code };
        let mut sheet = sample(b"    ", TEXT);
        let edit = Edit::Text(bytes);
        let edited = station.edit_on_sheet(&mut sheet.encode(), 0, edit).code;
        sheet.items[0].set_text(bytes, 0);
        let text = station.check(&sheet.encode());
        sheet.items[0].set_text(b"", 0);
        sheet.fonts[0].mapping = bytes.to_vec();
        let mapping = station.check(&sheet.encode());
        let walked = station.walk(bytes, 0).code;
        let codes = [mapping, text, edited, walked];
        let good = codes == [or_zero(7), or_zero(10), or_zero(14), or_zero(10)];
        marked.push((format!("{bytes:02X?} passes: {passes}"), good));
    }
    let mut checked = |name: &str, sheet: &SheetModel, code: u32| {
        marked.push((name.into(), station.check(&sheet.encode()) == code));
    };
    let mut many = sample(b"", TEXT);
    many.fonts[0].mapping = "\0\u{10000}\u{1ffff}".into();
    checked("U+10000 to 1FFFF fits", &many, 0);
    many.fonts[0].mapping = "\0\u{10000}\u{20000}".into();
    checked("U+10000 to 20000 is 8", &many, 8);
    let sides = |width, height| SheetModel {
        width,
        height,
        ..sample(b"", TEXT)
    };
    checked("frame 256 by 256 fits", &sides(256, 256), 0);
    checked("frame 512 by 129 is 3", &sides(512, 129), 3);
}

fn page(station: &dyn Station, marked: &mut Vec<Marked>) {
    let sheet = [
        1, 0, 4, 0, 2, 0, 0xc8, 0, 0, 0, 0, 0, 24, 0, 0, 0, 24, 0, 0, 0, 24, 0, 0, 0,
    ];
    let mut frame = [UNTOUCHED; 8];
    let code = station.draw(&sheet, &mut frame);
    let mut output = [UNTOUCHED; 20];
    let length = station.write_page(&sheet, &frame, &mut output);
    let expected = b"P5\n4 2\n255\n\xc8\xc8\xc8\xc8\xc8\xc8\xc8\xc8\xee";
    let good = code == 0 && length == Number { code: 0, value: 19 } && output == *expected;
    marked.push(("the program's page of 4 by 2".into(), good));
}

fn walker(station: &dyn Station, marked: &mut Vec<Marked>) {
    let examples: [(&[u8], &[u32]); 4] = [
        (b"A\xe2\x89\xa2\xce\x91.", &[0x41, 0x2262, 0x391, 0x2e]),
        (
            b"\xed\x95\x9c\xea\xb5\xad\xec\x96\xb4",
            &[0xd55c, 0xad6d, 0xc5b4],
        ),
        (
            b"\xe6\x97\xa5\xe6\x9c\xac\xe8\xaa\x9e",
            &[0x65e5, 0x672c, 0x8a9e],
        ),
        (b"\xef\xbb\xbf\xf0\xa3\x8e\xb4", &[0xfeff, 0x233b4]),
    ];
    for (line, expected) in examples {
        let mut walked = Vec::new();
        let mut step = station.walk(line, 0);
        while step.code == 0 && step.ended == 0 {
            walked.push(step.character);
            step = station.walk(line, step.next);
        }
        let end = Step {
            code: 0,
            ended: 1,
            character: 0,
            next: line.len(),
        };
        let good = walked == expected && step == end;
        marked.push((format!("RFC 3629, section 7: {line:02X?}"), good));
    }
}

/// Asks every marked line.
pub fn marked_lines(station: &dyn Station) -> Vec<Marked> {
    let mut marked = Vec::new();
    pixels(station, &mut marked);
    positions(station, &mut marked);
    mappings(station, &mut marked);
    replaced(station, &mut marked);
    refusals(station, &mut marked);
    page(station, &mut marked);
    walker(station, &mut marked);
    marked
}
