//! What is tried whole and not at random: every byte of small sheets and of a list of edits set to
//! every value, and every sequence that can start a character.

use crate::comparison::Case;
use crate::edits::entry;
use crate::guard::Guarded;
use crate::mappings::LARGEST;
use crate::marked::{sample_font, sample_item};
use crate::model::{FontModel, SheetModel};
use crate::operation::{Call, Operation};
use crate::reply::{Edit, Station, Step};

/// Small sheets whose bytes are set one by one.
fn small_sheets() -> Vec<SheetModel> {
    let mut sheet = SheetModel {
        width: 3,
        height: 2,
        paper: 7,
        fonts: vec![sample_font()],
        items: vec![sample_item(b"A\n", [1, 9, 1, 5, 2, 7, 1, 8])],
    };
    sheet.items[0].set_text(b"A\n", 2);
    let mut larger = sheet.clone();
    larger.fonts.push(sample_font());
    larger.fonts[1].mapping = "\0\u{d7ff}\u{e000}".into();
    larger.items.push(sample_item("é".as_bytes(), [0; 8]));
    larger.items[1].font = 1;
    vec![SheetModel::default_page(), sheet, larger]
}

impl SheetModel {
    /// The page of 4 by 2 of docs/SHEET.md, Worked examples, without fonts and items.
    pub fn default_page() -> Self {
        Self {
            width: 4,
            height: 2,
            paper: 200,
            ..Self::default()
        }
    }
}

/// One case for each byte and each other value of it: check, drawing and an edit.
fn byte_cases() -> impl Iterator<Item = Case> {
    small_sheets().into_iter().flat_map(|model| {
        let good = model.encode();
        let area = model.area();
        (0..good.len() * 256).map(move |number| {
            let mut sheet = good.clone();
            sheet[number / 256] = (number % 256) as u8;
            let place = Call::SetPlace {
                item: 0,
                x: 1,
                y: 0,
            };
            case(sheet, area, [Call::Check, Call::Draw, place])
        })
    })
}

/// Mappings that are asked for numbers all over the code space.
const ASKED: [&str; 6] = [
    "",
    "\0",
    "\0A",
    "\0\u{20}\u{7f}\0\u{a0}\u{ff}",
    "\0\u{d7fe}\u{e001}\0ba\u{ffff}\0\0\u{10}\0",
    "\0\u{10ffff}\u{10ffff}\0\0\0A",
];

/// One case for each mapping: index and contains of the numbers at which anything changes, and of
/// others at even steps.
fn index_cases() -> impl Iterator<Item = Case> {
    let edges = [
        0,
        0x7f,
        0x80,
        0x7ff,
        0x800,
        0x7fff,
        0x8000,
        0xd7ff,
        0xd800,
        0xdfff,
        0xe000,
        0xffff,
        0x1_0000,
        0x1_07ff,
        0x1_0800,
        0x1_ffff,
        0x2_0000,
        0x10_ffff,
        0x11_0000,
        u32::MAX,
    ];
    ASKED.iter().chain(&LARGEST).map(move |mapping| {
        let mut model = SheetModel::default_page();
        model.fonts.push(sample_font());
        model.fonts[0].mapping = mapping.as_bytes().to_vec();
        model.fonts[0].replacement = 65_535;
        let edges = edges.into_iter().flat_map(|edge: u32| {
            [
                edge.wrapping_sub(1),
                edge,
                edge.wrapping_add(1),
                edge.wrapping_add(2),
            ]
        });
        let asked = edges.chain((0..0x11_1000).step_by(2_011)).chain(0..300);
        let calls = asked.flat_map(|character| {
            let font = 0;
            [
                Call::Index { font, character },
                Call::Contains { font, character },
            ]
        });
        case(model.encode(), 0, calls)
    })
}

/// One case for each choice of alignment, baseline and modes, with the longest texts in the largest
/// font at the extreme places.
fn extreme_cases() -> impl Iterator<Item = Case> {
    let texts: [Vec<u8>; 7] = [
        vec![b'A'; 256],
        [vec![b'A'; 255], vec![b'\r']].concat(),
        vec![b'\n'; 256],
        [vec![b'\n'; 255], vec![b'A']].concat(),
        b"\r\n".repeat(128),
        b"Z\r\r\n".repeat(64),
        Vec::new(),
    ];
    let font = FontModel {
        character_width: 64,
        character_height: 64,
        spacing: 64,
        baseline: 255,
        strikethrough: [255, 255],
        underline: [255, 255],
        ..sample_font()
    };
    (0..3 * 4 * 12 * 7 * 4).map(move |number| {
        let text = &texts[number / 144 % 7];
        let modes = (number / 12 % 12) as u8;
        let place = |far: bool| if far { i16::MIN } else { i16::MAX };
        let mut item = sample_item(text, [modes & 1, 9, (modes / 2) & 1, 5, modes / 4, 7, 2, 3]);
        item.alignment = (number % 3) as u8;
        item.baseline = (number / 3 % 4) as u8;
        (item.height_kind, item.height_value) = (0, 1_000);
        item.x = place((number / 1_008) & 1 == 1);
        item.y = place((number / 1_008) & 2 == 2);
        let (x, y) = (i32::from(!item.x), i32::from(!item.y));
        let model = SheetModel {
            width: 512,
            height: 3,
            paper: 0,
            fonts: vec![font.clone()],
            items: vec![item],
        };
        let item = 0;
        let calls = [
            Call::DrawItem { item },
            Call::BoundingBox { item },
            Call::DrawWhitespace {
                item,
                width: 65_535,
            },
            Call::SetPlace { item, x, y },
            Call::DrawItem { item },
            Call::SetPlace { item, x: 0, y: 0 },
        ];
        case(model.encode(), model.area(), calls)
    })
}

/// A list of the three edits, cut at every byte and with every byte set to every value; entries of
/// each kind with any number of bytes, up to the most, behind another; and 10,000 entries. Each on
/// the largest of the small sheets.
fn list_cases() -> impl Iterator<Item = Case> {
    let edits = [
        entry(1, Edit::Text(b"A")),
        entry(0, Edit::Place(1, -1)),
        entry(1, Edit::Style(&[1, 3, 0, 0, 2, 4, 0, 0])),
    ];
    let good = edits.concat();
    let cut = (0..good.len()).map({
        let good = good.clone();
        move |length| good[..length].to_vec()
    });
    let set = (0..good.len() * 256).map(move |number| {
        let mut list = good.clone();
        list[number / 256] = (number % 256) as u8;
        list
    });
    let sizes = (0..40).chain([255, 256, 257, 65_534, 65_535]);
    let sized = sizes.flat_map(|size: u16| {
        [0, 1, 2, 3].map(|kind| {
            let [low, high] = size.to_le_bytes();
            let first = entry(0, Edit::Text(b""));
            [first, vec![kind, 1, low, high], vec![0; size.into()]].concat()
        })
    });
    let many = [edits[0].repeat(10_000)];
    let model = small_sheets().pop().expect("a small sheet");
    let lists = cut.chain(set).chain(sized).chain(many);
    lists.map(move |data| {
        let mut case = case(model.encode(), model.area(), []);
        let call = Call::EditList;
        case.operations.push(Operation { call, data });
        case
    })
}

/// The cases of every sweep.
pub fn all_cases() -> impl Iterator<Item = Case> {
    let sheets = byte_cases().chain(index_cases()).chain(extreme_cases());
    sheets.chain(list_cases())
}

fn case(sheet: Vec<u8>, area: usize, calls: impl IntoIterator<Item = Call>) -> Case {
    Case {
        sheet,
        frame: vec![0xee; area],
        output: Vec::new(),
        operations: calls.into_iter().map(Operation::new).collect(),
        at_end: true,
    }
}

/// The bytes at which RFC 3629's table changes.
const EDGES: [u8; 12] = [
    0x00, 0x41, 0x7f, 0x80, 0x8f, 0x90, 0x9f, 0xa0, 0xbf, 0xc0, 0xc2, 0xff,
];

/// The step from the start of a line as Rust's own `str` has it.
fn first_step(line: &[u8]) -> Step {
    let parts = (1..=line.len()).map(|length| &line[..length]);
    let first = parts
        .filter_map(|part| std::str::from_utf8(part).ok())
        .next();
    match first.and_then(|part| part.chars().next()) {
        Some(character) => Step {
            code: 0,
            ended: 0,
            character: character as u32,
            next: character.len_utf8(),
        },
        None => Step {
            code: 10,
            ..Step::default()
        },
    }
}

/// Walks from every lead byte with every second byte and the edges after it, cut after each byte;
/// how many steps agreed, or the first line that did not.
pub fn walks(oracle: &dyn Station, tested: &dyn Station) -> Result<u64, Vec<u8>> {
    let mut buffer = Guarded::new(4);
    let mut steps = 0;
    for lead in 0..=255 {
        for second in 0..=255 {
            for third in EDGES {
                for fourth in EDGES {
                    let line = [lead, second, third, fourth];
                    // Shorter lines are the same for all bytes after them.
                    let first = match (third, fourth) {
                        (0, 0) if second == 0 => 1,
                        (0, 0) => 2,
                        (_, 0) => 3,
                        _ => 4,
                    };
                    for length in first..=4 {
                        let line = &line[..length];
                        buffer.hold(line, true);
                        let step = oracle.walk(line, 0);
                        if step != tested.walk(buffer.slice(), 0) || step != first_step(line) {
                            return Err(line.to_vec());
                        }
                        steps += 1;
                    }
                }
            }
        }
    }
    Ok(steps)
}

/// Walks over every character; how many agreed with its number and its length.
pub fn characters(tested: &dyn Station) -> Result<u64, char> {
    let mut characters = 0;
    for character in '\0'..=char::MAX {
        let mut buffer = [0; 4];
        let line = character.encode_utf8(&mut buffer).as_bytes();
        let step = tested.walk(line, 0);
        let good = step.code == 0
            && step.ended == 0
            && step.character == character as u32
            && step.next == line.len();
        if !good {
            return Err(character);
        }
        characters += 1;
    }
    Ok(characters)
}
