//! Writes a list of cases with the oracle's answers, for a program that replays them:
//!
//!     list [seed N] [cases N] > FILE        what was written is counted on standard error
//!
//! The file is flat, and every number in it is little-endian.
//!
//!     'W' 'P' 'L' '2'
//!     u32   length of the whole file
//!     u32   number of cases; then each case:
//!       u16 length, sheet
//!       u16 length, frame
//!       u16 length of the output, whose bytes are all 5A
//!       u16 number of calls; then each call, on what the call before left:
//!         u8       kind, see below
//!         u32 × 3  arguments, in two's complement where signed, 0 where unused
//!         u16      length, data: the new text, the new style, the list of edits, or the walker's line
//!         u32 × 6  reply: code, how many edits of a list were made, then the other numbers in the
//!                  order of the struct, 0 where unused
//!         3 times  u16 offset, u16 length, bytes: what has changed of sheet, frame and output;
//!                  every other byte is as it was before the call (0, 0 if nothing changed)
//!
//!     kind  call                  arguments          reply
//!      0    check                                    code
//!      1    index                 font, character    code, index, listed
//!      2    contains              font, character    code, value
//!      3    bounding_box          item               code, left, top, width, height
//!      4    draw_item             item               code, x, y, replaced
//!      5    draw_whitespace       item, width        code, x, y
//!      6    draw                                     code
//!      7    set_text              item               code, left, top, width, height
//!      8    set_place             item, x, y         the same
//!      9    set_style             item               the same
//!     10    set_text_on_sheet     item               the same
//!     11    set_place_on_sheet    item, x, y         the same
//!     12    set_style_on_sheet    item               the same
//!     13    write_page                               code, value
//!     14    walk                  offset             code, ended, character, next
//!     15    edit_list                                code, made, left, top, width, height

use oracle::cases::{cases, Cases};
use oracle::check::check;
use oracle::comparison::{Case, Watch};
use oracle::edits::entry;
use oracle::generate::Scale;
use oracle::marked::{sample_font, sample_item};
use oracle::model::SheetModel;
use oracle::operation::{Call, Lent, Operation, Reply};
use oracle::reply::Edit;
use oracle::tally::Tally;
use oracle::{Calls, Crate, Oracle};
use std::io::Write;

const ORACLE: Oracle = Calls(Crate { rows: false });

/// A call's kind and its arguments; none for what cannot be written.
fn arguments(call: Call) -> Option<(u8, [u32; 3])> {
    let kind = match call {
        Call::Check => (0, [0; 3]),
        Call::Index { font, character } => (1, [font, character, 0]),
        Call::Contains { font, character } => (2, [font, character, 0]),
        Call::BoundingBox { item } => (3, [item, 0, 0]),
        Call::DrawItem { item } => (4, [item, 0, 0]),
        Call::DrawWhitespace { item, width } => (5, [item, width, 0]),
        Call::Draw => (6, [0; 3]),
        Call::SetText { item } => (7, [item, 0, 0]),
        Call::SetPlace { item, x, y } => (8, [item, x as u32, y as u32]),
        Call::SetStyle { item } => (9, [item, 0, 0]),
        Call::SetTextOnSheet { item } => (10, [item, 0, 0]),
        Call::SetPlaceOnSheet { item, x, y } => (11, [item, x as u32, y as u32]),
        Call::SetStyleOnSheet { item } => (12, [item, 0, 0]),
        Call::WritePage => (13, [0; 3]),
        Call::Walk { offset } => (14, [u32::try_from(offset).ok()?, 0, 0]),
        Call::EditList => (15, [0; 3]),
        Call::NewGreys { .. } => return None,
    };
    Some(kind)
}

fn numbers(reply: &Reply) -> [u32; 6] {
    match *reply {
        Reply::Code(code) => [code, 0, 0, 0, 0, 0],
        Reply::Number(number) => [number.code, 0, number.value, 0, 0, 0],
        Reply::Glyph(glyph) => [glyph.code, 0, glyph.index, glyph.listed, 0, 0],
        Reply::Position(next) => [next.code, 0, next.x as u32, next.y as u32, 0, 0],
        Reply::Drawn(drawn) => [
            drawn.code,
            0,
            drawn.x as u32,
            drawn.y as u32,
            drawn.replaced,
            0,
        ],
        Reply::Area(area) => [
            area.code,
            0,
            area.left as u32,
            area.top as u32,
            area.width,
            area.height,
        ],
        Reply::Batch(batch) => [
            batch.code,
            batch.made,
            batch.left as u32,
            batch.top as u32,
            batch.width,
            batch.height,
        ],
        Reply::Step(step) => [
            step.code,
            0,
            step.ended,
            step.character,
            u32::try_from(step.next).expect("an offset of the list"),
            0,
        ],
    }
}

fn put_length(file: &mut Vec<u8>, length: usize) {
    let length = u16::try_from(length).expect("a length of the list");
    file.extend_from_slice(&length.to_le_bytes());
}

fn put_bytes(file: &mut Vec<u8>, bytes: &[u8]) {
    put_length(file, bytes.len());
    file.extend_from_slice(bytes);
}

/// The smallest run of bytes that holds every change.
fn put_change(file: &mut Vec<u8>, before: &[u8], after: &[u8]) {
    let differs = |at: &usize| before[*at] != after[*at];
    let first = (0..after.len()).find(differs);
    let last = (0..after.len()).rev().find(differs);
    let (start, end) = match (first, last) {
        (Some(first), Some(last)) => (first, last + 1),
        _ => (0, 0),
    };
    put_length(file, start);
    put_bytes(file, &after[start..end]);
}

fn put_case(file: &mut Vec<u8>, case: &Case, tally: &mut Tally) {
    let Case {
        mut sheet,
        mut frame,
        mut output,
        operations,
        ..
    } = case.clone();
    put_bytes(file, &sheet);
    put_bytes(file, &frame);
    put_length(file, output.len());
    put_length(file, operations.len());
    for operation in operations {
        let (kind, arguments) = arguments(operation.call).expect("a call of the list");
        file.push(kind);
        for argument in arguments {
            file.extend_from_slice(&argument.to_le_bytes());
        }
        put_bytes(file, &operation.data);
        let before = [sheet.clone(), frame.clone(), output.clone()];
        let lent = Lent {
            sheet: &mut sheet,
            frame: &mut frame,
            output: &mut output,
            data: &operation.data,
        };
        let reply = operation.call.run(&ORACLE, lent);
        for number in numbers(&reply) {
            file.extend_from_slice(&number.to_le_bytes());
        }
        put_change(file, &before[0], &sheet);
        put_change(file, &before[1], &frame);
        put_change(file, &before[2], &output);
        tally.answered(&operation, &reply, &before[1], &frame);
    }
}

/// A sheet of the sample font of docs/SHEET.md with its marked texts.
fn marked_sheet() -> SheetModel {
    let items = [
        sample_item(b"AB", [1, 9, 1, 5, 0, 0, 0, 0]),
        sample_item(b"AB", [0, 9, 1, 5, 0, 0, 0, 0]),
        sample_item(b"AB", [0, 0, 0, 0, 2, 7, 0, 0]),
        sample_item(b"AB\r\nZ", [1, 9, 0, 0, 1, 0, 1, 0]),
    ];
    SheetModel {
        width: 8,
        height: 4,
        paper: 200,
        fonts: vec![sample_font()],
        items: items.to_vec(),
    }
}

/// That sheet, asked everything.
fn marked_case() -> Case {
    let items = (0..4).flat_map(|item| [Call::DrawItem { item }, Call::BoundingBox { item }]);
    let letters = [0x41, 0x42, 0x5a].map(|character| Call::Index { font: 0, character });
    let calls = [Call::Check, Call::Draw, Call::WritePage];
    let calls = items.chain(letters).chain(calls);
    case_of(calls.map(Operation::new).collect())
}

/// That sheet with lists of edits: good ones, then each form that is refused whole, behind an edit
/// that would be made, then each edit that stops a list, with an edit before and behind it.
fn list_case() -> Case {
    let (first, last) = (Edit::Text(b"BA"), Edit::Place(1, 1));
    let style = [1, 9, 0, 0, 0, 0, 0, 0, 0];
    let good = [
        vec![],
        vec![(0, first), (3, last), (1, Edit::Style(&style[..8]))],
        vec![(2, Edit::Text(b"")), (2, Edit::Place(-9, -9))],
    ];
    let bad: [&[u8]; 10] = [
        &[0],
        &[0, 0],
        &[0, 0, 1],
        &[0, 0, 2, 0, b'A'],
        &[0, 0, 255, 255, b'A'],
        &[3, 0, 0, 0],
        &[255, 0, 0, 0],
        &[1, 0, 0, 0],
        &[1, 0, 7, 0, 1, 0, 0, 0, 1, 0, 0],
        &[1, 0, 9, 0, 1, 0, 0, 0, 1, 0, 0, 0, 0],
    ];
    let stopping = [
        (4, last),
        (128, last),
        (255, Edit::Text(b"A")),
        (0, Edit::Text(b"ABA")),
        (0, Edit::Text(b"\xc3")),
        (0, Edit::Place(32_768, 0)),
        (0, Edit::Place(0, -32_769)),
        (0, Edit::Style(&style[..7])),
        (0, Edit::Style(&style)),
    ];
    let joined = |edits: &[(u8, Edit)]| -> Vec<u8> {
        let entries = edits.iter().map(|(item, edit)| entry(*item, *edit));
        entries.collect::<Vec<_>>().concat()
    };
    let good = good.iter().map(|edits| joined(edits));
    let bad = bad.iter().map(|bytes| [&entry(0, last), *bytes].concat());
    let stopped = stopping
        .iter()
        .enumerate()
        .map(|(number, stop)| joined(&[(1, Edit::Place(number as i32, 2)), *stop, (2, first)]));
    let call = Call::EditList;
    let lists = good.chain(bad).chain(stopped);
    case_of(lists.map(|data| Operation { call, data }).collect())
}

fn case_of(operations: Vec<Operation>) -> Case {
    let model = marked_sheet();
    Case {
        sheet: model.encode(),
        frame: vec![0xee; model.area()],
        output: vec![0x5a; model.area() + 12],
        operations,
        at_end: true,
    }
}

/// A case cut to what the list holds: small slices, and few calls.
fn cut(mut case: Case) -> Option<Case> {
    let small = case.sheet.len() <= 500 && case.frame.len() <= 200 && case.output.len() <= 220;
    case.operations.retain(|operation| {
        let is_list = operation.call == Call::EditList;
        let is_short = operation.data.len() <= if is_list { 90 } else { 40 };
        arguments(operation.call).is_some() && is_short
    });
    (small && !case.operations.is_empty()).then_some(case)
}

/// How many calls, other than a drawing of the whole page, change a pixel.
fn painting_calls(case: &Case) -> usize {
    let (mut sheet, mut frame) = (case.sheet.clone(), case.frame.clone());
    let mut painting = 0;
    for operation in &case.operations {
        let before = frame.clone();
        let lent = Lent {
            sheet: &mut sheet,
            frame: &mut frame,
            output: &mut [],
            data: &operation.data,
        };
        operation.call.run(&ORACLE, lent);
        painting += usize::from(operation.call != Call::Draw && frame != before);
    }
    painting
}

/// Chosen cases: accepted sheets with calls that paint, some that do not, and some sheets of each
/// refusal, asked two calls each.
fn chosen(seed: u64, count: usize) -> Vec<Case> {
    let mut chosen = vec![marked_case(), list_case()];
    let mut refused = [0; 11];
    let mut unpainted = 0;
    for number in 0.. {
        let (_, found) = cases(seed, number, Scale::Small);
        let found = match found {
            Cases::Calls(case) => vec![case],
            Cases::Runs { patched, fresh } => vec![patched, fresh],
        };
        for mut case in found.into_iter().filter_map(cut) {
            let code = check(&case.sheet) as usize;
            let wanted = if code == 0 {
                case.operations.truncate(9);
                let painting = painting_calls(&case);
                unpainted += usize::from(painting == 0);
                painting > 1 || (painting == 0 && unpainted % 16 == 0)
            } else {
                refused[code] += 1;
                let all = std::mem::take(&mut case.operations);
                let other = all[refused[code] % all.len()].clone();
                case.operations = vec![all[0].clone(), other];
                refused[code] <= count / 40
            };
            if wanted {
                chosen.push(case);
            }
        }
        if chosen.len() >= count && refused[1..].iter().all(|met| *met > 0) {
            break;
        }
    }
    chosen
}

fn word_after(name: &str, otherwise: u64) -> u64 {
    let words: Vec<String> = std::env::args().collect();
    let at = words.iter().position(|word| word == name);
    at.map_or(otherwise, |at| words[at + 1].parse().expect("a number"))
}

fn main() {
    let seed = word_after("seed", 1);
    let chosen = chosen(seed, word_after("cases", 320) as usize);
    let mut tally = Tally::default();
    let mut file = b"WPL2\0\0\0\0".to_vec();
    file.extend_from_slice(&(chosen.len() as u32).to_le_bytes());
    for case in &chosen {
        if check(&case.sheet) == 0 {
            tally.sheet(&SheetModel::decode(&case.sheet));
        }
        put_case(&mut file, case, &mut tally);
    }
    let length = (file.len() as u32).to_le_bytes();
    file[4..8].copy_from_slice(&length);
    std::io::stdout().write_all(&file).expect("output");
    eprintln!(
        "{} cases, {} answers, {} bytes, seed {seed}",
        chosen.len(),
        tally.answers,
        file.len()
    );
    eprint!("{tally}");
}
