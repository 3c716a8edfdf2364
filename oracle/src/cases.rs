//! Random cases: calls of every kind on an accepted sheet, a list of edits twice, and calls on a
//! damaged sheet.

use crate::check::check;
use crate::comparison::Case;
use crate::edits::entry;
use crate::generate::{self, Scale};
use crate::malformed::damaged;
use crate::model::SheetModel;
use crate::operation::{self, frame_length, output_length, Call, Operation};
use crate::random::Random;
use crate::reply::Edit;

/// What is run for one number.
pub enum Cases {
    /// Calls on one sheet.
    Calls(Case),
    /// Demand 3's two runs (docs/DEMANDS.md): with a frame, and on the sheet alone.
    Runs { patched: Case, fresh: Case },
}

fn case(random: &mut Random, sheet: Vec<u8>, model: &SheetModel, frame: usize) -> Case {
    let output = output_length(random, model);
    Case {
        sheet,
        frame: random.bytes(frame),
        output: vec![0x5a; output],
        operations: Vec::new(),
        at_end: !random.once_in(4),
    }
}

// Fewer calls on large frames and long sheets, for the same time.
fn calls_on(random: &mut Random, model: &SheetModel) -> i32 {
    let large = model.area() > 8_000 || model.items.len() > 20 || model.length() > 20_000;
    random.between(6, if large { 12 } else { 30 })
}

fn calls(random: &mut Random, model: &SheetModel) -> Case {
    let frame = frame_length(random, model);
    let mut case = case(random, model.encode(), model, frame);
    for _ in 0..calls_on(random, model) {
        if random.once_in(3) {
            let seed = random.number().into();
            case.operations
                .push(Operation::new(Call::NewGreys { seed }));
        }
        case.operations.push(operation::operation(random, model));
    }
    case
}

fn runs(random: &mut Random, model: &SheetModel) -> Cases {
    let mut patched = case(random, model.encode(), model, model.area());
    let mut fresh = case(random, model.encode(), model, model.area());
    let draw = Operation::new(Call::Draw);
    patched.operations.push(draw.clone());
    for _ in 0..calls_on(random, model) {
        let edit = if random.once_in(4) {
            operation::edit_list(random, model)
        } else {
            operation::edit(random, model)
        };
        fresh.operations.extend(edit.counted(&fresh.sheet));
        patched.operations.push(edit);
    }
    fresh.operations.push(draw);
    Cases::Runs { patched, fresh }
}

/// Every call once, on bytes that are mostly refused.
pub fn every_call(random: &mut Random, model: &SheetModel) -> Vec<Operation> {
    let item = random.below(model.items.len().max(1)) as u32;
    let (font, character) = (0, 0x41);
    let (x, y) = (random.between(-3, 9), random.between(-3, 9));
    let style = generate::style(random).to_vec();
    let text = b"A".to_vec();
    let list = entry(item as u8, Edit::Text(&text));
    let calls = [
        (Call::Check, vec![]),
        (Call::Index { font, character }, vec![]),
        (Call::Contains { font, character }, vec![]),
        (Call::BoundingBox { item }, vec![]),
        (Call::DrawItem { item }, vec![]),
        (Call::DrawWhitespace { item, width: 5 }, vec![]),
        (Call::Draw, vec![]),
        (Call::SetText { item }, text.clone()),
        (Call::SetPlace { item, x, y }, vec![]),
        (Call::SetStyle { item }, style.clone()),
        (Call::EditList, list),
        (Call::SetTextOnSheet { item }, text),
        (Call::SetPlaceOnSheet { item, x, y }, vec![]),
        (Call::SetStyleOnSheet { item }, style),
        (Call::WritePage, vec![]),
    ];
    calls
        .into_iter()
        .map(|(call, data)| Operation { call, data })
        .collect()
}

fn refused(random: &mut Random, model: &SheetModel) -> Case {
    let sheet = damaged(random, model);
    let frame = frame_length(random, model);
    let mut case = case(random, sheet, model, frame);
    case.operations = every_call(random, model);
    case
}

/// The cases of a number under a seed.
pub fn cases(seed: u64, number: u64, scale: Scale) -> (SheetModel, Cases) {
    let mut random = Random::new(seed.wrapping_mul(0x1_0000_0001).wrapping_add(number));
    let model = generate::sheet(&mut random, scale);
    debug_assert_eq!(check(&model.encode()), 0, "{model:?}");
    let cases = match random.below(10) {
        0..=3 => Cases::Calls(calls(&mut random, &model)),
        4..=6 => runs(&mut random, &model),
        _ => Cases::Calls(refused(&mut random, &model)),
    };
    (model, cases)
}
