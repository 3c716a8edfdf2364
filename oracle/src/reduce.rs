//! Shrinks a case that shows a difference, by trying simpler ones until none differs.

use crate::check::check;
use crate::comparison::Case;
use crate::edits::{entries, entry, pieces};
use crate::model::{FontModel, ItemModel, SheetModel};
use crate::operation::{Call, Operation};
use crate::reply::Edit;

/// The parts of a list with one piece left out: halves first, then smaller pieces.
fn shorter<T: Clone>(list: &[T]) -> Vec<Vec<T>> {
    let mut shorter = Vec::new();
    let mut piece = list.len().div_ceil(2);
    while piece > 0 {
        for start in (0..list.len()).step_by(piece) {
            let end = list.len().min(start + piece);
            shorter.push([&list[..start], &list[end..]].concat());
        }
        piece /= 2;
    }
    shorter
}

/// Smaller numbers: 0, half, one less.
fn smaller(number: i64) -> Vec<i64> {
    let mut smaller = vec![0, number / 2, number - number.signum()];
    smaller.retain(|other| *other != number);
    smaller.dedup();
    smaller
}

fn simpler_texts(bytes: &[u8]) -> Vec<Vec<u8>> {
    match std::str::from_utf8(bytes) {
        Ok(text) => {
            let characters: Vec<char> = text.chars().collect();
            let texts = shorter(&characters).into_iter();
            texts
                .map(|text| text.into_iter().collect::<String>().into_bytes())
                .collect()
        }
        Err(_) => shorter(bytes),
    }
}

fn simpler_fonts(font: &FontModel) -> Vec<FontModel> {
    let mut fonts = Vec::new();
    let mut set = |change: &dyn Fn(&mut FontModel)| {
        let mut other = font.clone();
        change(&mut other);
        fonts.push(other);
    };
    for atlas in shorter(&font.atlas).into_iter().take(40) {
        set(&|font| font.atlas = atlas.clone());
    }
    for at in 0..font.atlas.len().min(40) {
        set(&|font| font.atlas[at] = 0);
    }
    for mapping in simpler_texts(&font.mapping).into_iter().take(60) {
        set(&|font| font.mapping = mapping.clone());
    }
    macro_rules! smaller_fields {
        ($($($field:ident)+ $([$at:expr])?;)*) => {$(
            for number in smaller(i64::from(font.$($field)+$([$at])?)) {
                set(&|font| font.$($field)+$([$at])? = number as _);
            }
        )*};
    }
    smaller_fields! {
        replacement; atlas_width; character_width; character_height; spacing; baseline;
        strikethrough[0]; strikethrough[1]; underline[0]; underline[1];
    }
    fonts
}

fn simpler_items(item: &ItemModel) -> Vec<ItemModel> {
    let mut items = Vec::new();
    let mut set = |change: &dyn Fn(&mut ItemModel)| {
        let mut other = item.clone();
        change(&mut other);
        items.push(other);
    };
    let tail = item.slot.len() - item.text().len();
    for text in simpler_texts(item.text()) {
        set(&|item| item.set_text(&text, tail));
    }
    for tail in smaller(tail as i64) {
        set(&|item| item.set_text(&item.text().to_vec(), tail as usize));
    }
    for at in 0..8 {
        for number in smaller(i64::from(item.style[at])) {
            set(&|item| item.style[at] = number as u8);
        }
    }
    macro_rules! smaller_fields {
        ($($field:ident)*) => {$(
            for number in smaller(i64::from(item.$field)) {
                set(&|item| item.$field = number as _);
            }
        )*};
    }
    smaller_fields! { x y font alignment baseline height_kind height_value }
    items
}

fn simpler_models(model: &SheetModel) -> Vec<SheetModel> {
    let mut models = Vec::new();
    let mut push = |change: &dyn Fn(&mut SheetModel)| {
        let mut other = model.clone();
        change(&mut other);
        models.push(other);
    };
    for (at, font) in model.fonts.iter().enumerate() {
        for font in simpler_fonts(font) {
            push(&|model| model.fonts[at] = font.clone());
        }
    }
    for (at, item) in model.items.iter().enumerate() {
        for item in simpler_items(item) {
            push(&|model| model.items[at] = item.clone());
        }
    }
    for number in smaller(i64::from(model.width)) {
        push(&|model| model.width = number as u16);
    }
    for number in smaller(i64::from(model.height)) {
        push(&|model| model.height = number as u16);
    }
    push(&|model| model.paper = 0);
    models.retain(|other| other != model);
    models
}

/// The case on another sheet, with a frame of its size if it had one.
fn on_sheet(case: &Case, model: &SheetModel, other: &SheetModel) -> Case {
    let mut changed = case.clone();
    changed.sheet = other.encode();
    if case.frame.len() == model.area() {
        changed.frame = vec![0xee; other.area()];
    }
    changed
}

fn without_item(case: &Case, model: &SheetModel, gone: usize) -> Option<Case> {
    let mut other = model.clone();
    other.items.remove(gone);
    let mut changed = on_sheet(case, model, &other);
    let gone = gone as u32;
    for operation in &mut changed.operations {
        if let Some(item) = operation.call.item() {
            if *item == gone {
                return None;
            }
            *item -= u32::from(*item > gone);
        }
        if operation.call == Call::EditList {
            for at in entry_places(&operation.data) {
                let Some(item) = operation.data.get_mut(at + 1) else {
                    continue;
                };
                if u32::from(*item) == gone {
                    return None;
                }
                *item -= u8::from(u32::from(*item) > gone);
            }
        }
    }
    Some(changed)
}

fn without_font(case: &Case, model: &SheetModel, gone: usize) -> Option<Case> {
    let mut other = model.clone();
    other.fonts.remove(gone);
    for item in &mut other.items {
        if usize::from(item.font) == gone {
            return None;
        }
        item.font -= u8::from(usize::from(item.font) > gone);
    }
    let mut changed = on_sheet(case, model, &other);
    for operation in &mut changed.operations {
        if let Call::Index { font, .. } | Call::Contains { font, .. } = &mut operation.call {
            *font -= u32::from(*font > gone as u32);
        }
    }
    Some(changed)
}

/// Where the entries of a list start.
fn entry_places(list: &[u8]) -> Vec<usize> {
    let starts = pieces(list).into_iter().scan(0, |end, piece| {
        let start = *end;
        *end += piece.len();
        Some(start)
    });
    starts.collect()
}

/// Fewer entries, and entries with simpler data.
fn simpler_lists(list: &[u8]) -> Vec<Vec<u8>> {
    let pieces = pieces(list);
    let fewer = shorter(&pieces).into_iter();
    let mut lists: Vec<Vec<u8>> = fewer.map(|pieces| pieces.concat()).collect();
    for (at, piece) in pieces.iter().enumerate() {
        let mut set = |piece: &[u8]| {
            let mut other = pieces.clone();
            other[at] = piece;
            lists.push(other.concat());
        };
        for (item, edit) in entries(piece).unwrap_or_default() {
            let entry = |edit| entry(item as u8, edit);
            match edit {
                Edit::Text(text) => simpler_texts(text)
                    .iter()
                    .for_each(|text| set(&entry(Edit::Text(text)))),
                Edit::Place(x, y) => simpler_places(x, y)
                    .into_iter()
                    .for_each(|(x, y)| set(&entry(Edit::Place(x, y)))),
                Edit::Style(style) => shorter(style)
                    .iter()
                    .for_each(|style| set(&entry(Edit::Style(style)))),
            }
        }
    }
    lists
}

fn simpler_places(x: i32, y: i32) -> [(i32, i32); 4] {
    [(0, y), (x / 2, y), (x, 0), (x, y / 2)]
}

fn simpler_data(operation: &Operation) -> Vec<Vec<u8>> {
    if operation.call == Call::EditList {
        simpler_lists(&operation.data)
    } else {
        simpler_texts(&operation.data)
    }
}

fn simpler_operations(case: &Case) -> Vec<Case> {
    let mut cases = Vec::new();
    let mut push = |operations: Vec<Operation>| {
        cases.push(Case {
            operations,
            ..case.clone()
        });
    };
    shorter(&case.operations).into_iter().for_each(&mut push);
    for (at, operation) in case.operations.iter().enumerate() {
        for data in simpler_data(operation) {
            let mut operations = case.operations.clone();
            operations[at].data = data;
            push(operations);
        }
        if let Call::SetPlace { item, x, y } = operation.call {
            for (x, y) in simpler_places(x, y) {
                let mut operations = case.operations.clone();
                operations[at].call = Call::SetPlace { item, x, y };
                push(operations);
            }
        }
    }
    cases
}

fn simpler_cases(case: &Case) -> Vec<Case> {
    let mut cases = simpler_operations(case);
    if check(&case.sheet) == 0 {
        let model = SheetModel::decode(&case.sheet);
        cases.extend((0..model.items.len()).filter_map(|at| without_item(case, &model, at)));
        cases.extend((0..model.fonts.len()).filter_map(|at| without_font(case, &model, at)));
        let models = simpler_models(&model).into_iter();
        cases.extend(models.map(|other| on_sheet(case, &model, &other)));
    } else {
        for mut sheet in shorter(&case.sheet).into_iter().take(400) {
            if let (Some(field), length) = (sheet.get(20..24), sheet.len() as u32) {
                if field != length.to_le_bytes() {
                    sheet[20..24].copy_from_slice(&length.to_le_bytes());
                }
            }
            cases.push(Case {
                sheet,
                ..case.clone()
            });
        }
        for at in (0..case.sheet.len().min(400)).filter(|at| case.sheet[*at] != 0) {
            let mut sheet = case.sheet.clone();
            sheet[at] = 0;
            cases.push(Case {
                sheet,
                ..case.clone()
            });
        }
    }
    if case.frame.iter().any(|grey| *grey != 0xee) {
        let mut plain = case.clone();
        plain.frame.fill(0xee);
        cases.push(plain);
    }
    if !case.output.is_empty() {
        let mut none = case.clone();
        none.output.clear();
        cases.push(none);
    }
    cases.retain(|other| other != case);
    cases
}

/// A case that still differs and has no simpler one that does, as far as some thousand tries show.
pub fn reduce(case: &Case, differs: &mut dyn FnMut(&Case) -> bool) -> Case {
    let mut smallest = case.clone();
    let mut tries = 0;
    'again: loop {
        for simpler in simpler_cases(&smallest) {
            tries += 1;
            if tries > 20_000 {
                return smallest;
            }
            if differs(&simpler) {
                smallest = simpler;
                continue 'again;
            }
        }
        return smallest;
    }
}
