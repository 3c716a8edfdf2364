//! Answers with one known mistake each, to see that the comparison finds it: the traps of docs/SHEET.md,
//! what its reviewer tries, and slips at the limits.

use crate::calls::{Calls, Painter};
use crate::check::check;
use crate::edits::{batch, damage, entries, pieces, Rect};
use crate::fields::{Font, Header, Item};
use crate::model::{FontModel, ItemModel, SheetModel};
use crate::plain::{ink_over, ink_rows, Plain};
use crate::reply::{Area, Batch, Drawn, Edit, Glyph, Number, Position, Station, Step};

macro_rules! faults {
    ($($(#[$note:meta])* $name:ident,)*) => {
        /// A mistake.
        #[derive(Debug, Clone, Copy, PartialEq, Eq)]
        pub enum Fault {
            $($(#[$note])* $name,)*
        }

        /// Every mistake.
        pub const FAULTS: &[Fault] = &[$(Fault::$name,)*];
    };
}

faults! {
    /// The control: no mistake, and nothing may be found.
    None,
    WholePageRepainted,
    NothingRepainted,
    OnlyTheItemRepainted,
    MeasuredBoxAsInk,
    CellAlwaysInInk,
    UnderlineInInkByItsMode,
    StrikethroughNotInInk,
    InkFromTheTopEdge,
    InkToPartsWithoutRows,
    DamageNotCut,
    DamageCutBeforeJoining,
    ReturnDroppedBeforeMeasuring,
    CentreRoundedDown,
    MiddleRoundedUp,
    BaselineOfBottomForAlphabetic,
    PercentRoundedUp,
    TrailingSpacingLeftOut,
    BackgroundUnderMissingGlyphs,
    UnderlineBeforeStrikethrough,
    NextPositionIn16Bits,
    NextPositionLostBelowTheFrame,
    LinesOfTheLastRowLeftOut,
    EmptyBoxAligned,
    SurrogatesCounted,
    LastPositionAsIndex,
    RangeFromZeroStops,
    EveryCharacterListed,
    ReplacementIndexNotListed,
    EveryCharacterReplaced,
    ReplacementIndexReplaced,
    MissingGlyphReplaced,
    RepeatReplacedOnce,
    FirstLineReplacedAlone,
    DroppedReturnReplaced,
    NoReturnReplaced,
    NothingReplacedUnpainted,
    NothingReplacedOffTheFrame,
    SpareAtlasRowCounted,
    SlotTailNotChecked,
    TextBeforeSlotTail,
    LimitOneLess,
    SumsIn32Bits,
    OwnRefusalsFalling,
    FrameTouchedWhenRefused,
    PlaceCutTo16Bits,
    UnusedGreysCleared,
    OldTextLeftInSlot,
    ListGoesOnAfterARefusal,
    RefusedEditCounted,
    EarlierEditsUndone,
    StoppedListRepliesZeros,
    JoinedRectangleRepainted,
    EmptyRectanglesJoined,
    LastRectangleAlone,
    BadEntryFoundOnTheWay,
    CutHeadLeftOut,
    UnknownKindAsStyle,
    LongPlaceTaken,
    LongStyleRefusedWithTheList,
    OutputClearedPastThePage,
    WalkerOffsetMovedToTheEnd,
}

/// The formulas' answers with one mistake.
pub struct Faulty(pub Fault);

const GOOD: Calls<Plain> = Calls(Plain);

fn without_returns(text: &[u8]) -> Vec<u8> {
    let lines: Vec<&[u8]> = text
        .split(|byte| *byte == b'\n')
        .map(|line| line.strip_suffix(b"\r").unwrap_or(line))
        .collect();
    lines.join(&b'\n')
}

/// The characters of lines whose returns are dropped.
fn characters(lines: &[u8]) -> impl Iterator<Item = char> {
    let text = String::from_utf8_lossy(lines).replace('\n', "");
    text.chars().collect::<Vec<char>>().into_iter()
}

fn is_unpainted(item: &Item) -> bool {
    item.text_mode + item.background_mode == 0
}

/// Whether the atlas has a glyph at an index.
fn has_glyph(font: &Font, sheet: &[u8], index: u32) -> bool {
    let (cw, ch) = (font.character_width, font.character_height);
    if cw == 0 || ch == 0 || font.atlas_width < cw {
        return false;
    }
    let rows = font.atlas(sheet).len() as u32 / font.atlas_width.div_ceil(8);
    index / (font.atlas_width / cw) * ch + ch <= rows
}

/// How many rows of the frame lie from an item's ink on down.
fn rows_shown(sheet: &[u8], item: usize) -> i32 {
    let height = Header::read(sheet).height as i32;
    Plain
        .ink_box(sheet, item)
        .map_or(height, |ink| height - ink.top)
}

impl Faulty {
    fn change_font(&self, font: &mut FontModel) {
        let cell = usize::from(font.character_height);
        let row = usize::from(font.atlas_width).div_ceil(8);
        match self.0 {
            Fault::BackgroundUnderMissingGlyphs => {
                let whole = row * (font.atlas.len() / row.max(1));
                font.atlas.truncate(whole);
                font.atlas.resize(whole + 300 * cell * row, 0);
            }
            Fault::SpareAtlasRowCounted if row > 0 => {
                let rows = font.atlas.len().div_ceil(row);
                font.atlas.resize(rows * row, 0);
            }
            Fault::UnderlineBeforeStrikethrough => {
                (font.underline, font.strikethrough) = (font.strikethrough, font.underline);
            }
            Fault::RangeFromZeroStops => {
                let stop = font.mapping.windows(2).position(|two| two == [0, 0]);
                font.mapping.truncate(stop.unwrap_or(font.mapping.len()));
            }
            _ => {}
        }
    }

    fn change_item(&self, item: &mut ItemModel, font: &FontModel) {
        match self.0 {
            Fault::ReturnDroppedBeforeMeasuring => {
                let text = without_returns(item.text());
                item.set_text(&text, 0);
            }
            Fault::MiddleRoundedUp if item.baseline == 2 && font.character_height % 2 == 0 => {
                item.y = item.y.wrapping_sub(1);
            }
            Fault::BaselineOfBottomForAlphabetic if item.baseline == 3 => item.baseline = 1,
            Fault::PercentRoundedUp if item.height_kind == 1 => {
                let height = u16::from(font.character_height) * item.height_value;
                item.height_kind = 0;
                item.height_value = height.div_ceil(100);
            }
            Fault::UnderlineBeforeStrikethrough => item.style.swap(4, 6),
            _ => {}
        }
        if self.0 == Fault::UnderlineBeforeStrikethrough {
            item.style.swap(5, 7);
        }
    }

    /// The sheet that is drawn by mistake, for an accepted sheet.
    fn drawn(&self, sheet: &[u8]) -> Vec<u8> {
        if check(sheet) != 0 {
            return sheet.to_vec();
        }
        let mut model = SheetModel::decode(sheet);
        for item in &mut model.items {
            self.change_item(item, &model.fonts[usize::from(item.font)]);
        }
        for font in &mut model.fonts {
            self.change_font(font);
        }
        model.encode()
    }

    fn is_drawing(&self) -> bool {
        use Fault::*;
        matches!(
            self.0,
            ReturnDroppedBeforeMeasuring
                | MiddleRoundedUp
                | BaselineOfBottomForAlphabetic
                | PercentRoundedUp
                | BackgroundUnderMissingGlyphs
                | UnderlineBeforeStrikethrough
                | SpareAtlasRowCounted
        )
    }

    // The next x that is replied by mistake.
    fn next_x(&self, sheet: &[u8], number: usize, item: &Item, x: i32) -> i32 {
        let font = Font::read(sheet, item.font as usize);
        let text = item.text(sheet);
        let last = text.rsplit(|byte| *byte == b'\n').next().unwrap_or(text);
        match self.0 {
            Fault::NextPositionIn16Bits => i32::from(x as i16),
            Fault::NextPositionLostBelowTheFrame if rows_shown(sheet, number) < 1 => item.x,
            Fault::CentreRoundedDown if item.alignment == 1 && last.is_empty() => x + 1,
            Fault::TrailingSpacingLeftOut if is_unpainted(item) && x != item.x => {
                x - font.spacing as i32
            }
            _ => x,
        }
    }

    // How many characters are counted by mistake.
    fn replaced(&self, sheet: &[u8], number: usize, item: &Item, good: u32) -> u32 {
        let font = Font::read(sheet, item.font as usize);
        let index = |ch: &char| Plain.index(sheet, item.font as usize, *ch as u32);
        let is_listed = |ch: &char| Plain.contains(sheet, item.font as usize, *ch as u32);
        let unlisted = |bytes: &[u8]| characters(bytes).filter(|ch| !is_listed(ch)).collect();
        let dropped = without_returns(item.text(sheet));
        let counted: Vec<char> = match self.0 {
            Fault::EveryCharacterReplaced => characters(&dropped).collect(),
            Fault::ReplacementIndexReplaced => characters(&dropped)
                .filter(|ch| index(ch) == font.replacement)
                .collect(),
            Fault::MissingGlyphReplaced => characters(&dropped)
                .filter(|ch| !is_listed(ch) || !has_glyph(&font, sheet, index(ch)))
                .collect(),
            Fault::RepeatReplacedOnce => {
                let mut once: Vec<char> = unlisted(&dropped);
                once.sort_unstable();
                once.dedup();
                once
            }
            Fault::FirstLineReplacedAlone => {
                unlisted(dropped.split(|byte| *byte == b'\n').next().unwrap_or(&[]))
            }
            Fault::DroppedReturnReplaced => unlisted(item.text(sheet)),
            Fault::NoReturnReplaced => {
                let mut kept = dropped;
                kept.retain(|byte| *byte != b'\r');
                unlisted(&kept)
            }
            Fault::NothingReplacedUnpainted if is_unpainted(item) => Vec::new(),
            Fault::NothingReplacedOffTheFrame
                if damage(Plain.ink_box(sheet, number), None, &Header::read(sheet)).width == 0 =>
            {
                Vec::new()
            }
            _ => return good,
        };
        counted.len() as u32
    }

    // The ink box that is taken by mistake.
    fn ink(&self, sheet: &[u8], number: usize) -> Option<Rect> {
        let item = Item::read(sheet, number);
        let font = Font::read(sheet, item.font as usize);
        let mut rows = ink_rows(sheet, number);
        match self.0 {
            Fault::CellAlwaysInInk => rows[0] = Some((0, font.character_height)),
            Fault::UnderlineInInkByItsMode if item.underline_mode != 0 => {
                rows[2] = Some((font.underline_offset, font.underline_height));
            }
            Fault::StrikethroughNotInInk => rows[1] = None,
            Fault::InkFromTheTopEdge => {
                for (offset, height) in rows.iter_mut().flatten().filter(|part| part.1 > 0) {
                    (*offset, *height) = (0, *offset + *height);
                }
            }
            Fault::InkToPartsWithoutRows => {
                let first = rows.iter().flatten().map(|part| part.0).min();
                let end = rows.iter().flatten().map(|part| part.0 + part.1).max();
                rows[0] = first.zip(end).map(|(first, end)| (first, end - first));
            }
            _ => {}
        }
        ink_over(sheet, number, &rows)
    }

    // The rectangle that is reported by mistake, from the sheets before and after an edit.
    fn rectangle(&self, before: &[u8], after: &[u8], item: usize) -> Area {
        let header = Header::read(before);
        let ink = |sheet: &[u8]| self.ink(sheet, item);
        let cut = |rect: Option<Rect>| damage(rect, None, &header).unless_empty();
        let rect = match self.0 {
            Fault::MeasuredBoxAsInk => {
                let measured = |sheet: &[u8]| Plain.bounding_box(sheet, item).unless_empty();
                damage(measured(before), measured(after), &header)
            }
            Fault::DamageNotCut => crate::edits::join(ink(before), ink(after)).unwrap_or_default(),
            Fault::DamageCutBeforeJoining => damage(cut(ink(before)), cut(ink(after)), &header),
            _ => damage(ink(before), ink(after), &header),
        };
        Area {
            code: 0,
            left: rect.left,
            top: rect.top,
            width: rect.width,
            height: rect.height,
        }
    }

    fn edited(&self, sheet: &mut [u8], item: u32, edit: Edit) -> Area {
        let before = sheet.to_vec();
        let edit = match edit {
            Edit::Place(x, y) if self.0 == Fault::PlaceCutTo16Bits => {
                Edit::Place(i32::from(x as i16), i32::from(y as i16))
            }
            other => other,
        };
        let mut area = GOOD.edit_on_sheet(sheet, item, edit);
        if area.code != 0 {
            let ill_formed = |text: &[u8]| std::str::from_utf8(text).is_err();
            let later = [
                (14, matches!(edit, Edit::Text(text) if ill_formed(text))),
                (
                    15,
                    matches!(edit, Edit::Place(x, _) if x as i16 as i32 != x),
                ),
                (16, matches!(edit, Edit::Style(style) if style.len() != 8)),
            ];
            area.code = self.falling(area.code, &later);
            return area;
        }
        let record = Item::read(&before, item as usize);
        match (self.0, edit) {
            (Fault::UnusedGreysCleared, Edit::Style(style)) => {
                for mode in [0, 2, 4, 6].into_iter().filter(|mode| style[*mode] == 0) {
                    sheet[record.at + 13 + mode + 1] = 0;
                }
            }
            (Fault::OldTextLeftInSlot, Edit::Text(text)) => {
                let start = record.slot_offset as usize;
                let (first, last) = (start + text.len(), start + record.slot_size as usize);
                sheet[first..last].copy_from_slice(&before[first..last]);
            }
            _ => {}
        }
        self.rectangle(&before, sheet, item as usize)
    }

    // The entries that are read by mistake, one by one.
    fn read(&self, list: &[u8]) -> Vec<Vec<u8>> {
        let changed = pieces(list).into_iter().map(|piece| match (self.0, piece) {
            (Fault::CutHeadLeftOut, _) if piece.len() < 4 => Vec::new(),
            (Fault::UnknownKindAsStyle, [3..=255, rest @ ..]) => [&[2], rest].concat(),
            (Fault::LongPlaceTaken, [1, item, 9, 0, place @ .., _]) => {
                [&[1, *item, 8, 0], place].concat()
            }
            (Fault::LongStyleRefusedWithTheList, [2, _, 9..=255, ..]) => vec![3, 0, 0, 0],
            _ => piece.to_vec(),
        });
        let is_entry = |entry: &Vec<u8>| entries(entry).is_some();
        if self.0 == Fault::BadEntryFoundOnTheWay {
            changed.take_while(is_entry).collect()
        } else {
            changed.collect()
        }
    }

    // The reply that is formed by mistake from those of a list's edits.
    fn formed(&self, replies: &[Area]) -> Batch {
        let refused = replies.iter().find(|reply| reply.code != 0);
        let made: Vec<Area> = replies.iter().copied().filter(|r| r.code == 0).collect();
        let last = made.len().saturating_sub(1);
        let mut reply = match self.0 {
            Fault::LastRectangleAlone => batch(made[last..].iter().copied()),
            _ => batch(made.iter().copied()),
        };
        reply.code = refused.map_or(0, |reply| reply.code);
        reply.made = made.len() as u32;
        match self.0 {
            Fault::EmptyRectanglesJoined if made.iter().any(|area| area.width == 0) => {
                reply.width += std::mem::take(&mut reply.left) as u32;
                reply.height += std::mem::take(&mut reply.top) as u32;
            }
            Fault::RefusedEditCounted => reply.made += u32::from(reply.code != 0),
            Fault::StoppedListRepliesZeros if reply.code != 0 => {
                reply = Batch::refused(reply.code);
            }
            _ => {}
        }
        reply
    }

    // A later condition of the call that holds too.
    fn falling(&self, code: u32, later: &[(u32, bool)]) -> u32 {
        let holds = |(other, holds): &&(u32, bool)| *holds && *other > code;
        match later.iter().rev().find(holds) {
            Some((other, _)) if self.0 == Fault::OwnRefusalsFalling && code > 10 => *other,
            _ => code,
        }
    }

    // Sheets that a mistaken check sees: mended where the mistake does not look.
    fn checked(&self, sheet: &[u8]) -> u32 {
        let code = check(sheet);
        let mut mended = sheet.to_vec();
        match (self.0, code) {
            (Fault::SlotTailNotChecked | Fault::TextBeforeSlotTail, 9) => {
                let header = Header::read(sheet);
                for item in 0..header.items as usize {
                    let item = Item::read(sheet, item);
                    let (start, size) = (item.slot_offset as usize, item.slot_size as usize);
                    if item.text_length as usize <= size {
                        mended[start + item.text_length as usize..start + size].fill(0);
                    }
                }
                let other = check(&mended);
                let kept = self.0 == Fault::TextBeforeSlotTail && other != 10;
                if kept {
                    code
                } else {
                    other
                }
            }
            (Fault::LimitOneLess, 0) => {
                let header = Header::read(sheet);
                let most = (0..header.fonts as usize)
                    .map(|font| Font::read(sheet, font).atlas_width)
                    .max();
                if most == Some(1_024) {
                    6
                } else {
                    0
                }
            }
            (Fault::SumsIn32Bits, 5) => {
                let first = Font::read_at(&[sheet, &[0; 52]].concat(), 24);
                let wraps = first.atlas_length > 1 << 31
                    && first.atlas_offset.wrapping_add(first.atlas_length) == first.mapping_offset;
                if wraps {
                    0
                } else {
                    5
                }
            }
            (_, code) => code,
        }
    }
}

impl Station for Faulty {
    fn check(&self, sheet: &[u8]) -> u32 {
        self.checked(sheet)
    }

    fn index(&self, sheet: &[u8], font: u32, character: u32) -> Glyph {
        let mut glyph = GOOD.index(sheet, font, character);
        if glyph.code != 0 {
            return glyph;
        }
        let record = Font::read(sheet, font as usize);
        match self.0 {
            Fault::EveryCharacterListed => glyph.listed = 1,
            Fault::ReplacementIndexNotListed => {
                glyph.listed = u32::from(glyph.index != record.replacement);
            }
            _ if glyph.listed == 0 => {}
            Fault::SurrogatesCounted if character > 0xdfff && record.mapping(sheet)[0] == 0 => {
                glyph.index += 2_048;
            }
            Fault::LastPositionAsIndex => {
                let text = String::from_utf8_lossy(record.mapping(sheet)).into_owned();
                if !text.contains('\0') {
                    let last = text.chars().rev().position(|c| c as u32 == character);
                    glyph.index = (text.chars().count() - 1 - last.unwrap_or(0)) as u32;
                }
            }
            Fault::RangeFromZeroStops => {
                let mut model = SheetModel::decode(sheet);
                self.change_font(&mut model.fonts[font as usize]);
                return GOOD.index(&model.encode(), font, character);
            }
            _ => {}
        }
        glyph
    }

    fn contains(&self, sheet: &[u8], font: u32, character: u32) -> Number {
        GOOD.contains(sheet, font, character)
    }

    fn bounding_box(&self, sheet: &[u8], item: u32) -> Area {
        let mut area = GOOD.bounding_box(sheet, item);
        if self.0 == Fault::EmptyBoxAligned && area.code == 0 && area.width == 0 {
            area.left += i32::from(Item::read(sheet, item as usize).alignment == 2);
        }
        area
    }

    fn draw_item(&self, sheet: &[u8], frame: &mut [u8], item: u32) -> Drawn {
        let number = item as usize;
        let before = frame.to_vec();
        let mut drawn = GOOD.draw_item(sheet, frame, item);
        if self.0 == Fault::FrameTouchedWhenRefused && drawn.code == 12 {
            frame[0] ^= 1;
        }
        if drawn.code != 0 {
            return drawn;
        }
        if self.is_drawing() {
            frame.copy_from_slice(&before);
            (drawn.x, drawn.y) = Plain.draw_item(&self.drawn(sheet), frame, number);
        }
        let item = Item::read(sheet, number);
        drawn.x = self.next_x(sheet, number, &item, drawn.x);
        drawn.replaced = self.replaced(sheet, number, &item, drawn.replaced);
        drawn
    }

    fn draw_whitespace(&self, sheet: &[u8], frame: &mut [u8], item: u32, width: u32) -> Position {
        let mut next = GOOD.draw_whitespace(sheet, frame, item, width);
        next.code = self.falling(next.code, &[(18, width > 65_535)]);
        next
    }

    fn draw(&self, sheet: &[u8], frame: &mut [u8]) -> u32 {
        let code = GOOD.draw(sheet, frame);
        if self.0 == Fault::LinesOfTheLastRowLeftOut && code == 0 {
            let mut model = SheetModel::decode(sheet);
            let mut shown = (0..).map(|number| rows_shown(sheet, number) != 1);
            model.items.retain(|_| shown.next() == Some(true));
            Plain.draw(&model.encode(), frame);
        }
        code
    }

    fn edit(&self, sheet: &mut [u8], frame: &mut [u8], item: u32, edit: Edit) -> Area {
        let mut before = sheet.to_vec();
        let mut good = frame.to_vec();
        let area = GOOD.edit(&mut before.clone(), &mut good, item, edit);
        let reply = if area.code == 11 {
            area
        } else {
            self.edited(sheet, item, edit)
        };
        if reply.code != 0 {
            return reply;
        }
        match self.0 {
            Fault::WholePageRepainted => Plain.draw(sheet, frame),
            Fault::NothingRepainted => {}
            Fault::OnlyTheItemRepainted => {
                let mut alone = SheetModel::decode(&before);
                alone.items = vec![alone.items[item as usize].clone()];
                GOOD.edit(&mut alone.encode(), frame, 0, edit);
            }
            _ => {
                GOOD.edit(&mut before, frame, item, edit);
            }
        }
        reply
    }

    fn edit_on_sheet(&self, sheet: &mut [u8], item: u32, edit: Edit) -> Area {
        self.edited(sheet, item, edit)
    }

    fn edit_list(&self, sheet: &mut [u8], frame: &mut [u8], list: &[u8]) -> Batch {
        let (old_sheet, old_frame) = (sheet.to_vec(), frame.to_vec());
        let is_bad = entries(list).is_none();
        let code = GOOD.edit_list(sheet, frame, &[]).code;
        if code != 0 {
            return Batch::refused(self.falling(code, &[(22, is_bad)]));
        }
        let read = self.read(list).concat();
        let Some(edits) = entries(&read) else {
            return Batch::refused(22);
        };
        let mut replies = Vec::new();
        for (item, edit) in edits {
            let reply = self.edit(sheet, frame, item, edit);
            replies.push(reply);
            if reply.code != 0 && self.0 != Fault::ListGoesOnAfterARefusal {
                break;
            }
        }
        let mut reply = self.formed(&replies);
        match self.0 {
            Fault::BadEntryFoundOnTheWay if is_bad && reply.code == 0 => reply.code = 22,
            Fault::EarlierEditsUndone if reply.code != 0 => {
                sheet.copy_from_slice(&old_sheet);
                frame.copy_from_slice(&old_frame);
            }
            Fault::JoinedRectangleRepainted => {
                let rect = Rect {
                    left: reply.left,
                    top: reply.top,
                    width: reply.width,
                    height: reply.height,
                };
                GOOD.repaint(sheet, frame, &Header::read(sheet), &rect);
            }
            _ => {}
        }
        reply
    }

    fn write_page(&self, sheet: &[u8], frame: &[u8], output: &mut [u8]) -> Number {
        let mut page = GOOD.write_page(sheet, frame, output);
        page.code = self.falling(page.code, &[(17, output.is_empty())]);
        if self.0 == Fault::OutputClearedPastThePage && page.code == 0 {
            output[page.value as usize..].fill(0);
        }
        page
    }

    fn walk(&self, line: &[u8], offset: usize) -> Step {
        let mut step = GOOD.walk(line, offset);
        if self.0 == Fault::WalkerOffsetMovedToTheEnd && step.ended == 1 {
            step.next = line.len();
        }
        step
    }
}
