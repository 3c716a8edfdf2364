//! What a comparison has met: answers by call and code, and the kinds of items, fonts and texts of
//! the accepted sheets, so that a reader sees what was tried.

use crate::calls::Painter;
use crate::characters::decode_all;
use crate::comparison::Watch;
use crate::edits::Rect;
use crate::model::{FontModel, ItemModel, SheetModel};
use crate::operation::{Call, Operation, Reply};
use crate::plain::Plain;
use std::collections::BTreeMap;
use std::fmt;

/// The counts.
#[derive(Debug, Default)]
pub struct Tally {
    /// Answers compared.
    pub answers: u64,
    codes: BTreeMap<String, BTreeMap<u32, u64>>,
    kinds: BTreeMap<String, u64>,
    ranges: BTreeMap<&'static str, (i32, i32)>,
}

impl Watch for Tally {
    fn answered(&mut self, operation: &Operation, reply: &Reply, before: &[u8], after: &[u8]) {
        if matches!(operation.call, Call::NewGreys { .. }) {
            return;
        }
        self.answers += 1;
        let call = format!("{:?}", operation.call);
        let name = call.split([' ', '{']).next().unwrap_or_default();
        let codes = self.codes.entry(name.to_string()).or_default();
        *codes.entry(reply.code()).or_default() += 1;
        let changed = before.iter().zip(after).filter(|(b, a)| b != a).count();
        self.add("pixels changed", changed as u64);
        self.add("pixels compared", after.len() as u64);
        if changed > 0 {
            self.count(format!("changed pixels: {name}"));
        }
        match reply {
            Reply::Area(area) if name.starts_with("Set") => {
                let empty = area.code == 0 && area.width == 0;
                self.count_if(empty, "empty damage rectangles");
            }
            Reply::Area(area) => {
                self.range("box left", area.left);
                self.range("box top", area.top);
                self.range("box width", area.width as i32);
                self.range("box height", area.height as i32);
            }
            Reply::Batch(batch) => {
                let stopped = batch.made > 0 && batch.code != 0;
                let empty = batch.made > 0 && batch.width == 0;
                self.range("edits made of a list", batch.made as i32);
                self.count_if(batch.made > 1, "lists: several edits made");
                self.count_if(stopped, "lists: stopped behind edits made");
                self.count_if(empty, "lists: edits made, and an empty rectangle");
            }
            Reply::Glyph(glyph) if glyph.code == 0 => {
                self.count(format!("index: listed {}", glyph.listed));
            }
            Reply::Position(next) => {
                self.range("next x", next.x);
                self.range("next y", next.y);
            }
            Reply::Drawn(drawn) => {
                self.range("next x", drawn.x);
                self.range("next y", drawn.y);
                self.range("replaced", drawn.replaced as i32);
                let unseen = drawn.replaced > 0 && changed == 0;
                self.count_if(drawn.replaced > 0, "items drawn: replaced");
                self.count_if(unseen, "items drawn: replaced, no pixel changed");
            }
            _ => {}
        }
    }
}

impl Tally {
    fn add(&mut self, kind: impl Into<String>, number: u64) {
        *self.kinds.entry(kind.into()).or_default() += number;
    }

    fn range(&mut self, name: &'static str, number: i32) {
        let range = self.ranges.entry(name).or_default();
        *range = (range.0.min(number), range.1.max(number));
    }

    /// Counts one of a kind.
    pub fn count(&mut self, kind: impl Into<String>) {
        self.add(kind, 1);
    }

    fn count_if(&mut self, condition: bool, kind: &str) {
        if condition {
            self.count(kind);
        }
    }

    /// Counts what an accepted sheet holds.
    pub fn sheet(&mut self, sheet: &SheetModel) {
        self.count("accepted sheets");
        self.count_if(sheet.length() == 65_536, "sheets of 65,536 bytes");
        self.count_if(sheet.items.len() == 64, "sheets of 64 items");
        self.count_if(sheet.fonts.len() == 4, "sheets of 4 fonts");
        self.count_if(sheet.area() >= 60_000, "frames of 60,000 greys and more");
        let bytes = sheet.encode();
        let boxes = (0..sheet.items.len().min(8)).filter_map(|item| Plain.ink_box(&bytes, item));
        let boxes: Vec<Rect> = boxes.collect();
        let meet = |a: &Rect| boxes.iter().filter(|b| a.meets(b)).count() > 1;
        self.count_if(boxes.iter().any(meet), "sheets with overlapping items");
        for font in &sheet.fonts {
            self.font(font);
        }
        for item in &sheet.items {
            self.item(item, &sheet.fonts[usize::from(item.font)], sheet);
        }
    }

    fn font(&mut self, font: &FontModel) {
        let (cw, ch) = (font.character_width, font.character_height);
        self.count_if(cw == 0, "fonts: cw 0");
        self.count_if(ch == 0, "fonts: ch 0");
        self.count_if(cw == 64, "fonts: cw 64");
        self.count_if(ch == 64, "fonts: ch 64");
        self.count_if(font.spacing == 64, "fonts: s 64");
        let width = font.atlas_width;
        self.count_if(width == 0, "atlases: width 0");
        self.count_if(width == 1_024, "atlases: width 1,024");
        self.count_if(width % 8 != 0, "atlases: odd width");
        self.count_if(
            width > 0 && width < u16::from(cw),
            "atlases: narrower than cw",
        );
        let row = usize::from(width).div_ceil(8);
        let short = row > 0 && font.atlas.len() / row < usize::from(ch);
        self.count_if(short, "atlases: lower than ch");
        self.count_if(font.mapping.is_empty(), "mappings: empty");
        let characters = decode_all(&font.mapping).unwrap_or_default();
        let spelled = crate::check::spelled(&characters);
        self.count_if(spelled == 65_536, "mappings: 65,536 characters");
        let stops = matches!(characters[..], [.., 0] | [.., 0, _]) || characters == [0];
        self.count_if(stops, "mappings: may stop at a last 00");
        let mut over_surrogates = false;
        let mut reversed = false;
        for range in characters.windows(3).filter(|range| range[0] == 0) {
            over_surrogates |= range[1] < 0xd800 && range[2] > 0xdfff;
            reversed |= range[2] < range[1];
        }
        self.count_if(over_surrogates, "mappings: range over the surrogates");
        self.count_if(reversed, "mappings: end below start");
    }

    fn item(&mut self, item: &ItemModel, font: &FontModel, sheet: &SheetModel) {
        self.count(format!("items: alignment {}", item.alignment));
        self.count(format!("items: baseline {}", item.baseline));
        self.count(format!("items: height kind {}", item.height_kind));
        let style = item.style;
        self.count(format!("items: text {} background {}", style[0], style[2]));
        self.count(format!("items: underline mode {}", style[4]));
        self.count(format!("items: strikethrough mode {}", style[6]));
        let text = item.text();
        self.count_if(text.is_empty(), "texts: empty");
        self.count_if(text.contains(&b'\n'), "texts: with 0A");
        self.count_if(text.contains(&b'\r'), "texts: with 0D");
        self.count_if(
            text.windows(2).any(|two| two == b"\r\n"),
            "texts: with 0D 0A",
        );
        let mut lines = text.split(|byte| *byte == b'\n');
        let keeps = |line: &[u8]| line.strip_suffix(b"\r").unwrap_or(line).contains(&b'\r');
        self.count_if(lines.any(keeps), "texts: with a 0D that is not dropped");
        self.count_if(text.contains(&0), "texts: with 00");
        self.count_if(
            text.iter().any(|byte| *byte >= 0xf0),
            "texts: 4-byte characters",
        );
        self.count_if(item.slot.len() == 256, "slots of 256");
        let far = |place: i16| i32::from(place).abs() >= 32_766;
        self.count_if(far(item.x) || far(item.y), "items: extreme place");
        let inside =
            (0..sheet.width as i16).contains(&item.x) && (0..sheet.height as i16).contains(&item.y);
        self.count_if(inside, "items: place in the frame");
        let listed = decode_all(text).unwrap_or_default();
        let wide = listed.len() * (usize::from(font.character_width) + usize::from(font.spacing));
        self.count_if(wide > 10_000, "texts: wider than 10,000");
    }
}

impl fmt::Display for Tally {
    fn fmt(&self, f: &mut fmt::Formatter<'_>) -> fmt::Result {
        let listed = |codes: &BTreeMap<u32, u64>| {
            let codes = codes
                .iter()
                .map(|(code, number)| format!("{code}:{number}"));
            codes.collect::<Vec<String>>().join(" ")
        };
        writeln!(f, "answers by call and code (0 good, else the refusal):")?;
        let mut total: BTreeMap<u32, u64> = (0..=18).map(|code| (code, 0)).collect();
        for (call, codes) in &self.codes {
            writeln!(f, "  {call:<16} {}", listed(codes))?;
            for (code, number) in codes {
                *total.entry(*code).or_default() += number;
            }
        }
        writeln!(f, "  {:<16} {}", "all calls", listed(&total))?;
        writeln!(f, "what was met:")?;
        for (kind, number) in &self.kinds {
            writeln!(f, "  {kind:<42} {number}")?;
        }
        for (name, (least, most)) in &self.ranges {
            writeln!(f, "  {name:<42} {least} to {most}")?;
        }
        Ok(())
    }
}
