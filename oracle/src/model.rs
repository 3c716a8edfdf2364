//! A sheet as values: what generators build and the reducer shrinks, written out as bytes.

use crate::fields::{Font, Header, Item, HEADER, RECORD};

/// A font: its record without the offsets, its atlas and its mapping.
#[derive(Debug, Clone, PartialEq, Eq, Default)]
pub struct FontModel {
    pub atlas: Vec<u8>,
    pub mapping: Vec<u8>,
    pub replacement: u16,
    pub atlas_width: u16,
    pub character_width: u8,
    pub character_height: u8,
    pub spacing: u8,
    pub baseline: u8,
    /// Offset and height.
    pub strikethrough: [u8; 2],
    /// Offset and height.
    pub underline: [u8; 2],
    pub zero: u16,
}

/// An item: its record without the offset, and its slot.
#[derive(Debug, Clone, PartialEq, Eq, Default)]
pub struct ItemModel {
    pub x: i16,
    pub y: i16,
    pub slot: Vec<u8>,
    pub text_length: u16,
    pub font: u8,
    /// Bytes 13 to 20: mode and grey of text, background, underline and strikethrough.
    pub style: [u8; 8],
    pub alignment: u8,
    pub baseline: u8,
    pub height_kind: u8,
    pub height_value: u16,
    pub zero: u16,
}

impl ItemModel {
    /// Sets the text and, after it, so many bytes 00 of the slot.
    pub fn set_text(&mut self, text: &[u8], tail: usize) {
        self.slot = text.to_vec();
        self.slot.resize(text.len() + tail, 0);
        self.text_length = text.len() as u16;
    }

    /// The text's bytes.
    pub fn text(&self) -> &[u8] {
        &self.slot[..self.text_length as usize]
    }
}

/// A sheet.
#[derive(Debug, Clone, PartialEq, Eq, Default)]
pub struct SheetModel {
    pub width: u16,
    pub height: u16,
    pub paper: u8,
    pub fonts: Vec<FontModel>,
    pub items: Vec<ItemModel>,
}

impl SheetModel {
    /// The length of its file.
    pub fn length(&self) -> usize {
        let records = HEADER + RECORD * (self.fonts.len() + self.items.len());
        let fonts = self
            .fonts
            .iter()
            .map(|font| font.atlas.len() + font.mapping.len());
        let slots = self.items.iter().map(|item| item.slot.len());
        records + fonts.sum::<usize>() + slots.sum::<usize>()
    }

    /// The number of greys of its frame.
    pub fn area(&self) -> usize {
        self.width as usize * self.height as usize
    }

    /// Its file, laid out as docs/SHEET.md, Sheet, has it, whatever the fields hold.
    pub fn encode(&self) -> Vec<u8> {
        let items_at = HEADER + RECORD * self.fonts.len();
        let mut end = items_at + RECORD * self.items.len();
        let mut sheet = Vec::with_capacity(self.length());
        for field in [1, self.width, self.height] {
            sheet.extend_from_slice(&field.to_le_bytes());
        }
        sheet.extend_from_slice(&[self.paper, self.fonts.len() as u8]);
        sheet.extend_from_slice(&(self.items.len() as u16).to_le_bytes());
        sheet.extend_from_slice(&[0, 0]);
        for field in [HEADER, items_at, self.length()] {
            sheet.extend_from_slice(&(field as u32).to_le_bytes());
        }
        for font in &self.fonts {
            write_font(&mut sheet, font, &mut end);
        }
        for item in &self.items {
            write_item(&mut sheet, item, &mut end);
        }
        for font in &self.fonts {
            sheet.extend_from_slice(&font.atlas);
            sheet.extend_from_slice(&font.mapping);
        }
        for item in &self.items {
            sheet.extend_from_slice(&item.slot);
        }
        sheet
    }

    /// The values of an accepted sheet.
    pub fn decode(sheet: &[u8]) -> Self {
        let header = Header::read(sheet);
        Self {
            width: header.width as u16,
            height: header.height as u16,
            paper: header.paper,
            fonts: (0..header.fonts as usize)
                .map(|font| read_font(sheet, font))
                .collect(),
            items: (0..header.items as usize)
                .map(|item| read_item(sheet, item))
                .collect(),
        }
    }
}

fn write_font(sheet: &mut Vec<u8>, font: &FontModel, end: &mut usize) {
    sheet.extend_from_slice(&(*end as u32).to_le_bytes());
    sheet.extend_from_slice(&(font.atlas.len() as u32).to_le_bytes());
    *end += font.atlas.len();
    sheet.extend_from_slice(&(*end as u32).to_le_bytes());
    *end += font.mapping.len();
    for field in [
        font.mapping.len() as u16,
        font.replacement,
        font.atlas_width,
    ] {
        sheet.extend_from_slice(&field.to_le_bytes());
    }
    sheet.extend_from_slice(&[
        font.character_width,
        font.character_height,
        font.spacing,
        font.baseline,
    ]);
    sheet.extend_from_slice(&font.strikethrough);
    sheet.extend_from_slice(&font.underline);
    sheet.extend_from_slice(&font.zero.to_le_bytes());
}

fn write_item(sheet: &mut Vec<u8>, item: &ItemModel, end: &mut usize) {
    sheet.extend_from_slice(&item.x.to_le_bytes());
    sheet.extend_from_slice(&item.y.to_le_bytes());
    sheet.extend_from_slice(&(*end as u32).to_le_bytes());
    sheet.extend_from_slice(&(item.slot.len() as u16).to_le_bytes());
    *end += item.slot.len();
    sheet.extend_from_slice(&item.text_length.to_le_bytes());
    sheet.push(item.font);
    sheet.extend_from_slice(&item.style);
    sheet.extend_from_slice(&[item.alignment, item.baseline, item.height_kind]);
    sheet.extend_from_slice(&item.height_value.to_le_bytes());
    sheet.extend_from_slice(&item.zero.to_le_bytes());
}

fn read_font(sheet: &[u8], font: usize) -> FontModel {
    let font = Font::read(sheet, font);
    FontModel {
        atlas: font.atlas(sheet).to_vec(),
        mapping: font.mapping(sheet).to_vec(),
        replacement: font.replacement as u16,
        atlas_width: font.atlas_width as u16,
        character_width: font.character_width as u8,
        character_height: font.character_height as u8,
        spacing: font.spacing as u8,
        baseline: font.baseline as u8,
        strikethrough: [
            font.strikethrough_offset as u8,
            font.strikethrough_height as u8,
        ],
        underline: [font.underline_offset as u8, font.underline_height as u8],
        zero: font.zero as u16,
    }
}

fn read_item(sheet: &[u8], item: usize) -> ItemModel {
    let item = Item::read(sheet, item);
    let mut style = [0; 8];
    style.copy_from_slice(&sheet[item.at + 13..item.at + 21]);
    ItemModel {
        x: item.x as i16,
        y: item.y as i16,
        slot: item.slot(sheet).to_vec(),
        text_length: item.text_length as u16,
        font: item.font as u8,
        style,
        alignment: item.alignment,
        baseline: item.baseline,
        height_kind: item.height_kind,
        height_value: item.height_value as u16,
        zero: item.zero as u16,
    }
}
