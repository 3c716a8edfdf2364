//! The fields of a sheet: docs/SHEET.md, Sheet.

/// The header's length.
pub const HEADER: usize = 24;

/// The length of a font's or an item's record.
pub const RECORD: usize = 28;

/// "Numbers stored as bytes are little-endian."
pub fn number(bytes: &[u8], offset: usize, length: usize) -> u32 {
    bytes[offset..offset + length]
        .iter()
        .rev()
        .fold(0, |number, byte| number << 8 | u32::from(*byte))
}

/// The header, each field as stored.
#[derive(Debug, Clone, Copy)]
pub struct Header {
    pub edition: u32,
    pub width: u32,
    pub height: u32,
    pub paper: u8,
    pub fonts: u32,
    pub items: u32,
    pub zero: u32,
    pub fonts_offset: u32,
    pub items_offset: u32,
    pub length: u32,
}

impl Header {
    /// Reads the header of a sheet of at least 24 bytes.
    pub fn read(sheet: &[u8]) -> Self {
        Self {
            edition: number(sheet, 0, 2),
            width: number(sheet, 2, 2),
            height: number(sheet, 4, 2),
            paper: sheet[6],
            fonts: number(sheet, 7, 1),
            items: number(sheet, 8, 2),
            zero: number(sheet, 10, 2),
            fonts_offset: number(sheet, 12, 4),
            items_offset: number(sheet, 16, 4),
            length: number(sheet, 20, 4),
        }
    }

    /// The number of greys of a frame.
    pub fn area(&self) -> usize {
        self.width as usize * self.height as usize
    }
}

/// A font's record, each field as stored.
#[derive(Debug, Clone, Copy)]
pub struct Font {
    pub atlas_offset: u32,
    pub atlas_length: u32,
    pub mapping_offset: u32,
    pub mapping_length: u32,
    pub replacement: u32,
    pub atlas_width: u32,
    pub character_width: u32,
    pub character_height: u32,
    pub spacing: u32,
    pub baseline: u32,
    pub strikethrough_offset: u32,
    pub strikethrough_height: u32,
    pub underline_offset: u32,
    pub underline_height: u32,
    pub zero: u32,
}

impl Font {
    /// Reads the record that starts at an offset.
    pub fn read_at(sheet: &[u8], at: usize) -> Self {
        let byte = |field: usize| u32::from(sheet[at + field]);
        Self {
            atlas_offset: number(sheet, at, 4),
            atlas_length: number(sheet, at + 4, 4),
            mapping_offset: number(sheet, at + 8, 4),
            mapping_length: number(sheet, at + 12, 2),
            replacement: number(sheet, at + 14, 2),
            atlas_width: number(sheet, at + 16, 2),
            character_width: byte(18),
            character_height: byte(19),
            spacing: byte(20),
            baseline: byte(21),
            strikethrough_offset: byte(22),
            strikethrough_height: byte(23),
            underline_offset: byte(24),
            underline_height: byte(25),
            zero: number(sheet, at + 26, 2),
        }
    }

    /// Reads a font of an accepted sheet.
    pub fn read(sheet: &[u8], font: usize) -> Self {
        Self::read_at(sheet, HEADER + RECORD * font)
    }

    /// The atlas's bytes.
    pub fn atlas<'a>(&self, sheet: &'a [u8]) -> &'a [u8] {
        piece(sheet, self.atlas_offset, self.atlas_length)
    }

    /// The mapping's bytes.
    pub fn mapping<'a>(&self, sheet: &'a [u8]) -> &'a [u8] {
        piece(sheet, self.mapping_offset, self.mapping_length)
    }
}

/// An item's record, each field as stored.
#[derive(Debug, Clone, Copy)]
pub struct Item {
    /// Where the record starts.
    pub at: usize,
    pub x: i32,
    pub y: i32,
    pub slot_offset: u32,
    pub slot_size: u32,
    pub text_length: u32,
    pub font: u32,
    pub text_mode: u8,
    pub text_grey: u8,
    pub background_mode: u8,
    pub background_grey: u8,
    pub underline_mode: u8,
    pub underline_grey: u8,
    pub strikethrough_mode: u8,
    pub strikethrough_grey: u8,
    pub alignment: u8,
    pub baseline: u8,
    pub height_kind: u8,
    pub height_value: u32,
    pub zero: u32,
}

impl Item {
    /// Reads the record that starts at an offset.
    pub fn read_at(sheet: &[u8], at: usize) -> Self {
        let signed = |field: usize| i32::from(number(sheet, at + field, 2) as u16 as i16);
        let byte = |field: usize| sheet[at + field];
        Self {
            at,
            x: signed(0),
            y: signed(2),
            slot_offset: number(sheet, at + 4, 4),
            slot_size: number(sheet, at + 8, 2),
            text_length: number(sheet, at + 10, 2),
            font: number(sheet, at + 12, 1),
            text_mode: byte(13),
            text_grey: byte(14),
            background_mode: byte(15),
            background_grey: byte(16),
            underline_mode: byte(17),
            underline_grey: byte(18),
            strikethrough_mode: byte(19),
            strikethrough_grey: byte(20),
            alignment: byte(21),
            baseline: byte(22),
            height_kind: byte(23),
            height_value: number(sheet, at + 24, 2),
            zero: number(sheet, at + 26, 2),
        }
    }

    /// Reads an item of an accepted sheet.
    pub fn read(sheet: &[u8], item: usize) -> Self {
        let fonts = Header::read(sheet).fonts as usize;
        Self::read_at(sheet, HEADER + RECORD * (fonts + item))
    }

    /// The text's bytes.
    pub fn text<'a>(&self, sheet: &'a [u8]) -> &'a [u8] {
        piece(sheet, self.slot_offset, self.text_length)
    }

    /// The slot's bytes.
    pub fn slot<'a>(&self, sheet: &'a [u8]) -> &'a [u8] {
        piece(sheet, self.slot_offset, self.slot_size)
    }
}

fn piece(sheet: &[u8], offset: u32, length: u32) -> &[u8] {
    &sheet[offset as usize..offset as usize + length as usize]
}
