//! The calls of the host and their replies, as `include/station.h` has them.

/// A code and a value: yes or no as 1 or 0, or a length.
#[repr(C)]
#[derive(Debug, Clone, Copy, PartialEq, Eq, Default)]
pub struct Number {
    pub code: u32,
    pub value: u32,
}

/// A code, a character's index, and whether it is listed as 1 or 0.
#[repr(C)]
#[derive(Debug, Clone, Copy, PartialEq, Eq, Default)]
pub struct Glyph {
    pub code: u32,
    pub index: u32,
    pub listed: u32,
}

/// A code and a position.
#[repr(C)]
#[derive(Debug, Clone, Copy, PartialEq, Eq, Default)]
pub struct Position {
    pub code: u32,
    pub x: i32,
    pub y: i32,
}

/// A code, a position, and how many characters are replaced.
#[repr(C)]
#[derive(Debug, Clone, Copy, PartialEq, Eq, Default)]
pub struct Drawn {
    pub code: u32,
    pub x: i32,
    pub y: i32,
    pub replaced: u32,
}

/// A code and a rectangle.
#[repr(C)]
#[derive(Debug, Clone, Copy, PartialEq, Eq, Default)]
pub struct Area {
    pub code: u32,
    pub left: i32,
    pub top: i32,
    pub width: u32,
    pub height: u32,
}

/// A code, how many edits were made, and a rectangle.
#[repr(C)]
#[derive(Debug, Clone, Copy, PartialEq, Eq, Default)]
pub struct Batch {
    pub code: u32,
    pub made: u32,
    pub left: i32,
    pub top: i32,
    pub width: u32,
    pub height: u32,
}

/// A code, and of the walker: 1 at the end, else the character, and the offset of the next.
#[repr(C)]
#[derive(Debug, Clone, Copy, PartialEq, Eq, Default)]
pub struct Step {
    pub code: u32,
    pub ended: u32,
    pub character: u32,
    pub next: usize,
}

/// The three edits.
#[derive(Debug, Clone, Copy, PartialEq, Eq)]
pub enum Edit<'a> {
    Text(&'a [u8]),
    Place(i32, i32),
    Style(&'a [u8]),
}

/// Who answers the calls: the oracle, the plain drawing of docs/SHEET.md, or the linked library.
pub trait Station {
    fn check(&self, sheet: &[u8]) -> u32;
    fn index(&self, sheet: &[u8], font: u32, character: u32) -> Glyph;
    fn contains(&self, sheet: &[u8], font: u32, character: u32) -> Number;
    fn bounding_box(&self, sheet: &[u8], item: u32) -> Area;
    fn draw_item(&self, sheet: &[u8], frame: &mut [u8], item: u32) -> Drawn;
    fn draw_whitespace(&self, sheet: &[u8], frame: &mut [u8], item: u32, width: u32) -> Position;
    fn draw(&self, sheet: &[u8], frame: &mut [u8]) -> u32;
    fn edit(&self, sheet: &mut [u8], frame: &mut [u8], item: u32, edit: Edit) -> Area;
    fn edit_on_sheet(&self, sheet: &mut [u8], item: u32, edit: Edit) -> Area;
    fn edit_list(&self, sheet: &mut [u8], frame: &mut [u8], list: &[u8]) -> Batch;
    fn write_page(&self, sheet: &[u8], frame: &[u8], output: &mut [u8]) -> Number;
    fn walk(&self, line: &[u8], offset: usize) -> Step;
}

impl Number {
    /// A refused call: its number with zeros.
    pub fn refused(code: u32) -> Self {
        Self { code, value: 0 }
    }
}

impl Glyph {
    /// A refused call: its number with zeros.
    pub fn refused(code: u32) -> Self {
        Self {
            code,
            ..Self::default()
        }
    }
}

impl Position {
    /// A refused call: its number with zeros.
    pub fn refused(code: u32) -> Self {
        Self { code, x: 0, y: 0 }
    }
}

impl Drawn {
    /// A refused call: its number with zeros.
    pub fn refused(code: u32) -> Self {
        Self {
            code,
            ..Self::default()
        }
    }
}

impl Area {
    /// A refused call: its number with zeros.
    pub fn refused(code: u32) -> Self {
        Self {
            code,
            ..Self::default()
        }
    }
}

impl Batch {
    /// A list that is refused before any edit: its number with zeros.
    pub fn refused(code: u32) -> Self {
        Self {
            code,
            ..Self::default()
        }
    }
}
