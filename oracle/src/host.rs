//! The exported calls of `libstation.a`, as `crates/station_c/src/lib.rt` exports them: a slice is a pointer
//! and then its length.

use oracle::reply::{Area, Batch, Drawn, Edit, Glyph, Number, Position, Station, Step};

extern "C" {
    fn station_check(sheet: *const u8, length: usize) -> u32;
    fn station_index(sheet: *const u8, length: usize, font: u32, character: u32) -> Glyph;
    fn station_contains(sheet: *const u8, length: usize, font: u32, character: u32) -> Number;
    fn station_bounding_box(sheet: *const u8, length: usize, item: u32) -> Area;
    fn station_draw_item(
        sheet: *const u8,
        length: usize,
        frame: *mut u8,
        frame_length: usize,
        item: u32,
    ) -> Drawn;
    fn station_draw_whitespace(
        sheet: *const u8,
        length: usize,
        frame: *mut u8,
        frame_length: usize,
        item: u32,
        width: u32,
    ) -> Position;
    fn station_draw(sheet: *const u8, length: usize, frame: *mut u8, frame_length: usize) -> u32;
    fn station_set_text(
        sheet: *mut u8,
        length: usize,
        frame: *mut u8,
        frame_length: usize,
        item: u32,
        text: *const u8,
        text_length: usize,
    ) -> Area;
    fn station_set_place(
        sheet: *mut u8,
        length: usize,
        frame: *mut u8,
        frame_length: usize,
        item: u32,
        x: i32,
        y: i32,
    ) -> Area;
    fn station_set_style(
        sheet: *mut u8,
        length: usize,
        frame: *mut u8,
        frame_length: usize,
        item: u32,
        style: *const u8,
        style_length: usize,
    ) -> Area;
    fn station_edit_list(
        sheet: *mut u8,
        length: usize,
        frame: *mut u8,
        frame_length: usize,
        list: *const u8,
        list_length: usize,
    ) -> Batch;
    fn station_set_text_on_sheet(
        sheet: *mut u8,
        length: usize,
        item: u32,
        text: *const u8,
        text_length: usize,
    ) -> Area;
    fn station_set_place_on_sheet(sheet: *mut u8, length: usize, item: u32, x: i32, y: i32)
        -> Area;
    fn station_set_style_on_sheet(
        sheet: *mut u8,
        length: usize,
        item: u32,
        style: *const u8,
        style_length: usize,
    ) -> Area;
    fn station_write_page(
        sheet: *const u8,
        length: usize,
        frame: *const u8,
        frame_length: usize,
        output: *mut u8,
        output_length: usize,
    ) -> Number;
    fn station_walk(line: *const u8, length: usize, offset: usize) -> Step;
}

/// The linked library.
pub struct Library;

// SAFETY of every call: each pointer and length are those of one slice, lent for the call.
impl Station for Library {
    fn check(&self, sheet: &[u8]) -> u32 {
        unsafe { station_check(sheet.as_ptr(), sheet.len()) }
    }

    fn index(&self, sheet: &[u8], font: u32, character: u32) -> Glyph {
        unsafe { station_index(sheet.as_ptr(), sheet.len(), font, character) }
    }

    fn contains(&self, sheet: &[u8], font: u32, character: u32) -> Number {
        unsafe { station_contains(sheet.as_ptr(), sheet.len(), font, character) }
    }

    fn bounding_box(&self, sheet: &[u8], item: u32) -> Area {
        unsafe { station_bounding_box(sheet.as_ptr(), sheet.len(), item) }
    }

    fn draw_item(&self, sheet: &[u8], frame: &mut [u8], item: u32) -> Drawn {
        let (greys, size) = (frame.as_mut_ptr(), frame.len());
        unsafe { station_draw_item(sheet.as_ptr(), sheet.len(), greys, size, item) }
    }

    fn draw_whitespace(&self, sheet: &[u8], frame: &mut [u8], item: u32, width: u32) -> Position {
        let (greys, size) = (frame.as_mut_ptr(), frame.len());
        unsafe { station_draw_whitespace(sheet.as_ptr(), sheet.len(), greys, size, item, width) }
    }

    fn draw(&self, sheet: &[u8], frame: &mut [u8]) -> u32 {
        unsafe { station_draw(sheet.as_ptr(), sheet.len(), frame.as_mut_ptr(), frame.len()) }
    }

    fn edit(&self, sheet: &mut [u8], frame: &mut [u8], item: u32, edit: Edit) -> Area {
        let (bytes, length) = (sheet.as_mut_ptr(), sheet.len());
        let (greys, size) = (frame.as_mut_ptr(), frame.len());
        unsafe {
            match edit {
                Edit::Text(text) => {
                    let (data, count) = (text.as_ptr(), text.len());
                    station_set_text(bytes, length, greys, size, item, data, count)
                }
                Edit::Place(x, y) => station_set_place(bytes, length, greys, size, item, x, y),
                Edit::Style(style) => {
                    let (data, count) = (style.as_ptr(), style.len());
                    station_set_style(bytes, length, greys, size, item, data, count)
                }
            }
        }
    }

    fn edit_on_sheet(&self, sheet: &mut [u8], item: u32, edit: Edit) -> Area {
        let (bytes, length) = (sheet.as_mut_ptr(), sheet.len());
        unsafe {
            match edit {
                Edit::Text(text) => {
                    station_set_text_on_sheet(bytes, length, item, text.as_ptr(), text.len())
                }
                Edit::Place(x, y) => station_set_place_on_sheet(bytes, length, item, x, y),
                Edit::Style(style) => {
                    station_set_style_on_sheet(bytes, length, item, style.as_ptr(), style.len())
                }
            }
        }
    }

    fn edit_list(&self, sheet: &mut [u8], frame: &mut [u8], list: &[u8]) -> Batch {
        let (bytes, length) = (sheet.as_mut_ptr(), sheet.len());
        let (greys, size) = (frame.as_mut_ptr(), frame.len());
        unsafe { station_edit_list(bytes, length, greys, size, list.as_ptr(), list.len()) }
    }

    fn write_page(&self, sheet: &[u8], frame: &[u8], output: &mut [u8]) -> Number {
        let (greys, size) = (frame.as_ptr(), frame.len());
        let (page, room) = (output.as_mut_ptr(), output.len());
        unsafe { station_write_page(sheet.as_ptr(), sheet.len(), greys, size, page, room) }
    }

    fn walk(&self, line: &[u8], offset: usize) -> Step {
        unsafe { station_walk(line.as_ptr(), line.len(), offset) }
    }
}
