//! Prints the times of the exported calls beside those of the crate's own code, measured in the
//! same run. The crate draws on its faster kind of frame, which fills its own rows; its fonts and
//! texts are made beforehand, and it has no check. Each exported call runs the whole check first.
//! With the word 'quick' everything runs once, and only what is compared counts.

#[cfg(library)]
#[path = "../../oracle/src/host.rs"]
mod host;
mod pages;
mod reading;
mod timing;

use embedded_graphics::draw_target::DrawTarget;
use embedded_graphics::mono_font::mapping::{GlyphMapping, StrGlyphMapping};
use embedded_graphics::mono_font::MonoFont;
use embedded_graphics::pixelcolor::Gray8;
use embedded_graphics::Drawable;
use oracle::fields::{Font, Header, Item};
use oracle::frame::{RowFrame, WholeFrame};
use oracle::model::SheetModel;
use oracle::reply::{Area, Edit};
use oracle::sheet::{glyph_mapping, mono_font, text, GreyText};
use oracle::Station;
use std::convert::Infallible;
use std::hint::black_box;
use timing::best;

#[cfg(library)]
fn station() -> impl Station {
    host::Library
}

#[cfg(not(library))]
fn station() -> impl Station {
    println!("libstation.a is not there: the formulas of docs/SHEET.md stand in for it\n");
    oracle::Calls(oracle::Plain)
}

/// The crate's objects of a sheet, made before anything is measured.
struct Made<'a> {
    header: Header,
    texts: Vec<GreyText<'a>>,
}

impl<'a> Made<'a> {
    fn mappings(sheet: &'a [u8]) -> Vec<StrGlyphMapping<'a>> {
        let fonts = 0..Header::read(sheet).fonts as usize;
        fonts
            .map(|font| glyph_mapping(sheet, &Font::read(sheet, font)))
            .collect()
    }

    fn fonts(sheet: &'a [u8], mappings: &'a [StrGlyphMapping<'a>]) -> Vec<MonoFont<'a>> {
        let numbered = mappings.iter().enumerate();
        numbered
            .map(|(font, mapping)| mono_font(sheet, &Font::read(sheet, font), mapping))
            .collect()
    }

    fn new(sheet: &'a [u8], fonts: &'a [MonoFont<'a>]) -> Self {
        let header = Header::read(sheet);
        let items = (0..header.items as usize).map(|item| Item::read(sheet, item));
        let texts = items.map(|item| text(sheet, &item, &fonts[item.font as usize]));
        Self {
            header,
            texts: texts.collect(),
        }
    }

    fn draw(&self, frame: &mut [u8], clear: Clear) {
        let Header { width, height, .. } = self.header;
        match clear {
            Clear::ByRow => self.draw_on(RowFrame::new(frame, width, height)),
            Clear::AtOnce => self.draw_on(WholeFrame::new(frame, width, height)),
        }
    }

    fn draw_on<D>(&self, mut frame: D)
    where
        D: DrawTarget<Color = Gray8, Error = Infallible>,
    {
        let Ok(()) = frame.clear(Gray8::new(self.header.paper));
        for text in &self.texts {
            let Ok(_) = black_box(text).draw(&mut frame);
        }
    }
}

/// How the crate's frame is cleared before a page is drawn.
#[derive(Clone, Copy)]
enum Clear {
    /// As the trait does it: a filling of the bounding box, which the frame fills row by row.
    ByRow,
    /// By one fill of all greys.
    AtOnce,
}

fn draw_pages(station: &dyn Station) {
    println!("a page, ns                             station     check     crate   ratio   without the check");
    use Clear::{AtOnce, ByRow};
    let pages: [(&str, SheetModel, Clear); 13] = [
        (
            "64 lines of 32, 320 x 200, background",
            pages::lines(1),
            AtOnce,
        ),
        (
            "64 lines of 32, 320 x 200, text only",
            pages::lines(0),
            AtOnce,
        ),
        (
            "64 lines of 32, two rows shown each",
            pages::hanging(2),
            AtOnce,
        ),
        (
            "64 lines of 32, one row shown each",
            pages::hanging(1),
            AtOnce,
        ),
        ("64 lines of 32 below the frame", pages::hanging(0), AtOnce),
        ("dense, 256 x 256", pages::dense(), AtOnce),
        (
            "8 characters, end of 65,536",
            pages::last_characters(),
            AtOnce,
        ),
        ("Greek, 464 in 3 ranges", pages::greek(false), AtOnce),
        ("Greek, 464 listed singly", pages::greek(true), AtOnce),
        (
            "64 characters, end of 20,000 listed",
            pages::last_listed(),
            AtOnce,
        ),
        ("16,384 not listed, of 47,000", pages::unlisted(), AtOnce),
        ("empty, 320 x 200, crate by row", pages::empty(), ByRow),
        ("empty, 320 x 200, crate at once", pages::empty(), AtOnce),
    ];
    for (name, model, clear) in pages {
        let sheet = model.encode();
        assert_eq!(station.check(&sheet), 0);
        let mappings = Made::mappings(&sheet);
        let fonts = Made::fonts(&sheet, &mappings);
        let made = Made::new(&sheet, &fonts);
        let mut frame = vec![0; model.area()];
        let mut crates_frame = vec![0; model.area()];
        let [drawn, checked, crates] = best([
            &mut || {
                station.draw(black_box(&sheet), black_box(&mut frame));
            },
            &mut || {
                black_box(station.check(black_box(&sheet)));
            },
            &mut || made.draw(black_box(&mut crates_frame), clear),
        ]);
        assert!(frame == crates_frame, "the pages differ");
        println!(
            "{name:<38} {drawn:>8.0} {checked:>9.0} {crates:>9.0} {:>7.3} {:>10.3}",
            drawn / crates,
            (drawn - checked) / crates
        );
    }
}

/// What is done with one of two things by turns.
fn by_turns<'a, T: 'a>(things: [T; 2], mut with: impl FnMut(&T) + 'a) -> impl FnMut() + 'a {
    let mut number = 0;
    move || {
        number ^= 1;
        with(&things[number]);
    }
}

/// An edit that gives one of two texts of 32 characters by turns.
fn new_text<'a>(mut edit: impl FnMut(Edit) -> Area + 'a) -> impl FnMut() + 'a {
    let texts = [pages::letters(100, 32), pages::letters(101, 32)];
    by_turns(texts, move |text| {
        assert_eq!(edit(Edit::Text(text)).code, 0)
    })
}

fn edit_page(station: &dyn Station, name: &str, make: fn() -> SheetModel) {
    const LINE: u32 = 31;
    let model = make();
    let fresh = model.encode();
    let [mut sheet, mut alone] = [fresh.clone(), fresh.clone()];
    let mut outside = make();
    outside.items[LINE as usize].x = 2_000;
    let mut outside = outside.encode();
    let mut frame = vec![0; model.area()];
    let mut page = frame.clone();
    let mut outside_page = frame.clone();
    station.draw(&sheet, &mut frame);
    let [edited, unseen, on_sheet, drawn, checked] = best([
        &mut new_text(|edit| station.edit(&mut sheet, &mut frame, LINE, edit)),
        &mut new_text(|edit| station.edit(&mut outside, &mut outside_page, LINE, edit)),
        &mut new_text(|edit| station.edit_on_sheet(&mut alone, LINE, edit)),
        &mut || {
            station.draw(black_box(&fresh), black_box(&mut page));
        },
        &mut || {
            black_box(station.check(black_box(&fresh)));
        },
    ]);
    println!("\nan edit of one 32-character line of 64, {name}, ns");
    println!(
        "  edit {edited:.0}, fresh drawing {drawn:.0}: ratio {:.3}",
        edited / drawn
    );
    println!(
        "  the check {checked:.0}: {:.0} % of the edit, {:.1} % of the drawing",
        100.0 * checked / edited,
        100.0 * checked / drawn
    );
    println!(
        "  the new text and its damage rectangle {:.0}, telling the items apart {:.0}, painting {:.0}",
        on_sheet - checked,
        unseen - on_sheet,
        edited - unseen
    );
    station.draw(&sheet, &mut page);
    assert!(frame == page, "the edited page is not the fresh one");
}

fn index(station: &dyn Station, name: &str, model: &SheetModel, character: char) {
    let sheet = model.encode();
    let mapping = glyph_mapping(&sheet, &Font::read(&sheet, 0));
    let expected = mapping.index(character) as u32;
    let found = station.index(&sheet, 0, character as u32);
    assert_eq!((found.code, found.index, found.listed), (0, expected, 1));
    let [indexed, checked, crates] = best([
        &mut || {
            black_box(station.index(black_box(&sheet), 0, black_box(character as u32)));
        },
        &mut || {
            black_box(station.check(black_box(&sheet)));
        },
        &mut || {
            black_box(black_box(&mapping).index(black_box(character)));
        },
    ]);
    print_single(name, indexed, checked, crates);
}

fn print_single(name: &str, station: f64, check: f64, other: f64) {
    println!("{name:<38} {station:>8.1} {check:>9.1} {other:>9.1}");
}

fn singles(station: &dyn Station) {
    println!(
        "\nsingle things, ns                      station     check   crate (memset for the fill)"
    );
    let model = pages::empty();
    let sheet = model.encode();
    let mut frame = vec![0; model.area()];
    let mut other = frame.clone();
    let [filled, checked, memset] = best([
        &mut || {
            station.draw(black_box(&sheet), black_box(&mut frame));
        },
        &mut || {
            black_box(station.check(black_box(&sheet)));
        },
        &mut || black_box(&mut other).fill(black_box(255)),
    ]);
    print_single("fill of the frame, 64,000 greys", filled, checked, memset);
    index(
        station,
        "index at the end of ASCII",
        &pages::glyph(),
        '\u{7f}',
    );
    let largest = pages::last_characters();
    index(station, "index at the end of 65,536", &largest, '\u{1ffff}');
    let model = pages::glyph();
    let sheet = model.encode();
    let mappings = Made::mappings(&sheet);
    let fonts = Made::fonts(&sheet, &mappings);
    let made = Made::new(&sheet, &fonts);
    let header = made.header;
    let [drawn, checked, crates] = best([
        &mut || {
            black_box(station.draw_item(black_box(&sheet), black_box(&mut frame), 0));
        },
        &mut || {
            black_box(station.check(black_box(&sheet)));
        },
        &mut || {
            let mut frame = RowFrame::new(black_box(&mut other), header.width, header.height);
            let Ok(next) = black_box(&made.texts[0]).draw(&mut frame);
            black_box(next);
        },
    ]);
    print_single("one glyph of 8 x 13, both greys", drawn, checked, crates);
}

fn main() {
    let station = station();
    draw_pages(&station);
    edit_page(&station, "each apart from the others", || pages::lines(1));
    edit_page(&station, "each over two others", pages::overlapping);
    reading::measure(&station, "each apart from the others", &pages::lines(1));
    reading::measure(&station, "each over two others", &pages::overlapping());
    singles(&station);
}
