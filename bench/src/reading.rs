//! The twelve edits of a gauge reading: in one list, in a call for each, and in a list for each.

use crate::timing::{best_of, Contender};
use crate::{by_turns, pages};
use oracle::edits::{batch, entry};
use oracle::model::SheetModel;
use oracle::reply::{Area, Batch, Edit};
use oracle::Station;
use std::hint::black_box;

/// The new texts of a reading, and the same as entries and as a list.
struct Reading {
    changes: Vec<(u8, Vec<u8>)>,
    entries: Vec<Vec<u8>>,
    list: Vec<u8>,
}

impl Reading {
    fn new(number: u64) -> Self {
        let changes = pages::reading(number);
        let texts = changes.iter();
        let entries: Vec<_> = texts
            .map(|(item, text)| entry(*item, Edit::Text(text)))
            .collect();
        let list = entries.concat();
        Self {
            changes,
            entries,
            list,
        }
    }
}

/// A sheet and the frame that is edited with it.
#[derive(Clone, PartialEq)]
struct Page {
    sheet: Vec<u8>,
    frame: Vec<u8>,
}

impl Page {
    /// The sheet with its fresh drawing.
    fn fresh(station: &dyn Station, sheet: Vec<u8>, area: usize) -> Self {
        let mut frame = vec![0; area];
        assert_eq!(station.draw(&sheet, &mut frame), 0);
        Self { sheet, frame }
    }

    fn set_text(&mut self, station: &dyn Station, (item, text): &(u8, Vec<u8>)) -> Area {
        let (number, edit) = (u32::from(*item), Edit::Text(text));
        station.edit(&mut self.sheet, &mut self.frame, number, edit)
    }

    fn edit_list(&mut self, station: &dyn Station, list: &[u8]) -> Batch {
        station.edit_list(&mut self.sheet, &mut self.frame, list)
    }

    /// Stops the program if the frame is not the sheet's fresh drawing.
    fn compare(&self, station: &dyn Station) {
        let fresh = Self::fresh(station, self.sheet.clone(), self.frame.len());
        assert!(*self == fresh, "the edited page is not the fresh one");
    }
}

/// The pages that the three ways edit, the last one for each edit.
struct Pages {
    singly: Page,
    together: Page,
    apart: Vec<Page>,
}

/// Nanoseconds of the three ways, of the fresh drawing and of the check.
struct Times {
    singly: f64,
    together: f64,
    apart: Vec<f64>,
    drawing: f64,
    check: f64,
}

/// Both readings by turns, so that each edit changes its line.
fn times(station: &dyn Station, readings: [&Reading; 2], fresh: &Page, pages: &mut Pages) -> Times {
    let Pages {
        singly,
        together,
        apart,
    } = pages;
    let mut page = fresh.clone();
    let mut calls = by_turns(readings, |reading| {
        for change in &reading.changes {
            assert_eq!(singly.set_text(station, change).code, 0);
        }
    });
    let mut list = by_turns(readings, |reading| {
        assert_eq!(together.edit_list(station, &reading.list).code, 0);
    });
    let mut draw = || {
        station.draw(black_box(&fresh.sheet), black_box(&mut page.frame));
    };
    let mut check = || {
        black_box(station.check(black_box(&fresh.sheet)));
    };
    let numbered = apart.iter_mut().enumerate();
    let mut lists: Vec<_> = numbered
        .map(|(number, page)| {
            by_turns(readings, move |reading| {
                let entry = &reading.entries[number];
                assert_eq!(page.edit_list(station, entry).code, 0);
            })
        })
        .collect();
    let mut contenders: Vec<Contender> = vec![&mut calls, &mut list, &mut draw, &mut check];
    contenders.extend(lists.iter_mut().map(|list| list as Contender));
    let best = best_of(&mut contenders);
    Times {
        singly: best[0],
        together: best[1],
        drawing: best[2],
        check: best[3],
        apart: best[4..].to_vec(),
    }
}

/// Stops the program if the list leaves another sheet, frame or reply than the same calls, or a page is not the fresh one.
fn compare(station: &dyn Station, readings: [&Reading; 2], pages: &mut Pages) {
    for reading in readings {
        let changes = reading.changes.iter();
        let replies = changes.map(|change| pages.singly.set_text(station, change));
        let expected = batch(replies);
        assert_eq!(pages.together.edit_list(station, &reading.list), expected);
        assert!(pages.together == pages.singly, "the pages differ");
        pages.together.compare(station);
    }
    for page in &pages.apart {
        page.compare(station);
    }
}

/// A list of one entry takes at least the edit's time in the list of twelve, and beside it a check of its own.
pub fn measure(station: &dyn Station, name: &str, model: &SheetModel) {
    let readings = [&Reading::new(0), &Reading::new(1)];
    let count = readings[0].changes.len();
    let fresh = Page::fresh(station, model.encode(), model.area());
    let mut pages = Pages {
        singly: fresh.clone(),
        together: fresh.clone(),
        apart: vec![fresh.clone(); count],
    };
    let times = times(station, readings, &fresh, &mut pages);
    println!("\na reading's edits of {count} 32-character lines of 64, {name}, ns");
    println!(
        "  one list {:.0}, {count} calls {:.0}: ratio {:.3}",
        times.together,
        times.singly,
        times.together / times.singly
    );
    let mean = times.together / count as f64;
    println!(
        "  the list for each edit {mean:.0}, fresh drawing {:.0}: ratio {:.3}",
        times.drawing,
        mean / times.drawing
    );
    let longest = times.apart.iter().copied().fold(0.0, f64::max);
    println!(
        "  the longest edit as a list of its own {longest:.0}: ratio {:.3}; less the check {:.0}: {:.3}",
        longest / times.drawing,
        times.check,
        (longest - times.check) / times.drawing
    );
    compare(station, readings, &mut pages);
}
