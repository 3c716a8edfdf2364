//! Answers for an accepted sheet on standard input, from the crate's own code:
//!
//!     driver page                    the page
//!     driver item ITEM FRAME         'x y replaced', a feed and the greys of the file FRAME painted
//!     driver whitespace ITEM V FRAME the same for whitespace of width V, without replaced
//!     driver box ITEM                'left top width height'
//!     driver index FONT NUMBER       'index listed', the second 1 or 0
//!     driver contains FONT NUMBER    1 or 0
//!     driver time                    nanoseconds of a page, best of several
//!     driver marked                  the marked lines of docs/SHEET.md; reads nothing
//!
//! Of a refused call it writes `refused N` and a feed.

use oracle::marked::marked_lines;
use oracle::{Calls, Crate, Oracle, Plain, Station};
use std::io::{Read, Write};
use std::time::Instant;

const ORACLE: Oracle = Calls(Crate { rows: true });

fn page(sheet: &[u8]) -> Result<Vec<u8>, u32> {
    match ORACLE.check(sheet) {
        0 => {}
        code => return Err(code),
    }
    let header = oracle::fields::Header::read(sheet);
    let mut frame = vec![0; header.area()];
    ORACLE.draw(sheet, &mut frame);
    let mut output = vec![0; header.area() + 16];
    let length = ORACLE.write_page(sheet, &frame, &mut output).value;
    output.truncate(length as usize);
    Ok(output)
}

fn time(sheet: &[u8]) -> Result<Vec<u8>, u32> {
    page(sheet)?;
    let mut frame = vec![0; oracle::fields::Header::read(sheet).area()];
    let best = (0..50)
        .map(|_| {
            let start = Instant::now();
            oracle::calls::Painter::draw(&ORACLE.0, sheet, std::hint::black_box(&mut frame));
            start.elapsed().as_nanos()
        })
        .min();
    Ok(format!("{}\n", best.unwrap_or(0)).into_bytes())
}

fn unless_refused(code: u32, answer: String) -> Result<Vec<u8>, u32> {
    match code {
        0 => Ok(answer.into_bytes()),
        code => Err(code),
    }
}

// The code and the line of what is painted on the greys of a file, then those greys.
fn painted(frame: &str, paint: impl FnOnce(&mut [u8]) -> (u32, String)) -> Result<Vec<u8>, u32> {
    let mut greys = std::fs::read(frame).expect("the file of greys");
    let (code, line) = paint(&mut greys);
    let mut answer = unless_refused(code, line)?;
    answer.extend_from_slice(&greys);
    Ok(answer)
}

fn number(word: &str) -> u32 {
    word.parse().expect("a number")
}

fn answer(words: &[&str], sheet: &[u8]) -> Result<Vec<u8>, u32> {
    match words {
        ["page"] => page(sheet),
        ["item", item, frame] => painted(frame, |greys| {
            let drawn = ORACLE.draw_item(sheet, greys, number(item));
            let line = format!("{} {} {}\n", drawn.x, drawn.y, drawn.replaced);
            (drawn.code, line)
        }),
        ["whitespace", item, width, frame] => painted(frame, |greys| {
            let next = ORACLE.draw_whitespace(sheet, greys, number(item), number(width));
            (next.code, format!("{} {}\n", next.x, next.y))
        }),
        ["box", item] => {
            let area = ORACLE.bounding_box(sheet, number(item));
            let numbers = (area.left, area.top, area.width, area.height);
            let (left, top, width, height) = numbers;
            unless_refused(area.code, format!("{left} {top} {width} {height}\n"))
        }
        ["index", font, character] => {
            let glyph = ORACLE.index(sheet, number(font), number(character));
            unless_refused(glyph.code, format!("{} {}\n", glyph.index, glyph.listed))
        }
        ["contains", font, character] => {
            let contains = ORACLE.contains(sheet, number(font), number(character));
            unless_refused(contains.code, format!("{}\n", contains.value))
        }
        ["time"] => time(sheet),
        _ => panic!("the words are listed at the top of driver.rs"),
    }
}

fn marked() -> bool {
    let answers: [(&str, Box<dyn Station>); 3] = [
        (
            "the crate, pixel by pixel",
            Box::new(Calls(Crate { rows: false })),
        ),
        ("the crate, by rows", Box::new(ORACLE)),
        ("the formulas", Box::new(Calls(Plain))),
    ];
    let mut good = true;
    for (name, station) in answers {
        let marked = marked_lines(&*station);
        let met = marked.iter().filter(|(_, met)| *met).count();
        println!("{name}: {met} of {} marked lines", marked.len());
        for (line, _) in marked.iter().filter(|(_, met)| !met) {
            println!("  not met: {line}");
            good = false;
        }
    }
    good
}

fn main() {
    let words: Vec<String> = std::env::args().skip(1).collect();
    let words: Vec<&str> = words.iter().map(String::as_str).collect();
    if words == ["marked"] {
        std::process::exit(i32::from(!marked()));
    }
    let mut sheet = Vec::new();
    std::io::stdin().read_to_end(&mut sheet).expect("a sheet");
    let answer = match answer(&words, &sheet) {
        Ok(answer) => answer,
        Err(code) => format!("refused {code}\n").into_bytes(),
    };
    std::io::stdout().write_all(&answer).expect("output");
}
