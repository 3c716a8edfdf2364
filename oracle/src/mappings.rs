//! Random mappings, with every oddity that docs/SHEET.md, Mapping, allows, and the characters to ask of them.

use crate::characters::{decode_all, push};
use crate::check::spelled;
use crate::random::Random;

/// A random character, of each length in UTF-8 alike.
pub fn any_character(random: &mut Random) -> char {
    let (first, last) = random.pick(&[
        (0x00, 0x7f),
        (0x80, 0x7ff),
        (0x800, 0xd7ff),
        (0xe000, 0xffff),
        (0x1_0000, 0x10_ffff),
    ]);
    let number = if random.once_in(4) {
        random.pick(&[first, last])
    } else {
        random.between(first, last)
    };
    char::from_u32(number as u32).unwrap_or('A')
}

fn push_range(mapping: &mut Vec<u8>, start: char, end: char) {
    mapping.push(0);
    push(mapping, start);
    push(mapping, end);
}

fn near(random: &mut Random, start: char, reach: i32) -> char {
    char::from_u32((start as i32 + random.between(0, reach)) as u32).unwrap_or(start)
}

fn push_piece(random: &mut Random, mapping: &mut Vec<u8>) {
    match random.below(12) {
        // Letters one by one, some of them twice.
        0..=3 => {
            for _ in 0..random.between(1, 5) {
                push(mapping, (b'A' + random.below(8) as u8) as char);
            }
        }
        4 => {
            let character = any_character(random);
            push(mapping, character);
        }
        // Ranges, of one character, of some, of none.
        5 | 6 => {
            let start = any_character(random);
            let end = near(random, start, 40);
            push_range(mapping, start, end);
        }
        7 => {
            let start = any_character(random);
            push_range(mapping, start, start);
        }
        8 => {
            let end = any_character(random);
            let start = near(random, end, 40);
            push_range(mapping, start, end);
        }
        // Ranges that start or end at 00.
        9 => {
            let end = near(random, '\0', 70);
            push_range(mapping, '\0', end);
        }
        10 => {
            let start = near(random, '\0', 3);
            push_range(mapping, start, '\0');
        }
        // Ranges over the surrogates.
        _ => {
            let start = char::from_u32(0xd7ff - random.below(3) as u32).unwrap_or('A');
            let end = near(random, '\u{e000}', 3);
            push_range(mapping, start, end);
        }
    }
}

/// Mappings that spell 65,536 characters, the most, some of them twice.
pub const LARGEST: [&str; 7] = [
    "\0\u{10000}\u{1ffff}",
    "\0\0\u{107ff}",
    "\0\u{d000}\u{d7ff}\0\u{e000}\u{1d7ff}",
    "\0\u{100000}\u{10ffff}",
    "\0\u{400}\u{d7ff}\0\u{20000}\u{22bff}",
    "\0\0\u{7fff}\0\0\u{7fff}",
    "A\0\u{10ffff}\u{10000}\0\u{10000}\u{1fffd}BA",
];

/// A random mapping that is accepted.
pub fn mapping(random: &mut Random) -> Vec<u8> {
    let mut mapping: Vec<u8> = match random.below(20) {
        0 => Vec::new(),
        1 => random.pick(&LARGEST).into(),
        2..=6 => "\0\u{20}\u{7f}".into(),
        7..=11 => b"ABCDEFGHIJKLMNOP"[..random.between(1, 16) as usize].into(),
        _ => {
            let pieces = if random.once_in(40) { 900 } else { 6 };
            let mut mapping = Vec::new();
            for _ in 0..random.between(1, pieces) {
                push_piece(random, &mut mapping);
            }
            mapping
        }
    };
    // A 00 that lacks start or end stops the list.
    if random.once_in(6) {
        let tail: &[u8] = random.pick(&[b"\0" as &[u8], b"\0A", b"\0\0"]);
        mapping.extend_from_slice(tail);
    }
    let characters = decode_all(&mapping).unwrap_or_default();
    if spelled(&characters) > 65_536 {
        mapping = b"AB".to_vec();
    }
    mapping
}

/// A random character that a mapping's bytes name, or one near it: listed more often than not.
pub fn listed(random: &mut Random, mapping: &[u8]) -> char {
    let characters = decode_all(mapping).unwrap_or_default();
    if characters.is_empty() {
        return 'A';
    }
    let at = random.below(characters.len());
    let mut number = characters[at];
    if let [0, start, end] = characters[at..characters.len().min(at + 3)] {
        number = random.between(start.min(end) as i32, start.max(end) as i32) as u32;
    }
    char::from_u32(number).unwrap_or('A')
}

/// The character after one that a mapping's bytes name: often not listed.
pub fn beside(random: &mut Random, mapping: &[u8]) -> char {
    char::from_u32(listed(random, mapping) as u32 + 1).unwrap_or('Z')
}

/// A number to ask a mapping for: a listed character, a neighbour of one, or no character at all.
pub fn asked(random: &mut Random, mapping: &[u8]) -> u32 {
    match random.below(8) {
        0 => any_character(random) as u32,
        1 => random.pick(&[
            0,
            0xd7ff,
            0xd800,
            0xdfff,
            0xe000,
            0x10_ffff,
            0x11_0000,
            u32::MAX,
        ]),
        2 => random.number(),
        3 => (listed(random, mapping) as u32).wrapping_add(1),
        4 => (listed(random, mapping) as u32).wrapping_sub(1),
        _ => listed(random, mapping) as u32,
    }
}
