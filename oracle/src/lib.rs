//! The oracle of the station sheet: every call of the host, answered a second time.
//!
//! Drawing, boxes, glyph choice and replaced characters are those of embedded-graphics 0.8.2, whose
//! listed files are compiled unchanged (`sheet`). The sheet's layout, its check, the refusals, the
//! edits and the damage rectangle are not in that crate; they are written here from the rules of docs/SHEET.md alone. `plain`
//! is the drawing by those rules without the crate, so that the two can be held against each other.
//!
//! The comparison stands on these: random sheets (`generate`, `mappings`, `malformed`), calls as
//! values (`operation`), cases (`cases`, `sweeps`), buffers between guard pages (`guard`), the
//! comparison of one case (`comparison`), and what is done with a difference (`reduce`, `crash`).

pub mod calls;
pub mod cases;
pub mod characters;
pub mod check;
pub mod comparison;
pub mod crash;
pub mod edits;
pub mod faulty;
pub mod fields;
pub mod frame;
pub mod generate;
pub mod guard;
pub mod malformed;
pub mod mappings;
pub mod marked;
pub mod model;
pub mod operation;
pub mod plain;
pub mod random;
pub mod reduce;
pub mod reply;
pub mod sheet;
pub mod sweeps;
pub mod tally;

pub use calls::Calls;
pub use plain::Plain;
pub use reply::Station;
pub use sheet::Crate;

/// The calls, with the crate's own drawing.
pub type Oracle = Calls<Crate>;
