//! Stand-in for src/primitives/rectangle/styled.rs: named by src/primitives/rectangle/mod.rs; no
//! text is drawn with it.

/// The pixels of a styled rectangle.
#[derive(Debug)]
pub enum StyledPixelsIterator {}
