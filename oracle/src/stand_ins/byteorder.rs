//! Stand-in for the crate `byteorder`: what `iterator/raw.rs` names for colours of more than one
//! byte. No text is drawn with them.

/// Reads numbers of a byte order.
pub trait ByteOrder {
    /// Reads two bytes.
    fn read_u16(bytes: &[u8]) -> u16;
    /// Reads three bytes.
    fn read_u24(bytes: &[u8]) -> u32;
    /// Reads four bytes.
    fn read_u32(bytes: &[u8]) -> u32;
}

/// Highest byte first.
pub struct BE;

/// Lowest byte first.
pub struct LE;

fn joined<'a>(bytes: impl Iterator<Item = &'a u8>) -> u32 {
    bytes.fold(0, |number, byte| number << 8 | u32::from(*byte))
}

impl ByteOrder for BE {
    fn read_u16(bytes: &[u8]) -> u16 {
        joined(bytes[..2].iter()) as u16
    }
    fn read_u24(bytes: &[u8]) -> u32 {
        joined(bytes[..3].iter())
    }
    fn read_u32(bytes: &[u8]) -> u32 {
        joined(bytes[..4].iter())
    }
}

impl ByteOrder for LE {
    fn read_u16(bytes: &[u8]) -> u16 {
        joined(bytes[..2].iter().rev()) as u16
    }
    fn read_u24(bytes: &[u8]) -> u32 {
        joined(bytes[..3].iter().rev())
    }
    fn read_u32(bytes: &[u8]) -> u32 {
        joined(bytes[..4].iter().rev())
    }
}
