//! The colours: on and off, and 8-bit grey.

use raw::{RawData, RawU1, RawU8};

/// A colour and how images store it.
pub trait PixelColor: Copy + PartialEq {
    /// The stored number.
    type Raw: RawData;
}

/// A pixel of an atlas.
#[derive(Debug, Clone, Copy, PartialEq, Eq, PartialOrd, Ord, Hash)]
pub enum BinaryColor {
    /// Off.
    Off,
    /// On.
    On,
}

impl BinaryColor {
    /// Whether it is on.
    pub const fn is_on(self) -> bool {
        matches!(self, Self::On)
    }

    /// Whether it is off.
    pub const fn is_off(self) -> bool {
        matches!(self, Self::Off)
    }
}

impl PixelColor for BinaryColor {
    type Raw = RawU1;
}

// docs/SHEET.md, Atlas: "1 is on."
impl From<RawU1> for BinaryColor {
    fn from(raw: RawU1) -> Self {
        if raw.into_inner() == 0 {
            Self::Off
        } else {
            Self::On
        }
    }
}

/// A grey of the frame.
#[derive(Debug, Clone, Copy, PartialEq, Eq, PartialOrd, Ord, Hash)]
pub struct Gray8(RawU8);

impl Gray8 {
    /// The given grey.
    pub const fn new(luma: u8) -> Self {
        Self(RawU8::new(luma))
    }

    /// The grey as a number.
    pub const fn luma(self) -> u8 {
        self.0.into_inner()
    }
}

impl PixelColor for Gray8 {
    type Raw = RawU8;
}

impl From<RawU8> for Gray8 {
    fn from(raw: RawU8) -> Self {
        Self(raw)
    }
}

/// Stored numbers and their byte order.
pub mod raw {
    /// A stored number.
    pub trait RawData: Sized {
        /// How many bits of an image it takes.
        const BITS_PER_PIXEL: usize;
    }

    macro_rules! raw_data {
        ($($name:ident, $storage:ty, $bits:expr;)*) => {
            $(
                /// A number of the bits that its name says.
                #[derive(Debug, Clone, Copy, PartialEq, Eq, PartialOrd, Ord, Hash)]
                pub struct $name($storage);

                impl $name {
                    /// The lowest bits of a number.
                    pub const fn new(value: $storage) -> Self {
                        Self(value & (<$storage>::MAX >> (<$storage>::BITS - $bits)))
                    }

                    /// The number.
                    pub const fn into_inner(self) -> $storage {
                        self.0
                    }
                }

                impl RawData for $name {
                    const BITS_PER_PIXEL: usize = $bits;
                }

                impl From<$storage> for $name {
                    fn from(value: $storage) -> Self {
                        Self::new(value)
                    }
                }
            )*
        };
    }

    raw_data! {
        RawU1, u8, 1;
        RawU2, u8, 2;
        RawU4, u8, 4;
        RawU8, u8, 8;
        RawU16, u16, 16;
        RawU24, u32, 24;
        RawU32, u32, 32;
    }

    /// The order of the bytes of a number.
    pub trait ByteOrder {}

    /// Highest byte first.
    #[derive(Debug, Clone, Copy, PartialEq, Eq, PartialOrd, Ord, Hash)]
    pub enum BigEndian {}

    /// Lowest byte first.
    #[derive(Debug, Clone, Copy, PartialEq, Eq, PartialOrd, Ord, Hash)]
    pub enum LittleEndian {}

    impl ByteOrder for BigEndian {}
    impl ByteOrder for LittleEndian {}
}
