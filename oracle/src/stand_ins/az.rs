//! Stand-in for the crate `az`, of which the listed files use `saturating_as` only.
//!
//! docs/SHEET.md, Geometry: "`saturating_as` clips, which our limits never reach."

/// A conversion that clips to the range of the wanted type.
pub trait SaturatingCast<T> {
    /// Converts, clipping.
    fn saturating_cast(self) -> T;
}

impl SaturatingCast<i32> for u32 {
    fn saturating_cast(self) -> i32 {
        i32::try_from(self).unwrap_or(i32::MAX)
    }
}

/// The conversion as a method of the number.
pub trait SaturatingAs {
    /// Converts, clipping.
    fn saturating_as<T>(self) -> T
    where
        Self: SaturatingCast<T>;
}

impl<N> SaturatingAs for N {
    fn saturating_as<T>(self) -> T
    where
        Self: SaturatingCast<T>,
    {
        self.saturating_cast()
    }
}
