//! The density of a track.

/// How a track is coded (rule 6.20). Cells do not tell it, so the caller does; where nothing is said, [`Track`](crate::Track),
/// [`separate`](crate::separate) and [`Separator`](crate::Separator) take double density.
#[derive(Clone, Copy, Debug, Default, PartialEq, Eq, Hash)]
pub enum Density {
    /// FM, in cells of 4,000 ns; a usual track has 18 sectors of 128 bytes. Disks of 8-bit Atari computers have it.
    Single,
    /// MFM, in cells of 2,000 ns; a usual track has 9 or 10 sectors of 512 bytes. Disks of the Atari ST have it.
    #[default]
    Double,
}

impl Density {
    /// Its number, which [`Sector::density`](crate::Sector::density) has: 1 for single density, 2 for double density.
    pub const fn number(self) -> u8 {
        match self {
            Density::Single => 1,
            Density::Double => 2,
        }
    }
}
