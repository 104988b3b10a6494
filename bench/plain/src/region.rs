//! The region of memory that is served.

use std::fmt;

/// So many granules of eight bytes from a base on.
#[derive(Clone, Copy, Debug)]
pub struct Region {
    pub base: u64,
    pub granules: u16,
}

/// Why a region is refused: the first of these that holds.
#[derive(Clone, Copy, Debug)]
pub enum RegionFault {
    BaseNotLineAligned,
    GranuleCount,
    EndPastAddresses,
}

const ADDRESSES: u64 = 1 << 52;

impl Region {
    pub fn new(base: u64, granules: u16) -> Result<Region, RegionFault> {
        if !base.is_multiple_of(64) {
            return Err(RegionFault::BaseNotLineAligned);
        }
        if !(1..=512).contains(&granules) {
            return Err(RegionFault::GranuleCount);
        }
        if base > ADDRESSES - 8 * u64::from(granules) {
            return Err(RegionFault::EndPastAddresses);
        }
        Ok(Region { base, granules })
    }

    /// Whether each of so many bytes from an address on is in the region.
    pub fn has(&self, addr: u64, len: u64) -> bool {
        let end = self.base + 8 * u64::from(self.granules);
        addr >= self.base && addr <= end && end - addr >= len
    }
}

impl fmt::Display for RegionFault {
    fn fmt(&self, f: &mut fmt::Formatter<'_>) -> fmt::Result {
        f.write_str(match self {
            RegionFault::BaseNotLineAligned => "BaseNotLineAligned",
            RegionFault::GranuleCount => "GranuleCount",
            RegionFault::EndPastAddresses => "EndPastAddresses",
        })
    }
}
