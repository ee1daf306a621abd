//! The editions of the frame: request L5 of document 02. The edition says what stands behind the
//! replay flag in the signalling octet, and with that how wide a count is.

use super::{require, Refusal};

/// Bits of the count's own field.
const COUNT_BITS: u32 = 24;

/// Bits of the cycle, which stands above the count where it is used.
const CYCLE_BITS: u32 = 4;

/// The edition that a channel follows, with its count usage.
#[derive(Clone, Copy, Debug, PartialEq, Eq)]
pub enum Edition {
    /// CCSDS 701.0-B-2: seven spare bits.
    Former,
    /// CCSDS 732.0-B-3 with count usage 0.
    CycleUnused,
    /// CCSDS 732.0-B-3 with count usage 1.
    CycleUsed,
}

impl Edition {
    /// In the order of their numbers, from 0.
    pub const ALL: [Edition; 3] = [Edition::Former, Edition::CycleUnused, Edition::CycleUsed];

    /// The number of the setting.
    pub const fn number(self) -> u64 {
        match self {
            Edition::Former => 0,
            Edition::CycleUnused => 1,
            Edition::CycleUsed => 2,
        }
    }

    /// Bits of a count.
    pub const fn width(self) -> u32 {
        match self {
            Edition::Former | Edition::CycleUnused => COUNT_BITS,
            Edition::CycleUsed => COUNT_BITS + CYCLE_BITS,
        }
    }

    /// Counts run round a wheel of this many.
    pub const fn wheel(self) -> u32 {
        1 << self.width()
    }

    /// The frames missing between two counts round the wheel.
    pub fn missing(self, last: u32, count: u32) -> u32 {
        count.wrapping_sub(last).wrapping_sub(1) % self.wheel()
    }

    /// The count after this one.
    pub(crate) fn next(self, count: u32) -> u32 {
        (count + 1) % self.wheel()
    }

    /// The count of a frame, from the count's own field and the signalling octet. Checks: 6.
    pub(crate) fn count(self, field: u32, signalling: u8) -> Result<u32, Refusal> {
        let usage = signalling >> 6 & 0b1;
        let spare = signalling >> 4 & 0b11;
        let cycle = signalling & 0b1111;
        let right = match self {
            Edition::Former => signalling & 0b111_1111 == 0,
            Edition::CycleUnused => usage == 0 && spare == 0 && cycle == 0,
            Edition::CycleUsed => usage == 1 && spare == 0,
        };
        require(right, Refusal::Spare)?;
        // Where no cycle is used these bits are 0.
        Ok(u32::from(cycle) << COUNT_BITS | field)
    }

    /// The signalling octet of a frame with this count, with the replay flag 0.
    pub(crate) fn signalling(self, count: u32) -> u8 {
        match self {
            Edition::Former | Edition::CycleUnused => 0,
            Edition::CycleUsed => 1 << 6 | (count >> COUNT_BITS) as u8,
        }
    }
}
