//! The frame and its header.

use std::ops::RangeInclusive;

use super::edition::Edition;
use super::packet::LIMITS;
use super::{require, trailer, Refusal};

/// Octets in front of a zone.
pub const HEAD: usize = 8;

/// The pointer of a zone in which no packet starts.
pub const NO_START: u16 = 2_047;

/// The pointer of an idle zone.
pub const IDLE_ZONE: u16 = 2_046;

/// The zone lengths that may be set.
pub const ZONES: RangeInclusive<usize> = 1..=2_046;

/// The greatest channel number that carries data; 63 is kept for fill frames.
pub const LAST_CHANNEL: u8 = 62;

/// The settings of a channel that carries packets.
#[derive(Clone, Copy, Debug, PartialEq, Eq)]
pub struct Settings {
    pub spacecraft: u8,
    pub channel: u8,
    /// Octets of a zone.
    pub zone: usize,
    /// Greatest total length of a packet.
    pub limit: usize,
    /// The octet written where nothing is sent.
    pub fill: u8,
    /// Whether frames end with a trailer.
    pub trailer: bool,
    pub edition: Edition,
}

impl Settings {
    /// Refusal 1 unless every setting is in range.
    pub fn check(&self) -> Result<(), Refusal> {
        require(
            self.channel <= LAST_CHANNEL
                && ZONES.contains(&self.zone)
                && LIMITS.contains(&self.limit)
                && self.limit >= self.zone,
            Refusal::Range,
        )
    }

    pub fn frame_length(&self) -> usize {
        self.zone_end() + trailer::length(self.trailer)
    }

    /// The place behind the zone.
    pub fn zone_end(&self) -> usize {
        HEAD + self.zone
    }

    /// The zone of a frame that has its length.
    pub fn zone_of<'a>(&self, frame: &'a [u8]) -> &'a [u8] {
        &frame[HEAD..self.zone_end()]
    }
}

/// What a frame's header tells of a packet zone.
#[derive(Clone, Copy, Debug, PartialEq, Eq)]
pub struct Head {
    pub count: u32,
    pub replay: bool,
    pub pointer: u16,
}

/// Reads a frame's header under settings in range. Checks: 3, 13, 4, 5, 6, 7.
pub fn read(settings: &Settings, frame: &[u8]) -> Result<Head, Refusal> {
    require(frame.len() == settings.frame_length(), Refusal::Length)?;
    require(!settings.trailer || trailer::is_right(frame), Refusal::Trailer)?;
    let Settings { spacecraft, channel, edition, .. } = *settings;
    let (count, replay) = read_primary(spacecraft, channel, edition, frame)?;
    let word = u16::from_be_bytes([frame[6], frame[7]]);
    require(word >> 11 == 0, Refusal::Spare)?;
    let possible = usize::from(word) < settings.zone || word == IDLE_ZONE || word == NO_START;
    require(possible, Refusal::Pointer)?;
    Ok(Head { count, replay, pointer: word })
}

/// Writes the header of a frame under settings in range; the rest is left alone.
pub fn write(settings: &Settings, count: u32, pointer: u16, frame: &mut [u8]) {
    let Settings { spacecraft, channel, edition, .. } = *settings;
    write_primary(spacecraft, channel, edition, count, frame);
    frame[6..HEAD].copy_from_slice(&pointer.to_be_bytes());
}

/// The count and the replay flag of the first six octets. Checks: 4, 5, 6.
pub(crate) fn read_primary(
    spacecraft: u8,
    channel: u8,
    edition: Edition,
    frame: &[u8],
) -> Result<(u32, bool), Refusal> {
    let word = u16::from_be_bytes([frame[0], frame[1]]);
    require(word >> 14 == 0b01, Refusal::Version)?;
    let named = u16::from(spacecraft) << 6 | u16::from(channel);
    require(word & 0x3FFF == named, Refusal::Channel)?;
    let field = u32::from_be_bytes([0, frame[2], frame[3], frame[4]]);
    let count = edition.count(field, frame[5])?;
    Ok((count, frame[5] & 0x80 != 0))
}

/// Writes the first six octets, with the replay flag 0.
pub(crate) fn write_primary(
    spacecraft: u8,
    channel: u8,
    edition: Edition,
    count: u32,
    frame: &mut [u8],
) {
    let word = 0b01 << 14 | u16::from(spacecraft) << 6 | u16::from(channel);
    frame[0..2].copy_from_slice(&word.to_be_bytes());
    frame[2..5].copy_from_slice(&count.to_be_bytes()[1..]);
    frame[5] = edition.signalling(count);
}
