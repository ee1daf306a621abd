//! Bits in frames.

use std::ops::RangeInclusive;

use super::edition::Edition;
use super::frame::{read_primary, write_primary, HEAD, LAST_CHANNEL};
use super::{require, trailer, Refusal};

/// The zone lengths that may be set.
pub const WIDTHS: RangeInclusive<usize> = 1..=2_047;

/// The pointer of a zone of fill alone.
pub const NO_BITS: u16 = 16_382;

/// The pointer of a zone whose bits are all valid.
pub const ALL_BITS: u16 = 16_383;

/// The settings of a channel that carries bits.
#[derive(Clone, Copy, Debug, PartialEq, Eq)]
pub struct Settings {
    pub spacecraft: u8,
    pub channel: u8,
    /// Octets of a zone.
    pub width: usize,
    /// The octet whose bits fill a zone's rest.
    pub fill: u8,
    /// Whether frames end with a trailer.
    pub trailer: bool,
    pub edition: Edition,
}

impl Settings {
    fn check(&self) -> Result<(), Refusal> {
        require(self.channel <= LAST_CHANNEL && WIDTHS.contains(&self.width), Refusal::Range)
    }

    pub fn frame_length(&self) -> usize {
        self.zone_end() + trailer::length(self.trailer)
    }

    /// The place behind the zone.
    fn zone_end(&self) -> usize {
        HEAD + self.width
    }

    fn bits(&self) -> usize {
        8 * self.width
    }
}

/// Where a writer stands: the count of its next frame.
#[derive(Clone, Copy, Debug, PartialEq, Eq)]
pub struct Writer {
    pub count: u32,
}

impl Writer {
    pub const START: Writer = Writer { count: 0 };
}

/// Where a reader stands: the count of its last frame, and whether a loss waits for bits.
#[derive(Clone, Copy, Debug, PartialEq, Eq)]
pub struct Reader {
    pub last: Option<u32>,
    /// A count since the last unit with bits did not follow.
    pub waiting: bool,
}

impl Reader {
    pub const START: Reader = Reader { last: None, waiting: false };

    fn check(&self, edition: Edition) -> Result<(), Refusal> {
        let reachable = self.last.map_or(!self.waiting, |last| last < edition.wheel());
        require(reachable, Refusal::Record)
    }

    /// Whether a frame of this count follows the last one; the first frame does.
    fn is_followed_by(&self, edition: Edition, count: u32) -> bool {
        self.last.map_or(true, |last| edition.missing(last, count) == 0)
    }
}

/// What a frame of bits holds.
#[derive(Clone, Copy, Debug, PartialEq, Eq)]
pub struct Bits<'a> {
    pub count: u32,
    pub replay: bool,
    /// There are bits, and a count since the last unit with bits did not follow, this one's
    /// included.
    pub loss: bool,
    /// The number of valid bits.
    pub number: usize,
    /// The octets that hold them.
    pub octets: &'a [u8],
}

/// The octets that hold so many bits, as few as do.
pub fn octets_for(bits: usize) -> usize {
    (bits + 7) / 8
}

/// Writes a frame with the first `number` bits of `bits`. Checks: 1, 2, 10.
pub fn write(
    settings: &Settings,
    writer: &mut Writer,
    bits: &[u8],
    number: usize,
    frame: &mut [u8],
) -> Result<(), Refusal> {
    settings.check()?;
    require(number <= settings.bits(), Refusal::Range)?;
    let octets = octets_for(number);
    require(frame.len() >= settings.frame_length() && bits.len() >= octets, Refusal::Room)?;
    let Settings { spacecraft, channel, edition, .. } = *settings;
    require(writer.count < edition.wheel(), Refusal::Record)?;

    let zone = &mut frame[HEAD..settings.zone_end()];
    zone.fill(settings.fill);
    zone[..octets].copy_from_slice(&bits[..octets]);
    let over = number % 8;
    if over > 0 {
        let filled = 0xFF >> over;
        zone[octets - 1] = bits[octets - 1] & !filled | settings.fill & filled;
    }
    write_primary(spacecraft, channel, edition, writer.count, frame);
    frame[6..HEAD].copy_from_slice(&pointer(settings, number).to_be_bytes());
    if settings.trailer {
        trailer::write(&mut frame[..settings.frame_length()]);
    }
    writer.count = edition.next(writer.count);
    Ok(())
}

fn pointer(settings: &Settings, number: usize) -> u16 {
    if number == 0 {
        NO_BITS
    } else if number == settings.bits() {
        ALL_BITS
    } else {
        number as u16 - 1
    }
}

/// Reads a frame of bits. Checks: 1, 10, 3, 13, 4, 5, 6, 7.
pub fn read<'a>(
    settings: &Settings,
    reader: &mut Reader,
    frame: &'a [u8],
) -> Result<Bits<'a>, Refusal> {
    settings.check()?;
    let Settings { spacecraft, channel, edition, .. } = *settings;
    reader.check(edition)?;
    require(frame.len() == settings.frame_length(), Refusal::Length)?;
    require(!settings.trailer || trailer::is_right(frame), Refusal::Trailer)?;
    let (count, replay) = read_primary(spacecraft, channel, edition, frame)?;
    let word = u16::from_be_bytes([frame[6], frame[7]]);
    require(word >> 14 == 0, Refusal::Spare)?;
    let number = match word {
        NO_BITS => 0,
        ALL_BITS => settings.bits(),
        _ => usize::from(word) + 1,
    };
    require(word >= NO_BITS || number < settings.bits(), Refusal::Pointer)?;
    let lost = reader.waiting || !reader.is_followed_by(edition, count);
    let (loss, waiting) = if number == 0 { (false, lost) } else { (lost, false) };
    *reader = Reader { last: Some(count), waiting };
    let octets = &frame[HEAD..HEAD + octets_for(number)];
    Ok(Bits { count, replay, loss, number, octets })
}
