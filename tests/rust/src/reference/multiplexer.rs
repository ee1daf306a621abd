//! Packets laid end to end into zones.

use super::frame::{self, Settings, HEAD, IDLE_ZONE, NO_START};
use super::packet::well_formed;
use super::{require, trailer, Refusal};

/// Where the multiplexer stands.
#[derive(Clone, Copy, Debug, PartialEq, Eq)]
pub struct Record {
    /// Count of the frame in work.
    pub count: u32,
    /// Octets of its zone that are laid.
    pub filled: usize,
    /// Place of the first packet start in the zone, [`NO_START`] while there is none.
    pub first: u16,
    /// Octets already taken of a packet that goes on into this zone.
    pub taken: usize,
}

impl Record {
    pub const START: Record = Record { count: 0, filled: 0, first: NO_START, taken: 0 };

    /// A packet goes over only at the end of a zone, so a zone that is begun has
    /// none open, and a zone that is not begun has no start in it.
    fn is_reachable(&self, settings: &Settings) -> bool {
        let place = if self.taken == 0 {
            self.filled < settings.zone
                && (self.first == NO_START || usize::from(self.first) < self.filled)
        } else {
            self.filled == 0 && self.first == NO_START && self.taken < settings.limit
        };
        self.count < settings.edition.wheel() && place
    }
}

/// How far a put came.
#[derive(Clone, Copy, Debug, PartialEq, Eq)]
pub struct Put {
    /// The zone is full and its frame written.
    pub full: bool,
    /// The packet is wholly taken.
    pub taken: bool,
}

/// Lays what fits of a packet. Checks: 1, 2, 10, 9, 8.
pub fn put(
    settings: &Settings,
    record: &mut Record,
    packet: &[u8],
    frame: &mut [u8],
) -> Result<Put, Refusal> {
    check(settings, record, frame)?;
    require(record.taken == 0 || packet.len() > record.taken, Refusal::Moment)?;
    well_formed(settings.limit, packet)?;

    let left = &packet[record.taken..];
    let size = left.len().min(settings.zone - record.filled);
    if record.taken == 0 {
        record.start_here();
    }
    let place = HEAD + record.filled;
    frame[place..place + size].copy_from_slice(&left[..size]);
    record.filled += size;
    let answer = Put { full: record.filled == settings.zone, taken: size == left.len() };
    record.taken = if answer.taken { 0 } else { record.taken + size };
    if answer.full {
        finish(settings, record, frame);
    }
    Ok(answer)
}

/// Closes a begun zone with one idle packet; answers whether a frame was written.
/// Checks: 1, 2, 10, 9.
pub fn flush(settings: &Settings, record: &mut Record, frame: &mut [u8]) -> Result<bool, Refusal> {
    check(settings, record, frame)?;
    require(record.taken == 0, Refusal::Moment)?;
    if record.filled == 0 {
        return Ok(false);
    }
    record.start_here();
    let rest = &mut frame[HEAD + record.filled..settings.zone_end()];
    lay_idle_packet(settings.fill, rest);
    finish(settings, record, frame);
    Ok(true)
}

/// Writes a frame whose zone carries no packet. Checks: 1, 2, 10, 9.
pub fn idle(settings: &Settings, record: &mut Record, frame: &mut [u8]) -> Result<(), Refusal> {
    check(settings, record, frame)?;
    require(record.taken == 0 && record.filled == 0, Refusal::Moment)?;
    frame[HEAD..settings.zone_end()].fill(settings.fill);
    record.first = IDLE_ZONE;
    finish(settings, record, frame);
    Ok(())
}

fn check(settings: &Settings, record: &Record, frame: &[u8]) -> Result<(), Refusal> {
    settings.check()?;
    require(frame.len() >= settings.frame_length(), Refusal::Room)?;
    require(record.is_reachable(settings), Refusal::Record)
}

impl Record {
    /// Notes a packet start at the present place, if it is the zone's first.
    fn start_here(&mut self) {
        if self.first == NO_START {
            self.first = self.filled as u16;
        }
    }
}

/// Fills the rest of a zone with a single idle packet.
fn lay_idle_packet(fill: u8, rest: &mut [u8]) {
    let [high, low] = (rest.len() as u16).to_be_bytes();
    rest.fill(fill);
    match rest.len() {
        1 => rest[0] = 0xE0,
        2..=255 => rest[..2].copy_from_slice(&[0xE1, low]),
        _ => rest[..4].copy_from_slice(&[0xE2, 0x00, high, low]),
    }
}

/// Writes the header of a full zone, and behind it the trailer if there is one, and turns to the
/// next.
fn finish(settings: &Settings, record: &mut Record, frame: &mut [u8]) {
    frame::write(settings, record.count, record.first, frame);
    if settings.trailer {
        trailer::write(&mut frame[..settings.frame_length()]);
    }
    record.count = settings.edition.next(record.count);
    record.filled = 0;
    record.first = NO_START;
}
