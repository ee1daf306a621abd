//! Space packets and encapsulation packets: what their headers say.

use std::ops::RangeInclusive;

use super::{require, Refusal};

/// The limits that may be set on a packet's total length.
pub const LIMITS: RangeInclusive<usize> = 7..=65_542;

/// No header is longer than this.
pub const LONGEST_HEADER: usize = 8;

/// The APID of idle space packets.
pub const IDLE_APID: u16 = 2_047;

/// What a packet is, and for whom.
#[derive(Clone, Copy, Debug, PartialEq, Eq)]
pub enum Kind {
    Space { apid: u16 },
    Encapsulation { protocol: u8 },
}

impl Kind {
    pub fn is_idle(self) -> bool {
        match self {
            Kind::Space { apid } => apid == IDLE_APID,
            Kind::Encapsulation { protocol } => protocol == 0,
        }
    }
}

/// A whole header that is not damaged.
#[derive(Clone, Copy, Debug, PartialEq, Eq)]
pub struct Header {
    pub kind: Kind,
    /// Octets of the header itself.
    pub length: usize,
    /// Octets of the packet, header included.
    pub total: usize,
}

/// What is wrong with a header: request L4 of document 02. A length below a header is at most 7,
/// which no limit is below, so no header has two of these.
#[derive(Clone, Copy, Debug, PartialEq, Eq)]
pub enum Damage {
    /// The version is neither 000 nor 111.
    Version = 1,
    /// A packet of one octet is not idle.
    NotIdle = 2,
    /// The length is below its header.
    BelowHeader = 3,
    /// The total is over the limit.
    OverLimit = 4,
}

impl Damage {
    /// The number of document 02.
    pub fn number(self) -> u64 {
        self as u64
    }
}

/// What the front of some octets shows.
#[derive(Clone, Copy, Debug, PartialEq, Eq)]
pub enum Look {
    /// Nothing wrong so far, but the header needs more octets.
    Cut,
    /// No well-formed packet begins so.
    Damaged(Damage),
    Whole(Header),
}

/// Reads the header at the front of `octets`. Checks: 1.
pub fn read_header(limit: usize, octets: &[u8]) -> Result<Look, Refusal> {
    require(LIMITS.contains(&limit), Refusal::Range)?;
    Ok(look(limit, octets))
}

/// Reads the header at the front of `octets`, under a limit that is in range.
pub(crate) fn look(limit: usize, octets: &[u8]) -> Look {
    match octets.first().map(|first| first >> 5) {
        None => Look::Cut,
        Some(0b000) => look_at_space(limit, octets),
        Some(0b111) => look_at_encapsulation(limit, octets[0], octets),
        Some(_) => Look::Damaged(Damage::Version),
    }
}

fn look_at_space(limit: usize, octets: &[u8]) -> Look {
    let (a, b, e, f) = match *octets {
        [a, b, _, _, e, f, ..] => (a, b, e, f),
        _ => return Look::Cut,
    };
    let apid = u16::from_be_bytes([a, b]) & 0x07FF;
    let field = u16::from_be_bytes([e, f]);
    measured(limit, Header { kind: Kind::Space { apid }, length: 6, total: usize::from(field) + 7 })
}

fn look_at_encapsulation(limit: usize, first: u8, octets: &[u8]) -> Look {
    let protocol = (first >> 2) & 0b111;
    let length = 1 << (first & 0b11);
    if length == 1 && protocol != 0 {
        return Look::Damaged(Damage::NotIdle);
    }
    let total = match octets.get(..length) {
        None => return Look::Cut,
        Some([_, n]) => usize::from(*n),
        Some([_, _, a, b]) => usize::from(u16::from_be_bytes([*a, *b])),
        Some([_, _, _, _, a, b, c, d]) => u32::from_be_bytes([*a, *b, *c, *d]) as usize,
        Some(_) => 1,
    };
    measured(limit, Header { kind: Kind::Encapsulation { protocol }, length, total })
}

/// A whole header is damaged when its length is below the header or above the limit.
fn measured(limit: usize, header: Header) -> Look {
    if header.total < header.length {
        Look::Damaged(Damage::BelowHeader)
    } else if header.total > limit {
        Look::Damaged(Damage::OverLimit)
    } else {
        Look::Whole(header)
    }
}

/// The header of a lent packet that is well-formed and has exactly its stated length. Checks: 8,
/// with the damage if the header has any. A header that is cut, as that of an empty packet is, and
/// another length than the stated one are no damage.
pub(crate) fn well_formed(limit: usize, packet: &[u8]) -> Result<Header, Refusal> {
    match look(limit, packet) {
        Look::Damaged(damage) => Err(Refusal::Packet(Some(damage))),
        Look::Whole(header) if header.total == packet.len() => Ok(header),
        Look::Cut | Look::Whole(_) => Err(Refusal::Packet(None)),
    }
}
