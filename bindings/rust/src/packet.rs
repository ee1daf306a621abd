use crate::ffi;
use crate::{Damage, Refusal};

/// The longest header that wrapping writes.
const MOST_HEADER: usize = 8;

/// What a packet is, by its header.
#[derive(Clone, Copy, Debug, PartialEq, Eq)]
pub enum Kind {
    /// A space packet.
    Space {
        /// Its application; 2,047 is idle.
        apid: u16,
    },
    /// An encapsulation packet.
    Encapsulation {
        /// Its protocol; 0 is idle.
        protocol: u8,
    },
}

/// A packet's header.
#[derive(Clone, Copy, Debug, PartialEq, Eq)]
pub struct Header {
    /// What the packet is.
    pub kind: Kind,
    /// Whether it only fills space.
    pub idle: bool,
    /// The octets of the header.
    pub length: usize,
    /// The octets of the whole packet, header included.
    pub total: usize,
}

/// What stands at the front of some octets.
#[derive(Clone, Copy, Debug, PartialEq, Eq)]
pub enum Front {
    /// The octets end before a header does.
    More,
    /// No packet begins like this, and why.
    Damaged(Damage),
    /// A header.
    Header(Header),
}

/// Reads the header at the front of `octets`, which may end anywhere. The limit is 7 to 65,542, here and below.
pub fn read_header(limit: usize, octets: &[u8]) -> Result<Front, Refusal> {
    let mut answer = [0; 7];
    Refusal::check(ffi::read_header(limit as u64, octets, &mut answer))?;
    let [found, kind, idle, name, length, total, damage] = answer;
    Ok(match found {
        ffi::HEADER_MORE => Front::More,
        ffi::HEADER_DAMAGED => Front::Damaged(Damage::of(damage)),
        _ => Front::Header(Header {
            kind: match kind {
                ffi::SPACE => Kind::Space { apid: name as u16 },
                _ => Kind::Encapsulation { protocol: name as u8 },
            },
            idle: idle != 0,
            length: length as usize,
            total: total as usize,
        }),
    })
}

/// Whether the octets are one whole packet, well formed and no longer than the limit.
pub fn well_formed(limit: usize, packet: &[u8]) -> Result<bool, Refusal> {
    let mut answer = [0];
    Refusal::check(ffi::well_formed(limit as u64, packet, &mut answer))?;
    Ok(answer == [ffi::FORMED])
}

/// An encapsulation packet around a data unit, with the smallest header that fits. The protocol is 1 to 7, the extension 0 to 15
/// with protocol 6 and 0 with any other.
pub fn wrap(limit: usize, protocol: u8, extension: u8, data: &[u8]) -> Result<Vec<u8>, Refusal> {
    let mut packet = vec![0; MOST_HEADER + data.len()];
    let mut answer = [0; 2];
    let refusal =
        ffi::wrap(limit as u64, protocol.into(), extension.into(), data, &mut packet, &mut answer);
    let [total, damage] = answer;
    Refusal::check_packet(refusal, damage)?;
    packet.truncate(total as usize);
    Ok(packet)
}

/// What an encapsulation packet carries.
#[derive(Clone, Copy, Debug, PartialEq, Eq)]
pub struct Unwrapped<'a> {
    /// The protocol of the data unit; 0 is idle.
    pub protocol: u8,
    /// The extension of protocol 6, 0 where the header has none.
    pub extension: u8,
    /// The data unit, a part of the packet.
    pub data: &'a [u8],
}

/// Finds the data unit in an encapsulation packet.
pub fn unwrap(limit: usize, packet: &[u8]) -> Result<Unwrapped<'_>, Refusal> {
    let mut answer = [0; 5];
    let refusal = ffi::unwrap(limit as u64, packet, &mut answer);
    let [protocol, extension, .., damage] = answer;
    Refusal::check_packet(refusal, damage)?;
    let mut part = [0; 2];
    Refusal::check(ffi::unit_part(&answer, packet, &mut part))?;
    Ok(Unwrapped {
        protocol: protocol as u8,
        extension: extension as u8,
        data: ffi::part(packet, part[0], part[1]),
    })
}
