//! Data units in encapsulation packets.

use super::packet::{well_formed, Kind, LIMITS};
use super::{require, Refusal};

/// The protocol whose packets have an extension.
const EXTENDED: u8 = 6;

/// What an encapsulation packet holds.
#[derive(Clone, Copy, Debug, PartialEq, Eq)]
pub struct Unwrapped<'a> {
    pub protocol: u8,
    pub extension: u8,
    pub data: &'a [u8],
}

/// Wraps a data unit to the front of `out` and answers the total. Checks: 1, 8, 2. A data unit has
/// no header, so 8 never names a damage here.
pub fn wrap(
    limit: usize,
    protocol: u8,
    extension: u8,
    data: &[u8],
    out: &mut [u8],
) -> Result<usize, Refusal> {
    let arguments =
        (1..=7).contains(&protocol) && extension <= 15 && (extension == 0 || protocol == EXTENDED);
    require(LIMITS.contains(&limit) && arguments, Refusal::Range)?;
    require(!data.is_empty() && data.len() <= limit, Refusal::Packet(None))?;
    let header = smallest_header(protocol, data.len());
    let total = header + data.len();
    require(total <= limit, Refusal::Packet(None))?;
    require(out.len() >= total, Refusal::Room)?;
    out[0] = 0b111 << 5 | protocol << 2 | header.trailing_zeros() as u8;
    match header {
        2 => out[1] = total as u8,
        4 => {
            out[1] = extension;
            out[2..4].copy_from_slice(&(total as u16).to_be_bytes());
        }
        _ => {
            out[1..4].copy_from_slice(&[extension, 0, 0]);
            out[4..8].copy_from_slice(&(total as u32).to_be_bytes());
        }
    }
    out[header..total].copy_from_slice(data);
    Ok(total)
}

/// The smallest header whose length field can tell the total.
fn smallest_header(protocol: u8, data: usize) -> usize {
    if data + 2 <= 255 && protocol != EXTENDED {
        2
    } else if data + 4 <= 65_535 {
        4
    } else {
        8
    }
}

/// Answers what an encapsulation packet holds. Checks: 1, 8, 6. A space packet is 8 without damage,
/// unless it has some.
pub fn unwrap(limit: usize, packet: &[u8]) -> Result<Unwrapped<'_>, Refusal> {
    require(LIMITS.contains(&limit), Refusal::Range)?;
    let header = well_formed(limit, packet)?;
    let protocol = match header.kind {
        Kind::Encapsulation { protocol } => protocol,
        Kind::Space { .. } => return Err(Refusal::Packet(None)),
    };
    let extension = if header.length >= 4 { packet[1] & 0x0F } else { 0 };
    require(extension == 0 || protocol == EXTENDED, Refusal::Spare)?;
    require(header.length < 8 || packet[2..4] == [0, 0], Refusal::Spare)?;
    Ok(Unwrapped { protocol, extension, data: &packet[header.length..] })
}
