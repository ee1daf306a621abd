//! A space packet's header, field by field.

use super::{require, Refusal};

/// Octets of the header.
pub const HEADER: usize = 6;

/// The fields in their order.
#[derive(Clone, Copy, Debug, PartialEq, Eq)]
pub struct Fields {
    pub version: u8,
    pub packet_type: u8,
    pub secondary: u8,
    pub apid: u16,
    pub flags: u8,
    pub count: u16,
    /// The length field: seven less than the total.
    pub length: u16,
}

impl Fields {
    /// Octets of the packet, header included.
    pub fn total(&self) -> usize {
        usize::from(self.length) + 7
    }

    /// Version 000, and every field within its bits.
    fn in_range(&self) -> bool {
        self.version == 0
            && self.packet_type < 1 << 1
            && self.secondary < 1 << 1
            && self.apid < 1 << 11
            && self.flags < 1 << 2
            && self.count < 1 << 14
    }
}

/// Reads the header at the front of `octets`. Checks: 8, which names no damage: this is not the
/// reader of headers that request L4 means.
pub fn read(octets: &[u8]) -> Result<Fields, Refusal> {
    let (name, sequence, length) = match *octets {
        [a, b, c, d, e, f, ..] => {
            (u16::from_be_bytes([a, b]), u16::from_be_bytes([c, d]), u16::from_be_bytes([e, f]))
        }
        _ => return Err(Refusal::Packet(None)),
    };
    let fields = Fields {
        version: (name >> 13) as u8,
        packet_type: (name >> 12 & 1) as u8,
        secondary: (name >> 11 & 1) as u8,
        apid: name & 0x07FF,
        flags: (sequence >> 14) as u8,
        count: sequence & 0x3FFF,
        length,
    };
    require(fields.version == 0, Refusal::Packet(None))?;
    Ok(fields)
}

/// Writes a header to the front of `out`. Checks: 1, 2.
pub fn write(fields: &Fields, out: &mut [u8]) -> Result<(), Refusal> {
    require(fields.in_range(), Refusal::Range)?;
    require(out.len() >= HEADER, Refusal::Room)?;
    let name =
        u16::from(fields.packet_type) << 12 | u16::from(fields.secondary) << 11 | fields.apid;
    let sequence = u16::from(fields.flags) << 14 | fields.count;
    out[0..2].copy_from_slice(&name.to_be_bytes());
    out[2..4].copy_from_slice(&sequence.to_be_bytes());
    out[4..6].copy_from_slice(&fields.length.to_be_bytes());
    Ok(())
}
