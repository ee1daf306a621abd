use crate::ffi;
use crate::Refusal;

/// The octets of a space packet's primary header.
const LENGTH: usize = 6;

/// A space packet's primary header, field by field.
#[derive(Clone, Copy, Debug, Default, PartialEq, Eq)]
pub struct SpaceHeader {
    /// Version, 3 bits: 000.
    pub version: u8,
    /// Type, 1 bit: 0 telemetry, 1 telecommand.
    pub packet_type: u8,
    /// Secondary header flag, 1 bit.
    pub secondary_header: u8,
    /// Application, 11 bits; 2,047 is idle.
    pub apid: u16,
    /// Sequence flags, 2 bits.
    pub sequence_flags: u8,
    /// Sequence count, 14 bits.
    pub sequence_count: u16,
    /// Length field: the number of data octets less one.
    pub length_field: u16,
}

impl SpaceHeader {
    /// Reads the header at the front of `octets`. Refused are fewer than six octets and another version.
    pub fn read(octets: &[u8]) -> Result<SpaceHeader, Refusal> {
        let mut answer = [0; 8];
        Refusal::check(ffi::read_space(octets, &mut answer))?;
        let [_total, version, packet_type, secondary_header, apid, flags, count, length_field] =
            answer;
        Ok(SpaceHeader {
            version: version as u8,
            packet_type: packet_type as u8,
            secondary_header: secondary_header as u8,
            apid: apid as u16,
            sequence_flags: flags as u8,
            sequence_count: count as u16,
            length_field: length_field as u16,
        })
    }

    /// Writes the header over the first six octets. Refused is a field that is wider than its place.
    pub fn write(&self, octets: &mut [u8]) -> Result<(), Refusal> {
        Refusal::check(ffi::write_space(&self.numbers(), octets))
    }

    /// The header's six octets.
    pub fn to_octets(&self) -> Result<[u8; LENGTH], Refusal> {
        let mut octets = [0; LENGTH];
        self.write(&mut octets)?;
        Ok(octets)
    }

    /// The octets of the whole packet.
    pub fn total(&self) -> usize {
        usize::from(self.length_field) + LENGTH + 1
    }

    fn numbers(&self) -> [u64; 7] {
        [
            self.version.into(),
            self.packet_type.into(),
            self.secondary_header.into(),
            self.apid.into(),
            self.sequence_flags.into(),
            self.sequence_count.into(),
            self.length_field.into(),
        ]
    }
}
