//! Trailers of frames: request L2 of document 02. They are the frame error control field of source
//! 004, section 4.1.6.

/// Octets of a trailer.
pub const TRAILER: usize = 2;

/// The generator X^16 + X^12 + X^5 + 1 without its first term, which is the bit that leaves the
/// register.
const GENERATOR: u16 = 1 << 12 | 1 << 5 | 1;

/// What stands in the register before the first bit.
const PRESET: u16 = u16::MAX;

/// The octets behind a zone, with this setting.
pub(crate) fn length(trailer: bool) -> usize {
    if trailer {
        TRAILER
    } else {
        0
    }
}

/// The remainder of a row of octets as the register of source 004 comes to it, which is what the
/// word means here. The first bit of an octet is its highest.
pub fn remainder_by_bits(octets: &[u8]) -> u16 {
    octets.iter().fold(PRESET, |register, &octet| shifted(register, octet))
}

/// The register after the eight bits of an octet. The generator is added when the bit that leaves
/// the register and the one that comes are not the same.
const fn shifted(register: u16, octet: u8) -> u16 {
    let mut register = register;
    let mut place = 8;
    while place > 0 {
        place -= 1;
        let leaves = register >> 15;
        let comes = (octet >> place & 1) as u16;
        register <<= 1;
        if leaves != comes {
            register ^= GENERATOR;
        }
    }
    register
}

/// What each octet makes of a register of zeros.
const TABLE: [u16; 256] = {
    let mut table = [0; 256];
    let mut octet = 0;
    while octet < table.len() {
        table[octet] = shifted(0, octet as u8);
        octet += 1;
    }
    table
};

/// What an octet makes of a register of zeros.
pub fn entry(octet: u8) -> u16 {
    TABLE[usize::from(octet)]
}

/// The same remainder by one look into the table for each octet.
pub fn remainder(octets: &[u8]) -> u16 {
    octets.iter().fold(PRESET, |register, &octet| {
        let [high, _] = register.to_be_bytes();
        register << 8 ^ entry(high ^ octet)
    })
}

/// Whether the last two octets of a frame are the remainder of all before them, the high one first.
pub fn is_right(frame: &[u8]) -> bool {
    let (before, trailer) = frame.split_at(frame.len() - TRAILER);
    remainder(before).to_be_bytes() == trailer
}

/// Makes the last two octets of a frame its trailer.
pub fn write(frame: &mut [u8]) {
    let (before, trailer) = frame.split_at_mut(frame.len() - TRAILER);
    trailer.copy_from_slice(&remainder(before).to_be_bytes());
}
