//! Space packets sent on by their APID: request L1 of document 02.

use super::packet::{well_formed, Kind, LIMITS};
use super::{require, Refusal};

/// A table has no more entries than this.
pub const MOST_ENTRIES: usize = 32;

/// The greatest APID that may have a path; the next one is that of idle packets.
pub const LAST_APID: u64 = 2_046;

/// The greatest number of a destination.
pub const LAST_DESTINATION: u64 = 255;

/// Packets of this APID go to this destination.
#[derive(Clone, Copy, Debug, PartialEq, Eq)]
pub struct Entry {
    pub apid: u64,
    pub destination: u64,
}

/// The entries that a relay goes by, in their order.
#[derive(Clone, Debug, PartialEq, Eq)]
pub struct Table {
    pub entries: Vec<Entry>,
}

impl Table {
    pub const EMPTY: Table = Table { entries: Vec::new() };

    /// Loading can have made this table.
    fn is_reachable(&self) -> bool {
        load(&self.entries).is_ok()
    }

    /// The destinations of an APID.
    fn path(&self, apid: u16) -> Vec<u8> {
        let of_apid = self.entries.iter().filter(|entry| entry.apid == u64::from(apid));
        of_apid.map(|entry| entry.destination as u8).collect()
    }
}

/// The table of these entries, which takes the place of the one before. Checks: 1, 12.
pub fn load(entries: &[Entry]) -> Result<Table, Refusal> {
    let destinations = entries.iter().all(|entry| entry.destination <= LAST_DESTINATION);
    require(destinations, Refusal::Range)?;
    let apids = entries.iter().all(|entry| entry.apid <= LAST_APID);
    require(entries.len() <= MOST_ENTRIES && apids && !repeats(entries), Refusal::Table)?;
    Ok(Table { entries: entries.to_vec() })
}

/// Some pair is there twice.
fn repeats(entries: &[Entry]) -> bool {
    entries.iter().enumerate().any(|(place, entry)| entries[..place].contains(entry))
}

/// Writes the destinations of a packet to the front of `out` and answers how many they are; none is
/// "no path". Checks: 1, 10, 8, 2.
pub fn route(limit: usize, table: &Table, packet: &[u8], out: &mut [u8]) -> Result<usize, Refusal> {
    require(LIMITS.contains(&limit), Refusal::Range)?;
    require(table.is_reachable(), Refusal::Record)?;
    let header = well_formed(limit, packet)?;
    let path = match header.kind {
        Kind::Space { apid } if !header.kind.is_idle() => table.path(apid),
        _ => Vec::new(),
    };
    require(out.len() >= path.len(), Refusal::Room)?;
    out[..path.len()].copy_from_slice(&path);
    Ok(path.len())
}
