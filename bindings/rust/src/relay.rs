//! Where space packets go, by their APID.

use crate::ffi;
use crate::Refusal;

/// The entries of a table at most, and so the destinations of a packet.
pub const MOST_ENTRIES: usize = 32;

/// The numbers of a table: the count, and two of each entry.
const NUMBERS: usize = 1 + 2 * MOST_ENTRIES;

/// Packets of an APID go to a destination. An APID may have several entries.
#[derive(Clone, Copy, Debug, PartialEq, Eq, Hash)]
pub struct Entry {
    /// The application, 0 to 2,046.
    pub apid: u16,
    /// Where its packets go.
    pub destination: u8,
}

/// A table of up to 32 entries.
///
/// ```
/// # fn main() -> Result<(), itzahuemo::Refusal> {
/// use itzahuemo::relay::{Entry, Route, Table, MOST_ENTRIES};
///
/// let mut table = Table::empty();
/// table.load(&[Entry { apid: 5, destination: 7 }, Entry { apid: 5, destination: 2 }])?;
/// let mut destinations = [0; MOST_ENTRIES];
/// let packet = [0x00, 0x05, 0xC0, 0x00, 0x00, 0x01, 0xAA, 0xBB];
/// match table.route(1024, &packet, &mut destinations)? {
///     Route::Path(destinations) => assert_eq!(destinations, [7, 2]),
///     Route::NoPath => unreachable!(),
/// }
/// # Ok(())
/// # }
/// ```
#[derive(Clone, Debug, PartialEq, Eq)]
pub struct Table {
    record: [u64; NUMBERS],
}

/// Where a packet goes.
#[derive(Clone, Copy, Debug, PartialEq, Eq)]
pub enum Route<'d> {
    /// Nowhere: its APID has no entry, or it is an idle or an encapsulation packet.
    NoPath,
    /// To these destinations, one at least, in table order.
    Path(&'d [u8]),
}

impl Table {
    /// A table without entries: no packet has a path.
    pub fn empty() -> Table {
        Table { record: [0; NUMBERS] }
    }

    /// Replaces the whole table by these entries. Refused (`Table`) are more than 32, an APID above 2,046 and the same pair twice;
    /// the table then stays as it was.
    pub fn load(&mut self, entries: &[Entry]) -> Result<(), Refusal> {
        let numbers: Vec<u64> = entries
            .iter()
            .flat_map(|entry| [entry.apid.into(), entry.destination.into()])
            .collect();
        Refusal::check(ffi::relay_load(&numbers, &mut self.record))
    }

    /// Finds where a packet goes, and writes the destinations to the front of `destinations`. The limit is 7 to 65,542. Refused are
    /// a packet that is not well formed (`Packet`), and fewer octets than it has destinations (`Room`); [`MOST_ENTRIES`] are enough.
    pub fn route<'d>(
        &self,
        limit: usize,
        packet: &[u8],
        destinations: &'d mut [u8],
    ) -> Result<Route<'d>, Refusal> {
        let mut answer = [0; 3];
        let refusal =
            ffi::relay_route(limit as u64, &self.record, packet, destinations, &mut answer);
        let [found, count, damage] = answer;
        Refusal::check_packet(refusal, damage)?;
        Ok(match found {
            ffi::NO_PATH => Route::NoPath,
            _ => Route::Path(ffi::part(destinations, 0, count)),
        })
    }
}

impl Default for Table {
    fn default() -> Table {
        Table::empty()
    }
}
