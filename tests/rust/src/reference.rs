//! Document 01 in Rust, one virtual channel of an AOS link, and of document 02's requests those that
//! have landed.
//!
//! Every call takes the settings, the record and the buffers it needs, checks
//! them in the order that its own comment states, and answers or refuses. A
//! refused call changes nothing.

pub mod bitstream;
pub mod edition;
pub mod extractor;
pub mod frame;
pub mod judge;
pub mod multiplexer;
pub mod packet;
pub mod relay;
pub mod runfile;
pub mod space;
pub mod trailer;
pub mod wrap;

use packet::Damage;

/// Why a call was refused.
#[derive(Clone, Copy, Debug, PartialEq, Eq)]
pub enum Refusal {
    /// A setting or an argument is out of range.
    Range,
    /// A lent store, output or bit buffer is too short.
    Room,
    /// A frame to be read does not have its exact length.
    Length,
    /// The frame version is not 01.
    Version,
    /// Another spacecraft or channel.
    Channel,
    /// A spare bit is 1, or the count usage or cycle is not one of the channel's edition; or a
    /// field that unwrapping wants to be 0 is not.
    Spare,
    /// A pointer that cannot be.
    Pointer,
    /// A packet that is not well-formed, or a data unit that cannot be wrapped; with the damage of
    /// the packet's header, if that is what is wrong.
    Packet(Option<Damage>),
    /// The wrong moment.
    Moment,
    /// A record, or held octets, that the rules cannot reach.
    Record,
    /// A frame, alone or on a tape, beyond the judge's last.
    Beyond,
    /// Too many entries for a relay table, an APID past those of it, or a pair twice.
    Table,
    /// The trailer of a frame to be read is wrong.
    Trailer,
}

impl Refusal {
    /// The number of document 01's table, or of the request that added it.
    pub fn number(self) -> u64 {
        match self {
            Refusal::Range => 1,
            Refusal::Room => 2,
            Refusal::Length => 3,
            Refusal::Version => 4,
            Refusal::Channel => 5,
            Refusal::Spare => 6,
            Refusal::Pointer => 7,
            Refusal::Packet(_) => 8,
            Refusal::Moment => 9,
            Refusal::Record => 10,
            Refusal::Beyond => 11,
            Refusal::Table => 12,
            Refusal::Trailer => 13,
        }
    }

    /// The damage that it names.
    pub fn damage(self) -> Option<Damage> {
        match self {
            Refusal::Packet(damage) => damage,
            _ => None,
        }
    }
}

/// Refuses unless the condition holds.
pub(crate) fn require(condition: bool, refusal: Refusal) -> Result<(), Refusal> {
    if condition {
        Ok(())
    } else {
        Err(refusal)
    }
}
