use std::error::Error;
use std::fmt;

use crate::Damage;

/// Why a call was refused. A refused call has changed nothing.
#[derive(Clone, Copy, Debug, PartialEq, Eq, Hash)]
pub enum Refusal {
    /// A setting or an argument is out of range.
    Setting,
    /// A lent buffer is too short.
    Room,
    /// The frame does not have exactly its length, or the tape ends within a frame.
    Length,
    /// The frame's version is not 01.
    Version,
    /// The frame is of another spacecraft or channel.
    Channel,
    /// A spare bit is 1; the usage of the count is not that of the edition that is set, or is 0 and the cycle is not; or, unwrapping,
    /// an extension without protocol 6 or a reserved field that is not 0.
    Spare,
    /// The frame's pointer is one that cannot be.
    Pointer,
    /// The packet is not well formed, or is a space packet and to be unwrapped; the data unit is empty or would pass the limit when
    /// wrapped; or the octets hold no space header. Where a lent packet's header is damaged, it is said what is wrong with it, whatever
    /// else is wrong with the packet.
    Packet(Option<Damage>),
    /// The wrong moment for this call.
    Moment,
    /// The record or the held octets are not ones that the calls can have left.
    Record,
    /// A frame, alone or in a tape, beyond the judge's last.
    Last,
    /// The entries make no relay table: they are more than 32, or one has an APID above 2,046, or two are the same.
    Table,
    /// The frame's trailer is not that of the octets before it.
    Trailer,
}

impl Refusal {
    const ALL: [Refusal; 13] = [
        Refusal::Setting,
        Refusal::Room,
        Refusal::Length,
        Refusal::Version,
        Refusal::Channel,
        Refusal::Spare,
        Refusal::Pointer,
        Refusal::Packet(None),
        Refusal::Moment,
        Refusal::Record,
        Refusal::Last,
        Refusal::Table,
        Refusal::Trailer,
    ];

    /// Its number, 1 to 13.
    pub fn number(self) -> u64 {
        match self {
            Refusal::Setting => 1,
            Refusal::Room => 2,
            Refusal::Length => 3,
            Refusal::Version => 4,
            Refusal::Channel => 5,
            Refusal::Spare => 6,
            Refusal::Pointer => 7,
            Refusal::Packet(_) => 8,
            Refusal::Moment => 9,
            Refusal::Record => 10,
            Refusal::Last => 11,
            Refusal::Table => 12,
            Refusal::Trailer => 13,
        }
    }

    /// What a call answered: nothing for 0, and else the refusal of that number.
    pub(crate) fn check(number: u64) -> Result<(), Refusal> {
        match Refusal::ALL.iter().find(|refusal| refusal.number() == number) {
            Some(&refusal) => Err(refusal),
            None => {
                assert!(number == 0, "the library knows no refusal {number}");
                Ok(())
            }
        }
    }

    /// The same for a call whose answer carries damage, as its last number.
    pub(crate) fn check_packet(number: u64, damage: u64) -> Result<(), Refusal> {
        Refusal::check(number).map_err(|refusal| match refusal {
            Refusal::Packet(_) => Refusal::Packet(Damage::told(damage)),
            other => other,
        })
    }
}

impl fmt::Display for Refusal {
    fn fmt(&self, f: &mut fmt::Formatter<'_>) -> fmt::Result {
        let number = self.number();
        let why = match self {
            Refusal::Setting => "a setting or an argument is out of range",
            Refusal::Room => "a lent buffer is too short",
            Refusal::Length => {
                "the frame does not have exactly its length, or the tape ends within a frame"
            }
            Refusal::Version => "the frame's version is not 01",
            Refusal::Channel => "the frame is of another spacecraft or channel",
            Refusal::Spare => {
                "a spare bit is 1, the count is of another edition, or a field that must be 0 is not"
            }
            Refusal::Pointer => "the frame's pointer is one that cannot be",
            Refusal::Packet(Some(damage)) => return write!(f, "refused {number}: {damage}"),
            Refusal::Packet(None) => {
                "the packet is not well formed, or the data unit cannot be wrapped"
            }
            Refusal::Moment => "the wrong moment for this call",
            Refusal::Record => "the record or the held octets cannot have been left by a call",
            Refusal::Last => "a frame, alone or in a tape, beyond the judge's last",
            Refusal::Table => "more than 32 relay entries, an APID above 2,046, or two the same",
            Refusal::Trailer => "the frame's trailer is not that of the octets before it",
        };
        write!(f, "refused {number}: {why}")
    }
}

impl Error for Refusal {}
