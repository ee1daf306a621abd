//! Packets in and out of the AOS telemetry frames of one virtual channel.
//!
//! A safe face on the proved library: what has to be remembered between calls is kept here, and every call's refusal is an
//! [`Refusal`]. Two packets into frames, out of them again, and the verdict on the run:
//!
//! ```
#![doc = include_str!("../examples/sample.rs")]
//! ```
//!
//! A table of [`relay`] says where the packets go from there. Frames that were recorded end to end are judged in one call by
//! [`Judge::tape`]. Frames that end with an error control field are those of [`Settings::with_trailer`] and
//! [`BitSettings::with_trailer`]; frames whose counts have 28 bits are those of an [`Edition`]. Where a packet's header is damaged, a
//! [`Damage`] says what is wrong with it.
#![warn(missing_docs)]

mod bits;
mod damage;
mod extractor;
mod ffi;
mod judge;
mod multiplexer;
mod packet;
mod refusal;
pub mod relay;
mod settings;
mod space;

pub use bits::{BitReader, BitSettings, BitWriter, Bits};
pub use damage::Damage;
pub use extractor::{Entered, Event, Events, Extractor, Packet, Reason};
pub use judge::{judge, Judge, Verdict};
pub use multiplexer::{multiplex, Multiplexer};
pub use packet::{read_header, unwrap, well_formed, wrap, Front, Header, Kind, Unwrapped};
pub use refusal::Refusal;
pub use settings::{Edition, Settings};
pub use space::SpaceHeader;
