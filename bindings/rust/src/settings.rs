use crate::ffi;
use crate::Refusal;

/// The octets in front of a frame's zone.
const HEAD: usize = 8;

/// The octets of a trailer, behind a frame's zone.
const TRAILER: usize = 2;

/// The octet that fills idle space unless another is chosen.
pub(crate) const FILL: u8 = 0x55;

/// The octets of a frame with so long a zone.
pub(crate) fn frame_length(zone: usize, trailer: bool) -> usize {
    HEAD + zone + if trailer { TRAILER } else { 0 }
}

/// The edition of the standard that the frames of a channel follow, and with it the bits of their counts. It decides on the
/// signalling octet, the one behind the three of the count, whose first bit is the replay flag at each of them.
///
/// ```
/// # fn main() -> Result<(), itzahuemo::Refusal> {
/// use itzahuemo::{Edition, Event, Extractor, Refusal, Settings};
///
/// // A frame without packets, and the count ABCDEF1 in hexadecimal.
/// let frame = *b"\x50\x83\xBC\xDE\xF1\x4A\x07\xFE\x55\x55";
/// let settings = Settings::new(66, 3, 2, 1024)?;
/// assert_eq!(Extractor::new(settings).feed(&frame).err(), Some(Refusal::Spare));
/// let mut extractor = Extractor::new(settings.with_edition(Edition::CycleUsed));
/// for event in extractor.feed(&frame)? {
///     assert!(matches!(event, Event::Entered(entered) if entered.count == 0x0ABC_DEF1));
/// }
/// # Ok(())
/// # }
/// ```
#[derive(Clone, Copy, Debug, Default, PartialEq, Eq, Hash)]
pub enum Edition {
    /// CCSDS 701.0-B-2: the other seven bits are spare, and counts have 24 bits.
    #[default]
    Former = 0,
    /// CCSDS 732.0-B-3 with usage 0 of the count: its cycle is 0, and counts have 24 bits. The frames are to the octet those of
    /// `Former`.
    CycleUnused = 1,
    /// CCSDS 732.0-B-3 with usage 1 of the count: the four bits of its cycle, the last of the octet, stand above the 24 bits, and
    /// counts have 28 bits.
    CycleUsed = 2,
}

impl Edition {
    /// Its number, 0 to 2.
    pub fn number(self) -> u64 {
        self as u64
    }
}

/// A channel that carries packets.
#[derive(Clone, Copy, Debug, PartialEq, Eq)]
pub struct Settings {
    spacecraft: u8,
    channel: u8,
    zone: usize,
    limit: usize,
    fill: u8,
    trailer: bool,
    edition: Edition,
}

impl Settings {
    /// A spacecraft, one of its channels (0 to 62), the octets of a frame's packet zone (1 to 2,046) and the greatest total length
    /// of a packet (from the greater of 7 and `zone` to 65,542). Refused is a number out of range.
    pub fn new(
        spacecraft: u8,
        channel: u8,
        zone: usize,
        limit: usize,
    ) -> Result<Settings, Refusal> {
        let settings = Settings {
            spacecraft,
            channel,
            zone,
            limit,
            fill: FILL,
            trailer: false,
            edition: Edition::default(),
        };
        // The settings are looked at before the store, and an empty store holds no packet.
        let said = ffi::judge_close(&settings.numbers(), &[0; 4], &[], &mut [0; 2]);
        match Refusal::check(said) {
            Err(Refusal::Setting) => Err(Refusal::Setting),
            _ => Ok(settings),
        }
    }

    /// The same channel with another octet in its idle space, which is 55 in hexadecimal from the start.
    pub fn with_fill(self, fill: u8) -> Settings {
        Settings { fill, ..self }
    }

    /// The same channel with frames that end with a trailer, the error control field of CCSDS 132.0-B, or that do not, as from the
    /// start. The trailer is two octets more: the 16-bit remainder of all octets before it.
    ///
    /// ```
    /// # fn main() -> Result<(), itzahuemo::Refusal> {
    /// use itzahuemo::{Extractor, Multiplexer, Refusal, Settings};
    ///
    /// let settings = Settings::new(66, 3, 10, 1024)?.with_trailer(true);
    /// let mut frame = Multiplexer::new(settings).idle()?;
    /// assert_eq!(frame.len(), 20);
    /// assert_eq!(frame[18..], [0x29, 0xBB]);
    /// frame[12] ^= 1;
    /// assert_eq!(Extractor::new(settings).feed(&frame).err(), Some(Refusal::Trailer));
    /// # Ok(())
    /// # }
    /// ```
    pub fn with_trailer(self, trailer: bool) -> Settings {
        Settings { trailer, ..self }
    }

    /// The same channel with frames of another edition, which is the former one from the start.
    pub fn with_edition(self, edition: Edition) -> Settings {
        Settings { edition, ..self }
    }

    /// The spacecraft's number.
    pub fn spacecraft(&self) -> u8 {
        self.spacecraft
    }

    /// The channel's number.
    pub fn channel(&self) -> u8 {
        self.channel
    }

    /// The octets of a packet zone.
    pub fn zone(&self) -> usize {
        self.zone
    }

    /// The greatest total length of a packet.
    pub fn limit(&self) -> usize {
        self.limit
    }

    /// The octet that fills idle space.
    pub fn fill(&self) -> u8 {
        self.fill
    }

    /// Whether its frames end with a trailer.
    pub fn trailer(&self) -> bool {
        self.trailer
    }

    /// The edition that its frames follow.
    pub fn edition(&self) -> Edition {
        self.edition
    }

    /// The octets of a frame.
    pub fn frame_length(&self) -> usize {
        frame_length(self.zone, self.trailer)
    }

    pub(crate) fn numbers(&self) -> [u64; 7] {
        [
            self.spacecraft.into(),
            self.channel.into(),
            self.zone as u64,
            self.limit as u64,
            self.fill.into(),
            self.trailer.into(),
            self.edition.number(),
        ]
    }
}
