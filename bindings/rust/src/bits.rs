use crate::ffi;
use crate::settings::{frame_length, FILL};
use crate::{Edition, Refusal};

/// A channel that carries bits.
#[derive(Clone, Copy, Debug, PartialEq, Eq)]
pub struct BitSettings {
    spacecraft: u8,
    channel: u8,
    width: usize,
    fill: u8,
    trailer: bool,
    edition: Edition,
}

impl BitSettings {
    /// A spacecraft, one of its channels (0 to 62) and the octets of a frame's bitstream zone (1 to 2,047). Refused is a number out
    /// of range.
    pub fn new(spacecraft: u8, channel: u8, width: usize) -> Result<BitSettings, Refusal> {
        let settings = BitSettings {
            spacecraft,
            channel,
            width,
            fill: FILL,
            trailer: false,
            edition: Edition::default(),
        };
        // The settings are looked at before the frame, and no frame is empty.
        let said = ffi::bits_read(&settings.numbers(), &mut [0; 3], &[], &mut [0; 6]);
        match Refusal::check(said) {
            Err(Refusal::Setting) => Err(Refusal::Setting),
            _ => Ok(settings),
        }
    }

    /// The same channel with another octet behind its bits, which is 55 in hexadecimal from the start.
    pub fn with_fill(self, fill: u8) -> BitSettings {
        BitSettings { fill, ..self }
    }

    /// The same channel with frames that end with a trailer, as by [`Settings::with_trailer`](crate::Settings::with_trailer).
    pub fn with_trailer(self, trailer: bool) -> BitSettings {
        BitSettings { trailer, ..self }
    }

    /// The same channel with frames of another edition, which is the former one from the start.
    pub fn with_edition(self, edition: Edition) -> BitSettings {
        BitSettings { edition, ..self }
    }

    /// The octets of a bitstream zone.
    pub fn width(&self) -> usize {
        self.width
    }

    /// The octets of a frame.
    pub fn frame_length(&self) -> usize {
        frame_length(self.width, self.trailer)
    }

    fn numbers(&self) -> [u64; 6] {
        [
            self.spacecraft.into(),
            self.channel.into(),
            self.width as u64,
            self.fill.into(),
            self.trailer.into(),
            self.edition.number(),
        ]
    }
}

/// Writes bits into frames.
#[derive(Clone, Debug)]
pub struct BitWriter {
    settings: BitSettings,
    record: [u64; 1],
}

impl BitWriter {
    /// A writer whose first frame has the count 0.
    pub fn new(settings: BitSettings) -> BitWriter {
        BitWriter { settings, record: [0] }
    }

    /// A frame with the first `number` of the bits, the first in the top of the first octet. Refused are more bits than the zone
    /// has room for (`Setting`), or than the octets hold (`Room`).
    pub fn write(&mut self, bits: &[u8], number: usize) -> Result<Vec<u8>, Refusal> {
        let mut frame = vec![0; self.settings.frame_length()];
        Refusal::check(ffi::bits_write(
            &self.settings.numbers(),
            &mut self.record,
            bits,
            number as u64,
            &mut frame,
        ))?;
        Ok(frame)
    }
}

/// The bits of a frame.
#[derive(Clone, Copy, Debug, PartialEq, Eq)]
pub struct Bits<'a> {
    /// The frame's count, of 24 or 28 bits by the edition.
    pub count: u32,
    /// Its replay flag.
    pub replay: bool,
    /// Whether frames were lost since the last frame with bits: a count since then, this one's included, did not follow the one before
    /// it. A frame without bits has it clear, and a loss there waits for the next bits.
    pub lost: bool,
    /// How many bits it has.
    pub number: usize,
    /// The octets that hold them, a part of the frame.
    pub octets: &'a [u8],
}

impl<'a> Bits<'a> {
    /// The bits one by one.
    pub fn iter(&self) -> impl Iterator<Item = bool> + 'a {
        let octets = self.octets;
        (0..self.number).map(move |at| octets[at / 8] << (at % 8) & 0x80 != 0)
    }
}

/// Reads bits out of frames.
#[derive(Clone, Debug)]
pub struct BitReader {
    settings: BitSettings,
    record: [u64; 3],
}

impl BitReader {
    /// A reader that has seen no frame.
    pub fn new(settings: BitSettings) -> BitReader {
        BitReader { settings, record: [0; 3] }
    }

    /// Reads a frame. Refused is one that is not of this channel (`Length` to `Pointer`) or whose trailer is wrong (`Trailer`); what
    /// waits to be told stays as it was then.
    pub fn read<'a>(&mut self, frame: &'a [u8]) -> Result<Bits<'a>, Refusal> {
        let mut answer = [0; 6];
        Refusal::check(ffi::bits_read(
            &self.settings.numbers(),
            &mut self.record,
            frame,
            &mut answer,
        ))?;
        let [count, replay, lost, number, start, length] = answer;
        Ok(Bits {
            count: count as u32,
            replay: replay != 0,
            lost: lost != 0,
            number: number as usize,
            octets: ffi::part(frame, start, length),
        })
    }
}
