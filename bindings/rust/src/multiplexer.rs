use crate::ffi;
use crate::{Refusal, Settings};

/// Lays packets end to end into frames.
///
/// ```
/// # fn main() -> Result<(), itzahuemo::Refusal> {
/// use itzahuemo::{Multiplexer, Settings};
///
/// let mut multiplexer = Multiplexer::new(Settings::new(66, 3, 10, 1024)?);
/// let frames = multiplexer.put(&[0xE9, 0x05, 0x11, 0x22, 0x33])?;
/// assert!(frames.is_empty()); // five octets of the zone are left
/// let last = multiplexer.flush()?.expect("a zone is begun");
/// assert_eq!(last[8..], [0xE9, 0x05, 0x11, 0x22, 0x33, 0xE1, 0x05, 0x55, 0x55, 0x55]);
/// # Ok(())
/// # }
/// ```
#[derive(Clone, Debug)]
pub struct Multiplexer {
    settings: Settings,
    record: [u64; 4],
    /// The frame in work.
    frame: Vec<u8>,
}

impl Multiplexer {
    /// A multiplexer whose first frame has the count 0.
    pub fn new(settings: Settings) -> Multiplexer {
        let mut record = [0; 4];
        let refusal = ffi::mux_begin(&mut record);
        assert!(refusal == 0, "a record of four numbers is long enough");
        Multiplexer { settings, record, frame: vec![0; settings.frame_length()] }
    }

    /// Takes a whole packet, and answers the frames that it fills. Refused (`Packet`) is one that is not well formed.
    pub fn put(&mut self, packet: &[u8]) -> Result<Vec<Vec<u8>>, Refusal> {
        let mut frames = Vec::new();
        loop {
            let mut answer = [0; 3];
            let refusal = ffi::mux_put(
                &self.settings.numbers(),
                &mut self.record,
                packet,
                &mut self.frame,
                &mut answer,
            );
            let [full, taken, damage] = answer;
            Refusal::check_packet(refusal, damage)?;
            if full != 0 {
                frames.push(self.frame.clone());
            }
            if taken != 0 {
                return Ok(frames);
            }
        }
    }

    /// Closes a begun zone with one idle packet, and answers its frame; nothing where no zone is begun.
    pub fn flush(&mut self) -> Result<Option<Vec<u8>>, Refusal> {
        let mut answer = [0];
        Refusal::check(ffi::mux_flush(
            &self.settings.numbers(),
            &mut self.record,
            &mut self.frame,
            &mut answer,
        ))?;
        Ok((answer == [ffi::FLUSH_FRAME]).then(|| self.frame.clone()))
    }

    /// A frame whose zone carries no packet at all. Refused (`Moment`) while a zone is begun.
    pub fn idle(&mut self) -> Result<Vec<u8>, Refusal> {
        Refusal::check(ffi::mux_idle(&self.settings.numbers(), &mut self.record, &mut self.frame))?;
        Ok(self.frame.clone())
    }
}

/// The frames of a whole run: every packet in its turn, and then a flush.
pub fn multiplex<P: AsRef<[u8]>>(
    settings: Settings,
    packets: impl IntoIterator<Item = P>,
) -> Result<Vec<Vec<u8>>, Refusal> {
    let mut multiplexer = Multiplexer::new(settings);
    let mut frames = Vec::new();
    for packet in packets {
        frames.extend(multiplexer.put(packet.as_ref())?);
    }
    frames.extend(multiplexer.flush()?);
    Ok(frames)
}
