use std::borrow::Cow;
use std::iter::FusedIterator;

use crate::ffi;
use crate::packet::{read_header, Front, Header};
use crate::{Damage, Refusal, Settings};

/// Takes packets out of the frames of a channel, and says what is missing between them.
///
/// ```
/// # fn main() -> Result<(), itzahuemo::Refusal> {
/// use itzahuemo::{Event, Extractor, Settings};
///
/// let mut extractor = Extractor::new(Settings::new(66, 3, 10, 1024)?);
/// let frame = *b"\x50\x83\x00\x00\x00\x00\x00\x00\x00\x05\xC0\x00\x00\x01\xAA\xBB\xE9\x05";
/// for event in extractor.feed(&frame)? {
///     match event {
///         Event::Entered(entered) => assert_eq!(entered.count, 0),
///         Event::Packet(packet) => assert_eq!(packet.octets[6..], [0xAA, 0xBB]),
///         Event::Damaged(damage) => unreachable!("{damage}"),
///     }
/// }
/// # Ok(())
/// # }
/// ```
#[derive(Clone, Debug)]
pub struct Extractor {
    settings: Settings,
    record: [u64; 4],
    store: Vec<u8>,
}

/// Why a frame does not go on from what came before it.
#[derive(Clone, Copy, Debug, PartialEq, Eq)]
pub enum Reason {
    /// It does go on.
    None,
    /// Frames are missing.
    Lost,
    /// The pointer is not the agreed one.
    Pointer,
    /// The header begun in the frames before came out damaged: its length is wrong.
    Damaged(Damage),
}

impl Reason {
    /// Its number, 0 to 3.
    pub fn number(self) -> u64 {
        match self {
            Reason::None => 0,
            Reason::Lost => ffi::REASON_LOST,
            Reason::Pointer => ffi::REASON_POINTER,
            Reason::Damaged(_) => ffi::REASON_DAMAGED,
        }
    }
}

/// What a frame says as it is entered.
#[derive(Clone, Copy, Debug, PartialEq, Eq)]
pub struct Entered {
    /// The frame's count, of 24 or 28 bits by the edition.
    pub count: u32,
    /// Its replay flag.
    pub replay: bool,
    /// Frames missing between the last one and this, modulo 2^24, or 2^28 where counts have 28 bits.
    pub lost: u32,
    /// Held octets that were dropped.
    pub dropped: usize,
    /// Why it does not go on from what came before.
    pub reason: Reason,
}

/// A whole packet, idle ones too.
#[derive(Clone, Debug, PartialEq, Eq)]
pub struct Packet<'f> {
    /// Its header.
    pub header: Header,
    /// All its octets: a part of the frame, or a copy where the packet began in an earlier frame.
    pub octets: Cow<'f, [u8]>,
}

/// What a frame brings.
#[derive(Clone, Debug, PartialEq, Eq)]
pub enum Event<'f> {
    /// The frame was entered; always the first event.
    Entered(Entered),
    /// A packet ends in the frame.
    Packet(Packet<'f>),
    /// No packet can begin where one should, and why; the rest of the zone is given up.
    Damaged(Damage),
}

impl Extractor {
    /// An extractor that has seen no frame.
    pub fn new(settings: Settings) -> Extractor {
        Extractor { settings, record: [0; 4], store: vec![0; settings.limit()] }
    }

    /// Enters a frame. Refused is one that is not of this channel (`Length` to `Pointer`) or whose trailer is wrong (`Trailer`); the
    /// extractor goes on as if it had not been there. The frame is gone through to its end even where its events are not asked for.
    pub fn feed<'f>(&mut self, frame: &'f [u8]) -> Result<Events<'_, 'f>, Refusal> {
        let mut answer = [0; 7];
        Refusal::check(ffi::extractor_enter(
            &self.settings.numbers(),
            &mut self.record,
            &self.store,
            frame,
            &mut answer,
        ))?;
        let [_entered, count, replay, lost, dropped, reason, damage] = answer;
        let entered = Entered {
            count: count as u32,
            replay: replay != 0,
            lost: lost as u32,
            dropped: dropped as usize,
            reason: match reason {
                ffi::REASON_LOST => Reason::Lost,
                ffi::REASON_POINTER => Reason::Pointer,
                ffi::REASON_DAMAGED => Reason::Damaged(Damage::of(damage)),
                _ => Reason::None,
            },
        };
        Ok(Events { extractor: self, frame, entered: Some(entered), spent: false })
    }

    /// One step in an entered frame.
    fn step<'f>(&mut self, frame: &'f [u8]) -> Option<Event<'f>> {
        let mut step = [0; 5];
        let refusal = ffi::extractor_step(
            &self.settings.numbers(),
            &mut self.record,
            &mut self.store,
            frame,
            &mut step,
        );
        assert!(refusal == 0, "a frame that was entered is stepped, and not refused {refusal}");
        let [found, .., damage] = step;
        match found {
            ffi::STEP_SPENT => None,
            ffi::STEP_DAMAGED => Some(Event::Damaged(Damage::of(damage))),
            _ => Some(Event::Packet(self.packet(frame, &step))),
        }
    }

    /// The packet that a step found.
    fn packet<'f>(&self, frame: &'f [u8], step: &[u64; 5]) -> Packet<'f> {
        let mut shown = [0; 3];
        let refusal = ffi::show(step, frame, &self.store, &mut shown);
        assert!(refusal == 0, "what a step found is shown, and not refused {refusal}");
        let [place, start, length] = shown;
        let octets = match place {
            ffi::IN_FRAME => Cow::Borrowed(ffi::part(frame, start, length)),
            _ => Cow::Owned(ffi::part(&self.store, start, length).to_vec()),
        };
        match read_header(self.settings.limit(), &octets) {
            Ok(Front::Header(header)) => Packet { header, octets },
            other => unreachable!("a packet that was taken out has a header: {other:?}"),
        }
    }
}

/// The events of one frame, in their order.
#[derive(Debug)]
pub struct Events<'x, 'f> {
    extractor: &'x mut Extractor,
    frame: &'f [u8],
    /// What the frame said as it was entered, until that is told.
    entered: Option<Entered>,
    spent: bool,
}

impl<'f> Iterator for Events<'_, 'f> {
    type Item = Event<'f>;

    fn next(&mut self) -> Option<Event<'f>> {
        if let Some(entered) = self.entered.take() {
            return Some(Event::Entered(entered));
        }
        if self.spent {
            return None;
        }
        let event = self.extractor.step(self.frame);
        self.spent = event.is_none();
        event
    }
}

impl FusedIterator for Events<'_, '_> {}

impl Drop for Events<'_, '_> {
    /// The extractor takes the next frame only when this one is spent.
    fn drop(&mut self) {
        while self.next().is_some() {}
    }
}
