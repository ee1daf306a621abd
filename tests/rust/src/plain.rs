//! An extractor as a station would write it. It keeps its own state, so there is nothing to check
//! but the frame: a frame goes in, and what is heard of it comes out.
//!
//! The library is measured against it, beside [`crate::reference`], which checks its record at every
//! step as the library has to.

use crate::reference::extractor::{Entered, Reason};
use crate::reference::frame::{self, Head, Settings, IDLE_ZONE, NO_START};
use crate::reference::packet::{look, Damage, Header, Look, LONGEST_HEADER};
use crate::reference::Refusal;

/// What is heard of a frame, in this order: that it is refused, or that it is entered and then its
/// packets.
#[derive(Clone, Copy, Debug, PartialEq, Eq)]
pub enum Event<'a> {
    Refused(Refusal),
    Entered(Entered),
    Packet { idle: bool, octets: &'a [u8] },
    Damaged(Damage),
}

/// The extractor of one channel.
#[derive(Clone, Debug)]
pub struct Extractor {
    settings: Settings,
    /// The count of the last frame.
    last: Option<u32>,
    /// Whether it is known where the next packet starts.
    in_step: bool,
    /// The front of a packet that runs past its zone; empty when out of step.
    held: Vec<u8>,
}

impl Extractor {
    pub fn new(settings: Settings) -> Result<Extractor, Refusal> {
        settings.check()?;
        let held = Vec::with_capacity(settings.limit);
        Ok(Extractor { settings, last: None, in_step: false, held })
    }

    /// Takes the next frame.
    pub fn feed(&mut self, frame: &[u8], mut hear: impl FnMut(Event)) {
        let head = match frame::read(&self.settings, frame) {
            Ok(head) => head,
            Err(refusal) => return hear(Event::Refused(refusal)),
        };
        let zone = self.settings.zone_of(frame);
        let joined = self.joined(zone);
        let entered = self.enter(head, joined, zone.len());
        hear(Event::Entered(entered));
        let start = match head.pointer {
            IDLE_ZONE => zone.len(),
            _ if self.in_step => 0,
            NO_START => return,
            pointer => usize::from(pointer),
        };
        self.in_step = true;
        let mut rest = &zone[start..];
        if !self.held.is_empty() {
            match joined {
                Look::Whole(header) if header.total - self.held.len() <= rest.len() => {
                    let (end, behind) = rest.split_at(header.total - self.held.len());
                    self.held.extend_from_slice(end);
                    hear(packet(header, &self.held));
                    self.held.clear();
                    rest = behind;
                }
                _ => return self.held.extend_from_slice(rest),
            }
        }
        while !rest.is_empty() {
            match look(self.settings.limit, rest) {
                Look::Whole(header) if header.total <= rest.len() => {
                    let (octets, behind) = rest.split_at(header.total);
                    hear(packet(header, octets));
                    rest = behind;
                }
                Look::Damaged(damage) => {
                    self.in_step = false;
                    return hear(Event::Damaged(damage));
                }
                Look::Cut | Look::Whole(_) => return self.held.extend_from_slice(rest),
            }
        }
    }

    /// The header of the held packet, which may go on in this zone.
    fn joined(&self, zone: &[u8]) -> Look {
        let held = self.held.len();
        if held >= LONGEST_HEADER {
            return look(self.settings.limit, &self.held);
        }
        let mut front = [0; LONGEST_HEADER];
        let size = LONGEST_HEADER.min(held + zone.len());
        front[..held].copy_from_slice(&self.held);
        front[held..size].copy_from_slice(&zone[..size - held]);
        look(self.settings.limit, &front[..size])
    }

    /// Compares a frame with what came before it, and drops what does not go on in it.
    fn enter(&mut self, head: Head, joined: Look, zone: usize) -> Entered {
        let Head { count, replay, pointer } = head;
        let lost = self.last.map_or(0, |last| self.settings.edition.missing(last, count));
        self.last = Some(count);
        let reason = if lost != 0 {
            Reason::Gap
        } else if self.in_step {
            self.disagreement(joined, pointer, zone)
        } else {
            Reason::None
        };
        let mut dropped = 0;
        if reason != Reason::None {
            dropped = self.held.len();
            self.held.clear();
            self.in_step = false;
        }
        Entered { count, replay, lost, dropped, reason }
    }

    /// What is wrong with the pointer of a frame that follows without a gap.
    fn disagreement(&self, joined: Look, pointer: u16, zone: usize) -> Reason {
        let held = self.held.len();
        let agrees = match joined {
            _ if held == 0 => pointer == 0 || pointer == IDLE_ZONE,
            Look::Damaged(damage) => return Reason::Damage(damage),
            Look::Whole(header) if header.total - held < zone => {
                usize::from(pointer) == header.total - held
            }
            Look::Cut | Look::Whole(_) => pointer == NO_START,
        };
        if agrees {
            Reason::None
        } else {
            Reason::Pointer
        }
    }
}

fn packet(header: Header, octets: &[u8]) -> Event<'_> {
    Event::Packet { idle: header.kind.is_idle(), octets }
}
