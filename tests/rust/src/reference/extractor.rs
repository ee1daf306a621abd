//! Packets taken out of frames.
//!
//! A frame is entered, then stepped until a step says spent. The front of a
//! packet that runs past its zone is held in a store until it is complete.

use super::frame::{self, Head, Settings, HEAD, IDLE_ZONE, NO_START};
use super::packet::{look, Damage, Kind, Look, LONGEST_HEADER};
use super::{require, Refusal};

/// Where the extractor stands.
#[derive(Clone, Copy, Debug, PartialEq, Eq)]
pub enum Record {
    /// No frame has been entered yet.
    Fresh,
    /// Between frames, waiting for a packet start.
    OutOfStep { last: u32 },
    /// Between frames, knowing where the next packet starts.
    InStep { last: u32, held: usize },
    /// In a frame, at a place of its zone.
    Walking { last: u32, held: usize, at: usize },
    /// In a frame that has nothing more to give, out of step.
    Leaving { last: u32 },
}

impl Record {
    fn is_reachable(&self, settings: &Settings, store: &[u8]) -> bool {
        let wheel = settings.edition.wheel();
        let holds = |held| holds_well(settings.limit, held, store);
        match *self {
            Record::Fresh => true,
            Record::OutOfStep { last } | Record::Leaving { last } => last < wheel,
            Record::InStep { last, held } => last < wheel && holds(held),
            Record::Walking { last, held: 0, at } => last < wheel && at <= settings.zone,
            Record::Walking { last, held, at } => last < wheel && at == 0 && holds(held),
        }
    }
}

/// Held octets lie in the store and begin a packet that is not yet damaged and
/// is longer than they are.
pub(crate) fn holds_well(limit: usize, held: usize, store: &[u8]) -> bool {
    match store.get(..held).map(|octets| look(limit, octets)) {
        None | Some(Look::Damaged(_)) => false,
        Some(Look::Cut) => true,
        Some(Look::Whole(header)) => header.total > held,
    }
}

/// Why a frame did not go on where the last one ended.
#[derive(Clone, Copy, Debug, PartialEq, Eq)]
pub enum Reason {
    None,
    /// Frames are missing.
    Gap,
    /// The pointer is not the agreed one.
    Pointer,
    /// The header of the held packet came out damaged.
    Damage(Damage),
}

impl Reason {
    /// The number of document 01.
    pub fn number(self) -> u64 {
        match self {
            Reason::None => 0,
            Reason::Gap => 1,
            Reason::Pointer => 2,
            Reason::Damage(_) => 3,
        }
    }

    /// The damage that it names.
    pub fn damage(self) -> Option<Damage> {
        match self {
            Reason::Damage(damage) => Some(damage),
            _ => None,
        }
    }
}

/// What is said of a frame when it is entered.
#[derive(Clone, Copy, Debug, PartialEq, Eq)]
pub struct Entered {
    pub count: u32,
    pub replay: bool,
    pub lost: u32,
    pub dropped: usize,
    pub reason: Reason,
}

/// What a step says.
#[derive(Clone, Copy, Debug, PartialEq, Eq)]
pub enum Step {
    Spent,
    Packet { kind: Kind, part: Part },
    Damaged(Damage),
}

/// Where a packet lies.
#[derive(Clone, Copy, Debug, PartialEq, Eq)]
pub enum Part {
    /// In the frame, from this octet on.
    Frame { start: usize, size: usize },
    /// At the front of the store.
    Store { size: usize },
}

impl Part {
    pub fn size(self) -> usize {
        match self {
            Part::Frame { size, .. } | Part::Store { size } => size,
        }
    }
}

/// The octets of a packet that a step has found, empty if they do not lie there.
pub fn show<'a>(part: Part, store: &'a [u8], frame: &'a [u8]) -> &'a [u8] {
    let octets = match part {
        Part::Frame { start, size } => frame.get(start..).and_then(|rest| rest.get(..size)),
        Part::Store { size } => store.get(..size),
    };
    octets.unwrap_or(&[])
}

/// Enters a frame. Checks: 1, 2, 10, 9, 3, 13, 4, 5, 6, 7.
pub fn enter(
    settings: &Settings,
    record: &mut Record,
    store: &[u8],
    frame: &[u8],
) -> Result<Entered, Refusal> {
    check(settings, record, store)?;
    let (last, held) = match *record {
        Record::Fresh => (None, None),
        Record::OutOfStep { last } => (Some(last), None),
        Record::InStep { last, held } => (Some(last), Some(held)),
        Record::Walking { .. } | Record::Leaving { .. } => return Err(Refusal::Moment),
    };
    let head = frame::read(settings, frame)?;
    let (entered, walk) = begin(settings, last, held, store, head, settings.zone_of(frame));
    *record = match walk {
        Some(Walk { held, at }) => Record::Walking { last: head.count, held, at },
        None => Record::Leaving { last: head.count },
    };
    Ok(entered)
}

/// Takes the next thing out of the entered frame. Checks: 1, 2, 10, 9, 3.
pub fn step(
    settings: &Settings,
    record: &mut Record,
    store: &mut [u8],
    frame: &[u8],
) -> Result<Step, Refusal> {
    check(settings, record, store)?;
    let (last, walk) = match *record {
        Record::Walking { last, held, at } => (last, Some(Walk { held, at })),
        Record::Leaving { last } => (last, None),
        Record::Fresh | Record::OutOfStep { .. } | Record::InStep { .. } => {
            return Err(Refusal::Moment);
        }
    };
    require(frame.len() == settings.frame_length(), Refusal::Length)?;
    let walked = walk.map(|walk| walk_on(settings, walk, store, settings.zone_of(frame)));
    let (said, next) = match walked {
        None => (Step::Spent, Record::OutOfStep { last }),
        Some(Walked::Packet { kind, part, at }) => {
            (Step::Packet { kind, part }, Record::Walking { last, held: 0, at })
        }
        Some(Walked::Damaged(damage)) => (Step::Damaged(damage), Record::Leaving { last }),
        Some(Walked::End { held }) => (Step::Spent, Record::InStep { last, held }),
    };
    *record = next;
    Ok(said)
}

fn check(settings: &Settings, record: &Record, store: &[u8]) -> Result<(), Refusal> {
    settings.check()?;
    require(store.len() >= settings.limit, Refusal::Room)?;
    require(record.is_reachable(settings, store), Refusal::Record)
}

/// A place in an entered zone: `held` octets in the store that the zone goes on
/// from, or else none and the place of the next packet start.
#[derive(Clone, Copy, Debug)]
pub(crate) struct Walk {
    held: usize,
    at: usize,
}

impl Walk {
    /// The walk with nothing held, from this place on.
    pub(crate) fn from(at: usize) -> Walk {
        Walk { held: 0, at }
    }
}

/// Compares a frame with what came before it, and says where its walk starts, if
/// anywhere. `held` is none when out of step.
pub(crate) fn begin(
    settings: &Settings,
    last: Option<u32>,
    held: Option<usize>,
    store: &[u8],
    head: Head,
    zone: &[u8],
) -> (Entered, Option<Walk>) {
    let lost = last.map_or(0, |last| settings.edition.missing(last, head.count));
    let reason = match held {
        _ if lost != 0 => Reason::Gap,
        Some(held) => disagreement(settings, &store[..held], head.pointer, zone),
        None => Reason::None,
    };
    let goes_on = held.filter(|_| reason == Reason::None);
    let walk = match (goes_on, head.pointer) {
        (_, IDLE_ZONE) => Some(Walk::from(zone.len())),
        (Some(held), _) => Some(Walk { held, at: 0 }),
        (None, NO_START) => None,
        (None, pointer) => Some(Walk::from(usize::from(pointer))),
    };
    let dropped = if reason == Reason::None { 0 } else { held.unwrap_or(0) };
    (Entered { count: head.count, replay: head.replay, lost, dropped, reason }, walk)
}

/// What is wrong with a pointer that follows these held octets without a gap.
fn disagreement(settings: &Settings, held: &[u8], pointer: u16, zone: &[u8]) -> Reason {
    let agrees = if held.is_empty() {
        pointer == 0 || pointer == IDLE_ZONE
    } else {
        match look_across(settings.limit, held, zone) {
            Look::Damaged(damage) => return Reason::Damage(damage),
            Look::Whole(header) if header.total - held.len() < zone.len() => {
                usize::from(pointer) == header.total - held.len()
            }
            Look::Cut | Look::Whole(_) => pointer == NO_START,
        }
    };
    if agrees {
        Reason::None
    } else {
        Reason::Pointer
    }
}

/// Reads a header that begins in the held octets and may go on in the zone.
fn look_across(limit: usize, held: &[u8], zone: &[u8]) -> Look {
    if held.len() >= LONGEST_HEADER {
        return look(limit, held);
    }
    let mut front = [0; LONGEST_HEADER];
    let size = LONGEST_HEADER.min(held.len() + zone.len());
    front[..held.len()].copy_from_slice(held);
    front[held.len()..size].copy_from_slice(&zone[..size - held.len()]);
    look(limit, &front[..size])
}

/// What a walk comes upon next.
pub(crate) enum Walked {
    /// A packet; the walk goes on behind it.
    Packet {
        kind: Kind,
        part: Part,
        at: usize,
    },
    Damaged(Damage),
    /// The zone's end, with so many octets held now.
    End {
        held: usize,
    },
}

/// Walks one packet on. Only the octets of a held packet are written to the store.
pub(crate) fn walk_on(settings: &Settings, walk: Walk, store: &mut [u8], zone: &[u8]) -> Walked {
    let Walk { held, at } = walk;
    let rest = &zone[at..];
    let seen = if held == 0 {
        look(settings.limit, rest)
    } else {
        look_across(settings.limit, &store[..held], rest)
    };
    match seen {
        Look::Damaged(damage) => Walked::Damaged(damage),
        Look::Whole(header) if header.total - held <= rest.len() => {
            let needed = header.total - held;
            let part = if held == 0 {
                Part::Frame { start: HEAD + at, size: header.total }
            } else {
                store[held..header.total].copy_from_slice(&rest[..needed]);
                Part::Store { size: header.total }
            };
            Walked::Packet { kind: header.kind, part, at: at + needed }
        }
        Look::Cut | Look::Whole(_) => {
            let held_now = held + rest.len();
            store[held..held_now].copy_from_slice(rest);
            Walked::End { held: held_now }
        }
    }
}
