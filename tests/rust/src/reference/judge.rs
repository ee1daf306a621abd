//! The judge of a recorded run.

use super::extractor::{begin, holds_well, walk_on, Reason, Walk, Walked};
use super::frame::{self, Settings};
use super::{require, Refusal};

/// A judged run has at most this many frames, however wide its counts are.
pub const MOST_FRAMES: u32 = 1 << 24;

/// Where the judge stands.
#[derive(Clone, Copy, Debug, PartialEq, Eq)]
pub enum Record {
    /// No frame has come yet.
    Open,
    /// No fault so far.
    Sound { tally: u32, last: u32, held: usize },
    /// The first fault was in the frame of index `at`.
    Faulty { tally: u32, at: u32 },
}

impl Record {
    /// The frames taken.
    pub fn tally(&self) -> u32 {
        match *self {
            Record::Open => 0,
            Record::Sound { tally, .. } | Record::Faulty { tally, .. } => tally,
        }
    }

    /// Each frame adds at most a zone to what is held.
    fn is_reachable(&self, settings: &Settings, store: &[u8]) -> bool {
        match *self {
            Record::Open => true,
            Record::Sound { tally, last, held } => {
                (1..=MOST_FRAMES).contains(&tally)
                    && last < settings.edition.wheel()
                    && held <= tally as usize * settings.zone
                    && holds_well(settings.limit, held, store)
            }
            Record::Faulty { tally, at } => at < tally && tally <= MOST_FRAMES,
        }
    }
}

/// What the judge says of a run.
#[derive(Clone, Copy, Debug, PartialEq, Eq)]
pub enum Verdict {
    Pass,
    Fault(u32),
}

/// Takes the next frame of the run. Checks: 1, 2, 10, 11.
pub fn frame(
    settings: &Settings,
    record: &mut Record,
    store: &mut [u8],
    frame: &[u8],
) -> Result<(), Refusal> {
    check(settings, record, store)?;
    let index = record.tally();
    require(index < MOST_FRAMES, Refusal::Beyond)?;
    let tally = index + 1;
    let sound = match *record {
        Record::Open => follow(settings, None, 0, store, frame),
        Record::Sound { last, held, .. } => follow(settings, Some(last), held, store, frame),
        Record::Faulty { .. } => None,
    };
    *record = match (*record, sound) {
        (Record::Faulty { at, .. }, _) => Record::Faulty { tally, at },
        (_, Some((last, held))) => Record::Sound { tally, last, held },
        (_, None) => Record::Faulty { tally, at: index },
    };
    Ok(())
}

/// Takes the next frames of the run, any number of them, which lie end to end on a tape. Checks: 1,
/// 2, 10, 11, 3.
pub fn tape(
    settings: &Settings,
    record: &mut Record,
    store: &mut [u8],
    tape: &[u8],
) -> Result<(), Refusal> {
    check(settings, record, store)?;
    let length = settings.frame_length();
    let left = MOST_FRAMES - record.tally();
    require(tape.len() / length <= left as usize, Refusal::Beyond)?;
    require(tape.len() % length == 0, Refusal::Length)?;
    // None of them is refused any more.
    tape.chunks_exact(length).try_for_each(|one| frame(settings, record, store, one))
}

/// Says how the run stands if it ends here. Checks: 1, 2, 10.
pub fn close(settings: &Settings, record: &Record, store: &[u8]) -> Result<Verdict, Refusal> {
    check(settings, record, store)?;
    Ok(match *record {
        Record::Open | Record::Sound { held: 0, .. } => Verdict::Pass,
        Record::Sound { tally, .. } => Verdict::Fault(tally),
        Record::Faulty { at, .. } => Verdict::Fault(at),
    })
}

fn check(settings: &Settings, record: &Record, store: &[u8]) -> Result<(), Refusal> {
    settings.check()?;
    require(store.len() >= settings.limit, Refusal::Room)?;
    require(record.is_reachable(settings, store), Refusal::Record)
}

/// Follows a run in step through one more frame; answers that frame's count and
/// what is held behind it, or nothing at a fault.
fn follow(
    settings: &Settings,
    last: Option<u32>,
    held: usize,
    store: &mut [u8],
    frame: &[u8],
) -> Option<(u32, usize)> {
    let head = frame::read(settings, frame).ok()?;
    let zone = settings.zone_of(frame);
    let (entered, walk) = begin(settings, last, Some(held), store, head, zone);
    if entered.reason != Reason::None {
        return None;
    }
    let mut walk = walk?;
    loop {
        match walk_on(settings, walk, store, zone) {
            Walked::Packet { at, .. } => walk = Walk::from(at),
            Walked::Damaged(_) => return None,
            Walked::End { held } => return Some((head.count, held)),
        }
    }
}
