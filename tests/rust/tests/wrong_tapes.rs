//! Impostors that take tapes wrongly in one way. The sessions see through each of them: beside the
//! reference, and nearly all by themselves too, as a tape is not what its frames are.

mod impostor;

use impostor::{by_reference, first_difference, first_seen, Impostor, Way};
use itzahuemo_reference::calls::{Reference, JUDGE, SETTINGS};
use itzahuemo_reference::generate::seal;
use itzahuemo_reference::orders::Arguments;
use itzahuemo_reference::reference::frame::HEAD;
use itzahuemo_reference::reference::trailer::TRAILER;
use itzahuemo_reference::sessions::session;

const TAPE: &str = "judge_tape";

/// A judged run has at most so many frames.
const MOST: usize = 1 << 24;

/// The kinds of records that have a tally.
const SOUND: u64 = 1;
const FAULTY: u64 = 2;

/// Makes the call in this way on channels with this setting of trailers alone.
fn only_with(trailer: u64, way: Way, call: &str, all: &mut Arguments) -> u64 {
    if all.numbers.get(5) == Some(&trailer) {
        way(call, all)
    } else {
        by_reference(call, all)
    }
}

/// A tape taken so is seen to be wrong beside the reference, on channels with this setting of
/// trailers.
fn seen_beside(what: &str, trailer: u64, way: Way) {
    let way: Way = &|call, all| only_with(trailer, way, call, all);
    assert_eq!(first_seen(TAPE, way), TAPE, "{what}, trailers {trailer}");
}

/// The same where nothing is beside the impostor but itself.
fn seen_alone(what: &str, trailer: u64, way: Way) {
    let way: Way = &|call, all| only_with(trailer, way, call, all);
    let impostor = Impostor { call: TAPE, way };
    let found = first_difference(&impostor, &impostor);
    assert_eq!(found, TAPE, "{what}, trailers {trailer}, alone");
}

/// A tape taken so is seen to be wrong in either manner, on channels with trailers and without.
fn seen(what: &str, way: Way) {
    for trailer in [0, 1] {
        seen_beside(what, trailer, way);
        seen_alone(what, trailer, way);
    }
}

/// Makes the call. If it gives this refusal, 0 being none, it is answered in the other way, from what
/// was lent.
fn instead_of(refused: u64, all: &mut Arguments, other: impl Fn(&mut Arguments) -> u64) -> u64 {
    let lent = all.clone();
    match by_reference(TAPE, all) {
        refusal if refusal == refused => {
            *all = lent;
            other(all)
        }
        refusal => refusal,
    }
}

fn seen_instead_of(refused: u64, what: &str, other: impl Fn(&mut Arguments) -> u64) {
    seen(what, &|_, all| instead_of(refused, all, &other));
}

/// Takes a tape, and changes what is left then, given what was lent.
fn seen_leaving(what: &str, change: impl Fn(&Arguments, &mut Arguments)) {
    seen(what, &|call, all| {
        let lent = all.clone();
        let refusal = by_reference(call, all);
        if refusal == 0 {
            change(&lent, all);
        }
        refusal
    });
}

/// The length of a frame under settings in range.
fn frame_length(all: &Arguments) -> usize {
    HEAD + all.numbers[2] as usize + TRAILER * all.numbers[5] as usize
}

/// The whole frames of a tape.
fn frames(all: &Arguments) -> Vec<Vec<u8>> {
    all.octets.chunks_exact(frame_length(all)).map(<[u8]>::to_vec).collect()
}

/// The rest of a frame behind them.
fn rest(all: &Arguments) -> Vec<u8> {
    all.octets.chunks_exact(frame_length(all)).remainder().to_vec()
}

/// The frames taken so far.
fn tally(all: &Arguments) -> usize {
    all.record[1] as usize
}

/// Takes these frames singly, as far as they are not refused.
fn take(all: &mut Arguments, frames: &[Vec<u8>]) -> u64 {
    let take_one = |frame: &Vec<u8>| {
        all.octets.clone_from(frame);
        by_reference("judge_frame", all)
    };
    frames.iter().map(take_one).find(|&refusal| refusal != 0).unwrap_or(0)
}

/// Takes the whole frames of a tape singly.
fn take_frames(all: &mut Arguments) -> u64 {
    let frames = frames(all);
    take(all, &frames)
}

/// Nor is one that takes the frames of a tape singly.
#[test]
fn an_impostor_that_changes_nothing_is_not_seen() {
    impostor::never_seen(TAPE);
    let impostor = Impostor { call: TAPE, way: &|_, all| instead_of(0, all, take_frames) };
    for seed in 0..1_000 {
        assert!(session(&Reference, &impostor, seed).is_ok());
        assert!(session(&impostor, &impostor, seed).is_ok());
    }
}

// ---- What is taken

/// What is made of the frames of a tape.
type Made = fn(Vec<Vec<u8>>) -> Vec<Vec<u8>>;

#[test]
fn other_frames() {
    let made: [(&str, Made); 9] = [
        ("none", |_| vec![]),
        ("all but the last", |frames| frames.split_last().map_or(vec![], |(_, all)| all.to_vec())),
        ("all but the first", |frames| frames.into_iter().skip(1).collect()),
        ("the first alone", |frames| frames.into_iter().take(1).collect()),
        ("the last alone", |frames| frames.last().cloned().into_iter().collect()),
        ("the last twice", |frames| frames.iter().chain(frames.last()).cloned().collect()),
        ("every second", |frames| frames.into_iter().step_by(2).collect()),
        ("the last first", |frames| frames.into_iter().rev().collect()),
        ("at most four", |frames| frames.into_iter().take(4).collect()),
    ];
    for (what, other) in made {
        seen_instead_of(0, what, |all| {
            let frames = other(frames(all));
            take(all, &frames);
            0
        });
    }
}

/// Forgets the octets that are held.
fn forget(all: &mut Arguments) {
    if all.record[0] == SOUND {
        all.record[3] = 0;
    }
}

#[test]
fn held_octets_that_are_forgotten() {
    seen_instead_of(0, "between frames", |all| {
        for (place, frame) in frames(all).into_iter().enumerate() {
            if place > 0 {
                forget(all);
            }
            take(all, &[frame]);
        }
        0
    });
    seen_instead_of(0, "before a tape", |all| {
        forget(all);
        by_reference(TAPE, all)
    });
    seen_leaving("behind a tape", |_, all| forget(all));
}

/// The count of the first frame of a tape.
fn first_count(all: &Arguments) -> Option<u64> {
    let octets = all.octets.get(2..6)?;
    let cycle = if all.numbers[6] == 2 { octets[3] & 0x0F } else { 0 };
    Some(u32::from_be_bytes([cycle, octets[0], octets[1], octets[2]]).into())
}

#[test]
fn counts_from_tape_to_tape() {
    seen_instead_of(0, "a first count that need not follow", |all| {
        if let (SOUND, Some(count)) = (all.record[0], first_count(all)) {
            let wheel = if all.numbers[6] == 2 { 1 << 28 } else { 1 << 24 };
            all.record[2] = count.wrapping_sub(1) % wheel;
        }
        by_reference(TAPE, all)
    });
    seen_leaving("the first count is the last", |lent, all| {
        if let (SOUND, Some(count)) = (all.record[0], first_count(lent)) {
            all.record[2] = count;
        }
    });
    seen_leaving("the last count of the tape before", |lent, all| {
        if lent.record[0] == SOUND && all.record[0] == SOUND {
            all.record[2] = lent.record[2];
        }
    });
}

/// Whether the trailer at this place of so many is looked at.
type Looked = fn(usize, usize) -> bool;

/// Has the trailers of the other frames right.
#[test]
fn trailers_that_are_not_looked_at() {
    let looked: [(&str, Looked); 3] = [
        ("none", |_, _| false),
        ("the first alone", |place, _| place == 0),
        ("the last alone", |place, number| place + 1 == number),
    ];
    for (what, is_looked_at) in looked {
        let way: Way = &|_, all| {
            instead_of(0, all, |all| {
                let mut frames = frames(all);
                let number = frames.len();
                for (place, frame) in frames.iter_mut().enumerate() {
                    if !is_looked_at(place, number) {
                        seal(frame);
                    }
                }
                take(all, &frames)
            })
        };
        seen_beside(what, 1, way);
        seen_alone(what, 1, way);
    }
}

// ---- What is left

/// Whether the first fault of the run is on this tape.
fn has_first_fault(lent: &Arguments, all: &Arguments) -> bool {
    lent.record[0] != FAULTY && all.record[0] == FAULTY
}

/// Whether there are frames on this tape, and a fault before it.
fn is_behind_a_fault(lent: &Arguments) -> bool {
    lent.record[0] == FAULTY && !lent.octets.is_empty()
}

#[test]
fn another_tally() {
    seen_leaving("one for a whole tape", |lent, all| {
        if !lent.octets.is_empty() {
            all.record[1] = lent.record[1] + 1;
        }
    });
    seen_leaving("one for no frame", |lent, all| {
        if lent.octets.is_empty() {
            all.record[1] += 1;
        }
    });
    seen_leaving("as before", |lent, all| all.record[1] = lent.record[1]);
    seen_leaving("of this tape alone", |lent, all| all.record[1] -= lent.record[1]);
    seen_leaving("up to the fault", |lent, all| {
        if has_first_fault(lent, all) {
            all.record[1] = all.record[2] + 1;
        }
    });
    seen_leaving("up to the fault, without it", |lent, all| {
        if has_first_fault(lent, all) {
            all.record[1] = all.record[2];
        }
    });
    seen_leaving("as before, behind a fault", |lent, all| {
        if is_behind_a_fault(lent) {
            all.record[1] = lent.record[1];
        }
    });
}

/// The index of a fault: from the one that is right, and the tallies before the tape and behind it.
type Index = fn(u64, u64, u64) -> u64;

#[test]
fn another_index_of_the_fault() {
    let indices: [(&str, Index); 4] = [
        ("from the start of the tape", |index, before, _| index - before),
        ("the first frame of the tape", |_, before, _| before),
        ("the last frame of the tape", |_, _, behind| behind - 1),
        ("counted from 1", |index, _, _| index + 1),
    ];
    for (what, other) in indices {
        seen_leaving(what, |lent, all| {
            if has_first_fault(lent, all) {
                all.record[2] = other(all.record[2], lent.record[1], all.record[1]);
            }
        });
    }
    seen_leaving("a later fault", |lent, all| {
        if is_behind_a_fault(lent) {
            all.record[2] = lent.record[1];
        }
    });
}

#[test]
fn another_store() {
    seen_leaving("as before", |lent, all| all.buffer.clone_from(&lent.buffer));
    seen_leaving("as before, with a fault", |lent, all| {
        if has_first_fault(lent, all) {
            all.buffer.clone_from(&lent.buffer);
        }
    });
    seen_leaving("written behind a fault", |lent, all| {
        if is_behind_a_fault(lent) {
            all.buffer[0] = !lent.buffer[0];
        }
    });
    seen_leaving("emptied at a fault", |lent, all| {
        if has_first_fault(lent, all) {
            all.buffer.fill(0);
        }
    });
}

/// Refuses a tape for a fault on it.
#[test]
fn a_fault_that_is_a_refusal() {
    for number in [3, 4, 8, 11] {
        seen(&format!("refused by {number}"), &|call, all| {
            let lent = all.clone();
            match by_reference(call, all) {
                0 if has_first_fault(&lent, all) => {
                    *all = lent;
                    number
                }
                refusal => refusal,
            }
        });
    }
}

// ---- A rest of a frame

#[test]
fn a_rest_that_is_taken() {
    seen_instead_of(3, "as a frame", |all| {
        let all_of_it = [frames(all), vec![rest(all)]].concat();
        take(all, &all_of_it);
        0
    });
    seen_instead_of(3, "as nothing", take_frames);
    seen_instead_of(3, "as nothing, alone", |all| if frames(all).is_empty() { 0 } else { 3 });
    seen_instead_of(3, "as nothing, behind frames", |all| {
        if frames(all).is_empty() {
            3
        } else {
            take_frames(all)
        }
    });
}

#[test]
fn frames_before_a_rest() {
    seen_instead_of(3, "taken", |all| {
        take_frames(all);
        3
    });
    seen_instead_of(3, "in the store alone", |all| {
        let record = all.record.clone();
        take_frames(all);
        all.record = record;
        3
    });
    seen_instead_of(3, "in the tally alone", |all| {
        let number = frames(all).len() as u64;
        if all.record[0] != 0 {
            all.record[1] += number;
        }
        3
    });
    seen_instead_of(3, "refused, and a fault", |all| {
        let index = all.record[1];
        if all.record[0] != FAULTY {
            all.record[..JUDGE].copy_from_slice(&[FAULTY, index + 1, index, 0]);
        }
        3
    });
}

// ---- The judge's last frame

/// Takes the whole frames of a tape, though they are too many.
fn take_too_many(all: &mut Arguments) -> u64 {
    let frames = frames(all);
    let number = frames.len() as u64;
    if all.record[0] == FAULTY {
        all.record[1] += number;
        return 0;
    }
    // Nothing but the tally, and the index of a fault, tells how many were before.
    all.record[1] -= number;
    take(all, &frames);
    all.record[1] += number;
    if all.record[0] == FAULTY {
        all.record[2] += number;
    }
    0
}

/// Whether a tape of so many frames behind so many is taken, though they are too many.
type Taken = fn(usize, usize) -> bool;

#[test]
fn frames_past_the_last() {
    let taken: [(&str, Taken); 4] = [
        ("unless it alone has too many", |_, number| number <= MOST),
        ("unless the tally is full", |before, _| before < MOST),
        ("one", |before, number| before + number == MOST + 1),
        ("one, when the tally is full", |before, number| before == MOST && number == 1),
    ];
    for (what, is_taken) in taken {
        seen_instead_of(11, what, |all| {
            if is_taken(tally(all), frames(all).len()) {
                take_too_many(all)
            } else {
                11
            }
        });
    }
    seen_instead_of(11, "behind a fault", |all| {
        if all.record[0] == FAULTY {
            take_too_many(all)
        } else {
            11
        }
    });
}

#[test]
fn frames_that_are_not_past_the_last() {
    let too_many_where = |what: &str, answer: u64, holds: fn(usize, usize) -> bool| {
        seen_instead_of(answer, what, |all| {
            if holds(tally(all), frames(all).len()) {
                11
            } else {
                by_reference(TAPE, all)
            }
        });
    };
    too_many_where("the last", 0, |before, number| number > 0 && before + number == MOST);
    too_many_where("none, with the tally full", 0, |before, _| before == MOST);
    too_many_where("a rest, with the tally full", 3, |before, _| before == MOST);
    too_many_where("a rest for a frame", 3, |before, number| before + number + 1 > MOST);
}

/// Takes frames of a tape up to the last there may be.
#[test]
fn frames_up_to_the_last() {
    let fitting = |all: &Arguments| -> Vec<Vec<u8>> {
        frames(all).into_iter().take(MOST - tally(all)).collect()
    };
    for (what, number) in [("and refuses the tape", 11), ("and not the others", 0)] {
        seen_instead_of(11, what, |all| {
            let frames = fitting(all);
            take(all, &frames);
            number
        });
    }
    seen_instead_of(11, "in the store alone", |all| {
        let (frames, record) = (fitting(all), all.record.clone());
        take(all, &frames);
        all.record = record;
        11
    });
    seen_instead_of(11, "in the tally alone", |all| {
        all.record[1] = MOST as u64;
        11
    });
}

// ---- The refusals' order and numbers

/// Asks for the rest of a frame first, or for the number of frames only where there is none.
#[test]
fn a_rest_before_too_many_frames() {
    seen_instead_of(11, "3 before 11", |all| if rest(all).is_empty() { 11 } else { 3 });
}

#[test]
fn tapes_of_no_frame_that_are_refused() {
    for number in [1, 2, 3, 9, 10] {
        seen_instead_of(0, &format!("by {number}"), |all| {
            if all.octets.is_empty() {
                number
            } else {
                by_reference(TAPE, all)
            }
        });
    }
}

#[test]
fn other_numbers() {
    for (right, wrong) in [(3, 0), (3, 1), (3, 2), (3, 11), (11, 0), (11, 1), (11, 3), (11, 10)] {
        seen_instead_of(right, &format!("{wrong} for {right}"), |_| wrong);
    }
}

/// Whether a call refused by 2 or 10 is lent all its numbers, so that the settings are in range.
fn has_numbers(all: &Arguments) -> bool {
    all.numbers.len() >= SETTINGS && all.record.len() >= JUDGE
}

/// Gives another answer than this refusal, which comes first, where this holds of what is lent.
fn seen_too_early(first: u64, answer: u64, holds: impl Fn(&Arguments) -> bool) {
    for trailer in [0, 1] {
        seen_beside(&format!("{answer} before {first}"), trailer, &|_, all| {
            instead_of(
                first,
                all,
                |all| {
                    if has_numbers(all) && holds(all) {
                        answer
                    } else {
                        first
                    }
                },
            )
        });
    }
}

/// Looks at the tape before the store and the record.
#[test]
fn tapes_that_are_looked_at_too_early() {
    for first in [2, 10] {
        seen_too_early(first, 3, |all| !rest(all).is_empty());
        seen_too_early(first, 11, |all| tally(all).saturating_add(frames(all).len()) > MOST);
    }
    for first in [1, 2, 10] {
        seen_too_early(first, 0, |all| all.octets.is_empty());
    }
}

/// Does without the last number of the record.
#[test]
fn records_without_the_last_number() {
    for trailer in [0, 1] {
        seen_beside("a shorter record", trailer, &|call, all| {
            let size = all.record.len();
            if size == JUDGE - 1 {
                all.record.push(0);
            }
            let refusal = by_reference(call, all);
            all.record.truncate(size);
            refusal
        });
    }
}
