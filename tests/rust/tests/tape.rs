//! Tapes of frames: request L7 of document 02, worked out by hand, and tapes beside single frames.

use std::collections::BTreeSet;
use std::slice::from_ref;

use itzahuemo_reference::calls::{Calls, Reference, JUDGE};
use itzahuemo_reference::generate::{self, seal};
use itzahuemo_reference::random::Random;
use itzahuemo_reference::reference::edition::Edition;
use itzahuemo_reference::reference::frame::Settings;
use itzahuemo_reference::reference::judge::{self, Record, Verdict};
use itzahuemo_reference::reference::Refusal;

/// A judged run has at most so many frames.
const MOST: u32 = 16_777_216;

/// The channel of document 01's sample run.
const CHANNEL: Settings = Settings {
    spacecraft: 66,
    channel: 3,
    zone: 10,
    limit: 1_024,
    fill: 0x55,
    trailer: false,
    edition: Edition::Former,
};

/// The frames of the sample run, and two with idle zones behind them.
const RUN: [[u8; 18]; 4] = [
    [
        0x50, 0x83, 0x00, 0x00, 0x00, 0x00, 0x00, 0x00, 0x00, 0x05, 0xC0, 0x00, 0x00, 0x01, 0xAA,
        0xBB, 0xE9, 0x05,
    ],
    [
        0x50, 0x83, 0x00, 0x00, 0x01, 0x00, 0x00, 0x03, 0x11, 0x22, 0x33, 0xE1, 0x07, 0x55, 0x55,
        0x55, 0x55, 0x55,
    ],
    [
        0x50, 0x83, 0x00, 0x00, 0x02, 0x00, 0x07, 0xFE, 0x55, 0x55, 0x55, 0x55, 0x55, 0x55, 0x55,
        0x55, 0x55, 0x55,
    ],
    [
        0x50, 0x83, 0x00, 0x00, 0x03, 0x00, 0x07, 0xFE, 0x55, 0x55, 0x55, 0x55, 0x55, 0x55, 0x55,
        0x55, 0x55, 0x55,
    ],
];

/// The channel in every edition, with trailers and without.
fn channels() -> Vec<Settings> {
    let channel = |trailer, edition| Settings { trailer, edition, ..CHANNEL };
    let both = |edition| [channel(false, edition), channel(true, edition)];
    Edition::ALL.into_iter().flat_map(both).collect()
}

/// These frames end to end as they are on such a channel, where there is a cycle with cycle 0.
fn tape_on(settings: &Settings, frames: &[[u8; 18]]) -> Vec<u8> {
    let as_there = |frame: &[u8; 18]| {
        let mut frame = frame.to_vec();
        frame[5] |= if settings.edition == Edition::CycleUsed { 0x40 } else { 0x00 };
        if settings.trailer {
            frame.extend([0x00, 0x00]);
            seal(&mut frame);
        }
        frame
    };
    frames.iter().flat_map(as_there).collect()
}

/// A store as it is lent.
fn store() -> Vec<u8> {
    vec![0x77; 1_024]
}

/// What is said of a tape, and the record and the store behind it.
type Taped = (Result<(), Refusal>, Record, Vec<u8>);

fn taped(settings: &Settings, record: Record, store: &[u8], tape: &[u8]) -> Taped {
    let (mut record, mut store) = (record, store.to_vec());
    let said = judge::tape(settings, &mut record, &mut store, tape);
    (said, record, store)
}

/// The same of these frames, singly.
fn singly(settings: &Settings, record: Record, store: &[u8], frames: &[Vec<u8>]) -> Taped {
    let (mut record, mut store) = (record, store.to_vec());
    let mut take = |frame: &Vec<u8>| judge::frame(settings, &mut record, &mut store, frame);
    let said = frames.iter().try_for_each(&mut take);
    (said, record, store)
}

/// Sample pass 1 as a tape of two frames. The packet that goes on in the second is put together at
/// the front of the store.
#[test]
fn the_sample_run() {
    for settings in channels() {
        let tape = tape_on(&settings, &RUN[..2]);
        let (said, record, after) = taped(&settings, Record::Open, &store(), &tape);
        assert_eq!((said, record), (Ok(()), Record::Sound { tally: 2, last: 1, held: 0 }));
        assert_eq!(after[..5], [0xE9, 0x05, 0x11, 0x22, 0x33]);
        assert_eq!(after[5..], store()[5..]);
        assert_eq!(judge::close(&settings, &record, &after), Ok(Verdict::Pass));
    }
    let with_trailers = Settings { trailer: true, ..CHANNEL };
    let tape = tape_on(&with_trailers, &RUN[..2]);
    assert_eq!(tape.len(), 40);
    assert_eq!((&tape[18..20], &tape[38..]), (&[0x2D, 0x75][..], &[0x43, 0x63][..]));
}

/// Its first frame alone leaves two octets held, and no more may come.
#[test]
fn the_first_frame_of_the_sample_run() {
    let (said, record, after) = taped(&CHANNEL, Record::Open, &store(), &RUN[0]);
    assert_eq!((said, record), (Ok(()), Record::Sound { tally: 1, last: 0, held: 2 }));
    assert_eq!(after[..3], [0xE9, 0x05, 0x77]);
    assert_eq!(judge::close(&CHANNEL, &record, &after), Ok(Verdict::Fault(1)));
}

#[test]
fn a_tape_of_no_frames() {
    let mut held = store();
    held[..2].copy_from_slice(&[0xE9, 0x05]);
    for (record, verdict) in [
        (Record::Open, Verdict::Pass),
        (Record::Sound { tally: 1, last: 0, held: 2 }, Verdict::Fault(1)),
        (Record::Sound { tally: 2, last: 1, held: 0 }, Verdict::Pass),
        (Record::Sound { tally: MOST, last: 1, held: 0 }, Verdict::Pass),
        (Record::Faulty { tally: 7, at: 3 }, Verdict::Fault(3)),
        (Record::Faulty { tally: MOST, at: MOST - 1 }, Verdict::Fault(MOST - 1)),
    ] {
        assert_eq!(taped(&CHANNEL, record, &held, &[]), (Ok(()), record, held.clone()));
        assert_eq!(judge::close(&CHANNEL, &record, &held), Ok(verdict));
    }
}

/// Each refusal with all that come after it called for too.
#[test]
fn the_order_of_the_checks() {
    let wrong = Settings { channel: 63, ..CHANNEL };
    let full = Record::Sound { tally: MOST, last: 1, held: 0 };
    let beyond = Record::Sound { tally: MOST + 1, last: 1, held: 0 };
    for (settings, room, record, size, refusal) in [
        (wrong, 1_023, beyond, 19, Refusal::Range),
        (CHANNEL, 1_023, beyond, 19, Refusal::Room),
        (CHANNEL, 1_024, beyond, 19, Refusal::Record),
        (CHANNEL, 1_024, full, 19, Refusal::Beyond),
        (CHANNEL, 1_024, full, 17, Refusal::Length),
    ] {
        let (store, tape) = (vec![0x77; room], &RUN.concat()[..size]);
        assert_eq!(taped(&settings, record, &store, tape), (Err(refusal), record, store));
    }
    // An empty tape is refused by the first three alone.
    for (settings, room, record, said) in [
        (wrong, 1_023, beyond, Err(Refusal::Range)),
        (CHANNEL, 1_023, beyond, Err(Refusal::Room)),
        (CHANNEL, 1_024, beyond, Err(Refusal::Record)),
        (CHANNEL, 1_024, full, Ok(())),
    ] {
        let store = vec![0x77; room];
        assert_eq!(taped(&settings, record, &store, &[]), (said, record, store));
    }
}

/// So many frames before the last, a tape of so many frames and of so many octets more.
const AT_THE_LAST: [(u32, u32, usize, Result<(), Refusal>); 22] = [
    (2, 0, 0, Ok(())),
    (2, 0, 17, Err(Refusal::Length)),
    (2, 1, 0, Ok(())),
    (2, 1, 17, Err(Refusal::Length)),
    (2, 2, 0, Ok(())),
    (2, 2, 1, Err(Refusal::Length)),
    (2, 2, 2, Err(Refusal::Length)),
    (2, 2, 17, Err(Refusal::Length)),
    (2, 3, 0, Err(Refusal::Beyond)),
    (2, 3, 1, Err(Refusal::Beyond)),
    (2, 3, 17, Err(Refusal::Beyond)),
    (2, 4, 0, Err(Refusal::Beyond)),
    (1, 1, 0, Ok(())),
    (1, 1, 17, Err(Refusal::Length)),
    (1, 2, 0, Err(Refusal::Beyond)),
    (1, 2, 1, Err(Refusal::Beyond)),
    (0, 0, 0, Ok(())),
    (0, 0, 1, Err(Refusal::Length)),
    (0, 0, 17, Err(Refusal::Length)),
    (0, 1, 0, Err(Refusal::Beyond)),
    (0, 1, 1, Err(Refusal::Beyond)),
    (0, 4, 0, Err(Refusal::Beyond)),
];

/// Tapes to the judge's last frame and past it, without a fault before them and with one.
#[test]
fn at_the_last_frame() {
    for (settings, (left, whole, rest, said)) in
        channels().iter().flat_map(|settings| AT_THE_LAST.map(|case| (settings, case)))
    {
        let tape = tape_on(settings, &RUN);
        let tape = &tape[..whole as usize * settings.frame_length() + rest];
        // The run goes on with count 0.
        let last = settings.edition.wheel() - 1;
        let sound = Record::Sound { tally: MOST - left, last, held: 0 };
        let faulty = Record::Faulty { tally: MOST - left, at: 3 };
        for record in [sound, faulty] {
            let with = format!("{settings:?} {record:?} {whole} {rest}");
            let (answer, after, after_store) = taped(settings, record, &store(), tape);
            assert_eq!(answer, said, "{with}");
            if said.is_err() {
                assert_eq!((after, after_store), (record, store()), "{with}");
            } else {
                assert_eq!(after.tally(), MOST - left + whole, "{with}");
            }
        }
    }
}

/// The records of two frames that fill the tally.
#[test]
fn the_last_two_frames() {
    let sound = Record::Sound { tally: 16_777_214, last: 16_777_215, held: 0 };
    let (said, record, after) = taped(&CHANNEL, sound, &store(), &RUN[..2].concat());
    assert_eq!((said, record), (Ok(()), Record::Sound { tally: MOST, last: 1, held: 0 }));
    assert_eq!(after[..6], [0xE9, 0x05, 0x11, 0x22, 0x33, 0x77]);
    // The second does not follow here; its index is the last that a fault can have.
    let frames = [RUN[0], RUN[2]].concat();
    let (said, record, after) = taped(&CHANNEL, sound, &store(), &frames);
    assert_eq!((said, record), (Ok(()), Record::Faulty { tally: MOST, at: 16_777_215 }));
    assert_eq!(after[..3], [0xE9, 0x05, 0x77]);
    let faulty = Record::Faulty { tally: 16_777_214, at: 0 };
    let expected = (Ok(()), Record::Faulty { tally: MOST, at: 0 }, store());
    assert_eq!(taped(&CHANNEL, faulty, &store(), &frames), expected);
}

/// Pointer 2 for 3 in the second of four frames, as in sample pass 4: what was held stays in the
/// store, and of the frames behind it only their number counts.
#[test]
fn a_fault_on_a_tape() {
    let mut frames = RUN;
    frames[1][7] = 0x02;
    let (said, record, after) = taped(&CHANNEL, Record::Open, &store(), &frames.concat());
    assert_eq!((said, record), (Ok(()), Record::Faulty { tally: 4, at: 1 }));
    assert_eq!(after[..3], [0xE9, 0x05, 0x77]);
    assert_eq!(judge::close(&CHANNEL, &record, &after), Ok(Verdict::Fault(1)));

    let more = [RUN.concat(), vec![0xFF; 18]].concat();
    let expected = (Ok(()), Record::Faulty { tally: 9, at: 1 }, after.clone());
    assert_eq!(taped(&CHANNEL, record, &after, &more), expected);
}

/// A damaged packet behind the one that is put together: the store has that one.
#[test]
fn the_store_up_to_the_fault() {
    let mut frames = RUN;
    frames[1][11] = 0x20;
    let (said, record, after) = taped(&CHANNEL, Record::Open, &store(), &frames.concat());
    assert_eq!((said, record), (Ok(()), Record::Faulty { tally: 4, at: 1 }));
    assert_eq!(after[..6], [0xE9, 0x05, 0x11, 0x22, 0x33, 0x77]);
}

/// The index of a fault is one of the run, not of the tape.
#[test]
fn a_fault_on_a_later_tape() {
    let (_, record, between) = taped(&CHANNEL, Record::Open, &store(), &RUN[..2].concat());
    let mut frames = [RUN[2], RUN[3], RUN[3]];
    frames[1][4] = 0x09;
    let (said, record, after) = taped(&CHANNEL, record, &between, &frames.concat());
    assert_eq!((said, record), (Ok(()), Record::Faulty { tally: 5, at: 3 }));
    assert_eq!(after, between);
}

/// Handed over singly such octets are a fault; as a tape they are refused, and nothing is counted.
#[test]
fn another_length_is_no_fault() {
    for size in [1, 8, 17, 19, 35] {
        let octets = RUN.concat()[..size].to_vec();
        let (said, record, _) = singly(&CHANNEL, Record::Open, &store(), from_ref(&octets));
        assert_eq!((said, record), (Ok(()), Record::Faulty { tally: 1, at: 0 }));
        let expected = (Err(Refusal::Length), Record::Open, store());
        assert_eq!(taped(&CHANNEL, Record::Open, &store(), &octets), expected);
    }
    // No octets at all are a frame of another length, and a tape of no frame.
    let (_, record, _) = singly(&CHANNEL, Record::Open, &store(), &[vec![]]);
    assert_eq!(record, Record::Faulty { tally: 1, at: 0 });
    assert_eq!(taped(&CHANNEL, Record::Open, &store(), &[]).1, Record::Open);
}

/// The settings know where a frame ends: ten frames without trailers have the octets of nine with
/// them. What is cut in the wrong places is a fault; it is no refusal.
#[test]
fn frames_of_the_other_length() {
    let with_trailers = Settings { trailer: true, ..CHANNEL };
    let without = RUN.concat().repeat(3)[..180].to_vec();
    let (said, record, after) = taped(&with_trailers, Record::Open, &store(), &without);
    assert_eq!((said, record), (Ok(()), Record::Faulty { tally: 9, at: 0 }));
    assert_eq!(after, store());

    // The second frame would begin with the first trailer, 2D 75, in which the version is 00.
    let with = tape_on(&with_trailers, &RUN).repeat(3)[..180].to_vec();
    let (said, record, after) = taped(&CHANNEL, Record::Open, &store(), &with);
    assert_eq!((said, record), (Ok(()), Record::Faulty { tally: 10, at: 1 }));
    assert_eq!(after[..3], [0xE9, 0x05, 0x77]);
}

/// The shortest frames and the longest: 9, 11, 2,054 and 2,056 octets.
#[test]
fn lengths_of_frames() {
    for (zone, trailer, length) in
        [(1, false, 9), (1, true, 11), (2_046, false, 2_054), (2_046, true, 2_056)]
    {
        let settings = Settings { zone, trailer, limit: 2_046, ..CHANNEL };
        let store = vec![0x77; 2_046];
        for size in [1, length - 1, length + 1, 2 * length - 1, 2 * length + 1] {
            let expected = (Err(Refusal::Length), Record::Open, store.clone());
            assert_eq!(taped(&settings, Record::Open, &store, &vec![0; size]), expected);
        }
        for whole in 1..4 {
            let tape = vec![0; whole as usize * length];
            let expected = (Ok(()), Record::Faulty { tally: whole, at: 0 }, store.clone());
            assert_eq!(taped(&settings, Record::Open, &store, &tape), expected);
        }
    }
}

/// Cut between two frames, both parts are taken and come to what the whole comes to. Cut anywhere
/// else, both are refused.
#[test]
fn a_tape_cut_anywhere() {
    for settings in channels() {
        let tape = tape_on(&settings, &RUN);
        let whole = taped(&settings, Record::Open, &store(), &tape);
        assert_eq!(whole.1, Record::Sound { tally: 4, last: 3, held: 0 });
        for place in 0..=tape.len() {
            let (front, behind) = tape.split_at(place);
            let (said, record, between) = taped(&settings, Record::Open, &store(), front);
            if place % settings.frame_length() == 0 {
                assert_eq!(said, Ok(()));
                assert_eq!(taped(&settings, record, &between, behind), whole);
            } else {
                let refused = (Err(Refusal::Length), Record::Open, store());
                assert_eq!((said, record, between), refused);
                assert_eq!(taped(&settings, Record::Open, &store(), behind), refused);
            }
        }
    }
}

/// Runs as they conform and spoilt, of frames that have their length, each with a record to which
/// they can be added and a store.
fn for_many_runs(mut look: impl FnMut(&mut Random, &Settings, Record, &[u8], &[Vec<u8>])) {
    for seed in 0..2_000 {
        let mut random = Random::new(0x7A9E_0000 + seed);
        let settings = generate::settings(&mut random);
        let mut frames = generate::some_run(&mut random, &settings);
        frames.retain(|frame| frame.len() == settings.frame_length());
        let record = match generate::record_before(&mut random, &settings, &frames) {
            [1, tally, last, _] => {
                Record::Sound { tally: tally as u32, last: last as u32, held: 0 }
            }
            [2, tally, at, _] => Record::Faulty { tally: tally as u32, at: at as u32 },
            _ => Record::Open,
        };
        frames.truncate((MOST - record.tally()) as usize);
        let store = random.octets(settings.limit);
        look(&mut random, &settings, record, &store, &frames);
    }
}

/// A tape is what its frames are singly, wherever the run has stood before.
#[test]
fn a_tape_is_its_frames() {
    let mut verdicts = [0; 2];
    for_many_runs(|_, settings, record, store, frames| {
        let whole = taped(settings, record, store, &frames.concat());
        assert_eq!(whole, singly(settings, record, store, frames), "{settings:?} {frames:x?}");
        assert_eq!(whole.0, Ok(()));
        assert_eq!(whole.1.tally() as usize, record.tally() as usize + frames.len());
        let passes = judge::close(settings, &whole.1, &whole.2) == Ok(Verdict::Pass);
        verdicts[usize::from(passes)] += 1;
    });
    assert!(verdicts.iter().all(|&times| times > 300), "{verdicts:?}");
}

#[test]
fn tape_after_tape_is_the_tape_of_both() {
    for_many_runs(|random, settings, record, store, frames| {
        let whole = taped(settings, record, store, &frames.concat());
        for _ in 0..4 {
            let (front, behind) = frames.split_at(random.within(0, frames.len()));
            let (said, middle, between) = taped(settings, record, store, &front.concat());
            assert_eq!(said, Ok(()));
            assert_eq!(taped(settings, middle, &between, &behind.concat()), whole);
        }
    });
}

/// Records, stores and settings of any kind before one frame.
#[test]
fn one_frame_is_the_single_call() {
    let mut refusals = BTreeSet::new();
    for_many_runs(|random, settings, _, store, frames| {
        let mut numbers = generate::settings_numbers(settings);
        numbers[1] += if random.once_in(8) { 63 } else { 0 };
        let room = store.len() - usize::from(random.once_in(8));
        for frame in frames.iter().take(8) {
            let lent: [u64; JUDGE] = generate::judge_record(random, settings, room);
            let (mut single, mut single_store) = (lent, store[..room].to_vec());
            let refusal = Reference.judge_frame(&numbers, &mut single, &mut single_store, frame);
            let (mut taped, mut taped_store) = (lent, store[..room].to_vec());
            let said = Reference.judge_tape(&numbers, &mut taped, &mut taped_store, frame);
            assert_eq!((said, taped, taped_store), (refusal, single, single_store), "{lent:?}");
            refusals.insert(refusal);
        }
    });
    assert!(refusals.into_iter().eq([0, 1, 2, 10, 11]));
}

/// Arrays may be longer than they need be. One that is too short is refused before all else.
#[test]
fn arrays() {
    let settings = [66, 3, 10, 1_024, 0x55, 0, 0, 9];
    let (mut record, mut store) = ([0, 0, 0, 0, 9], store());
    let tape = RUN[..3].concat();
    assert_eq!(Reference.judge_tape(&settings, &mut record, &mut store, &tape), 0);
    assert_eq!(record, [1, 3, 2, 0, 9]);
    assert_eq!(Reference.judge_tape(&settings[..7], &mut record[..4], &mut store, &tape), 0);
    assert_eq!(record, [2, 6, 3, 0, 9]);
    record[1] = MOST.into();
    assert_eq!(Reference.judge_tape(&settings, &mut record, &mut store, &tape), 11);
    assert_eq!(Reference.judge_tape(&settings, &mut record, &mut store, &[0]), 3);
    assert_eq!(Reference.judge_tape(&settings, &mut record, &mut store, &[]), 0);
    assert_eq!(record, [2, 16_777_216, 3, 0, 9]);

    let wrong = [256, 63, 0, 0, 256, 2, 3];
    for size in 0..7 {
        let mut record = [9; 4];
        assert_eq!(Reference.judge_tape(&wrong[..size], &mut record, &mut [], &[0]), 2);
        assert_eq!(record, [9; 4]);
    }
    for size in 0..4 {
        assert_eq!(Reference.judge_tape(&wrong, &mut [9; 4][..size], &mut [], &[0]), 2);
    }
    assert_eq!(Reference.judge_tape(&wrong, &mut [9; 4], &mut [], &[0]), 1);
}
