//! Impostors that have the editions, or the longer count, wrong in one way. The sessions see through
//! each of them, in the call and in the edition in which it is one.

mod impostor;

use impostor::{by_reference, first_seen, Way};
use itzahuemo_reference::orders::Arguments;
use itzahuemo_reference::reference::frame::HEAD;
use itzahuemo_reference::reference::trailer::{is_right, remainder, TRAILER};

/// The calls that read a frame and check it.
const READING: [&str; 3] = ["extractor_enter", "judge_frame", "bits_read"];

/// Those that answer 6 when its signalling octet is wrong.
const REFUSING: [&str; 2] = ["extractor_enter", "bits_read"];

const WRITING: [&str; 4] = ["mux_put", "mux_flush", "mux_idle", "bits_write"];

/// The calls that have an edition, and a record with a count.
const OF_COUNTS: [&str; 10] = [
    "mux_put",
    "mux_flush",
    "mux_idle",
    "extractor_enter",
    "extractor_step",
    "judge_frame",
    "judge_tape",
    "judge_close",
    "bits_write",
    "bits_read",
];

/// The numbers of the editions.
const FORMER: u64 = 0;
const UNUSED: u64 = 1;
const USED: u64 = 2;

/// Counts of 24 bits and of 28.
const SHORT_WHEEL: u64 = 1 << 24;
const LONG_WHEEL: u64 = 1 << 28;

fn wheel(edition: u64) -> u64 {
    if edition == USED {
        LONG_WHEEL
    } else {
        SHORT_WHEEL
    }
}

/// Where the edition stands among a call's numbers.
fn place_of_edition(call: &str) -> usize {
    if call.starts_with("bits") {
        5
    } else {
        6
    }
}

fn has_trailers(call: &str, all: &Arguments) -> bool {
    all.numbers[place_of_edition(call) - 1] == 1
}

/// The place behind the zone.
fn zone_end(all: &Arguments) -> usize {
    HEAD + all.numbers[2] as usize
}

/// Each of these calls, made so on channels of each of these editions, is seen to be wrong.
fn seen(what: &str, editions: &[u64], calls: &[&str], way: Way) {
    for edition in editions {
        seen_on_any_channel(&format!("{what}, edition {edition}"), calls, &|call, all| {
            if all.numbers.get(place_of_edition(call)) == Some(edition) {
                way(call, all)
            } else {
                by_reference(call, all)
            }
        });
    }
}

fn seen_on_any_channel(what: &str, calls: &[&str], way: Way) {
    for call in calls {
        assert_eq!(first_seen(call, way), *call, "{what}");
    }
}

#[test]
fn an_impostor_that_changes_nothing_is_not_seen() {
    for call in OF_COUNTS {
        impostor::never_seen(call);
    }
}

// ---- Frames that are read

/// Changes a frame, whose trailer stays right, or as wrong as it is.
fn change_frame(trailer: bool, frame: &mut [u8], change: impl Fn(&mut [u8])) {
    if frame.len() < HEAD + TRAILER || !trailer {
        if frame.len() >= HEAD {
            change(frame);
        }
        return;
    }
    let end = frame.len() - TRAILER;
    let off =
        |frame: &[u8]| u16::from_be_bytes([frame[end], frame[end + 1]]) ^ remainder(&frame[..end]);
    let before = off(frame);
    change(frame);
    let trailer = remainder(&frame[..end]) ^ before;
    frame[end..].copy_from_slice(&trailer.to_be_bytes());
}

/// Makes a call that reads a frame, with the frame changed first.
fn read_as(call: &str, all: &mut Arguments, change: impl Fn(&mut [u8])) -> u64 {
    let trailer = has_trailers(call, all);
    change_frame(trailer, &mut all.octets, change);
    by_reference(call, all)
}

/// What stands behind the replay flag.
fn signalling(all: &Arguments) -> u8 {
    all.octets.get(5).map_or(0, |octet| octet & 0x7F)
}

/// Whether the signalling octet is one of the call's edition.
fn is_signalled(call: &str, all: &Arguments) -> bool {
    match all.numbers[place_of_edition(call)] {
        USED => signalling(all) & 0x70 == 0x40,
        _ => signalling(all) == 0,
    }
}

/// Does not look at one of the bits that are wrong.
#[test]
fn readers_that_leave_out_a_bit() {
    for bit in [0x40, 0x20, 0x10, 0x08, 0x04, 0x02, 0x01] {
        seen(&format!("without {bit:02x}"), &[FORMER, UNUSED], &READING, &|call, all| {
            read_as(call, all, |frame| frame[5] &= !bit)
        });
    }
    seen("without usage", &[USED], &READING, &|call, all| {
        read_as(call, all, |frame| frame[5] |= 0x40)
    });
    for bits in [0x20, 0x10, 0x30] {
        seen(&format!("without {bits:02x}"), &[USED], &READING, &|call, all| {
            read_as(call, all, |frame| frame[5] &= !bits)
        });
    }
}

#[test]
fn readers_that_leave_out_several_bits() {
    for (what, bits) in [("the cycle", 0x0F), ("the spare bits", 0x30), ("all seven", 0x7F)] {
        seen(what, &[FORMER, UNUSED], &READING, &|call, all| {
            read_as(call, all, |frame| frame[5] &= !bits)
        });
    }
    // Usage 1 with cycle 0 is taken for usage 0, and the other way round.
    seen("usage without a cycle", &[FORMER, UNUSED], &READING, &|call, all| {
        read_as(call, all, |frame| {
            if frame[5] & 0x7F == 0x40 {
                frame[5] ^= 0x40;
            }
        })
    });
    seen("no usage and no cycle", &[USED], &READING, &|call, all| {
        read_as(call, all, |frame| {
            if frame[5] & 0x7F == 0 {
                frame[5] ^= 0x40;
            }
        })
    });
}

/// Goes by the usage of the frame, and not by the one that is set.
#[test]
fn readers_that_go_by_the_usage_of_the_frame() {
    seen("a cycle where none is set", &[FORMER, UNUSED], &READING, &|call, all| {
        if signalling(all) & 0x70 == 0x40 {
            all.numbers[place_of_edition(call)] = USED;
        }
        by_reference(call, all)
    });
    seen("none where one is set", &[USED], &READING, &|call, all| {
        if signalling(all) == 0 {
            all.numbers[place_of_edition(call)] = UNUSED;
        }
        by_reference(call, all)
    });
}

/// Counts a cycle that stands there with usage 0.
#[test]
fn readers_that_count_an_unused_cycle() {
    seen("a cycle with usage 0", &[FORMER, UNUSED], &READING, &|call, all| {
        if matches!(signalling(all), 0x01..=0x0F) {
            all.numbers[place_of_edition(call)] = USED;
            return read_as(call, all, |frame| frame[5] ^= 0x40);
        }
        by_reference(call, all)
    });
}

/// The count of a frame with a cycle.
fn count_of(frame: &[u8]) -> u64 {
    u32::from_be_bytes([frame[5] & 0x0F, frame[2], frame[3], frame[4]]).into()
}

fn set_count(frame: &mut [u8], count: u64) {
    let [cycle, field @ ..] = (count as u32).to_be_bytes();
    frame[2..5].copy_from_slice(&field);
    frame[5] = frame[5] & 0xF0 | cycle & 0x0F;
}

/// What is made of a count, or of a setting's number.
type Made = fn(u64) -> u64;

/// Other counts that might be made of the same bits.
const WRONG_COUNTS: [(&str, Made); 9] = [
    ("the cycle below the count", |count| count << 4 | count >> 24),
    ("no cycle", |count| count % SHORT_WHEEL),
    ("a cycle of three bits", |count| count % (1 << 27)),
    ("a cycle of two bits", |count| count % (1 << 26)),
    ("a cycle of one bit", |count| count % (1 << 25)),
    ("a cycle without its lowest bit", |count| count & !SHORT_WHEEL),
    ("the cycle turned round", |count| {
        let cycle = (count >> 24) as u8;
        count % SHORT_WHEEL + u64::from(cycle.reverse_bits() >> 4) * SHORT_WHEEL
    }),
    ("a cycle counted down", |count| count ^ 0xF << 24),
    ("a cycle from 1 on", |count| count + SHORT_WHEEL),
];

#[test]
fn readers_of_other_counts() {
    for (what, other) in WRONG_COUNTS {
        seen(what, &[USED], &READING, &|call, all| {
            read_as(call, all, |frame| set_count(frame, other(count_of(frame))))
        });
    }
}

#[test]
fn readers_of_another_replay_flag() {
    for edition in [FORMER, UNUSED, USED] {
        seen("always set", &[edition], &["extractor_enter"], &|call, all| {
            let refusal = by_reference(call, all);
            if refusal == 0 {
                all.answer[2] = 1;
            }
            refusal
        });
        seen("the usage's bit", &[edition], &["bits_read"], &|call, all| {
            let refusal = by_reference(call, all);
            if refusal == 0 {
                all.answer[1] = u64::from(edition == USED);
            }
            refusal
        });
        seen("refused if set", &[edition], &READING, &|call, all| {
            read_as(call, all, |frame| {
                if frame[5] & 0x80 != 0 {
                    frame[5] ^= 0x10;
                }
            })
        });
    }
}

/// Where the count stands in a call's record.
fn place_of_count(call: &str) -> usize {
    match call {
        "judge_frame" | "judge_tape" | "judge_close" => 2,
        "extractor_enter" | "extractor_step" | "bits_read" => 1,
        _ => 0,
    }
}

/// Makes a call with its record changed first. A refused call leaves the one that was lent.
fn with_record(call: &str, all: &mut Arguments, change: impl Fn(&mut [u64])) -> u64 {
    let lent = all.record.clone();
    change(&mut all.record);
    let refusal = by_reference(call, all);
    if refusal != 0 {
        all.record = lent;
    }
    refusal
}

/// Compares counts of 28 bits in fewer: what is lost comes out as so much less, and a loss of whole
/// cycles as none.
#[test]
fn losses_in_fewer_bits() {
    for bits in 24..28 {
        let wheel = 1 << bits;
        seen(&format!("in {bits} bits"), &[USED], &READING, &|call, all| {
            let place = place_of_count(call);
            let last = all.record.get(place).copied().unwrap_or(u64::MAX);
            if last >= LONG_WHEEL || all.octets.len() < HEAD {
                return by_reference(call, all);
            }
            let before = count_of(&all.octets).wrapping_sub(1) % LONG_WHEEL;
            if last % wheel == before % wheel {
                return with_record(call, all, |record| {
                    // A record without a count has none to be changed.
                    if record[0] != 0 {
                        record[place] = before;
                    }
                });
            }
            let refusal = by_reference(call, all);
            if refusal == 0 && call == "extractor_enter" {
                all.answer[3] %= wheel;
            }
            refusal
        });
    }
}

/// Compares counts of 24 bits round the wheel of 28.
#[test]
fn losses_in_more_bits() {
    seen("in 28 bits", &[FORMER, UNUSED], &READING, &|call, all| {
        let lent = all.clone();
        let refusal = by_reference(call, all);
        if refusal != 0 || signalling(&lent) != 0 {
            return refusal;
        }
        *all = lent;
        all.numbers[place_of_edition(call)] = USED;
        read_as(call, all, |frame| frame[5] |= 0x40)
    });
}

// ---- What comes before a wrong signalling octet, and behind it

#[test]
fn a_wrong_signalling_octet_before_what_comes_first() {
    for (first, calls) in [
        (10, &REFUSING[..]),
        (9, &["extractor_enter"]),
        (3, &REFUSING),
        (13, &REFUSING),
        (4, &REFUSING),
        (5, &REFUSING),
    ] {
        let what = format!("6 before {first}");
        seen(&what, &[FORMER, UNUSED, USED], calls, &|call, all| match by_reference(call, all) {
            refusal if refusal == first && all.octets.len() > 5 && !is_signalled(call, all) => 6,
            refusal => refusal,
        });
    }
}

/// Refuses by 7 a frame whose signalling octet is wrong.
#[test]
fn a_wrong_signalling_octet_after_the_pointer() {
    seen("6 after 7", &[FORMER, UNUSED, USED], &REFUSING, &|call, all| {
        let lent = all.clone();
        match by_reference(call, all) {
            6 if !is_signalled(call, &lent) => {
                let used = lent.numbers[place_of_edition(call)] == USED;
                let right = if used { 0x40 } else { 0x00 };
                let mut other = lent;
                let otherwise =
                    read_as(call, &mut other, |frame| frame[5] = frame[5] & 0x80 | right);
                if otherwise == 7 {
                    7
                } else {
                    6
                }
            }
            refusal => refusal,
        }
    });
}

#[test]
fn a_wrong_signalling_octet_by_another_number() {
    for number in [1, 4, 5, 7, 10, 14] {
        let what = format!("{number} for 6");
        seen(&what, &[FORMER, UNUSED, USED], &REFUSING, &|call, all| {
            let signalled = all.octets.len() < HEAD || is_signalled(call, all);
            match by_reference(call, all) {
                6 if !signalled => number,
                refusal => refusal,
            }
        });
    }
}

#[test]
fn a_wrong_signalling_octet_that_does_something() {
    let editions = [FORMER, UNUSED, USED];
    seen("drops what is held", &editions, &["extractor_enter"], &|call, all| {
        let refusal = by_reference(call, all);
        if refusal == 6 && !is_signalled(call, all) && all.record[0] == 2 {
            let last = all.record[1];
            all.record[..4].copy_from_slice(&[1, last, 0, 0]);
        }
        refusal
    });
    seen("keeps the count", &editions, &REFUSING, &|call, all| {
        let refusal = by_reference(call, all);
        if refusal == 6 && !is_signalled(call, all) && all.record[0] != 0 {
            let edition = all.numbers[place_of_edition(call)];
            all.record[1] = count_of(&all.octets) % wheel(edition);
        }
        refusal
    });
    seen("counts as a loss", &editions, &["bits_read"], &|call, all| {
        let refusal = by_reference(call, all);
        if refusal == 6 && !is_signalled(call, all) && all.record[0] == 1 {
            all.record[2] = 1;
        }
        refusal
    });
    seen("leaves the answer", &editions, &REFUSING, &|call, all| {
        let answer = all.answer.clone();
        let refusal = by_reference(call, all);
        if refusal == 6 && !is_signalled(call, all) {
            all.answer = answer;
        }
        refusal
    });
}

/// Whether a frame has its length, its name and a right trailer, if it has one, so that a judge comes
/// to its signalling octet, which is wrong.
fn is_refused_for_signalling(call: &str, all: &Arguments) -> bool {
    let trailer = has_trailers(call, all);
    let length = zone_end(all) + if trailer { TRAILER } else { 0 };
    let name = 1 << 14 | all.numbers[0] << 6 | all.numbers[1];
    all.octets.len() == length
        && (!trailer || is_right(&all.octets))
        && u64::from(u16::from_be_bytes([all.octets[0], all.octets[1]])) == name
        && !is_signalled(call, all)
}

#[test]
fn judges_for_whom_a_wrong_signalling_octet_is_no_fault() {
    let editions = [FORMER, UNUSED, USED];
    for number in [0, 6] {
        let what = format!("answered by {number}, and not counted");
        seen(&what, &editions, &["judge_frame"], &|call, all| {
            let lent = all.clone();
            match by_reference(call, all) {
                0 if is_refused_for_signalling(call, all) => {
                    *all = lent;
                    number
                }
                refusal => refusal,
            }
        });
    }
    seen("counted, and no fault", &editions, &["judge_frame"], &|call, all| {
        let lent = all.clone();
        let refusal = by_reference(call, all);
        if refusal == 0 && lent.record[0] == 1 && is_refused_for_signalling(call, all) {
            all.record[..4].copy_from_slice(&lent.record[..4]);
            all.record[1] += 1;
        }
        refusal
    });
}

/// Lets a run with longer counts go on for as many frames as it has counts.
#[test]
fn judges_of_longer_runs() {
    seen("a frame past the last", &[USED], &["judge_frame"], &|call, all| match by_reference(
        call, all,
    ) {
        11 => {
            all.record[1] += 1;
            0
        }
        refusal => refusal,
    });
    seen("a greater tally", &[USED], &["judge_frame", "judge_close"], &|call, all| {
        let lent = all.record.clone();
        match by_reference(call, all) {
            10 if lent[1] > SHORT_WHEEL && lent[1] <= LONG_WHEEL => {
                with_record(call, all, |record| {
                    record[1] = SHORT_WHEEL - 1;
                    // The index of a fault is below the tally.
                    if record[0] == 2 {
                        record[2] %= SHORT_WHEEL - 1;
                    }
                })
            }
            refusal => refusal,
        }
    });
}

#[test]
fn a_step_that_checks_the_signalling_octet() {
    let editions = [FORMER, UNUSED, USED];
    seen("a step refused", &editions, &["extractor_step"], &|call, all| {
        let lent = all.clone();
        match by_reference(call, all) {
            0 if !is_signalled(call, &lent) => {
                *all = lent;
                refused(call, all, 6)
            }
            refusal => refusal,
        }
    });
}

/// Refuses a call by this number, as one is refused that would else be made.
fn refused(call: &str, all: &mut Arguments, number: u64) -> u64 {
    let channel = all.numbers[1];
    all.numbers[1] = 63;
    by_reference(call, all);
    all.numbers[1] = channel;
    number
}

// ---- Counts of records

/// Whether a count is one of those in question.
type Among = fn(u64) -> bool;

/// Takes counts that are off the wheel.
#[test]
fn records_past_the_wheel() {
    let off: [(&str, &[u64], Among); 6] = [
        ("of 28 bits", &[FORMER, UNUSED], |count| count < LONG_WHEEL),
        ("the first", &[FORMER, UNUSED], |count| count == SHORT_WHEEL),
        ("the last of 28 bits", &[FORMER, UNUSED], |count| count == LONG_WHEEL - 1),
        ("of any bits", &[USED], |_| true),
        ("of 32 bits", &[USED], |count| count < 1 << 32),
        ("the first", &[USED], |count| count == LONG_WHEEL),
    ];
    for (what, editions, is_taken) in off {
        seen(what, editions, &OF_COUNTS, &|call, all| {
            let place = place_of_count(call);
            match by_reference(call, all) {
                10 if is_taken(all.record[place]) => {
                    let wheel = wheel(all.numbers[place_of_edition(call)]);
                    with_record(call, all, |record| record[place] %= wheel)
                }
                refusal => refusal,
            }
        });
    }
}

/// Refuses counts that are on the wheel of 28 bits.
#[test]
fn records_on_a_shorter_wheel() {
    let off: [(&str, Among); 5] = [
        ("past 24 bits", |count| count >= SHORT_WHEEL),
        ("the first past 24 bits", |count| count == SHORT_WHEEL),
        ("past 27 bits", |count| count >= 1 << 27),
        ("the last", |count| count == LONG_WHEEL - 1),
        ("the last of 24 bits", |count| count == SHORT_WHEEL - 1),
    ];
    for (what, is_refused) in off {
        seen(what, &[USED], &OF_COUNTS, &|call, all| {
            let lent = all.clone();
            let count = all.record.get(place_of_count(call)).copied();
            // 1 and 2 come before it.
            match by_reference(call, all) {
                refusal @ (1 | 2) => refusal,
                _ if count.map_or(false, is_refused) => {
                    *all = lent;
                    refused(call, all, 10)
                }
                refusal => refusal,
            }
        });
    }
}

// ---- Frames that are written

/// Makes a call that writes a frame. If it has written one, the frame is changed, given the count
/// that it has and the frame as it was lent, and its trailer is made right again.
fn written_as(call: &str, all: &mut Arguments, change: impl Fn(u64, &[u8], &mut [u8])) -> u64 {
    let lent = all.clone();
    let refusal = by_reference(call, all);
    if refusal == 0 && all.record[0] != lent.record[0] {
        let trailer = has_trailers(call, all);
        let end = zone_end(all) + if trailer { TRAILER } else { 0 };
        let frame = &mut all.buffer[..end];
        change_frame(trailer, frame, |frame| change(lent.record[0], &lent.buffer, frame));
    }
    refusal
}

/// What a writer makes of the signalling octet: from the one that is right, the count and the octet
/// as it was lent.
type Signalling = fn(u8, u64, u8) -> u8;

#[test]
fn writers_of_another_signalling_octet() {
    let with_cycle: [(&str, Signalling); 13] = [
        ("no cycle", |right, _, _| right & 0xF0),
        ("no usage", |right, _, _| right & 0x0F),
        ("neither", |_, _, _| 0),
        ("as lent", |_, _, lent| lent),
        ("the usage alone, else as lent", |_, _, lent| lent | 0x40),
        ("the cycle alone, else as lent", |right, _, lent| lent & 0xF0 | right & 0x0F),
        ("the halves swapped", |right, _, _| right.rotate_left(4)),
        ("the cycle in the spare bits", |right, _, _| 0x40 | (right & 0x0F) << 2),
        ("the cycle turned round", |right, _, _| 0x40 | (right & 0x0F).reverse_bits() >> 4),
        ("a cycle of three bits", |right, _, _| right & 0xF7),
        ("the lowest bits of the count", |_, count, _| 0x40 | count as u8 & 0x0F),
        ("the cycle of the next count", |_, count, _| 0x40 | ((count + 1) >> 24) as u8 & 0x0F),
        ("a cycle from 1 on", |right, _, _| 0x40 | right.wrapping_add(1) & 0x0F),
    ];
    for (what, other) in with_cycle {
        seen(what, &[USED], &WRITING, &|call, all| {
            written_as(call, all, |count, lent, frame| frame[5] = other(frame[5], count, lent[5]))
        });
    }
    let without: [(&str, Signalling); 5] = [
        ("the usage", |right, _, _| right | 0x40),
        ("the bits as lent", |_, _, lent| lent & 0x7F),
        ("a cycle", |_, count, _| count as u8 & 0x0F),
        ("a cycle at the turn", |_, count, _| ((count + 1) >> 24) as u8),
        ("a cycle of ones", |_, _, _| 0x0F),
    ];
    for (what, other) in without {
        seen(what, &[FORMER, UNUSED], &WRITING, &|call, all| {
            written_as(call, all, |count, lent, frame| frame[5] = other(frame[5], count, lent[5]))
        });
    }
    for bit in [0x80, 0x20, 0x10] {
        let what = format!("the bit {bit:02x}");
        seen(&what, &[FORMER, UNUSED, USED], &WRITING, &|call, all| {
            written_as(call, all, |_, _, frame| frame[5] |= bit)
        });
    }
}

#[test]
fn writers_of_other_counts() {
    for (what, other) in WRONG_COUNTS {
        seen(what, &[USED], &WRITING, &|call, all| {
            written_as(call, all, |count, _, frame| set_count(frame, other(count)))
        });
    }
}

/// The count that a writer goes on with: from the one it has written, and the one that is right.
type Next = fn(u64, u64) -> u64;

/// Goes on from a count in another way.
#[test]
fn writers_with_another_next_count() {
    let with_cycle: [(&str, Next); 5] = [
        ("in 24 bits", |_, next| next % SHORT_WHEEL),
        ("in 24 bits below its cycle", |count, next| {
            count / SHORT_WHEEL * SHORT_WHEEL + next % SHORT_WHEEL
        }),
        ("in 27 bits", |_, next| next % (1 << 27)),
        ("past the wheel", |count, _| count + 1),
        ("one too early", |_, next| next % (LONG_WHEEL - 1)),
    ];
    let without: [(&str, Next); 2] = [
        ("into 28 bits", |count, _| (count + 1) % LONG_WHEEL),
        ("one too early", |_, next| next % (SHORT_WHEEL - 1)),
    ];
    let next_as = |call: &str, all: &mut Arguments, next: Next| {
        let count = all.record.first().copied();
        let refusal = by_reference(call, all);
        match count {
            Some(count) if refusal == 0 && all.record[0] != count => {
                all.record[0] = next(count, all.record[0]);
            }
            _ => {}
        }
        refusal
    };
    for (what, next) in with_cycle {
        seen(what, &[USED], &WRITING, &|call, all| next_as(call, all, next));
    }
    for (what, next) in without {
        seen(what, &[FORMER, UNUSED], &WRITING, &|call, all| next_as(call, all, next));
    }
}

/// Begins a run with cycles at another count than 0.
#[test]
fn a_first_count_that_is_not_0() {
    for first in [1, SHORT_WHEEL] {
        seen_on_any_channel("another first count", &["mux_begin"], &|call, all| {
            let refusal = by_reference(call, all);
            if refusal == 0 {
                all.record[0] = first;
            }
            refusal
        });
    }
}

// ---- The setting

/// Has a channel of one edition for one of another. The former edition and the one without a cycle
/// have the same frames and counts, so that neither could be told by them.
#[test]
fn one_edition_for_another() {
    for (edition, other) in [(FORMER, USED), (UNUSED, USED), (USED, FORMER), (USED, UNUSED)] {
        let what = format!("{other} for {edition}");
        seen(&what, &[edition], &OF_COUNTS, &|call, all| {
            all.numbers[place_of_edition(call)] = other;
            by_reference(call, all)
        });
    }
}

/// Takes numbers for the setting that are no edition.
#[test]
fn settings_that_are_none() {
    let readings: [(&str, Made); 8] = [
        ("3 too", |number| if number == 3 { USED } else { number }),
        ("3 for the former", |number| if number == 3 { FORMER } else { number }),
        ("4 too", |number| if number == 4 { FORMER } else { number }),
        ("any past 2", |number| number.min(USED)),
        ("by its two lowest bits", |number| number & 3),
        ("in 8 bits", |number| number & 0xFF),
        ("in 32 bits", |number| number & 0xFFFF_FFFF),
        ("any that is none for the former", |number| if number > USED { FORMER } else { number }),
    ];
    for (what, reading) in readings {
        seen_on_any_channel(what, &OF_COUNTS, &|call, all| {
            if let Some(number) = all.numbers.get_mut(place_of_edition(call)) {
                *number = reading(*number);
            }
            by_reference(call, all)
        });
    }
}

/// Does without the number of the setting: an array that ends before it is of the former edition.
#[test]
fn settings_without_the_number() {
    seen_on_any_channel("a shorter array", &OF_COUNTS, &|call, all| {
        // Behind the settings of a bitstream writer stands the number of bits.
        let behind = usize::from(call == "bits_write");
        let place = place_of_edition(call);
        if all.numbers.len() == place + behind {
            all.numbers.insert(place, FORMER);
        }
        by_reference(call, all)
    });
}

/// Looks for the setting before the trailer's.
#[test]
fn settings_in_another_order() {
    seen_on_any_channel("edition and trailer swapped", &OF_COUNTS, &|call, all| {
        let place = place_of_edition(call);
        if all.numbers.len() > place {
            all.numbers.swap(place - 1, place);
        }
        by_reference(call, all)
    });
}
