//! Impostors that have trailers wrong in one way. The sessions see through each of them, in the call
//! in which it is one.

mod impostor;

use impostor::{by_reference, first_seen, Way};
use itzahuemo_reference::generate::{seal, Rule, WRONG_REMAINDERS};
use itzahuemo_reference::orders::Arguments;
use itzahuemo_reference::reference::frame::HEAD;
use itzahuemo_reference::reference::trailer::{is_right, remainder, TRAILER};

/// The calls that read a frame and check it.
const READING: [&str; 3] = ["extractor_enter", "judge_frame", "bits_read"];

/// Those that answer 13 when its trailer is wrong.
const REFUSING: [&str; 2] = ["extractor_enter", "bits_read"];

const WRITING: [&str; 4] = ["mux_put", "mux_flush", "mux_idle", "bits_write"];

/// The calls that have to do with frames at all.
const OF_FRAMES: [&str; 9] = [
    "mux_put",
    "mux_flush",
    "mux_idle",
    "extractor_enter",
    "extractor_step",
    "judge_frame",
    "judge_tape",
    "bits_write",
    "bits_read",
];

/// Where the setting stands among a call's numbers.
fn place_of_setting(call: &str) -> usize {
    if call.starts_with("bits") {
        4
    } else {
        5
    }
}

fn has_trailers(call: &str, all: &Arguments) -> bool {
    all.numbers.get(place_of_setting(call)) == Some(&1)
}

/// The place behind the zone.
fn zone_end(all: &Arguments) -> usize {
    HEAD + all.numbers[2] as usize
}

/// Each of these calls, made so on channels with trailers, is seen to be wrong.
fn seen(what: &str, calls: &[&str], way: Way) {
    seen_on_any_channel(what, calls, &|call, all| {
        if has_trailers(call, all) {
            way(call, all)
        } else {
            by_reference(call, all)
        }
    });
}

fn seen_on_any_channel(what: &str, calls: &[&str], way: Way) {
    for call in calls {
        assert_eq!(first_seen(call, way), *call, "{what}");
    }
}

#[test]
fn an_impostor_that_changes_nothing_is_not_seen() {
    for call in OF_FRAMES.iter().chain(&["judge_close"]) {
        impostor::never_seen(call);
    }
}

/// Makes a call that reads a frame, with the frame's trailer changed, if it can have one: the way is
/// given the octets before it and the one that is there.
fn read_as(call: &str, all: &mut Arguments, other: impl Fn(&[u8], u16) -> u16) -> u64 {
    if all.octets.len() > HEAD + TRAILER {
        let (before, trailer) = all.octets.split_at(all.octets.len() - TRAILER);
        let other = other(before, u16::from_be_bytes([trailer[0], trailer[1]]));
        let end = before.len();
        all.octets[end..].copy_from_slice(&other.to_be_bytes());
    }
    by_reference(call, all)
}

/// Takes exactly the trailers of another rule.
#[test]
fn readers_with_another_remainder() {
    for (what, rule) in WRONG_REMAINDERS {
        seen(what, &READING, &|call, all| {
            read_as(call, all, |before, trailer| trailer ^ rule(before) ^ remainder(before))
        });
    }
}

/// Takes the trailers of another rule beside the right ones.
#[test]
fn readers_that_take_another_remainder_too() {
    for (what, rule) in WRONG_REMAINDERS {
        seen(what, &READING, &|call, all| {
            read_as(
                call,
                all,
                |before, trailer| {
                    if trailer == rule(before) {
                        remainder(before)
                    } else {
                        trailer
                    }
                },
            )
        });
    }
}

#[test]
fn readers_that_take_any_trailer() {
    seen("any trailer", &READING, &|call, all| read_as(call, all, |before, _| remainder(before)));
}

#[test]
fn readers_that_look_at_half_of_a_trailer() {
    for (what, half) in [("the low octet", 0x00FF), ("the high octet", 0xFF00)] {
        seen(what, &READING, &|call, all| {
            read_as(call, all, |before, trailer| trailer & half | remainder(before) & !half)
        });
    }
}

#[test]
fn readers_for_whom_some_trailer_is_none() {
    for none in [0x0000, 0xFFFF] {
        seen("a trailer that is none", &READING, &|call, all| {
            read_as(
                call,
                all,
                |before, trailer| {
                    if trailer == none {
                        remainder(before)
                    } else {
                        trailer
                    }
                },
            )
        });
    }
}

/// The refusal of a frame whose trailer is right but which is otherwise the same.
fn refusal_but_for_the_trailer(call: &str, all: &Arguments) -> u64 {
    let mut other = all.clone();
    seal(&mut other.octets);
    by_reference(call, &mut other)
}

#[test]
fn a_wrong_trailer_after_the_header() {
    for last in 4..=7 {
        seen("13 too late", &REFUSING, &|call, all| {
            let other = refusal_but_for_the_trailer(call, all);
            match by_reference(call, all) {
                13 if (4..=last).contains(&other) => other,
                refusal => refusal,
            }
        });
    }
}

#[test]
fn a_wrong_trailer_before_what_comes_first() {
    for (first, calls) in [(3, &REFUSING[..]), (9, &["extractor_enter"]), (10, &REFUSING)] {
        seen("13 too early", calls, &|call, all| match by_reference(call, all) {
            refusal if refusal == first && all.octets.len() > TRAILER => {
                if is_right(&all.octets) {
                    refusal
                } else {
                    13
                }
            }
            refusal => refusal,
        });
    }
}

#[test]
fn a_wrong_trailer_by_another_number() {
    for number in [3, 4, 8, 12, 14] {
        seen("13 by another number", &REFUSING, &|call, all| match by_reference(call, all) {
            13 => number,
            refusal => refusal,
        });
    }
}

#[test]
fn a_wrong_trailer_that_does_something() {
    seen("drops what is held", &["extractor_enter"], &|call, all| {
        let refusal = by_reference(call, all);
        if refusal == 13 && all.record[0] == 2 {
            let last = all.record[1];
            all.record[..4].copy_from_slice(&[1, last, 0, 0]);
        }
        refusal
    });
    seen("keeps the count", &["bits_read"], &|call, all| {
        let refusal = by_reference(call, all);
        if refusal == 13 {
            let [a, b, c] = [all.octets[2], all.octets[3], all.octets[4]];
            all.record[..2].copy_from_slice(&[1, u32::from_be_bytes([0, a, b, c]).into()]);
        }
        refusal
    });
    seen("leaves the answer", &REFUSING, &|call, all| {
        let answer = all.answer.clone();
        let refusal = by_reference(call, all);
        if refusal == 13 {
            all.answer = answer;
        }
        refusal
    });
}

/// A frame of the length whose trailer is wrong, at a judge's or an extractor's moment for it.
fn is_wrong(all: &Arguments) -> bool {
    all.octets.len() == zone_end(all) + TRAILER && !is_right(&all.octets)
}

#[test]
fn judges_for_whom_a_wrong_trailer_is_no_fault() {
    for number in [0, 13] {
        seen("answered, and not counted", &["judge_frame"], &|call, all| {
            let lent = all.clone();
            match by_reference(call, all) {
                0 if is_wrong(all) => {
                    *all = lent;
                    number
                }
                refusal => refusal,
            }
        });
    }
    seen("counted, and no fault", &["judge_frame"], &|call, all| {
        let lent = all.clone();
        let refusal = by_reference(call, all);
        if refusal == 0 && is_wrong(all) && lent.record[0] == 1 {
            all.record[..4].copy_from_slice(&lent.record[..4]);
            all.record[1] += 1;
        }
        refusal
    });
}

#[test]
fn a_step_that_checks_the_trailer() {
    seen("a step refused", &["extractor_step"], &|call, all| {
        let lent = all.clone();
        match by_reference(call, all) {
            0 if is_wrong(all) => {
                *all = lent;
                all.answer[..5].fill(0);
                13
            }
            refusal => refusal,
        }
    });
    seen("damage", &["extractor_step"], &|call, all| {
        let lent = all.clone();
        let refusal = by_reference(call, all);
        if refusal == 0 && is_wrong(all) {
            *all = lent;
            all.answer[..5].copy_from_slice(&[3, 0, 0, 0, 1]);
            let last = all.record[1];
            all.record[..4].copy_from_slice(&[4, last, 0, 0]);
        }
        refusal
    });
}

/// Makes a call that writes a frame. If it has written one, the trailer is what the way makes of the
/// octets before it and of those that were lent.
fn written_as(call: &str, all: &mut Arguments, other: impl Fn(&[u8], &[u8]) -> u16) -> u64 {
    let lent = all.clone();
    let refusal = by_reference(call, all);
    if refusal == 0 && all.record[0] != lent.record[0] {
        let end = zone_end(all);
        let trailer = other(&all.buffer[..end], &lent.buffer[..end + TRAILER]).to_be_bytes();
        all.buffer[end..end + TRAILER].copy_from_slice(&trailer);
    }
    refusal
}

#[test]
fn writers_with_another_remainder() {
    for (what, rule) in WRONG_REMAINDERS {
        seen(what, &WRITING, &|call, all| written_as(call, all, |before, _| rule(before)));
    }
}

#[test]
fn writers_of_other_octets() {
    let over: [(&str, fn(&[u8], &[u8]) -> u16); 4] = [
        ("not written", |before, lent| {
            let trailer = &lent[before.len()..];
            u16::from_be_bytes([trailer[0], trailer[1]])
        }),
        ("over the header as lent", |before, lent| {
            remainder(&[&lent[..HEAD], &before[HEAD..]].concat())
        }),
        ("over the trailer as lent too", |before, lent| {
            remainder(&[before, &lent[before.len()..]].concat())
        }),
        ("over all as lent", |before, lent| remainder(&lent[..before.len()])),
    ];
    for (what, other) in over {
        seen(what, &WRITING, &|call, all| written_as(call, all, other));
    }
}

#[test]
fn writers_of_trailers_elsewhere() {
    seen("at the end of what is lent", &WRITING, &|call, all| {
        let lent = all.clone();
        let refusal = by_reference(call, all);
        if refusal == 0 && all.record[0] != lent.record[0] {
            let end = zone_end(all);
            let trailer = all.buffer[end..end + TRAILER].to_vec();
            all.buffer[end..].copy_from_slice(&lent.buffer[end..]);
            let last = all.buffer.len() - TRAILER;
            all.buffer[last..].copy_from_slice(&trailer);
        }
        refusal
    });
    seen("the last octets of the zone", &WRITING, &|call, all| {
        let lent = all.clone();
        let refusal = by_reference(call, all);
        let end = zone_end(all);
        if refusal == 0 && all.record[0] != lent.record[0] {
            all.buffer[end..].copy_from_slice(&lent.buffer[end..]);
            seal(&mut all.buffer[..end]);
        }
        refusal
    });
}

/// Writes a trailer, or zeros for it, though no frame is written.
#[test]
fn writers_of_a_trailer_too_early() {
    let ways: [(&str, Rule); 2] = [("a trailer", remainder), ("zeros", |_| 0)];
    for (what, rule) in ways {
        // A put that leaves the zone open, and a flush of an empty zone.
        seen(what, &["mux_put", "mux_flush"], &|call, all| {
            let count = all.record.first().copied();
            let refusal = by_reference(call, all);
            if refusal == 0 && all.record.first().copied() == count {
                let end = zone_end(all);
                let trailer = rule(&all.buffer[..end]).to_be_bytes();
                all.buffer[end..end + TRAILER].copy_from_slice(&trailer);
            }
            refusal
        });
        // A refused call that has room for it.
        seen(what, &WRITING, &|call, all| {
            let refusal = by_reference(call, all);
            if refusal > 2 {
                let end = zone_end(all);
                let trailer = rule(&all.buffer[..end]).to_be_bytes();
                all.buffer[end..end + TRAILER].copy_from_slice(&trailer);
            }
            refusal
        });
    }
}

/// Asks for less room than a frame with its trailer takes.
#[test]
fn writers_that_ask_for_less_room() {
    for missing in 1..=TRAILER {
        seen("less room", &WRITING, &|call, all| {
            let size = all.buffer.len();
            all.buffer.resize(size + missing, 0);
            let refusal = by_reference(call, all);
            all.buffer.truncate(size);
            refusal
        });
    }
}

/// Leaves the setting out of account, or has trailers on all channels.
#[test]
fn one_setting_for_all_channels() {
    for trailer in [0, 1] {
        seen_on_any_channel("always the same", &OF_FRAMES, &|call, all| {
            if let Some(number) = all.numbers.get_mut(place_of_setting(call)) {
                if *number <= 1 {
                    *number = trailer;
                }
            }
            by_reference(call, all)
        });
    }
}

/// Takes the trailer for two octets of the zone.
#[test]
fn zones_that_run_to_the_end_of_the_frame() {
    seen("a longer zone", &OF_FRAMES, &|call, all| {
        all.numbers[2] = all.numbers[2].saturating_add(TRAILER as u64);
        all.numbers[place_of_setting(call)] = 0;
        by_reference(call, all)
    });
}

/// Has the trailer in the zone's last two octets, in a frame as long as one without.
#[test]
fn frames_that_are_not_longer() {
    seen("the length as before", &READING, &|call, all| {
        all.numbers[place_of_setting(call)] = 0;
        let trailed = all.octets.len() > HEAD + TRAILER && is_right(&all.octets);
        match by_reference(call, all) {
            0 | 4..=7 if !trailed => 13,
            refusal => refusal,
        }
    });
    seen("a step in a frame without", &["extractor_step"], &|call, all| {
        if all.octets.len() == zone_end(all) {
            all.octets.extend([0; TRAILER]);
        }
        by_reference(call, all)
    });
    // A frame of either length is taken, and checked if it has a trailer.
    seen("either length", &READING, &|call, all| {
        if all.octets.len() == zone_end(all) {
            all.numbers[place_of_setting(call)] = 0;
        }
        by_reference(call, all)
    });
}

#[test]
fn bits_elsewhere() {
    seen("the start moves", &["bits_read"], &|call, all| {
        let refusal = by_reference(call, all);
        if refusal == 0 {
            all.answer[4] += TRAILER as u64;
        }
        refusal
    });
    seen("a full zone has the trailer's bits", &["bits_read"], &|call, all| {
        let refusal = by_reference(call, all);
        if refusal == 0 && all.answer[3] == 8 * all.numbers[2] {
            all.answer[3] += 8 * TRAILER as u64;
            all.answer[5] += TRAILER as u64;
        }
        refusal
    });
}

/// Takes numbers for the setting that are neither 0 nor 1.
#[test]
fn settings_that_are_none() {
    let readings: [(&str, fn(u64) -> u64); 5] = [
        ("2 too", |number| if number == 2 { 1 } else { number }),
        ("any but 0", |number| number.min(1)),
        ("by its lowest bit", |number| number & 1),
        ("in 32 bits", |number| number & 0xFFFF_FFFF),
        ("any but 1 is 0", |number| u64::from(number == 1)),
    ];
    for (what, reading) in readings {
        let calls = [&OF_FRAMES[..], &["judge_close"]].concat();
        seen_on_any_channel(what, &calls, &|call, all| {
            if let Some(number) = all.numbers.get_mut(place_of_setting(call)) {
                *number = reading(*number);
            }
            by_reference(call, all)
        });
    }
}

/// Does without the number of the setting: an array that ends before it has no trailer.
#[test]
fn settings_without_the_number() {
    let calls = [&OF_FRAMES[..], &["judge_close"]].concat();
    seen_on_any_channel("a shorter array", &calls, &|call, all| {
        // Behind the settings of a bitstream writer stands the number of bits.
        let behind = usize::from(call == "bits_write");
        let place = place_of_setting(call);
        if all.numbers.len() == place + behind {
            // The setting behind it is not there either.
            all.numbers.splice(place..place, [0, 0]);
        }
        by_reference(call, all)
    });
}
