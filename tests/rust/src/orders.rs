//! The order in which each call makes its checks.
//!
//! For every call there are arguments that it accepts, and for every refusal it
//! can give a change to those arguments that calls for it. The changes do not
//! disturb each other, so any set of them can be made at once; the refusal is then
//! the one that comes first in the call's order.

use crate::calls::{self, Calls};
use crate::reference::edition::Edition;
use crate::reference::trailer;

/// A call and its refusals in the order of the checks.
#[derive(Clone, Copy, Debug)]
pub struct Order {
    pub call: &'static str,
    pub refusals: &'static [u64],
}

impl Order {
    /// Its refusals on a channel whose frames have trailers, or have none that could be wrong.
    pub fn refusals(&self, trailer: bool) -> impl Iterator<Item = u64> {
        self.refusals.iter().copied().filter(move |&refusal| trailer || refusal != WRONG_TRAILER)
    }
}

const WRONG_TRAILER: u64 = 13;

/// The calls whose refusal 8 may name a damage; that of the others never does.
pub const NAMING: [&str; 3] = ["unwrap", "mux_put", "relay_route"];

pub const ORDERS: [Order; 21] = [
    Order { call: "read_header", refusals: &[1] },
    Order { call: "well_formed", refusals: &[1] },
    Order { call: "wrap", refusals: &[1, 8, 2] },
    Order { call: "unwrap", refusals: &[1, 8, 6] },
    Order { call: "unit_part", refusals: &[] },
    Order { call: "read_space", refusals: &[8] },
    Order { call: "write_space", refusals: &[1, 2] },
    Order { call: "mux_begin", refusals: &[] },
    Order { call: "mux_put", refusals: &[1, 2, 10, 9, 8] },
    Order { call: "mux_flush", refusals: &[1, 2, 10, 9] },
    Order { call: "mux_idle", refusals: &[1, 2, 10, 9] },
    Order { call: "extractor_enter", refusals: &[1, 2, 10, 9, 3, 13, 4, 5, 6, 7] },
    Order { call: "extractor_step", refusals: &[1, 2, 10, 9, 3] },
    Order { call: "show", refusals: &[] },
    Order { call: "judge_frame", refusals: &[1, 2, 10, 11] },
    Order { call: "judge_tape", refusals: &[1, 2, 10, 11, 3] },
    Order { call: "judge_close", refusals: &[1, 2, 10] },
    Order { call: "bits_write", refusals: &[1, 2, 10] },
    Order { call: "bits_read", refusals: &[1, 10, 3, 13, 4, 5, 6, 7] },
    Order { call: "relay_load", refusals: &[1, 12] },
    Order { call: "relay_route", refusals: &[1, 10, 8, 2] },
];

/// The arguments of any of the calls.
#[derive(Clone, Debug, Default, PartialEq, Eq)]
pub struct Arguments {
    /// Settings, and behind them how many bits are offered; or a limit, a protocol and an extension;
    /// or a space packet's fields; or the answer of another call; or the entries of a relay table.
    pub numbers: Vec<u64>,
    /// A record, a relay table among them.
    pub record: Vec<u64>,
    /// What is only read: a frame, a tape of frames, a packet, data or bits.
    pub octets: Vec<u8>,
    /// What may be written: a frame, a packet, the store or destinations.
    pub buffer: Vec<u8>,
    pub answer: Vec<u64>,
}

/// The manner of a channel, and of refusal 6 on it.
#[derive(Clone, Copy, Debug)]
pub struct Manner {
    /// Whether frames have trailers.
    pub trailer: bool,
    pub edition: Edition,
    /// The bits of a frame that call for 6: these of the signalling octet, or if none a spare one
    /// before the pointer.
    pub wrong_bits: u8,
}

/// What may be the wrong bits of a frame: none of the signalling octet, each that must not be
/// changed in this edition, and all of them.
pub fn wrong_bits(edition: Edition) -> &'static [u8] {
    match edition {
        Edition::Former | Edition::CycleUnused => {
            &[0, 0x40, 0x20, 0x10, 0x08, 0x04, 0x02, 0x01, 0x7F]
        }
        Edition::CycleUsed => &[0, 0x40, 0x20, 0x10, 0x70],
    }
}

/// The tally of a run to which no frame can be added.
const FULL_RUN: u64 = 1 << 24;

/// Arguments for a call with these refusals in them, in this manner.
pub fn arguments(call: &str, refusals: &[u64], manner: Manner) -> Arguments {
    let Manner { trailer, edition, .. } = manner;
    let packet = vec![0xEA, 0x00, 0x00, 0x07, 0xA1, 0xA2, 0xA3];
    let channel = vec![66, 3, 10, 64, 0x55, trailer.into(), edition.number()];
    let bit_channel = vec![66, 3, 10, 0x55, trailer.into(), edition.number()];
    // Where there is a cycle it is 9.
    let (signalling, cycle) = match edition {
        Edition::Former | Edition::CycleUnused => (0, 0),
        Edition::CycleUsed => (0x49, 9 << 24),
    };
    let (last, count) = (cycle + 4, cycle + 5);
    let mut frame = [&[0x50, 0x83, 0, 0, 5, signalling, 0, 0][..], &[0xE0; 10]].concat();
    frame.resize(if trailer { 20 } else { 18 }, 0);
    let written = vec![0; frame.len()];
    let tape = tape_from(&frame, trailer);
    let table = [&[2, 5, 7, 5, 9][..], &[0; calls::RELAY - 5]].concat();
    let space = vec![0x00, 0x05, 0xC0, 0x00, 0x00, 0x00, 0xA1];
    let (numbers, record, octets, buffer, answer) = match call {
        "read_header" => (vec![64, 0, 0], vec![], packet, vec![], calls::HEADER),
        "well_formed" => (vec![64, 0, 0], vec![], packet, vec![], calls::FORMED),
        "wrap" => (vec![64, 2, 0], vec![], vec![0xA1; 5], vec![0; 7], calls::WRAPPED),
        "unwrap" => (vec![64, 0, 0], vec![], packet, vec![], calls::UNWRAPPED),
        "read_space" => (vec![], vec![], vec![0, 5, 0xC0, 0, 0, 1], vec![], calls::SPACE_READ),
        "write_space" => (vec![0, 0, 0, 5, 3, 0, 1], vec![], vec![], vec![0; 6], 0),
        "unit_part" => (vec![2, 0, 4, 3, 0], vec![], packet, vec![], calls::UNIT),
        "mux_begin" => (vec![], vec![7; 4], vec![], vec![], 0),
        "mux_put" => (channel, vec![count, 0, 2_047, 0], packet, written, calls::PUT),
        "mux_flush" => (channel, vec![count, 0, 2_047, 0], vec![], written, calls::FLUSH),
        "mux_idle" => (channel, vec![count, 0, 2_047, 0], vec![], written, 0),
        "extractor_enter" => (channel, vec![2, last, 0, 0], frame, vec![0; 64], calls::ENTERED),
        "extractor_step" => (channel, vec![3, count, 0, 0], frame, vec![0; 64], calls::STEP),
        "show" => (vec![1, 1, 8, 10, 0], vec![], frame, vec![0; 64], calls::SHOWN),
        "judge_frame" => (channel, vec![1, 5, last, 0], frame, vec![0; 64], 0),
        "judge_tape" => (channel, vec![1, 5, last, 0], tape, vec![0; 64], 0),
        "judge_close" => (channel, vec![1, 5, last, 0], vec![], vec![0; 64], calls::VERDICT),
        "bits_write" => ([bit_channel, vec![13]].concat(), vec![count], vec![0xA1; 2], written, 0),
        "bits_read" => (bit_channel, vec![1, last, 1], frame, vec![], calls::BITS),
        "relay_load" => (vec![6, 1, 5, 255], table, vec![], vec![], 0),
        "relay_route" => (vec![64], table, space, vec![0; 2], calls::ROUTED),
        _ => panic!("no call {call}"),
    };
    let answer = vec![u64::MAX; answer];
    let mut arguments = Arguments { numbers, record, octets, buffer, answer };
    for &refusal in refusals.iter().filter(|&&refusal| refusal != WRONG_TRAILER) {
        change(call, refusal, manner, &mut arguments);
    }
    // The frame has its other changes now. That of a step keeps a wrong trailer.
    if trailer && matches!(call, "extractor_enter" | "judge_frame" | "bits_read") {
        trailer::write(&mut arguments.octets);
        if refusals.contains(&WRONG_TRAILER) {
            let last = arguments.octets.len() - 1;
            arguments.octets[last] ^= 0x01;
        }
    }
    arguments
}

/// A tape of this frame and of the one that follows it, each with its trailer if there are such.
fn tape_from(frame: &[u8], trailer: bool) -> Vec<u8> {
    let mut frames = [frame.to_vec(), frame.to_vec()];
    frames[1][4] += 1;
    if trailer {
        frames.iter_mut().for_each(|frame| trailer::write(frame));
    }
    frames.concat()
}

fn change(call: &str, refusal: u64, manner: Manner, arguments: &mut Arguments) {
    let Arguments { numbers, record, octets, buffer, .. } = arguments;
    let off_the_wheel = manner.edition.wheel().into();
    match (refusal, call) {
        (1, "read_header" | "well_formed" | "unwrap" | "relay_route") => numbers[0] = 6,
        (1, "wrap") => numbers[1] = 0,
        (1, "relay_load") => numbers[3] = 256,
        (1, "write_space") => numbers[0] = 1,
        (1, _) => numbers[1] = 63,
        (2, _) => {
            buffer.pop();
        }
        // A relay's table has no count, but no such number of entries either.
        (10, "extractor_enter" | "extractor_step" | "bits_read") => record[1] = off_the_wheel,
        (10, "judge_frame" | "judge_tape" | "judge_close") => record[2] = off_the_wheel,
        (10, _) => record[0] = off_the_wheel,
        // More is taken of the packet than it has; or a packet is open.
        (9, "mux_put" | "mux_flush" | "mux_idle") => record[3] = 20,
        (9, "extractor_enter") => record[0] = 3,
        (9, _) => record[0] = 2,
        // The last frame that can be added is the first of two.
        (11, "judge_tape") => record[1] = FULL_RUN - 1,
        (11, _) => record[1] = FULL_RUN,
        (12, _) => numbers[0] = 2_047,
        (3, _) => octets.push(0),
        (4, _) => octets[0] ^= 0x80,
        (5, _) => octets[1] ^= 0x01,
        (6, "unwrap") => octets[1] = 0x01,
        (6, _) if manner.wrong_bits != 0 => octets[5] ^= manner.wrong_bits,
        (6, "extractor_enter") => octets[6] |= 0x08,
        (6, _) => octets[6] |= 0x40,
        (7, "extractor_enter") => octets[7] = 10,
        (7, _) => octets[7] = 79,
        (8, "mux_put" | "unwrap" | "relay_route") => octets.push(0),
        (8, "read_space") => octets[0] = 0x20,
        (8, _) => octets.clear(),
        _ => panic!("{call} never gives {refusal}"),
    }
}

/// Gives the packet that a call is lent a header with this damage, which calls for refusal 8 too; 0
/// is none. The other changes are not disturbed, and not that of 8 either, which is another length.
pub fn damage(number: u64, arguments: &mut Arguments) {
    let octets = &mut arguments.octets;
    match number {
        0 => {}
        1 => octets[0] = 0x20,
        2 => octets[0] = 0xE4,
        // A header of four octets, and its length: below that, or over the limit of 64.
        3 | 4 => {
            octets[0] = 0xE6;
            octets[2..4].copy_from_slice(if number == 3 { &[0, 3] } else { &[0, 65] });
        }
        _ => panic!("no damage {number}"),
    }
}

/// Makes a call with these arguments.
pub fn make(calls: &dyn Calls, call: &str, arguments: &mut Arguments) -> u64 {
    let Arguments { numbers, record, octets, buffer, answer } = arguments;
    match call {
        "read_header" => calls.read_header(numbers[0], octets, answer),
        "well_formed" => calls.well_formed(numbers[0], octets, answer),
        "wrap" => calls.wrap(numbers[0], numbers[1], numbers[2], octets, buffer, answer),
        "unwrap" => calls.unwrap(numbers[0], octets, answer),
        "read_space" => calls.read_space(octets, answer),
        "write_space" => calls.write_space(numbers, buffer),
        "unit_part" => calls.unit_part(numbers, octets, answer),
        "mux_begin" => calls.mux_begin(record),
        "mux_put" => calls.mux_put(numbers, record, octets, buffer, answer),
        "mux_flush" => calls.mux_flush(numbers, record, buffer, answer),
        "mux_idle" => calls.mux_idle(numbers, record, buffer),
        "extractor_enter" => calls.extractor_enter(numbers, record, buffer, octets, answer),
        "extractor_step" => calls.extractor_step(numbers, record, buffer, octets, answer),
        "show" => calls.show(numbers, octets, buffer, answer),
        "judge_frame" => calls.judge_frame(numbers, record, buffer, octets),
        "judge_tape" => calls.judge_tape(numbers, record, buffer, octets),
        "judge_close" => calls.judge_close(numbers, record, buffer, answer),
        "bits_write" => match numbers.split_last() {
            Some((&number, numbers)) => calls.bits_write(numbers, record, octets, number, buffer),
            None => panic!("no number of bits"),
        },
        "bits_read" => calls.bits_read(numbers, record, octets, answer),
        "relay_load" => calls.relay_load(numbers, record),
        "relay_route" => calls.relay_route(numbers[0], record, octets, buffer, answer),
        _ => panic!("no call {call}"),
    }
}
