//! Two sets of calls, driven side by side through sessions of random calls.
//!
//! Both are lent copies of the same arrays and buffers. After each call what they
//! answer, and everything that they were lent and might have written, is
//! compared. What a tape comes to is compared with its frames too, on each side
//! by itself.

use std::collections::BTreeMap;
use std::fmt;

use crate::calls::{self, Calls, Reference};
use crate::generate;
use crate::orders::{self, Arguments, Manner, ORDERS};
use crate::random::Random;
use crate::reference::bitstream::octets_for;
use crate::reference::edition::Edition;
use crate::reference::frame::{Settings, HEAD};
use crate::reference::judge::MOST_FRAMES;
use crate::reference::packet::{self, Look, LIMITS};
use crate::reference::relay::MOST_ENTRIES;
use crate::reference::trailer::TRAILER;

/// What the calls have met: how often each call gave each refusal, 0 being none,
/// and how often other things were said.
#[derive(Clone, Debug, Default, PartialEq, Eq)]
pub struct Tally {
    pub refusals: BTreeMap<(&'static str, u64), u64>,
    pub said: BTreeMap<(&'static str, u64), u64>,
}

impl Tally {
    pub fn add(&mut self, other: &Tally) {
        for (&key, times) in &other.refusals {
            *self.refusals.entry(key).or_default() += times;
        }
        for (&key, times) in &other.said {
            *self.said.entry(key).or_default() += times;
        }
    }
}

/// A call after which the two sides do not agree.
#[derive(Clone, Debug)]
pub struct Difference {
    pub call: &'static str,
    /// The number of the call in its session, from 0.
    pub index: usize,
    pub what: String,
    /// What the call was lent.
    pub lent: String,
}

impl fmt::Display for Difference {
    fn fmt(&self, f: &mut fmt::Formatter) -> fmt::Result {
        write!(f, "call {} {}: {}; {}", self.index, self.call, self.what, self.lent)
    }
}

/// What a call may write.
#[derive(Clone, Debug, PartialEq, Eq)]
struct Lent {
    record: Vec<u64>,
    buffer: Vec<u8>,
    answer: Vec<u64>,
}

/// An entry that no call writes on its own account.
const JUNK: u64 = 0xA5A5_A5A5_A5A5_A5A5;

/// Two sets of calls and what they have met so far.
struct Pair<'a> {
    first: &'a dyn Calls,
    second: &'a dyn Calls,
    index: usize,
    tally: Tally,
}

impl Pair<'_> {
    /// Makes a call on both sides with what is lent, and compares. What the call
    /// only reads is shown beside a difference.
    fn both(
        &mut self,
        call: &'static str,
        settings: &[u64],
        read: &[u8],
        lent: &mut Lent,
        make: impl Fn(&dyn Calls, &mut Lent) -> u64,
    ) -> Result<u64, Difference> {
        let before = lent.clone();
        let mut other = lent.clone();
        let first = make(self.first, lent);
        let second = make(self.second, &mut other);
        let index = self.index;
        self.index += 1;
        if let Some(what) = unlike((first, lent), (second, &other)) {
            let lent = told(settings, read, &before);
            return Err(Difference { call, index, what, lent });
        }
        *self.tally.refusals.entry((call, first)).or_default() += 1;
        Ok(first)
    }

    fn note(&mut self, what: &'static str, number: u64) {
        *self.tally.said.entry((what, number)).or_default() += 1;
    }

    /// Notes that the wheel turns behind a count that is written, by its edition, or that a cycle
    /// begins there: 1 is the first, and 2 stands for all others.
    fn note_written(&mut self, edition: Edition, count: u64, next: u64) {
        if next < count {
            self.note("wheel turns written in edition", edition.number());
        } else if next > count && next % BELOW_CYCLE == 0 {
            self.note("cycle begins written", (next / BELOW_CYCLE).min(2));
        }
    }

    /// The same before a count that is read; or that cycles are lost there, 1 or more, and nothing of
    /// it shows in 24 bits.
    fn note_read(&mut self, edition: Edition, last: u64, count: u64) {
        let wheel = u64::from(edition.wheel());
        let lost = (wheel + count - last - 1) % wheel;
        if lost != 0 && lost % BELOW_CYCLE == 0 {
            self.note("only cycles lost", (lost / BELOW_CYCLE).min(2));
        } else if lost == 0 && count == 0 {
            self.note("wheel turns in edition", edition.number());
        } else if lost == 0 && count % BELOW_CYCLE == 0 {
            self.note("cycle begins", (count / BELOW_CYCLE).min(2));
        }
    }

    /// Notes a tape that was taken, or refused for its length, with the record before it and behind
    /// it: how many frames are taken, and whether a rest of one stands behind those that are too
    /// many; what is said of it when the tally is full; and where its first fault is.
    fn note_tape(
        &mut self,
        refusal: u64,
        numbers: &[u64],
        before: &[u64],
        after: &[u64],
        tape: &[u8],
    ) {
        let length = frame_length(numbers);
        let whole = (tape.len() / length) as u64;
        match refusal {
            // Two stand for all that are several.
            0 => self.note("tape of frames", whole.min(2)),
            11 => self.note("rest behind too many frames", (tape.len() % length).min(1) as u64),
            _ => {}
        }
        if before[1] == u64::from(MOST_FRAMES) {
            self.note("tape with the tally full", refusal);
        }
        if whole > 2 && before[0] < 2 && after[0] == 2 {
            // 1 is the first frame, 3 the last, and 2 stands for those between.
            let place = match after[2].saturating_sub(before[1]) {
                0 => 1,
                place if place + 1 < whole => 2,
                _ => 3,
            };
            self.note("fault on a tape", place);
        }
    }

    /// Notes the bit of the signalling octet that alone is wrong in a frame refused by 6, if there is
    /// one.
    fn note_wrong_signalling(&mut self, edition: Edition, frame: &[u8]) {
        let (what, wrong) = match edition {
            Edition::Former => ("wrong bit of edition 0", frame[5] & 0x7F),
            Edition::CycleUnused => ("wrong bit of edition 1", frame[5] & 0x7F),
            Edition::CycleUsed => ("wrong bit of edition 2", (frame[5] ^ 0x40) & 0x70),
        };
        if wrong.is_power_of_two() {
            self.note(what, wrong.into());
        }
    }
}

/// What is not the same in two outcomes of a call, each a refusal and what was lent as the call has
/// left it.
fn unlike((first, lent): (u64, &Lent), (second, other): (u64, &Lent)) -> Option<String> {
    if first != second {
        Some(format!("refusal {first} and {second}"))
    } else if lent.record != other.record {
        Some(format!("record {:?} and {:?}", lent.record, other.record))
    } else if lent.answer != other.answer {
        Some(format!("answer {:x?} and {:x?}", lent.answer, other.answer))
    } else if lent.buffer != other.buffer {
        let place = lent.buffer.iter().zip(&other.buffer).position(|(a, b)| a != b);
        Some(format!("octet {:?} of the buffer", place.unwrap_or_default()))
    } else {
        None
    }
}

/// What a call is lent, in words.
fn told(settings: &[u64], read: &[u8], lent: &Lent) -> String {
    format!(
        "settings {settings:?}, record {:?}, reads {}, may write {}",
        lent.record,
        shown(read),
        shown(&lent.buffer),
    )
}

/// The count's own field has so many counts, above which a cycle may stand.
const BELOW_CYCLE: u64 = 1 << 24;

/// The edition of settings in range.
fn edition_of(numbers: &[u64]) -> Edition {
    let last = numbers.last().expect("settings have numbers");
    Edition::ALL[*last as usize]
}

/// The length of a frame under settings in range.
fn frame_length(numbers: &[u64]) -> usize {
    let trailer = if numbers[5] == 1 { TRAILER } else { 0 };
    HEAD + numbers[2] as usize + trailer
}

/// The length of a buffer and its first octets.
fn shown(octets: &[u8]) -> String {
    let front = &octets[..octets.len().min(24)];
    format!("{} octets {front:02x?}", octets.len())
}

/// Drives both sides through the session of this seed.
pub fn session(first: &dyn Calls, second: &dyn Calls, seed: u64) -> Result<Tally, Difference> {
    let mut pair = Pair { first, second, index: 0, tally: Tally::default() };
    let mut random = Random::new(seed);
    let random = &mut random;
    match random.within(1, 120) {
        1..=7 => headers(&mut pair, random),
        8..=10 => space_headers(&mut pair, random),
        11..=20 => wrapping(&mut pair, random),
        21..=38 => multiplexing(&mut pair, random),
        39..=68 => extracting(&mut pair, random),
        69..=83 => judging(&mut pair, random),
        84..=91 => taping(&mut pair, random),
        92..=96 => tapes_and_frames(&mut pair, random),
        97..=106 => bits(&mut pair, random),
        107..=112 => relaying(&mut pair, random),
        113..=117 => any_record(&mut pair, random),
        118 => short_arrays(&mut pair, random),
        _ => several_refusals(&mut pair, random),
    }?;
    Ok(pair.tally)
}

/// An answer array of this many entries, at times with more behind them.
fn answer(random: &mut Random, entries: usize) -> Vec<u64> {
    let more = if random.once_in(8) { random.within(1, 3) } else { 0 };
    vec![JUNK; entries + more]
}

/// A length for a buffer that needs this many octets: seldom less, at times more.
fn room(random: &mut Random, needed: usize) -> usize {
    match random.within(1, 40) {
        1 => needed.saturating_sub(random.within(1, 3)),
        2 => random.within(0, needed),
        3..=8 => needed + random.within(1, 20),
        _ => needed,
    }
}

/// A limit on a packet's length, at times out of range.
fn some_limit(random: &mut Random) -> u64 {
    match random.within(1, 12) {
        1 => random.pick(&[0, 1, 6, 65_543, 65_549, 1 << 32, (1 << 32) + 7, u64::MAX]),
        2 | 3 => 7,
        4 => random.pick(&[8, 65_541, 65_542]),
        5 => random.within(7, 65_542) as u64,
        _ => random.within(7, 300) as u64,
    }
}

/// The limit in range that is nearest to this one.
fn near(limit: u64) -> usize {
    limit.clamp(*LIMITS.start() as u64, *LIMITS.end() as u64) as usize
}

/// Why a lent packet is refused by 8, in numbers for the notes: its damage; or else 5 because it is
/// empty, 6 because its header is cut, 7 because it has another length than it states, or 8 because
/// it is one that its call does not take, a space packet to be unwrapped.
fn refused_for(limit: u64, packet: &[u8]) -> u64 {
    match packet::read_header(near(limit), packet) {
        Ok(Look::Damaged(damage)) => damage.number(),
        Ok(Look::Cut) if packet.is_empty() => 5,
        Ok(Look::Cut) => 6,
        Ok(Look::Whole(header)) if header.total != packet.len() => 7,
        _ => 8,
    }
}

/// These settings, or at times such as read the frames of another edition.
fn some_reader(random: &mut Random, settings: Settings) -> Settings {
    if random.once_in(15) {
        Settings { edition: random.pick(&Edition::ALL), ..settings }
    } else {
        settings
    }
}

/// Settings as numbers: these, or now and then some at the edge of the range.
fn some_settings(random: &mut Random, settings: &Settings) -> [u64; calls::SETTINGS] {
    if random.once_in(50) {
        generate::settings_at_an_edge(random, settings)
    } else {
        generate::settings_numbers(settings)
    }
}

fn headers(pair: &mut Pair, random: &mut Random) -> Result<(), Difference> {
    for _ in 0..20 {
        let limit = some_limit(random);
        let mut octets = if random.once_in(3) {
            let damage = random.within(1, 4) as u64;
            generate::damaged(random, near(limit), damage)
        } else {
            generate::front(random, limit.clamp(1, 70_000) as usize)
        };
        if random.once_in(3) {
            octets.truncate(random.within(0, 9));
        }
        let answer = answer(random, calls::HEADER);
        let mut lent = Lent { record: vec![], buffer: vec![], answer };
        let refusal = pair.both("read_header", &[limit], &octets, &mut lent, |calls, lent| {
            calls.read_header(limit, &octets, &mut lent.answer)
        })?;
        if refusal == 0 {
            pair.note("header found", lent.answer[0]);
            pair.note("damage of a header", lent.answer[6]);
            octets.truncate(lent.answer[5].max(1) as usize);
        }
        formed(pair, random, limit, &octets)?;
    }
    Ok(())
}

fn space_headers(pair: &mut Pair, random: &mut Random) -> Result<(), Difference> {
    for _ in 0..20 {
        let octets = generate::space_front(random);
        let answer = answer(random, calls::SPACE_READ);
        let mut lent = Lent { record: vec![], buffer: vec![], answer };
        pair.both("read_space", &[], &octets, &mut lent, |calls, lent| {
            calls.read_space(&octets, &mut lent.answer)
        })?;
        let header = generate::space_numbers(random);
        let size = room(random, 6);
        let mut lent = Lent { record: vec![], buffer: random.octets(size), answer: vec![] };
        pair.both("write_space", &header, &[], &mut lent, |calls, lent| {
            calls.write_space(&header, &mut lent.buffer)
        })?;
    }
    Ok(())
}

/// Whether these octets are one well-formed packet.
fn formed(
    pair: &mut Pair,
    random: &mut Random,
    limit: u64,
    packet: &[u8],
) -> Result<(), Difference> {
    let answer = answer(random, calls::FORMED);
    let mut lent = Lent { record: vec![], buffer: vec![], answer };
    let refusal = pair.both("well_formed", &[limit], packet, &mut lent, |calls, lent| {
        calls.well_formed(limit, packet, &mut lent.answer)
    })?;
    if refusal == 0 {
        pair.note("well formed", lent.answer[0]);
    }
    Ok(())
}

/// The answer of another call, at times with one number changed.
fn some_answer(random: &mut Random, said: &[u64]) -> Vec<u64> {
    let mut said = said.to_vec();
    if random.once_in(4) {
        let place = random.within(0, said.len() - 1);
        said[place] = random.pick(&[0, 1, 2, 3, 8, 100, 1 << 32, u64::MAX]);
    }
    said
}

fn wrapping(pair: &mut Pair, random: &mut Random) -> Result<(), Difference> {
    for _ in 0..6 {
        let limit = some_limit(random);
        let most = near(limit);
        let size = match random.within(1, 10) {
            1 => 0,
            2 => random.within(250, 256),
            3 => random.within(65_528, 65_536),
            4..=6 => most - random.within(0, 7).min(most - 1),
            _ => random.within(1, 40),
        };
        let data = random.octets(size);
        let protocol = match random.within(1, 8) {
            1 => random.pick(&[0, 8, 255, 256, 262, u64::MAX]),
            2..=4 => 6,
            _ => random.within(1, 7) as u64,
        };
        let extension = match random.within(1, 8) {
            1 => random.pick(&[16, 255, 256, u64::MAX]),
            2 => random.within(0, 15) as u64,
            3..=5 if protocol == 6 => random.within(1, 15) as u64,
            _ => 0,
        };
        let header = if size > 65_531 { 8 } else { 4 };
        let mut lent = Lent {
            record: vec![],
            buffer: vec![0x5A; room(random, size + header)],
            answer: answer(random, calls::WRAPPED),
        };
        let arguments = [limit, protocol, extension, size as u64];
        let refusal = pair.both("wrap", &arguments, &data, &mut lent, |calls, lent| {
            calls.wrap(limit, protocol, extension, &data, &mut lent.buffer, &mut lent.answer)
        })?;
        if refusal == 8 {
            // 1 is an empty data unit, 2 an overlong one.
            pair.note("data unit refused for", if data.is_empty() { 1 } else { 2 });
        }

        // What was wrapped is unwrapped again, as it is or with one octet changed; and what is no
        // packet.
        let mut packet = if refusal == 0 {
            lent.buffer[..lent.answer[0] as usize].to_vec()
        } else {
            let total = random.within(1, most.min(300));
            generate::packet_of(random, total)
        };
        match random.within(1, 4) {
            1 => {
                let place = random.within(0, packet.len().min(8) - 1);
                let any = random.octet();
                packet[place] = random.pick(&[0, 1, 0xFF, any]);
            }
            2 if random.once_in(3) => packet.truncate(random.within(0, packet.len())),
            3 if random.once_in(3) => packet.push(0),
            _ => {}
        }
        let limit = if random.once_in(8) { some_limit(random) } else { limit };
        unwrap(pair, random, limit, &packet)?;
        let none = generate::no_packet(random, near(limit));
        unwrap(pair, random, limit, &none)?;
    }
    Ok(())
}

/// Unwraps a packet on both sides, and looks for the data unit in it.
fn unwrap(
    pair: &mut Pair,
    random: &mut Random,
    limit: u64,
    packet: &[u8],
) -> Result<(), Difference> {
    let answer = answer(random, calls::UNWRAPPED);
    let mut lent = Lent { record: vec![], buffer: vec![], answer };
    let refusal = pair.both("unwrap", &[limit], packet, &mut lent, |calls, lent| {
        calls.unwrap(limit, packet, &mut lent.answer)
    })?;
    if refusal == 8 {
        pair.note("unwrap refused for", refused_for(limit, packet));
    }
    let unwrapped = some_answer(random, &lent.answer);
    lent.answer = self::answer(random, calls::UNIT);
    pair.both("unit_part", &unwrapped, packet, &mut lent, |calls, lent| {
        calls.unit_part(&unwrapped, packet, &mut lent.answer)
    })?;
    Ok(())
}

fn multiplexing(pair: &mut Pair, random: &mut Random) -> Result<(), Difference> {
    let settings = generate::settings(random);
    let size = settings.frame_length() + random.within(0, 3);
    let record = answer(random, calls::MUX);
    let mut lent = Lent { record, buffer: random.octets(size), answer: vec![] };
    pair.both("mux_begin", &[], &[], &mut lent, |calls, lent| calls.mux_begin(&mut lent.record))?;
    if random.once_in(2) {
        let back = random.within(1, 4) as u32;
        lent.record[0] = generate::before_a_turn(random, settings.edition, back).into();
    }
    let mut packet = generate::packet(random, &settings);
    for _ in 0..random.within(4, 60) {
        let numbers = some_settings(random, &settings);
        if random.once_in(12) {
            // Another frame is lent.
            lent.buffer = random.octets(size);
        }
        let whole = lent.clone();
        if random.once_in(25) {
            lent.buffer.truncate(room(random, settings.frame_length()));
        } else if random.once_in(50) {
            lent.buffer.truncate(settings.frame_length() - random.within(1, TRAILER + 1));
        }
        match random.within(1, 12) {
            1 => flush(pair, random, &numbers, &mut lent)?,
            2 => idle(pair, &numbers, &mut lent)?,
            3 if random.once_in(2) => {
                // Another packet than the one begun, or one that is not well-formed.
                let mut other = generate::packet(random, &settings);
                match random.within(1, 8) {
                    1 => other.push(0),
                    2 => other.truncate(random.within(0, other.len())),
                    3 => other[0] = random.octet(),
                    4..=6 => other = generate::no_packet(random, settings.limit),
                    _ => {}
                }
                put(pair, random, &numbers, &mut lent, &other)?;
            }
            _ => {
                if put(pair, random, &numbers, &mut lent, &packet)? {
                    packet = generate::packet(random, &settings);
                }
            }
        }
        if lent.buffer.len() != whole.buffer.len() {
            lent.buffer = whole.buffer;
        }
    }
    Ok(())
}

/// Puts a packet on both sides; answers whether it was taken.
fn put(
    pair: &mut Pair,
    random: &mut Random,
    numbers: &[u64],
    lent: &mut Lent,
    packet: &[u8],
) -> Result<bool, Difference> {
    let count = lent.record[0];
    lent.answer = answer(random, calls::PUT);
    let refusal = pair.both("mux_put", numbers, packet, lent, |calls, lent| {
        calls.mux_put(numbers, &mut lent.record, packet, &mut lent.buffer, &mut lent.answer)
    })?;
    if refusal == 0 {
        pair.note("full and taken", 2 * lent.answer[0] + lent.answer[1]);
        pair.note_written(edition_of(numbers), count, lent.record[0]);
    } else if refusal == 8 {
        pair.note("put refused for", refused_for(numbers[3], packet));
    }
    Ok(refusal == 0 && lent.answer[1] == 1)
}

fn flush(
    pair: &mut Pair,
    random: &mut Random,
    numbers: &[u64],
    lent: &mut Lent,
) -> Result<(), Difference> {
    let count = lent.record[0];
    lent.answer = answer(random, calls::FLUSH);
    let refusal = pair.both("mux_flush", numbers, &[], lent, |calls, lent| {
        calls.mux_flush(numbers, &mut lent.record, &mut lent.buffer, &mut lent.answer)
    })?;
    if refusal == 0 {
        pair.note("flush", lent.answer[0]);
        pair.note_written(edition_of(numbers), count, lent.record[0]);
    }
    Ok(())
}

fn idle(pair: &mut Pair, numbers: &[u64], lent: &mut Lent) -> Result<(), Difference> {
    let count = lent.record[0];
    lent.answer = vec![];
    let refusal = pair.both("mux_idle", numbers, &[], lent, |calls, lent| {
        calls.mux_idle(numbers, &mut lent.record, &mut lent.buffer)
    })?;
    if refusal == 0 {
        pair.note_written(edition_of(numbers), count, lent.record[0]);
    }
    Ok(())
}

/// A store of random octets; seldom too short.
fn some_store(random: &mut Random, settings: &Settings) -> Vec<u8> {
    let size = if random.once_in(60) {
        room(random, settings.limit)
    } else {
        settings.limit + random.pick(&[0, 0, 0, 1, 9])
    };
    random.octets(size)
}

fn extracting(pair: &mut Pair, random: &mut Random) -> Result<(), Difference> {
    let settings = generate::settings(random);
    let frames = generate::some_run(random, &settings);
    let settings = some_reader(random, settings);
    let mut lent = Lent {
        record: vec![0; calls::EXTRACTOR],
        buffer: some_store(random, &settings),
        answer: vec![],
    };
    for frame in &frames {
        let numbers = some_settings(random, &settings);
        if random.once_in(30) {
            // A step with no frame entered.
            step(pair, random, &numbers, &mut lent, frame)?;
        }
        let refusal = enter(pair, random, &numbers, &mut lent, frame)?;
        if refusal == 0 {
            pair.note("reason", lent.answer[5]);
            walk(pair, random, &settings, &mut lent, frame)?;
        }
        if random.once_in(200) {
            // The store changes behind the extractor's back.
            let place = random.within(0, lent.buffer.len().min(9)).saturating_sub(1);
            if let Some(octet) = lent.buffer.get_mut(place) {
                *octet = random.octet();
            }
        }
    }
    Ok(())
}

/// Steps a frame until it is spent, at times with other calls between.
fn walk(
    pair: &mut Pair,
    random: &mut Random,
    settings: &Settings,
    lent: &mut Lent,
    frame: &[u8],
) -> Result<(), Difference> {
    let mut steps = 0;
    let careful = !random.once_in(6);
    loop {
        let numbers = if careful {
            generate::settings_numbers(settings)
        } else {
            some_settings(random, settings)
        };
        let mut stepped = frame.to_vec();
        if !careful && random.once_in(8) {
            enter(pair, random, &numbers, lent, frame)?;
        }
        if !careful && random.once_in(8) {
            // Another frame than the one entered, at times of another length.
            stepped = random.octets(settings.frame_length());
            if random.once_in(4) {
                stepped.truncate(room(random, settings.frame_length()));
            }
            if random.once_in(2) && stepped.len() > HEAD {
                stepped[HEAD..].fill(random.pick(&[0, 0xE0, 0xE1, 0xFF]));
            }
        }
        let refusal = step(pair, random, &numbers, lent, &stepped)?;
        steps += 1;
        if refusal == 0 && lent.answer[0] == 4 {
            break;
        }
        if random.once_in(4) {
            show(pair, random, lent, &stepped)?;
        }
        // Only refused steps can make it longer than the zone allows.
        if steps > settings.zone {
            let late = format!("not spent within {} steps", settings.zone + 1);
            if careful && refusal == 0 {
                let lent = format!("settings {settings:?}");
                return Err(Difference {
                    call: "extractor_step",
                    index: pair.index,
                    what: late,
                    lent,
                });
            }
            break;
        }
    }
    Ok(())
}

fn enter(
    pair: &mut Pair,
    random: &mut Random,
    numbers: &[u64],
    lent: &mut Lent,
    frame: &[u8],
) -> Result<u64, Difference> {
    let before = lent.record.clone();
    lent.answer = answer(random, calls::ENTERED);
    let refusal = pair.both("extractor_enter", numbers, frame, lent, |calls, lent| {
        calls.extractor_enter(numbers, &mut lent.record, &lent.buffer, frame, &mut lent.answer)
    })?;
    match refusal {
        0 => {
            if before[0] != 0 {
                pair.note_read(edition_of(numbers), before[1], lent.answer[1]);
            }
            if lent.answer[5] == 3 {
                pair.note("damage at entering", lent.answer[6]);
            }
        }
        6 => pair.note_wrong_signalling(edition_of(numbers), frame),
        _ => {}
    }
    Ok(refusal)
}

fn step(
    pair: &mut Pair,
    random: &mut Random,
    numbers: &[u64],
    lent: &mut Lent,
    frame: &[u8],
) -> Result<u64, Difference> {
    lent.answer = answer(random, calls::STEP);
    let refusal = pair.both("extractor_step", numbers, frame, lent, |calls, lent| {
        calls.extractor_step(numbers, &mut lent.record, &mut lent.buffer, frame, &mut lent.answer)
    })?;
    if refusal == 0 {
        pair.note("step", lent.answer[0]);
        pair.note("packet lies in", lent.answer[1]);
        if lent.answer[0] == 3 {
            pair.note("damage in a step", lent.answer[4]);
        }
    }
    Ok(refusal)
}

/// Where the packet of the last step lies.
fn show(
    pair: &mut Pair,
    random: &mut Random,
    lent: &mut Lent,
    frame: &[u8],
) -> Result<(), Difference> {
    let step = some_answer(random, &lent.answer);
    lent.answer = answer(random, calls::SHOWN);
    pair.both("show", &step, frame, lent, |calls, lent| {
        calls.show(&step, frame, &lent.buffer, &mut lent.answer)
    })?;
    pair.note("shown in", lent.answer[0]);
    Ok(())
}

fn judging(pair: &mut Pair, random: &mut Random) -> Result<(), Difference> {
    let settings = generate::settings(random);
    let frames = generate::some_run(random, &settings);
    let settings = some_reader(random, settings);
    let mut lent = Lent {
        record: vec![0; calls::JUDGE],
        buffer: some_store(random, &settings),
        answer: vec![],
    };
    for frame in &frames {
        let numbers = some_settings(random, &settings);
        judge(pair, &numbers, &mut lent, frame)?;
        if random.once_in(3) {
            close(pair, random, &numbers, &mut lent)?;
        }
    }
    end(pair, random, &settings, &mut lent)
}

/// Closes a run, and notes its verdict.
fn end(
    pair: &mut Pair,
    random: &mut Random,
    settings: &Settings,
    lent: &mut Lent,
) -> Result<(), Difference> {
    let numbers = generate::settings_numbers(settings);
    if close(pair, random, &numbers, lent)? == 0 {
        pair.note("verdict", lent.answer[0]);
    }
    Ok(())
}

/// A run that is handed over in tapes, at times with a torn one before a whole one.
fn taping(pair: &mut Pair, random: &mut Random) -> Result<(), Difference> {
    let settings = generate::settings(random);
    let frames = generate::some_run(random, &settings);
    let settings = some_reader(random, settings);
    let mut lent = Lent {
        record: generate::record_before(random, &settings, &frames).to_vec(),
        buffer: some_store(random, &settings),
        answer: vec![],
    };
    for tape in generate::tapes(random, &frames) {
        let numbers = some_settings(random, &settings);
        if random.once_in(3) {
            let torn = generate::torn(random, &settings, &tape);
            judge_tape(pair, &numbers, &mut lent, &torn)?;
        }
        if random.once_in(20) {
            // A store that is too short.
            let mut short = lent.clone();
            short.buffer.truncate(settings.limit - 1);
            judge_tape(pair, &numbers, &mut short, &tape)?;
        }
        if judge_tape(pair, &numbers, &mut lent, &tape)? == 11 {
            fill_the_tally(pair, random, &numbers, &mut lent, &tape)?;
        }
        if random.once_in(3) {
            close(pair, random, &numbers, &mut lent)?;
        }
    }
    end(pair, random, &settings, &mut lent)
}

/// Hands over as much of a tape that has too many frames as there may still be, after a little more
/// than that; and then something to the full tally.
fn fill_the_tally(
    pair: &mut Pair,
    random: &mut Random,
    numbers: &[u64],
    lent: &mut Lent,
    tape: &[u8],
) -> Result<(), Difference> {
    let front = |size: usize| &tape[..size.min(tape.len())];
    let length = frame_length(numbers);
    let left = u64::from(MOST_FRAMES).saturating_sub(lent.record[1]) as usize * length;
    let rest = random.within(1, length - 1);
    for part in [
        front(left + length),
        front(left + rest),
        front(left),
        // Nothing, a rest and a frame.
        &[],
        front(rest),
        front(length),
    ] {
        judge_tape(pair, numbers, lent, part)?;
    }
    Ok(())
}

fn judge_tape(
    pair: &mut Pair,
    numbers: &[u64],
    lent: &mut Lent,
    tape: &[u8],
) -> Result<u64, Difference> {
    let before = lent.record.clone();
    lent.answer = vec![];
    let refusal = pair.both("judge_tape", numbers, tape, lent, |calls, lent| {
        calls.judge_tape(numbers, &mut lent.record, &mut lent.buffer, tape)
    })?;
    if matches!(refusal, 0 | 3 | 11) {
        pair.note_tape(refusal, numbers, &before, &lent.record, tape);
    }
    Ok(refusal)
}

/// A run that is handed over in tapes and frame by frame.
fn tapes_and_frames(pair: &mut Pair, random: &mut Random) -> Result<(), Difference> {
    let settings = generate::settings(random);
    let frames = generate::some_run(random, &settings);
    let mut lent = Lent {
        record: generate::record_before(random, &settings, &frames).to_vec(),
        buffer: random.octets(settings.limit),
        answer: vec![],
    };
    for tape in generate::tapes(random, &frames) {
        if random.once_in(3) {
            let torn = generate::torn(random, &settings, &tape);
            tape_and_frames(pair, random, &settings, &mut lent, &torn)?;
        }
        tape_and_frames(pair, random, &settings, &mut lent, &tape)?;
    }
    Ok(())
}

/// Both sides judge the frames of a tape singly, none if the tape is to be refused. Then each side, by
/// its own calls alone, takes the tape from the same record and store, and must come to the same
/// record, store and verdict.
fn tape_and_frames(
    pair: &mut Pair,
    random: &mut Random,
    settings: &Settings,
    lent: &mut Lent,
    tape: &[u8],
) -> Result<(), Difference> {
    let numbers = generate::settings_numbers(settings);
    let before = lent.clone();
    let refusal = refusal_of_tape(settings, before.record[1], tape);
    if refusal == 0 {
        for frame in tape.chunks_exact(settings.frame_length()) {
            judge(pair, &numbers, lent, frame)?;
        }
    }
    close(pair, random, &numbers, lent)?;
    for calls in [pair.first, pair.second] {
        let mut taped = Lent { answer: vec![JUNK; lent.answer.len()], ..before.clone() };
        let Lent { record, buffer, answer } = &mut taped;
        let said = calls.judge_tape(&numbers, record, buffer, tape);
        calls.judge_close(&numbers, record, buffer, answer);
        if let Some(what) = unlike((refusal, lent), (said, &taped)) {
            let what = format!("{what}, singly and as a tape");
            let (index, lent) = (pair.index, told(&numbers, tape, &before));
            return Err(Difference { call: "judge_tape", index, what, lent });
        }
    }
    Ok(())
}

/// What a tape is refused for behind so many frames, as document 02 has it; 0 is nothing.
fn refusal_of_tape(settings: &Settings, tally: u64, tape: &[u8]) -> u64 {
    let length = settings.frame_length();
    let whole = (tape.len() / length) as u64;
    if tally + whole > u64::from(MOST_FRAMES) {
        11
    } else if tape.len() % length != 0 {
        3
    } else {
        0
    }
}

fn judge(
    pair: &mut Pair,
    numbers: &[u64],
    lent: &mut Lent,
    frame: &[u8],
) -> Result<u64, Difference> {
    lent.answer = vec![];
    pair.both("judge_frame", numbers, frame, lent, |calls, lent| {
        calls.judge_frame(numbers, &mut lent.record, &mut lent.buffer, frame)
    })
}

fn close(
    pair: &mut Pair,
    random: &mut Random,
    numbers: &[u64],
    lent: &mut Lent,
) -> Result<u64, Difference> {
    lent.answer = answer(random, calls::VERDICT);
    pair.both("judge_close", numbers, &[], lent, |calls, lent| {
        calls.judge_close(numbers, &lent.record, &lent.buffer, &mut lent.answer)
    })
}

fn bits(pair: &mut Pair, random: &mut Random) -> Result<(), Difference> {
    let settings = generate::bit_settings(random);
    let (width, edition) = (settings.width, settings.edition);
    let mut writer = vec![random.any() % u64::from(edition.wheel())];
    if random.once_in(2) {
        let back = random.within(0, 4) as u32;
        writer[0] = generate::before_a_turn(random, edition, back).into();
    }
    let record = if random.once_in(6) {
        generate::bit_reader_record(random, edition, writer[0]).to_vec()
    } else {
        vec![0; calls::BIT_READER]
    };
    let mut reader = Lent { record, buffer: vec![], answer: vec![] };
    let long_fill = random.once_in(2);
    for _ in 0..random.within(1, 24) {
        let number = match random.within(1, 6) {
            1 => 0,
            2..=4 if long_fill => 0,
            2 => 8 * width,
            3 => 8 * width - 1,
            4 => 8 * width + random.within(0, 2),
            _ => random.within(0, 8 * width),
        };
        let offered = room(random, octets_for(number));
        let offered = random.octets(offered);
        let buffer = room(random, settings.frame_length());
        let mut numbers = if random.once_in(25) {
            generate::bit_settings_at_an_edge(random, &settings)
        } else {
            generate::bit_settings_numbers(&settings)
        };
        let n = if random.once_in(50) { u64::MAX } else { number as u64 };
        let count = writer[0];
        let mut lent = Lent { record: writer, buffer: random.octets(buffer), answer: vec![] };
        if random.once_in(8) {
            // Another writer, of any count, writes the same.
            let record = vec![generate::some_count(random, edition)];
            write_bits(pair, &numbers, &mut Lent { record, ..lent.clone() }, &offered, n)?;
        }
        write_bits(pair, &numbers, &mut lent, &offered, n)?;
        writer = lent.record;

        let mut frame = lent.buffer;
        frame.truncate(settings.frame_length());
        if random.once_in(15) {
            // It is read on a channel of any edition.
            numbers[5] = random.within(0, 2) as u64;
        }
        match random.within(1, 9) {
            // It is lost; or a spoilt one comes before it, or in its place; or it comes twice.
            1 => continue,
            2 | 3 => {
                let mut spoilt = frame.clone();
                generate::spoil_bits(random, &settings, &mut spoilt);
                read_bits(pair, random, &numbers, &mut reader, &spoilt)?;
            }
            4 | 5 => generate::spoil_bits(random, &settings, &mut frame),
            6 if random.once_in(2) => {
                read_bits(pair, random, &numbers, &mut reader, &frame)?;
            }
            _ => {}
        }
        read_bits(pair, random, &numbers, &mut reader, &frame)?;
        if random.once_in(4) {
            // Another reader, of any record, reads it too.
            let record = generate::bit_reader_record(random, edition, count).to_vec();
            let mut other = Lent { record, buffer: vec![], answer: vec![] };
            read_bits(pair, random, &numbers, &mut other, &frame)?;
        }
    }
    Ok(())
}

fn write_bits(
    pair: &mut Pair,
    numbers: &[u64],
    lent: &mut Lent,
    bits: &[u8],
    number: u64,
) -> Result<(), Difference> {
    let count = lent.record[0];
    let refusal = pair.both("bits_write", numbers, bits, lent, |calls, lent| {
        calls.bits_write(numbers, &mut lent.record, bits, number, &mut lent.buffer)
    })?;
    if refusal == 0 {
        pair.note_written(edition_of(numbers), count, lent.record[0]);
    }
    Ok(())
}

/// Reads a frame of bits on both sides, and notes the losses that it meets.
fn read_bits(
    pair: &mut Pair,
    random: &mut Random,
    numbers: &[u64],
    lent: &mut Lent,
    frame: &[u8],
) -> Result<(), Difference> {
    let before = lent.record.clone();
    lent.answer = answer(random, calls::BITS);
    let refusal = pair.both("bits_read", numbers, frame, lent, |calls, lent| {
        calls.bits_read(numbers, &mut lent.record, frame, &mut lent.answer)
    })?;
    if refusal == 0 {
        let (count, number) = (lent.answer[0], lent.answer[3]);
        let edition = edition_of(numbers);
        pair.note("loss flag", lent.answer[2]);
        pair.note("loss waits", lent.record[2]);
        if before[0] != 0 {
            pair.note_read(edition, before[1], count);
        }
        // 1 is a loss of this count, 2 one that waited, 3 both.
        let follows = before[0] == 0 || count == (before[1] + 1) % u64::from(edition.wheel());
        let loss = u64::from(!follows) + 2 * before[2];
        pair.note(if number == 0 { "loss in fill" } else { "loss with bits" }, loss);
    } else if before[2] == 1 {
        pair.note("loss waits at refusal", refusal);
    }
    if refusal == 6 {
        pair.note_wrong_signalling(edition_of(numbers), frame);
    }
    Ok(())
}

/// Loads of a table, which is empty at first or nothing that is one, and packets routed by it.
fn relaying(pair: &mut Pair, random: &mut Random) -> Result<(), Difference> {
    let mut record = answer(random, calls::RELAY);
    if !random.once_in(6) {
        record[..calls::RELAY].fill(0);
    }
    let mut lent = Lent { record, buffer: vec![], answer: vec![] };
    for _ in 0..random.within(1, 6) {
        load(pair, &mut lent, &generate::relay_list(random))?;
        for _ in 0..random.within(1, 8) {
            let whole = lent.record.clone();
            if random.once_in(4) {
                // The table changes behind the relay's back.
                generate::damage_table(random, &mut lent.record);
            }
            route(pair, random, &mut lent)?;
            lent.record = whole;
        }
    }
    Ok(())
}

fn load(pair: &mut Pair, lent: &mut Lent, list: &[u64]) -> Result<(), Difference> {
    lent.buffer = vec![];
    lent.answer = vec![];
    pair.both("relay_load", list, &[], lent, |calls, lent| {
        calls.relay_load(list, &mut lent.record)
    })?;
    Ok(())
}

/// Routes some packet by the table in the record.
fn route(pair: &mut Pair, random: &mut Random, lent: &mut Lent) -> Result<(), Difference> {
    let limit = some_limit(random);
    let packet = generate::relay_packet(random, &lent.record, near(limit));
    let size = room(random, destinations(&lent.record, &packet));
    lent.buffer = random.octets(size);
    lent.answer = answer(random, calls::ROUTED);
    let refusal = pair.both("relay_route", &[limit], &packet, lent, |calls, lent| {
        calls.relay_route(limit, &lent.record, &packet, &mut lent.buffer, &mut lent.answer)
    })?;
    if refusal == 0 {
        pair.note("routed", lent.answer[0]);
        // Two stand for all that are several.
        pair.note("destinations", lent.answer[1].min(2));
    } else if refusal == 8 {
        pair.note("route refused for", refused_for(limit, &packet));
    }
    Ok(())
}

/// How many destinations the reference has for a packet, 0 where it refuses it.
fn destinations(table: &[u64], packet: &[u8]) -> usize {
    let mut routed = [0; calls::ROUTED];
    let limit = *LIMITS.end() as u64;
    Reference.relay_route(limit, table, packet, &mut [0; MOST_ENTRIES], &mut routed);
    routed[1] as usize
}

/// Single calls on records and stores of any kind, and what follows from them.
fn any_record(pair: &mut Pair, random: &mut Random) -> Result<(), Difference> {
    let settings = generate::settings(random);
    for _ in 0..30 {
        let numbers = some_settings(random, &settings);
        let mut store = some_store(random, &settings);
        let front = generate::front(random, settings.limit);
        let size = front.len().min(store.len());
        store[..size].copy_from_slice(&front[..size]);
        let frames = generate::some_run(random, &settings);
        let frame = if frames.is_empty() || random.once_in(4) {
            let mut frame = random.octets(settings.frame_length());
            frame[..2].copy_from_slice(&[0x40, 0x00]);
            if settings.trailer && random.once_in(2) {
                generate::seal(&mut frame);
            }
            frame
        } else {
            frames[random.within(0, frames.len() - 1)].clone()
        };
        match random.within(1, 7) {
            1 => {
                let record = generate::mux_record(random, &settings).to_vec();
                let buffer = random.octets(settings.frame_length());
                let mut lent = Lent { record, buffer, answer: vec![] };
                let packet = if random.once_in(4) {
                    generate::no_packet(random, settings.limit)
                } else {
                    generate::packet(random, &settings)
                };
                match random.within(1, 3) {
                    1 => flush(pair, random, &numbers, &mut lent)?,
                    2 => idle(pair, &numbers, &mut lent)?,
                    _ => {
                        put(pair, random, &numbers, &mut lent, &packet)?;
                    }
                }
            }
            2 | 3 => {
                let record = generate::judge_record(random, &settings, store.len()).to_vec();
                let mut lent = Lent { record, buffer: store, answer: vec![] };
                close(pair, random, &numbers, &mut lent)?;
                for _ in 0..random.within(1, 3) {
                    judge(pair, &numbers, &mut lent, &frame)?;
                    close(pair, random, &numbers, &mut lent)?;
                }
            }
            4 => {
                let record = generate::judge_record(random, &settings, store.len()).to_vec();
                let mut lent = Lent { record, buffer: store, answer: vec![] };
                for tape in generate::tapes(random, &frames).iter().take(3) {
                    let torn = generate::torn(random, &settings, tape);
                    judge_tape(pair, &numbers, &mut lent, &torn)?;
                    judge_tape(pair, &numbers, &mut lent, tape)?;
                    close(pair, random, &numbers, &mut lent)?;
                }
            }
            _ => {
                let record = generate::extractor_record(random, &settings, store.len()).to_vec();
                let mut lent = Lent { record, buffer: store, answer: vec![] };
                let refusal = if random.once_in(2) {
                    enter(pair, random, &numbers, &mut lent, &frame)?
                } else {
                    step(pair, random, &numbers, &mut lent, &frame)?
                };
                if refusal == 0 && matches!(lent.record[0], 3 | 4) {
                    walk(pair, random, &settings, &mut lent, &frame)?;
                }
            }
        }
    }
    Ok(())
}

/// Every call with one of its arrays of numbers too short, and with all of them
/// longer than they need be.
fn short_arrays(pair: &mut Pair, random: &mut Random) -> Result<(), Difference> {
    let settings = generate::settings(random);
    let frame = random.octets(settings.frame_length());
    let packet = generate::packet(random, &settings);
    let store = random.octets(settings.limit);
    // An array of these numbers, cut if it is the one in question.
    let cut = |random: &mut Random, numbers: &[u64], short: bool| {
        let mut numbers = numbers.to_vec();
        if short {
            let most = numbers.len() - 1;
            let fewer = random.within(0, most);
            numbers.truncate(random.pick(&[fewer, most]));
        } else if random.once_in(3) {
            numbers.extend([JUNK, 0]);
        }
        numbers
    };
    let channel = generate::settings_numbers(&settings);
    let [spacecraft, name, zone, _, fill, trailer, edition] = channel;
    let bit_settings = [spacecraft, name, zone, fill, trailer, edition];
    for short in 0..4 {
        let all = |random: &mut Random, settings: &[u64], record: &[u64], answer: usize| {
            let settings = cut(random, settings, short == 1);
            let record = cut(random, record, short == 2);
            let answer =
                if answer == 0 { vec![] } else { cut(random, &vec![JUNK; answer], short == 3) };
            (settings, Lent { record, buffer: vec![], answer })
        };
        let limit = settings.limit as u64;

        let (_, mut lent) = all(random, &channel, &[0], calls::HEADER);
        pair.both("read_header", &[limit], &packet, &mut lent, |calls, lent| {
            calls.read_header(limit, &packet, &mut lent.answer)
        })?;
        let (_, mut lent) = all(random, &channel, &[0], calls::FORMED);
        pair.both("well_formed", &[limit], &packet, &mut lent, |calls, lent| {
            calls.well_formed(limit, &packet, &mut lent.answer)
        })?;
        let (_, mut lent) = all(random, &channel, &[0], calls::WRAPPED);
        lent.buffer = frame.clone();
        pair.both("wrap", &[limit], &[1], &mut lent, |calls, lent| {
            calls.wrap(limit, 2, 0, &[1], &mut lent.buffer, &mut lent.answer)
        })?;
        let (_, mut lent) = all(random, &channel, &[0], calls::UNWRAPPED);
        pair.both("unwrap", &[limit], &packet, &mut lent, |calls, lent| {
            calls.unwrap(limit, &packet, &mut lent.answer)
        })?;

        let (_, mut lent) = all(random, &channel, &[0], calls::SPACE_READ);
        pair.both("read_space", &[], &packet, &mut lent, |calls, lent| {
            calls.read_space(&packet, &mut lent.answer)
        })?;
        let (header, mut lent) = all(random, &[0, 0, 0, 5, 3, 0, 1], &[0], 0);
        lent.buffer = frame.clone();
        pair.both("write_space", &header, &[], &mut lent, |calls, lent| {
            calls.write_space(&header, &mut lent.buffer)
        })?;

        let (numbers, mut lent) = all(random, &[2, 0, 4, 3, 0], &[0], calls::UNIT);
        pair.both("unit_part", &numbers, &packet, &mut lent, |calls, lent| {
            calls.unit_part(&numbers, &packet, &mut lent.answer)
        })?;

        let (_, mut lent) = all(random, &channel, &[JUNK; calls::MUX], 0);
        pair.both("mux_begin", &[], &[], &mut lent, |calls, lent| {
            calls.mux_begin(&mut lent.record)
        })?;
        let (numbers, mut lent) = all(random, &channel, &[0, 0, 2_047, 0], calls::PUT);
        lent.buffer = frame.clone();
        pair.both("mux_put", &numbers, &packet, &mut lent, |calls, lent| {
            calls.mux_put(&numbers, &mut lent.record, &packet, &mut lent.buffer, &mut lent.answer)
        })?;
        let (numbers, mut lent) = all(random, &channel, &[0, 0, 2_047, 0], calls::FLUSH);
        lent.buffer = frame.clone();
        pair.both("mux_flush", &numbers, &[], &mut lent, |calls, lent| {
            calls.mux_flush(&numbers, &mut lent.record, &mut lent.buffer, &mut lent.answer)
        })?;
        let (numbers, mut lent) = all(random, &channel, &[0, 0, 2_047, 0], 0);
        lent.buffer = frame.clone();
        pair.both("mux_idle", &numbers, &[], &mut lent, |calls, lent| {
            calls.mux_idle(&numbers, &mut lent.record, &mut lent.buffer)
        })?;

        let (numbers, mut lent) = all(random, &channel, &[0, 0, 0, 0], calls::ENTERED);
        lent.buffer = store.clone();
        pair.both("extractor_enter", &numbers, &frame, &mut lent, |calls, lent| {
            calls.extractor_enter(
                &numbers,
                &mut lent.record,
                &lent.buffer,
                &frame,
                &mut lent.answer,
            )
        })?;
        let (numbers, mut lent) = all(random, &channel, &[3, 7, 0, 0], calls::STEP);
        lent.buffer = store.clone();
        pair.both("extractor_step", &numbers, &frame, &mut lent, |calls, lent| {
            calls.extractor_step(
                &numbers,
                &mut lent.record,
                &mut lent.buffer,
                &frame,
                &mut lent.answer,
            )
        })?;

        let (numbers, mut lent) = all(random, &[1, 1, 8, 1, 0], &[0], calls::SHOWN);
        lent.buffer = store.clone();
        pair.both("show", &numbers, &frame, &mut lent, |calls, lent| {
            calls.show(&numbers, &frame, &lent.buffer, &mut lent.answer)
        })?;

        let (numbers, mut lent) = all(random, &channel, &[0, 0, 0, 0], 0);
        lent.buffer = store.clone();
        pair.both("judge_frame", &numbers, &frame, &mut lent, |calls, lent| {
            calls.judge_frame(&numbers, &mut lent.record, &mut lent.buffer, &frame)
        })?;
        let (numbers, mut lent) = all(random, &channel, &[0, 0, 0, 0], 0);
        lent.buffer = store.clone();
        pair.both("judge_tape", &numbers, &frame, &mut lent, |calls, lent| {
            calls.judge_tape(&numbers, &mut lent.record, &mut lent.buffer, &frame)
        })?;
        let (numbers, mut lent) = all(random, &channel, &[2, 5, 3, 0], calls::VERDICT);
        lent.buffer = store.clone();
        pair.both("judge_close", &numbers, &[], &mut lent, |calls, lent| {
            calls.judge_close(&numbers, &lent.record, &lent.buffer, &mut lent.answer)
        })?;

        let (numbers, mut lent) = all(random, &bit_settings, &[9], 0);
        lent.buffer = frame.clone();
        pair.both("bits_write", &numbers, &packet, &mut lent, |calls, lent| {
            calls.bits_write(&numbers, &mut lent.record, &packet, 5, &mut lent.buffer)
        })?;
        let (numbers, mut lent) = all(random, &bit_settings, &[0, 0, 0], calls::BITS);
        pair.both("bits_read", &numbers, &frame, &mut lent, |calls, lent| {
            calls.bits_read(&numbers, &mut lent.record, &frame, &mut lent.answer)
        })?;

        let (list, mut lent) = all(random, &[5, 7, 5, 9], &[JUNK; calls::RELAY], 0);
        pair.both("relay_load", &list, &[], &mut lent, |calls, lent| {
            calls.relay_load(&list, &mut lent.record)
        })?;
        let (_, mut lent) = all(random, &channel, &[0; calls::RELAY], calls::ROUTED);
        lent.buffer = frame.clone();
        pair.both("relay_route", &[limit], &packet, &mut lent, |calls, lent| {
            calls.relay_route(limit, &lent.record, &packet, &mut lent.buffer, &mut lent.answer)
        })?;
    }
    Ok(())
}

/// A manner of a channel and of its refusal 6.
fn some_manner(random: &mut Random) -> Manner {
    let (trailer, edition) = (random.once_in(2), random.pick(&Edition::ALL));
    let wrong_bits = random.pick(orders::wrong_bits(edition));
    Manner { trailer, edition, wrong_bits }
}

/// Every call with several of its refusals called for at once, at times with a damaged header.
fn several_refusals(pair: &mut Pair, random: &mut Random) -> Result<(), Difference> {
    for order in &ORDERS {
        for _ in 0..6 {
            let manner = some_manner(random);
            let refusals: Vec<u64> =
                order.refusals(manner.trailer).filter(|_| random.once_in(3)).collect();
            let mut arguments = orders::arguments(order.call, &refusals, manner);
            if orders::NAMING.contains(&order.call) {
                orders::damage(random.within(0, 4) as u64, &mut arguments);
            }
            let Arguments { numbers, record, octets, buffer, answer } = arguments;
            let mut lent = Lent { record, buffer, answer };
            pair.both(order.call, &numbers, &octets, &mut lent, |calls, lent| {
                let Lent { record, buffer, answer } = lent.clone();
                let (numbers, octets) = (numbers.clone(), octets.clone());
                let mut arguments = Arguments { numbers, record, octets, buffer, answer };
                let refusal = orders::make(calls, order.call, &mut arguments);
                let Arguments { record, buffer, answer, .. } = arguments;
                *lent = Lent { record, buffer, answer };
                refusal
            })?;
        }
    }
    Ok(())
}
