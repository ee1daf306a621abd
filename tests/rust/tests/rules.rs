//! Whole frames and whole runs, read a second way.
//!
//! Here document 01's rules, with document 02's trailers, its loss flag, its names of
//! damage, its longer count and its tapes, are taken over lists of octets, a frame at
//! a time and a run at a time, with no record, store or walk; and the reference is held
//! against them.

use std::collections::BTreeMap;

use itzahuemo_reference::generate;
use itzahuemo_reference::random::Random;
use itzahuemo_reference::reference::bitstream::{self, Reader, Writer};
use itzahuemo_reference::reference::edition::Edition;
use itzahuemo_reference::reference::extractor::{self, Step};
use itzahuemo_reference::reference::frame::Settings;
use itzahuemo_reference::reference::judge::{self, Verdict};

/// What the front of some octets is: the total length that a whole header states,
/// nothing yet, or damage, with its number.
#[derive(PartialEq)]
enum Front {
    Total(usize),
    Nothing,
    Damage(u64),
}

fn number(octets: &[u8]) -> usize {
    octets.iter().fold(0, |number, &octet| number * 256 + usize::from(octet))
}

fn front(limit: usize, octets: &[u8]) -> Front {
    let (header, places, add) = match octets.first() {
        None => return Front::Nothing,
        Some(0x00..=0x1F) => (6, 4..6, 7),
        Some(0xE0) => (1, 0..0, 1),
        Some(first @ 0xE0..=0xFF) if first % 4 == 1 => (2, 1..2, 0),
        Some(first @ 0xE0..=0xFF) if first % 4 == 2 => (4, 2..4, 0),
        Some(first @ 0xE0..=0xFF) if first % 4 == 3 => (8, 4..8, 0),
        Some(0xE0..=0xFF) => return Front::Damage(2),
        Some(0x20..=0xDF) => return Front::Damage(1),
    };
    if octets.len() < header {
        return Front::Nothing;
    }
    let total = number(&octets[places]) + add;
    match total {
        _ if total < header => Front::Damage(3),
        _ if total > limit => Front::Damage(4),
        _ => Front::Total(total),
    }
}

fn is_idle(packet: &[u8]) -> bool {
    if packet[0] < 0x20 {
        number(&packet[..2]) % 2_048 == 2_047
    } else {
        let protocol = packet[0] / 4 % 8;
        protocol == 0
    }
}

/// Source 004's syndrome of a frame with its trailer, [X^16 C(X) + X^n L(X)] modulo G(X), by long
/// division: n bits of the frame and sixteen zeros, with ones added to the first sixteen.
fn syndrome(frame: &[u8]) -> Vec<bool> {
    let bits =
        frame.iter().flat_map(|octet| (0..8).rev().map(move |place| octet >> place & 1 == 1));
    let mut dividend: Vec<bool> = bits.chain([false; 16]).collect();
    dividend[..16].iter_mut().for_each(|bit| *bit = !*bit);
    for place in 0..dividend.len() - 16 {
        if dividend[place] {
            for power in [16, 12, 5, 0] {
                dividend[place + 16 - power] ^= true;
            }
        }
    }
    dividend.split_off(dividend.len() - 16)
}

/// The number of counts of an edition.
fn wheel(edition: Edition) -> usize {
    match edition {
        Edition::Former | Edition::CycleUnused => 16_777_216,
        Edition::CycleUsed => 268_435_456,
    }
}

/// The refusals 3, 13 and 4 to 6, or the count, the replay flag and the pointer, on a channel of
/// either kind: its name, its zone and trailer, its edition, and the number that its pointers are
/// below.
fn either_header(
    (spacecraft, channel): (u8, u8),
    (zone, trailer): (usize, bool),
    edition: Edition,
    pointers: usize,
    frame: &[u8],
) -> Result<(usize, bool, usize), u64> {
    if frame.len() != zone + if trailer { 10 } else { 8 } {
        return Err(3);
    }
    if trailer && syndrome(frame).contains(&true) {
        return Err(13);
    }
    if frame[0] / 64 != 1 {
        return Err(4);
    }
    let name = number(&frame[..2]) % 16_384;
    if name != usize::from(spacecraft) * 64 + usize::from(channel) {
        return Err(5);
    }
    // What may stand behind the replay flag, from cycle 0 on.
    let allowed = match edition {
        Edition::Former | Edition::CycleUnused => 0..1,
        Edition::CycleUsed => 64..80,
    };
    let signalling = frame[5] % 128;
    let pointer = number(&frame[6..8]);
    if !allowed.contains(&signalling) || pointer >= pointers {
        return Err(6);
    }
    let cycle = usize::from(signalling - allowed.start);
    Ok((cycle * 16_777_216 + number(&frame[2..5]), frame[5] >= 128, pointer))
}

/// The refusals 3, 13 and 4 to 7, or the count, the replay flag and the pointer.
fn header(settings: &Settings, frame: &[u8]) -> Result<(usize, bool, usize), u64> {
    let Settings { spacecraft, channel, zone, trailer, edition, .. } = *settings;
    let head = either_header((spacecraft, channel), (zone, trailer), edition, 2_048, frame)?;
    if head.2 >= zone && head.2 <= 2_045 {
        return Err(7);
    }
    Ok(head)
}

/// The refusals 3, 13 and 4 to 7, or the count, the replay flag and the number of bits.
fn bit_header(settings: &bitstream::Settings, frame: &[u8]) -> Result<(usize, bool, usize), u64> {
    let bitstream::Settings { spacecraft, channel, width, trailer, edition, .. } = *settings;
    let (count, replay, pointer) =
        either_header((spacecraft, channel), (width, trailer), edition, 16_384, frame)?;
    match pointer {
        16_382 => Ok((count, replay, 0)),
        16_383 => Ok((count, replay, 8 * width)),
        last if last < 8 * width - 1 => Ok((count, replay, last + 1)),
        _ => Err(7),
    }
}

/// What is said of a packet, with its octets.
#[derive(Clone, Debug, PartialEq)]
enum Event {
    Packet(Vec<u8>),
    Idle(Vec<u8>),
    Damaged(u64),
}

/// What is said of a frame: refusal; or count, replay, lost, dropped, reason with
/// its damage, and the events.
type Said = Result<(usize, bool, usize, usize, (u64, u64), Vec<Event>), u64>;

/// The rules' state: the last count, and the held octets if in step.
#[derive(Clone, Debug, Default, PartialEq)]
struct State {
    last: Option<usize>,
    held: Option<Vec<u8>>,
}

fn said_of(settings: &Settings, state: &mut State, frame: &[u8]) -> Said {
    let (count, replay, pointer) = header(settings, frame)?;
    let zone = &frame[8..8 + settings.zone];
    let wheel = wheel(settings.edition);
    let lost = state.last.map_or(0, |last| (count + 2 * wheel - last - 1) % wheel);
    state.last = Some(count);

    let mut reason = (0, 0);
    let mut octets = state.held.take();
    if lost != 0 {
        reason = (1, 0);
    } else if let Some(held) = &octets {
        let both = [held, zone].concat();
        let agreed = match front(settings.limit, &both) {
            _ if held.is_empty() => pointer == 0 || pointer == 2_046,
            Front::Damage(damage) => {
                reason = (3, damage);
                true
            }
            Front::Total(total) if total - held.len() < zone.len() => pointer == total - held.len(),
            Front::Total(_) | Front::Nothing => pointer == 2_047,
        };
        if !agreed {
            reason = (2, 0);
        }
    }
    let dropped = if reason.0 == 0 { 0 } else { octets.take().map_or(0, |held| held.len()) };

    // The octets to be cut into packets; none if the frame has nothing to say.
    let rest = match octets {
        _ if pointer == 2_046 => Some(vec![]),
        Some(held) => Some([&held, zone].concat()),
        None if pointer == 2_047 => None,
        None => Some(zone[pointer..].to_vec()),
    };
    let mut events = Vec::new();
    if let Some(mut rest) = rest {
        loop {
            match front(settings.limit, &rest) {
                Front::Damage(damage) => {
                    events.push(Event::Damaged(damage));
                    break;
                }
                Front::Total(total) if total <= rest.len() => {
                    let after = rest.split_off(total);
                    let idle = is_idle(&rest);
                    events.push(if idle { Event::Idle(rest) } else { Event::Packet(rest) });
                    rest = after;
                }
                Front::Total(_) | Front::Nothing => {
                    state.held = Some(rest);
                    break;
                }
            }
        }
    }
    Ok((count, replay, lost, dropped, reason, events))
}

/// The same from the reference's enter, steps and show.
fn heard(
    settings: &Settings,
    record: &mut extractor::Record,
    store: &mut [u8],
    frame: &[u8],
) -> Said {
    let entered = extractor::enter(settings, record, store, frame).map_err(|no| no.number())?;
    let mut events = Vec::new();
    for _ in 0..=settings.zone {
        match extractor::step(settings, record, store, frame).map_err(|no| no.number())? {
            Step::Spent => {
                let extractor::Entered { count, replay, lost, dropped, reason } = entered;
                let damage = reason.damage().map_or(0, |damage| damage.number());
                let reason = (reason.number(), damage);
                return Ok((count as usize, replay, lost as usize, dropped, reason, events));
            }
            Step::Damaged(damage) => events.push(Event::Damaged(damage.number())),
            Step::Packet { kind, part } => {
                let shown = extractor::show(part, store, frame).to_vec();
                let idle = kind.is_idle();
                events.push(if idle { Event::Idle(shown) } else { Event::Packet(shown) });
            }
        }
    }
    panic!("a frame is spent within Z+1 steps");
}

/// The packets that a run carries, if it conforms: the octets of its zones that
/// are not idle, cut into packets, with every pointer and idle zone in its place.
fn carried(settings: &Settings, frames: &[Vec<u8>]) -> Option<Vec<Vec<u8>>> {
    let heads: Vec<_> =
        frames.iter().map(|frame| header(settings, frame).ok()).collect::<Option<_>>()?;
    let wheel = wheel(settings.edition);
    let rising = heads.windows(2).all(|two| two[1].0 == (two[0].0 + 1) % wheel);
    if !rising {
        return None;
    }
    let laid = || frames.iter().zip(&heads).filter(|(_, head)| head.2 != 2_046);
    let octets: Vec<u8> =
        laid().flat_map(|(frame, _)| frame[8..8 + settings.zone].to_vec()).collect();

    let (mut packets, mut starts) = (Vec::new(), vec![]);
    let mut place = 0;
    while place < octets.len() {
        let total = match front(settings.limit, &octets[place..]) {
            Front::Total(total) => total,
            Front::Nothing | Front::Damage(_) => return None,
        };
        packets.push(octets.get(place..place + total)?.to_vec());
        starts.push(place);
        place += total;
    }
    for (index, (_, head)) in laid().enumerate() {
        let from = index * settings.zone;
        let first = starts.iter().find(|&&start| start >= from && start < from + settings.zone);
        if head.2 != first.map_or(2_047, |start| start - from) {
            return None;
        }
    }
    let mut place = 0;
    for head in &heads {
        if head.2 != 2_046 {
            place += settings.zone;
        } else if !starts.contains(&place) && place != octets.len() {
            return None;
        }
    }
    Some(packets)
}

fn is_damage(event: &Event) -> bool {
    matches!(event, Event::Damaged(_))
}

/// The index of the first frame that cannot go on a run, as the rules of the
/// extractor have it for one that began in step.
fn first_fault(settings: &Settings, frames: &[Vec<u8>]) -> Option<usize> {
    let mut state = State { last: None, held: Some(vec![]) };
    for (index, frame) in frames.iter().enumerate() {
        match said_of(settings, &mut state, frame) {
            Ok((.., 0, 0, (0, 0), events)) if !events.iter().any(is_damage) => {}
            _ => return Some(index),
        }
    }
    state.held.map_or(false, |held| !held.is_empty()).then_some(frames.len())
}

fn verdict(settings: &Settings, frames: &[Vec<u8>]) -> Verdict {
    let mut record = judge::Record::Open;
    let mut store = vec![0; settings.limit];
    for frame in frames {
        judge::frame(settings, &mut record, &mut store, frame).unwrap();
    }
    judge::close(settings, &record, &store).unwrap()
}

/// Runs, as they conform, with a damaged header, and spoilt in up to three ways.
fn for_many_runs(mut look: impl FnMut(&Settings, &[Vec<u8>])) {
    for seed in 0..3_000 {
        let mut random = Random::new(0x5EED_0000 + seed);
        let settings = generate::settings(&mut random);
        let run = generate::run(&mut random, &settings, true);
        look(&settings, &run.frames);
        let mut damaged = run.clone();
        generate::damage_header(&mut random, &settings, &mut damaged);
        look(&settings, &damaged.frames);
        let mut frames = run.frames;
        for _ in 0..3 {
            generate::spoil(&mut random, &settings, &mut frames);
            look(&settings, &frames);
        }
    }
}

/// Each event of the extractor is the one that the rules give.
#[test]
fn events_are_those_of_the_rules() {
    let (mut reasons, mut damages, mut refusals) =
        (BTreeMap::new(), BTreeMap::new(), BTreeMap::new());
    for_many_runs(|settings, frames| {
        let mut state = State::default();
        let mut record = extractor::Record::Fresh;
        let mut store = vec![0; settings.limit];
        for frame in frames {
            let before = (record, store.clone());
            let rules = said_of(settings, &mut state, frame);
            let reference = heard(settings, &mut record, &mut store, frame);
            assert_eq!(rules, reference, "{settings:?} {before:x?} {frame:x?}");
            let stands = match record {
                extractor::Record::Fresh => State::default(),
                extractor::Record::OutOfStep { last } => {
                    State { last: Some(last as usize), held: None }
                }
                extractor::Record::InStep { last, held } => {
                    State { last: Some(last as usize), held: Some(store[..held].to_vec()) }
                }
                _ => panic!("a frame that is not spent"),
            };
            assert_eq!(state, stands);
            match rules {
                Ok((.., reason, events)) => {
                    *reasons.entry(reason).or_insert(0) += 1;
                    for event in events {
                        if let Event::Damaged(damage) = event {
                            *damages.entry(damage).or_insert(0) += 1;
                        }
                    }
                }
                Err(number) => {
                    assert_eq!(before, (record, store.clone()));
                    *refusals.entry(number).or_insert(0) += 1;
                }
            }
        }
    });
    // A wrong first octet is damage in the zone where it stands, and never at entering.
    assert!(reasons.keys().eq(&[(0, 0), (1, 0), (2, 0), (3, 3), (3, 4)]), "{reasons:?}");
    assert!(reasons.values().all(|&times| times > 100), "{reasons:?}");
    assert!(damages.keys().eq(&[1, 2, 3, 4]), "{damages:?}");
    assert!(damages.values().all(|&times| times > 100), "{damages:?}");
    assert!(refusals.keys().eq(&[3, 4, 5, 6, 7, 13]), "{refusals:?}");
    assert!(refusals.values().all(|&times| times > 100), "{refusals:?}");
}

/// The judge passes exactly the runs that carry some list of packets, and a fresh
/// extractor then hands over that list.
#[test]
fn the_judge_passes_what_carries_packets() {
    let mut verdicts = [0; 2];
    for_many_runs(|settings, frames| {
        let packets = carried(settings, frames);
        let fault = first_fault(settings, frames);
        let expected = fault.map_or(Verdict::Pass, |index| Verdict::Fault(index as u32));
        assert_eq!(verdict(settings, frames), expected, "{settings:?} {frames:x?}");
        assert_eq!(packets.is_some(), fault.is_none(), "{settings:?} {frames:x?}");
        verdicts[usize::from(packets.is_some())] += 1;
        if let Some(packets) = packets {
            let mut state = State::default();
            let events =
                frames.iter().flat_map(|frame| said_of(settings, &mut state, frame).unwrap().5);
            let handed: Vec<Vec<u8>> = events
                .map(|event| match event {
                    Event::Packet(packet) => packet,
                    Event::Idle(packet) => packet,
                    Event::Damaged(_) => panic!("damage in a run that passed"),
                })
                .collect();
            assert_eq!(handed, packets);
        }
    });
    assert!(verdicts.iter().all(|&times| times > 500), "{verdicts:?}");
}

/// A tape is the run of the frames that it is cut into. With a rest behind them it is refused, and
/// nothing has come of it.
#[test]
fn the_judge_cuts_a_tape_into_frames() {
    let mut outcomes = [0; 3];
    for_many_runs(|settings, frames| {
        let tape = frames.concat();
        let mut record = judge::Record::Open;
        let mut store = vec![0x77; settings.limit];
        let said = judge::tape(settings, &mut record, &mut store, &tape);
        let length = settings.zone + if settings.trailer { 10 } else { 8 };
        if tape.len() % length != 0 {
            assert_eq!(said.map_err(|refusal| refusal.number()), Err(3));
            assert_eq!((record, store), (judge::Record::Open, vec![0x77; settings.limit]));
            outcomes[2] += 1;
            return;
        }
        let cut: Vec<Vec<u8>> = tape.chunks(length).map(<[u8]>::to_vec).collect();
        let fault = first_fault(settings, &cut);
        let expected = fault.map_or(Verdict::Pass, |index| Verdict::Fault(index as u32));
        assert_eq!(judge::close(settings, &record, &store), Ok(expected), "{settings:?} {cut:x?}");
        assert_eq!((said, record.tally() as usize), (Ok(()), cut.len()));
        outcomes[usize::from(fault.is_some())] += 1;
    });
    assert!(outcomes.iter().all(|&times| times > 300), "{outcomes:?}");
}

/// What is multiplexed and closed by a flush is carried, for every small zone.
#[test]
fn multiplexed_packets_are_carried() {
    for zone in (1..=40).chain([255, 256, 1_000, 2_045, 2_046]) {
        for seed in 0..20 {
            let mut random = Random::new(seed);
            let limit = match seed % 4 {
                0 => zone.max(7),
                1 => zone.max(7) + random.within(0, 30),
                2 => 65_542,
                _ => random.within(zone.max(7), 2_500),
            };
            let settings = Settings { zone, limit, ..generate::settings(&mut random) };
            let run = generate::run(&mut random, &settings, false);
            assert_eq!(carried(&settings, &run.frames), Some(run.packets));
            assert_eq!(verdict(&settings, &run.frames), Verdict::Pass);
        }
    }
}

/// A frame of bits that was read: its count and the number of its bits.
type Unit = (usize, usize);

/// The flag of the last of all the units read, with counts round this wheel: it has bits, and
/// looking back to the last unit with bits before it, or to the first unit, some count did not
/// follow.
fn loss_flag(wheel: usize, units: &[Unit]) -> bool {
    let (last, before) = units.split_last().unwrap();
    let since = before.iter().rposition(|unit| unit.1 > 0).unwrap_or(0);
    last.1 > 0 && units[since..].windows(2).any(|two| two[1].0 != (two[0].0 + 1) % wheel)
}

/// Reads one more frame and holds the reader against the list of all units read before, to which it
/// adds the unit of a frame that is not refused; answers the flag.
fn read_on(
    settings: &bitstream::Settings,
    reader: &mut Reader,
    units: &mut Vec<Unit>,
    frame: &[u8],
) -> Result<bool, u64> {
    let before = *reader;
    let wheel = wheel(settings.edition);
    let said = bitstream::read(settings, reader, frame).map_err(|refusal| refusal.number());
    let expected = bit_header(settings, frame).map(|(count, replay, number)| {
        units.push((count, number));
        let octets = &frame[8..8 + (number + 7) / 8];
        let loss = loss_flag(wheel, units);
        bitstream::Bits { count: count as u32, replay, loss, number, octets }
    });
    assert_eq!(said, expected, "{settings:?} {units:?} {frame:x?}");
    match units.last() {
        // What waits is told by bits in the next frame.
        Some(&(last, _)) => {
            let next = ((last + 1) % wheel, 1);
            let waiting = loss_flag(wheel, &[&units[..], &[next]].concat());
            assert_eq!(*reader, Reader { last: Some(last as u32), waiting }, "{units:?}");
        }
        None => assert_eq!(*reader, Reader::START),
    }
    if said.is_err() {
        assert_eq!(*reader, before);
    }
    said.map(|bits| bits.loss)
}

/// Settings of a channel of bits, with a small zone.
fn bit_settings(random: &mut Random) -> bitstream::Settings {
    bitstream::Settings { width: random.within(1, 6), ..generate::bit_settings(random) }
}

/// Frames of bits as they come in, most of them fill: some are lost, some come twice, some are
/// spoilt, and some come after a spoilt one. At times the counts begin again.
fn bit_frames(random: &mut Random, settings: &bitstream::Settings) -> Vec<Vec<u8>> {
    let bitstream::Settings { width, edition, .. } = *settings;
    let near = generate::before_a_turn(random, edition, 10);
    let start = random.pick(&[0, 5_000, near]) + random.within(0, 9) as u32;
    let mut writer = Writer { count: start };
    let mut frames = vec![];
    for _ in 0..random.within(1, 60) {
        let number = if random.once_in(3) { random.within(1, 8 * width) } else { 0 };
        let bits = random.octets(width);
        let mut frame = vec![0; settings.frame_length()];
        bitstream::write(settings, &mut writer, &bits, number, &mut frame).unwrap();
        let mut spoilt = frame.clone();
        generate::spoil_bits(random, settings, &mut spoilt);
        match random.within(1, 16) {
            1 => {}
            2 => frames.extend([frame.clone(), frame]),
            3 => frames.push(spoilt),
            4 | 5 => frames.extend([spoilt, frame]),
            _ => frames.push(frame),
        }
        if random.once_in(50) {
            writer.count = start;
        }
    }
    frames
}

/// Each loss flag is the one that the whole list of units gives.
#[test]
fn loss_flags_are_those_of_the_rules() {
    let (mut flags, mut refusals) = ([0; 2], BTreeMap::new());
    let mut told_late = 0;
    for seed in 0..4_000 {
        let mut random = Random::new(0xB175_0000 + seed);
        let settings = bit_settings(&mut random);
        let (mut reader, mut units) = (Reader::START, vec![]);
        for frame in bit_frames(&mut random, &settings) {
            let waited = reader.waiting;
            match read_on(&settings, &mut reader, &mut units, &frame) {
                Ok(flag) => {
                    flags[usize::from(flag)] += 1;
                    told_late += u32::from(flag && waited);
                }
                Err(number) => *refusals.entry(number).or_insert(0) += 1,
            }
        }
    }
    assert!(flags.iter().all(|&times| times > 5_000), "{flags:?}");
    assert!(told_late > 2_000, "{told_late}");
    assert!(refusals.keys().eq(&[3, 4, 5, 6, 7, 13]), "{refusals:?}");
    assert!(refusals.values().all(|&times| times > 100), "{refusals:?}");
}

/// The same for every run of six frames of which each follows, comes again or has one lost before
/// it, with bits or without; and for a frame that is refused, anywhere in them.
#[test]
fn loss_flags_of_every_short_run() {
    for edition in Edition::ALL {
        loss_flags_of_every_run_from(edition, wheel(edition) - 3);
    }
    loss_flags_of_every_run_from(Edition::CycleUsed, 16_777_213);
}

fn loss_flags_of_every_run_from(edition: Edition, start: usize) {
    let (fill, trailer) = (0, false);
    let settings =
        bitstream::Settings { spacecraft: 66, channel: 3, width: 1, fill, trailer, edition };
    let frame = |count: u32, number: usize| {
        let mut frame = [0; 9];
        bitstream::write(&settings, &mut Writer { count }, &[0x71], number, &mut frame).unwrap();
        frame
    };
    let kinds = [(0, 0), (0, 5), (1, 0), (1, 5), (2, 0), (2, 5)];
    let mut runs = vec![(start as u32, Reader::START, vec![])];
    for _ in 0..6 {
        let mut longer = vec![];
        for (last, mut reader, mut units) in runs {
            let mut refused = frame(last, 5);
            refused[5] ^= 0x10;
            assert_eq!(read_on(&settings, &mut reader, &mut units, &refused), Err(6));
            for (ahead, number) in kinds {
                let count = (last + ahead) % wheel(edition) as u32;
                let (mut reader, mut units) = (reader, units.clone());
                read_on(&settings, &mut reader, &mut units, &frame(count, number)).unwrap();
                longer.push((count, reader, units));
            }
        }
        runs = longer;
    }
    assert_eq!(runs.len(), 6_usize.pow(6));
}
