//! Every call, where it is answered and where it is refused.

use std::borrow::Cow;

use itzahuemo::relay::{Entry, Route, Table, MOST_ENTRIES};
use itzahuemo::*;

const SPACE: [u8; 8] = [0x00, 0x05, 0xC0, 0x00, 0x00, 0x01, 0xAA, 0xBB];
const ENCAPSULATION: [u8; 5] = [0xE9, 0x05, 0x11, 0x22, 0x33];
const LIMIT: usize = 1_024;

/// Octets that begin with a damaged header, and what is wrong with it; those over the limit state 1,025 or more.
const DAMAGED: [(&[u8], Damage); 12] = [
    (&[0x33], Damage::Version),
    (&[0x20, 0x05], Damage::Version),
    (&[0xDF, 0, 0, 0, 0, 0], Damage::Version),
    (&[0xEC], Damage::NotIdle),
    (&[0xE4, 0x05], Damage::NotIdle),
    (&[0xFC, 0, 0, 0], Damage::NotIdle),
    (&[0xE9, 0x01], Damage::BelowHeader),
    (&[0xEA, 0, 0, 3], Damage::BelowHeader),
    (&[0xEB, 0, 0, 0, 0, 0, 0, 7], Damage::BelowHeader),
    (&[0x00, 0x05, 0xC0, 0x00, 0x03, 0xFA], Damage::OverLimit),
    (&[0xEA, 0, 0x04, 0x01], Damage::OverLimit),
    (&[0xEB, 0, 0, 0, 0xFF, 0xFF, 0xFF, 0xFF], Damage::OverLimit),
];

/// The frames of both packets, with their trailers.
const TRAILED: [[u8; 20]; 2] = [
    [
        0x50, 0x83, 0x00, 0x00, 0x00, 0x00, 0x00, 0x00, 0x00, 0x05, 0xC0, 0x00, 0x00, 0x01, 0xAA,
        0xBB, 0xE9, 0x05, 0x2D, 0x75,
    ],
    [
        0x50, 0x83, 0x00, 0x00, 0x01, 0x00, 0x00, 0x03, 0x11, 0x22, 0x33, 0xE1, 0x07, 0x55, 0x55,
        0x55, 0x55, 0x55, 0x43, 0x63,
    ],
];

const EDITIONS: [Edition; 3] = [Edition::Former, Edition::CycleUnused, Edition::CycleUsed];

fn settings() -> Settings {
    Settings::new(66, 3, 10, LIMIT).unwrap()
}

fn frames() -> Vec<Vec<u8>> {
    multiplex(settings(), [&SPACE[..], &ENCAPSULATION[..]]).unwrap()
}

/// A frame with one of its bits changed, each in its turn.
fn with_a_bit_changed(frame: &[u8]) -> impl Iterator<Item = Vec<u8>> + '_ {
    (0..8 * frame.len()).map(move |at| {
        let mut changed = frame.to_vec();
        changed[at / 8] ^= 0x80 >> (at % 8);
        changed
    })
}

/// A frame with other octets of its count, and another signalling octet behind them.
fn with_count(frame: &[u8], octets: [u8; 4]) -> Vec<u8> {
    let mut counted = frame.to_vec();
    counted[2..6].copy_from_slice(&octets);
    counted
}

/// The octets of a count and the signalling octet behind them, as an edition has them.
fn octets_of(edition: Edition, count: u32) -> [u8; 4] {
    let [cycle, octets @ ..] = count.to_be_bytes();
    let signalling = if edition == Edition::CycleUsed { 0x40 | cycle } else { 0 };
    [octets[0], octets[1], octets[2], signalling]
}

fn entered(event: Option<Event>) -> Entered {
    match event {
        Some(Event::Entered(entered)) => entered,
        other => panic!("the first event of a frame: {other:?}"),
    }
}

/// How each call that is lent a packet refuses it.
fn refusals(packet: &[u8]) -> [Option<Refusal>; 3] {
    [
        Multiplexer::new(settings()).put(packet).err(),
        unwrap(LIMIT, packet).err(),
        Table::empty().route(LIMIT, packet, &mut []).err(),
    ]
}

#[test]
fn settings_are_those_of_the_rules() {
    assert_eq!(settings().frame_length(), 18);
    assert_eq!(settings().fill(), 0x55);
    assert_eq!(settings().with_fill(7).fill(), 7);
    assert!(!settings().trailer());
    assert!(settings().with_trailer(true).trailer());
    assert_eq!(settings().with_trailer(true).frame_length(), 20);
    assert_eq!(settings().with_trailer(true).with_trailer(false), settings());
    assert_eq!(settings().edition(), Edition::Former);
    for edition in EDITIONS {
        assert_eq!(settings().with_edition(edition).edition(), edition);
        assert_eq!(settings().with_edition(edition).frame_length(), 18);
        assert_eq!(settings().with_edition(edition).with_edition(Edition::Former), settings());
    }
    assert!(Settings::new(255, 62, 2_046, 65_542).is_ok());
    for (channel, zone, limit) in
        [(63, 10, 1_024), (3, 0, 1_024), (3, 2_047, 4_096), (3, 10, 9), (3, 1, 6), (3, 10, 65_543)]
    {
        assert_eq!(Settings::new(66, channel, zone, limit), Err(Refusal::Setting));
    }
    assert!(BitSettings::new(66, 3, 2_047).is_ok());
    assert_eq!(BitSettings::new(66, 3, 2_048), Err(Refusal::Setting));
    assert_eq!(BitSettings::new(66, 63, 1), Err(Refusal::Setting));
}

#[test]
fn headers_are_read() {
    let header = Header { kind: Kind::Space { apid: 5 }, idle: false, length: 6, total: 8 };
    assert_eq!(read_header(LIMIT, &SPACE), Ok(Front::Header(header)));
    let kind = Kind::Encapsulation { protocol: 0 };
    let idle = Header { kind, idle: true, length: 1, total: 1 };
    assert_eq!(read_header(LIMIT, &[0xE0]), Ok(Front::Header(idle)));
    assert_eq!(read_header(LIMIT, &SPACE[..5]), Ok(Front::More));
    assert_eq!(read_header(LIMIT, &[]), Ok(Front::More));
    assert_eq!(read_header(LIMIT, &[0x33]), Ok(Front::Damaged(Damage::Version)));
    assert_eq!(read_header(7, &SPACE), Ok(Front::Damaged(Damage::OverLimit)));
    assert_eq!(read_header(6, &SPACE), Err(Refusal::Setting));
    assert_eq!(well_formed(LIMIT, &SPACE), Ok(true));
    assert_eq!(well_formed(LIMIT, &SPACE[..7]), Ok(false));
    assert_eq!(well_formed(7, &SPACE), Ok(false));
    assert_eq!(well_formed(6, &SPACE), Err(Refusal::Setting));
}

#[test]
fn data_units_are_wrapped() {
    assert_eq!(wrap(LIMIT, 2, 0, &[0x11, 0x22, 0x33]).unwrap(), ENCAPSULATION);
    assert_eq!(wrap(LIMIT, 6, 5, &[0xDD]).unwrap(), [0xFA, 0x05, 0x00, 0x05, 0xDD]);
    assert_eq!(wrap(LIMIT, 0, 0, &[1]), Err(Refusal::Setting));
    assert_eq!(wrap(LIMIT, 2, 0, &[]), Err(Refusal::Packet(None)));
    assert_eq!(wrap(7, 2, 0, &[0; 6]), Err(Refusal::Packet(None)));
    let unwrapped = Unwrapped { protocol: 2, extension: 0, data: &[0x11, 0x22, 0x33] };
    assert_eq!(unwrap(LIMIT, &ENCAPSULATION), Ok(unwrapped));
    assert_eq!(unwrap(LIMIT, &[0xE9, 0x02]).unwrap().data, []);
    assert_eq!(unwrap(LIMIT, &SPACE), Err(Refusal::Packet(None)));
    assert_eq!(unwrap(LIMIT, &[0xEA, 0x05, 0x00, 0x05, 0xDD]), Err(Refusal::Spare));
    for (size, header) in [(1, 2), (253, 2), (254, 4), (65_531, 4), (65_532, 8)] {
        let data = vec![0xA5; size];
        let packet = wrap(65_542, 3, 0, &data).unwrap();
        assert_eq!(packet.len(), size + header);
        assert_eq!(unwrap(65_542, &packet).unwrap().data, data);
    }
}

#[test]
fn space_headers_are_read_and_written() {
    let header =
        SpaceHeader { apid: 5, sequence_flags: 3, length_field: 1, ..SpaceHeader::default() };
    assert_eq!(SpaceHeader::read(&SPACE), Ok(header));
    assert_eq!(header.to_octets().unwrap(), SPACE[..6]);
    assert_eq!(header.total(), 8);
    let full = SpaceHeader {
        version: 0,
        packet_type: 1,
        secondary_header: 1,
        apid: 2_047,
        sequence_flags: 3,
        sequence_count: 16_383,
        length_field: 65_535,
    };
    assert_eq!(full.to_octets(), Ok([0x1F, 0xFF, 0xFF, 0xFF, 0xFF, 0xFF]));
    assert_eq!(SpaceHeader::read(&full.to_octets().unwrap()), Ok(full));
    let command = SpaceHeader { packet_type: 1, ..header };
    assert_eq!(command.to_octets(), Ok([0x10, 0x05, 0xC0, 0x00, 0x00, 0x01]));
    assert_eq!(SpaceHeader::read(&command.to_octets().unwrap()), Ok(command));
    assert_eq!(SpaceHeader { apid: 2_048, ..header }.to_octets(), Err(Refusal::Setting));
    assert_eq!(SpaceHeader { version: 1, ..header }.to_octets(), Err(Refusal::Setting));
    assert_eq!(header.write(&mut [0; 5]), Err(Refusal::Room));
    assert_eq!(SpaceHeader::read(&SPACE[..5]), Err(Refusal::Packet(None)));
    assert_eq!(SpaceHeader::read(&ENCAPSULATION), Err(Refusal::Packet(None)));
    assert_eq!(SpaceHeader::read(&[0x33; 6]), Err(Refusal::Packet(None)));
}

#[test]
fn packets_are_multiplexed() {
    let mut multiplexer = Multiplexer::new(settings());
    assert_eq!(multiplexer.flush(), Ok(None));
    let idle = multiplexer.idle().unwrap();
    assert_eq!(idle[..8], [0x50, 0x83, 0, 0, 0, 0, 0x07, 0xFE]);
    assert_eq!(idle[8..], [0x55; 10]);
    assert_eq!(multiplexer.put(&SPACE[..7]), Err(Refusal::Packet(None)));
    assert!(multiplexer.put(&SPACE).unwrap().is_empty());
    assert_eq!(multiplexer.idle(), Err(Refusal::Moment));
    let filled = multiplexer.put(&SPACE).unwrap();
    assert_eq!(filled.len(), 1);
    assert_eq!(filled[0][2..8], [0, 0, 1, 0, 0, 0]);
    let long = wrap(LIMIT, 1, 0, &[7; 30]).unwrap();
    assert_eq!(multiplexer.put(&long).unwrap().len(), 3);
    assert_eq!(multiplexer.flush().unwrap().unwrap()[2..5], [0, 0, 5]);
}

#[test]
fn packets_are_extracted() {
    let frames = frames();
    let mut extractor = Extractor::new(settings());
    let first: Vec<Event> = extractor.feed(&frames[0]).unwrap().skip(1).collect();
    let second: Vec<Event> = extractor.feed(&frames[1]).unwrap().skip(1).collect();
    match (&first[..], &second[..]) {
        ([Event::Packet(space)], [Event::Packet(encapsulation), Event::Packet(idle)]) => {
            assert!(matches!(space.octets, Cow::Borrowed(octets) if octets == SPACE));
            assert!(
                matches!(&encapsulation.octets, Cow::Owned(octets) if octets[..] == ENCAPSULATION)
            );
            assert!(idle.header.idle && idle.octets.len() == 7);
        }
        other => panic!("{other:?}"),
    }
}

#[test]
fn what_is_missing_is_told() {
    let frames = frames();
    let mut extractor = Extractor::new(settings());
    extractor.feed(&frames[0]).unwrap();
    let mut later = frames[1].clone();
    later[4..6].copy_from_slice(&[2, 0x80]);
    let mut events = extractor.feed(&later).unwrap();
    let told = Entered { count: 2, replay: true, lost: 1, dropped: 2, reason: Reason::Lost };
    assert_eq!(entered(events.next()), told);
    assert!(matches!(events.next(), Some(Event::Packet(packet)) if packet.header.idle));
    assert_eq!(events.next(), None);
    assert_eq!(events.next(), None);
}

#[test]
fn damage_is_named() {
    for (octets, damage) in DAMAGED {
        assert_eq!(read_header(LIMIT, octets), Ok(Front::Damaged(damage)));
        assert_eq!(well_formed(LIMIT, octets), Ok(false));
        assert_eq!(refusals(octets), [Some(Refusal::Packet(Some(damage))); 3]);
        let mut frame = frames()[0].clone();
        frame[8..8 + octets.len()].copy_from_slice(octets);
        let mut extractor = Extractor::new(settings());
        let mut events = extractor.feed(&frame).unwrap();
        assert_eq!(entered(events.next()).reason, Reason::None);
        assert_eq!(events.next(), Some(Event::Damaged(damage)));
        assert_eq!(events.next(), None);
    }
    let mut whole = vec![0x00, 0x05, 0xC0, 0x00, 0x03, 0xFA];
    whole.resize(LIMIT + 1, 0);
    assert_eq!(refusals(&whole), [Some(Refusal::Packet(Some(Damage::OverLimit))); 3]);
}

#[test]
fn a_packet_is_refused_without_damage() {
    let longer = [&ENCAPSULATION[..], &[0x44]].concat();
    for packet in [&[][..], &[0xE9], &SPACE[..5], &SPACE[..7], &ENCAPSULATION[..4], &longer] {
        assert_eq!(refusals(packet), [Some(Refusal::Packet(None)); 3]);
    }
    let damaged = [0x33];
    assert_eq!(read_header(6, &damaged), Err(Refusal::Setting));
    assert_eq!(unwrap(6, &damaged), Err(Refusal::Setting));
    assert_eq!(Table::empty().route(6, &damaged, &mut []), Err(Refusal::Setting));
}

#[test]
fn a_held_header_comes_out_damaged() {
    // A space packet, one idle octet, and the first of a header's four; the next frame has the header's length, and an idle packet.
    let first = *b"\x50\x83\0\0\0\0\0\0\x00\x05\xC0\x00\x00\x01\xAA\xBB\xE0\xEA";
    let second = *b"\x50\x83\0\0\x01\0\0\x03\x00\x00\x04\xE1\x07\x55\x55\x55\x55\x55";
    for (length, reason) in [
        (4, Reason::None),
        (3, Reason::Damaged(Damage::BelowHeader)),
        (0, Reason::Damaged(Damage::BelowHeader)),
        (1_025, Reason::Damaged(Damage::OverLimit)),
        (1_024, Reason::Pointer),
    ] {
        let mut extractor = Extractor::new(settings());
        extractor.feed(&first).unwrap();
        let mut frame = second;
        frame[9..11].copy_from_slice(&u16::to_be_bytes(length));
        let mut events = extractor.feed(&frame).unwrap();
        let told = entered(events.next());
        assert_eq!(told.reason, reason);
        assert_eq!(told.dropped, usize::from(reason != Reason::None));
        assert_eq!(events.filter(|event| matches!(event, Event::Damaged(_))).count(), 0);
    }
}

#[test]
fn a_frame_is_spent_even_where_nobody_asks() {
    let frames = frames();
    let mut extractor = Extractor::new(settings());
    extractor.feed(&frames[0]).unwrap();
    let second = extractor.feed(&frames[1]).unwrap().nth(1);
    assert!(matches!(second, Some(Event::Packet(packet)) if packet.octets[..] == ENCAPSULATION));
    assert_eq!(entered(extractor.feed(&frames[0]).unwrap().next()).lost, 16_777_214);
}

#[test]
fn frames_of_elsewhere_are_refused() {
    let frames = frames();
    let mut extractor = Extractor::new(settings());
    extractor.feed(&frames[0]).unwrap();
    let spoilt = |at: usize, octet: u8| {
        let mut frame = frames[1].clone();
        frame[at] = octet;
        frame
    };
    for (frame, refusal) in [
        (spoilt(0, 0x10), Refusal::Version),
        (spoilt(1, 0x84), Refusal::Channel),
        (spoilt(5, 0x01), Refusal::Spare),
        (spoilt(7, 0x0A), Refusal::Pointer),
        (frames[1][1..].to_vec(), Refusal::Length),
    ] {
        assert_eq!(extractor.feed(&frame).err(), Some(refusal));
    }
    assert_eq!(extractor.feed(&frames[1]).unwrap().count(), 3);
}

#[test]
fn runs_are_judged() {
    let frames = frames();
    assert_eq!(judge(settings(), &frames), Ok(Verdict::Pass));
    assert_eq!(judge(settings(), Vec::<Vec<u8>>::new()), Ok(Verdict::Pass));
    assert_eq!(judge(settings(), &frames[..1]), Ok(Verdict::Fault(1)));
    assert_eq!(judge(settings(), &frames[1..]), Ok(Verdict::Fault(0)));
    assert_eq!(judge(settings(), [&frames[0][..], &[]]), Ok(Verdict::Fault(1)));
}

#[test]
fn tapes_are_judged() {
    let frames = frames();
    let tape = frames.concat();
    let mut judge = Judge::new(settings());
    assert_eq!(judge.tape(&[]), Ok(()));
    assert_eq!(judge.verdict(), Verdict::Pass);
    for end in (1..18).chain(19..36) {
        assert_eq!(judge.tape(&tape[..end]), Err(Refusal::Length));
        assert_eq!(judge.verdict(), Verdict::Pass);
    }
    assert_eq!(judge.tape(&tape[..18]), Ok(()));
    assert_eq!(judge.verdict(), Verdict::Fault(1));
    assert_eq!(judge.tape(&[]), Ok(()));
    assert_eq!(judge.tape(&tape[18..]), Ok(()));
    assert_eq!(judge.verdict(), Verdict::Pass);
    assert_eq!(judge.tape(&tape), Ok(()));
    assert_eq!(judge.verdict(), Verdict::Fault(2));
    assert_eq!(judge.frame(&frames[0]), Ok(()));
    assert_eq!(judge.verdict(), Verdict::Fault(2));
}

#[test]
fn a_tape_is_judged_as_its_frames_are() {
    for (settings, frames) in
        [(settings(), frames()), (settings().with_trailer(true), TRAILED.map(Vec::from).to_vec())]
    {
        let length = settings.frame_length();
        for tape in with_a_bit_changed(&frames.concat()) {
            let verdict = judge(settings, tape.chunks(length));
            let mut whole = Judge::new(settings);
            assert_eq!(whole.tape(&tape).map(|()| whole.verdict()), verdict);
            let mut parts = Judge::new(settings);
            parts.tape(&tape[..length]).unwrap();
            assert_eq!(parts.frame(&tape[length..]).map(|()| parts.verdict()), verdict);
            let mut parts = Judge::new(settings);
            parts.frame(&tape[..length]).unwrap();
            assert_eq!(parts.tape(&tape[length..]).map(|()| parts.verdict()), verdict);
        }
    }
}

#[test]
fn a_tape_goes_to_the_last_frame_and_no_further() {
    // 65,536 frames of nine octets, each as the frame before it, and so a fault from the second on.
    let settings = Settings::new(66, 3, 1, 7).unwrap();
    let frame = Multiplexer::new(settings).idle().unwrap();
    let tape = frame.repeat(1 << 16);
    let mut judge = Judge::new(settings);
    for _ in 0..255 {
        assert_eq!(judge.tape(&tape), Ok(()));
    }
    assert_eq!(judge.tape(&tape[18..]), Ok(()));
    assert_eq!(judge.tape(&tape[..28]), Err(Refusal::Last));
    assert_eq!(judge.tape(&tape[..27]), Err(Refusal::Last));
    assert_eq!(judge.tape(&tape[..26]), Err(Refusal::Length));
    assert_eq!(judge.tape(&tape[..18]), Ok(()));
    assert_eq!(judge.tape(&[]), Ok(()));
    assert_eq!(judge.tape(&tape[..8]), Err(Refusal::Length));
    assert_eq!(judge.tape(&tape[..9]), Err(Refusal::Last));
    assert_eq!(judge.tape(&tape[..10]), Err(Refusal::Last));
    assert_eq!(judge.frame(&frame), Err(Refusal::Last));
    assert_eq!(judge.verdict(), Verdict::Fault(1));
}

#[test]
fn bits_go_round() {
    let settings = BitSettings::new(66, 3, 1).unwrap();
    let mut writer = BitWriter::new(settings);
    let frame = writer.write(&[0x70], 4).unwrap();
    assert_eq!(frame[6..], [0x00, 0x03, 0x75]);
    assert_eq!(writer.write(&[0x70], 9), Err(Refusal::Setting));
    assert_eq!(writer.write(&[], 1), Err(Refusal::Room));
    let mut reader = BitReader::new(settings);
    let bits = reader.read(&frame).unwrap();
    assert_eq!(bits.iter().collect::<Vec<_>>(), [false, true, true, true]);
    assert_eq!(bits, Bits { count: 0, replay: false, lost: false, number: 4, octets: &[0x75] });
    assert!(reader.read(&frame).unwrap().lost);
    assert_eq!(reader.read(&frame[1..]), Err(Refusal::Length));
    let mut replayed = frame.clone();
    replayed[4..6].copy_from_slice(&[1, 0x80]);
    let bits = reader.read(&replayed).unwrap();
    assert_eq!(bits, Bits { count: 1, replay: true, lost: false, number: 4, octets: &[0x75] });
    let none = writer.write(&[], 0).unwrap();
    assert_eq!(none[6..8], [0x3F, 0xFE]);
    assert_eq!(reader.read(&none).unwrap().iter().count(), 0);
}

#[test]
fn a_loss_waits_for_bits() {
    let settings = BitSettings::new(66, 3, 1).unwrap();
    let mut writer = BitWriter::new(settings);
    let mut frame = |number| writer.write(&[0x71], number).unwrap();
    let [first, fill, lost, more, last, next] = [8, 0, 0, 0, 8, 8].map(&mut frame);
    let mut reader = BitReader::new(settings);
    let mut told = |frame: &[u8]| reader.read(frame).map(|bits| bits.lost);
    assert_eq!(told(&first), Ok(false));
    assert_eq!(told(&fill), Ok(false));
    assert_eq!(told(&more), Ok(false));
    assert_eq!(told(&lost[1..]), Err(Refusal::Length));
    assert_eq!(told(&last), Ok(true));
    assert_eq!(told(&next), Ok(false));
}

#[test]
fn trailers_are_written() {
    let settings = settings().with_trailer(true);
    let mut multiplexer = Multiplexer::new(settings);
    assert!(multiplexer.put(&SPACE).unwrap().is_empty());
    assert_eq!(multiplexer.put(&ENCAPSULATION).unwrap(), TRAILED[..1]);
    assert_eq!(multiplexer.flush().unwrap().unwrap(), TRAILED[1]);
    assert_eq!(multiplexer.flush(), Ok(None));
    let idle = Multiplexer::new(settings).idle().unwrap();
    assert_eq!(idle[..8], [0x50, 0x83, 0, 0, 0, 0, 0x07, 0xFE]);
    assert_eq!(idle[8..18], [0x55; 10]);
    assert_eq!(idle[18..], [0x29, 0xBB]);
    for zone in [1, 2_046] {
        let settings = Settings::new(255, 62, zone, 65_542).unwrap().with_trailer(true);
        let frame = Multiplexer::new(settings).idle().unwrap();
        assert_eq!(frame.len(), zone + 10);
        assert_eq!(judge(settings, [frame]), Ok(Verdict::Pass));
    }
}

#[test]
fn frames_with_trailers_are_read() {
    let mut extractor = Extractor::new(settings());
    let mut trailed = Extractor::new(settings().with_trailer(true));
    for (frame, longer) in frames().iter().zip(&TRAILED) {
        assert!(trailed.feed(longer).unwrap().eq(extractor.feed(frame).unwrap()));
        assert_eq!(trailed.feed(frame).err(), Some(Refusal::Length));
        assert_eq!(extractor.feed(longer).err(), Some(Refusal::Length));
    }
    let other = Settings::new(66, 4, 10, LIMIT).unwrap().with_trailer(true);
    let mut frame = Multiplexer::new(other).idle().unwrap();
    assert_eq!(trailed.feed(&frame).err(), Some(Refusal::Channel));
    frame[18] ^= 1;
    assert_eq!(trailed.feed(&frame).err(), Some(Refusal::Trailer));
    assert_eq!(trailed.feed(&frame[1..]).err(), Some(Refusal::Length));
}

#[test]
fn a_changed_bit_is_refused_by_the_trailer() {
    let settings = settings().with_trailer(true);
    let mut extractor = Extractor::new(settings);
    extractor.feed(&TRAILED[0]).unwrap();
    for changed in with_a_bit_changed(&TRAILED[1]) {
        assert_eq!(extractor.feed(&changed).err(), Some(Refusal::Trailer));
    }
    let mut events = extractor.feed(&TRAILED[1]).unwrap();
    let told = Entered { count: 1, replay: false, lost: 0, dropped: 0, reason: Reason::None };
    assert_eq!(entered(events.next()), told);
    assert!(
        matches!(events.next(), Some(Event::Packet(packet)) if packet.octets[..] == ENCAPSULATION)
    );
    assert!(matches!(events.next(), Some(Event::Packet(packet)) if packet.header.idle));
    assert_eq!(events.next(), None);
}

#[test]
fn runs_with_trailers_are_judged() {
    let settings = settings().with_trailer(true);
    assert_eq!(judge(settings, TRAILED), Ok(Verdict::Pass));
    assert_eq!(judge(settings, frames()), Ok(Verdict::Fault(0)));
    assert_eq!(judge(settings, [&TRAILED[0][..], &TRAILED[1][..18]]), Ok(Verdict::Fault(1)));
    for changed in with_a_bit_changed(&TRAILED[1]) {
        assert_eq!(judge(settings, [&TRAILED[0][..], &changed]), Ok(Verdict::Fault(1)));
    }
}

#[test]
fn bits_go_round_with_trailers() {
    let settings = BitSettings::new(66, 3, 1).unwrap().with_trailer(true);
    assert_eq!(settings.frame_length(), 11);
    let mut writer = BitWriter::new(settings);
    let frame = writer.write(&[0x70], 4).unwrap();
    assert_eq!(frame, [0x50, 0x83, 0, 0, 0, 0, 0x00, 0x03, 0x75, 0x5A, 0xC0]);
    let none = writer.write(&[], 0).unwrap();
    assert_eq!(none, [0x50, 0x83, 0, 0, 1, 0, 0x3F, 0xFE, 0x55, 0x58, 0xFA]);
    let mut reader = BitReader::new(settings);
    let bits = reader.read(&frame).unwrap();
    assert_eq!(bits, Bits { count: 0, replay: false, lost: false, number: 4, octets: &[0x75] });
    for changed in with_a_bit_changed(&none) {
        assert_eq!(reader.read(&changed), Err(Refusal::Trailer));
    }
    assert_eq!(reader.read(&none[..9]), Err(Refusal::Length));
    let bits = reader.read(&none).unwrap();
    assert_eq!(bits, Bits { count: 1, replay: false, lost: false, number: 0, octets: &[] });
}

#[test]
fn editions_have_numbers() {
    assert_eq!(EDITIONS.map(Edition::number), [0, 1, 2]);
    assert_eq!(Edition::default(), Edition::Former);
}

#[test]
fn frames_of_each_edition_are_written() {
    for (edition, signalling) in EDITIONS.into_iter().zip([0x00, 0x00, 0x40]) {
        let settings = settings().with_edition(edition);
        let written = multiplex(settings, [&SPACE[..], &ENCAPSULATION[..]]).unwrap();
        assert_eq!(written[0], with_count(&frames()[0], [0, 0, 0, signalling]));
        assert_eq!(written[1], with_count(&frames()[1], [0, 0, 1, signalling]));
        let idle = Multiplexer::new(settings).idle().unwrap();
        assert_eq!(idle[..8], [0x50, 0x83, 0, 0, 0, signalling, 0x07, 0xFE]);
        assert_eq!(judge(settings, &written), Ok(Verdict::Pass));
        let settings = BitSettings::new(66, 3, 1).unwrap().with_edition(edition);
        let mut writer = BitWriter::new(settings);
        let frame = writer.write(&[0x70], 4).unwrap();
        assert_eq!(frame, [0x50, 0x83, 0, 0, 0, signalling, 0x00, 0x03, 0x75]);
        let frame = writer.write(&[], 0).unwrap();
        assert_eq!(frame, [0x50, 0x83, 0, 0, 1, signalling, 0x3F, 0xFE, 0x55]);
    }
}

#[test]
fn every_signalling_octet_is_read_by_its_edition() {
    let of_bits = [0x50, 0x83, 0, 0, 0, 0, 0x00, 0x03, 0x75];
    for edition in EDITIONS {
        let settings = settings().with_edition(edition);
        let bit_settings = BitSettings::new(66, 3, 1).unwrap().with_edition(edition);
        for signalling in 0..=255 {
            let octets = [0xBC, 0xDE, 0xF1, signalling];
            let frame = with_count(&frames()[0], octets);
            let of_bits = with_count(&of_bits, octets);
            let mut extractor = Extractor::new(settings);
            let read = extractor.feed(&frame).map(|mut events| entered(events.next()));
            let bits = BitReader::new(bit_settings).read(&of_bits);
            let verdict = judge(settings, [&frame]);
            let right = match edition {
                Edition::CycleUsed => signalling & 0x70 == 0x40,
                _ => signalling & 0x7F == 0,
            };
            if !right {
                assert_eq!(read, Err(Refusal::Spare));
                assert_eq!(bits, Err(Refusal::Spare));
                assert_eq!(verdict, Ok(Verdict::Fault(0)));
                continue;
            }
            let count = 0x00BC_DEF1 | u32::from(signalling & 0x0F) << 24;
            let replay = signalling >= 0x80;
            let told = Entered { count, replay, lost: 0, dropped: 0, reason: Reason::None };
            assert_eq!(read, Ok(told));
            assert_eq!(bits, Ok(Bits { count, replay, lost: false, number: 4, octets: &[0x75] }));
            assert_eq!(verdict, Ok(Verdict::Fault(1)));
        }
    }
}

#[test]
fn losses_are_counted_round_the_wheel_of_the_edition() {
    let of_bits = [0x50, 0x83, 0, 0, 0, 0, 0x3F, 0xFF, 0x75];
    for (edition, last, count, lost) in [
        (Edition::Former, 0xFF_FFFF, 0, 0),
        (Edition::Former, 7, 7, 0xFF_FFFF),
        (Edition::CycleUnused, 0xFF_FFFF, 0, 0),
        (Edition::CycleUnused, 7, 7, 0xFF_FFFF),
        (Edition::CycleUsed, 0xFF_FFFF, 0x100_0000, 0),
        (Edition::CycleUsed, 0xFF_FFFF, 0, 0xF00_0000),
        (Edition::CycleUsed, 7, 0x100_0008, 0x100_0000),
        (Edition::CycleUsed, 0xFFF_FFFF, 0, 0),
        (Edition::CycleUsed, 0xFFF_FFFF, 2, 2),
        (Edition::CycleUsed, 7, 7, 0xFFF_FFFF),
        (Edition::CycleUsed, 0x100_0000, 0xFF_FFFF, 0xFFF_FFFE),
    ] {
        let settings = settings().with_edition(edition);
        let idle = Multiplexer::new(settings).idle().unwrap();
        let run = [last, count].map(|count| with_count(&idle, octets_of(edition, count)));
        let mut extractor = Extractor::new(settings);
        assert_eq!(entered(extractor.feed(&run[0]).unwrap().next()).count, last);
        let told = entered(extractor.feed(&run[1]).unwrap().next());
        assert_eq!((told.count, told.lost), (count, lost));
        assert_eq!(told.reason, if lost == 0 { Reason::None } else { Reason::Lost });
        let verdict = if lost == 0 { Verdict::Pass } else { Verdict::Fault(1) };
        assert_eq!(judge(settings, &run), Ok(verdict));
        let settings = BitSettings::new(66, 3, 1).unwrap().with_edition(edition);
        let run = [last, count].map(|count| with_count(&of_bits, octets_of(edition, count)));
        let mut reader = BitReader::new(settings);
        assert!(!reader.read(&run[0]).unwrap().lost);
        assert_eq!(reader.read(&run[1]).unwrap().lost, lost != 0);
    }
}

#[test]
fn editions_go_with_trailers() {
    let settings = settings().with_edition(Edition::CycleUsed).with_trailer(true);
    let written = multiplex(settings, [&SPACE[..], &ENCAPSULATION[..]]).unwrap();
    assert_eq!(written[0][..18], with_count(&frames()[0], [0, 0, 0, 0x40]));
    assert_eq!(written[0][18..], [0x77, 0xA5]);
    assert_eq!(written[1][..18], with_count(&frames()[1], [0, 0, 1, 0x40]));
    assert_eq!(written[1][18..], [0x19, 0xB3]);
    assert_eq!(judge(settings, &written), Ok(Verdict::Pass));
    let mut extractor = Extractor::new(settings);
    let frame = with_count(&written[0], [0xBC, 0xDE, 0xF1, 0x0A]);
    assert_eq!(extractor.feed(&frame).err(), Some(Refusal::Trailer));
    let frame = [&frame[..18], &[0xCD, 0xF6]].concat();
    assert_eq!(extractor.feed(&frame).err(), Some(Refusal::Spare));
    let frame = [&with_count(&frame, [0xBC, 0xDE, 0xF1, 0x4A])[..18], &[0x97, 0x26]].concat();
    assert_eq!(entered(extractor.feed(&frame).unwrap().next()).count, 0x0ABC_DEF1);
}

fn entries(pairs: &[(u16, u8)]) -> Vec<Entry> {
    pairs.iter().map(|&(apid, destination)| Entry { apid, destination }).collect()
}

#[test]
fn tables_are_loaded() {
    let mut table = Table::empty();
    let many: Vec<Entry> = (0..33).map(|apid| Entry { apid, destination: 1 }).collect();
    assert_eq!(table.load(&many[..MOST_ENTRIES]), Ok(()));
    let full = table.clone();
    for wrong in [many, entries(&[(2_047, 1)]), entries(&[(5, 7), (6, 7), (5, 7)])] {
        assert_eq!(table.load(&wrong), Err(Refusal::Table));
        assert_eq!(table, full);
    }
    assert_eq!(table.load(&entries(&[(2_046, 255), (0, 0), (0, 255)])), Ok(()));
    assert_ne!(table, full);
    assert_eq!(table.load(&[]), Ok(()));
    assert_eq!(table, Table::default());
}

#[test]
fn packets_are_routed() {
    let mut table = Table::empty();
    assert_eq!(table.route(LIMIT, &SPACE, &mut []), Ok(Route::NoPath));
    table.load(&entries(&[(5, 7), (6, 1), (5, 2)])).unwrap();
    let mut destinations = [0x55; MOST_ENTRIES];
    assert_eq!(table.route(LIMIT, &SPACE, &mut destinations), Ok(Route::Path(&[7, 2])));
    assert_eq!(destinations[..3], [7, 2, 0x55]);
    let idle = [0x07, 0xFF, 0xC0, 0x00, 0x00, 0x00, 0x00];
    for packet in [&ENCAPSULATION[..], &idle, &[0xE0]] {
        assert_eq!(table.route(LIMIT, packet, &mut []), Ok(Route::NoPath));
    }
    assert_eq!(table.route(LIMIT, &SPACE, &mut [0]), Err(Refusal::Room));
    assert_eq!(table.route(LIMIT, &SPACE[..7], &mut destinations), Err(Refusal::Packet(None)));
    assert_eq!(table.route(6, &SPACE, &mut destinations), Err(Refusal::Setting));
    assert_eq!(destinations[..3], [7, 2, 0x55]);
}

#[test]
fn refusals_say_why() {
    assert_eq!(Refusal::Pointer.number(), 7);
    assert_eq!(Refusal::Record.number(), 10);
    assert_eq!(Refusal::Trailer.number(), 13);
    assert_eq!(Refusal::Packet(None).number(), 8);
    assert_eq!(Refusal::Packet(Some(Damage::OverLimit)).number(), 8);
    let said = Refusal::Pointer.to_string();
    assert_eq!(said, "refused 7: the frame's pointer is one that cannot be");
    assert!(Refusal::Spare.to_string().contains("the count is of another edition"));
    assert!(Refusal::Length.to_string().ends_with(", or the tape ends within a frame"));
    let said = Refusal::Last.to_string();
    assert_eq!(said, "refused 11: a frame, alone or in a tape, beyond the judge's last");
    let error: Box<dyn std::error::Error + Send + Sync> = Refusal::Table.into();
    assert!(error.to_string().starts_with("refused 12: "));
    let said = Refusal::Packet(None).to_string();
    assert_eq!(
        said,
        "refused 8: the packet is not well formed, or the data unit cannot be wrapped"
    );
    let said = Refusal::Packet(Some(Damage::NotIdle)).to_string();
    assert_eq!(said, "refused 8: damaged 2: a packet of one octet is not idle");
}

#[test]
fn damage_and_reasons_have_numbers() {
    let all = [Damage::Version, Damage::NotIdle, Damage::BelowHeader, Damage::OverLimit];
    assert_eq!(all.map(Damage::number), [1, 2, 3, 4]);
    let said = Damage::Version.to_string();
    assert_eq!(said, "damaged 1: the packet's version is neither 000 nor 111");
    let reasons = [Reason::None, Reason::Lost, Reason::Pointer, Reason::Damaged(Damage::OverLimit)];
    assert_eq!(reasons.map(Reason::number), [0, 1, 2, 3]);
}
