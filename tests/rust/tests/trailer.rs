//! Trailers: vectors, source 004's equation, and request L2 of document 02 worked out by hand.

use itzahuemo_reference::calls::{Calls, Reference};
use itzahuemo_reference::generate::{seal, WRONG_REMAINDERS};
use itzahuemo_reference::random::Random;
use itzahuemo_reference::reference::bitstream::{self, Reader, Writer};
use itzahuemo_reference::reference::edition::Edition;
use itzahuemo_reference::reference::extractor::{self, Reason, Record, Step};
use itzahuemo_reference::reference::frame::{self, Settings};
use itzahuemo_reference::reference::trailer::{entry, is_right, remainder, remainder_by_bits};
use itzahuemo_reference::reference::{judge, multiplexer, Refusal};

/// The channel of document 01's sample run, with trailers.
const CHANNEL: Settings = Settings {
    spacecraft: 66,
    channel: 3,
    zone: 10,
    limit: 1_024,
    fill: 0x55,
    trailer: true,
    edition: Edition::Former,
};

/// A channel of bits with trailers.
const BIT_CHANNEL: bitstream::Settings = bitstream::Settings {
    spacecraft: 66,
    channel: 3,
    width: 2,
    fill: 0x55,
    trailer: true,
    edition: Edition::Former,
};

/// The frames of the sample run with their trailers.
const FIRST: [u8; 20] = [
    0x50, 0x83, 0x00, 0x00, 0x00, 0x00, 0x00, 0x00, 0x00, 0x05, 0xC0, 0x00, 0x00, 0x01, 0xAA, 0xBB,
    0xE9, 0x05, 0x2D, 0x75,
];
const SECOND: [u8; 20] = [
    0x50, 0x83, 0x00, 0x00, 0x01, 0x00, 0x00, 0x03, 0x11, 0x22, 0x33, 0xE1, 0x07, 0x55, 0x55, 0x55,
    0x55, 0x55, 0x43, 0x63,
];

/// The check value that catalogues of such codes have for this one, and the examples of
/// ECSS-E-ST-70-41. The remainder of nothing is what the register is preset to.
#[test]
fn vectors() {
    for (octets, expected) in [
        (&b"123456789"[..], 0x29B1),
        (&[], 0xFFFF),
        (&[0x00, 0x00], 0x1D0F),
        (&[0x00, 0x00, 0x00], 0xCC9C),
        (&[0xAB, 0xCD, 0xEF, 0x01], 0x04A2),
        (&[0x14, 0x56, 0xF8, 0x9A, 0x00, 0x01], 0x7FD5),
        (&FIRST[..18], 0x2D75),
        (&SECOND[..18], 0x4363),
    ] {
        assert_eq!(remainder_by_bits(octets), expected, "{octets:02x?}");
        assert_eq!(remainder(octets), expected, "{octets:02x?}");
        assert_eq!(by_division(octets), expected, "{octets:02x?}");
        for (what, wrong) in WRONG_REMAINDERS.iter().filter(|_| octets.len() == 18) {
            assert_ne!(wrong(octets), expected, "{what}");
        }
    }
}

#[test]
fn entries_of_the_table() {
    for (octet, expected) in
        [(0, 0), (1, 0x1021), (2, 0x2042), (8, 0x8108), (128, 0x9188), (255, 0x1EF0)]
    {
        assert_eq!(entry(octet), expected);
    }
    // The entry of a sum is the sum of the entries.
    for (one, other) in (0..=255).flat_map(|one| (0..=255).map(move |other| (one, other))) {
        assert_eq!(entry(one ^ other), entry(one) ^ entry(other));
    }
}

/// Source 004's equation, [X^16 M(X) + X^(n-16) L(X)] modulo G(X), by long division: the bits of the
/// octets and sixteen zeros, with ones added to the first sixteen.
fn by_division(octets: &[u8]) -> u16 {
    let bits = octets.iter().flat_map(|octet| (0..8).map(move |place| octet << place & 0x80 != 0));
    let mut rest: Vec<bool> = bits.chain([false; 16]).collect();
    rest[..16].iter_mut().for_each(|bit| *bit ^= true);
    for first in 0..rest.len() - 16 {
        if rest[first] {
            for place in [0, 16 - 12, 16 - 5, 16] {
                rest[first + place] ^= true;
            }
        }
    }
    rest[rest.len() - 16..].iter().fold(0, |number, &bit| 2 * number + u16::from(bit))
}

/// By bits, by the table and by division it is the same.
#[test]
fn three_ways_to_the_remainder() {
    let mut random = Random::new(4_106);
    for first in 0..=255 {
        for second in 0..=255 {
            assert_eq!(remainder(&[first, second]), remainder_by_bits(&[first, second]));
        }
        assert_eq!(remainder(&[first]), remainder_by_bits(&[first]));
        assert_eq!(by_division(&[first]), remainder_by_bits(&[first]));
    }
    for size in (0..600).chain([1_008, 2_054, 2_055, 65_536]) {
        let octets = random.octets(size);
        let expected = remainder_by_bits(&octets);
        assert_eq!(remainder(&octets), expected, "{octets:02x?}");
        assert_eq!(by_division(&octets), expected, "{octets:02x?}");
        // All octets with their trailer leave nothing.
        let whole = [&octets[..], &expected.to_be_bytes()].concat();
        assert_eq!(remainder(&whole), 0);
        assert!(is_right(&whole));
    }
}

/// Changes of up to three bits of a frame, and of any in a row of sixteen, are seen.
#[test]
fn damage_that_is_always_seen() {
    let flipped = |bits: &[usize]| {
        let mut frame = FIRST;
        bits.iter().for_each(|bit| frame[bit / 8] ^= 0x80 >> (bit % 8));
        is_right(&frame)
    };
    assert!(flipped(&[]));
    for one in 0..160 {
        assert!(!flipped(&[one]));
        for two in 0..one {
            assert!(!flipped(&[one, two]));
            for three in 0..two {
                assert!(!flipped(&[one, two, three]));
            }
        }
    }
    for first in 0..=144 {
        for row in (0x0001..=0xFFFF_u16).step_by(89) {
            let bits: Vec<usize> =
                (0..16).filter(|place| row << place & 0x8000 != 0).map(|at| first + at).collect();
            assert!(!flipped(&bits), "{row:04x} from bit {first}");
        }
    }
}

/// The sample run, multiplexed. Until a zone is full its trailer stays as lent.
#[test]
fn the_sample_run_is_written() {
    let mut record = multiplexer::Record::START;
    let mut frame = [0x77; 21];
    let first = multiplexer::put(&CHANNEL, &mut record, &FIRST[8..16], &mut frame).unwrap();
    assert!(!first.full && first.taken);
    assert_eq!(frame[..8], [0x77; 8]);
    assert_eq!(frame[16..], [0x77; 5]);
    let packet = [0xE9, 0x05, 0x11, 0x22, 0x33];
    let second = multiplexer::put(&CHANNEL, &mut record, &packet, &mut frame).unwrap();
    assert!(second.full && !second.taken);
    assert_eq!(frame[..20], FIRST);
    assert_eq!(frame[20], 0x77);

    let mut frame = [0x99; 20];
    let rest = multiplexer::put(&CHANNEL, &mut record, &packet, &mut frame).unwrap();
    assert!(!rest.full && rest.taken);
    assert_eq!(frame[11..], [0x99; 9]);
    assert_eq!(multiplexer::flush(&CHANNEL, &mut record, &mut frame), Ok(true));
    assert_eq!(frame, SECOND);
    // Nothing is written for an empty zone, so no trailer either.
    let mut frame = [0x77; 20];
    assert_eq!(multiplexer::flush(&CHANNEL, &mut record, &mut frame), Ok(false));
    assert_eq!(frame, [0x77; 20]);
}

/// An idle zone with its trailer, worked out by division; the same frame twice but for the count.
#[test]
fn idle_zones_are_written() {
    let mut record = multiplexer::Record::START;
    for count in 0..2 {
        let mut frame = [0x77; 20];
        multiplexer::idle(&CHANNEL, &mut record, &mut frame).unwrap();
        let before = [&[0x50, 0x83, 0, 0, count, 0, 0x07, 0xFE][..], &[0x55; 10]].concat();
        assert_eq!(frame[..18], before);
        assert_eq!(frame[18..], by_division(&before).to_be_bytes());
    }
}

/// What is in the zone already counts as it stands, whoever has written it.
#[test]
fn the_trailer_is_over_the_octets_as_they_stand() {
    let mut record = multiplexer::Record { count: 9, filled: 9, first: 2_047, taken: 0 };
    let mut frame = [0x31; 20];
    let put = multiplexer::put(&CHANNEL, &mut record, &[0xE0], &mut frame).unwrap();
    assert!(put.full && put.taken);
    let before = [&[0x50, 0x83, 0, 0, 9, 0, 0, 9][..], &[0x31; 9], &[0xE0]].concat();
    assert_eq!(frame[..18], before);
    assert_eq!(frame[18..], by_division(&before).to_be_bytes());
}

/// A frame to be written needs two octets more, from the first of it on.
#[test]
fn room_for_the_trailer() {
    for size in [0, 17, 18, 19] {
        let mut record = multiplexer::Record::START;
        let mut frame = [0x77; 20];
        let lent = &mut frame[..size];
        let put = multiplexer::put(&CHANNEL, &mut record, &[0xE0], lent);
        assert_eq!(put, Err(Refusal::Room));
        assert_eq!(multiplexer::flush(&CHANNEL, &mut record, lent), Err(Refusal::Room));
        assert_eq!(multiplexer::idle(&CHANNEL, &mut record, lent), Err(Refusal::Room));
        assert_eq!((record, frame), (multiplexer::Record::START, [0x77; 20]));
    }
    assert_eq!(CHANNEL.frame_length(), 20);
    assert_eq!(Settings { trailer: false, ..CHANNEL }.frame_length(), 18);
}

/// The sample run, extracted and judged.
#[test]
fn the_sample_run_is_read() {
    let (mut record, mut store) = (Record::Fresh, vec![0; 1_024]);
    let mut packets = Vec::new();
    for frame in [FIRST, SECOND] {
        let entered = extractor::enter(&CHANNEL, &mut record, &store, &frame).unwrap();
        assert_eq!((entered.lost, entered.reason), (0, Reason::None));
        while let Step::Packet { part, .. } =
            extractor::step(&CHANNEL, &mut record, &mut store, &frame).unwrap()
        {
            packets.push(extractor::show(part, &store, &frame).to_vec());
        }
    }
    assert_eq!(record, Record::InStep { last: 1, held: 0 });
    let whole = vec![0xE9, 0x05, 0x11, 0x22, 0x33];
    assert_eq!(packets, [FIRST[8..16].to_vec(), whole, SECOND[11..18].to_vec()]);
    assert_eq!(judged(&[FIRST, SECOND]), judge::Verdict::Pass);
}

fn judged(frames: &[[u8; 20]]) -> judge::Verdict {
    let (mut record, mut store) = (judge::Record::Open, vec![0; 1_024]);
    for frame in frames {
        judge::frame(&CHANNEL, &mut record, &mut store, frame).unwrap();
    }
    judge::close(&CHANNEL, &record, &store).unwrap()
}

/// The first frame of the sample with these octets changed, its trailer as it was.
fn changed(places: &[(usize, u8)]) -> [u8; 20] {
    let mut frame = FIRST;
    places.iter().for_each(|&(place, bits)| frame[place] ^= bits);
    frame
}

fn entered(frame: &[u8]) -> Result<(), Refusal> {
    let mut record = Record::InStep { last: 7, held: 0 };
    let entered = extractor::enter(&CHANNEL, &mut record, &[0; 1_024], frame);
    if entered.is_err() {
        assert_eq!(record, Record::InStep { last: 7, held: 0 });
    }
    entered.map(|_| ())
}

/// A wrong length is 3 whatever the trailer is; a wrong trailer is 13 whatever the header is; and
/// behind a right one the header is refused as before.
#[test]
fn thirteen_is_between_three_and_four() {
    let mut long = [&FIRST[..], &[0x00]].concat();
    for size in [0, 1, 2, 8, 18, 19, 21] {
        long.resize(size, 0x00);
        assert_eq!(entered(&long), Err(Refusal::Length));
        seal(&mut long);
        assert_eq!(entered(&long), Err(Refusal::Length));
    }
    assert_eq!(entered(&FIRST), Ok(()));
    for place in [(17, 0x01), (18, 0x80), (19, 0x01), (4, 0x01), (5, 0x80)] {
        assert_eq!(entered(&changed(&[place])), Err(Refusal::Trailer));
    }
    for (places, refusal) in [
        (&[(0, 0x80)][..], Refusal::Version),
        (&[(1, 0x01)], Refusal::Channel),
        (&[(5, 0x01)], Refusal::Spare),
        (&[(6, 0x08)], Refusal::Spare),
        (&[(7, 0x0A)], Refusal::Pointer),
        (&[(0, 0xC0), (1, 0xFF), (5, 0x7F), (6, 0xFF), (7, 0xFF)], Refusal::Version),
    ] {
        let mut frame = changed(places);
        assert_eq!(entered(&frame), Err(Refusal::Trailer), "{places:?}");
        seal(&mut frame);
        assert_eq!(entered(&frame), Err(refusal), "{places:?}");
        assert_eq!(judged(&[frame]), judge::Verdict::Fault(0));
    }
    assert_eq!(Refusal::Trailer.number(), 13);
}

/// A frame of a channel without trailers has two octets fewer, and the other way round.
#[test]
fn the_setting_says_which_length() {
    let without = Settings { trailer: false, ..CHANNEL };
    assert!(frame::read(&CHANNEL, &FIRST).is_ok());
    assert_eq!(frame::read(&CHANNEL, &FIRST[..18]), Err(Refusal::Length));
    assert!(frame::read(&without, &FIRST[..18]).is_ok());
    assert_eq!(frame::read(&without, &FIRST), Err(Refusal::Length));
}

/// The judge's fault is the frame with the wrong trailer, though nothing else is wrong with it; the
/// refusal is none of the judge's own.
#[test]
fn the_judge_counts_a_wrong_trailer() {
    let mut wrong = SECOND;
    wrong[19] ^= 0x10;
    assert_eq!(judged(&[FIRST, wrong]), judge::Verdict::Fault(1));
    assert_eq!(judged(&[FIRST, wrong, SECOND]), judge::Verdict::Fault(1));
    assert_eq!(judged(&[wrong, FIRST]), judge::Verdict::Fault(0));
}

/// A step has no trailer to check: it goes on in any frame of the length.
#[test]
fn steps_do_not_look_at_the_trailer() {
    for trailer in [[0x2D, 0x75], [0x00, 0x00], [0xFF, 0xFF]] {
        let mut frame = FIRST;
        frame[18..].copy_from_slice(&trailer);
        let mut record = Record::Walking { last: 0, held: 0, at: 8 };
        let mut store = [0x77; 1_024];
        let step = extractor::step(&CHANNEL, &mut record, &mut store, &frame);
        assert_eq!(step, Ok(Step::Spent));
        // The trailer is no part of the zone.
        assert_eq!(record, Record::InStep { last: 0, held: 2 });
        assert_eq!(store[..3], [0xE9, 0x05, 0x77]);
        for size in [18, 19] {
            let mut record = Record::Walking { last: 0, held: 0, at: 8 };
            let step = extractor::step(&CHANNEL, &mut record, &mut store, &frame[..size]);
            assert_eq!(step, Err(Refusal::Length));
        }
    }
}

#[test]
fn bits() {
    let (mut writer, mut reader) = (Writer { count: 4 }, Reader { last: Some(3), waiting: false });
    let before = [0x50, 0x83, 0, 0, 4, 0, 0, 2, 0b0111_0101, 0x55];
    for size in [0, 10, 11] {
        let mut frame = [0x77; 13];
        let written = bitstream::write(&BIT_CHANNEL, &mut writer, &[0x60], 3, &mut frame[..size]);
        assert_eq!((written, frame), (Err(Refusal::Room), [0x77; 13]));
    }
    let mut frame = [0x77; 13];
    bitstream::write(&BIT_CHANNEL, &mut writer, &[0x60], 3, &mut frame).unwrap();
    assert_eq!(frame[..10], before);
    assert_eq!(frame[10..12], by_division(&before).to_be_bytes());
    assert_eq!(frame[12], 0x77);

    let frame = &frame[..12];
    let mut read = |frame: &[u8]| {
        bitstream::read(&BIT_CHANNEL, &mut reader, frame)
            .map(|bits| (bits.number, bits.octets.to_vec(), bits.loss))
    };
    for size in [0, 1, 10, 11] {
        assert_eq!(read(&frame[..size]), Err(Refusal::Length));
    }
    for place in 0..12 {
        let mut wrong = frame.to_vec();
        wrong[place] ^= 0x40;
        assert_eq!(read(&wrong), Err(Refusal::Trailer), "octet {place}");
    }
    let mut wrong = frame.to_vec();
    wrong[0] ^= 0x80;
    seal(&mut wrong);
    assert_eq!(read(&wrong), Err(Refusal::Version));
    // The refused ones have left the last count as it was.
    assert_eq!(read(frame), Ok((3, vec![0b0111_0101], false)));
    assert_eq!(read(frame), Ok((3, vec![0b0111_0101], true)));
}

/// In an array the setting is the last number but one, 0 or 1. An array without it is too short,
/// which is said before all else.
#[test]
fn the_number_of_the_setting() {
    let channel = [66, 3, 10, 64, 0x55, 1, 0];
    let bit_channel = [66, 3, 10, 0x55, 1, 0];
    for (number, expected) in
        [(0, 3), (1, 0), (2, 1), (3, 1), (255, 1), (257, 1), ((1 << 32) + 1, 1), (u64::MAX, 1)]
    {
        let mut settings = channel;
        settings[5] = number;
        let (mut record, mut answer) = ([0; 4], [7; 7]);
        let refusal =
            Reference.extractor_enter(&settings, &mut record, &[0; 64], &FIRST, &mut answer);
        assert_eq!(refusal, expected, "{number}");
        let refusal = Reference.judge_tape(&settings, &mut [0; 4], &mut [0; 64], &FIRST);
        assert_eq!(refusal, expected, "{number}");
        // These calls refuse no frame for its length.
        let ranged = u64::from(number > 1);
        let refusal = Reference.judge_frame(&settings, &mut [0; 4], &mut [0; 64], &FIRST);
        assert_eq!(refusal, ranged, "{number}");
        let refusal = Reference.judge_close(&settings, &[0; 4], &[0; 64], &mut [7; 2]);
        assert_eq!(refusal, ranged, "{number}");
        let mut settings = bit_channel;
        settings[4] = number;
        assert_eq!(
            Reference.bits_read(&settings, &mut [0; 3], &FIRST, &mut [7; 6]),
            expected,
            "{number}"
        );
        let refusal = Reference.bits_write(&settings, &mut [0], &[], 0, &mut [0; 20]);
        assert_eq!(refusal, ranged, "{number}");
    }
    let mut answer = [7; 7];
    let wrong = [256, 63, 0, 0, 256];
    assert_eq!(Reference.extractor_enter(&wrong, &mut [9; 4], &[], &[], &mut answer), 2);
    assert_eq!(Reference.bits_read(&wrong[..4], &mut [9; 3], &[], &mut answer), 2);
    assert_eq!(answer, [7; 7]);
    // Bits start at octet 8 with a trailer too.
    assert_eq!(Reference.bits_read(&bit_channel, &mut [0; 3], &FIRST, &mut answer), 0);
    assert_eq!(answer, [0, 0, 0, 1, 8, 1, 7]);
}

/// The longest frames: 2,056 octets of a packet channel and 2,057 of a bitstream channel.
#[test]
fn the_longest_frames() {
    let settings = Settings { zone: 2_046, limit: 2_046, ..CHANNEL };
    let mut frame = [0x77; 2_057];
    multiplexer::idle(&settings, &mut multiplexer::Record::START.clone(), &mut frame).unwrap();
    assert_eq!(frame[2_054..2_056], by_division(&frame[..2_054]).to_be_bytes());
    assert_eq!(frame[2_056], 0x77);
    assert!(frame::read(&settings, &frame[..2_056]).is_ok());

    let settings = bitstream::Settings { width: 2_047, ..BIT_CHANNEL };
    bitstream::write(&settings, &mut Writer::START.clone(), &[], 0, &mut frame).unwrap();
    assert_eq!(frame[2_055..], by_division(&frame[..2_055]).to_be_bytes());
    assert!(bitstream::read(&settings, &mut Reader::START.clone(), &frame).is_ok());
}
