//! Which refusal a call gives, and what it leaves behind.

use itzahuemo_reference::calls::{Calls, Reference};
use itzahuemo_reference::orders::{arguments, damage, make, wrong_bits};
use itzahuemo_reference::orders::{Manner, Order, NAMING, ORDERS};
use itzahuemo_reference::reference::bitstream::{self, Reader, Writer};
use itzahuemo_reference::reference::edition::Edition;
use itzahuemo_reference::reference::frame::Settings;
use itzahuemo_reference::reference::packet::{read_header, Damage};
use itzahuemo_reference::reference::wrap::{unwrap, wrap};
use itzahuemo_reference::reference::{extractor, judge, multiplexer, Refusal};

const CHANNEL: Settings = Settings {
    spacecraft: 66,
    channel: 3,
    zone: 10,
    limit: 64,
    fill: 0x55,
    trailer: false,
    edition: Edition::Former,
};

const BIT_CHANNEL: bitstream::Settings = bitstream::Settings {
    spacecraft: 66,
    channel: 3,
    width: 10,
    fill: 0,
    trailer: false,
    edition: Edition::Former,
};

/// For every set of refusals that could be given, the first in order is; and a
/// refused call changes nothing but its answer, which it sets to zeros, but for the
/// damage that refusal 8 names.
#[test]
fn the_first_in_order() {
    for (order, manner) in
        ORDERS.iter().flat_map(|order| manners().into_iter().map(move |manner| (order, manner)))
    {
        let possible: Vec<u64> = order.refusals(manner.trailer).collect();
        let damages = if NAMING.contains(&order.call) { 0..=4 } else { 0..=0 };
        for set in 0..1_u32 << possible.len() {
            let chosen = |place: &usize| set >> place & 1 == 1;
            let refusals: Vec<u64> =
                (0..possible.len()).filter(chosen).map(|place| possible[place]).collect();
            for damage in damages.clone() {
                the_first_of(order, &refusals, manner, damage);
            }
        }
    }
}

/// Every manner of a channel and of its refusal 6.
fn manners() -> Vec<Manner> {
    let mut manners = vec![];
    for (trailer, edition) in
        [false, true].into_iter().flat_map(|trailer| Edition::ALL.map(|edition| (trailer, edition)))
    {
        let bits = wrong_bits(edition).iter();
        manners.extend(bits.map(|&wrong_bits| Manner { trailer, edition, wrong_bits }));
    }
    manners
}

fn the_first_of(order: &Order, refusals: &[u64], manner: Manner, number: u64) {
    let mut lent = arguments(order.call, refusals, manner);
    damage(number, &mut lent);
    let mut after = lent.clone();
    let refusal = make(&Reference, order.call, &mut after);
    let called_for = |refusal: &u64| refusals.contains(refusal) || *refusal == 8 && number != 0;
    let first = order.refusals(manner.trailer).find(called_for).unwrap_or(0);
    let with = format!("{} with {refusals:?}, damage {number}, {manner:?}", order.call);
    assert_eq!(refusal, first, "{with}");
    if refusal != 0 {
        let mut said = vec![0; lent.answer.len()];
        if let Some(last) = said.last_mut() {
            *last = if refusal == 8 { number } else { 0 };
        }
        assert_eq!(after.answer, said, "{with}");
        after.answer.clone_from(&lent.answer);
        assert_eq!(after, lent, "{with}");
    }
}

#[test]
fn settings_at_the_edges() {
    let settings = |channel, zone, limit| Settings { channel, zone, limit, ..CHANNEL }.check();
    for (channel, zone, limit) in
        [(0, 1, 7), (62, 1, 65_542), (0, 2_046, 2_046), (0, 7, 7), (0, 8, 8), (0, 2_046, 65_542)]
    {
        assert_eq!(settings(channel, zone, limit), Ok(()));
    }
    for (channel, zone, limit) in [
        (63, 1, 7),
        (255, 1, 7),
        (0, 0, 7),
        (0, 2_047, 65_542),
        (0, 1, 6),
        (0, 8, 7),
        (0, 2_046, 2_045),
        (0, 1, 65_543),
        (0, usize::MAX, usize::MAX),
    ] {
        assert_eq!(settings(channel, zone, limit), Err(Refusal::Range));
    }
}

#[test]
fn limits_of_the_packet_calls() {
    for limit in [0, 6, 65_543, usize::MAX] {
        assert_eq!(read_header(limit, &[0xE0]), Err(Refusal::Range));
        assert_eq!(wrap(limit, 2, 0, &[1], &mut [0; 9]), Err(Refusal::Range));
        assert_eq!(unwrap(limit, &[0xE0]), Err(Refusal::Range));
    }
    for limit in [7, 65_542] {
        assert!(read_header(limit, &[0xE0]).is_ok());
        assert_eq!(wrap(limit, 2, 0, &[1], &mut [0; 9]), Ok(3));
        assert!(unwrap(limit, &[0xE0]).is_ok());
    }
}

#[test]
fn wrapping() {
    let mut out = [0; 16];
    for (protocol, extension) in [(0, 0), (8, 0), (255, 0), (6, 16), (5, 1), (7, 15), (0, 16)] {
        assert_eq!(wrap(64, protocol, extension, &[1], &mut out), Err(Refusal::Range));
    }
    assert_eq!(wrap(64, 2, 0, &[], &mut []), Err(Refusal::Packet(None)));
    // Five octets of data make seven with the smallest header, and nine in protocol 6.
    assert_eq!(wrap(7, 2, 0, &[1; 5], &mut out), Ok(7));
    assert_eq!(wrap(7, 2, 0, &[1; 6], &mut out), Err(Refusal::Packet(None)));
    assert_eq!(wrap(8, 6, 0, &[1; 5], &mut out), Err(Refusal::Packet(None)));
    assert_eq!(wrap(9, 6, 15, &[1; 5], &mut out), Ok(9));
    assert_eq!(out[..4], [0xFA, 0x0F, 0x00, 0x09]);
    assert_eq!(wrap(64, 2, 0, &[1; 5], &mut out[..6]), Err(Refusal::Room));
    // Octets behind the packet stay.
    let mut out = [0x77; 9];
    assert_eq!(wrap(64, 7, 0, &[1, 2], &mut out), Ok(4));
    assert_eq!(out, [0xFD, 0x04, 1, 2, 0x77, 0x77, 0x77, 0x77, 0x77]);
}

#[test]
fn unwrapping() {
    let held = |packet: &[u8]| {
        unwrap(64, packet)
            .map(|unwrapped| (unwrapped.protocol, unwrapped.extension, unwrapped.data.to_vec()))
    };
    assert_eq!(held(&[0xE0]), Ok((0, 0, vec![])));
    assert_eq!(held(&[0xE9, 0x02]), Ok((2, 0, vec![])));
    assert_eq!(held(&[0xF9, 0x03, 7]), Ok((6, 0, vec![7])));
    assert_eq!(held(&[0xFA, 0x5A, 0x00, 0x05, 7]), Ok((6, 10, vec![7])));
    assert_eq!(held(&[0xFB, 0x0F, 0, 0, 0, 0, 0, 8]), Ok((6, 15, vec![])));
    // The user field is free, the extension and the reserved octets are not.
    assert_eq!(held(&[0xEA, 0xF0, 0x00, 0x05, 7]), Ok((2, 0, vec![7])));
    assert_eq!(held(&[0xEA, 0x01, 0x00, 0x05, 7]), Err(Refusal::Spare));
    assert_eq!(held(&[0xE2, 0x01, 0x00, 0x04]), Err(Refusal::Spare));
    assert_eq!(held(&[0xEB, 0, 1, 0, 0, 0, 0, 8]), Err(Refusal::Spare));
    assert_eq!(held(&[0xFB, 0x0F, 0, 1, 0, 0, 0, 8]), Err(Refusal::Spare));
    // Not well-formed, not of the stated length, or a space packet.
    assert_eq!(held(&[]), Err(Refusal::Packet(None)));
    assert_eq!(held(&[0xEC]), Err(Refusal::Packet(Some(Damage::NotIdle))));
    assert_eq!(held(&[0xE9, 0x01]), Err(Refusal::Packet(Some(Damage::BelowHeader))));
    assert_eq!(held(&[0xE9, 0x03]), Err(Refusal::Packet(None)));
    assert_eq!(held(&[0xE9, 0x02, 0]), Err(Refusal::Packet(None)));
    assert_eq!(held(&[0xEA, 0x01, 0x00]), Err(Refusal::Packet(None)));
    assert_eq!(held(&[0x00, 0x05, 0xC0, 0x00, 0x00, 0x00, 7]), Err(Refusal::Packet(None)));
}

/// What the multiplexer's flush makes of a record: refusal 10 or not.
#[test]
fn multiplexer_records() {
    let flush = |count, filled, first, taken| {
        let mut record = multiplexer::Record { count, filled, first, taken };
        multiplexer::flush(&CHANNEL, &mut record, &mut [0; 18])
    };
    let last = (1 << 24) - 1;
    assert_eq!(flush(last, 0, 2_047, 0), Ok(false));
    assert_eq!(flush(last, 9, 8, 0), Ok(true));
    assert_eq!(flush(last, 9, 2_047, 0), Ok(true));
    assert_eq!(flush(last, 1, 0, 0), Ok(true));
    assert_eq!(flush(0, 0, 2_047, 63), Err(Refusal::Moment));
    for (count, filled, first, taken) in [
        (last + 1, 0, 2_047, 0),
        (0, 10, 0, 0),
        (0, 0, 0, 0),
        (0, 5, 5, 0),
        (0, 5, 2_046, 0),
        (0, 5, 2_048, 0),
        (0, 0, 2_047, 64),
        (0, 1, 2_047, 5),
        (0, 1, 0, 5),
        (0, 0, 0, 5),
    ] {
        assert_eq!(flush(count, filled, first, taken), Err(Refusal::Record));
    }
}

#[test]
fn multiplexer_moments() {
    let packet = [0xE9, 0x0C, 1, 2, 3, 4, 5, 6, 7, 8, 9, 10];
    let mut frame = [0x77; 20];
    let mut record = multiplexer::Record::START;
    let put = multiplexer::put(&CHANNEL, &mut record, &packet, &mut frame).unwrap();
    assert!(put.full && !put.taken);
    assert_eq!(frame[18..], [0x77; 2]);
    assert_eq!(multiplexer::flush(&CHANNEL, &mut record, &mut frame), Err(Refusal::Moment));
    assert_eq!(multiplexer::idle(&CHANNEL, &mut record, &mut frame), Err(Refusal::Moment));
    // Ten octets are taken: another packet must be longer, and only then well-formed.
    let other = [0xFF; 10];
    let put = multiplexer::put(&CHANNEL, &mut record, &other, &mut frame);
    assert_eq!(put, Err(Refusal::Moment));
    let put = multiplexer::put(&CHANNEL, &mut record, &[0xFF; 11], &mut frame);
    assert_eq!(put, Err(Refusal::Packet(Some(Damage::OverLimit))));
    let put = multiplexer::put(&CHANNEL, &mut record, &packet, &mut frame).unwrap();
    assert!(!put.full && put.taken);
    assert_eq!(multiplexer::idle(&CHANNEL, &mut record, &mut frame), Err(Refusal::Moment));
    assert_eq!(multiplexer::flush(&CHANNEL, &mut record, &mut frame), Ok(true));
    assert_eq!(frame[..12], [0x50, 0x83, 0, 0, 1, 0, 0, 2, 9, 10, 0xE1, 8]);
    assert_eq!(multiplexer::idle(&CHANNEL, &mut record, &mut frame), Ok(()));
    assert_eq!(frame[..8], [0x50, 0x83, 0, 0, 2, 0, 0x07, 0xFE]);
    // A flush of an empty zone writes nothing, but needs its room all the same.
    assert_eq!(multiplexer::flush(&CHANNEL, &mut record, &mut frame[..17]), Err(Refusal::Room));
    assert_eq!(multiplexer::flush(&CHANNEL, &mut record, &mut frame), Ok(false));
}

/// What close makes of a judge's record and store: refusal 10 or not.
#[test]
fn judge_records() {
    let mut store = vec![0; 64];
    store[..2].copy_from_slice(&[0xE9, 0x1E]);
    let close = |record| judge::close(&CHANNEL, &record, &store);
    let sound = |tally, last, held| close(judge::Record::Sound { tally, last, held });
    let faulty = |tally, at| close(judge::Record::Faulty { tally, at });
    let most = 1 << 24;
    assert_eq!(close(judge::Record::Open), Ok(judge::Verdict::Pass));
    assert_eq!(sound(most, most - 1, 0), Ok(judge::Verdict::Pass));
    assert_eq!(sound(3, 0, 29), Ok(judge::Verdict::Fault(3)));
    assert_eq!(sound(1, 0, 10), Ok(judge::Verdict::Fault(1)));
    assert_eq!(faulty(most, most - 1), Ok(judge::Verdict::Fault(most - 1)));
    assert_eq!(sound(0, 0, 0), Err(Refusal::Record));
    assert_eq!(sound(most + 1, 0, 0), Err(Refusal::Record));
    assert_eq!(sound(1, most, 0), Err(Refusal::Record));
    // More is held than one frame brings; or all that the packet has.
    assert_eq!(sound(1, 0, 11), Err(Refusal::Record));
    assert_eq!(sound(9, 0, 30), Err(Refusal::Record));
    assert_eq!(faulty(0, 0), Err(Refusal::Record));
    assert_eq!(faulty(5, 5), Err(Refusal::Record));
    assert_eq!(faulty(most + 1, 0), Err(Refusal::Record));

    let mut record = judge::Record::Faulty { tally: most, at: 3 };
    let refused = judge::frame(&CHANNEL, &mut record, &mut [0; 64], &[]);
    assert_eq!(refused, Err(Refusal::Beyond));
    let mut record = judge::Record::Faulty { tally: most - 1, at: 3 };
    judge::frame(&CHANNEL, &mut record, &mut [0; 64], &[]).unwrap();
    assert_eq!(record, judge::Record::Faulty { tally: most, at: 3 });
}

/// What an enter or a step makes of a record and store: refusal 10 or not.
#[test]
fn extractor_records() {
    use extractor::Record;
    let frame = [&[0x50, 0x83, 0, 0, 5, 0, 0x07, 0xFE][..], &[0xE0; 10]].concat();
    let call = |record: Record, store: &[u8]| {
        let mut record = record;
        match record {
            Record::Walking { .. } | Record::Leaving { .. } => {
                extractor::step(&CHANNEL, &mut record, &mut store.to_vec(), &frame).map(|_| ())
            }
            _ => extractor::enter(&CHANNEL, &mut record, store, &frame).map(|_| ()),
        }
    };
    let last = (1 << 24) - 1;
    let mut store = vec![0; 66];
    store[..2].copy_from_slice(&[0xE9, 0x1E]);
    for record in [
        Record::Fresh,
        Record::OutOfStep { last },
        Record::InStep { last, held: 0 },
        Record::InStep { last, held: 1 },
        Record::InStep { last, held: 29 },
        Record::Walking { last, held: 0, at: 0 },
        Record::Walking { last, held: 0, at: 10 },
        Record::Walking { last, held: 29, at: 0 },
        Record::Leaving { last },
    ] {
        assert_eq!(call(record, &store), Ok(()), "{record:?}");
    }
    for record in [
        Record::OutOfStep { last: last + 1 },
        Record::InStep { last: last + 1, held: 0 },
        Record::InStep { last, held: 30 },
        Record::InStep { last, held: 66 },
        Record::InStep { last, held: 67 },
        Record::InStep { last, held: usize::MAX },
        Record::Walking { last: last + 1, held: 0, at: 0 },
        Record::Walking { last, held: 0, at: 11 },
        Record::Walking { last, held: 0, at: usize::MAX },
        Record::Walking { last, held: 2, at: 1 },
        Record::Walking { last, held: 30, at: 0 },
        Record::Leaving { last: last + 1 },
    ] {
        assert_eq!(call(record, &store), Err(Refusal::Record), "{record:?}");
    }
    // Held octets that cannot begin a packet.
    for front in [&[0x20][..], &[0xEC], &[0xE9, 0x01], &[0xE9, 0x41], &[0, 0, 0, 0, 0, 0x3A]] {
        store[..front.len()].copy_from_slice(front);
        let record = Record::InStep { last, held: front.len() };
        assert_eq!(call(record, &store), Err(Refusal::Record), "{front:?}");
        let record = Record::Walking { last, held: front.len(), at: 0 };
        assert_eq!(call(record, &store), Err(Refusal::Record), "{front:?}");
    }
}

/// With a limit of seven, seven octets of an eight-octet header may be held.
#[test]
fn held_may_be_the_limit() {
    let settings = Settings { zone: 7, limit: 7, ..CHANNEL };
    let frame = [&[0x50, 0x83, 0, 0, 0, 0, 0, 0][..], &[0xEB, 0, 0, 0, 0, 0, 0]].concat();
    let mut record = extractor::Record::Fresh;
    let mut store = [0; 7];
    extractor::enter(&settings, &mut record, &store, &frame).unwrap();
    let step = extractor::step(&settings, &mut record, &mut store, &frame);
    assert_eq!(step, Ok(extractor::Step::Spent));
    assert_eq!(record, extractor::Record::InStep { last: 0, held: 7 });
    let mut next = frame.clone();
    next[4] = 1;
    let entered = extractor::enter(&settings, &mut record, &store, &next).unwrap();
    // The length is EB.
    let over = extractor::Reason::Damage(Damage::OverLimit);
    assert_eq!((entered.dropped, entered.reason), (7, over));
}

/// A step on another frame follows the same rules on that frame.
#[test]
fn a_step_on_another_frame() {
    use extractor::{Part, Record, Step};
    let step = |record, zone: &[u8]| {
        let mut record = record;
        let mut store = vec![0; 64];
        store[..3].copy_from_slice(&[0xEA, 0x00, 0x00]);
        let frame = [&[0xFF; 8][..], zone].concat();
        let said = extractor::step(&CHANNEL, &mut record, &mut store, &frame);
        (said, record, store)
    };
    let held = Record::Walking { last: 5, held: 3, at: 0 };
    let (said, record, store) = step(held, &[0x06, 1, 2, 0xE0, 0xE0, 0xE0, 0xE0, 0xE0, 0xE0, 0xE0]);
    assert!(matches!(said, Ok(Step::Packet { part: Part::Store { size: 6 }, .. })));
    assert_eq!(record, Record::Walking { last: 5, held: 0, at: 3 });
    assert_eq!(store[..7], [0xEA, 0x00, 0x00, 0x06, 1, 2, 0]);
    let (said, record, store) = step(held, &[0x03, 1, 2, 0xE0, 0xE0, 0xE0, 0xE0, 0xE0, 0xE0, 0xE0]);
    let below = Step::Damaged(Damage::BelowHeader);
    assert_eq!((said, record), (Ok(below), Record::Leaving { last: 5 }));
    assert_eq!(store[..4], [0xEA, 0x00, 0x00, 0]);
    let (said, record, store) = step(held, &[0x0E, 1, 2, 3, 4, 5, 6, 7, 8, 9]);
    assert_eq!((said, record), (Ok(Step::Spent), Record::InStep { last: 5, held: 13 }));
    assert_eq!(store[..14], [0xEA, 0x00, 0x00, 0x0E, 1, 2, 3, 4, 5, 6, 7, 8, 9, 0]);
}

#[test]
fn bits() {
    let fill = 0b1010_1010;
    let settings = bitstream::Settings { width: 2, fill, ..BIT_CHANNEL };
    let mut frame = [0x77; 11];
    let mut writer = Writer { count: (1 << 24) - 1 };
    bitstream::write(&settings, &mut writer, &[0b0110_0000], 3, &mut frame).unwrap();
    let head = [0x50, 0x83, 0xFF, 0xFF, 0xFF, 0, 0, 2];
    assert_eq!(frame[..8], head);
    assert_eq!(frame[8..], [0b0110_1010, 0b1010_1010, 0x77]);
    assert_eq!(writer.count, 0);
    assert_eq!(
        bitstream::write(&settings, &mut writer, &[0; 3], 17, &mut frame),
        Err(Refusal::Range)
    );
    assert_eq!(bitstream::write(&settings, &mut writer, &[0], 9, &mut frame), Err(Refusal::Room));
    assert_eq!(
        bitstream::write(&settings, &mut writer, &[], 0, &mut frame[..9]),
        Err(Refusal::Room)
    );
    assert_eq!(bitstream::write(&settings, &mut writer, &[], 0, &mut frame[..10]), Ok(()));

    // A full zone says 16,383: the pointer 15 of its last bit is refused.
    let mut reader = Reader { last: Some(3), waiting: false };
    let mut read = |pointer: u16| {
        let mut frame = [0x50, 0x83, 0, 0, 4, 0x80, 0, 0, 1, 2];
        frame[6..8].copy_from_slice(&pointer.to_be_bytes());
        bitstream::read(&settings, &mut reader, &frame)
            .map(|bits| (bits.number, bits.octets.len(), bits.replay, bits.loss))
    };
    assert_eq!(read(14), Ok((15, 2, true, false)));
    assert_eq!(read(15), Err(Refusal::Pointer));
    assert_eq!(read(16_381), Err(Refusal::Pointer));
    assert_eq!(read(0x4000), Err(Refusal::Spare));
    // The same count again does not follow, of which a zone of fill says nothing.
    assert_eq!(read(16_382), Ok((0, 0, true, false)));
    assert_eq!(read(16_383), Ok((16, 2, true, true)));
    assert_eq!(read(7), Ok((8, 1, true, true)));
    assert_eq!(read(8), Ok((9, 2, true, true)));
}

#[test]
fn bit_settings_at_the_edges() {
    let write = |channel, width| {
        let settings = bitstream::Settings { channel, width, ..BIT_CHANNEL };
        bitstream::write(&settings, &mut Writer::START.clone(), &[], 0, &mut [0; 3_000])
    };
    for (channel, width) in [(0, 1), (62, 2_047)] {
        assert_eq!(write(channel, width), Ok(()));
    }
    for (channel, width) in [(63, 1), (0, 0), (0, 2_048), (0, usize::MAX)] {
        assert_eq!(write(channel, width), Err(Refusal::Range));
    }
}

/// Numbers that stand for no record: an unlisted kind, a number too great, or an
/// entry that its kind has no use for.
#[test]
fn numbers_that_are_no_record() {
    let settings = [66, 3, 10, 64, 0, 0, 0];
    let bit_settings = [66, 3, 10, 0, 0, 0];
    let frame = [&[0x50, 0x83, 0, 0, 5, 0, 0x07, 0xFE][..], &[0; 10]].concat();
    let great = 1 << 32;
    for record in [
        [0, 1, 0, 0],
        [0, 0, 1, 0],
        [0, 0, 0, 1],
        [1, great, 0, 0],
        [1, 5, 1, 0],
        [1, 5, 0, 1],
        [2, 5, 0, 1],
        [2, 5, u64::MAX, 0],
        [3, 5, 0, great],
        [4, 5, 1, 0],
        [4, 5, 0, 1],
        [5, 0, 0, 0],
        [u64::MAX, 0, 0, 0],
        [1 << 8, 0, 0, 0],
    ] {
        let (mut after, mut answer) = (record, [7; 7]);
        let refusal =
            Reference.extractor_enter(&settings, &mut after, &[0; 64], &frame, &mut answer);
        assert_eq!((refusal, after, answer), (10, record, [0; 7]));
        let refusal =
            Reference.extractor_step(&settings, &mut after, &mut [0; 64], &frame, &mut answer);
        assert_eq!((refusal, after), (10, record));
    }
    for record in [
        [0, 1, 0, 0],
        [0, 0, 1, 0],
        [0, 0, 0, 1],
        [1, great + 1, 0, 0],
        [1, 1, great, 0],
        [1, 1, 0, u64::MAX],
        [2, 5, 3, 1],
        [2, great + 5, 3, 0],
        [3, 0, 0, 0],
        [u64::MAX, 0, 0, 0],
    ] {
        let mut after = record;
        assert_eq!(Reference.judge_frame(&settings, &mut after, &mut [0; 64], &frame), 10);
        assert_eq!(Reference.judge_tape(&settings, &mut after, &mut [0; 64], &frame), 10);
        assert_eq!(Reference.judge_tape(&settings, &mut after, &mut [0; 64], &[]), 10);
        assert_eq!(Reference.judge_close(&settings, &record, &[0; 64], &mut [0; 2]), 10);
        assert_eq!(after, record);
    }
    for record in
        [[great, 0, 2_047, 0], [0, great, 2_047, 0], [0, 0, great + 2_047, 0], [0, 0, 2_047, great]]
    {
        let mut after = record;
        assert_eq!(Reference.mux_flush(&settings, &mut after, &mut [0; 18], &mut [0]), 10);
        assert_eq!(after, record);
    }
    for record in [
        [0, 1, 0],
        [0, 0, 1],
        [0, 4, 1],
        [0, 0, 2],
        [0, 0, great],
        [1, 4, 2],
        [1, 4, 3],
        [1, 4, 256],
        [1, 4, great],
        [1, 4, great + 1],
        [1, 4, u64::MAX],
        [1, 1 << 24, 0],
        [1, 1 << 24, 1],
        [1, great, 0],
        [1, great + 4, 1],
        [1, u64::MAX, 0],
        [2, 0, 0],
        [2, 4, 1],
        [1 << 8, 0, 0],
        [great + 1, 4, 1],
        [u64::MAX, 0, 0],
    ] {
        let (mut after, mut answer) = (record, [7; 6]);
        let refusal = Reference.bits_read(&bit_settings, &mut after, &frame, &mut answer);
        assert_eq!((refusal, after, answer), (10, record, [0; 6]));
    }
}

/// What a read makes of a record of a reader of bits: refusal 10 or not.
#[test]
fn bit_reader_records() {
    let frame = [&[0x50, 0x83, 0, 0, 5, 0, 0, 0][..], &[0; 10]].concat();
    let read = |last, waiting| {
        let mut reader = Reader { last, waiting };
        bitstream::read(&BIT_CHANNEL, &mut reader, &frame).map(|bits| bits.loss)
    };
    let last = (1 << 24) - 1;
    assert_eq!(read(None, false), Ok(false));
    assert_eq!(read(Some(4), false), Ok(false));
    assert_eq!(read(Some(4), true), Ok(true));
    assert_eq!(read(Some(0), true), Ok(true));
    assert_eq!(read(Some(last), false), Ok(true));
    assert_eq!(read(Some(last), true), Ok(true));
    assert_eq!(read(None, true), Err(Refusal::Record));
    for waiting in [false, true] {
        assert_eq!(read(Some(last + 1), waiting), Err(Refusal::Record));
        assert_eq!(read(Some(u32::MAX), waiting), Err(Refusal::Record));
    }
}

/// Settings and arguments too great for any use.
#[test]
fn numbers_out_of_range() {
    for (place, number) in [
        (0, 256),
        (1, 63),
        (1, 1 << 32),
        (2, 1 << 32),
        (3, 1 << 33),
        (4, 256),
        (5, 2),
        (5, 256),
        (5, (1 << 32) + 1),
        (5, u64::MAX),
        (6, 3),
        (6, 4),
        (6, 256),
        (6, (1 << 32) + 1),
        (6, u64::MAX),
    ] {
        let mut settings = [66, 3, 10, 64, 0, 0, 0];
        settings[place] = number;
        let mut record = [0, 0, 2_047, 0];
        assert_eq!(Reference.mux_idle(&settings, &mut record, &mut [0; 18]), 1);
    }
    let mut answer = [7; 2];
    for (protocol, extension) in [(256 + 2, 0), (2, 256), (u64::MAX, 0)] {
        assert_eq!(Reference.wrap(64, protocol, extension, &[1], &mut [0; 9], &mut answer), 1);
    }
    let settings = [66, 3, 10, 0, 0, 0];
    assert_eq!(Reference.bits_write(&settings, &mut [0], &[], u64::MAX, &mut [0; 18]), 1);
}

/// Arrays of numbers that are too short are refused, and nothing is written.
#[test]
fn short_arrays() {
    let mut answer = [7; 2];
    assert_eq!(Reference.read_header(6, &[], &mut answer), 2);
    assert_eq!(answer, [7; 2]);
    let mut record = [0, 0, 0, 0];
    let settings = [66, 63, 10, 64, 0, 0, 0];
    assert_eq!(Reference.judge_close(&settings[..6], &record, &[], &mut answer), 2);
    assert_eq!(Reference.judge_close(&settings, &record[..3], &[], &mut answer), 2);
    assert_eq!(Reference.judge_close(&settings, &record, &[], &mut answer[..1]), 2);
    assert_eq!(answer, [7; 2]);
    assert_eq!(Reference.judge_close(&settings, &record, &[], &mut answer), 1);
    assert_eq!(answer, [0; 2]);
    assert_eq!(Reference.judge_frame(&[66, 3, 10, 64, 0, 0, 0], &mut record, &mut [0; 64], &[]), 0);
    assert_eq!(record, [2, 1, 0, 0]);

    // A reader of bits has three numbers.
    let (mut record, mut answer) = ([9; 3], [7; 6]);
    let settings = [66, 63, 10, 0, 0, 0];
    for size in 0..3 {
        let refusal = Reference.bits_read(&settings, &mut record[..size], &[], &mut answer);
        assert_eq!((refusal, record, answer), (2, [9; 3], [7; 6]));
    }
    assert_eq!(Reference.bits_read(&settings, &mut record, &[], &mut answer), 1);
    assert_eq!((record, answer), ([9; 3], [0; 6]));
}
