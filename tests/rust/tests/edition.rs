//! The longer frame count: request L5 of document 02, worked out by hand.

use itzahuemo_reference::calls::{Calls, Reference};
use itzahuemo_reference::generate::{bit_settings_numbers, seal, settings_numbers};
use itzahuemo_reference::reference::bitstream::{self, Reader, Writer};
use itzahuemo_reference::reference::edition::Edition::{self, CycleUnused, CycleUsed, Former};
use itzahuemo_reference::reference::extractor::{self, Entered, Reason, Record, Step};
use itzahuemo_reference::reference::frame::{self, Settings};
use itzahuemo_reference::reference::judge::{self, Verdict};
use itzahuemo_reference::reference::multiplexer;
use itzahuemo_reference::reference::runfile::aosread;
use itzahuemo_reference::reference::trailer::remainder_by_bits;
use itzahuemo_reference::reference::Refusal;

/// 2^24 and 2^28.
const SHORT_WHEEL: u32 = 16_777_216;
const LONG_WHEEL: u32 = 268_435_456;

/// The channel of document 01's sample run in some edition.
fn channel(edition: Edition) -> Settings {
    let (zone, limit, fill, trailer) = (10, 1_024, 0x55, false);
    Settings { spacecraft: 66, channel: 3, zone, limit, fill, trailer, edition }
}

fn bit_channel(edition: Edition) -> bitstream::Settings {
    let (width, fill, trailer) = (10, 0x55, false);
    bitstream::Settings { spacecraft: 66, channel: 3, width, fill, trailer, edition }
}

/// A frame of that channel with an idle zone: its count's field and its signalling octet.
fn idle_frame(field: [u8; 3], signalling: u8) -> [u8; 18] {
    let [a, b, c] = field;
    let mut frame = [0x55; 18];
    frame[..8].copy_from_slice(&[0x50, 0x83, a, b, c, signalling, 0x07, 0xFE]);
    frame
}

/// Counts of each edition as they stand in a frame with replay flag 0: the three octets of the
/// count's field, and the signalling octet.
const WRITTEN: [(Edition, u32, [u8; 3], u8); 14] = [
    (Former, 0, [0x00, 0x00, 0x00], 0x00),
    (Former, 66_051, [0x01, 0x02, 0x03], 0x00),
    (Former, 16_777_215, [0xFF, 0xFF, 0xFF], 0x00),
    (CycleUnused, 0, [0x00, 0x00, 0x00], 0x00),
    (CycleUnused, 66_051, [0x01, 0x02, 0x03], 0x00),
    (CycleUnused, 16_777_215, [0xFF, 0xFF, 0xFF], 0x00),
    (CycleUsed, 0, [0x00, 0x00, 0x00], 0x40),
    (CycleUsed, 66_051, [0x01, 0x02, 0x03], 0x40),
    (CycleUsed, 16_777_215, [0xFF, 0xFF, 0xFF], 0x40),
    (CycleUsed, 16_777_216, [0x00, 0x00, 0x00], 0x41),
    (CycleUsed, 16_777_217, [0x00, 0x00, 0x01], 0x41),
    (CycleUsed, 134_217_728, [0x00, 0x00, 0x00], 0x48),
    (CycleUsed, 180_150_001, [0xBC, 0xDE, 0xF1], 0x4A),
    (CycleUsed, 268_435_455, [0xFF, 0xFF, 0xFF], 0x4F),
];

#[test]
fn widths() {
    for (edition, number, width, wheel) in [
        (Former, 0, 24, SHORT_WHEEL),
        (CycleUnused, 1, 24, SHORT_WHEEL),
        (CycleUsed, 2, 28, LONG_WHEEL),
    ] {
        assert_eq!((edition.number(), edition.width(), edition.wheel()), (number, width, wheel));
        assert_eq!(Edition::ALL[number as usize], edition);
    }
}

#[test]
fn counts_are_written() {
    for (edition, count, field, signalling) in WRITTEN {
        let mut record = multiplexer::Record { count, ..multiplexer::Record::START };
        let mut frame = [0x77; 18];
        multiplexer::idle(&channel(edition), &mut record, &mut frame).unwrap();
        assert_eq!(frame, idle_frame(field, signalling), "{edition:?} {count}");

        let mut record = multiplexer::Record { filled: 9, first: 0, count, taken: 0 };
        let mut frame = [0x77; 18];
        multiplexer::flush(&channel(edition), &mut record, &mut frame).unwrap();
        assert_eq!((&frame[2..5], frame[5]), (&field[..], signalling), "{edition:?} {count}");

        let mut record = multiplexer::Record { count, ..multiplexer::Record::START };
        let mut frame = [0x77; 18];
        let packet = [0x00, 0x05, 0xC0, 0x00, 0x00, 0x03, 1, 2, 3, 4];
        multiplexer::put(&channel(edition), &mut record, &packet, &mut frame).unwrap();
        assert_eq!((&frame[2..5], frame[5]), (&field[..], signalling), "{edition:?} {count}");

        let mut frame = [0x77; 18];
        bitstream::write(&bit_channel(edition), &mut Writer { count }, &[], 0, &mut frame).unwrap();
        assert_eq!((&frame[2..5], frame[5]), (&field[..], signalling), "{edition:?} {count}");
    }
}

/// The replay flag is reported and changes nothing of the count.
#[test]
fn counts_are_read() {
    for (edition, count, field, signalling) in WRITTEN {
        for (replay, flag) in [(false, 0), (true, 0x80)] {
            let mut frame = idle_frame(field, signalling | flag);
            let head = frame::read(&channel(edition), &frame).unwrap();
            assert_eq!((head.count, head.replay), (count, replay), "{edition:?}");
            frame[6..8].copy_from_slice(&[0, 0]);
            let mut reader = Reader::START;
            let bits = bitstream::read(&bit_channel(edition), &mut reader, &frame).unwrap();
            assert_eq!((bits.count, bits.replay), (count, replay), "{edition:?}");
            assert_eq!(reader, Reader { last: Some(count), waiting: false });
        }
    }
}

/// The first count is 0, and behind the last of the wheel it is 0 again.
#[test]
fn the_next_count() {
    for (edition, count, next) in [
        (Former, 0, 1),
        (Former, 16_777_214, 16_777_215),
        (Former, 16_777_215, 0),
        (CycleUnused, 0, 1),
        (CycleUnused, 16_777_215, 0),
        (CycleUsed, 0, 1),
        (CycleUsed, 16_777_214, 16_777_215),
        (CycleUsed, 16_777_215, 16_777_216),
        (CycleUsed, 16_777_216, 16_777_217),
        (CycleUsed, 33_554_431, 33_554_432),
        (CycleUsed, 268_435_454, 268_435_455),
        (CycleUsed, 268_435_455, 0),
    ] {
        let mut record = multiplexer::Record { count, ..multiplexer::Record::START };
        multiplexer::idle(&channel(edition), &mut record, &mut [0; 18]).unwrap();
        assert_eq!(record.count, next, "{edition:?} {count}");
        let mut writer = Writer { count };
        bitstream::write(&bit_channel(edition), &mut writer, &[], 0, &mut [0; 18]).unwrap();
        assert_eq!(writer.count, next, "{edition:?} {count}");
    }
    assert_eq!((multiplexer::Record::START.count, Writer::START.count), (0, 0));
}

/// The sample run with a cycle: packets, zones and pointers are those of document 01.
#[test]
fn the_sample_run() {
    let first = [
        0x50, 0x83, 0x00, 0x00, 0x00, 0x40, 0x00, 0x00, 0x00, 0x05, 0xC0, 0x00, 0x00, 0x01, 0xAA,
        0xBB, 0xE9, 0x05,
    ];
    let second = [
        0x50, 0x83, 0x00, 0x00, 0x01, 0x40, 0x00, 0x03, 0x11, 0x22, 0x33, 0xE1, 0x07, 0x55, 0x55,
        0x55, 0x55, 0x55,
    ];
    let settings = channel(CycleUsed);
    let mut record = multiplexer::Record::START;
    let packets = [&first[8..16], &[0xE9, 0x05, 0x11, 0x22, 0x33]];
    let mut frame = [0; 18];
    multiplexer::put(&settings, &mut record, packets[0], &mut frame).unwrap();
    let put = multiplexer::put(&settings, &mut record, packets[1], &mut frame).unwrap();
    assert!(put.full && !put.taken);
    assert_eq!(frame, first);
    multiplexer::put(&settings, &mut record, packets[1], &mut frame).unwrap();
    assert_eq!(multiplexer::flush(&settings, &mut record, &mut frame), Ok(true));
    assert_eq!(frame, second);

    let (mut record, mut store) = (Record::Fresh, vec![0; 1_024]);
    let mut handed = Vec::new();
    for frame in [first, second] {
        let entered = extractor::enter(&settings, &mut record, &store, &frame).unwrap();
        assert_eq!((entered.lost, entered.reason), (0, Reason::None));
        while let Step::Packet { part, .. } =
            extractor::step(&settings, &mut record, &mut store, &frame).unwrap()
        {
            handed.push(extractor::show(part, &store, &frame).to_vec());
        }
    }
    assert_eq!(handed, [packets[0], packets[1], &second[11..]]);
    assert_eq!(judged(CycleUsed, &[first, second]), Verdict::Pass);
}

/// The frames missing between two counts.
#[test]
fn the_wheel_of_each_width() {
    for edition in [Former, CycleUnused] {
        for (last, count, missing) in [
            (0, 1, 0),
            (16_777_215, 0, 0),
            (9, 9, 16_777_215),
            (16_777_215, 1, 1),
            (1, 0, 16_777_214),
            (0, 16_777_215, 16_777_214),
        ] {
            assert_eq!(edition.missing(last, count), missing, "{edition:?} {last} {count}");
        }
    }
    for (last, count, missing) in [
        (0, 1, 0),
        (268_435_455, 0, 0),
        (9, 9, 268_435_455),
        (16_777_215, 16_777_216, 0),
        (16_777_215, 0, 251_658_240),
        (16_777_216, 16_777_216, 268_435_455),
        (5, 16_777_222, 16_777_216),
        (16_777_222, 5, 251_658_238),
        (268_435_455, 1, 1),
        (1, 0, 268_435_454),
    ] {
        assert_eq!(CycleUsed.missing(last, count), missing, "{last} {count}");
    }
}

/// Enters frames one after the other, and steps each until it is spent; answers the last entry.
fn entered(edition: Edition, frames: &[[u8; 18]]) -> Entered {
    let settings = channel(edition);
    let (mut record, mut store) = (Record::Fresh, vec![0; 1_024]);
    let mut last = None;
    for frame in frames {
        last = Some(extractor::enter(&settings, &mut record, &store, frame).unwrap());
        assert_eq!(extractor::step(&settings, &mut record, &mut store, frame), Ok(Step::Spent));
    }
    last.unwrap()
}

fn judged(edition: Edition, frames: &[[u8; 18]]) -> Verdict {
    let (mut record, mut store) = (judge::Record::Open, vec![0; 1_024]);
    for frame in frames {
        judge::frame(&channel(edition), &mut record, &mut store, frame).unwrap();
    }
    judge::close(&channel(edition), &record, &store).unwrap()
}

/// The loss flag of the last of these frames, each with a bit.
fn loss(edition: Edition, frames: &[[u8; 18]]) -> bool {
    let mut reader = Reader::START;
    let mut last = false;
    for frame in frames {
        let mut frame = *frame;
        frame[6..8].copy_from_slice(&[0, 0]);
        last = bitstream::read(&bit_channel(edition), &mut reader, &frame).unwrap().loss;
    }
    last
}

/// What is lost between two frames, as the extractor says it; to the judge it is a fault, and to a
/// reader of bits a loss.
#[test]
fn frames_lost() {
    let ones = [0xFF, 0xFF, 0xFF];
    let zeros = [0x00, 0x00, 0x00];
    for (edition, first, second, lost) in [
        (Former, (ones, 0x00), (zeros, 0x00), 0),
        (Former, (ones, 0x00), (ones, 0x00), 16_777_215),
        (CycleUnused, (ones, 0x00), (zeros, 0x00), 0),
        (CycleUnused, (ones, 0x00), (ones, 0x00), 16_777_215),
        // 268,435,455 and then 0.
        (CycleUsed, (ones, 0x4F), (zeros, 0x40), 0),
        (CycleUsed, (ones, 0x4F), (ones, 0x4F), 268_435_455),
        (CycleUsed, (zeros, 0x40), (zeros, 0x40), 268_435_455),
        // 16,777,215 and then 16,777,216.
        (CycleUsed, (ones, 0x40), (zeros, 0x41), 0),
        (CycleUsed, (ones, 0x4E), (zeros, 0x4F), 0),
        // The next in 24 bits, with the cycle as it was, and too far on.
        (CycleUsed, (ones, 0x40), (zeros, 0x40), 251_658_240),
        (CycleUsed, (ones, 0x40), (zeros, 0x42), 16_777_216),
        // The same in 24 bits.
        (CycleUsed, (ones, 0x40), (ones, 0x41), 16_777_215),
        // The flag of either frame does not count.
        (CycleUsed, (ones, 0xC0), (zeros, 0x41), 0),
        (CycleUsed, (ones, 0x4F), (zeros, 0xC0), 0),
    ] {
        let frames = [first, second].map(|(field, signalling)| idle_frame(field, signalling));
        let entered = entered(edition, &frames);
        let reason = if lost == 0 { Reason::None } else { Reason::Gap };
        assert_eq!((entered.lost, entered.reason), (lost, reason), "{edition:?} {frames:02x?}");
        let verdict = if lost == 0 { Verdict::Pass } else { Verdict::Fault(1) };
        assert_eq!(judged(edition, &frames), verdict, "{edition:?} {frames:02x?}");
        assert_eq!(loss(edition, &frames), lost != 0, "{edition:?} {frames:02x?}");
    }
}

/// Held octets are dropped where only the cycle shows the gap, and go on where it goes on.
#[test]
fn a_packet_over_the_turn_of_the_count() {
    let settings = channel(CycleUsed);
    let begun =
        [0x50, 0x83, 0xFF, 0xFF, 0xFF, 0x43, 0x00, 0x00, 0xE9, 0x0C, 1, 2, 3, 4, 5, 6, 7, 8];
    let rest = |signalling| {
        [
            0x50, 0x83, 0x00, 0x00, 0x00, signalling, 0x00, 0x02, 9, 10, 0xE1, 0x08, 0x55, 0x55,
            0x55, 0x55, 0x55, 0x55,
        ]
    };
    for (signalling, said) in [
        (0x44, (67_108_864, 0, 0, Reason::None)),
        (0x43, (50_331_648, 251_658_240, 10, Reason::Gap)),
        (0x45, (83_886_080, 16_777_216, 10, Reason::Gap)),
    ] {
        let (mut record, mut store) = (Record::Fresh, vec![0; 1_024]);
        extractor::enter(&settings, &mut record, &store, &begun).unwrap();
        let step = extractor::step(&settings, &mut record, &mut store, &begun);
        assert_eq!(step, Ok(Step::Spent));
        assert_eq!(record, Record::InStep { last: 67_108_863, held: 10 });
        let entered = extractor::enter(&settings, &mut record, &store, &rest(signalling)).unwrap();
        let Entered { count, lost, dropped, reason, .. } = entered;
        assert_eq!((count, lost, dropped, reason), said);
    }
}

/// A loss of cycles alone waits in fill for bits.
#[test]
fn a_loss_that_waits() {
    let settings = bit_channel(CycleUsed);
    let frame = |signalling, pointer: u16| {
        let mut frame = idle_frame([0x00, 0x00, 0x07], signalling);
        frame[6..8].copy_from_slice(&pointer.to_be_bytes());
        frame
    };
    let mut reader = Reader { last: Some(16_777_222), waiting: false };
    let mut read = |frame: [u8; 18]| {
        let loss = bitstream::read(&settings, &mut reader, &frame).map(|bits| bits.loss);
        (loss, reader)
    };
    let waits = |count, waiting| Reader { last: Some(count), waiting };
    assert_eq!(read(frame(0x41, 16_382)), (Ok(false), waits(16_777_223, false)));
    assert_eq!(read(frame(0x42, 16_382)), (Ok(false), waits(33_554_439, true)));
    // A frame that is refused leaves the count and what waits.
    for wrong in [0x02, 0x52, 0x62] {
        assert_eq!(read(frame(wrong, 4)), (Err(Refusal::Spare), waits(33_554_439, true)));
    }
    assert_eq!(read(frame(0x4F, 4)), (Ok(true), waits(251_658_247, false)));
    let mut next = frame(0x4F, 4);
    next[4] = 8;
    assert_eq!(read(next), (Ok(false), waits(251_658_248, false)));
}

/// Whether a signalling octet is one of an edition: replay 1 bit, count usage 1, spare 2, cycle 4.
fn is_right(edition: Edition, signalling: u8) -> bool {
    let right: &[u8] = match edition {
        Former | CycleUnused => &[0x00, 0x80],
        CycleUsed => &[
            0x40, 0x41, 0x42, 0x43, 0x44, 0x45, 0x46, 0x47, 0x48, 0x49, 0x4A, 0x4B, 0x4C, 0x4D,
            0x4E, 0x4F, 0xC0, 0xC1, 0xC2, 0xC3, 0xC4, 0xC5, 0xC6, 0xC7, 0xC8, 0xC9, 0xCA, 0xCB,
            0xCC, 0xCD, 0xCE, 0xCF,
        ],
    };
    right.contains(&signalling)
}

/// Every other signalling octet is refused by 6, and is a fault.
#[test]
fn every_signalling_octet() {
    for (edition, signalling) in
        Edition::ALL.iter().flat_map(|&edition| (0..=255).map(move |octet| (edition, octet)))
    {
        let expected = if is_right(edition, signalling) { Ok(()) } else { Err(Refusal::Spare) };
        let with = format!("{edition:?} {signalling:02x}");
        let frame = idle_frame([0x00, 0x00, 0x05], signalling);
        let mut record = Record::InStep { last: 4, held: 0 };
        let entered = extractor::enter(&channel(edition), &mut record, &[0; 1_024], &frame);
        assert_eq!(entered.map(|_| ()), expected, "{with}");
        if entered.is_err() {
            assert_eq!(record, Record::InStep { last: 4, held: 0 });
        }
        let verdict = if expected.is_ok() { Verdict::Pass } else { Verdict::Fault(0) };
        assert_eq!(judged(edition, &[frame]), verdict, "{with}");

        let mut bits = frame;
        bits[6..8].copy_from_slice(&[0, 0]);
        let mut reader = Reader { last: Some(4), waiting: true };
        let read = bitstream::read(&bit_channel(edition), &mut reader, &bits).map(|_| ());
        assert_eq!(read, expected, "{with}");
        if read.is_err() {
            assert_eq!(reader, Reader { last: Some(4), waiting: true });
        }
    }
    assert_eq!(Refusal::Spare.number(), 6);
}

/// Each bit that is wrong in an edition, alone.
#[test]
fn each_wrong_bit() {
    let all = [0x40, 0x20, 0x10, 0x08, 0x04, 0x02, 0x01];
    for (edition, right, bits) in
        [(Former, 0x00, &all[..]), (CycleUnused, 0x00, &all), (CycleUsed, 0x49, &all[..3])]
    {
        for &bit in bits {
            let frame = idle_frame([0x00, 0x00, 0x05], right ^ bit);
            assert_eq!(frame::read(&channel(edition), &frame), Err(Refusal::Spare), "{bit:02x}");
        }
    }
}

/// Refusals 3, 13, 4 and 5 come before 6, whatever the signalling octet is, and 7 behind it.
#[test]
fn six_is_between_five_and_seven() {
    for (edition, signalling) in
        Edition::ALL.iter().flat_map(|&edition| (0..=255).map(move |octet| (edition, octet)))
    {
        for trailer in [false, true] {
            let settings = Settings { trailer, ..channel(edition) };
            let bit_settings = bitstream::Settings { trailer, ..bit_channel(edition) };
            let mut frame = idle_frame([0x00, 0x00, 0x05], signalling).to_vec();
            frame.resize(settings.frame_length(), 0);
            let mut expect = |places: &[(usize, u8)], refusal| {
                places.iter().for_each(|&(place, octet)| frame[place] = octet);
                if trailer {
                    seal(&mut frame);
                }
                let with = format!("{settings:?} {frame:02x?}");
                assert_eq!(frame::read(&settings, &frame), Err(refusal), "{with}");
                let read = bitstream::read(&bit_settings, &mut Reader::START.clone(), &frame);
                assert_eq!(read.map(|_| ()), Err(refusal), "{with}");
                if trailer {
                    frame[19] ^= 0x01;
                    assert_eq!(frame::read(&settings, &frame), Err(Refusal::Trailer), "{with}");
                }
                frame.push(0);
                assert_eq!(frame::read(&settings, &frame), Err(Refusal::Length), "{with}");
                frame.pop();
            };
            // Pointers that no zone of ten octets has, for packets and for bits.
            let pointer = [(6, 0x00), (7, 79)];
            let spare_or_pointer =
                if is_right(edition, signalling) { Refusal::Pointer } else { Refusal::Spare };
            expect(&pointer, spare_or_pointer);
            // A spare bit before the pointer is 6 too.
            expect(&[(6, 0xFF)], Refusal::Spare);
            expect(&[(1, 0x84)], Refusal::Channel);
            expect(&[(1, 0x83), (0, 0x51)], Refusal::Channel);
            expect(&[(0, 0x90)], Refusal::Version);
        }
    }
}

/// The counts of records: the last of the wheel is taken, and the one behind it is refused by 10, in
/// every call that has a record.
#[test]
fn counts_of_records() {
    for (edition, count, expected) in [
        (Former, SHORT_WHEEL - 1, 0),
        (Former, SHORT_WHEEL, 10),
        (Former, LONG_WHEEL - 1, 10),
        (Former, LONG_WHEEL, 10),
        (CycleUnused, SHORT_WHEEL - 1, 0),
        (CycleUnused, SHORT_WHEEL, 10),
        (CycleUnused, LONG_WHEEL - 1, 10),
        (CycleUnused, LONG_WHEEL, 10),
        (CycleUsed, SHORT_WHEEL - 1, 0),
        (CycleUsed, SHORT_WHEEL, 0),
        (CycleUsed, LONG_WHEEL - 1, 0),
        (CycleUsed, LONG_WHEEL, 10),
        (CycleUsed, u32::MAX, 10),
    ] {
        let with = format!("{edition:?} {count}");
        let count = u64::from(count);
        let settings = settings_numbers(&channel(edition));
        let bit_settings = bit_settings_numbers(&bit_channel(edition));
        let signalling = if edition == CycleUsed { 0x40 } else { 0x00 };
        let frame = idle_frame([0x00, 0x00, 0x05], signalling);
        let store = || vec![0; 1_024];

        let packet = [0xE9, 0x02];
        let record = [count, 0, 2_047, 0];
        let mut written = [0; 18];
        let put =
            Reference.mux_put(&settings, &mut record.clone(), &packet, &mut written, &mut [0; 3]);
        assert_eq!(put, expected, "put {with}");
        let flush = Reference.mux_flush(&settings, &mut record.clone(), &mut written, &mut [0]);
        assert_eq!(flush, expected, "flush {with}");
        let idle = Reference.mux_idle(&settings, &mut record.clone(), &mut written);
        assert_eq!(idle, expected, "idle {with}");

        for kind in [1, 2] {
            let mut record = [kind, count, 0, 0];
            let enter =
                Reference.extractor_enter(&settings, &mut record, &store(), &frame, &mut [0; 7]);
            assert_eq!(enter, expected, "enter {with}");
        }
        for kind in [3, 4] {
            let mut record = [kind, count, 0, 0];
            let step =
                Reference.extractor_step(&settings, &mut record, &mut store(), &frame, &mut [0; 5]);
            assert_eq!(step, expected, "step {with}");
        }

        let record = [1, 7, count, 0];
        let judge = Reference.judge_frame(&settings, &mut record.clone(), &mut store(), &frame);
        assert_eq!(judge, expected, "judge {with}");
        let tape = Reference.judge_tape(&settings, &mut record.clone(), &mut store(), &frame);
        assert_eq!(tape, expected, "tape {with}");
        let close = Reference.judge_close(&settings, &record, &store(), &mut [0; 2]);
        assert_eq!(close, expected, "close {with}");

        let write = Reference.bits_write(&bit_settings, &mut [count], &[], 0, &mut written);
        assert_eq!(write, expected, "write {with}");
        let mut bits = frame;
        bits[6..8].copy_from_slice(&[0, 0]);
        for waiting in [0, 1] {
            let mut record = [1, count, waiting];
            let read = Reference.bits_read(&bit_settings, &mut record, &bits, &mut [0; 6]);
            assert_eq!(read, expected, "read {with}");
        }
    }
}

/// A judged run has at most 16,777,216 frames in every edition, and the index of a fault is one of
/// them.
#[test]
fn the_limit_of_a_judged_run() {
    for edition in Edition::ALL {
        let settings = channel(edition);
        let signalling = if edition == CycleUsed { 0x40 } else { 0x00 };
        let frame = idle_frame([0x00, 0x00, 0x05], signalling);
        let judge = |record: judge::Record| {
            let mut record = record;
            judge::frame(&settings, &mut record, &mut [0; 1_024], &frame).map(|()| record)
        };
        let sound = |tally, last| judge::Record::Sound { tally, last, held: 0 };
        let faulty = |tally, at| judge::Record::Faulty { tally, at };
        assert_eq!(judge(sound(SHORT_WHEEL - 1, 4)), Ok(sound(SHORT_WHEEL, 5)));
        assert_eq!(judge(sound(SHORT_WHEEL, 4)), Err(Refusal::Beyond));
        assert_eq!(judge(sound(SHORT_WHEEL + 1, 4)), Err(Refusal::Record));
        assert_eq!(judge(faulty(SHORT_WHEEL, 4)), Err(Refusal::Beyond));
        assert_eq!(judge(faulty(SHORT_WHEEL + 1, 4)), Err(Refusal::Record));
        assert_eq!(judge(faulty(LONG_WHEEL, SHORT_WHEEL)), Err(Refusal::Record));
    }
}

/// A run of the judge that begins anywhere on the wheel, and goes over each turn of it.
#[test]
fn judged_runs() {
    let run = |edition: Edition, first: u32, counts: u32| -> Vec<[u8; 18]> {
        let mut record = multiplexer::Record { count: first, ..multiplexer::Record::START };
        let written = (0..counts).map(|_| {
            let mut frame = [0; 18];
            multiplexer::idle(&channel(edition), &mut record, &mut frame).unwrap();
            frame
        });
        written.collect()
    };
    for (edition, first) in [
        (Former, SHORT_WHEEL - 3),
        (CycleUnused, SHORT_WHEEL - 3),
        (CycleUsed, SHORT_WHEEL - 3),
        (CycleUsed, 7 * SHORT_WHEEL - 3),
        (CycleUsed, LONG_WHEEL - 3),
    ] {
        let frames = run(edition, first, 6);
        assert_eq!(judged(edition, &frames), Verdict::Pass, "{edition:?} {first}");
        // Its frames are of no other width.
        for other in Edition::ALL.into_iter().filter(|other| other.width() != edition.width()) {
            assert_eq!(judged(other, &frames), Verdict::Fault(0), "{edition:?} {first}");
        }
    }
    // The frames of the former edition and those of the later one without a cycle are the same.
    let frames = run(Former, SHORT_WHEEL - 3, 6);
    assert_eq!(frames, run(CycleUnused, SHORT_WHEEL - 3, 6));
    assert_eq!(judged(CycleUnused, &frames), Verdict::Pass);
    // The cycle goes on a frame too early, and a frame too late.
    let mut early = run(CycleUsed, SHORT_WHEEL - 3, 6);
    early[2][5] = 0x41;
    assert_eq!(judged(CycleUsed, &early), Verdict::Fault(2));
    let mut late = run(CycleUsed, SHORT_WHEEL - 3, 6);
    late[3][5] = 0x40;
    assert_eq!(judged(CycleUsed, &late), Verdict::Fault(3));
}

/// A trailer is over the signalling octet as it is written.
#[test]
fn with_a_trailer() {
    let settings = Settings { trailer: true, ..channel(CycleUsed) };
    let mut record = multiplexer::Record { count: 180_150_001, ..multiplexer::Record::START };
    let mut frame = [0x77; 20];
    multiplexer::idle(&settings, &mut record, &mut frame).unwrap();
    assert_eq!(frame[..18], idle_frame([0xBC, 0xDE, 0xF1], 0x4A));
    assert_eq!(frame[18..], remainder_by_bits(&frame[..18]).to_be_bytes());
    assert_eq!(frame::read(&settings, &frame).map(|head| head.count), Ok(180_150_001));
    frame[5] = 0x4B;
    assert_eq!(frame::read(&settings, &frame), Err(Refusal::Trailer));
    seal(&mut frame);
    assert_eq!(frame::read(&settings, &frame).map(|head| head.count), Ok(196_927_217));
    frame[5] = 0x0B;
    assert_eq!(frame::read(&settings, &frame), Err(Refusal::Trailer));
    seal(&mut frame);
    assert_eq!(frame::read(&settings, &frame), Err(Refusal::Spare));
}

/// In an array the setting is the last number, 0 to 2. An array without it is too short, which is
/// said before all else.
#[test]
fn the_number_of_the_setting() {
    let frame = idle_frame([0x00, 0x00, 0x05], 0x40);
    let mut bits = frame;
    bits[6..8].copy_from_slice(&[0, 0]);
    for (number, ranged, read) in [
        (0, 0, 6),
        (1, 0, 6),
        (2, 0, 0),
        (3, 1, 1),
        (4, 1, 1),
        (255, 1, 1),
        (256, 1, 1),
        (258, 1, 1),
        (1 << 16, 1, 1),
        ((1 << 32) + 2, 1, 1),
        (u64::MAX, 1, 1),
    ] {
        let settings = [66, 3, 10, 64, 0x55, 0, number];
        let mut written = [0; 18];
        let record = [0, 0, 2_047, 0];
        let store = || vec![0; 64];
        let put =
            Reference.mux_put(&settings, &mut record.clone(), &[0xE0], &mut written, &mut [7; 3]);
        assert_eq!(put, ranged, "{number}");
        let flush = Reference.mux_flush(&settings, &mut record.clone(), &mut written, &mut [7]);
        assert_eq!(flush, ranged, "{number}");
        assert_eq!(Reference.mux_idle(&settings, &mut record.clone(), &mut written), ranged);
        let enter =
            Reference.extractor_enter(&settings, &mut [0; 4], &store(), &frame, &mut [7; 7]);
        assert_eq!(enter, read, "{number}");
        let mut walking = [3, 5, 0, 10];
        let step =
            Reference.extractor_step(&settings, &mut walking, &mut store(), &frame, &mut [7; 5]);
        assert_eq!(step, ranged, "{number}");
        let judge = Reference.judge_frame(&settings, &mut [0; 4], &mut store(), &frame);
        assert_eq!(judge, ranged, "{number}");
        let tape = Reference.judge_tape(&settings, &mut [0; 4], &mut store(), &frame);
        assert_eq!(tape, ranged, "{number}");
        let close = Reference.judge_close(&settings, &[0; 4], &store(), &mut [7; 2]);
        assert_eq!(close, ranged, "{number}");

        let settings = [66, 3, 10, 0x55, 0, number];
        let write = Reference.bits_write(&settings, &mut [0], &[], 0, &mut written);
        assert_eq!(write, ranged, "{number}");
        assert_eq!(Reference.bits_read(&settings, &mut [0; 3], &bits, &mut [7; 6]), read);
    }

    let wrong = [256, 63, 0, 0, 256, 2];
    let mut answer = [7; 7];
    assert_eq!(Reference.extractor_enter(&wrong, &mut [9; 4], &[], &[], &mut answer), 2);
    assert_eq!(Reference.bits_read(&wrong[..5], &mut [9; 3], &[], &mut answer), 2);
    assert_eq!(answer, [7; 7]);
    // A count of 28 bits is one number in records and answers.
    let ones = idle_frame([0xFF, 0xFF, 0xFF], 0xCF);
    let settings = [66, 3, 10, 64, 0x55, 0, 2];
    let mut record = [2, 9, 0, 0];
    let enter = Reference.extractor_enter(&settings, &mut record, &[0; 64], &ones, &mut answer);
    assert_eq!((enter, record), (0, [3, 268_435_455, 0, 10]));
    assert_eq!(answer, [1, 268_435_455, 1, 268_435_445, 0, 1, 0]);
}

/// A step reads no header: it goes on in any frame of the length.
#[test]
fn steps_do_not_look_at_the_signalling_octet() {
    for (edition, signalling) in
        Edition::ALL.iter().flat_map(|&edition| (0..=255).map(move |octet| (edition, octet)))
    {
        let mut frame = idle_frame([0x00, 0x00, 0x05], signalling);
        frame[8..10].copy_from_slice(&[0xE9, 0x02]);
        let mut record = Record::Walking { last: 5, held: 0, at: 0 };
        let step = extractor::step(&channel(edition), &mut record, &mut [0; 1_024], &frame);
        assert!(matches!(step, Ok(Step::Packet { .. })), "{edition:?} {signalling:02x}");
        assert_eq!(record, Record::Walking { last: 5, held: 0, at: 2 });
    }
}

/// A run file has no place for the setting: the program reads the former edition.
#[test]
fn the_program() {
    for (signalling, said) in [
        (0x00, "frame 5 lost 0 dropped 0 reason 0\npass\n"),
        (0x80, "frame 5 lost 0 dropped 0 reason 0\npass\n"),
        (0x40, "refused 6\nfault 0\n"),
        (0x41, "refused 6\nfault 0\n"),
        (0x01, "refused 6\nfault 0\n"),
        (0x10, "refused 6\nfault 0\n"),
    ] {
        let setup = [0x01, 0x42, 0x03, 0x00, 0x0A, 0x00, 0x04, 0x00];
        let frame = idle_frame([0x00, 0x00, 0x05], signalling);
        let run = [&setup[..], &[0x02], &frame, &[0x03]].concat();
        assert_eq!(aosread(&run), format!("setup 66 3 zone 10 limit 1024\n{said}"));
    }
}
