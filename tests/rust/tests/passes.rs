//! The fourteen sample passes of document 01.

use itzahuemo_reference::reference::bitstream::{self, Reader, Writer};
use itzahuemo_reference::reference::edition::Edition;
use itzahuemo_reference::reference::extractor::{self, Entered, Reason, Record, Step};
use itzahuemo_reference::reference::frame::{self, Settings, HEAD, IDLE_ZONE, NO_START};
use itzahuemo_reference::reference::multiplexer;
use itzahuemo_reference::reference::packet::{read_header, Damage, Header, Kind, Look};
use itzahuemo_reference::reference::runfile::aosread;
use itzahuemo_reference::reference::wrap::{unwrap, wrap};
use itzahuemo_reference::reference::Refusal;

const SETUP: [u8; 8] = [0x01, 0x42, 0x03, 0x00, 0x0A, 0x00, 0x04, 0x00];

const FIRST: [u8; 18] = [
    0x50, 0x83, 0x00, 0x00, 0x00, 0x00, 0x00, 0x00, 0x00, 0x05, 0xC0, 0x00, 0x00, 0x01, 0xAA, 0xBB,
    0xE9, 0x05,
];

const SECOND: [u8; 18] = [
    0x50, 0x83, 0x00, 0x00, 0x01, 0x00, 0x00, 0x03, 0x11, 0x22, 0x33, 0xE1, 0x07, 0x55, 0x55, 0x55,
    0x55, 0x55,
];

const CHANNEL: Settings = Settings {
    spacecraft: 66,
    channel: 3,
    zone: 10,
    limit: 1_024,
    fill: 0x55,
    trailer: false,
    edition: Edition::Former,
};

/// The sample's second frame with another count and pointer.
fn second(count: u8, pointer: u16) -> [u8; 18] {
    let mut frame = SECOND;
    frame[4] = count;
    frame[6..8].copy_from_slice(&pointer.to_be_bytes());
    frame
}

/// The run of these frames, as the program reads it.
fn run(frames: &[[u8; 18]]) -> Vec<u8> {
    let mut input = SETUP.to_vec();
    for frame in frames {
        input.push(0x02);
        input.extend(frame);
    }
    input.push(0x03);
    input
}

/// An extractor with its store, which checks that no frame needs too many steps.
struct Listener {
    record: Record,
    store: Vec<u8>,
}

/// A packet as it was shown, with what it is.
type Shown = (Kind, Vec<u8>);

impl Listener {
    fn fresh() -> Listener {
        Listener { record: Record::Fresh, store: vec![0; CHANNEL.limit] }
    }

    /// An extractor that has heard the sample's first frame.
    fn begun() -> Listener {
        let mut listener = Listener::fresh();
        let (entered, packets, damaged) = listener.hear(&FIRST).unwrap();
        assert_eq!((entered.count, entered.lost, entered.reason), (0, 0, Reason::None));
        assert_eq!(packets, [(Kind::Space { apid: 5 }, FIRST[8..16].to_vec())]);
        assert_eq!(damaged, None);
        assert_eq!(listener.record, Record::InStep { last: 0, held: 2 });
        listener
    }

    /// What is said of a frame when it is entered, its packets, and the damage if a step met one.
    fn hear(&mut self, frame: &[u8]) -> Result<(Entered, Vec<Shown>, Option<Damage>), Refusal> {
        let entered = extractor::enter(&CHANNEL, &mut self.record, &self.store, frame)?;
        let (mut packets, mut damaged) = (Vec::new(), None);
        for _ in 0..=CHANNEL.zone {
            match extractor::step(&CHANNEL, &mut self.record, &mut self.store, frame)? {
                Step::Spent => return Ok((entered, packets, damaged)),
                Step::Damaged(damage) => damaged = Some(damage),
                Step::Packet { kind, part } => {
                    packets.push((kind, extractor::show(part, &self.store, frame).to_vec()));
                }
            }
        }
        panic!("a frame is spent within Z+1 steps");
    }
}

const IDLE: Kind = Kind::Encapsulation { protocol: 0 };

fn idle_seven() -> Shown {
    (IDLE, SECOND[11..].to_vec())
}

#[test]
fn pass_01_the_whole_run() {
    let output = "\
setup 66 3 zone 10 limit 1024
frame 0 lost 0 dropped 0 reason 0
space 5 8
frame 1 lost 0 dropped 0 reason 0
encap 2 5
idle 7
pass
";
    assert_eq!(aosread(&run(&[FIRST, SECOND])), output);

    let mut listener = Listener::begun();
    let (entered, packets, damaged) = listener.hear(&SECOND).unwrap();
    assert_eq!((entered.lost, entered.dropped, entered.reason), (0, 0, Reason::None));
    let whole = vec![0xE9, 0x05, 0x11, 0x22, 0x33];
    assert_eq!(packets, [(Kind::Encapsulation { protocol: 2 }, whole), idle_seven()]);
    assert_eq!(damaged, None);
}

#[test]
fn pass_02_the_second_frame_alone() {
    let (entered, packets, damaged) = Listener::fresh().hear(&SECOND).unwrap();
    assert_eq!((entered.lost, entered.dropped, entered.reason), (0, 0, Reason::None));
    assert_eq!(packets, [idle_seven()]);
    assert_eq!(damaged, None);
}

#[test]
fn pass_03_a_gap() {
    let (entered, packets, _) = Listener::begun().hear(&second(2, 3)).unwrap();
    assert_eq!((entered.lost, entered.dropped, entered.reason), (1, 2, Reason::Gap));
    assert_eq!(packets, [idle_seven()]);
}

#[test]
fn pass_04_pointer_2() {
    let (entered, packets, damaged) = Listener::begun().hear(&second(1, 2)).unwrap();
    assert_eq!((entered.lost, entered.dropped, entered.reason), (0, 2, Reason::Pointer));
    assert_eq!(packets, []);
    assert_eq!(damaged, Some(Damage::Version));

    let output = "\
setup 66 3 zone 10 limit 1024
frame 0 lost 0 dropped 0 reason 0
space 5 8
frame 1 lost 0 dropped 2 reason 2
damaged 1
fault 1
";
    assert_eq!(aosread(&run(&[FIRST, second(1, 2)])), output);
}

#[test]
fn pass_05_pointers_9_and_10() {
    for mut listener in [Listener::begun(), Listener::fresh()] {
        // The last octet of the zone is 55, version 010.
        let (_, packets, damaged) = listener.hear(&second(1, 9)).unwrap();
        assert_eq!((packets, damaged), (vec![], Some(Damage::Version)));
    }
    let mut listener = Listener::begun();
    assert_eq!(listener.hear(&second(1, 10)), Err(Refusal::Pointer));
    assert_eq!(listener.record, Record::InStep { last: 0, held: 2 });
    assert_eq!(Refusal::Pointer.number(), 7);
}

#[test]
fn pass_06_pointer_2047() {
    let mut listener = Listener::begun();
    let (entered, packets, damaged) = listener.hear(&second(1, NO_START)).unwrap();
    assert_eq!((entered.dropped, entered.reason), (2, Reason::Pointer));
    assert_eq!((packets, damaged), (vec![], None));
    assert_eq!(listener.record, Record::OutOfStep { last: 1 });
}

#[test]
fn pass_07_the_wheel() {
    assert_eq!(CHANNEL.edition.missing(16_777_215, 0), 0);
    assert_eq!(CHANNEL.edition.missing(9, 9), 16_777_215);

    let mut last = second(0, IDLE_ZONE);
    last[2..5].fill(0xFF);
    let mut listener = Listener::fresh();
    assert_eq!(listener.hear(&last).unwrap().0.count, 16_777_215);
    let entered = listener.hear(&second(0, IDLE_ZONE)).unwrap().0;
    assert_eq!((entered.lost, entered.reason), (0, Reason::None));
    let entered = listener.hear(&second(0, IDLE_ZONE)).unwrap().0;
    assert_eq!((entered.lost, entered.reason), (16_777_215, Reason::Gap));
}

#[test]
fn pass_08_three_headers() {
    assert_eq!(read_header(1_024, &[0xE9, 0x01]), Ok(Look::Damaged(Damage::BelowHeader)));
    let alone = Header { kind: Kind::Encapsulation { protocol: 2 }, length: 2, total: 2 };
    assert_eq!(read_header(1_024, &[0xE9, 0x02]), Ok(Look::Whole(alone)));
    assert_eq!(read_header(1_024, &[0xEC]), Ok(Look::Damaged(Damage::NotIdle)));
}

#[test]
fn pass_09_flushes() {
    for (rest, front) in [
        (1, &[0xE0][..]),
        (2, &[0xE1, 0x02]),
        (255, &[0xE1, 0xFF]),
        (256, &[0xE2, 0x00, 0x01, 0x00]),
    ] {
        let settings = Settings { zone: rest + 7, ..CHANNEL };
        let packet = [0x00, 0x05, 0xC0, 0x00, 0x00, 0x00, 0xAA];
        let mut record = multiplexer::Record::START;
        let mut frame = vec![0; settings.frame_length()];
        multiplexer::put(&settings, &mut record, &packet, &mut frame).unwrap();
        assert_eq!(multiplexer::flush(&settings, &mut record, &mut frame), Ok(true));
        let idle = &frame[HEAD + 7..];
        assert_eq!(idle.len(), rest);
        assert_eq!(&idle[..front.len()], front);
        assert!(idle[front.len()..].iter().all(|&octet| octet == 0x55));
    }
}

/// The header's octets when so much data is wrapped.
fn wrapped_header(size: usize) -> Vec<u8> {
    let data = vec![0xAB; size];
    let mut packet = vec![0; size + 8];
    let total = wrap(65_542, 2, 0, &data, &mut packet).unwrap();
    let unwrapped = unwrap(65_542, &packet[..total]).unwrap();
    assert_eq!((unwrapped.protocol, unwrapped.extension), (2, 0));
    assert_eq!(unwrapped.data, data);
    packet[..total - size].to_vec()
}

#[test]
fn pass_10_headers_of_2_and_4() {
    assert_eq!(wrapped_header(253), [0xE9, 0xFF]);
    assert_eq!(wrapped_header(254), [0xEA, 0x00, 0x01, 0x02]);
}

#[test]
fn pass_11_headers_of_4_and_8() {
    assert_eq!(wrapped_header(65_531), [0xEA, 0x00, 0xFF, 0xFF]);
    assert_eq!(wrapped_header(65_532), [0xEB, 0x00, 0x00, 0x00, 0x00, 0x01, 0x00, 0x04]);
}

#[test]
fn pass_12_the_longest_space_packet() {
    let mut packet = vec![0; 65_542];
    packet[..6].copy_from_slice(&[0x00, 0x05, 0xC0, 0x00, 0xFF, 0xFF]);
    let longest = Header { kind: Kind::Space { apid: 5 }, length: 6, total: 65_542 };
    assert_eq!(read_header(65_542, &packet), Ok(Look::Whole(longest)));
    let put = |limit| {
        let settings = Settings { zone: 2_046, limit, ..CHANNEL };
        let mut frame = vec![0; settings.frame_length()];
        multiplexer::put(&settings, &mut multiplexer::Record::START.clone(), &packet, &mut frame)
    };
    assert!(put(65_542).is_ok());
    let over = Refusal::Packet(Some(Damage::OverLimit));
    assert_eq!(put(65_541), Err(over));
    assert_eq!(over.number(), 8);
}

#[test]
fn pass_13_bits_in_one_octet() {
    let Settings { spacecraft, channel, fill, trailer, edition, .. } = CHANNEL;
    let settings = bitstream::Settings { spacecraft, channel, width: 1, fill, trailer, edition };
    let mut writer = Writer::START;
    let mut reader = Reader::START;
    for (number, pointer, octet) in [(7, 6, 0xFF), (8, 16_383, 0xFE), (0, 16_382, 0x55)] {
        let mut frame = [0; 9];
        bitstream::write(&settings, &mut writer, &[0xFE], number, &mut frame).unwrap();
        assert_eq!(u16::from_be_bytes([frame[6], frame[7]]), pointer);
        assert_eq!(frame[8], octet);
        let bits = bitstream::read(&settings, &mut reader, &frame).unwrap();
        assert_eq!((bits.number, bits.octets.len()), (number, (number + 7) / 8));
        assert!(!bits.loss);
    }
}

#[test]
fn pass_14_a_packet_ends_with_its_zone() {
    let packet = [0x00, 0x05, 0xC0, 0x00, 0x00, 0x03, 1, 2, 3, 4];
    let mut record = multiplexer::Record::START;
    let mut frame = [0; 18];
    let mut put = || {
        let put = multiplexer::put(&CHANNEL, &mut record, &packet, &mut frame).unwrap();
        assert!(put.full && put.taken);
        frame::read(&CHANNEL, &frame).unwrap()
    };
    assert_eq!(put().pointer, 0);
    let second = put();
    assert_eq!((second.count, second.pointer), (1, 0));
}
