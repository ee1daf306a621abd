//! The run files of tests/runs: recorded runs as the program reads them.
//!
//! Each case is named for what it shows. Where nothing else is said the channel
//! is 3 of spacecraft 66, and the data octets are ones with which no packet can
//! begin, so that a wrong start shows as damage. A run file has no place for the
//! settings of trailers and of the edition, so no frame has a trailer, and all are
//! of the former edition.

use crate::generate;
use crate::random::Random;
use crate::reference::edition::Edition;
use crate::reference::frame::{self, Settings, IDLE_ZONE, NO_START};
use crate::reference::multiplexer;
use crate::reference::runfile::{END, FRAME, SETUP};
use crate::reference::space;

/// Counts run round a wheel of this many.
const WHEEL: u32 = Edition::Former.wheel();

/// A run file and its name.
#[derive(Clone, Debug)]
pub struct Case {
    pub name: String,
    pub octets: Vec<u8>,
}

/// All cases, in the order of their subjects.
pub fn all() -> Vec<Case> {
    let mut cases = Cases::default();
    samples(&mut cases);
    packets(&mut cases);
    splits(&mut cases);
    damage(&mut cases);
    named_damage(&mut cases);
    zones(&mut cases);
    limits(&mut cases);
    idle_zones(&mut cases);
    counts(&mut cases);
    reasons(&mut cases);
    refusals(&mut cases);
    verdicts(&mut cases);
    setups(&mut cases);
    bad_records(&mut cases);
    random_runs(&mut cases);
    cases.0
}

#[derive(Default)]
struct Cases(Vec<Case>);

impl Cases {
    fn add(&mut self, name: impl Into<String>, run: impl Into<Vec<u8>>) {
        self.0.push(Case { name: name.into(), octets: run.into() });
    }
}

/// A run file in the making.
#[derive(Clone)]
struct Run {
    settings: Settings,
    octets: Vec<u8>,
}

impl From<Run> for Vec<u8> {
    fn from(run: Run) -> Vec<u8> {
        run.octets
    }
}

fn channel(zone: usize, limit: usize) -> Settings {
    let (fill, trailer, edition) = (0x55, false, Edition::Former);
    Settings { spacecraft: 66, channel: 3, zone, limit, fill, trailer, edition }
}

pub fn setup_record(settings: &Settings) -> Vec<u8> {
    let zone = (settings.zone as u16).to_be_bytes();
    let limit = (settings.limit as u32).to_be_bytes();
    let mut record = vec![SETUP, settings.spacecraft, settings.channel];
    record.extend(zone);
    record.extend(&limit[1..]);
    record
}

impl Run {
    fn new(zone: usize, limit: usize) -> Run {
        Run::of(channel(zone, limit))
    }

    fn of(settings: Settings) -> Run {
        Run { settings, octets: setup_record(&settings) }
    }

    /// A frame with this count and pointer.
    fn frame(self, count: u32, pointer: u16, zone: &[u8]) -> Run {
        assert_eq!(zone.len(), self.settings.zone);
        let mut frame = vec![0; self.settings.frame_length()];
        frame::write(&self.settings, count, pointer, &mut frame);
        frame[frame::HEAD..].copy_from_slice(zone);
        self.raw_frame(&frame)
    }

    /// A frame of these octets.
    fn raw_frame(mut self, frame: &[u8]) -> Run {
        assert_eq!(frame.len(), self.settings.frame_length());
        self.octets.push(FRAME);
        self.octets.extend(frame);
        self
    }

    fn frames(self, frames: &[Vec<u8>]) -> Run {
        frames.iter().fold(self, |run, frame| run.raw_frame(frame))
    }

    fn end(self) -> Run {
        self.octets(&[END])
    }

    /// Octets that need not be a record.
    fn octets(mut self, octets: &[u8]) -> Run {
        self.octets.extend(octets);
        self
    }
}

/// The frames that carry these packets, closed by a flush.
fn carried(settings: &Settings, first_count: u32, packets: &[Vec<u8>]) -> Vec<Vec<u8>> {
    let mut record = multiplexer::Record { count: first_count, ..multiplexer::Record::START };
    let mut frame = vec![0; settings.frame_length()];
    let mut frames = Vec::new();
    for packet in packets {
        loop {
            let put = multiplexer::put(settings, &mut record, packet, &mut frame)
                .expect("a well-formed packet");
            if put.full {
                frames.push(frame.clone());
            }
            if put.taken {
                break;
            }
        }
    }
    if multiplexer::flush(settings, &mut record, &mut frame).expect("no packet is open") {
        frames.push(frame);
    }
    frames
}

/// A whole run file that carries these packets.
fn carrying(zone: usize, limit: usize, packets: &[Vec<u8>]) -> Run {
    let run = Run::new(zone, limit);
    let frames = carried(&run.settings, 0, packets);
    run.frames(&frames).end()
}

/// Data with which no packet can begin.
fn data(size: usize) -> impl Iterator<Item = u8> {
    (0..size).map(|place| 0xA0 | place as u8 & 0x0F)
}

fn space(apid: u16, total: usize) -> Vec<u8> {
    let length = (total - 7) as u16;
    let fields = space::Fields {
        version: 0,
        packet_type: 0,
        secondary: 0,
        apid,
        flags: 3,
        count: 0,
        length,
    };
    let mut packet = vec![0; 6];
    space::write(&fields, &mut packet).expect("fields in range");
    packet.extend(data(total - 6));
    packet
}

/// An encapsulation packet with a header of 2, 4 or 8 octets.
fn encapsulation(header: usize, protocol: u8, total: usize) -> Vec<u8> {
    let length = (total as u32).to_be_bytes();
    let mut packet = vec![0xE0 | protocol << 2 | header.trailing_zeros() as u8];
    match header {
        2 => packet.push(length[3]),
        4 => packet.extend([0, length[2], length[3]]),
        _ => {
            packet.extend([0, 0, 0]);
            packet.extend(length);
        }
    }
    packet.extend(data(total - header));
    packet
}

const IDLE_OCTET: [u8; 1] = [0xE0];

/// The frames of document 01's sample run.
const SAMPLE_ZONES: [[u8; 10]; 2] = [
    [0x00, 0x05, 0xC0, 0x00, 0x00, 0x01, 0xAA, 0xBB, 0xE9, 0x05],
    [0x11, 0x22, 0x33, 0xE1, 0x07, 0x55, 0x55, 0x55, 0x55, 0x55],
];

fn samples(cases: &mut Cases) {
    let [first, second] = SAMPLE_ZONES;
    let start = || Run::new(10, 1_024);
    let begun = || start().frame(0, 0, &first);
    cases.add("sample-01-whole-run", begun().frame(1, 3, &second).end());
    cases.add("sample-02-second-frame-alone", start().frame(1, 3, &second).end());
    cases.add("sample-03-count-2", begun().frame(2, 3, &second).end());
    cases.add("sample-04-pointer-2", begun().frame(1, 2, &second).end());
    cases.add("sample-05-pointer-9", begun().frame(1, 9, &second).end());
    cases.add("sample-05-pointer-10", begun().frame(1, 10, &second).end());
    cases.add("sample-05-pointer-9-fresh", start().frame(1, 9, &second).end());
    cases.add("sample-06-pointer-2047", begun().frame(1, NO_START, &second).end());
    let idle = [0x55; 10];
    cases.add(
        "sample-07-wheel-turns",
        start().frame(WHEEL - 1, IDLE_ZONE, &idle).frame(0, IDLE_ZONE, &idle).end(),
    );
    cases.add(
        "sample-07-same-count-twice",
        start().frame(5, IDLE_ZONE, &idle).frame(5, IDLE_ZONE, &idle).end(),
    );
    let with = |front: &[u8]| {
        let mut zone = [0xE0; 10];
        zone[..front.len()].copy_from_slice(front);
        zone
    };
    cases.add("sample-08-length-below-header", start().frame(0, 0, &with(&[0xE9, 0x01])).end());
    cases.add("sample-08-length-equals-header", start().frame(0, 0, &with(&[0xE9, 0x02])).end());
    cases.add("sample-08-one-octet-not-idle", start().frame(0, 0, &with(&[0xEC])).end());
    for rest in [1, 2, 255, 256] {
        cases
            .add(format!("sample-09-flush-of-{rest}"), carrying(rest + 10, 1_024, &[space(5, 10)]));
    }
    cases.add(
        "sample-14-packet-ends-on-zone-end",
        carrying(10, 1_024, &[space(5, 10), space(6, 9)]),
    );
}

fn packets(cases: &mut Cases) {
    let idle_space = space(2_047, 9);
    let every = [
        space(1, 7),
        encapsulation(2, 1, 5),
        encapsulation(4, 2, 9),
        encapsulation(8, 3, 11),
        IDLE_OCTET.to_vec(),
        idle_space.clone(),
        encapsulation(2, 0, 2),
        encapsulation(4, 0, 4),
        encapsulation(8, 0, 8),
    ];
    cases.add("packets-of-every-kind", carrying(100, 1_024, &every));
    cases.add("packets-of-every-kind-over-zones-of-3", carrying(3, 1_024, &every));

    let protocols: Vec<_> = (1..=7).map(|protocol| encapsulation(2, protocol, 4)).collect();
    cases.add("packets-protocols-1-to-7", carrying(30, 64, &protocols));
    let mut extended = encapsulation(4, 6, 7);
    extended[1] = 0x5A;
    let mut reserved = encapsulation(8, 7, 10);
    reserved[1..4].copy_from_slice(&[0xFF, 0x12, 0x34]);
    cases.add("packets-user-extension-reserved-bits", carrying(20, 64, &[extended, reserved]));

    let mut all_bits = space(2_046, 8);
    all_bits[0] |= 0x18;
    all_bits[2..4].copy_from_slice(&[0x40, 0x04]);
    let mut idle_bits = space(2_047, 8);
    idle_bits[0] |= 0x18;
    cases
        .add("packets-space-type-and-flags", carrying(20, 64, &[all_bits, idle_bits, space(0, 7)]));

    let empty: Vec<_> = [2, 4, 8].iter().map(|&header| encapsulation(header, 5, header)).collect();
    cases.add("packets-of-a-header-alone", carrying(16, 64, &empty));
    cases.add(
        "packets-one-octet-idle-fill-a-zone",
        carrying(25, 25, &vec![IDLE_OCTET.to_vec(); 50]),
    );
}

/// Headers that lie across two zones, at each of their octets, or across more.
fn splits(cases: &mut Cases) {
    let headers = [
        ("space", 6, space(9, 14)),
        ("two-octet", 2, encapsulation(2, 2, 12)),
        ("four-octet", 4, encapsulation(4, 6, 12)),
        ("eight-octet", 8, encapsulation(8, 7, 15)),
    ];
    for (name, header, packet) in &headers {
        // Each time the packet begins so many octets before a zone's end, and an
        // idle packet takes it from there to the end of the next zone.
        let sent: Vec<_> = (1..*header)
            .flat_map(|part| {
                let rest = 20 - (packet.len() - part);
                [space(part as u16, 20 - part), packet.clone(), encapsulation(2, 0, rest)]
            })
            .collect();
        cases.add(format!("split-{name}-header-after-each-octet"), carrying(20, 100, &sent));
    }
    let eight = encapsulation(8, 4, 21);
    cases.add("split-eight-octet-header-over-four-zones", carrying(2, 30, &[eight, space(6, 8)]));
    let six = [space(5, 20), space(6, 8)];
    cases.add("split-space-header-over-six-zones", carrying(1, 30, &six));
}

/// One bit changed in each octet of a header.
fn damage(cases: &mut Cases) {
    let headers = [
        ("space", 6, space(5, 12)),
        ("one-octet", 1, IDLE_OCTET.to_vec()),
        ("two-octet", 2, encapsulation(2, 2, 12)),
        ("four-octet", 4, encapsulation(4, 6, 12)),
        ("eight-octet", 8, encapsulation(8, 7, 12)),
    ];
    for (name, header, packet) in &headers {
        for place in 0..*header {
            let run = Run::new(20, 100);
            let sent = [space(4, 7), packet.clone(), space(6, 7), space(7, 20)];
            let mut frames = carried(&run.settings, 0, &sent);
            frames[0][frame::HEAD + 7 + place] ^= 0x40;
            cases.add(format!("damage-{name}-header-octet-{place}"), run.frames(&frames).end());
        }
    }
    let versions = (0b001..=0b110).fold(Run::new(8, 64), |run, version| {
        let mut zone = [0xE0; 8];
        zone[2] = version << 5;
        run.frame(u32::from(version) - 1, 0, &zone)
    });
    cases.add("damage-every-wrong-version", versions.end());
    let protocols = (1..=7).fold(Run::new(8, 64), |run, protocol| {
        let mut zone = [0xE0; 8];
        zone[3] |= protocol << 2;
        run.frame(u32::from(protocol) - 1, 0, &zone)
    });
    cases.add("damage-one-octet-header-with-each-protocol", protocols.end());
    cases.add(
        "damage-last-octet-of-a-zone",
        Run::new(4, 64)
            .frame(0, 0, &[0xE0, 0xE0, 0xE0, 0x80])
            .frame(1, 0, &[0xE0, 0xE0, 0xE0, 0xE0])
            .end(),
    );
    cases.add(
        "damage-then-out-of-step-until-a-start",
        Run::new(4, 64)
            .frame(0, 0, &[0xE0, 0x20, 0xE0, 0xE0])
            .frame(1, NO_START, &[0xE0, 0xE0, 0xE0, 0xE0])
            .frame(2, 3, &[0xA0, 0xA0, 0xA0, 0xE1])
            .frame(3, 1, &[0x02, 0xE0, 0xE0, 0xE0])
            .end(),
    );
}

/// A header of 2, 4, 6 or 8 octets that states this total; six are those of a space packet.
fn stating(header: usize, total: usize) -> Vec<u8> {
    let length = (total as u32).to_be_bytes();
    match header {
        2 => vec![0xE9, length[3]],
        4 => vec![0xEA, 0, length[2], length[3]],
        6 => {
            let [high, low] = ((total - 7) as u16).to_be_bytes();
            vec![0x00, 0x05, 0xC0, 0x00, high, low]
        }
        _ => [&[0xEB, 0, 0, 0][..], &length].concat(),
    }
}

/// The headers that can state a length, each with the greatest total that it can state.
const HEADERS: [(&str, usize, usize); 4] = [
    ("two-octet", 2, 255),
    ("four-octet", 4, 65_535),
    ("space", 6, 65_542),
    ("eight-octet", 8, 0xFFFF_FFFF),
];

/// Headers with each damage that there is under a limit: a wrong version and a packet of one octet
/// that is not idle; lengths below each header, which a space packet has none of; and lengths over
/// the limit.
fn damaged_headers(limit: usize) -> Vec<(String, Vec<u8>)> {
    let mut headers =
        vec![("1-version".to_string(), vec![0x33]), ("2-one-octet-packet".to_string(), vec![0xEC])];
    for (name, header, _) in HEADERS.iter().filter(|header| header.1 != 6) {
        headers.push((format!("3-{name}-header"), stating(*header, header - 1)));
    }
    for (name, header, _) in HEADERS.iter().filter(|header| header.2 > limit) {
        headers.push((format!("4-{name}-header"), stating(*header, limit + 1)));
    }
    headers
}

impl Run {
    /// How many frames there are so far, which is the count of the next in a run without gaps.
    fn count(&self) -> u32 {
        let frames = self.octets.len() - setup_record(&self.settings).len();
        (frames / (1 + self.settings.frame_length())) as u32
    }

    /// The next frame, with these octets in its zone and idle packets of one octet round them.
    fn next(self, pointer: u16, at: usize, octets: &[u8]) -> Run {
        let mut zone = vec![0xE0; self.settings.zone];
        zone[at..at + octets.len()].copy_from_slice(octets);
        let count = self.count();
        self.frame(count, pointer, &zone)
    }

    /// Frames with a header from the start of a zone on, in as many zones as it takes. It goes on
    /// in the others before anything starts there.
    fn over_zones(self, header: &[u8]) -> Run {
        let zone = self.settings.zone;
        header.chunks(zone).enumerate().fold(self, |run, (place, part)| {
            let behind = if part.len() < zone { part.len() as u16 } else { NO_START };
            run.next(if place == 0 { 0 } else { behind }, 0, part)
        })
    }
}

/// The four damages, each in every octet in which it can be seen. That is the first of a header for
/// 1 and 2, and the last of its length for 3 and 4, so only these two can come out of a header that
/// lies across zones. There they show as reason 3, in a line that does not name them.
fn named_damage(cases: &mut Cases) {
    for (name, header) in damaged_headers(64) {
        let zone = 12;
        // Reached from the start of the zone, and at once.
        let each = (0..=zone - header.len()).fold(Run::new(zone, 64), |run, at| {
            run.next(0, at, &header).next(at as u16, at, &header)
        });
        cases.add(format!("damage-{name}-at-each-place"), each.end());
        if header.len() > 1 {
            let each = (1..header.len()).fold(Run::new(zone, 64), |run, size| {
                let (held, rest) = header.split_at(size);
                run.next(0, zone - size, held).next(rest.len() as u16, 0, rest)
            });
            cases.add(format!("damage-{name}-cut-after-each-octet"), each.end());
        }
    }
    // All of them under the least limit of each small zone.
    for zone in 1..=9 {
        let limit = zone.max(7);
        let headers = damaged_headers(limit);
        let run =
            headers.iter().fold(Run::new(zone, limit), |run, (_, header)| run.over_zones(header));
        cases.add(format!("damage-of-each-kind-zone-{zone}-limit-{limit}"), run.end());
    }
    // The lengths round each header and round the limit, and the greatest that there is.
    for limit in [7, 8, 10, 254, 255, 1_024, 4_095, 4_096] {
        let mut run = Run::new(limit.min(10), limit);
        for (_, header, most) in HEADERS {
            let least = if header == 6 { 7 } else { 0 };
            for total in [0, header - 1, header, limit - 1, limit, limit + 1, most] {
                if (least..=most).contains(&total) {
                    run = run.over_zones(&stating(header, total));
                }
            }
        }
        cases.add(format!("damage-of-lengths-limit-{limit}"), run.end());
    }
    let firsts = (0..=255).fold(Run::new(1, 7), |run, first| run.next(0, 0, &[first]));
    cases.add("damage-every-first-octet", firsts.end());
    // What does not count: type, secondary header, flags and sequence count; other protocols, user,
    // extension and reserved bits. Damage 3, 4, and none, of each header.
    let others: [&[u8]; 10] = [
        &[0xE5, 0x01],
        &[0xFD, 0x41],
        &[0xE6, 0xF5, 0x00, 0x03],
        &[0xFE, 0xFF, 0x00, 0x41],
        &[0xF2, 0xFF, 0x00, 0x04],
        &[0xFB, 0xFF, 0xFF, 0xFF, 0x00, 0x00, 0x00, 0x07],
        &[0xE7, 0xFF, 0xFF, 0xFF, 0x00, 0x00, 0x00, 0x41],
        &[0xF7, 0xFF, 0xFF, 0xFF, 0x00, 0x00, 0x00, 0x08],
        &[0x1F, 0xFF, 0x3F, 0xFF, 0x00, 0x3A],
        &[0x18, 0x05, 0x7F, 0xFF, 0x00, 0x00],
    ];
    let run = others.iter().fold(Run::new(12, 64), |run, header| run.next(0, 0, header));
    cases.add("damage-with-the-bits-that-do-not-count", run.end());
}

fn zones(cases: &mut Cases) {
    for zone in (1..=8).chain([40, 255, 256]) {
        let packets = [
            space(5, 7),
            encapsulation(2, 3, 2),
            IDLE_OCTET.to_vec(),
            space(300, 7.max(zone)),
            encapsulation(2, 2, 6),
        ];
        let limit = if zone <= 7 { 7 } else { zone };
        cases.add(format!("zone-{zone}-limit-{limit}"), carrying(zone, limit, &packets));
    }
    for zone in [1_000, 2_045, 2_046] {
        let packets = [space(5, zone - 3), encapsulation(4, 3, zone), encapsulation(2, 2, 6)];
        cases.add(format!("zone-{zone}-limit-4096"), carrying(zone, 4_096, &packets));
    }
    // In the longest zone 2,045 is a place and not refused.
    let mut zone = vec![0xA0; 2_046];
    zone[2_045] = 0xE0;
    cases.add("zone-2046-pointer-2045", Run::new(2_046, 2_046).frame(7, 2_045, &zone).end());
    cases.add(
        "zone-2045-pointer-2045-refused",
        Run::new(2_045, 2_045).frame(7, 2_045, &vec![0xE0; 2_045]).end(),
    );
    cases.add("zone-1-packet-of-20", carrying(1, 20, &[space(5, 20), encapsulation(8, 1, 20)]));
    cases.add("zone-40-packet-of-4096", carrying(40, 4_096, &[space(5, 4_096), space(6, 40)]));
    cases.add("zone-2046-packet-of-4096", carrying(2_046, 4_096, &[encapsulation(8, 5, 4_096)]));
}

/// Packets at the limit and past it.
fn limits(cases: &mut Cases) {
    let with = |size: usize, front: &[u8]| {
        let mut zone = vec![0xE0; size];
        zone[..front.len()].copy_from_slice(front);
        zone
    };
    let seven = [0x00, 0x05, 0xC0, 0x00, 0x00, 0x00];
    let eight = [0x00, 0x05, 0xC0, 0x00, 0x00, 0x01];
    cases.add("limit-7-space-packet-of-7", Run::new(7, 7).frame(0, 0, &with(7, &seven)).end());
    cases.add("limit-7-space-packet-of-8", Run::new(7, 7).frame(0, 0, &with(7, &eight)).end());
    // An eight-octet header can never fit, but that shows only in its last octet.
    cases.add(
        "limit-7-eight-octet-header",
        Run::new(7, 7)
            .frame(0, 0, &[0xEB, 0, 0, 0, 0, 0, 0])
            .frame(1, NO_START, &[0x07, 0xE0, 0xE0, 0xE0, 0xE0, 0xE0, 0xE0])
            .frame(2, 0, &[0xE0; 7])
            .end(),
    );
    let whole = [0xEB, 0, 0, 0, 0, 0, 0, 0x08];
    cases.add("limit-8-eight-octet-header", Run::new(8, 8).frame(0, 0, &whole).end());
    let ten = [0xE9, 0x0A];
    cases.add("limit-10-encapsulation-of-10", Run::new(10, 10).frame(0, 0, &with(10, &ten)).end());
    let eleven = [0xE9, 0x0B];
    cases.add(
        "limit-10-encapsulation-of-11",
        Run::new(10, 10).frame(0, 0, &with(10, &eleven)).end(),
    );
    let most = [0x00, 0x05, 0xC0, 0x00, 0x0F, 0xF9];
    let over = [0x00, 0x05, 0xC0, 0x00, 0x0F, 0xFA];
    cases.add("limit-4096-held-at-4096", Run::new(20, 4_096).frame(0, 0, &with(20, &most)).end());
    cases
        .add("limit-4096-damaged-at-4097", Run::new(20, 4_096).frame(0, 0, &with(20, &over)).end());
    let field = [0x00, 0x05, 0xC0, 0x00, 0xFF, 0xFF];
    cases.add(
        "limit-4096-length-field-ffff",
        Run::new(20, 4_096).frame(0, 0, &with(20, &field)).end(),
    );
    let word = [0xEB, 0, 0, 0, 0xFF, 0xFF, 0xFF, 0xFF];
    cases.add(
        "limit-4096-length-of-32-ones",
        Run::new(20, 4_096).frame(0, 0, &with(20, &word)).end(),
    );
}

fn idle_zones(cases: &mut Cases) {
    let fill = [0x55; 6];
    let like_packets = [0xE1, 0x06, 0x00, 0x05, 0xC0, 0x00];
    cases.add(
        "idle-zones-alone",
        (0..4).fold(Run::new(6, 64), |run, count| run.frame(count, IDLE_ZONE, &fill)).end(),
    );
    cases.add(
        "idle-zone-octets-are-free",
        Run::new(6, 64)
            .frame(0, IDLE_ZONE, &like_packets)
            .frame(1, IDLE_ZONE, &[0xFF; 6])
            .frame(2, 0, &[0xE9, 0x06, 1, 2, 3, 4])
            .end(),
    );
    cases.add(
        "idle-zone-between-packets",
        Run::new(6, 64)
            .frame(0, 0, &[0xE9, 0x06, 1, 2, 3, 4])
            .frame(1, IDLE_ZONE, &fill)
            .frame(2, 0, &[0xE9, 0x06, 1, 2, 3, 4])
            .end(),
    );
    cases.add(
        "idle-zone-inside-a-packet",
        Run::new(6, 64)
            .frame(0, 0, &[0xE9, 0x08, 1, 2, 3, 4])
            .frame(1, IDLE_ZONE, &fill)
            .frame(2, 2, &[5, 6, 0xE1, 0x04, 0x55, 0x55])
            .end(),
    );
    // The held header is completed with the idle zone's octets, and damaged by them.
    cases.add(
        "idle-zone-completes-a-damaged-header",
        Run::new(6, 1_024)
            .frame(0, 0, &[0xE0, 0xE0, 0x00, 0x05, 0xC0, 0x00])
            .frame(1, IDLE_ZONE, &[0xFF; 6])
            .frame(2, 0, &[0xE0; 6])
            .end(),
    );
    cases.add(
        "idle-zone-after-a-gap",
        Run::new(6, 64)
            .frame(0, 0, &[0xE9, 0x08, 1, 2, 3, 4])
            .frame(3, IDLE_ZONE, &fill)
            .frame(4, 0, &[0xE0; 6])
            .end(),
    );
    cases.add(
        "idle-zone-puts-a-fresh-extractor-in-step",
        Run::new(6, 64).frame(9, IDLE_ZONE, &fill).frame(10, 1, &[0xE0; 6]).end(),
    );
}

fn counts(cases: &mut Cases) {
    let begin = [0xE9, 0x08, 1, 2, 3, 4];
    let go_on = [5, 6, 0xE1, 0x04, 0x55, 0x55];
    let run = || Run::new(6, 64);
    cases.add(
        "count-wheel-turns-inside-a-packet",
        run().frame(WHEEL - 1, 0, &begin).frame(0, 2, &go_on).end(),
    );
    cases.add(
        "count-same-twice-inside-a-packet",
        run().frame(9, 0, &begin).frame(9, 2, &go_on).end(),
    );
    cases.add("count-goes-back-by-one", run().frame(9, 0, &begin).frame(8, 2, &go_on).end());
    cases.add("count-gap-of-one", run().frame(9, 0, &begin).frame(11, 2, &go_on).end());
    cases.add(
        "count-gap-over-the-turn",
        run().frame(WHEEL - 3, 0, &begin).frame(4, 2, &go_on).end(),
    );
    cases.add(
        "count-starts-anywhere",
        run().frame(1_234_567, 0, &begin).frame(1_234_568, 2, &go_on).end(),
    );
    cases.add(
        "count-gap-hides-a-whole-packet",
        run()
            .frame(0, 0, &[0xE9, 0x06, 1, 2, 3, 4])
            .frame(2, 0, &[0xE9, 0x06, 1, 2, 3, 4])
            .frame(3, 0, &[0xE9, 0x06, 1, 2, 3, 4])
            .end(),
    );
    let lost_one = Run::new(11, 64);
    let sent: Vec<_> = (1..=8).map(|apid| space(apid, 14)).collect();
    let mut frames = carried(&lost_one.settings, WHEEL - 4, &sent);
    frames.remove(4);
    cases.add("count-one-frame-vanished", lost_one.frames(&frames).end());
    let swapped = Run::new(11, 64);
    let mut frames = carried(&swapped.settings, 0, &sent);
    frames.swap(3, 4);
    cases.add("count-two-frames-swapped", swapped.frames(&frames).end());
    let doubled = Run::new(11, 64);
    let mut frames = carried(&doubled.settings, 0, &sent);
    frames.insert(3, frames[3].clone());
    cases.add("count-one-frame-twice", doubled.frames(&frames).end());
    let replayed = Run::new(11, 64);
    let mut frames = carried(&replayed.settings, 0, &sent);
    frames.iter_mut().step_by(2).for_each(|frame| frame[5] = 0x80);
    cases.add("count-replay-flags-are-free", replayed.frames(&frames).end());
}

/// The three reasons, and which of them goes before another.
fn reasons(cases: &mut Cases) {
    let run = || Run::new(6, 64);
    let whole = [0xE9, 0x06, 1, 2, 3, 4];
    let begin = [0xE9, 0x08, 1, 2, 3, 4];
    let begun = || run().frame(0, 0, &begin);
    let octets = [0xE0; 6];

    cases.add("reason-1-nothing-held", run().frame(0, 0, &whole).frame(5, 0, &whole).end());
    cases.add("reason-1-six-held", begun().frame(5, 0, &whole).end());
    cases.add(
        "reason-1-out-of-step",
        run().frame(0, NO_START, &octets).frame(2, NO_START, &octets).frame(3, 4, &octets).end(),
    );
    cases.add(
        "reason-1-then-no-start",
        begun().frame(7, NO_START, &octets).frame(8, 5, &octets).end(),
    );
    // The packet that was torn is not put together again, however well it would fit.
    cases.add(
        "reason-1-held-octets-are-not-spliced",
        begun().frame(2, 2, &[5, 6, 0xE0, 0xE0, 0xE0, 0xE0]).end(),
    );

    cases.add(
        "reason-2-nothing-held-no-start",
        run().frame(0, 0, &whole).frame(1, NO_START, &octets).end(),
    );
    cases.add(
        "reason-2-nothing-held-later-start",
        run().frame(0, 0, &whole).frame(1, 1, &octets).end(),
    );
    cases.add("reason-2-held-pointer-0", begun().frame(1, 0, &octets).end());
    cases.add("reason-2-held-pointer-one-less", begun().frame(1, 1, &octets).end());
    cases.add("reason-2-held-pointer-one-more", begun().frame(1, 3, &octets).end());
    cases.add(
        "reason-2-held-no-start",
        begun().frame(1, NO_START, &octets).frame(2, 0, &octets).end(),
    );
    // Twelve octets, six to come: the packet ends with the zone, so none starts there.
    let twelve = || run().frame(0, 0, &[0xE9, 0x0C, 1, 2, 3, 4]);
    cases.add(
        "reason-0-packet-ends-with-the-zone",
        twelve().frame(1, NO_START, &[5; 6]).frame(2, 0, &octets).end(),
    );
    cases.add("reason-2-packet-ends-with-the-zone-pointer-0", twelve().frame(1, 0, &octets).end());
    cases.add("reason-2-packet-ends-with-the-zone-pointer-5", twelve().frame(1, 5, &octets).end());
    let thirteen = || run().frame(0, 0, &[0xE9, 0x0D, 1, 2, 3, 4]);
    cases.add(
        "reason-0-packet-ends-one-past-the-zone",
        thirteen().frame(1, NO_START, &[5; 6]).frame(2, 1, &octets).end(),
    );
    let eleven = || run().frame(0, 0, &[0xE9, 0x0B, 1, 2, 3, 4]);
    cases.add("reason-0-packet-ends-one-before-the-zone-end", eleven().frame(1, 5, &octets).end());

    let cut = |front: &[u8]| {
        let mut zone = [0xE0; 6];
        zone[6 - front.len()..].copy_from_slice(front);
        zone
    };
    cases.add(
        "reason-3-two-octet-header",
        run().frame(0, 0, &cut(&[0xE9])).frame(1, NO_START, &[0x01, 1, 2, 3, 4, 5]).end(),
    );
    cases.add(
        "reason-3-four-octet-header",
        run()
            .frame(0, 0, &cut(&[0xFA, 0, 0]))
            .frame(1, 1, &[0x03, 0xE0, 0xE0, 0xE0, 0xE0, 0xE0])
            .end(),
    );
    cases.add(
        "reason-3-space-packet-over-the-limit",
        run()
            .frame(0, 0, &cut(&[0x00, 0x05, 0xC0, 0x00]))
            .frame(1, NO_START, &[0x01, 0, 3, 4, 5, 6])
            .end(),
    );
    cases.add(
        "reason-3-eight-octet-header-over-three-zones",
        Run::new(4, 64)
            .frame(0, 0, &[0xE0, 0xFF, 0xE0, 0x20])
            .frame(1, NO_START, &[0xE0, 0xE0, 0xE0, 0xE0])
            .frame(2, 3, &[0xA0, 0xA0, 0xA0, 0xE1])
            .frame(3, 1, &[0x02, 0xE0, 0xE0, 0xE0])
            .end(),
    );
    cases.add(
        "reason-3-goes-before-reason-2",
        run().frame(0, 0, &cut(&[0xE9])).frame(1, 4, &[0x00, 1, 2, 3, 0xE0, 0xE0]).end(),
    );
    cases.add(
        "reason-1-goes-before-reason-3",
        run().frame(0, 0, &cut(&[0xE9])).frame(2, 4, &[0x00, 1, 2, 3, 0xE0, 0xE0]).end(),
    );
    cases.add(
        "reason-3-then-a-wrong-start",
        run()
            .frame(0, 0, &cut(&[0xE9]))
            .frame(1, 0, &[0x01, 0, 0, 0, 0, 0])
            .frame(2, 0, &octets)
            .end(),
    );
    // Zones too short to complete the header: it is cut again, and agrees with no start.
    cases.add(
        "reason-0-header-not-whole-after-two-zones",
        Run::new(2, 64)
            .frame(0, 0, &[0xEB, 0])
            .frame(1, NO_START, &[0, 0])
            .frame(2, NO_START, &[0, 0])
            .frame(3, NO_START, &[0, 0x08])
            .frame(4, 0, &[0xE0, 0xE0])
            .end(),
    );
    cases.add(
        "reason-2-header-not-whole-and-a-start",
        Run::new(2, 64).frame(0, 0, &[0xEB, 0]).frame(1, 1, &[0, 0xE0]).end(),
    );
}

fn refusals(cases: &mut Cases) {
    let zone = [0xE9, 0x06, 1, 2, 3, 4];
    let run = || Run::new(6, 64);
    let good = |count: u32, pointer: u16| {
        let settings = channel(6, 64);
        let mut frame = vec![0; settings.frame_length()];
        frame::write(&settings, count, pointer, &mut frame);
        frame[frame::HEAD..].copy_from_slice(&zone);
        frame
    };
    let changed = |place: usize, bits: u8| {
        let mut frame = good(0, 0);
        frame[place] ^= bits;
        frame
    };
    let versions: Vec<_> = [0x40, 0x80, 0xC0].iter().map(|&bits| changed(0, bits)).collect();
    cases.add("refused-4-each-wrong-version", run().frames(&versions).end());
    cases.add(
        "refused-5-another-spacecraft",
        run().raw_frame(&changed(0, 0x01)).raw_frame(&changed(1, 0x40)).end(),
    );
    let channels: Vec<_> = (0..6).map(|bit| changed(1, 1 << bit)).collect();
    cases.add("refused-5-another-channel", run().frames(&channels).end());
    let mut fill_frame = good(0, 0);
    fill_frame[1] |= 0x3F;
    cases.add("refused-5-fill-channel-63", run().raw_frame(&fill_frame).end());
    let spares: Vec<_> = (0..7).map(|bit| changed(5, 1 << bit)).collect();
    cases.add("refused-6-each-signalling-spare", run().frames(&spares).end());
    let spares: Vec<_> = (3..8).map(|bit| changed(6, 1 << bit)).collect();
    cases.add("refused-6-each-pointer-spare", run().frames(&spares).end());
    cases.add("refused-7-pointer-at-the-zone-end", run().raw_frame(&good(0, 6)).end());
    cases.add("refused-7-pointer-2045", run().raw_frame(&good(0, 2_045)).end());
    cases.add(
        "refused-7-pointer-in-a-zone-of-1",
        Run::new(1, 7).frame(0, 1, &[0xE0]).frame(0, 0, &[0xE0]).end(),
    );

    let mut worse = good(0, 2_045);
    let mut frames = vec![worse.clone()];
    worse[6] |= 0x08;
    frames.push(worse.clone());
    worse[1] ^= 0x01;
    frames.push(worse.clone());
    worse[0] ^= 0x80;
    frames.push(worse);
    cases.add("refused-the-first-in-order", run().frames(&frames).end());

    // The extractor goes on as if a refused frame had not been.
    let begin = [0xE9, 0x08, 1, 2, 3, 4];
    let go_on = [5, 6, 0xE1, 0x04, 0x55, 0x55];
    cases.add(
        "refused-frame-inside-a-packet",
        run().frame(0, 0, &begin).raw_frame(&changed(1, 0x01)).frame(1, 2, &go_on).end(),
    );
    cases.add(
        "refused-frame-keeps-the-last-count",
        run().frame(7, 0, &zone).raw_frame(&good(8, 2_000)).frame(9, 0, &zone).end(),
    );
    cases.add(
        "refused-frame-leaves-a-fresh-extractor",
        run().raw_frame(&changed(0, 0x80)).frame(500, 1, &go_on).end(),
    );
}

fn verdicts(cases: &mut Cases) {
    let run = || Run::new(6, 64);
    let whole = [0xE9, 0x06, 1, 2, 3, 4];
    let begin = [0xE9, 0x0E, 1, 2, 3, 4];
    cases.add("verdict-pass-of-an-empty-run", run().end());
    cases.add(
        "verdict-fault-at-the-end-inside-a-packet",
        run().frame(0, 0, &whole).frame(1, 0, &begin).end(),
    );
    cases.add(
        "verdict-fault-at-the-end-inside-a-header",
        run().frame(0, 0, &[0xE0, 0xE0, 0xE0, 0xE0, 0xE0, 0xE9]).end(),
    );
    cases.add(
        "verdict-pass-where-the-packet-ends",
        run()
            .frame(0, 0, &begin)
            .frame(1, NO_START, &[7; 6])
            .frame(2, 2, &[7, 7, 0xE1, 0x04, 0, 0])
            .end(),
    );
    // An extractor may begin anywhere; a run may not.
    cases.add(
        "verdict-fault-0-first-pointer-not-0",
        run().frame(0, 2, &[7, 7, 0xE1, 0x04, 0, 0]).end(),
    );
    cases.add(
        "verdict-fault-0-first-zone-without-start",
        run().frame(0, NO_START, &[7; 6]).frame(1, 0, &whole).end(),
    );
    cases.add(
        "verdict-the-first-of-four-faults",
        run()
            .frame(0, 0, &whole)
            .frame(1, 0, &[0xE0, 0x80, 0, 0, 0, 0])
            .frame(5, 0, &whole)
            .frame(6, 3, &whole)
            .frame(7, 0, &whole)
            .end(),
    );
    cases.add(
        "verdict-fault-of-a-gap-between-packets",
        run().frame(0, 0, &whole).frame(2, 0, &whole).end(),
    );
    cases.add(
        "verdict-fault-of-a-damaged-step",
        run().frame(0, 0, &whole).frame(1, 0, &[0xE9, 0x02, 0xE0, 0x40, 0, 0]).end(),
    );
    cases.add(
        "verdict-fault-before-octets-left-over",
        run().frame(0, 0, &[0xE0, 0x40, 0, 0, 0, 0]).frame(1, 0, &begin).end(),
    );
}

/// Setups at the edges of their ranges.
fn setups(cases: &mut Cases) {
    let of = |spacecraft, number, zone, limit| {
        let run = Run::of(Settings { spacecraft, channel: number, ..channel(zone, limit) });
        run.frame(0, 0, &vec![0xE0; zone]).end()
    };
    cases.add("setup-all-least", of(0, 0, 1, 7));
    cases.add("setup-spacecraft-255-channel-62", of(255, 62, 1, 7));
    cases.add("setup-limit-is-the-zone", of(66, 3, 12, 12));
    cases.add("setup-limit-4096", of(66, 3, 12, 4_096));
    let longest = Run::new(2_046, 2_046).frame(0, IDLE_ZONE, &vec![0x55; 2_046]);
    cases.add("setup-zone-2046-limit-2046", longest.end());
}

fn bad_records(cases: &mut Cases) {
    let setup = setup_record(&channel(6, 64));
    let zone = [0xE9, 0x06, 1, 2, 3, 4];
    let run = || Run::new(6, 64);
    cases.add("bad-empty-input", vec![]);
    for size in 1..setup.len() {
        cases.add(format!("bad-setup-cut-after-{size}"), setup[..size].to_vec());
    }
    cases.add("bad-no-end-after-setup", setup.clone());
    cases.add("bad-no-end-after-frames", run().frame(0, 0, &zone).frame(1, 0, &zone));
    cases.add("bad-frame-before-setup", {
        let mut frame = run().frame(0, 0, &zone).octets;
        frame.drain(..setup.len());
        frame.extend(&setup);
        frame
    });
    cases.add("bad-end-before-setup", vec![END]);
    cases.add("bad-kind-0-first", [&[0], &setup[1..], &[END]].concat());
    for kind in [0, 4, 0x0A, 0xFF] {
        cases.add(
            format!("bad-kind-{kind}-after-a-frame"),
            run().frame(0, 0, &zone).octets(&[kind]).end(),
        );
    }
    cases.add("bad-second-setup", run().octets(&setup).end());
    cases.add("bad-second-setup-after-a-frame", run().frame(0, 0, &zone).octets(&setup).end());
    let frame = run().frame(1, 0, &zone).octets;
    let frame = &frame[setup.len()..];
    for size in [1, 2, 8, 9, 14] {
        cases.add(
            format!("bad-frame-cut-after-{size}"),
            run().frame(0, 0, &zone).octets(&frame[..size]),
        );
    }
    cases.add("bad-octet-after-the-end", run().frame(0, 0, &zone).end().octets(&[0]));
    cases.add("bad-newline-after-the-end", run().end().octets(b"\n"));
    cases.add("bad-second-end", run().frame(0, 0, &zone).end().end());
    cases.add("bad-frame-after-the-end", run().frame(0, 0, &zone).end().frame(1, 0, &zone).end());
    cases.add("bad-setup-after-the-end", run().end().octets(&setup).end());
    cases.add("bad-record-after-a-fault", run().frame(0, 3, &zone).frame(9, 0, &zone).octets(&[9]));

    let of = |spacecraft, number, zone, limit| {
        Run::of(Settings { spacecraft, channel: number, ..channel(zone, limit) }).end()
    };
    cases.add("bad-setup-channel-63", of(66, 63, 6, 64));
    cases.add("bad-setup-channel-64", of(66, 64, 6, 64));
    cases.add("bad-setup-channel-255", of(66, 255, 6, 64));
    cases.add("bad-setup-zone-0", of(66, 3, 0, 64));
    cases.add("bad-setup-zone-2047", of(66, 3, 2_047, 4_096));
    cases.add("bad-setup-zone-65535", of(66, 3, 65_535, 4_096));
    cases.add("bad-setup-limit-0", of(66, 3, 6, 0));
    cases.add("bad-setup-limit-6", of(66, 3, 6, 6));
    cases.add("bad-setup-limit-below-zone", of(66, 3, 20, 19));
    cases.add("bad-setup-limit-4097", of(66, 3, 6, 4_097));
    cases.add("bad-setup-limit-65542", of(66, 3, 6, 65_542));
    cases.add("bad-setup-limit-of-24-ones", of(66, 3, 6, 0xFF_FFFF));
    let ranged = Run::of(Settings { channel: 63, ..channel(6, 64) });
    cases.add("bad-setup-frames-behind-it", ranged.frame(0, 0, &zone).end());
}

/// Runs of the generator, most of them spoilt.
fn random_runs(cases: &mut Cases) {
    for seed in 1..=15 {
        let mut random = Random::new(seed);
        let settings = Settings {
            zone: random.within(1, 24),
            limit: random.within(24, 60),
            ..generate::run_file_settings(&mut random)
        };
        let mut frames = Vec::new();
        while frames.len() < 8 {
            frames = generate::run(&mut random, &settings, true).frames;
        }
        for _ in 0..seed % 5 {
            generate::spoil_frames(&mut random, &settings, &mut frames);
        }
        frames.retain(|frame| frame.len() == settings.frame_length());
        cases.add(format!("random-{seed:02}"), Run::of(settings).frames(&frames).end());
    }
}
