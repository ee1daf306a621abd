//! Generators: settings, packets, runs that conform, relay tables, and ways to spoil them, tapes of
//! runs, damaged headers, frames of bits, and the signalling octets and trailers of frames.

use crate::calls::{
    BIT_READER, BIT_SETTINGS, EXTRACTOR, JUDGE, MUX, RELAY, SETTINGS, SPACE_HEADER,
};
use crate::random::Random;
use crate::reference::bitstream;
use crate::reference::edition::Edition;
use crate::reference::frame::{self, Settings, HEAD, IDLE_ZONE, NO_START};
use crate::reference::judge::MOST_FRAMES;
use crate::reference::multiplexer;
use crate::reference::packet::{IDLE_APID, LONGEST_HEADER};
use crate::reference::space;
use crate::reference::trailer::{self, remainder, TRAILER};

/// Settings in range of any edition, half of them with trailers.
pub fn settings(random: &mut Random) -> Settings {
    let (trailer, edition) = (random.once_in(2), edition(random));
    Settings { trailer, edition, ..run_file_settings(random) }
}

/// An edition, half the time the one whose counts are wider.
fn edition(random: &mut Random) -> Edition {
    let [former, unused, used] = Edition::ALL;
    random.pick(&[former, unused, used, used])
}

/// Settings in range that a run file can state: every small zone, some great ones, limits at both
/// ends; no trailers, and the former edition.
pub fn run_file_settings(random: &mut Random) -> Settings {
    let zone = match random.within(1, 20) {
        1 => random.pick(&[1, 2, 6, 7, 8, 2_045, 2_046]),
        2 => random.within(41, 2_046),
        3 => random.within(255, 262),
        _ => random.within(1, 40),
    };
    let least = zone.max(7);
    let limit = match random.within(1, 40) {
        1 => random.pick(&[65_541, 65_542]),
        2..=8 => least,
        9..=12 => least + 1,
        13..=20 => least + random.within(0, 12),
        _ => least + random.within(0, 400),
    };
    let any = random.octet();
    Settings {
        spacecraft: random.pick(&[0, 66, 255, any]),
        channel: random.within(0, 62) as u8,
        zone,
        limit,
        fill: random.octet(),
        trailer: false,
        edition: Edition::Former,
    }
}

/// The settings as numbers.
pub fn settings_numbers(settings: &Settings) -> [u64; SETTINGS] {
    let Settings { spacecraft, channel, zone, limit, fill, trailer, edition } = *settings;
    [
        spacecraft.into(),
        channel.into(),
        zone as u64,
        limit as u64,
        fill.into(),
        trailer.into(),
        edition.number(),
    ]
}

/// Settings of a channel of bits in range: every small zone and some great ones, any edition, half
/// of them with trailers.
pub fn bit_settings(random: &mut Random) -> bitstream::Settings {
    let width = match random.within(1, 8) {
        1 => random.pick(&[1, 2, 2_046, 2_047]),
        2 => random.within(41, 2_047),
        _ => random.within(1, 40),
    };
    bitstream::Settings {
        spacecraft: random.octet(),
        channel: random.within(0, 62) as u8,
        width,
        fill: random.octet(),
        trailer: random.once_in(2),
        edition: edition(random),
    }
}

/// The settings of a channel of bits as numbers.
pub fn bit_settings_numbers(settings: &bitstream::Settings) -> [u64; BIT_SETTINGS] {
    let bitstream::Settings { spacecraft, channel, width, fill, trailer, edition } = *settings;
    [spacecraft.into(), channel.into(), width as u64, fill.into(), trailer.into(), edition.number()]
}

/// Settings of which one is out of range, or at the edge of it.
pub fn settings_at_an_edge(random: &mut Random, settings: &Settings) -> [u64; SETTINGS] {
    let mut numbers = settings_numbers(settings);
    let huge = random.pick(&[u64::MAX, 1 << 32, (1 << 32) + 7, 1 << 16]);
    let least = settings.zone.max(7) as u64;
    match random.within(0, 7) {
        0 => numbers[0] = random.pick(&[255, 256, huge]),
        1 => numbers[1] = random.pick(&[62, 63, 64, 255, 256, huge]),
        2 => numbers[2] = random.pick(&[0, 2_046, 2_047, numbers[3], numbers[3] + 1, huge]),
        3 => numbers[3] = random.pick(&[0, 6, least - 1, least, 65_542, 65_543, huge]),
        4 => numbers[4] = random.pick(&[255, 256, huge]),
        5 => numbers[5] = other_trailer(random, numbers[5]),
        _ => numbers[6] = other_edition(random, numbers[6]),
    }
    numbers
}

/// The other setting of trailers, or what is none, at times one that looks like 0 or 1 in fewer
/// bits.
fn other_trailer(random: &mut Random, number: u64) -> u64 {
    let alike = number.wrapping_add(random.pick(&[2, 1 << 8, 1 << 16, 1 << 32]));
    let other = number ^ 1;
    random.pick(&[other, other, alike, alike, 2, 255, u64::MAX])
}

/// Another edition, or what is none, at times one that looks like an edition in fewer bits.
fn other_edition(random: &mut Random, number: u64) -> u64 {
    let alike = number.wrapping_add(random.pick(&[4, 1 << 8, 1 << 16, 1 << 32]));
    let other = (number + random.within(1, 2) as u64) % 3;
    random.pick(&[other, other, other, alike, alike, 3, 4, 255, u64::MAX])
}

/// Bitstream settings of which one is out of range, or at the edge of it.
pub fn bit_settings_at_an_edge(
    random: &mut Random,
    settings: &bitstream::Settings,
) -> [u64; BIT_SETTINGS] {
    let mut numbers = bit_settings_numbers(settings);
    let huge = random.pick(&[u64::MAX, 1 << 32, (1 << 32) + 7, 1 << 16]);
    match random.within(0, 6) {
        0 => numbers[0] = random.pick(&[255, 256, huge]),
        1 => numbers[1] = random.pick(&[62, 63, 64, 255, 256, huge]),
        2 => numbers[2] = random.pick(&[0, 1, 2_047, 2_048, huge]),
        3 => numbers[3] = random.pick(&[255, 256, huge]),
        4 => numbers[4] = other_trailer(random, numbers[4]),
        _ => numbers[5] = other_edition(random, numbers[5]),
    }
    numbers
}

/// A well-formed packet within the limit, of a length that suits the zone.
pub fn packet(random: &mut Random, settings: &Settings) -> Vec<u8> {
    let Settings { zone, limit, .. } = *settings;
    let wished = match random.within(1, 12) {
        1 => random.within(1, 3),
        2 => zone,
        3 => zone + 1,
        4 => zone.saturating_sub(1),
        5 => 2 * zone + random.within(0, 2),
        6 if limit / zone <= 40 => limit - random.within(0, 1),
        7 => random.within(250, 262),
        8 => random.within(1, 4 * zone + 12),
        _ => random.within(1, 24),
    };
    packet_of(random, wished.clamp(1, limit.min(60 * zone + 20)))
}

/// A packet of exactly this length, which is 1 to 65,542.
pub fn packet_of(random: &mut Random, total: usize) -> Vec<u8> {
    let mut packet = vec![0; total];
    match random.within(1, 6) {
        1 => packet.fill(0),
        2 => packet.fill(0xE0),
        _ => packet = random.octets(total),
    }
    let space = |size| (7..=65_542).contains(&size);
    let shapes: [(usize, bool); 5] = [
        (1, total == 1),
        (2, (2..=255).contains(&total)),
        (4, (4..=65_535).contains(&total)),
        (6, space(total)),
        (8, total >= 8),
    ];
    let mut possible: Vec<usize> =
        shapes.iter().filter(|(_, fits)| *fits).map(|&(h, _)| h).collect();
    // Space packets are the common ones.
    if space(total) {
        possible.extend([6, 6]);
    }
    match random.pick(&possible) {
        6 => {
            let fields = space::Fields {
                version: 0,
                packet_type: random.within(0, 1) as u8,
                secondary: random.within(0, 1) as u8,
                apid: if random.once_in(5) { IDLE_APID } else { random.within(0, 2_046) as u16 },
                flags: random.within(0, 3) as u8,
                count: random.within(0, 16_383) as u16,
                length: (total - 7) as u16,
            };
            space::write(&fields, &mut packet).expect("fields in range");
        }
        header => {
            let protocol = if header == 1 { 0 } else { random.within(0, 7) as u8 };
            packet[0] = 0xE0 | protocol << 2 | header.trailing_zeros() as u8;
            let length = (total as u32).to_be_bytes();
            match header {
                2 => packet[1] = length[3],
                4 => packet[2..4].copy_from_slice(&length[2..]),
                8 => packet[4..8].copy_from_slice(&length),
                _ => {}
            }
        }
    }
    packet
}

/// Octets that may or may not begin a packet.
pub fn front(random: &mut Random, limit: usize) -> Vec<u8> {
    let total = random.within(1, limit.min(40));
    let mut octets = packet_of(random, total);
    octets.extend(random.octets(8));
    match random.within(1, 6) {
        1 => octets[0] = random.octet(),
        2 => {
            let place = random.within(0, 7);
            octets[place] = random.pick(&[0, 1, 0x10, 0xFF]);
        }
        3 => octets[0] = 0xE0 | random.octet() >> 3,
        _ => {}
    }
    octets
}

/// A header of 2, 4, 6 or 8 octets that states this total. Six are those of a space packet, and the
/// fields that do not count here are of any kind.
fn stating(random: &mut Random, header: usize, total: usize) -> Vec<u8> {
    let mut octets = random.octets(header);
    let length = (total as u32).to_be_bytes();
    if header == 6 {
        octets[0] &= 0x1F;
        octets[4..].copy_from_slice(&((total - 7) as u16).to_be_bytes());
        return octets;
    }
    octets[0] = 0xE0 | octets[0] & 0x1C | header.trailing_zeros() as u8;
    match header {
        2 => octets[1] = length[3],
        4 => octets[2..].copy_from_slice(&length[2..]),
        _ => octets[4..].copy_from_slice(&length),
    }
    octets
}

/// The greatest total that a header of 2, 4, 6 or 8 octets can state.
fn most_stated(header: usize) -> usize {
    match header {
        2 => 255,
        4 => 65_535,
        6 => 65_542,
        _ => u32::MAX as usize,
    }
}

/// Octets that begin with a header of this damage, 1 to 4, under this limit. Behind it stand some
/// more or none, or all that it states.
pub fn damaged(random: &mut Random, limit: usize, damage: u64) -> Vec<u8> {
    let some = random.within(1, 20);
    let mut behind = random.pick(&[0, some]);
    let mut octets = match damage {
        1 => vec![(random.within(1, 6) as u8) << 5 | random.octet() & 0x1F],
        2 => vec![0xE0 | (random.within(1, 7) as u8) << 2],
        3 => {
            let header = random.pick(&[2, 4, 8]);
            let any = random.within(0, header - 1);
            let total = random.pick(&[0, header - 1, any]);
            stating(random, header, total)
        }
        _ => {
            let able: Vec<usize> =
                [2, 4, 6, 6, 8].into_iter().filter(|&header| most_stated(header) > limit).collect();
            let header = random.pick(&able);
            let most = most_stated(header);
            let (near, any) = (random.within(2, 20), random.within(limit + 1, most));
            // At times one that is within the limit, or below the header, in fewer bits.
            let low = random.pick(&[9, limit]);
            let alike = (1 << random.pick(&[8, 16, 24])) + random.within(0, low);
            let total = random.pick(&[limit + 1, limit + near, most, any, alike]);
            let total = total.clamp(limit + 1, most);
            if total <= 1_000 && random.once_in(2) {
                behind = total - header;
            }
            stating(random, header, total)
        }
    };
    octets.extend(random.octets(behind));
    octets
}

/// What is lent for a packet and is none under this limit: its header has one of the four damages,
/// or it is empty, its header is cut, or its length is not the one that it states.
pub fn no_packet(random: &mut Random, limit: usize) -> Vec<u8> {
    let total = random.within(1, limit.min(40));
    let mut packet = packet_of(random, total);
    match random.within(1, 9) {
        damage @ 1..=4 => return damaged(random, limit, damage as u64),
        5 => packet.clear(),
        6 => {
            // At times of a packet that would come out damaged.
            if random.once_in(2) {
                let damage = random.within(3, 4) as u64;
                packet = damaged(random, limit, damage);
            }
            packet.truncate(random.within(1, 7).min(packet.len() - 1));
        }
        7 => packet.truncate(total - 1),
        8 => packet.push(random.octet()),
        // Longer than a small limit too, though what it states is not.
        _ => packet.resize(limit.min(1_000) + random.within(1, 9), 0xE0),
    }
    packet
}

/// Octets that may or may not begin a space packet.
pub fn space_front(random: &mut Random) -> Vec<u8> {
    let length = random.pick(&[0, 5, 6, 6, 6, 7, 13]);
    let mut octets = random.octets(length);
    if let Some(first) = octets.first_mut() {
        if !random.once_in(6) {
            *first &= 0x1F;
        }
    }
    octets
}

/// The seven fields of a space packet's header, at times past their range.
pub fn space_numbers(random: &mut Random) -> [u64; SPACE_HEADER] {
    let ranges: [u64; SPACE_HEADER] = [1, 2, 2, 1 << 11, 1 << 2, 1 << 14, 1 << 16];
    let mut numbers = ranges.map(|range| {
        let any = random.any() % range;
        random.pick(&[0, range - 1, any, any])
    });
    if random.once_in(3) {
        let place = random.within(0, SPACE_HEADER - 1);
        let huge = random.pick(&[255, 256, 65_535, 65_536, 1 << 32, u64::MAX]);
        numbers[place] = random.pick(&[ranges[place], ranges[place] + 1, huge]);
    }
    numbers
}

/// Entries of a relay table, APID and destination in turn, no two of them the same. There are at
/// most three APIDs, so that some have several destinations.
fn relay_entries(random: &mut Random, count: usize) -> Vec<u64> {
    let apids = [(); 3].map(|_| {
        let any = random.within(0, 2_046) as u64;
        random.pick(&[0, 5, 2_031, 2_032, 2_045, 2_046, any, any])
    });
    let mut entries: Vec<[u64; 2]> = Vec::new();
    while entries.len() < count {
        let any = random.octet().into();
        let entry = [random.pick(&apids), random.pick(&[0, 1, 255, any, any])];
        if !entries.contains(&entry) {
            entries.push(entry);
        }
    }
    entries.concat()
}

/// A list for a relay table, of up to 40 entries; as it can be loaded, or spoilt in up to two ways.
pub fn relay_list(random: &mut Random) -> Vec<u64> {
    let (few, many) = (random.within(1, 12), random.within(13, 40));
    let count = random.pick(&[0, few, few, few, many, 31, 32, 33]);
    let mut list = relay_entries(random, count);
    for _ in 0..random.pick(&[0, 0, 0, 1, 1, 2]) {
        spoil_relay_list(random, &mut list);
    }
    list
}

fn spoil_relay_list(random: &mut Random, list: &mut Vec<u64>) {
    if list.len() < 2 {
        list.push(random.pick(&[0, 5, u64::MAX]));
        return;
    }
    let last = list.len() / 2 - 1;
    let (any, other) = (random.within(0, last), random.within(0, last));
    let place = 2 * random.pick(&[any, any, last]);
    match random.within(1, 7) {
        1 | 2 => list[place] = no_apid(random, list[place]),
        3 | 4 => list[place + 1] = no_destination(random, list[place + 1]),
        5 | 6 => list.copy_within(place..place + 2, 2 * other),
        // The list ends within an entry.
        _ => {
            list.pop();
        }
    }
}

/// An APID that no table has, at times one that looks like this in fewer bits.
fn no_apid(random: &mut Random, apid: u64) -> u64 {
    let alike = apid.wrapping_add(random.pick(&[1 << 11, 1 << 16, 1 << 32]));
    random.pick(&[2_047, 2_048, 65_535, 65_536, u64::MAX, alike, alike])
}

/// A destination that no table has, at times one that looks like this in fewer bits.
fn no_destination(random: &mut Random, destination: u64) -> u64 {
    let alike = destination.wrapping_add(random.pick(&[1 << 8, 1 << 16, 1 << 32]));
    random.pick(&[256, 257, u64::MAX, alike, alike])
}

/// Changes a relay table in one way, after which it may still be one.
pub fn damage_table(random: &mut Random, table: &mut [u64]) {
    let count = table[0];
    let used = count.clamp(1, 32) as usize;
    let (entry, other) = (random.within(0, used - 1), random.within(0, used - 1));
    let place = 1 + 2 * entry;
    match random.within(1, 7) {
        1 => {
            let (more, less) = (count.wrapping_add(1), count.wrapping_sub(1));
            table[0] = random.pick(&[more, less, 32, 33, 40, (1 << 32) + count % 33, u64::MAX]);
        }
        2 => table[place] = no_apid(random, table[place]),
        3 => table[place + 1] = no_destination(random, table[place + 1]),
        4 => table.copy_within(place..place + 2, 1 + 2 * other),
        // Past the entries, if there is such a place.
        5 | 6 => {
            let past = random.within((1 + 2 * used).min(RELAY - 1), RELAY - 1);
            table[past] = random.pick(&[1, 5, u64::MAX]);
        }
        _ => table[place + 1] = random.octet().into(),
    }
}

/// A packet for a relay with this table: often a space packet of one of its APIDs, or of one near
/// it. At times it is not well-formed.
pub fn relay_packet(random: &mut Random, table: &[u64], limit: usize) -> Vec<u8> {
    if random.once_in(6) {
        return no_packet(random, limit);
    }
    let total = match random.within(1, 10) {
        1 => random.within(1, 6),
        2 => limit,
        3 => limit + 1,
        _ => limit.min(random.within(7, 24)),
    };
    let mut packet = packet_of(random, total.min(65_542));
    if total >= 7 && !random.once_in(3) {
        let entry = random.within(0, table[0].clamp(1, 32) as usize - 1);
        let apid = table[1 + 2 * entry] as u16;
        make_space(&mut packet, random.pick(&[apid, apid, apid, apid, apid ^ 1, apid ^ 0x100]));
    }
    match random.within(1, 16) {
        1 => packet.push(random.octet()),
        2 => packet.truncate(random.within(0, packet.len())),
        3 => packet[0] = random.octet(),
        4 => {
            let place = random.within(0, packet.len().min(8) - 1);
            let any = random.octet();
            packet[place] = random.pick(&[0, 1, 0xFF, any]);
        }
        _ => {}
    }
    packet
}

/// Makes octets a space packet of this APID. The fields that do not count here stay as they are.
fn make_space(packet: &mut [u8], apid: u16) {
    let name = u16::from_be_bytes([packet[0], packet[1]]) & 0x1800 | apid & 0x07FF;
    let field = (packet.len() - 7) as u16;
    packet[..2].copy_from_slice(&name.to_be_bytes());
    packet[4..6].copy_from_slice(&field.to_be_bytes());
}

/// Frames, and the packets they carry, with the idle packets of flushes.
#[derive(Clone, Debug)]
pub struct Run {
    pub frames: Vec<Vec<u8>>,
    pub packets: Vec<Vec<u8>>,
}

/// A run that conforms. It is closed by a flush, unless `open` lets it end
/// anywhere.
pub fn run(random: &mut Random, settings: &Settings, open: bool) -> Run {
    let mut run = Run { frames: Vec::new(), packets: Vec::new() };
    let mut record = multiplexer::Record::START;
    if !random.once_in(3) {
        record.count = first_count(random, settings.edition);
    }
    let mut frame = random.octets(settings.frame_length());
    for _ in 0..random.within(0, 10) {
        if random.once_in(6) {
            flush(settings, &mut record, &mut frame, &mut run);
        }
        if record.filled == 0 && random.once_in(4) {
            multiplexer::idle(settings, &mut record, &mut frame).expect("an empty zone");
            run.frames.push(frame.clone());
        }
        let packet = packet(random, settings);
        loop {
            let put = multiplexer::put(settings, &mut record, &packet, &mut frame)
                .expect("a packet at its moment");
            if put.full {
                run.frames.push(frame.clone());
            }
            if put.taken {
                break;
            }
        }
        run.packets.push(packet);
    }
    if !(open && random.once_in(2)) {
        flush(settings, &mut record, &mut frame, &mut run);
    }
    run
}

/// A count that is often near a turn.
fn first_count(random: &mut Random, edition: Edition) -> u32 {
    let any = random.any() as u32 % edition.wheel();
    let near = [1, 2].map(|back| before_a_turn(random, edition, back));
    random.pick(&[near[0], near[1], any])
}

/// The count so many frames before a turn: that of the wheel, or one of the 24 bits below a cycle.
pub fn before_a_turn(random: &mut Random, edition: Edition, back: u32) -> u32 {
    let wheel = edition.wheel();
    let turn = match edition {
        Edition::Former | Edition::CycleUnused => wheel,
        Edition::CycleUsed => {
            let cycles = random.within(1, 16) as u32;
            random.pick(&[1 << 24, cycles << 24, wheel, wheel])
        }
    };
    turn - back
}

fn flush(settings: &Settings, record: &mut multiplexer::Record, frame: &mut [u8], run: &mut Run) {
    let start = HEAD + record.filled;
    if multiplexer::flush(settings, record, frame).expect("no packet is open") {
        run.frames.push(frame.to_vec());
        run.packets.push(frame[start..settings.zone_end()].to_vec());
    }
}

/// A run that conforms, or one spoilt in up to four ways, at times with a damaged header besides.
pub fn some_run(random: &mut Random, settings: &Settings) -> Vec<Vec<u8>> {
    let mut run = run(random, settings, true);
    if random.once_in(3) {
        damage_header(random, settings, &mut run);
    }
    for _ in 0..random.within(0, 4) {
        spoil(random, settings, &mut run.frames);
    }
    run.frames
}

/// A run cut into tapes: all of it on one, each frame on its own, or any number of frames on each,
/// none on some.
pub fn tapes(random: &mut Random, frames: &[Vec<u8>]) -> Vec<Vec<u8>> {
    match random.within(1, 5) {
        1 => return vec![frames.concat()],
        2 => return frames.to_vec(),
        _ => {}
    }
    let most = random.pick(&[2, 4, 20]);
    let (mut tapes, mut left) = (vec![], frames);
    while !left.is_empty() {
        let (tape, behind) = left.split_at(random.within(0, left.len().min(most)));
        tapes.push(tape.concat());
        left = behind;
    }
    tapes
}

/// A tape with a rest of a frame at its end: behind its frames, or left of the last of them.
pub fn torn(random: &mut Random, settings: &Settings, tape: &[u8]) -> Vec<u8> {
    let length = settings.frame_length();
    let any = random.within(1, length - 1);
    let size = random.pick(&[1, TRAILER, any, any, length - 1]);
    let mut torn = tape.to_vec();
    if torn.len() > size && random.once_in(2) {
        torn.truncate(torn.len() - size);
    } else {
        torn.extend(random.octets(size));
    }
    torn
}

/// Damages the header of one of the packets of a run that conforms, in the zones where it lies. The
/// pointers stay, and trailers are made right again.
pub fn damage_header(random: &mut Random, settings: &Settings, run: &mut Run) {
    let ends = run.packets.iter().scan(0, |end, packet| {
        *end += packet.len();
        Some(*end)
    });
    let starts: Vec<usize> = [0].into_iter().chain(ends).take(run.packets.len()).collect();
    // Often one that starts near the end of a zone, so that its header may go on in the next.
    let cut = |start: &usize| start % settings.zone + LONGEST_HEADER > settings.zone;
    let near_an_end: Vec<usize> = starts.iter().copied().filter(cut).collect();
    let among = if near_an_end.is_empty() || random.once_in(3) { starts } else { near_an_end };
    if among.is_empty() {
        return;
    }
    let start = random.pick(&among);
    let damage = random.pick(&[1, 2, 3, 3, 4]);
    let header = damaged(random, settings.limit, damage);
    let laid = run.frames.iter_mut().filter(|frame| pointer(frame) != IDLE_ZONE);
    let octets = laid.flat_map(|frame| &mut frame[HEAD..settings.zone_end()]);
    octets.skip(start).zip(header).for_each(|(octet, damaged)| *octet = damaged);
    if settings.trailer {
        run.frames.iter_mut().for_each(|frame| seal(frame));
    }
}

/// Spoils a run in one way. Frames may come out with another length. Where they have trailers, a
/// frame that is changed mostly has its trailer made right again.
pub fn spoil(random: &mut Random, settings: &Settings, frames: &mut Vec<Vec<u8>>) {
    if frames.is_empty() {
        return spoil_frames(random, settings, frames);
    }
    let place = random.within(0, frames.len() - 1);
    if settings.trailer && random.once_in(4) {
        return spoil_trailer(random, &mut frames[place]);
    }
    let before = frames.clone();
    if random.once_in(6) {
        spoil_signalling(random, &mut frames[place]);
    } else {
        spoil_frames(random, settings, frames);
    }
    if settings.trailer && !random.once_in(4) {
        frames.iter_mut().filter(|frame| !before.contains(frame)).for_each(|frame| seal(frame));
    }
}

/// Spoils the signalling octet of a frame in one way, behind the replay flag. Where the cycle is
/// used, the frame may come out as one of another count.
pub fn spoil_signalling(random: &mut Random, frame: &mut [u8]) {
    let any = random.octet();
    if let Some(octet) = frame.get_mut(5) {
        *octet = match random.within(1, 10) {
            1..=5 => *octet ^ 1 << random.within(0, 6),
            // The usage or the cycle of another frame.
            6 => *octet ^ 0x40,
            7 => *octet & 0xF0 | any & 0x0F,
            // As on a channel of another edition.
            8 => *octet & 0x80,
            9 => *octet & 0x80 | 0x40 | any & 0x0F,
            _ => *octet & 0x80 | any & 0x7F,
        };
    }
}

/// Gives a frame of any length its right trailer.
pub fn seal(frame: &mut [u8]) {
    if frame.len() >= TRAILER {
        trailer::write(frame);
    }
}

/// Spoils a frame with a trailer in one way, after which the trailer is hardly ever right.
pub fn spoil_trailer(random: &mut Random, frame: &mut Vec<u8>) {
    if frame.len() <= HEAD + TRAILER {
        return;
    }
    let end = frame.len() - TRAILER;
    match random.within(1, 16) {
        // Damage, in the header too, which is then refused for the trailer first.
        1 | 2 => flip(random, frame, end, end + TRAILER - 1),
        3 => flip(random, frame, 0, end - 1),
        4 => flip(random, frame, 0, HEAD - 1),
        5 => burst(random, frame),
        // A frame without its trailer, and one with a second behind it.
        6 => frame.truncate(end),
        7 => {
            frame.extend([0; TRAILER]);
            trailer::write(frame);
        }
        8..=10 => {
            let any = random.any() as u16;
            frame[end..].copy_from_slice(&random.pick(&[0, u16::MAX, any]).to_be_bytes());
        }
        _ => {
            let (_, wrong) = random.pick(&WRONG_REMAINDERS);
            let trailer = wrong(&frame[..end]).to_be_bytes();
            frame[end..].copy_from_slice(&trailer);
        }
    }
}

/// Spoils a frame of bits: in its count, in another way, in both or in neither. Then its trailer, if
/// it has one, is made right again, or spoilt too, or left.
pub fn spoil_bits(random: &mut Random, settings: &bitstream::Settings, frame: &mut Vec<u8>) {
    if random.once_in(2) {
        set_count(settings.edition, frame, random.any() as u32);
    }
    match random.within(1, 10) {
        1..=3 => flip(random, frame, 0, HEAD),
        4 | 5 => {
            let edge = 8 * settings.width as u16;
            let pointer = random.pick(&[edge - 2, edge - 1, edge, 16_381, 16_382, 16_383]);
            set_pointer(frame, pointer);
        }
        6 => frame.push(0),
        7 => frame.truncate(frame.len().saturating_sub(1)),
        8 | 9 => spoil_signalling(random, frame),
        _ => {}
    }
    if settings.trailer {
        match random.within(1, 5) {
            1 => {}
            2 | 3 => spoil_trailer(random, frame),
            _ => seal(frame),
        }
    }
}

/// Changes the first of sixteen bits in a row, and any of the others.
fn burst(random: &mut Random, frame: &mut [u8]) {
    let first = random.within(0, 8 * frame.len() - 16);
    let bits = 0x8000 | random.any() as u16;
    for place in (0..16).filter(|place| bits << place & 0x8000 != 0) {
        let bit = first + place;
        frame[bit / 8] ^= 0x80 >> (bit % 8);
    }
}

/// A rule for the trailer of a frame, from all octets before it.
pub type Rule = fn(&[u8]) -> u16;

/// Rules that others might have for the same, each with what is wrong with it.
pub const WRONG_REMAINDERS: [(&str, Rule); 14] = [
    ("preset to zeros", |octets| register(0, CCITT, octets)),
    ("inverted at the end", |octets| !remainder(octets)),
    ("low octet first", |octets| remainder(octets).swap_bytes()),
    ("bits turned round at the end", |octets| remainder(octets).reverse_bits()),
    ("lowest bit of each octet first", |octets| register(u16::MAX, CCITT, &turned(octets))),
    ("lowest bit first throughout", |octets| {
        register(u16::MAX, CCITT, &turned(octets)).reverse_bits()
    }),
    ("generator X^16 + X^15 + X^2 + 1", |octets| register(u16::MAX, 0x8005, octets)),
    ("generator turned round", |octets| register(u16::MAX, 0x0811, octets)),
    ("over the zone alone", |octets| remainder(&octets[HEAD..])),
    ("over the header alone", |octets| remainder(&octets[..HEAD])),
    ("without the first octet", |octets| remainder(&octets[1..])),
    ("without the last octet", |octets| remainder(&octets[..octets.len() - 1])),
    ("over a trailer of zeros too", |octets| remainder(&[octets, &[0; TRAILER]].concat())),
    ("a sum of the octets", |octets| {
        octets.iter().fold(0, |sum: u16, &octet| sum.wrapping_add(octet.into()))
    }),
];

/// X^12 + X^5 + 1.
const CCITT: u16 = 0x1021;

/// The register of such a rule, with this preset and this generator, behind the octets.
fn register(preset: u16, generator: u16, octets: &[u8]) -> u16 {
    octets.iter().fold(preset, |register, &octet| {
        (0..8).fold(register ^ u16::from(octet) << 8, |register, _| {
            register << 1 ^ if register >= 0x8000 { generator } else { 0 }
        })
    })
}

/// The octets with the bits of each in the other order.
fn turned(octets: &[u8]) -> Vec<u8> {
    octets.iter().map(|octet| octet.reverse_bits()).collect()
}

/// The ways to spoil a run that leave trailers, and what an edition has in the signalling octet, out
/// of account.
pub fn spoil_frames(random: &mut Random, settings: &Settings, frames: &mut Vec<Vec<u8>>) {
    if frames.is_empty() {
        frames.push(random.octets(settings.frame_length()));
        return;
    }
    let place = random.within(0, frames.len() - 1);
    let other = random.within(0, frames.len() - 1);
    match random.within(1, 23) {
        // Gaps, repeats and frames in another order.
        1 | 2 => {
            frames.remove(place);
        }
        3 => frames.insert(other, frames[place].clone()),
        4 => frames.swap(place, other),
        5 => random.shuffle(frames),
        6 => frames.truncate(place),
        // A gap that the counts do not show.
        7 => {
            frames.remove(place);
            renumber(settings.edition, frames);
        }
        8 => {
            frames.insert(place, idle_frame(random, settings));
            renumber(settings.edition, frames);
        }
        9 => frames.insert(place, idle_frame(random, settings)),
        // Damage.
        10 | 11 => flip(random, &mut frames[place], 0, HEAD - 1),
        12 => flip(random, &mut frames[place], HEAD, settings.zone_end() - 1),
        13 => {
            let at = random.within(HEAD, settings.zone_end() - 1);
            let any = random.octet();
            if let Some(octet) = frames[place].get_mut(at) {
                *octet = random.pick(&[0, 0xFF, 0xE0, 0xE1, 0x20, any]);
            }
        }
        // Where a header begun in an earlier zone goes on.
        14..=16 => flip(random, &mut frames[place], HEAD, HEAD + settings.zone.min(8) - 1),
        17 | 18 => {
            let pointer = some_pointer(random, settings, &frames[place]);
            set_pointer(&mut frames[place], pointer);
        }
        19 => set_count(settings.edition, &mut frames[place], random.any() as u32),
        20 => {
            if let Some(octet) = frames[place].get_mut(5) {
                *octet ^= 0x80;
            }
        }
        21 => {
            let size = frames[place].len().saturating_sub(random.within(1, 9));
            frames[place].truncate(size);
        }
        22 => frames[place].push(random.octet()),
        _ => {
            let zone = random.octets(settings.zone);
            if let Some(part) = frames[place].get_mut(HEAD..settings.zone_end()) {
                part.copy_from_slice(&zone);
            }
        }
    }
}

/// A frame with an idle zone of any octets.
fn idle_frame(random: &mut Random, settings: &Settings) -> Vec<u8> {
    let mut frame = random.octets(settings.frame_length());
    let count = random.any() as u32 % settings.edition.wheel();
    frame::write(settings, count, IDLE_ZONE, &mut frame);
    frame
}

/// Gives the frames counts that rise by one.
fn renumber(edition: Edition, frames: &mut [Vec<u8>]) {
    for (count, frame) in frames.iter_mut().enumerate() {
        set_count(edition, frame, count as u32);
    }
}

/// Gives a frame this count, as much of it as the edition has bits for.
fn set_count(edition: Edition, frame: &mut [u8], count: u32) {
    let [high, field @ ..] = count.to_be_bytes();
    if let Some(octets) = frame.get_mut(2..5) {
        octets.copy_from_slice(&field);
    }
    if let (Edition::CycleUsed, Some(octet)) = (edition, frame.get_mut(5)) {
        *octet = *octet & 0xF0 | high & 0x0F;
    }
}

/// The pointer of a frame that is long enough for one.
fn pointer(frame: &[u8]) -> u16 {
    u16::from_be_bytes([frame[6], frame[7]])
}

fn set_pointer(frame: &mut [u8], pointer: u16) {
    if let Some(octets) = frame.get_mut(6..8) {
        octets.copy_from_slice(&pointer.to_be_bytes());
    }
}

fn some_pointer(random: &mut Random, settings: &Settings, frame: &[u8]) -> u16 {
    let zone = settings.zone as u16;
    let now = frame.get(6..8).map_or(0, |octets| u16::from_be_bytes([octets[0], octets[1]]));
    match random.within(1, 9) {
        1 => IDLE_ZONE,
        2 => NO_START,
        3 => 0,
        4 => now.wrapping_add(1) % 2_048,
        5 => now.wrapping_sub(1) % 2_048,
        6 => zone,
        7 => 2_045,
        8 => random.any() as u16 % 2_048,
        _ => random.any() as u16 % zone,
    }
}

fn flip(random: &mut Random, frame: &mut [u8], least: usize, most: usize) {
    let place = random.within(least, most);
    if let Some(octet) = frame.get_mut(place) {
        *octet ^= 1 << random.within(0, 7);
    }
}

/// A number that is often at an edge of what these rules allow.
fn number(random: &mut Random, edges: &[u64]) -> u64 {
    match random.within(1, 12) {
        1 => random.any(),
        2 => random.pick(&[
            u64::MAX,
            1 << 16,
            (1 << 24) - 1,
            1 << 24,
            (1 << 28) - 1,
            1 << 28,
            1 << 32,
        ]),
        _ => random.pick(edges),
    }
}

/// A count for a record, mostly on the wheel of this edition.
pub fn some_count(random: &mut Random, edition: Edition) -> u64 {
    let wheel = u64::from(edition.wheel());
    let (any, last) = (random.any() % wheel, wheel - 1);
    let (short, long) = (1 << 24, 1 << 28);
    number(random, &[0, any, any, any, any, last, last, short - 1, short, long - 1, long])
}

/// A multiplexer's record, reachable or not.
pub fn mux_record(random: &mut Random, settings: &Settings) -> [u64; MUX] {
    let (zone, limit) = (settings.zone as u64, settings.limit as u64);
    let any = random.any();
    let filled = number(random, &[0, 0, 1, zone - 1, any % zone, any % zone, zone]);
    let first =
        number(random, &[0, 2_047, 2_047, 2_046, filled, filled.wrapping_sub(1), any % zone]);
    let taken = number(random, &[0, 0, 0, 1, 7, any % limit, limit - 1, limit]);
    let count = some_count(random, settings.edition);
    match random.within(1, 4) {
        1 => [count, 0, 2_047, taken],
        2 => [count, filled, 2_047, 0],
        3 => [count, filled, first, 0],
        _ => [count, filled, first, taken],
    }
}

/// An extractor's record, reachable or not, for a store of this length.
pub fn extractor_record(
    random: &mut Random,
    settings: &Settings,
    store: usize,
) -> [u64; EXTRACTOR] {
    let zone = settings.zone as u64;
    let any = random.any();
    let last = some_count(random, settings.edition);
    let held = some_held(random, settings, store);
    let at = number(random, &[0, 0, any % zone, zone - 1, zone, zone + 1]);
    match random.within(0, 12) {
        0 => [0, 0, 0, 0],
        1 => [1, last, 0, 0],
        2..=4 => [2, last, held, 0],
        5..=7 => [3, last, held, 0],
        8 | 9 => [3, last, 0, at],
        10 => [4, last, 0, 0],
        11 => [number(random, &[0, 1, 2, 3, 4, 5]), last, held, at],
        _ => [
            number(random, &[0, 1, 2, 4, 5]),
            number(random, &[0, 1]),
            number(random, &[0, 1]),
            number(random, &[0, 1]),
        ],
    }
}

/// A judge's record, reachable or not, for a store of this length.
pub fn judge_record(random: &mut Random, settings: &Settings, store: usize) -> [u64; JUDGE] {
    let any = random.any();
    let held = some_held(random, settings, store);
    let zone = settings.zone as u64;
    let filling = held.wrapping_add(zone - 1) / zone;
    let most = 1 << 24;
    let tally = number(
        random,
        &[
            0,
            1,
            2,
            filling,
            filling,
            filling.wrapping_sub(1),
            any % most,
            most,
            most,
            most - 1,
            most + 1,
        ],
    );
    let last = some_count(random, settings.edition);
    let at = number(random, &[0, tally.wrapping_sub(1), tally.wrapping_sub(1), tally, any % most]);
    match random.within(0, 9) {
        0 => [0, 0, 0, 0],
        1..=4 => [1, tally, last, held],
        5..=7 => [2, tally, at, 0],
        8 => [number(random, &[0, 1, 2, 3]), tally, last, held],
        _ => [
            number(random, &[0, 1, 2, 3]),
            number(random, &[0, 1]),
            number(random, &[0, 1]),
            number(random, &[0, 1]),
        ],
    }
}

/// A judge's record before these frames: that of no frame yet, or one so near the judge's last frame
/// that it comes among them or soon behind them, with a fault so far or without.
pub fn record_before(random: &mut Random, settings: &Settings, frames: &[Vec<u8>]) -> [u64; JUDGE] {
    let tally = u64::from(MOST_FRAMES) - random.within(0, frames.len() + 1) as u64;
    let first = frames.first().and_then(|frame| frame::read(settings, frame).ok());
    let count = first.map_or(0, |head| head.count);
    let last = count.wrapping_sub(1) % settings.edition.wheel();
    let any = random.any() % tally;
    match random.within(1, 6) {
        1 | 2 => [1, tally, last.into(), 0],
        3 => [2, tally, random.pick(&[0, any, tally - 1]), 0],
        _ => [0, 0, 0, 0],
    }
}

/// A record of a reader of bits, reachable or not, before a frame of this count or any other.
pub fn bit_reader_record(random: &mut Random, edition: Edition, count: u64) -> [u64; BIT_READER] {
    let before = count.wrapping_sub(1) % u64::from(edition.wheel());
    let any = some_count(random, edition);
    // At times it comes before the frame in 24 bits alone.
    let before_below = before ^ 1 << random.pick(&[24, 27]);
    let last = number(random, &[before, before, before, count, any, any, before_below]);
    let waiting = random.pick(&[0, 1]);
    // What is no flag, at times what looks like one in fewer bits.
    let alike = waiting + random.pick(&[2, 1 << 8, 1 << 16, 1 << 32]);
    match random.within(0, 9) {
        0 => [0, 0, 0],
        1..=5 => [1, last, waiting],
        6 => [1, last, number(random, &[2, 3, alike, alike, u64::MAX])],
        7 => [0, 0, number(random, &[1, 1, 2, alike])],
        8 => [number(random, &[0, 1, 2, 3]), last, waiting],
        _ => [number(random, &[0, 1, 2]), number(random, &[0, 1]), number(random, &[0, 1, 2])],
    }
}

fn some_held(random: &mut Random, settings: &Settings, store: usize) -> u64 {
    let limit = settings.limit as u64;
    let few = random.any() % 10;
    number(
        random,
        &[0, few, few, few, few, limit - 1, limit, limit + 1, store as u64, store as u64 + 1],
    )
}
