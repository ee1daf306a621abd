//! The names of damage: request L4 of document 02 worked out by hand, and read a second way. They
//! are taken from the calls, where 0 is no damage: 1 version, 2 one-octet packet that is not idle,
//! 3 length below its header, 4 over the limit.

use itzahuemo_reference::calls::{
    Calls, Reference, ENTERED, HEADER, PUT, RELAY, ROUTED, SHOWN, STEP, UNIT, UNWRAPPED, WRAPPED,
};
use itzahuemo_reference::generate;
use itzahuemo_reference::random::Random;

/// The limits at both ends of their range, and round the greatest total of each length field.
const LIMITS: [u64; 16] =
    [7, 8, 9, 10, 11, 254, 255, 256, 1_024, 4_096, 65_534, 65_535, 65_536, 65_540, 65_541, 65_542];

fn read(limit: u64, octets: &[u8]) -> [u64; HEADER] {
    let mut answer = [9; HEADER];
    assert_eq!(Reference.read_header(limit, octets, &mut answer), 0);
    answer
}

/// The answer that asks for more octets.
const MORE: [u64; HEADER] = [1, 0, 0, 0, 0, 0, 0];

fn damaged(damage: u64) -> [u64; HEADER] {
    [2, 0, 0, 0, 0, 0, damage]
}

/// The first octet is version 3 bits, protocol 3 bits, length-of-length 2 bits. Alone it is damage
/// for the versions 001 to 110, and for a header of one octet with a protocol other than 0; and
/// what comes behind changes nothing of that.
#[test]
fn every_first_octet() {
    let mut tails = vec![vec![]];
    for fill in [0x00, 0x07, 0x33, 0xE0, 0xFF] {
        tails.extend((1..=9).map(|size| vec![fill; size]));
    }
    let mut met = [0; 5];
    for (limit, tail) in LIMITS.iter().flat_map(|limit| tails.iter().map(move |tail| (limit, tail)))
    {
        for first in 0x00..=0xFF {
            let said = read(*limit, &[&[first], &tail[..]].concat());
            match first {
                0x20..=0xDF => assert_eq!(said, damaged(1), "{first:02x}"),
                0xE4 | 0xE8 | 0xEC | 0xF0 | 0xF4 | 0xF8 | 0xFC => {
                    assert_eq!(said, damaged(2), "{first:02x}");
                }
                0xE0 => assert_eq!(said, [3, 2, 1, 0, 1, 1, 0]),
                _ if tail.is_empty() => assert_eq!(said, MORE, "{first:02x}"),
                // Whatever is wrong now is the length.
                _ => assert!([0, 3, 4].contains(&said[6]), "{first:02x} {tail:02x?}"),
            }
            met[said[6] as usize] += 1;
        }
    }
    assert_eq!(met[1], 192 * 16 * 46);
    assert_eq!(met[2], 7 * 16 * 46);
    assert_eq!(met.iter().sum::<u32>(), 256 * 16 * 46);
}

/// Lengths on both sides of what is damage. An encapsulation length is the total, a space packet's
/// length field seven less, so that no space packet is below its header.
#[test]
fn lengths_by_hand() {
    for (header, limit, damage) in [
        (&[0xE9, 0x00][..], 7, 3),
        (&[0xE9, 0x01], 7, 3),
        (&[0xE9, 0x01], 65_542, 3),
        (&[0xE9, 0x02], 7, 0),
        (&[0xE9, 0x07], 7, 0),
        (&[0xE9, 0x08], 7, 4),
        (&[0xE9, 0x08], 8, 0),
        (&[0xE9, 0x0A], 10, 0),
        (&[0xE9, 0x0B], 10, 4),
        (&[0xE9, 0xFF], 10, 4),
        (&[0xE9, 0xFF], 254, 4),
        (&[0xE9, 0xFF], 255, 0),
        (&[0xE1, 0x01], 7, 3),
        (&[0xFD, 0x01], 7, 3),
        (&[0xEA, 0x00, 0x00, 0x00], 7, 3),
        (&[0xEA, 0x00, 0x00, 0x01], 7, 3),
        (&[0xEA, 0x00, 0x00, 0x03], 7, 3),
        (&[0xEA, 0x00, 0x00, 0x04], 7, 0),
        (&[0xEA, 0x00, 0x00, 0x07], 7, 0),
        (&[0xEA, 0x00, 0x00, 0x08], 7, 4),
        (&[0xEA, 0x00, 0x00, 0x08], 8, 0),
        (&[0xEA, 0x00, 0x00, 0x0B], 10, 4),
        (&[0xEA, 0x00, 0x01, 0x00], 10, 4),
        (&[0xEA, 0x00, 0x04, 0x00], 1_024, 0),
        (&[0xEA, 0x00, 0x04, 0x01], 1_024, 4),
        (&[0xEA, 0xFF, 0x04, 0x01], 1_024, 4),
        (&[0xEA, 0x00, 0xFF, 0xFF], 65_534, 4),
        (&[0xEA, 0x00, 0xFF, 0xFF], 65_535, 0),
        (&[0xEA, 0x00, 0x00, 0x03], 65_542, 3),
        (&[0xEA, 0x00, 0xFF, 0xFF], 65_542, 0),
        // With a limit of 7 there is no length for eight octets: up to 7 it is below them.
        (&[0xEB, 0x00, 0x00, 0x00, 0x00, 0x00, 0x00, 0x00], 7, 3),
        (&[0xEB, 0x00, 0x00, 0x00, 0x00, 0x00, 0x00, 0x07], 7, 3),
        (&[0xEB, 0x00, 0x00, 0x00, 0x00, 0x00, 0x00, 0x08], 7, 4),
        (&[0xEB, 0x00, 0x00, 0x00, 0x00, 0x00, 0x00, 0x07], 8, 3),
        (&[0xEB, 0x00, 0x00, 0x00, 0x00, 0x00, 0x00, 0x08], 8, 0),
        (&[0xEB, 0x00, 0x00, 0x00, 0x00, 0x00, 0x00, 0x09], 8, 4),
        (&[0xEB, 0x00, 0x00, 0x00, 0x00, 0x00, 0x00, 0x0B], 10, 4),
        (&[0xEB, 0x00, 0x00, 0x00, 0x00, 0x00, 0x04, 0x00], 1_024, 0),
        (&[0xEB, 0x00, 0x00, 0x00, 0x00, 0x00, 0x04, 0x01], 1_024, 4),
        (&[0xEB, 0x00, 0x00, 0x00, 0x00, 0x00, 0x00, 0x07], 65_542, 3),
        (&[0xEB, 0xFF, 0xFF, 0xFF, 0x00, 0x00, 0x00, 0x07], 65_542, 3),
        (&[0xEB, 0x00, 0x00, 0x00, 0x00, 0x01, 0x00, 0x06], 65_541, 4),
        (&[0xEB, 0x00, 0x00, 0x00, 0x00, 0x01, 0x00, 0x06], 65_542, 0),
        (&[0xEB, 0x00, 0x00, 0x00, 0x00, 0x01, 0x00, 0x07], 65_542, 4),
        // Low octets that alone would be below the header.
        (&[0xEB, 0x00, 0x00, 0x00, 0x00, 0x02, 0x00, 0x00], 65_542, 4),
        (&[0xEB, 0x00, 0x00, 0x00, 0x01, 0x00, 0x00, 0x00], 65_542, 4),
        (&[0xEB, 0x00, 0x00, 0x00, 0x80, 0x00, 0x00, 0x07], 65_542, 4),
        (&[0xEB, 0x00, 0x00, 0x00, 0xFF, 0xFF, 0xFF, 0xFF], 65_542, 4),
        (&[0x00, 0x05, 0xC0, 0x00, 0x00, 0x00], 7, 0),
        (&[0x00, 0x05, 0xC0, 0x00, 0x00, 0x01], 7, 4),
        (&[0x00, 0x05, 0xC0, 0x00, 0x00, 0x01], 8, 0),
        (&[0x00, 0x05, 0xC0, 0x00, 0x00, 0x03], 10, 0),
        (&[0x00, 0x05, 0xC0, 0x00, 0x00, 0x04], 10, 4),
        (&[0x1F, 0xFF, 0xFF, 0xFF, 0x00, 0x04], 10, 4),
        (&[0x00, 0x05, 0xC0, 0x00, 0x03, 0xF9], 1_024, 0),
        (&[0x00, 0x05, 0xC0, 0x00, 0x03, 0xFA], 1_024, 4),
        (&[0x00, 0x05, 0xC0, 0x00, 0xFF, 0xFF], 65_541, 4),
        (&[0x00, 0x05, 0xC0, 0x00, 0xFF, 0xFF], 65_542, 0),
    ] {
        let said = read(limit, header);
        let found = if damage == 0 { 3 } else { 2 };
        assert_eq!((said[0], said[6]), (found, damage), "{header:02x?} at {limit}");
    }
}

/// A header that states this total, with this first octet: of a space packet, or with a
/// length-of-length of 1, 2 or 3.
fn stating(first: u8, total: u64) -> Vec<u8> {
    let length = (total as u32).to_be_bytes();
    match first {
        0x00..=0x1F => {
            let field = ((total - 7) as u16).to_be_bytes();
            vec![first, 0x05, 0xC0, 0x00, field[0], field[1]]
        }
        _ if first % 4 == 1 => vec![first, length[3]],
        _ if first % 4 == 2 => vec![first, 0xF0, length[2], length[3]],
        _ => [&[first, 0xF0, 0x00, 0x00][..], &length].concat(),
    }
}

/// First octets of each header that has a length, of every protocol, with the greatest total that
/// it can state.
fn headers_with_a_length() -> Vec<(u8, u64)> {
    let most = [0, 255, 65_535, 0xFFFF_FFFF];
    let encapsulation = (0xE0..=0xFF).map(|first: u8| (first, most[usize::from(first % 4)]));
    let space = [0x00, 0x07, 0x08, 0x10, 0x1F].map(|first| (first, 65_542));
    encapsulation.filter(|&(first, _)| first % 4 != 0).chain(space).collect()
}

/// Every header with a length, with lengths round its own octets, round the limit, round each power
/// of 256 and at its end. Cut after any octet it is not damaged, and octets behind it change
/// nothing.
#[test]
fn lengths_at_their_edges() {
    let mut met = [0; 5];
    for (first, most) in headers_with_a_length() {
        let least = if first < 0x20 { 7 } else { 0 };
        for limit in LIMITS {
            let round = |edge: u64| edge.saturating_sub(2)..=edge + 2;
            let edges = [2, 4, 8, limit, 1 << 8, 1 << 16, 1 << 24, 1 << 31, most];
            for total in edges.into_iter().flat_map(round) {
                if total < least || total > most {
                    continue;
                }
                let header = stating(first, total);
                let size = header.len() as u64;
                let said = read(limit, &header);
                if total < size {
                    assert_eq!(said, damaged(3), "{header:02x?} at {limit}");
                } else if total > limit {
                    assert_eq!(said, damaged(4), "{header:02x?} at {limit}");
                } else {
                    assert_eq!([said[0], said[4], said[5], said[6]], [3, size, total, 0]);
                }
                for cut in 1..header.len() {
                    assert_eq!(read(limit, &header[..cut]), MORE, "{header:02x?} after {cut}");
                }
                assert_eq!(read(limit, &[&header[..], &[0xFF; 9]].concat()), said);
                met[said[6] as usize] += 1;
            }
        }
    }
    // 29 headers, 16 limits and 45 lengths, which not all of them can state.
    assert_eq!(met, [6_312, 0, 0, 2_608, 4_818]);
}

/// The bits of octets as text, from the most significant one.
fn bits(octets: &[u8]) -> String {
    octets.iter().map(|octet| format!("{octet:08b}")).collect()
}

/// The number in so many bits from a place on, if they are there.
fn field(bits: &str, from: usize, size: usize) -> Option<u64> {
    bits.get(from..from + size).map(|digits| u64::from_str_radix(digits, 2).unwrap())
}

/// The length of an encapsulation header and the length that it states, if it has one and is whole.
fn encapsulation_length(bits: &str) -> Option<(u64, u64)> {
    match (bits.get(..3)?, bits.get(6..8)?) {
        ("111", "01") => Some((2, field(bits, 8, 8)?)),
        ("111", "10") => Some((4, field(bits, 16, 16)?)),
        ("111", "11") => Some((8, field(bits, 32, 32)?)),
        _ => None,
    }
}

/// 1: the version is neither 000 nor 111.
fn has_wrong_version(bits: &str) -> bool {
    bits.get(..3).map_or(false, |version| version != "000" && version != "111")
}

/// 2: an encapsulation packet of one octet whose protocol is not 0.
fn is_one_octet_and_not_idle(bits: &str) -> bool {
    bits.starts_with("111") && bits.get(6..8) == Some("00") && bits.get(3..6) != Some("000")
}

/// 3: a length that is stated is below the header that states it.
fn is_below_its_header(bits: &str) -> bool {
    encapsulation_length(bits).map_or(false, |(header, length)| length < header)
}

/// 4: a total that is stated is over the limit.
fn is_over(limit: u64, bits: &str) -> bool {
    let space = field(bits, 32, 16).filter(|_| bits.starts_with("000")).map(|field| field + 7);
    let total = space.or_else(|| encapsulation_length(bits).map(|(_, length)| length));
    total.map_or(false, |total| total > limit)
}

/// The reader names the one of the four that holds, if any does; no two do. Answers which.
fn names_the_only_one(limit: u64, octets: &[u8]) -> usize {
    let bits = bits(octets);
    let tests = [
        has_wrong_version(&bits),
        is_one_octet_and_not_idle(&bits),
        is_below_its_header(&bits),
        is_over(limit, &bits),
    ];
    let holding: Vec<u64> = (1..=4).filter(|&damage| tests[damage as usize - 1]).collect();
    let said = read(limit, octets);
    match holding[..] {
        [] => assert!(said[0] != 2 && said[6] == 0, "{octets:02x?} at {limit}"),
        [damage] => assert_eq!(said, damaged(damage), "{octets:02x?} at {limit}"),
        _ => panic!("{holding:?} hold at {limit} of {octets:02x?}"),
    }
    said[6] as usize
}

#[test]
fn at_most_one_applies() {
    let mut random = Random::new(0xDA_3A6E);
    let mut met = [0; 5];
    for _ in 0..100_000 {
        let any = random.within(7, 65_542) as u64;
        let edge = random.pick(&LIMITS);
        let limit = random.pick(&[edge, edge, any]);
        let mut octets = match random.within(1, 3) {
            1 => {
                let size = random.within(0, 12);
                random.octets(size)
            }
            2 => generate::front(&mut random, limit as usize),
            _ => {
                let damage = random.within(1, 4) as u64;
                generate::damaged(&mut random, limit as usize, damage)
            }
        };
        if random.once_in(4) {
            octets.truncate(random.within(0, 9));
        }
        met[names_the_only_one(limit, &octets)] += 1;
    }
    assert!(met.iter().all(|&times| times > 5_000), "{met:?}");
    // All of two octets, under the least limit and under one that no such header passes.
    for (limit, octets) in [7, 255]
        .into_iter()
        .flat_map(|limit| (0..=u16::MAX).map(move |octets| (limit, octets.to_be_bytes())))
    {
        names_the_only_one(limit, &octets);
    }
}

/// What was lent to a call that is not to change when it is refused.
const LENT_FRAME: [u8; 15] = [0x77; 15];

/// A multiplexer with a zone of 7 octets puts a packet; the refusal and the damage.
fn put(limit: u64, packet: &[u8]) -> (u64, u64) {
    let start = [0, 0, 2_047, 0];
    let (mut record, mut frame, mut answer) = (start, LENT_FRAME, [9; PUT]);
    let settings = [66, 3, 7, limit, 0x55, 0, 0];
    let refusal = Reference.mux_put(&settings, &mut record, packet, &mut frame, &mut answer);
    if refusal != 0 {
        assert_eq!((record, frame), (start, LENT_FRAME));
        assert_eq!(answer[..2], [0; 2]);
    }
    (refusal, answer[2])
}

fn unwrap(limit: u64, packet: &[u8]) -> (u64, u64) {
    let mut answer = [9; UNWRAPPED];
    let refusal = Reference.unwrap(limit, packet, &mut answer);
    if refusal != 0 {
        assert_eq!(answer[..4], [0; 4]);
    }
    (refusal, answer[4])
}

/// A packet routed by the empty table.
fn route(limit: u64, packet: &[u8]) -> (u64, u64) {
    let mut answer = [9; ROUTED];
    let refusal = Reference.relay_route(limit, &[0; RELAY], packet, &mut [], &mut answer);
    if refusal != 0 {
        assert_eq!(answer[..2], [0; 2]);
    }
    (refusal, answer[2])
}

/// The three calls refuse a packet by 8 with this damage.
fn is_refused(limit: u64, packet: &[u8], damage: u64) {
    for (name, said) in [
        ("put", put(limit, packet)),
        ("unwrap", unwrap(limit, packet)),
        ("route", route(limit, packet)),
    ] {
        let front = &packet[..packet.len().min(9)];
        assert_eq!(said, (8, damage), "{name} {front:02x?}, {} at {limit}", packet.len());
    }
    let mut formed = [9];
    assert_eq!(Reference.well_formed(limit, packet, &mut formed), 0);
    assert_eq!(formed, [2]);
}

/// A space packet that is put and routed, and is none to be unwrapped.
fn is_a_space_packet(limit: u64, packet: &[u8]) {
    assert_eq!(put(limit, packet), (0, 0), "{packet:02x?} at {limit}");
    assert_eq!(unwrap(limit, packet), (8, 0), "{packet:02x?} at {limit}");
    assert_eq!(route(limit, packet), (0, 0), "{packet:02x?} at {limit}");
}

fn octets(hex: &str) -> Vec<u8> {
    hex.split(' ').map(|octet| u8::from_str_radix(octet, 16).unwrap()).collect()
}

/// The 46 packets that source 001's tests print, at their maximum of 10 octets.
#[test]
fn source_001() {
    for hex in [
        "00 02 C0 00 00 01 00 01",
        "00 03 C0 00 00 01 01 02",
        "07 FF C0 00 00 01 01 02",
        "00 02 C0 00 00 01 01 02",
        "18 02 40 04 00 00 01",
        "00 04 C0 00 00 01 01 02",
        "00 04 C0 00 00 01 03 04",
        "00 01 C0 00 00 01 01 02",
        "00 03 C0 00 00 01 03 04",
        "00 05 C0 00 00 01 01 02",
        "00 06 C0 00 00 01 01 02",
        "08 02 C0 01 00 00 03",
        "00 02 C0 02 00 01 04 05",
        "08 02 C0 04 00 03 09 0A 0B 0C",
        "00 04 C0 01 00 01 01 02",
        "00 04 C0 02 00 01 03 06",
        "00 04 C0 01 00 01 03 04",
        "00 04 C0 03 00 01 07 08",
        "00 04 C0 02 00 01 05 06",
        "00 04 C0 04 00 01 09 0A",
        "00 04 C0 05 00 01 0B 0C",
        "00 04 FF FE 00 03 00 01 02 03",
        "00 04 FF FF 00 03 00 01 02 03",
        "00 04 C0 00 00 03 00 01 02 03",
        "08 04 C0 01 00 02 04 05 06",
        "18 04 40 04 00 00 01",
        "00 01 C0 00 00 01 00 01",
        "18 02 C0 04 00 00 03",
        "18 05 C0 01 00 00 03",
        "18 05 C0 02 00 00 04",
        "00 02 DF FE 00 01 01 02",
        "08 02 DF FF 00 03 03 04 05 06",
        "00 02 C0 00 00 00 07",
        "00 02 C0 01 00 03 08 09 0A 0B",
        "00 02 C0 00 00 01 03 04",
        "00 02 C0 00 00 01 05 06",
    ] {
        is_a_space_packet(10, &octets(hex));
    }
    for (hex, damage) in [
        ("00 02 C0 00 00 02 01 02", 0),
        ("20 02 C0 00 00 01 01 02", 1),
        ("00 02 C0 00 00 03 01 02", 0),
        ("07 FF C0 00 00 04 01 02 03 04 05", 4),
        ("20 04 C0 00 00 01 01 02", 1),
        ("00 04 C0 00 00 00 01 02", 0),
        // Twelve octets are stated: over the limit and not what is lent.
        ("00 04 C0 00 00 05 01 02", 4),
        ("00 02 C0 03 00 01 06 07 08", 0),
        ("00 04 C0 02 00 04 07 08 09 0A 0B", 4),
        ("00 02 C0 00 00 04 01 02 03 04 05", 4),
    ] {
        is_refused(10, &octets(hex), damage);
    }
    // Under a greater limit only the length is left, or nothing.
    is_refused(11, &octets("00 04 C0 00 00 05 01 02"), 4);
    is_refused(12, &octets("00 04 C0 00 00 05 01 02"), 0);
    is_refused(1_024, &octets("00 04 C0 00 00 05 01 02"), 0);
    is_refused(1_024, &octets("20 04 C0 00 00 01 01 02"), 1);
    is_a_space_packet(11, &octets("00 04 C0 02 00 04 07 08 09 0A 0B"));
}

/// Packets of source 002's tables, unwrapped: their numbers, or the refusal and the damage.
#[test]
fn source_002() {
    let unwrapped = |hex: &str| {
        let mut answer = [9; UNWRAPPED];
        (Reference.unwrap(65_542, &octets(hex), &mut answer), answer)
    };
    assert_eq!(unwrapped("E0"), (0, [0, 0, 1, 0, 0]));
    assert_eq!(unwrapped("E1 02"), (0, [0, 0, 2, 0, 0]));
    assert_eq!(unwrapped("E9 02"), (0, [2, 0, 2, 0, 0]));
    assert_eq!(unwrapped("F9 03 DD"), (0, [6, 0, 2, 1, 0]));
    assert_eq!(unwrapped("EA 10 00 05 DD"), (0, [2, 0, 4, 1, 0]));
    for (hex, refusal, damage) in [
        ("EA 01 00 05 DD", 6, 0),
        ("E2 01 00 04", 6, 0),
        ("EB 00 00 01 00 00 00 09 DD", 6, 0),
        // 8 goes before 6.
        ("EA 01 00 06 DD", 8, 0),
        ("EA 01 00 03 DD", 8, 3),
        ("EB 00 00 01 00 01 00 07 DD", 8, 4),
        ("00 05 C0 00 00 01 AA BB", 8, 0),
        ("E9 01", 8, 3),
        ("EC", 8, 2),
        ("33", 8, 1),
        ("EB 00 00 00 00 01 00 07", 8, 4),
    ] {
        assert_eq!(unwrapped(hex), (refusal, [0, 0, 0, 0, damage]), "{hex}");
    }
    for (hex, damage) in [("E9 01", 3), ("EC", 2), ("33", 1), ("EB 00 00 00 00 01 00 07", 4)] {
        assert_eq!(read(65_542, &octets(hex)), damaged(damage), "{hex}");
    }
}

/// Each case in which refusal 8 carries 0, and the damage that goes before it.
#[test]
fn refusal_8_of_packets() {
    is_refused(10, &[], 0);
    // The header is cut, whatever is already seen of its length.
    for cut in [
        &[0x00][..],
        &[0x1F],
        &[0x00, 0x05, 0xC0, 0x00, 0x00],
        &[0x00, 0x05, 0xC0, 0x00, 0xFF],
        &[0xE1],
        &[0xE9],
        &[0xFE],
        &[0xEA, 0x00, 0x00],
        &[0xEA, 0x00, 0xFF],
        &[0xFF],
        &[0xEB, 0x00, 0x00, 0x00, 0xFF, 0xFF, 0xFF],
        &[0xEB, 0x00, 0x00, 0x00, 0x00, 0x00, 0x00],
    ] {
        is_refused(10, cut, 0);
        is_refused(7, cut, 0);
    }
    // But a first octet that is wrong is damage with nothing behind it.
    for (cut, damage) in [(0x20, 1), (0x33, 1), (0xC0, 1), (0xDF, 1), (0xE4, 2), (0xFC, 2)] {
        is_refused(10, &[cut], damage);
        is_refused(10, &[cut, 0x02, 0x00, 0x00], damage);
        is_refused(10, &[cut; 20], damage);
    }
    // Another length than the stated one, also one that is over the limit.
    for (first, size) in [(0xE0, 2), (0xE0, 10), (0xE0, 11), (0xE0, 500)] {
        is_refused(10, &vec![first; size], 0);
    }
    for size in [2, 3, 4, 6, 9, 10, 11, 500] {
        let mut packet = vec![0xA0; size];
        packet[..2].copy_from_slice(&[0xE9, 0x05]);
        is_refused(10, &packet, 0);
    }
    for size in [6, 7, 9, 10, 11, 500] {
        let mut packet = vec![0xA0; size];
        packet[..6].copy_from_slice(&[0x00, 0x05, 0xC0, 0x00, 0x00, 0x01]);
        is_refused(10, &packet, 0);
    }
    // A length that is damage, with as many octets as it states, and with fewer and with more.
    for first in [0xE9, 0xEA, 0xEB, 0x00] {
        let header = stating(first, 11);
        for size in [header.len(), 9, 10, 11, 12, 500] {
            let mut packet = vec![0xA0; size.max(header.len())];
            packet[..header.len()].copy_from_slice(&header);
            is_refused(10, &packet, 4);
            is_refused(7, &packet, 4);
            if size != 11 {
                is_refused(11, &packet, 0);
            }
        }
    }
    for (first, header) in [(0xE9, 2), (0xEA, 4), (0xEB, 8)] {
        for (total, size) in
            (0..header).flat_map(|total| (header..12).map(move |size| (total, size)))
        {
            let mut packet = vec![0xA0; size as usize];
            packet[..header as usize].copy_from_slice(&stating(first, total));
            is_refused(10, &packet, 3);
            is_refused(7, &packet, 3);
        }
    }
    // A space packet to be unwrapped is 0, and 4 where it is over the limit.
    let space = [0x00, 0x05, 0xC0, 0x00, 0x00, 0x03, 1, 2, 3, 4];
    is_a_space_packet(10, &space);
    is_refused(9, &space, 4);
    is_refused(10, &space[..9], 0);
    is_refused(9, &space[..9], 4);
}

/// The longest packets, past and within the limit.
#[test]
fn refusal_8_of_long_packets() {
    for (first, size) in [(0x00, 65_542), (0xEA, 65_535), (0xEB, 65_542)] {
        let mut packet = vec![0xA0; size as usize];
        let header = stating(first, size);
        packet[..header.len()].copy_from_slice(&header);
        assert_eq!(put(size, &packet), (0, 0));
        is_refused(size - 1, &packet, 4);
        is_refused(7, &packet, 4);
        is_refused(size, &packet[..packet.len() - 1], 0);
        is_refused(size - 1, &packet[..packet.len() - 1], 4);
        packet.push(0);
        is_refused(size, &packet, 0);
    }
}

/// A data unit has no header that could be damaged.
#[test]
fn refusal_8_of_wrapping() {
    let wrap = |limit, protocol, size: usize, room: usize| {
        let (mut out, mut answer) = (vec![0x77; room], [9; WRAPPED]);
        let data = vec![0xAB; size];
        let refusal = Reference.wrap(limit, protocol, 0, &data, &mut out, &mut answer);
        assert!(refusal == 0 || out.iter().all(|&octet| octet == 0x77));
        (refusal, answer)
    };
    assert_eq!(wrap(7, 2, 5, 7), (0, [7, 0]));
    for (limit, protocol, size) in [
        (7, 2, 0),
        (65_542, 2, 0),
        (7, 2, 6),
        (7, 6, 4),
        (10, 2, 9),
        (254, 2, 253),
        (257, 2, 254),
        (65_542, 2, 65_535),
        (65_539, 2, 65_532),
        (10, 2, 70_000),
    ] {
        assert_eq!(wrap(limit, protocol, size, 0), (8, [0, 0]), "{size} at {limit}");
        assert_eq!(wrap(limit, protocol, size, 80_000), (8, [0, 0]), "{size} at {limit}");
    }
    // Nor do the other refusals name any.
    assert_eq!(wrap(6, 2, 5, 7), (1, [0, 0]));
    assert_eq!(wrap(7, 0, 9, 7), (1, [0, 0]));
    assert_eq!(wrap(7, 2, 5, 6), (2, [0, 0]));
}

/// What goes before 8 goes before the damage too.
#[test]
fn other_refusals_name_no_damage() {
    for damaged in [&[0x33][..], &[0xEC], &[0xE9, 0x01], &[0xE9, 0xFF]] {
        for limit in [0, 6, 65_543, u64::MAX] {
            assert_eq!(unwrap(limit, damaged), (1, 0));
            assert_eq!(route(limit, damaged), (1, 0));
            let mut answer = [9; HEADER];
            assert_eq!(Reference.read_header(limit, damaged, &mut answer), 1);
            assert_eq!(answer, [0; HEADER]);
        }
        let settings = [66, 3, 7, 64, 0x55, 0, 0];
        let put = |settings: &[u64], record: [u64; 4], size: usize| {
            let (mut record, mut answer) = (record, [9; PUT]);
            let refusal = Reference.mux_put(
                settings,
                &mut record,
                damaged,
                &mut [0; 15][..size],
                &mut answer,
            );
            (refusal, answer)
        };
        let start = [0, 0, 2_047, 0];
        assert_eq!(put(&[66, 63, 7, 64, 0x55, 0, 0], start, 15), (1, [0; PUT]));
        assert_eq!(put(&settings, start, 14), (2, [0; PUT]));
        assert_eq!(put(&settings, [0, 7, 2_047, 0], 15), (10, [0; PUT]));
        // Nine octets of a packet are taken, and these are fewer.
        assert_eq!(put(&settings, [0, 0, 2_047, 9], 15), (9, [0; PUT]));
        let named = read(64, damaged)[6];
        assert_eq!(put(&settings, start, 15), (8, [0, 0, named]));
        let longer = [damaged, &[0xA0; 9]].concat();
        let (mut record, mut answer) = ([0, 0, 2_047, 9], [9; PUT]);
        let refusal = Reference.mux_put(&settings, &mut record, &longer, &mut [0; 15], &mut answer);
        assert_eq!((refusal, answer), (8, [0, 0, named]));
        // A table that no load leaves.
        let (mut table, mut answer) = ([0; RELAY], [9; ROUTED]);
        table[0] = 33;
        let refusal = Reference.relay_route(64, &table, damaged, &mut [], &mut answer);
        assert_eq!((refusal, answer), (10, [0; ROUTED]));
    }
}

/// A frame of spacecraft 66, channel 3.
fn frame(count: u64, pointer: u16, zone: &[u8]) -> Vec<u8> {
    let [.., a, b, c] = count.to_be_bytes();
    let [high, low] = pointer.to_be_bytes();
    [&[0x50, 0x83, a, b, c, 0, high, low], zone].concat()
}

/// Octets at the front of a zone of this length, and idle packets of one octet behind them.
fn zone_of(size: usize, front: &[u8]) -> Vec<u8> {
    let mut zone = vec![0xE0; size];
    zone[..front.len()].copy_from_slice(front);
    zone
}

/// Headers whose length is damage under a limit of 64, each with its damage.
fn damaged_lengths() -> Vec<(Vec<u8>, u64)> {
    let mut headers = vec![];
    for (first, header) in [(0xE9, 2), (0xEA, 4), (0xEB, 8)] {
        headers.extend((0..header).map(|total| (stating(first, total), 3)));
    }
    for (first, most) in [(0xE9, 255), (0xEA, 65_535), (0xEB, 0xFFFF_FFFF), (0x00, 65_542)] {
        headers.extend([65, 66, 200, most].map(|total| (stating(first, total), 4)));
    }
    headers
}

/// A header cut after each of its octets, and each zone length that completes it or does not.
/// Reason 3 names the damage as soon as the header is whole, whatever the pointer, unless there is
/// a gap.
#[test]
fn entering() {
    let mut met = [0; 5];
    for (header, damage) in damaged_lengths() {
        for (held, size) in (1..header.len()).flat_map(|held| (1..=9).map(move |size| (held, size)))
        {
            let rest = &header[held..];
            let zone = zone_of(size.max(rest.len()), rest);
            let settings = [66, 3, size as u64, 64, 0x55, 0, 0];
            let mut store = vec![0xA0; 64];
            store[..held].copy_from_slice(&header[..held]);
            let enter = |count: u64, pointer: u16| {
                let (mut record, mut answer) = ([2, 5, held as u64, 0], [9; ENTERED]);
                let frame = frame(count, pointer, &zone[..size]);
                let refusal =
                    Reference.extractor_enter(&settings, &mut record, &store, &frame, &mut answer);
                assert_eq!(refusal, 0);
                (answer, record)
            };
            let dropped = held as u64;
            for pointer in [0, size as u16 - 1, 2_046, 2_047] {
                let (answer, _) = enter(6, pointer);
                if rest.len() <= size {
                    assert_eq!(answer, [1, 6, 0, 0, dropped, 3, damage], "{header:02x?} {held}");
                } else if pointer == 2_047 {
                    assert_eq!(answer, [1, 6, 0, 0, 0, 0, 0], "{header:02x?} {held}");
                } else {
                    assert_eq!(answer, [1, 6, 0, 0, dropped, 2, 0], "{header:02x?} {held}");
                }
                assert_eq!(enter(8, pointer).0, [1, 8, 0, 2, dropped, 1, 0]);
                met[answer[6] as usize] += 1;
            }
            // Damage at entering is no step: with no start in the zone it is spent at once.
            if rest.len() <= size {
                let (_, mut record) = enter(6, 2_047);
                let (frame, mut answer) = (frame(6, 2_047, &zone[..size]), [9; STEP]);
                let stepped = Reference.extractor_step(
                    &settings,
                    &mut record,
                    &mut store.clone(),
                    &frame,
                    &mut answer,
                );
                assert_eq!((stepped, answer, record), (0, [4, 0, 0, 0, 0], [1, 6, 0, 0]));
            }
        }
    }
    // Of the zones of 1 to 9 octets those complete the header that have its rest: of 9 with one
    // octet of it, of 8 with two, and so on; each with four pointers.
    let completed = |rests: u32| (0..rests).map(|rest| 4 * (9 - rest)).sum::<u32>();
    let below = 2 * completed(1) + 4 * completed(3) + 8 * completed(7);
    let over = 4 * (completed(1) + completed(3) + completed(7) + completed(5));
    assert_eq!([below, over], [1_800, 1_760]);
    assert_eq!(met, [1_264, 0, 0, below, over]);
}

/// Held octets begin well, so entering meets no wrong first octet: such a record is refused (10).
#[test]
fn first_octets_are_not_held() {
    let settings = [66, 3, 7, 64, 0x55, 0, 0];
    let frame = frame(6, 2_047, &[0xFF; 7]);
    for first in 0x00..=0xFF {
        let mut store = vec![0xFF; 64];
        store[0] = first;
        let (mut record, mut answer) = ([2, 5, 1, 0], [9; ENTERED]);
        let refusal =
            Reference.extractor_enter(&settings, &mut record, &store, &frame, &mut answer);
        match read(64, &[first])[0] {
            // What is behind it makes each length too great.
            1 => assert_eq!((refusal, answer), (0, [1, 6, 0, 0, 1, 3, 4]), "{first:02x}"),
            _ => assert_eq!((refusal, answer), (10, [0; ENTERED]), "{first:02x}"),
        }
    }
}

/// Each damage at each place of a zone. The step after it says spent and names nothing.
#[test]
fn steps() {
    let mut headers = damaged_lengths();
    headers.extend([0x20, 0x33, 0x5F, 0x80, 0xDF].map(|first| (vec![first], 1)));
    headers.extend([0xE4, 0xEC, 0xF8, 0xFC].map(|first| (vec![first], 2)));
    let settings = [66, 3, 12, 64, 0x55, 0, 0];
    let mut met = [0; 5];
    for (header, damage) in headers {
        for at in 0..=12 - header.len() {
            let zone = [vec![0xE0; at], zone_of(12 - at, &header)].concat();
            let mut store = vec![0xA0; 64];
            let start = store.clone();
            for pointer in [0, at] {
                let frame = frame(6, pointer as u16, &zone);
                let (mut record, mut answer) = ([0; 4], [9; ENTERED]);
                let refusal =
                    Reference.extractor_enter(&settings, &mut record, &store, &frame, &mut answer);
                assert_eq!((refusal, answer), (0, [1, 6, 0, 0, 0, 0, 0]));
                let mut step = || {
                    let mut answer = [9; STEP];
                    let refusal = Reference.extractor_step(
                        &settings,
                        &mut record,
                        &mut store,
                        &frame,
                        &mut answer,
                    );
                    assert_eq!(refusal, 0);
                    answer
                };
                for place in pointer..at {
                    assert_eq!(step(), [2, 1, 8 + place as u64, 1, 0]);
                }
                assert_eq!(step(), [3, 0, 0, 0, damage], "{header:02x?} at {at}");
                assert_eq!(step(), [4, 0, 0, 0, 0]);
                assert_eq!((record, &store), ([1, 6, 0, 0], &start));
                met[damage as usize] += 1;
            }
        }
    }
    assert_eq!(met, [0, 120, 96, 196, 256]);
}

/// A step on another frame, whose octets damage the held header.
#[test]
fn a_step_on_another_frame() {
    let settings = [66, 3, 9, 64, 0x55, 0, 0];
    for (header, damage) in damaged_lengths() {
        for held in 1..header.len() {
            let mut store = vec![0xA0; 64];
            store[..held].copy_from_slice(&header[..held]);
            let before = store.clone();
            let frame = frame(0, 0, &zone_of(9, &header[held..]));
            let (mut record, mut answer) = ([3, 6, held as u64, 0], [9; STEP]);
            let refusal =
                Reference.extractor_step(&settings, &mut record, &mut store, &frame, &mut answer);
            assert_eq!((refusal, answer), (0, [3, 0, 0, 0, damage]), "{header:02x?} {held}");
            assert_eq!((record, store), ([4, 6, 0, 0], before));
        }
    }
}

/// The damage is a number of its own, the last: an array that ends before it is too short, and what
/// stands behind it stays.
#[test]
fn arrays() {
    type Made = fn(&mut [u64]) -> u64;
    let settings = [66, 3, 7, 64, 0x55, 0, 0];
    let calls: [(&str, usize, Made); 7] = [
        ("read_header", HEADER, |answer| Reference.read_header(64, &[0x33], answer)),
        ("wrap", WRAPPED, |answer| Reference.wrap(64, 2, 0, &[], &mut [], answer)),
        ("unwrap", UNWRAPPED, |answer| Reference.unwrap(64, &[0x33], answer)),
        ("mux_put", PUT, |answer| {
            let settings = [66, 3, 7, 64, 0x55, 0, 0];
            let mut record = [0, 0, 2_047, 0];
            Reference.mux_put(&settings, &mut record, &[0x33], &mut [0; 15], answer)
        }),
        ("extractor_enter", ENTERED, |answer| {
            let settings = [66, 3, 1, 7, 0x55, 0, 0];
            let frame = frame(6, 0, &[0x08]);
            Reference.extractor_enter(&settings, &mut [2, 5, 1, 0], &[0xE9; 7], &frame, answer)
        }),
        ("extractor_step", STEP, |answer| {
            let settings = [66, 3, 1, 7, 0x55, 0, 0];
            let frame = frame(6, 0, &[0x33]);
            Reference.extractor_step(&settings, &mut [3, 6, 0, 0], &mut [0; 7], &frame, answer)
        }),
        ("relay_route", ROUTED, |answer| {
            Reference.relay_route(64, &[0; RELAY], &[0x33], &mut [], answer)
        }),
    ];
    let damages = [1, 0, 1, 1, 4, 1, 1];
    for ((call, size, made), damage) in calls.into_iter().zip(damages) {
        for shorter in 0..size {
            let mut answer = vec![9; shorter];
            assert_eq!(made(&mut answer), 2, "{call}");
            assert_eq!(answer, vec![9; shorter], "{call}");
        }
        let mut answer = vec![9; size + 2];
        let refusal = made(&mut answer);
        let refused = matches!(call, "wrap" | "unwrap" | "mux_put" | "relay_route");
        assert_eq!(refusal, if refused { 8 } else { 0 }, "{call}");
        assert_eq!(answer[size - 1..], [damage, 9, 9], "{call}");
    }

    // The calls that are lent such an answer ask for all of it, and then do not look at the damage.
    let packet = [0xEA, 0x00, 0x00, 0x07, 0xA1, 0xA2, 0xA3];
    for damage in [0, 1, 4, 5, u64::MAX] {
        let (unwrapped, mut unit) = ([2, 0, 4, 3, damage], [9; UNIT]);
        assert_eq!(Reference.unit_part(&unwrapped[..4], &packet, &mut unit), 2);
        assert_eq!(unit, [9; UNIT]);
        assert_eq!(Reference.unit_part(&unwrapped, &packet, &mut unit), 0);
        assert_eq!(unit, [4, 3]);
        let (step, mut shown) = ([1, 1, 8, 7, damage], [9; SHOWN]);
        let frame = frame(6, 0, &packet);
        assert_eq!(Reference.show(&step[..4], &frame, &[0; 64], &mut shown), 2);
        assert_eq!(shown, [9; SHOWN]);
        assert_eq!(Reference.show(&step, &frame, &[0; 64], &mut shown), 0);
        assert_eq!(shown, [1, 8, 7]);
    }
    // A refused unwrapping and a damaged step have no part.
    let mut unwrapped = [9; UNWRAPPED];
    assert_eq!(Reference.unwrap(64, &[0x33], &mut unwrapped), 8);
    let mut unit = [9; UNIT];
    assert_eq!(Reference.unit_part(&unwrapped, &packet, &mut unit), 0);
    assert_eq!(unit, [0; UNIT]);
    let (frame, mut step) = (frame(6, 0, &[0x33; 7]), [9; STEP]);
    let mut record = [3, 6, 0, 0];
    assert_eq!(
        Reference.extractor_step(&settings, &mut record, &mut [0; 64], &frame, &mut step),
        0
    );
    let mut shown = [9; SHOWN];
    assert_eq!(Reference.show(&step, &frame, &[0; 64], &mut shown), 0);
    assert_eq!(shown, [0; SHOWN]);
}
