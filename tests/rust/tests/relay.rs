//! Relay tables: the vectors of source 001, and request L1 of document 02 worked out by hand and
//! read a second way.

use std::collections::{BTreeMap, BTreeSet};

use itzahuemo_reference::calls::{Calls, Reference, RELAY, ROUTED};
use itzahuemo_reference::generate;
use itzahuemo_reference::random::Random;
use itzahuemo_reference::reference::packet::Damage;
use itzahuemo_reference::reference::relay::{load, route, Entry, Table};
use itzahuemo_reference::reference::Refusal;

/// The limit of source 001's tests.
const LIMIT: usize = 10;

fn entries(pairs: &[(u64, u64)]) -> Vec<Entry> {
    pairs.iter().map(|&(apid, destination)| Entry { apid, destination }).collect()
}

/// Where a packet goes by the table of these pairs; nowhere is "no path".
fn sent(pairs: &[(u64, u64)], packet: &[u8]) -> Result<Vec<u8>, Refusal> {
    let table = load(&entries(pairs)).expect("pairs that can be loaded");
    let mut out = [0; 32];
    let count = route(LIMIT, &table, packet, &mut out)?;
    Ok(out[..count].to_vec())
}

const NO_PATH: Result<Vec<u8>, Refusal> = Ok(Vec::new());

/// A packet of source 001's tests.
fn packet(apid: u8) -> [u8; 8] {
    [0x00, apid, 0xC0, 0x00, 0x00, 0x01, 0x01, 0x02]
}

/// Source 001, tests 5 and 6: paths without a relay. There the packets come out at the node itself,
/// which this table does not have.
#[test]
fn source_001_no_relay() {
    assert_eq!(sent(&[], &packet(4)), NO_PATH);
    assert_eq!(load(&[]), Ok(Table::EMPTY));
}

/// Source 001, test 8: two paths with a relay each, to the subnetworks 2 and 1.
#[test]
fn source_001_two_paths() {
    let pairs = [(1, 2), (3, 1)];
    assert_eq!(sent(&pairs, &packet(1)), Ok(vec![2]));
    let second = [0x00, 0x03, 0xC0, 0x00, 0x00, 0x01, 0x03, 0x04];
    assert_eq!(sent(&pairs, &second), Ok(vec![1]));
}

/// Source 001, tests 9 and 10: three relays of one path, served in the order in which they were
/// added. The innermost of those printed was the first.
#[test]
fn source_001_three_relays() {
    assert_eq!(sent(&[(5, 5), (5, 0), (5, 1)], &packet(5)), Ok(vec![5, 0, 1]));
    assert_eq!(sent(&[(6, 5), (6, 0), (6, 1)], &packet(6)), Ok(vec![5, 0, 1]));
}

/// What source 001 rejects: another version, another length than the stated one, more than the
/// limit. It rejects APID 2047 too, which has no path here.
#[test]
fn source_001_rejections() {
    let pairs = [(4, 1)];
    assert_eq!(sent(&pairs, &packet(4)), Ok(vec![1]));
    for (rejected, damage) in [
        ([0x20, 0x04, 0xC0, 0x00, 0x00, 0x01, 0x01, 0x02], Some(Damage::Version)),
        ([0x00, 0x04, 0xC0, 0x00, 0x00, 0x00, 0x01, 0x02], None),
        ([0x00, 0x04, 0xC0, 0x00, 0x00, 0x05, 0x01, 0x02], Some(Damage::OverLimit)),
    ] {
        assert_eq!(sent(&pairs, &rejected), Err(Refusal::Packet(damage)));
    }
    let idle = [0x07, 0xFF, 0xC0, 0x00, 0x00, 0x01, 0x01, 0x02];
    assert_eq!(sent(&pairs, &idle), NO_PATH);
}

/// So many entries, no two the same.
fn many(count: u64) -> Vec<(u64, u64)> {
    (0..count).map(|place| (place / 2, place % 2)).collect()
}

#[test]
fn what_is_loaded() {
    for pairs in [
        vec![(0, 0)],
        vec![(2_046, 255)],
        vec![(5, 9), (5, 7), (6, 9), (5, 8)],
        many(32),
        // Reserved by CCSDS, and ordinary here.
        (2_032..=2_046).map(|apid| (apid, 1)).collect(),
    ] {
        let entries = entries(&pairs);
        assert_eq!(load(&entries), Ok(Table { entries }));
    }
}

/// A destination past 255 is 1, in whichever entry and whatever else is wrong; the rest is 12.
#[test]
fn what_is_not_loaded() {
    for pairs in [
        many(33),
        vec![(2_047, 0)],
        vec![(5, 7), (2_048, 0)],
        vec![(65_536 + 5, 7)],
        vec![(u64::MAX, 0)],
        vec![(5, 7), (5, 7)],
        vec![(5, 7), (6, 7), (5, 8), (5, 7)],
    ] {
        assert_eq!(load(&entries(&pairs)), Err(Refusal::Table), "{pairs:?}");
        for destination in [256, 1 << 32, u64::MAX] {
            let mut wrong = pairs.clone();
            wrong.push((1, destination));
            assert_eq!(load(&entries(&wrong)), Err(Refusal::Range), "{wrong:?}");
        }
    }
    for pairs in [vec![(5, 256)], vec![(2_047, 256)], vec![(5, 256), (5, 256)]] {
        assert_eq!(load(&entries(&pairs)), Err(Refusal::Range), "{pairs:?}");
    }
}

/// Only the APID counts: type, flags and sequence count are free, and so are its neighbours.
#[test]
fn which_packets_have_a_path() {
    let pairs = [(5, 7), (0x105, 8), (6, 9), (5, 3), (2_046, 4), (0, 255)];
    for (packet, destinations) in [
        ([0x00, 0x05, 0xC0, 0x00, 0x00, 0x00, 0x01], vec![7, 3]),
        ([0x18, 0x05, 0x40, 0x04, 0x00, 0x00, 0x01], vec![7, 3]),
        ([0x01, 0x05, 0x00, 0x00, 0x00, 0x00, 0x01], vec![8]),
        ([0x07, 0xFE, 0xFF, 0xFF, 0x00, 0x00, 0x01], vec![4]),
        ([0x00, 0x00, 0x00, 0x00, 0x00, 0x00, 0x00], vec![255]),
        ([0x00, 0x04, 0xC0, 0x00, 0x00, 0x00, 0x01], vec![]),
        ([0x02, 0x05, 0xC0, 0x00, 0x00, 0x00, 0x01], vec![]),
        ([0x07, 0xFF, 0xC0, 0x00, 0x00, 0x00, 0x01], vec![]),
        ([0x1F, 0xFF, 0xC0, 0x00, 0x00, 0x00, 0x01], vec![]),
    ] {
        assert_eq!(sent(&pairs, &packet), Ok(destinations), "{packet:02x?}");
    }
}

/// An encapsulation packet has no path, idle or not, but a malformed one is refused.
#[test]
fn encapsulation_packets() {
    let pairs = [(0, 1), (2, 3), (5, 7)];
    for packet in [
        &[0xE0][..],
        &[0xE1, 0x02],
        &[0xE9, 0x02],
        &[0xE9, 0x03, 0x05],
        &[0xEA, 0x01, 0x00, 0x05, 0x05],
        &[0xEB, 0x00, 0x01, 0x02, 0x00, 0x00, 0x00, 0x08],
    ] {
        assert_eq!(sent(&pairs, packet), NO_PATH, "{packet:02x?}");
    }
    for (packet, damage) in [
        (&[][..], None),
        (&[0xEC], Some(Damage::NotIdle)),
        (&[0xE0, 0x00], None),
        (&[0xE9], None),
        (&[0xE9, 0x01], Some(Damage::BelowHeader)),
        (&[0xE9, 0x03], None),
        (&[0xE9, 0x02, 0x00], None),
        (&[0xEA, 0x00, 0x00, 0x03], Some(Damage::BelowHeader)),
        (&[0xE9, 0x0B, 1, 2, 3, 4, 5, 6, 7, 8, 9], Some(Damage::OverLimit)),
        (&[0x00, 0x05, 0xC0, 0x00, 0x00], None),
        (&[0x00, 0x05, 0xC0, 0x00, 0x00, 0x00], None),
        (&[0xC0, 0x05, 0xC0, 0x00, 0x00, 0x00, 0x01], Some(Damage::Version)),
    ] {
        assert_eq!(sent(&pairs, packet), Err(Refusal::Packet(damage)), "{packet:02x?}");
    }
}

/// Only the packet's own destinations need room; what lies behind them stays, and too little room
/// takes nothing.
#[test]
fn room_for_the_destinations() {
    let table = load(&entries(&[(5, 7), (6, 1), (5, 9)])).unwrap();
    for size in 0..4 {
        let mut out = [0x77; 4];
        let routed = route(LIMIT, &table, &packet(5), &mut out[..size]);
        if size < 2 {
            assert_eq!((routed, out), (Err(Refusal::Room), [0x77; 4]));
        } else {
            assert_eq!((routed, out), (Ok(2), [7, 9, 0x77, 0x77]));
        }
    }
    assert_eq!(route(LIMIT, &table, &packet(4), &mut []), Ok(0));
    assert_eq!(route(LIMIT, &table, &[0xE0], &mut []), Ok(0));
}

#[test]
fn limits() {
    let wrong = Table { entries: entries(&many(33)) };
    for limit in [0, 6, 65_543, usize::MAX] {
        assert_eq!(route(limit, &wrong, &[], &mut []), Err(Refusal::Range));
    }
    let table = load(&entries(&[(5, 7)])).unwrap();
    let mut longest = vec![0; 65_542];
    longest[..6].copy_from_slice(&[0x00, 0x05, 0xC0, 0x00, 0xFF, 0xFF]);
    assert_eq!(route(65_542, &table, &longest, &mut [0]), Ok(1));
    let over = Refusal::Packet(Some(Damage::OverLimit));
    assert_eq!(route(65_541, &table, &longest, &mut [0]), Err(over));
    assert_eq!(route(7, &table, &[0, 5, 0, 0, 0, 0, 1], &mut [0]), Ok(1));
    assert_eq!(route(7, &table, &packet(5), &mut [0]), Err(over));
}

/// A table as numbers, with two behind it.
fn loaded(list: &[u64]) -> [u64; RELAY + 2] {
    let mut table = [9; RELAY + 2];
    assert_eq!(Reference.relay_load(list, &mut table), 0);
    assert_eq!(table[RELAY..], [9; 2]);
    table
}

/// The count, the entries in order, and zeros; nothing of what was there before.
#[test]
fn a_load_replaces_the_whole_table() {
    let mut table = loaded(&[5, 7, 6, 8, 5, 9]);
    assert_eq!(table[..7], [3, 5, 7, 6, 8, 5, 9]);
    assert_eq!(table[7..RELAY], [0; 58]);
    for (list, refusal) in [
        (vec![5, 256], 1),
        (vec![2_047, 0], 12),
        (vec![5, 7, 5, 7], 12),
        (vec![5], 2),
        (vec![5, 7, 6], 2),
    ] {
        let before = table;
        assert_eq!(Reference.relay_load(&list, &mut table), refusal);
        assert_eq!(table, before);
    }
    assert_eq!(Reference.relay_load(&[4, 1], &mut table), 0);
    assert_eq!(table[..3], [1, 4, 1]);
    assert_eq!(table[3..RELAY], [0; 62]);
    assert_eq!(Reference.relay_load(&[], &mut table), 0);
    assert_eq!(table[..RELAY], [0; RELAY]);
    assert_eq!(table[RELAY..], [9; 2]);
}

#[test]
fn short_arrays() {
    let mut table = [9; RELAY];
    assert_eq!(Reference.relay_load(&[5, 256], &mut table[1..]), 2);
    assert_eq!(Reference.relay_load(&[5, 256, 5], &mut table), 2);
    assert_eq!(table, [9; RELAY]);
    let (mut out, mut answer) = ([0x77; 2], [9; ROUTED]);
    assert_eq!(Reference.relay_route(6, &table[1..], &[], &mut out, &mut answer), 2);
    assert_eq!(Reference.relay_route(6, &table, &[], &mut out, &mut answer[1..]), 2);
    assert_eq!((out, answer), ([0x77; 2], [9; ROUTED]));
    assert_eq!(Reference.relay_route(6, &table, &[], &mut out, &mut answer), 1);
    assert_eq!((out, answer), ([0x77; 2], [0; ROUTED]));
}

/// One number of a loaded table changed: what the call then answers, and how many destinations
/// APID 5 has.
#[test]
fn tables_changed_by_hand() {
    let table = loaded(&[5, 7, 5, 9, 2_046, 255]);
    let routed = |place: usize, number| {
        let (mut table, mut out, mut answer) = (table, [0x77; 4], [9; ROUTED]);
        table[place] = number;
        let refusal = Reference.relay_route(10, &table, &packet(5), &mut out, &mut answer);
        if refusal != 0 {
            assert_eq!((out, answer), ([0x77; 4], [0; ROUTED]));
        }
        (refusal, answer[1])
    };
    for (place, number) in [
        (0, 0),
        (0, 2),
        (0, 33),
        (0, (1 << 32) + 3),
        (0, u64::MAX),
        (1, 2_047),
        (1, 2_048 + 5),
        (1, u64::MAX),
        (4, 256),
        (4, 256 + 9),
        // The second entry becomes the first.
        (4, 7),
        // Past the entries.
        (7, 1),
        (8, 1),
        (63, 5),
        (64, u64::MAX),
    ] {
        assert_eq!(routed(place, number), (10, 0), "{number} at {place}");
    }
    // One entry more, of zeros, makes a table; so do another APID and another destination.
    for (place, number, count) in [(0, 4, 2), (3, 6, 1), (5, 5, 3), (4, 8, 2), (RELAY, 0, 2)] {
        assert_eq!(routed(place, number), (0, count), "{number} at {place}");
    }
}

/// The pairs of a list that can be loaded, or the refusal.
fn pairs_of(list: &[u64]) -> Result<Vec<(u64, u64)>, u64> {
    if list.len() % 2 == 1 {
        return Err(2);
    }
    let pairs: Vec<(u64, u64)> = list.chunks(2).map(|pair| (pair[0], pair[1])).collect();
    if pairs.iter().any(|pair| pair.1 / 256 > 0) {
        return Err(1);
    }
    let distinct: BTreeSet<_> = pairs.iter().collect();
    if distinct.len() < pairs.len() || pairs.len() > 32 || pairs.iter().any(|pair| pair.0 > 2_046) {
        return Err(12);
    }
    Ok(pairs)
}

/// The APID of a space packet that is not idle; nothing for another packet; the damage of what is
/// none, or 0. A header that is cut states no length, and one that states less than itself none
/// that is lent.
fn apid_of(limit: usize, packet: &[u8]) -> Result<Option<u64>, u64> {
    let number = |first: usize, last: usize| {
        let octets = packet.get(first..=last)?;
        Some(octets.iter().fold(0, |number, &octet| number * 256 + usize::from(octet)))
    };
    let (header, total) = match packet.first() {
        None => return Err(0),
        Some(0x00..=0x1F) => (6, number(4, 5).map(|field| field + 7)),
        Some(0xE0) => (1, Some(1)),
        Some(first @ 0xE0..=0xFF) => match first % 4 {
            1 => (2, number(1, 1)),
            2 => (4, number(2, 3)),
            3 => (8, number(4, 7)),
            _ => return Err(2),
        },
        Some(_) => return Err(1),
    };
    match total {
        Some(total) if total < header => return Err(3),
        Some(total) if total > limit => return Err(4),
        Some(total) if total == packet.len() => {}
        _ => return Err(0),
    }
    let name = number(0, 1).filter(|_| packet[0] < 0x20).map(|name| name as u64 % 2_048);
    Ok(name.filter(|&apid| apid != 2_047))
}

/// The destinations of each APID.
type Paths = BTreeMap<u64, Vec<u8>>;

/// The octets that are lent for destinations, some or all of these.
const LENT: [u8; 33] = [0x77; 33];

/// What is said of a packet where so many octets are lent, and what they are then.
fn said_of(
    limit: usize,
    paths: &Paths,
    packet: &[u8],
    size: usize,
) -> (u64, [u64; ROUTED], [u8; 33]) {
    let path = match apid_of(limit, packet) {
        Ok(apid) => apid.and_then(|apid| paths.get(&apid)),
        Err(damage) => return (8, [0, 0, damage], LENT),
    };
    let mut out = LENT;
    match path {
        None => (0, [1, 0, 0], out),
        Some(path) if path.len() > size => (2, [0; ROUTED], out),
        Some(path) => {
            out[..path.len()].copy_from_slice(path);
            (0, [2, path.len() as u64, 0], out)
        }
    }
}

#[test]
fn any_table_and_packet() {
    let mut met = BTreeMap::new();
    for seed in 0..4_000 {
        let mut random = Random::new(0x7AB1_E000 + seed);
        let list = generate::relay_list(&mut random);
        let mut table = [0; RELAY];
        let refusal = Reference.relay_load(&list, &mut table);
        *met.entry(("load", refusal, 0)).or_insert(0) += 1;
        let pairs = match pairs_of(&list) {
            Ok(pairs) => pairs,
            Err(number) => {
                assert_eq!((refusal, table), (number, [0; RELAY]), "{list:?}");
                continue;
            }
        };
        assert_eq!(refusal, 0, "{list:?}");
        let mut paths = Paths::new();
        for (apid, destination) in pairs {
            paths.entry(apid).or_default().push(destination as u8);
        }
        for _ in 0..10 {
            let limit = random.pick(&[7, 8, 20, 65_542]);
            let packet = generate::relay_packet(&mut random, &table, limit);
            let size = random.pick(&[0, 1, 2, 32, 33]);
            let (mut out, mut answer) = (LENT, [9; ROUTED]);
            let lent = &mut out[..size];
            let refusal = Reference.relay_route(limit as u64, &table, &packet, lent, &mut answer);
            let expected = said_of(limit, &paths, &packet, size);
            assert_eq!((refusal, answer, out), expected, "{list:?} {packet:02x?}");
            *met.entry(("route", refusal, answer[0] + answer[2])).or_insert(0) += 1;
        }
    }
    for key in [
        ("load", 0, 0),
        ("load", 1, 0),
        ("load", 2, 0),
        ("load", 12, 0),
        ("route", 0, 1),
        ("route", 0, 2),
        // A refused packet has no outcome, so this is its damage.
        ("route", 8, 0),
        ("route", 8, 1),
        ("route", 8, 2),
        ("route", 8, 3),
        ("route", 8, 4),
        ("route", 2, 0),
    ] {
        assert!(met.get(&key).map_or(false, |&times| times > 100), "{key:?} of {met:?}");
    }
}
