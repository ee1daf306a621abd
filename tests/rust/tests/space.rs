//! Space packet headers, worked out from document 01 by hand and read a second way.

use itzahuemo_reference::generate;
use itzahuemo_reference::random::Random;
use itzahuemo_reference::reference::packet::{read_header, Damage, Kind, Look};
use itzahuemo_reference::reference::space::{read, write, Fields};
use itzahuemo_reference::reference::Refusal;

const NONE: Fields =
    Fields { version: 0, packet_type: 0, secondary: 0, apid: 0, flags: 0, count: 0, length: 0 };

/// 48 bits: version 3, type 1, secondary header 1, APID 11, flags 2, count 14,
/// length 16. Each field alone, at its greatest; then the packet of the sample run
/// and one that source 001 prints with every field at its width.
#[test]
fn each_field_at_its_place() {
    for (octets, fields) in [
        ([0x00, 0x00, 0x00, 0x00, 0x00, 0x00], NONE),
        ([0x10, 0x00, 0x00, 0x00, 0x00, 0x00], Fields { packet_type: 1, ..NONE }),
        ([0x08, 0x00, 0x00, 0x00, 0x00, 0x00], Fields { secondary: 1, ..NONE }),
        ([0x07, 0xFF, 0x00, 0x00, 0x00, 0x00], Fields { apid: 2_047, ..NONE }),
        ([0x00, 0x00, 0xC0, 0x00, 0x00, 0x00], Fields { flags: 3, ..NONE }),
        ([0x00, 0x00, 0x3F, 0xFF, 0x00, 0x00], Fields { count: 16_383, ..NONE }),
        ([0x00, 0x00, 0x00, 0x00, 0xFF, 0xFF], Fields { length: 65_535, ..NONE }),
        ([0x00, 0x05, 0xC0, 0x00, 0x00, 0x01], Fields { apid: 5, flags: 3, length: 1, ..NONE }),
        (
            [0x18, 0x02, 0x40, 0x04, 0x00, 0x00],
            Fields { packet_type: 1, secondary: 1, apid: 2, flags: 1, count: 4, ..NONE },
        ),
    ] {
        assert_eq!(read(&octets), Ok(fields));
        let mut out = [0x77; 8];
        assert_eq!(write(&fields, &mut out), Ok(()));
        assert_eq!(out[..6], octets);
        assert_eq!(out[6..], [0x77, 0x77]);
    }
}

/// Every version but 000, and fewer than six octets, are 8, which names no damage
/// here; octets behind the header do not count.
#[test]
fn what_is_not_read() {
    for version in 1..8 {
        assert_eq!(read(&[version << 5, 0, 0, 0, 0, 0]), Err(Refusal::Packet(None)));
    }
    let octets = [0x00, 0x05, 0xC0, 0x00, 0x00, 0x01, 0xAA, 0xBB];
    for size in 0..6 {
        assert_eq!(read(&octets[..size]), Err(Refusal::Packet(None)));
    }
    assert_eq!(read(&octets), read(&octets[..6]));
}

/// A field past its bits is 1, also where there is no room, which is 2. Nothing is
/// written then.
#[test]
fn what_is_not_written() {
    for wrong in [
        Fields { version: 1, ..NONE },
        Fields { version: 7, ..NONE },
        Fields { packet_type: 2, ..NONE },
        Fields { secondary: 2, ..NONE },
        Fields { apid: 2_048, ..NONE },
        Fields { flags: 4, ..NONE },
        Fields { count: 16_384, ..NONE },
    ] {
        let mut out = [0x77; 6];
        assert_eq!(write(&wrong, &mut out), Err(Refusal::Range));
        assert_eq!(write(&wrong, &mut out[..5]), Err(Refusal::Range));
        assert_eq!(write(&NONE, &mut out[..5]), Err(Refusal::Room));
        assert_eq!(out, [0x77; 6]);
    }
}

/// The 48 bits as one number, from which each field is taken by division.
fn by_division(octets: &[u8]) -> Option<[u64; 7]> {
    let word = octets.get(..6)?.iter().fold(0, |word, &octet| word * 256 + u64::from(octet));
    let field = |below: u32, bits: u32| word / 2_u64.pow(below) % 2_u64.pow(bits);
    let fields = [
        field(45, 3),
        field(44, 1),
        field(43, 1),
        field(32, 11),
        field(30, 2),
        field(16, 14),
        field(0, 16),
    ];
    (fields[0] == 0).then(|| fields)
}

/// The same fields by division; written again they are the same octets; and the
/// one header reader says the same APID, idle and total.
#[test]
fn any_octets() {
    let mut random = Random::new(48);
    for _ in 0..20_000 {
        let octets = generate::space_front(&mut random);
        let fields = read(&octets);
        let numbers = fields.ok().map(|fields| {
            let Fields { version, packet_type, secondary, apid, flags, count, length } = fields;
            [
                version.into(),
                packet_type.into(),
                secondary.into(),
                apid.into(),
                flags.into(),
                count.into(),
                length.into(),
            ]
        });
        assert_eq!(numbers, by_division(&octets));
        if let Ok(fields) = fields {
            let mut again = octets.clone();
            again[..6].fill(0);
            assert_eq!(write(&fields, &mut again), Ok(()));
            assert_eq!(again, octets);
            for limit in [7, 65_542, fields.total(), fields.total().max(8) - 1] {
                match read_header(limit, &octets) {
                    Ok(Look::Whole(header)) => {
                        assert_eq!(header.kind, Kind::Space { apid: fields.apid });
                        assert_eq!(header.kind.is_idle(), fields.apid == 2_047);
                        assert_eq!((header.length, header.total), (6, fields.total()));
                        assert!(header.total <= limit);
                    }
                    look => {
                        assert_eq!(look, Ok(Look::Damaged(Damage::OverLimit)));
                        assert!(fields.total() > limit);
                    }
                }
            }
        }
    }
}
