//! Outputs worked out from document 01 by hand, with the way there.

use std::fs;
use std::path::PathBuf;

fn expect(name: &str, lines: &[impl AsRef<str>]) {
    let file = PathBuf::from(env!("CARGO_MANIFEST_DIR")).join(format!("../runs/{name}.out"));
    let output = fs::read_to_string(file).expect(name);
    let lines: Vec<&str> = lines.iter().map(AsRef::as_ref).collect();
    assert_eq!(output.lines().collect::<Vec<_>>(), lines, "{name}");
    assert!(output.ends_with('\n'));
}

/// A gap of one drops the two octets held of the five-octet packet; the pointer
/// starts the walk at the idle packet.
#[test]
fn sample_03() {
    expect(
        "sample-03-count-2",
        &[
            "setup 66 3 zone 10 limit 1024",
            "frame 0 lost 0 dropped 0 reason 0",
            "space 5 8",
            "frame 2 lost 1 dropped 2 reason 1",
            "idle 7",
            "fault 1",
        ],
    );
}

/// The agreed pointer is 5 - 2 = 3. At 2 stands 33, version 001.
#[test]
fn sample_04() {
    expect(
        "sample-04-pointer-2",
        &[
            "setup 66 3 zone 10 limit 1024",
            "frame 0 lost 0 dropped 0 reason 0",
            "space 5 8",
            "frame 1 lost 0 dropped 2 reason 2",
            "damaged 1",
            "fault 1",
        ],
    );
}

/// Z=11 and eight packets of 14 octets. Packets start at 0, 14, 28, ..., zones at
/// 0, 11, 22, ... The fifth frame, of count 0, carried octets 44 to 54 and is gone.
/// Packet 4 began at 42: its two octets are dropped and no more is heard of it.
/// The next frame begins at 55, so packet 5, at 56, is found by its pointer 1.
/// The last octet of packet 8 is 111; the flush fills 112 to 120.
#[test]
fn one_frame_vanished() {
    expect(
        "count-one-frame-vanished",
        &[
            "setup 66 3 zone 11 limit 64",
            "frame 16777212 lost 0 dropped 0 reason 0",
            "frame 16777213 lost 0 dropped 0 reason 0",
            "space 1 14",
            "frame 16777214 lost 0 dropped 0 reason 0",
            "space 2 14",
            "frame 16777215 lost 0 dropped 0 reason 0",
            "space 3 14",
            "frame 1 lost 1 dropped 2 reason 1",
            "frame 2 lost 0 dropped 0 reason 0",
            "space 5 14",
            "frame 3 lost 0 dropped 0 reason 0",
            "space 6 14",
            "frame 4 lost 0 dropped 0 reason 0",
            "space 7 14",
            "frame 5 lost 0 dropped 0 reason 0",
            "frame 6 lost 0 dropped 0 reason 0",
            "space 8 14",
            "idle 9",
            "fault 4",
        ],
    );
}

/// A fresh extractor waits for a start: 2,047 has none. The second frame comes
/// after a gap, so it has reason 1 though nothing was held. The third starts at 4.
/// The judge begins in step and does not agree with the first pointer.
#[test]
fn gap_out_of_step() {
    expect(
        "reason-1-out-of-step",
        &[
            "setup 66 3 zone 6 limit 64",
            "frame 0 lost 0 dropped 0 reason 0",
            "frame 2 lost 1 dropped 0 reason 1",
            "frame 3 lost 0 dropped 0 reason 0",
            "idle 1",
            "idle 1",
            "fault 0",
        ],
    );
}

/// Seven octets of an eight-octet header are no damage yet, though no such packet
/// is within seven octets. The eighth octet makes the length 7, below the header.
#[test]
fn limit_seven() {
    expect(
        "limit-7-eight-octet-header",
        &[
            "setup 66 3 zone 7 limit 7",
            "frame 0 lost 0 dropped 0 reason 0",
            "frame 1 lost 0 dropped 7 reason 3",
            "frame 2 lost 0 dropped 0 reason 0",
            "idle 1",
            "idle 1",
            "idle 1",
            "idle 1",
            "idle 1",
            "idle 1",
            "idle 1",
            "fault 1",
        ],
    );
}

/// Held are 00 05 C0 00. With the idle zone's FF FF the packet would have 65,542
/// octets, which is damage, and is looked at before the pointer. 2,046 then puts
/// the extractor in step, so that pointer 0 agrees.
#[test]
fn idle_zone_completes_a_damaged_header() {
    expect(
        "idle-zone-completes-a-damaged-header",
        &[
            "setup 66 3 zone 6 limit 1024",
            "frame 0 lost 0 dropped 0 reason 0",
            "idle 1",
            "idle 1",
            "frame 1 lost 0 dropped 4 reason 3",
            "frame 2 lost 0 dropped 0 reason 0",
            "idle 1",
            "idle 1",
            "idle 1",
            "idle 1",
            "idle 1",
            "idle 1",
            "fault 1",
        ],
    );
}

/// Six of eight octets are held, the pointer must be 2, and 2,046 is not 2. In
/// step with nothing held the next pointer must be 0, and 2 is not; the walk
/// starts there all the same and finds E1 04.
#[test]
fn idle_zone_inside_a_packet() {
    expect(
        "idle-zone-inside-a-packet",
        &[
            "setup 66 3 zone 6 limit 64",
            "frame 0 lost 0 dropped 0 reason 0",
            "frame 1 lost 0 dropped 6 reason 2",
            "frame 2 lost 0 dropped 0 reason 2",
            "idle 4",
            "fault 1",
        ],
    );
}

/// EB 00 | 00 00 | 00 00 | 00 08: protocol 2, eight octets, whole with the fourth
/// zone. It ends on that zone's end, so the pointer is 2,047 there and 0 after.
#[test]
fn header_over_four_zones() {
    expect(
        "reason-0-header-not-whole-after-two-zones",
        &[
            "setup 66 3 zone 2 limit 64",
            "frame 0 lost 0 dropped 0 reason 0",
            "frame 1 lost 0 dropped 0 reason 0",
            "frame 2 lost 0 dropped 0 reason 0",
            "frame 3 lost 0 dropped 0 reason 0",
            "encap 2 8",
            "frame 4 lost 0 dropped 0 reason 0",
            "idle 1",
            "idle 1",
            "pass",
        ],
    );
}

/// Each frame has one fault more than the one before it, and the first in the
/// order 4, 5, 6, 7 is told.
#[test]
fn refusals_in_order() {
    expect(
        "refused-the-first-in-order",
        &[
            "setup 66 3 zone 6 limit 64",
            "refused 7",
            "refused 6",
            "refused 5",
            "refused 4",
            "fault 0",
        ],
    );
}

/// The extractor takes no notice of a refused frame: count 1 follows 0, and the
/// packet of eight octets goes on. The judge does take notice.
#[test]
fn refused_frame_inside_a_packet() {
    expect(
        "refused-frame-inside-a-packet",
        &[
            "setup 66 3 zone 6 limit 64",
            "frame 0 lost 0 dropped 0 reason 0",
            "refused 5",
            "frame 1 lost 0 dropped 0 reason 0",
            "encap 2 8",
            "idle 4",
            "fault 1",
        ],
    );
}

/// Six octets of fourteen are held when the run ends after two frames.
#[test]
fn ends_inside_a_packet() {
    expect(
        "verdict-fault-at-the-end-inside-a-packet",
        &[
            "setup 66 3 zone 6 limit 64",
            "frame 0 lost 0 dropped 0 reason 0",
            "encap 2 6",
            "frame 1 lost 0 dropped 0 reason 0",
            "fault 2",
        ],
    );
}

/// Record 0 is the setup, 1 the frame, 2 the end, 3 the octet that may not be there.
#[test]
fn octet_after_the_end() {
    expect(
        "bad-octet-after-the-end",
        &[
            "setup 66 3 zone 6 limit 64",
            "frame 0 lost 0 dropped 0 reason 0",
            "encap 2 6",
            "bad record 3",
        ],
    );
}

/// The second frame is record 2 and is cut; the first one's lines stay.
#[test]
fn cut_frame() {
    expect(
        "bad-frame-cut-after-8",
        &[
            "setup 66 3 zone 6 limit 64",
            "frame 0 lost 0 dropped 0 reason 0",
            "encap 2 6",
            "bad record 2",
        ],
    );
}

/// Damage gives up the rest of the zone; here it is the version, 001. 2,047 has nothing for an
/// extractor out of step; at 3 an idle packet of two octets starts, whose second octet comes next.
#[test]
fn damage_until_a_start() {
    expect(
        "damage-then-out-of-step-until-a-start",
        &[
            "setup 66 3 zone 4 limit 64",
            "frame 0 lost 0 dropped 0 reason 0",
            "idle 1",
            "damaged 1",
            "frame 1 lost 0 dropped 0 reason 0",
            "frame 2 lost 0 dropped 0 reason 0",
            "frame 3 lost 0 dropped 0 reason 0",
            "idle 2",
            "idle 1",
            "idle 1",
            "idle 1",
            "fault 0",
        ],
    );
}

/// FF begins an eight-octet header. After 3 and 4 more octets it is still cut, and
/// 2,047 agrees; the eighth octet makes the length E0E0E0A0. The pointer 3 then
/// starts anew at E1.
#[test]
fn long_header_comes_out_damaged() {
    expect(
        "reason-3-eight-octet-header-over-three-zones",
        &[
            "setup 66 3 zone 4 limit 64",
            "frame 0 lost 0 dropped 0 reason 0",
            "idle 1",
            "frame 1 lost 0 dropped 0 reason 0",
            "frame 2 lost 0 dropped 7 reason 3",
            "frame 3 lost 0 dropped 0 reason 0",
            "idle 2",
            "idle 1",
            "idle 1",
            "idle 1",
            "fault 2",
        ],
    );
}

/// The length field 0005 becomes 4005 in the second packet of the zone: 16,396
/// octets. Octets 20 to 25 belong to the third packet, 26 on to the fourth, whose
/// last six octets are in the third frame; the flush fills the other fourteen.
#[test]
fn damaged_length() {
    expect(
        "damage-space-header-octet-4",
        &[
            "setup 66 3 zone 20 limit 100",
            "frame 0 lost 0 dropped 0 reason 0",
            "space 4 7",
            "damaged 4",
            "frame 1 lost 0 dropped 0 reason 0",
            "frame 2 lost 0 dropped 0 reason 0",
            "space 7 20",
            "idle 14",
            "fault 0",
        ],
    );
}

/// Each damage at each place of a zone of 12 octets, first with the idle packets before it and then
/// started at: its name, its number, and the octets of the header that it is in.
#[test]
fn damage_at_each_place() {
    for (name, number, header) in [
        ("1-version", 1, 1),
        ("2-one-octet-packet", 2, 1),
        ("3-two-octet-header", 3, 2),
        ("3-four-octet-header", 3, 4),
        ("3-eight-octet-header", 3, 8),
        ("4-two-octet-header", 4, 2),
        ("4-four-octet-header", 4, 4),
        ("4-space-header", 4, 6),
        ("4-eight-octet-header", 4, 8),
    ] {
        let mut lines = vec!["setup 66 3 zone 12 limit 64".to_string()];
        for at in 0..=12 - header {
            lines.push(format!("frame {} lost 0 dropped 0 reason 0", 2 * at));
            lines.extend(vec!["idle 1".to_string(); at]);
            lines.push(format!("damaged {number}"));
            lines.push(format!("frame {} lost 0 dropped 0 reason 0", 2 * at + 1));
            lines.push(format!("damaged {number}"));
        }
        lines.push("fault 0".to_string());
        expect(&format!("damage-{name}-at-each-place"), &lines);
    }
}

/// A header cut after each of its octets by the end of a zone of 12 octets; it comes out damaged,
/// and the pointer starts anew behind it.
#[test]
fn damage_cut_after_each_octet() {
    for (name, header) in [
        ("3-two-octet-header", 2),
        ("3-four-octet-header", 4),
        ("3-eight-octet-header", 8),
        ("4-two-octet-header", 2),
        ("4-four-octet-header", 4),
        ("4-space-header", 6),
        ("4-eight-octet-header", 8),
    ] {
        let mut lines = vec!["setup 66 3 zone 12 limit 64".to_string()];
        for held in 1..header {
            lines.push(format!("frame {} lost 0 dropped 0 reason 0", 2 * held - 2));
            lines.extend(vec!["idle 1".to_string(); 12 - held]);
            lines.push(format!("frame {} lost 0 dropped {held} reason 3", 2 * held - 1));
            lines.extend(vec!["idle 1".to_string(); 12 - (header - held)]);
        }
        lines.push("fault 1".to_string());
        expect(&format!("damage-{name}-cut-after-each-octet"), &lines);
    }
}

/// 33; EC; E9 01; EA 00 00 03 and EB 00 00 00 00 00 00 07 in zones of two octets; and then 8, one
/// past the limit, in headers of 2, 4, 6 and 8 octets. What has its length in its first zone is a
/// damaged step. Behind the others no packet starts, so that the next pointer 0 finds the extractor
/// out of step.
#[test]
fn each_damage_in_zones_of_two() {
    expect(
        "damage-of-each-kind-zone-2-limit-7",
        &[
            "setup 66 3 zone 2 limit 7",
            "frame 0 lost 0 dropped 0 reason 0",
            "damaged 1",
            "frame 1 lost 0 dropped 0 reason 0",
            "damaged 2",
            "frame 2 lost 0 dropped 0 reason 0",
            "damaged 3",
            "frame 3 lost 0 dropped 0 reason 0",
            "frame 4 lost 0 dropped 2 reason 3",
            "frame 5 lost 0 dropped 0 reason 0",
            "frame 6 lost 0 dropped 0 reason 0",
            "frame 7 lost 0 dropped 0 reason 0",
            "frame 8 lost 0 dropped 6 reason 3",
            "frame 9 lost 0 dropped 0 reason 0",
            "damaged 4",
            "frame 10 lost 0 dropped 0 reason 0",
            "frame 11 lost 0 dropped 2 reason 3",
            "frame 12 lost 0 dropped 0 reason 0",
            "frame 13 lost 0 dropped 0 reason 0",
            "frame 14 lost 0 dropped 4 reason 3",
            "frame 15 lost 0 dropped 0 reason 0",
            "frame 16 lost 0 dropped 0 reason 0",
            "frame 17 lost 0 dropped 0 reason 0",
            "frame 18 lost 0 dropped 6 reason 3",
            "fault 0",
        ],
    );
}

/// Lengths of 0, one below the header, the header, 254, 255, 256 and the greatest that there is, as
/// far as the header can state them: the one of two octets never is over 255, and a space packet
/// never below its header. Packets of 254 and 255 octets are no damage; their ten octets are held,
/// and then dropped for the pointer 0.
#[test]
fn lengths_round_a_limit_of_255() {
    expect(
        "damage-of-lengths-limit-255",
        &[
            "setup 66 3 zone 10 limit 255",
            "frame 0 lost 0 dropped 0 reason 0",
            "damaged 3",
            "frame 1 lost 0 dropped 0 reason 0",
            "damaged 3",
            "frame 2 lost 0 dropped 0 reason 0",
            "encap 2 2",
            "idle 1",
            "idle 1",
            "idle 1",
            "idle 1",
            "idle 1",
            "idle 1",
            "idle 1",
            "idle 1",
            "frame 3 lost 0 dropped 0 reason 0",
            "frame 4 lost 0 dropped 10 reason 2",
            "frame 5 lost 0 dropped 10 reason 2",
            "frame 6 lost 0 dropped 10 reason 2",
            "damaged 3",
            "frame 7 lost 0 dropped 0 reason 0",
            "damaged 3",
            "frame 8 lost 0 dropped 0 reason 0",
            "encap 2 4",
            "idle 1",
            "idle 1",
            "idle 1",
            "idle 1",
            "idle 1",
            "idle 1",
            "frame 9 lost 0 dropped 0 reason 0",
            "frame 10 lost 0 dropped 10 reason 2",
            "frame 11 lost 0 dropped 10 reason 2",
            "damaged 4",
            "frame 12 lost 0 dropped 0 reason 0",
            "damaged 4",
            "frame 13 lost 0 dropped 0 reason 0",
            "frame 14 lost 0 dropped 10 reason 2",
            "frame 15 lost 0 dropped 10 reason 2",
            "damaged 4",
            "frame 16 lost 0 dropped 0 reason 0",
            "damaged 4",
            "frame 17 lost 0 dropped 0 reason 0",
            "damaged 3",
            "frame 18 lost 0 dropped 0 reason 0",
            "damaged 3",
            "frame 19 lost 0 dropped 0 reason 0",
            "encap 2 8",
            "idle 1",
            "idle 1",
            "frame 20 lost 0 dropped 0 reason 0",
            "frame 21 lost 0 dropped 10 reason 2",
            "frame 22 lost 0 dropped 10 reason 2",
            "damaged 4",
            "frame 23 lost 0 dropped 0 reason 0",
            "damaged 4",
            "fault 0",
        ],
    );
}

/// Zones of one octet with each value, and pointer 0. One that begins a longer header is held. The
/// octet behind it, the next value, is then the length of a header of two octets, which is over the
/// limit of seven; any other header is still cut, and the pointer should be 2,047.
#[test]
fn every_first_octet() {
    let mut lines = vec!["setup 66 3 zone 1 limit 7".to_string()];
    let mut held = None;
    for first in 0x00..=0xFF {
        let (dropped, reason) = match held {
            None => (0, 0),
            Some(before) if before >= 0xE0 && before % 4 == 1 => (1, 3),
            Some(_) => (1, 2),
        };
        lines.push(format!("frame {first} lost 0 dropped {dropped} reason {reason}"));
        held = None;
        match first {
            0x20..=0xDF => lines.push("damaged 1".to_string()),
            0xE0 => lines.push("idle 1".to_string()),
            0xE4 | 0xE8 | 0xEC | 0xF0 | 0xF4 | 0xF8 | 0xFC => lines.push("damaged 2".to_string()),
            _ => held = Some(first),
        }
    }
    lines.push("fault 1".to_string());
    expect("damage-every-first-octet", &lines);
}

/// The low length octet 05 becomes 45: 69 + 7 = 76 octets, of which 13 are in the
/// zone. The next pointer, 6, is not where that packet would end.
#[test]
fn length_made_greater() {
    expect(
        "damage-space-header-octet-5",
        &[
            "setup 66 3 zone 20 limit 100",
            "frame 0 lost 0 dropped 0 reason 0",
            "space 4 7",
            "frame 1 lost 0 dropped 13 reason 2",
            "frame 2 lost 0 dropped 0 reason 0",
            "space 7 20",
            "idle 14",
            "fault 1",
        ],
    );
}

/// One frame of each channel bit, none of them channel 3 of spacecraft 66.
#[test]
fn other_channels() {
    let mut lines = vec!["setup 66 3 zone 6 limit 64"];
    lines.extend(["refused 5"; 6]);
    lines.push("fault 0");
    expect("refused-5-another-channel", &lines);
}
