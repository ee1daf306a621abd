//! Impostors that name damage wrongly in one way. The sessions see through each of them, in the
//! call in which it is one.

mod impostor;

use std::cmp::Ordering;

use impostor::{by_reference, first_seen, Way};
use itzahuemo_reference::calls::{ENTERED, HEADER, PUT, ROUTED, STEP, UNWRAPPED, WRAPPED};
use itzahuemo_reference::orders::Arguments;
use itzahuemo_reference::reference::frame::HEAD;
use itzahuemo_reference::reference::packet::{read_header, Damage, Look};

/// The calls that name damage, each with the least that it can name: held octets begin well, so
/// that entering never meets a wrong first octet.
const NAMING: [(&str, u64); 6] = [
    ("read_header", 1),
    ("unwrap", 1),
    ("mux_put", 1),
    ("extractor_enter", 3),
    ("extractor_step", 1),
    ("relay_route", 1),
];

/// Those that are lent a packet, and name its damage with refusal 8.
const OF_PACKETS: [&str; 3] = ["unwrap", "mux_put", "relay_route"];

/// Those that are lent a header or a packet, with a limit and no settings.
const OF_LIMITS: [&str; 3] = ["read_header", "unwrap", "relay_route"];

/// Where the damage stands in the answer of a call.
fn place_of_damage(call: &str) -> usize {
    let numbers = match call {
        "read_header" => HEADER,
        "wrap" => WRAPPED,
        "unwrap" => UNWRAPPED,
        "mux_put" => PUT,
        "extractor_enter" => ENTERED,
        "extractor_step" => STEP,
        "relay_route" => ROUTED,
        _ => panic!("{call} has no damage to name"),
    };
    numbers - 1
}

/// Each of these calls, made so, is seen to be wrong.
fn seen(what: &str, calls: &[&str], way: Way) {
    for call in calls {
        assert_eq!(first_seen(call, way), *call, "{what}");
    }
}

/// Makes a call. If it has an answer, the damage in it is what the way makes of the refusal, of
/// that damage and of all that was lent.
fn named_as(call: &str, all: &mut Arguments, other: impl Fn(u64, u64, &Arguments) -> u64) -> u64 {
    let lent = all.clone();
    let refusal = by_reference(call, all);
    // Without an answer an entry stays as lent, or is not there.
    if let Some(damage @ 0..=4) = all.answer.get_mut(place_of_damage(call)) {
        *damage = other(refusal, *damage, &lent);
    }
    refusal
}

/// Makes a call. If it has an answer, the damage in it is this one where that holds of the refusal
/// and of all that was lent.
fn named_where(
    call: &str,
    all: &mut Arguments,
    damage: u64,
    holds: impl Fn(u64, &Arguments) -> bool,
) -> u64 {
    named_as(call, all, |refusal, named, lent| if holds(refusal, lent) { damage } else { named })
}

/// Reads a header, and answers that it is damaged so where this holds of what was lent.
fn found_damaged(all: &mut Arguments, damage: u64, holds: impl Fn(&Arguments) -> bool) -> u64 {
    let refusal = by_reference("read_header", all);
    if refusal == 0 && holds(all) {
        all.answer[..HEADER].copy_from_slice(&[2, 0, 0, 0, 0, 0, damage]);
    }
    refusal
}

fn limit(call: &str, lent: &Arguments) -> usize {
    let place = if call == "mux_put" { 3 } else { 0 };
    lent.numbers[place].clamp(7, 65_542) as usize
}

/// What a lent header is, under the limit in range that is nearest to the one that is lent.
fn look(call: &str, lent: &Arguments) -> Look {
    read_header(limit(call, lent), &lent.octets).expect("a limit in range")
}

/// The number of a damage, 0 for a header without.
fn damage_of(look: Look) -> u64 {
    match look {
        Look::Damaged(damage) => damage.number(),
        Look::Cut | Look::Whole(_) => 0,
    }
}

/// What is lent beside what a whole header states.
fn beside_stated(call: &str, lent: &Arguments) -> Option<Ordering> {
    match look(call, lent) {
        Look::Whole(header) => Some(lent.octets.len().cmp(&header.total)),
        Look::Cut | Look::Damaged(_) => None,
    }
}

/// The total that a header states, whatever may be wrong with it.
fn stated(octets: &[u8]) -> Option<usize> {
    let number = |first: usize, last: usize| {
        let field = octets.get(first..=last)?;
        Some(field.iter().fold(0, |number, &octet| number * 256 + usize::from(octet)))
    };
    match octets.first()? {
        0x00..=0x1F => number(4, 5).map(|field| field + 7),
        first @ 0xE0..=0xFF => match first % 4 {
            0 => Some(1),
            1 => number(1, 1),
            2 => number(2, 3),
            _ => number(4, 7),
        },
        _ => None,
    }
}

/// A header of eight octets, or the front of one.
fn is_of_eight(octets: &[u8]) -> bool {
    octets.first().map_or(false, |first| first & 0xE3 == 0xE3)
}

#[test]
fn an_impostor_that_changes_nothing_is_not_seen() {
    for call in NAMING.iter().map(|naming| naming.0).chain(["wrap", "unit_part", "show"]) {
        impostor::never_seen(call);
    }
}

/// One damage told as another, as none, or by a number past the last.
#[test]
fn one_damage_for_another() {
    for (call, least) in NAMING {
        for (damage, other) in (least..=4).flat_map(|one| (0..=5).map(move |other| (one, other))) {
            if damage != other {
                seen(&format!("{damage} as {other}"), &[call], &|call, all| {
                    named_as(call, all, |_, named, _| if named == damage { other } else { named })
                });
            }
        }
        seen("3 and 4 swapped", &[call], &|call, all| {
            named_as(call, all, |_, named, _| match named {
                3 => 4,
                4 => 3,
                _ => named,
            })
        });
        seen("damage lost", &[call], &|call, all| named_as(call, all, |_, _, _| 0));
    }
}

/// A damage where there is none: with a header that is cut or whole, with a packet, with the step
/// after the damaged one, with another reason, with a data unit.
#[test]
fn damage_where_there_is_none() {
    for damage in 1..=4 {
        for (call, outcome) in [
            ("read_header", 1),
            ("read_header", 3),
            ("extractor_step", 1),
            ("extractor_step", 2),
            ("extractor_step", 4),
            ("relay_route", 1),
            ("relay_route", 2),
        ] {
            seen(&format!("outcome {outcome}"), &[call], &|call, all| {
                let refusal = by_reference(call, all);
                if refusal == 0 && all.answer[0] == outcome {
                    all.answer[place_of_damage(call)] = damage;
                }
                refusal
            });
        }
        for reason in 0..=2 {
            seen(&format!("reason {reason}"), &["extractor_enter"], &|call, all| {
                let refusal = by_reference(call, all);
                if refusal == 0 && all.answer[5] == reason {
                    all.answer[6] = damage;
                }
                refusal
            });
        }
        for (call, refused) in [
            ("wrap", 0),
            ("wrap", 1),
            ("wrap", 2),
            ("wrap", 8),
            ("unwrap", 0),
            ("unwrap", 6),
            ("mux_put", 0),
        ] {
            seen(&format!("refusal {refused}"), &[call], &|call, all| {
                named_where(call, all, damage, |refusal, _| refusal == refused)
            });
        }
        seen("named twice", &["extractor_step"], &|call, all| {
            named_where(call, all, damage, |refusal, lent| refusal == 0 && lent.record[0] == 4)
        });
    }
}

/// Whether a packet whose header is not damaged is refused by 8 for this.
type Flaw = fn(&str, &Arguments) -> bool;

/// The cases in which refusal 8 carries 0.
const FLAWS: [(&str, Flaw); 5] = [
    ("empty", |_, lent| lent.octets.is_empty()),
    ("cut", |call, lent| !lent.octets.is_empty() && look(call, lent) == Look::Cut),
    ("shorter than stated", |call, lent| beside_stated(call, lent) == Some(Ordering::Less)),
    ("longer than stated", |call, lent| beside_stated(call, lent) == Some(Ordering::Greater)),
    // What it states is within the limit.
    ("longer than the limit", |call, lent| {
        lent.octets.len() > limit(call, lent) && beside_stated(call, lent).is_some()
    }),
];

#[test]
fn a_flaw_that_is_named_as_damage() {
    for damage in 1..=4 {
        for (what, flaw) in FLAWS {
            seen(what, &OF_PACKETS, &|call, all| {
                named_where(call, all, damage, |refusal, lent| refusal == 8 && flaw(call, lent))
            });
        }
        seen("a space packet to be unwrapped", &["unwrap"], &|call, all| {
            named_where(call, all, damage, |refusal, lent| {
                refusal == 8 && beside_stated(call, lent) == Some(Ordering::Equal)
            })
        });
    }
}

/// A length that will be over the limit whatever comes, named before the header is whole.
#[test]
fn damage_that_is_named_too_early() {
    let early = |call: &str, lent: &Arguments| {
        let least = [&lent.octets[..], &[0; 8]].concat();
        let over = read_header(limit(call, lent), &least);
        look(call, lent) == Look::Cut && over == Ok(Look::Damaged(Damage::OverLimit))
    };
    seen("too early", &OF_PACKETS, &|call, all| {
        named_where(call, all, 4, |refusal, lent| refusal == 8 && early(call, lent))
    });
    seen("too early", &["read_header"], &|call, all| {
        found_damaged(all, 4, |lent| early(call, lent))
    });
    // Under a limit of seven no header of eight octets comes out well.
    let hopeless = |lent: &Arguments| {
        lent.numbers[0] == 7 && is_of_eight(&lent.octets) && lent.octets.len() < 8
    };
    for damage in [3, 4] {
        seen("by the first octet", &["read_header"], &|_, all| {
            found_damaged(all, damage, hopeless)
        });
        seen("by the first octet", &["unwrap", "relay_route"], &|call, all| {
            named_where(call, all, damage, |refusal, lent| refusal == 8 && hopeless(lent))
        });
    }
}

/// A damage that is looked for behind a case that carries 0, and so is not named.
#[test]
fn damage_behind_what_is_none() {
    let has_its_length = |lent: &Arguments| stated(&lent.octets) == Some(lent.octets.len());
    for damage in 2..=4 {
        seen("behind another length", &OF_PACKETS, &|call, all| {
            named_where(call, all, 0, |_, lent| {
                damage_of(look(call, lent)) == damage && !has_its_length(lent)
            })
        });
    }
    for its_length in [true, false] {
        seen("behind a space packet", &["unwrap"], &|call, all| {
            named_where(call, all, 0, |_, lent| {
                matches!(lent.octets[..], [0x00..=0x1F, ..]) && has_its_length(lent) == its_length
            })
        });
    }
    // With a single octet the header is cut, unless it is one of one octet.
    for damage in [1, 2] {
        let single = |call: &str, lent: &Arguments| {
            lent.octets.len() == 1 && damage_of(look(call, lent)) == damage
        };
        seen("behind a header that is cut", &OF_PACKETS, &|call, all| {
            named_where(call, all, 0, |_, lent| single(call, lent))
        });
        seen("behind a header that is cut", &["read_header"], &|call, all| {
            let refusal = by_reference(call, all);
            if refusal == 0 && single(call, all) {
                all.answer[..HEADER].copy_from_slice(&[1, 0, 0, 0, 0, 0, 0]);
            }
            refusal
        });
    }
}

/// The damage with another refusal than 8, which goes before it.
#[test]
fn damage_with_another_refusal() {
    for (call, refused) in [
        ("read_header", 1),
        ("unwrap", 1),
        ("mux_put", 1),
        ("mux_put", 2),
        ("mux_put", 10),
        ("mux_put", 9),
        ("relay_route", 1),
        ("relay_route", 10),
    ] {
        seen(&format!("refusal {refused}"), &[call], &|call, all| {
            named_as(call, all, |refusal, named, lent| match refusal {
                _ if refusal == refused => damage_of(look(call, lent)),
                _ => named,
            })
        });
    }
}

/// A gap goes before damage: the header that the held octets begin is not looked at then.
#[test]
fn damage_with_reason_1() {
    seen("reason 1", &["extractor_enter"], &|call, all| {
        let lent = all.clone();
        let refusal = by_reference(call, all);
        if refusal == 0 && all.answer[5] == 1 && lent.record[0] == 2 {
            let held = &lent.buffer[..lent.record[2] as usize];
            let zone = &lent.octets[HEAD..HEAD + lent.numbers[2] as usize];
            let joined = read_header(lent.numbers[3] as usize, &[held, zone].concat());
            all.answer[6] = if held.is_empty() { 0 } else { damage_of(joined.unwrap()) };
        }
        refusal
    });
}

/// Under a limit of seven a header of eight octets is always wrong, but not always in the same way.
#[test]
fn one_damage_for_all_headers_of_eight_octets() {
    for damage in [3, 4] {
        seen("eight octets", &OF_LIMITS, &|call, all| {
            named_where(call, all, damage, |_, lent| {
                let damaged = damage_of(look(call, lent)) != 0;
                lent.numbers[0] == 7 && is_of_eight(&lent.octets) && damaged
            })
        });
    }
}

/// Lengths read in fewer bits are below their header where they are over the limit.
#[test]
fn lengths_in_fewer_bits() {
    for bits in [8, 16, 24] {
        seen(&format!("in {bits} bits"), &OF_LIMITS, &|call, all| {
            named_where(call, all, 3, |_, lent| {
                let length = stated(&lent.octets).unwrap_or(0);
                let over = look(call, lent) == Look::Damaged(Damage::OverLimit);
                over && is_of_eight(&lent.octets) && length % (1 << bits) < 8
            })
        });
    }
}

/// Does without the number of the damage: an array that ends before it will do.
#[test]
fn arrays_without_the_number() {
    for call in NAMING.iter().map(|naming| naming.0).chain(["wrap"]) {
        seen("a shorter answer", &[call], &|call, all| {
            let size = all.answer.len();
            if size == place_of_damage(call) {
                all.answer.push(0);
            }
            let refusal = by_reference(call, all);
            all.answer.truncate(size);
            refusal
        });
    }
    seen("a shorter answer of another call", &["unit_part", "show"], &|call, all| {
        if all.numbers.len() == 4 {
            all.numbers.push(0);
        }
        by_reference(call, all)
    });
}

/// Goes by the damage in the answer of another call, of which it has no need.
#[test]
fn parts_that_are_not_shown() {
    seen("not shown", &["unit_part", "show"], &|call, all| {
        let refusal = by_reference(call, all);
        if refusal == 0 && all.numbers[4] != 0 {
            let numbers = if call == "show" { 3 } else { 2 };
            all.answer[..numbers].fill(0);
        }
        refusal
    });
}
