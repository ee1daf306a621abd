//! The comparison itself: it finds no difference where there is none, meets every
//! refusal, and sees through impostors.

mod impostor;

use itzahuemo_reference::calls::{Calls, Reference};
use itzahuemo_reference::each_call;
use itzahuemo_reference::orders::{Arguments, ORDERS};
use itzahuemo_reference::sessions::{session, Tally};

const SESSIONS: u64 = 3_000;

#[test]
fn the_reference_agrees_with_itself_and_everything_is_met() {
    let mut tally = Tally::default();
    for seed in 0..SESSIONS {
        match session(&Reference, &Reference, seed) {
            Ok(met) => tally.add(&met),
            Err(difference) => panic!("seed {seed}: {difference}"),
        }
    }
    for order in &ORDERS {
        for &refusal in order.refusals.iter().chain(&[0, 2]) {
            assert!(
                tally.refusals.contains_key(&(order.call, refusal)),
                "{} {refusal}",
                order.call
            );
        }
    }
    for (what, numbers) in [
        ("header found", 1..=3),
        ("damage of a header", 0..=4),
        ("well formed", 1..=2),
        // A put ends with a full zone or a taken packet, or both.
        ("full and taken", 1..=3),
        ("flush", 1..=2),
        ("reason", 0..=3),
        ("step", 1..=4),
        ("packet lies in", 0..=2),
        ("damage in a step", 1..=4),
        // A wrong first octet is damage in the zone where it stands.
        ("damage at entering", 3..=4),
        // The damages, and then what 8 is without one; a space packet only where it is unwrapped.
        ("put refused for", 1..=7),
        ("route refused for", 1..=7),
        ("unwrap refused for", 1..=8),
        ("data unit refused for", 1..=2),
        ("shown in", 0..=2),
        ("verdict", 1..=2),
        ("tape of frames", 0..=2),
        ("rest behind too many frames", 0..=1),
        ("tape with the tally full", 0..=0),
        ("tape with the tally full", 3..=3),
        ("tape with the tally full", 11..=11),
        ("fault on a tape", 1..=3),
        ("loss flag", 0..=1),
        ("loss waits", 0..=1),
        ("loss in fill", 0..=3),
        ("loss with bits", 0..=3),
        ("loss waits at refusal", 1..=1),
        ("loss waits at refusal", 3..=7),
        ("loss waits at refusal", 13..=13),
        ("wheel turns in edition", 0..=2),
        ("wheel turns written in edition", 0..=2),
        ("cycle begins", 1..=2),
        ("cycle begins written", 1..=2),
        ("only cycles lost", 1..=2),
        ("routed", 1..=2),
        ("destinations", 0..=2),
    ] {
        for number in numbers {
            assert!(tally.said.contains_key(&(what, number)), "{what} {number}");
        }
    }
    for number in 0..=2 {
        assert!(!tally.said.contains_key(&("damage at entering", number)), "entering {number}");
    }
    for (what, bits) in [
        ("wrong bit of edition 0", 0..=6),
        ("wrong bit of edition 1", 0..=6),
        ("wrong bit of edition 2", 4..=6),
    ] {
        for bit in bits {
            assert!(tally.said.contains_key(&(what, 1 << bit)), "{what} {bit}");
        }
    }
    // No call gives a refusal that is not in its order; 2 may be for an array.
    for (call, refusal) in tally.refusals.keys() {
        let order = ORDERS.iter().find(|order| order.call == *call).unwrap();
        assert!([0, 2].contains(refusal) || order.refusals.contains(refusal), "{call} {refusal}");
    }
}

/// What a call was lent to write, and the refusal it gave.
struct Outcome<'a> {
    call: &'static str,
    record: &'a mut [u64],
    buffer: &'a mut [u8],
    answer: &'a mut [u64],
    refusal: &'a mut u64,
}

/// The reference, with its outcomes changed before they are seen. The change is
/// also given the record and the buffer as they were lent.
struct Impostor<C> {
    change: C,
}

impl<C: Fn(&[u64], &[u8], Outcome)> Impostor<C> {
    fn made(
        &self,
        call: &'static str,
        record: &mut [u64],
        buffer: &mut [u8],
        answer: &mut [u64],
        make: impl FnOnce(&mut [u64], &mut [u8], &mut [u64]) -> u64,
    ) -> u64 {
        let (lent_record, lent_buffer) = (record.to_vec(), buffer.to_vec());
        let mut refusal = make(record, buffer, answer);
        let outcome = Outcome { call, record, buffer, answer, refusal: &mut refusal };
        (self.change)(&lent_record, &lent_buffer, outcome);
        refusal
    }
}

// Picks what a call may write out of its arguments in the table, one by one: octets are the buffer,
// numbers at the end are the answer, and other numbers the record. Behind the three stand all the
// arguments so far.
macro_rules! made {
    ($self:ident $name:ident $record:ident $buffer:ident $answer:ident ($($value:ident)*)) => {
        $self.made(stringify!($name), $record, $buffer, $answer, |$record, $buffer, $answer| {
            Reference.$name($($value),*)
        })
    };
    ($self:ident $name:ident $record:ident $buffer:ident $answer:ident ($($value:ident)*)
        $octets:ident: &mut [u8], $($rest:tt)*) => {
        made!($self $name $record $octets $answer ($($value)* $octets) $($rest)*)
    };
    ($self:ident $name:ident $record:ident $buffer:ident $answer:ident ($($value:ident)*)
        $numbers:ident: &mut [u64],) => {
        made!($self $name $record $buffer $numbers ($($value)* $numbers))
    };
    ($self:ident $name:ident $record:ident $buffer:ident $answer:ident ($($value:ident)*)
        $numbers:ident: &mut [u64], $($rest:tt)*) => {
        made!($self $name $numbers $buffer $answer ($($value)* $numbers) $($rest)*)
    };
    ($self:ident $name:ident $record:ident $buffer:ident $answer:ident ($($value:ident)*)
        $read:ident: $type:ty, $($rest:tt)*) => {
        made!($self $name $record $buffer $answer ($($value)* $read) $($rest)*)
    };
}

macro_rules! the_impostor {
    ($($name:ident($($arguments:tt)*);)*) => {
        impl<C: Fn(&[u64], &[u8], Outcome)> Calls for Impostor<C> {
            $(fn $name(&self, $($arguments)*) -> u64 {
                let (_record, _buffer, _answer) = (&mut [0; 0], &mut [0; 0], &mut [0; 0]);
                made!(self $name _record _buffer _answer () $($arguments)*,)
            })*
        }
    };
}

each_call!(the_impostor);

/// The call in which the comparison first sees through an impostor.
fn seen(change: impl Fn(&[u64], &[u8], Outcome)) -> &'static str {
    let impostor = Impostor { change };
    (0..SESSIONS)
        .find_map(|seed| session(&Reference, &impostor, seed).err())
        .map_or("never", |difference| difference.call)
}

#[test]
fn an_impostor_that_changes_nothing_is_not_seen() {
    assert_eq!(seen(|_, _, _| {}), "never");
    impostor::never_seen("bits_read");
}

#[test]
fn an_extractor_that_refuses_all_frames() {
    let call = seen(|lent, _, outcome| {
        if outcome.call == "extractor_enter" && *outcome.refusal == 0 {
            *outcome.refusal = 7;
            outcome.record[..4].copy_from_slice(&lent[..4]);
            outcome.answer[..7].fill(0);
        }
    });
    assert_eq!(call, "extractor_enter");
}

#[test]
fn an_extractor_that_calls_each_frame_spent() {
    let call = seen(|lent, _, outcome| {
        if outcome.call == "extractor_step" && *outcome.refusal == 0 {
            outcome.answer[..5].copy_from_slice(&[4, 0, 0, 0, 0]);
            outcome.record[..4].copy_from_slice(&[1, lent[1], 0, 0]);
        }
    });
    assert_eq!(call, "extractor_step");
}

#[test]
fn an_extractor_that_invents_its_lost_number() {
    let call = seen(|_, _, outcome| {
        if outcome.call == "extractor_enter"
            && outcome.answer.get(3).map_or(false, |&lost| lost > 1)
        {
            outcome.answer[3] -= 1;
        }
    });
    assert_eq!(call, "extractor_enter");
}

#[test]
fn an_extractor_that_never_says_what_it_dropped() {
    let call = seen(|_, _, outcome| {
        if outcome.call == "extractor_enter" && *outcome.refusal == 0 {
            outcome.answer[4] = 0;
        }
    });
    assert_eq!(call, "extractor_enter");
}

#[test]
fn an_extractor_that_writes_past_the_packet_in_the_store() {
    let call = seen(|_, lent, outcome| {
        if outcome.call == "extractor_step" && *outcome.refusal == 0 && outcome.answer[1] == 2 {
            let size = outcome.answer[3] as usize;
            if size < lent.len() {
                outcome.buffer[size] = !lent[size];
            }
        }
    });
    assert_eq!(call, "extractor_step");
}

#[test]
fn a_judge_that_always_passes() {
    let call = seen(|_, _, outcome| {
        if outcome.call == "judge_close" && *outcome.refusal == 0 {
            outcome.answer[..2].copy_from_slice(&[1, 0]);
        }
    });
    assert_eq!(call, "judge_close");
}

#[test]
fn a_judge_that_always_faults() {
    let call = seen(|_, _, outcome| {
        if outcome.call == "judge_frame" && outcome.record.first() == Some(&1) {
            let tally = outcome.record[1];
            outcome.record[..4].copy_from_slice(&[2, tally, tally - 1, 0]);
        }
    });
    assert_eq!(call, "judge_frame");
}

#[test]
fn a_multiplexer_that_writes_nothing() {
    let call = seen(|_, lent, outcome| {
        if outcome.call == "mux_put" {
            outcome.buffer.copy_from_slice(lent);
        }
    });
    assert_eq!(call, "mux_put");
}

#[test]
fn a_multiplexer_that_counts_past_the_wheel() {
    let call = seen(|lent, _, outcome| {
        if outcome.call == "mux_flush"
            && outcome.record.first().map_or(false, |count| *count < lent[0])
        {
            outcome.record[0] = lent[0] + 1;
        }
    });
    assert_eq!(call, "mux_flush");
}

#[test]
fn a_refusal_that_leaves_its_answer() {
    let call = seen(|_, _, outcome| {
        if outcome.call == "unwrap" && *outcome.refusal == 6 {
            outcome.answer[0] = 2;
        }
    });
    assert_eq!(call, "unwrap");
}

#[test]
fn a_space_header_with_type_and_secondary_header_swapped() {
    let call = seen(|_, _, outcome| {
        if outcome.call == "read_space" && *outcome.refusal == 0 {
            outcome.answer.swap(2, 3);
        }
    });
    assert_eq!(call, "read_space");
}

#[test]
fn a_space_header_that_is_not_written() {
    let call = seen(|_, lent, outcome| {
        if outcome.call == "write_space" {
            outcome.buffer.copy_from_slice(lent);
        }
    });
    assert_eq!(call, "write_space");
}

/// The losses that a frame of bits may tell of, 1 where there is one: of what came before it, which
/// waits, and of its own count, which does not follow.
struct Losses {
    waiting: u64,
    own: u64,
}

impl Losses {
    /// Those of a frame of this count, before which the record was this one.
    fn of(wheel: u64, record: &[u64], count: u64) -> Losses {
        let follows = record[0] == 0 || count == (record[1] + 1) % wheel;
        Losses { waiting: record[2], own: u64::from(!follows) }
    }
}

/// The number of counts on the channel of a reader of bits.
fn wheel_of(all: &Arguments) -> u64 {
    if all.numbers[5] == 2 {
        1 << 28
    } else {
        1 << 24
    }
}

/// The comparison sees through a reader of bits that changes what it makes of a frame it reads. The
/// change is given the losses, the record and the answer.
fn is_seen_reading(change: impl Fn(Losses, &mut [u64], &mut [u64])) {
    let changed = |call: &str, all: &mut Arguments| {
        let lent = all.record.clone();
        let refusal = impostor::by_reference(call, all);
        if refusal == 0 {
            let losses = Losses::of(wheel_of(all), &lent, all.answer[0]);
            change(losses, &mut all.record, &mut all.answer);
        }
        refusal
    };
    assert_eq!(impostor::first_seen("bits_read", &changed), "bits_read");
}

/// Whether the frame that was read has no bits.
fn is_fill(answer: &[u64]) -> bool {
    answer[3] == 0
}

#[test]
fn a_reader_of_bits_that_never_sees_a_loss() {
    is_seen_reading(|_, _, answer| answer[2] = 0);
}

#[test]
fn a_reader_of_bits_that_tells_each_loss_at_once() {
    is_seen_reading(|losses, record, answer| {
        answer[2] = losses.own;
        record[2] = 0;
    });
}

#[test]
fn a_reader_of_bits_that_tells_a_loss_with_fill() {
    is_seen_reading(|losses, _, answer| {
        if is_fill(answer) {
            answer[2] = losses.own;
        }
    });
    is_seen_reading(|_, record, answer| {
        if is_fill(answer) {
            answer[2] = record[2];
        }
    });
}

#[test]
fn a_reader_of_bits_that_forgets_a_loss_in_fill() {
    is_seen_reading(|losses, record, answer| {
        if is_fill(answer) {
            record[2] = losses.own;
        }
    });
}

#[test]
fn a_reader_of_bits_for_whom_fill_cannot_be_lost() {
    is_seen_reading(|losses, record, answer| {
        if is_fill(answer) {
            record[2] = losses.waiting;
        }
    });
}

#[test]
fn a_reader_of_bits_that_lets_no_loss_wait() {
    is_seen_reading(|_, record, _| record[2] = 0);
}

#[test]
fn a_reader_of_bits_that_tells_a_loss_again() {
    is_seen_reading(|_, record, answer| {
        if !is_fill(answer) {
            record[2] = answer[2];
        }
    });
    is_seen_reading(|losses, record, answer| {
        if !is_fill(answer) {
            record[2] = losses.waiting;
        }
    });
    is_seen_reading(|losses, record, answer| {
        if !is_fill(answer) {
            record[2] = losses.own;
        }
    });
}

#[test]
fn a_reader_of_bits_that_leaves_out_its_own_count() {
    is_seen_reading(|losses, _, answer| {
        if !is_fill(answer) {
            answer[2] = losses.waiting;
        }
    });
}

#[test]
fn a_reader_of_bits_that_leaves_out_the_counts_before() {
    is_seen_reading(|losses, _, answer| {
        if !is_fill(answer) {
            answer[2] = losses.own;
        }
    });
}

/// Two losses are no loss.
#[test]
fn a_reader_of_bits_whose_losses_cancel() {
    is_seen_reading(|losses, record, answer| {
        let loss = losses.waiting ^ losses.own;
        if is_fill(answer) {
            record[2] = loss;
        }
    });
    is_seen_reading(|losses, _, answer| {
        let loss = losses.waiting ^ losses.own;
        if !is_fill(answer) {
            answer[2] = loss;
        }
    });
}

#[test]
fn a_reader_of_bits_that_a_refused_frame_changes() {
    let changes: [fn(&mut [u64]); 3] =
        [|record| record[2] = 1, |record| record[2] = 0, |record| record[1] += 1];
    for (refused, change) in
        [3, 4, 5, 6, 7, 13].iter().flat_map(|refused| changes.map(|change| (refused, change)))
    {
        let call = seen(|lent, _, outcome| {
            if outcome.call == "bits_read" && outcome.refusal == refused && lent[0] == 1 {
                change(outcome.record);
            }
        });
        assert_eq!(call, "bits_read", "{refused}");
    }
}

/// The comparison sees through a reader of bits that takes a record which is none. What it takes is
/// told by the wheel and the record.
fn is_seen_taking(what: &str, is_taken: impl Fn(u64, &[u64]) -> bool) {
    let taken = |call: &str, all: &mut Arguments| match impostor::by_reference(call, all) {
        10 if is_taken(wheel_of(all), &all.record) => 0,
        refusal => refusal,
    };
    assert_eq!(impostor::first_seen("bits_read", &taken), "bits_read", "{what}");
}

#[test]
fn a_reader_of_bits_that_goes_by_any_record() {
    for waiting in [2, 3, 256, 257, 1 << 32, (1 << 32) + 1, u64::MAX] {
        is_seen_taking("a flag that is none", |wheel, lent| {
            lent[0] == 1 && lent[1] < wheel && lent[2] == waiting
        });
    }
    is_seen_taking("a loss before any frame", |_, lent| lent[..3] == [0, 0, 1]);
    is_seen_taking("a count before any frame", |_, lent| {
        lent[0] == 0 && lent[1] > 0 && lent[2] == 0
    });
    for waiting in [0, 1] {
        is_seen_taking("a count off the wheel", |wheel, lent| lent[..3] == [1, wheel, waiting]);
        is_seen_taking("a third kind", |wheel, lent| {
            lent[0] == 2 && lent[1] < wheel && lent[2] == waiting
        });
    }
}

/// Does without the number of the flag: a record that ends before it has none.
#[test]
fn a_reader_of_bits_with_a_shorter_record() {
    let call = seen(|lent, _, outcome| {
        if outcome.call == "bits_read" && *outcome.refusal == 2 && lent.len() == 2 {
            *outcome.refusal = 0;
        }
    });
    assert_eq!(call, "bits_read");
}

#[test]
fn a_relay_that_finds_no_path() {
    let call = seen(|_, lent, outcome| {
        if outcome.call == "relay_route" && *outcome.refusal == 0 {
            outcome.answer[..2].copy_from_slice(&[1, 0]);
            outcome.buffer.copy_from_slice(lent);
        }
    });
    assert_eq!(call, "relay_route");
}

#[test]
fn a_relay_that_turns_the_order_round() {
    let call = seen(|_, _, outcome| {
        if outcome.call == "relay_route" && *outcome.refusal == 0 {
            let count = outcome.answer[1] as usize;
            outcome.buffer[..count].reverse();
        }
    });
    assert_eq!(call, "relay_route");
}

#[test]
fn a_relay_that_writes_past_the_destinations() {
    let call = seen(|_, lent, outcome| {
        if outcome.call == "relay_route" && *outcome.refusal == 0 {
            let count = outcome.answer[1] as usize;
            if count < lent.len() {
                outcome.buffer[count] = !lent[count];
            }
        }
    });
    assert_eq!(call, "relay_route");
}

/// A table that is only written as far as its entries go keeps some of the one before.
#[test]
fn a_load_that_leaves_what_is_behind_the_entries() {
    let call = seen(|_, _, outcome| {
        if outcome.call == "relay_load" && *outcome.refusal == 0 && outcome.answer[0] < 32 {
            outcome.answer[64] = 5;
        }
    });
    assert_eq!(call, "relay_load");
}

#[test]
fn a_relay_that_goes_by_any_table() {
    let call = seen(|_, _, outcome| {
        if outcome.call == "relay_route" && *outcome.refusal == 10 {
            *outcome.refusal = 0;
            outcome.answer[..2].copy_from_slice(&[1, 0]);
        }
    });
    assert_eq!(call, "relay_route");
}

#[test]
fn a_part_that_runs_past_the_end_is_shown() {
    let call = seen(|_, _, outcome| {
        if outcome.call == "show" && *outcome.refusal == 0 && outcome.answer[0] == 0 {
            outcome.answer[0] = 1;
        }
    });
    assert_eq!(call, "show");
}

#[test]
fn any_octets_are_well_formed() {
    let call = seen(|_, _, outcome| {
        if outcome.call == "well_formed" && *outcome.refusal == 0 {
            outcome.answer[0] = 1;
        }
    });
    assert_eq!(call, "well_formed");
}
