//! The loss flag of bits: runs worked out from document 02's words, and source 000's tests of it.

use itzahuemo_reference::calls::{Calls, Reference};
use itzahuemo_reference::generate::seal;

/// Spacecraft 5 and channel 3, as in source 000's tests, with a zone of one octet and no trailer.
const CHANNEL: [u64; 6] = [5, 3, 1, 0x55, 0, 0];

const WITH_TRAILERS: [u64; 6] = [5, 3, 1, 0x55, 1, 0];

const FILL: u64 = 0;
const LAST: u64 = 16_777_215;

/// A frame of this count with so many bits of an octet, of which there are eight.
fn unit(count: u64, bits: u64, octet: u8) -> Vec<u8> {
    let pointer: u16 = match bits {
        FILL => 16_382,
        8 => 16_383,
        _ => bits as u16 - 1,
    };
    let [.., high, middle, low] = count.to_be_bytes();
    let [upper, lower] = pointer.to_be_bytes();
    vec![0x41, 0x43, high, middle, low, 0, upper, lower, octet]
}

/// Reads a unit; answers its flag.
fn flag(record: &mut [u64; 3], count: u64, bits: u64) -> u64 {
    let mut answer = [7; 6];
    assert_eq!(Reference.bits_read(&CHANNEL, record, &unit(count, bits, 0x71), &mut answer), 0);
    assert_eq!(answer, [count, 0, answer[2], bits, 8, bits.min(1)]);
    answer[2]
}

/// Reads units from the start, each of a count and so many bits. Behind these stand the unit's flag
/// and whether a loss waits after it.
fn expect(units: &[(u64, u64, u64, u64)]) {
    let mut record = [0, 0, 0];
    for (place, &(count, bits, told, waiting)) in units.iter().enumerate() {
        assert_eq!(flag(&mut record, count, bits), told, "unit {place} of {units:?}");
        assert_eq!(record, [1, count, waiting], "unit {place} of {units:?}");
    }
}

/// Frame 2 is lost between units of fill. The next unit with bits tells it, and only that one.
#[test]
fn a_loss_in_fill() {
    expect(&[
        (0, 8, 0, 0),
        (1, FILL, 0, 0),
        (3, FILL, 0, 1),
        (4, FILL, 0, 1),
        (5, FILL, 0, 1),
        (6, 8, 1, 0),
        (7, 8, 0, 0),
        (8, FILL, 0, 0),
        (9, 8, 0, 0),
    ]);
}

/// The last frame of the bits, or the first one of the fill, is lost.
#[test]
fn a_loss_where_fill_begins() {
    expect(&[(0, 8, 0, 0), (2, FILL, 0, 1), (3, 8, 1, 0), (4, 8, 0, 0)]);
}

/// Two losses between units with bits are told once, be both in the fill or the second where it ends.
#[test]
fn two_losses() {
    expect(&[(0, 8, 0, 0), (2, FILL, 0, 1), (4, FILL, 0, 1), (5, 8, 1, 0), (6, 8, 0, 0)]);
    expect(&[(0, 8, 0, 0), (2, FILL, 0, 1), (4, 8, 1, 0), (5, 8, 0, 0)]);
    expect(&[(0, 8, 0, 0), (2, FILL, 0, 1), (3, FILL, 0, 1), (5, FILL, 0, 1), (7, 8, 1, 0)]);
}

/// Each of two stretches of fill has a loss, and a third has none.
#[test]
fn a_loss_in_each_stretch() {
    expect(&[
        (0, 8, 0, 0),
        (2, FILL, 0, 1),
        (3, 8, 1, 0),
        (5, FILL, 0, 1),
        (6, 8, 1, 0),
        (7, FILL, 0, 0),
        (8, 8, 0, 0),
    ]);
}

/// The fill has followed; the unit's own count does not.
#[test]
fn a_loss_where_fill_ends() {
    expect(&[(0, 8, 0, 0), (1, FILL, 0, 0), (2, FILL, 0, 0), (4, 8, 1, 0), (5, 8, 0, 0)]);
}

#[test]
fn a_loss_between_bits() {
    expect(&[(0, 8, 0, 0), (1, 8, 0, 0), (3, 8, 1, 0), (4, 8, 0, 0), (6, 8, 1, 0), (8, 8, 1, 0)]);
}

/// With no unit with bits before, every count since the start is meant. The first has none to follow.
#[test]
fn a_loss_before_any_bits() {
    expect(&[(7, FILL, 0, 0), (8, FILL, 0, 0), (9, 8, 0, 0)]);
    expect(&[(7, FILL, 0, 0), (9, FILL, 0, 1), (10, FILL, 0, 1), (11, 8, 1, 0), (12, 8, 0, 0)]);
    expect(&[(7, FILL, 0, 0), (9, 8, 1, 0), (10, 8, 0, 0)]);
    expect(&[(7, 8, 0, 0), (8, 8, 0, 0)]);
    expect(&[(LAST, FILL, 0, 0), (5, FILL, 0, 1), (6, 8, 1, 0)]);
}

/// A count that comes again, or an earlier one, does not follow.
#[test]
fn a_repeated_count() {
    expect(&[(4, 8, 0, 0), (4, 8, 1, 0), (5, 8, 0, 0)]);
    expect(&[(4, 8, 0, 0), (5, FILL, 0, 0), (5, FILL, 0, 1), (6, FILL, 0, 1), (7, 8, 1, 0)]);
    expect(&[(4, FILL, 0, 0), (4, 8, 1, 0), (5, 8, 0, 0)]);
    expect(&[(4, 8, 0, 0), (5, FILL, 0, 0), (4, FILL, 0, 1), (5, 8, 1, 0), (6, 8, 0, 0)]);
}

/// 16,777,215 is followed by 0 and by nothing else.
#[test]
fn round_the_wheel() {
    expect(&[(LAST - 1, 8, 0, 0), (LAST, FILL, 0, 0), (0, FILL, 0, 0), (1, 8, 0, 0)]);
    expect(&[(LAST - 1, 8, 0, 0), (LAST, 8, 0, 0), (0, 8, 0, 0)]);
    expect(&[(LAST, 8, 0, 0), (1, FILL, 0, 1), (2, 8, 1, 0)]);
    expect(&[(LAST - 1, 8, 0, 0), (0, FILL, 0, 1), (1, 8, 1, 0), (2, 8, 0, 0)]);
    expect(&[(LAST, 8, 0, 0), (LAST, FILL, 0, 1), (0, FILL, 0, 1), (1, 8, 1, 0)]);
    expect(&[(0, 8, 0, 0), (LAST, FILL, 0, 1), (0, 8, 1, 0), (1, 8, 0, 0)]);
}

/// A unit has bits as soon as it has one.
#[test]
fn a_few_bits_are_bits() {
    for bits in 1..=8 {
        expect(&[(0, bits, 0, 0), (2, FILL, 0, 1), (3, bits, 1, 0), (4, bits, 0, 0)]);
        expect(&[(0, FILL, 0, 0), (2, bits, 1, 0), (3, bits, 0, 0), (5, bits, 1, 0)]);
    }
}

/// A frame with bits and this count that is refused by this number.
fn refused(number: u64, settings: &[u64; 6], count: u64) -> Vec<u8> {
    let mut frame = unit(count, 8, 0x71);
    match number {
        4 => frame[0] ^= 0x80,
        5 => frame[1] ^= 0x01,
        6 => frame[5] |= 0x01,
        // A whole zone of eight bits has another pointer.
        7 => frame[6..8].copy_from_slice(&[0, 7]),
        _ => {}
    }
    if settings == &WITH_TRAILERS {
        frame.extend([0; 2]);
        seal(&mut frame);
    }
    match number {
        3 => frame.push(0),
        13 => frame[9] ^= 0x01,
        _ => {}
    }
    frame
}

/// A refused frame leaves the last count and the waiting flag as they were, whatever its own count:
/// fill that follows the last one read goes on waiting, or not, and bits then tell what waited.
#[test]
fn refused_frames_in_between() {
    let refusals =
        [3, 4, 5, 6, 7].iter().flat_map(|number| [(number, CHANNEL), (number, WITH_TRAILERS)]);
    for (&number, settings) in refusals.chain([(&13, WITH_TRAILERS)]) {
        for count in [0, 3, 4, 5, 6, 7, 9, LAST] {
            let refuse = |record: &mut [u64; 3]| {
                let (before, mut answer) = (*record, [7; 6]);
                let frame = refused(number, &settings, count);
                assert_eq!(Reference.bits_read(&settings, record, &frame, &mut answer), number);
                assert_eq!((*record, answer), (before, [0; 6]), "{number} {count}");
            };
            for waiting in [0, 1] {
                let mut record = [1, 4, waiting];
                refuse(&mut record);
                assert_eq!(flag(&mut record, 5, FILL), 0);
                assert_eq!(record, [1, 5, waiting]);
                refuse(&mut record);
                assert_eq!(flag(&mut record, 6, 8), waiting);
                assert_eq!(record, [1, 6, 0]);
                refuse(&mut record);
                assert_eq!(flag(&mut record, 7, 8), 0);
            }
            let mut record = [0, 0, 0];
            refuse(&mut record);
            assert_eq!(flag(&mut record, 5, FILL), 0);
            refuse(&mut record);
            assert_eq!(flag(&mut record, 6, 8), 0);
        }
    }
}

/// A frame that was refused counts as lost once one behind it is read.
#[test]
fn a_refused_frame_is_missing() {
    for number in [3, 4, 5, 6, 7] {
        let mut record = [0, 0, 0];
        assert_eq!(flag(&mut record, 0, 8), 0);
        let frame = refused(number, &CHANNEL, 1);
        assert_eq!(Reference.bits_read(&CHANNEL, &mut record, &frame, &mut [7; 6]), number);
        assert_eq!(flag(&mut record, 2, FILL), 0);
        assert_eq!(record, [1, 2, 1]);
        assert_eq!(flag(&mut record, 3, 8), 1);
    }
}

/// Reads a unit of eight bits; answers its flag and the octet that holds them.
fn octet(record: &mut [u64; 3], frame: &[u8]) -> (u64, u8) {
    let mut answer = [7; 6];
    assert_eq!(Reference.bits_read(&CHANNEL, record, frame, &mut answer), 0);
    assert_eq!(answer[3..], [8, 8, 1]);
    (answer[2], frame[answer[4] as usize])
}

/// Source 000's tests 24 and 25: the bits 01110001 come with no loss, and 10001110 after one. Its
/// loss flag stands at the first of the eight bits, here at their unit.
#[test]
fn source_000_bits_with_and_without_loss() {
    let mut record = [0, 0, 0];
    assert_eq!(octet(&mut record, &unit(0, 8, 0b0111_0001)), (0, 0b0111_0001));
    assert_eq!(octet(&mut record, &unit(2, 8, 0b1000_1110)), (1, 0b1000_1110));
    assert_eq!(record, [1, 2, 0]);
}

/// The same with fill in between: what was lost before the fill is delivered with the next bits.
#[test]
fn source_000_loss_flags_of_fill_wait() {
    let mut record = [0, 0, 0];
    assert_eq!(octet(&mut record, &unit(0, 8, 0b0111_0001)), (0, 0b0111_0001));
    assert_eq!(flag(&mut record, 2, FILL), 0);
    assert_eq!(octet(&mut record, &unit(3, 8, 0b1000_1110)), (1, 0b1000_1110));
    assert_eq!(octet(&mut record, &unit(4, 8, 0b0111_0001)), (0, 0b0111_0001));
}
