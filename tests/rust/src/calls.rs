//! The calls of the C interface, over slices.
//!
//! Settings, records and answers are arrays of numbers; include/itzahuemo.h says
//! what each entry means. [`Reference`] answers the calls by the rules of
//! [`crate::reference`]; with the feature `library`, the library does so too.
//!
//! The last number of an answer that speaks of headers is their damage, 1 to 4,
//! or 0 where there is none. It alone may be there when the call is refused.

use crate::reference::bitstream::{self, Reader, Writer};
use crate::reference::edition::Edition;
use crate::reference::extractor::{self, Part, Step};
use crate::reference::frame::{Settings, HEAD};
use crate::reference::judge::{self, Verdict};
use crate::reference::multiplexer;
use crate::reference::packet::{self, Damage, Kind, Look};
use crate::reference::relay::{self, Entry, Table};
use crate::reference::{space, wrap, Refusal};

/// Entries of each array.
pub const SETTINGS: usize = 7;
pub const BIT_SETTINGS: usize = 6;
pub const HEADER: usize = 7;
pub const FORMED: usize = 1;
pub const WRAPPED: usize = 2;
pub const UNWRAPPED: usize = 5;
pub const UNIT: usize = 2;
pub const SPACE_READ: usize = 8;
pub const SPACE_HEADER: usize = 7;
pub const MUX: usize = 4;
pub const PUT: usize = 3;
pub const FLUSH: usize = 1;
pub const EXTRACTOR: usize = 4;
pub const ENTERED: usize = 7;
pub const STEP: usize = 5;
pub const SHOWN: usize = 3;
pub const JUDGE: usize = 4;
pub const VERDICT: usize = 2;
pub const BIT_WRITER: usize = 1;
pub const BIT_READER: usize = 3;
pub const BITS: usize = 6;
pub const RELAY: usize = 65;
pub const ROUTED: usize = 3;

/// Every call of include/itzahuemo.h, in the header's order: its name without `itz_` and what it is
/// lent. The trait, the library's declarations and all that only forwards a call are made from this
/// table: `each_call!(made)` hands it to the macro `made`.
#[macro_export]
macro_rules! each_call {
    ($then:ident) => {
        $then! {
            read_header(limit: u64, octets: &[u8], answer: &mut [u64]);
            well_formed(limit: u64, packet: &[u8], answer: &mut [u64]);
            wrap(
                limit: u64, protocol: u64, extension: u64,
                data: &[u8], packet: &mut [u8], answer: &mut [u64]
            );
            unwrap(limit: u64, packet: &[u8], answer: &mut [u64]);
            unit_part(unwrapped: &[u64], packet: &[u8], answer: &mut [u64]);
            read_space(octets: &[u8], answer: &mut [u64]);
            write_space(header: &[u64], octets: &mut [u8]);
            mux_begin(record: &mut [u64]);
            mux_put(
                settings: &[u64], record: &mut [u64],
                packet: &[u8], frame: &mut [u8], answer: &mut [u64]
            );
            mux_flush(settings: &[u64], record: &mut [u64], frame: &mut [u8], answer: &mut [u64]);
            mux_idle(settings: &[u64], record: &mut [u64], frame: &mut [u8]);
            extractor_enter(
                settings: &[u64], record: &mut [u64],
                store: &[u8], frame: &[u8], answer: &mut [u64]
            );
            extractor_step(
                settings: &[u64], record: &mut [u64],
                store: &mut [u8], frame: &[u8], answer: &mut [u64]
            );
            show(step: &[u64], frame: &[u8], store: &[u8], answer: &mut [u64]);
            judge_frame(settings: &[u64], record: &mut [u64], store: &mut [u8], frame: &[u8]);
            judge_tape(settings: &[u64], record: &mut [u64], store: &mut [u8], tape: &[u8]);
            judge_close(settings: &[u64], record: &[u64], store: &[u8], answer: &mut [u64]);
            bits_write(
                settings: &[u64], record: &mut [u64],
                bits: &[u8], number: u64, frame: &mut [u8]
            );
            bits_read(settings: &[u64], record: &mut [u64], frame: &[u8], answer: &mut [u64]);
            relay_load(entries: &[u64], table: &mut [u64]);
            relay_route(
                limit: u64, table: &[u64],
                packet: &[u8], destinations: &mut [u8], answer: &mut [u64]
            );
        }
    };
}

macro_rules! the_trait {
    ($($name:ident($($arguments:tt)*);)*) => {
        /// The calls. Each answers a refusal number, 0 when it was not refused.
        pub trait Calls {
            $(fn $name(&self, $($arguments)*) -> u64;)*
        }
    };
}

each_call!(the_trait);

/// The calls as the documents have them.
#[derive(Clone, Copy, Debug, Default)]
pub struct Reference;

impl Calls for Reference {
    fn read_header(&self, limit: u64, octets: &[u8], answer: &mut [u64]) -> u64 {
        answered::<HEADER>(answer, || {
            Ok(match packet::read_header(number(limit)?, octets)? {
                Look::Cut => [1, 0, 0, 0, 0, 0, 0],
                Look::Damaged(damage) => [2, 0, 0, 0, 0, 0, damage.number()],
                Look::Whole(header) => {
                    let (kind, key) = match header.kind {
                        Kind::Space { apid } => (1, apid.into()),
                        Kind::Encapsulation { protocol } => (2, protocol.into()),
                    };
                    let idle = header.kind.is_idle().into();
                    [3, kind, idle, key, header.length as u64, header.total as u64, 0]
                }
            })
        })
    }

    fn well_formed(&self, limit: u64, packet: &[u8], answer: &mut [u64]) -> u64 {
        answered::<FORMED>(answer, || {
            Ok(match packet::read_header(number(limit)?, packet)? {
                Look::Whole(header) if header.total == packet.len() => [1],
                _ => [2],
            })
        })
    }

    fn wrap(
        &self,
        limit: u64,
        protocol: u64,
        extension: u64,
        data: &[u8],
        packet: &mut [u8],
        answer: &mut [u64],
    ) -> u64 {
        answered::<WRAPPED>(answer, || {
            let (protocol, extension) = (number(protocol)?, number(extension)?);
            let total = wrap::wrap(number(limit)?, protocol, extension, data, packet)?;
            Ok([total as u64, 0])
        })
    }

    fn unwrap(&self, limit: u64, packet: &[u8], answer: &mut [u64]) -> u64 {
        answered::<UNWRAPPED>(answer, || {
            let unwrapped = wrap::unwrap(number(limit)?, packet)?;
            let size = unwrapped.data.len();
            let start = packet.len() - size;
            let (protocol, extension) = (unwrapped.protocol, unwrapped.extension);
            Ok([protocol.into(), extension.into(), start as u64, size as u64, 0])
        })
    }

    fn unit_part(&self, unwrapped: &[u64], packet: &[u8], answer: &mut [u64]) -> u64 {
        match front(unwrapped) {
            Some(&[_, _, start, size, _]) => answered::<UNIT>(answer, || {
                Ok(if lies_in(packet, start, size) { [start, size] } else { [0; UNIT] })
            }),
            None => Refusal::Room.number(),
        }
    }

    fn mux_begin(&self, record: &mut [u64]) -> u64 {
        answered::<MUX>(record, || Ok(mux_numbers(&multiplexer::Record::START)))
    }

    fn read_space(&self, octets: &[u8], answer: &mut [u64]) -> u64 {
        answered::<SPACE_READ>(answer, || {
            let fields = space::read(octets)?;
            Ok([
                fields.total() as u64,
                fields.version.into(),
                fields.packet_type.into(),
                fields.secondary.into(),
                fields.apid.into(),
                fields.flags.into(),
                fields.count.into(),
                fields.length.into(),
            ])
        })
    }

    fn write_space(&self, header: &[u64], octets: &mut [u8]) -> u64 {
        match front(header) {
            Some(header) => answered::<0>(&mut [], || {
                space::write(&read_space_fields(header)?, octets)?;
                Ok([])
            }),
            None => Refusal::Room.number(),
        }
    }

    fn mux_put(
        &self,
        settings: &[u64],
        record: &mut [u64],
        packet: &[u8],
        frame: &mut [u8],
        answer: &mut [u64],
    ) -> u64 {
        with_record::<SETTINGS, MUX, PUT>(settings, record, answer, |settings, record| {
            let settings = read_settings(settings)?;
            let mut state = read_mux(record);
            let put = multiplexer::put(&settings, &mut state, packet, frame)?;
            *record = mux_numbers(&state);
            Ok([put.full.into(), put.taken.into(), 0])
        })
    }

    fn mux_flush(
        &self,
        settings: &[u64],
        record: &mut [u64],
        frame: &mut [u8],
        answer: &mut [u64],
    ) -> u64 {
        with_record::<SETTINGS, MUX, FLUSH>(settings, record, answer, |settings, record| {
            let settings = read_settings(settings)?;
            let mut state = read_mux(record);
            let written = multiplexer::flush(&settings, &mut state, frame)?;
            *record = mux_numbers(&state);
            Ok([if written { 2 } else { 1 }])
        })
    }

    fn mux_idle(&self, settings: &[u64], record: &mut [u64], frame: &mut [u8]) -> u64 {
        with_record::<SETTINGS, MUX, 0>(settings, record, &mut [], |settings, record| {
            let settings = read_settings(settings)?;
            let mut state = read_mux(record);
            multiplexer::idle(&settings, &mut state, frame)?;
            *record = mux_numbers(&state);
            Ok([])
        })
    }

    fn extractor_enter(
        &self,
        settings: &[u64],
        record: &mut [u64],
        store: &[u8],
        frame: &[u8],
        answer: &mut [u64],
    ) -> u64 {
        with_record::<SETTINGS, EXTRACTOR, ENTERED>(settings, record, answer, |settings, record| {
            let settings = read_settings(settings)?;
            let mut state = read_extractor(record);
            let entered = extractor::enter(&settings, &mut state, store, frame)?;
            *record = extractor_numbers(&state);
            Ok(entered_numbers(&entered))
        })
    }

    fn extractor_step(
        &self,
        settings: &[u64],
        record: &mut [u64],
        store: &mut [u8],
        frame: &[u8],
        answer: &mut [u64],
    ) -> u64 {
        with_record::<SETTINGS, EXTRACTOR, STEP>(settings, record, answer, |settings, record| {
            let settings = read_settings(settings)?;
            let mut state = read_extractor(record);
            let step = extractor::step(&settings, &mut state, store, frame)?;
            *record = extractor_numbers(&state);
            Ok(match step {
                Step::Spent => [4, 0, 0, 0, 0],
                Step::Damaged(damage) => [3, 0, 0, 0, damage.number()],
                Step::Packet { kind, part } => {
                    let what = if kind.is_idle() { 2 } else { 1 };
                    match part {
                        Part::Frame { start, size } => [what, 1, start as u64, size as u64, 0],
                        Part::Store { size } => [what, 2, 0, size as u64, 0],
                    }
                }
            })
        })
    }

    fn show(&self, step: &[u64], frame: &[u8], store: &[u8], answer: &mut [u64]) -> u64 {
        match front(step) {
            Some(&[_, place, start, size, _]) => answered::<SHOWN>(answer, || {
                let there = match place {
                    1 => lies_in(frame, start, size),
                    2 => lies_in(store, start, size),
                    _ => false,
                };
                Ok(if there { [place, start, size] } else { [0; SHOWN] })
            }),
            None => Refusal::Room.number(),
        }
    }

    fn judge_frame(
        &self,
        settings: &[u64],
        record: &mut [u64],
        store: &mut [u8],
        frame: &[u8],
    ) -> u64 {
        with_record::<SETTINGS, JUDGE, 0>(settings, record, &mut [], |settings, record| {
            let settings = read_settings(settings)?;
            let mut state = read_judge(record);
            judge::frame(&settings, &mut state, store, frame)?;
            *record = judge_numbers(&state);
            Ok([])
        })
    }

    fn judge_tape(
        &self,
        settings: &[u64],
        record: &mut [u64],
        store: &mut [u8],
        tape: &[u8],
    ) -> u64 {
        with_record::<SETTINGS, JUDGE, 0>(settings, record, &mut [], |settings, record| {
            let settings = read_settings(settings)?;
            let mut state = read_judge(record);
            judge::tape(&settings, &mut state, store, tape)?;
            *record = judge_numbers(&state);
            Ok([])
        })
    }

    fn judge_close(
        &self,
        settings: &[u64],
        record: &[u64],
        store: &[u8],
        answer: &mut [u64],
    ) -> u64 {
        let mut same = record.to_vec();
        with_record::<SETTINGS, JUDGE, VERDICT>(settings, &mut same, answer, |settings, record| {
            let settings = read_settings(settings)?;
            Ok(match judge::close(&settings, &read_judge(record), store)? {
                Verdict::Pass => [1, 0],
                Verdict::Fault(index) => [2, index.into()],
            })
        })
    }

    fn bits_write(
        &self,
        settings: &[u64],
        record: &mut [u64],
        bits: &[u8],
        n: u64,
        frame: &mut [u8],
    ) -> u64 {
        with_record::<BIT_SETTINGS, BIT_WRITER, 0>(settings, record, &mut [], |settings, record| {
            let settings = read_bit_settings(settings)?;
            let mut writer = Writer { count: fitted(record[0]) };
            bitstream::write(&settings, &mut writer, bits, number(n)?, frame)?;
            *record = [writer.count.into()];
            Ok([])
        })
    }

    fn bits_read(
        &self,
        settings: &[u64],
        record: &mut [u64],
        frame: &[u8],
        answer: &mut [u64],
    ) -> u64 {
        with_record::<BIT_SETTINGS, BIT_READER, BITS>(
            settings,
            record,
            answer,
            |settings, record| {
                let settings = read_bit_settings(settings)?;
                let mut reader = read_bit_reader(record);
                let bits = bitstream::read(&settings, &mut reader, frame)?;
                *record = [1, bits.count.into(), reader.waiting.into()];
                let size = bits.octets.len();
                Ok([
                    bits.count.into(),
                    bits.replay.into(),
                    bits.loss.into(),
                    bits.number as u64,
                    HEAD as u64,
                    size as u64,
                ])
            },
        )
    }

    fn relay_load(&self, entries: &[u64], table: &mut [u64]) -> u64 {
        match front_mut(table) {
            Some(table) if entries.len() % 2 == 0 => answered::<0>(&mut [], || {
                *table = table_numbers(&relay::load(&read_entries(entries))?);
                Ok([])
            }),
            _ => Refusal::Room.number(),
        }
    }

    fn relay_route(
        &self,
        limit: u64,
        table: &[u64],
        packet: &[u8],
        destinations: &mut [u8],
        answer: &mut [u64],
    ) -> u64 {
        match front(table) {
            Some(table) => answered::<ROUTED>(answer, || {
                let table = read_table(table);
                let count = relay::route(number(limit)?, &table, packet, destinations)?;
                Ok([if count == 0 { 1 } else { 2 }, count as u64, 0])
            }),
            None => Refusal::Room.number(),
        }
    }
}

/// Fills the answer: with what the call says, or with zeros when it is refused,
/// but for the damage that the refusal names. Only calls whose answer has a number
/// for it can be refused so. An answer array that is too short is refused before
/// that and left alone.
fn answered<const A: usize>(
    answer: &mut [u64],
    call: impl FnOnce() -> Result<[u64; A], Refusal>,
) -> u64 {
    let answer = match front_mut::<A>(answer) {
        Some(answer) => answer,
        None => return Refusal::Room.number(),
    };
    match call() {
        Ok(said) => {
            *answer = said;
            0
        }
        Err(refusal) => {
            *answer = [0; A];
            if let (Some(last), Some(damage)) = (answer.last_mut(), refusal.damage()) {
                *last = damage.number();
            }
            refusal.number()
        }
    }
}

/// The same with settings and a record, whose arrays must be long enough too.
fn with_record<const S: usize, const R: usize, const A: usize>(
    settings: &[u64],
    record: &mut [u64],
    answer: &mut [u64],
    call: impl FnOnce(&[u64; S], &mut [u64; R]) -> Result<[u64; A], Refusal>,
) -> u64 {
    match (front(settings), front_mut(record)) {
        (Some(settings), Some(record)) => answered(answer, || call(settings, record)),
        _ => Refusal::Room.number(),
    }
}

/// The first `N` entries of an array, if it has as many.
fn front<const N: usize>(array: &[u64]) -> Option<&[u64; N]> {
    array.get(..N)?.try_into().ok()
}

fn front_mut<const N: usize>(array: &mut [u64]) -> Option<&mut [u64; N]> {
    array.get_mut(..N)?.try_into().ok()
}

/// Whether this many octets from `start` lie in a buffer.
fn lies_in(buffer: &[u8], start: u64, size: u64) -> bool {
    start.checked_add(size).map_or(false, |end| end <= buffer.len() as u64)
}

/// A number in the type that the rules use for it; one too great is out of range.
fn number<T: TryFrom<u64>>(value: u64) -> Result<T, Refusal> {
    T::try_from(value).map_err(|_| Refusal::Range)
}

/// A setting that is 0 or 1; any other is out of range.
fn yes_or_no(value: u64) -> Result<bool, Refusal> {
    match value {
        0 => Ok(false),
        1 => Ok(true),
        _ => Err(Refusal::Range),
    }
}

/// The edition of this number; any other is out of range.
fn numbered_edition(value: u64) -> Result<Edition, Refusal> {
    Edition::ALL.into_iter().find(|edition| edition.number() == value).ok_or(Refusal::Range)
}

/// A count in a record; one too great stays too great.
fn fitted(value: u64) -> u32 {
    value.try_into().unwrap_or(u32::MAX)
}

fn read_space_fields(header: &[u64; SPACE_HEADER]) -> Result<space::Fields, Refusal> {
    let [version, packet_type, secondary, apid, flags, count, length] = *header;
    Ok(space::Fields {
        version: number(version)?,
        packet_type: number(packet_type)?,
        secondary: number(secondary)?,
        apid: number(apid)?,
        flags: number(flags)?,
        count: number(count)?,
        length: number(length)?,
    })
}

fn read_settings(settings: &[u64; SETTINGS]) -> Result<Settings, Refusal> {
    let [spacecraft, channel, zone, limit, fill, trailer, edition] = *settings;
    Ok(Settings {
        spacecraft: number(spacecraft)?,
        channel: number(channel)?,
        zone: number(zone)?,
        limit: number(limit)?,
        fill: number(fill)?,
        trailer: yes_or_no(trailer)?,
        edition: numbered_edition(edition)?,
    })
}

fn read_bit_settings(settings: &[u64; BIT_SETTINGS]) -> Result<bitstream::Settings, Refusal> {
    let [spacecraft, channel, width, fill, trailer, edition] = *settings;
    Ok(bitstream::Settings {
        spacecraft: number(spacecraft)?,
        channel: number(channel)?,
        width: number(width)?,
        fill: number(fill)?,
        trailer: yes_or_no(trailer)?,
        edition: numbered_edition(edition)?,
    })
}

fn read_mux(record: &[u64; MUX]) -> multiplexer::Record {
    let [count, filled, first, taken] = *record;
    multiplexer::Record {
        count: fitted(count),
        filled: filled as usize,
        // Past 2,047 there is no place in a zone, so the greatest stands for them all.
        first: first.try_into().unwrap_or(u16::MAX),
        taken: taken as usize,
    }
}

fn mux_numbers(record: &multiplexer::Record) -> [u64; MUX] {
    let multiplexer::Record { count, filled, first, taken } = *record;
    [count.into(), filled as u64, first.into(), taken as u64]
}

/// Numbers that stand for no record are read as one that no call leaves.
fn read_extractor(record: &[u64; EXTRACTOR]) -> extractor::Record {
    use extractor::Record;
    match *record {
        [0, 0, 0, 0] => Record::Fresh,
        [1, last, 0, 0] => Record::OutOfStep { last: fitted(last) },
        [2, last, held, 0] => Record::InStep { last: fitted(last), held: held as usize },
        [3, last, held, at] => {
            Record::Walking { last: fitted(last), held: held as usize, at: at as usize }
        }
        [4, last, 0, 0] => Record::Leaving { last: fitted(last) },
        _ => Record::Leaving { last: u32::MAX },
    }
}

fn extractor_numbers(record: &extractor::Record) -> [u64; EXTRACTOR] {
    use extractor::Record;
    match *record {
        Record::Fresh => [0, 0, 0, 0],
        Record::OutOfStep { last } => [1, last.into(), 0, 0],
        Record::InStep { last, held } => [2, last.into(), held as u64, 0],
        Record::Walking { last, held, at } => [3, last.into(), held as u64, at as u64],
        Record::Leaving { last } => [4, last.into(), 0, 0],
    }
}

pub(crate) fn entered_numbers(entered: &extractor::Entered) -> [u64; ENTERED] {
    let extractor::Entered { count, replay, lost, dropped, reason } = *entered;
    let damage = reason.damage().map_or(0, Damage::number);
    [1, count.into(), replay.into(), lost.into(), dropped as u64, reason.number(), damage]
}

/// Numbers that stand for no record are read as one that no call leaves.
fn read_judge(record: &[u64; JUDGE]) -> judge::Record {
    use judge::Record;
    match *record {
        [0, 0, 0, 0] => Record::Open,
        [1, tally, last, held] => {
            Record::Sound { tally: fitted(tally), last: fitted(last), held: held as usize }
        }
        [2, tally, at, 0] => Record::Faulty { tally: fitted(tally), at: fitted(at) },
        _ => Record::Faulty { tally: 0, at: 0 },
    }
}

fn judge_numbers(record: &judge::Record) -> [u64; JUDGE] {
    use judge::Record;
    match *record {
        Record::Open => [0, 0, 0, 0],
        Record::Sound { tally, last, held } => [1, tally.into(), last.into(), held as u64],
        Record::Faulty { tally, at } => [2, tally.into(), at.into(), 0],
    }
}

/// Numbers that stand for no record are read as one that no call leaves.
fn read_bit_reader(record: &[u64; BIT_READER]) -> Reader {
    match *record {
        [0, 0, 0] => Reader::START,
        [1, last, 0] => Reader { last: Some(fitted(last)), waiting: false },
        [1, last, 1] => Reader { last: Some(fitted(last)), waiting: true },
        _ => Reader { last: Some(u32::MAX), waiting: false },
    }
}

/// A list of APIDs and destinations in turn.
fn read_entries(numbers: &[u64]) -> Vec<Entry> {
    numbers.chunks_exact(2).map(|pair| Entry { apid: pair[0], destination: pair[1] }).collect()
}

/// Numbers that stand for no table are read as one that no load leaves.
fn read_table(numbers: &[u64; RELAY]) -> Table {
    let [count, places @ ..] = numbers;
    let entries = read_entries(places);
    let used = usize::try_from(*count).unwrap_or(usize::MAX);
    let unused = Entry { apid: 0, destination: 0 };
    match entries.get(used..) {
        Some(rest) if rest.iter().all(|entry| *entry == unused) => {
            Table { entries: entries[..used].to_vec() }
        }
        _ => Table { entries: vec![Entry { apid: u64::MAX, destination: 0 }] },
    }
}

fn table_numbers(table: &Table) -> [u64; RELAY] {
    let mut numbers = [0; RELAY];
    numbers[0] = table.entries.len() as u64;
    for (place, entry) in numbers[1..].chunks_exact_mut(2).zip(&table.entries) {
        place.copy_from_slice(&[entry.apid, entry.destination]);
    }
    numbers
}
