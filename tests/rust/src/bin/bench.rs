//! What the library takes, beside the reference in Rust and the plain extractor.
//!
//! The script `bench` at the top of the project calls it:
//!
//! ```text
//! bench run FRAMES                        writes a run file
//! bench read                              the reference's program: a run file in, its report out
//! bench compare FRAMES                    compares all that the sides of each work say
//! bench work WORK SIDE FRAMES ROUNDS      does the work so often, for a counter of instructions
//! bench times FRAMES ROUNDS RUN PROGRAM   a line `WORK SIDE NANOSECONDS` for each, of a frame in the
//!                                         best round; RUN is a run file of as many frames
//! ```
//!
//! The input is made first, and all sides are lent the same buffers. A work whose name ends in
//! `-trailer` is the one of the name before that, on frames with trailers, and one whose name ends in
//! `-cycle` on frames whose counts have a cycle above them. `judge-tape` is `judge` with the same
//! frames handed over in tapes.

use std::env;
use std::error::Error;
use std::fs::File;
use std::io::{self, Read, Write};
use std::process::{Command, ExitCode, Stdio};
use std::time::{Duration, Instant};

use itzahuemo_reference::calls::{self, Calls, Reference};
use itzahuemo_reference::cases::setup_record;
use itzahuemo_reference::ffi::Library;
use itzahuemo_reference::generate;
use itzahuemo_reference::hearing::{ByCalls, Hearing};
use itzahuemo_reference::plain::{self, Event};
use itzahuemo_reference::random::Random;
use itzahuemo_reference::reference::edition::Edition;
use itzahuemo_reference::reference::extractor::{self, Step};
use itzahuemo_reference::reference::frame::Settings;
use itzahuemo_reference::reference::runfile::{self, aosread};
use itzahuemo_reference::reference::{judge, multiplexer, relay};

const SEED: u64 = 7_321;

const CHANNEL: Settings = Settings {
    spacecraft: 66,
    channel: 3,
    zone: 1_000,
    limit: 1_024,
    fill: 0x55,
    trailer: false,
    edition: Edition::Former,
};

const WITH_TRAILER: Settings = Settings { trailer: true, ..CHANNEL };

const WITH_CYCLE: Settings = Settings { edition: Edition::CycleUsed, ..CHANNEL };

const CHANNELS: [Settings; 3] = [CHANNEL, WITH_TRAILER, WITH_CYCLE];

/// Frames on a tape: so many that what a call takes beside them hardly shows, and so few that those
/// counted or timed make several tapes, with the record going on from one to the next.
const TAPE: usize = 1_000;

/// The channel of a work.
fn channel_of(work: &str) -> Settings {
    if work.ends_with("-trailer") {
        WITH_TRAILER
    } else if work.ends_with("-cycle") {
        WITH_CYCLE
    } else {
        CHANNEL
    }
}

fn main() -> ExitCode {
    let arguments: Vec<String> = env::args().skip(1).collect();
    let arguments: Vec<&str> = arguments.iter().map(String::as_str).collect();
    match done(&arguments) {
        Ok(()) => ExitCode::SUCCESS,
        Err(error) => {
            eprintln!("bench: {error}");
            ExitCode::FAILURE
        }
    }
}

fn done(arguments: &[&str]) -> Result<(), Box<dyn Error>> {
    match *arguments {
        ["run", frames] => write_run(frames.parse()?),
        ["read"] => read_run(),
        ["compare", frames] => {
            let frames = frames.parse()?;
            CHANNELS.into_iter().try_for_each(|channel| compare(&Input::new(channel, frames)))
        }
        ["work", work, side, frames, rounds] => {
            let side = side_of(work, side)?;
            let input = Input::new(channel_of(work), frames.parse()?);
            let mut output = vec![0; input.frames.len()];
            for _ in 0..rounds.parse()? {
                side(&input, &mut output);
            }
            Ok(())
        }
        ["times", frames, rounds, run, program] => {
            let frames = frames.parse()?;
            let inputs = CHANNELS.map(|channel| Input::new(channel, frames));
            times(&inputs, rounds.parse()?, run, program)
        }
        _ => Err("no such use; its source says which there are".into()),
    }
}

/// A transmitter's packets of 7 to 1,024 octets, and the frames that they fill.
struct Input {
    /// Those of the channel, as numbers that no side is compiled with.
    settings: Settings,
    packets: Vec<Vec<u8>>,
    /// Frames, end to end.
    frames: Vec<u8>,
}

impl Input {
    fn new(settings: Settings, frames: usize) -> Input {
        let mut random = Random::new(SEED);
        let octets = vec![0; frames * settings.frame_length()];
        let mut input = Input { settings, packets: Vec::new(), frames: octets };
        let mut record = multiplexer::Record::START;
        for frame in input.frames.chunks_exact_mut(settings.frame_length()) {
            let mut full = false;
            while !full {
                if record.taken == 0 {
                    let total = random.within(7, 1_024);
                    input.packets.push(generate::packet_of(&mut random, total));
                }
                let packet = input.packets.last().expect("a packet is in work");
                let put = multiplexer::put(&settings, &mut record, packet, frame);
                full = put.expect("a well-formed packet at its moment").full;
            }
        }
        input
    }

    fn frames(&self) -> impl Iterator<Item = &[u8]> {
        self.frames.chunks_exact(self.settings.frame_length())
    }

    /// The same frames on tapes, the last of which may have fewer.
    fn tapes(&self) -> impl Iterator<Item = &[u8]> {
        self.frames.chunks(TAPE * self.settings.frame_length())
    }
}

/// What came of a work: numbers that every side of it must have.
type Outcome = [u64; 4];

/// One way to do a work on the input; what it writes goes to the lent octets.
type Side = fn(&Input, &mut [u8]) -> Outcome;

/// Every work with its sides, the library's first.
const SIDES: [(&str, &str, Side); 19] = [
    ("extractor", "library", extractor_by_library),
    ("extractor", "reference", extractor_by_reference),
    ("extractor", "plain", extractor_by_plain),
    ("multiplexer", "library", multiplexer_by_library),
    ("multiplexer", "reference", multiplexer_by_reference),
    ("judge", "library", judge_by_library),
    ("judge", "reference", judge_by_reference),
    ("judge-tape", "library", judge_tape_by_library),
    ("judge-tape", "reference", judge_tape_by_reference),
    ("relay", "library", relay_by_library),
    ("relay", "reference", relay_by_reference),
    ("extractor-trailer", "library", extractor_by_library),
    ("extractor-trailer", "reference", extractor_by_reference),
    ("extractor-trailer", "plain", extractor_by_plain),
    ("multiplexer-trailer", "library", multiplexer_by_library),
    ("multiplexer-trailer", "reference", multiplexer_by_reference),
    ("extractor-cycle", "library", extractor_by_library),
    ("extractor-cycle", "reference", extractor_by_reference),
    ("extractor-cycle", "plain", extractor_by_plain),
];

fn side_of(work: &str, side: &str) -> Result<Side, String> {
    let found = SIDES.iter().find(|known| (known.0, known.1) == (work, side));
    found.map(|known| known.2).ok_or_else(|| format!("no work {work} {side}"))
}

/// What was heard of all frames. The first and last octet of each packet are
/// looked at, so that it has to be where it is said to be.
#[derive(Default)]
struct Sum {
    lost: u64,
    packets: u64,
    octets: u64,
    ends: u64,
}

impl Sum {
    fn packet(&mut self, packet: &[u8]) {
        self.packets += 1;
        self.octets += packet.len() as u64;
        if let [first, .., last] = *packet {
            self.ends += u64::from(first) + u64::from(last);
        }
    }

    fn outcome(self) -> Outcome {
        [self.lost, self.packets, self.octets, self.ends]
    }
}

#[inline(never)]
fn extractor_by_library(input: &Input, _: &mut [u8]) -> Outcome {
    let mut sum = Sum::default();
    let settings = generate::settings_numbers(&input.settings);
    let mut store = vec![0; input.settings.limit];
    let mut record = [0; calls::EXTRACTOR];
    let mut entered = [0; calls::ENTERED];
    let mut step = [0; calls::STEP];
    for frame in input.frames() {
        let refusal = Library.extractor_enter(&settings, &mut record, &store, frame, &mut entered);
        assert_eq!(refusal, 0, "a frame of the channel");
        sum.lost += entered[3];
        loop {
            let refusal =
                Library.extractor_step(&settings, &mut record, &mut store, frame, &mut step);
            assert_eq!(refusal, 0, "a step at its moment");
            let [what, place, start, size, _] = step;
            match what {
                4 => break,
                1 | 2 => {
                    let buffer = if place == 1 { frame } else { &store[..] };
                    sum.packet(&buffer[start as usize..][..size as usize]);
                }
                _ => panic!("damage in a run that conforms"),
            }
        }
    }
    sum.outcome()
}

#[inline(never)]
fn extractor_by_reference(input: &Input, _: &mut [u8]) -> Outcome {
    let mut sum = Sum::default();
    let mut store = vec![0; input.settings.limit];
    let mut record = extractor::Record::Fresh;
    for frame in input.frames() {
        let entered = extractor::enter(&input.settings, &mut record, &store, frame);
        sum.lost += u64::from(entered.expect("a frame of the channel").lost);
        loop {
            match extractor::step(&input.settings, &mut record, &mut store, frame) {
                Ok(Step::Packet { part, .. }) => sum.packet(extractor::show(part, &store, frame)),
                Ok(Step::Spent) => break,
                other => panic!("{other:?} in a run that conforms"),
            }
        }
    }
    sum.outcome()
}

#[inline(never)]
fn extractor_by_plain(input: &Input, _: &mut [u8]) -> Outcome {
    let mut sum = Sum::default();
    let mut extractor = plain::Extractor::new(input.settings).expect("settings in range");
    for frame in input.frames() {
        extractor.feed(frame, |event| match event {
            Event::Entered(entered) => sum.lost += u64::from(entered.lost),
            Event::Packet { octets, .. } => sum.packet(octets),
            other => panic!("{other:?} in a run that conforms"),
        });
    }
    sum.outcome()
}

#[inline(never)]
fn multiplexer_by_library(input: &Input, output: &mut [u8]) -> Outcome {
    let settings = generate::settings_numbers(&input.settings);
    let mut record = [0; calls::MUX];
    assert_eq!(Library.mux_begin(&mut record), 0, "room for a record");
    let mut put = [0; calls::PUT];
    let mut packets = input.packets.iter();
    let mut packet = packets.next();
    for frame in output.chunks_exact_mut(input.settings.frame_length()) {
        while let Some(octets) = packet {
            let refusal = Library.mux_put(&settings, &mut record, octets, frame, &mut put);
            assert_eq!(refusal, 0, "a well-formed packet at its moment");
            let [full, taken, _] = put;
            if taken == 1 {
                packet = packets.next();
            }
            if full == 1 {
                break;
            }
        }
    }
    record
}

#[inline(never)]
fn multiplexer_by_reference(input: &Input, output: &mut [u8]) -> Outcome {
    let mut record = multiplexer::Record::START;
    let mut packets = input.packets.iter();
    let mut packet = packets.next();
    for frame in output.chunks_exact_mut(input.settings.frame_length()) {
        while let Some(octets) = packet {
            let put = multiplexer::put(&input.settings, &mut record, octets, frame)
                .expect("a well-formed packet at its moment");
            if put.taken {
                packet = packets.next();
            }
            if put.full {
                break;
            }
        }
    }
    let multiplexer::Record { count, filled, first, taken } = record;
    [count.into(), filled as u64, first.into(), taken as u64]
}

#[inline(never)]
fn judge_by_library(input: &Input, _: &mut [u8]) -> Outcome {
    let settings = generate::settings_numbers(&input.settings);
    let mut store = vec![0; input.settings.limit];
    let mut record = [0; calls::JUDGE];
    for frame in input.frames() {
        let refusal = Library.judge_frame(&settings, &mut record, &mut store, frame);
        assert_eq!(refusal, 0, "fewer frames than the judge's last");
    }
    closed_by_library(&settings, &record, &store)
}

#[inline(never)]
fn judge_tape_by_library(input: &Input, _: &mut [u8]) -> Outcome {
    let settings = generate::settings_numbers(&input.settings);
    let mut store = vec![0; input.settings.limit];
    let mut record = [0; calls::JUDGE];
    for tape in input.tapes() {
        let refusal = Library.judge_tape(&settings, &mut record, &mut store, tape);
        assert_eq!(refusal, 0, "whole frames, fewer than the judge's last");
    }
    closed_by_library(&settings, &record, &store)
}

fn closed_by_library(settings: &[u64], record: &[u64], store: &[u8]) -> Outcome {
    let mut verdict = [0; calls::VERDICT];
    assert_eq!(Library.judge_close(settings, record, store, &mut verdict), 0, "a record");
    let [what, at] = verdict;
    [what, at, record[1], 0]
}

#[inline(never)]
fn judge_by_reference(input: &Input, _: &mut [u8]) -> Outcome {
    let mut store = vec![0; input.settings.limit];
    let mut record = judge::Record::Open;
    for frame in input.frames() {
        let taken = judge::frame(&input.settings, &mut record, &mut store, frame);
        taken.expect("fewer frames than the judge's last");
    }
    closed_by_reference(&input.settings, &record, &store)
}

#[inline(never)]
fn judge_tape_by_reference(input: &Input, _: &mut [u8]) -> Outcome {
    let mut store = vec![0; input.settings.limit];
    let mut record = judge::Record::Open;
    for tape in input.tapes() {
        let taken = judge::tape(&input.settings, &mut record, &mut store, tape);
        taken.expect("whole frames, fewer than the judge's last");
    }
    closed_by_reference(&input.settings, &record, &store)
}

fn closed_by_reference(settings: &Settings, record: &judge::Record, store: &[u8]) -> Outcome {
    match judge::close(settings, record, store).expect("a record") {
        judge::Verdict::Pass => [1, 0, record.tally().into(), 0],
        judge::Verdict::Fault(at) => [2, at.into(), record.tally().into(), 0],
    }
}

/// A full table: two destinations for each of the first APIDs of the run.
fn full_table(input: &Input) -> Vec<relay::Entry> {
    let mut entries = Vec::new();
    for packet in &input.packets {
        let first = u16::from_be_bytes([packet[0], packet[1]]);
        let apid = u64::from(first % 2_048);
        let listed = entries.iter().any(|entry: &relay::Entry| entry.apid == apid);
        if first >> 13 == 0 && apid <= relay::LAST_APID && !listed {
            let place = entries.len() as u64;
            entries
                .extend([place, place + 1].map(|destination| relay::Entry { apid, destination }));
        }
        if entries.len() == relay::MOST_ENTRIES {
            break;
        }
    }
    entries
}

/// Packets without a path and with one, and their destinations.
fn routed(outcome: &mut Outcome, destinations: &[u8]) {
    outcome[usize::from(!destinations.is_empty())] += 1;
    outcome[2] += destinations.iter().map(|&destination| u64::from(destination)).sum::<u64>();
}

#[inline(never)]
fn relay_by_library(input: &Input, _: &mut [u8]) -> Outcome {
    let entries = full_table(input);
    let entries: Vec<u64> =
        entries.iter().flat_map(|entry| [entry.apid, entry.destination]).collect();
    let mut table = [0; calls::RELAY];
    assert_eq!(Library.relay_load(&entries, &mut table), 0, "a table");
    let mut destinations = [0; relay::MOST_ENTRIES];
    let mut answer = [0; calls::ROUTED];
    let mut outcome = [0; 4];
    for packet in &input.packets {
        let limit = input.settings.limit as u64;
        let refusal = Library.relay_route(limit, &table, packet, &mut destinations, &mut answer);
        assert_eq!(refusal, 0, "a well-formed packet");
        routed(&mut outcome, &destinations[..answer[1] as usize]);
    }
    outcome
}

#[inline(never)]
fn relay_by_reference(input: &Input, _: &mut [u8]) -> Outcome {
    let table = relay::load(&full_table(input)).expect("a table");
    let mut destinations = [0; relay::MOST_ENTRIES];
    let mut outcome = [0; 4];
    for packet in &input.packets {
        let count = relay::route(input.settings.limit, &table, packet, &mut destinations);
        routed(&mut outcome, &destinations[..count.expect("a well-formed packet")]);
    }
    outcome
}

/// Every event of the extractors, every record of the judges, frame by frame and tape by
/// tape, every frame of the multiplexers, and what comes of each work on this channel.
fn compare(input: &Input) -> Result<(), Box<dyn Error>> {
    compare_frames(input)?;
    compare_tapes(input)?;
    compare_works(input)
}

const JUDGING: [&dyn Calls; 2] = [&Library, &Reference];

/// A judge's record and its store.
type Judge = ([u64; calls::JUDGE], [u8; CHANNEL.limit]);

const NO_FRAME_YET: Judge = ([0; calls::JUDGE], [0; CHANNEL.limit]);

fn compare_frames(input: &Input) -> Result<(), Box<dyn Error>> {
    let mut extractors: [Box<dyn Hearing>; 3] = [
        Box::new(ByCalls::new(&Library, input.settings)),
        Box::new(ByCalls::new(&Reference, input.settings)),
        Box::new(plain::Extractor::new(input.settings).expect("settings in range")),
    ];
    let settings = generate::settings_numbers(&input.settings);
    let mut judges = [NO_FRAME_YET; 2];
    for (place, frame) in input.frames().enumerate() {
        let [library, reference, plain] = &mut extractors;
        let heard = library.hear(frame);
        if heard != reference.hear(frame) || heard != plain.hear(frame) {
            return Err(format!("the extractors differ in frame {place}").into());
        }
        for (calls, (record, store)) in JUDGING.iter().zip(&mut judges) {
            calls.judge_frame(&settings, record, store, frame);
        }
        if judges[0] != judges[1] {
            return Err(format!("the judges differ in frame {place}").into());
        }
    }
    Ok(())
}

/// Each side's judge has the same from a tape as from its frames.
fn compare_tapes(input: &Input) -> Result<(), Box<dyn Error>> {
    let settings = generate::settings_numbers(&input.settings);
    let (mut singly, mut taped) = ([NO_FRAME_YET; 2], [NO_FRAME_YET; 2]);
    for (place, tape) in input.tapes().enumerate() {
        for (calls, (record, store)) in JUDGING.iter().zip(&mut singly) {
            for frame in tape.chunks_exact(input.settings.frame_length()) {
                calls.judge_frame(&settings, record, store, frame);
            }
        }
        for (calls, (record, store)) in JUDGING.iter().zip(&mut taped) {
            calls.judge_tape(&settings, record, store, tape);
        }
        if taped != singly || taped[0] != taped[1] {
            return Err(format!("the judges differ in tape {place}").into());
        }
    }
    Ok(())
}

fn compare_works(input: &Input) -> Result<(), Box<dyn Error>> {
    let mut expected = [0; 4];
    for (work, name, side) in SIDES {
        if channel_of(work) != input.settings {
            continue;
        }
        let mut output = vec![0; input.frames.len()];
        let outcome = side(input, &mut output);
        if name == "library" {
            expected = outcome;
        }
        let written = !work.starts_with("multiplexer") || output == input.frames;
        if outcome != expected || !written {
            return Err(format!("{work}: {name} and the library differ").into());
        }
    }
    Ok(())
}

fn write_run(frames: usize) -> Result<(), Box<dyn Error>> {
    let mut out = io::BufWriter::new(io::stdout().lock());
    out.write_all(&setup_record(&CHANNEL))?;
    for frame in Input::new(CHANNEL, frames).frames() {
        out.write_all(&[runfile::FRAME])?;
        out.write_all(frame)?;
    }
    out.write_all(&[runfile::END])?;
    Ok(out.flush()?)
}

fn read_run() -> Result<(), Box<dyn Error>> {
    let mut run = Vec::new();
    io::stdin().read_to_end(&mut run)?;
    Ok(io::stdout().write_all(aosread(&run).as_bytes())?)
}

/// The best round of each side. In a round every side has its turn. The inputs are one for each
/// channel.
fn times(
    inputs: &[Input; CHANNELS.len()],
    rounds: usize,
    run: &str,
    program: &str,
) -> Result<(), Box<dyn Error>> {
    let own = env::current_exe()?;
    let programs = [
        ("program", "library", vec![program.as_ref()]),
        ("program", "reference", vec![own.as_os_str(), "read".as_ref()]),
    ];
    let input_of = |work: &str| {
        let of_channel = inputs.iter().find(|input| input.settings == channel_of(work));
        of_channel.expect("an input for each channel")
    };
    let longest = inputs.iter().map(|input| input.frames.len()).max();
    let mut output = vec![0; longest.unwrap_or(0)];
    let mut best = [Duration::MAX; SIDES.len() + 2];
    for _ in 0..rounds {
        let (by_call, by_program) = best.split_at_mut(SIDES.len());
        for ((work, _, side), best) in SIDES.iter().zip(by_call) {
            let input = input_of(work);
            let output = &mut output[..input.frames.len()];
            let start = Instant::now();
            side(input, output);
            *best = start.elapsed().min(*best);
        }
        for ((_, _, words), best) in programs.iter().zip(by_program) {
            let mut command = Command::new(words[0]);
            command.args(&words[1..]).stdin(File::open(run)?).stdout(Stdio::null());
            let start = Instant::now();
            command.status()?;
            *best = start.elapsed().min(*best);
        }
    }
    let names = SIDES.iter().map(|side| (side.0, side.1));
    let names = names.chain(programs.iter().map(|program| (program.0, program.1)));
    let frames = inputs[0].frames().count() as u128;
    for ((work, side), best) in names.zip(best) {
        println!("{work} {side} {}", best.as_nanos() / frames);
    }
    Ok(())
}
