//! Reads a run file from standard input, and prints what the program `aosread` prints of it.

use std::io::{self, BufWriter, Read, Write};

use itzahuemo::{Event, Extractor, Judge, Kind, Packet, Settings, Verdict};

const SETUP: u8 = 1;
const FRAME: u8 = 2;
const END: u8 = 3;

/// The octets of a setup's body.
const SETUP_BODY: usize = 7;
/// The greatest limit of a run file.
const MOST_LIMIT: usize = 4_096;

/// The records not yet taken, and the number of the one that is read.
struct Records<'a> {
    rest: &'a [u8],
    number: u64,
}

impl<'a> Records<'a> {
    fn take(&mut self, size: usize) -> Option<&'a [u8]> {
        let taken = self.rest.get(..size)?;
        self.rest = &self.rest[size..];
        Some(taken)
    }

    fn kind(&mut self) -> Option<u8> {
        self.take(1).map(|kind| kind[0])
    }
}

fn setup(records: &mut Records) -> Option<Settings> {
    if records.kind()? != SETUP {
        return None;
    }
    let body: [u8; SETUP_BODY] = records.take(SETUP_BODY)?.try_into().ok()?;
    let [spacecraft, channel, z1, z0, m2, m1, m0] = body;
    let zone = usize::from(u16::from_be_bytes([z1, z0]));
    let limit = u32::from_be_bytes([0, m2, m1, m0]) as usize;
    Settings::new(spacecraft, channel, zone, limit).ok().filter(|_| limit <= MOST_LIMIT)
}

fn packet(out: &mut impl Write, packet: &Packet) -> io::Result<()> {
    let total = packet.header.total;
    match packet.header.kind {
        _ if packet.header.idle => writeln!(out, "idle {total}"),
        Kind::Space { apid } => writeln!(out, "space {apid} {total}"),
        Kind::Encapsulation { protocol } => writeln!(out, "encap {protocol} {total}"),
    }
}

fn frame(out: &mut impl Write, extractor: &mut Extractor, frame: &[u8]) -> io::Result<()> {
    let events = match extractor.feed(frame) {
        Ok(events) => events,
        Err(refusal) => return writeln!(out, "refused {}", refusal.number()),
    };
    for event in events {
        match event {
            Event::Entered(entered) => writeln!(
                out,
                "frame {} lost {} dropped {} reason {}",
                entered.count,
                entered.lost,
                entered.dropped,
                entered.reason.number()
            )?,
            Event::Packet(found) => packet(out, &found)?,
            Event::Damaged(damage) => writeln!(out, "damaged {}", damage.number())?,
        }
    }
    Ok(())
}

/// The verdict, or nothing where the present record is bad.
fn report(out: &mut impl Write, records: &mut Records) -> io::Result<Option<Verdict>> {
    let settings = match setup(records) {
        Some(settings) => settings,
        None => return Ok(None),
    };
    writeln!(
        out,
        "setup {} {} zone {} limit {}",
        settings.spacecraft(),
        settings.channel(),
        settings.zone(),
        settings.limit()
    )?;
    let mut extractor = Extractor::new(settings);
    let mut judge = Judge::new(settings);
    loop {
        records.number += 1;
        match records.kind() {
            Some(FRAME) => match records.take(settings.frame_length()) {
                Some(octets) if judge.frame(octets).is_ok() => frame(out, &mut extractor, octets)?,
                _ => return Ok(None),
            },
            Some(END) => break,
            _ => return Ok(None),
        }
    }
    records.number += 1;
    Ok(records.rest.is_empty().then(|| judge.verdict()))
}

fn main() -> io::Result<()> {
    let mut input = Vec::new();
    io::stdin().read_to_end(&mut input)?;
    let mut out = BufWriter::new(io::stdout());
    let mut records = Records { rest: &input, number: 0 };
    match report(&mut out, &mut records)? {
        Some(Verdict::Pass) => writeln!(out, "pass"),
        Some(Verdict::Fault(index)) => writeln!(out, "fault {index}"),
        None => writeln!(out, "bad record {}", records.number),
    }?;
    out.flush()
}
