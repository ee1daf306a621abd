//! The program `aosread`: a recorded run in, a report out.
//!
//! A run is a row of records. Each has one octet of kind and a body whose length
//! the kind fixes: a setup, then frames, then an end, then nothing.

use std::fmt::Write;

use super::edition::Edition;
use super::extractor::{self, Step};
use super::frame::Settings;
use super::judge::{self, Verdict};
use super::packet::Kind;

/// The kinds of a record.
pub const SETUP: u8 = 1;
pub const FRAME: u8 = 2;
pub const END: u8 = 3;

/// The program's own bound on a packet's total length.
pub const MOST_LIMIT: usize = 4_096;

/// Octets of a setup's body.
const SETUP_BODY: usize = 7;

/// The report of the program on a whole input.
pub fn aosread(input: &[u8]) -> String {
    let mut text = String::new();
    let mut records = Records { rest: input, number: 0 };
    match report(&mut records, &mut text) {
        Some(Verdict::Pass) => line(&mut text, format_args!("pass")),
        Some(Verdict::Fault(index)) => line(&mut text, format_args!("fault {index}")),
        None => line(&mut text, format_args!("bad record {}", records.number)),
    }
    text
}

/// Goes through the records; answers nothing when the present one is bad.
fn report(records: &mut Records, text: &mut String) -> Option<Verdict> {
    if records.kind()? != SETUP {
        return None;
    }
    let settings = setup(records.body(SETUP_BODY)?)?;
    let Settings { spacecraft, channel, zone, limit, .. } = settings;
    line(text, format_args!("setup {spacecraft} {channel} zone {zone} limit {limit}"));

    let mut listener = Listener::new(settings);
    let mut record = judge::Record::Open;
    let mut store = vec![0; limit];
    loop {
        records.turn();
        match records.kind()? {
            FRAME => {
                let frame = records.body(settings.frame_length())?;
                judge::frame(&settings, &mut record, &mut store, frame).ok()?;
                listener.hear(frame, text);
            }
            END => break,
            _ => return None,
        }
    }
    records.turn();
    if !records.rest.is_empty() {
        return None;
    }
    judge::close(&settings, &record, &store).ok()
}

/// The settings that a setup states, if they are in range.
fn setup(body: &[u8]) -> Option<Settings> {
    let settings = match *body {
        [spacecraft, channel, z1, z0, m2, m1, m0] => Settings {
            spacecraft,
            channel,
            zone: usize::from(u16::from_be_bytes([z1, z0])),
            limit: u32::from_be_bytes([0, m2, m1, m0]) as usize,
            fill: 0,
            trailer: false,
            edition: Edition::Former,
        },
        _ => return None,
    };
    let fits = settings.check().is_ok() && settings.limit <= MOST_LIMIT;
    fits.then_some(settings)
}

/// The records not yet read, and the number of the present one.
struct Records<'a> {
    rest: &'a [u8],
    number: u64,
}

impl<'a> Records<'a> {
    fn kind(&mut self) -> Option<u8> {
        let (&kind, rest) = self.rest.split_first()?;
        self.rest = rest;
        Some(kind)
    }

    fn body(&mut self, size: usize) -> Option<&'a [u8]> {
        let body = self.rest.get(..size)?;
        self.rest = &self.rest[size..];
        Some(body)
    }

    fn turn(&mut self) {
        self.number += 1;
    }
}

/// An extractor that reports all it hears.
struct Listener {
    settings: Settings,
    record: extractor::Record,
    store: Vec<u8>,
}

impl Listener {
    fn new(settings: Settings) -> Listener {
        Listener { settings, record: extractor::Record::Fresh, store: vec![0; settings.limit] }
    }

    /// Enters a frame and steps it until it is spent.
    fn hear(&mut self, frame: &[u8], text: &mut String) {
        let Listener { settings, record, store } = self;
        match extractor::enter(settings, record, store, frame) {
            Ok(entered) => line(
                text,
                format_args!(
                    "frame {} lost {} dropped {} reason {}",
                    entered.count,
                    entered.lost,
                    entered.dropped,
                    entered.reason.number()
                ),
            ),
            Err(refusal) => {
                line(text, format_args!("refused {}", refusal.number()));
                return;
            }
        }
        loop {
            match extractor::step(settings, record, store, frame) {
                Ok(Step::Packet { kind, part }) => packet(text, kind, part.size()),
                Ok(Step::Damaged(damage)) => {
                    line(text, format_args!("damaged {}", damage.number()))
                }
                Ok(Step::Spent) | Err(_) => return,
            }
        }
    }
}

fn packet(text: &mut String, kind: Kind, size: usize) {
    match kind {
        _ if kind.is_idle() => line(text, format_args!("idle {size}")),
        Kind::Space { apid } => line(text, format_args!("space {apid} {size}")),
        Kind::Encapsulation { protocol } => line(text, format_args!("encap {protocol} {size}")),
    }
}

fn line(text: &mut String, words: std::fmt::Arguments) {
    writeln!(text, "{words}").expect("text grows as needed");
}
