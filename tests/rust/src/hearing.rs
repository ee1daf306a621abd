//! What an extractor makes of frames, in one shape for all of them, so that they can be compared
//! event by event.

use crate::calls::{self, Calls, ENTERED, EXTRACTOR, SHOWN, STEP};
use crate::generate;
use crate::plain::{Event, Extractor};
use crate::random::Random;
use crate::reference::frame::Settings;

/// An event: the numbers with which the C interface says it, and the octets of a packet.
#[derive(Clone, Debug, PartialEq, Eq)]
pub struct Heard {
    pub numbers: Vec<u64>,
    pub octets: Vec<u8>,
}

impl Heard {
    fn of(numbers: &[u64], octets: &[u8]) -> Heard {
        Heard { numbers: numbers.to_vec(), octets: octets.to_vec() }
    }
}

/// An extractor of one channel.
pub trait Hearing {
    /// All that is heard of the next frame: one number that refuses it, or the numbers of its entry
    /// and three for each step but the last, what it says, the octets of the packet and the damage.
    fn hear(&mut self, frame: &[u8]) -> Vec<Heard>;
}

/// The extractor of a set of calls.
pub struct ByCalls<'a> {
    calls: &'a dyn Calls,
    settings: Settings,
    record: [u64; EXTRACTOR],
    store: Vec<u8>,
}

impl ByCalls<'_> {
    pub fn new(calls: &dyn Calls, settings: Settings) -> ByCalls<'_> {
        ByCalls { calls, settings, record: [0; EXTRACTOR], store: vec![0; settings.limit] }
    }
}

impl Hearing for ByCalls<'_> {
    fn hear(&mut self, frame: &[u8]) -> Vec<Heard> {
        let ByCalls { calls, settings, record, store } = self;
        let numbers = generate::settings_numbers(settings);
        let mut entered = [0; ENTERED];
        let refusal = calls.extractor_enter(&numbers, record, store, frame, &mut entered);
        if refusal != 0 {
            return vec![Heard::of(&[refusal], &[])];
        }
        let mut heard = vec![Heard::of(&entered, &[])];
        // More steps than this no zone has, with the one that says that it is spent.
        for _ in 0..=settings.zone {
            let (mut step, mut shown) = ([0; STEP], [0; SHOWN]);
            calls.extractor_step(&numbers, record, store, frame, &mut step);
            calls.show(&step, frame, store, &mut shown);
            let [place, start, size] = shown.map(|number| number as usize);
            match step[0] {
                4 => break,
                what => {
                    let buffer = if place == 1 { frame } else { &store[..] };
                    let numbers = [what, shown[2], step[4]];
                    heard.push(Heard::of(&numbers, &buffer[start..][..size]));
                }
            }
        }
        heard
    }
}

impl Hearing for Extractor {
    fn hear(&mut self, frame: &[u8]) -> Vec<Heard> {
        let mut heard = Vec::new();
        self.feed(frame, |event| {
            heard.push(match event {
                Event::Refused(refusal) => Heard::of(&[refusal.number()], &[]),
                Event::Entered(entered) => Heard::of(&calls::entered_numbers(&entered), &[]),
                Event::Packet { idle, octets } => {
                    Heard::of(&[if idle { 2 } else { 1 }, octets.len() as u64, 0], octets)
                }
                Event::Damaged(damage) => Heard::of(&[3, 0, damage.number()], &[]),
            })
        });
        heard
    }
}

/// Gives the run of this seed to the plain extractor and to that of these calls, and answers all
/// that is heard of it, or the first frame in which they differ.
pub fn plain_session(calls: &dyn Calls, seed: u64) -> Result<Vec<Heard>, String> {
    let mut random = Random::new(seed);
    let settings = generate::settings(&mut random);
    let mut plain = Extractor::new(settings).expect("settings in range");
    let mut other = ByCalls::new(calls, settings);
    let mut all = Vec::new();
    for (place, frame) in generate::some_run(&mut random, &settings).iter().enumerate() {
        let (heard, by_calls) = (plain.hear(frame), other.hear(frame));
        if heard != by_calls {
            return Err(format!("frame {place}: {heard:x?} and {by_calls:x?} (plain first)"));
        }
        all.extend(heard);
    }
    Ok(all)
}
