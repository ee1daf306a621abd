//! An impostor that is made for the sessions to see through it: the reference, but for one call.

use itzahuemo_reference::calls::{Calls, Reference};
use itzahuemo_reference::each_call;
use itzahuemo_reference::orders::{make, Arguments};
use itzahuemo_reference::sessions::session;

const SESSIONS: u64 = 30_000;

/// A way to make a call.
pub type Way<'a> = &'a dyn Fn(&str, &mut Arguments) -> u64;

/// The reference, but for one call, which is made in its own way.
pub struct Impostor<'a> {
    pub call: &'a str,
    pub way: Way<'a>,
}

/// An argument of a call, lent among all of them and taken back.
trait Lent {
    fn lend(&self, name: &str, all: &mut Arguments);
    fn take_back(self, name: &str, all: &Arguments);
}

impl Lent for u64 {
    fn lend(&self, _: &str, all: &mut Arguments) {
        all.numbers.push(*self);
    }

    fn take_back(self, _: &str, _: &Arguments) {}
}

impl Lent for &[u64] {
    fn lend(&self, name: &str, all: &mut Arguments) {
        let place =
            if matches!(name, "record" | "table") { &mut all.record } else { &mut all.numbers };
        place.extend_from_slice(self);
    }

    fn take_back(self, _: &str, _: &Arguments) {}
}

impl Lent for &mut [u64] {
    fn lend(&self, name: &str, all: &mut Arguments) {
        let place = if name == "answer" { &mut all.answer } else { &mut all.record };
        place.extend_from_slice(self);
    }

    fn take_back(self, name: &str, all: &Arguments) {
        self.copy_from_slice(if name == "answer" { &all.answer } else { &all.record });
    }
}

impl Lent for &[u8] {
    fn lend(&self, name: &str, all: &mut Arguments) {
        let place = if name == "store" { &mut all.buffer } else { &mut all.octets };
        place.extend_from_slice(self);
    }

    fn take_back(self, _: &str, _: &Arguments) {}
}

impl Lent for &mut [u8] {
    fn lend(&self, _: &str, all: &mut Arguments) {
        all.buffer.extend_from_slice(self);
    }

    fn take_back(self, _: &str, all: &Arguments) {
        self.copy_from_slice(&all.buffer);
    }
}

macro_rules! the_impostor {
    ($($name:ident($($argument:ident: $type:ty),*);)*) => {
        impl Calls for Impostor<'_> {
            $(fn $name(&self, $($argument: $type),*) -> u64 {
                let call = stringify!($name);
                if call != self.call {
                    return Reference.$name($($argument),*);
                }
                let mut all = Arguments::default();
                $($argument.lend(stringify!($argument), &mut all);)*
                let refusal = (self.way)(call, &mut all);
                $($argument.take_back(stringify!($argument), &all);)*
                refusal
            })*
        }
    };
}

each_call!(the_impostor);

pub fn by_reference(call: &str, all: &mut Arguments) -> u64 {
    make(&Reference, call, all)
}

/// The call in which the comparison first sees through an impostor.
pub fn first_seen(call: &str, way: Way) -> &'static str {
    first_difference(&Reference, &Impostor { call, way })
}

/// The call in which a session of two sets of calls first finds a difference.
pub fn first_difference(first: &dyn Calls, second: &dyn Calls) -> &'static str {
    (0..SESSIONS)
        .find_map(|seed| session(first, second, seed).err())
        .map_or("never", |difference| difference.call)
}

/// An impostor that makes its call as the reference does is not seen.
pub fn never_seen(call: &str) {
    let impostor = Impostor { call, way: &by_reference };
    for seed in 0..1_000 {
        assert!(session(&Reference, &impostor, seed).is_ok());
    }
}
