//! A reference for the rules of document 01 and of the requests of document 02 that have landed, and
//! the tests that stand on it.
//!
//! [`reference`] is the rules written down a second time, in plain Rust. The
//! rest puts it to use: [`calls`] gives it the shape of the library's C
//! interface, [`generate`] makes runs, good and bad, [`sessions`] drives two
//! sets of calls side by side and compares them, [`orders`] lists the checks of
//! each call, and [`cases`] is the list of run files kept beside their outputs.
//! [`plain`] is the extractor that the library's speed is held against, and
//! [`hearing`] compares extractors event by event.

pub mod calls;
pub mod cases;
pub mod generate;
pub mod hearing;
pub mod orders;
pub mod plain;
pub mod random;
pub mod reference;
pub mod sessions;

#[cfg(feature = "library")]
pub mod ffi;
