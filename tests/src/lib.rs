//! An independent implementation of documents 01 and 02 and what is needed to compare a library with it.
//!
//! The library under test itself is named only in `library.rs`, which belongs to the program
//! `differential`: the unit tests of this crate run without it.

pub mod case;
pub mod examples;
pub mod finder;
pub mod generate;
pub mod halves;
pub mod mix;
pub mod pasting;
#[cfg(test)]
mod promises;
pub mod properties;
pub mod random;
pub mod reference;
pub mod repair_promises;
pub mod shrink;
pub mod subject;
#[cfg(test)]
mod twisted;
