//! The databases that are searched: made here, the same in every run.

pub mod hostile;
pub mod large;
pub mod repairs;
pub mod small;
pub mod wide;
mod words;
