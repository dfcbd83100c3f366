//! What the programs share: their arguments, what they say and how they end, small files, signals, random numbers that a seed
//! fixes, figures for people, where the fields of a table lie, and a header beside its source.

#![deny(unsafe_code)]

pub mod args;
pub mod csv;
mod draft;
mod figures;
pub mod header;
#[allow(unsafe_code)]
pub mod interrupt;
pub mod layout;
pub mod program;
mod random;
pub mod say;
pub mod whole;

pub use draft::Draft;
pub use figures::with_commas;
pub use random::Random;
