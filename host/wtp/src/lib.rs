//! A safe wrapper over libwtp.a, the proved implementation of the Wireless Transaction Protocol (WAP-224).
//!
//! A [`Table`] owns the buffers that the library is lent. Each of its calls gives back what was [`Taken`] from the answer, or
//! the number with which the library [`Refused`]. Nothing is decided here: values go to the library as they are, and
//! what it answers is put in words. An abort, a result without data and a result with data are different cases of [`Shown`].

#![deny(unsafe_code)]

pub mod codec;
mod cost;
mod deadline;
#[allow(unsafe_code)]
pub mod ffi;
mod refused;
mod salvaged;
mod settings;
mod shown;
mod table;
mod taken;
mod unknown;

pub use cost::Cost;
pub use deadline::Deadline;
pub use refused::Refused;
pub use salvaged::{Damage, Salvaged};
pub use settings::Settings;
pub use shown::{Abort, Name, NonEmpty, Reason, Role, Shown};
pub use table::Table;
pub use taken::Taken;
pub use unknown::Unknown;
