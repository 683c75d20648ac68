//! A plain scanner box controller, written from the paper and its requests alone.
//!
//! It is a peer: the proved box is tested against it and timed against it. Nothing here is proved. The caller owns
//! everything (the box record, the ring, the reply, the lines); the library keeps no state and allocates nothing.

#![forbid(unsafe_code)]

mod desk;
mod name;
mod record;
mod rules;
mod text;
mod wire;

pub use desk::{perform, serve, tick, Progress, NO_RECORD};
pub use name::{Name, NAME_MOST};
pub use record::{FailureCode, FeederState, Granted, Record, ScanState, NAMES, RING_MOST, VERSION, WORDS};
pub use rules::Reason;
pub use text::LINE_MOST;
pub use wire::{kind, read, write, Field, Listed, Reading, KINDS, LISTED};

/// The desk program's ring: "with a 4,096-byte ring".
pub const DESK_RING: usize = 4096;

/// The desk program's reply: "and a 259-byte reply".
pub const DESK_REPLY: usize = 259;
