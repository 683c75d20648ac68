//! The proved box beside its peer: the same calls for both.
//!
//! A new kind is a row of the peer's table (peer/src/wire.rs), with its fields and its numbers, and a rule there. The
//! guide makes its payloads from the fields and the tally demands each of its numbers; how often it comes in a state is
//! `likely` in guide.rs. A new field of a payload has its values in guide.rs, `value`.
//!
//! A new field of the record stands in peer/src/record.rs: in `Record`, in its words and in `NAMES`; the words have another
//! `VERSION` then. What it holds in a sound record that cases begin with is `draft` in start.rs. The header's new names go
//! to `layout` in box.c, in the order of `header` in wire.rs, which has kinds and fields from the peer.

#![forbid(unsafe_code)]

pub mod case;
pub mod guide;
pub mod link;
pub mod pair;
pub mod parts;
pub mod rng;
pub mod shrink;
pub mod start;
pub mod tally;
pub mod wire;
