//! The desk: records in, lines out.
//!
//! The short entries become a part of whoever calls them, so that a host's own entry around them costs no second call.

use crate::record::Record;
use crate::rules::{self, Lent, Reason};
use crate::text::{put_bad, put_line, LINE_MOST};
use crate::wire::{self, Reading};
use crate::DESK_REPLY;

/// What a call comes to.
#[derive(Clone, Copy, PartialEq, Eq, Debug)]
pub struct Progress {
    /// Bytes of the input that are answered: whole records.
    pub read: usize,
    /// Bytes of text at the front of the lines.
    pub written: usize,
    /// A bad record is met, and its line is the last one.
    pub ended: bool,
}

impl Progress {
    const NONE: Progress = Progress { read: 0, written: 0, ended: false };
}

/// The number of `perform` where no record reads at the front of the input: no reason number of the paper, and not 0.
pub const NO_RECORD: u16 = 0xFFFF;

/// "A second is a Tick": 0, or 604 and nothing changes.
#[inline(always)]
pub fn tick(record: &mut Record, ring_length: usize) -> u16 {
    if !record.is_sound(ring_length) {
        return Reason::Unsound.number();
    }
    rules::second(record);
    0
}

/// Answers the desk record at the front of the input and puts its line. The result is the record's number, so 0 means
/// that a record is answered and accepted.
///
/// A record that is not sound with the ring is 604; then a line of less than `LINE_MOST` bytes is 603; nothing is done.
/// Where no record reads, the result is `NO_RECORD`: it is bad, and ended; or it is only cut and this input is not the
/// last, and nothing is done until more comes.
#[inline(always)]
pub fn perform(
    record: &mut Record,
    ring: &mut [u8],
    reply: &mut [u8],
    input: &[u8],
    offset: u64,
    last: bool,
    line: &mut [u8],
) -> (u16, Progress) {
    if !record.is_sound(ring.len()) {
        return (Reason::Unsound.number(), Progress::NONE);
    }
    let Some(line) = line.first_chunk_mut() else {
        return (Reason::Room.number(), Progress::NONE);
    };
    let reading = wire::read(input, 0);
    let Reading::Record { kind, payload, next } = reading else {
        return (NO_RECORD, unread(reading, offset, last, line));
    };
    let mut lent = Lent { record, ring, reply };
    let answer = rules::call(&mut lent, kind, payload);
    let written = put_line(line, kind, answer, &lent);
    (rules::number(answer), Progress { read: next, written, ended: false })
}

/// Answers the records of a window of the input one after the other and puts their lines, as many as are whole and as
/// have room. The reply of a fetch is the desk's own. No call leaves a record that is not sound, so one test at the
/// window's beginning is a test for each of its records.
///
/// The offset is the window's place in the whole input. A cut record waits for more input unless this window is the
/// last one. The result is 0; or 604; or 603 where the lines have less than `LINE_MOST` bytes, whatever the input is.
/// With 604 and 603 nothing is done.
pub fn serve(
    record: &mut Record,
    ring: &mut [u8],
    input: &[u8],
    offset: u64,
    last: bool,
    lines: &mut [u8],
) -> (u16, Progress) {
    if !record.is_sound(ring.len()) {
        return (Reason::Unsound.number(), Progress::NONE);
    }
    if lines.len() < LINE_MOST {
        return (Reason::Room.number(), Progress::NONE);
    }
    let mut lent = Lent { record, ring, reply: &mut [0; DESK_REPLY] };
    let mut progress = Progress::NONE;
    while progress.read < input.len() {
        let Some(line) = lines[progress.written..].first_chunk_mut::<LINE_MOST>() else {
            break;
        };
        let reading = wire::read(input, progress.read);
        let Reading::Record { kind, payload, next } = reading else {
            let stop = unread(reading, offset.wrapping_add(progress.read as u64), last, line);
            progress.written += stop.written;
            progress.ended = stop.ended;
            break;
        };
        let answer = rules::call(&mut lent, kind, payload);
        progress.written += put_line(line, kind, answer, &lent);
        progress.read = next;
    }
    (0, progress)
}

/// Where no record reads: what is only cut waits, unless no input follows; all else is bad.
#[cold]
fn unread(reading: Reading, offset: u64, last: bool, line: &mut [u8; LINE_MOST]) -> Progress {
    if !last && matches!(reading, Reading::Cut { .. }) {
        return Progress::NONE;
    }
    Progress { read: 0, written: put_bad(line, offset), ended: true }
}
