//! What cases begin with: records, rings, offsets.

use crate::case::Start;
use crate::rng::Rng;
use crate::wire::Words;
use peer::{FailureCode, FeederState, Granted, Name, Record, ScanState, NAME_MOST};

/// The name of a job's side: with three digits of SideNumber, or without.
pub fn name_of(job: u32, side: Option<u16>) -> Vec<u8> {
    let side = side.map_or(String::new(), |side| format!("{side:03}"));
    format!("J{job:010}{side}.jpg").into_bytes()
}

/// The present name.
pub fn present_name(record: &Record) -> Vec<u8> {
    name_of(record.job, (record.append == 1).then_some(record.side_number))
}

/// A name as a record keeps it: unused bytes are 0.
pub fn kept(name: &[u8]) -> Name {
    let mut bytes = [0; NAME_MOST];
    bytes[..name.len()].copy_from_slice(name);
    Name { bytes, length: name.len() as u8 }
}

/// The record with the last name that it has where all else is sound: the job's while one is held, in Idle what it is.
pub fn named(record: Record) -> Record {
    let held = record.scan != ScanState::Idle;
    let last_name = if held && record.side_number < 1000 { kept(&present_name(&record)) } else { record.last_name };
    Record { last_name, ..record }
}

/// The quiet seconds at which a held job ends.
pub fn limit(record: &Record) -> u16 {
    if record.scan == ScanState::Erred {
        300
    } else {
        record.granted.0
    }
}

/// Ring lengths at the edges, and some between.
pub fn ring_length(rng: &mut Rng) -> usize {
    match rng.below(12) {
        0..8 => rng.pick(&[1, 2, 3, 255, 256, 4096, 65_535, 65_536]),
        8..10 => rng.between(1, 600),
        10 => rng.between(1, 16),
        _ => rng.between(1, 65_536),
    }
}

/// Where a call's input begins in the whole input.
pub fn offset(rng: &mut Rng) -> u64 {
    match rng.below(10) {
        0..6 => 0,
        6 => rng.below(5000) as u64,
        7 => u64::MAX - rng.below(5000) as u64,
        8 => rng.pick(&[9, 10, 99, u32::MAX as u64, 1 << 63, u64::MAX]),
        _ => rng.draw(),
    }
}

/// Mostly a fresh record, some near a wrap, some in any sound record.
pub fn some_start(rng: &mut Rng, ring_length: usize, fill: u64) -> Start {
    let words = match rng.below(10) {
        0..6 => Record::fresh().to_words(),
        6..8 => sound_words(rng, ring_length, true),
        _ => sound_words(rng, ring_length, false),
    };
    Start { words, ring_length, fill }
}

/// Words of a sound record in any state; near the wraps of SideNumber, job number and DestinationID, if asked.
pub fn sound_words(rng: &mut Rng, ring_length: usize, near_wrap: bool) -> Words {
    loop {
        let mut record = draft(rng, ring_length);
        let (near, wraps) = (rng.below(3) as u16, if near_wrap { rng.between(1, 7) } else { 0 });
        if wraps & 1 != 0 && record.job != 0 {
            record.side_number = 999 - near;
        }
        if wraps & 2 != 0 {
            record.last_job = u32::MAX - near as u32;
            record.job = if record.job == 0 { 0 } else { record.last_job };
        }
        if wraps & 4 != 0 {
            record.destination = u32::MAX - near as u32;
        }
        record.last_name = some_last_name(rng, &record);
        record = named(record);
        if record.is_sound(ring_length) {
            return record.to_words();
        }
    }
}

/// A record that is sound more often than not.
fn draft(rng: &mut Rng, ring_length: usize) -> Record {
    use ScanState::*;
    let bit = |rng: &mut Rng| rng.below(2) as u8;
    let failures = [FailureCode::None, FailureCode::Jammed, FailureCode::Timeout];
    let (any_place, any_count) = (rng.below(ring_length), rng.below(ring_length + 1));
    let mut record = Record {
        scan: rng.pick(&[Idle, Pending, Scanning, Finishing, Erred]),
        scan_failure: rng.pick(&failures),
        feeder: rng.pick(&[FeederState::Unloaded, FeederState::Loaded, FeederState::Erred]),
        feeder_failure: rng.pick(&failures),
        last_job: some_number(rng),
        use_feeder: bit(rng),
        append: bit(rng),
        granted: Granted(rng.pick(&[0, 4, 5, 60, 600, 601, 65_535])),
        destination: some_number(rng),
        tray: bit(rng),
        start: rng.pick(&[0, ring_length.saturating_sub(1), any_place, any_place]) as u64,
        ..Record::fresh()
    };
    if record.feeder == FeederState::Erred {
        record.path = bit(rng);
    }
    if record.scan == Idle {
        return record;
    }
    record.job = record.last_job;
    let some_time = rng.between(5, 600) as u16;
    record.granted.0 = rng.pick(&[5, 5, 6, 10, 59, 60, 61, 299, 300, 301, 599, 600, some_time, some_time, some_time]);
    let some_quiet = rng.below(limit(&record) as usize) as u16;
    record.quiet = rng.pick(&[0, limit(&record) - 1, limit(&record) - 2, some_quiet]);
    let some_side = rng.below(1000) as u16;
    record.side_number = rng.pick(&[0, 1, 2, 9, 10, 99, 100, 998, 999, some_side, some_side, some_side]);
    record.side_count = rng.pick(&[-1, 0, 1, 2, 10, 500, 998, 999]);
    if record.scan == Scanning || record.scan == Finishing {
        record.stop_asked = bit(rng) & bit(rng);
        record.stored = rng.pick(&[ring_length, 1, any_count, any_count]) as u64;
    }
    match (record.scan, record.use_feeder) {
        (Scanning, 1) => (record.feeder, record.path) = (FeederState::Busy, 0),
        (Scanning, _) => record.side_count = 1,
        (Finishing, 0) => record.side_count = 0,
        _ => {}
    }
    record
}

/// A last name of Idle: the one that StartScan gives, with side numbers or without; one beside it; none; any bytes.
fn some_last_name(rng: &mut Rng, idle: &Record) -> Name {
    let job = idle.last_job.checked_add(1).unwrap_or(1);
    let side = rng.pick(&[None, Some(1), Some(1)]);
    let mut name = kept(&name_of(job, side));
    let (place, length) = (rng.below(NAME_MOST), rng.below(NAME_MOST + 1) as u8);
    match rng.below(8) {
        0 => name.bytes[place] ^= 1 << rng.below(8),
        1 => name.length = length,
        2 => name = Name::EMPTY,
        3 => name = kept(&name_of(idle.last_job, side)),
        4 => name = Name { bytes: std::array::from_fn(|_| rng.byte()), length },
        _ => {}
    }
    name
}

/// A number of 32 bits: at an edge, where its digits become more, or any.
fn some_number(rng: &mut Rng) -> u32 {
    let any = rng.draw() as u32;
    rng.pick(&[0, 1, 2, 9, 10, 999, 1000, 999_999, 1_000_000, u32::MAX - 1, u32::MAX, any, any, any, any])
}
