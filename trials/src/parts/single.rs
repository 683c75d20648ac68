//! Part 3: one record at a time, with lent replies and lines of many lengths.

use super::damage::damage;
use super::streams::{as_whole, some_room};
use super::{Differs, Trial};
use crate::case::{Call, Input, Start, NOT_ASKED};
use crate::guide::{fetch, record, Guide, Mix};
use crate::rng::Rng;
use crate::start::{kept, name_of, named, offset, present_name, ring_length, some_start};
use crate::tally::Passed;
use crate::wire::{hex, Difference, Kind, Memory};
use peer::{kind, FeederState, Name, Record, ScanState, NAME_MOST};
use std::rc::Rc;
use std::time::Instant;

/// So many walks at least, whatever the time; and so many live streams.
const LEAST: u64 = 2000;
const LIVE: u64 = 400;

pub fn run(trial: &mut Trial, until: Instant) -> Result<String, Differs> {
    let fetches = every_fetch(trial)?;
    let rooms = every_room(trial)?;
    let names = every_last_name(trial)?;
    let live = trial.cases("3, live streams", LIVE, Instant::now(), live)?;
    let mut replies = [0u64; 601];
    let walks =
        trial.cases("3, one at a time", LEAST, until, |trial, rng, number| walk(trial, rng, number, &mut replies))?;
    let least = (0..=8).chain(255..=260).map(|length| replies[length]).min().unwrap_or(0);
    let lengths = replies.iter().filter(|&&times| times > 0).count();
    Ok(format!(
        "{fetches} fetches at every edge, {rooms} calls with lines of 0 to 700 bytes, {names} jobs behind a last name, \
         {live} live streams, {walks} walks; each reply length of 0..=8 and 255..=260 at least {least} times, {lengths} of 601 lengths in all"
    ))
}

/// Fetches at every edge of stored, most, reply, start and state.
fn every_fetch(trial: &mut Trial) -> Result<u64, Differs> {
    let mut fetches = 0;
    for start in fetched_from() {
        let name = present_name(&Record::from_words(&start.words).unwrap_or(Record::fresh()));
        for reply in (0..=8).chain(254..=260).chain([600]) {
            for most in [0, 1, 2, 3, 4, 250, 251, 252, 254, 255] {
                fetches += 1;
                trial.at("3, fetches", fetches);
                let call = Call { reply, ..Call::perform(fetch(most, &name)) };
                trial.one(&Start { fill: fetches, ..start }, call, Memory::Usual)?;
            }
        }
    }
    Ok(fetches)
}

/// What may stand at the front of an input: a record, with more behind it; no input; a cut record; a bad one.
const FRONTS: [&[u8]; 6] =
    [b"\xA5\x5A\x24\x00", b"\xA5\x5A\x22\x01\x01\xA5", b"", b"\xA5\x5A\x22\x01", b"\xA5\x5A\x22\x02", b"\x00"];

/// Lines of every length around a line's room, whatever the input is.
fn every_room(trial: &mut Trial) -> Result<u64, Differs> {
    let mut calls = 0;
    for (room, front) in (0..=700).flat_map(|room| FRONTS.map(|front| (room, front))) {
        trial.at("3, rooms", calls);
        trial.begin(&Start::fresh(4096));
        for last in [false, true] {
            trial.call(Call { last, room, ..Call::perform(front.to_vec()) })?;
            trial.call(Call::serve(front.to_vec(), 0, last, room))?;
            calls += 2;
        }
        trial.end()?;
    }
    Ok(calls)
}

/// StartScan in Idle behind the very name that it gives, behind each that differs in one byte or in the length, and behind
/// none.
fn every_last_name(trial: &mut Trial) -> Result<u64, Differs> {
    let mut jobs = 0;
    let settings = [0, 1].map(|set| [0, 1, 2].map(|asked| (set, asked))).concat();
    for ((append, asked), last_job) in settings.iter().flat_map(|&set| [0, 7, u32::MAX].map(|last| (set, last))) {
        let job = last_job.checked_add(1).unwrap_or(1);
        for last_name in [None, Some(1)].map(|side| beside(&name_of(job, side))).concat() {
            for (side_count, destination) in [(0, 0), (1, 4), (0, u32::MAX), (1, u32::MAX)] {
                jobs += 1;
                trial.at("3, last names", jobs);
                let before = Record { append, last_job, last_name, destination, ..Record::fresh() };
                let payload = [0, 0, side_count, asked, 0, 0];
                trial.begin(&Start { words: before.to_words(), ring_length: 16, fill: jobs });
                trial.call(Call::perform(record(kind::START_SCAN, &payload)))?;
                let after = trial.pair.model.record.expect("a sound record stays one");
                let passed =
                    Passed { kind: kind::START_SCAN, payload: &payload, before, after, ring_length: 16, fresh: false };
                trial.tally.note_passed(&passed);
                trial.end()?;
            }
        }
    }
    Ok(jobs)
}

/// A name as a record keeps it, with those beside it by a byte or by the length, and none.
fn beside(name: &[u8]) -> Vec<Name> {
    let name = kept(name);
    let mut names = vec![Name::EMPTY];
    for place in 0..NAME_MOST {
        let mut other = name;
        other.bytes[place] ^= 1;
        names.push(other);
    }
    for length in 0..=NAME_MOST as u8 {
        names.push(Name { length, ..name });
    }
    names
}

/// A stream record by record, as a host has it from a live input: it comes in pieces, what is only cut waits, and some
/// lines have no room. It comes to what the whole stream comes to.
fn live(trial: &mut Trial, mut rng: Rng, number: u64) -> Result<(), Differs> {
    let length = ring_length(&mut rng);
    let start = some_start(&mut rng, length, number);
    let (mix, records) = (rng.pick(&Mix::ALL), rng.between(1, 60));
    let mut stream = Guide::new(&mut rng, &start, mix).stream(records);
    if rng.chance(50) {
        damage(&mut rng, &mut stream);
    }
    let (stream, base) = (Rc::from(stream), offset(&mut rng));
    let text = perform_all(trial, &mut rng, &start, &stream, base)?;
    as_whole(trial, &start, &stream, base, &text)
}

fn perform_all(
    trial: &mut Trial,
    rng: &mut Rng,
    start: &Start,
    stream: &Rc<[u8]>,
    base: u64,
) -> Result<Vec<u8>, Differs> {
    let step_most = rng.pick(&[1, 3, 8, 30, 300, 3000]);
    let (mut text, mut from, mut seen) = (Vec::new(), 0, 0);
    trial.begin(start);
    for _ in 0..4 * stream.len() + 1000 {
        if from == stream.len() {
            trial.end()?;
            return Ok(text);
        }
        if seen < stream.len() && rng.chance(50) {
            seen = (seen + rng.between(1, step_most)).min(stream.len());
        }
        let last = seen == stream.len() && rng.chance(75);
        let input = Input { stream: Rc::clone(stream), from, length: seen - from };
        let (offset, room) = (base.wrapping_add(from as u64), some_room(rng, 640));
        let came = trial.call(Call { offset, last, room, ..Call::perform(input) })?;
        text.extend_from_slice(trial.pair.model.text());
        from = if came.ended == 1 { stream.len() } else { from + came.read };
    }
    Err(trial.tell(Difference::new("the records come to no end", NOT_ASKED, hex(stream))))
}

/// Sound records at every edge of ring, state, stored and start.
fn fetched_from() -> Vec<Start> {
    let mut starts = Vec::new();
    for ring_length in [1, 2, 5, 255, 256, 300, 4096] {
        for scan in [ScanState::Pending, ScanState::Scanning, ScanState::Finishing, ScanState::Erred] {
            for stored in [0, 1, 2, 3, 4, 5, 250, 251, 252, 253, 254, 255, 256, 257, 300, ring_length as u64] {
                for start in [0, ring_length / 2, ring_length - 1].map(|place| place as u64) {
                    let scanning = scan == ScanState::Scanning;
                    let feeder = if scanning { FeederState::Busy } else { FeederState::Unloaded };
                    let (job, quiet, side_count) = (7, 3, scanning.into());
                    let held = Record { scan, feeder, job, last_job: job, quiet, side_count, ..Record::fresh() };
                    let words = named(Record { start, stored, ..held }).to_words();
                    starts.push(Start { words, ring_length, fill: 0 });
                }
            }
        }
    }
    starts.retain(Start::is_sound);
    starts
}

/// Record after record on one box, each with its own reply, line and offset.
fn walk(trial: &mut Trial, mut rng: Rng, number: u64, replies: &mut [u64; 601]) -> Result<(), Differs> {
    let mix = rng.pick(&Mix::ALL);
    let length = ring_length(&mut rng);
    let start = some_start(&mut rng, length, number);
    let mut guide = Guide::new(&mut rng, &start, mix);
    let calls = match rng.below(4) {
        0 => 1,
        1 => rng.between(1, 10),
        _ => rng.between(10, 120),
    };
    trial.begin(&start);
    for _ in 0..calls {
        let call = some_call(&mut rng, guide.choose());
        if call.kind == Kind::Perform {
            replies[call.reply] += 1;
        }
        trial.call(call)?;
        guide.see(trial.pair.model.record.expect("a sound record stays one"));
    }
    trial.end()
}

fn some_call(rng: &mut Rng, mut input: Vec<u8>) -> Call {
    match rng.below(100) {
        0..4 => return Call::plain(Kind::Tick),
        4 => return Call::plain(Kind::Ask),
        5..15 => damage(rng, &mut input),
        15 => input.clear(),
        // Only the record at the front is answered.
        16..24 => input.extend_from_within(..),
        24..32 => input.push(0xA5),
        32..40 => {
            let length = rng.below(300);
            input.extend(rng.bytes(length));
        }
        _ => {}
    }
    let (offset, room, last) = (offset(rng), some_room(rng, 640), rng.chance(50));
    if rng.chance(10) {
        return Call::serve(input, offset, last, room);
    }
    let reply = match rng.below(10) {
        0..3 => rng.below(9),
        3..5 => rng.between(255, 260),
        5 => rng.below(601),
        6 => rng.below(64),
        _ => 259,
    };
    Call { offset, last, reply, room, ..Call::perform(input) }
}
