//! Part 2: damaged streams.

use super::streams::{cut_and_whole, serve};
use super::{Differs, Trial};
use crate::case::{whole, Call, Input, Start};
use crate::guide::{Guide, Mix};
use crate::rng::Rng;
use crate::start::{ring_length, some_start};
use peer::KINDS;
use std::time::Instant;

/// So many streams at least, whatever the time.
const LEAST: u64 = 2000;

pub fn run(trial: &mut Trial, until: Instant) -> Result<String, Differs> {
    let heads = every_head(trial)? + every_short_head(trial)?;
    let bad_before = trial.tally.bad;
    let streams = trial.cases("2, damage", LEAST, until, |trial, mut rng, number| {
        let length = ring_length(&mut rng);
        let start = some_start(&mut rng, length, number);
        let stream = if rng.chance(10) { noise(&mut rng) } else { damaged(&mut rng, &start) };
        cut_and_whole(trial, &start, stream, &mut rng).map(|_| ())
    })?;
    let bad = trial.tally.bad - bad_before;
    Ok(format!("{heads} heads with every kind and length, {streams} damaged streams ({bad} times bad)"))
}

/// Every kind with every length, the payload whole, one byte short, one byte long.
fn every_head(trial: &mut Trial) -> Result<u64, Differs> {
    let mut heads = 0;
    for (kind, length) in (0..=255).flat_map(|kind| (0..=255).map(move |length| (kind, length))) {
        let mut record = vec![0xA5, 0x5A, kind, length];
        record.resize(4 + length as usize + 1, 0x5A);
        for bytes in [4 + length as usize, 3 + length as usize, 5 + length as usize] {
            heads += 1;
            trial.at("2, heads", heads);
            serve(trial, &Start::fresh(16), &record[..bytes].into(), 0, None)?;
            waiting(trial, &Start::fresh(16), &record[..bytes], &[Call::serve(Vec::new(), 0, false, 1280)])?;
        }
    }
    Ok(heads)
}

/// Every head of less than four bytes, with a right mark and with wrong ones.
fn every_short_head(trial: &mut Trial) -> Result<u64, Differs> {
    let mut heads = 0;
    let marks = [0xA5, 0x5A, 0x00, 0xA4].map(|first| [0x5A, 0xA5, 0x00, 0x5B].map(|second| (first, second)));
    for (first, second) in marks.concat() {
        for (kind, length) in (0..=255).flat_map(|kind| (0..=3).map(move |length| (kind, length))) {
            heads += 1;
            trial.at("2, short heads", heads);
            let serves = [false, true].map(|last| Call::serve(Vec::new(), 7, last, 640));
            waiting(trial, &Start::fresh(1), &[first, second, kind][..length], &serves)?;
        }
    }
    Ok(heads)
}

/// The input by perform, whether more may come or not, and by serves: where more may come, a cut record waits.
fn waiting(trial: &mut Trial, start: &Start, input: &[u8], serves: &[Call]) -> Result<(), Differs> {
    let input = Input::from(input.to_vec());
    trial.begin(start);
    for last in [false, true] {
        trial.call(Call { last, ..Call::perform(input.clone()) })?;
    }
    for serve in serves {
        trial.call(Call { input: input.clone(), ..serve.clone() })?;
    }
    trial.end()
}

fn damaged(rng: &mut Rng, start: &Start) -> Vec<u8> {
    let (mix, records) = (rng.pick(&Mix::ALL), rng.between(1, 120));
    let mut stream = Guide::new(rng, start, mix).stream(records);
    for _ in 0..rng.between(1, 3) {
        damage(rng, &mut stream);
    }
    stream
}

/// Random bytes; marks with random kinds and lengths; right heads with random payloads.
fn noise(rng: &mut Rng) -> Vec<u8> {
    let style = rng.below(3);
    let mut bytes = Vec::new();
    for _ in 0..rng.between(0, 20) {
        match style {
            0 => bytes.push(rng.byte()),
            1 => bytes.extend([0xA5, 0x5A, rng.below(0x28) as u8, rng.below(8) as u8, rng.byte()]),
            _ => {
                let (kind, least, most) = rng.pick(&KINDS);
                let length = rng.between(least.into(), most.into());
                bytes.extend([0xA5, 0x5A, kind, length as u8]);
                bytes.extend(rng.bytes(length));
            }
        }
    }
    bytes
}

/// What a stream may end in.
const TAILS: [&[u8]; 6] = [&[0xA5], &[0xA5, 0x5A], &[0x5A, 0xA5], &[0xA5, 0x5A, 0x24], &[0x00], &[0xA5, 0x5A, 0x99]];

/// Damages a stream or a record in one place.
pub fn damage(rng: &mut Rng, bytes: &mut Vec<u8>) {
    if bytes.is_empty() {
        bytes.push(rng.byte());
        return;
    }
    let place = rng.below(bytes.len());
    match rng.below(10) {
        0 | 1 => bytes.truncate(place),
        2 => bytes[place] = rng.byte(),
        3 => bytes[place] ^= 1 << rng.below(8),
        4 => bytes.insert(place, rng.byte()),
        5 => _ = bytes.remove(place),
        6 => {
            // A byte of a head.
            let at = rng.pick(&heads_of(bytes)) + rng.below(4);
            if at < bytes.len() {
                let (byte, any) = (bytes[at], rng.byte());
                bytes[at] = rng.pick(&[any, byte.wrapping_add(1), byte.wrapping_sub(1)]);
            }
        }
        7 => bytes.extend(rng.pick(&TAILS)),
        8 => {
            let length = rng.below(40);
            bytes.extend(rng.bytes(length));
        }
        _ => {
            let end = rng.between(place, bytes.len().min(place + 40));
            bytes.drain(place..end);
        }
    }
}

/// Where records begin.
fn heads_of(bytes: &[u8]) -> Vec<usize> {
    let mut heads = vec![0];
    let mut at = 0;
    while let Some(length) = whole(&bytes[at..]) {
        at += length;
        heads.push(at);
    }
    heads
}
