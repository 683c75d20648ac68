//! Part 1: streams that reach deep, cut into windows at random places.

use super::{Differs, Trial};
use crate::case::{Call, Input, Start, NOT_ASKED};
use crate::guide::{Guide, Mix};
use crate::pair::LINES_ROOM;
use crate::rng::Rng;
use crate::start::{offset, ring_length, some_start};
use crate::tally::Passed;
use crate::wire::{hex, show_text, Difference, Kind};
use std::rc::Rc;
use std::time::Instant;

/// So many streams at least, whatever the time.
const LEAST: u64 = 400;

pub fn run(trial: &mut Trial, until: Instant) -> Result<String, Differs> {
    example(trial)?;
    let (mut records, mut bytes) = (0, 0);
    let streams = trial.cases("1, streams", LEAST, until, |trial, mut rng, number| {
        let length = ring_length(&mut rng);
        let start = some_start(&mut rng, length, number);
        let stream = guided(trial, &mut rng, &start, &mut records);
        bytes += cut_and_whole(trial, &start, stream, &mut rng)?.len();
        Ok(())
    })?;
    Ok(format!("{streams} streams of {records} records, each cut and whole, {bytes} bytes of text"))
}

/// The paper's example, and what it prints.
const EXAMPLE: &[u8] =
    b"\xA5\x5A\x22\x01\x01\xA5\x5A\x01\x06\x02\x00\x01\x02\x00\x0A\xA5\x5A\x20\x02AB\xA5\x5A\x21\x00\
    \xA5\x5A\x06\x13\x08J0000000001001.jpg";
const EXAMPLE_TEXT: &[u8] = b"22 0 I U 0 1 0 -\n01 0 S B 1 1 1 10\n20 0 S B 1 1 1 2\n21 0 F U 1 1 0 -\n\
    06 0 P U 1 2 0 2!:4142\n";

fn example(trial: &mut Trial) -> Result<(), Differs> {
    trial.at("1, the paper's example", 0);
    let text = cut_and_whole(trial, &Start::fresh(4096), EXAMPLE.to_vec(), &mut Rng::new(1))?;
    trial.settle()?;
    if text != EXAMPLE_TEXT {
        println!("\nDIFFERENCE: both boxes print {} for the paper's example", show_text(&text));
        return Err(Differs);
    }
    Ok(())
}

/// A stream of the guide. What it passes is noted.
fn guided(trial: &mut Trial, rng: &mut Rng, start: &Start, records: &mut u64) -> Vec<u8> {
    let mix = rng.pick(&Mix::ALL);
    let length = match rng.below(20) {
        0..10 => rng.between(5, 150),
        10..19 => rng.between(150, 1500),
        _ => 4000,
    };
    let mut guide = Guide::new(rng, start, mix);
    let fresh = start.words == Start::fresh(1).words;
    let mut stream = Vec::new();
    for _ in 0..length {
        let before = guide.now();
        let record = guide.next_record();
        stream.extend_from_slice(&record);
        *records += 1;
        if guide.broken {
            break;
        }
        if guide.number() == 0 {
            let (kind, payload, after, ring_length) = (record[2], &record[4..], guide.now(), start.ring_length as u64);
            trial.tally.note_passed(&Passed { kind, payload, before, after, ring_length, fresh });
        }
    }
    stream
}

/// Serves a stream cut, and once more in one whole window: the text, the record and the ring are the same. Gives the text.
pub fn cut_and_whole(trial: &mut Trial, start: &Start, stream: Vec<u8>, rng: &mut Rng) -> Result<Vec<u8>, Differs> {
    let (stream, base) = (stream.into(), offset(rng));
    let cut = serve(trial, start, &stream, base, Some(rng))?;
    as_whole(trial, start, &stream, base, &cut)?;
    Ok(cut)
}

/// Serves a stream in one whole window: the text, the record and the ring are those that it came to before.
pub fn as_whole(trial: &mut Trial, start: &Start, stream: &Rc<[u8]>, base: u64, text: &[u8]) -> Result<(), Differs> {
    let (words, ring) = (trial.pair.model.words, trial.pair.model.ring.clone());
    let whole = serve(trial, start, stream, base, None)?;
    let what = if text != whole {
        "text"
    } else if words != trial.pair.model.words {
        "record"
    } else if ring != trial.pair.model.ring {
        "ring"
    } else {
        return Ok(());
    };
    let what = format!("the {what} of the cut stream is not that of the whole one");
    Err(trial.tell(Difference::new(what, NOT_ASKED, hex(stream))))
}

/// Serves a stream in windows: cut at random places, or whole. Gives the text.
pub fn serve(
    trial: &mut Trial,
    start: &Start,
    stream: &Rc<[u8]>,
    base: u64,
    mut cut: Option<&mut Rng>,
) -> Result<Vec<u8>, Differs> {
    // Room for all lines: 64 bytes for each record, and two for each byte that the input or the ring brings.
    let room_for_all = (64 * (stream.len() / 4 + 1) + 2 * stream.len() + 2 * start.ring_length + 1280).min(LINES_ROOM);
    let (step_most, wide) = match &mut cut {
        Some(rng) => (rng.pick(&[1, 3, 8, 30, 300, 3000, 30_000]), rng.chance(50)),
        None => (0, true),
    };
    let (mut text, mut from, mut seen) = (Vec::new(), 0, 0);
    trial.begin(start);
    for _ in 0..4 * stream.len() + 1000 {
        let (last, room) = match &mut cut {
            Some(rng) => {
                if seen < stream.len() && !rng.chance(10) {
                    seen = (seen + rng.between(1, step_most)).min(stream.len());
                }
                (seen == stream.len() && rng.chance(75), some_room(rng, if wide { 65_536 } else { 640 }))
            }
            None => {
                seen = stream.len();
                (true, room_for_all)
            }
        };
        let input = Input { stream: Rc::clone(stream), from, length: seen - from };
        let came = trial.call(Call::serve(input, base.wrapping_add(from as u64), last, room))?;
        text.extend_from_slice(trial.pair.model.text());
        from += came.read;
        if came.ended == 1 || (last && from == stream.len()) {
            trial.call(Call::plain(Kind::Ask))?;
            trial.end()?;
            return Ok(text);
        }
    }
    Err(trial.tell(Difference::new("the windows come to no end", NOT_ASKED, hex(stream))))
}

/// Lines of a usual room, and of rooms around a line and two.
pub fn some_room(rng: &mut Rng, usual: usize) -> usize {
    match rng.below(20) {
        0 => 0,
        1 => 639,
        2 => rng.below(640),
        3..6 => 641,
        6..8 => 1280,
        8 => 1279,
        9 => rng.between(640, 4000),
        _ => usual,
    }
}
