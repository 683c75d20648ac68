//! Part 5: memory at the boundary. Everything lent stands between guards; nothing else is read or written.

use super::damage::damage;
use super::{Differs, Trial};
use crate::case::{Call, Start};
use crate::guide::{Guide, Mix};
use crate::rng::Rng;
use crate::start::{offset, ring_length, some_start};
use crate::wire::{Kind, Memory};
use peer::WORDS;
use std::time::Instant;

/// So many calls at least, whatever the time.
const LEAST: u64 = 2000;

/// So many calls with null pointers, and so many fresh boxes.
const NULLS: u64 = 3000;
const FRESH: u64 = 1000;

pub fn run(trial: &mut Trial, until: Instant) -> Result<String, Differs> {
    let now = Instant::now();
    trial.at("5, layout", 0);
    trial.one(&Start::fresh(1), Call::plain(Kind::Layout), Memory::Usual)?;
    trial.cases("5, a fresh box", FRESH, now, |trial, mut rng, _| {
        let start = Start { words: std::array::from_fn(|_| rng.draw()), ..Start::fresh(1) };
        trial.one(&start, Call::plain(Kind::Fresh), Memory::Usual)
    })?;
    trial.cases("5, null pointers", NULLS, now, nulls)?;
    let calls = trial.cases("5, memory", LEAST, until, lend)?;
    Ok(format!(
        "{} bytes aligned by 8, fresh over any bytes, {NULLS} calls with null pointers, {calls} calls between guard \
         bytes at any alignment, as many at the edge of pages, the input write-protected",
        8 * WORDS
    ))
}

fn some_lending(rng: &mut Rng, number: u64) -> (Start, Call) {
    let no_ring = rng.chance(5);
    let length = ring_length(rng).min(9000);
    let mut start = some_start(rng, length, number);
    let mix = rng.pick(&Mix::ALL);
    let serves = rng.chance(50);
    let records = if serves { rng.between(1, 12) } else { 1 };
    let mut input = Guide::new(rng, &start, mix).stream(records);
    if rng.chance(20) {
        damage(rng, &mut input);
    }
    if rng.chance(5) {
        input.clear();
    }
    if rng.chance(15) {
        start.words[rng.below(WORDS)] = rng.draw() >> rng.below(64);
    }
    if no_ring {
        start.ring_length = 0;
    }
    let reply = rng.pick(&[0, 1, 3, 4, 5, 8, 100, 255, 258, 259, 260, 300]);
    let (room, offset, last) = (rng.pick(&[0, 1, 639, 640, 641, 1280, 6000]), offset(rng), rng.chance(50));
    if serves {
        return (start, Call::serve(input, offset, last, room));
    }
    (start, Call { offset, last, reply, room, ..Call::perform(input) })
}

/// All that is lent stands in one block, each thing at any place, with guard bytes everywhere else.
fn some_places(rng: &mut Rng, start: &Start, call: &Call) -> [u16; 6] {
    // Record, progress, ring, reply, input, lines, in a random order.
    let lengths = [8 * WORDS, 24, start.ring_length, call.reply, call.input.len(), call.room];
    let mut order = [0, 1, 2, 3, 4, 5];
    for last in (1..6).rev() {
        order.swap(last, rng.below(last + 1));
    }
    let mut places = [0; 6];
    let mut free = 32;
    for thing in order {
        let place = free + rng.below(16);
        let place = if thing < 2 { place.next_multiple_of(8) } else { place };
        places[thing] = place as u16;
        free = place + lengths[thing] + rng.between(1, 40);
    }
    places
}

/// A call in one arena; each thing right before or right behind a page that nobody may touch, where the input may not
/// be written; questions about a record that may not be written, and a tick, at the edge of a page.
fn lend(trial: &mut Trial, mut rng: Rng, number: u64) -> Result<(), Differs> {
    let (start, call) = some_lending(&mut rng, number);
    let arena = Memory::Arena(some_places(&mut rng, &start, &call));
    let edge = if rng.chance(70) { Memory::BeforePage } else { Memory::BehindPage };
    trial.at("5, memory, in one arena", number);
    trial.one(&start, call.clone(), arena)?;
    trial.at("5, memory, at the edge of pages", number);
    trial.one(&start, call, edge)?;
    trial.at("5, memory, questions and a tick at the edge of a page", number);
    trial.one(&start, Call::plain(Kind::Ask), Memory::BeforePage)?;
    trial.one(&start, Call::plain(Kind::Tick), Memory::BeforePage)
}

/// Where a length is 0 its pointer is null.
fn nulls(trial: &mut Trial, mut rng: Rng, number: u64) -> Result<(), Differs> {
    let (mut start, mut call) = some_lending(&mut rng, number);
    let gone = rng.between(1, 15);
    for (bit, length) in [&mut start.ring_length, &mut call.reply, &mut call.room].into_iter().enumerate() {
        if gone >> bit & 1 != 0 {
            *length = 0;
        }
    }
    if gone & 8 != 0 {
        call.input = Vec::new().into();
    }
    let mut places = some_places(&mut rng, &start, &call);
    let lengths = [start.ring_length, call.reply, call.input.len(), call.room];
    for (place, _) in places[2..].iter_mut().zip(lengths).filter(|&(_, length)| length == 0) {
        *place = 0;
    }
    trial.one(&start, call, Memory::Arena(places))
}
