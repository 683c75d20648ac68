//! Part 4: any words as a record, sound or not.

use super::{Differs, Trial};
use crate::case::{Call, Start};
use crate::guide::{Guide, Mix};
use crate::rng::Rng;
use crate::start::{offset, ring_length, sound_words};
use crate::wire::{Difference, Kind, Words, QUESTIONS};
use peer::{Name, Record, NAME_MOST, RING_MOST, VERSION, WORDS};
use std::time::Instant;

/// So many base records at least, whatever the time.
const LEAST: u64 = 40;

/// The edges of fields and of numbers: values there and beside them are tried.
const EDGES: [u64; 17] =
    [1, 4, 18, 60, 255, 256, 300, 600, 999, 1000, 4096, 65_536, 1 << 31, 0xFFFFFFFF, 1 << 32, 1 << 63, u64::MAX];

/// How many records are tried; of these, how many are sound, and how many are no record.
#[derive(Default)]
struct Counts {
    tried: u64,
    sound: u64,
    malformed: u64,
}

pub fn run(trial: &mut Trial, until: Instant) -> Result<String, Differs> {
    let mut counts = Counts::default();
    let bases =
        trial.cases("4, any record", LEAST, until, |trial, rng, number| changes(trial, rng, number, &mut counts))?;
    let Counts { tried, sound, malformed } = counts;
    Ok(format!(
        "{bases} sound records and their changes, {tried} records tried ({sound} sound, {} not, of these {malformed} no \
         record)",
        tried - sound
    ))
}

/// A sound record; rings of other lengths; every field of it at every edge; every byte of its last name; two fields; random
/// words.
fn changes(trial: &mut Trial, mut rng: Rng, fill: u64, counts: &mut Counts) -> Result<(), Differs> {
    let rng = &mut rng;
    let ring_length = match rng.below(8) {
        0..4 => rng.pick(&[4095, 4096, 65_535, 65_536]),
        4 => rng.between(1, 3),
        _ => ring_length(rng).min(8192),
    };
    let words = match rng.below(10) {
        0 => Record::fresh().to_words(),
        near => sound_words(rng, ring_length, near < 3),
    };
    // The ring is the same for all changes of a record, so that it is filled once.
    let base = Start { words, ring_length, fill };
    let mut attempt =
        |rng: &mut Rng, words: Words, ring_length| try_entries(trial, rng, counts, &Start { words, ring_length, fill });
    attempt(rng, words, ring_length)?;
    for ring_length in rings(&base) {
        attempt(rng, words, ring_length)?;
    }
    for field in 0..WORDS {
        for value in edges(rng, &base, field) {
            attempt(rng, changed(words, field, value), ring_length)?;
        }
    }
    for words in last_names(rng, &words) {
        attempt(rng, words, ring_length)?;
    }
    for _ in 0..400 {
        let mut words = words;
        for field in [rng.below(WORDS), rng.below(WORDS)] {
            words[field] = some_value(rng, &base, field);
        }
        let ring_length = if rng.chance(10) { rng.pick(&rings(&Start { words, ..base })) } else { ring_length };
        attempt(rng, words, ring_length)?;
    }
    for _ in 0..40 {
        let some: Words = std::array::from_fn(|field| match rng.below(3) {
            0 => some_value(rng, &base, field),
            1 => rng.draw() >> rng.below(64),
            _ => words[field],
        });
        let random = std::array::from_fn(|_| rng.draw());
        // Mostly of the right version: with another one nothing else matters.
        for words in [some, random] {
            let version = if rng.chance(80) { VERSION } else { words[0] };
            attempt(rng, changed(words, 0, version), ring_length)?;
        }
    }
    Ok(())
}

fn changed(mut words: Words, field: usize, value: u64) -> Words {
    words[field] = value;
    words
}

/// Another last name: by each of its bytes alone, by each length that fits, and none.
fn last_names(rng: &mut Rng, words: &Words) -> Vec<Words> {
    let Some(record) = Record::from_words(words) else {
        return Vec::new();
    };
    let Name { bytes, length } = record.last_name;
    let mut names: Vec<Name> = (0..=NAME_MOST as u8).map(|length| Name { bytes, length }).collect();
    names.push(Name::EMPTY);
    for place in 0..NAME_MOST {
        let mut bytes = bytes;
        bytes[place] ^= rng.pick(&[1, 2, 4, 8, 16, 32, 64, 128]);
        names.push(Name { bytes, length });
    }
    names.into_iter().map(|last_name| Record { last_name, ..record }.to_words()).collect()
}

/// Ring lengths at the edges and around the words.
fn rings(base: &Start) -> Vec<usize> {
    let mut rings = vec![0, 1, 2, 4095, 4096, 65_535, 65_536, 65_537, base.ring_length + 1, base.ring_length - 1];
    rings.extend(base.words[..QUESTIONS].iter().flat_map(|&word| near(word)).map(|word| word.min(1 << 20) as usize));
    rings.retain(|&length| length <= RING_MOST + 1);
    rings.sort();
    rings.dedup();
    rings
}

/// The edges of a field: those of all fields, and those that the ring and the rest of the record set.
fn edges(rng: &mut Rng, base: &Start, field: usize) -> Vec<u64> {
    let rest = if field < QUESTIONS { &base.words[..QUESTIONS] } else { &base.words[field..=field] };
    let around = [&EDGES[..], rest, &[base.ring_length as u64]].concat();
    let mut values: Vec<u64> = around.into_iter().flat_map(near).collect();
    // The same low bits with something above them.
    values.extend([8, 16, 31, 32, 63].map(|bit| base.words[field] | 1 << bit));
    values.push(rng.draw());
    values.sort();
    values.dedup();
    values
}

fn near(value: u64) -> [u64; 3] {
    [value.wrapping_sub(1), value, value.wrapping_add(1)]
}

fn some_value(rng: &mut Rng, base: &Start, field: usize) -> u64 {
    match rng.below(10) {
        // Values that some field may well have: a mark, a state, seconds, a SideNumber, a place in the ring, a job.
        0..5 => {
            let most = rng.pick(&[3, 3, 6, 605, 1002, base.ring_length + 3, 1 << 32]);
            rng.below(most) as u64
        }
        5 => rng.pick(&near(base.words[field])),
        _ => {
            let edge = rng.pick(&EDGES);
            rng.pick(&near(edge))
        }
    }
}

/// All four entries with these words, each on its own. What is not sound is 604, what is sound is not.
fn try_entries(trial: &mut Trial, rng: &mut Rng, counts: &mut Counts, start: &Start) -> Result<(), Differs> {
    let sound = start.is_sound();
    if (Start { words: changed(start.words, 0, VERSION), ..*start }).is_sound() {
        trial.tally.note_version(start.words[0]);
    }
    trial.tally.note_last_name(start);
    counts.tried += 1;
    counts.sound += sound as u64;
    counts.malformed += Record::from_words(&start.words).is_none() as u64;
    let mut guide = Guide::new(rng, start, Mix::USUAL);
    let mut record = || if sound { guide.choose() } else { guide.wild() };
    let (one, two) = (record(), [record(), record()].concat());
    let room = rng.pick(&[640, 640, 640, 1280, 2000, 639, 0]);
    let reply = rng.pick(&[0, 3, 4, 5, 100, 259, 300]);
    let calls = [
        Call::plain(Kind::Ask),
        Call::plain(Kind::Tick),
        Call { offset: offset(rng), last: rng.chance(50), reply, room, ..Call::perform(one) },
        Call::serve(two, offset(rng), rng.chance(50), room),
    ];
    for (place, call) in calls.into_iter().enumerate() {
        // What 604 leaves needs no reset, except that the ring of one call is watched against the reset.
        if place == 0 || sound {
            trial.begin(start);
        }
        let kind = call.kind;
        let number = trial.call(call)?.number;
        if kind != Kind::Ask && sound == (number == 604) {
            return Err(trial.tell(Difference::new("604", number, format!("sound {sound}"))));
        }
        if sound || place == 3 {
            trial.end()?;
        }
    }
    Ok(())
}
