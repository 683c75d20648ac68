//! Part 6: the two desk programs, fed the same streams.

use super::damage::damage;
use super::streams::serve;
use super::{Differs, Trial};
use crate::case::{pieces, Start};
use crate::guide::{Guide, Mix};
use crate::pair::place;
use crate::rng::Rng;
use crate::shrink::least;
use crate::wire::{hex, show_text, Difference};
use peer::DESK_RING;
use std::io::{self, Read, Write};
use std::process::{Command, Stdio};
use std::thread;
use std::time::{Duration, Instant};

/// So many streams at least, and so many that are long.
const LEAST: u64 = 200;
const LONG: u64 = 4;

pub fn run(trial: &mut Trial, until: Instant) -> Result<String, Differs> {
    let programs = [std::env::var("BENCH_BOX_DESK"), std::env::var("PEER_DESK")];
    let [Ok(ours), Ok(theirs)] = programs else {
        return Ok("left out, BENCH_BOX_DESK and PEER_DESK do not name both".to_string());
    };
    let desks = [&ours[..], &theirs];
    let (mut bytes, mut longest) = (0, 0);
    let streams = trial.cases("6, desk programs", LEAST, until, |trial, mut rng, number| {
        let (input, piece) = some_input(&mut rng, number);
        let text = serve(trial, &Start::fresh(DESK_RING), &input[..].into(), 0, None)?;
        if let Some(difference) = differ(desks, &input, piece, Some(&text)) {
            return Err(tell(desks, &input, piece, difference));
        }
        (bytes, longest) = (bytes + text.len(), longest.max(input.len()));
        Ok(())
    })?;
    Ok(format!(
        "{streams} streams through both, the longest of {longest} bytes, in pieces from 1 byte up, {bytes} bytes of \
         text alike"
    ))
}

/// A stream, and in how long pieces it is fed: 0 is all at once.
fn some_input(rng: &mut Rng, number: u64) -> (Vec<u8>, usize) {
    let mix = rng.pick(&Mix::ALL);
    let records = match number {
        0 => 0,
        1..LONG => 60_000,
        _ => match rng.below(10) {
            0..6 => rng.between(1, 60),
            6..9 => rng.between(60, 600),
            _ => rng.between(600, 6000),
        },
    };
    let mut input = Guide::new(rng, &Start::fresh(DESK_RING), mix).stream(records);
    if records > 0 && rng.chance(30) {
        damage(rng, &mut input);
    }
    let piece = match input.len() {
        0..3000 => rng.pick(&[0, 1, 2, 3, 5, 16]),
        3000..60_000 => rng.pick(&[0, 17, 64, 259, 1000]),
        _ => rng.pick(&[0, 4095, 4097, 65_536, 70_000]),
    };
    (input, piece)
}

/// What a desk program prints.
fn desk(program: &str, input: &[u8], piece: usize) -> io::Result<Vec<u8>> {
    let mut child = Command::new(program).stdin(Stdio::piped()).stdout(Stdio::piped()).spawn()?;
    let mut into = child.stdin.take().expect("a pipe");
    let mut from = child.stdout.take().expect("a pipe");
    let mut text = Vec::new();
    thread::scope(|scope| {
        scope.spawn(move || {
            let piece = if piece == 0 { input.len().max(1) } else { piece };
            // A program that met a bad record reads no more.
            let _ = input.chunks(piece).try_for_each(|part| into.write_all(part));
        });
        from.read_to_end(&mut text)
    })?;
    let status = child.wait()?;
    if !status.success() {
        text.extend(format!("(ends with {status})").bytes());
    }
    Ok(text)
}

/// What the desks' texts differ in, from each other or from that of a window.
fn differ(desks: [&str; 2], input: &[u8], piece: usize, text: Option<&[u8]>) -> Option<Difference> {
    let [proved, peer] = desks
        .map(|program| desk(program, input, piece).unwrap_or_else(|error| format!("(fails: {error})").into_bytes()));
    if proved != peer {
        return Some(Difference::new("the desk programs' text", show_text(&proved), show_text(&peer)));
    }
    let text = text.filter(|&text| text != proved)?;
    Some(Difference::new("the desk programs' text and that of a window", show_text(&proved), show_text(text)))
}

fn tell(desks: [&str; 2], input: &[u8], piece: usize, difference: Difference) -> Differs {
    let until = Instant::now() + Duration::from_secs(30);
    let shows = |records: &[Vec<u8>]| Instant::now() < until && differ(desks, &records.concat(), piece, None).is_some();
    let short = least(&pieces(input), shows);
    let difference = differ(desks, &short.concat(), piece, None).unwrap_or(difference);
    println!("\nDIFFERENCE in {}\n{difference}", place());
    println!("  the shortest stream that shows it, of {} records, in pieces of {piece}:", short.len());
    println!("    {}", hex(&short.concat()));
    Differs
}
