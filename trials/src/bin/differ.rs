//! Holds the proved box to its peer: the same calls for both, and everything they leave compared.
//!
//!     differ [SECONDS] [--seed N] [--part P] [--from CASE]
//!
//! SECONDS is the time for all parts together, 100 unless given. The seed fixes every case; a slower machine comes less
//! far. Exit 0: all agree. Exit 1: something differs, and the shortest case that shows it is printed; or something
//! that the paper allows is not reached. One part can be run alone, and from a given case on.
//!
//! BENCH_BOX_TRIAL names the box program, built from box.c and the library, or a program that runs it; BENCH_BOX_DESK
//! and PEER_DESK name the two desk programs.
//!
//! Built with panics that unwind, a peer that panics is told and shrunk like any other difference.

use std::process::ExitCode;
use std::time::{Duration, Instant};
use trials::pair::{place, Pair};
use trials::parts::{damage, desks, memory, single, stored, streams, Differs, Trial};

const USAGE: &str = "differ [SECONDS] [--seed N] [--part P] [--from CASE]";
const SEED: u64 = 29_341;

/// Runs until a time and says what it came to.
type Part = fn(&mut Trial, Instant) -> Result<String, Differs>;

/// The parts with their shares of the time, in a hundred.
const PARTS: [(&str, Part, f64); 6] = [
    ("streams", streams::run, 34.0),
    ("damage", damage::run, 16.0),
    ("one at a time", single::run, 18.0),
    ("any record", stored::run, 18.0),
    ("memory", memory::run, 5.0),
    ("desk programs", desks::run, 9.0),
];

struct Arguments {
    seconds: f64,
    seed: u64,
    part: Option<usize>,
    first: u64,
}

fn arguments() -> Option<Arguments> {
    let mut found = Arguments { seconds: 100.0, seed: SEED, part: None, first: 0 };
    let mut given = std::env::args().skip(1);
    while let Some(argument) = given.next() {
        match argument.as_str() {
            "--seed" => found.seed = given.next()?.parse().ok()?,
            "--from" => found.first = given.next()?.parse().ok()?,
            "--part" => found.part = Some(given.next()?.parse().ok().filter(|part| (1..=6).contains(part))?),
            _ => found.seconds = argument.parse().ok().filter(|&seconds| seconds >= 0.0)?,
        }
    }
    Some(found)
}

/// The peer's panics that unwind are caught where it is called. Others are told with the case that they come in.
fn tell_panic(panic: &std::panic::PanicHookInfo) {
    let peers = panic.location().is_some_and(|place| place.file().contains("peer/src/"));
    if !peers || cfg!(panic = "abort") {
        println!("\nDIFFERENCE: a panic in {}: {panic}", place());
    }
}

/// Runs the parts. Gives whether all agree and all is reached.
fn run(trial: &mut Trial, Arguments { seconds, part, .. }: &Arguments) -> Result<bool, Differs> {
    for (number, (name, run, share)) in (1..).zip(PARTS) {
        if part.is_some_and(|part| part != number) {
            continue;
        }
        let (begun, calls, questions) = (Instant::now(), trial.pair.calls, trial.pair.questions);
        let said = run(trial, begun + Duration::from_secs_f64(seconds * share / 100.0))?;
        let (calls, questions) = (trial.pair.calls - calls, trial.pair.questions - questions);
        let seconds = begun.elapsed().as_secs_f64();
        println!(
            "part {number}, {name}: {said}; {calls} calls and {questions} questions compared, {seconds:.1} seconds"
        );
    }
    let with_streams = part.map_or(true, |part| part == 1);
    trial.tally.print(with_streams);
    let faults = trial.tally.faults(with_streams);
    faults.iter().for_each(|fault| println!("{fault}"));
    // A single part does not reach everything.
    Ok(faults.is_empty() || part.is_some())
}

fn main() -> ExitCode {
    let Some(arguments) = arguments() else {
        eprintln!("{USAGE}");
        return ExitCode::from(2);
    };
    std::panic::set_hook(Box::new(tell_panic));
    let Ok(program) = std::env::var("BENCH_BOX_TRIAL") else {
        eprintln!("differ: BENCH_BOX_TRIAL does not name the box program");
        return ExitCode::from(2);
    };
    let pair = match Pair::start(&program) {
        Ok(pair) => pair,
        Err(error) => {
            eprintln!("differ: {program}: {error}");
            return ExitCode::from(2);
        }
    };
    let (begun, seed) = (Instant::now(), arguments.seed);
    let mut trial = Trial::new(pair, seed, arguments.first);
    let outcome = run(&mut trial, &arguments);
    let seconds = begun.elapsed().as_secs_f64();
    let Ok(all_reached) = outcome else {
        println!("differ: something differs (seed {seed}, {seconds:.0} seconds)");
        return ExitCode::FAILURE;
    };
    let Pair { calls, questions, .. } = trial.pair;
    println!("differ: all agree, {calls} calls and {questions} questions compared (seed {seed}, {seconds:.0} seconds)");
    if all_reached {
        ExitCode::SUCCESS
    } else {
        ExitCode::FAILURE
    }
}
