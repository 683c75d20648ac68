//! How many instructions the proved box and its peer take, exactly.
//!
//!     count streams FOLDER                       puts the streams pictures and control into the folder
//!     count FOLDER ROWS                          the library's rows
//!     count FOLDER ROWS PROVED-DESK PEER-DESK    all rows
//!
//! ROWS and the desks are programs that run these programs, with each instruction counted: on standard error they say
//! what the emulator or callgrind says.
//!
//! A row is done twice, with all its calls and with few of them. The difference is what the other calls take, and the
//! start of the program and of the row is none of it.

use std::collections::HashMap;
use std::fs::{self, File};
use std::io::{self, BufRead, BufReader};
use std::path::Path;
use std::process::{Command, ExitCode, Stdio};
use std::sync::atomic::{AtomicUsize, Ordering};
use std::thread;

use bench::figures::{print_table, with_commas, Figures};
use bench::rows::{Calls, Row, Table, PERFORM, PICTURES, SERVE, TICK};
use bench::streams::{Stream, STREAMS};

/// How many records a stream has.
const RECORDS: usize = 10_000;

fn main() -> ExitCode {
    let arguments: Vec<String> = std::env::args().skip(1).collect();
    let words: Vec<&str> = arguments.iter().map(String::as_str).collect();
    let outcome = match words[..] {
        ["streams", folder] => make_streams(Path::new(folder)),
        [folder, rows] => Programs { folder, rows }.print(&[&SERVE, &PERFORM, &TICK]),
        [folder, rows, proved, peer] => print_all(&Programs { folder, rows }, proved, peer),
        _ => Err(io::Error::other("usage: count streams FOLDER, or count FOLDER ROWS [PROVED-DESK PEER-DESK]")),
    };
    match outcome {
        Ok(()) => ExitCode::SUCCESS,
        Err(error) => {
            eprintln!("count: {error}");
            ExitCode::FAILURE
        }
    }
}

fn make_streams(folder: &Path) -> io::Result<()> {
    for stream in STREAMS {
        fs::write(folder.join(file_of(stream)), stream.bytes(RECORDS))?;
    }
    Ok(())
}

fn print_all(programs: &Programs, proved: &str, peer: &str) -> io::Result<()> {
    let records = with_commas(RECORDS);
    println!(
        "Instructions of x86-64, counted one by one; what the kernel does is not counted. Both boxes get the same"
    );
    println!("input. The ratio is the peer's count by the proved box's.");
    println!("\n## The desk programs\n");
    println!("From a file to the null device, {records} records. The program's start is left out.\n");
    println!("| Stream: instructions per record | proved | peer | ratio |");
    println!("|---|---|---|---|");
    programs.print_desks(proved, peer)?;
    println!("\n## The library in memory\n");
    println!("Streams have {records} records. The loop around a call, and handing over its words, are counted too.");
    println!("The peer by words is the peer as a C host would have it: for each call it reads its record from numbers");
    println!("that may be any, and writes them back, as the proved box does. The last ratio is of its count.");
    programs.print(&[&SERVE, &PERFORM, &TICK, &PICTURES])
}

struct Programs<'a> {
    folder: &'a str,
    rows: &'a str,
}

/// A program that is to be counted.
struct Run<'a> {
    program: &'a str,
    words: Vec<&'a str>,
    /// A file of the folder.
    input: Option<&'static str>,
}

fn file_of(stream: Stream) -> &'static str {
    match stream {
        Stream::Pictures => "pictures",
        Stream::Control => "control",
    }
}

impl<'a> Programs<'a> {
    fn print_desks(&self, proved: &'a str, peer: &'a str) -> io::Result<()> {
        let mut runs = Vec::new();
        for stream in STREAMS {
            for program in [proved, peer] {
                for input in [Some(file_of(stream)), None] {
                    runs.push(Run { program, words: vec![], input });
                }
            }
        }
        let counts = self.count(&runs)?;
        for (stream, counts) in STREAMS.into_iter().zip(counts.chunks(4)) {
            let pair = Figures::pair(each(&counts[..2], RECORDS), each(&counts[2..], RECORDS));
            println!("| {} | {} |", stream.name(), pair.cells());
        }
        Ok(())
    }

    fn print(&self, tables: &[&Table]) -> io::Result<()> {
        let boxes = |table: &Table| if table.by_words { &["proved", "peer", "words"][..] } else { &["proved", "peer"] };
        let mut runs = Vec::new();
        for table in tables {
            for row in table.rows {
                for the_box in boxes(table) {
                    runs.extend(["all", "few"].map(|which| self.row(the_box, table, row, which)));
                }
            }
        }
        let counts = self.count(&runs)?;
        let mut counts = counts.chunks(2);
        for table in tables {
            let figures = table.rows.iter().map(|row| {
                let calls = calls(row);
                let mut figures = boxes(table).iter().map(|_| each(counts.next().expect("a run of each"), calls));
                let mut next = || figures.next();
                let (proved, peer) = (next().expect("the proved box"), next().expect("the peer"));
                Figures { proved, peer, by_words: next() }
            });
            print_table(table, "instructions", &figures.collect::<Vec<_>>());
        }
        Ok(())
    }

    fn row(&self, the_box: &'a str, table: &'a Table, row: &'a Row, which: &'a str) -> Run<'a> {
        let input = match (row.work)().calls {
            Calls::Stream(stream) => Some(file_of(stream)),
            _ => None,
        };
        Run { program: self.rows, words: vec!["row", the_box, table.name, row.name, which], input }
    }

    /// The instructions of each run, as many runs at a time as the machine has processors.
    fn count(&self, runs: &[Run]) -> io::Result<Vec<u64>> {
        let next = AtomicUsize::new(0);
        let take = || -> io::Result<Vec<(usize, u64)>> {
            let mut counts = Vec::new();
            loop {
                let place = next.fetch_add(1, Ordering::Relaxed);
                let Some(run) = runs.get(place) else {
                    return Ok(counts);
                };
                counts.push((place, run.count(Path::new(self.folder))?));
            }
        };
        let mut counts = vec![0; runs.len()];
        thread::scope(|scope| {
            let threads: Vec<_> = (0..thread::available_parallelism()?.get()).map(|_| scope.spawn(take)).collect();
            for thread in threads {
                for (place, count) in thread.join().expect("a count does not panic")? {
                    counts[place] = count;
                }
            }
            Ok(counts)
        })
    }
}

/// What a call takes, where so many calls make the difference of two counts.
fn each(counts: &[u64], calls: usize) -> f64 {
    (counts[0] as f64 - counts[1] as f64) / calls as f64
}

/// By how many calls all differ from few.
fn calls(row: &Row) -> usize {
    let work = (row.work)();
    match work.calls {
        Calls::Stream(_) => RECORDS,
        _ => work.count() - work.few(),
    }
}

impl Run<'_> {
    fn count(&self, folder: &Path) -> io::Result<u64> {
        let input = match self.input {
            Some(name) => Stdio::from(File::open(folder.join(name))?),
            None => Stdio::null(),
        };
        let mut command = Command::new(self.program);
        let mut child = command.args(&self.words).stdin(input).stdout(Stdio::null()).stderr(Stdio::piped()).spawn()?;
        let said = child.stderr.take().expect("standard error is a pipe");
        let counted = counted(BufReader::with_capacity(1 << 16, said))?;
        let status = child.wait()?;
        let failed = |why: String| {
            let words = self.words.join(" ");
            io::Error::other(format!("{} {words}: {why}: {}", self.program, counted.other.trim_end()))
        };
        if !status.success() {
            return Err(failed(status.to_string()));
        }
        if counted.instructions == 0 {
            return Err(failed("no instruction is counted".to_string()));
        }
        Ok(counted.instructions)
    }
}

/// What a counted program says on standard error.
#[derive(Default)]
struct Counted {
    instructions: u64,
    /// The last line that has nothing to do with counting.
    other: String,
}

/// A run of instructions that the emulator translates as one, by where its first and its last instruction stand.
#[derive(Clone, Copy, Default)]
struct Block {
    instructions: u64,
    first: u64,
    last: u64,
}

/// Counts by the emulator's log: `OP:` begins a block that is translated, with a line of `----` for each instruction,
/// and `Trace` says that a block is executed, a new one first right behind its translation. Or reads callgrind's count.
fn counted(mut said: impl BufRead) -> io::Result<Counted> {
    let mut counted = Counted::default();
    let (mut blocks, mut new) = (HashMap::new(), None);
    let (mut before, mut executed) = (Block::default(), Block::default());
    let mut line = Vec::new();
    while said.read_until(b'\n', &mut line)? > 0 {
        if let Some(rest) = line.strip_prefix(b"Trace 0: 0x") {
            let place = hex(rest);
            if let Some(block) = new.take() {
                blocks.insert(place, block);
            }
            before = executed;
            executed = *blocks.get(&place).ok_or_else(|| io::Error::other("a block that was not translated"))?;
            counted.instructions += executed.instructions;
            // The emulator goes through a repeated instruction (rep) again and again. It is one.
            if executed.first == before.last {
                counted.instructions -= 1;
            }
        } else if let Some(rest) = line.strip_prefix(b" ---- ") {
            let block = new.get_or_insert_with(Block::default);
            block.last = hex(rest);
            if block.instructions == 0 {
                block.first = block.last;
            }
            block.instructions += 1;
        } else if line.starts_with(b"Stopped execution") {
            counted.instructions -= executed.instructions;
            executed = before;
        } else if line.starts_with(b"OP") {
            new = Some(Block::default());
        } else if !line.starts_with(b" ") && line != b"\n" {
            let text = String::from_utf8_lossy(&line);
            match text.split_once("Collected : ") {
                Some((_, count)) => counted.instructions = count.trim().parse().map_err(io::Error::other)?,
                None => counted.other = text.into_owned(),
            }
        }
        line.clear();
    }
    Ok(counted)
}

/// The number that hex digits at the front say.
fn hex(digits: &[u8]) -> u64 {
    let digits = digits.iter().map_while(|&byte| char::from(byte).to_digit(16));
    digits.fold(0, |number, digit| number << 4 | u64::from(digit))
}
