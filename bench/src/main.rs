//! The speed of the proved box beside its peer: the same input for both, in turns, the best of several repeats.
//!
//!     speed [quick] FOLDER PROVED-DESK PEER-DESK IDLE     the tables; streams stand in the folder meanwhile
//!     speed stream pictures|control COUNT                 that many records, on standard output
//!
//! IDLE is a program that only reads its standard input: it shows what the C library alone takes.

use std::fs::{self, File};
use std::hint::black_box;
use std::io::{self, BufWriter, Write};
use std::path::{Path, PathBuf};
use std::process::{Child, Command, ExitCode, Stdio};
use std::time::Duration;

use bench::boxes::ByWords;
use bench::figures::{print_table, with_commas, Figures};
use bench::proved;
use bench::rows::{held, perform, scanning, text_of, tick, Calls, Row, Table, Work};
use bench::rows::{PERFORM, PICTURES, PIECES, PIECES_OF_RING, RING, RING_MOST, SERVE, TICK};
use bench::streams::{fetch, picture, record, Stream, STREAMS};
use peer::kind;

fn main() -> ExitCode {
    let arguments: Vec<String> = std::env::args().skip(1).collect();
    let words: Vec<&str> = arguments.iter().map(String::as_str).collect();
    let outcome = match words[..] {
        ["stream", name, count] => print_stream(name, count),
        ["quick", folder, proved, peer, idle] => tables(&QUICK, Path::new(folder), &Programs { proved, peer, idle }),
        [folder, proved, peer, idle] => tables(&FULL, Path::new(folder), &Programs { proved, peer, idle }),
        _ => Err(io::Error::other("usage: speed [quick] FOLDER PROVED-DESK PEER-DESK IDLE")),
    };
    match outcome {
        Ok(()) => ExitCode::SUCCESS,
        Err(error) => {
            eprintln!("speed: {error}");
            ExitCode::FAILURE
        }
    }
}

fn tables(effort: &Effort, folder: &Path, programs: &Programs) -> io::Result<()> {
    print_machine()?;
    let files = Files::make(effort, folder)?;
    print_desks(effort, &files, programs)?;
    print_library(effort);
    print_memory(&files, programs)
}

/// How much is measured. Every measurement is taken in each pass, so that a slow minute of the machine spoils none.
struct Effort {
    passes: usize,
    /// Lengths of the desk programs' streams, and how often each is run in a pass.
    desks: &'static [(usize, usize)],
    /// How often a measurement in memory is taken in a pass, and how long one takes.
    repeats: usize,
    span: Duration,
}

const FULL: Effort = Effort {
    passes: 6,
    desks: &[(10_000, 15), (1_000_000, 3), (10_000_000, 1)],
    repeats: 24,
    span: Duration::from_millis(1),
};

const QUICK: Effort =
    Effort { passes: 3, desks: &[(10_000, 10), (1_000_000, 2)], repeats: 8, span: Duration::from_millis(1) };

// ---- streams

fn print_stream(name: &str, count: &str) -> io::Result<()> {
    let stream = match name {
        "pictures" => Stream::Pictures,
        "control" => Stream::Control,
        _ => return Err(io::Error::other("the streams are pictures and control")),
    };
    let count = count.parse().map_err(io::Error::other)?;
    let mut out = BufWriter::new(io::stdout().lock());
    stream.make(count, &mut out)?;
    out.flush()
}

fn print_machine() -> io::Result<()> {
    let text = fs::read_to_string("/proc/cpuinfo")?;
    let model = text.lines().find_map(|line| line.strip_prefix("model name")).unwrap_or(": unknown");
    let cores = std::thread::available_parallelism()?;
    println!("Machine: {}, {cores} cores.", model.trim_start_matches([' ', '\t', ':']));
    println!();
    println!("Both boxes get the same input, in turns, and answer alike. Times are processor time, the best of many");
    println!("repeats. The ratio is the peer's time by the proved box's: from 1.00 on the proved box is as fast.");
    Ok(())
}

// ---- the clocks of the C library

mod c {
    #[repr(C)]
    pub struct Time {
        pub seconds: i64,
        pub parts: i64,
    }

    /// Times in seconds and microseconds; then counts that are not used here.
    #[repr(C)]
    pub struct Usage {
        pub user: Time,
        pub system: Time,
        pub counts: [i64; 14],
    }

    pub const PROCESS: i32 = 2;

    extern "C" {
        pub fn clock_gettime(clock: i32, time: *mut Time) -> i32;
        pub fn wait4(process: i32, status: *mut i32, options: i32, usage: *mut Usage) -> i32;
    }
}

/// Processor time of this process. Other programs on the machine do not count.
fn processor_time() -> Duration {
    let mut time = c::Time { seconds: 0, parts: 0 };
    // SAFETY: the clock exists, and the time is there to be written.
    unsafe { c::clock_gettime(c::PROCESS, &mut time) };
    Duration::new(time.seconds as u64, time.parts as u32)
}

/// Waits for a program's end: its processor time in seconds, or its status where that is not 0.
fn wait_for(child: Child) -> io::Result<f64> {
    let none = || c::Time { seconds: 0, parts: 0 };
    let mut usage = c::Usage { user: none(), system: none(), counts: [0; 14] };
    let mut status = 0;
    // SAFETY: the child is not waited for yet, and both places are there to be written.
    let process = unsafe { c::wait4(child.id() as i32, &mut status, 0, &mut usage) };
    if process < 0 {
        return Err(io::Error::last_os_error());
    }
    if status != 0 {
        return Err(io::Error::other(format!("the program ends with status {status:#x}")));
    }
    let seconds = |time: &c::Time| time.seconds as f64 + time.parts as f64 / 1e6;
    Ok(seconds(&usage.user) + seconds(&usage.system))
}

// ---- 1. the desk programs

struct Programs<'a> {
    proved: &'a str,
    peer: &'a str,
    idle: &'a str,
}

/// The streams as files, an empty one before them. They stand as long as this does.
struct Files {
    files: Vec<Input>,
}

struct Input {
    path: PathBuf,
    name: &'static str,
    count: usize,
    in_pass: usize,
}

impl Files {
    fn make(effort: &Effort, folder: &Path) -> io::Result<Files> {
        let empty = Input { path: folder.join("empty"), name: "empty", count: 0, in_pass: 20 };
        File::create(&empty.path)?;
        let mut files = Files { files: vec![empty] };
        for stream in STREAMS {
            for &(count, in_pass) in effort.desks {
                let path = folder.join(format!("{}-{count}", stream.name()));
                let mut to = BufWriter::with_capacity(1 << 20, File::create(&path)?);
                files.files.push(Input { path, name: stream.name(), count, in_pass });
                stream.make(count, &mut to)?;
                to.flush()?;
            }
        }
        Ok(files)
    }

    fn find(&self, name: &str, count: usize) -> &Input {
        let is_it = |input: &&Input| input.name == name && input.count == count;
        self.files.iter().find(is_it).expect("the stream is made")
    }
}

impl Drop for Files {
    fn drop(&mut self) {
        for input in &self.files {
            let _ = fs::remove_file(&input.path);
        }
    }
}

fn print_desks(effort: &Effort, files: &Files, programs: &Programs) -> io::Result<()> {
    for input in files.files.iter().filter(|input| input.count == effort.desks[0].0) {
        see_alike(input, programs)?;
    }
    let mut times = vec![Figures::pair(f64::INFINITY, f64::INFINITY); files.files.len()];
    for _ in 0..effort.passes {
        for (input, best) in files.files.iter().zip(&mut times) {
            for _ in 0..input.in_pass {
                let (proved, peer) = (time_desk(programs.proved, input)?, time_desk(programs.peer, input)?);
                *best = Figures::pair(best.proved.min(proved), best.peer.min(peer));
            }
        }
    }
    let start = times[0];
    println!("\n## The desk programs, ns per record\n");
    println!("From a file to the null device. The program's start is left out: on empty input it takes");
    println!("{:.0} us (proved) and {:.0} us (peer).\n", start.proved * 1e6, start.peer * 1e6);
    println!("| Stream | Records | proved | peer | ratio |");
    println!("|---|---|---|---|---|");
    for (input, whole) in files.files.iter().zip(times).skip(1) {
        let each = |whole: f64, start: f64| (whole - start) * 1e9 / input.count as f64;
        let pair = Figures::pair(each(whole.proved, start.proved), each(whole.peer, start.peer));
        println!("| {} | {} | {} |", input.name, with_commas(input.count), pair.cells());
    }
    Ok(())
}

/// Seconds of a desk program.
fn time_desk(program: &str, input: &Input) -> io::Result<f64> {
    wait_for(Command::new(program).stdin(File::open(&input.path)?).stdout(Stdio::null()).spawn()?)
}

/// Both programs print the same.
fn see_alike(input: &Input, programs: &Programs) -> io::Result<()> {
    let text = |program: &str| -> io::Result<Vec<u8>> {
        Ok(Command::new(program).stdin(File::open(&input.path)?).output()?.stdout)
    };
    if text(programs.proved)? != text(programs.peer)? {
        return Err(io::Error::other(format!("the desk programs differ on {}", input.name)));
    }
    Ok(())
}

// ---- 2. the library

/// Work that is measured: nanoseconds of a call, the best so far.
struct Timed {
    /// So many calls.
    round: Box<dyn FnMut()>,
    calls: usize,
    rounds: u32,
    best: f64,
}

impl Timed {
    /// Does as many rounds as the span has.
    fn measure(&mut self, span: Duration) {
        loop {
            let start = processor_time();
            for _ in 0..self.rounds {
                (self.round)();
            }
            let spent = processor_time() - start;
            if spent * 2 >= span {
                let each = spent.as_nanos() as f64 / f64::from(self.rounds) / self.calls as f64;
                self.best = self.best.min(each);
                return;
            }
            self.rounds *= if spent * 16 < span { 8 } else { 2 };
        }
    }
}

/// Where a group of works stands in the list of all.
#[derive(Clone, Copy)]
struct Place(usize);

/// Works that are measured in turns: memcpy alone; or the same work of the proved box, the peer and the peer by words.
#[derive(Default)]
struct Works(Vec<Vec<Timed>>);

impl Works {
    fn group(&mut self) -> Place {
        self.0.push(Vec::new());
        Place(self.0.len() - 1)
    }

    fn add(&mut self, place: Place, calls: usize, round: Box<dyn FnMut()>) {
        self.0[place.0].push(Timed { round, calls, rounds: 1, best: f64::INFINITY });
    }

    fn both(&mut self, work: impl Fn() -> Work) -> Place {
        let (place, calls) = (self.group(), work().count());
        self.add(place, calls, work().round::<proved::Box>(calls));
        self.add(place, calls, work().round::<peer::Record>(calls));
        place
    }

    fn all(&mut self, work: impl Fn() -> Work) -> Place {
        let (place, calls) = (self.both(&work), work().count());
        self.add(place, calls, work().round::<ByWords>(calls));
        place
    }

    fn table(&mut self, table: &Table) -> Vec<Place> {
        let mut add = |row: &Row| match (row.work)().calls {
            Calls::Stream(stream) => self.stream(row, stream),
            _ if table.by_words => self.all(row.work),
            _ => self.both(row.work),
        };
        table.rows.iter().map(&mut add).collect()
    }

    /// Many control calls, so that the processor cannot learn them by heart.
    fn stream(&mut self, row: &Row, stream: Stream) -> Place {
        let count = match stream {
            Stream::Pictures => 4_000,
            Stream::Control => 60_000,
        };
        let input = stream.bytes(count);
        let alike = text_of::<proved::Box>(&input) == text_of::<peer::Record>(&input);
        assert!(alike, "the boxes differ on {}", row.name);
        self.both(|| (row.work)().with(input.clone(), count))
    }

    fn measure(&mut self, effort: &Effort) {
        for _ in 0..effort.passes {
            for group in &mut self.0 {
                for _ in 0..effort.repeats {
                    group.iter_mut().for_each(|work| work.measure(effort.span));
                }
            }
        }
    }

    /// Of a work that is a group by itself.
    fn best(&self, place: Place) -> f64 {
        self.0[place.0][0].best
    }

    fn figures(&self, place: Place) -> Figures {
        let group = &self.0[place.0];
        Figures { by_words: group.get(2).map(|work| work.best), ..Figures::pair(group[0].best, group[1].best) }
    }

    fn print(&self, table: &Table, places: &[Place]) {
        let figures: Vec<_> = places.iter().map(|&place| self.figures(place)).collect();
        print_table(table, "ns", &figures);
    }
}

fn print_library(effort: &Effort) {
    let mut works = Works::default();
    let tables = [&SERVE, &PERFORM, &TICK].map(|table| (table, works.table(table)));
    let pictures = PictureWorks::add(&mut works);
    let rings = RingWorks::add(&mut works);

    works.measure(effort);

    println!("\n## The library in memory\n");
    println!("The peer by words is the peer as a C host would have it: for each call it reads its record from numbers");
    println!("that may be any, and writes them back, as the proved box does. The last ratio is of its time.");
    for (table, places) in &tables {
        works.print(table, places);
    }
    pictures.print(&works);
    rings.print(&works);
}

// ---- 3. picture bytes

/// Rows of pieces of 255 bytes: memcpy's place, and both boxes'.
struct PictureWorks(Vec<(&'static str, Place, Place)>);

impl PictureWorks {
    fn add(works: &mut Works) -> PictureWorks {
        let [wide, narrow] = [(PIECES, RING_MOST), (PIECES_OF_RING, RING)].map(|(pieces, ring_length)| {
            let place = works.group();
            works.add(place, pieces, copying(picture(255).repeat(pieces), ring_length));
            place
        });
        let places = works.table(&PICTURES);
        let copies = [wide, narrow, wide, narrow];
        let rows = PICTURES.rows.iter().zip(copies).zip(places);
        PictureWorks(rows.map(|((row, copy), place)| (row.name, copy, place)).collect())
    }

    fn print(&self, works: &Works) {
        println!("\n## {}\n", PICTURES.title);
        println!("memcpy copies the same pieces, one by one, from the same input into a ring of the same length. A");
        println!("fetch also puts its bytes into the line, as hex. The share is the proved box's speed by memcpy's.\n");
        println!("| ns per piece | memcpy | proved | peer | ratio | share |");
        println!("|---|---|---|---|---|---|");
        for &(name, copy, place) in &self.0 {
            let (copy, pair) = (works.best(copy), works.figures(place));
            println!("| {name} | {copy:.1} | {} | {:.0} % |", pair.cells(), 100.0 * copy / pair.proved);
        }
        println!("\n| GB of picture each second | memcpy | proved | peer |");
        println!("|---|---|---|---|");
        for &(name, copy, place) in &self.0 {
            let (copy, pair) = (works.best(copy), works.figures(place));
            println!("| {name} | {:.1} | {:.2} | {:.2} |", 255.0 / copy, 255.0 / pair.proved, 255.0 / pair.peer);
        }
    }
}

/// Each payload of a window of Bytes records of 255 goes into a ring.
fn copying(window: Vec<u8>, ring_length: usize) -> Box<dyn FnMut()> {
    let mut ring = vec![0u8; ring_length];
    let pieces = window.len() / 259;
    assert!(pieces * 255 <= ring_length);
    Box::new(move || {
        let (window, length) = (black_box(&window), black_box(255));
        for piece in 0..pieces {
            // A slice's copy, where the length is not known beforehand, is a call of memcpy.
            ring[piece * 255..][..length].copy_from_slice(&window[piece * 259 + 4..][..length]);
            black_box(&mut ring);
        }
    })
}

// ---- 4. ring lengths

/// Rows of the same call with three lengths of the ring.
struct RingWorks(Vec<(&'static str, [Place; 3])>);

impl RingWorks {
    fn add(works: &mut Works) -> RingWorks {
        let lengths = [1, RING, RING_MOST];
        let rows = [
            Row { name: "perform Bytes of 1, Fetch of 1", work: in_and_out },
            Row { name: "perform GetState", work: || perform(held(), record(kind::GET_STATE, &[]), 64) },
            Row { name: "perform Tick", work: || perform(held(), record(kind::TICK, &[]), 64) },
            Row { name: "tick", work: || tick(held(), RING) },
        ];
        let add = |row: Row| {
            let places = lengths.map(|ring_length| works.both(|| Work { ring_length, ..(row.work)() }));
            (row.name, places)
        };
        RingWorks(rows.into_iter().map(add).collect())
    }

    fn print(&self, works: &Works) {
        println!("\n## Ring lengths, ns per call\n");
        println!("| Call | Box | ring 1 | ring 4,096 | ring 65,536 |");
        println!("|---|---|---|---|---|");
        for &(name, places) in &self.0 {
            let [one, desk, most] = places.map(|place| works.figures(place));
            println!("| {name} | proved | {:.1} | {:.1} | {:.1} |", one.proved, desk.proved, most.proved);
            println!("| {name} | peer | {:.1} | {:.1} | {:.1} |", one.peer, desk.peer, most.peer);
        }
    }
}

fn in_and_out() -> Work {
    let records = (0..32).flat_map(|_| [picture(1), fetch(1, 1, 1)]).collect();
    Work { setup: scanning(), ring_length: RING, calls: Calls::Perform(records) }
}

// ---- 5. memory

fn print_memory(files: &Files, programs: &Programs) -> io::Result<()> {
    println!("\n## Peak memory of the desk programs on 1,000,000 records, KiB\n");
    println!("The most that is ever resident, and how much of it is beyond a program that only reads.\n");
    println!("| Program | pictures | control calls | beyond the C library |");
    println!("|---|---|---|---|");
    let base = peak(programs.idle, &files.files[0].path)?;
    println!("| only reads | {base} | {base} | 0 |");
    for (name, program) in [("proved", programs.proved), ("peer", programs.peer)] {
        let [pictures, control] = STREAMS.map(|stream| peak(program, &files.find(stream.name(), 1_000_000).path));
        let (pictures, control) = (pictures?, control?);
        println!("| {name} | {pictures} | {control} | {} |", pictures.max(control).saturating_sub(base));
    }
    Ok(())
}

/// A program's greatest resident memory. Its input is a pipe that stays open until the memory is read.
fn peak(program: &str, input: &Path) -> io::Result<u64> {
    let mut child = Command::new(program).stdin(Stdio::piped()).stdout(Stdio::null()).spawn()?;
    let mut to = child.stdin.take().expect("the input is a pipe");
    io::copy(&mut File::open(input)?, &mut to)?;
    let most = at_rest(&child).and_then(|status| high_water(&status));
    drop(to);
    wait_for(child)?;
    most
}

/// The kernel's words about a program that has read all its input and sleeps.
fn at_rest(child: &Child) -> io::Result<String> {
    for _ in 0..1000 {
        std::thread::sleep(Duration::from_millis(20));
        let status = fs::read_to_string(format!("/proc/{}/status", child.id()))?;
        if status.contains("State:\tS") {
            return Ok(status);
        }
    }
    Err(io::Error::other("the program does not come to rest"))
}

fn high_water(status: &str) -> io::Result<u64> {
    let line = status.lines().find_map(|line| line.strip_prefix("VmHWM:"));
    let number = line.and_then(|line| line.trim().split(' ').next()).and_then(|word| word.parse().ok());
    number.ok_or_else(|| io::Error::other("no VmHWM"))
}
