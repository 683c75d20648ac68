//! The rows of the tables: what a box does in each.

use std::hint::black_box;

use peer::kind;

use crate::boxes::Bench;
use crate::streams::{fetch, picture, record, start_scan, Stream};

/// The desk program's ring, the longest ring, a reply that shortens no fetch, room for any line.
pub const RING: usize = 4096;
pub const RING_MOST: usize = 65_536;
pub const REPLY: usize = 259;
pub const LINE: usize = 640;

/// How much input a host serves at a time, and how much text it writes at a time.
pub const WINDOW: usize = 64 * 1024;
pub const LINES: usize = 64 * 1024;

/// How many records of 255 bytes a window has.
pub const PIECES: usize = WINDOW / 259;

/// How many such pieces the desk program's ring has room for.
pub const PIECES_OF_RING: usize = RING / 255;

pub struct Table {
    pub name: &'static str,
    pub title: &'static str,
    /// What a row's numbers are of.
    pub each: &'static str,
    /// Whether the peer by words has a column.
    pub by_words: bool,
    pub rows: &'static [Row],
}

pub struct Row {
    pub name: &'static str,
    pub work: fn() -> Work,
}

/// What a box does, again and again, from the state that the setup leaves.
pub struct Work {
    pub setup: Vec<Vec<u8>>,
    pub ring_length: usize,
    pub calls: Calls,
}

pub enum Calls {
    /// A stream's records through serve, as many as who measures will.
    Stream(Stream),
    /// So many records through serve.
    Serve { input: Vec<u8>, records: usize },
    /// One record after the other.
    Perform(Vec<Vec<u8>>),
    /// So many ticks.
    Tick(usize),
}

pub const SERVE: Table = Table {
    name: "serve",
    title: "serve, windows of 64 KiB",
    each: "record",
    by_words: false,
    rows: &[
        Row { name: "pictures", work: || stream(Stream::Pictures) },
        Row { name: "control calls", work: || stream(Stream::Control) },
    ],
};

pub const PERFORM: Table = Table {
    name: "perform",
    title: "perform, one record for each call",
    each: "call",
    by_words: true,
    rows: &[
        Row { name: "Tick, Idle", work: || perform(vec![], record(kind::TICK, &[]), 64) },
        Row { name: "Tick, a job is held", work: || perform(held(), record(kind::TICK, &[]), 64) },
        Row { name: "GetState", work: || perform(held(), record(kind::GET_STATE, &[]), 64) },
        Row { name: "feeder GetState", work: || perform(held(), record(kind::FEEDER_GET_STATE, &[]), 64) },
        Row { name: "GetDestination", work: || perform(held(), record(kind::GET_DESTINATION, &[0, 0, 0, 1]), 64) },
        Row { name: "Stop, refused (712)", work: || perform(held(), record(kind::STOP, &[0, 0, 0, 9]), 64) },
        Row { name: "Bytes of 0", work: || perform(scanning(), picture(0), 64) },
        Row { name: "Bytes of 16", work: || perform(scanning(), picture(16), 64) },
        Row { name: "Bytes of 255", work: bytes_of_255 },
        Row { name: "Fetch of 0", work: || perform(scanning(), fetch(255, 1, 1), 64) },
        Row { name: "Fetch of 255", work: fetch_of_255 },
    ],
};

pub const TICK: Table = Table {
    name: "tick",
    title: "tick",
    each: "call",
    by_words: true,
    rows: &[
        Row { name: "Idle", work: || tick(vec![], RING) },
        Row { name: "a job is held", work: || tick(held(), RING) },
    ],
};

pub const PICTURES: Table = Table {
    name: "pictures",
    title: "Picture bytes, in pieces of 255",
    each: "piece",
    by_words: false,
    rows: &[
        Row { name: "in, serve, ring 65,536", work: || window(scanning(), picture(255)) },
        Row { name: "in, perform, ring 4,096", work: bytes_of_255 },
        Row { name: "out, serve, ring 65,536", work: || window(waiting(PIECES), fetch(255, 1, 1)) },
        Row { name: "out, perform, ring 4,096", work: fetch_of_255 },
    ],
};

pub const TABLES: [&Table; 4] = [&SERVE, &PERFORM, &TICK, &PICTURES];

/// The row that these names lead to.
pub fn find(table: &str, row: &str) -> Option<&'static Row> {
    let table = TABLES.into_iter().find(|it| it.name == table)?;
    table.rows.iter().find(|it| it.name == row)
}

fn stream(stream: Stream) -> Work {
    Work { setup: vec![], ring_length: RING, calls: Calls::Stream(stream) }
}

/// A window full of the same record of 255 bytes, or of as many short ones.
fn window(setup: Vec<Vec<u8>>, record: Vec<u8>) -> Work {
    let calls = Calls::Serve { input: record.repeat(PIECES), records: PIECES };
    Work { setup, ring_length: RING_MOST, calls }
}

pub fn perform(setup: Vec<Vec<u8>>, record: Vec<u8>, times: usize) -> Work {
    Work { setup, ring_length: RING, calls: Calls::Perform(vec![record; times]) }
}

fn bytes_of_255() -> Work {
    perform(scanning(), picture(255), PIECES_OF_RING)
}

fn fetch_of_255() -> Work {
    perform(waiting(PIECES_OF_RING), fetch(255, 1, 1), PIECES_OF_RING)
}

/// Fewer than any job's granted time here.
const TICKS: usize = 500;

pub fn tick(setup: Vec<Vec<u8>>, ring_length: usize) -> Work {
    Work { setup, ring_length, calls: Calls::Tick(TICKS) }
}

/// A job is held and scans nothing.
pub fn held() -> Vec<Vec<u8>> {
    vec![start_scan(0, 0, 1, 600)]
}

/// A job scans from the glass.
pub fn scanning() -> Vec<Vec<u8>> {
    vec![start_scan(0, 1, 1, 600)]
}

/// So many pieces of 255 bytes wait in the ring.
fn waiting(pieces: usize) -> Vec<Vec<u8>> {
    let mut setup = scanning();
    setup.extend(vec![picture(255); pieces]);
    setup
}

impl Work {
    /// This input, of so many records, in place of the calls.
    pub fn with(self, input: Vec<u8>, records: usize) -> Work {
        Work { calls: Calls::Serve { input, records }, ..self }
    }

    /// How many calls a round has; for serve, how many records. A stream by itself has none yet.
    pub fn count(&self) -> usize {
        match &self.calls {
            Calls::Stream(_) => 0,
            Calls::Serve { records, .. } => *records,
            Calls::Perform(records) => records.len(),
            Calls::Tick(ticks) => *ticks,
        }
    }

    /// So few calls that what they take can be left out of a count of the whole round, and with it all that is no call.
    /// An input is served whole or not at all.
    pub fn few(&self) -> usize {
        match self.calls {
            Calls::Stream(_) | Calls::Serve { .. } => 0,
            Calls::Perform(_) | Calls::Tick(_) => 1,
        }
    }

    /// A round of the calls, or of the first ones, each time from the same state on.
    pub fn round<B: Bench + 'static>(self, count: usize) -> Box<dyn FnMut()> {
        let (start, mut ring) = self.prepared::<B>();
        match self.calls {
            Calls::Stream(_) => panic!("a stream without its input"),
            Calls::Serve { input, .. } => {
                let (mut lines, length) = (vec![0; LINES], if count == 0 { 0 } else { input.len() });
                Box::new(move || {
                    let mut the_box = start;
                    serve_all(&mut the_box, &mut ring, black_box(&input[..length]), &mut lines, |text| {
                        black_box(text);
                    });
                })
            }
            Calls::Perform(records) => {
                let (mut reply, mut line) = ([0; REPLY], [0; LINE]);
                Box::new(move || {
                    let mut the_box = start;
                    for record in &records[..count] {
                        black_box(the_box.perform(&mut ring, &mut reply, black_box(record), &mut line));
                    }
                    black_box(&the_box);
                })
            }
            Calls::Tick(_) => {
                let ring_length = self.ring_length;
                Box::new(move || {
                    let mut the_box = start;
                    for _ in 0..count {
                        black_box(the_box.tick(black_box(ring_length)));
                    }
                    black_box(&the_box);
                })
            }
        }
    }

    /// A box after the setup, and its ring.
    fn prepared<B: Bench>(&self) -> (B, Vec<u8>) {
        let (mut the_box, mut ring) = (B::fresh(), vec![0; self.ring_length]);
        for record in &self.setup {
            let number = the_box.perform(&mut ring, &mut [0; REPLY], record, &mut [0; LINE]);
            assert!(number == 0, "the setup is refused: {number}");
        }
        (the_box, ring)
    }
}

/// What a box prints for an input from its fresh state on.
pub fn text_of<B: Bench>(input: &[u8]) -> Vec<u8> {
    let mut text = Vec::new();
    serve_all(&mut B::fresh(), &mut [0; RING], input, &mut [0; LINES], |part| text.extend_from_slice(part));
    text
}

/// Serves as a host does: a window of the input, as many times as its lines need, then the next window from the first
/// record on that is not answered.
fn serve_all<B: Bench>(the_box: &mut B, ring: &mut [u8], input: &[u8], lines: &mut [u8], mut say: impl FnMut(&[u8])) {
    let mut place = 0;
    while place < input.len() {
        let (begin, end) = (place, input.len().min(place + WINDOW));
        loop {
            let window = &input[place..end];
            let (read, written) = the_box.serve(ring, window, place as u64, end == input.len(), lines);
            say(&lines[..written]);
            place += read;
            if read == 0 || place == end {
                break;
            }
        }
        assert!(place > begin, "nothing of a window is answered");
    }
}
