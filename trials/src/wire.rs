//! What goes to the box program and comes back: operations and answers, as box.c has them.
//!
//! The peer's answers are put in the same form. So the two sides agree where their bytes do.

use crate::case::Call;
use crate::tally::NUMBERS;
use peer::{DESK_REPLY, KINDS, LINE_MOST, NAMES, NO_RECORD, RING_MOST, VERSION, WORDS};
use std::fmt::{Display, Formatter, Write};

/// The box record in words, as include/bench_box.h numbers them.
pub type Words = [u64; WORDS];

#[derive(Clone, Copy, PartialEq, Eq, Debug)]
#[repr(u32)]
pub enum Kind {
    Fill = 1,
    Reset,
    Layout,
    Fresh,
    Tick,
    Ask,
    Perform,
    Serve,
}

/// Where a call finds what it is lent.
#[derive(Clone, Copy, PartialEq, Eq, Debug)]
pub enum Memory {
    /// Each thing between guards.
    Usual,
    /// In one arena: record, progress, ring, reply, input and lines at these places. A place of 0 with a length of 0
    /// is a null pointer.
    Arena([u16; 6]),
    BehindPage,
    BeforePage,
}

/// Puts what the box is to do: a call with its reply's first bytes from this place of the table, and how much it looks
/// at; or a ring of this length from a place of the table. Bytes follow: a table, words, questions, or the stream that
/// inputs are windows of from now on.
pub fn put_operation(
    to: &mut Vec<u8>,
    call: &Call,
    memory: Memory,
    (look_at_ring, look_behind): (bool, usize),
    [ring_from, ring_length, reply_from]: [usize; 3],
    bytes: &[u8],
) {
    let (memory, places) = match memory {
        Memory::Usual => (0, [0; 6]),
        Memory::Arena(places) => (1, places),
        Memory::BehindPage => (2, [0; 6]),
        Memory::BeforePage => (3, [0; 6]),
    };
    put_numbers(to, &[call.kind as u32, memory, call.offset as u32, (call.offset >> 32) as u32]);
    put_numbers(to, &[call.last.into(), look_at_ring.into(), look_behind.min(u32::MAX as usize) as u32]);
    let (input, reply) = ([call.input.from, call.input.length], [reply_from, call.reply]);
    let lengths = [&[bytes.len()], &input[..], &[ring_from, ring_length], &reply, &[call.room]].concat();
    lengths.iter().for_each(|&length| put_numbers(to, &[length as u32]));
    places.iter().for_each(|place| to.extend_from_slice(&place.to_le_bytes()));
    to.extend_from_slice(bytes);
}

fn put_numbers(to: &mut Vec<u8>, numbers: &[u32]) {
    for number in numbers {
        to.extend_from_slice(&number.to_le_bytes());
    }
}

/// What a call comes to.
#[derive(Clone, Copy, PartialEq, Eq, Default)]
pub struct Came {
    pub number: u16,
    pub read: usize,
    pub written: usize,
    pub ended: usize,
}

impl Came {
    pub const UNSOUND: Came = Came { number: 604, read: 0, written: 0, ended: 0 };
}

impl Display for Came {
    fn fmt(&self, to: &mut Formatter) -> std::fmt::Result {
        let Came { number, read, written, ended } = self;
        write!(to, "number {number}, read {read}, written {written}, ended {ended}")
    }
}

/// All that a call leaves. What is not told has not changed.
struct Answer {
    came: Came,
    words: Words,
    broken: u32,
    place: u32,
    values: Vec<u64>,
    text: Vec<u8>,
    reply: Vec<u8>,
    ring_from: u32,
    ring: Vec<u8>,
}

/// Puts the peer's answer. The ring is told from the first byte that changed to the last.
pub fn put_answer(
    to: &mut Vec<u8>,
    came: &Came,
    words: &Words,
    values: &[u64],
    text: &[u8],
    reply: &[u8],
    (ring_from, ring): (usize, &[u8]),
) {
    for number in [came.read, came.written, came.ended] {
        to.extend_from_slice(&(number as u64).to_le_bytes());
    }
    words.iter().for_each(|word| to.extend_from_slice(&word.to_le_bytes()));
    let lengths = [values.len(), text.len(), reply.len(), ring_from, ring.len()].map(|length| length as u32);
    put_numbers(to, &[came.number as u32, 0, 0]);
    put_numbers(to, &lengths);
    values.iter().for_each(|value| to.extend_from_slice(&value.to_le_bytes()));
    [text, reply, ring].iter().for_each(|bytes| to.extend_from_slice(bytes));
}

/// Bytes that are read from the front.
struct Front<'a>(&'a [u8]);

impl Front<'_> {
    fn take(&mut self, length: u32) -> Option<&[u8]> {
        let (taken, rest) = self.0.split_at_checked(length as usize)?;
        self.0 = rest;
        Some(taken)
    }

    fn short(&mut self) -> Option<u32> {
        Some(u32::from_le_bytes(self.take(4)?.try_into().ok()?))
    }

    fn long(&mut self) -> Option<u64> {
        Some(u64::from_le_bytes(self.take(8)?.try_into().ok()?))
    }
}

impl Answer {
    /// The answer at the front, if there is one.
    fn read(bytes: &[u8]) -> Option<Answer> {
        let mut front = Front(bytes);
        let [read, written, ended] = [front.long()?, front.long()?, front.long()?].map(|number| number as usize);
        let mut words = [0; WORDS];
        for word in &mut words {
            *word = front.long()?;
        }
        let [number, broken, place] = [front.short()?, front.short()?, front.short()?];
        let [values, text, reply] = [front.short()?, front.short()?, front.short()?];
        let [ring_from, ring] = [front.short()?, front.short()?];
        Some(Answer {
            came: Came { number: number as u16, read, written, ended },
            words,
            broken,
            place,
            values: (0..values).map(|_| front.long()).collect::<Option<_>>()?,
            text: front.take(text)?.to_vec(),
            reply: front.take(reply)?.to_vec(),
            ring_from,
            ring: front.take(ring)?.to_vec(),
        })
    }

    /// All that can differ, by name.
    fn facts(&self) -> Vec<(String, String)> {
        let mut facts = vec![
            ("number".to_string(), self.came.number.to_string()),
            ("how many values there are".to_string(), self.values.len().to_string()),
            ("progress".to_string(), self.came.to_string()),
            ("text".to_string(), show_text(&self.text)),
            ("reply".to_string(), hex(&self.reply)),
            ("ring".to_string(), format!("from {} {}", self.ring_from, hex(&self.ring))),
        ];
        let words = self.words.iter().zip(NAMES).enumerate();
        facts.extend(words.map(|(place, (word, name))| (format!("record word {place}, {name}"), word.to_string())));
        let asked = questions().into_iter().map(|question| format!("ask {question}"));
        let names: Vec<String> = match self.values.len() == asked.len() {
            true => asked.collect(),
            false => header().into_iter().map(|(name, _)| name).collect(),
        };
        facts.extend(names.into_iter().zip(self.values.iter().map(u64::to_string)));
        for (bit, what) in BROKEN.iter().enumerate() {
            let kept = if self.broken >> bit & 1 == 0 { "kept" } else { "changed" };
            facts.push((what.to_string(), format!("{kept} (arena {})", self.place)));
        }
        facts
    }
}

/// What differs, and what each side has there.
#[derive(Clone, Debug)]
pub struct Difference {
    pub what: String,
    pub proved: String,
    pub peer: String,
}

impl Difference {
    pub fn new(what: impl Into<String>, proved: impl ToString, peer: impl ToString) -> Difference {
        Difference { what: what.into(), proved: proved.to_string(), peer: peer.to_string() }
    }
}

impl Display for Difference {
    fn fmt(&self, to: &mut Formatter) -> std::fmt::Result {
        let Difference { what, proved, peer } = self;
        write!(to, "  what differs: {what}\n    proved: {proved}\n    peer:   {peer}")
    }
}

/// So many words have a question. The last name's, behind them, have none.
pub const QUESTIONS: usize = WORDS - 4;

/// Every question, and some that are none.
pub fn questions() -> Vec<u64> {
    let beyond = WORDS as u64 + 3;
    (0..beyond).chain([255, 1 << 32, u64::MAX]).collect()
}

/// The answer to a question that is none.
pub const NONE: u64 = u64::MAX;

/// What the header says and the compiler makes of it, by name, as box.c lists it.
pub fn header() -> Vec<(String, u64)> {
    let size = 8 * WORDS as u64;
    let first = [
        ("BENCH_BOX_VERSION_NUMBER", VERSION),
        ("BENCH_BOX_WORDS", WORDS as u64),
        ("BENCH_BOX_SIZE", size),
        ("BENCH_BOX_ALIGN", 8),
        ("BENCH_BOX_RING_MOST", RING_MOST as u64),
        ("BENCH_BOX_REPLY_HEAD", 4),
        ("BENCH_BOX_REPLY_MOST", DESK_REPLY as u64),
        ("BENCH_BOX_LINE_MOST", LINE_MOST as u64),
        ("BENCH_BOX_RECORD_HEAD", 4),
        ("BENCH_BOX_RECORD_MOST", 259),
        ("BENCH_BOX_NONE", NONE),
        ("BENCH_BOX_NO_RECORD", NO_RECORD.into()),
        ("the size of a box", size),
        ("the alignment of a box", 8),
        ("the size of a progress", 24),
        ("the place of read", 0),
        ("the place of written", 8),
        ("the place of ended", 16),
    ];
    let mut header: Vec<(String, u64)> = first.map(|(name, value)| (name.to_string(), value)).to_vec();
    header.extend(NUMBERS.map(|number| (format!("the number {number}"), number.into())));
    header.extend(KINDS.map(|(kind, ..)| (format!("the kind {kind:02X}"), kind.into())));
    header.extend((0..QUESTIONS).map(|place| (format!("the question about {}", NAMES[place]), place as u64)));
    for (name, count) in [("scan state", 5), ("feeder state", 4), ("FailureCode", 3)] {
        header.extend((0..count).map(|value| (format!("the {name} {value}"), value)));
    }
    header
}

/// What the box may break, by its bit.
const BROKEN: [&str; 8] = [
    "guard bytes around the record change",
    "guard bytes around the progress change",
    "guard bytes around the ring change",
    "guard bytes around the reply change",
    "the input is written to",
    "guard bytes around the lines change",
    "guard bytes in the arena change",
    "bytes behind the text change",
];

/// Tells all that differs in the answers at the front.
pub fn differs(proved: &[u8], peer: &[u8]) -> Difference {
    let [Some(ours), Some(theirs)] = [proved, peer].map(Answer::read) else {
        return Difference::new("how many answers there are", proved.len(), peer.len());
    };
    let mut facts: Vec<Both> = ours.facts().into_iter().zip(theirs.facts()).collect();
    facts.retain(|(ours, theirs)| ours != theirs);
    let told = |side: fn(&Both) -> &String| facts.iter().map(side).cloned().collect::<Vec<String>>().join("; ");
    let what = told(|(ours, _)| &ours.0);
    let number = ours.came.number;
    let is_refused = ![0, NO_RECORD].contains(&number) && number == theirs.came.number;
    let what = if is_refused { format!("{number} leaves something changed: {what}") } else { what };
    Difference::new(what, told(|(ours, _)| &ours.1), told(|(_, theirs)| &theirs.1))
}

/// A fact, as the proved box and the peer have it.
type Both = ((String, String), (String, String));

pub fn hex(bytes: &[u8]) -> String {
    bytes.iter().map(|byte| format!("{byte:02X}")).collect()
}

pub fn show_text(text: &[u8]) -> String {
    let mut shown = String::new();
    for &byte in text {
        match byte {
            b'\n' => shown.push('¶'),
            0x20..0x7F => shown.push(byte as char),
            _ => _ = write!(shown, "\\x{byte:02X}"),
        }
    }
    shown
}

pub fn words_text(words: &Words) -> String {
    words.map(|word| word.to_string()).join(" ")
}
