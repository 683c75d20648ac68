//! The proved box and the peer, with the same record, ring and calls. Every call compares all that it leaves.
//!
//! The peer answers at once. The box program gets the same operations in batches, and answers one batch while the peer
//! is at the next. What one call's answer gives to the next call comes from the peer: where the box has another answer,
//! the batch differs.

use crate::case::{Call, Case, Input, Model, Start, BLANK, NOT_ASKED};
use crate::link::{Ended, Link, HEAD};
use crate::rng::Rng;
use crate::wire::*;
use peer::{kind, FeederState, Record, NO_RECORD, WORDS};
use std::fmt::{Display, Formatter};
use std::ops::Range;
use std::rc::Rc;
use std::sync::Mutex;

/// The longest ring that is lent: one byte too long.
pub const RING_ROOM: usize = 65_537;
/// The longest lines that are lent.
pub const LINES_ROOM: usize = 4 << 20;

/// So many bytes behind the text are looked at for changes, and now and then all.
const WATCHED: usize = 2048;

/// A batch of so many bytes or answers goes to the box.
const BATCH_BYTES: usize = 400_000;
const BATCH_ANSWERS: usize = 4000;

/// Where a trial is. A part's name begins with its number.
#[derive(Clone, Copy)]
pub struct Place {
    pub part: &'static str,
    pub number: u64,
    pub seed: u64,
}

impl Display for Place {
    fn fmt(&self, to: &mut Formatter) -> std::fmt::Result {
        write!(to, "part {}, case {}, seed {}", self.part, self.number, self.seed)
    }
}

/// Where the trial is now. A panic is told with it.
pub static PLACE: Mutex<Place> = Mutex::new(Place { part: "0", number: 0, seed: 0 });

pub fn place() -> Place {
    *PLACE.lock().unwrap_or_else(|error| error.into_inner())
}

/// A case whose answers are not all compared yet.
pub struct Kept {
    pub place: Place,
    pub case: Case,
    /// Where its answers end in the batch.
    end: usize,
}

/// Operations, and the answers that they must get.
struct Batch {
    operations: Vec<u8>,
    expected: Vec<u8>,
    /// Where each answer ends.
    ends: Vec<usize>,
    cases: Vec<Kept>,
}

impl Batch {
    fn new() -> Batch {
        Batch { operations: vec![0; HEAD], expected: Vec::new(), ends: Vec::new(), cases: Vec::new() }
    }

    /// Where an answer belongs to.
    fn place(&self, at: usize) -> Place {
        self.cases.iter().find(|kept| kept.end > at).map_or(place(), |kept| kept.place)
    }

    /// The first answer that differs.
    fn compare(&self, answers: &[u8]) -> Option<(usize, Difference)> {
        if answers == self.expected {
            return None;
        }
        let place = answers.iter().zip(&self.expected).take_while(|(ours, theirs)| ours == theirs).count();
        let at = self.ends.partition_point(|&end| end <= place);
        let from = at.checked_sub(1).map_or(0, |before| self.ends[before]);
        Some((at, differs(&answers[from..], &self.expected[from..])))
    }
}

/// A difference: at which answer of its batch, and in which case.
pub struct Shown {
    pub at: usize,
    pub difference: Difference,
    pub kept: Option<Kept>,
}

pub struct Pair {
    link: Link,
    batch: Batch,
    sent: Option<Batch>,
    /// Random bytes that rings and replies hold at first.
    table: Vec<u8>,
    pub model: Model,
    /// What the peer's ring and lines held before the call.
    ring_before: Vec<u8>,
    lines_before: Vec<u8>,
    /// Where in the table the ring's first bytes stand, and whether it still holds them.
    fill: usize,
    is_as_filled: bool,
    /// The stream that the box holds.
    held: Option<Rc<[u8]>>,
    /// Calls since the last reset.
    turn: usize,
    /// How many calls both sides answer, and how many questions.
    pub calls: u64,
    pub questions: u64,
}

impl Pair {
    /// Starts the box program.
    pub fn start(program: &str) -> std::io::Result<Pair> {
        let mut pair = Pair {
            link: Link::start(program)?,
            batch: Batch::new(),
            sent: None,
            table: Rng::new(0x0B0B).bytes(3 * RING_ROOM),
            model: Model { lines: vec![BLANK; LINES_ROOM], ..Model::new(&[0; WORDS], Vec::new()) },
            ring_before: Vec::new(),
            lines_before: vec![BLANK; LINES_ROOM],
            fill: 0,
            is_as_filled: false,
            held: None,
            turn: 0,
            calls: 0,
            questions: 0,
        };
        pair.set(Kind::Fill, (0, 0), &pair.table.clone());
        pair.send();
        Ok(pair)
    }

    // ---- batches

    /// All since the last case is of this one.
    pub fn keep(&mut self, case: Case) {
        self.batch.cases.push(Kept { place: place(), case, end: self.batch.ends.len() });
    }

    pub fn is_full(&self) -> bool {
        self.batch.operations.len() + self.batch.expected.len() > BATCH_BYTES || self.batch.ends.len() > BATCH_ANSWERS
    }

    /// Sends the batch once the one before it is answered and compared.
    pub fn exchange(&mut self) -> Option<Shown> {
        let shown = self.compare_sent();
        if shown.is_none() {
            self.send();
        }
        shown
    }

    /// All that is asked so far is answered and compared.
    pub fn settle(&mut self) -> Option<Shown> {
        self.exchange().or_else(|| self.compare_sent())
    }

    /// What is asked so far does not matter any more.
    pub fn forget(&mut self) {
        self.batch = Batch::new();
        self.held = None;
        let _ = self.compare_sent();
    }

    fn send(&mut self) {
        let mut batch = std::mem::replace(&mut self.batch, Batch::new());
        self.link.send(std::mem::take(&mut batch.operations));
        self.sent = Some(batch);
    }

    fn compare_sent(&mut self) -> Option<Shown> {
        let batch = self.sent.take()?;
        let answers = self.link.receive().unwrap_or_else(|ended| tell_end(&batch, ended));
        let (at, difference) = batch.compare(&answers)?;
        Some(Shown { at, difference, kept: batch.cases.into_iter().find(|kept| kept.end > at) })
    }

    // ---- the box

    /// An operation that is no call.
    fn set(&mut self, kind: Kind, ring: (usize, usize), bytes: &[u8]) {
        let operations = &mut self.batch.operations;
        put_operation(operations, &Call::plain(kind), Memory::Usual, (false, 0), [ring.0, ring.1, 0], bytes);
    }

    /// Begins anew.
    pub fn reset(&mut self, start: &Start) {
        let Start { words, ring_length, fill } = *start;
        let fill = fill as usize % RING_ROOM;
        self.model.words = words;
        self.model.record = Record::from_words(&words);
        self.turn = 0;
        let bytes = words.map(u64::to_le_bytes).concat();
        self.set(Kind::Reset, (fill, ring_length), &bytes);
        if self.is_as_filled && (self.fill, self.model.ring.len()) == (fill, ring_length) {
            return;
        }
        self.fill = fill;
        for ring in [&mut self.model.ring, &mut self.ring_before] {
            ring.clear();
            ring.extend_from_slice(&self.table[fill..fill + ring_length]);
        }
        self.is_as_filled = true;
    }

    /// One call for both. The box is asked, and the peer's answer is what must come.
    pub fn call(&mut self, call: &Call, memory: Memory) -> Result<Came, Difference> {
        let before = self.model.words;
        self.turn += 1;
        self.calls += (call.kind != Kind::Ask) as u64;
        let reply_from = (self.fill + 7919 * self.turn) % RING_ROOM;
        let reply_before = &self.table[reply_from..reply_from + call.reply];
        self.model.reply.clear();
        self.model.reply.extend_from_slice(reply_before);
        let came = self.model.call(call).inspect_err(|_| {
            self.lines_before.fill(BLANK);
            self.is_as_filled = false;
        })?;
        let reply_changed = self.model.reply != reply_before;
        let (look_at_ring, look_behind) = self.looks(call, memory);
        let (asked, values) = self.values(call.kind);
        let bytes = if call.kind == Kind::Ask { &asked[..] } else { self.newly_held(&call.input) };
        let places = [0, 0, reply_from];
        put_operation(&mut self.batch.operations, call, memory, (look_at_ring, look_behind), places, bytes);
        self.check_lines(call.room, look_behind)?;
        let reply = if reply_changed { &self.model.reply[..] } else { &[] };
        let changed = if look_at_ring { changes(&self.model.ring, &self.ring_before) } else { 0..0 };
        let ring = &self.model.ring[changed.clone()];
        let told = (changed.start, ring);
        put_answer(&mut self.batch.expected, &came, &self.model.words, &values, self.model.text(), reply, told);
        self.batch.ends.push(self.batch.expected.len());
        self.ring_before[changed.clone()].copy_from_slice(ring);
        self.is_as_filled &= changed.is_empty();
        self.check_number(call)?;
        self.check_refusal(call, &before, !changed.is_empty(), reply_changed)?;
        Ok(came)
    }

    /// Whether the ring is looked at, and how many bytes behind the text. In memory of its own and now and then it is
    /// everything; else long lines up to some way, and a long ring where something is answered, the stream ends or the
    /// first call gets 604.
    fn looks(&self, call: &Call, memory: Memory) -> (bool, usize) {
        let all = self.turn % 16 == 0 || memory != Memory::Usual;
        let Came { number, read, .. } = self.model.came;
        let waits = call.puts_lines() && read == 0 && !call.last && self.model.ring.len() >= 8192;
        let ring = !waits || all || (number == 604 && self.turn == 1);
        (ring && !matches!(call.kind, Kind::Ask | Kind::Layout), if all { usize::MAX } else { WATCHED })
    }

    /// The stream of an input, if the box does not hold it yet.
    fn newly_held<'a>(&mut self, input: &'a Input) -> &'a [u8] {
        if self.held.as_ref().is_some_and(|held| Rc::ptr_eq(held, &input.stream)) {
            return &[];
        }
        if !input.stream.is_empty() {
            self.held = Some(Rc::clone(&input.stream));
        }
        &input.stream
    }

    /// The questions, and the values of the right answer: to questions, or of the header.
    fn values(&mut self, kind: Kind) -> (Vec<u8>, Vec<u64>) {
        let Model { words, record, ring, .. } = &self.model;
        match kind {
            Kind::Ask => {
                let sound = record.is_some_and(|record| record.is_sound(ring.len()));
                let asked = &words[..QUESTIONS];
                let right = |question: &u64| *asked.get(*question as usize).filter(|_| sound).unwrap_or(&NONE);
                let questions = questions();
                self.questions += questions.len() as u64;
                (
                    questions.iter().flat_map(|question| question.to_le_bytes()).collect(),
                    questions.iter().map(right).collect(),
                )
            }
            Kind::Layout => (Vec::new(), header().into_iter().map(|(_, value)| value).collect()),
            _ => (Vec::new(), Vec::new()),
        }
    }

    /// The peer writes a text that fits, and nothing behind it.
    fn check_lines(&mut self, room: usize, look_behind: usize) -> Result<(), Difference> {
        let (lines, written) = (&self.model.lines, self.model.came.written);
        if written > room {
            return fails("written beyond the lines", written);
        }
        let behind = written..room.min(written.saturating_add(look_behind));
        if lines[behind.clone()] != self.lines_before[behind] {
            self.lines_before.copy_from_slice(lines);
            return fails("bytes behind the text change", "in the lines");
        }
        self.lines_before[..written].copy_from_slice(&lines[..written]);
        Ok(())
    }

    /// A call that is 604, or lent too little room for a line, does nothing. Where perform does something, 0 and the
    /// paper's numbers mean that a record is answered; one that only waits puts no line.
    fn check_number(&self, call: &Call) -> Result<(), Difference> {
        let came = &self.model.came;
        let nothing = Came { number: came.number, ..Came::default() };
        if call.lacks_room() && !matches!(came.number, 603 | 604) {
            return fails("lines too short are neither 603 nor 604", came);
        }
        if came.number == 604 || call.lacks_room() {
            return if *came == nothing { Ok(()) } else { fails("a call that does nothing comes to something", came) };
        }
        if call.kind == Kind::Perform && (came.number == NO_RECORD) != (came.read == 0) {
            return fails("the number does not tell whether a record is answered", came);
        }
        if came.number == NO_RECORD && came.ended == 0 && (call.last || *came != nothing) {
            return fails("a record waits where no input follows, or comes to something", came);
        }
        Ok(())
    }

    /// "What it leaves": a call that the peer refuses leaves all as it was; by Load's 713 the feeder is Unloaded, the
    /// rest kept. So does one that answers no record.
    fn check_refusal(&self, call: &Call, before: &Words, ring: bool, reply: bool) -> Result<(), Difference> {
        let Model { came, words, .. } = &self.model;
        if came.number != 0 && ring {
            return fails("a refused call writes in the ring", came);
        }
        if came.number != 0 && reply {
            return fails("a refused call writes in the reply", hex(&self.model.reply));
        }
        let mut left = *before;
        if let (713, Some(&kind::LOAD), Some(record)) = (came.number, call.input.get(2), Record::from_words(before)) {
            left = Record { feeder: FeederState::Unloaded, ..record }.to_words();
        }
        if came.number != 0 && *words != left {
            let what = format!("a refused call changes the record; by the paper it leaves {}", words_text(&left));
            return fails(&what, words_text(words));
        }
        Ok(())
    }
}

/// From the first byte that changed to the last.
fn changes(now: &[u8], before: &[u8]) -> Range<usize> {
    if now == before {
        return 0..0;
    }
    const BLOCK: usize = 1024;
    let is_alike = |(now, before): &(&[u8], &[u8])| now == before;
    let from = BLOCK * now.chunks(BLOCK).zip(before.chunks(BLOCK)).take_while(is_alike).count();
    let to = now.len() - BLOCK * now.rchunks(BLOCK).zip(before.rchunks(BLOCK)).take_while(is_alike).count();
    let differs = |place: &usize| now[*place] != before[*place];
    (from..to).find(differs).unwrap_or(from)..(from..to).rfind(differs).map_or(to, |last| last + 1)
}

/// The peer fails by itself.
fn fails<T>(what: &str, peer: impl ToString) -> Result<T, Difference> {
    Err(Difference::new(what, NOT_ASKED, peer))
}

/// The box program is gone, and with it the trial.
fn tell_end(batch: &Batch, ended: Ended) -> ! {
    let Some(answers) = ended.touched else {
        println!("\nDIFFERENCE: {}, in {} or soon behind it", ended.why, batch.place(0));
        std::process::exit(1);
    };
    // An answer before the touch may differ.
    if !batch.expected.starts_with(&answers) {
        if let Some((at, difference)) = batch.compare(&answers) {
            println!("\nDIFFERENCE in {}\n{difference}", batch.place(at));
        }
    }
    let at = batch.ends.partition_point(|&end| end <= answers.len());
    println!(
        "\nDIFFERENCE: memory is touched that is not lent, or written where it is lent to be read, in {}",
        batch.place(at)
    );
    std::process::exit(1);
}
