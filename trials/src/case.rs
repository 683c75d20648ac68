//! A case is a start record, a ring and calls: all that a difference depends on.

use crate::wire::{hex, Came, Difference, Kind, Memory, Words};
use peer::{Reading, Record, DESK_REPLY, LINE_MOST};
use std::fmt::{Display, Formatter};
use std::ops::Deref;
use std::panic::{catch_unwind, AssertUnwindSafe};
use std::rc::Rc;

/// What the box has where the peer fails by itself.
pub const NOT_ASKED: &str = "(not asked)";

/// What lines hold at first.
pub const BLANK: u8 = 0xD7;

/// The input of a call: a window of a stream.
#[derive(Clone)]
pub struct Input {
    pub stream: Rc<[u8]>,
    pub from: usize,
    pub length: usize,
}

impl Deref for Input {
    type Target = [u8];

    fn deref(&self) -> &[u8] {
        &self.stream[self.from..self.from + self.length]
    }
}

impl From<Vec<u8>> for Input {
    fn from(bytes: Vec<u8>) -> Input {
        Input { from: 0, length: bytes.len(), stream: bytes.into() }
    }
}

impl PartialEq for Input {
    fn eq(&self, other: &Input) -> bool {
        **self == **other
    }
}

#[derive(Clone, PartialEq)]
pub struct Call {
    pub kind: Kind,
    pub input: Input,
    pub offset: u64,
    pub last: bool,
    pub reply: usize,
    pub room: usize,
}

impl Call {
    /// A record by perform, as the desk would have it answered where no input follows.
    pub fn perform(input: impl Into<Input>) -> Call {
        let (reply, room) = (DESK_REPLY, LINE_MOST);
        Call { kind: Kind::Perform, input: input.into(), offset: 0, last: true, reply, room }
    }

    pub fn serve(input: impl Into<Input>, offset: u64, last: bool, room: usize) -> Call {
        Call { kind: Kind::Serve, input: input.into(), offset, last, reply: 0, room }
    }

    /// Whether the call is lent an input and lines.
    pub fn puts_lines(&self) -> bool {
        matches!(self.kind, Kind::Perform | Kind::Serve)
    }

    /// Whether the call is lent lines with less room than a line takes.
    pub fn lacks_room(&self) -> bool {
        self.puts_lines() && self.room < LINE_MOST
    }

    /// A call that is lent no input.
    pub fn plain(kind: Kind) -> Call {
        Call { kind, reply: 0, room: 0, ..Call::perform(Vec::new()) }
    }
}

impl Display for Call {
    fn fmt(&self, to: &mut Formatter) -> std::fmt::Result {
        let Call { input, offset, last, reply, room, .. } = self;
        match self.kind {
            Kind::Perform => write!(to, "perform {} offset {offset} last {last} reply {reply} room {room}", hex(input)),
            Kind::Serve => write!(to, "serve {} offset {offset} last {last} room {room}", hex(input)),
            kind => write!(to, "{kind:?}"),
        }
    }
}

#[derive(Clone, Copy)]
pub struct Start {
    pub words: Words,
    pub ring_length: usize,
    /// Fixes the bytes that the ring and the replies hold at first.
    pub fill: u64,
}

impl Start {
    pub fn fresh(ring_length: usize) -> Start {
        Start { words: Record::fresh().to_words(), ring_length, fill: 0 }
    }

    pub fn is_sound(&self) -> bool {
        Record::from_words(&self.words).is_some_and(|record| record.is_sound(self.ring_length))
    }
}

#[derive(Clone)]
pub struct Case {
    pub start: Start,
    pub memory: Memory,
    pub calls: Vec<Call>,
}

/// The peer's box, with all that is lent to it.
pub struct Model {
    /// None where the words are no record.
    pub record: Option<Record>,
    pub words: Words,
    pub ring: Vec<u8>,
    pub reply: Vec<u8>,
    pub lines: Vec<u8>,
    /// What the last call came to.
    pub came: Came,
}

impl Model {
    pub fn new(words: &Words, ring: Vec<u8>) -> Model {
        let (reply, lines) = (Vec::new(), Vec::new());
        Model { record: Record::from_words(words), words: *words, ring, reply, lines, came: Came::default() }
    }

    /// The text of the last call.
    pub fn text(&self) -> &[u8] {
        &self.lines[..self.came.written]
    }

    /// Words that are no record get 604 and change nothing. A panic is told like any other difference.
    pub fn call(&mut self, call: &Call) -> Result<Came, Difference> {
        self.reply.resize(call.reply, 0);
        if self.lines.len() < call.room {
            self.lines.resize(call.room, BLANK);
        }
        let (ring, reply, lines) = (&mut self.ring, &mut self.reply, &mut self.lines[..call.room]);
        let (input, offset) = (&call.input, call.offset);
        if call.kind == Kind::Fresh {
            self.record = Some(Record::fresh());
        }
        let record = &mut self.record;
        let answered = catch_unwind(AssertUnwindSafe(|| match (call.kind, record) {
            (Kind::Tick, Some(record)) => Came { number: peer::tick(record, ring.len()), ..Came::default() },
            (Kind::Perform, Some(record)) => told(peer::perform(record, ring, reply, input, offset, call.last, lines)),
            (Kind::Serve, Some(record)) => told(peer::serve(record, ring, input, offset, call.last, lines)),
            (Kind::Tick | Kind::Perform | Kind::Serve, None) => Came::UNSOUND,
            _ => Came::default(),
        }));
        self.words = self.record.map_or(self.words, |record| record.to_words());
        self.came = answered.map_err(|_| {
            self.lines.fill(BLANK);
            Difference::new("the peer panics", NOT_ASKED, "panic")
        })?;
        Ok(self.came)
    }
}

fn told((number, progress): (u16, peer::Progress)) -> Came {
    Came { number, read: progress.read, written: progress.written, ended: progress.ended as usize }
}

/// The length of the whole record at the front, if there is one.
pub fn whole(bytes: &[u8]) -> Option<usize> {
    match peer::read(bytes, 0) {
        Reading::Record { next, .. } => Some(next),
        _ => None,
    }
}

/// A stream's whole records, and what stands behind them.
pub fn pieces(bytes: &[u8]) -> Vec<Vec<u8>> {
    let (mut pieces, mut rest) = (Vec::new(), bytes);
    while let Some(length) = whole(rest) {
        pieces.push(rest[..length].to_vec());
        rest = &rest[length..];
    }
    pieces.extend(rest.chunks(300).map(<[u8]>::to_vec));
    pieces
}
