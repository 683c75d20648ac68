//! The parts of the trial.
pub mod damage;
pub mod desks;
pub mod memory;
pub mod single;
pub mod stored;
pub mod streams;

use crate::case::{Call, Case, Start};
use crate::pair::{place, Pair, Place, Shown, PLACE};
use crate::rng::Rng;
use crate::shrink;
use crate::tally::Tally;
use crate::wire::{Came, Difference, Kind, Memory};
use peer::Reading;
use std::time::Instant;

/// What the parts share.
pub struct Trial {
    pub pair: Pair,
    pub tally: Tally,
    seed: u64,
    /// The number of the first case of each part.
    first: u64,
    /// The case that is being run.
    case: Case,
}

/// A difference was found and told.
pub struct Differs;

impl Trial {
    pub fn new(pair: Pair, seed: u64, first: u64) -> Trial {
        let case = Case { start: Start::fresh(1), memory: Memory::Usual, calls: Vec::new() };
        Trial { pair, tally: Tally::default(), seed, first, case }
    }

    /// Where the trial is. A part's name begins with its number.
    pub fn at(&mut self, part: &'static str, number: u64) {
        *PLACE.lock().unwrap_or_else(|error| error.into_inner()) = Place { part, number, seed: self.seed };
    }

    /// Runs cases of a part, so many at least and then until the time is over. Each has random numbers of its own.
    pub fn cases(
        &mut self,
        part: &'static str,
        least: u64,
        until: Instant,
        mut case: impl FnMut(&mut Trial, Rng, u64) -> Result<(), Differs>,
    ) -> Result<u64, Differs> {
        let salt = part.bytes().fold(0, |salt: u64, byte| salt.wrapping_mul(31).wrapping_add(byte.into()));
        let mut cases = 0;
        while cases < least || Instant::now() < until {
            let number = self.first + cases;
            self.at(part, number);
            case(self, Rng::nth(self.seed ^ salt, number), number)?;
            cases += 1;
        }
        self.settle()?;
        Ok(cases)
    }

    /// Begins a case.
    pub fn begin(&mut self, start: &Start) {
        self.pair.reset(start);
        self.case = Case { start: *start, memory: Memory::Usual, calls: Vec::new() };
    }

    /// The next call of the case. What the peer shows by itself is told at once.
    pub fn call(&mut self, call: Call) -> Result<Came, Differs> {
        self.call_in(call, Memory::Usual)
    }

    pub fn call_in(&mut self, call: Call, memory: Memory) -> Result<Came, Differs> {
        let outcome = self.pair.call(&call, memory);
        self.case.memory = memory;
        self.case.calls.push(call);
        let came = outcome.map_err(|difference| self.tell(difference))?;
        self.tally.note_text(self.pair.model.text());
        let call = &self.case.calls[self.case.calls.len() - 1];
        self.tally.note_call(call, &came);
        if let (604, Kind::Perform, Reading::Record { kind, .. }) = (came.number, call.kind, peer::read(&call.input, 0))
        {
            self.tally.note(kind, 604);
        }
        Ok(came)
    }

    /// Ends the case. It is kept until the box's answers to it are compared.
    pub fn end(&mut self) -> Result<(), Differs> {
        let calls = std::mem::take(&mut self.case.calls);
        self.pair.keep(Case { calls, ..self.case });
        let shown = if self.pair.is_full() { self.pair.exchange() } else { None };
        self.end_at(shown)
    }

    /// One call is a case.
    pub fn one(&mut self, start: &Start, call: Call, memory: Memory) -> Result<(), Differs> {
        self.begin(start);
        self.call_in(call, memory)?;
        self.end()
    }

    /// All cases so far are compared.
    pub fn settle(&mut self) -> Result<(), Differs> {
        let shown = self.pair.settle();
        self.end_at(shown)
    }

    fn end_at(&mut self, shown: Option<Shown>) -> Result<(), Differs> {
        let Some(Shown { difference, kept, .. }) = shown else {
            return Ok(());
        };
        // Where there are more answers than calls, the case is the last one.
        if let Some(kept) = kept {
            self.at(kept.place.part, kept.place.number);
            self.case = kept.case;
        }
        Err(self.tell(difference))
    }

    /// Tells what differs in the case where the trial is.
    pub fn tell(&mut self, difference: Difference) -> Differs {
        println!("\nDIFFERENCE in {}", place());
        shrink::tell(self.case.clone(), &mut self.pair, difference);
        Differs
    }
}
