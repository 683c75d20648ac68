//! A box as it is measured: the proved box, its peer, and the peer by words.

use std::hint::black_box;

use crate::proved;

/// Each of these is a true call: none becomes a part of the loop around it.
pub trait Bench: Copy {
    fn fresh() -> Self;
    fn tick(&mut self, ring_length: usize) -> u16;
    /// The record's number.
    fn perform(&mut self, ring: &mut [u8], reply: &mut [u8], input: &[u8], line: &mut [u8]) -> u16;
    /// How much is read, and how much is written.
    fn serve(&mut self, ring: &mut [u8], input: &[u8], offset: u64, last: bool, lines: &mut [u8]) -> (usize, usize);
}

impl Bench for proved::Box {
    fn fresh() -> Self {
        proved::Box::fresh()
    }

    fn tick(&mut self, ring_length: usize) -> u16 {
        proved::Box::tick(self, ring_length)
    }

    fn perform(&mut self, ring: &mut [u8], reply: &mut [u8], input: &[u8], line: &mut [u8]) -> u16 {
        proved::Box::perform(self, ring, reply, input, 0, true, line).0
    }

    fn serve(&mut self, ring: &mut [u8], input: &[u8], offset: u64, last: bool, lines: &mut [u8]) -> (usize, usize) {
        let (_, progress) = proved::Box::serve(self, ring, input, offset, last, lines);
        (progress.read, progress.written)
    }
}

/// The peer, with its record as a struct that Rust vouches for.
impl Bench for peer::Record {
    fn fresh() -> Self {
        peer::Record::fresh()
    }

    #[inline(never)]
    fn tick(&mut self, ring_length: usize) -> u16 {
        peer::tick(self, ring_length)
    }

    #[inline(never)]
    fn perform(&mut self, ring: &mut [u8], reply: &mut [u8], input: &[u8], line: &mut [u8]) -> u16 {
        let (number, progress) = peer::perform(self, ring, reply, input, 0, true, line);
        black_box(progress);
        number
    }

    #[inline(never)]
    fn serve(&mut self, ring: &mut [u8], input: &[u8], offset: u64, last: bool, lines: &mut [u8]) -> (usize, usize) {
        let (_, progress) = peer::serve(self, ring, input, offset, last, lines);
        (progress.read, progress.written)
    }
}

/// The peer as a C host would have it: the host keeps the record as words, any words at all. Each call reads the record
/// from them, and writes them back.
#[derive(Clone, Copy)]
pub struct ByWords([u64; peer::WORDS]);

impl ByWords {
    /// What a call gives for words that are no record, as for a record that is not sound.
    const UNSOUND: u16 = peer::Reason::Unsound as u16;

    #[inline(always)]
    fn call<T>(&mut self, unsound: T, call: impl FnOnce(&mut peer::Record) -> T) -> T {
        let Some(mut record) = peer::Record::from_words(&self.0) else {
            return unsound;
        };
        let answer = call(&mut record);
        self.0 = record.to_words();
        answer
    }
}

impl Bench for ByWords {
    fn fresh() -> Self {
        ByWords(peer::Record::fresh().to_words())
    }

    #[inline(never)]
    fn tick(&mut self, ring_length: usize) -> u16 {
        self.call(ByWords::UNSOUND, |record| peer::tick(record, ring_length))
    }

    #[inline(never)]
    fn perform(&mut self, ring: &mut [u8], reply: &mut [u8], input: &[u8], line: &mut [u8]) -> u16 {
        self.call(ByWords::UNSOUND, |record| {
            let (number, progress) = peer::perform(record, ring, reply, input, 0, true, line);
            black_box(progress);
            number
        })
    }

    #[inline(never)]
    fn serve(&mut self, ring: &mut [u8], input: &[u8], offset: u64, last: bool, lines: &mut [u8]) -> (usize, usize) {
        self.call((0, 0), |record| {
            let (_, progress) = peer::serve(record, ring, input, offset, last, lines);
            (progress.read, progress.written)
        })
    }
}
