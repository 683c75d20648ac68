//! The desk program's lines.
//!
//! A line is put together in a lent part of fixed length, without a formatting machinery. Short fields are stored four
//! bytes at a time and the fields after them cover what is too much. The extra is exact, so the bytes behind a line
//! stay as they are.

use crate::name::{three_digits, THREE};
use crate::record::{FailureCode, Record};
use crate::rules::{Answer, Extra, Lent};
use crate::wire::HEAD;

/// No line is longer, and no record is answered into less room.
pub const LINE_MOST: usize = 640;

/// A number of −1 to 999 in decimal, and how long it is.
#[derive(Clone, Copy)]
struct Short {
    /// The number, with spaces behind.
    text: [u8; 4],
    length: u32,
}

/// The numbers −1 to 999.
static SHORT: [Short; 1001] = {
    let mut table = [Short { text: *b"-1  ", length: 2 }; 1001];
    let mut number = 0;
    while number < 1000 {
        let [hundreds, tens, ones, space] = three_digits(number);
        table[number as usize + 1] = match number {
            0..10 => Short { text: [ones, space, space, space], length: 1 },
            10..100 => Short { text: [tens, ones, space, space], length: 2 },
            _ => Short { text: [hundreds, tens, ones, space], length: 3 },
        };
        number += 1;
    }
    table
};

/// Two upper-case hex digits for each kind.
static HEX: [[u8; 2]; 256] = {
    let mut table = [[0; 2]; 256];
    let mut byte = 0;
    while byte < 256 {
        table[byte] = [hex_digit(byte as u8 >> 4), hex_digit(byte as u8 & 15)];
        byte += 1;
    }
    table
};

/// "Scan state (I P S F E), feeder state (U L B E)", each with a space behind.
static STATES: [[[u8; 4]; 4]; 5] = {
    let (scan, feeder) = (b"IPSFE", b"ULBE");
    let mut table = [[[b' '; 4]; 4]; 5];
    let mut row = 0;
    while row < 5 {
        let mut column = 0;
        while column < 4 {
            table[row][column] = [scan[row], b' ', feeder[column], b' '];
            column += 1;
        }
        row += 1;
    }
    table
};

/// Puts the line of an answered record and gives its length: "kind, number, scan state, feeder state, job, SideNumber,
/// SideCount, extra". The bytes of a fetch stand in the reply.
#[inline(always)]
pub(crate) fn put_line(line: &mut [u8; LINE_MOST], kind: u8, answer: Answer, lent: &Lent) -> usize {
    let record = &*lent.record;
    let mut text = Text { line, length: 0 };
    let [high, low] = HEX[kind as usize];
    match answer {
        Ok(_) => text.put([high, low, b' ', b'0', b' ']),
        Err(reason) => {
            text.put([high, low, b' ']);
            text.put(THREE[usize::from(reason.number())]);
        }
    }
    text.put(STATES[record.scan as usize][record.feeder as usize]);
    text.put_number(record.job);
    text.put_short(i32::from(record.side_number));
    text.put_short(record.side_count);
    match answer {
        Err(_) | Ok(Extra::Nothing) => {
            text.put(*b"-\n");
            text.length
        }
        Ok(extra) => put_extra(text.line, text.length, extra, lent),
    }
}

/// Puts an accepted record's extra and the line's end at a place, and gives the place behind.
#[inline(never)]
fn put_extra(line: &mut [u8; LINE_MOST], place: usize, extra: Extra, lent: &Lent) -> usize {
    let record = &*lent.record;
    let mut text = Text { line, length: place };
    match extra {
        Extra::Nothing => text.put([b'-']),
        Extra::Granted(granted) => text.put_exact(u32::from(granted.0)),
        Extra::Destination => text.put_destination(record),
        Extra::Fetched { count, last } => {
            text.put_exact(u32::from(count));
            if last {
                text.put([b'!']);
            }
            text.put([b':']);
            text.put_hex(&lent.reply[HEAD..HEAD + usize::from(count)]);
        }
        Extra::ScanFailure => text.put_failure(record.scan_failure),
        Extra::Feeder => {
            text.put([b'0' + record.tray, b':']);
            text.put_failure(record.feeder_failure);
        }
        Extra::Simplex => text.put(*b"Simplex"),
        Extra::Put(count) => text.put_exact(u32::from(count)),
    }
    text.put([b'\n']);
    text.length
}

/// "Prints `bad` and the offset of its first byte."
#[cold]
pub(crate) fn put_bad(line: &mut [u8; LINE_MOST], offset: u64) -> usize {
    let mut digits = [b'0'; 20];
    let mut from = digits.len();
    let mut rest = offset;
    while rest != 0 || from == digits.len() {
        from -= 1;
        digits[from] = b'0' + (rest % 10) as u8;
        rest /= 10;
    }
    let mut text = Text { line, length: 0 };
    text.put(*b"bad ");
    for &digit in &digits[from..] {
        text.put([digit]);
    }
    text.put([b'\n']);
    text.length
}

struct Text<'a> {
    line: &'a mut [u8; LINE_MOST],
    length: usize,
}

impl Text<'_> {
    #[inline]
    fn put<const N: usize>(&mut self, bytes: [u8; N]) {
        self.put_front(bytes, N);
    }

    /// Stores all the bytes and keeps the front ones.
    #[inline]
    fn put_front<const N: usize>(&mut self, bytes: [u8; N], kept: usize) {
        self.line[self.length..self.length + N].copy_from_slice(&bytes);
        self.length += kept;
    }

    /// A number of −1 to 999 and a space. Up to two bytes more are stored.
    #[inline]
    fn put_short(&mut self, number: i32) {
        let Short { text, length } = SHORT[number.wrapping_add(1) as u32 as usize];
        self.put_front(text, length as usize + 1);
    }

    /// A number below 1000 that more digits follow.
    #[inline]
    fn put_lead(&mut self, number: u32) {
        let Short { text, length } = SHORT[number as usize + 1];
        self.put_front(text, length as usize);
    }

    /// Any number and a space. Up to two bytes more are stored.
    #[inline]
    fn put_number(&mut self, number: u32) {
        if number < 1000 {
            self.put_short(number as i32);
        } else {
            self.length = put_groups(self.line, self.length, number) + 1;
        }
    }

    /// Any number. At most one byte more is stored.
    #[inline]
    fn put_exact(&mut self, number: u32) {
        if number >= 1000 {
            self.length = put_groups(self.line, self.length, number);
            return;
        }
        let Short { text: [first, second, third, _], length } = SHORT[number as usize + 1];
        match length {
            1 => self.put([first]),
            2 => self.put([first, second]),
            _ => self.put([first, second, third]),
        }
    }

    #[inline]
    fn put_failure(&mut self, code: FailureCode) {
        match code {
            FailureCode::None => self.put(*b"none"),
            FailureCode::Jammed => self.put(*b"Jammed"),
            FailureCode::Timeout => self.put(*b"Timeout"),
        }
    }

    /// "name:DestinationID".
    #[inline]
    fn put_destination(&mut self, record: &Record) {
        let name = record.name();
        self.put_front(name.bytes, usize::from(name.length));
        self.put([b':']);
        self.put_exact(record.destination);
    }

    /// "Bytes in upper-case hex", by arithmetic rather than by table: the compiler can then do many bytes at once.
    #[inline]
    fn put_hex(&mut self, bytes: &[u8]) {
        let room = &mut self.line[self.length..self.length + 2 * bytes.len()];
        for (pair, &byte) in room.as_chunks_mut::<2>().0.iter_mut().zip(bytes) {
            *pair = [hex_digit(byte >> 4), hex_digit(byte & 15)];
        }
        self.length += 2 * bytes.len();
    }
}

#[inline]
const fn hex_digit(half: u8) -> u8 {
    let to_letter = if half > 9 { b'A' - b'9' - 1 } else { 0 };
    b'0' + half + to_letter
}

/// Puts a number of 1000 or more at a place, by groups of three digits, and a space. Gives the place of the space.
#[inline(never)]
fn put_groups(line: &mut [u8; LINE_MOST], place: usize, number: u32) -> usize {
    let mut text = Text { line, length: place };
    let (millions, thousands, ones) = (number / 1_000_000, number / 1000 % 1000, number % 1000);
    if millions >= 1000 {
        text.put([b'0' + (millions / 1000) as u8]);
        text.put_front(THREE[(millions % 1000) as usize], 3);
        text.put_front(THREE[thousands as usize], 3);
    } else if millions > 0 {
        text.put_lead(millions);
        text.put_front(THREE[thousands as usize], 3);
    } else {
        text.put_lead(thousands);
    }
    text.put_front(THREE[ones as usize], 3);
    text.length
}
