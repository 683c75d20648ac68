//! What the tests share: desk records by name, a box to try them on, and a host that feeds windows.
#![allow(dead_code)]

use peer::{
    kind, perform, serve, write, FeederState, Name, Progress, Record, ScanState, DESK_REPLY, DESK_RING, LINE_MOST,
    NAME_MOST, NO_RECORD,
};

/// One desk record's bytes.
pub fn desk_record(kind: u8, payload: &[u8]) -> Vec<u8> {
    let mut buffer = [0; 259];
    let length = write(&mut buffer, kind, payload).expect("a listed kind and length");
    buffer[..length].to_vec()
}

pub fn start_scan(use_feeder: u8, side_count: i16, append: u8, time: u16) -> Vec<u8> {
    let (count, time) = (side_count.to_be_bytes(), time.to_be_bytes());
    desk_record(kind::START_SCAN, &[use_feeder, count[0], count[1], append, time[0], time[1]])
}

pub fn start(job: u32, use_feeder: u8, side_count: i16) -> Vec<u8> {
    let mut payload = job.to_be_bytes().to_vec();
    payload.push(use_feeder);
    payload.extend(side_count.to_be_bytes());
    desk_record(kind::START, &payload)
}

/// A record of a kind that bears a job number only.
pub fn with_job(kind: u8, job: u32) -> Vec<u8> {
    desk_record(kind, &job.to_be_bytes())
}

/// A record of a kind that bears a job number and a value.
pub fn with_job_value(kind: u8, job: u32, value: u8) -> Vec<u8> {
    let mut payload = job.to_be_bytes().to_vec();
    payload.push(value);
    desk_record(kind, &payload)
}

pub fn fetch(most: u8, name: &str) -> Vec<u8> {
    let mut payload = vec![most];
    payload.extend(name.bytes());
    desk_record(kind::FETCH, &payload)
}

pub fn bytes(payload: &[u8]) -> Vec<u8> {
    desk_record(kind::BYTES, payload)
}

pub fn tray(value: u8) -> Vec<u8> {
    desk_record(kind::TRAY, &[value])
}

pub fn path(value: u8) -> Vec<u8> {
    desk_record(kind::PATH, &[value])
}

pub fn side_ended() -> Vec<u8> {
    desk_record(kind::SIDE_ENDED, &[])
}

pub fn tick() -> Vec<u8> {
    desk_record(kind::TICK, &[])
}

/// A box with its ring and reply.
#[derive(Clone)]
pub struct Bench {
    pub record: Record,
    pub ring: Vec<u8>,
    pub reply: Vec<u8>,
}

impl Bench {
    pub fn new(ring_length: usize, reply_length: usize) -> Bench {
        Bench { record: Record::fresh(), ring: vec![0xEE; ring_length], reply: vec![0xDD; reply_length] }
    }

    pub fn desk() -> Bench {
        Bench::new(DESK_RING, DESK_REPLY)
    }

    pub fn perform(&mut self, input: &[u8], offset: u64, last: bool, line: &mut [u8]) -> (u16, Progress) {
        perform(&mut self.record, &mut self.ring, &mut self.reply, input, offset, last, line)
    }

    pub fn serve(&mut self, input: &[u8], offset: u64, last: bool, lines: &mut [u8]) -> (u16, Progress) {
        serve(&mut self.record, &mut self.ring, input, offset, last, lines)
    }

    /// Answers one record and gives its number and line. Nothing behind the line changes.
    pub fn try_record(&mut self, input: &[u8]) -> (u16, String) {
        let mut line = [0xCC; LINE_MOST];
        let (number, progress) = self.perform(input, 0, true, &mut line);
        assert_eq!(progress.read, input.len());
        assert!(!progress.ended);
        assert!(line[progress.written..].iter().all(|&byte| byte == 0xCC));
        assert!(self.record.is_sound(self.ring.len()), "{:?}", self.record);
        let text = String::from_utf8(line[..progress.written].to_vec()).unwrap();
        (number, text.strip_suffix('\n').expect("a line ends").to_string())
    }

    /// Answers one record and gives its line.
    pub fn line(&mut self, input: &[u8]) -> String {
        self.try_record(input).1
    }

    /// Answers one record and gives its number. A refusal leaves all as it was, but for Load's 713.
    pub fn number(&mut self, input: &[u8]) -> u16 {
        let before = self.clone();
        let (number, line) = self.try_record(input);
        if number != 0 {
            assert!(line.ends_with(" -"), "{line}");
            assert_eq!(self.ring, before.ring);
            assert_eq!(self.reply, before.reply);
            let mut kept = before.record;
            if input[2] == kind::LOAD && number == 713 {
                kept.feeder = FeederState::Unloaded;
            }
            assert_eq!(self.record, kept, "{line}");
        }
        number
    }

    /// Answers records that all must be accepted.
    pub fn accept(&mut self, records: &[Vec<u8>]) {
        for record in records {
            let (number, line) = self.try_record(record);
            assert_eq!(number, 0, "{line}");
        }
    }

    pub fn ticks(&mut self, count: usize) {
        for _ in 0..count {
            assert_eq!(peer::tick(&mut self.record, self.ring.len()), 0);
        }
    }

    /// The present Destination.
    pub fn name(&self) -> String {
        assert_ne!(self.record.scan, ScanState::Idle);
        name_of(&self.record)
    }
}

/// The name that a record gives.
pub fn name_of(record: &Record) -> String {
    if record.append == 1 {
        format!("J{:010}{:03}.jpg", record.job, record.side_number)
    } else {
        format!("J{:010}.jpg", record.job)
    }
}

/// A name as a record keeps it, "unused bytes 0".
pub fn kept(name: &str) -> Name {
    let mut bytes = [0; NAME_MOST];
    bytes[..name.len()].copy_from_slice(name.as_bytes());
    Name { bytes, length: name.len() as u8 }
}

/// The whole input's text from a host that shows so many bytes more at a time and lends so much room for lines.
pub fn text_in_windows(mut bench: Bench, input: &[u8], step: usize, room: usize) -> String {
    let mut text = Vec::new();
    let (mut place, mut shown) = (0, 0);
    loop {
        let last = shown == input.len();
        loop {
            let mut lines = vec![0xCC; room];
            let (number, progress) = bench.serve(&input[place..shown], place as u64, last, &mut lines);
            let Progress { read, written, ended } = progress;
            assert_eq!(number, 0);
            assert!(lines[written..].iter().all(|&byte| byte == 0xCC));
            text.extend(&lines[..written]);
            place += read;
            if ended {
                return String::from_utf8(text).unwrap();
            }
            if read == 0 {
                break;
            }
        }
        if last {
            assert_eq!(place, input.len());
            return String::from_utf8(text).unwrap();
        }
        shown = input.len().min(shown + step);
    }
}

/// The whole input's text from a host that shows so many bytes more at a time and has one record answered at a time.
pub fn text_by_records(mut bench: Bench, input: &[u8], step: usize) -> String {
    let mut text = Vec::new();
    let (mut place, mut shown) = (0, 0);
    while place < input.len() {
        let (last, mut line) = (shown == input.len(), [0xCC; LINE_MOST]);
        let (number, progress) = bench.perform(&input[place..shown], place as u64, last, &mut line);
        let Progress { read, written, ended } = progress;
        assert_eq!(number == NO_RECORD, read == 0);
        assert!(line[written..].iter().all(|&byte| byte == 0xCC));
        text.extend(&line[..written]);
        place += read;
        if ended {
            break;
        }
        if read == 0 {
            assert!(written == 0 && !last);
            shown = input.len().min(shown + step);
        }
    }
    String::from_utf8(text).unwrap()
}

/// Small numbers in an order that looks random and is the same each time.
pub struct Dice(u64);

impl Dice {
    pub fn new(seed: u64) -> Dice {
        Dice(seed.wrapping_mul(0x9E37_79B9_7F4A_7C15) | 1)
    }

    pub fn next(&mut self) -> u64 {
        self.0 ^= self.0 << 13;
        self.0 ^= self.0 >> 7;
        self.0 ^= self.0 << 17;
        self.0
    }

    pub fn below(&mut self, limit: u64) -> u64 {
        (self.next() >> 11) % limit
    }

    pub fn one_of<T: Copy>(&mut self, choices: &[T]) -> T {
        choices[self.below(choices.len() as u64) as usize]
    }
}
