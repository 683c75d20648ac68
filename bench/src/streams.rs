//! The records that are measured, and the two streams of them. A stream is the same in every run.

use std::io::{self, Write};

use peer::kind;

use crate::rows::{LINE, REPLY, RING};

#[derive(Clone, Copy)]
pub enum Stream {
    Pictures,
    Control,
}

pub const STREAMS: [Stream; 2] = [Stream::Pictures, Stream::Control];

impl Stream {
    pub fn name(self) -> &'static str {
        match self {
            Stream::Pictures => "pictures",
            Stream::Control => "control calls",
        }
    }

    /// Makes so many records. The stream is the same each time.
    pub fn make(self, count: usize, to: &mut dyn Write) -> io::Result<()> {
        let mut records = Records { to, left: count };
        match self {
            Stream::Pictures => pictures(&mut records),
            Stream::Control => control(&mut records),
        }
    }

    pub fn bytes(self, count: usize) -> Vec<u8> {
        let mut bytes = Vec::new();
        self.make(count, &mut bytes).expect("memory takes all bytes");
        bytes
    }
}

/// Where records go, and how many are still wanted.
struct Records<'a> {
    to: &'a mut dyn Write,
    left: usize,
}

impl Records<'_> {
    fn put(&mut self, bytes: &[u8]) -> io::Result<()> {
        if self.left > 0 {
            self.left -= 1;
            self.to.write_all(bytes)?;
        }
        Ok(())
    }
}

pub fn record(kind: u8, payload: &[u8]) -> Vec<u8> {
    let mut bytes = vec![0xA5, 0x5A, kind, payload.len() as u8];
    bytes.extend_from_slice(payload);
    bytes
}

pub fn start_scan(use_feeder: u8, side_count: i16, append: u8, time: u16) -> Vec<u8> {
    let ([c1, c0], [t1, t0]) = (side_count.to_be_bytes(), time.to_be_bytes());
    record(kind::START_SCAN, &[use_feeder, c1, c0, append, t1, t0])
}

pub fn fetch(most: u8, job: u32, side: u16) -> Vec<u8> {
    let mut payload = vec![most];
    payload.extend_from_slice(format!("J{job:010}{side:03}.jpg").as_bytes());
    record(kind::FETCH, &payload)
}

pub fn picture(length: usize) -> Vec<u8> {
    let bytes: Vec<u8> = (0..length).map(|i| (i * 7 + 3) as u8).collect();
    record(kind::BYTES, &bytes)
}

/// Jobs of three sides from the feeder and of one side from the glass, in turn. A side has 32 pieces of 255 bytes. From
/// the ninth on, a piece is fetched for each that comes; the others after the side's end. Every record is accepted.
fn pictures(records: &mut Records) -> io::Result<()> {
    let (piece, side_ended) = (picture(255), record(kind::SIDE_ENDED, &[]));
    let mut job: u32 = 0;
    records.put(&record(kind::TRAY, &[1]))?;
    while records.left > 0 {
        job += 1;
        let (use_feeder, sides) = if job % 2 == 1 { (1, 3) } else { (0, 1) };
        records.put(&start_scan(use_feeder, sides, 1, 60))?;
        for side in 1..=sides as u16 {
            let fetch = fetch(255, job, side);
            for number in 0..32 {
                records.put(&piece)?;
                if number >= 8 {
                    records.put(&fetch)?;
                }
            }
            records.put(&side_ended)?;
            for _ in 0..8 {
                records.put(&fetch)?;
            }
        }
        records.put(&record(kind::STOP, &job.to_be_bytes()))?;
    }
    Ok(())
}

/// All calls and reports but Bytes and Fetch, in no order; about a third are refused. A peer goes along, so that most
/// job numbers are right.
fn control(records: &mut Records) -> io::Result<()> {
    let mut dice = Dice(0x9E37_79B9_7F4A_7C15);
    let mut along = peer::Record::fresh();
    let (mut ring, mut reply, mut line) = ([0; RING], [0; REPLY], [0; LINE]);
    while records.left > 0 {
        let bytes = control_record(&mut dice, along.job);
        peer::perform(&mut along, &mut ring, &mut reply, &bytes, 0, true, &mut line);
        records.put(&bytes)?;
    }
    Ok(())
}

fn control_record(dice: &mut Dice, held: u32) -> Vec<u8> {
    let job = if dice.below(10) == 0 { held.wrapping_add(1) } else { held };
    let [j3, j2, j1, j0] = job.to_be_bytes();
    let use_feeder = dice.below(3) as u8;
    let side_count: i16 = [0, 1, 1, 1, 3, -1, 999, 1000][dice.below(8)];
    let [c1, c0] = side_count.to_be_bytes();
    match dice.below(100) {
        0..20 => record(kind::TICK, &[]),
        20..30 => record(kind::GET_STATE, &[]),
        30..36 => record(kind::GET_SIDE_INFORMATION, &[]),
        36..44 => record(kind::FEEDER_GET_STATE, &[]),
        44..47 => record(kind::GET_FEEDER_MODE, &[]),
        47..57 => record(kind::GET_DESTINATION, &[j3, j2, j1, j0]),
        57..69 => {
            let time = [0, 3, 20, 60, 600][dice.below(5)];
            start_scan(use_feeder, side_count, dice.below(3) as u8, time)
        }
        69..73 => record(kind::START, &[j3, j2, j1, j0, use_feeder, c1, c0]),
        73..79 => record(kind::SIDE_ENDED, &[]),
        79..82 => record(kind::STOP, &[j3, j2, j1, j0]),
        82..84 => record(kind::ABORT, &[j3, j2, j1, j0]),
        84..88 => record(kind::TRAY, &[(dice.below(4) != 0) as u8]),
        88..90 => record(kind::PATH, &[(dice.below(4) == 0) as u8]),
        90..93 => record(kind::LOAD, &[j3, j2, j1, j0]),
        93..95 => record(kind::EJECT, &[j3, j2, j1, j0, dice.below(4) as u8]),
        95..98 => record(kind::RESET, &[j3, j2, j1, j0]),
        _ => record(kind::SET_FEEDER_MODE, &[j3, j2, j1, j0, (dice.below(8) == 0) as u8]),
    }
}

/// Numbers in no order, the same in every run.
struct Dice(u64);

impl Dice {
    fn below(&mut self, most: usize) -> usize {
        self.0 ^= self.0 << 13;
        self.0 ^= self.0 >> 7;
        self.0 ^= self.0 << 17;
        (self.0 >> 11) as usize % most
    }
}
