//! Streams of desk records.
//!
//! A guide keeps a box of the peer beside the stream that it writes, so that most records make sense where they come;
//! a share of them does not. It follows aims over several records: seconds up to a limit, a full ring, a drained ring,
//! side after side.

use crate::case::{Call, Model, Start};
use crate::rng::Rng;
use crate::start::{limit, name_of, present_name};
use peer::{kind, FeederState, Field, Record, ScanState, KINDS, LISTED};

/// A record of a listed kind.
pub fn record(kind: u8, payload: &[u8]) -> Vec<u8> {
    let mut bytes = vec![0; 4 + payload.len()];
    peer::write(&mut bytes, kind, payload).expect("a kind and a payload length as the paper lists them");
    bytes
}

pub fn fetch(most: u8, name: &[u8]) -> Vec<u8> {
    record(kind::FETCH, &[&[most], name].concat())
}

/// What the guide tends to, in a hundred.
#[derive(Clone, Copy)]
pub struct Mix {
    /// Records with wild values.
    wild: usize,
    /// Seconds up to a limit.
    bursts: usize,
    /// Filling the ring to its end.
    fills: usize,
    /// Side after side.
    runs: usize,
    jams: usize,
    /// Sides from the glass.
    glass: usize,
    /// Long granted times.
    long_times: usize,
}

impl Mix {
    pub const USUAL: Mix = Mix { wild: 6, bursts: 3, fills: 3, runs: 3, jams: 3, glass: 30, long_times: 15 };

    pub const ALL: [Mix; 7] = [
        Mix::USUAL,
        Mix { wild: 40, ..Mix::USUAL },
        Mix { bursts: 20, long_times: 60, fills: 0, runs: 0, ..Mix::USUAL },
        Mix { fills: 25, bursts: 1, jams: 1, ..Mix::USUAL },
        Mix { wild: 2, runs: 30, bursts: 1, jams: 1, glass: 10, ..Mix::USUAL },
        Mix { jams: 15, bursts: 5, ..Mix::USUAL },
        Mix { glass: 95, ..Mix::USUAL },
    ];
}

/// What comes most in a state, with its share in a hundred. The rest is of any kind.
fn likely(scan: ScanState) -> &'static [(usize, u8)] {
    use kind::*;
    match scan {
        ScanState::Idle => &[(65, START_SCAN), (5, TRAY), (2, TICK), (4, FETCH), (2, START), (2, SIDE_ENDED)],
        ScanState::Pending => &[(55, START), (5, STOP), (3, ABORT), (5, TICK), (5, FETCH), (3, TRAY), (2, START_SCAN)],
        ScanState::Scanning => {
            &[(40, BYTES), (25, SIDE_ENDED), (10, FETCH), (4, STOP), (1, ABORT), (5, TICK), (3, START)]
        }
        ScanState::Finishing => &[(60, FETCH), (4, STOP), (2, ABORT), (4, TICK), (8, TRAY), (5, LOAD), (2, BYTES)],
        ScanState::Erred => &[(25, PATH), (20, RESET), (20, START), (4, STOP), (3, ABORT), (4, FETCH), (6, TICK)],
    }
}

/// Records that never put a job's end off, whatever they come to.
const NO_SIGNS: [u8; 6] =
    [kind::LOAD, kind::GET_STATE, kind::GET_DESTINATION, kind::RESET, kind::FEEDER_GET_STATE, kind::TRAY];

/// What the guide is about for the next records.
#[derive(Clone, Copy)]
enum Aim {
    Free,
    Seconds(usize),
    FillRing,
    DrainRing,
    Sides(usize),
}

pub struct Guide {
    model: Model,
    rng: Rng,
    mix: Mix,
    aim: Aim,
    /// The model panics at the record given last.
    pub broken: bool,
}

impl Guide {
    pub fn new(rng: &mut Rng, start: &Start, mix: Mix) -> Guide {
        let model = Model::new(&start.words, vec![0; start.ring_length]);
        Guide { model, rng: Rng::new(rng.draw()), mix, aim: Aim::Free, broken: false }
    }

    /// The box that the guide has before it; fresh where the words are no record.
    pub fn now(&self) -> Record {
        self.model.record.unwrap_or(Record::fresh())
    }

    /// The next record of the stream. The model has answered it.
    pub fn next_record(&mut self) -> Vec<u8> {
        let bytes = self.choose();
        self.broken = self.model.call(&Call::perform(bytes.clone())).is_err();
        bytes
    }

    /// What the model came to with the record given last.
    pub fn number(&self) -> u16 {
        self.model.came.number
    }

    /// A stream of so many records.
    pub fn stream(&mut self, records: usize) -> Vec<u8> {
        let mut stream = Vec::new();
        for _ in 0..records {
            stream.extend(self.next_record());
            if self.broken {
                break;
            }
        }
        stream
    }

    /// The model is set to a record.
    pub fn see(&mut self, record: Record) {
        self.model.record = Some(record);
    }

    /// A record that fits the present state, or does not. The model stays.
    pub fn choose(&mut self) -> Vec<u8> {
        if let Some(bytes) = self.aimed() {
            bytes
        } else if self.rng.chance(self.mix.wild) {
            self.wild()
        } else {
            self.sensible()
        }
    }

    /// A record of any kind with values at their edges and beyond.
    pub fn wild(&mut self) -> Vec<u8> {
        let kind = self.rng.pick(&KINDS).0;
        self.of_kind(kind, true)
    }

    /// The next record of the present aim.
    fn aimed(&mut self) -> Option<Vec<u8>> {
        let now = self.now();
        let free = self.free();
        match (self.aim, now.scan) {
            (Aim::Seconds(1..), _) if self.rng.chance(2) => Some(self.no_sign_of_life()),
            (Aim::Seconds(left @ 1..), _) => {
                self.aim = Aim::Seconds(left - 1);
                Some(record(kind::TICK, &[]))
            }
            (Aim::FillRing, ScanState::Scanning) => {
                let past = self.rng.pick(&[0, 1, 1, 2, 255]);
                let part = self.rng.between(1, free.clamp(1, 255));
                let length = match free {
                    0 => past,
                    1..255 => self.rng.pick(&[free, free, free, free + 1, part]),
                    _ => self.rng.pick(&[255, 255, 255, part]),
                };
                if free == 0 {
                    self.aim = Aim::Free;
                }
                Some(record(kind::BYTES, &self.rng.bytes(length)))
            }
            (Aim::DrainRing, ScanState::Scanning | ScanState::Finishing) if now.stored > 0 => {
                let (stored, any) = (now.stored.min(255) as u8, self.rng.byte());
                let most = self.rng.pick(&[stored - 1, stored, any, 255, 255, 255, 255]);
                Some(fetch(most, &present_name(&now)))
            }
            (Aim::Sides(left @ 1..), ScanState::Scanning) => {
                self.aim = Aim::Sides(left - 1);
                if self.rng.chance(3) && free > 0 {
                    let length = self.rng.between(1, free.min(4));
                    return Some(record(kind::BYTES, &self.rng.bytes(length)));
                }
                Some(record(kind::SIDE_ENDED, &[]))
            }
            (Aim::Sides(1..), ScanState::Finishing) => Some(fetch(255, &present_name(&now))),
            (aim, _) => {
                self.aim = Aim::Free;
                (matches!(aim, Aim::Seconds(_)) && self.rng.chance(40)).then(|| self.no_sign_of_life())
            }
        }
    }

    fn no_sign_of_life(&mut self) -> Vec<u8> {
        let now = self.now();
        match self.rng.below(10) {
            0 => fetch(0, &present_name(&now)),
            1 => record(kind::BYTES, &[]),
            2 => record(kind::STOP, &(now.job ^ 1).to_be_bytes()),
            3 if matches!(now.scan, ScanState::Scanning | ScanState::Finishing) => {
                record(kind::STOP, &now.job.to_be_bytes())
            }
            4 if now.job != 0 => self.of_kind(kind::START_SCAN, false),
            _ => {
                let kind = self.rng.pick(&NO_SIGNS);
                self.of_kind(kind, false)
            }
        }
    }

    fn sensible(&mut self) -> Vec<u8> {
        let now = self.now();
        if self.rng.chance(self.mix.jams) {
            return record(kind::PATH, &[1]);
        }
        if self.rng.chance(self.mix.bursts) {
            return self.burst();
        }
        // A feeder that stands is mended before long, and a tray filled.
        if now.feeder == FeederState::Erred && self.rng.chance(25) {
            let kind = if now.path == 1 { kind::PATH } else { kind::RESET };
            return self.of_kind(kind, false);
        }
        if now.tray == 0 && self.rng.chance(15) {
            return record(kind::TRAY, &[1]);
        }
        match now.scan {
            ScanState::Scanning if self.rng.chance(self.mix.fills) => self.aim = Aim::FillRing,
            ScanState::Scanning if self.rng.chance(self.mix.runs) => {
                self.aim = Aim::Sides(self.rng.pick(&[3, 20, 1100]));
            }
            ScanState::Finishing if self.rng.chance(20) => self.aim = Aim::DrainRing,
            _ => {}
        }
        let mut share = self.rng.below(100);
        for &(likely, kind) in likely(now.scan) {
            if share < likely {
                return self.of_kind(kind, false);
            }
            share -= likely;
        }
        let kind = self.rng.pick(&KINDS).0;
        self.of_kind(kind, false)
    }

    /// Seconds to the limit from here: one less, as many, one more; or some other count at an edge.
    fn burst(&mut self) -> Vec<u8> {
        let now = self.now();
        let left = limit(&now).saturating_sub(now.quiet).min(700) as usize;
        let seconds = match self.rng.below(10) {
            0..3 => left.saturating_sub(1),
            3..6 => left,
            6..8 => left + 1,
            _ => self.rng.pick(&[1, 4, 5, 6, 59, 60, 61, 299, 300, 301]),
        };
        self.aim = Aim::Seconds(seconds.saturating_sub(1));
        record(kind::TICK, &[])
    }

    /// A record of a kind: each field has a value that makes sense where it comes, or a wild one.
    fn of_kind(&mut self, kind: u8, wild: bool) -> Vec<u8> {
        let fields = LISTED.iter().find(|listed| listed.kind == kind).map_or(&[][..], |listed| listed.fields);
        let mut payload = Vec::new();
        for &field in fields {
            let value = self.value(field, wild, &payload);
            payload.extend(value);
        }
        record(kind, &payload)
    }

    /// A value for a field, behind these fields of the payload: one that makes sense, or a wild one.
    fn value(&mut self, field: Field, wild: bool, before: &[u8]) -> Vec<u8> {
        let now = self.now();
        match field {
            Field::Job if wild || self.rng.chance(5) => self.some_job().to_be_bytes().to_vec(),
            Field::Job => now.job.to_be_bytes().to_vec(),
            Field::SideCount => {
                let use_feeder = before.last().copied().filter(|&asked| asked < 2).unwrap_or(now.use_feeder);
                self.some_count(wild, use_feeder == 0).to_be_bytes().to_vec()
            }
            Field::Time => self.some_time().to_be_bytes().to_vec(),
            Field::Name if wild || self.rng.chance(8) => self.some_name(),
            Field::Name => present_name(&now),
            Field::Picture => {
                let length = self.some_length(wild);
                self.rng.bytes(length)
            }
            _ => vec![if wild { self.wild_byte() } else { self.some_byte(field) }],
        }
    }

    /// A value that is taken, for a field of one byte.
    fn some_byte(&mut self, field: Field) -> u8 {
        match field {
            Field::UseFeeder if self.rng.chance(15) => 2,
            Field::UseFeeder => !self.rng.chance(self.mix.glass) as u8,
            Field::Append => self.rng.pick(&[0, 1, 1, 2]),
            Field::Most => {
                let (stored, any) = (self.now().stored.min(256), self.rng.byte());
                let [fewer, all, more] = [stored.saturating_sub(1), stored, stored + 1].map(|near| near.min(255) as u8);
                self.rng.pick(&[0, 1, 1, 255, 255, 255, fewer, all, all, more, any, any])
            }
            Field::Value => self.rng.below(3) as u8,
            Field::Tray => self.rng.below(2) as u8,
            _ => 0,
        }
    }

    fn wild_byte(&mut self) -> u8 {
        let any = self.rng.byte();
        self.rng.pick(&[0, 0, 1, 1, 2, 2, 3, 255, any, any])
    }

    fn free(&self) -> usize {
        self.model.ring.len().saturating_sub(self.now().stored.min(65_536) as usize)
    }

    fn some_count(&mut self, wild: bool, glass: bool) -> i16 {
        let (few, any) = (self.rng.between(3, 12) as i16, self.rng.draw() as i16);
        match (wild, glass) {
            (true, _) => {
                let edges = [-1, 0, 1, 2, 3, 998, 999, 1000, 1001, -2, -3, 255, 256, 257, i16::MAX, i16::MIN, any];
                self.rng.pick(&edges)
            }
            (_, true) => self.rng.pick(&[0, -1, -1, -1, 1, 1, 1]),
            _ => self.rng.pick(&[0, 0, 0, -1, -1, -1, 1, 1, 1, 1, 2, 2, 2, 2, 999, 999, 998, few, few, few]),
        }
    }

    fn some_time(&mut self) -> u16 {
        if !self.rng.chance(self.mix.long_times) {
            return self.rng.pick(&[1, 4, 5, 5, 5, 6, 7, 10]);
        }
        let any = self.rng.draw() as u16;
        self.rng.pick(&[0, 0, 0, 59, 60, 61, 299, 300, 301, 599, 600, 601, 65_535, any, any, any])
    }

    fn some_length(&mut self, wild: bool) -> usize {
        let (free, few, any) = (self.free(), self.rng.between(1, 40), self.rng.below(256));
        if wild {
            return self.rng.pick(&[0, 1, 2, 254, 255, any]);
        }
        let few = few.min(free.max(1));
        self.rng.pick(&[0, 1, 1, 1, 255, free, free, free + 1, free.saturating_sub(1), few, few, few]).min(255)
    }

    fn some_job(&mut self) -> u32 {
        let Record { job, last_job, .. } = self.now();
        let (bit, any) = (1 << self.rng.below(32), self.rng.draw() as u32);
        let near = [job.wrapping_add(1), job.wrapping_sub(1), job ^ bit, job.swap_bytes()];
        self.rng.pick(&[job, job, job, job, 0, last_job, near[0], near[1], near[2], near[3], u32::MAX, any])
    }

    /// Names near the present one, and far from it.
    fn some_name(&mut self) -> Vec<u8> {
        let now = self.now();
        let (job, side) = (now.job, now.side_number);
        let near = |more: u32| Some(((u32::from(side) + more) % 1000) as u16);
        let mut name = present_name(&now);
        match self.rng.below(14) {
            0 => return name_of(job, near(1)),
            1 => return name_of(job, near(999)),
            2 => return name_of(job, if now.append == 1 { None } else { Some(side) }),
            3 => return name_of(now.last_job.saturating_sub(1), Some(side)),
            4 => return name_of(job.wrapping_add(1), Some(side)),
            5 => _ = name.pop(),
            6 => name.push(self.rng.byte()),
            7 => name.clear(),
            8 => {
                let place = self.rng.below(name.len());
                name[place] ^= 1 << self.rng.below(8);
            }
            9 => {
                // One digit less and ten ones more: the same sum, were ten a digit.
                let place = self.rng.between(1, name.len() - 6);
                name[place] = name[place].wrapping_sub(1);
                name[place + 1] = name[place + 1].wrapping_add(10);
            }
            10 => name.resize(254, 0),
            11 => name.make_ascii_lowercase(),
            12 => {
                let length = self.rng.between(0, 254);
                name = self.rng.bytes(length);
            }
            _ => {}
        }
        name
    }
}
