//! The box record and when it is sound.

use crate::name::{Name, NAME_MOST};

/// How many words a record is told in.
pub const WORDS: usize = 23;

/// What the first word is: words with another number there are no record.
pub const VERSION: u64 = 2;

/// The fields by their places in the words.
pub const NAMES: [&str; WORDS] = [
    "version",
    "scan state",
    "scan FailureCode",
    "job",
    "last job",
    "granted",
    "quiet",
    "stop asked",
    "SideNumber",
    "SideCount",
    "DestinationID",
    "UseFeeder",
    "Append",
    "feeder state",
    "feeder FailureCode",
    "tray",
    "path",
    "start",
    "stored",
    "last name, its first eight bytes",
    "last name, the next eight",
    "last name, the last two",
    "last name, its length",
];

/// "The ring has 1 to 65,536 bytes."
pub const RING_MOST: usize = 65_536;

/// "SideNumber is 0 to 999": 999 goes to 0.
pub(crate) const SIDE_NUMBER_MOST: u16 = 999;

/// "SideCount −1 to 999."
pub(crate) const SIDE_COUNT_LEAST: i32 = -1;
pub(crate) const SIDE_COUNT_MOST: i32 = 999;

/// "At granted (300 in Erred) the job ends."
pub(crate) const ERRED_LIMIT: u16 = 300;

/// "Scan state: Idle, Pending, Scanning, Finishing, Erred."
#[derive(Clone, Copy, PartialEq, Eq, Debug)]
#[repr(u8)]
pub enum ScanState {
    Idle,
    Pending,
    Scanning,
    Finishing,
    Erred,
}

/// "Feeder state: Unloaded, Loaded, Busy, Erred."
#[derive(Clone, Copy, PartialEq, Eq, Debug)]
#[repr(u8)]
pub enum FeederState {
    Unloaded,
    Loaded,
    Busy,
    Erred,
}

/// "Each has a FailureCode: none, Jammed, Timeout."
#[derive(Clone, Copy, PartialEq, Eq, Debug)]
#[repr(u8)]
pub enum FailureCode {
    None,
    Jammed,
    Timeout,
}

/// Granted time in seconds. A record that is not sound may hold any number here.
#[derive(Clone, Copy, PartialEq, Eq, Debug)]
pub struct Granted(pub u16);

impl Granted {
    pub const LEAST: u16 = 5;
    pub const MOST: u16 = 600;
    pub const DEFAULT: u16 = 60;

    /// "0 gives 60; otherwise below 5 gives 5, above 600 gives 600."
    pub const fn grant(asked: u16) -> Granted {
        match asked {
            0 => Granted(Granted::DEFAULT),
            1..Granted::LEAST => Granted(Granted::LEAST),
            Granted::LEAST..=Granted::MOST => Granted(asked),
            _ => Granted(Granted::MOST),
        }
    }

    /// "Fresh is ... granted 60."
    pub const fn fresh() -> Granted {
        Granted(Granted::DEFAULT)
    }
}

/// The box record. Settings, marks and sensors are numbers, so that a record can be unsound in them.
#[derive(Clone, Copy, PartialEq, Debug)]
pub struct Record {
    pub scan: ScanState,
    pub scan_failure: FailureCode,
    pub feeder: FeederState,
    pub feeder_failure: FailureCode,
    /// The job held, 0 for none.
    pub job: u32,
    /// The last job number given.
    pub last_job: u32,
    pub use_feeder: u8,
    pub append: u8,
    pub granted: Granted,
    pub quiet: u16,
    pub side_count: i32,
    pub side_number: u16,
    pub destination: u32,
    pub stop_asked: u8,
    /// The tray sensor, MorePages.
    pub tray: u8,
    /// The path sensor, 1 is jammed.
    pub path: u8,
    /// The oldest picture byte's place in the ring.
    pub start: u64,
    /// How many picture bytes wait in the ring.
    pub stored: u64,
    /// The last name that any job held.
    pub last_name: Name,
}

impl Record {
    /// The fresh record: Idle, Unloaded, both settings 1, SideNumber 1, granted 60 and all else 0.
    pub fn fresh() -> Record {
        Record {
            scan: ScanState::Idle,
            scan_failure: FailureCode::None,
            feeder: FeederState::Unloaded,
            feeder_failure: FailureCode::None,
            job: 0,
            last_job: 0,
            use_feeder: 1,
            append: 1,
            granted: Granted::fresh(),
            quiet: 0,
            side_count: 0,
            side_number: 1,
            destination: 0,
            stop_asked: 0,
            tray: 0,
            path: 0,
            start: 0,
            stored: 0,
            last_name: Name::EMPTY,
        }
    }

    /// The record that the words tell, sound or not. None where the version is another, or a word does not fit its field.
    pub fn from_words(words: &[u64; WORDS]) -> Option<Record> {
        if words[0] != VERSION {
            return None;
        }
        Some(Record {
            scan: scan_state(words[1])?,
            scan_failure: failure_code(words[2])?,
            job: words[3].try_into().ok()?,
            last_job: words[4].try_into().ok()?,
            granted: Granted(words[5].try_into().ok()?),
            quiet: words[6].try_into().ok()?,
            stop_asked: words[7].try_into().ok()?,
            side_number: words[8].try_into().ok()?,
            side_count: u32::try_from(words[9]).ok()? as i32,
            destination: words[10].try_into().ok()?,
            use_feeder: words[11].try_into().ok()?,
            append: words[12].try_into().ok()?,
            feeder: feeder_state(words[13])?,
            feeder_failure: failure_code(words[14])?,
            tray: words[15].try_into().ok()?,
            path: words[16].try_into().ok()?,
            start: words[17],
            stored: words[18],
            last_name: last_name(words[19..].try_into().ok()?)?,
        })
    }

    /// The record in words. SideCount is in two's complement of 32 bits.
    pub fn to_words(&self) -> [u64; WORDS] {
        let [first, second, third, length] = name_words(&self.last_name);
        [
            VERSION,
            self.scan as u64,
            self.scan_failure as u64,
            self.job.into(),
            self.last_job.into(),
            self.granted.0.into(),
            self.quiet.into(),
            self.stop_asked.into(),
            self.side_number.into(),
            (self.side_count as u32).into(),
            self.destination.into(),
            self.use_feeder.into(),
            self.append.into(),
            self.feeder as u64,
            self.feeder_failure as u64,
            self.tray.into(),
            self.path.into(),
            self.start,
            self.stored,
            first,
            second,
            third,
            length,
        ]
    }

    /// The present name.
    #[inline]
    pub fn name(&self) -> Name {
        Name::new(self.job, self.append, self.side_number)
    }

    /// "A record is sound if": the paper's five points and the last name's, the cheap ones that hold in every state first.
    #[inline(always)]
    pub fn is_sound(&self, ring_length: usize) -> bool {
        if !self.marks_are_sound() || !self.ring_is_sound(ring_length) {
            return false;
        }
        if self.scan == ScanState::Idle {
            return self.idle_is_sound();
        }
        self.hold_is_sound()
            && match self.scan {
                ScanState::Scanning => self.scanning_is_sound(),
                ScanState::Finishing => self.finishing_is_sound(),
                _ => self.is_still(),
            }
            && self.name_is_sound()
    }

    /// "Settings, marks and sensors are 0 or 1. Path sensor 1 means feeder Erred."
    #[inline]
    fn marks_are_sound(&self) -> bool {
        let together = self.use_feeder | self.append | self.stop_asked | self.tray | self.path;
        together <= 1 && (self.path == 0 || self.feeder == FeederState::Erred)
    }

    /// "The ring has 1 to 65,536 bytes; start is inside it; stored is at most its length."
    #[inline]
    fn ring_is_sound(&self, ring_length: usize) -> bool {
        ring_length <= RING_MOST && self.start < ring_length as u64 && self.stored <= ring_length as u64
    }

    /// "Idle exactly when job is 0; then SideNumber is 1, SideCount and quiet are 0 and no stop is asked."
    #[inline]
    fn idle_is_sound(&self) -> bool {
        let not_fresh = self.job | self.side_count as u32 | u32::from(self.quiet) | u32::from(self.side_number ^ 1);
        not_fresh == 0 && self.is_still()
    }

    /// "When held: job is the last number given, granted is 5 to 600, quiet is below granted (in Erred, below 300)."
    #[inline]
    fn hold_is_sound(&self) -> bool {
        let limit = if self.scan == ScanState::Erred { ERRED_LIMIT } else { self.granted.0 };
        self.job != 0
            && self.job == self.last_job
            && self.quiet < limit
            && (Granted::LEAST..=Granted::MOST).contains(&self.granted.0)
            && self.side_number <= SIDE_NUMBER_MOST
            && (SIDE_COUNT_LEAST..=SIDE_COUNT_MOST).contains(&self.side_count)
    }

    /// Outside Scanning and Finishing nothing is stored, the feeder is not Busy and no stop is asked.
    #[inline]
    fn is_still(&self) -> bool {
        self.stored == 0 && self.stop_asked == 0 && self.feeder != FeederState::Busy
    }

    /// "Busy exactly when Scanning from the feeder; SideCount is then not 0. On the glass, SideCount is 1 in Scanning."
    #[inline]
    fn scanning_is_sound(&self) -> bool {
        if self.use_feeder == 1 {
            self.feeder == FeederState::Busy && self.side_count != 0
        } else {
            self.feeder != FeederState::Busy && self.side_count == 1
        }
    }

    /// Stored is "at least 1 in Finishing". On the glass, SideCount is "0 in Finishing".
    #[inline]
    fn finishing_is_sound(&self) -> bool {
        self.stored >= 1 && self.feeder != FeederState::Busy && (self.use_feeder == 1 || self.side_count == 0)
    }

    /// "While a job is held, a sound record has that job's there."
    #[inline]
    fn name_is_sound(&self) -> bool {
        self.last_name == self.name()
    }
}

fn scan_state(word: u64) -> Option<ScanState> {
    Some(match word {
        0 => ScanState::Idle,
        1 => ScanState::Pending,
        2 => ScanState::Scanning,
        3 => ScanState::Finishing,
        4 => ScanState::Erred,
        _ => return None,
    })
}

fn feeder_state(word: u64) -> Option<FeederState> {
    Some(match word {
        0 => FeederState::Unloaded,
        1 => FeederState::Loaded,
        2 => FeederState::Busy,
        3 => FeederState::Erred,
        _ => return None,
    })
}

fn failure_code(word: u64) -> Option<FailureCode> {
    Some(match word {
        0 => FailureCode::None,
        1 => FailureCode::Jammed,
        2 => FailureCode::Timeout,
        _ => return None,
    })
}

/// A name's eighteen bytes by eight, eight and two, the first byte highest, and its length.
fn name_words(name: &Name) -> [u64; 4] {
    let number = |bytes: &[u8]| bytes.iter().fold(0, |number, &byte| number << 8 | u64::from(byte));
    [number(&name.bytes[..8]), number(&name.bytes[8..16]), number(&name.bytes[16..]), name.length.into()]
}

fn last_name(&[first, second, third, length]: &[u64; 4]) -> Option<Name> {
    let third: u16 = third.try_into().ok()?;
    let length = u8::try_from(length).ok().filter(|&length| usize::from(length) <= NAME_MOST)?;
    let mut bytes = [0; NAME_MOST];
    bytes[..8].copy_from_slice(&first.to_be_bytes());
    bytes[8..16].copy_from_slice(&second.to_be_bytes());
    bytes[16..].copy_from_slice(&third.to_be_bytes());
    Some(Name { bytes, length })
}
