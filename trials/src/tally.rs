//! What the trials reach: how often each kind got each number, and what the streams pass.

use crate::case::{Call, Start};
use crate::start::{kept, named, present_name};
use crate::wire::{Came, Kind, QUESTIONS};
use peer::{kind, FeederState, Listed, Name, Reading, Record, ScanState, KINDS, LISTED, NAME_MOST, NO_RECORD};
use std::collections::BTreeMap;

/// The paper's numbers, 0 for acceptance first.
pub const NUMBERS: [u16; 9] = [0, 601, 712, 404, 501, 711, 713, 603, 604];

#[derive(Default)]
pub struct Tally {
    /// Lines by kind and number, and by the letters of scan state and feeder state.
    numbers: BTreeMap<(u8, u16), u64>,
    states: BTreeMap<(u8, u8), u64>,
    pub bad: u64,
    /// Records that are sound but for their version, by it.
    versions: [u64; VERSIONS.len()],
    /// Records that are sound but for their last name: wrong in one byte, by its place, and otherwise.
    name_bytes: [u64; NAME_MOST],
    names: [u64; LAST_NAMES.len()],
    /// Calls that answer no record, by what they find.
    unanswered: [u64; UNANSWERED.len()],
    /// Records of streams that pass a mark, by its name.
    marks: BTreeMap<&'static str, u64>,
}

impl Tally {
    pub fn note(&mut self, kind: u8, number: u16) {
        *self.numbers.entry((kind, number)).or_default() += 1;
    }

    /// Notes every line of a text.
    pub fn note_text(&mut self, text: &[u8]) {
        for line in text.split(|&byte| byte == b'\n').filter(|line| !line.is_empty()) {
            if line.starts_with(b"bad ") {
                self.bad += 1;
                continue;
            }
            let mut columns = line.split(|&byte| byte == b' ');
            let mut column = || std::str::from_utf8(columns.next().unwrap_or(&[])).unwrap_or("");
            let kind = u8::from_str_radix(column(), 16).unwrap_or(0);
            let number = column().parse().unwrap_or(u16::MAX);
            self.note(kind, number);
            let mut letter = || column().bytes().next().unwrap_or(0);
            *self.states.entry((letter(), letter())).or_default() += 1;
        }
    }

    /// Notes the version of a record that is else sound.
    pub fn note_version(&mut self, version: u64) {
        let wide = (version > u32::MAX.into()) as usize;
        self.versions[version.min(3) as usize + wide] += 1;
    }

    /// Notes the last name of a record that is else sound.
    pub fn note_last_name(&mut self, start: &Start) {
        let (mut words, given) = (start.words, &start.words[QUESTIONS..]);
        words[QUESTIONS..].fill(0);
        let Some(record) = Record::from_words(&words).map(named).filter(|record| record.is_sound(start.ring_length))
        else {
            return;
        };
        for (count, (_, is_so)) in self.names.iter_mut().zip(LAST_NAMES) {
            *count += is_so(&record, given) as u64;
        }
        let told = Record::from_words(&start.words).filter(|told| told.last_name.length == record.last_name.length);
        if let (Some(told), true) = (told, record.scan != ScanState::Idle) {
            let differs = |place: &usize| told.last_name.bytes[*place] != record.last_name.bytes[*place];
            let wrong: Vec<usize> = (0..NAME_MOST).filter(differs).collect();
            if let [place] = wrong[..] {
                self.name_bytes[place] += 1;
            }
        }
    }

    /// Notes a call, and what it came to, where it answers no record.
    pub fn note_call(&mut self, call: &Call, came: &Came) {
        if !call.puts_lines() || came.read > 0 || came.number == 604 {
            return;
        }
        for (count, (_, finds)) in self.unanswered.iter_mut().zip(UNANSWERED) {
            *count += finds(call, came) as u64;
        }
    }

    /// Notes a record of a stream that is accepted.
    pub fn note_passed(&mut self, passed: &Passed) {
        for (name, _) in MARKS.iter().filter(|(_, passes)| passes(passed)) {
            *self.marks.entry(name).or_default() += 1;
        }
    }

    fn passed(&self, mark: &str) -> u64 {
        self.marks.get(mark).copied().unwrap_or(0)
    }

    pub fn print(&self, marks: bool) {
        for (kind, ..) in KINDS {
            let row = self.numbers.range((kind, 0)..=(kind, u16::MAX));
            let cells: Vec<String> = row.map(|((_, number), count)| format!("{number}: {count}")).collect();
            println!("  kind {kind:02X}: number {}", cells.join(", "));
        }
        for (&(scan, feeder), count) in &self.states {
            println!("  state {} {}: {count}", scan as char, feeder as char);
        }
        println!("  bad: {}", self.bad);
        for (count, name) in self.versions.iter().zip(VERSIONS) {
            println!("  {name}: {count}");
        }
        for (count, (name, _)) in self.names.iter().zip(LAST_NAMES) {
            println!("  {name}: {count}");
        }
        println!("  held, last name wrong in one byte, by its place: {:?}", self.name_bytes);
        for (count, (name, _)) in self.unanswered.iter().zip(UNANSWERED) {
            println!("  {name}: {count}");
        }
        for (name, _) in MARKS.iter().filter(|_| marks) {
            println!("  {name}: {}", self.passed(name));
        }
    }

    /// What the paper allows and the trials do not reach, and what they reach and it does not allow.
    pub fn faults(&self, marks: bool) -> Vec<String> {
        let named = |listed: &Listed| {
            let kind = listed.kind;
            [&[0, 604], listed.numbers].concat().into_iter().map(move |number| (kind, number))
        };
        let numbers: Vec<(u8, u16)> = LISTED.iter().flat_map(named).collect();
        // Busy is Scanning from the feeder; a feeder that is not Busy then means the glass.
        let states = b"IPSFE".iter().flat_map(|&scan| b"ULBE".map(|feeder| (scan, feeder)));
        let states: Vec<(u8, u8)> = states.filter(|&(scan, feeder)| feeder != b'B' || scan == b'S').collect();
        let mut faults = misses(&self.numbers, &numbers, |(kind, number)| format!("kind {kind:02X}, number {number}"));
        let state = |&(scan, feeder): &(u8, u8)| format!("state {} {}", scan as char, feeder as char);
        faults.extend(misses(&self.states, &states, state));
        if self.bad == 0 {
            faults.push("never reached: bad".to_string());
        }
        let marks = MARKS.iter().filter(|(name, _)| marks && self.passed(name) == 0).map(|&(name, _)| (&0, name));
        let unanswered = self.unanswered.iter().zip(UNANSWERED.map(|(name, _)| name));
        let names = self.names.iter().zip(LAST_NAMES.map(|(name, _)| name));
        let bytes = self.name_bytes.iter().map(|count| (count, "held, last name wrong in each byte alone"));
        let records = self.versions.iter().zip(VERSIONS).chain(names).chain(bytes);
        let missed = records.chain(unanswered).chain(marks).filter(|(&count, _)| count == 0);
        faults.extend(missed.map(|(_, name)| format!("never reached: {name}")));
        faults
    }
}

fn misses<K: Ord>(reached: &BTreeMap<K, u64>, possible: &[K], tell: impl Fn(&K) -> String) -> Vec<String> {
    let missed = possible.iter().filter(|key| !reached.contains_key(key));
    let strange = reached.keys().filter(|key| !possible.contains(key));
    let missed = missed.map(|key| format!("never reached: {}", tell(key)));
    missed.chain(strange.map(|key| format!("not in the paper: {}", tell(key)))).collect()
}

/// The right version, those beside it, and others.
const VERSIONS: [&str; 5] = ["version 0", "version 1", "version 2", "another version", "a version beyond 32 bits"];

type LastName = (&'static str, fn(&Record, &[u64]) -> bool);

/// The last names of records of other hands: the record with the right one, and the four words that are given.
const LAST_NAMES: [LastName; 8] = [
    ("held, the last name right", |record, given| held(record) && given == own(record)),
    ("held, last name wrong in its length alone", |record, given| {
        held(record) && given[3] <= NAME_MOST as u64 && given[3] != own(record)[3] && given[..3] == own(record)[..3]
    }),
    ("held, last name empty", |record, given| held(record) && given == [0; 4]),
    ("Idle, last name empty", |record, given| !held(record) && given == [0; 4]),
    ("Idle, the last name one that StartScan gives", |record, given| {
        let given_next = |append| is_next(record, append, given);
        !held(record) && (given_next(0) || given_next(1))
    }),
    ("Idle, any last name that fits", |record, given| {
        !held(record) && given[2] < 65_536 && (1..=18).contains(&given[3])
    }),
    ("a last name's length of 19 or more", |_, given| given[2] < 65_536 && given[3] >= 19),
    ("a last name's third word of 65,536 or more", |_, given| given[2] >= 65_536 && given[3] <= 18),
];

fn held(record: &Record) -> bool {
    record.scan != ScanState::Idle
}

/// The words of a record's last name.
fn own(record: &Record) -> Vec<u64> {
    record.to_words()[QUESTIONS..].to_vec()
}

/// Whether these are the words of the name that StartScan gives with this Append.
fn is_next(idle: &Record, append: u8, words: &[u64]) -> bool {
    let job = idle.last_job.checked_add(1).unwrap_or(1);
    let name = present_name(&Record { job, append, ..*idle });
    own(&Record { last_name: kept(&name), ..*idle }) == words
}

type Finds = (&'static str, fn(&Call, &Came) -> bool);

/// What calls find that answer no record: too little room for a line, and what stands at the front of the input.
const UNANSWERED: [Finds; 12] = [
    ("perform, no room, a record", |call, came| lacks_room(call, came, Kind::Perform) && is_whole(call)),
    ("perform, no room, a cut record or none", |call, came| lacks_room(call, came, Kind::Perform) && is_cut(call)),
    ("perform, no room, a bad record", |call, came| {
        lacks_room(call, came, Kind::Perform) && !is_cut(call) && !is_whole(call)
    }),
    ("perform, no input, more may come", |call, came| waits(call, came) && call.input.is_empty()),
    ("perform, a cut record, more may come", |call, came| waits(call, came) && !call.input.is_empty()),
    ("perform, a bad record, more may come", |call, came| ends(call, came) && !call.last),
    ("perform, no input, the last", |call, came| ends(call, came) && call.last && call.input.is_empty()),
    ("perform, a cut record, the last", |call, came| ends(call, came) && is_cut(call) && !call.input.is_empty()),
    ("perform, a bad record, the last", |call, came| ends(call, came) && call.last && !is_cut(call)),
    ("serve, no room, no input", |call, came| lacks_room(call, came, Kind::Serve) && call.input.is_empty()),
    ("serve, no room, more may come", |call, came| lacks_room(call, came, Kind::Serve) && !call.last),
    ("serve, no room, the last", |call, came| lacks_room(call, came, Kind::Serve) && call.last),
];

fn lacks_room(call: &Call, came: &Came, kind: Kind) -> bool {
    call.kind == kind && came.number == 603
}

fn waits(call: &Call, came: &Came) -> bool {
    call.kind == Kind::Perform && came.number == NO_RECORD && came.ended == 0
}

fn ends(call: &Call, came: &Came) -> bool {
    call.kind == Kind::Perform && came.number == NO_RECORD && came.ended == 1
}

fn is_whole(call: &Call) -> bool {
    matches!(peer::read(&call.input, 0), Reading::Record { .. })
}

fn is_cut(call: &Call) -> bool {
    matches!(peer::read(&call.input, 0), Reading::Cut { .. })
}

/// A record of a stream that is accepted, and the box before and behind it.
pub struct Passed<'a> {
    pub kind: u8,
    pub payload: &'a [u8],
    pub before: Record,
    pub after: Record,
    pub ring_length: u64,
    /// The stream is from a fresh box.
    pub fresh: bool,
}

impl Passed<'_> {
    fn ends(&self, by: u8) -> bool {
        self.kind == by && self.before.job != 0 && self.after.job == 0
    }

    fn times_out(&self, granted: u16) -> bool {
        self.ends(kind::TICK) && self.before.scan != ScanState::Erred && self.before.granted.0 == granted
    }

    fn jams(&self, use_feeder: u8) -> bool {
        let jams = self.kind == kind::PATH && self.payload[0] == 1;
        jams && self.before.scan == ScanState::Scanning && self.before.use_feeder == use_feeder
    }

    fn wraps_side(&self) -> bool {
        (self.before.side_number, self.after.side_number) == (999, 0)
    }

    fn puts_round(&self) -> bool {
        let behind = (self.before.start + self.before.stored) % self.ring_length;
        self.kind == kind::BYTES && behind + self.payload.len() as u64 > self.ring_length
    }

    /// How many bytes a fetch moves.
    fn moved(&self) -> Option<u64> {
        (self.kind == kind::FETCH).then(|| self.before.stored.min(self.payload[0].into()))
    }

    /// The scan state behind a drain step by this kind.
    fn drained(&self, by: u8) -> Option<ScanState> {
        let by_fetch = self.before.scan == ScanState::Finishing && self.moved() == Some(self.before.stored);
        let by_end = self.kind == kind::SIDE_ENDED && self.before.stored == 0;
        (self.kind == by && (by_fetch || by_end)).then_some(self.after.scan)
    }

    /// DestinationID rises by one, and the last name is another.
    fn rises(&self) -> bool {
        self.after.destination == self.before.destination.wrapping_add(1)
            && self.after.last_name != self.before.last_name
    }

    /// DestinationID and the last name stay.
    fn stays(&self) -> bool {
        self.after.destination == self.before.destination && self.after.last_name == self.before.last_name
    }

    /// A drain step by any kind leads here, with this Append.
    fn drains_to(&self, append: u8, scan: ScanState) -> bool {
        self.before.append == append && [kind::FETCH, kind::SIDE_ENDED].iter().any(|&by| self.drained(by) == Some(scan))
    }

    /// Start begins a side from this state.
    fn starts_from(&self, scan: ScanState) -> bool {
        self.kind == kind::START && self.before.scan == scan && self.after.scan == ScanState::Scanning
    }

    /// StartScan is accepted. What it finds as the last name, and what it leaves.
    fn renames(&self) -> Option<(Name, Name)> {
        (self.kind == kind::START_SCAN).then_some((self.before.last_name, self.after.last_name))
    }

    /// The SideCount that a drain step finds, where it finds no sheet.
    fn no_sheet(&self, by: u8) -> Option<i32> {
        let last = (by == kind::SIDE_ENDED) as i32;
        let found = self.drained(by) == Some(ScanState::Pending) && self.before.side_count != last;
        found.then_some(self.before.side_count)
    }
}

type Mark = (&'static str, fn(&Passed) -> bool);

const MARKS: [Mark; 52] = [
    ("ring exactly full", |p| p.kind == kind::BYTES && !p.payload.is_empty() && p.after.stored == p.ring_length),
    ("bytes put round the ring's end", |p| p.puts_round()),
    ("bytes fetched round the ring's end", |p| p.moved().is_some_and(|moved| p.before.start + moved > p.ring_length)),
    ("fetch of 255", |p| p.moved() == Some(255)),
    ("accepted fetch of none", |p| p.moved() == Some(0)),
    ("SideNumber 999 to 0", |p| p.wraps_side()),
    ("SideNumber 999 to 0 in a stream from fresh", |p| p.fresh && p.wraps_side()),
    ("job 4,294,967,295 to 1", |p| p.kind == kind::START_SCAN && (p.before.last_job, p.after.job) == (u32::MAX, 1)),
    ("DestinationID 4,294,967,295 to 0", |p| (p.before.destination, p.after.destination) == (u32::MAX, 0)),
    ("job ended by Stop", |p| p.ends(kind::STOP)),
    ("job ended by Abort", |p| p.ends(kind::ABORT)),
    ("job ended by a drain step, stop asked", |p| p.ends(kind::FETCH) || p.ends(kind::SIDE_ENDED)),
    ("timeout, granted 5", |p| p.times_out(5)),
    ("timeout, granted 60", |p| p.times_out(60)),
    ("timeout, granted 300", |p| p.times_out(300)),
    ("timeout, granted 600", |p| p.times_out(600)),
    ("timeout, granted otherwise", |p| {
        p.times_out(p.before.granted.0) && ![5, 60, 300, 600].contains(&p.before.granted.0)
    }),
    ("timeout, 300 in Erred", |p| p.ends(kind::TICK) && p.before.scan == ScanState::Erred),
    ("timeout with the feeder Busy", |p| p.ends(kind::TICK) && p.before.feeder == FeederState::Busy),
    ("jam, Scanning from the feeder", |p| p.jams(1)),
    ("jam, a stop asked", |p| p.jams(1) && p.before.stop_asked == 1),
    ("jam, Scanning from the glass", |p| p.jams(0)),
    ("drain by Fetch: next side", |p| p.drained(kind::FETCH) == Some(ScanState::Scanning)),
    ("drain by Fetch: Pending", |p| p.drained(kind::FETCH) == Some(ScanState::Pending) && p.before.side_count == 0),
    ("drain by Fetch: no sheet, SideCount -1 to 0", |p| p.no_sheet(kind::FETCH) == Some(-1)),
    ("drain by Fetch: no sheet, SideCount kept", |p| p.no_sheet(kind::FETCH).is_some_and(|count| count != -1)),
    ("drain by Fetch: Erred", |p| p.drained(kind::FETCH) == Some(ScanState::Erred)),
    ("drain by Side ended: next side", |p| p.drained(kind::SIDE_ENDED) == Some(ScanState::Scanning)),
    ("drain by Side ended: Pending", |p| {
        p.drained(kind::SIDE_ENDED) == Some(ScanState::Pending) && p.before.side_count == 1
    }),
    ("drain by Side ended: no sheet, SideCount -1 to 0", |p| p.no_sheet(kind::SIDE_ENDED) == Some(-1)),
    ("drain by Side ended: no sheet, SideCount kept", |p| {
        p.no_sheet(kind::SIDE_ENDED).is_some_and(|count| count != -1)
    }),
    ("DestinationID rises in StartScan, a side begins", |p| {
        p.renames().is_some() && p.rises() && p.after.scan == ScanState::Scanning
    }),
    ("DestinationID rises in StartScan of no side", |p| {
        p.renames().is_some() && p.rises() && p.after.scan == ScanState::Pending
    }),
    ("DestinationID rises in StartScan, the last name as long", |p| {
        p.rises() && p.renames().is_some_and(|(was, is)| was.length == is.length)
    }),
    ("DestinationID rises in StartScan, the last name other in its length alone", |p| {
        p.rises() && p.renames().is_some_and(|(was, is)| was.bytes == is.bytes)
    }),
    ("DestinationID rises in StartScan, the last name other in its last two bytes alone", |p| {
        p.rises() && p.renames().is_some_and(|(was, is)| was.length == is.length && was.bytes[..16] == is.bytes[..16])
    }),
    ("DestinationID stays in StartScan, Idle has the very name", |p| {
        p.stays() && p.renames().is_some() && p.after.append == 1
    }),
    ("DestinationID stays in StartScan, Idle has the very name, without side numbers", |p| {
        p.stays() && p.renames().is_some() && p.after.append == 0
    }),
    ("DestinationID stays at a side's beginning by Start", |p| p.stays() && p.starts_from(ScanState::Pending)),
    ("DestinationID stays at a side's beginning by Start after a jam", |p| {
        p.stays() && p.starts_from(ScanState::Erred) && p.after.use_feeder == 1
    }),
    ("DestinationID stays at a side's beginning in a drain step, Append 0", |p| {
        p.stays() && p.drains_to(0, ScanState::Scanning)
    }),
    ("DestinationID stays in a drain step to Pending, Append 0", |p| p.stays() && p.drains_to(0, ScanState::Pending)),
    ("DestinationID stays in a drain step to Erred, Append 0", |p| p.stays() && p.drains_to(0, ScanState::Erred)),
    ("DestinationID rises in a drain step to the next side", |p| p.rises() && p.drains_to(1, ScanState::Scanning)),
    ("DestinationID rises in a drain step to Pending", |p| p.rises() && p.drains_to(1, ScanState::Pending)),
    ("DestinationID rises in a drain step to Erred", |p| p.rises() && p.drains_to(1, ScanState::Erred)),
    ("DestinationID 4,294,967,295 to 0 in a drain step", |p| {
        p.renames().is_none() && (p.before.destination, p.after.destination) == (u32::MAX, 0)
    }),
    ("last name kept in an ending drain step", |p| p.stays() && p.drains_to(1, ScanState::Idle)),
    ("last name kept in an ending drain step, Append 0", |p| p.stays() && p.drains_to(0, ScanState::Idle)),
    ("last name kept in Stop, Abort and the end by time", |p| {
        p.stays() && (p.ends(kind::STOP) || p.ends(kind::ABORT) || p.ends(kind::TICK))
    }),
    ("last name of 999 to 000", |p| p.rises() && p.wraps_side()),
    ("last name of a job that had another number of bytes", |p| {
        p.rises() && p.renames().is_some_and(|(was, is)| was.length != is.length && was.length >= 15)
    }),
];
