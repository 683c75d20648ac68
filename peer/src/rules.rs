//! The calls and reports.
//!
//! Who calls has tested 604: here a record is sound with the ring. The calls stand out of line, so that the dispatch that
//! every desk record goes through stays short.

use crate::record::{
    FailureCode, FeederState, Granted, Record, ScanState, ERRED_LIMIT, SIDE_COUNT_LEAST, SIDE_COUNT_MOST,
    SIDE_NUMBER_MOST,
};
use crate::wire::{kind, HEAD, MARK};

/// "Reason numbers", in the paper's order of test.
#[derive(Clone, Copy, PartialEq, Eq, Debug)]
#[repr(u16)]
pub enum Reason {
    /// Record not sound with the lent ring.
    Unsound = 604,
    /// A value outside its list.
    Value = 601,
    /// Job number not the one held; for scan calls, any number in Idle.
    Job = 712,
    /// Fetch name is not the present Destination, or Idle.
    Name = 404,
    /// Wrong state for this call.
    State = 501,
    /// Feeder Erred.
    Feeder = 711,
    /// No sheet, for Load or a side's beginning.
    Sheet = 713,
    /// Bytes exceed the free ring, reply under 4 bytes, or a writer's buffer too short.
    Room = 603,
}

impl Reason {
    #[inline]
    pub fn number(self) -> u16 {
        self as u16
    }
}

/// What an accepted record's line says last.
#[derive(Clone, Copy)]
pub(crate) enum Extra {
    /// "Extra is `-` where refused or not named here."
    Nothing,
    /// 01: granted.
    Granted(Granted),
    /// 05: name:DestinationID.
    Destination,
    /// 06: k, `!` if last, `:`, the bytes that stand in the reply.
    Fetched { count: u8, last: bool },
    /// 07: the scanner's FailureCode.
    ScanFailure,
    /// 14: MorePages:FailureCode.
    Feeder,
    /// 15: Simplex.
    Simplex,
    /// 20: how many bytes this record put in.
    Put(u8),
}

pub(crate) type Answer = Result<Extra, Reason>;

/// What the host lends for a call.
pub(crate) struct Lent<'a> {
    pub record: &'a mut Record,
    pub ring: &'a mut [u8],
    pub reply: &'a mut [u8],
}

/// An answer's number: "0 is acceptance."
#[inline]
pub(crate) fn number(answer: Answer) -> u16 {
    match answer {
        Ok(_) => 0,
        Err(reason) => reason.number(),
    }
}

/// Acceptance of a call with nothing to tell.
const DONE: Answer = Ok(Extra::Nothing);

/// One desk record against a box record that is sound with the ring. What it leaves is sound too.
#[inline(always)]
pub(crate) fn call(lent: &mut Lent, kind: u8, payload: &[u8]) -> Answer {
    let record = &mut *lent.record;
    match (kind, payload) {
        (kind::START_SCAN, &[use_feeder, c1, c0, append, t1, t0]) => {
            let (side_count, time) = (i16::from_be_bytes([c1, c0]), u16::from_be_bytes([t1, t0]));
            start_scan(record, use_feeder, side_count, append, time)
        }
        (kind::START, &[j3, j2, j1, j0, use_feeder, c1, c0]) => {
            let (job, side_count) = (u32::from_be_bytes([j3, j2, j1, j0]), i16::from_be_bytes([c1, c0]));
            start(record, job, use_feeder, side_count)
        }
        (kind::STOP, &[j3, j2, j1, j0]) => stop(record, u32::from_be_bytes([j3, j2, j1, j0])),
        (kind::ABORT, &[j3, j2, j1, j0]) => abort(record, u32::from_be_bytes([j3, j2, j1, j0])),
        (kind::GET_DESTINATION, &[j3, j2, j1, j0]) => get_destination(record, u32::from_be_bytes([j3, j2, j1, j0])),
        (kind::FETCH, &[most, ref name @ ..]) => fetch(record, lent.ring, lent.reply, most, name),
        (kind::GET_STATE, []) => Ok(Extra::ScanFailure),
        (kind::GET_SIDE_INFORMATION, []) => DONE,
        (kind::LOAD, &[j3, j2, j1, j0]) => load(record, u32::from_be_bytes([j3, j2, j1, j0])),
        (kind::EJECT, &[j3, j2, j1, j0, value]) => eject(record, u32::from_be_bytes([j3, j2, j1, j0]), value),
        (kind::RESET, &[j3, j2, j1, j0]) => reset(record, u32::from_be_bytes([j3, j2, j1, j0])),
        (kind::SET_FEEDER_MODE, &[j3, j2, j1, j0, mode]) => {
            set_feeder_mode(record, u32::from_be_bytes([j3, j2, j1, j0]), mode)
        }
        (kind::FEEDER_GET_STATE, []) => Ok(Extra::Feeder),
        (kind::GET_FEEDER_MODE, []) => Ok(Extra::Simplex),
        (kind::BYTES, bytes) => put_bytes(record, lent.ring, bytes),
        (kind::SIDE_ENDED, []) => side_ended(record),
        (kind::TRAY, &[value]) => tray(record, value),
        (kind::PATH, &[value]) => path(record, value),
        (kind::TICK, []) => {
            second(record);
            DONE
        }
        // The reader lets no other kind or length through: "601 is a kind or payload length not listed".
        _ => Err(Reason::Value),
    }
}

// Scan calls.

/// **StartScan** (601, 501, 711, 713).
#[inline(never)]
fn start_scan(record: &mut Record, use_feeder: u8, side_count: i16, append: u8, time: u16) -> Answer {
    let use_feeder = settled(use_feeder, record.use_feeder)?;
    let append = settled(append, record.append)?;
    let side_count = counted(side_count, use_feeder)?;
    if record.scan != ScanState::Idle {
        return Err(Reason::State);
    }
    if side_count != 0 {
        side_can_begin(record, use_feeder)?;
    }
    record.append = append;
    record.granted = Granted::grant(time);
    record.job = after_job(record.last_job);
    record.last_job = record.job;
    announce(record);
    go(record, use_feeder, side_count);
    Ok(Extra::Granted(record.granted))
}

/// **Start** (601, 712, 501, 711, 713).
#[inline(never)]
fn start(record: &mut Record, job: u32, use_feeder: u8, side_count: i16) -> Answer {
    let use_feeder = settled(use_feeder, record.use_feeder)?;
    let side_count = counted(side_count, use_feeder)?;
    is_scan_job(record, job)?;
    if !matches!(record.scan, ScanState::Pending | ScanState::Erred) {
        return Err(Reason::State);
    }
    if side_count != 0 {
        side_can_begin(record, use_feeder)?;
    }
    go(record, use_feeder, side_count);
    DONE
}

/// **Stop** (712): "Pending or Erred ends the job; Scanning or Finishing sets stop-asked."
#[inline(never)]
fn stop(record: &mut Record, job: u32) -> Answer {
    is_scan_job(record, job)?;
    match record.scan {
        ScanState::Scanning | ScanState::Finishing => record.stop_asked = 1,
        _ => end_job(record),
    }
    DONE
}

/// **Abort** (712): "ends the job."
#[inline(never)]
fn abort(record: &mut Record, job: u32) -> Answer {
    is_scan_job(record, job)?;
    end_job(record);
    DONE
}

/// **GetDestination** (712): "name and DestinationID."
#[inline(never)]
fn get_destination(record: &Record, job: u32) -> Answer {
    is_scan_job(record, job)?;
    Ok(Extra::Destination)
}

/// **Fetch** (404, 603): "It moves k bytes, the least of stored, most and reply length less 4."
#[inline(never)]
fn fetch(record: &mut Record, ring: &[u8], reply: &mut [u8], most: u8, name: &[u8]) -> Answer {
    if record.scan == ScanState::Idle || !is_destination(record, name) {
        return Err(Reason::Name);
    }
    let Some((head, room)) = reply.split_first_chunk_mut::<HEAD>() else {
        return Err(Reason::Room);
    };
    let least = record.stored.min(most as u64).min(room.len() as u64);
    let (moved, count) = (least as usize, least as u8);
    *head = [MARK[0], MARK[1], kind::FETCH, count];
    if moved == 0 {
        return Ok(Extra::Fetched { count, last: false });
    }
    let start = record.start as usize;
    copy_out(ring, start, &mut room[..moved]);
    record.start = around(start + moved, ring.len()) as u64;
    record.stored -= least;
    record.quiet = 0;
    let last = record.scan == ScanState::Finishing && record.stored == 0;
    if last {
        drain(record);
    }
    Ok(Extra::Fetched { count, last })
}

// Reports.

/// **Bytes** (501 unless Scanning; 603): "all into the ring or none. None given: accepted, nothing changes."
#[inline(never)]
fn put_bytes(record: &mut Record, ring: &mut [u8], bytes: &[u8]) -> Answer {
    if record.scan != ScanState::Scanning {
        return Err(Reason::State);
    }
    let stored = record.stored as usize;
    if bytes.len() > ring.len() - stored {
        return Err(Reason::Room);
    }
    if !bytes.is_empty() {
        let behind = around(record.start as usize + stored, ring.len());
        copy_in(ring, behind, bytes);
        record.stored += bytes.len() as u64;
        record.quiet = 0;
    }
    Ok(Extra::Put(bytes.len() as u8))
}

/// **Side ended** (501 unless Scanning).
#[inline(never)]
fn side_ended(record: &mut Record) -> Answer {
    if record.scan != ScanState::Scanning {
        return Err(Reason::State);
    }
    if record.feeder == FeederState::Busy {
        record.feeder = FeederState::Unloaded;
    }
    // "A positive SideCount falls by one, −1 stays."
    if record.side_count > 0 {
        record.side_count -= 1;
    }
    record.scan = ScanState::Finishing;
    record.quiet = 0;
    if record.stored == 0 {
        drain(record);
    }
    DONE
}

/// **Tray** 0 or 1 (601): "sets MorePages."
#[inline(never)]
fn tray(record: &mut Record, value: u8) -> Answer {
    if value > 1 {
        return Err(Reason::Value);
    }
    record.tray = value;
    DONE
}

/// **Path** 0 or 1 (601): "0 sets the sensor only. 1 also makes the feeder Erred, Jammed."
#[inline(never)]
fn path(record: &mut Record, value: u8) -> Answer {
    if value > 1 {
        return Err(Reason::Value);
    }
    record.path = value;
    if value == 1 {
        record.feeder = FeederState::Erred;
        record.feeder_failure = FailureCode::Jammed;
        // "If Scanning from the feeder, the scanner becomes Erred, Jammed, the ring is emptied and an asked stop
        // forgotten."
        if record.scan == ScanState::Scanning && record.use_feeder == 1 {
            jam(record);
            empty_ring(record);
            record.stop_asked = 0;
            record.quiet = 0;
        }
    }
    DONE
}

/// **Tick**: "Idle: nothing. Held: quiet plus 1; at granted (300 in Erred) the job ends, but FailureCode is Timeout and
/// a Busy feeder becomes Erred, Timeout."
#[inline]
pub(crate) fn second(record: &mut Record) {
    let limit = match record.scan {
        ScanState::Idle => return,
        ScanState::Erred => ERRED_LIMIT,
        _ => record.granted.0,
    };
    record.quiet += 1;
    if record.quiet >= limit {
        time_out(record);
    }
}

#[cold]
fn time_out(record: &mut Record) {
    if record.feeder == FeederState::Busy {
        record.feeder = FeederState::Erred;
        record.feeder_failure = FailureCode::Timeout;
    }
    end_job(record);
    record.scan_failure = FailureCode::Timeout;
}

// Feeder calls.

/// **Load** (712, 501 if Busy, 711, 713): "tray empty: 713 and Unloaded, from Loaded too. Else Loaded."
#[inline(never)]
fn load(record: &mut Record, job: u32) -> Answer {
    is_feeder_job(record, job)?;
    is_feeder_free(record)?;
    if record.tray == 0 {
        record.feeder = FeederState::Unloaded;
        return Err(Reason::Sheet);
    }
    record.feeder = FeederState::Loaded;
    DONE
}

/// **Eject** (601, 712, 501 if Busy, 711): "value 0, 1 or 2 (2 is device-setting, here 1): Unloaded; 1 also sets
/// MorePages to 0."
#[inline(never)]
fn eject(record: &mut Record, job: u32, value: u8) -> Answer {
    if value > 2 {
        return Err(Reason::Value);
    }
    is_feeder_job(record, job)?;
    is_feeder_free(record)?;
    record.feeder = FeederState::Unloaded;
    if value != 0 {
        record.tray = 0;
    }
    DONE
}

/// **Reset** (712, 501 if Busy): "Erred with path sensor 0 becomes Unloaded, none. Otherwise accepted, nothing
/// changes."
#[inline(never)]
fn reset(record: &mut Record, job: u32) -> Answer {
    is_feeder_job(record, job)?;
    match record.feeder {
        FeederState::Busy => return Err(Reason::State),
        FeederState::Erred if record.path == 0 => {
            record.feeder = FeederState::Unloaded;
            record.feeder_failure = FailureCode::None;
        }
        _ => {}
    }
    DONE
}

/// **SetFeederMode** "(601 unless 0, Simplex; 712; 501 unless Unloaded)". There is one mode, so nothing is kept.
#[inline(never)]
fn set_feeder_mode(record: &Record, job: u32, mode: u8) -> Answer {
    if mode != 0 {
        return Err(Reason::Value);
    }
    is_feeder_job(record, job)?;
    if record.feeder != FeederState::Unloaded {
        return Err(Reason::State);
    }
    DONE
}

// Tests that calls share.

/// A setting asked for: "0, 1 or 2 (2 is device-setting: keep the setting)", else 601.
#[inline]
fn settled(asked: u8, setting: u8) -> Result<u8, Reason> {
    match asked {
        0 | 1 => Ok(asked),
        2 => Ok(setting),
        _ => Err(Reason::Value),
    }
}

/// "SideCount −1 to 999; on the glass, after settling UseFeeder, only −1, 0 or 1", else 601.
/// "−1 on the glass is stored as 1."
#[inline]
fn counted(asked: i16, use_feeder: u8) -> Result<i32, Reason> {
    let asked = i32::from(asked);
    let most = if use_feeder == 1 { SIDE_COUNT_MOST } else { 1 };
    if !(SIDE_COUNT_LEAST..=most).contains(&asked) {
        return Err(Reason::Value);
    }
    if use_feeder == 0 && asked == -1 {
        return Ok(1);
    }
    Ok(asked)
}

/// "Job number not the one held; for scan calls, any number in Idle": 712.
#[inline]
fn is_scan_job(record: &Record, job: u32) -> Result<(), Reason> {
    if record.scan == ScanState::Idle || job != record.job {
        return Err(Reason::Job);
    }
    Ok(())
}

/// "The job number must be the one held, 0 when Idle, else 712."
#[inline]
fn is_feeder_job(record: &Record, job: u32) -> Result<(), Reason> {
    if job != record.job {
        return Err(Reason::Job);
    }
    Ok(())
}

/// 501 if Busy, 711 if Erred.
#[inline]
fn is_feeder_free(record: &Record) -> Result<(), Reason> {
    match record.feeder {
        FeederState::Busy => Err(Reason::State),
        FeederState::Erred => Err(Reason::Feeder),
        FeederState::Unloaded | FeederState::Loaded => Ok(()),
    }
}

/// A side's beginning, "from the feeder: Erred is 711; Unloaded with an empty tray is 713".
#[inline]
fn side_can_begin(record: &Record, use_feeder: u8) -> Result<(), Reason> {
    if use_feeder == 1 {
        match record.feeder {
            FeederState::Erred => return Err(Reason::Feeder),
            FeederState::Unloaded if record.tray == 0 => return Err(Reason::Sheet),
            _ => {}
        }
    }
    Ok(())
}

/// "The name is J, ten digits of job, three digits of SideNumber if Append is 1, then .jpg."
#[inline]
fn is_destination(record: &Record, name: &[u8]) -> bool {
    let Some((&[b'J', ref job @ ..], after)) = name.split_first_chunk::<11>() else {
        return false;
    };
    if !digits_say(job, record.job) {
        return false;
    }
    if record.append == 0 {
        return after == b".jpg";
    }
    match after.split_first_chunk::<3>() {
        Some((side, b".jpg")) => digits_say(side, u32::from(record.side_number)),
        _ => false,
    }
}

/// Whether all bytes are digits and together this number. At most ten digits, so the sum does not overflow.
#[inline]
fn digits_say(digits: &[u8], number: u32) -> bool {
    let mut value = 0u64;
    let mut all_digits = true;
    for &byte in digits {
        let digit = byte.wrapping_sub(b'0');
        all_digits &= digit < 10;
        value = value * 10 + u64::from(digit);
    }
    all_digits && value == u64::from(number)
}

// Moves that calls share.

/// "Job is the last number plus 1 (after 4,294,967,295 comes 1; 0 is never given)."
#[inline]
fn after_job(last: u32) -> u32 {
    last.checked_add(1).unwrap_or(1)
}

/// An accepted StartScan or Start: "0 gives Pending, else a side begins". It is a sign of life.
#[inline]
fn go(record: &mut Record, use_feeder: u8, side_count: i32) {
    record.use_feeder = use_feeder;
    record.side_count = side_count;
    record.scan_failure = FailureCode::None;
    record.quiet = 0;
    if side_count == 0 {
        record.scan = ScanState::Pending;
    } else {
        begin_side(record);
    }
}

/// "Otherwise the feeder becomes Busy. Then Scanning." The name is the job's, so no side's beginning raises DestinationID.
#[inline]
fn begin_side(record: &mut Record) {
    if record.use_feeder == 1 {
        record.feeder = FeederState::Busy;
    }
    record.scan = ScanState::Scanning;
}

/// "It rises by one exactly when the name differs from the last name any job held", 4,294,967,295 going to 0. "The last name
/// is remembered through Idle": the fresh one is no job's, so that "the first job's name counts as a change".
#[inline]
fn announce(record: &mut Record) {
    let name = record.name();
    if name != record.last_name {
        record.last_name = name;
        record.destination = record.destination.wrapping_add(1);
    }
}

/// **Drain step**: "SideNumber plus 1. Stop asked: end of job. SideCount 0: Pending. Else a side begins, except: 713
/// gives Pending, with SideCount 0 if it was −1 and kept otherwise; 711 gives Erred, Jammed." And of DestinationID and the
/// last name: "A drain step that ends the job moves nothing."
#[inline(never)]
fn drain(record: &mut Record) {
    record.side_number = if record.side_number >= SIDE_NUMBER_MOST { 0 } else { record.side_number + 1 };
    if record.stop_asked == 1 {
        end_job(record);
        return;
    }
    announce(record);
    if record.side_count == 0 {
        record.scan = ScanState::Pending;
    } else {
        match side_can_begin(record, record.use_feeder) {
            Ok(()) => begin_side(record),
            Err(Reason::Sheet) => {
                record.scan = ScanState::Pending;
                record.side_count = record.side_count.max(0);
            }
            Err(_) => jam(record),
        }
    }
}

/// **End of job**: "ring emptied, Idle, job 0, the fresh SideNumber, SideCount and quiet, no stop asked, the scanner's
/// FailureCode none. Busy becomes Unloaded."
#[inline]
fn end_job(record: &mut Record) {
    empty_ring(record);
    record.scan = ScanState::Idle;
    record.job = 0;
    record.side_number = 1;
    record.side_count = 0;
    record.quiet = 0;
    record.stop_asked = 0;
    record.scan_failure = FailureCode::None;
    if record.feeder == FeederState::Busy {
        record.feeder = FeederState::Unloaded;
    }
}

/// The scanner becomes "Erred, Jammed".
#[inline]
fn jam(record: &mut Record) {
    record.scan = ScanState::Erred;
    record.scan_failure = FailureCode::Jammed;
}

/// "Emptying it (end of job, jam) sets start and stored to 0; a fetch only moves them."
#[inline]
fn empty_ring(record: &mut Record) {
    record.start = 0;
    record.stored = 0;
}

// The ring.

/// A place below twice the length, "round the ring's end".
#[inline]
fn around(place: usize, length: usize) -> usize {
    if place >= length {
        place - length
    } else {
        place
    }
}

/// Puts bytes into the ring from a place on, in at most two straight runs.
#[inline]
fn copy_in(ring: &mut [u8], place: usize, bytes: &[u8]) {
    let straight = bytes.len().min(ring.len() - place);
    let (first, second) = bytes.split_at(straight);
    ring[place..place + straight].copy_from_slice(first);
    if !second.is_empty() {
        ring[..second.len()].copy_from_slice(second);
    }
}

/// Fills a part of the reply from a place of the ring on, in at most two straight runs.
#[inline]
fn copy_out(ring: &[u8], place: usize, part: &mut [u8]) {
    let straight = part.len().min(ring.len() - place);
    let (first, second) = part.split_at_mut(straight);
    first.copy_from_slice(&ring[place..place + straight]);
    if !second.is_empty() {
        second.copy_from_slice(&ring[..second.len()]);
    }
}
