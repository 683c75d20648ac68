//! Desk records: "mark A5 5A, kind, length, payload".

use crate::rules::Reason;

/// "Mark A5 5A."
pub(crate) const MARK: [u8; 2] = [0xA5, 0x5A];

/// Mark, kind and length.
pub(crate) const HEAD: usize = 4;

/// The kinds' numbers.
pub mod kind {
    pub const START_SCAN: u8 = 0x01;
    pub const START: u8 = 0x02;
    pub const STOP: u8 = 0x03;
    pub const ABORT: u8 = 0x04;
    pub const GET_DESTINATION: u8 = 0x05;
    pub const FETCH: u8 = 0x06;
    pub const GET_STATE: u8 = 0x07;
    pub const GET_SIDE_INFORMATION: u8 = 0x08;
    pub const LOAD: u8 = 0x10;
    pub const EJECT: u8 = 0x11;
    pub const RESET: u8 = 0x12;
    pub const SET_FEEDER_MODE: u8 = 0x13;
    pub const FEEDER_GET_STATE: u8 = 0x14;
    pub const GET_FEEDER_MODE: u8 = 0x15;
    pub const BYTES: u8 = 0x20;
    pub const SIDE_ENDED: u8 = 0x21;
    pub const TRAY: u8 = 0x22;
    pub const PATH: u8 = 0x23;
    pub const TICK: u8 = 0x24;
}

/// What payloads are made of, in the paper's words.
#[derive(Clone, Copy, PartialEq, Eq, Debug)]
pub enum Field {
    Job,
    UseFeeder,
    SideCount,
    Append,
    Time,
    Most,
    Name,
    /// Of Eject.
    Value,
    Mode,
    Picture,
    Tray,
    Path,
}

impl Field {
    /// Least and greatest length.
    pub const fn lengths(self) -> (u8, u8) {
        match self {
            Field::Job => (4, 4),
            Field::SideCount | Field::Time => (2, 2),
            Field::Name => (0, 254),
            Field::Picture => (0, 255),
            _ => (1, 1),
        }
    }
}

/// A kind, the fields of its payload, and the numbers that the paper names for it beside 0 and 604.
pub struct Listed {
    pub kind: u8,
    pub fields: &'static [Field],
    pub numbers: &'static [u16],
}

const fn listed(kind: u8, fields: &'static [Field], numbers: &'static [u16]) -> Listed {
    Listed { kind, fields, numbers }
}

/// "Kinds (hex) with payload length", in the paper's order.
pub const LISTED: [Listed; 19] = {
    use Field::*;
    [
        listed(kind::START_SCAN, &[UseFeeder, SideCount, Append, Time], &[601, 501, 711, 713]),
        listed(kind::START, &[Job, UseFeeder, SideCount], &[601, 712, 501, 711, 713]),
        listed(kind::STOP, &[Job], &[712]),
        listed(kind::ABORT, &[Job], &[712]),
        listed(kind::GET_DESTINATION, &[Job], &[712]),
        listed(kind::FETCH, &[Most, Name], &[404, 603]),
        listed(kind::GET_STATE, &[], &[]),
        listed(kind::GET_SIDE_INFORMATION, &[], &[]),
        listed(kind::LOAD, &[Job], &[712, 501, 711, 713]),
        listed(kind::EJECT, &[Job, Value], &[601, 712, 501, 711]),
        listed(kind::RESET, &[Job], &[712, 501]),
        listed(kind::SET_FEEDER_MODE, &[Job, Mode], &[601, 712, 501]),
        listed(kind::FEEDER_GET_STATE, &[], &[]),
        listed(kind::GET_FEEDER_MODE, &[], &[]),
        listed(kind::BYTES, &[Picture], &[501, 603]),
        listed(kind::SIDE_ENDED, &[], &[501]),
        listed(kind::TRAY, &[Tray], &[601]),
        listed(kind::PATH, &[Path], &[601]),
        listed(kind::TICK, &[], &[]),
    ]
};

/// Kind, least and greatest payload length.
pub const KINDS: [(u8, u8, u8); LISTED.len()] = {
    let mut kinds = [(0, 0, 0); LISTED.len()];
    let mut row = 0;
    while row < LISTED.len() {
        let Listed { kind, fields, .. } = LISTED[row];
        let (mut least, mut most, mut field) = (0, 0, 0);
        while field < fields.len() {
            let (shortest, longest) = fields[field].lengths();
            least += shortest;
            most += longest;
            field += 1;
        }
        kinds[row] = (kind, least, most);
        row += 1;
    }
    kinds
};

/// Least and greatest payload length by kind, laid out from the table. A kind that is not listed has no length.
static LENGTHS: [(u8, u8); 256] = {
    let mut lengths = [(1, 0); 256];
    let mut row = 0;
    while row < KINDS.len() {
        let (kind, least, most) = KINDS[row];
        lengths[kind as usize] = (least, most);
        row += 1;
    }
    lengths
};

#[inline]
fn is_listed(kind: u8) -> bool {
    let (least, most) = LENGTHS[kind as usize];
    least <= most
}

#[inline]
fn length_fits(kind: u8, length: usize) -> bool {
    let (least, most) = LENGTHS[kind as usize];
    least as usize <= length && length <= most as usize
}

/// "Reading answers a record with its next place, or bad with its place."
#[derive(Clone, Copy, PartialEq, Eq, Debug)]
pub enum Reading<'a> {
    Record {
        kind: u8,
        payload: &'a [u8],
        next: usize,
    },
    /// Bad, but only because the input ends here: every byte that is present is right.
    Cut {
        place: usize,
    },
    Bad {
        place: usize,
    },
}

/// The record at a place. The payload is a part of the input. At or past the end nothing is wrong yet: it is cut.
#[inline]
pub fn read(input: &[u8], place: usize) -> Reading<'_> {
    let Some(rest) = input.get(place..) else {
        return Reading::Cut { place };
    };
    let Some(&[mark, mark_end, kind, length]) = rest.first_chunk::<HEAD>() else {
        return read_short_head(rest, place);
    };
    if [mark, mark_end] != MARK || !length_fits(kind, length as usize) {
        return Reading::Bad { place };
    }
    let end = HEAD + length as usize;
    let Some(payload) = rest.get(HEAD..end) else {
        return Reading::Cut { place };
    };
    Reading::Record { kind, payload, next: place + end }
}

/// Fewer than four bytes, or none: cut where they are right so far.
#[cold]
fn read_short_head(rest: &[u8], place: usize) -> Reading<'_> {
    let right_so_far = match *rest {
        [] => true,
        [mark] => mark == MARK[0],
        [mark, mark_end] => [mark, mark_end] == MARK,
        [mark, mark_end, kind] => [mark, mark_end] == MARK && is_listed(kind),
        _ => false,
    };
    if right_so_far {
        Reading::Cut { place }
    } else {
        Reading::Bad { place }
    }
}

/// "Writing (601, 603; no 604) fills the front of a lent buffer and gives the length; 601 is a kind or payload length
/// not listed", and 603 "a writer's buffer too short".
pub fn write(buffer: &mut [u8], kind: u8, payload: &[u8]) -> Result<usize, Reason> {
    if !length_fits(kind, payload.len()) {
        return Err(Reason::Value);
    }
    let end = HEAD + payload.len();
    let front = buffer.get_mut(..end).ok_or(Reason::Room)?;
    front[..HEAD].copy_from_slice(&[MARK[0], MARK[1], kind, payload.len() as u8]);
    front[HEAD..].copy_from_slice(payload);
    Ok(end)
}
