//! The box record in words, its soundness against a second telling of its points, desk records written and read,
//! and long walks.

mod common;

use common::*;
use peer::{
    kind, read, write, FeederState, Granted, Reading, Reason, Record, ScanState, DESK_REPLY, KINDS, LINE_MOST, VERSION,
    WORDS,
};

#[test]
fn fresh_in_words() {
    let right = [2, 0, 0, 0, 0, 60, 0, 0, 1, 0, 0, 1, 1, 0, 0, 0, 0, 0, 0, 0, 0, 0, 0];
    assert_eq!(Record::fresh().to_words(), right);
    assert!(Record::fresh().is_sound(1));
}

/// The last name's words: eight bytes, eight and two, the first byte highest, and the length.
#[test]
fn a_last_name_in_words() {
    for (name, right) in [
        ("J0123456789987.jpg", [0x4A30_3132_3334_3536, 0x3738_3939_3837_2E6A, 0x7067, 18]),
        ("J0123456789.jpg", [0x4A30_3132_3334_3536, 0x3738_392E_6A70_6700, 0, 15]),
        ("", [0; 4]),
    ] {
        let record = Record { last_name: kept(name), ..Record::fresh() };
        assert_eq!(record.to_words()[19..], right);
        assert_eq!(Record::from_words(&record.to_words()), Some(record));
    }
}

#[test]
fn words_round_trip_and_fit() {
    const MOST: [u64; WORDS] = [
        VERSION,
        4,
        2,
        u32::MAX as u64,
        u32::MAX as u64,
        65_535,
        65_535,
        255,
        65_535,
        u32::MAX as u64,
        u32::MAX as u64,
        255,
        255,
        3,
        2,
        255,
        255,
        u64::MAX,
        u64::MAX,
        u64::MAX,
        u64::MAX,
        65_535,
        18,
    ];
    let mut dice = Dice::new(1);
    for _ in 0..20_000 {
        let words: [u64; WORDS] = std::array::from_fn(|at| match (at, MOST[at]) {
            (0, version) => version,
            (_, u64::MAX) => dice.next(),
            (_, most) => dice.below(most + 1),
        });
        assert_eq!(Record::from_words(&words).unwrap().to_words(), words);
    }
    assert_eq!(Record::from_words(&MOST).unwrap().to_words(), MOST);
    assert_eq!(Record::from_words(&MOST).unwrap().side_count, -1);
    for at in 0..WORDS {
        for too_much in [MOST[at].wrapping_add(1), MOST[at] | 1 << 63, MOST[at] | 1 << 32] {
            let mut words = MOST;
            words[at] = too_much;
            // Start, stored and a name's first sixteen bytes are any number.
            assert_eq!(Record::from_words(&words).is_some(), (17..=20).contains(&at));
        }
    }
}

#[test]
fn one_version() {
    let mut dice = Dice::new(3);
    let mut words = Record::fresh().to_words();
    for version in [0, 1, 2, 3, 1 << 8, 1 << 32, u64::MAX].into_iter().chain((0..1000).map(|_| dice.next())) {
        words[0] = version;
        assert_eq!(Record::from_words(&words).is_some(), version == VERSION, "{version}");
    }
}

/// The five points, one after the other as the paper tells them, and the last name's.
fn told_sound(record: &Record, ring_length: usize) -> bool {
    let ring = ring_length as u64;
    let idle = record.scan == ScanState::Idle;
    let erred = record.scan == ScanState::Erred;
    let scanning = record.scan == ScanState::Scanning;
    let finishing = record.scan == ScanState::Finishing;
    let glass = record.use_feeder == 0;
    let zero_or_one = |value: u8| value == 0 || value == 1;
    let first = idle == (record.job == 0)
        && (!idle || record.side_number == 1 && record.side_count == 0 && record.quiet == 0 && record.stop_asked == 0);
    let second = record.side_number <= 999
        && record.side_count >= -1
        && record.side_count <= 999
        && (idle
            || record.job == record.last_job
                && record.granted.0 >= 5
                && record.granted.0 <= 600
                && record.quiet < if erred { 300 } else { record.granted.0 });
    let third = (1..=65_536).contains(&ring)
        && record.start < ring
        && record.stored <= ring
        && (scanning || finishing || record.stored == 0)
        && (!finishing || record.stored >= 1);
    let from_feeder = scanning && record.use_feeder == 1;
    let fourth = (record.feeder == FeederState::Busy) == from_feeder
        && (!from_feeder || record.side_count != 0)
        && (!(glass && scanning) || record.side_count == 1)
        && (!(glass && finishing) || record.side_count == 0);
    let fifth =
        [record.use_feeder, record.append, record.stop_asked, record.tray, record.path].into_iter().all(zero_or_one)
            && (record.path == 0 || record.feeder == FeederState::Erred)
            && (record.stop_asked == 0 || scanning || finishing);
    first && second && third && fourth && fifth && (idle || record.last_name == kept(&name_of(record)))
}

#[test]
fn soundness_as_told() {
    let mut dice = Dice::new(2);
    let mut sound = 0;
    for round in 0..3_000_000u64 {
        let idle = round % 4 == 0;
        let job = if idle { 0 } else { dice.one_of(&[1, 1, 1, 0, 7]) };
        let mut words = [
            VERSION,
            if idle { 0 } else { dice.below(5) },
            dice.below(3),
            job,
            dice.one_of(&[job, job, job, 1]),
            dice.one_of(&[5, 60, 300, 301, 600]),
            dice.one_of(&[0, 0, 4, 59]),
            dice.below(2),
            dice.one_of(&[1, 1, 0, 999]),
            dice.one_of(&[0, 1, u64::from(u32::MAX), 2, 999]),
            dice.below(1 << 32),
            dice.below(2),
            dice.below(2),
            dice.below(4),
            dice.below(3),
            dice.below(2),
            dice.below(2),
            dice.one_of(&[0, 0, 7]),
            dice.one_of(&[0, 0, 1, 8]),
            0,
            0,
            0,
            0,
        ];
        // Now and then a value on the other side of a line.
        match dice.below(24) {
            0 => words[5] = dice.one_of(&[0, 4, 5, 600, 601, 7000]),
            1 => words[6] = dice.one_of(&[4, 5, 59, 60, 61, 299, 300, 599, 600]),
            2 => words[8] = dice.one_of(&[2, 998, 1000, 65_535]),
            3 => words[9] = dice.one_of(&[u64::from(u32::MAX) - 1, 1000, 5000, 1 << 31, (1 << 31) - 1]),
            4 => words[dice.one_of(&[7, 11, 12, 15, 16])] = dice.one_of(&[2, 3, 128, 200, 255]),
            5 => words[17] = dice.one_of(&[8, 9, u64::MAX]),
            6 => words[18] = dice.one_of(&[9, 65_536, u64::MAX]),
            _ => {}
        }
        let ring_length = dice.one_of(&[8, 8, 8, 8, 0, 1, 65_536, 65_537]);
        let mut record = Record::from_words(&words).unwrap();
        if record.side_number <= 999 && dice.below(8) != 0 {
            record.last_name = kept(&name_of(&record));
        }
        match dice.below(24) {
            0 => record.last_name.bytes[dice.below(18) as usize] ^= 1 << dice.below(8),
            1 => record.last_name.length = dice.below(19) as u8,
            2 => {
                record.last_name =
                    kept(&name_of(&Record { append: 1 - record.append.min(1), side_number: 1, ..record }))
            }
            _ => {}
        }
        assert_eq!(record.is_sound(ring_length), told_sound(&record, ring_length), "{record:?} {ring_length}");
        sound += usize::from(record.is_sound(ring_length));
    }
    assert!(sound > 50_000, "{sound}");
}

#[test]
fn written_records_read_back() {
    let payload: Vec<u8> = (0..=255).map(|byte: u8| byte ^ 0x5A).collect();
    for kind in 0..=255 {
        let listed = KINDS.iter().find(|row| row.0 == kind);
        for length in 0..=256 {
            let fits = listed.is_some_and(|&(_, least, most)| (least as usize..=most as usize).contains(&length));
            let payload = &payload[..length];
            let mut buffer = vec![0xBB; 270];
            if !fits {
                assert_eq!(write(&mut buffer, kind, payload), Err(Reason::Value));
                assert_eq!(write(&mut [], kind, payload), Err(Reason::Value));
                continue;
            }
            for short in 0..4 + length {
                let mut short = vec![0xBB; short];
                assert_eq!(write(&mut short, kind, payload), Err(Reason::Room));
                assert!(short.iter().all(|&byte| byte == 0xBB));
            }
            assert_eq!(write(&mut buffer, kind, payload), Ok(4 + length));
            assert!(buffer[4 + length..].iter().all(|&byte| byte == 0xBB));
            assert_eq!(read(&buffer, 0), Reading::Record { kind, payload, next: 4 + length });
            let later = [b"xyz", &buffer[..4 + length]].concat();
            assert_eq!(read(&later, 3), Reading::Record { kind, payload, next: 7 + length });
            for cut in 0..4 + length {
                assert_eq!(read(&later[..3 + cut], 3), Reading::Cut { place: 3 });
            }
        }
    }
    // "Also at or past the end": bad, and only because the input ends there.
    for place in [3, 4, usize::MAX] {
        assert_eq!(read(b"\xA5\x5A\x24", place), Reading::Cut { place });
    }
}

/// A desk record that often makes sense for this box.
fn likely(dice: &mut Dice, bench: &Bench) -> Vec<u8> {
    let record = &bench.record;
    let job = dice.one_of(&[record.job, record.job, record.job, record.job, 0, record.last_job.wrapping_add(1)]);
    match dice.below(24) {
        0..=2 => start_scan(
            dice.one_of(&[0, 1, 1, 2, 3]),
            dice.one_of(&[-2, -1, 0, 1, 1, 2, 3, 999, 1000]),
            dice.one_of(&[0, 1, 2, 2, 3]),
            dice.one_of(&[0, 1, 5, 7, 600]),
        ),
        3..=4 => start(job, dice.one_of(&[0, 1, 1, 2, 3]), dice.one_of(&[-2, -1, 0, 1, 2, 1000])),
        5 => with_job(dice.one_of(&[kind::STOP, kind::STOP, kind::ABORT]), job),
        6 => with_job(kind::GET_DESTINATION, job),
        7..=11 => {
            let name = match record.scan {
                ScanState::Idle => "J0000000000001.jpg".to_string(),
                _ if dice.below(8) == 0 => "J0000000001.jpg".to_string(),
                _ => bench.name(),
            };
            fetch(dice.one_of(&[0, 1, 2, 5, 255]), &name)
        }
        12 => desk_record(
            dice.one_of(&[kind::GET_STATE, kind::GET_SIDE_INFORMATION, kind::FEEDER_GET_STATE, kind::GET_FEEDER_MODE]),
            &[],
        ),
        13 => with_job(dice.one_of(&[kind::LOAD, kind::RESET]), job),
        14 => with_job_value(dice.one_of(&[kind::EJECT, kind::SET_FEEDER_MODE]), job, dice.one_of(&[0, 0, 1, 2, 3])),
        15..=17 => {
            let picture: Vec<u8> = (0..dice.below(6)).map(|_| dice.next() as u8).collect();
            bytes(&picture)
        }
        18 => side_ended(),
        19..=20 => tray(dice.one_of(&[0, 1, 1, 1, 2])),
        21 => path(dice.one_of(&[0, 0, 1, 2])),
        _ => tick(),
    }
}

/// Long walks over small rings: the record stays sound, refusals leave all as it was, the bytes that come out of a job
/// are those that went in, DestinationID counts the changes of the name that is seen while a job is held, and a window's
/// text is that of its records one by one.
#[test]
fn long_walks() {
    for walk in 0..60 {
        let mut dice = Dice::new(100 + walk);
        let ring_length = dice.one_of(&[1, 2, 3, 7, 16, 300]);
        let mut bench = Bench::new(ring_length, DESK_REPLY);
        let (mut input, mut text) = (Vec::new(), Vec::new());
        let mut waiting: Vec<u8> = Vec::new();
        let (mut seen, mut changes) = (String::new(), 0);
        for _ in 0..4000 {
            let record = likely(&mut dice, &bench);
            let job = bench.record.job;
            let mut again = bench.clone();
            let number = again.number(&record);
            let (same, line) = bench.try_record(&record);
            assert_eq!((number, again.record), (same, bench.record));
            if number == 0 && record[2] == kind::BYTES {
                waiting.extend(&record[4..]);
            }
            if number == 0 && record[2] == kind::FETCH {
                let count = bench.reply[3] as usize;
                assert_eq!(waiting.drain(..count).collect::<Vec<u8>>(), &bench.reply[4..4 + count]);
            }
            if bench.record.job != job || bench.record.scan == ScanState::Erred {
                waiting.clear();
            }
            assert_eq!(waiting.len() as u64, bench.record.stored);
            if bench.record.job != 0 && bench.name() != seen {
                (seen, changes) = (bench.name(), changes + 1);
            }
            assert_eq!((bench.record.destination, bench.record.last_name), (changes, kept(&seen)), "{line}");
            input.extend(&record);
            text.extend(line.bytes().chain([b'\n']));
        }
        let mut whole = Bench::new(ring_length, 0);
        let mut lines = vec![0; text.len() + LINE_MOST];
        let (number, progress) = whole.serve(&input, 0, true, &mut lines);
        assert_eq!((number, progress.read, progress.ended), (0, input.len(), false));
        assert!(lines[..progress.written] == text[..]);
        assert_eq!((whole.record, whole.ring), (bench.record, bench.ring));
    }
}

/// A job ends at the second that its granted time, or 300 in Erred, says, counted from the last sign of life.
#[test]
fn on_time() {
    for walk in 0..40 {
        let mut dice = Dice::new(500 + walk);
        let mut bench = Bench::new(16, 20);
        let mut seconds = 0;
        for _ in 0..5000 {
            let record = if dice.below(2) == 0 { tick() } else { likely(&mut dice, &bench) };
            let before = bench.record;
            let (number, _) = bench.try_record(&record);
            let after = bench.record;
            let life = number == 0
                && match record[2] {
                    kind::START_SCAN | kind::START | kind::SIDE_ENDED => true,
                    kind::BYTES => record[3] > 0,
                    kind::FETCH => bench.reply[3] > 0,
                    kind::PATH => before.scan == ScanState::Scanning && after.scan == ScanState::Erred,
                    _ => false,
                };
            if life {
                seconds = 0;
            } else if record[2] == kind::TICK && before.job != 0 {
                seconds += 1;
                let Granted(granted) = before.granted;
                let limit = if before.scan == ScanState::Erred { 300 } else { granted };
                assert_eq!(after.job == 0, seconds == limit);
            }
            if after.job != 0 {
                assert_eq!(after.quiet, seconds);
            }
        }
    }
}
