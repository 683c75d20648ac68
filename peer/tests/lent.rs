//! What no case of the desk shows: the lent ring and reply byte by byte, replies of every length, records that are not
//! sound, and what an entry answers at the ends of its input and its room.

mod common;

use common::*;
use peer::{kind, FeederState, Granted, Name, Progress, Record, ScanState, LINE_MOST, NO_RECORD};

const NAME: &str = "J0000000001001.jpg";

#[test]
fn round_the_rings_end() {
    let mut bench = Bench::new(8, 259);
    bench.accept(&[tray(1), start_scan(1, -1, 1, 0), bytes(b"abcdef")]);
    assert_eq!(&bench.ring, b"abcdef\xEE\xEE");
    assert_eq!(bench.line(&fetch(4, NAME)), "06 0 S B 1 1 -1 4:61626364");
    assert_eq!((bench.record.start, bench.record.stored), (4, 2));
    assert_eq!(bench.number(&bytes(b"ghijklm")), 603);
    // "No other ring byte changes."
    bench.accept(&[bytes(b"ghij")]);
    assert_eq!((bench.record.start, bench.record.stored, &bench.ring[..]), (4, 6, &b"ijcdefgh"[..]));
    bench.accept(&[bytes(b"kl")]);
    assert_eq!((bench.record.stored, &bench.ring[..]), (8, &b"ijklefgh"[..]));
    assert_eq!(bench.number(&bytes(b"m")), 603);
    assert_eq!(bench.line(&fetch(255, NAME)), "06 0 S B 1 1 -1 8:65666768696A6B6C");
    assert_eq!((bench.record.start, bench.record.stored), (4, 0));
    bench.accept(&[bytes(b"mnop")]);
    assert_eq!((bench.record.start, bench.record.stored, &bench.ring[..]), (4, 4, &b"ijklmnop"[..]));
    bench.accept(&[fetch(4, NAME)]);
    assert_eq!((bench.record.start, bench.record.stored), (0, 0));
}

#[test]
fn emptying_the_ring_sets_start_to_0_and_a_fetch_moves_it() {
    let filled = || {
        let mut bench = Bench::new(8, 259);
        bench.accept(&[tray(1), start_scan(1, 3, 1, 0), bytes(b"abc"), fetch(1, NAME)]);
        assert_eq!((bench.record.start, bench.record.stored), (1, 2));
        bench
    };
    // Abort and a jam; then a timeout.
    for empties in [with_job(kind::ABORT, 1), path(1)] {
        let mut bench = filled();
        bench.accept(&[empties]);
        assert_eq!((bench.record.start, bench.record.stored), (0, 0));
    }
    let mut bench = filled();
    bench.ticks(60);
    assert_eq!((bench.record.scan, bench.record.start, bench.record.stored), (ScanState::Idle, 0, 0));
    // The last fetch of a side.
    let mut bench = filled();
    bench.accept(&[side_ended(), path(1), path(0), fetch(9, NAME)]);
    assert_eq!((bench.record.scan, bench.record.start, bench.record.stored), (ScanState::Erred, 3, 0));
    // A ring of 1 byte is the same one again.
    let mut bench = Bench::new(1, 259);
    bench.accept(&[tray(1), start_scan(1, 1, 1, 0), bytes(b"a")]);
    assert_eq!((bench.record.start, bench.record.stored, &bench.ring[..]), (0, 1, &b"a"[..]));
    bench.accept(&[fetch(255, NAME)]);
    assert_eq!((bench.record.start, bench.record.stored), (0, 0));
}

#[test]
fn fetches_of_every_length() {
    for count in 0..=255 {
        let mut bench = Bench::desk();
        let picture: Vec<u8> = (0..=254).take(count).map(|byte: u8| byte.wrapping_mul(37)).collect();
        bench.accept(&[tray(1), start_scan(1, 1, 1, 0)]);
        assert_eq!(bench.line(&bytes(&picture)), format!("20 0 S B 1 1 1 {count}"));
        let hex: String = picture.iter().map(|byte| format!("{byte:02X}")).collect();
        assert_eq!(bench.line(&fetch(255, NAME)), format!("06 0 S B 1 1 1 {count}:{hex}"));
        assert_eq!(bench.reply[..4], [0xA5, 0x5A, 0x06, count as u8]);
        assert_eq!(bench.reply[4..4 + count], picture);
    }
}

#[test]
fn replies_of_3_4_and_more_bytes() {
    for length in 0..=3 {
        let mut bench = Bench::new(8, length);
        bench.accept(&[tray(1), start_scan(1, 1, 1, 0), bytes(b"abc")]);
        assert_eq!(bench.number(&fetch(255, NAME)), 603);
        assert_eq!(bench.number(&fetch(0, NAME)), 603);
        // 404 before 603.
        assert_eq!(bench.number(&fetch(255, "J0000000001002.jpg")), 404);
    }
    let mut bench = Bench::new(8, 4);
    bench.accept(&[tray(1), start_scan(1, 1, 1, 0), bytes(b"abc"), side_ended()]);
    bench.ticks(1);
    assert_eq!(bench.line(&fetch(255, NAME)), "06 0 F U 1 1 0 0:");
    assert_eq!((&bench.reply[..], bench.record.quiet), (&[0xA5, 0x5A, 0x06, 0x00][..], 1));
    bench.reply = vec![0xDD; 5];
    assert_eq!(bench.line(&fetch(255, NAME)), "06 0 F U 1 1 0 1:61");
    assert_eq!(bench.reply, [0xA5, 0x5A, 0x06, 0x01, b'a']);
    // "Later bytes stay."
    bench.reply = vec![0xDD; 8];
    assert_eq!(bench.line(&fetch(1, NAME)), "06 0 F U 1 1 0 1:62");
    assert_eq!(bench.reply, [0xA5, 0x5A, 0x06, 0x01, b'b', 0xDD, 0xDD, 0xDD]);
    assert_eq!(bench.line(&fetch(255, NAME)), "06 0 P U 1 2 0 1!:63");
    assert_eq!(bench.reply, [0xA5, 0x5A, 0x06, 0x01, b'c', 0xDD, 0xDD, 0xDD]);
}

/// What a call came to that answers nothing.
const NOTHING: Progress = Progress { read: 0, written: 0, ended: false };

#[test]
fn unsound_records_are_604_and_nothing_is_done() {
    let fresh = Record::fresh();
    let last_name = kept(NAME);
    let held = Record { scan: ScanState::Pending, job: 1, last_job: 1, last_name, ..fresh };
    assert!(held.is_sound(4096));
    for record in [
        Record { job: 1, last_job: 1, ..fresh },
        Record { side_number: 2, ..fresh },
        Record { quiet: 1, ..fresh },
        Record { use_feeder: 200, ..fresh },
        Record { granted: Granted(7000), ..held },
        Record { side_count: 5000, ..held },
        Record { last_name: Name::EMPTY, ..held },
        Record { last_name: Name { length: 17, ..last_name }, ..held },
        Record { append: 0, ..held },
        Record { append: 0, last_name: Name { length: 15, ..last_name }, ..held },
        Record { side_number: 2, ..held },
        Record { start: 4096, ..fresh },
        Record { stored: 1, ..fresh },
        Record { feeder: FeederState::Busy, ..fresh },
    ] {
        let mut bench = Bench { record, ..Bench::desk() };
        let Bench { ring, reply, .. } = bench.clone();
        let mut line = [3; LINE_MOST];
        assert!(!record.is_sound(4096));
        assert_eq!(peer::tick(&mut bench.record, 4096), 604);
        // Bad input, no input and no room make no difference.
        for (input, room) in [(&tick()[..], LINE_MOST), (&b"bad"[..], LINE_MOST), (&b""[..], LINE_MOST), (&tick(), 1)] {
            for last in [false, true] {
                assert_eq!(bench.perform(input, 0, last, &mut line[..room]), (604, NOTHING));
                assert_eq!(bench.serve(input, 0, last, &mut line[..room]), (604, NOTHING));
            }
        }
        assert_eq!((bench.record, bench.ring, bench.reply), (record, ring, reply));
        assert!(line.iter().all(|&byte| byte == 3));
    }
    for (length, sound) in [(0, false), (1, true), (65_536, true), (65_537, false), (usize::MAX, false)] {
        assert_eq!(fresh.is_sound(length), sound);
        assert_eq!(peer::tick(&mut { fresh }, length), if sound { 0 } else { 604 });
    }
    // Granted counts only while a job is held, and so does the last name.
    assert!(Record { granted: Granted(7000), last_job: 9, ..fresh }.is_sound(4096));
    assert!(Record { last_name: Name { bytes: [0xFF; 18], length: 0 }, ..fresh }.is_sound(4096));
}

/// "It rises by one exactly when the name differs from the last name any job held": eighteen bytes and a length.
#[test]
fn a_last_name_of_other_hands() {
    let after = |last_name, append| {
        let mut bench = Bench { record: Record { last_name, destination: 7, ..Record::fresh() }, ..Bench::desk() };
        bench.accept(&[start_scan(0, 0, append, 0)]);
        assert_eq!(bench.record.last_name, kept(&bench.name()));
        bench.record.destination
    };
    for (append, name) in [(1, NAME), (0, "J0000000001.jpg")] {
        let same = kept(name);
        assert_eq!(after(same, append), 7);
        assert_eq!(after(same, 1 - append), 8);
        for place in 0..18 {
            let mut other = same;
            other.bytes[place] ^= 1;
            assert_eq!(after(other, append), 8, "byte {place}");
        }
        for length in (0..=18).filter(|&length| length != same.length) {
            assert_eq!(after(Name { length, ..same }, append), 8, "length {length}");
        }
    }
    // The wrap, and a number that stays at it.
    for (last_name, right) in [(Name::EMPTY, 0), (kept(NAME), u32::MAX)] {
        let record = Record { last_name, destination: u32::MAX, ..Record::fresh() };
        let mut bench = Bench { record, ..Bench::desk() };
        bench.accept(&[start_scan(0, 1, 1, 0)]);
        assert_eq!(bench.record.destination, right);
    }
}

#[test]
fn a_drain_step_that_ends_the_job_moves_neither_number_nor_name() {
    for (append, picture, ends) in [(1, &b""[..], side_ended()), (1, b"a", fetch(1, NAME)), (0, b"", side_ended())] {
        let mut bench = Bench::desk();
        bench.accept(&[start_scan(0, 1, append, 0), bytes(picture), with_job(kind::STOP, 1)]);
        if !picture.is_empty() {
            bench.accept(&[side_ended()]);
        }
        let name = bench.record.last_name;
        bench.accept(&[ends]);
        assert_eq!((bench.record.scan, bench.record.destination, bench.record.last_name), (ScanState::Idle, 1, name));
    }
}

#[test]
fn room_for_a_line() {
    let mut bench = Bench::desk();
    let mut line = [0; LINE_MOST];
    // Whole, none, bad, cut: less room than a line takes is 603, and nothing is done.
    for input in [&tray(1)[..], b"", b"bad", b"\xA5\x5A\x24"] {
        for (room, last) in [0, 1, LINE_MOST - 1].into_iter().flat_map(|room| [(room, false), (room, true)]) {
            let short = &mut line[..room];
            assert_eq!(bench.perform(input, 0, last, short), (603, NOTHING));
            assert_eq!(bench.serve(input, 0, last, short), (603, NOTHING));
        }
    }
    assert!(line.iter().all(|&byte| byte == 0));
    assert_eq!(bench.record, Record::fresh());
    // Room for a line is enough, and for as many records as there are lines.
    let one = Progress { read: 5, written: 17, ended: false };
    assert_eq!(bench.perform(&tray(1), 0, false, &mut line), (0, one));
    assert_eq!(bench.serve(&tray(1).repeat(2), 0, false, &mut line), (0, one));
    assert_eq!(bench.serve(b"", 0, false, &mut line), (0, NOTHING));
    // A record's own 603 is answered.
    let mut bench = Bench::new(1, 0);
    bench.accept(&[tray(1), start_scan(1, 1, 1, 0)]);
    let own = Progress { read: 6, written: 19, ended: false };
    assert_eq!(bench.perform(&bytes(b"ab"), 0, true, &mut line), (603, own));
}

#[test]
fn where_no_record_reads() {
    let mut bench = Bench::desk();
    let cut = [
        &b""[..],
        b"\xA5",
        b"\xA5\x5A",
        b"\xA5\x5A\x01",
        b"\xA5\x5A\x01\x06",
        b"\xA5\x5A\x01\x06\x01\x02\x03\x04\x05",
        b"\xA5\x5A\x20\x02a",
    ];
    let bad = [
        &b"\x5A"[..],
        b"\x00\x00\x00\x00",
        b"\xA5\xA5",
        b"\xA5\x5A\x09",
        b"\xA5\x5A\x01\x05",
        b"\xA5\x5A\x06\x00",
        b"\xA5\x5A\x24\x01",
    ];
    let all = cut.map(|input| (input, true)).into_iter().chain(bad.map(|input| (input, false)));
    for ((input, is_cut), last) in all.flat_map(|one| [(one, false), (one, true)]) {
        for (offset, text) in [(0, "bad 0\n"), (10, "bad 10\n"), (u64::MAX, "bad 18446744073709551615\n")] {
            let mut line = [0; 700];
            // What is only cut waits where more input may come.
            let text = if is_cut && !last { "" } else { text };
            let came = Progress { read: 0, written: text.len(), ended: !text.is_empty() };
            assert_eq!(bench.perform(input, offset, last, &mut line), (NO_RECORD, came), "{input:02X?}");
            assert!(line.starts_with(text.as_bytes()) && line[text.len()..].iter().all(|&byte| byte == 0));
            // Serve says it by ended alone. At the end of a window there is nothing to be bad.
            let came = if input.is_empty() { NOTHING } else { came };
            let mut lines = [0; 700];
            assert_eq!(bench.serve(input, offset, last, &mut lines), (0, came), "{input:02X?}");
            assert!(input.is_empty() || lines == line);
        }
    }
    assert_eq!(bench.record, Record::fresh());
    // Offsets go round.
    let mut line = [0; 2 * LINE_MOST];
    let input = [tick(), b"bad".to_vec()].concat();
    let (number, progress) = bench.serve(&input, u64::MAX, false, &mut line);
    assert_eq!((number, progress), (0, Progress { read: 4, written: 17 + 6, ended: true }));
    assert_eq!(&line[..progress.written], b"24 0 I U 0 1 0 -\nbad 3\n");
}
