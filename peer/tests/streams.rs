//! Whole streams: the cases that the box is held to, from the same files; the paper's example and its prefixes; bad records.

mod common;

use std::fs;
use std::io::Write;
use std::process::{Command, Stdio};

use common::{kept, text_by_records, text_in_windows, Bench};
use peer::{read, Progress, Reading, Record, ScanState, DESK_REPLY, DESK_RING, LINE_MOST};

/// The example's records, and its lines.
const EXAMPLE: [(&str, &str); 5] = [
    ("A55A220101", "22 0 I U 0 1 0 -\n"),
    ("A55A010602000102000A", "01 0 S B 1 1 1 10\n"),
    ("A55A20024142", "20 0 S B 1 1 1 2\n"),
    ("A55A2100", "21 0 F U 1 1 0 -\n"),
    ("A55A0613084A303030303030303030313030312E6A7067", "06 0 P U 1 2 0 2!:4142\n"),
];

fn unhex(text: &str) -> Vec<u8> {
    text.as_bytes().chunks(2).map(|pair| u8::from_str_radix(std::str::from_utf8(pair).unwrap(), 16).unwrap()).collect()
}

/// The desk program's text. It ends well.
fn text_of_program(input: &[u8]) -> String {
    let mut program =
        Command::new(env!("CARGO_BIN_EXE_peer-desk")).stdin(Stdio::piped()).stdout(Stdio::piped()).spawn().unwrap();
    let mut stdin = program.stdin.take().unwrap();
    let input = input.to_vec();
    let writer = std::thread::spawn(move || {
        // The program may end before it has read everything.
        let _ = stdin.write_all(&input);
    });
    let output = program.wait_with_output().unwrap();
    writer.join().unwrap();
    assert!(output.status.success());
    String::from_utf8(output.stdout).unwrap()
}

/// The same text however the input comes and however much room there is.
fn assert_windows(bench: &Bench, input: &[u8], right: &str) {
    let whole = (input.len().max(1), LINE_MOST * (input.len() + 1));
    for (step, room) in [whole, (1, LINE_MOST), (1, 5000), (3, 1279), (7, 1280), (259, 641), (1000, LINE_MOST)] {
        assert_eq!(text_in_windows(bench.clone(), input, step, room), right, "step {step}, room {room}");
        assert_eq!(text_by_records(bench.clone(), input, step), right, "step {step}");
    }
}

/// A fresh desk's text, and the desk program's.
fn assert_text(input: &[u8], right: &str) {
    assert_windows(&Bench::desk(), input, right);
    assert_eq!(text_of_program(input), right);
}

#[test]
fn every_prefix_of_the_example() {
    let input: Vec<u8> = EXAMPLE.iter().flat_map(|(record, _)| unhex(record)).collect();
    for length in 0..=input.len() {
        let mut right = String::new();
        let mut place = 0;
        for (record, line) in EXAMPLE {
            if place + record.len() / 2 > length {
                break;
            }
            place += record.len() / 2;
            right += line;
        }
        if place < length {
            right += &format!("bad {place}\n");
        }
        assert_text(&input[..length], &right);
    }
}

#[test]
fn bad_records() {
    let tick = "A55A2400";
    for bad in [
        "00",
        "5A",
        "A500",
        "A5A5",
        "A55B",
        "A55A00",
        "A55A09",
        "A55A0F",
        "A55A16",
        "A55A1F",
        "A55A25",
        "A55AFF",
        "A55A0105",
        "A55A0107",
        "A55A01FF",
        "A55A0206",
        "A55A0208",
        "A55A0600",
        "A55A0701",
        "A55A1005",
        "A55A1104",
        "A55A2101",
        "A55A2200",
        "A55A2202",
        "A55A2300",
        "A55A2401",
        "A5",
        "A55A",
        "A55A24",
        "A55A01060200",
        "A55A2002AA",
        "A55A06FF00",
    ] {
        assert_text(&unhex(bad), "bad 0\n");
        let behind = unhex(&[tick, tick, bad].concat());
        assert_text(&behind, "24 0 I U 0 1 0 -\n24 0 I U 0 1 0 -\nbad 8\n");
    }
    // The stream is over at the bad record.
    assert_text(&unhex("A55A2400FFA55A2400"), "24 0 I U 0 1 0 -\nbad 4\n");
}

#[test]
fn long_input_goes_through_the_program() {
    let input = unhex("A55A2400").repeat(100_000);
    assert_eq!(text_of_program(&input), "24 0 I U 0 1 0 -\n".repeat(100_000));
    let cut = [&input[..], &[0xA5]].concat();
    assert!(text_of_program(&cut).ends_with("-\nbad 400000\n"));
}

/// The box's cases. crates/test_desk/src/main.rt says how their list reads.
const CASES: &str = concat!(env!("CARGO_MANIFEST_DIR"), "/../crates/test_desk/data");

/// The record that a word of the list names.
fn start_record(word: &str) -> Record {
    let fresh = Record::fresh();
    match word {
        "fresh" => fresh,
        "unsound" => Record { side_number: 2, ..fresh },
        "side_998" => {
            let last_name = kept("J0000000001998.jpg");
            Record { scan: ScanState::Pending, job: 1, last_job: 1, side_number: 998, last_name, ..fresh }
        }
        "named" => Record { last_name: kept("J0000000001001.jpg"), ..fresh },
        number => {
            let last = number.parse().expect("a number");
            Record { last_job: last, destination: last, ..fresh }
        }
    }
}

/// A stream's bytes: those of a .desk file, or the digits of a .hex file without its comments.
fn stream(path: &str) -> Vec<u8> {
    let file = fs::read(path).unwrap();
    if path.ends_with(".desk") {
        return file;
    }
    let text = String::from_utf8(file).unwrap();
    let lines = text.lines().filter_map(|line| line.split('#').next());
    unhex(&lines.flat_map(|line| line.split(' ')).collect::<String>())
}

/// One record after the other: a refusal leaves all as it was, and the lines are the right ones.
fn assert_records(mut bench: Bench, input: &[u8], right: &str) {
    let mut place = 0;
    let mut lines = right.lines();
    while let Reading::Record { next, .. } = read(input, place) {
        let mut again = bench.clone();
        let (number, line) = bench.try_record(&input[place..next]);
        assert_eq!((again.number(&input[place..next]), Some(&line[..])), (number, lines.next()));
        place = next;
    }
    let bad = format!("bad {place}");
    assert_eq!(lines.collect::<Vec<_>>(), if place < input.len() { vec![&bad[..]] } else { vec![] });
}

/// With a record that is not sound nothing is done, whichever record comes: the number, and how much is read and written.
fn assert_unsound(mut bench: Bench, input: &[u8], right: &str) {
    let Bench { record: before, ring, .. } = bench.clone();
    let nothing = (604, Progress { read: 0, written: 0, ended: false });
    let mut place = 0;
    while let Reading::Record { next, .. } = read(input, place) {
        let (record, mut line) = (&input[place..next], [0; LINE_MOST]);
        assert_eq!(bench.serve(record, 0, true, &mut line), nothing);
        assert_eq!(bench.perform(record, 0, true, &mut line), nothing);
        place = next;
    }
    assert_eq!((bench.record, bench.ring, right), (before, ring, "604 0 0\n"));
}

/// The cases that the box is held to.
#[test]
fn cases_of_the_box() {
    let list = fs::read_to_string(format!("{CASES}/list")).unwrap();
    for line in list.lines() {
        let [name, kind, ring, start, _] = line.split(' ').collect::<Vec<_>>()[..] else { panic!("{line}") };
        println!("{name}");
        let input = stream(&format!("{CASES}/{name}{kind}"));
        let right = fs::read_to_string(format!("{CASES}/{name}.txt")).unwrap();
        let mut bench = Bench::new(ring.parse().unwrap(), DESK_REPLY);
        bench.record = start_record(start);
        if !bench.record.is_sound(bench.ring.len()) {
            assert_unsound(bench, &input, &right);
            continue;
        }
        assert_windows(&bench, &input, &right);
        if bench.record == Record::fresh() && bench.ring.len() == DESK_RING {
            assert_eq!(text_of_program(&input), right);
        }
        assert_records(bench, &input, &right);
    }
    assert!(list.lines().count() > 100);
}
