//! The desk program: records from standard input, a line for each on standard output.
//!
//! Memory is constant. Every whole record at hand is answered before the program waits for more input.

use std::io::{self, ErrorKind, Read, Write};
use std::process::ExitCode;

use peer::{serve, Record, DESK_RING};

/// How much input is read at a time. A cut record waits at the front.
const WINDOW: usize = 64 * 1024;

/// Room for the lines of a window, so that each window takes one write. No line but a fetch's is ten times as long as
/// its record, and a fetch shows no more than what a window and the ring can hold.
const LINES: usize = 11 * WINDOW;

fn main() -> ExitCode {
    match desk(&mut io::stdin().lock(), &mut io::stdout().lock()) {
        Ok(()) => ExitCode::SUCCESS,
        // Nobody reads the lines any more.
        Err(error) if error.kind() == ErrorKind::BrokenPipe => ExitCode::SUCCESS,
        Err(error) => {
            eprintln!("peer-desk: {error}");
            ExitCode::FAILURE
        }
    }
}

fn desk(input: &mut impl Read, output: &mut impl Write) -> io::Result<()> {
    let mut record = Record::fresh();
    let mut ring = vec![0; DESK_RING];
    let mut window = vec![0; WINDOW];
    let mut lines = vec![0; LINES];
    let mut filled = 0;
    let mut offset = 0;
    loop {
        let got = read_some(input, &mut window[filled..])?;
        let last = got == 0;
        filled += got;
        let mut place = 0;
        while place < filled {
            let (_, progress) = serve(&mut record, &mut ring, &window[place..filled], offset, last, &mut lines);
            output.write_all(&lines[..progress.written])?;
            place += progress.read;
            offset += progress.read as u64;
            if progress.ended {
                return output.flush();
            }
            if progress.read == 0 {
                break;
            }
        }
        output.flush()?;
        if last {
            return Ok(());
        }
        window.copy_within(place..filled, 0);
        filled -= place;
    }
}

fn read_some(input: &mut impl Read, room: &mut [u8]) -> io::Result<usize> {
    loop {
        match input.read(room) {
            Err(error) if error.kind() == ErrorKind::Interrupted => {}
            outcome => return outcome,
        }
    }
}
