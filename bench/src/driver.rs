//! A program of the rows, to be counted. rows.c is its beginning, so that it is linked with the proved box as a host in C
//! is, and starts as fast.
//!
//!     rows row BOX TABLE ROW all|few [< FILE]     does a row's calls once, or as few of them as there can be
//!     rows alike < FILE                             sees that the boxes answer this stream alike
//!
//! A BOX is proved, peer or words. The rows of serve take their stream from standard input.

use std::io::{self, Read};

use crate::boxes::ByWords;
use crate::proved;
use crate::rows::{find, text_of, Calls, Work};

#[no_mangle]
extern "C" fn bench_rows() -> i32 {
    let arguments: Vec<String> = std::env::args().skip(1).collect();
    let words: Vec<&str> = arguments.iter().map(String::as_str).collect();
    let outcome = match words[..] {
        ["row", the_box, table, row, "all"] => do_row(the_box, table, row, Work::count),
        ["row", the_box, table, row, "few"] => do_row(the_box, table, row, Work::few),
        ["alike"] => see_alike(),
        _ => Err(io::Error::other("usage: rows row BOX TABLE ROW all|few, or rows alike")),
    };
    match outcome {
        Ok(()) => 0,
        Err(error) => {
            eprintln!("rows: {error}");
            1
        }
    }
}

fn do_row(the_box: &str, table: &str, row: &str, count: fn(&Work) -> usize) -> io::Result<()> {
    let Some(row) = find(table, row) else {
        return Err(io::Error::other("no such row"));
    };
    let mut work = (row.work)();
    if let Calls::Stream(_) = work.calls {
        work = work.with(read_input()?, 1);
    }
    let count = count(&work);
    let mut round = match the_box {
        "proved" => work.round::<proved::Box>(count),
        "peer" => work.round::<peer::Record>(count),
        "words" => work.round::<ByWords>(count),
        _ => return Err(io::Error::other("the boxes are proved, peer and words")),
    };
    round();
    Ok(())
}

fn see_alike() -> io::Result<()> {
    let input = read_input()?;
    let proved = text_of::<proved::Box>(&input);
    if proved != text_of::<peer::Record>(&input) || proved != text_of::<ByWords>(&input) {
        return Err(io::Error::other("the boxes differ"));
    }
    Ok(())
}

fn read_input() -> io::Result<Vec<u8>> {
    let mut input = Vec::new();
    io::stdin().lock().read_to_end(&mut input)?;
    Ok(input)
}
