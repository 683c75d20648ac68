//! The box program at the other end of two pipes.

use std::io::{self, Read, Write};
use std::process::{Child, Command, Stdio};
use std::sync::mpsc::{channel, Receiver, RecvTimeoutError, Sender};
use std::thread;
use std::time::Duration;

/// The head of a batch and of its answers: this mark, a status, how many bytes follow.
const MARK: u32 = 0x5441_4F42;
pub const HEAD: usize = 16;

/// The status of answers that end where memory is touched that is not lent.
const TOUCHED: u32 = 1;

/// How long a batch may take.
const PATIENCE: Duration = Duration::from_secs(60);

/// The box program gives no more answers.
pub struct Ended {
    /// The answers so far, where memory is touched that is not lent.
    pub touched: Option<Vec<u8>>,
    pub why: String,
}

pub struct Link {
    child: Child,
    to: Sender<Vec<u8>>,
    from: Receiver<io::Result<(u32, Vec<u8>)>>,
}

impl Link {
    /// Starts the program. Two threads feed it and read it, so that nobody waits for a full pipe.
    pub fn start(program: &str) -> io::Result<Link> {
        let mut child = Command::new(program).stdin(Stdio::piped()).stdout(Stdio::piped()).spawn()?;
        let mut into = child.stdin.take().expect("a pipe");
        let mut out = child.stdout.take().expect("a pipe");
        let (to, batches) = channel::<Vec<u8>>();
        let (say, from) = channel();
        // A program that has ended is told where its answers are missed.
        thread::spawn(move || batches.iter().try_for_each(|batch| into.write_all(&batch)));
        thread::spawn(move || loop {
            let answers = read_answers(&mut out);
            let over = answers.is_err();
            if say.send(answers).is_err() || over {
                break;
            }
        });
        Ok(Link { child, to, from })
    }

    /// Sends a batch: a head's room, then operations.
    pub fn send(&mut self, mut batch: Vec<u8>) {
        let length = (batch.len() - HEAD) as u64;
        batch[..4].copy_from_slice(&MARK.to_le_bytes());
        batch[8..HEAD].copy_from_slice(&length.to_le_bytes());
        let _ = self.to.send(batch);
    }

    /// The answers to the batch that was sent first.
    pub fn receive(&mut self) -> Result<Vec<u8>, Ended> {
        let why = match self.from.recv_timeout(PATIENCE) {
            Ok(Ok((0, answers))) => return Ok(answers),
            Ok(Ok((_, answers))) => return Err(Ended { touched: Some(answers), why: String::new() }),
            Ok(Err(error)) if error.kind() == io::ErrorKind::InvalidData => format!("the box program answers {error}"),
            Err(RecvTimeoutError::Timeout) => {
                format!("the box program does not answer for {} seconds", PATIENCE.as_secs())
            }
            _ => {
                // Its pipe is closed, so it is about to end, if it has not.
                thread::sleep(Duration::from_millis(200));
                let status = self.child.try_wait().ok().flatten();
                let status = status.map_or("it still runs".to_string(), |status| status.to_string());
                format!("the box program ends ({status})")
            }
        };
        let _ = self.child.kill();
        let _ = self.child.wait();
        Err(Ended { touched: None, why })
    }
}

/// The status of answers, and the answers.
fn read_answers(out: &mut impl Read) -> io::Result<(u32, Vec<u8>)> {
    let mut head = [0; HEAD];
    out.read_exact(&mut head)?;
    let [mark, status, length, _] =
        [0, 4, 8, 12].map(|place| u32::from_le_bytes([head[place], head[place + 1], head[place + 2], head[place + 3]]));
    if mark != MARK || status > TOUCHED {
        return Err(io::Error::new(io::ErrorKind::InvalidData, format!("what is no answer: {head:02X?}")));
    }
    let mut answers = vec![0; length as usize];
    out.read_exact(&mut answers)?;
    Ok((status, answers))
}
