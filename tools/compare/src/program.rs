//! Running the program under test on one text.

use std::io::{self, Read, Write};
use std::path::Path;
use std::process::{Command, Stdio};
use std::sync::mpsc;
use std::thread;
use std::time::Duration;

/// The time that the program gets for one text.
const PATIENCE: Duration = Duration::from_secs(20);

/// The most bytes of output that are looked at.
const OUTPUT_LIMIT: u64 = 65_536;

/// What the program printed, and how it ended.
#[derive(Debug, PartialEq, Eq)]
pub struct Outcome {
    pub output: Vec<u8>,
    pub ending: Ending,
}

/// How the program ended.
#[derive(Debug, PartialEq, Eq)]
pub enum Ending {
    Status(i32),
    Signal,
    NotInTime,
}

/// Runs the program with the text as its standard input.
pub fn run(program: &Path, text: &[u8]) -> io::Result<Outcome> {
    let mut child = Command::new(program).stdin(Stdio::piped()).stdout(Stdio::piped()).spawn()?;
    let (Some(mut input), Some(output)) = (child.stdin.take(), child.stdout.take()) else {
        return Err(io::Error::other("the program has no input or no output"));
    };
    let (sender, receiver) = mpsc::channel();
    let text = text.to_vec();
    thread::spawn(move || {
        // A program may end before it has read all: it is judged by what it printed.
        let _ = text.chunks(4_096).try_for_each(|part| input.write_all(part));
        drop(input);
        let mut printed = Vec::new();
        let read = output.take(OUTPUT_LIMIT).read_to_end(&mut printed);
        let _ = sender.send(read.map(|_| printed));
    });
    let Ok(printed) = receiver.recv_timeout(PATIENCE) else {
        child.kill()?;
        child.wait()?;
        return Ok(Outcome { output: Vec::new(), ending: Ending::NotInTime });
    };
    let ending = child.wait()?.code().map_or(Ending::Signal, Ending::Status);
    Ok(Outcome { output: printed?, ending })
}
