//! The run program as a process: its standard input, at once or in drops, and its standard output.

use crate::crash;
use std::io::{ErrorKind, Write};
use std::process::{Child, Command, Stdio};
use std::time::Duration;

pub fn spawn(command: &[String]) -> Result<Child, String> {
    let (program, words) = command.split_first().ok_or("an empty command")?;
    let started = Command::new(program).args(words).stdin(Stdio::piped()).stdout(Stdio::piped()).spawn();
    started.map_err(|error| format!("cannot start {program}: {error}"))
}

/// Hands the input over in pieces that end at these places, with a rest after each, so that a read gets
/// less than is to come.
fn hand_over(pipe: &mut impl Write, input: &[u8], pieces: &[usize]) -> std::io::Result<()> {
    let mut done = 0;
    for end in pieces {
        pipe.write_all(&input[done..*end])?;
        pipe.flush()?;
        std::thread::sleep(Duration::from_micros(700));
        done = *end;
    }
    pipe.write_all(&input[done..])
}

/// Runs the program on this standard input and answers its standard output. What it writes is short, so
/// all input can be handed over first; a program may stop reading once it has more than 65,536 bytes.
pub fn run(command: &[String], input: &[u8], pieces: &[usize]) -> Result<Vec<u8>, String> {
    let mut child = spawn(command)?;
    crash::started(crash::PROGRAM, child.id());
    match hand_over(&mut child.stdin.take().expect("a pipe"), input, pieces) {
        Err(error) if error.kind() != ErrorKind::BrokenPipe => return Err(format!("cannot write: {error}")),
        _ => (),
    }
    let output = child.wait_with_output().map_err(|error| format!("cannot wait: {error}"))?;
    crash::started(crash::PROGRAM, 0);
    match output.status.code() {
        Some(_) => Ok(output.stdout),
        None => Err(format!("ended by a signal: {}", output.status)),
    }
}
