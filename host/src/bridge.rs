//! The engine as a process (`bridge.c`), where this machine cannot link it: the same six functions, the same answers.
//!
//! One process serves the whole program, one call at a time. The comments of `bridge.c` have the form of a call and an
//! answer. A process that cannot be started or that ends is a fault of the installation: the call is answered by `NO_ENGINE`,
//! and the next one starts the process again.

use crate::raw::{Answer, Checked, Drained, Forwarded, Tally, NO_ENGINE};
use std::io::{self, Read, Write};
use std::path::PathBuf;
use std::process::{Child, ChildStdin, ChildStdout, Command, Stdio};
use std::sync::{Mutex, PoisonError};

/// What build.rs made.
const BUILT: &str = env!("RELAY_ENGINE_PROCESS");

/// Where `make install` puts it, seen from the folder above the program's own.
const INSTALLED: &str = "libexec/relay/engine-process";

const HEAD: usize = 64;

/// Numbered as in `bridge.c`.
#[derive(Clone, Copy)]
enum Function {
    Run,
    Forward,
    Drain,
    Image,
    Check,
    Copy,
}

/// The arguments beside the buffers.
#[derive(Default)]
struct Arguments {
    peer: u8,
    message: u8,
    budget: u32,
    tally: Tally,
}

/// A lent buffer: to be read only, or to be written.
enum Lent<'a> {
    Read(&'a [u8]),
    Write(&'a mut [u8]),
}

impl Lent<'_> {
    fn bytes(&self) -> &[u8] {
        match self {
            Lent::Read(bytes) => bytes,
            Lent::Write(bytes) => bytes,
        }
    }
}

struct Engine {
    child: Child,
    calls: ChildStdin,
    answers: ChildStdout,
}

/// It would end with its input; so it is not left behind.
impl Drop for Engine {
    fn drop(&mut self) {
        let _ = self.child.kill();
        let _ = self.child.wait();
    }
}

static ENGINE: Mutex<Option<Engine>> = Mutex::new(None);

/// The installed process if this program is installed beside one, else the one that was built.
fn program() -> PathBuf {
    let own = std::env::current_exe().ok();
    let installed = own.and_then(|own| Some(own.parent()?.parent()?.join(INSTALLED)));
    installed.filter(|program| program.is_file()).unwrap_or_else(|| PathBuf::from(BUILT))
}

fn start() -> io::Result<Engine> {
    let mut child = Command::new(program()).stdin(Stdio::piped()).stdout(Stdio::piped()).spawn()?;
    match (child.stdin.take(), child.stdout.take()) {
        (Some(calls), Some(answers)) => Ok(Engine { child, calls, answers }),
        _ => Err(io::Error::other("the process has no pipes")),
    }
}

impl Engine {
    /// The answer's head. The lent buffers are written once the whole answer is there.
    fn call(&mut self, function: Function, arguments: &Arguments, lent: &mut [Lent]) -> io::Result<[u8; HEAD]> {
        let mut call = call_head(function, arguments, lent).to_vec();
        for buffer in lent.iter() {
            call.extend(buffer.bytes());
        }
        self.calls.write_all(&call)?;
        self.calls.flush()?;
        let mut head = [0; HEAD];
        self.answers.read_exact(&mut head)?;
        let mut after: Vec<Vec<u8>> = lent.iter().map(|buffer| vec![0; buffer.bytes().len()]).collect();
        for bytes in &mut after {
            self.answers.read_exact(bytes)?;
        }
        if lent.iter().zip(&after).any(|(buffer, bytes)| matches!(buffer, Lent::Read(before) if before != bytes)) {
            return Err(io::Error::other("a buffer that is only read was written"));
        }
        for (buffer, bytes) in lent.iter_mut().zip(&after) {
            if let Lent::Write(buffer) = buffer {
                buffer.copy_from_slice(bytes);
            }
        }
        Ok(head)
    }
}

fn call_head(function: Function, arguments: &Arguments, lent: &[Lent]) -> [u8; HEAD] {
    let mut head = [0; HEAD];
    head[0] = function as u8;
    head[1] = arguments.peer;
    head[2] = arguments.message;
    head[4..8].copy_from_slice(&arguments.budget.to_le_bytes());
    for (buffer, at) in lent.iter().zip([8, 16, 24]) {
        head[at..at + 8].copy_from_slice(&(buffer.bytes().len() as u64).to_le_bytes());
    }
    put_tally(&mut head, &arguments.tally);
    head
}

/// In a call and in an answer it stands in the same place.
fn put_tally(head: &mut [u8; HEAD], tally: &Tally) {
    for (count, at) in [tally.produced, tally.forwards, tally.deliveries].iter().zip([32, 40, 48]) {
        head[at..at + 8].copy_from_slice(&count.to_le_bytes());
    }
}

/// One call of the engine, which is started by the first; answered by `NO_ENGINE`, with the tally as it was, if there is none.
fn call(function: Function, arguments: Arguments, lent: &mut [Lent]) -> [u8; HEAD] {
    let mut slot = ENGINE.lock().unwrap_or_else(PoisonError::into_inner);
    let ready = slot.take().map_or_else(start, Ok);
    let answered = ready.and_then(|mut engine| {
        let head = engine.call(function, &arguments, lent)?;
        *slot = Some(engine);
        Ok(head)
    });
    answered.unwrap_or_else(|_| {
        let mut head = [0; HEAD];
        head[0] = NO_ENGINE;
        put_tally(&mut head, &arguments.tally);
        head
    })
}

fn word(head: &[u8; HEAD], at: usize) -> u64 {
    let mut bytes = [0; 8];
    bytes.copy_from_slice(&head[at..at + 8]);
    u64::from_le_bytes(bytes)
}

fn half(head: &[u8; HEAD], at: usize) -> u32 {
    let mut bytes = [0; 4];
    bytes.copy_from_slice(&head[at..at + 4]);
    u32::from_le_bytes(bytes)
}

fn place(head: &[u8; HEAD]) -> usize {
    word(head, 8) as usize
}

fn checked(head: [u8; HEAD]) -> Checked {
    Checked { number: head[0], detail: head[1], place: place(&head) }
}

pub fn run(state: &mut [u8], table: &[u8], events: &[u8], tally: &mut Tally) -> Answer {
    let arguments = Arguments { tally: *tally, ..Arguments::default() };
    let lent = &mut [Lent::Write(state), Lent::Read(table), Lent::Read(events)];
    let head = call(Function::Run, arguments, lent);
    tally.produced = word(&head, 32);
    tally.forwards = word(&head, 40);
    tally.deliveries = word(&head, 48);
    Answer { number: head[0], detail: head[1], place: place(&head), accepted: word(&head, 16) as usize }
}

pub fn forward(state: &mut [u8], table: &[u8], peer: u8, message: u8) -> Forwarded {
    let arguments = Arguments { peer, message, ..Arguments::default() };
    let head = call(Function::Forward, arguments, &mut [Lent::Write(state), Lent::Read(table)]);
    Forwarded {
        number: head[0],
        detail: head[1],
        place: place(&head),
        deliveries: half(&head, 24),
        receivers: half(&head, 28),
    }
}

pub fn drain(state: &mut [u8], table: &[u8], budget: u32) -> Drained {
    let arguments = Arguments { budget, ..Arguments::default() };
    let head = call(Function::Drain, arguments, &mut [Lent::Write(state), Lent::Read(table)]);
    Drained {
        number: head[0],
        detail: head[1],
        place: place(&head),
        forwards: half(&head, 24),
        rounds: half(&head, 28),
        quiet: head[2] != 0,
    }
}

pub fn image(state: &[u8], image: &mut [u8]) -> Checked {
    let lent = &mut [Lent::Read(state), Lent::Write(image)];
    checked(call(Function::Image, Arguments::default(), lent))
}

pub fn check(state: &[u8]) -> Checked {
    checked(call(Function::Check, Arguments::default(), &mut [Lent::Read(state)]))
}

pub fn copy(from: &[u8], to: &mut [u8]) -> Checked {
    let lent = &mut [Lent::Read(from), Lent::Write(to)];
    checked(call(Function::Copy, Arguments::default(), lent))
}
