//! The engine as a process (shim.c with the static library), for a host that the library is not compiled
//! for.

use crate::crash;
use crate::flood;
use crate::lent::Lent;
use crate::model::state::peers_of;
use crate::model::{Answer, Checked, Drained, Forwarded};
use crate::subject::{Call, Reply, Subject};
use std::io::{Read, Write};
use std::process::{Child, ChildStdin, ChildStdout};

/// The engine behind its shim, with the command of its run program if there is one.
pub struct Process {
    child: Child,
    requests: ChildStdin,
    replies: ChildStdout,
    flood: Option<Vec<String>>,
}

impl Process {
    pub fn start(command: &[String], flood: Option<Vec<String>>) -> Result<Process, String> {
        let mut child = flood::spawn(command)?;
        crash::started(crash::ENGINE, child.id());
        let requests = child.stdin.take().expect("a pipe");
        let replies = child.stdout.take().expect("a pipe");
        Ok(Process { child, requests, replies, flood })
    }

    /// A request is 20 numbers: the call, two arguments, the count of buffers, and for each of four buffers
    /// its whole length, its start, its length and whether it is locked; then the buffers with their
    /// guards. A reply is 6 numbers: number, detail, place and three more; then the same buffers.
    fn exchange(&mut self, head: [u64; 20], lent: &mut [Lent]) -> std::io::Result<[u64; 6]> {
        let mut request: Vec<u8> = head.iter().flat_map(|number| number.to_le_bytes()).collect();
        lent.iter().for_each(|buffer| request.extend(&buffer.whole));
        self.requests.write_all(&request)?;
        self.requests.flush()?;
        let mut bytes = [0; 48];
        self.replies.read_exact(&mut bytes)?;
        for buffer in lent {
            self.replies.read_exact(&mut buffer.whole)?;
        }
        let number = |i: usize| u64::from_le_bytes(bytes[8 * i..8 * i + 8].try_into().expect("8 bytes"));
        Ok([0, 1, 2, 3, 4, 5].map(number))
    }
}

impl Subject for Process {
    fn answer(&mut self, call: Call, lent: &mut [Lent]) -> Result<Reply, String> {
        let (code, first, second) = match call {
            Call::Check => (0, 0, 0),
            Call::Copy => (1, 0, 0),
            Call::Run => (2, 0, 0),
            Call::Forward { peer, message } => (3, u64::from(peer), u64::from(message)),
            Call::Drain { budget } => (4, u64::from(budget), 0),
            Call::Image => (5, 0, 0),
        };
        let mut head = [0; 20];
        head[..4].copy_from_slice(&[code, first, second, lent.len() as u64]);
        for (buffer, place) in lent.iter().zip([4, 8, 12, 16]) {
            let numbers = [buffer.whole.len(), buffer.start, buffer.length, usize::from(buffer.locked)];
            head[place..place + 4].copy_from_slice(&numbers.map(|number| number as u64));
        }
        let reply = match self.exchange(head, lent) {
            Ok(reply) => reply,
            Err(error) => {
                let end = self.child.wait();
                crash::started(crash::ENGINE, 0);
                return Err(format!("the engine's process broke down: {error}, {end:?}"));
            }
        };
        let (number, detail, place) = (reply[0] as u8, reply[1] as u8, reply[2] as usize);
        Ok(match call {
            Call::Check | Call::Copy | Call::Image => Reply::Checked(Checked { number, detail, place }),
            Call::Run => Reply::Answer(Answer { number, detail, place, accepted: reply[3] as usize }),
            Call::Forward { .. } => {
                let (deliveries, receivers) = (reply[3] as u32, peers_of(reply[4] as u32));
                Reply::Forwarded(Forwarded { number, detail, place, deliveries, receivers })
            }
            Call::Drain { .. } => {
                let (forwards, rounds, quiet) = (reply[3] as u32, reply[4] as u32, truth(reply[5])?);
                Reply::Drained(Drained { number, detail, place, forwards, rounds, quiet })
            }
        })
    }

    fn program(&mut self, input: &[u8], pieces: &[usize]) -> Option<Result<Vec<u8>, String>> {
        self.flood.as_ref().map(|command| flood::run(command, input, pieces))
    }
}

impl Drop for Process {
    fn drop(&mut self) {
        let _ = self.child.kill();
        let _ = self.child.wait();
    }
}

/// A bool is one of two bytes.
pub fn truth(byte: u64) -> Result<bool, String> {
    match byte {
        0 => Ok(false),
        1 => Ok(true),
        _ => Err(format!("the engine answers a bool that is {byte}")),
    }
}
