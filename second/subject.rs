//! What is compared: a subject answers calls on lent buffers. The model is one subject, the engine another.

use crate::lent::Lent;
use crate::model::{calls, program, refuses_an_event, Answer, Checked, Drained, Forwarded, Tally};

/// A call with its plain arguments; its lent buffers go beside it, in the order of the interface.
#[derive(Clone, Copy, Debug, PartialEq, Eq)]
pub enum Call {
    Check,
    Copy,
    Run,
    Forward { peer: u8, message: u8 },
    Drain { budget: u32 },
    Image,
}

/// What a buffer is lent for.
#[derive(Clone, Copy, Debug, PartialEq, Eq)]
pub enum Right {
    Read,
    Write,
}

impl Call {
    /// The lent buffers: "Message table and event bytes are never written", nor is what is read or mapped.
    pub fn buffers(self) -> &'static [(&'static str, Right)] {
        match self {
            Call::Check => &[("state", Right::Read)],
            Call::Copy => &[("from", Right::Read), ("to", Right::Write)],
            Call::Run => &[
                ("state", Right::Write),
                ("table", Right::Read),
                ("events", Right::Read),
                ("tally", Right::Write),
            ],
            Call::Forward { .. } | Call::Drain { .. } => &[("state", Right::Write), ("table", Right::Read)],
            Call::Image => &[("state", Right::Read), ("image", Right::Write)],
        }
    }

    /// "all buffers, the tally included, stay untouched": every refusal but that of an event in a run.
    pub fn refused_whole(self, number: u8) -> bool {
        number != 0 && (self != Call::Run || !refuses_an_event(number))
    }
}

#[derive(Clone, Debug, PartialEq, Eq)]
pub enum Reply {
    Checked(Checked),
    Answer(Answer),
    Forwarded(Forwarded),
    Drained(Drained),
}

impl Reply {
    pub fn number(&self) -> u8 {
        match self {
            Reply::Checked(reply) => reply.number,
            Reply::Answer(reply) => reply.number,
            Reply::Forwarded(reply) => reply.number,
            Reply::Drained(reply) => reply.number,
        }
    }

    pub fn detail(&self) -> u8 {
        match self {
            Reply::Checked(reply) => reply.detail,
            Reply::Answer(reply) => reply.detail,
            Reply::Forwarded(reply) => reply.detail,
            Reply::Drained(reply) => reply.detail,
        }
    }

    pub fn place(&self) -> usize {
        match self {
            Reply::Checked(reply) => reply.place,
            Reply::Answer(reply) => reply.place,
            Reply::Forwarded(reply) => reply.place,
            Reply::Drained(reply) => reply.place,
        }
    }
}

/// "produced, forwards, deliveries, 64 bits each": the tally as it is lent.
pub fn tally_bytes(tally: &Tally) -> Vec<u8> {
    [tally.produced, tally.forwards, tally.deliveries].iter().flat_map(|count| count.to_le_bytes()).collect()
}

pub fn tally_of(bytes: &[u8]) -> Tally {
    let count = |i: usize| u64::from_le_bytes(bytes[8 * i..8 * i + 8].try_into().expect("8 bytes"));
    Tally { produced: count(0), forwards: count(1), deliveries: count(2) }
}

pub trait Subject {
    /// An error is a subject that broke down.
    fn answer(&mut self, call: Call, lent: &mut [Lent]) -> Result<Reply, String>;

    /// What the run program writes for this input, handed over in pieces that end at these places; nothing
    /// if the subject has no run program.
    fn program(&mut self, input: &[u8], pieces: &[usize]) -> Option<Result<Vec<u8>, String>>;
}

/// The model's answer; the buffers are changed as the model changes them.
pub fn by_model(call: Call, buffers: &mut [&mut [u8]]) -> Reply {
    match (call, buffers) {
        (Call::Check, [state]) => Reply::Checked(calls::check(state)),
        (Call::Copy, [from, to]) => Reply::Checked(calls::copy(from, to)),
        (Call::Run, [state, table, events, lent]) => {
            let mut tally = tally_of(lent);
            let answer = calls::run(state, table, events, &mut tally);
            lent.copy_from_slice(&tally_bytes(&tally));
            Reply::Answer(answer)
        }
        (Call::Forward { peer, message }, [state, table]) => {
            Reply::Forwarded(calls::forward(state, table, peer, message))
        }
        (Call::Drain { budget }, [state, table]) => Reply::Drained(calls::drain(state, table, budget)),
        (Call::Image, [state, image]) => Reply::Checked(calls::image(state, image)),
        _ => panic!("a call with the wrong number of buffers"),
    }
}

pub struct Model;

impl Subject for Model {
    fn answer(&mut self, call: Call, lent: &mut [Lent]) -> Result<Reply, String> {
        let mut views: Vec<&mut [u8]> = lent.iter_mut().map(Lent::content_mut).collect();
        Ok(by_model(call, &mut views))
    }

    fn program(&mut self, input: &[u8], _: &[usize]) -> Option<Result<Vec<u8>, String>> {
        Some(Ok(program::output(input).1))
    }
}
