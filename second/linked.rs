//! The engine's static library linked into the comparison, for a host that the library is compiled for.
//! How its functions are called is declared in host/src/interface.rs, for all that call it from Rust; nothing
//! else is shared. Which library it is, the last step of linking says (run.sh, mutants.sh).

#[path = "../host/src/interface.rs"]
mod interface;

use crate::crash;
use crate::flood;
use crate::lent::Lent;
use crate::model::state::peers_of;
use crate::model::{Answer, Checked, Drained, Forwarded};
use crate::pages::Pages;
use crate::process::truth;
use crate::subject::{Call, Reply, Subject};
use interface::{relay_check, relay_copy, relay_drain, relay_forward, relay_image, relay_run};

/// The engine, pages for its buffers, and the command of its run program if there is one.
pub struct Linked {
    pages: [Pages; 4],
    flood: Option<Vec<String>>,
}

impl Linked {
    pub fn new(flood: Option<Vec<String>>) -> Linked {
        Linked { pages: [Pages::new(), Pages::new(), Pages::new(), Pages::new()], flood }
    }
}

impl Subject for Linked {
    fn answer(&mut self, call: Call, lent: &mut [Lent]) -> Result<Reply, String> {
        let mut parts = Vec::new();
        for (index, buffer) in lent.iter().enumerate() {
            let start = self.pages[index].lay(buffer);
            crash::lies(index, start, buffer.length);
            parts.push((start, buffer.length));
        }
        // SAFETY: each pointer is that of live bytes of its own with their length, and no two overlap.
        let reply = unsafe { make_call(call, &parts) };
        for (buffer, pages) in lent.iter_mut().zip(&mut self.pages) {
            pages.take_back(buffer);
        }
        reply
    }

    fn program(&mut self, input: &[u8], pieces: &[usize]) -> Option<Result<Vec<u8>, String>> {
        self.flood.as_ref().map(|command| flood::run(command, input, pieces))
    }
}

unsafe fn make_call(call: Call, parts: &[(*mut u8, usize)]) -> Result<Reply, String> {
    Ok(match (call, parts) {
        (Call::Check, [(state, a)]) => checked(relay_check(*state, *a)),
        (Call::Copy, [(from, a), (to, b)]) => checked(relay_copy(*from, *a, *to, *b)),
        (Call::Run, [(state, a), (table, b), (events, c), (tally, _)]) => {
            let answer = relay_run(*state, *a, *table, *b, *events, *c, tally.cast());
            let interface::Answer { number, detail, place, accepted } = answer;
            Reply::Answer(Answer { number, detail, place, accepted })
        }
        (Call::Forward { peer, message }, [(state, a), (table, b)]) => {
            let answer = relay_forward(*state, *a, *table, *b, peer, message);
            let interface::Forwarded { number, detail, place, deliveries, receivers } = answer;
            let receivers = peers_of(receivers);
            Reply::Forwarded(Forwarded { number, detail, place, deliveries, receivers })
        }
        (Call::Drain { budget }, [(state, a), (table, b)]) => {
            let answer = relay_drain(*state, *a, *table, *b, budget);
            let interface::Drained { number, detail, place, forwards, rounds, quiet } = answer;
            // The interface has C's bool as a byte, so that any other value than 0 and 1 is noticed.
            let quiet = truth(u64::from(quiet))?;
            Reply::Drained(Drained { number, detail, place, forwards, rounds, quiet })
        }
        (Call::Image, [(state, a), (image, b)]) => checked(relay_image(*state, *a, *image, *b)),
        _ => panic!("a call with the wrong number of buffers"),
    })
}

fn checked(answer: interface::Checked) -> Reply {
    Reply::Checked(Checked { number: answer.number, detail: answer.detail, place: answer.place })
}
