//! Events one by one; of a forward, to whom it went.

use relay_host::{Event, Message, Network, Peer, Refusal, Set, Table, Tally};

/// An accepted forward. The receivers are the engine's answer, and so many are its deliveries.
#[derive(Clone, Copy, Debug, PartialEq, Eq)]
pub struct Forward {
    pub sender: Peer,
    pub message: Message,
    pub receivers: Set<Peer>,
}

/// What an accepted event did.
#[derive(Clone, Copy, Debug, PartialEq, Eq)]
pub enum Done {
    Forward(Forward),
    /// Any other event, with its tally.
    Other(Tally),
}

impl Done {
    pub fn tally(&self) -> Tally {
        match self {
            Done::Forward(Forward { receivers, .. }) => {
                Tally { produced: 0, forwards: 1, deliveries: receivers.len() as u64 }
            }
            Done::Other(tally) => *tally,
        }
    }

    pub fn forward(&self) -> Option<Forward> {
        match self {
            Done::Forward(forward) => Some(*forward),
            Done::Other(_) => None,
        }
    }

    /// Who newly holds a message; nobody unless it is a forward.
    pub fn receivers(&self) -> Set<Peer> {
        self.forward().map_or(Set::empty(), |forward| forward.receivers)
    }
}

/// Runs one event; the network stays as it is if the event is refused. A forward is a call of its own, since a run answers no
/// receivers.
pub fn apply(network: &mut Network, table: &Table, event: &Event) -> Result<Done, Refusal> {
    match *event {
        Event::Forward(sender, message) => {
            let receivers = network.forward(table, sender, message)?;
            Ok(Done::Forward(Forward { sender, message, receivers }))
        }
        _ => Ok(Done::Other(network.apply(table, event)?)),
    }
}

#[cfg(test)]
mod tests {
    use super::*;
    use crate::command::Command;
    use crate::session::Session;

    /// Desk 2 holds the message already when desk 1 forwards it; desk 4 doesn't subscribe.
    const LINES: [&str; 12] = [
        "join 0 pubs 0",
        "join 1 subs 0 neighbours 0",
        "join 2 subs 0 neighbours 0,1",
        "join 3 subs 0 neighbours 1,2",
        "join 4 neighbours 0-3",
        "produce 0 5",
        "forward 0 5",
        "forward 1 5",
        "subscribe 4 topics 0",
        "forward 3 5",
        "forward 3 5",
        "forward 2 5",
    ];

    #[test]
    fn an_event_by_itself_is_the_same_as_in_a_run() {
        let (mut alone, mut run, table) = (Network::blank(), Network::blank(), Table::zero());
        for event in LINES.map(|line| line.parse::<Event>().unwrap()) {
            let tally = apply(&mut alone, &table, &event).map(|done| done.tally());
            assert_eq!(tally, run.apply(&table, &event), "{event}");
            assert!(alone == run, "{event}");
        }
    }

    #[test]
    fn a_forward_has_its_receivers_and_nothing_else_has_any() {
        let mut network = Network::blank();
        let mut said = Vec::new();
        for event in LINES.map(|line| line.parse::<Event>().unwrap()) {
            let Ok(done) = apply(&mut network, &Table::zero(), &event) else { continue };
            assert_eq!(done.forward().is_some(), event.to_string().starts_with("forward"));
            assert!(done.forward().is_some() || done.receivers().is_empty());
            said.extend(done.forward().map(|_| format!("{event}: {}", done.receivers())));
        }
        assert_eq!(said, ["forward 0 5: 1,2", "forward 1 5: 3", "forward 3 5: 4", "forward 2 5: none"]);
    }

    /// What a session has as its last forward, seven lines from above and then these having been done.
    fn last(lines: &[&str]) -> Option<String> {
        let mut session = Session::new(false);
        for line in LINES[..7].iter().chain(lines) {
            // A refusal costs its line only, as in interactive use.
            let _ = session.execute(&Command::of_line(line).unwrap().unwrap(), &mut std::io::sink());
        }
        session.last().map(|forward| format!("{} {} to {}", forward.sender, forward.message, forward.receivers))
    }

    #[test]
    fn a_session_knows_the_last_forward_until_something_else_is_done() {
        let first = Some("0 5 to 1,2".to_string());
        for lines in [&[][..], &["show", "tally", "say"], &["forward 0 5", "leave 9"], &["refused 13 forward 0 5"]] {
            assert_eq!(last(lines), first, "{lines:?}");
        }
        assert_eq!(last(&["table 9 topic 1 origin 0", "drain 0", "run no/such/file"]), first);
        assert_eq!(last(&["forward 1 5"]), Some("1 5 to 3".into()));
        assert_eq!(last(&["forward 2 5", "forward 1 5"]), Some("1 5 to none".into()));
        for line in ["skip", "produce 0 6", "drain 1", "blank"] {
            assert_eq!(last(&[line]), None, "{line}");
        }
    }
}
