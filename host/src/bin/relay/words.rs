//! What the engine answers, in words.

use relay_host::{Drained, Event, Joining, Message, Network, Peer, Reason, Refusal, Set, Table, Tally};

/// A count with its noun.
pub fn count(number: u64, noun: &str) -> String {
    let plural = match (number, noun.strip_suffix('y')) {
        (1, _) => noun.to_string(),
        (_, Some(stem)) => format!("{stem}ies"),
        (_, None) => format!("{noun}s"),
    };
    format!("{number} {plural}")
}

pub fn events(accepted: usize) -> String {
    format!("{} accepted", count(accepted as u64, "event"))
}

pub fn pending(pairs: usize) -> String {
    match pairs {
        0 => "nothing pending".into(),
        _ => format!("{} pending", count(pairs as u64, "pair")),
    }
}

pub fn summary(accepted: usize, pairs: usize) -> String {
    format!("done: {}, {}", events(accepted), pending(pairs))
}

pub fn peers(number: usize) -> String {
    format!("{} present", count(number as u64, "peer"))
}

pub fn tally(tally: &Tally) -> String {
    let forwards = count(tally.forwards, "forward");
    format!("tally of the events: {} produced, {forwards}, {}", tally.produced, count(tally.deliveries, "delivery"))
}

/// Some messages by their numbers.
pub fn messages(messages: Set<Message>) -> String {
    let noun = if messages.len() == 1 { "message" } else { "messages" };
    format!("{noun} {messages}")
}

/// How many peers are present and what is pending.
pub fn overview(network: &Network) -> String {
    format!("{}, {}", peers(network.desks().count()), pending(network.pending_pairs()))
}

/// An accepted event and what it did; of a forward, to whom it went. The network is the one after it.
pub fn accepted(network: &Network, event: &Event, receivers: Set<Peer>) -> String {
    let present = peers(network.desks().count());
    let having = |message: &Message| {
        let (holding, seen) = network.holders(*message);
        having(holding, seen)
    };
    let did = match event {
        Event::Skip => "nothing changes".into(),
        Event::Produce(_, message) => having(message),
        Event::Forward(_, message) => format!("{}; {}", to(receivers), having(message)),
        Event::Subscribe(peer, _) | Event::Unsubscribe(peer, _) => {
            let subs = network.desk(*peer).map_or(Set::empty(), |desk| desk.subs);
            format!("peer {peer} subscribes to {subs}")
        }
        Event::Join(_, joining) => format!("{present}, linked to {}", joining.neighbours),
        _ => present,
    };
    format!("{event}: {did}")
}

/// To whom a forward went.
fn to(receivers: Set<Peer>) -> String {
    if receivers.is_empty() {
        return "to nobody".into();
    }
    format!("to {receivers}")
}

pub fn drained(budget: u32, drained: &Drained) -> String {
    let forwards = count(drained.forwards.into(), "forward");
    let rounds = count(drained.rounds.into(), "round");
    let end = if drained.quiet { "nothing is pending" } else { "something is still pending" };
    format!("drain {budget}: {forwards}, {rounds}, {end}")
}

/// A line as lines of at most so many letters, broken at spaces; a word that is longer stands alone.
pub fn broken(line: &str, width: usize) -> String {
    let mut lines: Vec<String> = Vec::new();
    for word in line.split(' ') {
        match lines.last_mut() {
            Some(line) if line.chars().count() + 1 + word.chars().count() <= width => {
                line.push(' ');
                line.push_str(word);
            }
            _ => lines.push(word.into()),
        }
    }
    lines.join("\n")
}

/// Bytes as pairs of hexadecimal digits.
fn bytes(bytes: &[u8]) -> String {
    let pairs: Vec<String> = bytes.iter().map(|byte| format!("{byte:02x}")).collect();
    pairs.join(" ")
}

/// Who has a message.
pub fn message(network: &Network, table: &Table, message: Message) -> String {
    let row = table.row(message);
    let (holding, seen) = network.holders(message);
    format!("message {message} (topic {}, origin {}): {}", row.topic, row.origin, having(holding, seen))
}

fn having(holding: Set<Peer>, seen: Set<Peer>) -> String {
    match (holding.is_empty(), seen.is_empty()) {
        (true, true) => "nobody has it".into(),
        (true, false) => format!("pending nowhere, seen by {seen}"),
        (false, true) => format!("pending at {holding}, seen by nobody"),
        (false, false) => format!("pending at {holding}, seen by {seen}"),
    }
}

/// A refused event: what, why and where, and what stands in its way.
pub fn refused(network: &Network, table: &Table, event: &Event, refusal: &Refusal) -> String {
    let said = format!("{event} is refused: {refusal}");
    match because(network, table, event, refusal.reason) {
        Some(detail) => format!("{said}; {detail}"),
        None => said,
    }
}

/// A refused run of records, from the one at which it stopped: that one, if it is an event, or its bytes.
pub fn refused_run(network: &Network, table: &Table, rest: &[u8], refusal: &Refusal) -> String {
    match rest.first_chunk() {
        Some(record) if refusal.reason.place_of() == Some("event") => match Event::decode(record) {
            Ok(event) => refused(network, table, &event, refusal),
            Err(_) => format!("refused: {refusal}; its bytes are {}", bytes(record)),
        },
        _ => format!("refused: {refusal}"),
    }
}

/// The numbers behind a refusal, for those where they help.
fn because(network: &Network, table: &Table, event: &Event, reason: Reason) -> Option<String> {
    let present: Set<Peer> = network.desks().map(|(peer, _)| peer).collect();
    let desk = |peer: &Peer| network.desk(*peer);
    Some(match (event, reason) {
        (_, Reason::PeerAbsent) => format!("present: {present}"),
        (Event::Produce(_, message), Reason::NotOrigin) => {
            format!("message {message} has origin {}", table.row(*message).origin)
        }
        (Event::Produce(peer, message), Reason::NotPublished) => {
            let topic = table.row(*message).topic;
            format!("message {message} has topic {topic}, and peer {peer} publishes {}", desk(peer)?.pubs)
        }
        (Event::Produce(_, message), Reason::NotNew) => {
            let (holding, seen) = network.holders(*message);
            having(holding, seen)
        }
        (Event::Forward(peer, _) | Event::Leave(peer), Reason::NotPending | Reason::StillPending) => {
            format!("pending at peer {peer}: {}", desk(peer)?.pending)
        }
        (Event::Join(_, Joining { neighbours, .. }), Reason::NeighbourAbsent) => {
            let absent: Set<Peer> = neighbours.members().filter(|&peer| !present.has(peer)).collect();
            format!("absent: {absent}")
        }
        _ => return None,
    })
}

#[cfg(test)]
mod tests {
    use super::*;

    #[test]
    fn nouns_follow_their_counts() {
        assert_eq!(summary(1, 0), "done: 1 event accepted, nothing pending");
        assert_eq!(summary(2, 1), "done: 2 events accepted, 1 pair pending");
        let counts = Tally { produced: 1, forwards: 0, deliveries: 2 };
        assert_eq!(tally(&counts), "tally of the events: 1 produced, 0 forwards, 2 deliveries");
    }
    #[test]
    fn lines_are_broken_at_spaces() {
        assert_eq!(broken("one two three", 7), "one two\nthree");
        assert_eq!(broken("one two three", 6), "one\ntwo\nthree");
        assert_eq!(broken("\u{e9}\u{e9} 5,120 a", 8), "\u{e9}\u{e9} 5,120\na");
        assert_eq!(broken("longer a  b", 3), "longer\na \nb");
        assert_eq!(broken("", 3), "");
    }
}
