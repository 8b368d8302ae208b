//! What the tool has to say of a command, in words or as a line of JSON. docs/HOST.md has the JSON field by field.

use crate::json::Object;
use crate::{show, words, HELP};
use relay_host::text::plain;
use relay_host::Number;
use relay_host::{Desk, Drained, Event, Image, Message, Network, Peer, Refusal, Set, Table, Tally, Topic};

/// For a person or for a program.
#[derive(Clone, Copy, Debug, PartialEq, Eq)]
pub enum Form {
    Words,
    Json,
}

pub enum Answer<'a> {
    /// The network after an accepted event, the event, its place, and the receivers if it is a forward.
    Accepted(&'a Network, &'a Event, usize, Set<Peer>),
    /// A refusal, and all that is said of it.
    Refusal(&'a Refusal, &'a str),
    Network(&'a Network),
    Message(&'a Network, &'a Table, Message),
    Image(&'a Image),
    Tally(&'a Tally),
    /// A drain with its budget.
    Drain(u32, &'a Drained),
    /// A record file, how many of its events were accepted, their tally, and whether one was refused then.
    Run(&'a str, usize, &'a Tally, bool),
    Said(&'a str),
    /// What a command did besides, that one might not expect.
    Note(&'a str),
    Help,
    /// The end of a script: the accepted events, and the pairs pending.
    Done(usize, usize),
}

impl Answer<'_> {
    /// The answer as whole lines.
    pub fn text(&self, form: Form) -> String {
        match form {
            Form::Words => self.words(),
            Form::Json => self.object().end() + "\n",
        }
    }

    fn words(&self) -> String {
        let line = match self {
            Answer::Network(network) => return show::network(network),
            Answer::Message(network, table, message) => return show::message(network, table, *message),
            Answer::Image(image) => return show::image(image),
            Answer::Help => return HELP.into(),
            // The refusal that follows says it.
            Answer::Run(_, _, _, true) => return String::new(),
            Answer::Run(file, accepted, _, false) => format!("{}: {}", plain(file), words::events(*accepted)),
            Answer::Accepted(network, event, _, receivers) => words::accepted(network, event, *receivers),
            Answer::Refusal(_, said) | Answer::Said(said) | Answer::Note(said) => said.to_string(),
            Answer::Tally(tally) => words::tally(tally),
            Answer::Drain(budget, drained) => words::drained(*budget, drained),
            Answer::Done(accepted, pairs) => words::summary(*accepted, *pairs),
        };
        line + "\n"
    }

    fn object(&self) -> Object {
        match self {
            Answer::Accepted(_, event, place, receivers) => {
                let object = Object::of_kind("event").number("place", *place as u64);
                let object = object.words("event", &event.to_string());
                object.number("deliveries", receivers.len() as u64).set("receivers", *receivers)
            }
            Answer::Refusal(refusal, said) => refused(refusal, said),
            Answer::Network(network) => {
                let peers = network.desks().map(|(peer, desk)| peer_object(peer, &desk));
                let object = Object::of_kind("network").objects("peers", peers);
                object.number("pending_pairs", network.pending_pairs() as u64)
            }
            Answer::Message(network, table, message) => message_object(network, table, *message),
            Answer::Image(image) => {
                let peers = image.desks().map(|(peer, desk)| topics(peer, &desk).set("seen", desk.seen));
                Object::of_kind("image").objects("peers", peers)
            }
            Answer::Tally(tally) => counts(Object::of_kind("tally"), tally),
            Answer::Drain(budget, drained) => drain_object(*budget, drained),
            Answer::Run(file, accepted, tally, _) => {
                counts(Object::of_kind("run").words("file", file).number("accepted", *accepted as u64), tally)
            }
            Answer::Said(said) => Object::of_kind("say").words("words", said),
            Answer::Note(said) => Object::of_kind("note").words("words", said),
            Answer::Help => Object::of_kind("help").words("words", HELP),
            Answer::Done(accepted, pairs) => {
                Object::of_kind("done").number("accepted", *accepted as u64).number("pending_pairs", *pairs as u64)
            }
        }
    }
}

pub fn refused(refusal: &Refusal, said: &str) -> Object {
    let object = Object::of_kind("refusal").number("number", refusal.reason.number().into());
    object.number("place", refusal.place as u64).number("detail", refusal.detail.into()).words("words", said)
}

/// A peer with its topics, as in networks and images.
fn topics(peer: Peer, desk: &Desk) -> Object {
    Object::new().number("peer", peer.get().into()).set("subs", desk.subs).set("pubs", desk.pubs)
}

/// A peer with all that it has but its known subscribers.
pub fn peer_in_short(peer: Peer, desk: &Desk) -> Object {
    let topics = topics(peer, desk).set("neighbours", desk.neighbours);
    topics.set("pending", desk.pending).set("seen", desk.seen)
}

fn peer_object(peer: Peer, desk: &Desk) -> Object {
    let known = Topic::all().filter(|&topic| !desk.known(topic).is_empty());
    let known = known.map(|topic| Object::new().number("topic", topic.get().into()).set("peers", desk.known(topic)));
    peer_in_short(peer, desk).objects("known", known)
}

fn message_object(network: &Network, table: &Table, message: Message) -> Object {
    let (row, (holding, seen)) = (table.row(message), network.holders(message));
    let object = Object::of_kind("message").number("message", message.get().into());
    let object = object.number("topic", row.topic.get().into()).number("origin", row.origin.get().into());
    object.set("pending", holding).set("seen", seen)
}

fn counts(object: Object, tally: &Tally) -> Object {
    object.number("produced", tally.produced).number("forwards", tally.forwards).number("deliveries", tally.deliveries)
}

fn drain_object(budget: u32, drained: &Drained) -> Object {
    let object = Object::of_kind("drain").number("budget", budget.into()).number("forwards", drained.forwards.into());
    object.number("rounds", drained.rounds.into()).flag("quiet", drained.quiet)
}
