//! The links of a network as a picture: SVG, drawn here, or DOT for Graphviz. With a message, each desk shows how it
//! stands to it, by colour and in words. Right after a forward, an arrow for each delivery.
//!
//! `layout` says where things are, `svg` writes them; `geometry` measures.

pub mod geometry;
pub mod layout;
mod svg;
#[cfg(test)]
mod tests;

use crate::forward::Forward;
use crate::words;
use relay_host::{Desk, Message, Network, Number, Peer, Set, Table};
use std::fmt::Write;

pub use svg::{ring_area, svg};

/// Arrows have a colour that nothing else has.
const ARROW: &str = "#1155cc";

/// What a picture is of.
pub struct Subject<'a> {
    pub network: &'a Network,
    pub table: &'a Table,
    /// The one that it shows; none if it shows where anything is pending.
    pub message: Option<Message>,
    /// What was done last, if it is a forward.
    pub forward: Option<Forward>,
}

impl Subject<'_> {
    /// The forward whose deliveries are drawn. A picture of a message has those of this message only.
    fn arrows(&self) -> Option<Forward> {
        let is_shown = |message| self.message.unwrap_or(message) == message;
        self.forward.filter(|forward| is_shown(forward.message) && !forward.receivers.is_empty())
    }

    fn title(&self) -> String {
        match self.message {
            Some(message) => words::message(self.network, self.table, message),
            None => words::overview(self.network),
        }
    }
}

/// What an arrow stands for, in the legend.
fn meaning(forward: &Forward) -> String {
    format!("message {}, delivered by the last forward", forward.message)
}

/// What an arrow stands for, in its tooltip.
fn delivery(forward: &Forward, receiver: Peer) -> String {
    format!("{} to {receiver}: message {}", forward.sender, forward.message)
}

/// How a desk stands to a message, or to all of them. Each has a colour of its own.
#[derive(Clone, Copy, Debug, PartialEq, Eq)]
pub enum Look {
    Holds,
    Seen,
    Waits,
    Apart,
    Busy,
    Quiet,
}

use Look::*;

impl Look {
    pub const OF_A_MESSAGE: [Look; 4] = [Holds, Seen, Waits, Apart];
    pub const OF_A_NETWORK: [Look; 2] = [Busy, Quiet];

    fn to_message(desk: &Desk, table: &Table, message: Message) -> Look {
        if desk.pending.has(message) {
            Holds
        } else if desk.seen.has(message) {
            Seen
        } else if desk.subs.has(table.row(message).topic) {
            Waits
        } else {
            Apart
        }
    }

    pub fn colour(self) -> &'static str {
        match self {
            Holds => "#f6b26b",
            Seen => "#93c47d",
            Waits => "#fff2a8",
            Apart => "#d9d9d9",
            Busy => "#d5a6e6",
            Quiet => "#cfe2f3",
        }
    }

    /// What stands beside a desk; nothing where the desk's sets do.
    fn words(self) -> &'static str {
        match self {
            Holds => "holds it",
            Seen => "has seen it",
            Waits => "subscribes",
            Apart => "not subscribed",
            Busy | Quiet => "",
        }
    }

    /// What stands in the legend.
    pub fn meaning(self) -> &'static str {
        match self {
            Holds => "holds it, and has yet to forward it",
            Seen => "has seen it, and has forwarded it",
            Waits => "subscribes to its topic, hasn't got it",
            Apart => "not subscribed to its topic, hasn't got it",
            Busy => "something is pending at this desk",
            Quiet => "nothing is pending at this desk",
        }
    }
}

/// A desk as it is drawn.
struct Node {
    peer: Peer,
    look: Look,
    /// What stands beside it.
    lines: Vec<String>,
    /// All that there is to say of it.
    tooltip: String,
}

fn nodes(subject: &Subject) -> Vec<Node> {
    let node = |(peer, desk): (Peer, Desk)| {
        let (look, lines) = match subject.message {
            Some(message) => {
                let look = Look::to_message(&desk, subject.table, message);
                (look, vec![look.words().to_string()])
            }
            None => (if desk.pending.is_empty() { Quiet } else { Busy }, sets(&desk)),
        };
        Node { peer, look, lines, tooltip: tooltip(peer, &desk) }
    };
    subject.network.desks().map(node).collect()
}

/// A desk's topics, cut short, and how many messages it has; nothing for what is empty.
fn sets(desk: &Desk) -> Vec<String> {
    let lines = [
        (desk.subs.is_empty(), format!("subs {}", short(desk.subs))),
        (desk.pubs.is_empty(), format!("pubs {}", short(desk.pubs))),
        (desk.pending.is_empty(), format!("{} pending", desk.pending.len())),
        (desk.seen.is_empty(), format!("{} seen", desk.seen.len())),
    ];
    lines.into_iter().filter(|(empty, _)| !empty).map(|(_, line)| line).collect()
}

fn tooltip(peer: Peer, desk: &Desk) -> String {
    let Desk { subs, pubs, neighbours, pending, seen, .. } = desk;
    format!("desk {peer}: subs {subs}; pubs {pubs}; neighbours {neighbours}; pending {pending}; seen {seen}")
}

/// A set of at most nine letters: of a longer one its beginning, and how many more there are, `0,2,4,+13`.
fn short<N: Number>(set: Set<N>) -> String {
    let whole = set.to_string();
    if whole.len() <= 9 {
        return whole;
    }
    let mut start = String::new();
    let mut shown = 0;
    for part in whole.split(',') {
        if !start.is_empty() && start.len() + 1 + part.len() > 5 {
            break;
        }
        start = if start.is_empty() { part.into() } else { format!("{start},{part}") };
        shown += members(part);
    }
    format!("{start},+{}", set.len() - shown)
}

/// How many members a part of a set's text has: `5` or `5-7`.
fn members(part: &str) -> usize {
    let ends = part.split_once('-').and_then(|(first, last)| Some((first.parse().ok()?, last.parse().ok()?)));
    ends.map_or(1, |(first, last): (usize, usize)| last - first + 1)
}

/// Every link once, from the lower peer to the higher.
pub fn links(network: &Network) -> impl Iterator<Item = (Peer, Peer)> + '_ {
    network.desks().flat_map(|(peer, desk)| {
        desk.neighbours.members().filter(move |&other| peer < other).map(move |other| (peer, other))
    })
}

/// The network in Graphviz's language. A link with a delivery begins at the sender, and has an arrow's head.
pub fn dot(subject: &Subject) -> String {
    let mut text = String::from("graph network {\n");
    let arrows = subject.arrows();
    let legend = arrows.map(|forward| format!("\\narrow: {}", meaning(&forward)));
    let _ = writeln!(text, "    label=\"{}{}\";", subject.title(), legend.unwrap_or_default());
    text += "    node [shape=circle, style=filled, fontname=\"sans-serif\"];\n";
    for node in nodes(subject) {
        let label = [vec![node.peer.to_string()], node.lines].concat().join("\\n");
        let colour = node.look.colour();
        let _ = writeln!(
            text,
            "    {} [label=\"{label}\", fillcolor=\"{colour}\", tooltip=\"{}\"];",
            node.peer, node.tooltip
        );
    }
    for (one, other) in links(subject.network) {
        let arrow = arrows.and_then(|forward| dot_arrow(&forward, one, other));
        let _ = writeln!(text, "    {};", arrow.unwrap_or_else(|| format!("{one} -- {other}")));
    }
    text + "}\n"
}

/// A link as an arrow; none if the forward delivered nothing along it.
fn dot_arrow(forward: &Forward, one: Peer, other: Peer) -> Option<String> {
    let (from, to) = [(one, other), (other, one)]
        .into_iter()
        .find(|(from, to)| *from == forward.sender && forward.receivers.has(*to))?;
    let tooltip = delivery(forward, to);
    Some(format!("{from} -- {to} [dir=forward, color=\"{ARROW}\", penwidth=3, tooltip=\"{tooltip}\"]"))
}
