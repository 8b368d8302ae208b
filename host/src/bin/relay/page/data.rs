//! The steps of a page as JSON: of each the desks and rows that differ from the step before, and once for all where desks and links
//! are drawn, on the ring of the pictures.

use super::steps::Step;
use crate::answer::peer_in_short;
use crate::forward::Forward;
use crate::json::{quoted, Object};
use crate::picture::geometry::{Area, Place};
use crate::picture::layout::{link, scaled_spots, Anchor, Spot, LETTERS, LINE, RADIUS};
use crate::picture::{links, ring_area, Look};
use relay_host::{Message, Number, Peer, Set};
use std::collections::BTreeSet;

/// Room round the picture, and half of what it is at least wide and high.
const MARGIN: f64 = 8.0;
const LEAST: f64 = 260.0;

/// A window shows 32 desks smaller than a picture does; with letters so much larger they can be read there.
const SCALE: f64 = 1.4;

/// The widest that the page writes beside a desk.
const WIDEST: [&str; 2] = ["64 pending", "circle 31"];

pub fn json(script: &str, steps: &[Step]) -> String {
    let present: Set<Peer> = steps.iter().flat_map(|step| step.network.desks().map(|(peer, _)| peer)).collect();
    let peers: Vec<Peer> = present.members().collect();
    let spots = scaled_spots(&vec![WIDEST.map(String::from).to_vec(); peers.len()], SCALE);
    let before = std::iter::once(None).chain(steps.iter().map(Some));
    let object = Object::new().words("script", script).field("radius", &RADIUS.to_string());
    let object =
        object.field("letters", &format!("{:.1}", SCALE * LETTERS)).field("line", &format!("{:.1}", SCALE * LINE));
    let object = object.field("view", &view(&spots)).objects("looks", looks());
    let object = object.list("spots", peers.iter().zip(&spots).map(|(peer, spot)| place(*peer, spot)));
    let object = object.list("links", curves(steps, &peers, &spots).into_iter());
    object.list("steps", before.zip(steps).map(|(before, after)| step(before, after))).end()
}

/// What the page writes beside a desk: shorter than in a picture, so that the ring of 32 stays small; the legend says it again.
fn word(look: Look) -> &'static str {
    match look {
        Look::Holds => "holds it",
        Look::Seen => "has seen",
        Look::Waits => "waits",
        Look::Apart => "apart",
        Look::Busy | Look::Quiet => "",
    }
}

/// How desks look, with the colours and meanings of the pictures.
fn looks() -> impl Iterator<Item = Object> {
    let looks = Look::OF_A_MESSAGE.into_iter().chain(Look::OF_A_NETWORK);
    looks.map(|look| {
        let object = Object::new().words("look", &format!("{look:?}").to_lowercase()).words("colour", look.colour());
        object.words("words", word(look)).words("meaning", look.meaning())
    })
}

/// The area of the picture: left, top, width, height.
fn view(spots: &[Spot]) -> String {
    let least = Area::around(Place { x: 0.0, y: 0.0 }, LEAST);
    let area = ring_area(spots).grown(MARGIN).with(least);
    let (left, top) = (area.left.floor(), area.top.floor());
    format!("[{left},{top},{},{}]", (area.width() + 1.0).ceil(), (area.height() + 1.0).ceil())
}

/// A desk's number and place, and where its words begin.
fn place(peer: Peer, spot: &Spot) -> String {
    let anchor = match spot.label.anchor {
        Anchor::Start => "start",
        Anchor::Middle => "middle",
        Anchor::End => "end",
    };
    let Place { x, y } = spot.at;
    format!("[{peer},{x},{y},{},{:.1},\"{anchor}\"]", spot.label.x, spot.label.area.top + SCALE * (LINE - 3.0))
}

/// Every link that there is at some step: its desks, and its two ends with the bend between them.
fn curves(steps: &[Step], peers: &[Peer], spots: &[Spot]) -> Vec<String> {
    let linked: BTreeSet<(Peer, Peer)> = steps.iter().flat_map(|step| links(&step.network)).collect();
    let curve = |(one, other): (Peer, Peer)| {
        let from = peers.binary_search(&one).ok()?;
        let to = peers.binary_search(&other).ok()?;
        let curve = link(spots, from, to);
        let (from, bend, to) = (curve.from, curve.bend, curve.to);
        Some(format!("[{one},{other},{},{},{},{},{},{}]", from.x, from.y, bend.x, bend.y, to.x, to.y))
    };
    linked.into_iter().filter_map(curve).collect()
}

/// Each delivery of a forward: its two desks, and the message.
fn deliveries(forward: &Forward) -> impl Iterator<Item = String> + '_ {
    let Forward { sender, message, receivers } = forward;
    receivers.members().map(move |receiver| format!("[{sender},{receiver},{message}]"))
}

/// A step, with what differs from the one before. The first one's desks and rows are those that aren't blank.
pub fn step(before: Option<&Step>, after: &Step) -> String {
    let old = |peer| before.and_then(|before| before.network.desk(peer));
    let changed = Peer::all().filter(|&peer| old(peer) != after.network.desk(peer));
    let desks = changed.map(|peer| match after.network.desk(peer) {
        Some(desk) => peer_in_short(peer, &desk).end(),
        None => peer.to_string(),
    });
    let row = |message| after.table.row(message);
    let is_new = |&message: &Message| match before {
        Some(before) => before.table.row(message) != row(message),
        None => true,
    };
    let rows = Message::all().filter(is_new);
    let rows = rows.map(|message| format!("[{message},{},{}]", row(message).topic, row(message).origin));
    let object = Object::new().number("line", after.line as u64).words("source", &after.source);
    let object = object.list("said", after.said.iter().map(|said| quoted(said))).words("text", &after.text);
    let object = object.flag("refused", after.refused).number("round", after.round as u64);
    let object = object.list("deliveries", after.forwards.iter().flat_map(deliveries));
    object.list("desks", desks).list("rows", rows).end()
}
