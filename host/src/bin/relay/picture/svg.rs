//! A picture as SVG. What is too long for it is in tooltips, which a browser shows where the pointer rests.

use super::geometry::{tenths, width, Area, Curve, Place};
use super::layout::{link, spots, Anchor, Label, Spot, LETTERS, LINE, RADIUS};
use super::{delivery, links, meaning, nodes, Look, Node, Subject, ARROW};
use crate::forward::Forward;
use relay_host::{Network, Peer};

const BACKGROUND: &str = "#ffffff";
const LINK: &str = "#666666";

/// Room round the picture, between its parts, and for a colour in the legend.
const MARGIN: f64 = 16.0;
const SWATCH: f64 = 14.0;
const ENTRY: f64 = 20.0;

/// So far arrows keep from the desk that they come from and from the one that they point at; and the length of their heads.
const LEAVING: f64 = 2.0;
const REACHING: f64 = 4.0;
const HEAD: f64 = 10.0;

/// With more links than this they are drawn thin.
const MANY: usize = 64;

/// A line of the legend: a colour, a link, an arrow or nothing, and what it stands for.
struct Entry {
    sign: Sign,
    words: String,
}

enum Sign {
    Colour(&'static str),
    Link,
    Arrow,
    Nothing,
}

fn legend(subject: &Subject) -> Vec<Entry> {
    let looks = if subject.message.is_some() { &Look::OF_A_MESSAGE[..] } else { &Look::OF_A_NETWORK[..] };
    let entry = |sign, words: &str| Entry { sign, words: words.into() };
    let mut entries: Vec<Entry> = looks.iter().map(|look| entry(Sign::Colour(look.colour()), look.meaning())).collect();
    entries.push(entry(Sign::Link, "a link between two neighbours"));
    entries.extend(subject.arrows().map(|forward| entry(Sign::Arrow, &meaning(&forward))));
    if subject.message.is_none() {
        entries.push(entry(Sign::Nothing, "subs, pubs: topics subscribed to, topics published"));
        entries.push(entry(Sign::Nothing, "+3: three more; a desk's tooltip has them all"));
    }
    entries
}

/// The network as an SVG picture: title, ring and legend, one under the other.
pub fn svg(subject: &Subject) -> String {
    let nodes = nodes(subject);
    let words: Vec<Vec<String>> = nodes.iter().map(|node| node.lines.clone()).collect();
    let spots = spots(&words);
    let title = subject.title();
    let legend = legend(subject);
    let ring = ring_area(&spots);
    let wide = legend.iter().map(|entry| width(&entry.words, LETTERS)).fold(0.0, f64::max) + SWATCH + 8.0;
    let half = (width(&title, LETTERS).max(wide) / 2.0).max(ring.right).max(-ring.left);
    let frame = Area {
        left: -half,
        top: ring.top - MARGIN - LINE,
        right: half,
        bottom: ring.bottom + MARGIN + ENTRY * legend.len() as f64,
    };
    let mut text = opening(frame.grown(MARGIN), &title);
    text += &words_at(Place { x: 0.0, y: frame.top + LINE - 3.0 }, Anchor::Middle, &title);
    text += &drawn_links(subject.network, &nodes, &spots);
    text += &subject.arrows().map_or(String::new(), |forward| drawn_arrows(&forward, &nodes, &spots));
    for (node, spot) in nodes.iter().zip(&spots) {
        text += &drawn(node, spot);
    }
    for (place, entry) in legend.iter().enumerate() {
        let at = Place { x: (-wide / 2.0).round(), y: (ring.bottom + MARGIN + ENTRY * place as f64).round() };
        text += &explained(entry, at);
    }
    text + "</svg>\n"
}

/// The area of the desks and their words.
pub fn ring_area(spots: &[Spot]) -> Area {
    let areas = spots.iter().flat_map(|spot| [Area::around(spot.at, RADIUS), spot.label.area]);
    areas.fold(Area { left: 0.0, top: 0.0, right: 0.0, bottom: 0.0 }, Area::with)
}

/// The picture's frame, background and title.
fn opening(frame: Area, title: &str) -> String {
    let (left, top) = (frame.left.floor(), frame.top.floor());
    let (wide, high) = ((frame.width() + 1.0).ceil(), (frame.height() + 1.0).ceil());
    format!(
        "<svg xmlns=\"http://www.w3.org/2000/svg\" viewBox=\"{left} {top} {wide} {high}\" width=\"{wide}\" \
         height=\"{high}\" font-family=\"sans-serif\" font-size=\"{LETTERS}\">\n\
         <title>{title}</title>\n\
         <style>path:hover {{ stroke: #000000; stroke-width: 4; stroke-opacity: 1 }}</style>\n\
         <rect x=\"{left}\" y=\"{top}\" width=\"{wide}\" height=\"{high}\" fill=\"{BACKGROUND}\"/>\n"
    )
}

/// The link of two desks that are present.
fn linked(nodes: &[Node], spots: &[Spot], one: Peer, other: Peer) -> Curve {
    let place = |peer| nodes.iter().position(|node| node.peer == peer).expect("both ends of a link are present");
    link(spots, place(one), place(other))
}

/// Every link, with its two desks as tooltip.
fn drawn_links(network: &Network, nodes: &[Node], spots: &[Spot]) -> String {
    let links: Vec<_> = links(network).collect();
    let (thick, opaque) = if links.len() > MANY { (1, 0.6) } else { (2, 1.0) };
    let start = format!("<g fill=\"none\" stroke=\"{LINK}\" stroke-width=\"{thick}\" stroke-opacity=\"{opaque}\">\n");
    let drawn = links.into_iter().map(|(one, other)| {
        let Curve { from, bend, to } = linked(nodes, spots, one, other);
        format!(
            "<path d=\"M {} {} Q {} {} {} {}\"><title>{one} - {other}</title></path>\n",
            from.x, from.y, bend.x, bend.y, to.x, to.y
        )
    });
    start + &drawn.collect::<String>() + "</g>\n"
}

/// An arrow for each delivery of a forward, along the link from edge to edge of the desks, with both and the message as tooltip.
fn drawn_arrows(forward: &Forward, nodes: &[Node], spots: &[Spot]) -> String {
    let start = format!("<g fill=\"none\" stroke=\"{ARROW}\" stroke-width=\"3\" stroke-linejoin=\"round\">\n");
    let drawn = forward.receivers.members().map(|receiver| {
        let link = linked(nodes, spots, forward.sender, receiver);
        let arrow = link.cut(RADIUS + LEAVING, RADIUS + REACHING);
        let [one, other] = arrow.barbs(HEAD);
        let [from, bend, to, one, other] =
            [arrow.from, arrow.bend, arrow.to, one, other].map(|Place { x, y }| format!("{} {}", tenths(x), tenths(y)));
        format!(
            "<path class=\"arrow\" d=\"M {from} Q {bend} {to} M {one} L {to} L {other}\"><title>{}</title></path>\n",
            delivery(forward, receiver)
        )
    });
    start + &drawn.collect::<String>() + "</g>\n"
}

fn words_at(at: Place, anchor: Anchor, words: &str) -> String {
    let anchor = match anchor {
        Anchor::Start => "start",
        Anchor::Middle => "middle",
        Anchor::End => "end",
    };
    format!("<text x=\"{:.1}\" y=\"{:.1}\" text-anchor=\"{anchor}\">{words}</text>\n", at.x, at.y)
}

/// A desk: a circle with its number, its words, and all that is known of it as tooltip.
fn drawn(node: &Node, spot: &Spot) -> String {
    let Place { x, y } = spot.at;
    let mut text = format!(
        "<g><title>{}</title>\n\
         <circle cx=\"{x:.1}\" cy=\"{y:.1}\" r=\"{RADIUS}\" fill=\"{}\" stroke=\"#333333\" stroke-width=\"2\"/>\n\
         <text x=\"{x:.1}\" y=\"{:.1}\" text-anchor=\"middle\" font-size=\"18\" font-weight=\"bold\">{}</text>\n",
        node.tooltip,
        node.look.colour(),
        y + 6.0,
        node.peer
    );
    let Label { x, anchor, area, lines } = &spot.label;
    for (place, words) in lines.iter().enumerate() {
        text += &words_at(Place { x: *x, y: area.top + LINE * (place + 1) as f64 - 3.0 }, *anchor, words);
    }
    text + "</g>\n"
}

/// A line of the legend, its top left corner at a place.
fn explained(entry: &Entry, Place { x, y }: Place) -> String {
    let (middle, right) = (y + SWATCH / 2.0, x + SWATCH);
    let sign = match entry.sign {
        Sign::Colour(colour) => format!(
            "<rect x=\"{x}\" y=\"{y}\" width=\"{SWATCH}\" height=\"{SWATCH}\" fill=\"{colour}\" stroke=\"#333333\"/>\n"
        ),
        Sign::Link => format!(
            "<line x1=\"{x}\" y1=\"{middle}\" x2=\"{right}\" y2=\"{middle}\" stroke=\"{LINK}\" stroke-width=\"2\"/>\n"
        ),
        Sign::Arrow => format!(
            "<polyline points=\"{x},{middle} {right},{middle} {0},{1} {right},{middle} {0},{2}\" fill=\"none\" \
             stroke=\"{ARROW}\" stroke-width=\"3\" stroke-linejoin=\"round\"/>\n",
            right - 6.0,
            middle - 3.0,
            middle + 3.0
        ),
        Sign::Nothing => String::new(),
    };
    sign + &words_at(Place { x: right + 8.0, y: y + SWATCH - 3.0 }, Anchor::Start, &entry.words)
}
