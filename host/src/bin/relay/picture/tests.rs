//! Pictures as they are written, read back and measured.

mod arrows;

use super::geometry::{width, Area, Curve, Place};
use super::*;
use crate::forward::apply;
use relay_host::Event;

/// A picture read back: every element stands on a line of its own.
struct Read {
    frame: Area,
    discs: Vec<Place>,
    links: Vec<Curve>,
    arrows: Vec<Arrow>,
    texts: Vec<(String, Area)>,
    swatches: Vec<Area>,
}

/// An arrow: its line, where the strokes of its head begin, and its tooltip.
struct Arrow {
    line: Curve,
    barbs: [Place; 2],
    tooltip: String,
}

const RADIUS: f64 = 24.0;

fn attribute<'a>(line: &'a str, name: &str) -> Option<&'a str> {
    let (_, rest) = line.split_once(&format!(" {name}=\""))?;
    rest.split('"').next()
}

fn number(line: &str, name: &str) -> f64 {
    attribute(line, name).and_then(|text| text.parse().ok()).unwrap_or_else(|| panic!("{name} in {line}"))
}

fn numbers(text: &str) -> Vec<f64> {
    text.split(' ').filter_map(|word| word.parse().ok()).collect()
}

/// The places of a path, one after another.
fn places_of(line: &str) -> Vec<Place> {
    numbers(attribute(line, "d").unwrap()).chunks(2).map(|pair| Place { x: pair[0], y: pair[1] }).collect()
}

fn box_of(line: &str) -> Area {
    let (left, top) = (number(line, "x"), number(line, "y"));
    Area { left, top, right: left + number(line, "width"), bottom: top + number(line, "height") }
}

fn text_of(line: &str) -> (String, Area) {
    let words = line.split(['<', '>']).nth(2).unwrap();
    let size = attribute(line, "font-size").map_or(12.0, |size| size.parse().unwrap());
    let (x, y, wide) = (number(line, "x"), number(line, "y"), width(words, size));
    let left = match attribute(line, "text-anchor") {
        Some("start") => x,
        Some("middle") => x - wide / 2.0,
        Some("end") => x - wide,
        other => panic!("{other:?} in {line}"),
    };
    (words.into(), Area { left, top: y - 0.75 * size, right: left + wide, bottom: y + 0.25 * size })
}

fn read(svg: &str) -> Read {
    let lines = |start: &'static str| svg.lines().filter(move |line| line.starts_with(start));
    let head = numbers(attribute(svg, "viewBox").unwrap());
    let frame = Area { left: head[0], top: head[1], right: head[0] + head[2], bottom: head[1] + head[3] };
    let place = |line| Place { x: number(line, "cx"), y: number(line, "cy") };
    let curve = |line| match places_of(line)[..] {
        [from, bend, to] => Curve { from, bend, to },
        _ => panic!("{line}"),
    };
    let arrow = |line: &str| match places_of(line)[..] {
        [from, bend, to, one, tip, other] if tip == to => {
            let tooltip = line.split(['<', '>']).nth(4).unwrap().into();
            Arrow { line: Curve { from, bend, to }, barbs: [one, other], tooltip }
        }
        _ => panic!("{line}"),
    };
    Read {
        frame,
        discs: lines("<circle").map(place).collect(),
        links: lines("<path d").map(curve).collect(),
        arrows: lines("<path class=\"arrow\"").map(arrow).collect(),
        texts: lines("<text").map(text_of).collect(),
        swatches: lines("<rect").skip(1).map(box_of).collect(),
    }
}

fn inside(outer: Area, inner: Area) -> bool {
    outer.with(inner) == outer
}

/// Nothing is outside the frame, no words stand on words, on a desk, on a link or on an arrow, and no link runs behind a third
/// desk.
fn measure(svg: &str) -> Read {
    let read = read(svg);
    let words: Vec<&(String, Area)> = read.texts.iter().filter(|(text, _)| text.parse::<u8>().is_err()).collect();
    for (place, (text, area)) in words.iter().enumerate() {
        assert!(inside(read.frame, *area), "{text} is outside");
        for (other, there) in &words[place + 1..] {
            assert!(!area.overlaps(*there), "{text} stands on {other}");
        }
        for swatch in &read.swatches {
            assert!(!area.overlaps(*swatch), "{text} stands on a colour of the legend");
        }
        for disc in &read.discs {
            assert!(area.distance(*disc) > RADIUS + 3.0, "{text} stands on a desk");
        }
        let arrows = read.arrows.iter().flat_map(|arrow| arrow.line.places().chain(arrow.barbs));
        for place in read.links.iter().flat_map(|link| link.places()).chain(arrows) {
            assert!(area.distance(place) > 1.0, "a link or an arrow runs through {text}");
        }
    }
    for (place, disc) in read.discs.iter().enumerate() {
        assert!(inside(read.frame, Area::around(*disc, RADIUS)));
        assert!(read.discs[place + 1..].iter().all(|other| disc.distance(*other) > 2.0 * RADIUS));
    }
    for link in &read.links {
        assert!(read.discs.contains(&link.from) && read.discs.contains(&link.to) && link.from != link.to);
        for disc in read.discs.iter().filter(|&&disc| disc != link.from && disc != link.to) {
            let near = link.places().map(|place| place.distance(*disc)).fold(f64::MAX, f64::min);
            assert!(near > RADIUS + 2.0, "the link {link:?} passes {disc:?} at {near}");
        }
    }
    read
}

fn svg_of(network: &Network, message: Option<Message>) -> String {
    svg(&Subject { network, table: &Table::zero(), message, forward: None })
}

fn dot_of(network: &Network, message: Option<Message>) -> String {
    dot(&Subject { network, table: &Table::zero(), message, forward: None })
}

fn after(lines: &[String]) -> Network {
    let mut network = Network::blank();
    let events: Vec<Event> = lines.iter().map(|line| line.parse().unwrap()).collect();
    assert_eq!(network.run(&Table::zero(), &events).refusal, None);
    network
}

/// A network after one more forward, and that forward.
fn forwarded(mut network: Network, line: &str) -> (Network, Forward) {
    let done = apply(&mut network, &Table::zero(), &line.parse().unwrap()).unwrap();
    (network, done.forward().expect("a forward"))
}

/// Desk 0 has passed message 5 to desk 7; desk 9 doesn't subscribe.
fn square() -> (Network, Forward) {
    let joins = ["join 0 pubs 0", "join 7 subs 0 neighbours 0", "join 9 neighbours 0", "join 31 subs 0 neighbours 7,9"];
    let lines: Vec<String> = joins.into_iter().chain(["produce 0 5"]).map(String::from).collect();
    forwarded(after(&lines), "forward 0 5")
}

/// So many desks, each linked to all of those before it that `linked` says, with such sets of topics.
fn desks(count: usize, topics: &str, linked: impl Fn(usize, usize) -> bool) -> Network {
    let join = |peer: usize| {
        let neighbours: Vec<String> = (0..peer).filter(|&other| linked(other, peer)).map(|n| n.to_string()).collect();
        let neighbours = if neighbours.is_empty() { "none".into() } else { neighbours.join(",") };
        format!("join {peer} subs {topics} pubs {topics} neighbours {neighbours}")
    };
    after(&(0..count).map(join).collect::<Vec<String>>())
}

const EVEN: &str = "0,2,4,6,8,10,12,14,16,18,20,22,24,26,28,30";

#[test]
fn every_peer_and_link_is_drawn_once() {
    let read = measure(&svg_of(&square().0, None));
    assert_eq!((read.discs.len(), read.links.len()), (4, 4));
    let dot = dot_of(&square().0, None);
    assert_eq!((dot.matches("fillcolor").count(), dot.matches(" -- ").count()), (4, 4));
}

#[test]
fn any_number_of_desks_fully_linked_can_be_read() {
    for count in 0..=32 {
        let network = desks(count, "0", |_, _| true);
        let message = Message::new(5).filter(|_| count % 2 == 0);
        let read = measure(&svg_of(&network, message));
        assert_eq!((read.discs.len(), read.links.len()), (count, count * count.saturating_sub(1) / 2));
    }
}

#[test]
fn many_topics_and_messages_are_cut_short_and_told_in_full_by_the_tooltip() {
    let mut network = desks(32, EVEN, |one, other| one == 0 || other - one < 4);
    let produced: Vec<Event> = (0..64).map(|message| format!("produce 0 {message}").parse().unwrap()).collect();
    assert_eq!(network.run(&Table::zero(), &produced).accepted, 64);
    for peer in Peer::all() {
        for message in Message::all().take(20) {
            network.forward(&Table::zero(), peer, message).unwrap();
        }
    }
    assert!(network.drain(&Table::zero(), 44).is_ok());
    let svg = svg_of(&network, None);
    let read = measure(&svg);
    for (line, desks) in
        [("subs 0,2,4,+13", 32), ("pubs 0,2,4,+13", 32), ("44 pending", 31), ("20 seen", 31), ("64 seen", 1)]
    {
        assert_eq!(read.texts.iter().filter(|(text, _)| text == line).count(), desks, "{line}");
    }
    assert_eq!(svg.matches(&format!("subs {EVEN}; pubs {EVEN}; ")).count(), 32);
    assert!(read.frame.width() < 1600.0 && read.frame.height() < 1600.0, "{:?}", read.frame);
}

#[test]
fn a_long_title_has_room() {
    let star = [10, 12, 20, 22, 24].map(|peer| format!("join {peer} subs 0 neighbours 0"));
    let forwards = ["produce 0 5", "forward 0 5", "forward 10 5", "forward 12 5"].map(String::from);
    let network = after(&[&["join 0 pubs 0".to_string()], &star[..], &forwards[..]].concat());
    let read = measure(&svg_of(&network, Message::new(5)));
    let title = "message 5 (topic 0, origin 0): pending at 20,22,24, seen by 0,10,12";
    assert!(read.texts.iter().any(|(text, area)| text == title && area.width() > read.frame.width() - 50.0));
    measure(&svg_of(&desks(1, "0", |_, _| false), Message::new(5)));
}

#[test]
fn a_colour_has_one_meaning_and_the_legend_says_it() {
    let all: Vec<Look> = [&Look::OF_A_MESSAGE[..], &Look::OF_A_NETWORK[..]].concat();
    for (place, look) in all.iter().enumerate() {
        let others = all[place + 1..].iter().flat_map(|other| [other.colour(), other.meaning()]);
        assert!(others
            .chain(["#ffffff", "#666666", ARROW])
            .all(|other| other != look.colour() && other != look.meaning()));
    }
    for (message, looks) in [(Message::new(5), &Look::OF_A_MESSAGE[..]), (None, &Look::OF_A_NETWORK[..])] {
        let svg = svg_of(&square().0, message);
        let lines: Vec<&str> = svg.lines().collect();
        for look in looks {
            let colour = format!("height=\"14\" fill=\"{}\"", look.colour());
            let at = lines.iter().position(|line| line.contains(&colour)).expect("the colour is in the legend");
            assert!(lines[at + 1].contains(&format!(">{}<", look.meaning())), "{}", lines[at + 1]);
        }
        let used = lines.iter().filter(|line| line.starts_with("<circle")).map(|line| attribute(line, "fill").unwrap());
        assert!(used.into_iter().all(|colour| looks.iter().any(|look| look.colour() == colour)));
        assert!(svg.contains(">a link between two neighbours<"));
    }
}

#[test]
fn a_message_colours_the_peers() {
    let dot = dot_of(&square().0, Message::new(5));
    for line in [
        "label=\"message 5 (topic 0, origin 0): pending at 7, seen by 0\";",
        "0 [label=\"0\\nhas seen it\", fillcolor=\"#93c47d\", tooltip=",
        "7 [label=\"7\\nholds it\", fillcolor=\"#f6b26b\", tooltip=",
        "9 [label=\"9\\nnot subscribed\", fillcolor=\"#d9d9d9\", tooltip=",
        "31 [label=\"31\\nsubscribes\", fillcolor=\"#fff2a8\", tooltip=\"desk 31: subs 0; pubs none; neighbours 7,9; ",
    ] {
        assert!(dot.contains(line), "{line} in {dot}");
    }
}

#[test]
fn a_blank_network_is_a_picture_too() {
    let svg = svg_of(&Network::blank(), None);
    measure(&svg);
    assert!(svg.contains("0 peers present, nothing pending") && !svg.contains("NaN"));
}

#[test]
fn sets_are_cut_short_with_the_rest_counted() {
    for (word, said) in [
        (0, "none"),
        (0b10_0101, "0,2,5"),
        (u64::MAX, "0-31"),
        (0x5555_5555, "0,2,4,+13"),
        (0xaaaa_a000, "13,15,+8"),
        (0x7000_1c0e, "1-3,+6"),
    ] {
        assert_eq!(short(Set::<relay_host::Topic>::of_word(word)), said);
    }
    assert_eq!(short(Set::<Message>::of_word(0x7000_7000_7000_7000)), "12-14,+9");
}
