//! Arrows: one for each delivery of the last forward, and none where there is no such forward.

use super::*;

/// The picture and the DOT of a network right after a forward.
fn drawn_after(network: &Network, message: Option<Message>, forward: Forward) -> (String, String) {
    let subject = Subject { network, table: &Table::zero(), message, forward: Some(forward) };
    (svg(&subject), dot(&subject))
}

/// The arrows of a picture are the forward's deliveries: each goes from edge to edge of two desks, along their link.
fn measure_arrows(svg: &str, network: &Network, forward: &Forward) {
    let read = measure(svg);
    let disc = |peer: Peer| read.discs[network.desks().position(|(other, _)| other == peer).unwrap()];
    assert_eq!(read.arrows.len(), forward.receivers.len());
    for (arrow, receiver) in read.arrows.iter().zip(forward.receivers.members()) {
        let (from, to) = (disc(forward.sender), disc(receiver));
        assert_eq!(arrow.tooltip, format!("{} to {receiver}: message {}", forward.sender, forward.message));
        assert!((RADIUS..RADIUS + 6.0).contains(&from.distance(arrow.line.from)), "{} leaves", arrow.tooltip);
        assert!((RADIUS..RADIUS + 6.0).contains(&to.distance(arrow.line.to)), "{} arrives", arrow.tooltip);
        assert!(arrow.barbs.iter().all(|barb| barb.distance(to) > arrow.line.to.distance(to) + 5.0), "its head");
        let is_theirs = |link: &&Curve| [(link.from, link.to), (link.to, link.from)].contains(&(from, to));
        let link = read.links.iter().find(is_theirs).expect("their link");
        for place in arrow.line.places() {
            let near = link.places().map(|other| other.distance(place)).fold(f64::MAX, f64::min);
            assert!(near < 8.0, "{} is {near} beside the link", arrow.tooltip);
        }
    }
}

#[test]
fn a_forward_has_an_arrow_to_each_receiver() {
    let (network, forward) = square();
    for message in [None, Message::new(5)] {
        let (svg, dot) = drawn_after(&network, message, forward);
        measure_arrows(&svg, &network, &forward);
        assert!(
            svg.contains(&format!("stroke=\"{ARROW}\"")) && svg.contains(">message 5, delivered by the last forward<")
        );
        let arrow = "    0 -- 7 [dir=forward, color=\"#1155cc\", penwidth=3, tooltip=\"0 to 7: message 5\"];\n";
        let meaning = "\\narrow: message 5, delivered by the last forward\";\n";
        assert!(dot.contains(arrow) && dot.contains(meaning), "{dot}");
        let without = dot.replace(arrow, "    0 -- 7;\n").replace(meaning, "\";\n");
        assert_eq!(without, dot_of(&network, message), "nothing else differs");
    }
}

#[test]
fn all_others_of_32_desks_get_an_arrow() {
    let mut network = desks(32, "0", |_, _| true);
    network.apply(&Table::zero(), &"produce 0 5".parse().unwrap()).unwrap();
    let (network, forward) = forwarded(network, "forward 0 5");
    assert_eq!(forward.receivers.len(), 31);
    let (svg, dot) = drawn_after(&network, Message::new(5), forward);
    measure_arrows(&svg, &network, &forward);
    assert_eq!((dot.matches(" -- ").count(), dot.matches("dir=forward").count()), (496, 31));
}

#[test]
fn an_arrow_begins_at_the_sender_whatever_its_number() {
    let lines = ["join 0 pubs 0", "join 3 subs 0", "join 9 subs 0 neighbours 0,3", "produce 0 5", "forward 0 5"];
    let (network, forward) = forwarded(after(&lines.map(String::from)), "forward 9 5");
    let (svg, dot) = drawn_after(&network, None, forward);
    measure_arrows(&svg, &network, &forward);
    assert!(
        dot.contains("    0 -- 9;\n    9 -- 3 [dir=forward, ") && dot.contains("tooltip=\"9 to 3: message 5\"]"),
        "{dot}"
    );
}

#[test]
fn without_deliveries_of_the_message_there_is_no_arrow() {
    let (network, forward) = square();
    let other = Message::new(6);
    assert_eq!(drawn_after(&network, other, forward), (svg_of(&network, other), dot_of(&network, other)));
    let (network, _) = forwarded(network, "forward 7 5");
    let (network, last) = forwarded(network, "forward 31 5");
    assert!(last.receivers.is_empty());
    for message in [None, Message::new(5)] {
        let (svg, dot) = drawn_after(&network, message, last);
        assert_eq!((&svg, &dot), (&svg_of(&network, message), &dot_of(&network, message)));
        assert!(!svg.contains("arrow") && !svg.contains(ARROW) && !dot.contains("dir="));
    }
}
