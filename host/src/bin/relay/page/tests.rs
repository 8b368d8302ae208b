//! What stands in a page is what the engine made.

use super::steps::MOST_STEPS;
use super::*;
use crate::answer::peer_in_short;
use crate::command::Command;
use crate::json::reader::is_json;
use relay_host::{Event, Network, Table};
use std::collections::BTreeMap;

/// Two messages that drain together, one of them by a longer way; a leave and a join of the same number.
const LINES: &str = "# a comment
table 9 topic 1 origin 3
join 0 pubs 0
join 1 subs 0 neighbours 0
join 2 subs 0,1 neighbours 1
join 3 subs 0 pubs 1 neighbours 2
show
say Off they go.
say
say Both of them.
produce 0 5
produce 3 9
drain
drain
refused 12 produce 0 5
leave 3
join 3 subs 0 neighbours 0
say That is all.";

fn steps(text: &str) -> Vec<Step> {
    match recorded("a script", text) {
        Ok((steps, None)) => steps,
        Ok((_, Some(trouble))) | Err(trouble) => panic!("{}", trouble.message()),
    }
}

#[test]
fn every_step_has_the_state_that_the_engine_leaves() {
    let (mut network, mut table) = (Network::blank(), Table::zero());
    let steps = steps(LINES);
    for step in &steps {
        match Command::of_line(&step.source).unwrap() {
            Some(Command::Event(event)) => {
                network.apply(&table, &event).unwrap();
            }
            Some(Command::Table(message, row)) => table.set(message, row),
            // As many forwards as there are pairs pending are a round.
            Some(Command::Drain(_)) if step.round > 0 => {
                let budget = u32::try_from(network.pending_pairs()).unwrap();
                assert_eq!(network.drain(&table, budget).unwrap().rounds, 1);
            }
            _ => {}
        }
        assert!(step.network == network && step.table == table, "line {}: {}", step.line, step.source);
    }
    let lines: Vec<(usize, usize)> = steps.iter().map(|step| (step.line, step.round)).collect();
    let events = [(0, 0), (2, 0), (3, 0), (4, 0), (5, 0), (6, 0), (11, 0), (12, 0)];
    let rest = [(13, 1), (13, 2), (13, 3), (13, 4), (14, 0), (15, 0), (16, 0), (17, 0), (18, 0)];
    assert_eq!(lines, [&events[..], &rest].concat());
}

#[test]
fn every_step_says_what_happened() {
    let steps = steps(LINES);
    let at = |line: usize| steps.iter().rfind(|step| step.line == line).unwrap();
    assert_eq!(at(0).text, "the start: a blank network");
    assert_eq!(at(2).text, "message 9 (topic 1, origin 3): nobody has it");
    assert_eq!((&at(11).said[..], at(11).refused), (&["Off they go.".to_string(), "Both of them.".into()][..], false));
    assert_eq!(at(11).text, "produce 0 5: pending at 0, seen by nobody");
    let last = "round 4 of a drain: 1 forward, 0 deliveries\ndrain 2048: 6 forwards, 4 rounds, nothing is pending";
    assert_eq!(at(13).text, last);
    assert_eq!(at(14).text, "drain 2048: 0 forwards, 0 rounds, nothing is pending");
    assert!(at(15).refused && at(15).text.starts_with("produce 0 5 is refused: message not new (12, event 6)"));
    assert_eq!((at(18).text.as_str(), at(18).said.len()), ("4 peers present, nothing pending", 1));
}

#[test]
fn deliveries_have_both_ends_and_the_message() {
    let steps = steps(LINES);
    let told = told_deliveries(&steps);
    let rounds: Vec<&str> =
        steps.iter().zip(&told).filter(|(step, _)| step.round > 0).map(|(_, told)| &told[..]).collect();
    assert_eq!(rounds, ["[0,1,5],[3,2,9]", "[1,2,5]", "[2,3,5]", ""]);
}

/// Desk 2 holds the message already when desk 1 forwards it.
const SQUARE: &str = "join 0 pubs 0
join 1 subs 0 neighbours 0
join 2 subs 0 neighbours 0,1
join 3 subs 0 neighbours 1,2
produce 0 5
forward 0 5
forward 1 5";

#[test]
fn every_forward_has_the_engine_s_receivers() {
    let steps = steps(&format!("{SQUARE}\njoin 4 subs 0 neighbours 2\ndrain"));
    assert_eq!(told_deliveries(&steps)[5..], ["", "[0,1,5],[0,2,5]", "[1,3,5]", "", "[2,4,5]", ""]);
    assert_eq!(steps[7].text, "forward 1 5: to 3; pending at 2,3, seen by 0,1");
    for pair in steps.windows(2).filter(|pair| !pair[1].forwards.is_empty()) {
        let mut network = pair[0].network.clone();
        for forward in &pair[1].forwards {
            let (before, _) = network.holders(forward.message);
            let event = Event::Forward(forward.sender, forward.message);
            let counted = network.apply(&pair[0].table, &event).unwrap().deliveries;
            let (after, _) = network.holders(forward.message);
            assert_eq!(
                (forward.receivers, forward.receivers.len() as u64),
                (after.without(before), counted),
                "{event}"
            );
        }
        assert!(network == pair[1].network, "{}", pair[1].text);
    }
}

/// The deliveries that a page's data say, step by step.
fn told_deliveries(steps: &[Step]) -> Vec<String> {
    let json = data::json("a script", steps);
    let parts = json.split("\"deliveries\":[").skip(1);
    parts.map(|part| part.split_once("],\"desks\":").unwrap().0.into()).collect()
}

/// The states that a page's data say, from step to step, each desk as its JSON.
fn told(steps: &[Step]) -> Vec<Vec<String>> {
    let mut desks: BTreeMap<u8, String> = BTreeMap::new();
    let json = data::json("a script", steps);
    let changes = json.split("\"desks\":[").skip(1).map(|part| part.split_once("],\"rows\":").unwrap().0);
    let mut states = Vec::new();
    for changed in changes {
        for desk in changed.split_inclusive('}').flat_map(|part| match part.split_once('{') {
            Some((gone, desk)) => [gone.to_string(), format!("{{{desk}")],
            None => [part.to_string(), String::new()],
        }) {
            match desk.strip_prefix("{\"peer\":") {
                Some(rest) => drop(desks.insert(rest.split_once(',').unwrap().0.parse().unwrap(), desk)),
                None => desk.split(',').filter_map(|peer| peer.parse().ok()).for_each(|peer| drop(desks.remove(&peer))),
            }
        }
        states.push(desks.values().cloned().collect());
    }
    states
}

#[test]
fn the_data_are_the_states() {
    let steps = steps(LINES);
    // The strict reader knows whole numbers only, and the places of desks are none.
    assert!(is_json(&data::json("a \"script\"", &steps).replace(['-', '.'], "1")));
    let states: Vec<Vec<String>> = steps
        .iter()
        .map(|step| step.network.desks().map(|(peer, desk)| peer_in_short(peer, &desk).end()).collect())
        .collect();
    assert_eq!(told(&steps), states);
    assert_ne!(states[3], states[4]);
}

#[test]
fn nothing_in_a_script_ends_the_page_s_own() {
    let text = "say </script><script>alert(1)</script> <!-- {{script}} &amp; \"";
    let page = html("<b>&\"", &steps(text));
    assert_eq!((page.matches("</script").count(), page.matches("<script").count()), (2, 2));
    assert!(page.contains("\\u003c/script\\u003e\\u003cscript\\u003ealert(1)") && !page.contains("<!--"));
    assert!(page.contains("<title>&lt;b&gt;&amp;&quot;: ") && page.contains("{{script}} \\u0026amp; \\\""));
    assert_eq!((page.matches(STYLE).count(), page.matches(SCRIPT).count()), (1, 1));
}

#[test]
fn a_page_fetches_nothing() {
    let page = html("a script", &steps(LINES));
    for word in ["http:", "https:", "src=", "href", "@import", "url(", "fetch", "Request", "import(", "Worker"] {
        assert!(!page.contains(word), "{word}");
    }
    assert!(page.contains("default-src 'none'"));
}

#[test]
fn a_refusal_ends_the_page() {
    let Ok((steps, Some(trouble))) = recorded("s", "join 0\nskip\nleave 1\nskip") else { panic!("no refusal") };
    let said = "leave 1 is refused: peer absent (8, event 2); present: 0";
    assert_eq!((trouble.message(), trouble.status()), (format!("s:3: {said}").as_str(), 1));
    let last = steps.last().unwrap();
    assert!(steps.len() == 4 && last.refused && last.text == said && last.network == steps[2].network);
    let Err(trouble) = recorded("s", "save a\nload a") else { panic!("taken") };
    let said = "s:2: a is what a line before would write, and making a page writes no such file";
    assert_eq!((trouble.message(), trouble.status()), (said, 2));
}

#[test]
fn a_page_has_room_for_so_much() {
    let skips = |number: usize| vec!["skip"; number].join("\n");
    assert_eq!(steps(&skips(MOST_STEPS - 1)).len(), MOST_STEPS);
    let Err(trouble) = recorded("s", &skips(MOST_STEPS)) else { panic!("taken") };
    let said = "s:5000: a page has room for 5000 steps and 16 MB of states, and this line goes beyond";
    assert_eq!((trouble.message(), trouble.status()), (said, 2));
    let long = format!("say {}\nskip\n", "x".repeat(9_000_000)).repeat(2);
    let Err(trouble) = recorded("s", &long) else { panic!("taken") };
    assert_eq!(trouble.message(), said.replace("5000:", "4:"));
}
