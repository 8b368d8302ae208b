//! A network and its image as tables of text.

use crate::words;
use relay_host::{Desk, Image, Message, Network, Number, Peer, Set, Table, Topic};

/// No line is longer; what doesn't fit goes on below.
const COLUMNS: usize = 119;

/// The network: a line for each present peer.
pub fn network(network: &Network) -> String {
    let heads = ["peer", "subs", "pubs", "neighbours", "pending", "seen", "known subscribers"];
    let rows: Vec<Vec<String>> = network
        .desks()
        .map(|(peer, desk)| {
            let sets = [set(desk.subs), set(desk.pubs), set(desk.neighbours), set(desk.pending), set(desk.seen)];
            [vec![peer.to_string()], sets.to_vec(), vec![known(&desk)]].concat()
        })
        .collect();
    let end = format!("{}, {}", words::peers(rows.len()), words::pending(network.pending_pairs()));
    format!("{}{end}\n", table(&heads, &rows))
}

/// The image: what is left of a network there.
pub fn image(image: &Image) -> String {
    let heads = ["peer", "subs", "pubs", "seen"];
    let rows: Vec<Vec<String>> = image
        .desks()
        .map(|(peer, desk)| vec![peer.to_string(), set(desk.subs), set(desk.pubs), set(desk.seen)])
        .collect();
    format!("{}{} in the image\n", table(&heads, &rows), words::peers(rows.len()))
}

/// Who has a message.
pub fn message(network: &Network, table: &Table, message: Message) -> String {
    let said = words::message(network, table, message);
    wrapped(&said, COLUMNS - 4).join("\n    ") + "\n"
}

/// A set, or a dash for the empty one.
fn set<N: Number>(set: Set<N>) -> String {
    if set.is_empty() {
        return "-".into();
    }
    set.to_string()
}

/// The known subscribers, topics with the same ones together, for the topics that have any.
fn known(desk: &Desk) -> String {
    let mut groups: Vec<(Set<Topic>, Set<Peer>)> = Vec::new();
    for topic in Topic::all().filter(|&topic| !desk.known(topic).is_empty()) {
        match groups.iter_mut().find(|(_, known)| *known == desk.known(topic)) {
            Some((topics, _)) => topics.insert(topic),
            None => groups.push(([topic].into_iter().collect(), desk.known(topic))),
        }
    }
    if groups.is_empty() {
        return "-".into();
    }
    let noun = |topics: Set<Topic>| if topics.len() == 1 { "topic" } else { "topics" };
    let parts: Vec<String> =
        groups.iter().map(|(topics, known)| format!("{} {topics}: {known}", noun(*topics))).collect();
    parts.join("; ")
}

/// Columns as wide as their widest entry, two spaces between them. If that is too wide, the widest entries go on below.
fn table(heads: &[&str], rows: &[Vec<String>]) -> String {
    let widest = |column: usize| rows.iter().map(|row| row[column].len()).max().unwrap_or(0);
    let widths = widths(heads, &(0..heads.len()).map(widest).collect::<Vec<usize>>());
    let line = |entries: Vec<&str>| {
        let cells: Vec<String> = entries.iter().zip(&widths).map(|(entry, &width)| format!("{entry:width$}")).collect();
        format!("{}\n", cells.join("  ").trim_end())
    };
    let mut text = line(heads.to_vec());
    for row in rows {
        let cells: Vec<Vec<String>> = row.iter().zip(&widths).map(|(entry, &width)| wrapped(entry, width)).collect();
        let high = cells.iter().map(Vec::len).max().unwrap_or(0);
        for below in 0..high {
            text += &line(cells.iter().map(|cell| cell.get(below).map_or("", String::as_str)).collect());
        }
    }
    text
}

/// The widths of columns: those of the widest entries, cut down to the same limit if the whole would be too wide.
fn widths(heads: &[&str], widest: &[usize]) -> Vec<usize> {
    let cut = |limit: usize| -> Vec<usize> {
        heads.iter().zip(widest).map(|(head, &wide)| head.len().max(wide.min(limit))).collect()
    };
    let fits = |widths: &Vec<usize>| widths.iter().sum::<usize>() + 2 * (heads.len() - 1) <= COLUMNS;
    (1..=COLUMNS).rev().map(cut).find(fits).unwrap_or(cut(1))
}

/// A text as lines of at most this width, broken behind a comma or at a space.
fn wrapped(text: &str, width: usize) -> Vec<String> {
    let mut lines = vec![String::new()];
    for piece in text.split_inclusive([',', ' ']) {
        let line = lines.last_mut().expect("there is a line");
        if !line.is_empty() && line.len() + piece.trim_end().len() > width {
            lines.push(piece.into());
        } else {
            line.push_str(piece);
        }
    }
    lines.iter().map(|line| line.trim_end().into()).collect()
}

#[cfg(test)]
mod tests {
    use super::*;
    use relay_host::Event;

    #[test]
    fn a_network_is_a_table() {
        let mut chain = Network::blank();
        let table = Table::zero();
        for line in ["join 0 pubs 0", "join 1 subs 0,2-4 neighbours 0", "join 2 neighbours 1", "produce 0 5"] {
            chain.apply(&table, &line.parse::<Event>().unwrap()).unwrap();
        }
        let expected = "\
peer  subs   pubs  neighbours  pending  seen  known subscribers
0     -      0     1           5        -     topics 0,2-4: 1
1     0,2-4  -     0,2         -        -     -
2     -      -     1           -        -     topics 0,2-4: 1
3 peers present, 1 pair pending
";
        assert_eq!(network(&chain), expected);
        assert_eq!(image(&Network::blank().image().unwrap()), "peer  subs  pubs  seen\n0 peers present in the image\n");
    }

    fn lines_of(lines: impl Iterator<Item = String>) -> Network {
        let mut network = Network::blank();
        let events: Vec<Event> = lines.map(|line| line.parse().unwrap()).collect();
        assert_eq!(network.run(&Table::zero(), &events).refusal, None);
        network
    }

    /// 32 desks, each with half of the topics, no two alike, linked to half of the others; every second message produced.
    fn crowd() -> Network {
        let bits = |seed: u64| Set::<Topic>::of_word(seed.wrapping_mul(0x9e37_79b9_7f4a_7c15) >> 20 | 1);
        let half = |peer: u64| (0..peer).filter(move |other| (other ^ peer) % 2 == 1 || other + 1 == peer);
        let join = |peer: u64| {
            let neighbours: Vec<String> = half(peer).map(|other| other.to_string()).collect();
            let neighbours = if neighbours.is_empty() { "none".into() } else { neighbours.join(",") };
            format!("join {peer} subs {} pubs {} neighbours {neighbours}", bits(peer + 1), bits(99 - peer))
        };
        let produce = |message: u64| format!("produce 0 {}", 2 * message);
        lines_of((0..32).map(join).chain((0..32).map(produce)))
    }

    /// A column's entries, a desk each, put together again without spaces.
    fn column(shown: &str, head: &str, next: Option<&str>) -> Vec<String> {
        let mut lines = shown.lines();
        let heads = lines.next().unwrap();
        let start = heads.find(head).unwrap();
        let end = next.map_or(usize::MAX, |next| heads.find(next).unwrap());
        let mut entries: Vec<String> = Vec::new();
        for line in lines.filter(|line| !line.contains("present")) {
            let cell = line.get(start..end.min(line.len())).unwrap_or_default().replace(' ', "");
            match entries.last_mut() {
                Some(entry) if line.starts_with(' ') => entry.push_str(&cell),
                _ => entries.push(cell),
            }
        }
        entries
    }

    #[test]
    fn no_line_has_120_columns_and_nothing_is_left_out() {
        let mut crowd = crowd();
        for budget in [0, 200, 2048] {
            assert!(crowd.drain(&Table::zero(), budget).is_ok());
            let (shown, image) = (network(&crowd), image(&crowd.image().unwrap()));
            let message = message(&crowd, &Table::zero(), Message::new(6).unwrap());
            for line in [&shown, &image, &message].into_iter().flat_map(|text| text.lines()) {
                assert!(line.len() < 120, "{} columns: {line}", line.len());
            }
            let entries = |entry: fn(&Desk) -> String| -> Vec<String> {
                crowd.desks().map(|(_, desk)| entry(&desk).replace(' ', "")).collect()
            };
            assert_eq!(column(&shown, "subs", Some("pubs")), entries(|desk| set(desk.subs)));
            assert_eq!(column(&shown, "neighbours", Some("pending")), entries(|desk| set(desk.neighbours)));
            assert_eq!(column(&shown, "known", None), entries(known));
            assert_eq!(column(&image, "pubs", Some("seen")), entries(|desk| set(desk.pubs)));
        }
    }

    #[test]
    fn what_is_too_wide_goes_on_below() {
        let even = (0..32).map(|number| (2 * number).to_string()).collect::<Vec<String>>().join(",");
        let rows = [["0", &even, &even], ["1", "-", "5"]].map(|row| row.map(String::from).to_vec());
        let expected = "\
peer  pending                                                  seen
0     0,2,4,6,8,10,12,14,16,18,20,22,24,26,28,30,32,34,36,38,  0,2,4,6,8,10,12,14,16,18,20,22,24,26,28,30,32,34,36,38,
      40,42,44,46,48,50,52,54,56,58,60,62                      40,42,44,46,48,50,52,54,56,58,60,62
1     -                                                        5
";
        let text = table(&["peer", "pending", "seen"], &rows);
        assert_eq!(text, expected);
    }

    #[test]
    fn text_is_broken_behind_commas_and_at_spaces() {
        assert_eq!(wrapped("1,2,3 4", 4), ["1,2,", "3 4"]);
        assert_eq!(wrapped("topic 0: 1,2", 8), ["topic 0:", "1,2"]);
        assert_eq!(wrapped("12345", 3), ["12345"]);
        assert_eq!(wrapped("", 3), [""]);
    }
}
