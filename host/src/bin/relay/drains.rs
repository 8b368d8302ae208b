//! A drain as the forwards that it makes.

use relay_host::{Event, Network, Refusal, Table};

/// The forwards that a drain would make, in its order: round by round, peers rising, messages rising within a peer. What becomes
/// pending in a round waits for the next. The engine works out what a round leaves, and refuses none of it unless it is out of reach.
pub fn forwards(network: &Network, table: &Table, budget: u32) -> Result<Vec<Event>, Refusal> {
    Ok(rounds(network, table, budget)?.concat())
}

/// The same, each round for itself. The budget may cut the last one short.
pub fn rounds(network: &Network, table: &Table, budget: u32) -> Result<Vec<Vec<Event>>, Refusal> {
    let mut network = network.clone();
    let mut rounds = Vec::new();
    let mut left = usize::try_from(budget).unwrap_or(usize::MAX);
    loop {
        let mut round = pending(&network);
        round.truncate(left);
        if round.is_empty() {
            return Ok(rounds);
        }
        left -= round.len();
        if let Some(refusal) = network.run(table, &round).refusal {
            return Err(refusal);
        }
        rounds.push(round);
    }
}

/// A forward of everything that is pending.
fn pending(network: &Network) -> Vec<Event> {
    let of_desk =
        |(peer, desk): (_, relay_host::Desk)| desk.pending.members().map(move |message| Event::Forward(peer, message));
    network.desks().flat_map(of_desk).collect()
}

#[cfg(test)]
mod tests {
    use super::*;
    use relay_host::{Message, Number, Peer, Row, Topic};

    /// A ring with a chord, two topics, and three messages under way from different desks.
    fn busy() -> (Network, Table) {
        let mut table = Table::zero();
        for (message, topic, origin) in [(9, 1, 3), (40, 0, 2)] {
            let row = Row { topic: Topic::new(topic).unwrap(), origin: Peer::new(origin).unwrap() };
            table.set(Message::new(message).unwrap(), row);
        }
        let mut network = Network::blank();
        for line in [
            "join 0 subs 0 pubs 0",
            "join 1 subs 0,1 neighbours 0",
            "join 2 subs 0,1 pubs 0 neighbours 1",
            "join 3 subs 1 pubs 1 neighbours 0,2",
            "join 31 subs 0,1 neighbours 1,3",
            "produce 0 5",
            "produce 3 9",
            "produce 2 40",
        ] {
            network.apply(&table, &line.parse().unwrap()).unwrap();
        }
        (network, table)
    }

    #[test]
    fn the_forwards_of_a_drain_end_where_the_drain_does() {
        let (network, table) = busy();
        let whole = network.clone().drain(&table, u32::MAX).unwrap().forwards;
        assert!(whole > 9, "{whole}");
        for budget in (0..=whole + 1).chain([u32::MAX]) {
            let (mut drained, mut replayed) = (network.clone(), network.clone());
            let made = drained.drain(&table, budget).unwrap().forwards;
            let forwards = forwards(&network, &table, budget).unwrap();
            assert_eq!(forwards.len(), usize::try_from(made).unwrap());
            assert_eq!(replayed.run(&table, &forwards).refusal, None);
            assert!(replayed == drained, "with a budget of {budget}");
        }
    }
}
