//! A network in files. A state says where messages are, its table what they are about, so the two are kept together: in one
//! file, the table behind the state, or in two.

use crate::pieces::quoted;
use crate::session::Trouble;
use crate::{files, words};
use relay_host::fault;
use relay_host::text::plain;
use relay_host::{Message, Network, Number, Set, Table};

/// The size of a state, and of a state with its table behind it.
const STATE: usize = 5120;
const BOTH: usize = STATE + 256;

/// A file's bytes as a state, and the table behind it if it has the size of both.
pub fn parts(bytes: &[u8]) -> (&[u8], Option<&[u8]>) {
    match bytes.len() {
        BOTH => (&bytes[..STATE], Some(&bytes[STATE..])),
        _ => (bytes, None),
    }
}

/// Reads a state and its table, in one file or two. A state in which desks have messages is refused without its table: they would go
/// by whatever table is at hand.
pub fn read(file: &str, other: Option<&str>) -> Result<(Network, Option<Table>), Trouble> {
    let bytes = files::read(file)?;
    let (state, table) = parts(&bytes);
    let network = Network::read(state).map_err(|refusal| {
        Trouble::ByEngine(refusal, format!("{file} is refused: {}", fault::in_words(state, &refusal)))
    })?;
    let table = match (table, other) {
        (Some(table), None) => Some(read_table(&format!("{file}'s table"), table)?),
        (None, Some(other)) => Some(read_table(other, &files::read(other)?)?),
        (Some(_), Some(_)) => {
            let again = format!("load {}", quoted(file));
            return Err(Trouble::Text(format!("{file} has its table in it, so no other is taken: {again}")));
        }
        (None, None) => match had(&network) {
            had if had.is_empty() => None,
            had => {
                let again = format!("load {} TABLE", quoted(file));
                let had = words::messages(had);
                return Err(Trouble::Refused(format!(
                    "{file} is a state without its table, and desks in it have {had}; load both: {again}"
                )));
            }
        },
    };
    Ok((network, table))
}

fn read_table(file: &str, table: &[u8]) -> Result<Table, Trouble> {
    Table::read(table).map_err(|refusal| Trouble::ByEngine(refusal, format!("{file} is refused: {refusal}")))
}

/// Writes a state and its table, in one file or two.
pub fn write(network: &Network, table: &Table, file: &str, other: Option<&str>) -> Result<(), Trouble> {
    match other {
        None => files::write(file, &[network.bytes(), table.bytes()].concat()),
        Some(other) if files::same(file, other) => {
            let again = format!("save {}", quoted(file));
            Err(Trouble::Text(format!("two names are for two files, and {file} is one; it can hold both: {again}")))
        }
        Some(other) => files::write_all(&[(file, network.bytes()), (other, table.bytes())]),
    }
}

/// The messages that some desk holds or has seen.
fn had(network: &Network) -> Set<Message> {
    Message::all()
        .filter(|&message| network.desks().any(|(_, desk)| desk.pending.has(message) || desk.seen.has(message)))
        .collect()
}

/// The messages for which two tables differ.
pub fn changed(one: &Table, other: &Table) -> Set<Message> {
    Message::all().filter(|&message| one.row(message) != other.row(message)).collect()
}

/// What becomes of the table at hand when a file is loaded, with a table or without; none if that is what one expects.
pub fn note(file: &str, at_hand: &Table, loaded: Option<&Table>) -> Option<String> {
    match loaded.map(|table| changed(at_hand, table)) {
        None => Some(format!("{} has no table; the one at hand stays: {}", plain(file), rows(at_hand))),
        Some(changed) if *at_hand != Table::zero() && !changed.is_empty() => {
            Some(format!("{}: its table has other rows for {} than before", plain(file), words::messages(changed)))
        }
        Some(_) => None,
    }
}

/// A table in words.
pub fn rows(table: &Table) -> String {
    match changed(table, &Table::zero()) {
        own if own.is_empty() => "every message has topic 0 and origin 0".into(),
        own => format!("every message but {own} has topic 0 and origin 0"),
    }
}
