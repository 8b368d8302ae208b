//! Scripts as event records, and back.

use crate::command::Command;
use crate::session::{Session, Trouble};
use crate::{files, read_script};
use relay_host::event::{decode_all, Event};
use relay_host::{Message, Set};
use std::io::{self, Write};

/// The messages that events have named.
#[derive(Clone, PartialEq)]
pub struct Named(Set<Message>);

impl Default for Named {
    fn default() -> Named {
        Named(Set::empty())
    }
}

impl Named {
    pub fn note(&mut self, event: &Event) {
        if let Event::Produce(_, message) | Event::Forward(_, message) = event {
            self.0.insert(*message);
        }
    }

    pub fn has(&self, message: Message) -> bool {
        self.0.has(message)
    }
}

const NAMED: &str = "events before this line name this message";

/// Writes a script's events since its last `blank` or `load` as records. Nothing is run. Refused at the first line that records
/// can't say.
pub fn encode(script: &str, file: &str) -> Result<(), Trouble> {
    let mut records = Vec::new();
    let mut named = Named::default();
    let mut lost = None;
    for (line, command) in read_script(script)? {
        let why = match command {
            Command::Event(event) => {
                records.extend(event.encode());
                named.note(&event);
                None
            }
            Command::Drain(_) => Some("a drain is no event (--expand writes its forwards instead)"),
            Command::Run(_) => Some("this line changes the network and is no event"),
            Command::Table(message, _) if named.has(message) => Some(NAMED),
            Command::Blank | Command::Load(..) => {
                (records, named, lost) = Default::default();
                None
            }
            _ => None,
        };
        lost = lost.or(why.map(|why| (line, why)));
    }
    match lost {
        None => write_beside(script, "records", file, |file| files::write(file, &records)),
        Some((line, why)) => Err(unsaid(why).at(script, line)),
    }
}

/// The same with a drain as the forwards that it makes, and a `run` as its events. To know them the script is run, but it says
/// nothing and writes no file. Refused at the first line that is refused or that records can't say.
pub fn expand(script: &str, file: &str) -> Result<(), Trouble> {
    let mut session = Session::expanding();
    let mut lost = None;
    let mut unwritten: Vec<String> = Vec::new();
    for (line, command) in read_script(script)? {
        if !is_write(&command, &mut unwritten, "encoding a script").map_err(|trouble| trouble.at(script, line))? {
            session.execute(&command, &mut io::sink()).map_err(|trouble| trouble.at(script, line))?;
        }
        lost = (!session.can_be_written()).then(|| lost.unwrap_or(line));
    }
    match lost {
        None => write_beside(script, "records", file, |file| session.write_events(file)),
        Some(line) => Err(unsaid(NAMED).at(script, line)),
    }
}

fn unsaid(why: &str) -> Trouble {
    Trouble::Text(format!("{why}, so event records can't say it"))
}

/// Writes the records or the page of a script, but not over the script.
pub fn write_beside(
    script: &str,
    what: &str,
    file: &str,
    write: impl Fn(&str) -> Result<(), Trouble>,
) -> Result<(), Trouble> {
    if files::same(script, file) {
        return Err(Trouble::Text(format!(
            "the {what} would take the place of the script, {script}; give another name"
        )));
    }
    write(file)
}

/// Is it a command that would write files? They are noted, as none is written here. What reads one of them is refused.
pub fn is_write(command: &Command, unwritten: &mut Vec<String>, doing: &str) -> Result<bool, Trouble> {
    if let Some(name) = reads(command).find(|name| unwritten.iter().any(|other| files::same(name, other))) {
        let why = format!("{name} is what a line before would write, and {doing} writes no such file");
        return Err(Trouble::Text(why));
    }
    let names = writes(command);
    let is_write = names.is_some();
    unwritten.extend(names.into_iter().flatten().map(String::from));
    Ok(is_write)
}

/// The files that a command reads.
fn reads(command: &Command) -> impl Iterator<Item = &str> {
    let (one, other) = match command {
        Command::Load(one, other) => (Some(one), other.as_ref()),
        Command::Run(file) => (Some(file), None),
        _ => (None, None),
    };
    one.into_iter().chain(other).map(String::as_str)
}

/// The files that a command writes; none if it is no such command.
fn writes(command: &Command) -> Option<impl Iterator<Item = &str>> {
    let (one, other) = match command {
        Command::Save(one, other) => (one, other.as_ref()),
        Command::Image(Some(file)) | Command::Events(file) => (file, None),
        Command::Picture(file, _) | Command::Dot(file, _) => (file, None),
        _ => return None,
    };
    Some([one].into_iter().chain(other).map(String::as_str))
}

/// Prints a record file as text, up to the first record that is no event.
pub fn decode(file: &str) -> Result<(), Trouble> {
    let (events, refusal) = decode_all(&files::read(file)?);
    let lines: Vec<String> = events.iter().map(Event::to_string).collect();
    let mut out = io::stdout().lock();
    for line in lines {
        writeln!(out, "{line}")?;
    }
    match refusal {
        None => Ok(()),
        Some(refusal) => Err(Trouble::Refused(format!("{file}: {refusal}"))),
    }
}
