//! A network under work: what each command does.

use crate::answer::{Answer, Form};
use crate::command::Command;
use crate::encode::Named;
use crate::forward::{self, Forward};
use crate::picture::{self, Subject};
pub use crate::trouble::Trouble;
use crate::{drains, files, keep, words};
use relay_host::event::{Event, RECORD};
use relay_host::{Message, Network, Reason, Refusal, Row, Table, Tally};
use std::io::Write;

pub struct Session {
    network: Network,
    table: Table,
    /// The accepted events of the session, as records.
    records: Vec<u8>,
    /// Where those since the last `blank` or `load` begin. What follows is about these.
    start: usize,
    /// Their tally.
    tally: Tally,
    /// The messages that they name.
    named: Named,
    /// Why records can't say them all, if so.
    unsaid: Option<&'static str>,
    /// See `last`.
    last: Option<Forward>,
    /// Tell each event?
    aloud: bool,
    /// For whom?
    form: Form,
    /// Are a drain's forwards among the events?
    expand: bool,
}

/// How a session stands: all that a line can change.
#[derive(PartialEq)]
pub struct Standing {
    pub network: Network,
    pub table: Table,
    records: usize,
    start: usize,
    tally: Tally,
    named: Named,
    unsaid: Option<&'static str>,
    last: Option<Forward>,
}

impl Session {
    pub fn new(aloud: bool) -> Session {
        Session::in_form(aloud, Form::Words)
    }

    pub fn in_form(aloud: bool, form: Form) -> Session {
        Session {
            network: Network::blank(),
            table: Table::zero(),
            records: Vec::new(),
            start: 0,
            tally: Tally::default(),
            named: Named::default(),
            unsaid: None,
            last: None,
            aloud,
            form,
            expand: false,
        }
    }

    /// A session that takes a drain for the forwards that it makes.
    pub fn expanding() -> Session {
        Session { expand: true, ..Session::new(false) }
    }

    pub fn standing(&self) -> Standing {
        Standing {
            network: self.network.clone(),
            table: self.table.clone(),
            records: self.records.len(),
            start: self.start,
            tally: self.tally,
            named: self.named.clone(),
            unsaid: self.unsaid,
            last: self.last,
        }
    }

    /// Goes back to how the session stood before.
    pub fn go_back(&mut self, before: Standing) {
        self.records.truncate(before.records);
        Standing {
            network: self.network,
            table: self.table,
            records: _,
            start: self.start,
            tally: self.tally,
            named: self.named,
            unsaid: self.unsaid,
            last: self.last,
        } = before;
    }

    fn tell(&self, answer: Answer, out: &mut dyn Write) -> Result<(), Trouble> {
        Ok(write!(out, "{}", answer.text(self.form))?)
    }

    /// Does what a command says, and writes what there is to say.
    pub fn execute(&mut self, command: &Command, out: &mut dyn Write) -> Result<(), Trouble> {
        match command {
            Command::Event(event) => self.event(event, out)?,
            Command::Refused(reason, event) => self.refused(*reason, event, out)?,
            Command::Table(message, row) => self.set_row(*message, *row)?,
            Command::Drain(budget) => self.drain(*budget, out)?,
            Command::Show(None) => self.tell(Answer::Network(&self.network), out)?,
            Command::Show(Some(message)) => self.tell(Answer::Message(&self.network, &self.table, *message), out)?,
            Command::Image(None) => self.tell(Answer::Image(&self.network.image()?), out)?,
            Command::Image(Some(file)) => files::write(file, self.network.image()?.bytes())?,
            Command::Tally => self.tell(Answer::Tally(&self.tally), out)?,
            Command::Picture(file, message) => files::write(file, picture::svg(&self.subject(*message)).as_bytes())?,
            Command::Dot(file, message) => files::write(file, picture::dot(&self.subject(*message)).as_bytes())?,
            Command::Load(file, other) => self.load(file, other.as_deref(), out)?,
            Command::Save(file, other) => keep::write(&self.network, &self.table, file, other.as_deref())?,
            Command::Run(file) => self.run(file, out)?,
            Command::Events(file) => self.write_events(file)?,
            Command::Blank => self.blank(out)?,
            Command::Say(said) => self.tell(Answer::Said(said), out)?,
            Command::Help => self.tell(Answer::Help, out)?,
        }
        Ok(())
    }

    /// How things stand, in one line.
    pub fn summary(&self) -> String {
        Answer::Done(self.accepted(), self.network.pending_pairs()).text(self.form).trim_end().into()
    }

    /// The network in one line.
    pub fn overview(&self) -> String {
        words::overview(&self.network)
    }

    /// Who has a message, in one line.
    pub fn message(&self, message: Message) -> String {
        words::message(&self.network, &self.table, message)
    }

    /// The last that was done to the network, if it is a forward.
    pub fn last(&self) -> Option<Forward> {
        self.last
    }

    /// What a picture is of.
    fn subject(&self, message: Option<Message>) -> Subject<'_> {
        Subject { network: &self.network, table: &self.table, message, forward: self.last }
    }

    fn accepted(&self) -> usize {
        self.records().len() / RECORD
    }

    /// The accepted events since the last `blank` or `load`.
    fn records(&self) -> &[u8] {
        &self.records[self.start..]
    }

    fn event(&mut self, event: &Event, out: &mut dyn Write) -> Result<(), Trouble> {
        match forward::apply(&mut self.network, &self.table, event) {
            Ok(done) => {
                let place = self.accepted();
                self.records.extend(event.encode());
                self.named.note(event);
                self.tally += done.tally();
                self.last = done.forward();
                if self.aloud {
                    self.tell(Answer::Accepted(&self.network, event, place, done.receivers()), out)?;
                }
                Ok(())
            }
            Err(refusal) => {
                let (refusal, said) = self.explain(event, refusal.reason);
                Err(Trouble::ByEngine(refusal, said))
            }
        }
    }

    /// A refused event, also in words. Its place counts from the first event since the last `blank` or `load`.
    fn explain(&self, event: &Event, reason: Reason) -> (Refusal, String) {
        let refusal = Refusal::at(reason, self.accepted());
        (refusal, words::refused(&self.network, &self.table, event, &refusal))
    }

    fn refused(&mut self, reason: Reason, event: &Event, out: &mut dyn Write) -> Result<(), Trouble> {
        let mut trial = self.network.clone();
        match trial.apply(&self.table, event) {
            Err(refusal) if refusal.reason == reason => {
                let (refusal, said) = self.explain(event, reason);
                self.tell(Answer::Refusal(&refusal, &said), out)
            }
            Err(refusal) => {
                let (refusal, said) = self.explain(event, refusal.reason);
                Err(Trouble::ByEngine(refusal, format!("{said}; by {} was expected", reason.number())))
            }
            Ok(_) => {
                Err(Trouble::Refused(format!("{event} is accepted; a refusal by {} was expected", reason.number())))
            }
        }
    }

    /// A message that somebody holds or has seen keeps its topic and origin: a change would send it on to other desks.
    fn set_row(&mut self, message: Message, row: Row) -> Result<(), Trouble> {
        let (holding, seen) = self.network.holders(message);
        if self.table.row(message) != row && !(holding.is_empty() && seen.is_empty()) {
            let now = words::message(&self.network, &self.table, message);
            return Err(Trouble::Refused(format!("the row of a message that desks have can't change; {now}")));
        }
        if self.table.row(message) != row && self.named.has(message) {
            self.unsaid = self.unsaid.or(Some("a message that they name has got another row since"));
        }
        self.table.set(message, row);
        Ok(())
    }

    fn drain(&mut self, budget: u32, out: &mut dyn Write) -> Result<(), Trouble> {
        if self.expand {
            for forward in drains::forwards(&self.network, &self.table, budget)? {
                self.records.extend(forward.encode());
                self.named.note(&forward);
            }
        }
        let drained = self.network.drain(&self.table, budget)?;
        if drained.forwards > 0 {
            self.last = None;
            let unsaid = (!self.expand).then_some("there was a drain among them, which is no event");
            self.unsaid = self.unsaid.or(unsaid);
        }
        self.tell(Answer::Drain(budget, &drained), out)
    }

    /// Takes a state and its table from one file or two. Nothing changes if either is refused. Says what becomes of a table that
    /// was there before.
    fn load(&mut self, file: &str, other: Option<&str>, out: &mut dyn Write) -> Result<(), Trouble> {
        let (network, table) = keep::read(file, other)?;
        if let Some(note) = keep::note(file, &self.table, table.as_ref()) {
            self.tell(Answer::Note(&note), out)?;
        }
        let table = table.unwrap_or_else(|| self.table.clone());
        self.begin(network, table);
        Ok(())
    }

    /// Starts again. Says so if rows of the table go with it.
    fn blank(&mut self, out: &mut dyn Write) -> Result<(), Trouble> {
        let lost = keep::changed(&self.table, &Table::zero());
        if !lost.is_empty() {
            let lost = words::messages(lost);
            let note = format!("blank: what the table said of {lost} is gone; {}", keep::rows(&Table::zero()));
            self.tell(Answer::Note(&note), out)?;
        }
        self.begin(Network::blank(), Table::zero());
        Ok(())
    }

    fn begin(&mut self, network: Network, table: Table) {
        (self.network, self.table, self.start) = (network, table, self.records.len());
        (self.tally, self.named, self.unsaid, self.last) = Default::default();
    }

    /// Runs a record file as one list. A refusal's place counts in the file.
    fn run(&mut self, file: &str, out: &mut dyn Write) -> Result<(), Trouble> {
        let records = files::read(file)?;
        let run = self.network.run_records(&self.table, &records);
        self.records.extend(&records[..run.accepted * RECORD]);
        for record in records[..run.accepted * RECORD].chunks_exact(RECORD) {
            if let Some(Ok(event)) = record.first_chunk().map(Event::decode) {
                self.named.note(&event);
            }
        }
        self.tally += run.tally;
        self.last = self.last.filter(|_| run.accepted == 0);
        self.tell(Answer::Run(file, run.accepted, &run.tally, run.refusal.is_some()), out)?;
        let Some(refusal) = run.refusal else {
            return Ok(());
        };
        let said = words::refused_run(&self.network, &self.table, &records[run.accepted * RECORD..], &refusal);
        Err(Trouble::ByEngine(refusal, format!("{file}: {said}")))
    }

    /// Can records say the events since the last `blank` or `load`?
    pub fn can_be_written(&self) -> bool {
        self.unsaid.is_none()
    }

    pub fn write_events(&self, file: &str) -> Result<(), Trouble> {
        if let Some(why) = self.unsaid {
            return Err(Trouble::Text(format!("the events can't be written: {why}")));
        }
        files::write(file, self.records())
    }
}
