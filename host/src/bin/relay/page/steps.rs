//! A run as the steps of a page. Each step has the state that the engine left, and who got what on the way there.

use crate::command::Command;
use crate::forward::{self, Forward};
use crate::session::{Session, Standing, Trouble};
use crate::{drains, files, words};
use relay_host::event::decode_all;
use relay_host::{Network, Table, Tally};

/// A page has room for so many steps, the start among them, and for so many bytes of states.
pub const MOST_STEPS: usize = 5000;
pub const MOST_BYTES: usize = 16_000_000;

pub struct Step {
    /// The line of the script, and what stands there; 0 and nothing at the start.
    pub line: usize,
    pub source: String,
    /// What `say` lines before it say.
    pub said: Vec<String>,
    /// What happened, in words.
    pub text: String,
    /// Is it a refusal?
    pub refused: bool,
    /// The round of a drain; otherwise 0.
    pub round: usize,
    /// The forwards on the way there.
    pub forwards: Vec<Forward>,
    pub network: Network,
    pub table: Table,
}

/// Runs commands and keeps their steps.
pub struct Recorder {
    session: Session,
    steps: Vec<Step>,
    said: Vec<String>,
    line: usize,
    source: String,
    /// The bytes of the steps that are kept.
    bytes: usize,
}

impl Recorder {
    pub fn new() -> Recorder {
        let (session, steps, said) = (Session::new(true), Vec::new(), Vec::new());
        let mut recorder = Recorder { session, steps, said, line: 0, source: String::new(), bytes: 0 };
        let start = recorder.step("the start: a blank network".into());
        recorder.steps.push(start);
        recorder
    }

    /// The steps, with a last one for what is said behind them.
    pub fn end(mut self) -> Vec<Step> {
        if !self.said.is_empty() {
            let step = self.step(self.session.overview());
            self.steps.push(Step { said: self.said, ..step });
        }
        self.steps
    }

    /// Runs a command of a line. What changes nothing makes no step, for the page shows it anyway.
    pub fn take(&mut self, line: usize, source: &str, command: &Command) -> Result<(), Trouble> {
        (self.line, self.source) = (line, source.into());
        let before = self.session.standing();
        let mut out = Vec::new();
        let done = self.session.execute(command, &mut out);
        let text = String::from_utf8_lossy(&out).trim_end().to_string();
        match (&done, command) {
            (_, Command::Run(file)) => self.records(before, file)?,
            (Err(_), _) => {}
            (_, Command::Say(said)) => self.said.extend((!said.is_empty()).then(|| said.clone())),
            (_, Command::Drain(budget)) => self.rounds(before, *budget, text)?,
            (_, Command::Event(_)) => self.event(text)?,
            (_, Command::Refused(..)) => self.keep(Step { refused: true, ..self.step(text) })?,
            (_, Command::Table(message, _)) => self.keep(self.step(self.session.message(*message)))?,
            (_, Command::Load(..) | Command::Blank) => {
                let texts = [text, self.session.overview()];
                self.keep(self.step(texts.into_iter().filter(|text| !text.is_empty()).collect::<Vec<_>>().join("\n")))?
            }
            _ => {}
        }
        match done {
            Err(trouble) if trouble.status() == 1 => {
                self.keep(Step { refused: true, ..self.step(trouble.words().into()) })?;
                Err(trouble)
            }
            done => done,
        }
    }

    /// A step to how the session stands now.
    fn step(&self, text: String) -> Step {
        let Standing { network, table, .. } = self.session.standing();
        let (said, forwards) = (Vec::new(), Vec::new());
        Step {
            line: self.line,
            source: self.source.clone(),
            said,
            text,
            refused: false,
            round: 0,
            forwards,
            network,
            table,
        }
    }

    fn keep(&mut self, step: Step) -> Result<(), Trouble> {
        let step = Step { said: std::mem::take(&mut self.said), ..step };
        self.bytes += super::data::step(self.steps.last(), &step).len();
        if self.steps.len() >= MOST_STEPS || self.bytes > MOST_BYTES {
            let most = format!("{MOST_STEPS} steps and {} MB of states", MOST_BYTES / 1_000_000);
            return Err(Trouble::Text(format!("a page has room for {most}, and this line goes beyond")));
        }
        self.steps.push(step);
        Ok(())
    }

    fn event(&mut self, text: String) -> Result<(), Trouble> {
        let forwards = self.session.last().into_iter().collect();
        self.keep(Step { forwards, ..self.step(text) })
    }

    /// The accepted events of a record file, one after another.
    fn records(&mut self, before: Standing, file: &str) -> Result<(), Trouble> {
        let mut network = before.network;
        for event in decode_all(&files::read(file)?).0 {
            let Ok(done) = forward::apply(&mut network, &before.table, &event) else {
                break;
            };
            let text = format!("{file}: {}", words::accepted(&network, &event, done.receivers()));
            let forwards = done.forward().into_iter().collect();
            self.keep(Step { forwards, network: network.clone(), ..self.step(text) })?;
        }
        Ok(())
    }

    /// A drain round by round, and what it says at the end.
    fn rounds(&mut self, before: Standing, budget: u32, text: String) -> Result<(), Trouble> {
        let mut network = before.network;
        let rounds = drains::rounds(&network, &before.table, budget)?;
        if rounds.is_empty() {
            return self.keep(self.step(text));
        }
        for (place, round) in rounds.iter().enumerate() {
            let mut forwards = Vec::new();
            let mut tally = Tally::default();
            for event in round {
                let done = forward::apply(&mut network, &before.table, event)?;
                forwards.extend(done.forward());
                tally += done.tally();
            }
            let made = words::count(tally.forwards, "forward");
            let delivered = words::count(tally.deliveries, "delivery");
            let mut said = format!("round {} of a drain: {made}, {delivered}", place + 1);
            if place + 1 == rounds.len() {
                said = format!("{said}\n{text}");
            }
            self.keep(Step { round: place + 1, forwards, network: network.clone(), ..self.step(said) })?;
        }
        Ok(())
    }
}
