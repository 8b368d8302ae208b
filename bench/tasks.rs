//! What is timed: a state, a table, and one call on them.
use crate::engine::{Answer, Checked, Drained, Engine, Forwarded, Tally};
use crate::inputs::{self, built, desks, forwards, mixed, produced, record, table, three, Links};

pub enum Call {
    Run { events: Vec<u8> },
    Forward { peer: u8, message: u8 },
    Drain { budget: u32 },
    Copy,
    Image,
}

pub struct Task {
    pub name: String,
    state: Vec<u8>,
    table: Vec<u8>,
    call: Call,
}

/// What a call answers.
#[derive(PartialEq, Eq, Debug)]
pub enum Said {
    Ran(Answer, Tally),
    Forwarded(Forwarded),
    Drained(Drained),
    Checked(Checked),
}

/// The buffer that the calls write. All engines get the same one, so that its address favours none.
pub struct Buffer(Vec<u8>);

impl Buffer {
    pub fn new() -> Buffer {
        Buffer(vec![0; 5120])
    }
}

impl Task {
    fn new(name: impl Into<String>, topics: u8, made: &[&[u8]], call: Call) -> Task {
        let table = table(topics);
        Task { name: name.into(), state: built(&table, &made.concat()), table, call }
    }

    /// The buffer as it is before a call that changes it.
    pub fn lay(&self, b: &mut Buffer) {
        b.0.copy_from_slice(&self.state);
    }

    /// One call. Where it changes the state, the state is laid into the buffer first.
    pub fn call(&self, engine: &Engine, b: &mut Buffer) -> Said {
        match &self.call {
            Call::Run { events } => {
                self.lay(b);
                let mut tally = Tally::default();
                let answer = (engine.run)(&mut b.0, &self.table, events, &mut tally);
                Said::Ran(answer, tally)
            }
            Call::Forward { peer, message } => {
                self.lay(b);
                Said::Forwarded((engine.forward)(&mut b.0, &self.table, *peer, *message))
            }
            Call::Drain { budget } => {
                self.lay(b);
                Said::Drained((engine.drain)(&mut b.0, &self.table, *budget))
            }
            Call::Copy => Said::Checked((engine.copy)(&self.state, &mut b.0)),
            Call::Image => Said::Checked((engine.image)(&self.state, &mut b.0)),
        }
    }

    /// Stops the program where two engines differ, in answer or bytes, or where they refuse.
    pub fn compare(&self, engines: &[Engine]) {
        let outcome = |engine| {
            let mut b = Buffer::new();
            let said = self.call(engine, &mut b);
            (said, b.0)
        };
        let first = outcome(&engines[0]);
        assert_eq!(first.0.number(), 0, "{}", self.name);
        for engine in &engines[1..] {
            let other = outcome(engine);
            assert_eq!(first.0, other.0, "{}", self.name);
            assert!(first.1 == other.1, "{}: the bytes differ", self.name);
        }
    }
}

impl Said {
    fn number(&self) -> u8 {
        match self {
            Said::Ran(a, _) => a.number,
            Said::Forwarded(a) => a.number,
            Said::Drained(a) => a.number,
            Said::Checked(a) => a.number,
        }
    }
}

fn run_task(name: impl Into<String>, made: &[u8], events: Vec<u8>) -> Task {
    Task::new(name, 1, &[made], Call::Run { events })
}

fn drain_task(name: &str, links: Links, topics: u8, budget: u32) -> Task {
    let desks = match links {
        Links::Dense => "32 desks all linked",
        Links::Line => "a line of 32",
    };
    let made: [&[u8]; 2] = [&inputs::desks(32, links, topics), &produced(64)];
    Task::new(format!("drain of {desks}, 64 messages{name}"), topics, &made, Call::Drain { budget })
}

/// At most so many forwards are ever needed.
const ENOUGH: u32 = 2048;

/// The first table.
pub fn tasks() -> Vec<Task> {
    let dense = desks(32, Links::Dense, 1);
    let line = desks(32, Links::Line, 1);
    let one_message = Call::Forward { peer: 0, message: 0 };
    vec![
        Task::new("read, soundness, write: 3 desks", 1, &[&three()], Call::Copy),
        Task::new("read, soundness, write: 32 desks, all linked", 1, &[&dense], Call::Copy),
        run_task("run of 1,000 mixed events, 3 desks", &three(), mixed(1000)),
        run_task("run of 256 events, 192 of them forwards, 3 desks", &three(), forwards()),
        run_task("run of one event, 3 desks", &three(), record(0, 0, 0, 0, 0, 0).to_vec()),
        Task::new("a single forward, 3 desks", 1, &[&three(), &produced(1)], one_message),
        Task::new("drain of 3 desks, one message", 1, &[&three(), &produced(1)], Call::Drain { budget: ENOUGH }),
        drain_task("", Links::Dense, 1, ENOUGH),
        drain_task(" of 8 topics", Links::Dense, 8, ENOUGH),
        drain_task(" of 32 topics", Links::Dense, 32, ENOUGH),
        drain_task(", cut after 1,000 forwards", Links::Dense, 1, 1000),
        drain_task("", Links::Line, 1, ENOUGH),
        drain_task(" of 8 topics", Links::Line, 8, ENOUGH),
        drain_task(" of 32 topics", Links::Line, 32, ENOUGH),
        Task::new("image: 3 desks", 1, &[&three()], Call::Image),
        Task::new("image: a line of 32", 1, &[&line], Call::Image),
    ]
}

/// Forwards among few desks and many, with few links and all: the second table.
pub fn over_links() -> Vec<Task> {
    let networks = [
        (3, Links::Line, "a line of 3"),
        (3, Links::Dense, "3 desks all linked"),
        (32, Links::Line, "a line of 32"),
        (32, Links::Dense, "32 desks all linked"),
    ];
    let single = networks.map(|(size, links, desks)| {
        let made: [&[u8]; 2] = [&inputs::desks(size, links, 1), &produced(1)];
        Task::new(format!("a single forward, {desks}"), 1, &made, Call::Forward { peer: 0, message: 0 })
    });
    let runs = networks.map(|(size, links, desks)| {
        run_task(format!("run of 256 events, 192 of them forwards, {desks}"), &inputs::desks(size, links, 1), forwards())
    });
    single.into_iter().chain(runs).collect()
}

/// How many mixed events the runs of the third table have. The first is the fixed cost.
pub const COUNTS: [usize; 5] = [0, 1, 16, 256, 4096];

pub fn over_events() -> Vec<Task> {
    COUNTS.map(|n| run_task(format!("run of {n} mixed events"), &three(), mixed(n))).into()
}

/// One list of events, and drains, with more and more desks: the fourth table.
pub fn over_desks() -> Vec<Task> {
    let sizes = [3, 8, 16, 32];
    let runs = sizes.map(|n| run_task(format!("run of 256 events, a line of {n}"), &desks(n, Links::Line, 1), forwards()));
    let drains = sizes.map(|n| {
        let made: [&[u8]; 2] = [&desks(n, Links::Dense, 1), &produced(64)];
        Task::new(format!("drain of {n} desks all linked, 64 messages"), 1, &made, Call::Drain { budget: ENOUGH })
    });
    runs.into_iter().chain(drains).collect()
}
