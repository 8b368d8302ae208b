//! The comparison: the engine's static library and its run program against the second program's model,
//! on seeded inputs. Ends with status 0 only if there is no difference and all that entries.rs lists has
//! occurred.
//!
//!   compare [--self] [--engine WORD.. ';'] [--flood WORD.. ';'] [--fresh WORD] [--seed WORD]
//!           [--percent N] [--first] [--only PART].. [--case PART NUMBER]
//!
//! The engine is the library linked in (`--cfg linked`), or the process that --engine starts; --self puts
//! the model in its place. --flood is the command of the run program. --fresh is a second seed, for a share
//! of the cases; --seed is the only one, to make a case again. --percent runs that share of the cases and
//! --only these parts; both ask for no difference alone. --first stops at the first one; --case runs one
//! case and prints it.
//! It is a library as well, so that it can be compiled once and linked with many engines.

mod cases;
mod crash;
mod entries;
mod flood;
mod inputs;
mod lent;
#[cfg(linked)]
mod linked;
mod model;
mod observed;
mod occurrences;
mod options;
mod orders;
#[cfg(linked)]
mod pages;
mod process;
mod receivers;
mod report;
mod subject;
mod unsound;

use cases::{make, pieces, program_input, Case};
use entries::{Part, ENTRIES};
use inputs::rng::Rng;
use lent::{lend, Lent};
use model::program;
use observed::Forward;
use options::{Options, Seed};
use report::Report;
use std::time::Instant;
use subject::{by_model, tally_of, Call, Model, Reply, Subject};

/// In this many steps each part goes from its first case to its last, all side by side.
const STEPS: usize = 200;

/// Where two buffers first differ, in words.
fn first_difference(name: &str, expected: &[u8], found: &[u8]) -> String {
    if name == "tally" {
        return format!("{:?} and should be {:?}", tally_of(found), tally_of(expected));
    }
    let at = expected.iter().zip(found).position(|(a, b)| a != b).expect("a difference");
    format!("byte {at} is {} and should be {}", found[at], expected[at])
}

/// What is wrong with the subject's answer and with each lent byte.
fn differences(case: &Case, expected: (&Reply, &[Vec<u8>]), found: (&Reply, &[Lent])) -> Vec<String> {
    let mut words = Vec::new();
    let (reply, lent) = found;
    if reply != expected.0 {
        words.push(format!("answers {reply:?} and should answer {:?}", expected.0));
    }
    for (index, (name, _)) in case.call.buffers().iter().enumerate() {
        let (content, wanted) = (lent[index].content(), &expected.1[index]);
        if content != wanted {
            let how = first_difference(name, wanted, content);
            words.push(format!("{name} after {:?}: {how}", expected.0));
        }
        if !lent[index].guards_hold() {
            words.push(format!("writes outside the {name}"));
        }
        if case.call.refused_whole(reply.number()) && content != case.buffers[index] {
            let how = first_difference(name, &case.buffers[index], content);
            words.push(format!("touches the {name} in spite of {reply:?}: {how}"));
        }
    }
    words
}

/// What is wrong with the receivers that the subject answers, by its own bytes and not by the model.
fn wrong_receivers(case: &Case, reply: &Reply, lent: &[Lent]) -> Vec<String> {
    match (case.call, reply) {
        (Call::Forward { peer, message }, Reply::Forwarded(answer)) => {
            let (before, table, after) = (&case.buffers[0], &case.buffers[1], lent[0].content());
            Forward { peer, message, table, before, after, answer }.wrong()
        }
        _ => Vec::new(),
    }
}

struct Comparison {
    subject: Box<dyn Subject>,
    report: Report,
    show: bool,
}

impl Comparison {
    /// One case: the same call by the model and by the subject, then every lent byte compared.
    fn call(&mut self, case: &Case, part: usize, rng: &mut Rng) -> Result<Vec<String>, String> {
        let mut after = case.buffers.clone();
        let mut views: Vec<&mut [u8]> = after.iter_mut().map(Vec::as_mut_slice).collect();
        let expected = by_model(case.call, &mut views);
        let mut lent = lend(rng, case.call, &case.buffers, case.call.refused_whole(expected.number()));
        self.report.count_lent(&lent);
        crash::call();
        let reply = self.subject.answer(case.call, &mut lent)?;
        self.report.count(part, expected.number(), occurrences::of_call(case, &expected, &after));
        let mut words = differences(case, (&expected, &after), (&reply, &lent));
        words.extend(wrong_receivers(case, &reply, &lent));
        Ok(words)
    }

    /// One input of the run program: what it writes, byte for byte.
    fn program(&mut self, input: &[u8], pieces: &[usize], part: usize) -> Result<Vec<String>, String> {
        let (answer, expected) = program::output(input);
        crash::call();
        let found = self.subject.program(input, pieces).expect("a run program")?;
        let occurred = occurrences::of_input(input, pieces, answer.number, &expected);
        self.report.count(part, answer.number, occurred);
        if found == expected {
            return Ok(Vec::new());
        }
        let (found, expected) = (String::from_utf8_lossy(&found), String::from_utf8_lossy(&expected));
        Ok(vec![format!("writes {found:?} and should write {expected:?}")])
    }

    /// One input of the drains, through the subject alone.
    fn orders(&mut self, seed: &Seed, number: usize, part: usize) -> Vec<String> {
        let drains = ENTRIES.iter().position(|entry| entry.part == Part::Drain).expect("drains");
        match orders::try_input(self.subject.as_mut(), seed.number, drains, number) {
            Ok(occurred) => {
                self.report.count(part, 0, occurred);
                Vec::new()
            }
            Err(words) => vec![words],
        }
    }

    /// Makes and compares one case. An error is a subject that broke down.
    fn case(&mut self, seed: &Seed, part: usize, number: usize) -> Result<(), String> {
        let entry = &ENTRIES[part];
        let name = format!("{} case {number} of seed {}", entry.name, seed.word);
        crash::case(&name);
        let mut rng = Rng::for_case(seed.number, part as u64, number as u64);
        let start = Instant::now();
        let words = match entry.part {
            Part::Program => {
                let input = program_input(&mut rng, number);
                let pieces = pieces(&mut rng, input.len(), number);
                if self.show {
                    println!("{} bytes, {:?}", input.len(), program::output(&input).0);
                }
                self.program(&input, &pieces, part)
            }
            Part::Orders => Ok(self.orders(seed, number, part)),
            kind => {
                let case = make(kind, &mut rng, number);
                if self.show {
                    show_case(&case);
                }
                self.call(&case, part, &mut rng)
            }
        };
        for line in words.map_err(|words| format!("{name}: {words}"))? {
            self.report.difference(part, &name, &line);
        }
        self.report.times[part] += start.elapsed();
        Ok(())
    }

    /// A share of the cases of every part that is to run, the parts side by side.
    fn all(&mut self, seed: &Seed, percent: usize, ran: &[bool], first: bool) -> Result<(), String> {
        let share = percent * seed.share;
        for step in 0..STEPS {
            for (part, entry) in ENTRIES.iter().enumerate().filter(|(part, _)| ran[*part]) {
                let count = entry.cases * share / 10_000;
                for number in count * step / STEPS..count * (step + 1) / STEPS {
                    self.case(seed, part, number)?;
                    if first && self.report.differences > 0 {
                        return Ok(());
                    }
                }
            }
        }
        Ok(())
    }
}

fn show_case(case: &Case) {
    println!("{:?}", case.call);
    for (buffer, (name, _)) in case.buffers.iter().zip(case.call.buffers()) {
        let hex: Vec<String> = buffer.iter().map(|byte| format!("{byte:02x}")).collect();
        println!("{name}, {} bytes: {}", buffer.len(), hex.concat());
    }
}

fn subject(options: &Options) -> Result<Box<dyn Subject>, String> {
    if options.itself {
        return Ok(Box::new(Model));
    }
    if let Some(command) = &options.engine {
        println!("compare: the engine as a process");
        return Ok(Box::new(process::Process::start(command, options.flood.clone())?));
    }
    #[cfg(linked)]
    {
        println!("compare: the engine linked as a static library");
        Ok(Box::new(linked::Linked::new(options.flood.clone())))
    }
    #[cfg(not(linked))]
    Err("built without the library: --engine or --self is needed".to_string())
}

/// Runs the comparison. True if all is well.
fn compare() -> Result<bool, String> {
    let options = Options::read(std::env::args().skip(1))?;
    crash::watch();
    let show = options.case.is_some();
    let mut comparison = Comparison { subject: subject(&options)?, report: Report::new(), show };
    if let Some((part, number)) = options.case {
        comparison.case(&options.seeds[0], part, number)?;
        return Ok(comparison.report.differences == 0);
    }
    let ran = ENTRIES.map(|entry| options.runs(&entry));
    let start = Instant::now();
    for seed in &options.seeds {
        println!("seed {}, {} percent of the cases", seed.word, options.percent * seed.share / 100);
        comparison.all(seed, options.percent, &ran, options.first)?;
        if options.first && comparison.report.differences > 0 {
            return Ok(false);
        }
    }
    let report = comparison.report;
    report.print(&ran);
    let times = ENTRIES.iter().zip(&report.times);
    let times: Vec<String> =
        times.map(|(entry, time)| format!("{} {:.1}", entry.name, time.as_secs_f64())).collect();
    println!("{:.1} s in all: {}", start.elapsed().as_secs_f64(), times.join(", "));
    for (entry, _) in ENTRIES.iter().zip(ran).filter(|(_, ran)| !ran) {
        println!("{}: NOT RUN", entry.name);
    }
    // Of a share of the cases only this is asked: no difference.
    let whole = options.percent >= 100 && options.only.is_empty();
    Ok((!whole || report.complete(&ran)) && report.differences == 0)
}

pub fn main() {
    match compare() {
        Ok(true) => println!("compare: no difference"),
        Ok(false) => {
            println!("compare: FAILED");
            std::process::exit(1);
        }
        Err(words) => {
            println!("compare: FAILED: {words}");
            std::process::exit(1);
        }
    }
}
