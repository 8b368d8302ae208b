//! The proved engine beside three of plain Rust, in one run: plain.rs has the engine's algorithms, best.rs is a faster one, without
//! shortcuts and with them. Each task is timed in turns, and what is printed is the best of each, the ratios of the bests, and the
//! spreads of the ratios over the turns. Before a task is timed, the answers and bytes of all four are compared, and first of all their
//! refusals of unsound states and their single forwards. No time is a test.
mod best;
mod engine;
mod forwards;
mod inputs;
mod plain;
mod tasks;
mod timing;
mod unsound;

use std::array::from_fn;
use tasks::Task;
use timing::{laying, measure, Each, Ratio};

fn main() {
    unsound::compare(&engine::ALL);
    forwards::compare(&engine::ALL);
    let tasks = tasks::tasks();
    println!("\n## Tasks\n");
    rows(&tasks);
    let laid = laying(&tasks[0]);
    println!("\nA run, a forward and a drain begin with laying the state into the buffer: about {laid:.0} ns of each of their times.");
    println!("\n## Forwards\n");
    rows(&tasks::over_links());
    println!("\n## Growth over events\n");
    events();
    println!("\n## Growth over desks\n");
    rows(&tasks::over_desks());
}

fn rows(tasks: &[Task]) {
    let times = "proved, ns | plain, ns | best, ns | shortcuts, ns";
    println!("| task | {times} | ratio to plain | its spread | ratio to best | its spread | ratio to shortcuts |");
    println!("|---|---|---|---|---|---|---|---|---|---|");
    for (task, t) in tasks.iter().zip(measure(tasks)) {
        let [plain, best, shortcuts] = t.ratios;
        println!("| {} | {} | {} | {} | {:.2} |", task.name, cells(t.best, 0), plain.cells(), best.cells(), shortcuts.of_bests);
    }
}

/// A row's times, with so many digits after the point.
fn cells(times: Each, digits: usize) -> String {
    times.map(|t| format!("{t:.digits$}")).join(" | ")
}

impl Ratio {
    fn cells(&self) -> String {
        format!("{:.2} | {:.2} to {:.2}", self.of_bests, self.low, self.high)
    }
}

/// The first task has no event: its time is the fixed cost, and of the others what goes beyond it is shared out among the events.
fn events() {
    println!("| mixed events, 3 desks | proved | plain | best | shortcuts |");
    println!("|---|---|---|---|---|");
    let times = measure(&tasks::over_events());
    let fixed = times[0].best;
    println!("| none: the fixed cost, ns | {} |", cells(fixed, 0));
    for (count, time) in tasks::COUNTS.iter().zip(&times).skip(1) {
        let beyond = from_fn(|k| (time.best[k] - fixed[k]) / *count as f64);
        println!("| {count}: ns an event beyond it | {} |", cells(beyond, 1));
    }
    println!("\nA single event is within the noise of the fixed cost.");
}
