//! Times tasks on all engines in turns: proved, plain, best, shortcuts, proved, plain, and so on.
use crate::engine::ALL;
use crate::tasks::{Buffer, Task};
use std::array::from_fn;
use std::hint::black_box;
use std::time::Instant;

const TURNS: usize = 401;

/// A turn makes so many calls that the slowest engine takes about this long.
const TURN_NS: f64 = 200_000.0;

/// In nanoseconds a call, in the order of `ALL`.
pub type Each = [f64; ALL.len()];

pub struct Times {
    /// The best turn of each.
    pub best: Each,
    /// The first engine's time over each other's.
    pub ratios: [Ratio; ALL.len() - 1],
}

/// The ratio of the bests, and its spread: the ratios of the single turns without the lowest and the highest tenth.
pub struct Ratio {
    pub of_bests: f64,
    pub low: f64,
    pub high: f64,
}

/// Nanoseconds a call.
fn turn(calls: u32, mut call: impl FnMut()) -> f64 {
    let start = Instant::now();
    for _ in 0..calls {
        call();
    }
    start.elapsed().as_nanos() as f64 / f64::from(calls)
}

/// One turn of each engine.
fn turn_of_all(task: &Task, calls: u32, b: &mut Buffer) -> Each {
    ALL.map(|engine| {
        turn(calls, || {
            black_box(black_box(task).call(&engine, b));
        })
    })
}

/// How many calls a turn makes.
fn calls(task: &Task, b: &mut Buffer) -> u32 {
    let slowest = turn_of_all(task, 5, b).into_iter().fold(1.0, f64::max);
    (TURN_NS / slowest).max(1.0) as u32
}

/// Times all tasks in the same turns: a while in which the machine is slow takes a few turns of each, and not all the turns of one.
pub fn measure(tasks: &[Task]) -> Vec<Times> {
    let mut b = Buffer::new();
    for task in tasks {
        task.compare(&ALL);
    }
    let calls: Vec<u32> = tasks.iter().map(|task| calls(task, &mut b)).collect();
    let mut turns = vec![Vec::new(); tasks.len()];
    for _ in 0..TURNS {
        for (k, task) in tasks.iter().enumerate() {
            turns[k].push(turn_of_all(task, calls[k], &mut b));
        }
    }
    turns.iter().map(|turns| Times::of(turns)).collect()
}

impl Times {
    fn of(turns: &[Each]) -> Times {
        let best: Each = from_fn(|k| turns.iter().map(|t| t[k]).fold(f64::MAX, f64::min));
        let ratios = from_fn(|k| Ratio::of(best[0] / best[k + 1], turns.iter().map(|t| t[0] / t[k + 1]).collect()));
        Times { best, ratios }
    }
}

impl Ratio {
    fn of(of_bests: f64, mut single: Vec<f64>) -> Ratio {
        single.sort_by(f64::total_cmp);
        let tenth = single.len() / 10;
        Ratio { of_bests, low: single[tenth], high: single[single.len() - 1 - tenth] }
    }
}

/// The best time of laying a state into the buffer, which is a part of the times of every run, forward and drain.
pub fn laying(task: &Task) -> f64 {
    let mut b = Buffer::new();
    (0..TURNS).map(|_| turn(1000, || black_box(task).lay(black_box(&mut b)))).fold(f64::MAX, f64::min)
}
