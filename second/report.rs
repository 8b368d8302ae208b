//! The counts of each part, number and occurrence, and the differences found.

use crate::entries::{ENTRIES, NUMBERS};
use crate::lent::{Lent, Place};
use crate::occurrences::Occurrence;
use std::collections::BTreeMap;
use std::time::Duration;

#[derive(Default)]
pub struct Report {
    /// By part and number: how often it was answered.
    counts: Vec<[u64; NUMBERS]>,
    /// By part: what occurred, and how often.
    occurred: Vec<BTreeMap<String, u64>>,
    /// By part: the time that it took.
    pub times: Vec<Duration>,
    /// Buffers at the end of a page, at the start of one, between guards; and locked ones.
    lent: [u64; 4],
    pub differences: u64,
    /// By part: how many were found, of which the first few are printed.
    found: BTreeMap<&'static str, u64>,
}

impl Report {
    pub fn new() -> Report {
        let parts = ENTRIES.len();
        Report {
            counts: vec![[0; NUMBERS]; parts],
            occurred: vec![BTreeMap::new(); parts],
            times: vec![Duration::ZERO; parts],
            ..Report::default()
        }
    }

    pub fn count(&mut self, part: usize, number: u8, occurred: Vec<Occurrence>) {
        self.counts[part][number as usize] += 1;
        for (words, times) in occurred {
            *self.occurred[part].entry(words).or_insert(0) += times;
        }
    }

    pub fn count_lent(&mut self, lent: &[Lent]) {
        for buffer in lent {
            self.lent[match buffer.place {
                Place::AtTheEnd => 0,
                Place::AtTheStart => 1,
                Place::Between => 2,
            }] += 1;
            self.lent[3] += u64::from(buffer.locked);
        }
    }

    /// `case` is the seed, the part and the number.
    pub fn difference(&mut self, part: usize, case: &str, words: &str) {
        self.differences += 1;
        let found = self.found.entry(ENTRIES[part].name).or_insert(0);
        *found += 1;
        if *found <= 4 {
            println!("DIFFERENCE {case}: {words}");
        }
    }

    /// Prints all counts, for the parts that ran.
    pub fn print(&self, ran: &[bool]) {
        self.print_numbers();
        for (index, entry) in ENTRIES.iter().enumerate().filter(|(index, _)| ran[*index]) {
            let found = self.occurred[index].iter();
            let listed: Vec<String> = found.map(|(words, count)| format!("{words} {count}")).collect();
            println!("{}: {}", entry.name, listed.join(", "));
        }
        let [end, start, between, locked] = self.lent;
        println!("buffers lent: {end} at the end of a page, {start} at its start, {between} between guards");
        println!("locked while lent: {locked}");
        let cases: u64 = self.counts.iter().flatten().sum();
        println!("{cases} cases, {} differences", self.differences);
    }

    fn print_numbers(&self) {
        print!("{:>8}", "number");
        ENTRIES.iter().for_each(|entry| print!("{:>9}", entry.name));
        println!("{:>9}", "all");
        let answered = |number: &usize| ENTRIES.iter().any(|entry| entry.numbers.contains(&(*number as u8)));
        for number in (0..NUMBERS).filter(answered) {
            print!("{number:>8}");
            for (index, entry) in ENTRIES.iter().enumerate() {
                if entry.numbers.contains(&(number as u8)) {
                    print!("{:>9}", self.counts[index][number])
                } else {
                    print!("{:>9}", "-")
                }
            }
            println!("{:>9}", self.counts.iter().map(|part| part[number]).sum::<u64>());
        }
    }

    /// Did every part that ran answer each number it can often enough and no other, and did all occur
    /// that must? Says what is missing.
    pub fn complete(&self, ran: &[bool]) -> bool {
        let mut missing = Vec::new();
        for (index, entry) in ENTRIES.iter().enumerate().filter(|(index, _)| ran[*index]) {
            for number in 0..NUMBERS {
                let count = self.counts[index][number];
                let can = entry.numbers.contains(&(number as u8));
                let least = if number < 20 { entry.least } else { entry.least_unsound };
                if can && count < least || !can && count > 0 {
                    missing.push(format!("number {number} of {}: {count} times", entry.name));
                }
            }
            let occurred = |words: &str| self.occurred[index].contains_key(words);
            let absent = entry.must_occur.iter().copied().flatten().filter(|words| !occurred(words));
            missing.extend(absent.map(|words| format!("{}: \"{words}\" did not occur", entry.name)));
        }
        missing.iter().for_each(|words| println!("{words}"));
        missing.is_empty()
    }
}
