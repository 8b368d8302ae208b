//! The words of the command line.

use crate::entries::{Entry, Part, ENTRIES};

/// A seed as it is written: a number, or any other word, such as a commit's hash.
#[derive(Clone)]
pub struct Seed {
    pub word: String,
    pub number: u64,
    /// How much of the cases it is used for, in percent.
    pub share: usize,
}

pub struct Options {
    pub itself: bool,
    pub first: bool,
    pub engine: Option<Vec<String>>,
    pub flood: Option<Vec<String>>,
    pub seeds: Vec<Seed>,
    pub percent: usize,
    pub case: Option<(usize, usize)>,
    /// The names of the parts to run; none for all.
    pub only: Vec<String>,
}

/// The share of the cases that is made from the fresh seed besides.
const FRESH: usize = 20;

impl Seed {
    pub fn of(word: &str, share: usize) -> Seed {
        // Any word gives a number: the steps of the hash that is called FNV-1a.
        let hashed = word.bytes().fold(0xcbf2_9ce4_8422_2325_u64, |hash, byte| {
            (hash ^ u64::from(byte)).wrapping_mul(0x0000_0100_0000_01b3)
        });
        Seed { word: word.to_string(), number: word.parse().unwrap_or(hashed), share }
    }
}

impl Options {
    pub fn read(mut words: impl Iterator<Item = String>) -> Result<Options, String> {
        let mut options = Options {
            itself: false,
            first: false,
            engine: None,
            flood: None,
            seeds: Vec::new(),
            percent: 100,
            case: None,
            only: Vec::new(),
        };
        let (mut seed, mut fresh) = (None, None);
        while let Some(word) = words.next() {
            match word.as_str() {
                "--self" => options.itself = true,
                "--first" => options.first = true,
                "--engine" => options.engine = Some(words.by_ref().take_while(|word| word != ";").collect()),
                "--flood" => options.flood = Some(words.by_ref().take_while(|word| word != ";").collect()),
                "--seed" => seed = Some(Seed::of(&words.next().ok_or("a seed is missing")?, 100)),
                "--fresh" => fresh = Some(Seed::of(&words.next().ok_or("a seed is missing")?, FRESH)),
                "--percent" => options.percent = number(words.next())?,
                "--only" => options.only.extend(words.next()),
                "--case" => {
                    let name = words.next().unwrap_or_default();
                    let part = ENTRIES.iter().position(|entry| entry.name == name);
                    options.case = Some((part.ok_or(format!("no part {name}"))?, number(words.next())?));
                }
                _ => return Err(format!("unknown word {word}")),
            }
        }
        // A seed that is asked for is the only one.
        options.seeds = match seed {
            Some(seed) => vec![seed],
            None => [Seed::of("20260101", 100)].into_iter().chain(fresh).collect(),
        };
        Ok(options)
    }

    /// Is this part to run? The run program must be there; the model's own orders are tried in
    /// properties.rs, and take it long.
    pub fn runs(&self, entry: &Entry) -> bool {
        let asked = self.only.is_empty() || self.only.iter().any(|name| name == entry.name);
        asked
            && match entry.part {
                Part::Program => self.itself || self.flood.is_some(),
                Part::Orders => !self.itself,
                _ => true,
            }
    }
}

fn number(word: Option<String>) -> Result<usize, String> {
    let word = word.unwrap_or_default();
    word.parse().map_err(|error| format!("{word}: {error}"))
}
