//! Peer, topic and message numbers, and sets of them. They are separate types: none can stand where another is meant.

use crate::text::{self, TextError};
use std::fmt;
use std::marker::PhantomData;
use std::str::FromStr;

/// The three sorts are all there are: a set's word has room for them, and for no others.
pub(crate) mod sealed {
    pub trait Sort: Sized {
        /// The number of a byte's low bits: the byte itself where it is known to be in range.
        fn of_low_bits(byte: u8) -> Self;
    }
}

/// A number of one of the three sorts. No other type can be one.
///
/// ```
/// use relay_host::{Message, Number, Peer};
///
/// assert_eq!(Peer::new(32), None);
/// let five: Message = "5".parse().unwrap();
/// assert_eq!(five.get(), 5);
/// assert_eq!("64".parse::<Message>().unwrap_err().to_string(), "there is no message 64: messages are 0 to 63");
/// ```
///
/// ```compile_fail
/// #[derive(Clone, Copy, Debug, PartialEq, Eq)]
/// struct Huge(u8);
/// impl relay_host::numbers::sealed::Sort for Huge {
///     fn of_low_bits(byte: u8) -> Huge {
///         Huge(byte)
///     }
/// }
/// ```
pub trait Number: sealed::Sort + Copy + Eq + fmt::Debug + fmt::Display + FromStr<Err = TextError> {
    /// What it is called.
    const NOUN: &'static str;
    /// The first number that is out of range.
    const BELOW: u8;
    /// The number, unless it is out of range.
    fn new(number: u8) -> Option<Self>;
    /// The number itself.
    fn get(self) -> u8;
    /// All numbers of the sort, rising.
    fn all() -> impl Iterator<Item = Self> {
        (0..Self::BELOW).filter_map(Self::new)
    }
}

macro_rules! number {
    ($(#[$about:meta])* $Name:ident, $noun:literal, $below:literal) => {
        $(#[$about])*
        #[derive(Clone, Copy, Debug, PartialEq, Eq, PartialOrd, Ord, Hash)]
        pub struct $Name(u8);

        impl Number for $Name {
            const NOUN: &'static str = $noun;
            const BELOW: u8 = $below;

            fn new(number: u8) -> Option<$Name> {
                (number < $below).then_some($Name(number))
            }

            fn get(self) -> u8 {
                self.0
            }
        }

        impl sealed::Sort for $Name {
            fn of_low_bits(byte: u8) -> $Name {
                $Name(byte % $below)
            }
        }

        /// The number as a line of text has it: decimal digits.
        impl FromStr for $Name {
            type Err = TextError;

            fn from_str(word: &str) -> Result<$Name, TextError> {
                text::number(word)
            }
        }

        impl fmt::Display for $Name {
            fn fmt(&self, out: &mut fmt::Formatter) -> fmt::Result {
                self.0.fmt(out)
            }
        }
    };
}

number!(
    /// A peer, 0 to 31.
    Peer, "peer", 32
);
number!(
    /// A topic, 0 to 31.
    Topic, "topic", 32
);
number!(
    /// A message, 0 to 63.
    Message, "message", 64
);

/// A set of numbers of one sort: a word in which bit i stands for number i.
#[derive(Clone, Copy, PartialEq, Eq, Hash)]
pub struct Set<N> {
    word: u64,
    sort: PhantomData<N>,
}

impl<N: Number> Set<N> {
    pub const fn empty() -> Set<N> {
        Set { word: 0, sort: PhantomData }
    }

    /// The set of a word; bits out of range don't count.
    pub fn of_word(word: u64) -> Set<N> {
        let mask = u64::MAX >> (64 - u32::from(N::BELOW));
        Set { word: word & mask, sort: PhantomData }
    }

    pub fn word(self) -> u64 {
        self.word
    }

    pub fn has(self, number: N) -> bool {
        self.word >> number.get() & 1 == 1
    }

    pub fn insert(&mut self, number: N) {
        self.word |= 1 << number.get();
    }

    pub fn len(self) -> usize {
        self.word.count_ones() as usize
    }

    pub fn is_empty(self) -> bool {
        self.word == 0
    }

    /// The members of both sets.
    pub fn common(self, other: Set<N>) -> Set<N> {
        Set::of_word(self.word & other.word)
    }

    /// The members that the other set lacks.
    pub fn without(self, other: Set<N>) -> Set<N> {
        Set::of_word(self.word & !other.word)
    }

    /// The members, rising.
    pub fn members(self) -> impl Iterator<Item = N> {
        N::all().filter(move |&number| self.has(number))
    }
}

impl<N: Number> FromIterator<N> for Set<N> {
    fn from_iter<I: IntoIterator<Item = N>>(numbers: I) -> Set<N> {
        let mut set = Set::empty();
        for number in numbers {
            set.insert(number);
        }
        set
    }
}

/// As the text form has it: numbers and runs of three or more, `0,2,5-7`, or `none`.
impl<N: Number> fmt::Display for Set<N> {
    fn fmt(&self, out: &mut fmt::Formatter) -> fmt::Result {
        if self.is_empty() {
            return out.pad("none");
        }
        let parts: Vec<String> = self.runs().into_iter().map(run_text).collect();
        out.pad(&parts.join(","))
    }
}

impl<N: Number> Set<N> {
    /// The longest runs of members that follow each other, as first and last.
    fn runs(self) -> Vec<(u8, u8)> {
        let mut runs: Vec<(u8, u8)> = Vec::new();
        for number in self.members().map(N::get) {
            match runs.last_mut() {
                Some((_, last)) if *last + 1 == number => *last = number,
                _ => runs.push((number, number)),
            }
        }
        runs
    }
}

fn run_text((first, last): (u8, u8)) -> String {
    match last - first {
        0 => first.to_string(),
        1 => format!("{first},{last}"),
        _ => format!("{first}-{last}"),
    }
}

impl<N: Number> fmt::Debug for Set<N> {
    fn fmt(&self, out: &mut fmt::Formatter) -> fmt::Result {
        write!(out, "{{{self}}}")
    }
}

#[cfg(test)]
mod tests {
    use super::*;

    #[test]
    fn numbers_stop_at_their_range() {
        assert!(Peer::new(31).is_some() && Peer::new(32).is_none());
        assert!(Topic::new(31).is_some() && Topic::new(32).is_none());
        assert!(Message::new(63).is_some() && Message::new(64).is_none());
    }

    #[test]
    fn sets_are_compared_member_by_member() {
        let (one, other) = (Set::<Message>::of_word(1 << 63 | 0b110), Set::<Message>::of_word(1 << 63 | 0b011));
        assert_eq!(one.common(other), Set::of_word(1 << 63 | 0b010));
        assert_eq!(one.without(other), Set::of_word(0b100));
    }

    #[test]
    fn sets_print_runs() {
        assert_eq!(Set::<Peer>::empty().to_string(), "none");
        assert_eq!(Set::<Peer>::of_word(0b1110_0101).to_string(), "0,2,5-7");
        assert_eq!(Set::<Peer>::of_word(0b11).to_string(), "0,1");
        assert_eq!(Set::<Message>::of_word(u64::MAX).to_string(), "0-63");
        assert_eq!(Set::<Peer>::of_word(u64::MAX).len(), 32);
    }
}
