//! Why a line can't be read.

use std::error::Error;
use std::fmt;

/// Why a line can't be read. It prints as a sentence for a person; `form` is how the event is written.
#[derive(Clone, Debug, PartialEq, Eq)]
#[non_exhaustive]
pub enum TextError {
    /// The line ends before this: a peer, a message, an event.
    Missing { what: &'static str, form: &'static str },
    /// Another word stands where this keyword must.
    NoKeyword { keyword: &'static str, form: &'static str },
    /// The first word is no event's name.
    NoEvent { word: String },
    /// A word that the event doesn't have there.
    Unexpected { word: String, form: &'static str },
    /// A word behind the end of the event.
    TooMuch { word: String, form: &'static str },
    /// A set's keyword for the second time.
    Twice { word: String },
    /// A keyword without its set.
    NoSet { keyword: &'static str },
    /// A set that ends in a comma.
    EndsInComma { keyword: &'static str },
    /// Two commas, or one at the start.
    Hole { word: String },
    /// A range whose first number is above its last.
    Backwards { range: String },
    /// A word that is not all digits where a number must stand.
    NotDigits { noun: &'static str, last: u8, word: String },
    /// A number above the last of its sort.
    OutOfRange { noun: &'static str, last: u8, word: String },
}

impl fmt::Display for TextError {
    fn fmt(&self, out: &mut fmt::Formatter) -> fmt::Result {
        use TextError::*;
        match self {
            Missing { what, form } => write!(out, "the {what} is missing: {form}"),
            NoKeyword { keyword, form } => write!(out, "`{keyword}` is missing: {form}"),
            NoEvent { word } => write!(out, "`{word}` is no event"),
            Unexpected { word, form } => write!(out, "`{word}` is not expected here: {form}"),
            TooMuch { word, form } => write!(out, "`{word}` is too much: {form}"),
            Twice { word } => write!(out, "`{word}` is given twice"),
            NoSet { keyword } => write!(out, "`{keyword}` has no set behind it; the empty one is `none`"),
            EndsInComma { keyword } => write!(out, "the set behind `{keyword}` ends in a comma"),
            Hole { word } => write!(out, "`{word}` has a comma with no number before it"),
            Backwards { range } => write!(out, "the range {range} runs backwards"),
            NotDigits { noun, last, word } => write!(out, "`{word}` is no {noun} number: {noun}s are 0 to {last}"),
            OutOfRange { noun, last, word } => write!(out, "there is no {noun} {word}: {noun}s are 0 to {last}"),
        }
    }
}

impl Error for TextError {}
