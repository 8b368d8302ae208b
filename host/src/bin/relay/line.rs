//! The words of a line, for the commands beside the events. What an event or a number looks like, the crate knows.

use relay_host::text::FORMS;
use relay_host::{Event, Number};
use std::fmt;

/// Why a line can't be read, for a person.
#[derive(Clone, Debug, PartialEq, Eq)]
pub struct TextError(pub String);

impl fmt::Display for TextError {
    fn fmt(&self, out: &mut fmt::Formatter) -> fmt::Result {
        out.pad(&self.0)
    }
}

impl From<relay_host::TextError> for TextError {
    fn from(error: relay_host::TextError) -> TextError {
        TextError(error.to_string())
    }
}

/// The words of one line that are still to be read.
pub struct Words<'a> {
    words: std::iter::Peekable<std::vec::IntoIter<&'a str>>,
    form: &'static str,
}

impl<'a> Words<'a> {
    /// The words of a line that has been taken apart.
    pub fn of_words(words: Vec<&'a str>) -> Words<'a> {
        Words { words: words.into_iter().peekable(), form: "" }
    }

    /// What a message may give as the right form from here on.
    pub fn expect_form(&mut self, form: &'static str) {
        self.form = form;
    }

    /// The next word, if there is one.
    pub fn take(&mut self) -> Option<&'a str> {
        self.words.next()
    }

    /// The next word, which must be there.
    pub fn need(&mut self, what: &str) -> Result<&'a str, TextError> {
        self.words.next().ok_or_else(|| TextError(format!("{what} is missing: {}", self.form)))
    }

    /// The next word, if it is this keyword.
    pub fn keyword(&mut self, keyword: &str) -> bool {
        self.words.next_if(|word| word.eq_ignore_ascii_case(keyword)).is_some()
    }

    /// A number of a sort.
    pub fn number<N: Number>(&mut self) -> Result<N, TextError> {
        Ok(self.need(&format!("the {}", N::NOUN))?.parse::<N>()?)
    }

    /// Nothing may follow.
    pub fn end(&mut self) -> Result<(), TextError> {
        match self.words.next() {
            None => Ok(()),
            Some(word) => Err(TextError(format!("`{word}` is too much: {}", self.form))),
        }
    }

    /// An event whose name has been taken, with all the words that are left; none if it is no event's name. An event names no file,
    /// so that no word of it needs quotes.
    pub fn event(&mut self, name: &'a str) -> Result<Option<Event>, TextError> {
        if !FORMS.iter().any(|(event, _)| event.eq_ignore_ascii_case(name)) {
            return Ok(None);
        }
        let line: Vec<&str> = std::iter::once(name).chain(self.words.by_ref()).collect();
        if let Some(word) = line.iter().find(|word| word.contains(char::is_whitespace) || word.starts_with('#')) {
            return Err(TextError(format!("`{word}` can't stand in an event; quotes are for the names of files")));
        }
        Ok(Some(line.join(" ").parse::<Event>()?))
    }
}
