//! Events as lines of text: `join 1 subs 0 neighbours 0`, `produce 0 5`, `subscribe 1 topics 0,2-4`.
//!
//! A set is numbers and ranges, with spaces or commas between them; `none` is the empty set. Capital letters and `neighbors` will do.
//!
//! ```
//! use relay_host::{Event, TextError};
//!
//! let event: Event = "join 1 subs 0,2-4 neighbours 0".parse().unwrap();
//! assert_eq!(event.to_string(), "join 1 subs 0,2-4 neighbours 0");
//! let error = "produce 0 64".parse::<Event>().unwrap_err();
//! assert_eq!(error, TextError::OutOfRange { noun: "message", last: 63, word: "64".into() });
//! assert_eq!(error.to_string(), "there is no message 64: messages are 0 to 63");
//! ```

use crate::event::{Event, Joining};
use crate::numbers::{Number, Peer, Set, Topic};
use std::str::FromStr;

pub use crate::text_error::TextError;

/// A text that may come from anywhere, without what a terminal would obey: a control character stands as its code.
pub fn plain(text: &str) -> String {
    text.chars()
        .map(|letter| if letter.is_control() { letter.escape_unicode().to_string() } else { letter.into() })
        .collect()
}

/// A word as the rules of the text have it.
fn usual(word: &str) -> String {
    match word.to_ascii_lowercase() {
        word if word == "neighbors" => "neighbours".into(),
        word => word,
    }
}

/// The events' names and forms.
pub const FORMS: [(&str, &str); 7] = [
    ("skip", "skip"),
    ("produce", "produce PEER MESSAGE"),
    ("forward", "forward PEER MESSAGE"),
    ("subscribe", "subscribe PEER topics SET"),
    ("unsubscribe", "unsubscribe PEER topics SET"),
    ("leave", "leave PEER"),
    ("join", "join PEER [subs SET] [pubs SET] [neighbours SET]"),
];

/// The words of one line that are still to be read.
struct Words<'a> {
    words: std::iter::Peekable<std::vec::IntoIter<&'a str>>,
    form: &'static str,
}

impl<'a> Words<'a> {
    /// The words of a line without its comment: a word that begins with `#` ends the line.
    fn of_line(line: &'a str) -> Words<'a> {
        let words: Vec<&str> = line.split_whitespace().take_while(|word| !word.starts_with('#')).collect();
        Words { words: words.into_iter().peekable(), form: "an event" }
    }

    /// The next word, which must be there.
    fn need(&mut self, what: &'static str) -> Result<&'a str, TextError> {
        self.words.next().ok_or(TextError::Missing { what, form: self.form })
    }

    fn unexpected(&self, word: &str) -> TextError {
        TextError::Unexpected { word: word.into(), form: self.form }
    }

    /// The next word, if it is this keyword.
    fn keyword(&mut self, keyword: &str) -> bool {
        self.words.next_if(|word| usual(word) == keyword).is_some()
    }

    /// A number of a sort.
    fn number<N: Number>(&mut self) -> Result<N, TextError> {
        number(self.need(N::NOUN)?)
    }

    /// A set: all words up to one of the keywords or the end, and at least one. A comma may stand between two members, with or
    /// without a space.
    fn set<N: Number>(&mut self, keyword: &'static str, keywords: &[&str]) -> Result<Set<N>, TextError> {
        let mut set = Set::empty();
        let mut words = 0;
        let mut comma = false;
        while let Some(word) = self.words.next_if(|word| !keywords.contains(&usual(word).as_str())) {
            words += 1;
            comma = word.ends_with(',');
            if usual(word) == "none" {
                continue;
            }
            if word.starts_with(char::is_alphabetic) {
                return Err(self.unexpected(word));
            }
            for part in word.strip_suffix(',').unwrap_or(word).split(',') {
                if part.is_empty() {
                    return Err(TextError::Hole { word: word.into() });
                }
                add_part(&mut set, part)?;
            }
        }
        match (words, comma) {
            (0, _) => Err(TextError::NoSet { keyword }),
            (_, true) => Err(TextError::EndsInComma { keyword }),
            (_, false) => Ok(set),
        }
    }

    /// Nothing may follow.
    fn end(&mut self) -> Result<(), TextError> {
        match self.words.next() {
            None => Ok(()),
            Some(word) => Err(TextError::TooMuch { word: word.into(), form: self.form }),
        }
    }

    /// The event that the whole line is.
    fn event(&mut self) -> Result<Event, TextError> {
        let name = self.need("event")?;
        let Some(&(known, form)) = FORMS.iter().find(|(event, _)| *event == usual(name)) else {
            return Err(TextError::NoEvent { word: name.into() });
        };
        self.form = form;
        let event = match known {
            "skip" => Event::Skip,
            "produce" => Event::Produce(self.number()?, self.number()?),
            "forward" => Event::Forward(self.number()?, self.number()?),
            "subscribe" => Event::Subscribe(self.number()?, self.topics()?),
            "unsubscribe" => Event::Unsubscribe(self.number()?, self.topics()?),
            "leave" => Event::Leave(self.number()?),
            _ => Event::Join(self.number()?, self.joining()?),
        };
        self.end()?;
        Ok(event)
    }

    fn topics(&mut self) -> Result<Set<Topic>, TextError> {
        if !self.keyword("topics") {
            return Err(TextError::NoKeyword { keyword: "topics", form: self.form });
        }
        self.set("topics", &[])
    }

    /// The three sets of a join, in any order, each at most once.
    fn joining(&mut self) -> Result<Joining, TextError> {
        const KEYWORDS: [&str; 3] = ["subs", "pubs", "neighbours"];
        let (mut subs, mut pubs, mut neighbours) = (None, None, None);
        while let Some(word) = self.words.next() {
            let twice = match usual(word).as_str() {
                "subs" => subs.replace(self.set("subs", &KEYWORDS)?).is_some(),
                "pubs" => pubs.replace(self.set("pubs", &KEYWORDS)?).is_some(),
                "neighbours" => neighbours.replace(self.set("neighbours", &KEYWORDS)?).is_some(),
                _ => return Err(self.unexpected(word)),
            };
            if twice {
                return Err(TextError::Twice { word: word.into() });
            }
        }
        Ok(Joining {
            subs: subs.unwrap_or(Set::empty()),
            pubs: pubs.unwrap_or(Set::empty()),
            neighbours: neighbours.unwrap_or(Set::<Peer>::empty()),
        })
    }
}

/// A number of a sort, in digits.
pub(crate) fn number<N: Number>(word: &str) -> Result<N, TextError> {
    let (noun, last) = (N::NOUN, N::BELOW - 1);
    if word.is_empty() || !word.bytes().all(|byte| byte.is_ascii_digit()) {
        return Err(TextError::NotDigits { noun, last, word: word.into() });
    }
    let number = word.parse().ok().and_then(N::new);
    number.ok_or_else(|| TextError::OutOfRange { noun, last, word: word.into() })
}

/// Adds a number or a range to a set.
fn add_part<N: Number>(set: &mut Set<N>, part: &str) -> Result<(), TextError> {
    let (first, last): (N, N) = match part.split_once('-') {
        Some((first, last)) if !first.is_empty() && !last.is_empty() => (number(first)?, number(last)?),
        _ => (number(part)?, number(part)?),
    };
    if first.get() > last.get() {
        return Err(TextError::Backwards { range: part.into() });
    }
    for member in (first.get()..=last.get()).filter_map(N::new) {
        set.insert(member);
    }
    Ok(())
}

impl FromStr for Event {
    type Err = TextError;

    fn from_str(line: &str) -> Result<Event, TextError> {
        Words::of_line(line).event()
    }
}

#[cfg(test)]
mod tests {
    use super::*;

    fn event(line: &str) -> Event {
        line.parse().unwrap_or_else(|error| panic!("{line}: {error}"))
    }

    fn message(line: &str) -> String {
        line.parse::<Event>().unwrap_err().to_string()
    }

    #[test]
    fn lines_come_back_as_they_were() {
        for line in [
            "skip",
            "produce 0 5",
            "forward 31 63",
            "subscribe 1 topics 0,2-4",
            "unsubscribe 1 topics none",
            "leave 7",
            "join 3",
            "join 1 subs 0 neighbours 0",
            "join 2 subs 0-31 pubs 1,2 neighbours 0,31",
        ] {
            assert_eq!(event(line).to_string(), line);
        }
    }

    #[test]
    fn one_event_may_be_written_in_several_ways() {
        let join = event("join 1 subs 0,2-4 pubs 7 neighbours 0 2");
        assert_eq!(event("  join 1 neighbours 0,2 pubs 7 subs 0 2 3 4   # a desk"), join);
        assert_eq!(event("join 1 subs 0, 2-4 pubs 7 neighbours 2 0 0"), join);
        assert_eq!(event("join 1 subs none"), event("join 1"));
        assert_eq!(event("JOIN 1 Subs 0,2-4 pubs 7 neighbors 0 2"), join);
        assert_eq!(event("subscribe 1 TOPICS None"), event("subscribe 1 topics none"));
    }

    #[test]
    fn bad_lines_are_explained() {
        assert_eq!(message("produce 0"), "the message is missing: produce PEER MESSAGE");
        assert_eq!(message("produce 32 5"), "there is no peer 32: peers are 0 to 31");
        assert_eq!(message("produce 0 64"), "there is no message 64: messages are 0 to 63");
        assert_eq!(message("produce 0 5 6"), "`6` is too much: produce PEER MESSAGE");
        assert_eq!(message("leave x"), "`x` is no peer number: peers are 0 to 31");
        assert_eq!(message("leave +1"), "`+1` is no peer number: peers are 0 to 31");
        assert_eq!(message("leave 99999999999999999999"), "there is no peer 99999999999999999999: peers are 0 to 31");
        assert_eq!(message("subscribe 1 0"), "`topics` is missing: subscribe PEER topics SET");
        assert_eq!(message("subscribe 1 topics 5-2"), "the range 5-2 runs backwards");
        assert_eq!(message("join 1 subs 0 subs 1"), "`subs` is given twice");
        assert_eq!(message("join 1 sub 0"), format!("`sub` is not expected here: {}", FORMS[6].1));
        assert_eq!(message("join 1 subs 0 nieghbours 0"), format!("`nieghbours` is not expected here: {}", FORMS[6].1));
        assert_eq!(message("join 1 subs"), "`subs` has no set behind it; the empty one is `none`");
        assert_eq!(message("join 1 subs neighbours 0"), "`subs` has no set behind it; the empty one is `none`");
        assert_eq!(message("subscribe 1 topics"), "`topics` has no set behind it; the empty one is `none`");
        assert_eq!(message("subscribe 1 topics 1,,2"), "`1,,2` has a comma with no number before it");
        assert_eq!(message("subscribe 1 topics ,2"), "`,2` has a comma with no number before it");
        assert_eq!(message("subscribe 1 topics 1, 2,"), "the set behind `topics` ends in a comma");
        assert_eq!(message("join 1 subs -5"), "`-5` is no topic number: topics are 0 to 31");
        assert_eq!(message("jump 1"), "`jump` is no event");
        assert_eq!(plain("a\u{1b}[2Jb\u{7}"), "a\\u{1b}[2Jb\\u{7}");
        assert_eq!(message("# nothing"), "the event is missing: an event");
    }
}
