//! Why the tool could not do a thing, and the status that it ends with.

use relay_host::{Reason, Refusal};
use std::io;

/// Why a command could not be done.
pub enum Trouble {
    /// A change or an expectation was refused.
    Refused(String),
    /// The engine refused an event, a state or a table: its answer, and all that is said of it.
    ByEngine(Refusal, String),
    /// The text or a file can't be used.
    Text(String),
    /// What the tool had to say can't be written.
    Lost(String),
    /// Nobody reads any more what the tool says, which is not worth a word.
    Unread,
    /// Trouble on a line of a script.
    Placed(Box<Placed>),
}

pub struct Placed {
    trouble: Trouble,
    script: String,
    line: usize,
    message: String,
}

/// The status of a tool whose output is lost.
const LOST: u8 = 3;

impl Trouble {
    /// What a person is told, with the place.
    pub fn message(&self) -> &str {
        match self {
            Trouble::Placed(placed) => &placed.message,
            _ => self.words(),
        }
    }

    /// The same without the place.
    pub fn words(&self) -> &str {
        match self {
            Trouble::Refused(words) | Trouble::ByEngine(_, words) | Trouble::Text(words) | Trouble::Lost(words) => {
                words
            }
            Trouble::Unread => "",
            Trouble::Placed(placed) => placed.trouble.words(),
        }
    }

    /// The script and the line, if it is on one.
    pub fn place(&self) -> Option<(&str, usize)> {
        match self {
            Trouble::Placed(placed) => Some((&placed.script, placed.line)),
            _ => None,
        }
    }

    /// The engine's refusal, if it is one.
    pub fn refusal(&self) -> Option<&Refusal> {
        match self {
            Trouble::ByEngine(refusal, _) => Some(refusal),
            Trouble::Placed(placed) => placed.trouble.refusal(),
            _ => None,
        }
    }

    /// The status that the tool ends with.
    pub fn status(&self) -> u8 {
        match self {
            Trouble::ByEngine(refusal, _) if refusal.reason == Reason::NoEngine => 2,
            Trouble::Refused(_) | Trouble::ByEngine(..) => 1,
            Trouble::Text(_) => 2,
            Trouble::Lost(_) | Trouble::Unread => LOST,
            Trouble::Placed(placed) => placed.trouble.status(),
        }
    }

    /// Is standard output lost? Then it is no place to say anything.
    pub fn is_loss(&self) -> bool {
        self.status() == LOST
    }

    /// The same trouble with the script's name and line. Where there is nothing to say, nothing is said.
    pub fn at(self, name: &str, line: usize) -> Trouble {
        if self.message().is_empty() {
            return self;
        }
        let message = format!("{name}:{line}: {}", self.message());
        Trouble::Placed(Box::new(Placed { trouble: self, script: name.into(), line, message }))
    }
}

/// Where the engine refuses what it can't refuse, it is out of reach.
impl From<Refusal> for Trouble {
    fn from(refusal: Refusal) -> Trouble {
        Trouble::ByEngine(refusal, refusal.to_string())
    }
}

/// Trouble with what the tool writes to standard output; all other files are named by `files`.
impl From<io::Error> for Trouble {
    fn from(error: io::Error) -> Trouble {
        match error.kind() {
            io::ErrorKind::BrokenPipe => Trouble::Unread,
            _ => Trouble::Lost(format!("the output is lost: {error}")),
        }
    }
}

#[cfg(test)]
mod tests {
    use super::*;

    #[test]
    fn a_place_changes_the_message_and_nothing_else() {
        let refusal = Refusal { reason: Reason::KnownSubscribersWrong, place: 1, detail: 7 };
        let placed = Trouble::ByEngine(refusal, "no".into()).at("script", 3);
        assert_eq!((placed.message(), placed.words(), placed.status()), ("script:3: no", "no", 1));
        assert_eq!((placed.place(), placed.refusal()), (Some(("script", 3)), Some(&refusal)));
        let text = Trouble::Text("no".into());
        assert_eq!((text.message(), text.status(), text.place(), text.refusal()), ("no", 2, None, None));
        let none = Trouble::from(Refusal::at(Reason::NoEngine, 0)).at("script", 3);
        assert_eq!((none.words(), none.status()), (none.refusal().unwrap().to_string().as_str(), 2));
        let lost = Trouble::from(io::Error::from(io::ErrorKind::StorageFull)).at("script", 3);
        assert!(lost.message().starts_with("script:3: the output is lost: ") && lost.status() == 3 && lost.is_loss());
        let gone = Trouble::from(io::Error::from(io::ErrorKind::BrokenPipe)).at("script", 3);
        assert_eq!((gone.message(), gone.status(), gone.is_loss()), ("", 3, true));
    }
}
