//! The commands of the tool, and how a line of text becomes one.

use crate::line::{TextError, Words};
use crate::pieces::pieces;
use relay_host::refusal::NUMBERS;
use relay_host::text::{plain, FORMS};
use relay_host::{Event, Message, Reason, Row, ENOUGH};

#[derive(Clone, Debug, PartialEq, Eq)]
pub enum Command {
    Event(Event),
    /// The event must be refused for this reason.
    Refused(Reason, Event),
    Table(Message, Row),
    Drain(u32),
    Show(Option<Message>),
    Image(Option<String>),
    Tally,
    Picture(String, Option<Message>),
    Dot(String, Option<Message>),
    /// A state and its table, in one file or two.
    Load(String, Option<String>),
    Save(String, Option<String>),
    Run(String),
    Events(String),
    Blank,
    Say(String),
    Help,
}

/// The commands beside the events, with their forms.
const OTHERS: [(&str, &str); 17] = [
    ("refused", "refused NUMBER EVENT"),
    ("table", "table MESSAGE topic TOPIC origin PEER"),
    ("drain", "drain [BUDGET]"),
    ("show", "show [message MESSAGE]"),
    ("image", "image [FILE]"),
    ("tally", "tally"),
    ("picture", "picture FILE.svg [message MESSAGE]"),
    ("dot", "dot FILE [message MESSAGE]"),
    ("load", "load FILE, or load STATE TABLE"),
    ("save", "save FILE, or save STATE TABLE"),
    ("run", "run FILE"),
    ("events", "events FILE"),
    ("blank", "blank"),
    ("say", "say WORDS"),
    ("help", "help"),
    ("undo", "undo"),
    ("quit", "quit"),
];

fn fail<T>(message: String) -> Result<T, TextError> {
    Err(TextError(message))
}

impl Command {
    /// The command of a line; none for an empty line or a comment.
    pub fn of_line(line: &str) -> Result<Option<Command>, TextError> {
        if let Some(name) = line.split_whitespace().next().filter(|name| name.eq_ignore_ascii_case("say")) {
            let said = line.trim().strip_prefix(name).unwrap_or_default();
            return Ok(Some(Command::Say(plain(said.trim()))));
        }
        let pieces = pieces(line)?;
        let mut words = Words::of_words(pieces.iter().map(String::as_str).collect());
        let Some(name) = words.take() else {
            return Ok(None);
        };
        if let Some(event) = words.event(name)? {
            return Ok(Some(Command::Event(event)));
        }
        let Some((name, form)) = OTHERS.iter().find(|(other, _)| other.eq_ignore_ascii_case(name)) else {
            return fail(unknown(name));
        };
        words.expect_form(form);
        let command = other(name, &mut words)?;
        words.end()?;
        Ok(Some(command))
    }
}

/// A command beside the events whose name has been taken.
fn other(name: &str, words: &mut Words) -> Result<Command, TextError> {
    Ok(match name {
        "refused" => refused(words)?,
        "table" => table(words)?,
        "drain" => Command::Drain(budget(words.take())?),
        "show" => Command::Show(message(words)?),
        "image" => Command::Image(words.take().map(String::from)),
        "tally" => Command::Tally,
        "picture" => Command::Picture(svg(file(words)?)?, message(words)?),
        "dot" => Command::Dot(file(words)?, message(words)?),
        "load" => Command::Load(file(words)?, words.take().map(String::from)),
        "save" => Command::Save(file(words)?, words.take().map(String::from)),
        "run" => Command::Run(file(words)?),
        "events" => Command::Events(file(words)?),
        "blank" => Command::Blank,
        "undo" | "quit" => return fail(format!("`{name}` is for interactive use (relay -i), alone on its line")),
        _ => Command::Help,
    })
}

fn refused(words: &mut Words) -> Result<Command, TextError> {
    let number = words.need("the number")?;
    let Some(reason) = number.parse().ok().and_then(Reason::of_number) else {
        return fail(format!("`{number}` is no number of a refusal: they are {NUMBERS}"));
    };
    let name = words.need("the event")?;
    match words.event(name)? {
        Some(event) => Ok(Command::Refused(reason, event)),
        None => fail(format!("`{name}` is no event")),
    }
}

fn table(words: &mut Words) -> Result<Command, TextError> {
    let message = words.number()?;
    keyword(words, "topic")?;
    let topic = words.number()?;
    keyword(words, "origin")?;
    let origin = words.number()?;
    Ok(Command::Table(message, Row { topic, origin }))
}

fn keyword(words: &mut Words, keyword: &str) -> Result<(), TextError> {
    match words.need(&format!("`{keyword}`"))? {
        word if word.eq_ignore_ascii_case(keyword) => Ok(()),
        word => fail(format!("`{keyword}` is expected where `{word}` stands")),
    }
}

fn budget(word: Option<&str>) -> Result<u32, TextError> {
    let Some(word) = word else {
        return Ok(ENOUGH);
    };
    match word.parse() {
        Ok(budget) => Ok(budget),
        Err(_) => fail(format!("`{word}` is no budget: it is a number of forwards, 0 to {}", u32::MAX)),
    }
}

/// `message M`, or nothing.
fn message(words: &mut Words) -> Result<Option<Message>, TextError> {
    if words.keyword("message") {
        return words.number().map(Some);
    }
    Ok(None)
}

fn file(words: &mut Words) -> Result<String, TextError> {
    words.need("the file").map(String::from)
}

/// A picture is SVG, whatever its name says; a name that says otherwise is a slip.
fn svg(name: String) -> Result<String, TextError> {
    if name.ends_with(".svg") {
        return Ok(name);
    }
    fail(format!("a picture is an SVG file, and `{name}` doesn't end in .svg (for Graphviz: dot FILE)"))
}

/// What to say of an unknown command.
fn unknown(name: &str) -> String {
    let names = FORMS.iter().chain(&OTHERS).map(|(known, _)| *known);
    let nearest = names.min_by_key(|known| distance(name, known)).unwrap_or_default();
    if distance(name, nearest) <= 2 {
        format!("there is no command `{name}`; is it `{nearest}`?")
    } else {
        format!("there is no command `{name}`; relay --help lists them")
    }
}

/// How many letters to add, drop or change to make one word from the other.
fn distance(one: &str, other: &str) -> usize {
    let other: Vec<char> = other.chars().collect();
    let mut row: Vec<usize> = (0..=other.len()).collect();
    for (i, letter) in one.chars().enumerate() {
        let mut corner = row[0];
        row[0] = i + 1;
        for (j, &against) in other.iter().enumerate() {
            let changed = corner + usize::from(letter != against);
            corner = row[j + 1];
            row[j + 1] = changed.min(corner + 1).min(row[j] + 1);
        }
    }
    row[other.len()]
}

#[cfg(test)]
mod tests {
    use super::*;
    use relay_host::{Number, Peer, Topic};

    fn command(line: &str) -> Command {
        Command::of_line(line).unwrap_or_else(|error| panic!("{line}: {error}")).expect("a command")
    }

    fn message(line: &str) -> String {
        Command::of_line(line).unwrap_err().to_string()
    }

    #[test]
    fn lines_become_commands() {
        let five = Message::new(5);
        let row = Row { topic: Topic::new(1).unwrap(), origin: Peer::new(2).unwrap() };
        assert_eq!(Command::of_line("   # a comment"), Ok(None));
        assert_eq!(command("skip # a comment"), Command::Event(Event::Skip));
        assert_eq!(command("table 5 topic 1 origin 2"), Command::Table(five.unwrap(), row));
        assert_eq!(command("drain"), Command::Drain(2048));
        assert_eq!(command("DRAIN 0"), Command::Drain(0));
        assert_eq!(command("Table 5 Topic 1 ORIGIN 2"), command("table 5 topic 1 origin 2"));
        assert_eq!(command("show message 5"), Command::Show(five));
        assert_eq!(command("picture a.svg message 5"), Command::Picture("a.svg".into(), five));
        assert_eq!(command("load s"), Command::Load("s".into(), None));
        assert_eq!(command("save s t"), Command::Save("s".into(), Some("t".into())));
        assert_eq!(command("save \"my s\" # \"t"), Command::Save("my s".into(), None));
        assert_eq!(command("say \"so"), Command::Say("\"so".into()));
        assert_eq!(command("say  what # it is "), Command::Say("what # it is".into()));
        assert_eq!(command("refused 8 skip"), Command::Refused(Reason::PeerAbsent, Event::Skip));
    }

    #[test]
    fn bad_lines_are_explained() {
        assert_eq!(message("jion 1"), "there is no command `jion`; is it `join`?");
        assert_eq!(message("explode"), "there is no command `explode`; relay --help lists them");
        assert_eq!(message("drain much"), "`much` is no budget: it is a number of forwards, 0 to 4294967295");
        assert_eq!(message("table 5 topic 1"), "`origin` is missing: table MESSAGE topic TOPIC origin PEER");
        assert_eq!(message("table 5 origin 1"), "`topic` is expected where `origin` stands");
        for number in ["0", "5", "19", "27"] {
            let said = format!("`{number}` is no number of a refusal: they are 1 to 4, 6 to 18 and 20 to 26");
            assert_eq!(message(&format!("refused {number} skip")), said);
        }
        assert_eq!(message("refused 8 show"), "`show` is no event");
        assert_eq!(message("show 5"), "`5` is too much: show [message MESSAGE]");
        assert_eq!(message("load"), "the file is missing: load FILE, or load STATE TABLE");
        assert_eq!(message("load \"a b"), "the quote before `a b` is never closed");
        for (line, word) in [("join \"0 subs 1\"", "0 subs 1"), ("refused 8 skip \"#\"", "#")] {
            let behind = "can't stand in an event; quotes are for the names of files";
            assert_eq!(message(line), format!("`{word}` {behind}"));
        }
        assert_eq!(message("undo"), "`undo` is for interactive use (relay -i), alone on its line");
        assert_eq!(message("exit"), "there is no command `exit`; is it `quit`?");
        assert!(message("picture a.png").contains("doesn't end in .svg"));
    }
}
