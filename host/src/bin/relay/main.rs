//! The command-line tool: a relay network as plain text, on the proved engine. `relay --help` explains it.
//!
//! `pieces` takes a line apart, `line` has its words and `command` reads them, `session` does what it says and `forward` its events, `answer` has what there is to say: `show` and
//! `words` put it into words, `json` and `machine` into JSON. `talk` is for lines as they are typed, `encode` makes event records of
//! a script and `drains` a drain's forwards, `explain` says what a number means and what is wrong with a state, `picture` draws,
//! `page` plays a run in a browser, `keep` has states with their tables, `files` reads and writes, `trouble` is why something could not be done.

mod answer;
mod command;
mod drains;
mod encode;
mod explain;
mod files;
mod forward;
mod json;
mod keep;
mod line;
mod machine;
mod page;
mod picture;
mod pieces;
mod session;
mod show;
mod talk;
mod trouble;
mod words;

use command::Command;
use relay_host::text::plain;
use session::{Session, Trouble};
use std::io::{self, IsTerminal, Read, Write};
use std::process::ExitCode;

const HELP: &str = include_str!("help.txt");

/// What standard input is called in messages.
const STDIN: &str = "standard input";

/// So many bad lines are said; the others are counted.
const FAULTS_SAID: usize = 20;

fn main() -> ExitCode {
    let arguments: Vec<String> = std::env::args_os().skip(1).map(|word| word.to_string_lossy().into()).collect();
    let words: Vec<&str> = arguments.iter().map(String::as_str).collect();
    let done = match words[..] {
        _ if words.iter().any(|word| word.contains(char::REPLACEMENT_CHARACTER)) => {
            Err(Trouble::Text("relay: an argument isn't text".into()))
        }
        _ if words.contains(&machine::OPTION) => {
            machine::command(&words).unwrap_or_else(|| Err(Trouble::Text(misused(&words))))
        }
        ["--help" | "-h" | "help"] => print(HELP),
        ["--version"] => print(concat!("relay ", env!("CARGO_PKG_VERSION"), "\n")),
        ["encode", "--expand", script, file] => encode::expand(script, file),
        ["encode", script, file] if script != "--expand" => encode::encode(script, file),
        ["decode", file] => encode::decode(file),
        ["page", script, file] => page::page(script, file),
        ["explain", word] => explain::explain(word, &mut io::stdout().lock()),
        ["-i"] => talk::talk(&mut io::stdin().lock(), &mut io::stdout().lock()),
        [] | ["-v"] if io::stdin().is_terminal() => talk::talk(&mut io::stdin().lock(), &mut io::stdout().lock()),
        [] | ["-"] => run(STDIN, false),
        ["-v"] | ["-v", "-"] => run(STDIN, true),
        ["-v", script] if is_script(script) => run(script, true),
        [script] if is_script(script) => run(script, false),
        _ => Err(Trouble::Text(misused(&words))),
    };
    match done.and_then(|()| Ok(io::stdout().flush()?)) {
        Ok(()) => ExitCode::SUCCESS,
        Err(trouble) => {
            if !trouble.message().is_empty() {
                // Where standard error is lost as well, the status has to say it.
                let _ = writeln!(io::stderr(), "{}", plain_lines(trouble.message()));
            }
            ExitCode::from(trouble.status())
        }
    }
}

/// The words that are no scripts, and what they take. (`./explain` is a script.)
const TAKING: [(&str, &str); 4] = [
    ("encode", "a script and a file for its records"),
    ("decode", "a file of event records"),
    ("explain", "a number or a state file"),
    ("page", "a script and a file for the page, FILE.html"),
];

/// Can this argument be a script's name?
fn is_script(word: &str) -> bool {
    !word.starts_with('-') && TAKING.iter().all(|(taking, _)| *taking != word)
}

/// What to say of arguments that have no meaning.
fn misused(words: &[&str]) -> String {
    const KNOWN: [&str; 8] = ["-v", "-i", "-h", "--help", "--version", "--expand", machine::OPTION, "-"];
    if let Some(option) = words.iter().find(|word| word.starts_with('-') && !KNOWN.contains(word)) {
        return format!("relay: there is no option {option}; relay --help shows those there are");
    }
    let first = words.iter().find(|word| **word != machine::OPTION);
    match TAKING.iter().find(|(word, _)| Some(word) == first) {
        Some((word @ ("encode" | "decode" | "page"), _)) if words.contains(&machine::OPTION) => {
            format!("relay: {word} has no {}; relay --help shows what has", machine::OPTION)
        }
        Some((word, taken)) => format!("relay: {word} takes {taken}; relay --help shows it"),
        None => "relay: these words make no sense together; relay --help shows what does".into(),
    }
}

/// A message of one or more lines, without what a terminal would obey.
fn plain_lines(message: &str) -> String {
    message.lines().map(plain).collect::<Vec<String>>().join("\n")
}

fn print(text: &str) -> Result<(), Trouble> {
    io::stdout().write_all(text.as_bytes())?;
    Ok(())
}

/// A command and the line it stands on.
type Script = Vec<(usize, Command)>;

/// Reads a whole script before any of it is run, so that a slip of the pen costs nothing: its commands, and all that is wrong
/// with it.
fn read(name: &str) -> Result<(Script, Vec<Trouble>), Trouble> {
    Ok(commands(name, &read_text(name)?))
}

/// A script's text.
fn read_text(name: &str) -> Result<String, Trouble> {
    let mut bytes = Vec::new();
    if name == STDIN {
        io::stdin().read_to_end(&mut bytes).map_err(unreadable)?;
    } else {
        bytes = files::read(name)?;
    }
    Ok(text_of(name, &bytes)?.into())
}

/// The commands of a script's text, and all that is wrong with it.
fn commands(name: &str, text: &str) -> (Script, Vec<Trouble>) {
    let mut script = Vec::new();
    let mut faults = Vec::new();
    for (place, line) in text.lines().enumerate() {
        match Command::of_line(line) {
            Ok(Some(command)) => script.push((place + 1, command)),
            Ok(None) => {}
            Err(error) => faults.push(Trouble::Text(error.to_string()).at(name, place + 1)),
        }
    }
    (script, faults)
}

/// Reads a script that nothing is wrong with; otherwise says what is.
fn read_script(name: &str) -> Result<Script, Trouble> {
    faultless(name, read(name)?)
}

/// A script that nothing is wrong with; otherwise what is.
fn faultless(name: &str, (script, faults): (Script, Vec<Trouble>)) -> Result<Script, Trouble> {
    if faults.is_empty() {
        return Ok(script);
    }
    let mut said: Vec<String> = faults.iter().take(FAULTS_SAID).map(|fault| fault.message().to_string()).collect();
    if faults.len() > FAULTS_SAID {
        said.push(format!("{name}: and {} more", faults.len() - FAULTS_SAID));
    }
    Err(Trouble::Text(said.join("\n")))
}

fn unreadable(error: io::Error) -> Trouble {
    Trouble::Text(format!("{STDIN} can't be read: {error}"))
}

/// A script's bytes as text, without the mark that some editors put first. What isn't text is named by its line and byte.
fn text_of<'a>(name: &str, bytes: &'a [u8]) -> Result<&'a str, Trouble> {
    let text = std::str::from_utf8(bytes).map_err(|error| {
        let at = error.valid_up_to();
        let line = 1 + bytes[..at].iter().filter(|&&byte| byte == b'\n').count();
        Trouble::Text(format!("this isn't text: byte {at} of the file is {:#04x}", bytes[at])).at(name, line)
    })?;
    Ok(text.strip_prefix('\u{feff}').unwrap_or(text))
}

/// Runs a script up to the first trouble.
fn run(name: &str, aloud: bool) -> Result<(), Trouble> {
    let script = read_script(name)?;
    let mut session = Session::new(aloud);
    let mut out = io::stdout().lock();
    for (line, command) in &script {
        session.execute(command, &mut out).map_err(|trouble| trouble.at(name, *line))?;
    }
    writeln!(out, "{}", session.summary())?;
    Ok(())
}

#[cfg(test)]
mod tests {
    use super::*;

    #[test]
    fn what_is_not_text_is_named_by_line_and_byte() {
        let Err(trouble) = text_of("a", b"skip\nskip \xff\n") else { panic!("taken") };
        assert_eq!(trouble.message(), "a:2: this isn't text: byte 10 of the file is 0xff");
        assert!(matches!(text_of("a", b"\xef\xbb\xbfskip"), Ok("skip")));
    }
}
