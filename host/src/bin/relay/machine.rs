//! `relay --json`: everything on standard output, a JSON object a line, for a program that reads it.

use crate::answer::{refused, Form};
use crate::json::Object;
use crate::session::{Session, Trouble};
use crate::{explain, files, is_script, read, STDIN};
use std::io::{self, Write};

/// Runs a script up to the first trouble. The last line says `done` or `stopped`; bad text has a line for each fault.
pub fn run(name: &str, aloud: bool, out: &mut dyn Write) -> Result<(), Trouble> {
    let (script, faults) = match read(name) {
        Ok(read) => read,
        Err(trouble) => return stop(trouble, out),
    };
    if !faults.is_empty() {
        for fault in &faults {
            writeln!(out, "{}", stopped(fault))?;
        }
        return Err(Trouble::Text(String::new()));
    }
    let mut session = Session::in_form(aloud, Form::Json);
    for (line, command) in &script {
        if let Err(trouble) = session.execute(command, out) {
            return stop(trouble.at(name, *line), out);
        }
    }
    Ok(writeln!(out, "{}", session.summary())?)
}

/// Explains a number or a state file; the words are those of `relay explain`, and no line of them is broken.
pub fn explain(word: &str, out: &mut dyn Write) -> Result<(), Trouble> {
    if explain::is_number(word) {
        return match explain::of_number(word) {
            Ok(words) => {
                let object = Object::of_kind("number").number("number", word.parse().unwrap_or(0));
                Ok(writeln!(out, "{}", object.words("words", &words).end())?)
            }
            Err(trouble) => stop(trouble, out),
        };
    }
    let bytes = match files::read(word) {
        Ok(bytes) => bytes,
        Err(trouble) => return stop(trouble, out),
    };
    match explain::judged(&bytes) {
        Ok((network, table)) => {
            let object = Object::of_kind("sound").words("file", word).number("peers", network.desks().count() as u64);
            let object = object.number("pending_pairs", network.pending_pairs() as u64).flag("table", table);
            Ok(writeln!(out, "{}", object.end())?)
        }
        Err((refusal, said)) => {
            writeln!(out, "{}", refused(&refusal, &format!("{word} is refused: {said}")).end())?;
            Err(Trouble::ByEngine(refusal, String::new()))
        }
    }
}

/// Says why there is no more, and leaves the status. Output that is lost can't say so itself.
fn stop(trouble: Trouble, out: &mut dyn Write) -> Result<(), Trouble> {
    if trouble.is_loss() {
        return Err(trouble);
    }
    if let Some(refusal) = trouble.refusal() {
        writeln!(out, "{}", refused(refusal, trouble.words()).end())?;
    }
    writeln!(out, "{}", stopped(&trouble))?;
    Err(match trouble.status() {
        1 => Trouble::Refused(String::new()),
        _ => Trouble::Text(String::new()),
    })
}

fn stopped(trouble: &Trouble) -> String {
    let object = Object::of_kind("stopped").number("status", trouble.status().into());
    let object = match trouble.place() {
        Some((script, line)) => object.words("script", script).number("line", line as u64),
        None => object.nothing("script").nothing("line"),
    };
    object.words("words", trouble.words()).end()
}

/// The option, anywhere among the arguments.
pub const OPTION: &str = "--json";

/// What to do with arguments that have the option; none if the others make no sense.
pub fn command(words: &[&str]) -> Option<Result<(), Trouble>> {
    let mut out = io::stdout().lock();
    let words: Vec<&str> = words.iter().copied().filter(|&word| word != OPTION).collect();
    Some(match words[..] {
        ["explain", word] => explain(word, &mut out),
        [] | ["-"] => run(STDIN, false, &mut out),
        ["-v"] | ["-v", "-"] => run(STDIN, true, &mut out),
        ["-v", script] if is_script(script) => run(script, true, &mut out),
        [script] if is_script(script) => run(script, false, &mut out),
        _ => return None,
    })
}

#[cfg(test)]
mod tests {
    use super::*;
    use crate::answer::Answer;
    use crate::command::Command;
    use crate::json::reader::is_json;
    use relay_host::{Reason, Refusal, Tally};

    const SCRIPT: [&str; 17] = [
        "join 0 pubs 0",
        "join 1 subs 0 neighbours 0",
        "produce 0 5",
        "show",
        "show message 5",
        "forward 0 5",
        "refused 14 leave 1",
        "image",
        "tally",
        "drain",
        "say \"quoted\" \\ \u{e9}",
        "help",
        "picture no/such/folder/none.svg",
        "table 9 topic 1 origin 0",
        "blank",
        "show",
        "image",
    ];

    /// Every field of these lines is in the row that docs/HOST.md has for their kind.
    fn documented(text: &str) {
        for line in text.lines() {
            let kind = line.split('"').nth(3).unwrap();
            let start = format!("| `{kind}` |");
            let row = include_str!("../../../../docs/HOST.md").lines().find(|row| row.starts_with(&start));
            let row = row.unwrap_or_else(|| panic!("docs/HOST.md has no row for {kind}"));
            // No text in these lines has a mark and a colon behind a word.
            for name in line.split("\":").filter_map(|part| part.rsplit('"').next()).filter(|name| *name != "kind") {
                let is_name = !name.is_empty() && name.bytes().all(|byte| byte.is_ascii_lowercase() || byte == b'_');
                assert!(!is_name || row.contains(&format!("`{name}`")), "{name} of {kind}");
            }
        }
    }

    #[test]
    fn every_answer_is_a_json_object_on_a_line() {
        let mut session = Session::in_form(true, Form::Json);
        let mut out = Vec::new();
        for line in SCRIPT {
            let command = Command::of_line(line).unwrap().unwrap();
            if let Err(trouble) = session.execute(&command, &mut out) {
                let Err(end) = stop(trouble.at("a \"script\"\n", 13), &mut out) else { panic!("no status") };
                assert_eq!((end.message(), end.status()), ("", 2));
            }
        }
        out.extend(Answer::Run("a", 1, &Tally::default(), false).text(Form::Json).bytes());
        let text = String::from_utf8(out).unwrap() + &session.summary();
        let kinds = [
            "event", "event", "event", "network", "message", "event", "refusal", "image", "tally", "drain", "say",
            "help", "stopped", "note", "network", "image", "run", "done",
        ];
        assert_eq!(text.lines().count(), kinds.len(), "{text}");
        for (line, kind) in text.lines().zip(kinds) {
            assert!(is_json(line) && line.starts_with(&format!("{{\"kind\":\"{kind}\",")), "{line}");
        }
        documented(&text);
        assert!(text.contains("\"place\":2,\"event\":\"produce 0 5\",\"deliveries\":0,\"receivers\":[]}"));
        assert!(text.contains("\"place\":3,\"event\":\"forward 0 5\",\"deliveries\":1,\"receivers\":[1]}"));
        assert!(text.contains("\"script\":\"a \\\"script\\\"\\n\",\"line\":13,"));
    }

    #[test]
    fn a_refusal_has_number_place_detail_and_words() {
        let refusal = Refusal { reason: Reason::NotListedBack, place: 30, detail: 31 };
        let mut out = Vec::new();
        assert!(stop(Trouble::ByEngine(refusal, "why".into()).at("s", 7), &mut out).is_err());
        let expected = "{\"kind\":\"refusal\",\"number\":24,\"place\":30,\"detail\":31,\"words\":\"why\"}\n\
                        {\"kind\":\"stopped\",\"status\":1,\"script\":\"s\",\"line\":7,\"words\":\"why\"}\n";
        assert_eq!(String::from_utf8(out).unwrap(), expected);
    }

    #[test]
    fn numbers_and_files_are_explained() {
        let explained = |word| {
            let mut out = Vec::new();
            let status = explain(word, &mut out).map_or_else(|trouble| trouble.status(), |()| 0);
            let text = String::from_utf8(out).unwrap();
            assert!(text.lines().count() == 1 && text.lines().all(is_json), "{text}");
            documented(&text);
            (text, status)
        };
        let (text, status) = explained("14");
        assert!(text.starts_with("{\"kind\":\"number\",\"number\":14,\"words\":\"14: leaver has") && status == 0);
        let (text, status) = explained("19");
        assert!(
            text.contains("\"status\":2,\"script\":null,\"line\":null,\"words\":\"there is no number") && status == 2
        );
        assert_eq!(explained("no such file").1, 2);
    }

    #[test]
    fn the_stored_examples_are_json() {
        let stored = [
            include_str!("../../../../examples/first.jsonl"),
            include_str!("../../../../examples/refused.jsonl"),
            include_str!("../../../../examples/accident.jsonl"),
            include_str!("../../../../examples/bad.jsonl"),
        ];
        for text in stored {
            assert!(!text.is_empty() && text.lines().all(is_json), "{text}");
            documented(text);
        }
    }
}
