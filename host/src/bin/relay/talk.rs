//! Interactive use: lines are run as they are typed, each says what it did, and can be taken back.

use crate::command::Command;
use crate::pieces::{pieces, quoted};
use crate::session::{Session, Standing, Trouble};
use crate::{plain_lines, unreadable};
use relay_host::text::plain;
use std::collections::VecDeque;
use std::io::{BufRead, Write};

/// So many lines can be taken back.
const KEPT: usize = 1000;

/// A session with the lines that changed it, and how it stood before each.
struct Talk {
    session: Session,
    lines: VecDeque<(String, Standing)>,
}

/// Runs lines as they are typed; trouble costs the line only.
pub fn talk(input: &mut dyn BufRead, out: &mut dyn Write) -> Result<(), Trouble> {
    let mut talk = Talk { session: Session::new(true), lines: VecDeque::new() };
    writeln!(
        out,
        "A blank network. `help` lists the commands, `undo` takes a line back, `quit` (or Ctrl-D) ends this."
    )?;
    loop {
        write!(out, "relay> ")?;
        out.flush()?;
        let mut line = Vec::new();
        if input.read_until(b'\n', &mut line).map_err(unreadable)? == 0 {
            return Ok(writeln!(out)?);
        }
        let done = match String::from_utf8(line) {
            Ok(line) if alone(&line, "quit") => return Ok(()),
            Ok(line) if alone(&line, "undo") => talk.undo(out),
            Ok(line) => talk.line(line.trim(), out),
            Err(_) => Err(Trouble::Text("this line isn't text".into())),
        };
        match done {
            Err(trouble) if !trouble.is_loss() => writeln!(out, "{}", plain_lines(trouble.message()))?,
            done => done?,
        }
    }
}

/// Is this word all that the line has?
fn alone(line: &str, word: &str) -> bool {
    pieces(line).is_ok_and(|pieces| pieces.len() == 1 && pieces[0].eq_ignore_ascii_case(word))
}

impl Talk {
    /// Does what a line says. What it changed can be taken back, even if trouble came after: a run stops where it is refused.
    fn line(&mut self, line: &str, out: &mut dyn Write) -> Result<(), Trouble> {
        let Some(command) = Command::of_line(line).map_err(|error| Trouble::Text(error.to_string()))? else {
            return Ok(());
        };
        let before = self.session.standing();
        let done = self.session.execute(&command, out);
        if self.session.standing() != before {
            self.lines.push_back((line.into(), before));
        }
        if self.lines.len() > KEPT {
            self.lines.pop_front();
        }
        done?;
        match self.echo(&command) {
            Some(echo) => Ok(writeln!(out, "{echo}")?),
            None => Ok(()),
        }
    }

    /// What a command did that says nothing itself.
    fn echo(&self, command: &Command) -> Option<String> {
        let written = |names: &[&String]| {
            let names: Vec<String> = names.iter().map(|name| plain(&quoted(name))).collect();
            Some(format!("written: {}", names.join(" and ")))
        };
        match command {
            Command::Table(message, _) => Some(self.session.message(*message)),
            Command::Load(..) | Command::Blank => Some(self.session.overview()),
            Command::Save(state, Some(table)) => written(&[state, table]),
            Command::Save(file, None) | Command::Image(Some(file)) | Command::Events(file) => written(&[file]),
            Command::Picture(file, _) | Command::Dot(file, _) => written(&[file]),
            _ => None,
        }
    }

    /// Goes back to before the last line that changed anything.
    fn undo(&mut self, out: &mut dyn Write) -> Result<(), Trouble> {
        let Some((line, before)) = self.lines.pop_back() else {
            return Ok(writeln!(out, "there is nothing to take back")?);
        };
        self.session.go_back(before);
        Ok(writeln!(out, "taken back: {}; {}", plain(&line), self.session.overview())?)
    }
}

#[cfg(test)]
mod tests {
    use super::*;

    /// What is said to these lines, without the greeting and the prompts.
    fn said(lines: &[u8]) -> Vec<String> {
        let (mut input, mut out) = (lines, Vec::new());
        assert!(talk(&mut input, &mut out).is_ok());
        let out = String::from_utf8(out).unwrap().replace("relay> ", "");
        out.lines().skip(1).filter(|line| !line.is_empty()).map(String::from).collect()
    }

    #[test]
    fn a_bad_line_costs_that_line_only() {
        let out = said(b"join 0\n\xff\xfe\njoin \x1b[2J\nundo 3\nsay \"\nsave \"a\nshow\n").join("\n");
        assert!(out.contains("this line isn't text"), "{out}");
        assert!(out.contains("`\\u{1b}[2J` is no peer number"), "{out}");
        assert!(out.contains("`undo` is for interactive use"), "{out}");
        assert!(out.contains("never closed"), "{out}");
        assert!(out.contains("1 peer present"), "{out}");
    }

    #[test]
    fn each_event_says_what_it_did() {
        let lines = b"table 5 topic 1 origin 0\njoin 0 pubs 1\njoin 1 subs 1 neighbours 0\nproduce 0 5\nforward 0 5\n\
            unsubscribe 1 topics 1\nforward 1 5\nleave 1\nskip\nquit\nshow\n";
        let want = [
            "message 5 (topic 1, origin 0): nobody has it",
            "join 0 pubs 1: 1 peer present, linked to none",
            "join 1 subs 1 neighbours 0: 2 peers present, linked to 0",
            "produce 0 5: pending at 0, seen by nobody",
            "forward 0 5: to 1; pending at 1, seen by 0",
            "unsubscribe 1 topics 1: peer 1 subscribes to none",
            "forward 1 5: to nobody; pending nowhere, seen by 0,1",
            "leave 1: 1 peer present",
            "skip: nothing changes",
        ];
        assert_eq!(said(lines), want);
    }

    #[test]
    fn lines_are_taken_back_one_by_one() {
        let lines =
            b"table 8 topic 1 origin 0\njoin 0 pubs 0\nproduce 0 5\nshow message 5\nforward 0 6\ndrain\nblank\n\
            undo\nundo # the drain\ntally\nundo\nforward 0 6\nUNDO\nundo\nundo\n";
        let want = [
            "message 8 (topic 1, origin 0): nobody has it",
            "join 0 pubs 0: 1 peer present, linked to none",
            "produce 0 5: pending at 0, seen by nobody",
            "message 5 (topic 0, origin 0): pending at 0, seen by nobody",
            "forward 0 6 is refused: message not pending at this peer (13, event 2); pending at peer 0: 5",
            "drain 2048: 1 forward, 1 round, nothing is pending",
            "blank: what the table said of message 8 is gone; every message has topic 0 and origin 0",
            "0 peers present, nothing pending",
            "taken back: blank; 1 peer present, nothing pending",
            "taken back: drain; 1 peer present, 1 pair pending",
            "tally of the events: 1 produced, 0 forwards, 0 deliveries",
            "taken back: produce 0 5; 1 peer present, nothing pending",
            "forward 0 6 is refused: message not pending at this peer (13, event 1); pending at peer 0: none",
            "taken back: join 0 pubs 0; 0 peers present, nothing pending",
            "taken back: table 8 topic 1 origin 0; 0 peers present, nothing pending",
            "there is nothing to take back",
        ];
        assert_eq!(said(lines), want);
        let many = format!("{}{}", "skip\n".repeat(KEPT + 1), "undo\n".repeat(KEPT + 1));
        let said = said(many.as_bytes());
        assert_eq!(said.iter().filter(|line| line.starts_with("taken back: skip")).count(), KEPT);
        assert_eq!(said[said.len() - 1], "there is nothing to take back");
    }
}
