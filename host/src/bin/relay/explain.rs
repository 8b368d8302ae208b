//! What a number means and what to do about it, in the words of docs/RULES.md; and what is wrong with a state file.

use crate::session::Trouble;
use crate::{files, keep, words};
use relay_host::fault;
use relay_host::refusal::NUMBERS;
use relay_host::text::plain;
use relay_host::{Network, Refusal, Table};
use std::io::Write;

const RULES: &str = include_str!("../../../../docs/RULES.md");

/// No line that is printed here is longer, unless one word is.
const COLUMNS: usize = 100;

/// What the rules say of a number: the heading, and the paragraph under it as one line.
fn paragraph(number: u8) -> Option<(&'static str, String)> {
    let heading = format!("### {number}: ");
    let mut lines = RULES.lines().skip_while(|line| !line.starts_with(&heading));
    let title = lines.next()?.strip_prefix("### ")?;
    let text: Vec<&str> = lines.take_while(|line| !line.is_empty()).collect();
    Some((title, text.join(" ")))
}

/// Explains a word of digits as a number, any other as a state file (`./25` is a file, too).
pub fn explain(word: &str, out: &mut dyn Write) -> Result<(), Trouble> {
    if is_number(word) {
        return print(&of_number(word)?, out);
    }
    explain_file(word, &files::read(word)?, out)
}

pub fn is_number(word: &str) -> bool {
    word.bytes().all(|byte| byte.is_ascii_digit())
}

/// What there is to say of a number: its meaning, and the paragraph in the next line.
pub fn of_number(word: &str) -> Result<String, Trouble> {
    match word.parse().ok().and_then(paragraph) {
        Some((title, text)) => Ok(format!("{title}\n{text}")),
        None => Err(Trouble::Text(format!(
            "there is no number {word:?} to explain: they are 0, {NUMBERS} (docs/RULES.md, 6)"
        ))),
    }
}

/// Prints lines, each broken at spaces where it is too long.
fn print(text: &str, out: &mut dyn Write) -> Result<(), Trouble> {
    for line in text.lines() {
        writeln!(out, "{}", words::broken(line, COLUMNS))?;
    }
    Ok(())
}

/// A state, and its table if that is in the file: the network and whether the table is there, or the refusal and which rule is
/// broken where.
pub fn judged(bytes: &[u8]) -> Result<(Network, bool), (Refusal, String)> {
    let (state, table) = keep::parts(bytes);
    let network = Network::read(state).map_err(|refusal| (refusal, fault::in_words(state, &refusal)))?;
    match table.map(Table::read) {
        Some(Err(refusal)) => Err((refusal, format!("its table: {refusal}"))),
        table => Ok((network, table.is_some())),
    }
}

/// Says whether a state is sound; if not, which rule it breaks and where, what that means and what to do. So of its table.
fn explain_file(name: &str, bytes: &[u8], out: &mut dyn Write) -> Result<(), Trouble> {
    let (refusal, said) = match judged(bytes) {
        Err(refused) => refused,
        Ok((network, table)) => {
            let end = if table { "; its table is with it" } else { "" };
            return print(&format!("{} is sound: {}{end}", plain(name), words::overview(&network)), out);
        }
    };
    print(&format!("{} is refused: {said}", plain(name)), out)?;
    if let Some((_, text)) = paragraph(refusal.reason.number()) {
        print(&text, out)?;
    }
    Err(Trouble::ByEngine(refusal, String::new()))
}

#[cfg(test)]
mod tests {
    use super::*;
    use relay_host::raw::NO_ENGINE;
    use relay_host::Reason;

    /// What is written, and the status that the tool ends with.
    fn said(explained: impl FnOnce(&mut dyn Write) -> Result<(), Trouble>) -> (String, u8) {
        let mut out = Vec::new();
        let status = explained(&mut out).map_or_else(|trouble| trouble.status(), |()| 0);
        (String::from_utf8(out).unwrap(), status)
    }

    /// What stands under the heading of a number.
    fn under(number: u8) -> String {
        let (text, status) = said(|out| explain(&number.to_string(), out));
        assert_eq!(status, 0);
        text.split_once('\n').unwrap().1.into()
    }

    #[test]
    fn lines_are_broken_and_nothing_is_left_out() {
        for number in (0..=u8::MAX).filter(|&number| paragraph(number).is_some()) {
            let text = under(number);
            assert_eq!(text.trim_end().replace('\n', " "), paragraph(number).unwrap().1);
            assert!(text.lines().all(|line| !line.is_empty() && line.len() <= COLUMNS), "{text}");
        }
        assert!(under(25).lines().count() > 2);
    }

    #[test]
    fn every_number_is_explained_and_no_other() {
        for number in 1..=u8::MAX {
            let own = (number == NO_ENGINE).then_some(Reason::NoEngine);
            match (Reason::of_number(number).or(own), paragraph(number)) {
                (Some(reason), Some((title, text))) => {
                    assert_eq!(title, format!("{number}: {}", reason.meaning()));
                    assert!(text.contains("What to do: "), "{text}");
                    assert!(!reason.is_unsound() || text.contains("The place is the record"), "{text}");
                    assert_eq!(reason.detail_of().is_some(), text.contains("The detail is "), "{text}");
                }
                (None, Some((title, text))) => {
                    assert_eq!((number, title), (5, "5: no longer answered"));
                    assert!(text.contains("20 to 26") && text.contains("What to do: "), "{text}");
                }
                (None, None) => assert_ne!(number, 5),
                (Some(reason), None) => panic!("{number} ({reason}) is not explained"),
            }
        }
        assert!(paragraph(0).is_some());
    }

    #[test]
    fn digits_are_a_number_and_other_words_a_file() {
        assert_eq!(said(|out| explain("14", out)).1, 0);
        for word in ["", "19", "27", "256", "-1", "+1", "1 ", "0x1", "no such file"] {
            assert_eq!(said(|out| explain(word, out)), (String::new(), 2), "{word:?}");
        }
        let Err(trouble) = explain("19", &mut Vec::new()) else { panic!("explained") };
        let numbers = "they are 0, 1 to 4, 6 to 18 and 20 to 26 (docs/RULES.md, 6)";
        assert_eq!(trouble.message(), format!("there is no number \"19\" to explain: {numbers}"));
    }

    #[test]
    fn a_state_is_sound_or_its_fault_is_told_with_the_rule() {
        let (text, status) = said(|out| explain_file("a", &[0; 5120], out));
        assert_eq!((text.as_str(), status), ("a is sound: 0 peers present, nothing pending\n", 0));
        let mut state = [0; 5120];
        state[160 * 31] = 2;
        let (text, status) = said(|out| explain_file("a", &state, out));
        let first = "a is refused: presence byte or zero bytes (20, record 31): byte 0 is 2, expected 0 or 1\n";
        assert_eq!((text, status), (format!("{first}{}", under(20)), 1));
        let (text, status) = said(|out| explain_file("a", &state[1..], out));
        let first = "a is refused: state isn't 5,120 bytes (1): found 5119\n";
        assert_eq!((text, status), (format!("{first}{}", under(1)), 1));
    }

    #[test]
    fn a_table_behind_a_state_is_judged_as_well() {
        let (text, status) = said(|out| explain_file("a", &[0; 5376], out));
        assert_eq!(
            (text.as_str(), status),
            ("a is sound: 0 peers present, nothing pending; its table is with it\n", 0)
        );
        let mut both = [0; 5376];
        both[5375] = 1;
        let (text, status) = said(|out| explain_file("a", &both, out));
        let meaning = Reason::TableRow.meaning();
        let first = format!("a is refused: its table: {meaning} (4, row\n63)\n");
        assert_eq!((text, status), (format!("{first}{}", under(4)), 1));
    }
}
