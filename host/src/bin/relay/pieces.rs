//! The words of a line, where a name with spaces may stand in double quotes.

use crate::line::TextError;

/// The words of a line without its comment: a word that begins with `#` ends the line. A word that begins with a double quote
/// runs to the next one, and may have spaces; two double quotes inside stand for one.
pub fn pieces(line: &str) -> Result<Vec<String>, TextError> {
    let mut pieces = Vec::new();
    let mut rest = line.trim_start();
    while !rest.is_empty() && !rest.starts_with('#') {
        let (piece, behind) = match rest.strip_prefix('"') {
            Some(inside) => closed(inside)?,
            None => {
                let (piece, behind) = rest.split_at(rest.find(char::is_whitespace).unwrap_or(rest.len()));
                (piece.to_string(), behind)
            }
        };
        pieces.push(piece);
        rest = behind.trim_start();
    }
    Ok(pieces)
}

/// What stands before the closing quote, and what is behind it.
fn closed(inside: &str) -> Result<(String, &str), TextError> {
    let mut piece = String::new();
    let mut rest = inside;
    while let Some((before, behind)) = rest.split_once('"') {
        piece += before;
        if let Some(more) = behind.strip_prefix('"') {
            piece.push('"');
            rest = more;
            continue;
        }
        if !behind.is_empty() && !behind.starts_with(char::is_whitespace) {
            return Err(TextError(format!("a space is missing behind {}", quoted(&piece))));
        }
        if piece.is_empty() {
            return Err(TextError("there is nothing between the quotes".into()));
        }
        return Ok((piece, behind));
    }
    Err(TextError(format!("the quote before `{}` is never closed", inside.trim_end())))
}

/// A name as a line can have it: in quotes if it must be.
pub fn quoted(name: &str) -> String {
    if name.is_empty() || name.contains(char::is_whitespace) || name.starts_with(['"', '#']) {
        return format!("\"{}\"", name.replace('"', "\"\""));
    }
    name.into()
}

#[cfg(test)]
mod tests {
    use super::*;

    fn words(line: &str) -> Vec<String> {
        pieces(line).unwrap_or_else(|error| panic!("{line}: {error}"))
    }

    #[test]
    fn a_word_in_quotes_may_have_spaces() {
        assert_eq!(words(r#"  save "my state"  table # a "comment"#), ["save", "my state", "table"]);
        assert_eq!(words(r##"load "#1" a#b a"b # #"##), ["load", "#1", "a#b", "a\"b"]);
        assert_eq!(words(r#"load "a ""b"" c""#), ["load", "a \"b\" c"]);
        assert!(words(" # nothing").is_empty() && words("").is_empty());
    }

    #[test]
    fn a_quote_must_be_closed_and_hold_something() {
        let message = |line| pieces(line).unwrap_err().to_string();
        assert_eq!(message("load \"my state\n"), "the quote before `my state` is never closed");
        assert_eq!(message("load \"a\"\"\n"), "the quote before `a\"\"` is never closed");
        assert_eq!(message("load \"a b\"c"), "a space is missing behind \"a b\"");
        assert_eq!(message("load \"\""), "there is nothing between the quotes");
    }

    #[test]
    fn what_is_quoted_is_read_back() {
        for name in ["state", "my state", "\"", "a\"b", "\" a\"\"", "#1", "tab\tbed"] {
            assert_eq!(words(&quoted(name)), [name]);
        }
        assert_eq!(quoted("a\"b#"), "a\"b#");
        assert_eq!(quoted("my state"), "\"my state\"");
    }
}
