//! JSON, written by hand: an object on one line, its fields in the order in which they are put.

use relay_host::{Number, Set};

/// An object under work.
pub struct Object {
    text: String,
}

impl Object {
    pub fn new() -> Object {
        Object { text: String::from("{") }
    }

    /// An object that says first what it is.
    pub fn of_kind(kind: &str) -> Object {
        Object::new().words("kind", kind)
    }

    /// A field whose value is JSON already.
    pub fn field(mut self, name: &str, value: &str) -> Object {
        if self.text.len() > 1 {
            self.text.push(',');
        }
        self.text += &format!("{}:{value}", quoted(name));
        self
    }

    pub fn number(self, name: &str, number: u64) -> Object {
        self.field(name, &number.to_string())
    }

    pub fn flag(self, name: &str, flag: bool) -> Object {
        self.field(name, if flag { "true" } else { "false" })
    }

    pub fn words(self, name: &str, words: &str) -> Object {
        self.field(name, &quoted(words))
    }

    /// A field that there is nothing to say of.
    pub fn nothing(self, name: &str) -> Object {
        self.field(name, "null")
    }

    /// The members of a set, rising.
    pub fn set<N: Number>(self, name: &str, set: Set<N>) -> Object {
        self.list(name, set.members().map(|member| member.get().to_string()))
    }

    pub fn objects(self, name: &str, objects: impl Iterator<Item = Object>) -> Object {
        self.list(name, objects.map(Object::end))
    }

    /// Values that are JSON already.
    pub fn list(self, name: &str, values: impl Iterator<Item = String>) -> Object {
        let values: Vec<String> = values.collect();
        self.field(name, &format!("[{}]", values.join(",")))
    }

    pub fn end(self) -> String {
        self.text + "}"
    }
}

/// A text in quotation marks. Marks, backslashes and control characters are escaped; all else stands as it is.
pub fn quoted(text: &str) -> String {
    let mut quoted = String::from("\"");
    for letter in text.chars() {
        match letter {
            '"' | '\\' => quoted.extend(['\\', letter]),
            '\n' => quoted.push_str("\\n"),
            letter if letter.is_control() => quoted.push_str(&format!("\\u{:04x}", u32::from(letter))),
            letter => quoted.push(letter),
        }
    }
    quoted + "\""
}

#[cfg(test)]
pub mod reader {
    //! A strict reader, for tests: it takes one JSON value (RFC 8259) and nothing more.

    /// Is the text one JSON value?
    pub fn is_json(text: &str) -> bool {
        value(text.as_bytes()).is_some_and(|rest| space(rest).is_empty())
    }

    type Rest<'a> = Option<&'a [u8]>;

    fn space(text: &[u8]) -> &[u8] {
        let end = text.iter().position(|byte| !b" \t\r\n".contains(byte)).unwrap_or(text.len());
        &text[end..]
    }

    fn value(text: &[u8]) -> Rest<'_> {
        let text = space(text);
        match text.first()? {
            b'{' => several(&text[1..], b'}', |text| value(space(string(space(text))?).strip_prefix(b":")?)),
            b'[' => several(&text[1..], b']', value),
            b'"' => string(text),
            b't' => text.strip_prefix(b"true"),
            b'f' => text.strip_prefix(b"false"),
            b'n' => text.strip_prefix(b"null"),
            _ => number(text),
        }
    }

    /// Parts with commas between them, up to the closing mark.
    fn several(text: &[u8], close: u8, part: fn(&[u8]) -> Rest<'_>) -> Rest<'_> {
        if let Some(rest) = space(text).strip_prefix(&[close]) {
            return Some(rest);
        }
        let mut text = space(part(text)?);
        while let Some(rest) = text.strip_prefix(b",") {
            text = space(part(rest)?);
        }
        text.strip_prefix(&[close])
    }

    fn string(text: &[u8]) -> Rest<'_> {
        let mut text = text.strip_prefix(b"\"")?;
        loop {
            text = match text {
                [b'"', rest @ ..] => return Some(rest),
                [b'\\', b'u', a, b, c, d, rest @ ..] if [a, b, c, d].iter().all(|digit| digit.is_ascii_hexdigit()) => {
                    rest
                }
                [b'\\', b'"' | b'\\' | b'/' | b'b' | b'f' | b'n' | b'r' | b't', rest @ ..] => rest,
                [b'\\', ..] | [0..=0x1f, ..] | [] => return None,
                [_, rest @ ..] => rest,
            };
        }
    }

    /// A whole number; the tool writes no other.
    fn number(text: &[u8]) -> Rest<'_> {
        let end = text.iter().position(|byte| !byte.is_ascii_digit()).unwrap_or(text.len());
        let digits = &text[..end];
        (digits == b"0" || digits.first().is_some_and(|&digit| digit != b'0')).then_some(&text[end..])
    }

    #[test]
    fn the_reader_takes_json_and_nothing_else() {
        for good in ["{}", "[]", "0", " [1, 20 ,{\"a\":null}] ", "{\"a\":true,\"b\":[\"\\u00e9\\\"\",false]}"] {
            assert!(is_json(good), "{good}");
        }
        for bad in
            ["", "{", "{]", "[1,]", "{\"a\"}", "{a:1}", "01", "1 2", "\"\n\"", "\"\\x\"", "\"a", "{\"a\":1,}", "nul"]
        {
            assert!(!is_json(bad), "{bad}");
        }
    }
}

#[cfg(test)]
mod tests {
    use super::reader::is_json;
    use super::*;
    use relay_host::Topic;

    #[test]
    fn an_object_is_json_with_its_fields_in_order() {
        let inner = || Object::new().number("a", 1);
        let object = Object::of_kind("x").number("big", u64::MAX).flag("yes", true).flag("no", false).nothing("gone");
        let object = object.set("some", Set::<Topic>::of_word(0b1011)).set("none", Set::<Topic>::empty());
        let text = object.objects("objects", [inner(), inner()].into_iter()).end();
        let expected = "{\"kind\":\"x\",\"big\":18446744073709551615,\"yes\":true,\"no\":false,\"gone\":null,\
                        \"some\":[0,1,3],\"none\":[],\"objects\":[{\"a\":1},{\"a\":1}]}";
        assert_eq!(text, expected);
        assert!(is_json(&text) && is_json(&Object::new().end()));
    }

    #[test]
    fn any_text_can_be_quoted() {
        assert_eq!(quoted("a\"b\\c\nd\u{1b}e\u{7f}é😀"), "\"a\\\"b\\\\c\\nd\\u001be\\u007fé😀\"");
        let all: String = (0..=0x2fff).filter_map(char::from_u32).collect();
        assert!(is_json(&quoted(&all)) && !quoted(&all).contains('\n'));
    }
}
