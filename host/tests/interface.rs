//! The one declaration of the C interface for Rust (`src/interface.rs`), held to `relay.h`: its structs field by field, its
//! functions parameter by parameter, and the places of the fields by the C compiler.

#[allow(dead_code)]
#[path = "../src/interface.rs"]
mod interface;

use interface::{Answer, Checked, Drained, Forwarded, Tally};
use std::collections::BTreeSet;
use std::io::Write;
use std::mem::{offset_of, size_of};
use std::process::{Command, Stdio};

const RUST: &str = include_str!("../src/interface.rs");
const HEADER: &str = include_str!("../relay.h");

/// The header's name of a struct, and C's name of each type that the interface uses.
fn in_c(rust: &str) -> String {
    let plain = match rust {
        "u8" => "uint8_t",
        "u32" => "uint32_t",
        "u64" => "uint64_t",
        "usize" => "size_t",
        "CBool" => "bool",
        _ => "",
    };
    match (plain, rust.strip_prefix("*mut "), rust.strip_prefix("*const ")) {
        (_, Some(to), _) => format!("{} *", in_c(to)),
        (_, _, Some(to)) => format!("const {} *", in_c(to)),
        ("", ..) => format!("relay_{}", rust.to_lowercase()),
        _ => plain.into(),
    }
}

/// `name: type` as C declares it.
fn declared(item: &str) -> String {
    let (name, sort) = item.trim().trim_start_matches("pub ").split_once(": ").expect(item);
    let sort = in_c(sort);
    let space = if sort.ends_with('*') { "" } else { " " };
    format!("{sort}{space}{name}")
}

/// The declarations between brackets, one for each comma.
fn listed(items: &str) -> Vec<String> {
    items.split(',').filter(|item| !item.trim().is_empty()).map(declared).collect()
}

/// What stands between each `start` and the next `end`.
fn parts<'a>(text: &'a str, start: &str, end: &str) -> Vec<&'a str> {
    text.split(start).skip(1).map(|part| part.split(end).next().unwrap_or_default()).collect()
}

/// A text without C's comments, and with single spaces.
fn bare(text: &str) -> String {
    let kept: Vec<&str> = text.split("/*").map(|part| part.split_once("*/").map_or(part, |(_, rest)| rest)).collect();
    kept.concat().split_whitespace().collect::<Vec<&str>>().join(" ")
}

#[test]
fn structs_are_those_of_the_header() {
    let rust: BTreeSet<String> = parts(RUST, "pub struct ", "}")
        .into_iter()
        .map(|text| {
            let (name, fields) = text.split_once(" {").expect("a struct has fields");
            let name = in_c(name);
            format!("struct {name} {{ {}; }} {name}", listed(fields).join("; "))
        })
        .collect();
    let header: BTreeSet<String> = parts(&bare(HEADER), "typedef ", "} relay_")
        .into_iter()
        .map(|text| {
            let name = text.split(' ').nth(1).expect("a struct has a name");
            format!("{text}}} {name}")
        })
        .collect();
    assert_eq!(rust, header);
    assert_eq!(rust.len(), 5);
    assert_eq!(RUST.matches("#[repr(C)]").count(), 5, "every struct is laid out as in C");
}

#[test]
fn functions_are_those_of_the_header() {
    let rust: BTreeSet<String> = parts(RUST, "pub fn ", ";")
        .into_iter()
        .map(|text| {
            let (name, rest) = text.split_once('(').expect("a function has parameters");
            let (parameters, answer) = rest.split_once(") -> ").expect("a function answers");
            format!("{} {name}({});", in_c(answer), listed(parameters).join(", "))
        })
        .collect();
    let header: BTreeSet<String> = bare(HEADER)
        .split_inclusive(';')
        .map(str::trim)
        .filter(|text| text.starts_with("relay_") && text.ends_with(");"))
        .map(String::from)
        .collect();
    assert_eq!(rust, header);
    assert_eq!(rust.len(), 6);
}

/// A field's place in C is its place in Rust, as an assertion for the C compiler.
macro_rules! places {
    ($($Name:ident: $($field:ident)*;)*) => {
        [$(
            format!("_Static_assert(sizeof({0}) == {1}, \"{0}\");", in_c(stringify!($Name)), size_of::<$Name>()),
            $(format!(
                "_Static_assert(offsetof({0}, {1}) == {2}, \"{0}.{1}\");",
                in_c(stringify!($Name)), stringify!($field), offset_of!($Name, $field)
            ),)*
        )*].join("\n")
    };
}

/// Does the C compiler take these lines behind the header?
fn compiles(lines: &str) -> bool {
    let folder = concat!("-I", env!("CARGO_MANIFEST_DIR"));
    let mut compiler = Command::new(std::env::var("CC").unwrap_or("cc".into()))
        .args(["-std=c11", "-fsyntax-only", folder, "-x", "c", "-"])
        .stdin(Stdio::piped())
        .stderr(Stdio::null())
        .spawn()
        .expect("a C compiler is on the path");
    let source = format!("#include \"relay.h\"\n{lines}\n");
    compiler.stdin.take().expect("a pipe").write_all(source.as_bytes()).expect("it reads");
    compiler.wait().expect("it ends").success()
}

#[test]
fn fields_stand_where_c_has_them() {
    let asserted = places! {
        Tally: produced forwards deliveries;
        Answer: number detail place accepted;
        Forwarded: number detail place deliveries receivers;
        Drained: number detail place forwards rounds quiet;
        Checked: number detail place;
    };
    assert!(compiles(&asserted), "{asserted}");
    assert!(!compiles("_Static_assert(offsetof(relay_checked, place) == 2, \"\");"), "a wrong place is found");
    assert_eq!(
        (offset_of!(Checked, detail), offset_of!(Checked, place)),
        (1, 8),
        "the detail stands in C's old padding"
    );
    assert_eq!((offset_of!(Forwarded, receivers), size_of::<Forwarded>()), (20, 24), "so do the receivers");
}
