//! `relay page`: a script's run as one page for a browser, with all that it needs inside. It plays the run event by event and a drain
//! round by round.
//!
//! `steps` runs the script and keeps the engine's states, `data` puts them into the page as JSON; `page.js` and `controls.js` show them, and make none.

mod data;
mod steps;
#[cfg(test)]
mod tests;

use crate::session::Trouble;
use crate::{commands, encode, faultless, files, read_text};
use relay_host::text::plain;
use steps::{Recorder, Step};

const FRAME: &str = include_str!("page/page.html");
const STYLE: &str = include_str!("page/page.css");
const SCRIPT: &str = concat!(include_str!("page/page.js"), "\n", include_str!("page/controls.js"));

/// Writes the page of a script. As with `encode --expand` the script says nothing and writes no file. If it is refused on its way, the page
/// ends with the refusal, and so does the tool.
pub fn page(script: &str, file: &str) -> Result<(), Trouble> {
    if !file.ends_with(".html") {
        return Err(Trouble::Text(format!("a page is an HTML file, and `{file}` doesn't end in .html")));
    }
    let (steps, refused) = recorded(script, &read_text(script)?)?;
    encode::write_beside(script, "page", file, |file| files::write(file, html(script, &steps).as_bytes()))?;
    refused.map_or(Ok(()), Err)
}

/// The steps of a script's text up to the first refusal, and that refusal. Any other trouble leaves no steps.
fn recorded(script: &str, text: &str) -> Result<(Vec<Step>, Option<Trouble>), Trouble> {
    let lines: Vec<&str> = text.lines().collect();
    let mut recorder = Recorder::new();
    let mut unwritten = Vec::new();
    for (line, command) in faultless(script, commands(script, text))? {
        let source = lines.get(line - 1).copied().unwrap_or_default();
        let is_write = encode::is_write(&command, &mut unwritten, "making a page");
        let done = match is_write.map_err(|trouble| trouble.at(script, line))? {
            true => Ok(()),
            false => recorder.take(line, &plain(source.trim()), &command),
        };
        match done.map_err(|trouble| trouble.at(script, line)) {
            Err(trouble) if trouble.status() == 1 => return Ok((recorder.end(), Some(trouble))),
            done => done?,
        }
    }
    Ok((recorder.end(), None))
}

/// The page. Its frame has a word in double braces where something goes in; nothing that goes in is looked through again.
fn html(script: &str, steps: &[Step]) -> String {
    let mut page = String::new();
    let mut rest = FRAME;
    while let Some((before, behind)) = rest.split_once("{{") {
        let (word, behind) = behind.split_once("}}").unwrap_or((behind, ""));
        page += before;
        page += &match word {
            "name" => escaped(&plain(script)),
            "style" => STYLE.into(),
            "data" => in_script(&data::json(script, steps)),
            "script" => SCRIPT.into(),
            _ => String::new(),
        };
        rest = behind;
    }
    page + rest
}

/// Text as HTML has it.
fn escaped(text: &str) -> String {
    text.replace('&', "&amp;").replace('<', "&lt;").replace('>', "&gt;").replace('"', "&quot;")
}

/// JSON inside a script element, which nothing in it may end or open: these signs stand in JSON's texts only, and there the
/// escapes mean the same.
fn in_script(json: &str) -> String {
    json.replace('<', "\\u003c").replace('>', "\\u003e").replace('&', "\\u0026")
}
