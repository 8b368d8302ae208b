//! Files whole, with the file's name in every message. A file is written whole or not at all: what is written stands beside it
//! under another name until it is complete.

use crate::session::Trouble;
use std::fs::{self, File};
use std::io::{self, Write};
use std::path::{Path, PathBuf};

pub fn read(name: &str) -> Result<Vec<u8>, Trouble> {
    fs::read(name).map_err(|error| Trouble::Text(format!("{name} can't be read: {error}")))
}

pub fn write(name: &str, bytes: &[u8]) -> Result<(), Trouble> {
    write_all(&[(name, bytes)])
}

/// Writes several files, each whole. None takes its place before all are complete, so that they stay fit for each other.
pub fn write_all(files: &[(&str, &[u8])]) -> Result<(), Trouble> {
    let unwritten = |name: &str, error| Trouble::Text(format!("{name} can't be written: {error}"));
    let mut drafts = Vec::new();
    for &(name, bytes) in files {
        drafts.push((name, Draft::of(Path::new(name), bytes).map_err(|error| unwritten(name, error))?));
    }
    // What is written as it is can still fail, and so comes first.
    drafts.sort_by_key(|(_, draft)| draft.beside.is_some());
    for (name, draft) in drafts {
        draft.settle().map_err(|error| unwritten(name, error))?;
    }
    Ok(())
}

/// Do two names stand for one file, whether it is there yet or not?
pub fn same(one: &str, other: &str) -> bool {
    full(Path::new(one)) == full(Path::new(other))
}

/// A file's full name, by that of its folder if the file isn't there.
fn full(name: &Path) -> PathBuf {
    let folder = match name.parent() {
        Some(folder) if !folder.as_os_str().is_empty() => folder,
        _ => Path::new("."),
    };
    match (fs::canonicalize(name), fs::canonicalize(folder), name.file_name()) {
        (Ok(full), _, _) => full,
        (_, Ok(folder), Some(file)) => folder.join(file),
        _ => name.into(),
    }
}

/// Bytes that are to take the place of a file's. What has no place yet when it is dropped is removed.
struct Draft<'a> {
    target: PathBuf,
    bytes: &'a [u8],
    /// Where they stand until then; nowhere if the target is a pipe or a device, which is written as it is.
    beside: Option<PathBuf>,
}

impl<'a> Draft<'a> {
    /// A link to a file keeps pointing there; a file keeps its permissions.
    fn of(name: &Path, bytes: &'a [u8]) -> io::Result<Draft<'a>> {
        let old = fs::metadata(name).ok();
        if old.as_ref().is_some_and(fs::Metadata::is_dir) {
            return Err(io::Error::other("it is a folder"));
        }
        let target = fs::canonicalize(name).unwrap_or_else(|_| name.to_path_buf());
        if old.as_ref().is_some_and(|old| !old.is_file()) {
            return Ok(Draft { target, bytes, beside: None });
        }
        let beside = beside(&target);
        let mut file = File::create_new(&beside)?;
        let draft = Draft { target, bytes, beside: Some(beside) };
        file.write_all(bytes)?;
        file.sync_all()?;
        if let Some(old) = old {
            file.set_permissions(old.permissions())?;
        }
        Ok(draft)
    }

    fn settle(self) -> io::Result<()> {
        match &self.beside {
            Some(beside) => fs::rename(beside, &self.target),
            None => fs::write(&self.target, self.bytes),
        }
    }
}

impl Drop for Draft<'_> {
    fn drop(&mut self) {
        if let Some(beside) = &self.beside {
            // One that has taken its place is no longer there.
            let _ = fs::remove_file(beside);
        }
    }
}

/// A name in the same folder that no other run of the tool uses at the same time.
fn beside(target: &Path) -> PathBuf {
    let mut name = target.as_os_str().to_owned();
    name.push(format!(".{}.new", std::process::id()));
    PathBuf::from(name)
}
