//! Cases over bytes: a request, and what the program `judge` prints for it.  They stand as plain text in
//! tests/cases/requests, worked out by hand from document 01 and the change requests; the model, the
//! verified library and the verified program are all held to them.

use crate::notation::{file, Entry, Texts};
use std::collections::{HashMap, HashSet};
use std::path::{Path, PathBuf};

/// Where all cases are, from the root of the repository.
pub const FOLDER: &str = "tests/cases";

/// A request and the lines that answer it, with their last LF.
pub struct Case {
    pub name: String,
    pub request: Vec<u8>,
    pub due: String,
}

/// The texts that every file of cases may name.
pub fn texts(folder: &Path) -> Result<Texts, String> {
    let mut texts = Texts::default();
    match file(&folder.join("texts.txt"), &mut texts)?[..] {
        [] => Ok(texts),
        _ => Err("texts.txt has a case".to_string()),
    }
}

/// What a case is called in a report: its file, its line, and what it pins.
fn name(path: &Path, line: usize, pins: &str) -> String {
    let file = path.file_stem().unwrap_or_default().to_string_lossy();
    format!("{file}, line {line}: {pins}")
}

/// The entries of a file of cases; what it names joins `texts`.
fn entries(path: &Path, texts: &mut Texts) -> Result<Vec<Entry>, String> {
    let entries = file(path, texts)?;
    match entries.is_empty() {
        true => Err(format!("{}: no cases", path.display())),
        false => Ok(entries),
    }
}

/// The cases of a file whose entries are calls: `of` has what the file names, the name of the cases, the
/// call and its entry.
pub fn of_calls<C>(
    path: &Path,
    mut texts: Texts,
    of: impl Fn(&Texts, &str, &str, &Entry) -> Result<Vec<C>, String>,
) -> Result<Vec<C>, String> {
    let mut cases = Vec::new();
    let mut seen = HashSet::new();
    for entry in entries(path, &mut texts)? {
        if entry.calls.is_empty() {
            return Err(name(path, entry.line, "no call"));
        }
        for (call, line) in entry.calls.iter().zip(entry.line..) {
            let name = name(path, line, &entry.pins);
            if !seen.insert((call.clone(), entry.text.clone())) {
                return Err(format!("{name}: the same call stands above"));
            }
            let some = of(&texts, &name, call, &entry);
            cases.extend(some.map_err(|what| format!("{name}: {what}"))?);
        }
    }
    Ok(cases)
}

/// The case that an entry of the file at a path is.
fn case(path: &Path, entry: Entry) -> Result<Case, String> {
    let name = name(path, entry.line, &entry.pins);
    if !entry.calls.is_empty() || !entry.held.is_empty() {
        return Err(format!(
            "{name}: a request and what is printed, nothing else"
        ));
    }
    let due = String::from_utf8(entry.due).map_err(|error| format!("{name}: {error}"))?;
    Ok(Case {
        name,
        request: entry.text,
        due,
    })
}

/// The files of requests, by name: those in the folder are those of which its README.md says what they pin.
fn files(folder: &Path) -> Result<Vec<PathBuf>, String> {
    let at = |error: std::io::Error| format!("{}: {error}", folder.display());
    let entries = std::fs::read_dir(folder.join("requests")).map_err(at)?;
    let paths = entries.map(|entry| entry.map(|entry| entry.path()));
    let mut paths = paths.collect::<Result<Vec<_>, _>>().map_err(at)?;
    paths.sort();
    let readme = std::fs::read_to_string(folder.join("README.md")).map_err(at)?;
    let rows = readme
        .lines()
        .filter_map(|line| line.strip_prefix("| requests/"));
    let files = rows.filter_map(|row| row.split_once(" |"));
    let mut told: Vec<PathBuf> = files
        .map(|(file, _)| folder.join("requests").join(file))
        .collect();
    told.sort();
    match told == paths {
        true => Ok(paths),
        false => Err(format!(
            "{}: README.md tells of other files of requests",
            folder.display()
        )),
    }
}

/// All cases over bytes.
pub fn read(folder: &Path) -> Result<Vec<Case>, String> {
    let texts = texts(folder)?;
    let mut cases: Vec<Case> = Vec::new();
    for path in files(folder)? {
        for entry in entries(&path, &mut texts.clone())? {
            cases.push(case(&path, entry)?);
        }
    }
    match twice(&cases) {
        Some([one, other]) => Err(format!("the same request: {one}; {other}")),
        None => Ok(cases),
    }
}

/// The names of two cases with the same request, if there are any.
fn twice(cases: &[Case]) -> Option<[&str; 2]> {
    let mut seen = HashMap::new();
    for Case { name, request, .. } in cases {
        if let Some(other) = seen.insert(request, name) {
            return Some([other, name]);
        }
    }
    None
}
