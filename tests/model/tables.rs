//! Cases of sheets as tables: calls of the two functions that read a text into a table and write one
//! from it, with what is due.  They stand as plain text in tests/cases/tables.txt, and README.md there has
//! the words of a call; the model and the verified library are both held to them.

use crate::buffers::{answered, done, number, numbers, refusal};
use crate::cases::{of_calls, texts};
use crate::model::sheets::{
    Answer, BRANCHES_AT, BRANCH_CELLS, CONDITIONS_AT, COUNTS, DEFINITIONS_AT, DEFINITION_CELLS,
    LISTED_AT, NODES_AT, NODE_CELLS, SHEET_CELLS,
};
use crate::notation::{Entry, Scope, Texts};
use std::ops::Range;
use std::path::Path;

/// What every cell and every byte that a case lends holds before the call.
const OLD_CELL: usize = 7;
const OLD_BYTE: u8 = b'?';

/// So many bytes are lent where a case does not say how many.
const BYTES: usize = 40_000;

enum Call {
    /// A text is read into so many cells; these are due, with zeros past the last.
    Read {
        text: Vec<u8>,
        cells: usize,
        due: Vec<usize>,
    },
    /// A table is written to so many bytes; these are due, and past them the bytes that were there.
    Write {
        cells: Vec<usize>,
        bytes: usize,
        due: Vec<u8>,
    },
    /// A text is read, and its table written: the same bytes are due.
    Back { text: Vec<u8> },
}

pub struct Case {
    pub name: String,
    call: Call,
    answer: Answer,
}

impl Case {
    /// What is not as due, if anything is.
    pub fn fault(
        &self,
        read: impl FnOnce(&[u8], &mut [usize]) -> Answer,
        write: impl FnOnce(&[usize], &mut [u8]) -> Answer,
    ) -> Option<String> {
        let (answer, same) = match &self.call {
            Call::Read { text, cells, due } => {
                let mut table = vec![OLD_CELL; *cells];
                let answer = read(text, &mut table);
                let (held, past) = table.split_at(due.len().min(*cells));
                (answer, held == due && past.iter().all(|cell| *cell == 0))
            }
            Call::Write { cells, bytes, due } => {
                let mut text = vec![OLD_BYTE; *bytes];
                (write(cells, &mut text), begins(&text, due))
            }
            Call::Back { text } => {
                let mut table = vec![OLD_CELL; SHEET_CELLS];
                let answer = read(text, &mut table);
                let mut written = vec![OLD_BYTE; BYTES];
                let same = write(&table, &mut written) == done(text.len());
                (answer, same && begins(&written, text))
            }
        };
        if answer != self.answer {
            return Some(format!("due {:?}, got {answer:?}", self.answer));
        }
        (!same).then(|| "another content of the buffer is due".to_string())
    }
}

/// Does a buffer hold this text, and past it what it held before?
fn begins(buffer: &[u8], text: &[u8]) -> bool {
    let (held, past) = buffer.split_at(text.len().min(buffer.len()));
    held == text && past.iter().all(|byte| *byte == OLD_BYTE)
}

// ---------------------------------------------------------------------------------------------
// Tables
// ---------------------------------------------------------------------------------------------

/// A section of a table.
struct Section {
    /// What it is called, and what an entry of it is.
    name: &'static str,
    entry: &'static str,
    /// Its cells.
    from: usize,
    to: usize,
    /// The numbers of an entry.
    numbers: &'static [&'static str],
}

impl Section {
    /// The cells of an entry.
    fn entry(&self, place: usize) -> Result<Range<usize>, String> {
        let mut entries = (self.from..self.to).step_by(self.numbers.len());
        let at = entries.nth(place);
        let at = at.ok_or(format!("no room for {} {place}", self.entry))?;
        Ok(at..at + self.numbers.len())
    }

    /// The cell of a number of an entry.
    fn cell(&self, place: usize, field: &str) -> Result<usize, String> {
        let entry = self.entry(place)?;
        let number = self.numbers.iter().position(|name| *name == field);
        let number = number.ok_or(format!("{} has no {field:?}", self.entry))?;
        Ok(entry.start + number)
    }

    /// The cells of as many entries as the header counts.
    fn held(&self, table: &[usize]) -> Result<Range<usize>, String> {
        // There is one header, which does not count itself.
        let count = match SECTIONS[0].cell(0, self.name) {
            Ok(cell) => *table.get(cell).ok_or("no header")?,
            Err(_) => 1,
        };
        let end = match count.checked_sub(1) {
            Some(last) => self.entry(last)?.end,
            None => self.from,
        };
        match end <= table.len() {
            true => Ok(self.from..end),
            false => Err(format!("too short for its {}", self.name)),
        }
    }
}

// The numbers of an entry, as many as it has cells.
#[rustfmt::skip]
const HEADER: [&str; COUNTS] =
    ["participants", "definitions", "nodes", "branches", "listed", "conditions"];
const NODE: [&str; NODE_CELLS] = ["definition", "parent", "weight", "count"];
#[rustfmt::skip]
const BRANCH: [&str; BRANCH_CELLS] =
    ["node", "signers", "opens", "kind", "argument", "first", "count", "condition"];
const DEFINITION: [&str; DEFINITION_CELLS] = ["root", "first", "secrets"];

#[rustfmt::skip]
const SECTIONS: [Section; 6] = [
    Section { name: "header", entry: "header", from: 0, to: COUNTS, numbers: &HEADER },
    Section { name: "nodes", entry: "node", from: NODES_AT, to: BRANCHES_AT, numbers: &NODE },
    Section { name: "branches", entry: "branch", from: BRANCHES_AT, to: DEFINITIONS_AT, numbers: &BRANCH },
    Section { name: "definitions", entry: "definition", from: DEFINITIONS_AT, to: LISTED_AT, numbers: &DEFINITION },
    Section { name: "listed", entry: "listed", from: LISTED_AT, to: CONDITIONS_AT, numbers: &["number"] },
    Section { name: "conditions", entry: "condition", from: CONDITIONS_AT, to: SHEET_CELLS, numbers: &["field"] },
];

/// Puts the entries of a section into its cells, all that the header counts.  Blanks part entries, commas
/// their numbers; where an entry is one number, either does.
fn fill(section: &Section, entries: &str, cells: &mut [usize]) -> Result<(), String> {
    let count = section.numbers.len();
    let mut all = Vec::new();
    for entry in entries.split_ascii_whitespace() {
        let numbers = numbers(entry, ',')?;
        if count > 1 && numbers.len() != count {
            return Err(format!("not {count} numbers: {entry:?}"));
        }
        all.extend(numbers);
    }
    let room = cells.get_mut(section.from..section.from + all.len());
    room.ok_or("no room")?.copy_from_slice(&all);
    match section.held(cells)?.len() == all.len() {
        true => Ok(()),
        false => Err(format!(
            "the header does not say {} {}",
            all.len() / count,
            section.name
        )),
    }
}

/// The table that a name with its arguments stands for.  Its sections stand in their order, and one
/// without entries may be left out.
fn named(name: &str, texts: &Texts) -> Result<Vec<usize>, String> {
    let (name, arguments) = name.split_once(' ').unwrap_or((name, ""));
    let wrong = |what: String| format!("table {name}: {what}");
    let lines = texts.lines(&format!("table {name}"), arguments, &Scope::new())?;
    let text = String::from_utf8(lines.concat()).map_err(|error| error.to_string())?;
    let mut lines = text.lines().peekable();
    let mut cells = vec![0; SHEET_CELLS];
    for section in &SECTIONS {
        let line = lines.next_if(|line| line.split(' ').next() == Some(section.name));
        let entries = line.map_or("", |line| &line[section.name.len()..]);
        fill(section, entries, &mut cells).map_err(wrong)?;
    }
    match lines.next() {
        None => Ok(cells),
        Some(line) => Err(wrong(format!("not understood: {line:?}"))),
    }
}

/// The cell from which a change puts numbers, and these.
fn numbers_put(change: &str) -> Result<(usize, Vec<usize>), String> {
    let wrong = || format!("not understood: {change:?}");
    let section = |entry: &str| {
        let section = SECTIONS.iter().find(|section| section.entry == entry);
        section.ok_or_else(wrong)
    };
    let words: Vec<&str> = change.split(' ').collect();
    match words[..] {
        ["cell", at, one] => Ok((number(at)?, vec![number(one)?])),
        ["header", field, one] => Ok((SECTIONS[0].cell(0, field)?, vec![number(one)?])),
        [entry, place, all] => {
            let entry = section(entry)?.entry(number(place)?)?;
            let numbers = numbers(all, ',')?;
            let whole = numbers.len() == entry.len();
            whole.then_some((entry.start, numbers)).ok_or_else(wrong)
        }
        [entry, place, field, one] => {
            let at = section(entry)?.cell(number(place)?, field)?;
            Ok((at, vec![number(one)?]))
        }
        _ => Err(wrong()),
    }
}

/// Changes a table.  A change that changes nothing is a mistake.
fn change(cells: &mut Vec<usize>, change: &str) -> Result<(), String> {
    let old = cells.clone();
    let words: Vec<&str> = change.split(' ').collect();
    match words[..] {
        ["only", "the", "first", count, "cell" | "cells"] => cells.truncate(number(count)?),
        [count, "cell" | "cells", "more", "of", one] => {
            let more = vec![number(one)?; number(count)?];
            cells.extend(more);
        }
        [one, "past", "what", "is", "held"] => {
            cells.fill(number(one)?);
            for section in &SECTIONS {
                let held = section.held(&old)?;
                cells[held.clone()].copy_from_slice(&old[held]);
            }
        }
        _ => {
            let (at, numbers) = numbers_put(change)?;
            let from = cells.get_mut(at..);
            let put = from.and_then(|from| from.get_mut(..numbers.len()));
            put.ok_or("no such cell")?.copy_from_slice(&numbers);
        }
    }
    match *cells == old {
        true => Err(format!("this changes nothing: {change:?}")),
        false => Ok(()),
    }
}

/// A table with its changes, or so many cells of one number.
fn table(what: &str, texts: &Texts) -> Result<Vec<usize>, String> {
    let mut parts = what.split(", ");
    let first = parts.next().unwrap_or_default();
    let mut cells = match first.split_once(" cells of ") {
        Some((count, one)) => vec![number(one)?; number(count)?],
        None => named(first, texts)?,
    };
    for part in parts {
        change(&mut cells, part)?;
    }
    Ok(cells)
}

// ---------------------------------------------------------------------------------------------
// The cases
// ---------------------------------------------------------------------------------------------

/// `into 52072 53072 cells`
fn readings(call: &str, entry: &Entry, due: &str, texts: &Texts) -> Result<Vec<Case>, String> {
    let lengths = call.strip_prefix("into ");
    let lengths = lengths.and_then(|lengths| lengths.strip_suffix(" cells"));
    let lengths = lengths.ok_or(format!("not understood: {call:?}"))?;
    let (answer, table) = match (refusal(due)?, due.strip_prefix("table ")) {
        (Some(answer), _) => (answer, Vec::new()),
        (None, Some(name)) => (done(entry.text.len()), named(name.trim_end(), texts)?),
        (None, None) => return Err(format!("a table is due, not {due:?}")),
    };
    let case = |cells: usize| Case {
        name: format!("read into {cells} cells"),
        call: Call::Read {
            text: entry.text.clone(),
            cells,
            due: table.clone(),
        },
        answer,
    };
    Ok(numbers(lengths, ' ')?.into_iter().map(case).collect())
}

/// `W, node 0 parent 1 into 29 30 bytes`
fn writings(call: &str, due: &str, texts: &Texts) -> Result<Vec<Case>, String> {
    let (what, lengths) = match call.rsplit_once(" into ") {
        None => (call, vec![BYTES]),
        Some((what, lengths)) => {
            let lengths = lengths.strip_suffix(" bytes");
            let lengths = lengths.ok_or(format!("not understood: {call:?}"))?;
            (what, numbers(lengths, ' ')?)
        }
    };
    let (answer, text) = answered(due)?;
    let table = table(what, texts)?;
    let case = |bytes: usize| Case {
        name: format!("write {what} into {bytes} bytes"),
        call: Call::Write {
            cells: table.clone(),
            bytes,
            due: text.as_bytes().to_vec(),
        },
        answer,
    };
    Ok(lengths.into_iter().map(case).collect())
}

fn back(text: &[u8], due: &str) -> Result<Vec<Case>, String> {
    if due != "same\n" {
        return Err(format!("due is `same`, not {due:?}"));
    }
    Ok(vec![Case {
        name: "back".to_string(),
        call: Call::Back {
            text: text.to_vec(),
        },
        answer: done(text.len()),
    }])
}

/// The cases of a call: one for each of its lengths.
fn cases(texts: &Texts, name: &str, call: &str, entry: &Entry) -> Result<Vec<Case>, String> {
    let due = std::str::from_utf8(&entry.due).map_err(|error| error.to_string())?;
    if !entry.held.is_empty() {
        return Err("`=` is for rows".to_string());
    }
    let (word, rest) = call.split_once(' ').unwrap_or((call, ""));
    let mut cases = match word {
        "read" => readings(rest, entry, due, texts)?,
        "write" if entry.text.is_empty() => writings(rest, due, texts)?,
        "back" if rest.is_empty() => back(&entry.text, due)?,
        _ => return Err(format!("not understood: {call:?}")),
    };
    for case in &mut cases {
        case.name = format!("{name}: {}", case.name);
    }
    Ok(cases)
}

/// All of them.
pub fn read(folder: &Path) -> Result<Vec<Case>, String> {
    of_calls(&folder.join("tables.txt"), texts(folder)?, cases)
}
