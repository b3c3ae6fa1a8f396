//! Cases of calls that lend buffers: how long these must be, and what every place and byte of them holds
//! afterwards.  They stand as plain text in tests/cases/buffers.txt, worked out by hand from document 01 and
//! the change requests; the model and the verified library are both held to them.

use crate::cases::{of_calls, texts};
use crate::model::sheets::Answer;
use crate::model::{Place, ROW_NUMBERS};
use crate::notation::Entry;
use std::path::Path;

/// What every place and every byte that a case lends holds before the call.
const OLD_ROW: Place = [7; ROW_NUMBERS];
const OLD_BYTE: u8 = b'?';

pub struct Case {
    pub name: String,
    pub request: Vec<u8>,
    /// So many places and bytes are lent.
    pub places: usize,
    pub bytes: usize,
    answer: Answer,
    text: Vec<u8>,
    /// Rows by their place.  All other places are zero, and so are the bytes past the text.
    rows: Vec<(usize, Place)>,
}

impl Case {
    /// What is not as due, if anything is.
    pub fn fault(
        &self,
        call: impl FnOnce(&[u8], &mut [Place], &mut [u8]) -> Answer,
    ) -> Option<String> {
        let mut rows = vec![OLD_ROW; self.places];
        let mut text = vec![OLD_BYTE; self.bytes];
        let answer = call(&self.request, &mut rows, &mut text);
        if answer != self.answer {
            return Some(format!("due {:?}, got {answer:?}", self.answer));
        }
        let mut due = vec![Place::default(); self.places];
        for (place, row) in &self.rows {
            due[*place] = *row;
        }
        if rows != due {
            let wrong = (0..self.places).find(|place| rows[*place] != due[*place]);
            return wrong.map(|place| format!("place {place} holds {:?}", rows[place]));
        }
        let mut due = vec![0; self.bytes];
        due[..self.text.len()].copy_from_slice(&self.text);
        (text != due).then(|| "another text is due".to_string())
    }
}

/// A number as it is printed.
pub fn number(digits: &str) -> Result<usize, String> {
    let number: Option<usize> = digits.parse().ok();
    let printed = number.filter(|number| number.to_string() == digits);
    printed.ok_or(format!("no number: {digits:?}"))
}

/// Numbers between these signs.
pub fn numbers(list: &str, sign: char) -> Result<Vec<usize>, String> {
    list.split(sign).map(number).collect()
}

/// What is answered where one line is due that refuses the whole call: `refused,number,line,field`.  Events
/// are refused by other numbers, in texts of more lines.
pub fn refusal(due: &str) -> Result<Option<Answer>, String> {
    let Some(refused) = due.strip_prefix("refused,") else {
        return Ok(None);
    };
    let Some((refused, "")) = refused.split_once('\n') else {
        return Ok(None);
    };
    match numbers(refused, ',')?[..] {
        [number @ (1..=13 | 20 | 21), line, field] => Ok(Some(Answer {
            number,
            line,
            field,
            length: 0,
        })),
        _ => Err(format!("no call is refused so: {due:?}")),
    }
}

/// What a call answers that reads or writes so many bytes.
pub fn done(length: usize) -> Answer {
    Answer {
        length,
        ..Answer::default()
    }
}

/// What a call answers that is to print this, and the text that it writes.
pub fn answered(due: &str) -> Result<(Answer, &str), String> {
    let written = (done(due.len()), due);
    Ok(refusal(due)?.map_or(written, |refused| (refused, "")))
}

/// The lengths that a call lends: places and bytes.
fn lengths(call: &str) -> Result<[Vec<usize>; 2], String> {
    let lent = call.strip_prefix("lent ");
    let lent = lent.and_then(|lent| lent.strip_suffix(" bytes"));
    let lent = lent.and_then(|lent| lent.split_once(" rows, "));
    let (places, bytes) = lent.ok_or(format!("not understood: {call:?}"))?;
    Ok([numbers(places, ' ')?, numbers(bytes, ' ')?])
}

/// A line of what is held: a place, and its row.
fn row(line: &str) -> Result<(usize, Place), String> {
    let wrong = || format!("no place and row: {line:?}");
    let (place, row) = line.split_once(' ').ok_or_else(wrong)?;
    let row = numbers(row, ',')?.into_iter().map(|number| number as u64);
    let row: Result<Place, _> = row.collect::<Vec<u64>>().try_into();
    Ok((number(place)?, row.map_err(|_| wrong())?))
}

/// The rows that are held, by rising place.
fn rows(held: &[u8]) -> Result<Vec<(usize, Place)>, String> {
    let held = std::str::from_utf8(held).map_err(|error| error.to_string())?;
    let rows: Vec<(usize, Place)> = held.lines().map(row).collect::<Result<_, _>>()?;
    match rows.is_sorted_by(|one, next| one.0 < next.0) {
        true => Ok(rows),
        false => Err("places do not rise".to_string()),
    }
}

/// The cases of a call: one for each pair of its lengths.
fn cases(name: &str, call: &str, entry: &Entry) -> Result<Vec<Case>, String> {
    let due = std::str::from_utf8(&entry.due).map_err(|error| error.to_string())?;
    let (answer, text) = answered(due)?;
    let rows = rows(&entry.held)?;
    let past = rows.last().map_or(0, |(last, _)| last + 1);
    if text.is_empty() && past > 0 {
        return Err("a refused request has no rows".to_string());
    }
    let [all_places, all_bytes] = lengths(call)?;
    let mut cases = Vec::new();
    for places in all_places {
        for bytes in all_bytes.iter().copied() {
            if places < past || bytes < text.len() {
                return Err(format!("no room in {places} rows, {bytes} bytes"));
            }
            cases.push(Case {
                name: format!("{name}: {places} rows, {bytes} bytes"),
                request: entry.text.clone(),
                places,
                bytes,
                answer,
                text: text.as_bytes().to_vec(),
                rows: rows.clone(),
            });
        }
    }
    Ok(cases)
}

/// All of them.
pub fn read(folder: &Path) -> Result<Vec<Case>, String> {
    let path = folder.join("buffers.txt");
    of_calls(&path, texts(folder)?, |_, name, call, entry| {
        cases(name, call, entry)
    })
}
