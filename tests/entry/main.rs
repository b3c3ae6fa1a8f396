//! The entry of the static library against the model, and against requests by hand.
//!
//! ```text
//! tools/build library
//! rustc -O --edition 2021 -L target/staticlib -l static=checker tests/entry/main.rs -o target/tests/entry
//! target/tests/entry [SEED COUNT [EXAMPLES [CASES]]]
//!     1, 20000, examples and tests/cases if not given
//! ```
//!
//! The same memory is lent for every request and never cleared; before some calls it is filled with
//! garbage, and what lies outside the lent parts must stay.  Of each answer the reply, every byte of
//! text and every row is compared; a `makeall` also with the library's own answers to `make` for one
//! participant after the other, and the first line of a `why` with the last of the library's own `make`.
//! The rows of a `make` are given back to `check`, in order and in another order.  Every number from 1
//! to 19 must occur, and 21.  sheets.rs does the same for sheets as tables, for a tenth of COUNT texts;
//! lines.rs has the lines of refusals.

#[path = "../model/buffers.rs"]
mod buffers;
#[path = "../model/cases.rs"]
mod cases;
#[path = "../model/gen.rs"]
mod generate;
mod library;
mod lines;
#[allow(dead_code)]
#[path = "../model/model.rs"]
mod model;
#[path = "../model/notation.rs"]
mod notation;
mod sheets;
#[path = "../model/tables.rs"]
mod tables;
#[path = "../model/whys.rs"]
mod whys;

use std::ops::Range;
use std::path::{Path, PathBuf};
use std::process::ExitCode;

use generate::{Generator, Random};
use library::{Reply, Row};
use model::sheets::Answer;
use notation::Texts;
use whys::Whys;

/// So many requests of a fixed seed show every number by themselves.
const GENERATED: usize = 20_000;
/// The run ends after so many failures.
const FAILURES: usize = 5;

// ---------------------------------------------------------------------------------------------
// What is due, and the comparison
// ---------------------------------------------------------------------------------------------

/// What the library must answer: the reply, and what the lent buffers hold before their zeros.
struct Due {
    reply: Reply,
    rows: Vec<Row>,
    text: Vec<u8>,
}

fn refused(number: usize, line: usize, field: usize) -> Due {
    let length = 0;
    Due {
        reply: Reply {
            number,
            line,
            field,
            length,
        },
        rows: Vec::new(),
        text: Vec::new(),
    }
}

/// By the model.
fn due(request: &[u8], row_count: usize, text_length: usize) -> Due {
    match model::judge_lent(request, row_count, text_length) {
        (
            model::Reply::Refused {
                number,
                line,
                field,
            },
            _,
        ) => refused(number as usize, line, field),
        (model::Reply::Text(text), rows) => Due {
            reply: Reply {
                number: 0,
                line: 0,
                field: 0,
                length: text.len(),
            },
            rows: rows.into_iter().map(Row::from).collect(),
            text: text.into_bytes(),
        },
    }
}

/// May this be a `makeall`?
fn asks_all(request: &[u8]) -> bool {
    let mut lines = request.split(|byte| *byte == b'\n');
    lines.any(|line| line.starts_with(b"makeall"))
}

/// The first place at which a buffer is not `due` with zeros past it.
fn first_wrong<T: PartialEq + Default>(due: &[T], buffer: &[T]) -> Option<usize> {
    if buffer.len() < due.len() {
        return Some(buffer.len());
    }
    let (held, past) = buffer.split_at(due.len());
    let zero = T::default();
    // Zeros all the way: the first is zero, and each is like the one before it.  This compares whole
    // slices, which is quick; the place is looked for only where there is one.
    let zeros = past.is_empty() || past[0] == zero && past[1..] == past[..past.len() - 1];
    if held == due && zeros {
        return None;
    }
    (0..buffer.len()).find(|place| buffer[*place] != *due.get(*place).unwrap_or(&zero))
}

/// What differs from what is due, if anything does.
fn difference(due: &Due, reply: &Reply, rows: &[Row], text: &[u8]) -> Option<String> {
    if *reply != due.reply {
        return Some(format!("reply: due {:?}, got {reply:?}", due.reply));
    }
    if let Some(place) = first_wrong(&due.text, text) {
        return Some(format!(
            "byte {place} of the text: got {:?}",
            text.get(place)
        ));
    }
    first_wrong(&due.rows, rows).map(|place| format!("row {place}: got {:?}", rows.get(place)))
}

// ---------------------------------------------------------------------------------------------
// The comparison itself can fail
// ---------------------------------------------------------------------------------------------

/// An answer as the buffers hold it.
#[derive(Clone)]
struct Held {
    reply: Reply,
    rows: Vec<Row>,
    text: Vec<u8>,
}

/// A right answer, and copies of it that are wrong in one place each, with the name of that place.
struct Altered<'r> {
    right: &'r Held,
    all: Vec<(&'static str, Held)>,
}

impl Altered<'_> {
    fn add(&mut self, name: &'static str, change: impl Fn(&mut Held)) {
        let mut held = self.right.clone();
        change(&mut held);
        self.all.push((name, held));
    }

    fn reply(&mut self) {
        self.add("number", |held| held.reply.number += 1);
        self.add("line", |held| held.reply.line += 1);
        self.add("field", |held| held.reply.field += 1);
        self.add("length", |held| held.reply.length += 1);
    }

    /// Something stands past so many bytes and so many rows.
    fn past(&mut self, bytes: usize, rows: usize) {
        self.add("the first byte past the text", |held| {
            held.text[bytes] = b'\n'
        });
        self.add("the last byte of the buffer", |held| {
            *held.text.last_mut().unwrap() = 1
        });
        self.add("a node past the rows", |held| held.rows[rows].node = 1);
        self.add("a branch past the rows", |held| held.rows[rows].branch = 1);
        self.add("the last rank of the buffer", |held| {
            held.rows.last_mut().unwrap().rank = 1
        });
    }

    /// In a text of so many bytes.
    fn text(&mut self, bytes: usize) {
        self.add("the first byte", |held| held.text[0] ^= 1);
        self.add("the last LF", |held| held.text[bytes - 1] = 0);
        self.add("a byte less", |held| held.reply.length -= 1);
        self.add("no text", |held| held.text.fill(0));
    }

    /// In rows from a first to a last.
    fn rows(&mut self, first: usize, last: usize) {
        self.add("a node", |held| held.rows[last].node += 1);
        self.add("a branch", |held| held.rows[first].branch += 1);
        self.add("a rank", |held| held.rows[first].rank += 1);
        self.add("the first place behind", |held| {
            held.rows[last + 1].rank = 1
        });
        self.add("no rows", |held| held.rows.fill(Row::default()));
        self.add("rows in another order", |held| held.rows.swap(first, last));
        self.add("the last row a place on", |held| {
            held.rows.swap(last, last + 1)
        });
    }
}

/// The ways in which an answer that is due may be wrong in one place.
fn altered(due: &Due, right: &Held) -> Vec<(&'static str, Held)> {
    let all = Vec::new();
    let mut altered = Altered { right, all };
    let (rows, bytes) = (due.rows.len(), due.text.len());
    altered.reply();
    altered.past(bytes, rows);
    if bytes > 0 {
        altered.text(bytes);
    }
    let mut places = (0..rows).filter(|place| due.rows[*place].rank > 0);
    if let (Some(first), Some(last)) = (places.next(), places.next_back()) {
        altered.rows(first, last);
    }
    altered.all
}

/// Right answers pass and altered ones don't; how many were tried.
fn comparison_can_fail(texts: &Texts) -> Result<usize, String> {
    let (t, m, d) = (texts.text("T")?, texts.text("M")?, texts.text("D")?);
    let row = "row,1,0,1\n";
    let requests = [
        format!("{t}make,0\n"),
        format!("{t}check,0\nrow,0,0,2\n{row}"),
        format!("{t}check,0\nrow,0,0,1\n{row}"),
        format!("{t}check,0\n{row}row,0,0,2\n"),
        format!("{t}play,x\nwait,499\nfire,0,1\nwait,1\nfire,0,1\n"),
        format!("{d}make,0\n"),
        format!("{t}makeall\n"),
        format!("{m}makeall\n"),
        format!("{d}makeall\n"),
        format!("{t}why,0\n"),
        format!("{m}why,0\n"),
        "bitml,2".to_string(),
    ];
    let mut tried = 0;
    for request in requests {
        let due = due(request.as_bytes(), library::ALL_ROWS, library::TEXT);
        let mut right = Held {
            reply: due.reply,
            rows: due.rows.clone(),
            text: due.text.clone(),
        };
        right.rows.resize(library::ALL_ROWS + 9, Row::default());
        right.text.resize(library::TEXT + 9, 0);
        if let Some(difference) = difference(&due, &right.reply, &right.rows, &right.text) {
            return Err(format!("a right answer fails: {difference}"));
        }
        for (name, wrong) in altered(&due, &right) {
            tried += 1;
            if difference(&due, &wrong.reply, &wrong.rows, &wrong.text).is_none() {
                return Err(format!("an altered answer passes: {name} of {request:?}"));
            }
        }
    }
    Ok(tried)
}

// ---------------------------------------------------------------------------------------------
// The lent memory
// ---------------------------------------------------------------------------------------------

/// The memory that every call lends parts of.
struct Memory {
    rows: Vec<Row>,
    text: Vec<u8>,
    // As it was before the call.
    rows_before: Vec<Row>,
    text_before: Vec<u8>,
}

/// The parts that one call lends.
#[derive(Clone, Debug)]
struct Parts {
    rows: Range<usize>,
    text: Range<usize>,
}

/// Is everything outside the lent part as it was?
fn kept_outside<T: PartialEq>(before: &[T], after: &[T], lent: &Range<usize>) -> bool {
    before[..lent.start] == after[..lent.start] && before[lent.end..] == after[lent.end..]
}

impl Memory {
    const ROWS: usize = library::ALL_ROWS + 200;
    const TEXT: usize = library::TEXT + 5_000;

    fn new() -> Memory {
        Memory {
            rows: vec![Row::default(); Memory::ROWS],
            text: vec![0; Memory::TEXT],
            rows_before: vec![Row::default(); Memory::ROWS],
            text_before: vec![0; Memory::TEXT],
        }
    }

    fn fill_with_garbage(&mut self, random: &mut Random) {
        for bytes in self.text.chunks_mut(8) {
            bytes.copy_from_slice(&random.next().to_le_bytes()[..bytes.len()]);
        }
        for row in &mut self.rows {
            *row = std::array::from_fn(|_| random.next()).into();
        }
    }

    /// Calls the library; an error if it wrote outside what it was lent.
    fn judge(&mut self, request: &[u8], parts: &Parts) -> Result<Reply, String> {
        self.rows_before.copy_from_slice(&self.rows);
        self.text_before.copy_from_slice(&self.text);
        let rows = &mut self.rows[parts.rows.clone()];
        let text = &mut self.text[parts.text.clone()];
        let reply = library::judge(request, rows, text);
        if !kept_outside(&self.rows_before, &self.rows, &parts.rows) {
            return Err("a row outside the lent ones was written".to_string());
        }
        if !kept_outside(&self.text_before, &self.text, &parts.text) {
            return Err("a byte outside the lent text was written".to_string());
        }
        Ok(reply)
    }
}

impl Parts {
    /// Parts of these lengths, somewhere in the memory.
    fn of(random: &mut Random, row_count: usize, text_length: usize) -> Parts {
        let first_row = random.below(Memory::ROWS - row_count + 1);
        let first_byte = random.below(Memory::TEXT - text_length + 1);
        Parts {
            rows: first_row..first_row + row_count,
            text: first_byte..first_byte + text_length,
        }
    }

    /// Long enough: most often just so, else longer than needed.  A `makeall` asks for more rows.
    fn enough(random: &mut Random, all: bool) -> Parts {
        let (most, every) = (Memory::ROWS, library::ALL_ROWS);
        let least = if all { every } else { library::ROWS };
        let some = random.between(least, most);
        let row_count = random.pick(&[least, least, least, least, every, some, some]);
        let mut text_length = library::TEXT;
        if random.chance(30) {
            text_length = random.between(library::TEXT, Memory::TEXT);
        }
        Parts::of(random, row_count, text_length)
    }

    /// Too few rows, too short a text, or both.
    fn short(random: &mut Random) -> Parts {
        let (mut row_count, mut text_length) = (library::ROWS, library::TEXT);
        let which = random.below(3);
        if which != 0 {
            let some = random.below(library::ROWS);
            row_count = random.pick(&[0, 1, library::ROWS - 1, some]);
        }
        if which != 1 {
            let some = random.below(library::TEXT);
            text_length = random.pick(&[0, 1, library::TEXT - 1, some]);
        }
        Parts::of(random, row_count, text_length)
    }

    /// Enough rows for any word but `makeall`.
    fn few(random: &mut Random) -> Parts {
        let (least, most) = (library::ROWS, library::ALL_ROWS - 1);
        let some = random.between(least, most);
        let row_count = random.pick(&[least, least + 1, 2 * least, most, some, some]);
        Parts::of(random, row_count, library::TEXT)
    }
}

// ---------------------------------------------------------------------------------------------
// The test
// ---------------------------------------------------------------------------------------------

/// The numbers by which requests and events are refused; 20 refuses a table.
fn numbers() -> impl Iterator<Item = usize> {
    (1..=19).chain([21])
}

/// What occurred.
#[derive(Default)]
struct Counts {
    calls: usize,
    short: usize,
    /// Too few rows for a `makeall` that was read, and more rows than another word asks for.
    few: usize,
    long: usize,
    garbage: usize,
    refused_requests: [usize; 22],
    refused_events: [usize; 22],
    made: usize,
    checked: usize,
    /// Rows of `make` given back in order and in another order.
    given_back: usize,
    disordered: usize,
    frozen: usize,
    /// Answers to `makeall`; those that are liquid for some and frozen for others.
    parties: usize,
    mixed: usize,
    whys: Whys,
    plays: usize,
    taken: usize,
    most_rows: usize,
    longest_text: usize,
}

impl Counts {
    /// Counts an answer by what the library gave back.
    fn add(&mut self, request: &[u8], parts: &Parts, reply: &Reply, text: &str) {
        let all = asks_all(request);
        self.calls += 1;
        self.longest_text = self.longest_text.max(text.len());
        let short = parts.rows.len() < library::ROWS || parts.text.len() < library::TEXT;
        self.short += usize::from(short);
        if reply.number != 0 {
            self.refused_requests[reply.number] += 1;
            let nowhere = reply.number == 7 && reply.line == 0;
            self.few += usize::from(nowhere && !short);
            return;
        }
        self.long += usize::from(!all && parts.rows.len() >= library::ALL_ROWS);
        if whys::asked(request).is_some() {
            return self.whys.add(text);
        }
        let mixed = text.contains("liquid,") && text.contains("frozen,");
        self.mixed += usize::from(mixed);
        self.parties += usize::from(all);
        let rows = text.lines().filter(|line| line.starts_with("row,")).count();
        self.most_rows = self.most_rows.max(rows);
        for line in text.lines() {
            let fields: Vec<&str> = line.split(',').collect();
            match fields[0] {
                "taken" => self.taken += 1,
                "refused" => self.refused_events[fields[1].parse().unwrap_or(0)] += 1,
                "liquid" if rows > 0 => self.made += 1,
                "liquid" => self.checked += 1,
                "frozen" => self.frozen += 1,
                "end" => self.plays += 1,
                _ => {}
            }
        }
    }

    fn times(&self, number: usize) -> usize {
        self.refused_requests[number] + self.refused_events[number]
    }

    /// What should have occurred and did not.
    fn missing(&self) -> Vec<String> {
        let mut missing: Vec<String> = numbers()
            .filter(|number| self.times(*number) == 0)
            .map(|number| format!("number {number}"))
            .collect();
        for (name, count) in [
            ("liquid by make", self.made),
            ("liquid by check", self.checked),
            ("rows given back", self.given_back),
            ("rows given back in another order", self.disordered),
            ("frozen", self.frozen),
            ("all parties", self.parties),
            ("some parties liquid", self.mixed),
            ("why", self.whys.answers),
            (
                "why of a liquid sheet",
                self.whys.answers - self.whys.frozen,
            ),
            ("a run of two steps", self.whys.runs),
            ("a play", self.plays),
            ("taken", self.taken),
            ("short buffers", self.short),
            ("too few rows for all parties", self.few),
            ("more rows than asked for", self.long),
            ("garbage", self.garbage),
        ] {
            if count == 0 {
                missing.push(name.to_string());
            }
        }
        missing
    }
}

struct Test {
    memory: Memory,
    /// For calls that are compared with others of the library.
    rows: Vec<Row>,
    text: Vec<u8>,
    random: Random,
    counts: Counts,
    failures: usize,
}

/// The library as a case of buffers calls it.
fn call(request: &[u8], places: &mut [model::Place], text: &mut [u8]) -> Answer {
    let mut rows: Vec<Row> = places.iter().copied().map(Row::from).collect();
    let reply = library::judge(request, &mut rows, text);
    for (place, row) in places.iter_mut().zip(rows) {
        *place = row.numbers();
    }
    sheets::answer(reply)
}

/// An answer as it stands in the report of a failure.
fn shown(reply: &Reply, text: &[u8]) -> String {
    let Reply {
        number,
        line,
        field,
        length,
    } = reply;
    format!("{number},{line},{field},{length} {}", text.escape_ascii())
}

/// The sheets NAME.txt of a folder with their paths.
fn sheets_of(folder: &Path) -> std::io::Result<Vec<(String, String)>> {
    let mut paths: Vec<PathBuf> = std::fs::read_dir(folder)?
        .filter_map(|entry| entry.ok().map(|entry| entry.path()))
        .filter(|path| path.extension().is_some_and(|extension| extension == "txt"))
        .collect();
    paths.sort();
    let read = |path: &PathBuf| Ok((path.display().to_string(), std::fs::read_to_string(path)?));
    paths.iter().map(read).collect()
}

/// The node of a line `row`.
fn node_of(row: &str) -> usize {
    let node = row.split(',').nth(1).and_then(|node| node.parse().ok());
    node.unwrap_or(usize::MAX)
}

/// The place of the first row whose node is below that of the row before it.
fn first_fall(rows: &[&str]) -> Option<usize> {
    (1..rows.len()).find(|place| node_of(rows[*place]) < node_of(rows[place - 1]))
}

impl Test {
    /// Prints the request and both answers.
    fn failed(&mut self, name: &str, what: &str, request: &[u8], due: &str, got: &str) {
        self.failures += 1;
        if self.failures <= FAILURES {
            println!("FAILED: {name}: {what}");
            println!(
                "  request ({} bytes): {}",
                request.len(),
                request.escape_ascii()
            );
            println!("  due: {due}");
            println!("  got: {got}");
        }
    }

    /// One call, compared with the model; what `judge` would print, if the two agree.
    fn call(&mut self, name: &str, request: &[u8], parts: &Parts) -> Option<String> {
        if self.random.chance(30) {
            self.memory.fill_with_garbage(&mut self.random);
            self.counts.garbage += 1;
        }
        let due = due(request, parts.rows.len(), parts.text.len());
        let answer = self.memory.judge(request, parts);
        let rows = &self.memory.rows[parts.rows.clone()];
        let text = &self.memory.text[parts.text.clone()];
        let (reply, wrong) = match answer {
            Ok(reply) => (reply, difference(&due, &reply, rows, text)),
            Err(what) => (Reply::default(), Some(what)),
        };
        if let Some(what) = wrong {
            let what = format!("lent {} rows and {} bytes: {what}", rows.len(), text.len());
            let got = shown(&reply, &text[..reply.length.min(text.len())]);
            self.failed(name, &what, request, &shown(&due.reply, &due.text), &got);
            return None;
        }
        let printed = String::from_utf8_lossy(&text[..reply.length]).to_string();
        self.counts.add(request, parts, &reply, &printed);
        if reply.number == 0 {
            return Some(printed);
        }
        // The line is written to memory of its own: the buffers are all zero after a refusal.
        let mut line = [b'?'; 80];
        let line = library::refused_line(&reply, &mut line);
        Some(String::from_utf8_lossy(line).to_string())
    }

    /// A request with buffers that are long enough; now and then short ones come first.
    fn request(&mut self, name: &str, request: &[u8]) -> Option<String> {
        if self.random.chance(5) {
            let parts = Parts::short(&mut self.random);
            self.call(name, request, &parts);
        }
        let all = asks_all(request);
        if all && self.random.chance(30) {
            let parts = Parts::few(&mut self.random);
            self.call(name, request, &parts);
        }
        let parts = Parts::enough(&mut self.random, all);
        let printed = self.call(name, request, &parts)?;
        if let Some(sheet) = request.strip_suffix(b"makeall\n") {
            self.one_by_one(name, sheet, &printed, &parts);
        }
        if let Some((sheet, participant)) = whys::asked(request) {
            self.as_made(name, sheet, participant, &printed);
        }
        Some(printed)
    }

    /// The first line that `why` printed is the last of the library's own answer to `make`, of a liquid
    /// sheet nothing follows it, and whatever the rows held they are zero.
    fn as_made(&mut self, name: &str, sheet: &[u8], participant: &[u8], printed: &str) {
        if printed.starts_with("refused") {
            return;
        }
        let why = [sheet, b"why,", participant, b"\n"].concat();
        let make = [sheet, b"make,", participant, b"\n"].concat();
        let reply = library::judge(&make, &mut self.rows, &mut self.text);
        let made = String::from_utf8_lossy(&self.text[..reply.length]).to_string();
        let last = made.lines().last().unwrap_or_default();
        let (first, rest) = printed.split_once('\n').unwrap_or_default();
        if first != last || !rest.is_empty() && first.starts_with("liquid") {
            self.failed(name, "the last line of `make`", &why, last, printed);
        }
        self.memory.fill_with_garbage(&mut self.random);
        let rows = &mut self.memory.rows;
        let _ = library::judge(&why, rows, &mut self.text);
        if rows.iter().any(|row| *row != Row::default()) {
            self.failed(name, "rows after `why`", &why, "zeros", printed);
        }
    }

    /// What `makeall` printed are the library's own answers to `make` for one participant after the other,
    /// and so are the rows that stand in the lent part.
    fn one_by_one(&mut self, name: &str, sheet: &[u8], printed: &str, parts: &Parts) {
        if printed.starts_with("refused") {
            return;
        }
        let participants = String::from_utf8_lossy(sheet);
        let participants = participants.split(',').nth(1).and_then(|k| k.parse().ok());
        let mut lines = Vec::new();
        for participant in 0..participants.unwrap_or(0) {
            let make = format!("make,{participant}\n");
            let request = [sheet, make.as_bytes()].concat();
            let reply = library::judge(&request, &mut self.rows, &mut self.text);
            lines.extend_from_slice(&self.text[..reply.length]);
            let first = parts.rows.start + library::ROWS * participant;
            if self.memory.rows[first..first + library::ROWS] != self.rows {
                let what = format!("other rows of participant {participant}");
                self.failed(name, &what, &request, "those of `make`", printed);
            }
        }
        if printed.as_bytes() != lines {
            let due = String::from_utf8_lossy(&lines).to_string();
            self.failed(name, "`make` one by one", sheet, &due, printed);
        }
    }

    /// A request whose answer is known by hand.
    fn known(&mut self, name: &str, request: &[u8], due: &str) {
        let printed = self.request(name, request);
        self.compare(name, request, due, printed);
    }

    fn compare(&mut self, name: &str, request: &[u8], due: &str, printed: Option<String>) {
        match printed {
            Some(printed) if printed != due => {
                self.failed(name, "the answer by hand", request, due, &printed)
            }
            _ => {}
        }
    }

    /// Requests and what is printed for them.
    fn cases(&mut self, folder: &Path) -> Result<usize, String> {
        let cases = cases::read(folder)?;
        for case in &cases {
            self.known(&case.name, &case.request, &case.due);
        }
        Ok(cases.len())
    }

    /// Lent buffers.
    fn buffers(&mut self, folder: &Path) -> Result<usize, String> {
        let cases = buffers::read(folder)?;
        for case in &cases {
            if let Some(fault) = case.fault(call) {
                self.failed(&case.name, &fault, &case.request, "by hand", "");
            }
            let parts = Parts::of(&mut self.random, case.places, case.bytes);
            self.call(&case.name, &case.request, &parts);
        }
        Ok(cases.len())
    }

    /// Each sheet NAME.txt of the folder has its verdicts by participant in NAME.expected.
    fn examples(&mut self, folder: &Path) -> std::io::Result<usize> {
        let sheets = sheets_of(folder)?;
        for (name, sheet) in &sheets {
            let expected = std::fs::read_to_string(Path::new(name).with_extension("expected"))?;
            for (participant, verdict) in expected.lines().enumerate() {
                let request = format!("{sheet}make,{participant}\n");
                if let Some(printed) = self.request(name, request.as_bytes()) {
                    self.rows_given_back(name, request.as_bytes(), &printed);
                    let last = printed.lines().last().map(str::to_string);
                    self.compare(name, request.as_bytes(), verdict, last);
                }
                let request = format!("{sheet}why,{participant}\n");
                let printed = self.request(name, request.as_bytes());
                let first = printed.and_then(|lines| lines.lines().next().map(str::to_string));
                self.compare(name, request.as_bytes(), verdict, first);
            }
            // All of them at once.
            let request = format!("{sheet}makeall\n");
            let printed = self.request(name, request.as_bytes());
            let last = printed.map(|lines| {
                let lines = lines.split_inclusive('\n');
                lines.filter(|line| !line.starts_with("row,")).collect()
            });
            self.compare(name, request.as_bytes(), &expected, last);
            // One participant more than there are verdicts.
            let line = sheet.lines().count() + 1;
            for word in ["make", "why"] {
                let request = format!("{sheet}{word},{}\n", expected.lines().count());
                self.known(name, request.as_bytes(), &format!("refused,6,{line},2\n"));
            }
        }
        Ok(sheets.len())
    }

    /// The rows that `make` printed, if it did, are accepted by `check`, with the same last line and the
    /// same row buffer.  In another order they are refused, and sorted by node they are the same bytes.
    fn rows_given_back(&mut self, name: &str, request: &[u8], printed: &str) {
        let text = String::from_utf8_lossy(request);
        let mut rows: Vec<&str> = printed.split_inclusive('\n').collect();
        let verdict = rows.pop().unwrap_or_default();
        let Some((sheet, participant)) = text.trim_end().rsplit_once("make,") else {
            return;
        };
        if rows.is_empty() {
            return;
        }
        let head = format!("{sheet}check,{participant}\n");
        let check = head.clone() + &rows.concat();
        let name = format!("{name}, rows given back");
        self.counts.given_back += 1;
        self.known(&name, check.as_bytes(), verdict);
        // The row buffers of the library's two answers, without the model.
        let _ = library::judge(request, &mut self.rows, &mut self.text);
        let made = self.rows.clone();
        let _ = library::judge(check.as_bytes(), &mut self.rows, &mut self.text);
        if self.rows != made {
            self.failed(&name, "other rows", check.as_bytes(), "those of `make`", "");
        }
        let due = rows.concat();
        self.random.shuffle(&mut rows);
        if let Some(place) = first_fall(&rows) {
            self.counts.disordered += 1;
            let line = head.lines().count() + 1 + place;
            let other = head + &rows.concat();
            self.known(&name, other.as_bytes(), &format!("refused,21,{line},0\n"));
        }
        rows.sort_by_key(|row| node_of(row));
        if rows.concat() != due {
            self.failed(&name, "sorted", request, &due, &rows.concat());
        }
    }

    fn generated(&mut self, seed: u64, count: usize) {
        for (index, request) in Generator::new(seed).take(count).enumerate() {
            let name = format!("request {index} of seed {seed}");
            if let Some(printed) = self.request(&name, &request) {
                self.rows_given_back(&name, &request, &printed);
            }
            if self.failures >= FAILURES {
                println!("stopped after {} requests", index + 1);
                return;
            }
        }
    }

    fn report(&self) {
        let counts = &self.counts;
        for number in numbers() {
            let requests = counts.refused_requests[number];
            let events = counts.refused_events[number];
            println!("  {number:2}: {requests:6} requests {events:7} events");
        }
        println!(
            "  liquid by make {}, by check {}, frozen {}, plays {}, taken {}",
            counts.made, counts.checked, counts.frozen, counts.plays, counts.taken
        );
        println!(
            "  rows of make given back {}, in another order {}",
            counts.given_back, counts.disordered
        );
        println!(
            "  all parties {}, some of them liquid {}, too few rows for them {}",
            counts.parties, counts.mixed, counts.few
        );
        println!("  {}", counts.whys);
        println!(
            "  {} calls, {} with short buffers, {} with long ones, {} after garbage; most rows {}, longest text {}",
            counts.calls, counts.short, counts.long, counts.garbage, counts.most_rows, counts.longest_text
        );
    }
}

fn run(seed: u64, count: usize, folder: &Path, by_hand: &Path) -> Result<usize, String> {
    let tried = comparison_can_fail(&cases::texts(by_hand)?)?;
    println!("{tried} altered answers were noticed");
    let mut test = Test {
        memory: Memory::new(),
        rows: vec![Row::default(); library::ROWS],
        text: vec![0; library::TEXT],
        random: Random::new(seed),
        counts: Counts::default(),
        failures: 0,
    };
    let cases = test.cases(by_hand)? + test.buffers(by_hand)?;
    let examples = test
        .examples(folder)
        .map_err(|error| format!("{}: {error}", folder.display()))?;
    if examples == 0 {
        return Err(format!("no examples in {}", folder.display()));
    }
    println!("{cases} cases, {examples} examples");
    let mut missing = test.counts.missing();
    // The generated requests must show every number by themselves where there are enough of them.
    let before = std::mem::take(&mut test.counts);
    test.generated(seed, count);
    println!("{count} generated requests of seed {seed}:");
    test.report();
    if count >= GENERATED {
        missing.extend(test.counts.missing());
    }
    if test.failures > 0 {
        return Err(format!("{} failed", test.failures));
    }
    if !missing.is_empty() {
        return Err(format!("never met: {}", missing.join(", ")));
    }
    let sheets = count * sheets::SHEETS / GENERATED;
    let tables = sheets::run(seed, sheets, folder, by_hand)?;
    Ok(before.calls + test.counts.calls + tables + lines::run()?)
}

fn main() -> ExitCode {
    let arguments: Vec<String> = std::env::args().skip(1).collect();
    let number = |place: usize, default: u64| match arguments.get(place) {
        Some(text) => text.parse(),
        None => Ok(default),
    };
    let (Ok(seed), Ok(count)) = (number(0, 1), number(1, GENERATED as u64)) else {
        eprintln!("entry [SEED COUNT [EXAMPLES [CASES]]]");
        return ExitCode::FAILURE;
    };
    let folder = arguments.get(2).map_or("examples", String::as_str);
    let by_hand = arguments.get(3).map_or(cases::FOLDER, String::as_str);
    match run(seed, count as usize, Path::new(folder), Path::new(by_hand)) {
        Ok(calls) => {
            println!("{calls} calls compared, 0 failed");
            ExitCode::SUCCESS
        }
        Err(what) => {
            println!("the entry test failed: {what}");
            ExitCode::FAILURE
        }
    }
}
