//! Sheets as tables: the library's two functions against the model, every reply, cell and byte.
//!
//! The same memory is lent for every call, at places that change, and holds garbage or what the last call
//! left.  The model runs on a copy of it, so that everything outside what is lent must stay too.

use std::ops::Range;
use std::path::Path;

use crate::generate::{Generator, Random};
use crate::library::{self, CELLS};
use crate::model::sheets::{self, Answer, COUNTS, HEADER_CELLS, NO_BRANCH};
use crate::{model, tables};

/// So many texts of a fixed seed show every number.
pub const SHEETS: usize = 2_000;

/// The most that each number of the header may be.
const COUNTED: [usize; COUNTS] = [
    model::PARTICIPANTS as usize,
    model::DEFINITIONS as usize,
    model::NODES,
    model::BRANCHES,
    sheets::LISTED,
    sheets::CONDITIONS,
];

/// The ends of the ranges and of the sections.
const MOST: [usize; 16] = [
    model::SECRETS as usize,
    model::PARTICIPANTS as usize,
    model::DEFINITIONS as usize,
    model::CONDITION_FIELDS,
    model::NODES,
    model::WEIGHT as usize,
    model::BRANCHES,
    sheets::LISTED,
    sheets::CONDITIONS,
    (1 << model::PARTICIPANTS) - 1,
    model::VALUE as usize,
    model::TIME as usize,
    model::SATOSHI as usize,
    1 << 32,
    1 << 63,
    usize::MAX,
];

/// Memory that calls lend parts of, and the model's copy.
struct Memory<T> {
    library: Vec<T>,
    model: Vec<T>,
}

impl<T: Copy + PartialEq> Memory<T> {
    fn new(length: usize, garbage: T) -> Memory<T> {
        Memory {
            library: vec![garbage; length],
            model: vec![garbage; length],
        }
    }

    fn fill(&mut self, garbage: impl FnMut() -> T) {
        self.library.fill_with(garbage);
        self.model.copy_from_slice(&self.library);
    }

    /// A part of this length, somewhere.
    fn part(&self, random: &mut Random, length: usize) -> Range<usize> {
        let first = random.below(self.library.len() - length + 1);
        first..first + length
    }

    /// The first place in which the two differ.
    fn difference(&self) -> Option<usize> {
        if self.library == self.model {
            return None;
        }
        let mut pairs = self.library.iter().zip(&self.model);
        pairs.position(|(one, other)| one != other)
    }
}

/// What occurred.
#[derive(Default)]
struct Counts {
    calls: usize,
    /// By number, 0 for what was read or written.
    read: [usize; 21],
    written: [usize; 21],
    longest: usize,
}

pub struct Test {
    random: Random,
    cells: Memory<usize>,
    text: Memory<u8>,
    counts: Counts,
    failed: Vec<String>,
}

/// A text or a table as it stands in the report of a failure.
fn shown(text: &[u8]) -> String {
    let most = text.len().min(1_000);
    format!("{} bytes: {}", text.len(), text[..most].escape_ascii())
}

/// A difference in any one place is noticed.
fn comparison_can_fail() -> Result<(), String> {
    let mut memory = Memory::new(CELLS, 7);
    for place in [0, 1, CELLS / 2, CELLS - 1] {
        memory.library[place] = 8;
        if memory.difference() != Some(place) {
            return Err(format!("an altered cell passes: {place}"));
        }
        memory.library[place] = 7;
    }
    match memory.difference() {
        None => Ok(()),
        Some(place) => Err(format!("a right cell fails: {place}")),
    }
}

pub fn answer(reply: library::Reply) -> Answer {
    Answer {
        number: reply.number,
        line: reply.line,
        field: reply.field,
        length: reply.length,
    }
}

fn read_sheet(text: &[u8], cells: &mut [usize]) -> Answer {
    answer(library::read_sheet(text, cells))
}

fn write_sheet(cells: &[usize], text: &mut [u8]) -> Answer {
    answer(library::write_sheet(cells, text))
}

impl Test {
    pub fn new(seed: u64) -> Test {
        Test {
            random: Random::new(seed),
            cells: Memory::new(CELLS + 1_000, usize::MAX),
            text: Memory::new(model::SHEET_BYTES + 1_000, b'?'),
            counts: Counts::default(),
            failed: Vec::new(),
        }
    }

    /// Reads a text into so many cells; what the table then holds.
    fn read(&mut self, name: &str, text: &[u8], cell_count: usize) -> (Answer, Vec<usize>) {
        let random = &mut self.random;
        if random.chance(10) {
            self.cells.fill(|| random.next() as usize);
        }
        let part = self.cells.part(random, cell_count);
        let due = sheets::read_sheet(text, &mut self.cells.model[part.clone()]);
        let got = read_sheet(text, &mut self.cells.library[part.clone()]);
        self.counts.calls += 1;
        self.counts.read[due.number] += 1;
        if got != due {
            let text = shown(text);
            let what = format!("{name}, {cell_count} cells: due {due:?}, got {got:?}; {text}");
            self.failed.push(what);
        }
        if let Some(place) = self.cells.difference() {
            let first = part.start as isize;
            let (got, due) = (self.cells.library[place], self.cells.model[place]);
            let text = shown(text);
            self.failed.push(format!(
                "{name}, {cell_count} cells: cell {} is {got}, due {due}; {text}",
                place as isize - first
            ));
            self.cells.fill(|| 0);
        }
        (due, self.cells.model[part].to_vec())
    }

    /// Writes a table to so many bytes.
    fn write(&mut self, name: &str, cells: &[usize], length: usize) -> Answer {
        let random = &mut self.random;
        if random.chance(10) {
            self.text.fill(|| random.next() as u8);
        }
        let part = self.text.part(random, length);
        let due = sheets::write_sheet(cells, &mut self.text.model[part.clone()]);
        let got = write_sheet(cells, &mut self.text.library[part.clone()]);
        self.counts.calls += 1;
        self.counts.written[due.number] += 1;
        self.counts.longest = self.counts.longest.max(due.length);
        if got != due {
            self.failed.push(format!(
                "{name}, {length} bytes: due {due:?}, got {got:?}; header {:?}",
                cells.get(..COUNTS)
            ));
        }
        if let Some(place) = self.text.difference() {
            let first = part.start as isize;
            self.failed.push(format!(
                "{name}, {length} bytes: byte {} is another",
                place as isize - first
            ));
            self.text.fill(|| b'?');
        }
        due
    }

    /// A table that some text reads to, written to buffers just long enough, one byte short, and of other lengths.
    fn back(&mut self, name: &str, text: &[u8], table: &[usize]) {
        let length = text.len();
        let short = self.random.below(length);
        let long = self.random.between(length, self.text.library.len());
        for room in [length, length - 1, length + 1, 0, short, long] {
            let due = if room < length { 20 } else { 0 };
            if self.write(name, table, room).number != due {
                self.failed
                    .push(format!("{name}: the model has another answer than {due}"));
            }
        }
    }

    /// A text both ways: now and then also with a short table and with something behind it.
    fn both_ways(&mut self, name: &str, text: &[u8]) {
        let short = self.random.below(CELLS);
        let short = self.random.pick(&[0, 1, CELLS - 1, short]);
        let long = self.random.between(CELLS, self.cells.library.len());
        let few = self.random.chance(10);
        if few {
            self.read(name, text, short);
        }
        let count = self.random.pick(&[CELLS, CELLS, long]);
        let (answer, table) = self.read(name, text, count);
        if answer.number != 0 {
            // Zeros are no sheet.
            self.write(name, &table, 100);
            return;
        }
        self.back(name, text, &table);
        if few {
            let room = length_of(&mut self.random, text);
            self.write(name, &table[..short], room);
            self.more_behind(name, text);
        }
        if self.random.chance(20) {
            self.garbage_past_the_counts(name, text, &table);
        }
        self.changed_cells(name, text, table);
    }

    /// The same text with something behind it.
    fn more_behind(&mut self, name: &str, text: &[u8]) {
        let behind: &[&[u8]] = &[b"\n", b"x", b",", b"make,0\n", b"def,1,0,c,0\n", text];
        let more = [text, self.random.pick(behind)].concat();
        self.read(name, &more, CELLS);
    }

    /// What stands past the counts of a table is not looked at.
    fn garbage_past_the_counts(&mut self, name: &str, text: &[u8], table: &[usize]) {
        let garbage = table.iter().map(|_| self.random.next() as usize);
        let mut marked: Vec<usize> = garbage.collect();
        for section in sheets::held(table) {
            marked[section.clone()].copy_from_slice(&table[section]);
        }
        self.back(name, text, &marked);
    }

    /// Tables with other numbers in a few cells, most of which are no sheet.
    fn changed_cells(&mut self, name: &str, text: &[u8], mut table: Vec<usize>) {
        for _ in 0..4 {
            let room = length_of(&mut self.random, text);
            let changes = self.random.pick(&[1, 1, 1, 2, 3]);
            let places: Vec<usize> = (0..changes).map(|_| self.held_place(&table)).collect();
            let old: Vec<usize> = places.iter().map(|place| table[*place]).collect();
            for place in &places {
                table[*place] = self.other(*place, table[*place]);
            }
            self.write(name, &table, room);
            for (place, old) in places.iter().zip(&old).rev() {
                table[*place] = *old;
            }
        }
    }

    /// A cell of the held part, each section as likely as another.
    fn held_place(&mut self, table: &[usize]) -> usize {
        let held = sheets::held(table);
        loop {
            let section = &held[self.random.below(held.len())];
            if !section.is_empty() {
                return self.random.between(section.start, section.end - 1);
            }
        }
    }

    /// Another number for a cell: near the old one, small, at the end of some range, or any.
    fn other(&mut self, place: usize, old: usize) -> usize {
        let far = self.random.pick(&MOST).wrapping_add(self.random.below(2));
        let any = self.random.next() as usize;
        let small = self.random.below(20);
        let near = [old.wrapping_add(1), old.wrapping_sub(1), old ^ 2];
        let near = self.random.pick(&near);
        let bound = if place < COUNTS { 40_000 } else { 2_000 };
        let some = self.random.below(bound);
        self.random
            .pick(&[near, near, near, small, small, far, some, any])
    }

    /// Every cell that a small sheet holds, with several numbers in its place.
    fn every_cell(&mut self, name: &str, text: &[u8]) {
        let (answer, mut table) = self.read(name, text, CELLS);
        if answer.number != 0 {
            self.failed.push(format!("{name} is not read"));
            return;
        }
        let held = sheets::held(&table);
        for place in held.into_iter().flatten() {
            let old = table[place];
            let near = [old.wrapping_sub(1), old + 1, old + 2, old ^ 8];
            let far = [(); 4].map(|_| self.random.pick(&MOST));
            for number in near.into_iter().chain(0..6).chain(far) {
                table[place] = number;
                let room = self.random.pick(&[text.len(), text.len() + 30, 0]);
                self.write(name, &table, room);
            }
            table[place] = old;
        }
        // The header's last two cells, and the first behind each section.
        let behind = sheets::held(&table).map(|section| section.end);
        for place in behind.into_iter().chain([HEADER_CELLS - 1]) {
            let old = table[place];
            table[place] = self.random.next() as usize;
            self.back(name, text, &table);
            table[place] = old;
        }
    }

    /// Tables of random numbers: any, small, or with a header in its ranges.
    fn nonsense(&mut self) {
        let bounds = [1, 2, 3, 5, 17, NO_BRANCH + 1, usize::MAX];
        let bound = self.random.pick(&bounds);
        let length = self.random.pick(&[CELLS, CELLS + 10, CELLS - 1, 20_000]);
        let mut table: Vec<usize> = (0..length).map(|_| self.random.below(bound)).collect();
        if self.random.chance(70) {
            for (place, most) in COUNTED.into_iter().enumerate() {
                let past = self.random.pick(&[most + 1, 2 * most, usize::MAX]);
                let within = self.random.below(most + 1);
                table[place] = self.random.pick(&[within, within, within, most, past]);
            }
        }
        let room = self.random.pick(&[0, 100, model::SHEET_BYTES]);
        self.write("random cells", &table, room);
    }

    /// Texts that are too long for any request, and just not.
    fn too_long(&mut self) {
        let text = vec![b'a'; model::REQUEST_BYTES + 1];
        for cells in [0, CELLS - 1, CELLS] {
            self.read("65,537 bytes", &text, cells);
            self.read("65,536 bytes", &text[1..], cells);
        }
    }

    /// So many sheets of a seed, and as many tables that are none.
    fn generated(&mut self, seed: u64, count: usize) {
        let mut generator = Generator::new(seed);
        for index in 0..count {
            let text = generator.sheet_text();
            self.both_ways(&format!("sheet {index} of seed {seed}"), &text);
            self.nonsense();
            if self.failed.len() >= crate::FAILURES {
                return;
            }
        }
    }

    fn cases(&mut self, folder: &Path) -> Result<usize, String> {
        let cases = tables::read(folder)?;
        for case in &cases {
            self.counts.calls += 1;
            if let Some(fault) = case.fault(read_sheet, write_sheet) {
                self.failed.push(format!("{}: {fault}", case.name));
            }
        }
        Ok(cases.len())
    }

    fn report(&self, cases: usize) {
        let Counts {
            calls,
            read,
            written,
            longest,
        } = &self.counts;
        println!(
            "tables: {cases} cases, {calls} calls; read {}, written {}, longest text {longest}",
            read[0], written[0]
        );
        println!(
            "  refused by number, reading {:?}, writing {:?}",
            &read[1..10],
            [written[3], written[20]]
        );
    }

    /// What should have occurred and did not.
    fn missing(&self) -> Vec<String> {
        let read = [0, 1, 2, 3, 4, 5, 6, 7, 8, 9]
            .map(|number| ("reading", number, self.counts.read[number]));
        let written = [0, 3, 20].map(|number| ("writing", number, self.counts.written[number]));
        let all = read.into_iter().chain(written);
        let never = all.filter(|(_, _, count)| *count == 0);
        never
            .map(|(what, number, _)| format!("{what}: {number}"))
            .collect()
    }
}

/// A buffer's length: about that of the text, nothing, or as long as a text may be.
fn length_of(random: &mut Random, text: &[u8]) -> usize {
    let length = text.len();
    random.pick(&[length, length, length + 20, 0, model::SHEET_BYTES])
}

/// So many sheets of a seed, the examples and the cases; how many calls were compared.
pub fn run(seed: u64, count: usize, folder: &Path, by_hand: &Path) -> Result<usize, String> {
    comparison_can_fail()?;
    let mut test = Test::new(seed);
    let cases = test.cases(by_hand)?;
    test.too_long();
    for (name, sheet) in crate::sheets_of(folder).map_err(|error| error.to_string())? {
        test.every_cell(&name, sheet.as_bytes());
    }
    test.generated(seed, count);
    for failure in test.failed.iter().take(crate::FAILURES) {
        println!("FAILED: {failure}");
    }
    if !test.failed.is_empty() {
        return Err(format!("tables: {} failed", test.failed.len()));
    }
    test.report(cases);
    let missing = test.missing();
    if count >= SHEETS && !missing.is_empty() {
        return Err(format!("never met: {}", missing.join(", ")));
    }
    Ok(test.counts.calls)
}
