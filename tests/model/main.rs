//! The model of document 01 as a program, and its self-test.
//!
//! ```text
//! rustc -O --edition 2021 main.rs -o model
//! ./model selftest [EXAMPLES [CASES]]   the self-test; EXAMPLES is a folder of sheets and verdicts
//! ./model judge < REQUEST               prints what the program `judge` prints
//! ./model wrong [CASES]                 do the cases pin the rules? (only with --cfg wrong_rules)
//! ```
//!
//! CASES is the folder of the cases, tests/cases if not given: requests (cases.rs), sheets as tables
//! (tables.rs) and lent buffers (buffers.rs), all in the notation that notation.rs reads.

mod buffers;
mod cases;
#[path = "gen.rs"]
mod generate;
mod model;
mod notation;
mod occurring;
#[cfg(wrong_rules)]
mod pins;
mod properties;
mod spoilt;
mod tables;
mod whys;

use std::collections::HashMap;
use std::error::Error;
use std::io::{Read, Write};
use std::path::{Path, PathBuf};
use std::process::ExitCode;
use std::time::{Duration, Instant};

use cases::Case;
use model::sheets::{read_sheet, write_sheet};
use model::{Action, Condition, Few, LastPart, Place, Reply, Row, Sheet, Term};

/// Counts the checks and keeps those that failed.
#[derive(Default)]
struct Checks {
    run: usize,
    failed: Vec<String>,
    /// The longest time that a case took, and its name.
    slowest: (Duration, String),
}

/// A model that takes the square of a request would need seconds for the longest; the wide margin, and a
/// second look, keep a busy machine out of the verdict.
const SLOW: Duration = Duration::from_millis(200);

/// The model's answer, the rows, and the least time of those that it took.
fn timed(request: &[u8]) -> (Reply, Vec<Place>, Duration) {
    let start = Instant::now();
    let (reply, rows) = model::judge(request);
    let mut least = start.elapsed();
    for _ in 0..10 {
        if least < SLOW {
            break;
        }
        let start = Instant::now();
        let _ = model::judge(request);
        least = least.min(start.elapsed());
    }
    (reply, rows, least)
}

impl Checks {
    fn expect(&mut self, Case { name, request, due }: &Case) {
        self.run += 1;
        let (reply, rows, time) = timed(request);
        if time > self.slowest.0 {
            self.slowest = (time, name.clone());
        }
        let printed = reply.printed();
        if printed != *due {
            let shown = request[..request.len().min(300)].escape_ascii();
            self.failed.push(format!(
                "{name}\n  request {shown}\n  due {due:?}\n  got {printed:?}"
            ));
        }
        // The row buffer is zero unless the sheet was found liquid by a word other than `why`.
        let liquid = printed.contains("liquid,") && whys::asked(request).is_none();
        if rows.iter().any(|row| *row != Place::default()) != liquid {
            self.failed
                .push(format!("{name}: row buffer {rows:?} with {printed:?}"));
        }
    }

    fn holds(&mut self, name: &str, condition: bool) {
        self.run += 1;
        if !condition {
            self.failed.push(name.to_string());
        }
    }

    /// The same failure may occur many times over; each kind is shown once.
    fn print(&self) {
        let mut shown: HashMap<&str, usize> = HashMap::new();
        for failure in &self.failed {
            *shown.entry(failure).or_default() += 1;
        }
        for (failure, times) in &shown {
            println!("FAILED ({times}): {failure}");
        }
        println!("{} tests, {} failed", self.run, self.failed.len());
    }
}

// ---------------------------------------------------------------------------------------------
// What the reader makes of a text, which no answer shows whole
// ---------------------------------------------------------------------------------------------

/// T as read.
fn sheet_as_read(checks: &mut Checks, t: &str) {
    let Ok(request) = model::read(format!("{t}check,1\nrow,0,1,3\n").as_bytes()) else {
        checks.holds("T is read", false);
        return;
    };
    let Sheet {
        participants,
        nodes,
        definitions,
        ..
    } = &request.sheet;
    checks.holds("line of check", request.line == 3);
    checks.holds("participants", *participants == 2);
    checks.holds("deposits", request.sheet.deposits(0) == [100, 0]);
    let first = &definitions[0];
    checks.holds("owners", *first.owners == [0] && first.root == 0);
    checks.holds("depths", nodes[0].depth == 1 && nodes[1].depth == 2);
    branches_as_read(checks, &request.sheet);
    let (node, branch, rank) = (0, 1, 3);
    let due = LastPart::Check {
        participant: 1,
        rows: vec![Row { node, branch, rank }],
    };
    checks.holds("rows", request.part == due);
}

/// The two branches of T's first node.
fn branches_as_read(checks: &mut Checks, sheet: &Sheet) {
    let branches = sheet.branches(0);
    let revealed = match branches[0].action {
        Action::Reveal {
            secrets,
            condition,
            next,
        } => Some((secrets, sheet.condition(condition), next)),
        _ => None,
    };
    let due = (Few::from(&[0][..]), Condition(&[Term::True]), 1);
    checks.holds("branch 0", revealed == Some(due));
    let pays = branches[1].action == Action::Withdraw { to: 1 };
    checks.holds("branch 1", branches[1].opens == 500 && pays);
}

/// A condition of several operators, one in the other.
fn condition_as_read(checks: &mut Checks) {
    let nested =
        "bitml,1,1\ndef,1,1,0,c,1,0,0,r,1,0,and,not,t,lt,add,v,0,k,1,sub,k,2,v,0,c,0\nmake,0\n";
    let condition = model::read(nested.as_bytes()).ok().and_then(|request| {
        match request.sheet.branches(0)[0].action {
            Action::Reveal { condition, .. } => Some(request.sheet.condition(condition).0.to_vec()),
            _ => None,
        }
    });
    let (v, k) = (Term::Secret, Term::Constant);
    let due = [
        &[Term::And][..],
        &[Term::Not, Term::True],
        &[Term::Less],
        &[Term::Add, v(0), k(1)],
        &[Term::Subtract, k(2), v(0)],
    ];
    checks.holds("nested condition", condition == Some(due.concat()));
}

// ---------------------------------------------------------------------------------------------
// Examples
// ---------------------------------------------------------------------------------------------

/// The last line of `make` for each participant of a sheet.
fn verdicts(sheet: &[u8]) -> Vec<String> {
    let make = |participant: usize| {
        let mut request = sheet.to_vec();
        if request.last() != Some(&b'\n') {
            request.push(b'\n');
        }
        request.extend_from_slice(format!("make,{participant}\n").as_bytes());
        request
    };
    let participants = match model::read(&make(0)) {
        Ok(request) => request.sheet.participants,
        Err(refusal) => return vec![Reply::from(refusal).printed().trim_end().to_string()],
    };
    (0..participants)
        .map(|participant| {
            let (reply, _) = model::judge(&make(participant));
            reply.printed().lines().last().unwrap_or("").to_string()
        })
        .collect()
}

/// The files of a folder with this extension, in order; none if there is no such folder.
fn files(folder: &Path, extension: &str) -> Vec<PathBuf> {
    let entries = std::fs::read_dir(folder).into_iter().flatten();
    let mut files: Vec<PathBuf> = entries
        .filter_map(|entry| entry.ok().map(|entry| entry.path()))
        .filter(|path| path.extension().is_some_and(|found| found == extension))
        .collect();
    files.sort();
    files
}

/// The verdicts on the sheet NAME.txt are those of NAME.expected, and the same for all parties at once.
fn example(checks: &mut Checks, path: &Path) {
    let name = path.file_stem().unwrap_or_default().to_string_lossy();
    let expected = std::fs::read_to_string(path.with_extension("expected"));
    let (Ok(sheet), Ok(expected)) = (std::fs::read(path), expected) else {
        checks.holds(&format!("example {name} and its verdicts are read"), false);
        return;
    };
    let found = verdicts(&sheet);
    let all = [&sheet[..], b"makeall\n"].concat();
    let all = model::judge(&all).0.printed();
    let all = all.lines().filter(|line| !line.starts_with("row,"));
    checks.holds(&format!("all parties of example {name}"), all.eq(&found));
    let agree = expected.lines().eq(&found);
    checks.holds(&format!("example {name}"), agree);
    let note = if agree {
        "as expected"
    } else {
        "NOT AS EXPECTED"
    };
    println!("  {name}: {}  {note}", found.join("  "));
}

/// The examples of a folder: there are some, and no verdicts without their sheet.  What a tool NAME.c must
/// print stands in NAME.expected too.
fn examples(checks: &mut Checks, folder: &Path) {
    println!("examples in {}:", folder.display());
    let sheets = files(folder, "txt");
    let some = format!("there are examples in {}", folder.display());
    checks.holds(&some, !sheets.is_empty());
    for sheet in sheets {
        example(checks, &sheet);
    }
    for expected in files(folder, "expected") {
        let beside = |extension: &str| expected.with_extension(extension).exists();
        let name = format!("{} stands by its sheet or tool", expected.display());
        checks.holds(&name, beside("txt") || beside("c"));
    }
}

// ---------------------------------------------------------------------------------------------
// The program
// ---------------------------------------------------------------------------------------------

/// All cases of a folder.
fn by_hand(checks: &mut Checks, folder: &Path) -> Result<(), String> {
    for case in cases::read(folder)? {
        checks.expect(&case);
    }
    for case in tables::read(folder)? {
        let fault = case.fault(read_sheet, write_sheet).unwrap_or_default();
        checks.holds(&format!("{}: {fault}", case.name), fault.is_empty());
    }
    for case in buffers::read(folder)? {
        let fault = case.fault(model::call).unwrap_or_default();
        checks.holds(&format!("{}: {fault}", case.name), fault.is_empty());
    }
    let (time, name) = checks.slowest.clone();
    println!(
        "cases: {} run, {} failed; slowest {time:?}, {name}",
        checks.run,
        checks.failed.len()
    );
    checks.holds(&format!("{name} is slow"), time < SLOW);
    sheet_as_read(checks, &cases::texts(folder)?.text("T")?);
    condition_as_read(checks);
    Ok(())
}

fn selftest(folder: &Path, by_hand_in: &Path) -> Result<bool, String> {
    let mut checks = Checks::default();
    for (spoilt, refused) in spoilt::notation() {
        checks.holds(&format!("notation: {spoilt}"), refused);
    }
    by_hand(&mut checks, by_hand_in)?;
    properties::properties(&mut checks, 2, 3_000);
    properties::reasons(&mut checks, 4, 3_000);
    properties::both_ways(&mut checks, 3, 2_000);
    examples(&mut checks, folder);
    occurring::test(&mut checks, 1, 20_000);
    checks.print();
    Ok(checks.failed.is_empty())
}

#[cfg(wrong_rules)]
fn wrong(folder: &Path) -> Result<bool, String> {
    let requests = cases::read(folder)?;
    let (tables, buffers) = (tables::read(folder)?, buffers::read(folder)?);
    Ok(pins::test(requests, &tables, &buffers))
}

/// Answers the request on the standard input.  One byte past the longest tells that it is too long.
fn judge() -> std::io::Result<()> {
    let mut request = Vec::new();
    let most = model::REQUEST_BYTES as u64 + 1;
    std::io::stdin().take(most).read_to_end(&mut request)?;
    let (reply, _) = model::judge(&request);
    std::io::stdout().write_all(reply.printed().as_bytes())
}

/// Does what the words ask for; whether all is well.
fn run(words: &[&str]) -> Result<bool, Box<dyn Error>> {
    match words {
        ["selftest", rest @ ..] if rest.len() <= 2 => {
            let examples = rest.first().unwrap_or(&"examples");
            let folder = rest.get(1).unwrap_or(&cases::FOLDER);
            Ok(selftest(Path::new(examples), Path::new(folder))?)
        }
        #[cfg(wrong_rules)]
        ["wrong", rest @ ..] if rest.len() <= 1 => {
            let folder = rest.first().unwrap_or(&cases::FOLDER);
            Ok(wrong(Path::new(folder))?)
        }
        ["judge"] => {
            judge()?;
            Ok(true)
        }
        _ => Err("model selftest [EXAMPLES [CASES]] | judge | wrong [CASES]".into()),
    }
}

fn main() -> ExitCode {
    let arguments: Vec<String> = std::env::args().skip(1).collect();
    let words: Vec<&str> = arguments.iter().map(String::as_str).collect();
    match run(&words) {
        Ok(true) => ExitCode::SUCCESS,
        Ok(false) => ExitCode::FAILURE,
        Err(error) => {
            eprintln!("{error}");
            ExitCode::FAILURE
        }
    }
}
