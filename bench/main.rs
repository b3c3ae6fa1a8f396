//! The library against the model, in one process and run: microseconds by request, and their ratio.
//!
//! ```text
//! bash bench/run
//! target/bench/bench only library 3 'mixed events'
//! ```
//!
//! The second has one side answer one request so many times, for whoever counts what it executes.
//! Both sides have the same duty: from the bytes of a request to a reply, with every byte of the same
//! two buffers written, zeros past the answer; from a text to a table, with every cell written; from a
//! table to its text.  The runs of the two alternate, so that a busy machine hits both alike, and the
//! medians are compared.  Some rows have an aim for their ratio; those that miss it are named at the end.

#[allow(dead_code)]
#[path = "../tests/model/cases.rs"]
mod cases;
#[path = "../tests/entry/library.rs"]
mod library;
#[allow(dead_code)]
#[path = "../tests/model/model.rs"]
mod model;
#[allow(dead_code)]
#[path = "../tests/model/notation.rs"]
mod notation;

use std::collections::BTreeMap;
use std::hint::black_box;
use std::path::Path;
use std::process::ExitCode;
use std::time::{Duration, Instant};

use library::{Reply, Row};
use model::sheets::{self, Answer, SHEET_CELLS};
use model::Place;

/// So long is one request run, both sides together.
const TIME: Duration = Duration::from_millis(1_500);
/// And at least so many times.
const RUNS: usize = 31;
// Aims: so many times as long as the model may the library take.

/// Reading is most of it, and both sides read field by field, once.
const SHEETS: f64 = 1.6;
/// Events are read and printed in the same way; but the library keeps no list of them, and reads each again
/// when it is played.
const PLAYS: f64 = 3.0;
/// Hardly anything but values of conditions, which the library keeps on a slate and the model in registers.
const CONDITIONS: f64 = 8.0;
/// Clearing the lent buffers is most of it; the library has cells of its own to clear besides.
const SMALLEST: f64 = 2.5;

/// Writing a large sheet may take so many times as long as reading it.
const WRITING: f64 = 3.0;
/// `makeall` for 16 participants takes less than this part of 16 calls of `make`.
const PARTIES: f64 = 0.5;
/// `why` may take so many times as long as `make` on the same sheet.
const WHY: f64 = 2.0;

// ---------------------------------------------------------------------------------------------
// Requests
// ---------------------------------------------------------------------------------------------

/// A text of the cases by its name.
fn text(name: &str) -> String {
    let texts = cases::texts(Path::new(cases::FOLDER));
    texts.and_then(|texts| texts.text(name)).expect(name)
}

/// Grows the largest sheet: 512 nodes of two branches each, all reached; where nobody signs the first
/// one, an exit from each for all of 16 participants.
struct Largest {
    text: String,
    /// Who signs the two branches of each node.
    signers: [&'static str; 2],
    /// How many reveals with a condition of 64 fields are left to place.
    long: usize,
    /// Digits that opening times may still take up, so that the sheet gets its length.
    padding: usize,
}

impl Largest {
    /// A condition of 64 fields: `not` twice, `lt`, two fields, 19 sums of three, two fields.
    fn condition() -> String {
        let sums: String = (0..19)
            .map(|sum| format!("add,{},", if sum % 2 == 0 { "k,1000000000" } else { "v,6" }))
            .collect();
        format!("not,not,lt,v,7,{sums}k,1")
    }

    /// Signers and opening time.
    fn guard(&mut self, branch: usize) {
        let signers = self.signers[branch];
        let digits = 1 + self.padding.min(9);
        self.padding -= digits - 1;
        self.text += &format!(",{signers},{}", "1".repeat(digits));
    }

    /// A contract of so many nodes, itself counted.
    fn contract(&mut self, nodes: usize) {
        let mut held = nodes - 1;
        let long = self.long > 0 && held > 0;
        if long {
            self.long -= 1;
            held -= 1;
        }
        self.text += ",c,2";
        self.guard(0);
        if held == 0 {
            self.text += ",w,0";
        } else {
            let parts = held.min(8);
            self.text += &format!(",s,{parts}");
            for part in 0..parts {
                self.text += ",1000";
                self.contract(held / parts + usize::from(part < held % parts));
            }
        }
        self.guard(1);
        if long {
            self.text += &format!(",r,8,0,1,2,3,4,5,6,7,{}", Self::condition());
            self.contract(1);
        } else {
            self.text += ",w,15";
        }
    }

    fn sheet(signers: [&'static str; 2], long: usize, padding: usize) -> String {
        let mut largest = Largest {
            text: "bitml,16,1\n".to_string(),
            signers,
            long,
            padding,
        };
        let deposits = ",100000000000000".repeat(16);
        largest.text += &format!("def{deposits},8{}", ",0".repeat(8));
        largest.contract(model::NODES);
        largest.text + "\n"
    }
}

/// The largest sheet, at just 32,768 bytes.
fn largest_sheet() -> String {
    let signers = ["0", "65535"];
    let fits = |long: &usize| Largest::sheet(signers, *long, 0).len() <= model::SHEET_BYTES;
    let long = (0..model::NODES).take_while(fits).last().unwrap_or(0);
    let missing = model::SHEET_BYTES - Largest::sheet(signers, long, 0).len();
    let sheet = Largest::sheet(signers, long, missing);
    assert_eq!(sheet.len(), model::SHEET_BYTES);
    sheet
}

/// As many whole lines as fit into a request.
fn filled(head: String, mut line: impl FnMut(usize) -> String) -> String {
    let mut text = head;
    for index in 0.. {
        let next = line(index);
        if text.len() + next.len() > model::REQUEST_BYTES {
            break;
        }
        text += &next;
    }
    text
}

/// Waits up to the last byte of a request, of which at least 7 are left.
fn to_the_end(mut text: String) -> String {
    while model::REQUEST_BYTES - text.len() >= 14 {
        text += "wait,1\n";
    }
    let digits = model::REQUEST_BYTES - text.len() - "wait,\n".len();
    text + &format!("wait,{}\n", "1".repeat(digits))
}

/// All kinds of events, taken while the ledger has room and refused afterwards.
fn mixed_events() -> String {
    let part = "1,c,2,0,0,w,1,1,0,r,1,0,lt,v,0,k,9,c,1,0,0,w,0";
    let parts = vec![part; 7].join(",");
    let sheet = format!(
        "bitml,2,1\ndef,1000,1000,1,0,c,2,0,0,s,8,{parts},1,c,2,3,0,g,0,0,1000000,w,1,0,9,w,0\n"
    );
    // A round splits contract 9n and renews the last part as 9n + 9 (a split makes 8, a renewal 1);
    // two other parts go on by one of their branches each.
    let text = filled(format!("{sheet}play,5\n"), |round| {
        let (first, set) = (9 * round, round);
        let (last, told, paid) = (first + 8, first + 1, first + 2);
        format!(
            "fire,{first},0\ntell,{set},0\nsign,0,{told},1\nfire,{told},1\nwait,1\nfire,{paid},0\n\
             sign,0,{last},0\nsign,1,{last},0\nrenew,{last},0,{}\n",
            round % 12
        )
    });
    to_the_end(text)
}

/// Firings that ask for the signatures of all of 16 participants, and signatures of the last one, refused
/// for a secret that is not told and as given twice.
fn sixteen_signers() -> String {
    let zeros = ",0".repeat(16);
    let sheet = format!("bitml,16,1\ndef{zeros},1,0,c,1,65535,0,r,1,0,t,c,0\n");
    let signed: String = (0..16).map(|who| format!("sign,{who},0,0\n")).collect();
    filled(format!("{sheet}play,1\n{signed}"), |round| {
        ["fire,0,0\n", "sign,15,0,0\n"][round % 2].to_string()
    })
}

/// Firings that one condition of 64 fields refuses, each after evaluating it whole.
fn long_condition() -> String {
    let condition = format!("not,not,eq,k,0,{}k,1000000000", "add,v,0,".repeat(19));
    let sheet = format!("bitml,1,1\ndef,1,1,0,c,1,0,0,r,1,0,{condition},c,0\n");
    filled(format!("{sheet}play,1\ntell,0,0\n"), |_| {
        "fire,0,0\n".to_string()
    })
}

/// A sheet with a branch for each condition, up to its first firings: secret 0 is 1, and told.
fn under_conditions(conditions: &[String]) -> String {
    let branch = |condition: &String| format!(",0,0,r,1,0,{condition},c,0");
    let branches: String = conditions.iter().map(branch).collect();
    let count = conditions.len();
    format!("bitml,1,1\ndef,1,1,0,c,{count}{branches}\nplay,1\ntell,0,0\n")
}

/// The same with 16 different conditions in no order that could be learned.
fn long_conditions() -> String {
    let mut draws = Draws(2);
    let refused = |condition: &String| {
        let play = under_conditions(std::slice::from_ref(condition)) + "fire,0,0\n";
        lines(play.as_bytes()).1 == 1
    };
    let drawn = std::iter::repeat_with(|| draws.condition(model::CONDITION_FIELDS));
    let conditions: Vec<String> = drawn.filter(refused).take(16).collect();
    filled(under_conditions(&conditions), |_| {
        format!("fire,0,{}\n", draws.below(16))
    })
}

/// Events that name a contract that is dead or was not made, or a branch that is not there.
fn nothing_there() -> String {
    let sheet = "bitml,2,1\ndef,7,0,0,c,1,0,0,s,2,1,c,1,0,9,w,0,1,c,2,3,0,g,0,0,9,w,1\n";
    let played = filled(format!("{sheet}play\nfire,0,0\n"), |round| {
        let (far, near) = (3 + round * 7 % 300, 1 + round % 2);
        format!(
            "fire,0,0\nsign,1,{far},0\nfire,{near},{}\nrenew,0,0\nfire,{far},1\nsign,0,{near},5\n\
             renew,{far},{near}\n",
            2 + round % 9
        )
    });
    to_the_end(played)
}

/// A contract of so many nodes: parts down to those that pay once both participants have signed, or late.
fn spread(nodes: usize) -> String {
    if nodes == 1 {
        return "c,2,3,0,w,0,0,1000000,w,0".to_string();
    }
    let held = nodes - 1;
    let parts = held.min(8);
    let part = |part: usize| spread(held / parts + usize::from(part < held % parts));
    let contracts: String = (0..parts).map(|it| format!(",1,{}", part(it))).collect();
    format!("c,1,0,0,s,{parts}{contracts}")
}

/// Firings that make all the contracts there may be, and then events over all of them, of which none is spent.
fn most_contracts() -> String {
    let made = model::CONTRACTS_MADE;
    let sheet = format!("bitml,2,1\ndef,1000000,0,0,{}\n", spread(made));
    let fired: String = (0..made).map(|one| format!("fire,{one},0\n")).collect();
    let mut draws = Draws(3);
    let played = filled(format!("{sheet}play\n{fired}"), |_| {
        let (one, other) = (draws.below(made), draws.below(made));
        format!("sign,0,{one},0\nfire,{other},1\nfire,{one},0\n")
    });
    to_the_end(played)
}

/// The rows with the second one in the place of the first.
fn twice(rows: &str) -> String {
    let rest = rows.split_once('\n').map_or("", |(_, rest)| rest);
    let second = rest.split_once('\n').map_or("", |(second, _)| second);
    format!("{second}\n{rest}")
}

/// The rows with the last two swapped.
fn last_too_late(rows: &str) -> String {
    let mut rows: Vec<&str> = rows.split_inclusive('\n').collect();
    let last = rows.len() - 1;
    rows.swap(last - 1, last);
    rows.concat()
}

/// Draws conditions, the same ones every time.
struct Draws(u64);

impl Draws {
    fn below(&mut self, end: usize) -> usize {
        let next = self.0.wrapping_mul(6_364_136_223_846_793_005);
        self.0 = next.wrapping_add(1_442_695_040_888_963_407);
        (self.0 >> 33) as usize % end
    }

    /// An expression with so many operators: 2 fields, and 3 for each of them.
    fn expression(&mut self, operators: usize) -> String {
        if operators == 0 {
            return ["k,0", "k,9", "v,0"][self.below(3)].to_string();
        }
        let word = ["add", "sub"][self.below(2)];
        let first = self.below(operators);
        let (one, other) = (
            self.expression(first),
            self.expression(operators - 1 - first),
        );
        format!("{word},{one},{other}")
    }

    /// A condition of so many fields.
    fn condition(&mut self, fields: usize) -> String {
        if fields < 5 {
            return "not,".repeat(fields - 1) + "t";
        }
        if self.below(2) == 0 {
            let first = 1 + self.below(fields - 2);
            let (one, other) = (self.condition(first), self.condition(fields - 1 - first));
            return format!("and,{one},{other}");
        }
        let (operators, nots) = ((fields - 5) / 3, (fields - 5) % 3);
        let word = ["eq", "lt"][self.below(2)];
        let first = self.below(operators + 1);
        let (one, other) = (self.expression(first), self.expression(operators - first));
        format!("{}{word},{one},{other}", "not,".repeat(nots))
    }
}

/// Conditions of 64 fields in few bytes, to be gone through to the end: they name no secret and are
/// true, or name one in the last field.  And as many as there may be that all nest otherwise.
fn conditions() -> [(&'static str, Vec<String>); 6] {
    let sums = "add,k,1,".repeat(19);
    let (adds, rest) = ("add,".repeat(19), ",k,1".repeat(19));
    let facts = "and,eq,k,0,k,0,".repeat(9);
    let mut draws = Draws(1);
    let drawn = (0..model::NODES).map(|_| draws.condition(model::CONDITION_FIELDS));
    let conditions = [
        ("ands", vec!["and,t,".repeat(29) + "not,and,not,t,not,t"]),
        ("sums", vec![format!("not,not,eq,k,20,{sums}k,1")]),
        (
            "sums in sums",
            vec![format!("not,not,eq,k,20,{adds}k,1{rest}")],
        ),
        ("facts", vec![format!("{facts}and,t,eq,k,0,add,k,0,k,0")]),
        ("a secret", vec![format!("not,not,lt,k,0,{sums}v,0")]),
        ("all kinds", drawn.collect()),
    ];
    for (name, conditions) in &conditions {
        for condition in conditions {
            let fields = condition.split(',').count();
            assert_eq!(fields, model::CONDITION_FIELDS, "{name}");
        }
    }
    conditions
}

/// The nodes of a chain of reveals below the root, as deep as it may be.
const CHAIN: usize = model::DEPTH - 1;

/// A sheet for 16 participants with so many reveals of a secret of participant 0 under these
/// conditions in turn, one at a node.  Each node pays too, so that the rows of `make` don't turn on
/// them.
fn sheet_of(conditions: &[String], reveals: usize) -> String {
    let mut conditions = conditions.iter().cycle();
    let mut chain = |reveals: usize| {
        let node = |condition: &String| format!("c,2,0,0,r,1,0,{condition},");
        let before: String = conditions.by_ref().take(reveals).map(node).collect();
        format!("1,{before}c,1,0,0,w,0{}", ",0,0,w,0".repeat(reveals))
    };
    let each = CHAIN - 1;
    let lengths = (0..reveals).step_by(each);
    let chains: Vec<String> = lengths
        .map(|from| chain(each.min(reveals - from)))
        .collect();
    let (zeros, parts) = (",0".repeat(16), chains.len());
    let chains = chains.join(",");
    format!("bitml,16,1\ndef{zeros},1,0,c,2,0,0,s,{parts},{chains},0,0,w,0\n")
}

/// With as many reveals as fit.
fn full_of(conditions: &[String]) -> String {
    let fits = |sheet: &String| sheet.len() <= model::SHEET_BYTES;
    let sheets = (1..model::NODES).map(|reveals| sheet_of(conditions, reveals));
    sheets.take_while(fits).last().unwrap_or_default()
}

/// Rows for such a sheet by its reveals: a rank is 1 more than that of the next node.
fn rows_by_conditions(sheet: &str) -> String {
    let reveals = sheet.matches(",r,").count();
    let mut rows = "row,0,1,1\n".to_string();
    let mut node = 0;
    for from in (0..reveals).step_by(CHAIN - 1) {
        let length = (CHAIN - 1).min(reveals - from);
        for rank in (1..=length + 1).rev() {
            node += 1;
            rows += &format!("row,{node},0,{rank}\n");
        }
    }
    rows
}

/// Requests with sheets full of conditions; those without rows are refused when judging begins.
fn requests_of_conditions() -> Vec<(String, usize, String)> {
    let (few, all) = (library::ROWS, library::ALL_ROWS);
    let mut requests = Vec::new();
    for (name, conditions) in conditions() {
        let sheet = full_of(&conditions);
        let make = format!("{sheet}make,0\n");
        let rows = made_rows(&make);
        let mut add = |what: &str, places: usize, part: &str| {
            requests.push((format!("{name}, {what}"), places, format!("{sheet}{part}")));
        };
        add("make", few, "make,0\n");
        add("makeall", all, "makeall\n");
        add("check", few, &format!("check,0\n{rows}"));
        if !conditions.iter().any(|condition| condition.contains('v')) {
            let rows = rows_by_conditions(&sheet);
            add("check by them", few, &format!("check,0\n{rows}"));
        }
        add("no rows", few, "check,0\n");
    }
    requests
}

/// 511 steps, 1,024 branches and about as many bytes as fit: each node pays, or leads on by a reveal whose
/// condition names a secret; the last only renews.
fn longest_way() -> String {
    let node = "c,2,0,4294967295,w,0,0,4294967295,";
    let reveals = format!("{node}r,1,0,lt,v,0,k,1000000000,").repeat(model::DEPTH - 1);
    let head = "def,2100000000000000,1,0,";
    let definitions: String = (1..16)
        .map(|next| format!("{head}{reveals}{node}g,{next}\n"))
        .collect();
    let sheet = format!("bitml,1,16\n{definitions}{head}{reveals}c,2,0,0,g,0,0,0,g,15\n");
    assert!(sheet.len() <= model::SHEET_BYTES);
    sheet
}

/// 32 definitions of 32 branches: a root and the node that it leads to, each of which pays and renews as
/// earlier ones.  Only that node of each definition renews as the next one, by its last branch, and only
/// that of the last one does not pay.
fn most_renewals() -> String {
    let renewals = |definition: usize, count: usize| -> String {
        let back = |place: usize| format!(",0,0,g,{}", place * definition / count);
        (0..count).map(back).collect()
    };
    let definition = |number: usize| {
        let (root, back) = (renewals(number, 14), renewals(number, 14));
        let (pays, next) = match number {
            31 => (",0,0,g,0".to_string(), 0),
            _ => (",0,0,w,0".to_string(), number + 1),
        };
        let node = format!("c,16{pays}{back},0,0,g,{next}");
        format!("def,1,0,c,16,0,0,w,0{root},0,0,s,1,1,{node}\n")
    };
    let definitions: String = (0..32).map(definition).collect();
    format!("bitml,1,32\n{definitions}")
}

/// Sheets on which `why` has the most to do, and how many lines it then prints.
fn sheets_to_explain() -> [(&'static str, String, usize); 2] {
    [
        ("longest way", longest_way(), 1 + (model::NODES - 1) + 2),
        ("most renewals", most_renewals(), 1 + 63 + 16),
    ]
}

/// `why` and `make` on those sheets.
fn requests_of_why() -> Vec<(String, usize, String)> {
    let mut requests = Vec::new();
    for (name, sheet, due) in sheets_to_explain() {
        let why = format!("{sheet}why,0\n");
        assert_eq!(lines(why.as_bytes()).0, due, "{name}");
        requests.push((format!("{name}, why"), library::ROWS, why));
        let make = format!("{sheet}make,0\n");
        requests.push((format!("{name}, make"), library::ROWS, make));
    }
    requests
}

/// The rows that the model makes.
fn made_rows(make: &str) -> String {
    let (reply, _) = model::judge(make.as_bytes());
    let printed = reply.printed();
    let rows = printed.rsplit_once("liquid").map_or("", |(rows, _)| rows);
    assert!(!rows.is_empty(), "{printed}");
    rows.to_string()
}

/// Plays, and the places for rows that are lent for them.
fn plays() -> Vec<(&'static str, usize, String)> {
    let few = library::ROWS;
    vec![
        ("mixed events", few, mixed_events()),
        (
            "9,350 waits",
            few,
            format!("{}play\n{}", text("N"), "wait,1\n".repeat(9_350)),
        ),
        ("sixteen signers", few, sixteen_signers()),
        ("events refused by 14", few, nothing_there()),
        ("256 contracts", few, most_contracts()),
        ("conditions of 64 fields", few, long_conditions()),
        ("one condition of them", few, long_condition()),
    ]
}

/// Requests, and the places for rows that are lent for them.
fn requests() -> Vec<(String, usize, String)> {
    let sheet = largest_sheet();
    let make = format!("{sheet}make,0\n");
    let rows = made_rows(&make);
    assert_eq!(rows.lines().count(), model::NODES);
    let makeall = format!("{sheet}makeall\n");
    assert_eq!(lines(makeall.as_bytes()).0, 16 * (model::NODES + 1));
    let signed = Largest::sheet(["32768", "16384"], 0, 0);
    let smallest = format!("{}make,0\n", text("T"));
    let (few, all) = (library::ROWS, library::ALL_ROWS);
    let requests = vec![
        ("smallest", few, smallest.clone()),
        ("smallest, 8,192 places", all, smallest),
        ("largest sheet, make", few, make),
        ("largest sheet, makeall", all, makeall),
        ("largest sheet, why", few, format!("{sheet}why,0\n")),
        // Each branch is asked by its signer's number whether it is own.
        (
            "signed branches, makeall",
            all,
            format!("{signed}makeall\n"),
        ),
        (
            "largest sheet, check",
            few,
            format!("{sheet}check,0\n{rows}"),
        ),
        // Refused as soon as they are judged, by 11 and by 10: what those above take before they judge.
        ("no rows", few, format!("{sheet}check,0\n")),
        (
            "a row twice",
            few,
            format!("{sheet}check,0\n{}", twice(&rows)),
        ),
        // Refused by 21 at the last of 512 rows, so that all of them are looked at.
        (
            "the last row too late",
            few,
            format!("{sheet}check,0\n{}", last_too_late(&rows)),
        ),
    ];
    let named =
        |(name, places, request): (&str, usize, String)| (name.to_string(), places, request);
    let requests = requests.into_iter().chain(plays()).map(named);
    let requests = requests.chain(requests_of_why());
    requests.chain(requests_of_conditions()).collect()
}

/// So many times as long as the model may the library take for a request.
fn aim(name: &str) -> Option<f64> {
    match name {
        "smallest" => Some(SMALLEST),
        "largest sheet, make" | "largest sheet, makeall" | "largest sheet, check" => Some(SHEETS),
        "mixed events" | "9,350 waits" | "sixteen signers" => Some(PLAYS),
        "events refused by 14" | "256 contracts" => Some(PLAYS),
        "conditions of 64 fields" | "one condition of them" => Some(CONDITIONS),
        _ => None,
    }
}

/// As many entries and fields as fit: 512 nodes, all but the roots behind an `r` that lists eight secrets,
/// in short fields.
fn shortest_fields() -> String {
    let reveal = ",0,0,r,8,0,1,2,3,4,5,6,7,and,t,lt,v,7,add,k,0,k,0,c,1,0,0,w,0".repeat(15);
    let definition = format!("def,1,8{},c,16{reveal},0,0,g,0\n", ",0".repeat(8));
    format!("bitml,1,32\n{}", definition.repeat(32))
}

/// As many long numbers as fit: 1,024 branches.
fn longest_numbers() -> String {
    let guard = ",65535,4294967295";
    let branches = |count: usize| format!("{guard},w,15").repeat(count);
    let deposits = ",100000000000000".repeat(16);
    let split = format!("{guard},s,1,1000,c,16{}", branches(16));
    let definition = format!("def{deposits},0,c,16{}{split}\n", branches(15));
    format!("bitml,16,32\n{}", definition.repeat(32))
}

/// Contracts and a condition as deep as they may be.
fn deepest() -> String {
    let chain = ",c,1,0,0,s,1,1".repeat(30);
    let condition = ",not".repeat(63);
    format!("bitml,1,1\ndef,1,1,0{chain},c,1,0,0,r,1,0{condition},t,c,0\n")
}

/// Sheets to read into a table and to write from it.
fn sheets_to_write() -> Vec<(&'static str, String)> {
    vec![
        ("smallest", text("T")),
        ("deepest", deepest()),
        ("largest sheet", largest_sheet()),
        ("shortest fields", shortest_fields()),
        ("longest numbers", longest_numbers()),
        ("longest conditions", text("full 1000000") + "0,0,w,0\n"),
    ]
}

// ---------------------------------------------------------------------------------------------
// Runs
// ---------------------------------------------------------------------------------------------

/// The buffers that are lent; the library and the model have each their own kind of place for a row.
struct Buffers<P> {
    rows: Vec<P>,
    text: Vec<u8>,
}

impl<P: Clone + Default> Buffers<P> {
    /// With so many places for rows.
    fn new(places: usize) -> Self {
        Buffers {
            rows: vec![P::default(); places],
            text: vec![b'?'; library::TEXT],
        }
    }

    /// What every answer costs at least: both buffers cleared.
    fn cleared(&mut self) {
        black_box(&mut self.rows).fill(P::default());
        black_box(&mut self.text).fill(0);
    }
}

impl Buffers<Row> {
    fn by_library(&mut self, request: &[u8]) -> Reply {
        library::judge(request, &mut self.rows, &mut self.text)
    }
}

impl Buffers<Place> {
    fn by_model(&mut self, request: &[u8]) -> Reply {
        reply(model::call(request, &mut self.rows, &mut self.text))
    }
}

impl PartialEq<Buffers<Place>> for Buffers<Row> {
    fn eq(&self, other: &Buffers<Place>) -> bool {
        let rows = self.rows.iter().map(Row::numbers);
        self.text == other.text && rows.eq(other.rows.iter().copied())
    }
}

/// The median in microseconds.
fn median(mut times: Vec<Duration>) -> f64 {
    times.sort_unstable();
    times[times.len() / 2].as_secs_f64() * 1e6
}

fn timed<T>(times: &mut Vec<Duration>, run: impl FnOnce() -> T) -> T {
    let start = Instant::now();
    let answer = black_box(run());
    times.push(start.elapsed());
    answer
}

/// Medians of the library and of the model, each with its own buffers; the answers and what the buffers
/// then hold must be the same.
fn race<L: PartialEq<M>, M>(
    (mut ours, mut theirs): (L, M),
    library: impl Fn(&mut L) -> Reply,
    model: impl Fn(&mut M) -> Reply,
) -> Result<(f64, f64, usize), String> {
    let (mut by_library, mut by_model) = (Vec::new(), Vec::new());
    let start = Instant::now();
    while start.elapsed() < TIME || by_library.len() < RUNS {
        let due = timed(&mut by_model, || model(&mut theirs));
        let got = timed(&mut by_library, || library(&mut ours));
        if got != due || ours != theirs {
            return Err(format!("due {due:?}, got {got:?}"));
        }
    }
    let runs = by_library.len();
    Ok((median(by_library), median(by_model), runs))
}

fn reply(answer: Answer) -> Reply {
    Reply {
        number: answer.number,
        line: answer.line,
        field: answer.field,
        length: answer.length,
    }
}

/// Reading a text into a table.
fn race_read(text: &[u8]) -> Result<(f64, f64, usize), String> {
    let cells = vec![usize::MAX; SHEET_CELLS];
    race(
        (cells.clone(), cells),
        |cells| library::read_sheet(black_box(text), cells),
        |cells| reply(sheets::read_sheet(black_box(text), cells)),
    )
}

/// Writing a table to a buffer that is just long enough.
fn race_write(text: &[u8]) -> Result<(f64, f64, usize), String> {
    let mut cells = vec![0; SHEET_CELLS];
    sheets::read_sheet(text, &mut cells);
    let cells = &cells[..];
    let buffer = vec![b'?'; text.len()];
    race(
        (buffer.clone(), buffer),
        |text| library::write_sheet(black_box(cells), text),
        |text| reply(sheets::write_sheet(black_box(cells), text)),
    )
}

/// How many lines the answer has, and how many of them are `taken`.
fn lines(request: &[u8]) -> (usize, usize) {
    let (reply, _) = model::judge(request);
    let printed = reply.printed();
    let taken = printed.lines().filter(|line| *line == "taken");
    (printed.lines().count(), taken.count())
}

fn bench() -> Result<(), String> {
    println!("medians in microseconds; a ratio above 1 means that the library takes longer");
    println!(
        "{:24} {:>7} {:>7} {:>7} {:>10} {:>10} {:>7} {:>5} {:>7}",
        "request", "bytes", "lines", "taken", "library", "model", "ratio", "aim", "runs"
    );
    let mut found = BTreeMap::new();
    let (mut others, mut missed) = (Vec::new(), Vec::new());
    for (name, places, request) in requests() {
        let request = request.as_bytes();
        let raced = race(
            (Buffers::new(places), Buffers::new(places)),
            |buffers| buffers.by_library(black_box(request)),
            |buffers| buffers.by_model(black_box(request)),
        );
        let (library, model, runs) = match raced {
            Ok(times) => times,
            Err(what) => {
                println!("{name}: {what}");
                others.push(name);
                continue;
            }
        };
        let (bytes, (lines, taken)) = (request.len(), lines(request));
        let (ratio, aim) = (library / model, aim(&name));
        let told = aim.map_or_else(String::new, |aim| aim.to_string());
        println!(
            "{name:24} {bytes:7} {lines:7} {taken:7} {library:10.1} {model:10.1} {ratio:7.2} {told:>5} {runs:7}"
        );
        if aim.is_some_and(|aim| ratio > aim) {
            missed.push(format!("{name} ({ratio:.2}, aim {told})"));
        }
        found.insert(name, (library, model));
    }
    without_reading(&found);
    for places in [library::ROWS, library::ALL_ROWS] {
        let mut buffers: Buffers<Row> = Buffers::new(places);
        let mut times = Vec::new();
        for _ in 0..1_000 {
            timed(&mut times, || buffers.cleared());
        }
        println!(
            "clearing the text and {places} places, which every answer does: {:.1}",
            median(times)
        );
    }
    let parties = bench_parties();
    let why = bench_why();
    let tables = bench_tables();
    tell_aims(&missed);
    if !others.is_empty() {
        return Err(format!("other answers: {}", others.join("; ")));
    }
    parties.and(why).and(tables)
}

/// Which aims are missed, and what the ratios mean, so that nobody reads too much into them.
fn tell_aims(missed: &[String]) {
    match missed {
        [] => println!("All aims are met."),
        _ => println!("Aims missed: {}.", missed.join("; ")),
    }
    println!("The model is written for speed too: flat lists, one pass over the bytes, nothing allocated");
    println!("for a field, a node or an event, answers written straight into the lent buffers.  It uses no");
    println!("unsafe code and nothing beyond the standard library.");
}

/// What is left of the medians without what the request takes before it is judged.
fn without_reading(found: &BTreeMap<String, (f64, f64)>) {
    let largest = [
        ("largest sheet, make", "no rows"),
        ("largest sheet, makeall", "no rows"),
        ("largest sheet, check", "a row twice"),
    ];
    let largest = largest.map(|(whole, read)| (whole.to_string(), read.to_string()));
    let words = ["make", "makeall", "check", "check by them"];
    let of_conditions = conditions().into_iter().flat_map(|(name, _)| {
        words.map(|word| (format!("{name}, {word}"), format!("{name}, no rows")))
    });
    for (whole, read) in largest.into_iter().chain(of_conditions) {
        let (Some(whole_times), Some(read_times)) = (found.get(&whole), found.get(&read)) else {
            continue;
        };
        let library = whole_times.0 - read_times.0;
        let model = whole_times.1 - read_times.1;
        println!(
            "{whole}, without the reading: library {library:.1}, model {model:.1}, ratio {:.2}; of the reading, library {:.2}, model {:.2}",
            library / model,
            library / read_times.0,
            model / read_times.1
        );
    }
}

/// `makeall` on the largest sheet, and `make` for one participant after the other, both by the library.
fn bench_parties() -> Result<(), String> {
    let sheet = largest_sheet();
    let all = format!("{sheet}makeall\n");
    let each = (0..model::PARTICIPANTS).map(|who| format!("{sheet}make,{who}\n"));
    let each: Vec<String> = each.collect();
    let mut buffers = Buffers::new(library::ALL_ROWS);
    let mut ours = Buffers::new(library::ROWS);
    let (mut at_once, mut one_by_one) = (Vec::new(), Vec::new());
    let start = Instant::now();
    while start.elapsed() < TIME || at_once.len() < RUNS {
        let request = black_box(all.as_bytes());
        let whole = timed(&mut at_once, || buffers.by_library(request).length);
        let parts: usize = timed(&mut one_by_one, || {
            let lengths = each
                .iter()
                .map(|make| ours.by_library(black_box(make.as_bytes())).length);
            lengths.sum()
        });
        if whole != parts || whole == 0 {
            return Err(format!("makeall: {whole} bytes, one by one {parts}"));
        }
    }
    let (at_once, one_by_one) = (median(at_once), median(one_by_one));
    let ratio = at_once / one_by_one;
    println!("16 parties at once: {at_once:.1}, one by one {one_by_one:.1}, ratio {ratio:.2}");
    if ratio < PARTIES {
        return Ok(());
    }
    Err(format!(
        "16 parties at once take {PARTIES} or more of one by one"
    ))
}

/// `why` on the sheets on which it has the most to do, and `make` on the same, both by the library.
fn bench_why() -> Result<(), String> {
    let mut slow = Vec::new();
    for (name, sheet, _) in sheets_to_explain() {
        let (why, make) = (format!("{sheet}why,0\n"), format!("{sheet}make,0\n"));
        let mut buffers = Buffers::new(library::ROWS);
        let (mut explained, mut made) = (Vec::new(), Vec::new());
        let start = Instant::now();
        while start.elapsed() < TIME || made.len() < RUNS {
            for (request, times) in [(&why, &mut explained), (&make, &mut made)] {
                let request = black_box(request.as_bytes());
                let reply = timed(times, || buffers.by_library(request));
                if reply.length == 0 {
                    return Err(format!("{name}: {reply:?}"));
                }
            }
        }
        let (explained, made) = (median(explained), median(made));
        let ratio = explained / made;
        println!("{name}: why {explained:.1}, make {made:.1}, ratio {ratio:.2}");
        if ratio > WHY {
            slow.push(name);
        }
    }
    if slow.is_empty() {
        return Ok(());
    }
    let slow = slow.join(", ");
    Err(format!("over {WHY} times as long as `make`: why, {slow}"))
}

/// Sheets as tables; the largest ones are written in at most three times what reading them takes.
fn bench_tables() -> Result<(), String> {
    println!(
        "{:24} {:>7} {:>10} {:>10} {:>7} {:>10} {:>10} {:>7} {:>13}",
        "sheet", "bytes", "read", "model", "ratio", "write", "model", "ratio", "write / read"
    );
    let mut slow = Vec::new();
    for (name, sheet) in sheets_to_write() {
        let text = sheet.as_bytes();
        let told = |what| format!("{name}: {what}");
        let (read, model_read, _) = race_read(text).map_err(told)?;
        let (write, model_write, _) = race_write(text).map_err(told)?;
        let (bytes, times) = (text.len(), write / read);
        println!(
            "{name:24} {bytes:7} {read:10.1} {model_read:10.1} {:7.2} {write:10.1} {model_write:10.1} {:7.2} {times:13.2}",
            read / model_read,
            write / model_write
        );
        if times > WRITING && 2 * bytes > model::SHEET_BYTES {
            slow.push(name);
        }
    }
    if slow.is_empty() {
        return Ok(());
    }
    let slow = slow.join(", ");
    Err(format!(
        "over {WRITING} times as long to write as to read: {slow}"
    ))
}

// ---------------------------------------------------------------------------------------------
// The program
// ---------------------------------------------------------------------------------------------

/// One side alone answers a request so many times.
fn only(side: &str, count: usize, name: &str) -> bool {
    let Some((_, places, request)) = requests().into_iter().find(|row| row.0 == name) else {
        return false;
    };
    let request = request.as_bytes();
    let (mut ours, mut theirs) = (Buffers::new(places), Buffers::new(places));
    for _ in 0..count {
        let request = black_box(request);
        black_box(match side {
            "library" => ours.by_library(request),
            _ => theirs.by_model(request),
        });
    }
    true
}

fn main() -> ExitCode {
    let arguments: Vec<String> = std::env::args().skip(1).collect();
    if let [_, side, count, name] = arguments.as_slice() {
        let ran = count.parse().is_ok_and(|count| only(side, count, name));
        return ExitCode::from(u8::from(!ran));
    }
    match bench() {
        Ok(()) => ExitCode::SUCCESS,
        Err(what) => {
            println!("failed: {what}");
            ExitCode::FAILURE
        }
    }
}
