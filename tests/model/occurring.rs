//! What generated requests show: every number, every kind of answer, and every limit reached.

use std::collections::HashMap;
use std::time::{Duration, Instant};

use crate::generate::Generator;
use crate::model::{self, Action, LastPart, Ledger, Play, Reply, Request, Sheet};
use crate::whys::{self, Whys};
use crate::Checks;

/// A limit's name, and whether it is reached.
type Limit = (&'static str, bool);

/// Limits of a sheet as it is read.
fn of_sheet(sheet: &Sheet) -> [Limit; 9] {
    let Sheet {
        nodes, definitions, ..
    } = sheet;
    let fields = |action| match action {
        Action::Reveal { condition, .. } => Some(sheet.condition(condition).fields()),
        _ => None,
    };
    let branches = sheet.all_branches();
    let longest = branches.iter().filter_map(|branch| fields(branch.action));
    let most = |definition: usize| sheet.deposits(definition).iter().sum::<u64>() == model::SATOSHI;
    let full = (0..definitions.len()).any(most);
    let wide = (0..nodes.len()).any(|node| sheet.branches(node).len() == 16);
    let secrets = definitions.iter().map(|definition| definition.owners.len());
    [
        ("16 participants", sheet.participants == 16),
        ("32 definitions", definitions.len() == 32),
        ("512 nodes", nodes.len() == model::NODES),
        ("1,024 branches", branches.len() == model::BRANCHES),
        ("32 deep", nodes.iter().any(|node| node.depth == 32)),
        ("16 branches", wide),
        ("8 secrets", secrets.max() == Some(8)),
        ("64 fields in a condition", longest.max() == Some(64)),
        ("all deposits in one definition", full),
    ]
}

/// Limits of the bytes of a request and of its sheet.
fn of_bytes(bytes: &[u8], sheet: &Sheet) -> [Limit; 2] {
    let lines = bytes.split_inclusive(|byte| *byte == b'\n');
    let of_sheet = lines.take(1 + sheet.definitions.len());
    let sheet_bytes: usize = of_sheet.map(|line| line.len()).sum();
    [
        ("32,768 bytes of sheet", sheet_bytes == model::SHEET_BYTES),
        ("65,536 bytes", bytes.len() == model::REQUEST_BYTES),
    ]
}

/// Limits of what the last part asks for.
fn of_last_part(request: &Request) -> Vec<Limit> {
    let sheet = &request.sheet;
    match &request.part {
        LastPart::Make { .. } | LastPart::Why { .. } => Vec::new(),
        LastPart::MakeAll => vec![("16 parties", sheet.participants == 16)],
        LastPart::Check { rows, .. } => vec![("512 rows", rows.len() == model::ROWS)],
        LastPart::Play(play) => of_play(sheet, play).to_vec(),
    }
}

/// Limits of the ledger at the end of a play.
fn of_play(sheet: &Sheet, play: &Play) -> [Limit; 4] {
    let mut ledger = Ledger::stipulate(sheet, play.stipulated.of(&play.values));
    for event in &play.events {
        let _ = ledger.step(sheet, *event, &play.values);
    }
    let taken = ledger.deposits_taken;
    [
        ("time 4,294,967,295", ledger.time == model::TIME),
        ("256 contracts made", ledger.contracts.len() == 256),
        ("32 sets made", ledger.sets.len() == 32),
        ("all deposits taken", taken == model::SATOSHI),
    ]
}

/// The names of the limits that a request which was read reaches but does not pass.
fn limits_reached(bytes: &[u8]) -> Vec<&'static str> {
    let Ok(request) = model::read(bytes) else {
        return Vec::new();
    };
    let sheet = &request.sheet;
    let limits = of_sheet(sheet).into_iter().chain(of_bytes(bytes, sheet));
    let limits = limits.chain(of_last_part(&request));
    let reached = limits.filter(|(_, reached)| *reached);
    reached.map(|(name, _)| name).collect()
}

const LIMITS: [&str; 17] = [
    "16 participants",
    "32 definitions",
    "512 nodes",
    "1,024 branches",
    "32 deep",
    "16 branches",
    "8 secrets",
    "64 fields in a condition",
    "all deposits in one definition",
    "32,768 bytes of sheet",
    "65,536 bytes",
    "16 parties",
    "512 rows",
    "time 4,294,967,295",
    "256 contracts made",
    "32 sets made",
    "all deposits taken",
];

/// Counts of what occurred in the generated requests.
#[derive(Default)]
struct Counts {
    requests: usize,
    refused_requests: [usize; 22],
    refused_events: [usize; 22],
    made_liquid: usize,
    checked_liquid: usize,
    frozen: usize,
    /// Answers to `makeall`, and those that are liquid for some and frozen for others.
    parties: usize,
    mixed: usize,
    whys: Whys,
    taken: usize,
    events: usize,
    plays: usize,
    bytes: usize,
    limits: HashMap<&'static str, usize>,
}

/// An answer that takes longer is asked for once more, in case the machine was busy.
const BUSY: Duration = Duration::from_millis(3);

/// The model's answer, the time it took, and the least that it takes.
fn timed(request: &[u8]) -> (Reply, Duration, Duration) {
    let start = Instant::now();
    let (reply, _) = model::judge(request);
    let time = start.elapsed();
    if time <= BUSY {
        return (reply, time, time);
    }
    let start = Instant::now();
    let (reply, _) = model::judge(request);
    (reply, time, time.min(start.elapsed()))
}

/// The numbers by which requests and events are refused; 20 refuses a table alone.
fn numbers() -> impl Iterator<Item = usize> {
    (1..=19).chain([21])
}

impl Counts {
    /// Counts a request by its limits and by the model's answer.
    fn add(&mut self, request: &[u8], reply: Reply) {
        self.requests += 1;
        self.bytes += request.len();
        for limit in limits_reached(request) {
            *self.limits.entry(limit).or_default() += 1;
        }
        match reply {
            Reply::Refused { number, .. } => self.refused_requests[number as usize] += 1,
            Reply::Text(text) if whys::asked(request).is_some() => self.whys.add(&text),
            Reply::Text(text) => {
                let all = request.ends_with(b"\nmakeall\n");
                let mixed = text.contains("liquid,") && text.contains("frozen,");
                self.parties += usize::from(all);
                self.mixed += usize::from(all && mixed);
                self.add_lines(&text);
            }
        }
    }

    /// Counts the lines of an answer to another word than `why`.
    fn add_lines(&mut self, text: &str) {
        for line in text.lines() {
            let fields: Vec<&str> = line.split(',').collect();
            match fields[0] {
                "taken" => {
                    self.taken += 1;
                    self.events += 1;
                }
                "refused" => {
                    self.refused_events[fields[1].parse().unwrap_or(0)] += 1;
                    self.events += 1;
                }
                "liquid" if text.contains("row,") => self.made_liquid += 1,
                "liquid" => self.checked_liquid += 1,
                "frozen" => self.frozen += 1,
                "end" => self.plays += 1,
                _ => {}
            }
        }
    }

    fn limit(&self, name: &str) -> usize {
        self.limits.get(name).copied().unwrap_or(0)
    }

    fn print(&self) {
        println!(
            "generated: {} requests, {} bytes",
            self.requests, self.bytes
        );
        for number in numbers() {
            let requests = self.refused_requests[number];
            let events = self.refused_events[number];
            println!("  {number:2}: {requests:6} requests {events:7} events");
        }
        println!(
            "  made liquid {}, frozen {}, all parties {}, some of them liquid {}, check liquid {}, plays {}, events {}, taken {}",
            self.made_liquid,
            self.frozen,
            self.parties,
            self.mixed,
            self.checked_liquid,
            self.plays,
            self.events,
            self.taken
        );
        println!("  {}", self.whys);
        println!("  requests that were read and reach a limit without passing it:");
        for limit in LIMITS {
            println!("    {limit}: {}", self.limit(limit));
        }
    }
}

fn generated(seed: u64, count: usize) -> Counts {
    let mut counts = Counts::default();
    let (mut whole, mut slowest) = (Duration::ZERO, Duration::ZERO);
    for request in Generator::new(seed).take(count) {
        let (reply, time, least) = timed(&request);
        whole += time;
        slowest = slowest.max(least);
        counts.add(&request, reply);
    }
    println!("model: {whole:?} in all, slowest request {slowest:?}");
    counts
}

pub fn test(checks: &mut Checks, seed: u64, count: usize) {
    let counts = generated(seed, count);
    counts.print();
    for limit in LIMITS {
        checks.holds(&format!("{limit} occurs"), counts.limit(limit) > 0);
    }
    for number in numbers() {
        let times = counts.refused_requests[number] + counts.refused_events[number];
        checks.holds(&format!("number {number} occurs"), times > 0);
    }
    for (what, count) in [
        ("liquid by make", counts.made_liquid),
        ("liquid by check", counts.checked_liquid),
        ("frozen", counts.frozen),
        ("all parties", counts.parties),
        ("some parties liquid", counts.mixed),
        ("taken", counts.taken),
    ] {
        checks.holds(what, count > 0);
    }
    checks.holds(
        "a quarter of the answers to `why` have two steps",
        4 * counts.whys.runs >= counts.whys.answers,
    );
}
