//! Properties of generated requests: the model against searches over lists of nodes, as the documents word
//! runs, exits and the ledger; sheets as tables there and back.

use std::collections::{BTreeMap, HashSet, VecDeque};

use crate::generate::{Generator, Random};
use crate::model::sheets::{self, read_sheet};
use crate::model::{self, Action, LastPart, Ledger, Play, Row, Sheet, Step};
use crate::Checks;

/// The least count of own steps from a list of nodes to the empty list, by search over lists, as
/// the document words it; `None` if there is none.  Only for small sheets.
fn least_steps(sheet: &Sheet, participant: usize, from: usize) -> Option<u64> {
    let mut seen: HashSet<Vec<usize>> = HashSet::new();
    let mut queue = VecDeque::from([(vec![from], 0)]);
    while let Some((list, steps)) = queue.pop_front() {
        if list.is_empty() {
            return Some(steps);
        }
        for place in 0..list.len() {
            let node = list[place];
            for (number, branch) in sheet.branches(node).iter().enumerate() {
                if sheet.is_own(node, number, participant) {
                    let mut after = list.clone();
                    after.remove(place);
                    after.extend(sheet.replaced_by(branch));
                    after.sort_unstable();
                    if seen.insert(after.clone()) {
                        queue.push_back((after, steps + 1));
                    }
                }
            }
        }
    }
    None
}

/// The number and line that rows get behind `check` on line 9.
fn checked(sheet: &Sheet, participant: usize, rows: &[Row]) -> Result<(), (u32, usize)> {
    let refused = |refusal: model::Refusal| (refusal.number, refusal.line);
    model::check(sheet, participant, rows, 9).map_err(refused)
}

/// Rows of `make` rise.  In another order they get 21 at the first that is below the one before it, and
/// sorted they are the same again.
fn made_in_order(
    checks: &mut Checks,
    random: &mut Random,
    sheet: &Sheet,
    participant: usize,
    made: &[Row],
) {
    let falls = |pair: &[Row]| pair[1].node < pair[0].node;
    checks.holds("made rows rise", !made.windows(2).any(falls));
    let mut other = made.to_vec();
    random.shuffle(&mut other);
    // The second row is line 11.
    let fall = other.windows(2).position(falls);
    let due = fall.map_or(Ok(()), |place| Err((21, 11 + place)));
    let got = checked(sheet, participant, &other);
    checks.holds("made rows in another order", got == due);
    other.sort_by_key(|row| row.node);
    checks.holds("made rows sorted again", other == made);
}

/// Rows from anyone get 10 in any order, then 21 if they are not in order, else what they get sorted.
fn checked_in_order(checks: &mut Checks, sheet: &Sheet, participant: usize, rows: &[Row]) {
    let mut sorted = rows.to_vec();
    sorted.sort_by_key(|row| row.node);
    let number = |rows: &[Row]| checked(sheet, participant, rows).map_err(|(number, _)| number);
    let due = match number(&sorted) {
        Err(10) => Err(10),
        other if sorted == rows => other,
        _ => Err(21),
    };
    checks.holds("what the order of rows decides", number(rows) == due);
}

/// The rank of an exit is the least count of own steps, as a search over lists finds it.
fn ranks_are_least(checks: &mut Checks, sheet: &Sheet, participant: usize) {
    let exits = model::exits(sheet, participant);
    for node in 0..sheet.nodes.len() {
        let rank = exits[node].map(|row| row.rank);
        let due = least_steps(sheet, participant, node);
        checks.holds("rank is the least count of own steps", rank == due);
    }
}

/// Rows of `make` are accepted, and no rank of theirs can be lower.
fn made_is_accepted(
    checks: &mut Checks,
    random: &mut Random,
    sheet: &Sheet,
    participant: usize,
    made: &[Row],
) {
    let got = checked(sheet, participant, made);
    checks.holds("made rows are accepted", got.is_ok());
    let place = random.below(made.len());
    let mut lower = made.to_vec();
    lower[place].rank -= 1;
    let got = checked(sheet, participant, &lower);
    checks.holds("a lower rank is refused", got == Err((13, 10 + place)));
}

/// Any row for most of the nodes that have branches.
fn random_rows(random: &mut Random, sheet: &Sheet) -> Vec<Row> {
    let mut rows = Vec::new();
    for node in 0..sheet.nodes.len() {
        let branches = sheet.branches(node).len();
        if branches > 0 && !random.chance(10) {
            rows.push(Row {
                node,
                branch: random.below(branches),
                rank: random.between(1, 20) as u64,
            });
        }
    }
    rows
}

/// No rows at all are accepted for a frozen sheet: tries some.
fn frozen_has_no_rows(checks: &mut Checks, random: &mut Random, sheet: &Sheet, participant: usize) {
    for _ in 0..20 {
        let got = checked(sheet, participant, &random_rows(random, sheet));
        checks.holds("no rows for a frozen sheet", got.is_err());
    }
}

/// A random run from the start.
fn runs_stay_reached(checks: &mut Checks, random: &mut Random, sheet: &Sheet) {
    let reached = model::reached(sheet);
    let mut list = vec![0];
    for _ in 0..30 {
        if list.is_empty() {
            break;
        }
        let place = random.below(list.len());
        let node = list.swap_remove(place);
        checks.holds("a run stays among the reached nodes", reached[node]);
        let branches = sheet.branches(node);
        if !branches.is_empty() {
            let number = random.below(branches.len());
            list.extend(sheet.replaced_by(&branches[number]));
        }
    }
}

/// Balances and payments together are the deposits taken.
fn is_whole(ledger: &Ledger) -> bool {
    let alive = ledger.contracts.iter().filter(|contract| contract.alive);
    let live: u64 = alive.map(|contract| contract.balance).sum();
    let paid: u64 = ledger.paid.iter().sum();
    live + paid == ledger.deposits_taken
}

/// Nothing is lost or made in a play, and a refused event changes nothing.
fn money_is_kept(checks: &mut Checks, sheet: &Sheet, play: &Play) {
    let mut ledger = Ledger::stipulate(sheet, play.stipulated.of(&play.values));
    let mut kept = true;
    for event in &play.events {
        let before = ledger.clone();
        let answer = ledger.step(sheet, *event, &play.values);
        kept &= is_whole(&ledger);
        kept &= answer.is_ok() || ledger == before;
        kept &= ledger.contracts.len() <= 256 && ledger.sets.len() <= 32;
    }
    checks.holds("money is kept, refused events change nothing", kept);
}

/// Sheets with more nodes have too many lists for a search from every node.
const SMALL: usize = 7;

/// Exits, ranks and reached nodes against searches over lists; money against what was paid in.
pub fn properties(checks: &mut Checks, seed: u64, count: usize) {
    let mut generator = Generator::new(seed);
    let mut random = Random::new(seed);
    let (mut searched, mut liquid, mut plays) = (0, 0, 0);
    for _ in 0..count {
        let Ok(request) = model::read(&generator.request()) else {
            continue;
        };
        let sheet = &request.sheet;
        let small = sheet.nodes.len() <= SMALL;
        for participant in 0..sheet.participants {
            if small {
                searched += 1;
                ranks_are_least(checks, sheet, participant);
            }
            if let Ok(made) = model::make(sheet, participant) {
                liquid += 1;
                made_is_accepted(checks, &mut random, sheet, participant, &made);
                made_in_order(checks, &mut random, sheet, participant, &made);
            } else if small {
                frozen_has_no_rows(checks, &mut random, sheet, participant);
            }
        }
        runs_stay_reached(checks, &mut random, sheet);
        match &request.part {
            LastPart::Check { participant, rows } => {
                checked_in_order(checks, sheet, *participant, rows)
            }
            LastPart::Play(play) => {
                plays += 1;
                money_is_kept(checks, sheet, play);
            }
            _ => {}
        }
    }
    println!(
        "properties: {searched} small sheets searched, {liquid} liquid, {plays} plays followed"
    );
}

/// The first of the shortest runs from the start to a list that holds the node, by search over lists;
/// `None` if there are too many lists.  Only for small sheets.
fn first_run(sheet: &Sheet, goal: usize) -> Option<Vec<Step>> {
    let mut seen: HashSet<Vec<usize>> = HashSet::new();
    // Lists of nodes, each with the first of the shortest runs to it.
    let mut lists = BTreeMap::from([(vec![sheet.definitions[0].root], Vec::new())]);
    while seen.len() < 3_000 {
        let ending = lists.iter().filter(|(list, _)| list.contains(&goal));
        if let Some(run) = ending.map(|(_, run)| run).min() {
            return Some(run.clone());
        }
        seen.extend(lists.keys().cloned());
        let mut after: BTreeMap<Vec<usize>, Vec<Step>> = BTreeMap::new();
        for (list, run) in &lists {
            for (next, step) in steps_from(sheet, list) {
                let longer = [&run[..], &[step]].concat();
                if !seen.contains(&next) && after.get(&next).map_or(true, |run| longer < *run) {
                    after.insert(next, longer);
                }
            }
        }
        lists = after;
    }
    None
}

/// The lists that one step makes of a list, in the order of their nodes, and that step.
fn steps_from(sheet: &Sheet, list: &[usize]) -> Vec<(Vec<usize>, Step)> {
    let mut found = Vec::new();
    for place in 0..list.len() {
        let node = list[place];
        for (number, branch) in sheet.branches(node).iter().enumerate() {
            let mut next = list.to_vec();
            next.remove(place);
            next.extend(sheet.replaced_by(branch));
            next.sort_unstable();
            found.push((next, (node, number)));
        }
    }
    found
}

/// Does this cause apply to a branch, as the request words it?
fn applies(sheet: &Sheet, participant: usize, step: Step, cause: u32) -> bool {
    let node = &sheet.nodes[step.0];
    let branch = &sheet.branches(step.0)[step.1];
    let owners = &sheet.definitions[node.definition].owners;
    let signs = |who: usize| branch.signers >> who & 1 == 1;
    match (cause, &branch.action) {
        (1, _) => (0..sheet.participants).any(|who| who != participant && signs(who)),
        (2, Action::Reveal { secrets, .. }) => {
            let owner = |secret: &u8| usize::from(owners[usize::from(*secret)]);
            secrets.iter().any(|secret| owner(secret) != participant)
        }
        (3, Action::Reveal { condition, .. }) => {
            sheet.condition(*condition).holds(|_| None) != Some(true)
        }
        (4, action) => matches!(action, Action::Renew { .. }),
        (5, _) => {
            let mut contracts = sheet.contracts(branch);
            contracts.any(|contract| least_steps(sheet, participant, contract).is_none())
        }
        _ => false,
    }
}

/// What is printed for `why` says what it must: the last line of `make`, the first of the shortest runs,
/// and for each branch the lowest cause.
fn why_holds(sheet: &Sheet, text: &str, participant: usize) -> Option<bool> {
    let ask = |word: &str| {
        let request = format!("{text}{word},{participant}\n");
        model::judge(request.as_bytes()).0.printed()
    };
    let (made, why) = (ask("make"), ask("why"));
    let last = made.lines().last()?;
    let Err(frozen) = model::make(sheet, participant) else {
        return Some(why.lines().eq([last]));
    };
    let run = first_run(sheet, frozen)?;
    let steps = run
        .iter()
        .map(|(node, branch)| format!("step,{node},{branch}"));
    let causes = (0..sheet.branches(frozen).len()).map(|branch| {
        let cause = (1..=5).find(|cause| applies(sheet, participant, (frozen, branch), *cause));
        format!("branch,{branch},{}", cause.unwrap_or(0))
    });
    let due = std::iter::once(last.to_string()).chain(steps).chain(causes);
    Some(why.lines().eq(due))
}

/// `why` against searches over lists, for small sheets.
pub fn reasons(checks: &mut Checks, seed: u64, count: usize) {
    let mut generator = Generator::new(seed);
    let (mut found, mut given_up) = (0, 0);
    for _ in 0..count {
        let bytes = generator.request();
        let Ok(request) = model::read(&bytes) else {
            continue;
        };
        let sheet = &request.sheet;
        if sheet.nodes.len() > 10 {
            continue;
        }
        let lines = bytes.split_inclusive(|byte| *byte == b'\n');
        let text: Vec<u8> = lines.take(request.line - 1).flatten().copied().collect();
        let text = String::from_utf8_lossy(&text);
        for participant in 0..sheet.participants {
            match why_holds(sheet, &text, participant) {
                Some(holds) => {
                    found += 1;
                    checks.holds("why", holds);
                }
                None => given_up += 1,
            }
        }
    }
    println!("why: {found} by search over lists, {given_up} with too many of them");
}

/// A table that was read is written back to its text, and is the sheet of a request.
fn read_is_written(checks: &mut Checks, text: &[u8], cells: &[usize]) {
    let back = sheets::text_of(cells);
    checks.holds("what was read is written", back.as_deref() == Some(text));
    let request = [text, b"make,0\n"].concat();
    let sheet = model::read(&request).ok().map(|request| request.sheet);
    checks.holds("the same sheet", sheet == sheets::sheet_of(cells));
}

/// Where a table is that of some text, the text reads to it; whether it is one.
fn written_is_read(checks: &mut Checks, cells: &[usize], again: &mut [usize]) -> bool {
    let Some(text) = sheets::text_of(cells) else {
        return false;
    };
    let answer = read_sheet(&text, again);
    checks.holds("what was written is read", answer.length == text.len());
    checks.holds("to the same table", again == cells);
    true
}

/// The places of each section that holds anything.
fn filled(cells: &[usize]) -> Vec<Vec<usize>> {
    let sections = sheets::held(cells).map(|section| section.collect::<Vec<_>>());
    let filled = sections.into_iter().filter(|section| !section.is_empty());
    filled.collect()
}

/// Sheets as tables: what is read is written back, and what is written from a table with another
/// number reads to that table.
pub fn both_ways(checks: &mut Checks, seed: u64, count: usize) {
    let mut generator = Generator::new(seed);
    let mut random = Random::new(seed);
    let mut cells = vec![0; sheets::SHEET_CELLS];
    let mut again = cells.clone();
    let (mut read, mut changed, mut written) = (0, 0, 0);
    for _ in 0..count {
        let text = generator.sheet_text();
        if read_sheet(&text, &mut cells).number != 0 {
            let sheet = sheets::sheet_of(&cells);
            checks.holds("a refused text is no sheet", sheet.is_none());
            continue;
        }
        read += 1;
        read_is_written(checks, &text, &cells);
        let filled = filled(&cells);
        for _ in 0..20 {
            changed += 1;
            let section = &filled[random.below(filled.len())];
            let place = random.pick(section);
            let old = cells[place];
            cells[place] = random.pick(&[old + 1, old.wrapping_sub(1), 0, 1, 2, old ^ 4]);
            written += usize::from(written_is_read(checks, &cells, &mut again));
            cells[place] = old;
        }
    }
    println!("tables: {read} read, {changed} changed, {written} of them written");
    checks.holds("changed tables are written", written > 100);
}
