//! The cases pin the rules: with each wrong rule of wrong.rs turned on, some case has another answer.

use crate::cases::Case;
use crate::generate::Generator;
use crate::model::sheets::{read_sheet, write_sheet};
use crate::model::wrong::{all, turn, Rule, Wrong, OF_TABLES};
use crate::model::{call, judge};
use crate::{buffers, tables};
use std::panic::{catch_unwind, set_hook, take_hook};

/// All cases: requests, and for what no request shows sheets as tables and lent buffers.
struct Cases<'c> {
    requests: Vec<Case>,
    tables: &'c [tables::Case],
    buffers: &'c [buffers::Case],
}

impl Cases<'_> {
    /// The name of the first case that is answered otherwise than is due.
    fn first(&self) -> Option<&str> {
        let printed = |case: &Case| judge(&case.request).0.printed() == case.due;
        let lent = |case: &buffers::Case| case.fault(call).is_none();
        let by_request = first(&self.requests, |case| &case.name, printed);
        by_request
            .or_else(|| self.first_table())
            .or_else(|| first(self.buffers, |case| &case.name, lent))
    }

    fn first_table(&self) -> Option<&str> {
        let held = |case: &tables::Case| case.fault(read_sheet, write_sheet).is_none();
        first(self.tables, |case| &case.name, held)
    }
}

/// The name of the first case for which this does not hold.  A wrong rule may make the model panic.
fn first<C: std::panic::RefUnwindSafe>(
    cases: &[C],
    name: fn(&C) -> &str,
    holds: fn(&C) -> bool,
) -> Option<&str> {
    let other = |case: &&C| !catch_unwind(|| holds(case)).is_ok_and(|holds| holds);
    cases.iter().find(other).map(name)
}

/// Is this a limit of tables?
fn of_tables(wrong: &Wrong) -> bool {
    matches!(wrong, Wrong::More(limit) | Wrong::Fewer(limit) if OF_TABLES.contains(limit))
}

/// Of so many generated requests, this many in a hundred turn on a rule.
const GENERATED: usize = 4_000;
const SHARES: [(usize, Rule, &str); 4] = [
    (5, Rule::OnlyT, "conditions other than `t`"),
    (1, Rule::OrderNotAsked, "the order of rows"),
    (1, Rule::LastRun, "which of the shortest runs is told"),
    (1, Rule::AnyRun, "which runs are the shortest"),
];

/// How many of the generated requests have another answer with the wrong rule.
fn generated(wrong: Wrong) -> usize {
    let other = |request: &Vec<u8>| {
        let due = judge(request);
        turn(Some(wrong));
        let other = judge(request) != due;
        turn(None);
        other
    };
    let requests = Generator::new(1).take(GENERATED);
    requests.filter(other).count()
}

/// Each wrong rule that no case catches, and each limit of tables that no table does.
fn not_caught(cases: &Cases, rules: &[Wrong]) -> Vec<String> {
    let mut failures = Vec::new();
    for wrong in rules {
        turn(Some(*wrong));
        match cases.first() {
            Some(name) => println!("  {wrong:?}: {name}"),
            None => failures.push(format!("no case catches {wrong:?}: {}", wrong.says())),
        }
        if of_tables(wrong) && cases.first_table().is_none() {
            failures.push(format!("no table catches {wrong:?}: {}", wrong.says()));
        }
    }
    turn(None);
    failures
}

/// Each wrong rule that too few generated requests turn on.
fn too_seldom() -> Vec<String> {
    let mut failures = Vec::new();
    for (share, rule, what) in SHARES {
        let shown = generated(Wrong::Rule(rule));
        println!("  {shown} of {GENERATED} generated requests turn on {what}");
        if 100 * shown < share * GENERATED {
            failures.push(format!("under {share} in a hundred turn on {what}"));
        }
    }
    failures
}

pub fn test(mut requests: Vec<Case>, tables: &[tables::Case], buffers: &[buffers::Case]) -> bool {
    // Short ones first: most rules are caught before a long one is tried.
    requests.sort_by_key(|case| case.request.len());
    let cases = Cases {
        requests,
        tables,
        buffers,
    };
    let right = cases.first();
    let mut failures: Vec<String> = right
        .map(|name| format!("with no wrong rule on, {name}"))
        .into_iter()
        .collect();
    let rules = all();
    let hook = take_hook();
    set_hook(Box::new(|_| {}));
    failures.extend(not_caught(&cases, &rules));
    set_hook(hook);
    failures.extend(too_seldom());
    for failure in &failures {
        println!("FAILED: {failure}");
    }
    println!(
        "{} wrong rules; {} cases of requests, {} of tables, {} of buffers; {} failed",
        rules.len(),
        cases.requests.len(),
        tables.len(),
        buffers.len(),
        failures.len()
    );
    failures.is_empty()
}
