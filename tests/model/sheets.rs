//! A sheet as a table (docs/FORMAT.md): the model's reader of a text into a table of cells, and its
//! writer of a text from one.
//!
//! * [`read_sheet`] reads the text to a sheet as [`read`](super::read) does, and lays it out in cells.
//! * [`write_sheet`] goes through the cells in the order of the text, asks of every number that it is
//!   one that reading gives in that place, builds the sheet and prints it.

use super::{
    nowhere, wrong, Action, Branch, Condition, Definition, Few, Part, Reader, Refusal, Sheet, Span,
    Term, Text, BRANCHES, BRANCHES_OF_A_NODE, CONDITION_FIELDS, DEFINITIONS, DEPTH, NODES,
    PARTICIPANTS, PARTS, REQUEST_BYTES, SATOSHI, SECRETS, SHEET_BYTES, TIME, VALUE, WEIGHT,
};
use std::ops::Range;

// ---------------------------------------------------------------------------------------------
// The layout
// ---------------------------------------------------------------------------------------------

/// The cells of the header, and how many of them are used: K, F and the counts of nodes, branches,
/// listed numbers and cells of conditions.
pub const HEADER_CELLS: usize = 8;
pub const COUNTS: usize = 6;
/// The cells of an entry.
pub const NODE_CELLS: usize = 4;
pub const BRANCH_CELLS: usize = 8;
pub const DEFINITION_CELLS: usize = 3;
/// Room for listed numbers and for cells of conditions.
pub const LISTED: usize = 8_960;
pub const CONDITIONS: usize = 32_768;
/// Where the sections begin, each behind the room of the one before it.
pub const NODES_AT: usize = HEADER_CELLS;
pub const BRANCHES_AT: usize = NODES_AT + NODE_CELLS * NODES;
pub const DEFINITIONS_AT: usize = BRANCHES_AT + BRANCH_CELLS * BRANCHES;
pub const LISTED_AT: usize = DEFINITIONS_AT + DEFINITION_CELLS * DEFINITIONS as usize;
pub const CONDITIONS_AT: usize = LISTED_AT + LISTED;
/// The cells of a table; what a caller lends must have so many.
pub const SHEET_CELLS: usize = CONDITIONS_AT + CONDITIONS;
/// The parent of a root.
pub const NO_BRANCH: usize = BRANCHES;

/// What a call answers: `number` 0 with the bytes read or written, or a refusal.
#[derive(Clone, Copy, Debug, Default, PartialEq, Eq)]
pub struct Answer {
    pub number: usize,
    pub line: usize,
    pub field: usize,
    pub length: usize,
}

impl From<Refusal> for Answer {
    fn from(refusal: Refusal) -> Answer {
        Answer {
            number: refusal.number as usize,
            line: refusal.line,
            field: refusal.field,
            length: 0,
        }
    }
}

/// A table as it is filled, and how many nodes, branches, listed numbers and cells of conditions it has so
/// far.
///
/// * A node: definition, parent, weight, count of branches.
/// * A branch: node, signers, opening time, kind, argument; where an `r` lists its secrets, how many they
///   are, where its condition stands.
/// * A definition: root, where the deposits and then the owners are listed, count of secrets.
struct Table<'c> {
    cells: &'c mut [usize],
    nodes: usize,
    branches: usize,
    listed: usize,
    conditions: usize,
}

/// The header of a table.
fn counts(cells: &[usize]) -> [usize; COUNTS] {
    std::array::from_fn(|place| cells[place])
}

/// The sections of a table that was read: where each begins and ends.
pub fn held(cells: &[usize]) -> [Range<usize>; 6] {
    let [_, definitions, nodes, branches, listed, conditions] = counts(cells);
    let section = |at: usize, width: usize, count: usize| at..at + width * count;
    [
        section(0, COUNTS, 1),
        section(NODES_AT, NODE_CELLS, nodes),
        section(BRANCHES_AT, BRANCH_CELLS, branches),
        section(DEFINITIONS_AT, DEFINITION_CELLS, definitions),
        section(LISTED_AT, 1, listed),
        section(CONDITIONS_AT, 1, conditions),
    ]
}

// ---------------------------------------------------------------------------------------------
// From a text to a table
// ---------------------------------------------------------------------------------------------

/// Reads a text of line 1 and `def` lines into the cells, every one of which is written.
pub fn read_sheet(text: &[u8], cells: &mut [usize]) -> Answer {
    match sheet_alone(text, cells.len()) {
        Ok(sheet) => {
            rule!(cells.fill(0);
                PastCellsKept: (),
                FarCellsKept: cells[..SHEET_CELLS].fill(0));
            lay_out(&sheet, cells);
            Answer {
                length: text.len(),
                ..Answer::default()
            }
        }
        Err(refusal) => {
            rule!(cells.fill(0); RefusedTableKept: ());
            refusal.into()
        }
    }
}

/// The sheet of a text with nothing behind it.
fn sheet_alone(text: &[u8], cell_count: usize) -> Result<Sheet, Refusal> {
    let too_long = text.len() > limit!(RequestBytes, REQUEST_BYTES);
    let short = cell_count < limit!(TableCells, SHEET_CELLS);
    if rule!(false; ShortTableFirst: short) {
        return Err(nowhere(7));
    }
    if too_long {
        return Err(nowhere(1));
    }
    if rule!(short; ShortTableAfter: false) {
        return Err(nowhere(7));
    }
    let mut reader = Reader::new(text);
    let read = reader.sheet();
    read.map_err(|number| reader.refusal(number))?;
    if rule!(false; ShortTableAfter: short) {
        return Err(nowhere(7));
    }
    let behind = reader.rest().len();
    if rule!(behind > 0; BehindNotRead: false, EmptyLineBehind: behind > 1) {
        // A line too many, whatever stands in it.
        reader.begin_line();
        reader.field = 1;
        let mut refusal = reader.refusal(rule!(9; BehindIsThree: 3));
        rule!((); BehindAtTheSheet: refusal.line -= 1);
        rule!((); BehindNowhere: refusal = nowhere(9));
        return Err(refusal);
    }
    Ok(reader.sheet)
}

/// Fills the sections of a table, and then its header.
fn lay_out(sheet: &Sheet, cells: &mut [usize]) {
    let mut table = Table {
        cells,
        nodes: 0,
        branches: 0,
        listed: 0,
        conditions: 0,
    };
    for (number, definition) in sheet.definitions.iter().enumerate() {
        table.definition(sheet, number, definition);
    }
    let header = [
        sheet.participants,
        sheet.definitions.len(),
        table.nodes,
        table.branches,
        table.listed,
        table.conditions,
    ];
    table.put::<COUNTS>(0, 0, header);
}

impl Table<'_> {
    /// Entry `number` of a section that begins at a cell.
    fn put<const N: usize>(&mut self, at: usize, number: usize, entry: [usize; N]) {
        self.cells[at + N * number..][..N].copy_from_slice(&entry);
    }

    fn list(&mut self, number: usize) {
        self.put(LISTED_AT, self.listed, [number]);
        self.listed += 1;
    }

    fn definition(&mut self, sheet: &Sheet, number: usize, definition: &Definition) {
        let (root, secrets) = (definition.root, definition.owners.len());
        let entry = [root, self.listed, secrets];
        self.put::<DEFINITION_CELLS>(DEFINITIONS_AT, number, entry);
        for deposit in sheet.deposits(number) {
            self.list(*deposit as usize);
        }
        for owner in definition.owners.iter() {
            self.list(usize::from(*owner));
        }
        self.contract(sheet, root, NO_BRANCH, 0);
    }

    fn contract(&mut self, sheet: &Sheet, number: usize, parent: usize, weight: u64) {
        let branches = sheet.branches(number);
        let definition = sheet.nodes[number].definition;
        let entry = [definition, parent, weight as usize, branches.len()];
        self.put::<NODE_CELLS>(NODES_AT, number, entry);
        self.nodes += 1;
        for branch in branches {
            self.branch(sheet, number, branch);
        }
    }

    /// A branch stands before the contracts that it holds.
    fn branch(&mut self, sheet: &Sheet, node: usize, branch: &Branch) {
        let place = self.branches;
        self.branches += 1;
        let [kind, argument, first, count, condition_at] = match &branch.action {
            Action::Withdraw { to } => [0, *to, 0, 0, 0],
            Action::Split { parts } => [1, sheet.parts(*parts).len(), 0, 0, 0],
            Action::Reveal {
                secrets,
                condition,
                next,
            } => {
                let condition = sheet.condition(*condition);
                let (first, condition_at) = (self.listed, self.conditions);
                secrets
                    .iter()
                    .for_each(|secret| self.list(usize::from(*secret)));
                self.condition(rule!(condition;
                    HeldAsT: wrong::shortened(condition, true),
                    HeldAsNotT: wrong::shortened(condition, false)));
                [2, *next, first, secrets.len(), condition_at]
            }
            Action::Renew { definition } => [3, *definition, 0, 0, 0],
        };
        let (signers, opens) = (branch.signers as usize, branch.opens as usize);
        #[rustfmt::skip]
        let entry = [node, signers, opens, kind, argument, first, count, condition_at];
        self.put::<BRANCH_CELLS>(BRANCHES_AT, place, entry);
        match &branch.action {
            Action::Split { parts } => {
                for part in sheet.parts(*parts) {
                    self.contract(sheet, part.node, place, part.weight);
                }
            }
            Action::Reveal { next, .. } => self.contract(sheet, *next, place, 0),
            Action::Withdraw { .. } | Action::Renew { .. } => {}
        }
    }

    fn condition(&mut self, condition: Condition) {
        for term in condition.0 {
            match *term {
                Term::True => self.field(0),
                Term::And => self.field(1),
                Term::Not => self.field(2),
                Term::Equal => self.field(3),
                Term::Less => self.field(4),
                Term::Constant(number) => {
                    self.field(0);
                    self.field(number as usize);
                }
                Term::Secret(secret) => {
                    self.field(1);
                    self.field(usize::from(secret));
                }
                Term::Add => self.field(2),
                Term::Subtract => self.field(3),
            }
        }
    }

    fn field(&mut self, field: usize) {
        self.put(CONDITIONS_AT, self.conditions, [field]);
        self.conditions += 1;
    }
}

// ---------------------------------------------------------------------------------------------
// From a table to a text
// ---------------------------------------------------------------------------------------------

/// Writes the text that reads to what the cells hold to the start of the buffer.
pub fn write_sheet(cells: &[usize], text: &mut [u8]) -> Answer {
    let before = text.len();
    let written = text_of(cells).ok_or_else(|| {
        nowhere(rule!(3;
            ShortBufferFirst: if before == 0 { 20 } else { 3 },
            ShortTableIsSeven: if cells.len() < SHEET_CELLS { 7 } else { 3 }))
    });
    let fits = |length: usize| rule!(length <= before; LongerBufferAsked: length < before);
    match written {
        Ok(written) if fits(written.len()) => {
            let (head, behind) = text.split_at_mut(written.len());
            head.copy_from_slice(&written);
            rule!(();
                BehindCleared: behind.fill(0),
                ZeroBehind: if let Some(byte) = behind.first_mut() { *byte = 0 });
            Answer {
                length: written.len(),
                ..Answer::default()
            }
        }
        Ok(written) => {
            rule!(();
                RefusedTextCleared: text.fill(0),
                WrittenAsFarAsFits: text.copy_from_slice(&written[..before]));
            nowhere(20).into()
        }
        Err(refusal) => {
            rule!((); RefusedTextCleared: text.fill(0));
            refusal.into()
        }
    }
}

/// The text that reads to what the cells hold, if there is one.
pub fn text_of(cells: &[usize]) -> Option<Vec<u8>> {
    let sheet = sheet_of(cells)?;
    let mut buffer = vec![0; limit!(SheetBytes, SHEET_BYTES)];
    let mut text = Text {
        buffer: &mut buffer,
        length: 0,
    };
    sheet.put(&mut text);
    let length = text.length;
    must(length <= buffer.len())?;
    buffer.truncate(length);
    Some(buffer)
}

/// The sheet that the cells hold, if a text of any length reads to them.
pub fn sheet_of(cells: &[usize]) -> Option<Sheet> {
    let cells = cells.get(..SHEET_CELLS)?;
    let counts = counts(cells);
    let [participants, ..] = counts;
    let mut walk = Walk {
        cells,
        counts,
        branches: 0,
        listed: 0,
        conditions: 0,
        sheet: Sheet {
            participants,
            ..Sheet::default()
        },
    };
    walk.sheet()?;
    Some(walk.sheet)
}

/// Goes through a table in the order of the text.
struct Walk<'a> {
    cells: &'a [usize],
    /// The header.
    counts: [usize; COUNTS],
    /// How many branches, listed numbers and cells of conditions have been passed.
    branches: usize,
    listed: usize,
    conditions: usize,
    /// The sheet as far as it was passed.
    sheet: Sheet,
}

fn must(holds: bool) -> Option<()> {
    holds.then_some(())
}

/// Is the number from `least` to `most`?
fn within(number: usize, least: u64, most: u64) -> Option<()> {
    must((least..=most).contains(&(number as u64)))
}

impl Walk<'_> {
    /// Entry `number` of a section that begins at a cell and has room for `most`.
    fn entry<const N: usize>(&self, at: usize, number: usize, most: usize) -> Option<[usize; N]> {
        must(number < most)?;
        self.cells[at + N * number..][..N].try_into().ok()
    }

    fn next_listed(&mut self) -> Option<usize> {
        let [number] = self.entry(LISTED_AT, self.listed, LISTED)?;
        self.listed += 1;
        Some(number)
    }

    fn sheet(&mut self) -> Option<()> {
        let [participants, definitions, nodes, branches, listed, conditions] = self.counts;
        let least = limit!(LeastParticipants, 1);
        within(participants, least, limit!(Participants, PARTICIPANTS))?;
        let least = limit!(LeastDefinitions, 1);
        // There is room for no more than 32 of them.
        within(definitions, least, DEFINITIONS)?;
        for number in 0..definitions {
            self.definition(number)?;
        }
        must(rule!(nodes == self.sheet.nodes.len(); NodesNotCounted: true))?;
        must(rule!(branches == self.branches; BranchesNotCounted: true))?;
        must(rule!(listed == self.listed; ListedNotCounted: true))?;
        must(rule!(conditions == self.conditions; ConditionsNotCounted: true))
    }

    fn definition(&mut self, number: usize) -> Option<()> {
        let [root, first, secrets] =
            self.entry::<DEFINITION_CELLS>(DEFINITIONS_AT, number, DEFINITIONS as usize)?;
        must(rule!(root == self.sheet.nodes.len(); RootsNotAsked: true))?;
        must(rule!(first == self.listed; DepositsAnywhere: true))?;
        within(secrets, 0, limit!(Secrets, SECRETS))?;
        let mut together = 0;
        for _ in 0..self.sheet.participants {
            let deposit = self.next_listed()? as u64;
            must(deposit <= limit!(Deposit, SATOSHI))?;
            together += deposit;
            must(together <= limit!(Deposits, SATOSHI))?;
            self.sheet.deposits.push(deposit);
        }
        let mut owners = Few::default();
        for _ in 0..secrets {
            let owner = self.next_listed()?;
            must(owner < limit!(Owner, self.sheet.participants))?;
            owners.push(owner as u8);
        }
        let root = self.sheet.nodes.len();
        self.sheet.definitions.push(Definition { owners, root });
        self.contract(NO_BRANCH, 0, 1)?;
        Some(())
    }

    /// The contract that the branch `parent` holds, with a weight up to `heaviest`.
    fn contract(&mut self, parent: usize, heaviest: u64, depth: usize) -> Option<Part> {
        must(depth <= limit!(Depth, DEPTH))?;
        let number = self.sheet.nodes.len();
        let definition = self.sheet.definitions.len() - 1;
        let [of, held_by, weight, count] = self.entry::<NODE_CELLS>(NODES_AT, number, NODES)?;
        must(rule!(of == definition; NodesOfAnyDefinition: true))?;
        must(rule!(held_by == parent; ParentsNotAsked: true))?;
        let heaviest = rule!(heaviest; OtherWeightsNotAsked: heaviest.max(WEIGHT));
        within(weight, 0, heaviest)?;
        within(count, 0, limit!(BranchesOfANode, BRANCHES_OF_A_NODE))?;
        for place in self.sheet.add_node(definition, depth, count) {
            self.sheet.branches[place] = self.branch(number, depth)?;
        }
        Some(Part {
            weight: weight as u64,
            node: number,
        })
    }

    fn branch(&mut self, number: usize, depth: usize) -> Option<Branch> {
        let place = self.branches;
        let [node, signers, opens, kind, argument, first, count, condition_at] =
            self.entry::<BRANCH_CELLS>(BRANCHES_AT, place, BRANCHES)?;
        self.branches += 1;
        must(rule!(node == number; BranchesOfAnyNode: true))?;
        must((signers as u64) < limit!(Signers, number!(Range, self.sheet.participants)))?;
        within(opens, 0, limit!(OpeningTime, TIME))?;
        let kind = rule!(kind; OtherKindsRenew: kind.min(3));
        if kind != 2 {
            must(rule!(first == 0; UnusedFirst: true))?;
            must(rule!(count == 0; UnusedCount: true))?;
            must(rule!(condition_at == 0; UnusedCondition: true))?;
        }
        if kind == 2 {
            must(rule!(first == self.listed; SecretsAnywhere: true))?;
            must(rule!(condition_at == self.conditions; ConditionsAnywhere: true))?;
        }
        Some(Branch {
            signers: signers as u32,
            opens: opens as u64,
            action: match kind {
                0 => self.withdraw(argument)?,
                1 => self.split(place, argument, depth)?,
                2 => self.reveal(place, argument, count, depth)?,
                3 => self.renew(argument)?,
                _ => return None,
            },
        })
    }

    fn withdraw(&self, to: usize) -> Option<Action> {
        must(to < limit!(PaidTo, self.sheet.participants))?;
        Some(Action::Withdraw { to })
    }

    fn renew(&self, definition: usize) -> Option<Action> {
        let [_, definitions, ..] = self.counts;
        must(definition < limit!(RenewedAs, definitions))?;
        Some(Action::Renew { definition })
    }

    /// An `r` with so many secrets whose contract is the node `next`.
    fn reveal(&mut self, place: usize, next: usize, count: usize, depth: usize) -> Option<Action> {
        let secrets = self.secrets(count)?;
        let first = self.sheet.terms.len();
        let end = self.conditions + limit!(FieldsAtCondition, CONDITION_FIELDS);
        self.condition(&secrets, end)?;
        let condition = Span::new(first, self.sheet.terms.len() - first);
        must(rule!(next == self.sheet.nodes.len(); RevealedNotAsked: true))?;
        let next = self.contract(place, 0, depth + 1)?.node;
        Some(Action::Reveal {
            secrets,
            condition,
            next,
        })
    }

    fn split(&mut self, place: usize, count: usize, depth: usize) -> Option<Action> {
        within(count, limit!(LeastParts, 1), limit!(Parts, PARTS))?;
        let first = self.sheet.parts.len();
        self.sheet.parts.resize(first + count, Part::default());
        let mut together = 0;
        for number in first..first + count {
            let part = self.contract(place, limit!(Weight, WEIGHT), depth + 1)?;
            together += part.weight;
            self.sheet.parts[number] = part;
        }
        must(rule!(together > 0; ZeroSumAllowed: true))?;
        let parts = Span::new(first, count);
        Some(Action::Split { parts })
    }

    /// The secrets that an `r` lists.
    fn secrets(&mut self, count: usize) -> Option<Few<u8>> {
        let owned = self.sheet.definitions.last()?.owners.len();
        within(count, limit!(LeastListed, 1), limit!(Listed, SECRETS))?;
        let mut secrets = Few::default();
        for _ in 0..count {
            let secret = self.next_listed()?;
            must(secret < limit!(ListedSecret, owned))?;
            must(rule!(!secrets.contains(&(secret as u8)); TwiceAllowed: true))?;
            secrets.push(secret as u8);
        }
        Some(secrets)
    }

    /// The next cell of a condition that ends before `end`.
    fn next_field(&mut self, end: usize) -> Option<usize> {
        must(self.conditions < end)?;
        let [field] = self.entry(CONDITIONS_AT, self.conditions, CONDITIONS)?;
        self.conditions += 1;
        Some(field)
    }

    fn condition(&mut self, listed: &[u8], end: usize) -> Option<()> {
        let word = self.next_field(end)?;
        let term = match rule!(word; OtherWordsAreLt: word.min(4)) {
            0 => Term::True,
            1 => Term::And,
            2 => Term::Not,
            3 => Term::Equal,
            4 => Term::Less,
            _ => return None,
        };
        self.sheet.terms.push(term);
        match term {
            Term::True => Some(()),
            Term::Not => self.condition(listed, end),
            Term::And => {
                self.condition(listed, end)?;
                self.condition(listed, end)
            }
            _ => {
                self.expression(listed, end)?;
                self.expression(listed, end)
            }
        }
    }

    fn expression(&mut self, listed: &[u8], end: usize) -> Option<()> {
        let word = self.next_field(end)?;
        let term = match rule!(word; OtherWordsAreSub: word.min(3)) {
            0 => {
                let number = self.next_field(end)?;
                within(number, 0, limit!(Constant, VALUE))?;
                Term::Constant(number as u32)
            }
            1 => {
                let secret = self.next_field(end)?;
                let is_secret = |listed: &u8| usize::from(*listed) == secret;
                must(rule!(listed.iter().any(is_secret); AnySecretNamed: true))?;
                Term::Secret(secret as u8)
            }
            2 => Term::Add,
            3 => Term::Subtract,
            _ => return None,
        };
        self.sheet.terms.push(term);
        if matches!(term, Term::Add | Term::Subtract) {
            self.expression(listed, end)?;
            self.expression(listed, end)?;
        }
        Some(())
    }
}

// ---------------------------------------------------------------------------------------------
// The text of a sheet
// ---------------------------------------------------------------------------------------------

impl Sheet {
    /// Line 1 and the `def` lines.
    fn put(&self, text: &mut Text) {
        let definitions = self.definitions.len();
        text.line("bitml", [self.participants as u64, definitions as u64]);
        for (number, definition) in self.definitions.iter().enumerate() {
            text.put(b"def");
            for deposit in self.deposits(number) {
                text.put_field(*deposit);
            }
            text.put_field(definition.owners.len() as u64);
            for owner in definition.owners.iter() {
                text.put_field(u64::from(*owner));
            }
            self.put_contract(definition.root, text);
            text.put(b"\n");
        }
    }

    fn put_contract(&self, node: usize, text: &mut Text) {
        let branches = self.branches(node);
        text.put(b",c");
        text.put_field(branches.len() as u64);
        for branch in branches {
            text.put_field(u64::from(branch.signers));
            text.put_field(branch.opens);
            self.put_action(&branch.action, text);
        }
    }

    fn put_action(&self, action: &Action, text: &mut Text) {
        match action {
            Action::Withdraw { to } => {
                text.put(b",w");
                text.put_field(*to as u64);
            }
            Action::Renew { definition } => {
                text.put(b",g");
                text.put_field(*definition as u64);
            }
            Action::Split { parts } => {
                let parts = self.parts(*parts);
                text.put(b",s");
                text.put_field(parts.len() as u64);
                for Part { weight, node } in parts {
                    text.put_field(*weight);
                    self.put_contract(*node, text);
                }
            }
            Action::Reveal {
                secrets,
                condition,
                next,
            } => {
                text.put(b",r");
                text.put_field(secrets.len() as u64);
                for secret in secrets.iter() {
                    text.put_field(u64::from(*secret));
                }
                let condition = self.condition(*condition);
                put_condition(
                    rule!(condition;
                    WrittenAsT: wrong::shortened(condition, true),
                    WrittenAsNotT: wrong::shortened(condition, false)),
                    text,
                );
                self.put_contract(*next, text);
            }
        }
    }
}

fn put_condition(condition: Condition, text: &mut Text) {
    for term in condition.0 {
        match *term {
            Term::True => text.put(b",t"),
            Term::And => text.put(b",and"),
            Term::Not => text.put(b",not"),
            Term::Equal => text.put(b",eq"),
            Term::Less => text.put(b",lt"),
            Term::Constant(number) => {
                text.put(b",k");
                text.put_field(u64::from(number));
            }
            Term::Secret(secret) => {
                text.put(b",v");
                text.put_field(u64::from(secret));
            }
            Term::Add => text.put(b",add"),
            Term::Subtract => text.put(b",sub"),
        }
    }
}
