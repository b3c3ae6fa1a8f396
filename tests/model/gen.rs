//! A generator of requests for document 01 and the change requests: valid ones of every shape, `make`,
//! `makeall`, `why`, `check` and `play`, and damaged ones.  The same seed always gives the same requests.
//!
//! Use: `Generator::new(seed)` is an endless iterator of requests (bytes).  The module stands
//! beside `model` (it uses the model's reader, rows and ledger to make rows that are accepted and
//! events that are taken).

use super::model::{self, Action, Event, LastPart, Ledger, Request, Row, Sheet, Span, Value};

/// A row as it is given to `check`.
type Numbers = [usize; model::ROW_NUMBERS];

// ---------------------------------------------------------------------------------------------
// Chance
// ---------------------------------------------------------------------------------------------

/// SplitMix64.
#[derive(Clone)]
pub struct Random {
    state: u64,
}

impl Random {
    pub fn new(seed: u64) -> Random {
        Random { state: seed }
    }

    pub fn next(&mut self) -> u64 {
        self.state = self.state.wrapping_add(0x9E37_79B9_7F4A_7C15);
        let mut z = self.state;
        z = (z ^ (z >> 30)).wrapping_mul(0xBF58_476D_1CE4_E5B9);
        z = (z ^ (z >> 27)).wrapping_mul(0x94D0_49BB_1331_11EB);
        z ^ (z >> 31)
    }

    /// A number below `bound` (which is not 0).
    pub fn below(&mut self, bound: usize) -> usize {
        (self.next() % bound as u64) as usize
    }

    /// A number from `least` to `most`, both counted in.
    pub fn between(&mut self, least: usize, most: usize) -> usize {
        least + self.below(most - least + 1)
    }

    /// True in `percent` of 100 cases.
    pub fn chance(&mut self, percent: usize) -> bool {
        self.below(100) < percent
    }

    pub fn pick<T: Clone>(&mut self, things: &[T]) -> T {
        things[self.below(things.len())].clone()
    }

    /// An index, each as likely as its weight says (not all weights are 0).
    pub fn weighted(&mut self, weights: &[usize]) -> usize {
        let mut left = self.below(weights.iter().sum());
        for (index, weight) in weights.iter().enumerate() {
            if left < *weight {
                return index;
            }
            left -= weight;
        }
        unreachable!("a number below the sum of the weights")
    }

    pub fn shuffle<T>(&mut self, things: &mut [T]) {
        for last in (1..things.len()).rev() {
            let other = self.below(last + 1);
            things.swap(last, other);
        }
    }
}

// ---------------------------------------------------------------------------------------------
// Drafts: requests as lines of fields
// ---------------------------------------------------------------------------------------------

/// What a field is for, so that damage can aim at it.
#[derive(Clone, Copy, Debug, PartialEq, Eq)]
pub enum Role {
    Word,
    Count,
    Deposit,
    Participant,
    Signers,
    Opening,
    Weight,
    Secret,
    Constant,
    Definition,
    Node,
    Branch,
    Rank,
    Value,
    Delay,
    Index,
}

#[derive(Clone, Debug)]
pub struct Field {
    pub text: String,
    pub role: Role,
}

fn word(text: &str) -> Field {
    Field {
        text: text.to_string(),
        role: Role::Word,
    }
}

fn number(number: u64, role: Role) -> Field {
    Field {
        text: number.to_string(),
        role,
    }
}

/// A request as lines of fields.
#[derive(Clone, Debug, Default)]
pub struct Draft {
    pub lines: Vec<Vec<Field>>,
}

impl Draft {
    pub fn bytes(&self) -> Vec<u8> {
        let mut bytes = Vec::new();
        for line in &self.lines {
            for (place, field) in line.iter().enumerate() {
                if place > 0 {
                    bytes.push(b',');
                }
                bytes.extend_from_slice(field.text.as_bytes());
            }
            bytes.push(b'\n');
        }
        bytes
    }

    pub fn length(&self) -> usize {
        self.lines.iter().map(|line| line_length(line)).sum()
    }
}

/// The bytes of a line, its commas and LF counted.
fn line_length(line: &[Field]) -> usize {
    line.iter()
        .map(|field| field.text.len() + 1)
        .sum::<usize>()
        .max(1)
}

// ---------------------------------------------------------------------------------------------
// Sheets
// ---------------------------------------------------------------------------------------------

/// How a sheet grows.
#[derive(Clone)]
struct Shape {
    participants: usize,
    definitions: usize,
    /// Most nodes, branches and bytes that growth may use.
    nodes: usize,
    branches: usize,
    bytes: usize,
    depth: usize,
    /// Least and most branches of a contract.
    least: usize,
    most: usize,
    parts: usize,
    secrets: usize,
    /// Weights of the actions w, s, r, g.
    actions: [usize; 4],
    /// Percent of the conditions that are the one field `t`.
    plain: usize,
    /// Most fields of the others.
    condition: usize,
    /// Percent of the conditions that name no secret; and of those of own branches that are not `t`.
    anyway: usize,
    /// Percent of the branches that need no signer; of the rest half need the favourite alone.
    unsigned: usize,
    /// Percent of secrets that the favourite owns.
    favour: usize,
    /// Percent of branches that open at 0.
    open: usize,
    /// Percent of deposits that are large.
    rich: usize,
    /// Does each contract get a branch that is own to the favourite?  Then the sheet is liquid
    /// for the favourite.
    easy: bool,
    /// Is that branch a `w`, and have contracts of the last definition now and then none?  Then the
    /// sheet is frozen deep inside, with several ways to get there.
    pits: bool,
}

impl Shape {
    fn random(random: &mut Random) -> Shape {
        let most = random.pick(&[4, 4, 4, 4, 4, 16]);
        let mut shape = Shape {
            participants: random.between(1, most),
            definitions: 1,
            nodes: random.between(1, 30),
            branches: 100,
            bytes: 20_000,
            depth: random.between(1, 8),
            least: 1,
            most: random.between(1, 4),
            parts: random.between(1, 4),
            secrets: random.between(0, 4),
            actions: [4, 3, 4, 0],
            plain: random.pick(&[30, 60, 95, 100]),
            condition: random.between(2, 20),
            anyway: random.pick(&[0, 50, 100]),
            unsigned: random.pick(&[30, 70, 95, 100]),
            favour: random.pick(&[40, 80, 100]),
            open: random.pick(&[20, 70, 95]),
            rich: random.pick(&[0, 10, 60]),
            easy: random.chance(60),
            pits: false,
        };
        match random.below(13) {
            // Small and plain.
            0 => {}
            // Deep.
            1 => {
                shape.nodes = random.between(20, 120);
                shape.depth = random.between(20, 32);
                shape.most = 2;
                shape.parts = 2;
                shape.actions = [1, 4, 5, 0];
            }
            // Wide.
            2 => {
                shape.nodes = random.between(40, 200);
                shape.branches = 600;
                shape.least = 2;
                shape.most = 16;
                shape.parts = 8;
                shape.actions = [3, 5, 2, 0];
            }
            // Many definitions that renew as one another.
            3 => {
                shape.definitions = random.between(2, 32);
                shape.nodes = shape.definitions + random.between(0, 60);
                shape.branches = 300;
                shape.actions = [3, 2, 2, 4];
            }
            // A few definitions, renewed often, for long plays.
            4 => {
                shape.definitions = random.between(1, 4);
                shape.least = 2;
                shape.actions = [1, 3, 1, 6];
                shape.parts = random.between(2, 8);
                shape.open = 95;
            }
            // Secrets and nested conditions.
            5 => {
                shape.secrets = random.between(1, 8);
                shape.actions = [2, 1, 8, 0];
                shape.plain = 20;
                shape.condition = random.between(4, 64);
                shape.definitions = random.between(1, 3);
                shape.nodes = random.between(5, 60);
            }
            // Many participants, many signers.
            6 => {
                shape.participants = random.between(5, 16);
                shape.unsigned = random.pick(&[20, 60, 90]);
            }
            // Exits by conditions that hold anyway.
            7..=10 => {
                shape.secrets = random.between(2, 8);
                shape.favour = 100;
                shape.actions = [0, 1, 8, 0];
                shape.condition = random.pick(&[5, 8, 20, 64]);
                shape.anyway = random.pick(&[50, 100]);
                shape.plain = 30;
                shape.nodes = random.between(2, 40);
                shape.depth = random.between(2, 8);
                shape.most = random.pick(&[1, 1, 2, 3]);
                shape.easy = random.chance(90);
            }
            // Splits and renewals that nothing hinders: plays that make many contracts.
            11 => {
                shape.definitions = random.between(1, 3);
                shape.nodes = random.between(40, model::NODES);
                shape.branches = model::BRANCHES;
                shape.depth = random.between(3, 10);
                shape.most = random.between(1, 2);
                shape.parts = random.between(3, 8);
                shape.actions = [0, 6, 1, 3];
                shape.open = 99;
                shape.unsigned = 98;
                shape.rich = 0;
            }
            // Large.
            _ => {
                shape.definitions = random.between(1, 8);
                shape.nodes = model::NODES;
                shape.branches = model::BRANCHES;
                shape.bytes = 32_000;
                shape.depth = 32;
                shape.most = random.between(2, 8);
                shape.parts = 8;
                shape.actions = [2, 6, 3, 1];
                shape.condition = 12;
                shape.secrets = random.between(1, 8);
            }
        }
        if random.chance(10) {
            // Nobody signs and nobody has a secret: where it is easy it is so for all.
            shape.unsigned = 100;
            shape.secrets = 0;
        }
        shape.nodes = shape.nodes.max(shape.definitions);
        shape
    }

    /// Frozen deep inside, and several ways lead there.
    fn with_pits(random: &mut Random) -> Shape {
        let mut shape = Shape::random(random);
        shape.definitions = random.between(2, 7);
        shape.nodes = shape.definitions + random.pick(&[3, 6, 12, 25, 100, 300]);
        shape.branches = model::BRANCHES;
        shape.depth = random.pick(&[2, 3, 3, 4, 6, 32]);
        shape.least = 2;
        shape.most = random.between(3, 6);
        shape.parts = random.between(1, 3);
        shape.actions = random.pick(&[[0, 2, 1, 4], [0, 3, 0, 3], [0, 4, 3, 2]]);
        shape.easy = true;
        shape.pits = true;
        shape
    }
}

/// Grows the lines of a sheet.
struct Grower<'r> {
    random: &'r mut Random,
    shape: Shape,
    favourite: usize,
    lines: Vec<Vec<Field>>,
    line: Vec<Field>,
    /// Nodes and branches that nobody has reserved yet.
    nodes_left: usize,
    branches_left: usize,
    bytes: usize,
    /// Count of secrets of the definition in hand, and those that the favourite owns.
    secrets: usize,
    favoured: Vec<usize>,
    /// In contracts of an exact size: one split each, so that a run can make nearly all of them.
    narrow: bool,
}

impl Grower<'_> {
    fn put(&mut self, field: Field) {
        self.bytes += field.text.len() + 1;
        self.line.push(field);
    }

    fn put_word(&mut self, text: &str) {
        self.put(word(text));
    }

    fn put_number(&mut self, value: usize, role: Role) {
        self.put(number(value as u64, role));
    }

    fn finish_line(&mut self) {
        self.lines.push(std::mem::take(&mut self.line));
    }

    fn sheet(&mut self) {
        let (participants, definitions) = (self.shape.participants, self.shape.definitions);
        self.put_word("bitml");
        self.put_number(participants, Role::Count);
        self.put_number(definitions, Role::Count);
        self.finish_line();
        for _ in 0..definitions {
            self.head();
            self.contract(1);
            self.finish_line();
        }
    }

    /// The fields of a definition before its contract.
    fn head(&mut self) {
        self.put_word("def");
        let participants = self.shape.participants;
        let rich = self.random.chance(self.shape.rich);
        for _ in 0..participants {
            let most = if rich {
                model::SATOSHI as usize / participants
            } else {
                1_000
            };
            let deposit = match self.random.below(4) {
                0 => 0,
                1 => self.random.between(0, 9),
                2 => most,
                _ => self.random.between(0, most),
            };
            self.put_number(deposit, Role::Deposit);
        }
        self.secrets = self.random.between(0, self.shape.secrets);
        self.put_number(self.secrets, Role::Count);
        self.favoured.clear();
        for secret in 0..self.secrets {
            let owner = if self.random.chance(self.shape.favour) {
                self.favourite
            } else {
                self.random.below(participants)
            };
            if owner == self.favourite {
                self.favoured.push(secret);
            }
            self.put_number(owner, Role::Participant);
        }
    }

    /// A contract whose node has been reserved.
    fn contract(&mut self, depth: usize) {
        let full = self.bytes >= self.shape.bytes;
        let most = self.shape.most.min(self.branches_left).min(16);
        let mut count = if full {
            most.min(1)
        } else {
            self.random.between(self.shape.least.min(most), most)
        };
        if self.random.chance(2) && !self.shape.easy {
            count = 0;
        }
        // A pit lets nobody out but by chance, or has no branch at all.
        let last = self.lines.len() == self.shape.definitions;
        let pit = self.shape.pits && self.random.chance(if last { 80 } else { 1 });
        if pit && self.random.chance(30) {
            count = 0;
        }
        self.branches_left -= count;
        self.put_word("c");
        self.put_number(count, Role::Count);
        let own = if self.shape.easy && !pit {
            self.random.below(count.max(1))
        } else {
            count
        };
        for branch in 0..count {
            if self.shape.pits && branch == own {
                self.guard(true);
                self.withdraw();
            } else {
                self.branch(depth, branch == own);
            }
        }
    }

    /// Signers (the favourite alone or nobody if the branch is to be own) and opening time.
    fn guard(&mut self, own: bool) {
        let participants = self.shape.participants;
        let signers = if self.random.chance(self.shape.unsigned) {
            0
        } else if own || self.random.chance(50) {
            1 << self.favourite
        } else if self.random.chance(50) {
            1 << self.random.below(participants)
        } else {
            self.random.below(1 << participants)
        };
        let opens = if self.random.chance(self.shape.open) {
            0
        } else {
            let far = model::TIME as usize;
            let near = self.random.between(1, 50);
            self.random
                .pick(&[near, near, 500, 501, far / 2, far - 1, far])
        };
        self.put_number(signers, Role::Signers);
        self.put_number(opens, Role::Opening);
    }

    fn branch(&mut self, depth: usize, own: bool) {
        self.guard(own);
        let holds =
            depth < self.shape.depth && self.nodes_left > 0 && self.bytes < self.shape.bytes;
        let mut weights = self.shape.actions;
        if !holds {
            weights[0] += 1;
            weights[1] = 0;
        }
        if !holds || self.secrets == 0 {
            weights[0] += 1;
            weights[2] = 0;
        }
        if own {
            weights[0] += 1;
            weights[3] = 0;
            if self.favoured.is_empty() {
                weights[2] = 0;
            }
        }
        match self.random.weighted(&weights) {
            0 => self.withdraw(),
            1 => {
                let most = self.shape.parts.min(self.nodes_left);
                let count = self.random.between(1, most);
                self.nodes_left -= count;
                let weights = self.weights(count);
                self.put_word("s");
                self.put_number(count, Role::Count);
                for weight in weights {
                    self.put_number(weight, Role::Weight);
                    self.contract(depth + 1);
                }
            }
            2 => {
                self.nodes_left -= 1;
                if own {
                    self.reveal_anyway(self.favoured.clone());
                } else {
                    let plain = self.random.chance(self.shape.plain);
                    let most = if plain { 1 } else { self.shape.condition };
                    let fields = self.random.between(1, most);
                    self.reveal(fields, (0..self.secrets).collect());
                }
                self.contract(depth + 1);
            }
            _ => {
                let definition = self.renewed();
                self.put_word("g");
                self.put_number(definition, Role::Definition);
            }
        }
    }

    /// A definition to renew as: any, or with pits the next one, or any up to it.
    fn renewed(&mut self) -> usize {
        let definitions = self.shape.definitions;
        if !self.shape.pits {
            return self.random.below(definitions);
        }
        let next = self.lines.len().min(definitions - 1);
        let other = self.random.between(0, next);
        self.random.pick(&[next, next, other])
    }

    fn withdraw(&mut self) {
        let to = self.random.below(self.shape.participants);
        self.put_word("w");
        self.put_number(to, Role::Participant);
    }

    fn weights(&mut self, count: usize) -> Vec<usize> {
        let most = self.random.pick(&[1, 3, 10, 1_000]);
        let mut weights: Vec<usize> = (0..count).map(|_| self.random.between(0, most)).collect();
        if weights.iter().all(|weight| *weight == 0) && self.random.below(200) > 0 {
            let place = self.random.below(count);
            weights[place] = self.random.pick(&[1, most]);
        }
        weights
    }

    /// `r` and some of these secrets.
    fn listed(&mut self, mut secrets: Vec<usize>) -> Vec<usize> {
        self.random.shuffle(&mut secrets);
        let count = self.random.between(1, secrets.len());
        secrets.truncate(count);
        self.put_word("r");
        self.put_number(count, Role::Count);
        for secret in &secrets {
            self.put_number(*secret, Role::Secret);
        }
        secrets
    }

    /// `r`, some of these secrets, and a condition of just so many fields.
    fn reveal(&mut self, fields: usize, secrets: Vec<usize>) {
        let listed = self.listed(secrets);
        let constant = self.random.chance(self.shape.anyway);
        let named = if constant { &[] } else { &listed[..] };
        let first = self.line.len();
        self.condition(fields, named);
        if constant && self.random.chance(20) {
            self.name_a_secret(first, &listed);
        }
    }

    /// `r`, some of these secrets, and a condition that holds anyway, if it names no secret in the end.
    fn reveal_anyway(&mut self, secrets: Vec<usize>) {
        let listed = self.listed(secrets);
        let plain = !self.random.chance(self.shape.anyway);
        let most = if plain { 1 } else { self.shape.condition };
        // One field is left for the `not` that makes a false condition true.
        let fields = self
            .random
            .between(1, most.min(model::CONDITION_FIELDS - 1));
        let first = self.line.len();
        if self.condition(fields, &[]) == Some(false) {
            self.line.insert(first, word("not"));
            self.bytes += "not,".len();
        }
        if self.random.chance(2) {
            self.name_a_secret(first, &listed);
        }
    }

    /// Some constant of the condition that begins here, if it has one, becomes a listed secret.
    fn name_a_secret(&mut self, first: usize, listed: &[usize]) {
        let is_constant = |place: &usize| self.line[*place].role == Role::Constant;
        let constants: Vec<usize> = (first..self.line.len()).filter(is_constant).collect();
        if !constants.is_empty() {
            let place = self.random.pick(&constants);
            let secret = self.random.pick(listed);
            let before = line_length(&self.line[place - 1..=place]);
            self.line[place - 1] = word("v");
            self.line[place] = number(secret as u64, Role::Secret);
            self.bytes += line_length(&self.line[place - 1..=place]);
            self.bytes -= before;
        }
    }

    // What follows gives the value of what it puts, or none where that names a secret.

    /// A condition of exactly so many fields (1 or more) that names only these secrets.
    fn condition(&mut self, fields: usize, named: &[usize]) -> Option<bool> {
        // A comparison has 5, 8, 11, ... fields, since an expression has 2, 5, 8, ...
        let comparison = fields >= 5 && fields % 3 == 2;
        if comparison && (fields == 5 || self.random.chance(50)) {
            let fact = self.random.pick(&["eq", "lt", "lt"]);
            self.put_word(fact);
            let (left, right) = self.two_expressions((fields - 5) / 3, named)?;
            Some(if fact == "eq" {
                left == right
            } else {
                left < right
            })
        } else if fields == 1 {
            self.put_word("t");
            Some(true)
        } else if fields >= 3 && self.random.chance(70) {
            self.put_word("and");
            let first = self.random.between(1, fields - 2);
            let left = self.condition(first, named);
            let right = self.condition(fields - 1 - first, named);
            Some(left? && right?)
        } else {
            self.put_word("not");
            Some(!self.condition(fields - 1, named)?)
        }
    }

    /// Two expressions with so many sums and differences together.
    fn two_expressions(&mut self, inner: usize, named: &[usize]) -> Option<(i64, i64)> {
        let first = self.random.between(0, inner);
        let left = self.expression(first, named);
        let right = self.expression(inner - first, named);
        Some((left?, right?))
    }

    fn expression(&mut self, inner: usize, named: &[usize]) -> Option<i64> {
        if inner > 0 {
            let sum = self.random.pick(&["add", "sub"]);
            self.put_word(sum);
            let (left, right) = self.two_expressions(inner - 1, named)?;
            Some(if sum == "add" {
                left + right
            } else {
                left - right
            })
        } else if !named.is_empty() && self.random.chance(60) {
            let secret = self.random.pick(named);
            self.put_word("v");
            self.put_number(secret, Role::Secret);
            None
        } else {
            let constant = self
                .random
                .pick(&[0, 0, 1, 1, 2, 3, 999_999_999, 1_000_000_000]);
            self.put_word("k");
            self.put_number(constant, Role::Constant);
            Some(constant as i64)
        }
    }

    /// A contract of exactly so many nodes, itself counted, wide and not deep.
    fn exact_contract(&mut self, nodes: usize) {
        self.put_word("c");
        if nodes == 1 {
            self.put_number(1, Role::Count);
            self.guard(self.shape.easy);
            self.withdraw();
            return;
        }
        let held = nodes - 1;
        let most = if self.narrow { 8 } else { 40 };
        let contracts = held.min(self.random.between(2, most));
        // How many nodes each of the held contracts has.
        let mut sizes = vec![held / contracts; contracts];
        sizes[0] += held % contracts;
        if self.random.chance(50) {
            sizes.reverse();
        }
        let groups: Vec<&[usize]> = sizes.chunks(8).collect();
        let leave = self.random.chance(30);
        self.put_number(groups.len() + usize::from(leave), Role::Count);
        for group in groups {
            self.guard(self.shape.easy);
            if group.len() == 1 && !self.favoured.is_empty() && self.random.chance(50) {
                self.reveal_anyway(self.favoured.clone());
                self.exact_contract(group[0]);
            } else {
                self.put_word("s");
                self.put_number(group.len(), Role::Count);
                let weights = self.weights(group.len());
                for (size, weight) in group.iter().zip(weights) {
                    self.put_number(weight, Role::Weight);
                    self.exact_contract(*size);
                }
            }
        }
        if leave {
            self.guard(self.shape.easy);
            self.withdraw();
        }
    }
}

/// Sheets at a limit or just past it.
#[derive(Clone, Copy, PartialEq, Eq)]
enum Edge {
    Participants,
    Definitions,
    Nodes,
    Branches,
    Depth,
    ConditionFields,
    Deposits,
    Bytes,
}

/// Nodes stand there more often: large sheets make for plays with many contracts.
const EDGES: [Edge; 10] = [
    Edge::Participants,
    Edge::Definitions,
    Edge::Nodes,
    Edge::Nodes,
    Edge::Nodes,
    Edge::Branches,
    Edge::Depth,
    Edge::ConditionFields,
    Edge::Deposits,
    Edge::Bytes,
];

/// Every word of the language.
const WORDS: [&str; 28] = [
    "bitml", "def", "c", "w", "s", "r", "g", "t", "and", "not", "eq", "lt", "k", "v", "add", "sub",
    "make", "makeall", "why", "check", "row", "play", "x", "wait", "sign", "tell", "fire", "renew",
];

/// Texts that come close to a word or a number, and numbers at the edge of some range.
const TEXTS: [&str; 58] = [
    "",
    "0",
    "1",
    "2",
    "7",
    "8",
    "9",
    "15",
    "16",
    "17",
    "31",
    "32",
    "33",
    "255",
    "256",
    "511",
    "512",
    "513",
    "1000",
    "1001",
    "65535",
    "65536",
    "1000000000",
    "1000000001",
    "4294967295",
    "4294967296",
    "2100000000000000",
    "2100000000000001",
    "9223372036854775807",
    "9223372036854775808",
    "9999999999999999999",
    "10000000000000000000",
    "18446744073709551616",
    "00",
    "01",
    "-1",
    "+1",
    " 1",
    "1 ",
    "1.0",
    "1e3",
    "0x1",
    "x",
    "X",
    "t",
    "T",
    "c",
    "w",
    "g",
    "row",
    "wait",
    "makeal",
    "makealls",
    "wh",
    "whyy",
    "1\r",
    "t\r",
    "\u{0661}",
];

/// Bytes that make a difference more often than others.
const BYTES: &[u8] = b",,\n\n\r0129xtcwsrg \0";

// ---------------------------------------------------------------------------------------------
// The generator
// ---------------------------------------------------------------------------------------------

/// An endless stream of requests.
pub struct Generator {
    random: Random,
}

impl Generator {
    pub fn new(seed: u64) -> Generator {
        Generator {
            random: Random::new(seed),
        }
    }

    fn grower(&mut self, shape: Shape) -> Grower<'_> {
        let favourite = self.random.below(shape.participants);
        Grower {
            favourite,
            lines: Vec::new(),
            line: Vec::new(),
            nodes_left: shape.nodes - shape.definitions.min(shape.nodes),
            branches_left: shape.branches,
            bytes: 0,
            secrets: 0,
            favoured: Vec::new(),
            narrow: self.random.chance(70),
            random: &mut self.random,
            shape,
        }
    }

    /// A random sheet within all limits (but now and then with weights that add to 0).
    fn sheet(&mut self) -> Draft {
        let shape = Shape::random(&mut self.random);
        self.sheet_of_shape(shape)
    }

    fn sheet_of_shape(&mut self, shape: Shape) -> Draft {
        let mut grower = self.grower(shape);
        grower.sheet();
        Draft {
            lines: grower.lines,
        }
    }

    /// A sheet at a limit; `over` says by how much it passes.
    fn edge_sheet(&mut self, edge: Edge, over: usize) -> Draft {
        let mut shape = Shape::random(&mut self.random);
        shape.bytes = 10_000;
        shape.unsigned = shape.unsigned.max(70);
        shape.plain = 100;
        match edge {
            Edge::Participants => {
                shape.participants = 16 + over;
                shape.rich = 0;
            }
            Edge::Definitions => {
                shape.definitions = 32 + over;
                shape.nodes = shape.nodes.max(40);
                shape.actions[3] = 3;
            }
            Edge::ConditionFields => shape.secrets = shape.secrets.max(1),
            Edge::Branches => shape.definitions = 32,
            Edge::Nodes => shape.definitions = self.random.pick(&[1, 1, 2, 7, 32]),
            Edge::Depth | Edge::Deposits => shape.definitions = 1,
            Edge::Bytes => shape.definitions = 1,
        }
        let (participants, definitions) = (shape.participants, shape.definitions);
        shape.nodes = shape.nodes.max(definitions);
        let mut grower = self.grower(shape);
        if matches!(edge, Edge::Participants | Edge::Definitions) {
            grower.sheet();
            return Draft {
                lines: grower.lines,
            };
        }
        if edge == Edge::Bytes {
            // Some have a field too many, which ends before the limit, at it or beyond.
            let more = grower.random.chance(30);
            let less = if more { grower.random.below(5) } else { 0 };
            let mut draft = grower.long_sheet(model::SHEET_BYTES + over - less);
            if let Some(line) = draft.lines.last_mut().filter(|_| more) {
                line.push(word(grower.random.pick(&["", "x", "0"])));
            }
            return draft;
        }
        grower.put_word("bitml");
        grower.put_number(participants, Role::Count);
        grower.put_number(definitions, Role::Count);
        grower.finish_line();
        let mut nodes_left = model::NODES + over;
        for definition in 0..definitions {
            let last = definition + 1 == definitions;
            grower.head();
            match edge {
                Edge::Nodes => {
                    let nodes = if last {
                        nodes_left
                    } else {
                        model::NODES / definitions
                    };
                    nodes_left -= nodes;
                    grower.exact_contract(nodes);
                }
                // 32 definitions of 32 branches each: 16 of the root, 16 of one part.
                Edge::Branches => {
                    grower.put_word("c");
                    grower.put_number(16, Role::Count);
                    for branch in 0..16 {
                        grower.guard(grower.shape.easy);
                        if branch < 15 {
                            grower.withdraw();
                        } else {
                            grower.put_word("s");
                            let contracts = 1 + usize::from(last && over > 0);
                            grower.put_number(contracts, Role::Count);
                            grower.put_number(1, Role::Weight);
                            grower.put_word("c");
                            grower.put_number(16, Role::Count);
                            for _ in 0..16 {
                                grower.guard(grower.shape.easy);
                                grower.withdraw();
                            }
                            if contracts == 2 {
                                grower.put_number(0, Role::Weight);
                                grower.put_word("c");
                                grower.put_number(over, Role::Count);
                                for _ in 0..over {
                                    grower.guard(grower.shape.easy);
                                    grower.withdraw();
                                }
                            }
                        }
                    }
                }
                Edge::Depth => {
                    for _ in 1..model::DEPTH + over {
                        grower.put_word("c");
                        let more = usize::from(grower.random.chance(20));
                        grower.put_number(1 + more, Role::Count);
                        for _ in 0..more {
                            grower.guard(grower.shape.easy);
                            grower.withdraw();
                        }
                        grower.guard(grower.shape.easy);
                        if !grower.favoured.is_empty() && grower.random.chance(50) {
                            grower.reveal_anyway(grower.favoured.clone());
                        } else {
                            grower.put_word("s");
                            grower.put_number(1, Role::Count);
                            grower.put_number(7, Role::Weight);
                        }
                    }
                    grower.put_word("c");
                    grower.put_number(1, Role::Count);
                    grower.guard(grower.shape.easy);
                    grower.withdraw();
                }
                Edge::ConditionFields => {
                    grower.put_word("c");
                    if grower.secrets == 0 {
                        grower.put_number(0, Role::Count);
                    } else {
                        grower.put_number(2, Role::Count);
                        for fields in [64, 64 + over] {
                            grower.guard(grower.shape.easy);
                            grower.reveal(fields, (0..grower.secrets).collect());
                            grower.put_word("c");
                            grower.put_number(1, Role::Count);
                            grower.guard(grower.shape.easy);
                            grower.withdraw();
                        }
                    }
                }
                // Rewrite the deposits so that they add to the limit.
                _ => {
                    let mut left = model::SATOSHI as usize + over;
                    for participant in 0..participants {
                        let most = left.min(model::SATOSHI as usize);
                        let deposit = if participant + 1 == participants {
                            left
                        } else {
                            grower.random.between(0, most)
                        };
                        left -= deposit;
                        grower.line[1 + participant] = number(deposit as u64, Role::Deposit);
                    }
                    grower.contract(1);
                }
            }
            grower.finish_line();
        }
        Draft {
            lines: grower.lines,
        }
    }

    /// A random sheet, now and then one at a limit or past it.
    fn any_sheet(&mut self) -> Draft {
        if self.random.chance(8) {
            let edge = self.random.pick(&EDGES);
            let over = self.random.pick(&[0, 0, 1, 1, 2]);
            self.edge_sheet(edge, over)
        } else {
            self.sheet()
        }
    }

    /// A text of line 1 and `def` lines, some of them damaged.
    pub fn sheet_text(&mut self) -> Vec<u8> {
        let draft = self.any_sheet();
        if self.random.chance(30) {
            self.damage(draft)
        } else {
            draft.bytes()
        }
    }

    /// The whole next request.
    pub fn request(&mut self) -> Vec<u8> {
        // A few requests are about the length of the whole, a few are hardly requests.
        match self.random.below(400) {
            0 => return self.longest(),
            1 => return self.soup(),
            2 => return self.noise(),
            _ => {}
        }
        let mut draft = self.any_sheet();
        self.add_last_part(&mut draft);
        let mut bytes = if self.random.chance(30) {
            self.damage(draft)
        } else {
            draft.bytes()
        };
        if self.random.chance(2) {
            // Without its final LF.
            bytes.pop();
        }
        bytes
    }

    // -- last parts ---------------------------------------------------------------------------

    /// The sheet of a draft, if the reader takes it.
    fn sheet_of(draft: &Draft) -> Option<Sheet> {
        let mut bytes = draft.bytes();
        bytes.extend_from_slice(b"make,0\n");
        model::read(&bytes).ok().map(|request| request.sheet)
    }

    fn add_last_part(&mut self, draft: &mut Draft) {
        let Some(sheet) = Self::sheet_of(draft) else {
            let last = self.random.pick(&["make", "why"]);
            let asked = vec![word(last), number(0, Role::Participant)];
            draft.lines.push(asked);
            return;
        };
        match self.random.below(13) {
            0 | 1 => {
                let participant = self.participant(&sheet, 50);
                draft.lines.push(vec![
                    word("make"),
                    number(participant as u64, Role::Participant),
                ]);
            }
            2 | 3 => self.add_make_all(draft),
            4 | 5 => self.add_why(draft, &sheet),
            6..=8 => self.add_check(draft, &sheet),
            _ => {
                // Large sheets and renewals allow plays that make many contracts.
                let large = sheet.nodes.len() >= 60 || sheet.nodes.len() > 8 && renews(&sheet);
                let most = match self.random.below(5) {
                    0 => 5,
                    1 => 30,
                    3 | 4 if large => 1_500,
                    4 => 400,
                    _ => 100,
                };
                let events = self.random.between(most / 4, most);
                self.add_play(draft, &sheet, events, 60_000);
            }
        }
    }

    /// A participant, in so many of 100 cases one for whom the sheet is liquid, if there is one.
    fn participant(&mut self, sheet: &Sheet, percent: usize) -> usize {
        if self.random.chance(percent) {
            let liquid: Vec<usize> = (0..sheet.participants)
                .filter(|participant| model::make(sheet, *participant).is_ok())
                .collect();
            if !liquid.is_empty() {
                return self.random.pick(&liquid);
            }
        }
        self.random.below(sheet.participants)
    }

    /// `why`, most often of another sheet, one with pits.
    fn add_why(&mut self, draft: &mut Draft, sheet: &Sheet) {
        if self.random.chance(75) {
            let shape = Shape::with_pits(&mut self.random);
            *draft = self.sheet_of_shape(shape);
            let pits = Self::sheet_of(draft);
            return self.ask_why(draft, pits.as_ref().unwrap_or(sheet));
        }
        self.ask_why(draft, sheet);
    }

    /// Now and then with no participant, with one too many, or with a field or a line too many.
    fn ask_why(&mut self, draft: &mut Draft, sheet: &Sheet) {
        let participant = match self.random.below(20) {
            0 => sheet.participants,
            1..=3 => self.random.below(sheet.participants),
            _ => Self::furthest(sheet),
        };
        let mut line = vec![word("why")];
        if !self.random.chance(2) {
            line.push(number(participant as u64, Role::Participant));
        }
        if self.random.chance(4) {
            line.push(word(self.random.pick(&["", "0", "x"])));
        }
        draft.lines.push(line.clone());
        if self.random.chance(4) {
            let behind = self.random.pick(&[Vec::new(), vec![word("makeall")], line]);
            draft.lines.push(behind);
        }
    }

    /// The first participant for whom the frozen node is furthest away.
    fn furthest(sheet: &Sheet) -> usize {
        let steps = |participant: &usize| match model::make(sheet, *participant) {
            Ok(_) => 0,
            Err(frozen) => 1 + model::run_to(sheet, frozen, |_, _| true).len(),
        };
        let participants = (0..sheet.participants).rev();
        participants.max_by_key(steps).unwrap_or(0)
    }

    /// `makeall`, now and then with a field or a line too many.
    fn add_make_all(&mut self, draft: &mut Draft) {
        let mut line = vec![word("makeall")];
        if self.random.chance(5) {
            line.push(word(self.random.pick(&["", "0", "x"])));
        }
        draft.lines.push(line.clone());
        if self.random.chance(5) {
            let make = vec![word("make"), number(0, Role::Participant)];
            let behind = self.random.pick(&[Vec::new(), make, line]);
            draft.lines.push(behind);
        }
    }

    /// `check` with rows that are accepted or nearly so.
    fn add_check(&mut self, draft: &mut Draft, sheet: &Sheet) {
        let participant = self.participant(sheet, 85);
        let mut rows = self.rows(sheet, participant);
        if self.random.chance(45) {
            for _ in 0..self.random.pick(&[1, 1, 1, 2, 5]) {
                self.damage_rows(&mut rows, sheet);
            }
        }
        if self.random.below(100) == 0 && !rows.is_empty() {
            // Just at the limit of rows, or just past it.
            let count = self.random.between(511, 514);
            while rows.len() < count {
                let row = self.random.pick(&rows);
                rows.push(row);
            }
        }
        self.order_rows(&mut rows);
        draft.lines.push(vec![
            word("check"),
            number(participant as u64, Role::Participant),
        ]);
        for [node, branch, rank] in rows {
            draft.lines.push(vec![
                word("row"),
                number(node as u64, Role::Node),
                number(branch as u64, Role::Branch),
                number(rank as u64, Role::Rank),
            ]);
        }
    }

    /// Rows that are accepted where the sheet is liquid for the participant: node, branch and rank.
    fn rows(&mut self, sheet: &Sheet, participant: usize) -> Vec<Numbers> {
        let exits = model::exits(sheet, participant);
        // Rows for nodes that no run reaches are taken too, where their branches allow it.
        let wanted: Vec<bool> = if self.random.chance(20) {
            vec![true; sheet.nodes.len()]
        } else {
            model::reached(sheet)
        };
        let keep = self.random.chance(80);
        let raise = self.random.pick(&[0, 0, 20, 100]);
        let by = self.random.pick(&[1, 5, 100]);
        let mut ranks: Vec<Option<u64>> = vec![None; sheet.nodes.len()];
        let mut rows: Vec<Numbers> = Vec::new();
        for node in (0..sheet.nodes.len()).rev() {
            let branches = sheet.branches(node).len();
            // A node with no exit gets some branch, so that the fault is not always a missing row.
            let mut branch = match exits[node] {
                Some(exit) => exit.branch,
                None if branches > 0 && keep => self.random.below(branches),
                None => continue,
            };
            if raise > 0 && self.random.chance(30) {
                branch = self
                    .other_branch(sheet, participant, node, &exits)
                    .unwrap_or(branch);
            }
            let contracts = sheet.contracts(&sheet.branches(node)[branch]);
            let known = contracts.filter_map(|contract| ranks[contract]);
            let rank = self.raised(1 + known.sum::<u64>(), raise, by);
            ranks[node] = Some(rank);
            if wanted[node] {
                rows.push([node, branch, rank as usize]);
            }
        }
        rows
    }

    /// A branch of the node, if it is own and its contracts all have exits.
    fn other_branch(
        &mut self,
        sheet: &Sheet,
        participant: usize,
        node: usize,
        exits: &[Option<Row>],
    ) -> Option<usize> {
        let other = self.random.below(sheet.branches(node).len());
        let mut contracts = sheet.contracts(&sheet.branches(node)[other]);
        let leads_out = contracts.all(|contract| exits[contract].is_some());
        (leads_out && sheet.is_own(node, other, participant)).then_some(other)
    }

    /// The rank, in so many of 100 cases raised by up to so much, and then now and then as high as may be.
    fn raised(&mut self, mut rank: u64, percent: usize, by: usize) -> u64 {
        if self.random.chance(percent) {
            rank += self.random.between(0, by) as u64;
        }
        if percent > 0 && self.random.below(400) == 0 {
            rank = model::RANK;
        }
        rank.min(model::RANK)
    }

    /// Most often by rising node; else with two neighbours swapped, or in any order, or so with one
    /// row twice.
    fn order_rows(&mut self, rows: &mut Vec<Numbers>) {
        rows.sort_by_key(|[node, ..]| *node);
        if rows.len() < 2 {
            return;
        }
        let place = self.random.below(rows.len() - 1);
        match self.random.below(20) {
            0 | 1 => rows.swap(place, place + 1),
            2 => self.random.shuffle(rows),
            3 => {
                rows.push(rows[place]);
                self.random.shuffle(rows);
            }
            _ => {}
        }
    }

    /// Makes one row wrong, but so that it can still be read (most often).
    fn damage_rows(&mut self, rows: &mut Vec<Numbers>, sheet: &Sheet) {
        if rows.is_empty() {
            return;
        }
        let place = self.random.below(rows.len());
        match self.random.below(9) {
            0 => {
                rows.remove(place);
            }
            1 => {
                let row = rows[place];
                let other = self.random.between(0, rows.len());
                rows.insert(other, row);
            }
            2 => {
                let branches = sheet.branches(rows[place][0]).len();
                let past = usize::from(self.random.chance(10));
                rows[place][1] = self.random.below((branches + past).max(1));
            }
            3..=6 => {
                // A rank above 1, if there is one, made lower.
                let high: Vec<usize> = (0..rows.len()).filter(|row| rows[*row][2] > 1).collect();
                if !high.is_empty() {
                    let place = self.random.pick(&high);
                    let less = self.random.between(1, 2);
                    rows[place][2] = rows[place][2].saturating_sub(less).max(1);
                }
            }
            7 => {
                let more = self.random.between(1, 9);
                rows[place][2] = (rows[place][2] + more).min(65_535);
            }
            _ => rows[place][0] = self.random.below(sheet.nodes.len()),
        }
    }

    fn value(&mut self) -> Field {
        let text = match self.random.below(20) {
            0 => "x".to_string(),
            1 => "1000000000".to_string(),
            2 => self.random.below(1_000_000_001).to_string(),
            _ => self.random.between(0, 3).to_string(),
        };
        Field {
            text,
            role: Role::Value,
        }
    }

    /// `play` with about so many events, most of them taken, and at most so many bytes in all.
    fn add_play(&mut self, draft: &mut Draft, sheet: &Sheet, events: usize, bytes: usize) {
        let mut head = vec![word("play")];
        for _ in sheet.definitions[0].owners.iter() {
            head.push(self.value());
        }
        draft.lines.push(head);
        let Ok(Request {
            part: LastPart::Play(model::Play { values, .. }),
            ..
        }) = model::read(&draft.bytes())
        else {
            unreachable!("a sheet that was read and a play without events");
        };
        let mut play = Play {
            ledger: Ledger::stipulate(sheet, &values),
            values,
            sheet,
            length: draft.length(),
            limits: 0,
            lines: Vec::new(),
        };
        // Some plays skip what a firing asks for more often than others.
        let careless = self.random.pick(&[0, 3, 10, 30]);
        let wild = self.random.pick(&[2, 10, 25]);
        // A run that has met a limit of the ledger goes on for a while only.
        // So does one in which no contract is made any more.
        let patience = self.random.pick(&[1, 3, 10, 40]);
        let (mut made, mut made_at) = (0, 0);
        while play.lines.len() < events && play.length + 200 < bytes && play.limits < patience {
            if play.ledger.contracts.len() > made {
                (made, made_at) = (play.ledger.contracts.len(), play.lines.len());
            } else if play.lines.len() > made_at + 100 && self.random.chance(10) {
                break;
            }
            let live: Vec<usize> = (0..play.ledger.contracts.len())
                .filter(|contract| play.ledger.contracts[*contract].alive)
                .collect();
            if live.is_empty() && self.random.chance(20) {
                break;
            }
            if live.is_empty() || self.random.chance(wild) {
                let event = self.wild_event(&mut play);
                play.add(event);
            } else {
                let contract = self.random.pick(&live);
                self.pursue(&mut play, contract, careless);
            }
        }
        draft.lines.append(&mut play.lines);
    }

    /// The events that take a branch of a live contract: signatures, secrets, waiting, firing.
    fn pursue(&mut self, play: &mut Play, contract: usize, careless: usize) {
        let branches = play.sheet.branches(play.ledger.contracts[contract].node);
        if branches.is_empty() {
            let event = self.wild_event(play);
            play.add(event);
            return;
        }
        // Prefer branches that make more contracts or sets, so that plays get long.
        let mut number = self.random.below(branches.len());
        for _ in 0..4 {
            if let Action::Withdraw { .. } = branches[number].action {
                number = self.random.below(branches.len());
            }
        }
        let branch = &branches[number];
        let set = play.ledger.contracts[contract].set;
        let mut asked: Vec<Event> = Vec::new();
        for participant in 0..play.sheet.participants {
            let signed = play.ledger.contracts[contract].signed[number];
            if branch.is_signed_by(participant) && signed >> participant & 1 == 0 {
                asked.push(Event::Sign {
                    participant: participant as u8,
                    contract: contract as u32,
                    branch: number as u32,
                });
            }
        }
        if let Action::Reveal { secrets, .. } = &branch.action {
            for secret in secrets.iter() {
                if !play.ledger.sets[set].is_told(usize::from(*secret)) {
                    asked.push(Event::Tell {
                        set: set as u32,
                        secret: u32::from(*secret),
                    });
                }
            }
        }
        if branch.opens > play.ledger.time {
            let missing = branch.opens - play.ledger.time;
            // A far opening time would end most plays with 19, so mostly give up on it.
            if missing > 1_000 && !self.random.chance(5) {
                return play.add(Event::Wait {
                    delay: self.random.between(1, 60) as u64,
                });
            }
            asked.push(Event::Wait { delay: missing });
        }
        self.random.shuffle(&mut asked);
        for event in asked {
            if !self.random.chance(careless) {
                play.add(event);
            }
        }
        let last = match &branch.action {
            Action::Renew { definition } => {
                let mut count = play.sheet.definitions[*definition].owners.len();
                if self.random.chance(careless) {
                    count = self.random.between(0, 8);
                }
                Event::Renew {
                    contract: contract as u32,
                    branch: number as u32,
                    values: self.renewed_values(play, count),
                }
            }
            _ => Event::Fire {
                contract: contract as u32,
                branch: number as u32,
            },
        };
        play.add(last);
    }

    /// So many values of a renewal, put among those of the play.
    fn renewed_values(&mut self, play: &mut Play, count: usize) -> Span {
        let first = play.values.len();
        for _ in 0..count {
            play.values.push(self.renewed_value());
        }
        Span::new(first, count)
    }

    fn renewed_value(&mut self) -> Value {
        match self.value().text.parse() {
            Ok(number) => Value::Number(number),
            Err(_) => Value::IllFormed,
        }
    }

    /// Some event, most often refused.
    fn wild_event(&mut self, play: &mut Play) -> Event {
        let contracts = play.ledger.contracts.len();
        let contract = match self.random.below(10) {
            0 => contracts,
            1 => self.random.pick(&[255, 256, 257, 65_535]),
            2..=4 => self.random.below(contracts),
            // One of the youngest.
            _ => contracts - 1 - self.random.below(contracts.min(4)),
        };
        let branches = match play.ledger.contracts.get(contract) {
            Some(contract) => play.sheet.branches(contract.node).len(),
            None => 1,
        };
        let branch = match self.random.below(12) {
            0 => self.random.pick(&[16, 255, 256, 65_535]),
            _ => self.random.between(0, branches),
        };
        let (contract, branch) = (contract as u32, branch as u32);
        match self.random.below(8) {
            0 => {
                let near = self.random.between(1, 20) as u64;
                let far = self
                    .random
                    .pick(&[near, near, near, near, 500, model::TIME / 4]);
                let left = (model::TIME - play.ledger.time).max(1);
                let far = if self.random.chance(4) {
                    self.random
                        .pick(&[left, model::TIME, (left + 1).min(model::TIME)])
                } else {
                    far
                };
                Event::Wait { delay: far }
            }
            1 | 2 => Event::Sign {
                participant: self.random.below(play.sheet.participants) as u8,
                contract,
                branch,
            },
            3 => {
                let sets = play.ledger.sets.len();
                let set = match self.random.below(8) {
                    0 => self.random.pick(&[sets, 31, 32, 65_535]),
                    _ => self.random.below(sets),
                };
                let secrets = play.ledger.sets.get(set).map_or(1, |set| set.values.len());
                Event::Tell {
                    set: set as u32,
                    secret: self.random.between(0, secrets) as u32,
                }
            }
            4 => {
                let count = self.random.between(0, 8);
                Event::Renew {
                    contract,
                    branch,
                    values: self.renewed_values(play, count),
                }
            }
            _ => Event::Fire { contract, branch },
        }
    }

    /// A request of 65,536 bytes, or one more, or one less: a play with many events.
    fn longest(&mut self) -> Vec<u8> {
        let target = self
            .random
            .pick(&[65_535, 65_536, 65_536, 65_537, 65_537, 70_000]);
        let mut draft = loop {
            let draft = self.sheet();
            if Self::sheet_of(&draft).is_some() {
                break draft;
            }
        };
        if let Some(sheet) = Self::sheet_of(&draft) {
            let most = self.random.pick(&[50, 500, 10_000]);
            self.add_play(&mut draft, &sheet, most, target);
        }
        // Short events, then one that ends at the target (it has 7 to 16 bytes).
        let mut left = target - draft.length();
        while left >= 7 + 9 {
            let line = match self.random.below(4) {
                0 => vec![word("tell"), number(0, Role::Index), number(0, Role::Index)],
                1 => vec![word("fire"), number(0, Role::Index), number(1, Role::Index)],
                _ => vec![word("wait"), number(1, Role::Delay)],
            };
            left -= line_length(&line);
            draft.lines.push(line);
        }
        let digits = left.saturating_sub(6).clamp(1, 10);
        let delay = 10u64.pow(digits as u32 - 1);
        draft
            .lines
            .push(vec![word("wait"), number(delay, Role::Delay)]);
        draft.bytes()
    }

    // -- hardly requests ----------------------------------------------------------------------

    /// Words and numbers in any order, after the first lines of a sheet or after nothing.
    fn soup(&mut self) -> Vec<u8> {
        let mut draft = self.sheet();
        let kept = self.random.between(0, draft.lines.len());
        draft.lines.truncate(kept);
        let mut bytes = draft.bytes();
        for _ in 0..self.random.between(0, 200) {
            let text = match self.random.below(3) {
                0 => self.random.pick(&WORDS).to_string(),
                1 => self.random.pick(&TEXTS).to_string(),
                _ => self.random.between(0, 20).to_string(),
            };
            bytes.extend_from_slice(text.as_bytes());
            bytes.push(self.random.pick(b",,,,\n"));
        }
        bytes
    }

    /// Bytes in any order, perhaps none.
    fn noise(&mut self) -> Vec<u8> {
        let length = self.random.pick(&[0, 1, 2, 10, 1_000, 65_536, 65_537]);
        let any = self.random.chance(50);
        (0..length)
            .map(|_| {
                if any {
                    self.random.below(256) as u8
                } else {
                    self.random.pick(BYTES)
                }
            })
            .collect()
    }

    // -- damage -------------------------------------------------------------------------------

    /// Damages a request: in its fields, in its lines, in its bytes, or everywhere.
    fn damage(&mut self, mut draft: Draft) -> Vec<u8> {
        let times = self.random.pick(&[1, 1, 1, 1, 2, 3]);
        if self.random.chance(3) {
            return self.damage_everywhere(draft.bytes());
        }
        if self.random.chance(60) {
            for _ in 0..times {
                self.damage_fields(&mut draft);
            }
            let mut bytes = draft.bytes();
            if self.random.chance(15) {
                bytes.pop();
            }
            bytes
        } else {
            let mut bytes = draft.bytes();
            for _ in 0..times {
                self.damage_bytes(&mut bytes);
            }
            bytes
        }
    }

    fn damage_fields(&mut self, draft: &mut Draft) {
        if draft.lines.is_empty() {
            return;
        }
        // The lines after the sheet are many and short: aim at each line alike, or at the sheet.
        let lines = draft.lines.len();
        let sheet_lines = draft
            .lines
            .iter()
            .take_while(|line| {
                let first = line.first().map_or("", |field| field.text.as_str());
                matches!(first, "bitml" | "def")
            })
            .count();
        let line = match self.random.below(3) {
            0 if sheet_lines > 0 => self.random.below(sheet_lines),
            1 if sheet_lines < lines => self.random.between(sheet_lines, lines - 1),
            _ => self.random.below(lines),
        };
        let fields = draft.lines[line].len();
        if fields == 0 {
            return;
        }
        let place = self.random.below(fields);
        match self.random.below(13) {
            // A number or a word put in its place.
            0..=2 => draft.lines[line][place].text = self.random.pick(&TEXTS).to_string(),
            3..=5 => {
                let role = draft.lines[line][place].role;
                let text = self.edge_of(role, draft);
                draft.lines[line][place].text = text;
            }
            6 => {
                // The field before it, once more: a secret twice, if some `r` lists two.
                let mut places = Vec::new();
                for (line, fields) in draft.lines.iter().enumerate() {
                    for (place, pair) in fields.windows(2).enumerate() {
                        if pair.iter().all(|field| field.role == Role::Secret) {
                            places.push((line, place));
                        }
                    }
                }
                if places.is_empty() {
                    places.push((line, place.saturating_sub(1)));
                }
                let (line, place) = self.random.pick(&places);
                if place + 1 < draft.lines[line].len() {
                    draft.lines[line][place + 1] = draft.lines[line][place].clone();
                }
            }
            7 => {
                let other = self.random.below(fields);
                draft.lines[line].swap(place, other);
            }
            8 => {
                // Another secret after some `v`, which its `r` may not list.
                let mut secrets: Vec<&mut Field> = Vec::new();
                for fields in &mut draft.lines {
                    let mut after_v = false;
                    for field in fields {
                        if after_v {
                            after_v = false;
                            secrets.push(field);
                        } else {
                            after_v = field.text == "v";
                        }
                    }
                }
                if !secrets.is_empty() {
                    let place = self.random.below(secrets.len());
                    secrets[place].text = self.random.between(0, 8).to_string();
                }
            }
            9 => {
                draft.lines[line].remove(place);
            }
            10 => {
                let text = self.random.pick(&TEXTS).to_string();
                let at = self.random.pick(&[place, fields]);
                draft.lines[line].insert(
                    at,
                    Field {
                        text,
                        role: Role::Word,
                    },
                );
            }
            11 => {
                let copy = self.random.below(lines);
                let copy = draft.lines[copy].clone();
                let at = self.random.pick(&[line, lines, lines]);
                draft.lines.insert(at, copy);
            }
            _ => match self.random.below(4) {
                0 => {
                    draft.lines.remove(line);
                }
                1 => {
                    let other = self.random.below(lines);
                    draft.lines.swap(line, other);
                }
                2 => draft.lines.insert(line, Vec::new()),
                _ => draft.lines[line].truncate(place),
            },
        }
    }

    /// A text at the edge of what a field of this role may be.
    fn edge_of(&mut self, role: Role, draft: &Draft) -> String {
        let count = |place: usize| -> usize {
            let field = draft.lines.first().and_then(|line| line.get(place));
            field.and_then(|field| field.text.parse().ok()).unwrap_or(1)
        };
        let participants = count(1).clamp(1, 16);
        let edges: Vec<usize> = match role {
            Role::Word => return self.random.pick(&WORDS).to_string(),
            Role::Count => vec![0, 1, 8, 9, 16, 17, 32, 33],
            Role::Deposit => vec![0, 2_100_000_000_000_000, 2_100_000_000_000_001],
            Role::Participant => vec![participants - 1, participants, 15, 16],
            Role::Signers => vec![0, (1 << participants) - 1, 1 << participants],
            Role::Opening => vec![0, 4_294_967_295, 4_294_967_296],
            Role::Weight => vec![0, 0, 1_000, 1_001],
            Role::Secret => vec![0, 1, 7, 8],
            Role::Constant => vec![0, 1_000_000_000, 1_000_000_001],
            Role::Definition => vec![0, count(2).saturating_sub(1), count(2)],
            Role::Node => vec![0, 1, model::NODES - 1, model::NODES],
            Role::Branch => vec![0, 1, 2, 15, 16],
            Role::Rank => vec![0, 1, 65_535, 65_536],
            Role::Value => vec![0, 1_000_000_000, 1_000_000_001],
            Role::Delay => vec![0, 1, 4_294_967_295, 4_294_967_296],
            Role::Index => vec![0, 255, 256, 65_535, 65_536],
        };
        self.random.pick(&edges).to_string()
    }

    /// What another program might do to a whole text, or a field of many bytes.
    fn damage_everywhere(&mut self, bytes: Vec<u8>) -> Vec<u8> {
        let text = String::from_utf8_lossy(&bytes).to_string();
        match self.random.below(8) {
            0 => text.replace('\n', "\r\n").into_bytes(),
            1 => format!("\u{feff}{text}").into_bytes(),
            2 => text.to_uppercase().into_bytes(),
            3 => text.replace(',', ", ").into_bytes(),
            4 => text.replace(',', ";").into_bytes(),
            5 => text.replace('\n', "").into_bytes(),
            6 => bytes.repeat(2),
            _ => {
                // More of the same byte: a number of many digits, a word that goes on.
                let place = self.random.below(bytes.len());
                let more = self.random.pick(&[2, 7, 19, 20, 255, 256, 300, 20_000]);
                let mut longer = bytes[..place].to_vec();
                longer.extend(vec![bytes[place]; more]);
                longer.extend_from_slice(&bytes[place..]);
                longer
            }
        }
    }

    fn damage_bytes(&mut self, bytes: &mut Vec<u8>) {
        if bytes.is_empty() {
            return;
        }
        // Anywhere, or near the end, or near the limit of the sheet's bytes.
        let length = bytes.len();
        let place = match self.random.below(4) {
            0 => length - 1 - self.random.below(length.min(20)),
            1 if length > model::SHEET_BYTES + 4 => self
                .random
                .between(model::SHEET_BYTES - 4, model::SHEET_BYTES + 3),
            _ => self.random.below(length),
        };
        match self.random.below(8) {
            0 => bytes[place] ^= 1 << self.random.below(8),
            1 => bytes[place] = self.random.pick(BYTES),
            2 => {
                bytes.remove(place);
            }
            3 => bytes.insert(place, self.random.pick(BYTES)),
            4 => bytes.truncate(place),
            5 => {
                let other = self.random.below(length);
                bytes.swap(place, other);
            }
            6 => bytes.push(self.random.pick(BYTES)),
            _ => bytes[place] = self.random.below(256) as u8,
        }
    }
}

impl Iterator for Generator {
    type Item = Vec<u8>;

    fn next(&mut self) -> Option<Vec<u8>> {
        Some(self.request())
    }
}

/// A play as it is put together: the model's ledger goes along.
struct Play<'s> {
    ledger: Ledger,
    /// Those of stipulation, then those of renewals.
    values: Vec<Value>,
    sheet: &'s Sheet,
    /// Bytes of the whole request so far.
    length: usize,
    /// Firings and renewals refused with 19 so far.
    limits: usize,
    lines: Vec<Vec<Field>>,
}

impl Play<'_> {
    fn add(&mut self, event: Event) {
        // A refused event leaves the ledger the same.
        let answer = self.ledger.step(self.sheet, event, &self.values);
        if answer == Err(19) && !matches!(event, Event::Wait { .. }) {
            self.limits += 1;
        }
        let line = event_line(event, &self.values);
        self.length += line_length(&line);
        self.lines.push(line);
    }
}

/// Does some branch renew?
fn renews(sheet: &Sheet) -> bool {
    let mut branches = sheet.all_branches().iter();
    branches.any(|branch| matches!(branch.action, Action::Renew { .. }))
}

fn event_line(event: Event, values: &[Value]) -> Vec<Field> {
    let index = |value: u32| number(u64::from(value), Role::Index);
    match event {
        Event::Wait { delay } => vec![word("wait"), number(delay, Role::Delay)],
        Event::Sign {
            participant,
            contract,
            branch,
        } => vec![
            word("sign"),
            number(u64::from(participant), Role::Participant),
            index(contract),
            index(branch),
        ],
        Event::Tell { set, secret } => vec![word("tell"), index(set), index(secret)],
        Event::Fire { contract, branch } => vec![word("fire"), index(contract), index(branch)],
        Event::Renew {
            contract,
            branch,
            values: given,
        } => {
            let mut line = vec![word("renew"), index(contract), index(branch)];
            for value in given.of(values) {
                let text = match value {
                    Value::Number(number) => number.to_string(),
                    Value::IllFormed => "x".to_string(),
                };
                line.push(Field {
                    text,
                    role: Role::Value,
                });
            }
            line
        }
    }
}

impl Grower<'_> {
    /// A sheet whose `def` lines end at exactly so many bytes (about 32,768): many reveals with
    /// long conditions, then opening times made longer until the length fits.
    fn long_sheet(&mut self, target: usize) -> Draft {
        let participants = self.shape.participants;
        self.shape.open = 100;
        let mut definitions: Vec<(Vec<Field>, Vec<Vec<Field>>)> = Vec::new();
        // Line 1, with two digits for the count of definitions.
        let mut length = "bitml,,\n".len() + participants.to_string().len() + 2;
        'grow: loop {
            self.head();
            let head = std::mem::take(&mut self.line);
            // `c` and the count of branches, two digits at most.
            length += line_length(&head) + "c,16,".len();
            definitions.push((head, Vec::new()));
            for _ in 0..16 {
                self.guard(self.shape.easy);
                if self.secrets > 0 && self.random.chance(90) {
                    let fields = self.random.between(40, 64);
                    self.reveal(fields, (0..self.secrets).collect());
                    self.put_word("c");
                    if self.random.chance(50) {
                        self.put_number(0, Role::Count);
                    } else {
                        self.put_number(1, Role::Count);
                        self.guard(self.shape.easy);
                        self.withdraw();
                    }
                } else {
                    self.withdraw();
                }
                let branch = std::mem::take(&mut self.line);
                length += line_length(&branch);
                if let Some((_, branches)) = definitions.last_mut() {
                    branches.push(branch);
                }
                if length + 450 > target {
                    break 'grow;
                }
            }
            if definitions.len() == 32 {
                break;
            }
        }
        let mut lines = vec![vec![
            word("bitml"),
            number(participants as u64, Role::Count),
            number(definitions.len() as u64, Role::Count),
        ]];
        for (mut line, branches) in definitions {
            line.push(word("c"));
            line.push(number(branches.len() as u64, Role::Count));
            line.extend(branches.into_iter().flatten());
            lines.push(line);
        }
        let mut draft = Draft { lines };
        let mut missing = target.saturating_sub(draft.length());
        for field in draft.lines.iter_mut().flatten() {
            if field.role == Role::Opening && missing > 0 {
                let digits = 10.min(1 + missing);
                field.text = "1".repeat(digits);
                missing -= digits - 1;
            }
        }
        draft
    }
}
