//! A model of document 01, "BitML liquidity: sheet, rows and ledger", and of the change requests
//! (docs/changes), in plain Rust.
//!
//! It is written straight from the documents, in the order of document 01, and shares no code
//! with the verified program.  The tests compare the verified program with it, and the benchmark
//! measures against it, so it is quick as well as plain: every byte of a request is looked at once or
//! twice, a sheet stands in a few flat lists, and an answer is written straight into the buffers.
//! Nothing is allocated for a single node, branch, field or event.
//!
//! * [`read`] is the reader: bytes to a [`Request`], or the first [`Refusal`].
//! * [`exits`], [`reached`], [`make`], [`check`], [`run_to`] and [`cause`] are the judging part.
//! * [`Ledger`] is the program's ledger; [`Ledger::step`] is one event.
//! * [`call`] is the whole program: bytes to what it prints, and the row buffer, both lent;
//!   [`judge_lent`] is the same with buffers of its own, and [`judge`] with the longest ones.
//! * [`sheets`] has a sheet as a table, from its text and back.
//!
//! `rule!`, `lowest!`, `limit!`, `lower!`, `cause!`, `number!` and `asking!` are of wrong.rs.  What comes
//! first in a `rule!` is the rule; what follows it are wrong ones by name, which only the test of the
//! cases turns on.

#[macro_use]
#[path = "wrong.rs"]
pub mod wrong;
#[path = "sheets.rs"]
pub mod sheets;

use sheets::Answer;
use std::cmp::Reverse;
use std::collections::VecDeque;
use std::ops::{Deref, Range};
use wrong::Operand;

// ---------------------------------------------------------------------------------------------
// Limits
// ---------------------------------------------------------------------------------------------

/// A request of more bytes gets 1.
pub const REQUEST_BYTES: usize = 65_536;
/// Most bytes up to the LF of the last `def` line.
pub const SHEET_BYTES: usize = 32_768;
pub const PARTICIPANTS: u64 = 16;
pub const DEFINITIONS: u64 = 32;
pub const SECRETS: u64 = 8;
pub const NODES: usize = 512;
pub const BRANCHES: usize = 1_024;
pub const BRANCHES_OF_A_NODE: u64 = 16;
/// A root is at depth 1.
pub const DEPTH: usize = 32;
pub const PARTS: u64 = 8;
pub const WEIGHT: u64 = 1_000;
pub const CONDITION_FIELDS: usize = 64;
/// The largest `k`, and the largest value of a secret.
pub const VALUE: u64 = 1_000_000_000;
/// The largest deposit, and the most that the deposits of one definition add to, and the most
/// that the program's ledger takes in one run.
pub const SATOSHI: u64 = 2_100_000_000_000_000;
/// The latest opening time, the longest wait, and the latest time of the program's ledger.
pub const TIME: u64 = 4_294_967_295;
pub const ROWS: usize = 512;
/// Places of the row buffer that `makeall` asks for, whatever K is; every other word asks for `ROWS`.
pub const ALL_ROWS: usize = ROWS * PARTICIPANTS as usize;
/// Bytes of the text buffer that every word asks for.
pub const TEXT_BYTES: usize = 180_224;
pub const RANK: u64 = 65_535;
/// The largest number in the fields c, b, i and j of an event.
pub const EVENT_FIELD: u64 = 65_535;
pub const CONTRACTS_MADE: usize = 256;
pub const SETS_MADE: usize = 32;

// ---------------------------------------------------------------------------------------------
// What a request says
// ---------------------------------------------------------------------------------------------

/// Why and where a request is declined.  Lines and fields count from 1.
#[derive(Clone, Copy, Debug, PartialEq, Eq)]
pub struct Refusal {
    pub number: u32,
    pub line: usize,
    pub field: usize,
}

/// A refusal that no line is the reason of.
fn nowhere(number: u32) -> Refusal {
    let (line, field) = (0, 0);
    Refusal {
        number,
        line,
        field,
    }
}

/// Up to 8 items, in the place where they are used.
#[derive(Clone, Copy, Debug, Default, PartialEq, Eq)]
pub struct Few<T> {
    items: [T; 8],
    count: u8,
}

impl<T> Few<T> {
    fn push(&mut self, item: T) {
        self.items[usize::from(self.count)] = item;
        self.count += 1;
    }
}

impl<T> Deref for Few<T> {
    type Target = [T];

    fn deref(&self) -> &[T] {
        &self.items[..usize::from(self.count)]
    }
}

impl<T: Copy + Default> From<&[T]> for Few<T> {
    fn from(items: &[T]) -> Few<T> {
        let mut few = Few::default();
        items.iter().for_each(|item| few.push(*item));
        few
    }
}

/// Where in a list some neighbours stand.
#[derive(Clone, Copy, Debug, Default, PartialEq, Eq)]
pub struct Span {
    first: u16,
    count: u16,
}

impl Span {
    pub fn new(first: usize, count: usize) -> Span {
        Span {
            first: first as u16,
            count: count as u16,
        }
    }

    pub fn of<T>(self, list: &[T]) -> &[T] {
        &list[usize::from(self.first)..][..usize::from(self.count)]
    }
}

/// A request as read: the sheet, its last part, and the line on which the last part begins.
#[derive(Clone, Debug, PartialEq, Eq)]
pub struct Request {
    pub sheet: Sheet,
    pub part: LastPart,
    /// Line of the word of the last part; rows and events stand on the lines after it.
    pub line: usize,
}

#[derive(Clone, Debug, Default, PartialEq, Eq)]
pub struct Sheet {
    pub participants: usize,
    pub definitions: Vec<Definition>,
    /// All nodes of all definitions, in order of appearance.  The contracts that a node's
    /// branches hold appear after the node, so their numbers are higher than its own.
    pub nodes: Vec<Node>,
    /// The deposits of all definitions, one for each participant, in satoshi.
    deposits: Vec<u64>,
    /// The branches of all nodes, those of one node side by side.
    branches: Vec<Branch>,
    /// The parts of all splits, those of one split side by side.
    parts: Vec<Part>,
    /// All conditions, one behind the other.
    terms: Vec<Term>,
}

#[derive(Clone, Copy, Debug, PartialEq, Eq)]
pub struct Definition {
    /// The owner of each secret.
    pub owners: Few<u8>,
    /// The node of its contract.
    pub root: usize,
}

#[derive(Clone, Copy, Debug, PartialEq, Eq)]
pub struct Node {
    /// The definition that the node stands in; secrets are numbered within it.
    pub definition: usize,
    /// 1 for a root.
    pub depth: usize,
    branches: Span,
}

#[derive(Clone, Copy, Debug, PartialEq, Eq)]
pub struct Branch {
    /// The sum of 2^p over those who must sign.
    pub signers: u32,
    pub opens: u64,
    pub action: Action,
}

/// A branch that is still to be read.
const DUE: Branch = Branch {
    signers: 0,
    opens: 0,
    action: Action::Withdraw { to: 0 },
};

#[derive(Clone, Copy, Debug, PartialEq, Eq)]
pub enum Action {
    /// `w`: pays the balance to a participant.
    Withdraw { to: usize },
    /// `s`: parts the balance by weight.
    Split { parts: Span },
    /// `r`: needs secrets told and a condition true, then goes on as one contract.
    Reveal {
        secrets: Few<u8>,
        condition: Span,
        next: usize,
    },
    /// `g`: renews as a definition.
    Renew { definition: usize },
}

/// A part of a split: its weight and the node of its contract.
#[derive(Clone, Copy, Debug, Default, PartialEq, Eq)]
pub struct Part {
    pub weight: u64,
    pub node: usize,
}

/// A word of a condition or of an expression, with the number that goes with it; what it asks for
/// follows it.
#[derive(Clone, Copy, Debug, PartialEq, Eq)]
pub enum Term {
    True,
    And,
    Not,
    Equal,
    Less,
    Constant(u32),
    Secret(u8),
    Add,
    Subtract,
}

/// A condition: its terms in the order of the text.
#[derive(Clone, Copy, Debug, PartialEq, Eq)]
pub struct Condition<'s>(pub &'s [Term]);

impl Sheet {
    /// Adds a node whose branches are still due, and gives their places: side by side, those of the
    /// contracts in them behind.
    fn add_node(&mut self, definition: usize, depth: usize, count: usize) -> Range<usize> {
        let first = self.branches.len();
        self.branches.resize(first + count, DUE);
        self.nodes.push(Node {
            definition,
            depth,
            branches: Span::new(first, count),
        });
        first..first + count
    }

    /// The deposits of a definition.
    pub fn deposits(&self, definition: usize) -> &[u64] {
        &self.deposits[definition * self.participants..][..self.participants]
    }

    pub fn branches(&self, node: usize) -> &[Branch] {
        self.nodes[node].branches.of(&self.branches)
    }

    /// The branches of all nodes, in the order of the nodes.
    pub fn all_branches(&self) -> &[Branch] {
        &self.branches
    }

    pub fn parts(&self, parts: Span) -> &[Part] {
        parts.of(&self.parts)
    }

    pub fn condition(&self, condition: Span) -> Condition<'_> {
        Condition(condition.of(&self.terms))
    }
}

#[derive(Clone, Debug, PartialEq, Eq)]
pub enum LastPart {
    Make {
        participant: usize,
    },
    /// `make` for every participant.
    MakeAll,
    /// Why the sheet is frozen, if it is.
    Why {
        participant: usize,
    },
    Check {
        participant: usize,
        rows: Vec<Row>,
    },
    Play(Play),
}

/// The events of a play, and its values: one for each secret of definition 0, then those of renewals.
#[derive(Clone, Debug, Default, PartialEq, Eq)]
pub struct Play {
    pub stipulated: Span,
    pub events: Vec<Event>,
    pub values: Vec<Value>,
}

#[derive(Clone, Copy, Debug, PartialEq, Eq)]
pub struct Row {
    pub node: usize,
    pub branch: usize,
    pub rank: u64,
}

/// What is committed for a secret: a number, or `x`, an ill-formed commitment.
#[derive(Clone, Copy, Debug, Default, PartialEq, Eq)]
pub enum Value {
    Number(u64),
    #[default]
    IllFormed,
}

/// An event; its numbers are as short as they may be, since a play has thousands.
#[derive(Clone, Copy, Debug, PartialEq, Eq)]
pub enum Event {
    Wait {
        delay: u64,
    },
    Sign {
        participant: u8,
        contract: u32,
        branch: u32,
    },
    Tell {
        set: u32,
        secret: u32,
    },
    Fire {
        contract: u32,
        branch: u32,
    },
    /// The values stand among those of the play.
    Renew {
        contract: u32,
        branch: u32,
        values: Span,
    },
}

// ---------------------------------------------------------------------------------------------
// The reader
// ---------------------------------------------------------------------------------------------

/// What stands after the field that was read last.
#[derive(Clone, Copy, PartialEq, Eq)]
enum Next {
    /// A field of the same line (perhaps an empty one): a comma was read, or the line just begins.
    Field,
    /// The line is over: its LF was read.
    LineOver,
    /// The request is over, with no LF.
    RequestOver,
}

/// Goes over the request field by field.
struct Reader<'a> {
    request: &'a [u8],
    /// How many bytes have been read, commas and LFs counted.
    position: usize,
    line: usize,
    /// The number of the field that was read last (0 when the line begins).
    field: usize,
    next: Next,
    /// Line 1 and the `def` lines are under the limit of 32,768 bytes.
    in_sheet: bool,
    definitions_due: u64,
    /// The sheet as far as it has been read, and how many branches were begun.
    sheet: Sheet,
    branches: usize,
}

/// The kind of a branch.
#[derive(Clone, Copy)]
enum Kind {
    Withdraw,
    Split,
    Reveal,
    Renew,
}

/// What the last part asks for.
#[derive(Clone, Copy)]
enum Asked {
    Make,
    MakeAll,
    Why,
    Check,
    Play,
}

/// What an event does.
#[derive(Clone, Copy)]
enum Done {
    Wait,
    Sign,
    Tell,
    Fire,
    Renew,
}

// What the words that may be due mean.

fn kind_of(text: &[u8]) -> Option<Kind> {
    Some(match text {
        b"w" => Kind::Withdraw,
        b"s" => Kind::Split,
        b"r" => Kind::Reveal,
        b"g" => Kind::Renew,
        _ => return None,
    })
}

fn condition_word(text: &[u8]) -> Option<Term> {
    let text = rule!(text;
        LongerConditions: wrong::longer(text, wrong::CONDITION_WORDS),
        FirstLetterOfConditions: wrong::alike(text, wrong::CONDITION_WORDS),
        ShorterConditions: wrong::shorter(text, wrong::CONDITION_WORDS),
        CapitalConditions: wrong::capital(text, wrong::CONDITION_WORDS));
    Some(match text {
        b"t" => Term::True,
        b"and" => Term::And,
        b"not" => Term::Not,
        b"eq" => Term::Equal,
        b"lt" => Term::Less,
        _ => return None,
    })
}

fn expression_word(text: &[u8]) -> Option<Term> {
    let text = rule!(text;
        LongerExpressions: wrong::longer(text, wrong::EXPRESSION_WORDS),
        FirstLetterOfExpressions: wrong::alike(text, wrong::EXPRESSION_WORDS),
        ShorterExpressions: wrong::shorter(text, wrong::EXPRESSION_WORDS),
        CapitalExpressions: wrong::capital(text, wrong::EXPRESSION_WORDS));
    Some(match text {
        b"k" => Term::Constant(0),
        b"v" => Term::Secret(0),
        b"add" => Term::Add,
        b"sub" => Term::Subtract,
        _ => return None,
    })
}

fn asked_of(text: &[u8]) -> Option<Asked> {
    let text = rule!(text;
        LongerParts: wrong::longer(text, wrong::PART_WORDS),
        FirstLetterOfParts: wrong::alike(text, wrong::PART_WORDS),
        ShorterParts: wrong::shorter(text, wrong::PART_WORDS),
        CapitalParts: wrong::capital(text, wrong::PART_WORDS));
    Some(match text {
        b"make" => Asked::Make,
        b"makeall" => Asked::MakeAll,
        b"why" => Asked::Why,
        b"check" => Asked::Check,
        b"play" => Asked::Play,
        _ => return None,
    })
}

fn event_of(text: &[u8]) -> Option<Done> {
    let text = rule!(text;
        LongerEvents: wrong::longer(text, wrong::EVENT_WORDS),
        FirstLetterOfEvents: wrong::alike(text, wrong::EVENT_WORDS),
        ShorterEvents: wrong::shorter(text, wrong::EVENT_WORDS),
        CapitalEvents: wrong::capital(text, wrong::EVENT_WORDS));
    Some(match text {
        b"wait" => Done::Wait,
        b"sign" => Done::Sign,
        b"tell" => Done::Tell,
        b"fire" => Done::Fire,
        b"renew" => Done::Renew,
        _ => return None,
    })
}

/// The number of a refusal; the reader stands where it is told.
type Number = u32;

/// The faults of a field: bit n is set if number n applies.
type Faults = u32;

#[inline(always)]
fn fault(number: Number, applies: bool) -> Faults {
    u32::from(applies) << number
}

/// Of the faults that apply, the lowest number.
#[cold]
fn lowest_of(faults: Faults) -> Number {
    let numbers = (0..Faults::BITS).filter(|number| faults >> number & 1 == 1);
    numbers.reduce(|one, other| lower!(one, other)).unwrap_or(0)
}

/// What a condition may name, and how many fields it has so far: the 65th gets 7.
struct Naming {
    listed: Few<u8>,
    /// The sum of 2^j over the listed secrets j.
    listed_sum: u64,
    fields: usize,
}

/// A field, how many digits it begins with, and the number that these make.
#[derive(Clone, Copy)]
struct Field<'a> {
    text: &'a [u8],
    digits: usize,
    leading: u64,
}

/// How long the field is that the bytes begin with.  Few bytes other than its end are as low as a comma.
#[inline(always)]
fn field_length(bytes: &[u8]) -> usize {
    let ends = |byte: &u8| *byte <= b',' && matches!(byte, b',' | b'\n');
    bytes.iter().position(ends).unwrap_or(bytes.len())
}

impl<'a> Field<'a> {
    /// The field that the bytes begin with where a word is due: up to a comma or an LF, or all of them.
    #[inline(always)]
    fn of_word(bytes: &'a [u8]) -> Field<'a> {
        let (digits, leading) = (0, 0);
        let text = &bytes[..field_length(bytes)];
        Field {
            text,
            digits,
            leading,
        }
    }

    /// The same where a number is due.
    #[inline(always)]
    fn of_number(bytes: &'a [u8]) -> Field<'a> {
        let (mut digits, mut leading) = (0, 0u64);
        for byte in bytes {
            let digit = byte.wrapping_sub(b'0');
            if digit > 9 {
                break;
            }
            leading = leading.wrapping_mul(10).wrapping_add(u64::from(digit));
            digits += 1;
        }
        let text = match bytes.get(digits) {
            Some(b',' | b'\n') => &bytes[..digits],
            _ => &bytes[..digits + field_length(&bytes[digits..])],
        };
        Field {
            text,
            digits,
            leading,
        }
    }

    /// The number that the field holds: 1 to 19 digits, no sign, no leading zero.
    #[inline(always)]
    fn number(self) -> Option<u64> {
        let field = rule!(self; PlusSign: self.changed(|text| text.strip_prefix(b"+")));
        let length = field.text.len();
        let least = rule!(1; EmptyIsZero: 0);
        let length_fits = (least..=limit!(Digits, 19)).contains(&length);
        let longer = rule!(length > 1; LeadingZeros: false, ZeroIsNone: true);
        let leading_zero = longer && field.text[0] == b'0';
        if !length_fits || field.digits < length || leading_zero {
            return None;
        }
        Some(rule!(field.leading; NumbersIn32Bits: u64::from(field.leading as u32)))
    }

    /// The field with another text, if there is one.
    fn changed(self, text: impl FnOnce(&'a [u8]) -> Option<&'a [u8]>) -> Field<'a> {
        text(self.text).map_or(self, Field::of_number)
    }
}

impl<'a> Reader<'a> {
    fn new(request: &'a [u8]) -> Self {
        // Lists with room by the length of the request hardly grow while they are filled.
        let room = request.len() / 8;
        let sheet = Sheet {
            nodes: Vec::with_capacity(room.min(NODES)),
            branches: Vec::with_capacity(room.min(BRANCHES)),
            parts: Vec::with_capacity(room.min(NODES)),
            terms: Vec::with_capacity(room.min(2 * BRANCHES)),
            ..Sheet::default()
        };
        Reader {
            request,
            position: 0,
            line: 0,
            field: 0,
            next: Next::LineOver,
            in_sheet: true,
            definitions_due: 0,
            sheet,
            branches: 0,
        }
    }

    // -- lines and fields ---------------------------------------------------------------------

    /// What has not been read.
    #[inline(always)]
    fn rest(&self) -> &'a [u8] {
        &self.request[self.position..]
    }

    /// Is there another line?  An empty line is a line.
    fn line_follows(&self) -> bool {
        self.position < self.request.len()
    }

    /// Goes to the next line.  If there is none, the line's first field will be found missing.
    fn begin_line(&mut self) {
        while rule!(false; EmptyLinesSkipped: self.rest().starts_with(b"\n")) {
            (self.position, self.line) = (self.position + 1, self.line + 1);
        }
        self.line += rule!(1; MissingLineBefore: usize::from(self.line_follows()));
        self.field = 0;
        self.next = if self.line_follows() {
            Next::Field
        } else {
            Next::RequestOver
        };
    }

    /// A refusal at the field that was taken last, as every refusal while reading is.
    fn refusal(&self, number: Number) -> Refusal {
        Refusal {
            number,
            line: rule!(self.line; LinesFrom0: self.line - 1, LinesTo999: self.line % 1_000),
            field: rule!(self.field; FieldsFrom0: self.field - 1, FieldsTo9999: self.field % 10_000),
        }
    }

    /// Takes the field that is due; a missing field gets 2.
    #[inline(always)]
    fn take(&mut self, first_of: fn(&'a [u8]) -> Field<'a>) -> Result<Field<'a>, Number> {
        self.field += 1;
        if self.next != Next::Field {
            self.field -= rule!(0; MissingAtTheLast: 1);
            return Err(rule!(2; MissingIsThree: 3));
        }
        let rest = self.rest();
        let field = first_of(rest);
        let length = field.text.len();
        self.next = match rest.get(length) {
            Some(b',') => Next::Field,
            Some(_) => Next::LineOver,
            None => Next::RequestOver,
        };
        // The comma or LF counts; where the request ends without one there is nothing to count.
        self.position += length + usize::from(length < rest.len());
        let (empty, last) = (length == 0, self.next != Next::Field);
        if rule!(false; EmptyIsMissing: empty, EmptyLastIsMissing: empty && last) {
            return Err(2);
        }
        Ok(rule!(field;
            CarriageReturns: field.changed(|text| text.strip_suffix(b"\r")),
            Quotes: field.changed(wrong::unquoted),
            Spaces: field.changed(|text| Some(text.trim_ascii()))))
    }

    /// Is the field that was taken last past the limit of 32,768 bytes (7), which stands beside the
    /// faults of each field?
    #[inline(always)]
    fn too_long(&self) -> bool {
        let counted = rule!(self.position;
            EndsNotCounted: self.position - 1,
            MissingEndCounted: self.position + usize::from(self.next == Next::RequestOver));
        let in_sheet = rule!(self.in_sheet; WholeRequestLimited: true);
        in_sheet && counted > limit!(SheetBytes, SHEET_BYTES)
    }

    /// Judges the field that was taken last.
    #[inline(always)]
    fn settle(&self, faults: Faults) -> Result<(), Number> {
        let faults = faults | fault(7, self.too_long());
        if faults == 0 {
            return Ok(());
        }
        Err(lowest_of(faults))
    }

    /// The field that was taken last is not the word or number due: 3, and its other faults.
    #[cold]
    fn not_due(&self, faults: Faults) -> Number {
        lowest_of(faults | fault(3, true) | fault(7, self.too_long()))
    }

    /// The line must be over: a field too many gets 9, a missing LF gets 2.
    #[inline(always)]
    fn end_line(&mut self) -> Result<(), Number> {
        match self.next {
            Next::LineOver => Ok(()),
            _ => self.end_otherwise(),
        }
    }

    #[cold]
    fn end_otherwise(&mut self) -> Result<(), Number> {
        if self.next == Next::RequestOver {
            if rule!(false; FinalLfNotAsked: true) {
                return Ok(());
            }
            self.field += rule!(1; MissingLfAtTheLast: 0);
            return Err(2);
        }
        let empty = self.take(Field::of_word)?.text.is_empty();
        let nine = rule!(9; ExtraIsThree: 3, ExtraEmptyIsThree: if empty { 3 } else { 9 });
        let extra = rule!(true; ExtraIgnored: false, ExtraEmptyIgnored: !empty);
        self.settle(fault(nine, extra))
    }

    /// Reads a word that is due, and gives what it means.  `faults` are the other faults of this field.
    #[inline(always)]
    fn word<T>(
        &mut self,
        meaning: impl Fn(&[u8]) -> Option<T>,
        faults: Faults,
    ) -> Result<T, Number> {
        let text = self.take(Field::of_word)?.text;
        let found = rule!(meaning(text);
            Capitals: meaning(&text.to_ascii_lowercase()),
            LongerWords: (0..=text.len()).find_map(|end| meaning(&text[..end])));
        let Some(found) = found else {
            return Err(self.not_due(faults));
        };
        self.settle(faults)?;
        Ok(found)
    }

    /// Reads the one word that is due.
    #[inline(always)]
    fn only_word(&mut self, due: &'static [u8], faults: Faults) -> Result<(), Number> {
        let is_due = |text: &[u8]| {
            let (row, def) = (due == b"row", due == b"def");
            rule!(text == due;
                LongerRow: text == due || row && text.starts_with(due),
                FirstLetterOfRow: text == due || row && wrong::alike(text, &[due]) == due,
                ShorterRow: text == due || row && wrong::shorter(text, &[due]) == due,
                CapitalRow: text == due || row && text.eq_ignore_ascii_case(due),
                LongerDef: text == due || def && text.starts_with(due),
                FirstLetterOfDef: text == due || def && wrong::alike(text, &[due]) == due,
                ShorterDef: text == due || def && wrong::shorter(text, &[due]) == due,
                CapitalDef: text == due || def && text.eq_ignore_ascii_case(due))
        };
        self.word(|text| is_due(text).then_some(()), faults)
    }

    /// Reads a number.  `faults` tells, for a number, the other faults of this field.
    #[inline(always)]
    fn number(&mut self, faults: impl FnOnce(u64) -> Faults) -> Result<u64, Number> {
        let field = self.take(Field::of_number)?;
        self.number_in(field, faults)
    }

    /// Reads the number in the field that was taken last.
    #[inline(always)]
    fn number_in(&self, field: Field, faults: impl FnOnce(u64) -> Faults) -> Result<u64, Number> {
        let Some(number) = field.number() else {
            return Err(self.not_due(faults(u64::MAX)));
        };
        self.settle(faults(number))?;
        Ok(number)
    }

    /// Reads a count or an amount; beyond its range it gets 4.
    #[inline(always)]
    fn ranged(&mut self, least: u64, most: u64) -> Result<u64, Number> {
        let four = rule!(4; RangeIsSix: 6);
        self.number(|number| fault(four, number < least || number > most))
    }

    /// Reads the number of a thing of which there are `count`; if there is no such thing it gets 6.
    #[inline(always)]
    fn thing(&mut self, count: usize) -> Result<usize, Number> {
        let six = rule!(6; ThingIsFour: 4);
        let number = self.number(|number| fault(six, number >= count as u64))?;
        Ok(number as usize)
    }

    /// Reads the value of a secret.
    fn value(&mut self) -> Result<Value, Number> {
        let field = self.take(Field::of_number)?;
        if field.text == b"x" {
            self.settle(0)?;
            return Ok(Value::IllFormed);
        }
        let least = rule!(0; ValueFrom1: 1);
        let outside = |number| number > limit!(Value, VALUE) || number < least;
        let low = |number: u64| {
            rule!(number;
                ValuesIn16Bits: wrong::low(number, 16),
                ValuesIn32Bits: wrong::low(number, 32))
        };
        let number = self.number_in(field, |number| fault(4, outside(low(number))))?;
        Ok(Value::Number(low(number)))
    }

    // -- the sheet ----------------------------------------------------------------------------

    fn sheet(&mut self) -> Result<(), Number> {
        self.begin_line();
        self.only_word(b"bitml", 0)?;
        let least = limit!(LeastParticipants, 1);
        let most = limit!(Participants, PARTICIPANTS);
        let participants = rule!(self.ranged(least, most)?;
            ParticipantsIn16Bits: self.ranged_in(16, least, most)?,
            ParticipantsIn32Bits: self.ranged_in(32, least, most)?);
        self.sheet.participants = participants as usize;
        let least = limit!(LeastDefinitions, 1);
        let most = limit!(Definitions, DEFINITIONS);
        self.definitions_due = rule!(self.ranged(least, most)?;
            DefinitionsIn16Bits: self.ranged_in(16, least, most)?,
            DefinitionsIn32Bits: self.ranged_in(32, least, most)?);
        self.end_line()?;
        for _ in 0..self.definitions_due {
            self.definition()?;
        }
        while rule!(false; MoreDefinitionsRead: self.rest().starts_with(b"def")) {
            self.definition()?;
        }
        Ok(())
    }

    fn definition(&mut self) -> Result<(), Number> {
        self.begin_line();
        self.only_word(b"def", 0)?;
        self.deposits()?;
        let (least, most) = (rule!(0; SecretsFrom1: 1), limit!(Secrets, SECRETS));
        let secrets = rule!(self.ranged(least, most)?;
            SecretsIn16Bits: self.ranged_in(16, least, most)?,
            SecretsIn32Bits: self.ranged_in(32, least, most)?);
        let mut owners = Few::default();
        for _ in 0..secrets {
            owners.push(self.thing(limit!(Owner, self.sheet.participants))? as u8);
        }
        self.branches = rule!(self.branches; BranchesByDefinition: 0);
        // The definition's number is the count of those before it, and its root is the next node.
        let root = self.sheet.nodes.len();
        self.sheet.definitions.push(Definition { owners, root });
        self.contract(1)?;
        self.end_line()
    }

    fn deposits(&mut self) -> Result<(), Number> {
        let mut together = rule!(0; DepositsOfAll: self.sheet.deposits.iter().sum());
        let count = self.sheet.participants;
        for place in 1..=count {
            let told_here = rule!(true; SumAtTheLast: place == count, SumOfFifteen: place < 16);
            let deposit = self.number(|deposit| {
                let least = rule!(0; DepositFrom1: 1);
                let outside = deposit > limit!(Deposit, SATOSHI) || deposit < least;
                let sum = deposit.saturating_add(together);
                let passed = told_here && sum > limit!(Deposits, SATOSHI);
                fault(4, outside) | fault(rule!(7; SumIsFour: 4), passed)
            })?;
            together += deposit;
            self.sheet.deposits.push(deposit);
        }
        Ok(())
    }

    /// Reads a contract and gives its node.
    fn contract(&mut self, depth: usize) -> Result<usize, Number> {
        let node = self.sheet.nodes.len();
        let definition = self.sheet.definitions.len() - 1;
        let before = rule!(node; NodesByDefinition: node - self.sheet.definitions[definition].root);
        let no_room = before >= limit!(Nodes, NODES);
        let too_deep = depth > limit!(Depth, DEPTH);
        self.only_word(b"c", fault(7, no_room | too_deep))?;
        let least = rule!(0; BranchesFrom1: 1);
        let count = self.ranged(least, limit!(BranchesOfANode, BRANCHES_OF_A_NODE))? as usize;
        if rule!(false; BranchesForetold: self.branches + count > BRANCHES) {
            return Err(7);
        }
        for place in self.sheet.add_node(definition, depth, count) {
            self.sheet.branches[place] = self.branch(depth)?;
        }
        Ok(node)
    }

    /// Reads a branch of a contract at this depth.
    fn branch(&mut self, depth: usize) -> Result<Branch, Number> {
        let participants = self.sheet.participants;
        let all = limit!(Signers, number!(Range, participants));
        let no_room = self.branches >= limit!(Branches, BRANCHES);
        let six = rule!(6; SignersIsFour: 4);
        let low = |signers: u64| {
            rule!(signers;
                SignersIn16Bits: wrong::low(signers, 16),
                SignersIn32Bits: wrong::low(signers, 32))
        };
        let signers = self.number(|it| fault(six, low(it) >= all) | fault(7, no_room))?;
        let signers = low(signers);
        let signers = rule!(signers; SignersBackwards: wrong::backwards(signers, participants));
        self.branches += 1;
        let opens = self.ranged(rule!(0; OpensFrom1: 1), limit!(OpeningTime, TIME))?;
        let action = match self.word(kind_of, 0)? {
            Kind::Withdraw => {
                let count = limit!(PaidTo, participants);
                let to = rule!(self.thing(count)?;
                    PaidToIn16Bits: self.thing_in(16, count)?,
                    PaidToIn32Bits: self.thing_in(32, count)?);
                Action::Withdraw { to }
            }
            Kind::Split => self.split(depth)?,
            Kind::Reveal => self.reveal(depth)?,
            Kind::Renew => {
                let count = self.definitions_due as usize;
                let count = rule!(count; NoLaterDefinition: self.sheet.definitions.len());
                let definition = self.thing(limit!(RenewedAs, count))?;
                Action::Renew { definition }
            }
        };
        Ok(Branch {
            signers: signers as u32,
            opens,
            action,
        })
    }

    fn split(&mut self, depth: usize) -> Result<Action, Number> {
        let count = self.ranged(limit!(LeastParts, 1), limit!(Parts, PARTS))? as usize;
        let first = self.sheet.parts.len();
        self.sheet.parts.resize(first + count, Part::default());
        let mut sum = 0;
        for place in 1..=count {
            let told_here = rule!(place == count;
                ZeroSumAtTheFirst: place == 1,
                ZeroSumAllowed: false,
                ZeroSumAfter: false);
            let low = |weight: u64| {
                rule!(weight;
                    WeightsIn16Bits: wrong::low(weight, 16),
                    WeightsIn32Bits: wrong::low(weight, 32))
            };
            let weight = self.number(|weight| {
                let weight = low(weight);
                let sum = rule!(sum; EachWeightFrom1: 0) + u128::from(weight);
                let least = rule!(0; WeightFrom1: 1);
                let outside = weight > limit!(Weight, WEIGHT) || weight < least;
                fault(4, outside) | fault(8, told_here && sum == 0)
            })?;
            let weight = low(weight);
            sum += u128::from(weight);
            let node = self.contract(rule!(depth + 1; SplitsNotDeeper: depth))?;
            self.sheet.parts[first + place - 1] = Part { weight, node };
        }
        if rule!(false; ZeroSumAfter: sum == 0) {
            return Err(8);
        }
        let parts = Span::new(first, count);
        Ok(Action::Split { parts })
    }

    fn reveal(&mut self, depth: usize) -> Result<Action, Number> {
        let definitions = &self.sheet.definitions;
        let definition = rule!(definitions.len() - 1; SecretsOfDefinition0: 0);
        let owned = definitions[definition].owners.len() as u64;
        let secrets = self.listed(owned)?;
        let named = rule!(secrets;
            AnySecretNamed: Few::from(&[0, 1, 2, 3, 4, 5, 6, 7][..owned as usize]));
        let mut naming = Naming {
            listed: named,
            listed_sum: named.iter().fold(0, |sum, secret| sum | 1 << secret),
            fields: rule!(0;
                FieldsOfAllConditions: Condition(&self.sheet.terms).fields(),
                SecretsAreFields: secrets.len()),
        };
        let first = self.sheet.terms.len();
        self.condition(&mut naming)?;
        let condition = Span::new(first, self.sheet.terms.len() - first);
        let next = self.contract(rule!(depth + 1; RevealsNotDeeper: depth))?;
        Ok(Action::Reveal {
            secrets,
            condition,
            next,
        })
    }

    /// Reads the secrets of an `r` in a definition that has so many.
    fn listed(&mut self, owned: u64) -> Result<Few<u8>, Number> {
        // The count is 1 to 8 whatever the definition has; the secrets then get 5 or 6.
        let most = rule!(limit!(Listed, SECRETS); ListedAsOwned: owned);
        let count = self.ranged(limit!(LeastListed, 1), most)?;
        let mut secrets: Few<u8> = Few::default();
        for _ in 0..count {
            let secret = self.number(|secret| {
                let secret = rule!(secret;
                    ListedIn16Bits: wrong::low(secret, 16),
                    ListedIn32Bits: wrong::low(secret, 32));
                let same = |listed: &u8| u64::from(*listed) == secret;
                let twice = rule!(secrets.iter().any(same);
                    TwiceAllowed: false,
                    TwiceInARowOnly: secrets.last().is_some_and(same));
                let unknown = secret >= limit!(ListedSecret, owned);
                fault(5, twice) | fault(6, unknown)
            })?;
            secrets.push(secret as u8);
        }
        Ok(secrets)
    }

    fn condition(&mut self, naming: &mut Naming) -> Result<(), Number> {
        naming.fields += 1;
        let passed = naming.fields > limit!(FieldsAtCondition, CONDITION_FIELDS);
        let word = self.word(condition_word, fault(7, passed))?;
        self.sheet.terms.push(word);
        match word {
            Term::True => Ok(()),
            Term::Not => self.condition(naming),
            Term::And => {
                self.condition(naming)?;
                self.condition(naming)
            }
            _ => {
                self.expression(naming)?;
                self.expression(naming)
            }
        }
    }

    fn expression(&mut self, naming: &mut Naming) -> Result<(), Number> {
        naming.fields += 1;
        let passed = naming.fields > limit!(FieldsAtExpression, CONDITION_FIELDS);
        let word = self.word(expression_word, fault(7, passed))?;
        let term = match word {
            Term::Constant(_) => self.constant(naming)?,
            Term::Secret(_) => self.named(naming)?,
            sum => {
                self.sheet.terms.push(sum);
                self.expression(naming)?;
                return self.expression(naming);
            }
        };
        self.sheet.terms.push(term);
        Ok(())
    }

    #[inline(always)]
    fn constant(&mut self, naming: &mut Naming) -> Result<Term, Number> {
        naming.fields += rule!(1; NumbersNotCounted: 0);
        let passed = naming.fields > limit!(FieldsAtConstant, CONDITION_FIELDS);
        let least = rule!(0; ConstantFrom1: 1);
        let outside = |number| number > limit!(Constant, VALUE) || number < least;
        let low = |number: u64| {
            rule!(number;
                ConstantsIn16Bits: wrong::low(number, 16),
                ConstantsIn32Bits: wrong::low(number, 32))
        };
        let number = self.number(|number| fault(4, outside(low(number))) | fault(7, passed))?;
        Ok(Term::Constant(low(number) as u32))
    }

    #[inline(always)]
    fn named(&mut self, naming: &mut Naming) -> Result<Term, Number> {
        naming.fields += rule!(1; NumbersNotCounted: 0);
        let passed = naming.fields > limit!(FieldsAtSecret, CONDITION_FIELDS);
        let secret = self.number(|secret| {
            let secret = rule!(secret;
                NamedIn3Bits: wrong::low(secret, 3),
                NamedIn6Bits: wrong::low(secret, 6),
                NamedIn16Bits: wrong::low(secret, 16),
                NamedIn32Bits: wrong::low(secret, 32));
            let listed = secret < 64 && naming.listed_sum >> secret & 1 == 1;
            let known = rule!(listed; NamedByPlace: secret < naming.listed.len() as u64);
            fault(6, !known) | fault(7, passed)
        })?;
        let secret = rule!(secret as u8; NamedByPlace: naming.listed[secret as usize]);
        Ok(Term::Secret(secret))
    }

    // -- the last part ------------------------------------------------------------------------

    /// Reads the whole request, and gives the last part with its line.
    fn sheet_and_last_part(&mut self) -> Result<(usize, LastPart), Number> {
        self.sheet()?;
        self.in_sheet = false;
        let line = self.line + 1;
        Ok((line, self.last_part()?))
    }

    fn last_part(&mut self) -> Result<LastPart, Number> {
        self.begin_line();
        match self.word(asked_of, 0)? {
            Asked::Make => {
                let participant = self.thing(limit!(Maker, self.sheet.participants))?;
                self.end_line()?;
                self.end_request(rule!(0; MoreLinesAllowed: usize::MAX, EmptyLineAllowed: 1))?;
                Ok(LastPart::Make { participant })
            }
            Asked::MakeAll => {
                if rule!(false; AllAsksAField: true, AllTakesAField: self.next == Next::Field) {
                    self.thing(self.sheet.participants)?;
                }
                self.end_line()?;
                self.end_request(rule!(0; MoreLinesAfterAll: usize::MAX, EmptyLineAfterAll: 1))?;
                Ok(LastPart::MakeAll)
            }
            Asked::Why => {
                let participant = self.asker()?;
                self.end_request(rule!(0; MoreLinesAfterWhy: usize::MAX, EmptyLineAfterWhy: 1))?;
                Ok(LastPart::Why { participant })
            }
            Asked::Check => {
                let participant = self.thing(limit!(CheckedFor, self.sheet.participants))?;
                self.end_line()?;
                let rows = self.rows()?;
                Ok(LastPart::Check { participant, rows })
            }
            Asked::Play => Ok(LastPart::Play(self.play()?)),
        }
    }

    /// Reads the values of `play`, and its events.
    fn play(&mut self) -> Result<Play, Number> {
        let definition = rule!(0; ValuesOfTheLast: self.sheet.definitions.len() - 1);
        let secrets = self.sheet.definitions[definition].owners.len();
        let mut play = Play {
            stipulated: Span::new(0, secrets),
            ..Play::default()
        };
        for _ in 0..secrets {
            play.values.push(self.value()?);
        }
        self.end_line()?;
        // An event has 7 bytes at least.
        play.events.reserve_exact(self.rest().len() / 7);
        while self.line_follows() {
            let event = self.event(&mut play.values)?;
            play.events.push(event);
        }
        Ok(play)
    }

    /// Reads the participant of `why`, and the end of its line.
    fn asker(&mut self) -> Result<usize, Number> {
        let none = self.next != Next::Field;
        if rule!(false; WhyForNobody: true, WhyMayNameNobody: none) {
            self.end_line()?;
            return Ok(0);
        }
        let count = limit!(Asker, self.sheet.participants);
        let asker = self.thing(rule!(count; AskerAfterTheLine: usize::MAX))?;
        while rule!(false; WhyFieldsIgnored: self.next == Next::Field) {
            self.take(Field::of_word)?;
        }
        self.end_line()?;
        rule!((); AskerAfterTheLine: self.settle(fault(6, asker >= count))?);
        Ok(asker)
    }

    /// The request must be over but for so many bytes: a line too many gets 9, whatever stands in it.
    fn end_request(&mut self, allowed: usize) -> Result<(), Number> {
        if self.rest().len() <= allowed {
            return Ok(());
        }
        self.begin_line();
        self.field = 1;
        Err(rule!(9; ExtraLineIsThree: 3))
    }

    /// Reads the lines up to the end of the request as rows.
    fn rows(&mut self) -> Result<Vec<Row>, Number> {
        let mut rows: Vec<Row> = Vec::with_capacity(ROWS);
        while self.line_follows() {
            let row = self.row(rows.len())?;
            let twice = |before: &Row| before.node == row.node;
            let falls = |before: &&Row| before.node > row.node;
            let number = rule!(None;
                TwiceWhileReading: rows.iter().any(twice).then_some(10),
                FallWhileReading: rows.last().filter(falls).map(|_| 21));
            if let Some(number) = number {
                self.field = 0;
                return Err(number);
            }
            rows.push(row);
        }
        Ok(rows)
    }

    /// Reads a row line, after `before` others.
    fn row(&mut self, before: usize) -> Result<Row, Number> {
        self.begin_line();
        self.only_word(b"row", fault(7, before >= limit!(Rows, ROWS)))?;
        let node = self.thing(limit!(RowNode, self.sheet.nodes.len()))?;
        let branches = self.sheet.branches(node).len();
        let branch = self.thing(rule!(limit!(RowBranch, branches); RowBranchOfAny: 16))?;
        let (least, most) = (limit!(LeastRank, 1), limit!(Rank, RANK));
        let rank = rule!(self.ranged(least, most)?;
            RanksIn16Bits: self.ranged_in(16, least, most)?,
            RanksIn32Bits: self.ranged_in(32, least, most)?);
        self.end_line()?;
        Ok(Row { node, branch, rank })
    }

    /// Reads an event; the values of a renewal go behind those before.
    fn event(&mut self, values: &mut Vec<Value>) -> Result<Event, Number> {
        self.begin_line();
        let event = match self.word(event_of, 0)? {
            Done::Wait => Event::Wait {
                delay: self.ranged(limit!(LeastWait, 1), limit!(Wait, TIME))?,
            },
            Done::Sign => Event::Sign {
                participant: self.signer()?,
                contract: self.event_field(limit!(SignContract, EVENT_FIELD))?,
                branch: self.event_field(limit!(SignBranch, EVENT_FIELD))?,
            },
            Done::Tell => Event::Tell {
                set: self.event_field(limit!(TellSet, EVENT_FIELD))?,
                secret: self.event_field(limit!(TellSecret, EVENT_FIELD))?,
            },
            Done::Fire => Event::Fire {
                contract: self.event_field(limit!(FireContract, EVENT_FIELD))?,
                branch: self.event_field(limit!(FireBranch, EVENT_FIELD))?,
            },
            Done::Renew => Event::Renew {
                contract: self.event_field(limit!(RenewContract, EVENT_FIELD))?,
                branch: self.event_field(limit!(RenewBranch, EVENT_FIELD))?,
                values: self.renewed_values(values)?,
            },
        };
        let event = rule!(event;
            ContractsWrap: wrong::wrap_contract(event, 256),
            BranchesWrap: wrong::wrap_branch(event, 16),
            SetsWrap: wrong::wrap_tell(event, 32, u32::MAX),
            SecretsWrap: wrong::wrap_tell(event, u32::MAX, 8),
            ContractsIn15Bits: wrong::wrap_contract(event, 32_768),
            BranchesIn15Bits: wrong::wrap_branch(event, 32_768),
            SetsIn15Bits: wrong::wrap_tell(event, 32_768, u32::MAX),
            SecretsIn15Bits: wrong::wrap_tell(event, u32::MAX, 32_768));
        let empty = || self.next == Next::Field && self.rest().starts_with(b"\n");
        if rule!(false;
            EmptyAfterSign: empty() && matches!(event, Event::Sign { .. }),
            EmptyAfterTell: empty() && matches!(event, Event::Tell { .. }),
            EmptyAfterFire: empty() && matches!(event, Event::Fire { .. }))
        {
            return self.take(Field::of_word).map(|_| event);
        }
        self.end_line()?;
        Ok(event)
    }

    #[inline(always)]
    fn event_field(&mut self, most: u64) -> Result<u32, Number> {
        Ok(self.ranged(0, most)? as u32)
    }

    #[inline(always)]
    fn signer(&mut self) -> Result<u8, Number> {
        let count = limit!(SignedBy, self.sheet.participants) as u64;
        let four = |p| rule!(false; FarSignersAreFour: p > EVENT_FIELD);
        Ok(self.number(|p| fault(4, four(p)) | fault(6, p >= count))? as u8)
    }

    /// Reads up to 8 values; a ninth is a field too many.
    fn renewed_values(&mut self, values: &mut Vec<Value>) -> Result<Span, Number> {
        let first = values.len();
        let most = limit!(Values, SECRETS) as usize;
        while self.next == Next::Field && values.len() - first < most {
            values.push(self.value()?);
            if rule!(false; NoXInRenewals: values.last() == Some(&Value::IllFormed)) {
                return Err(3);
            }
        }
        if rule!(false; NinthValueRead: self.next == Next::Field) {
            self.value()?;
            return Err(9);
        }
        Ok(Span::new(first, values.len() - first))
    }
}

/// Reads a whole request, before anything is judged.
pub fn read(request: &[u8]) -> Result<Request, Refusal> {
    if request.len() > limit!(RequestBytes, REQUEST_BYTES) {
        return Err(Refusal {
            number: 1,
            line: rule!(0; OneOnLine1: 1),
            field: 0,
        });
    }
    let mut reader = Reader::new(request);
    let read = reader.sheet_and_last_part();
    let (line, part) = read.map_err(|number| reader.refusal(number))?;
    let sheet = reader.sheet;
    Ok(Request { sheet, part, line })
}

// ---------------------------------------------------------------------------------------------
// Runs and exits
// ---------------------------------------------------------------------------------------------

impl Branch {
    pub fn is_renewal(&self) -> bool {
        matches!(self.action, Action::Renew { .. })
    }

    pub fn is_signed_by(&self, participant: usize) -> bool {
        u64::from(self.signers) & number!(Signs, participant) != 0
    }
}

impl Sheet {
    /// The contracts that a branch holds: its parts for `s`, the one that follows for `r`.
    pub fn contracts<'s>(&'s self, branch: &Branch) -> impl Iterator<Item = usize> + Clone + 's {
        let (parts, next): (&[Part], _) = match branch.action {
            Action::Split { parts } => (self.parts(parts), None),
            Action::Reveal { next, .. } => (&[], Some(next)),
            Action::Withdraw { .. } | Action::Renew { .. } => (&[], None),
        };
        let parts = rule!(parts; FirstPartOnly: &parts[..parts.len().min(1)]);
        let counts = |part: &&Part| rule!(true; WeightlessLeftOut: part.weight > 0);
        parts
            .iter()
            .filter(counts)
            .map(|part| part.node)
            .chain(next)
    }

    /// The nodes by which a step with this branch replaces its node.
    pub fn replaced_by<'s>(&'s self, branch: &Branch) -> impl Iterator<Item = usize> + Clone + 's {
        let renewed = match branch.action {
            Action::Renew { definition } => Some(self.definitions[definition].root),
            _ => None,
        };
        self.contracts(branch).chain(renewed)
    }

    /// Is this branch of this node a step own to the participant?
    pub fn is_own(&self, node: usize, number: usize, participant: usize) -> bool {
        let branch = &self.branches(node)[number];
        let signers = u64::from(branch.signers);
        let signed_by_none_but_them = rule!(signers & !number!(Own, participant) == 0;
            SignersIgnored: true,
            NoSignerAtAll: signers == 0,
            MustSign: signers == 1 << participant,
            AmongTheSigners: signers == 0 || branch.is_signed_by(participant));
        let open = rule!(true; MustBeOpen: branch.opens == 0);
        let signed_by_none_but_them = rule!(signed_by_none_but_them;
            SignersIgnoredAnyway: signed_by_none_but_them || wrong::is_other(self, branch));
        signed_by_none_but_them && open && self.kind_is_own(node, branch, participant)
    }

    /// Whoever signs it, is the branch of a kind that is own?
    fn kind_is_own(&self, node: usize, branch: &Branch, participant: usize) -> bool {
        match &branch.action {
            Action::Withdraw { to } => rule!(true; OthersNotPaid: *to == participant),
            Action::Split { .. } => rule!(true;
                SplitsNotOwn: false,
                SplitsMustBeOpen: branch.opens == 0),
            Action::Reveal {
                secrets, condition, ..
            } => {
                let condition = self.condition(*condition);
                // The condition comes last: the secrets, one at least, are all of one participant at
                // most, so it is judged once however many participants the branch is looked at for.
                self.secrets_are_own(node, secrets, condition, participant)
                    && self.condition_is_own(node, condition)
                    && rule!(true; RevealsMustBeOpen: branch.opens == 0)
            }
            Action::Renew { .. } => rule!(false;
                RenewalsOwn: true,
                RenewalsOwnAlone: self.participants == 1),
        }
    }

    /// Are all listed secrets the participant's?
    fn secrets_are_own(
        &self,
        node: usize,
        secrets: &[u8],
        condition: Condition,
        participant: usize,
    ) -> bool {
        let definition = rule!(self.nodes[node].definition; OwnersInDefinition0: 0);
        let owners = &self.definitions[definition].owners;
        let theirs = |secret: &u8| usize::from(owners[usize::from(*secret)]) == participant;
        let other = !condition.is_t();
        rule!(secrets.iter().all(theirs);
            OwnersIgnored: true,
            OwnersIgnoredAnyway: other || secrets.iter().all(theirs),
            OneOwnedSuffices: secrets.iter().any(theirs),
            OneOwnedSufficesAnyway: secrets.iter().filter(|it| theirs(it)).count()
                >= if other { 1 } else { secrets.len() },
            FirstOwnedSuffices: theirs(&secrets[0]),
            First2OwnedSuffice: secrets.iter().take(2).all(theirs),
            First7OwnedSuffice: secrets.iter().take(7).all(theirs))
    }

    /// Does the condition count as `t`?
    fn condition_is_own(&self, node: usize, condition: Condition) -> bool {
        let other = !condition.is_t();
        let Node {
            definition, depth, ..
        } = self.nodes[node];
        rule!(condition.counts();
            AnyCondition: true,
            RevealsNotOwn: false,
            CountsInDefinition0: condition.counts() && (!other || definition == 0),
            CountsAtRoots: condition.counts() && (!other || depth == 1),
            CountsByTheFirst: wrong::first_condition(self).is_some_and(Condition::counts))
    }
}

/// For each node: does it occur in some run?  A run may step by any branch, whoever signs.
pub fn reached(sheet: &Sheet) -> Vec<bool> {
    reached_by(sheet, |_, _| true)
}

/// The same by these branches alone.
fn reached_by(sheet: &Sheet, follows: impl Fn(usize, usize) -> bool) -> Vec<bool> {
    let mut reached = vec![false; sheet.nodes.len()];
    let first = rule!(0; RunsFromTheLast: sheet.definitions.len() - 1);
    let mut to_visit = Vec::with_capacity(sheet.nodes.len());
    to_visit.push(sheet.definitions[first].root);
    while let Some(node) = to_visit.pop() {
        if !reached[node] {
            reached[node] = true;
            for (number, branch) in sheet.branches(node).iter().enumerate() {
                if follows(node, number) {
                    let next = sheet.replaced_by(branch);
                    rule!(to_visit.extend(next);
                        First2PartsFollowed: to_visit.extend(next.take(2)),
                        First7PartsFollowed: to_visit.extend(next.take(7)));
                }
            }
        }
    }
    reached
}

/// For each node: the row of the published rule if the node has an exit.
///
/// Own steps never renew, so an exit leads only to contracts that the node holds, and those have
/// higher numbers.  Going from the highest node to the lowest, their exits are known already.
pub fn exits(sheet: &Sheet, participant: usize) -> Vec<Option<Row>> {
    let mut exits: Vec<Option<Row>> = vec![None; sheet.nodes.len()];
    for node in (0..sheet.nodes.len()).rev() {
        let best = best_exit(sheet, participant, node, &exits);
        exits[node] = rule!(best; EmptyIsAnExit: best.or(wrong::done(sheet, node)));
    }
    exits
}

/// The row of one node, where those of all higher nodes are known.
#[inline]
fn best_exit(sheet: &Sheet, participant: usize, node: usize, exits: &[Option<Row>]) -> Option<Row> {
    let mut best: Option<Row> = None;
    for (number, branch) in sheet.branches(node).iter().enumerate() {
        let looked_at = rule!(true; ExitsByFirst8: number < 8, ExitsByFirst15: number < 15);
        if !looked_at || !sheet.is_own(node, number, participant) {
            continue;
        }
        let rank_of = |part: usize| {
            let rank = exits[part].map(|row| row.rank);
            rule!(rank; ExitsNotAsked: rank.or(Some(0)))
        };
        // None if some contract of the branch has no exit.
        let mut ranks = sheet.contracts(branch).map(rank_of);
        let sum: Option<u64> = rule!(ranks.sum();
            ExitsOfFirst2: ranks.take(2).sum(),
            ExitsOfFirst7: ranks.take(7).sum(),
            MadeByLargest: ranks.try_fold(0, |largest, rank| Some(rank?.max(largest))));
        let Some(sum) = sum else {
            continue;
        };
        let rank = rule!(1; MadeWithout1: 0) + sum;
        let rank = rule!(rank;
            MadeStopsAt32: rank.min(32),
            MadeStopsAt255: rank.min(255),
            MadeInAByte: rank & 255);
        // Only a lower rank takes the place of an earlier branch.
        let better = |row: Row| {
            rule!(rank < row.rank;
                TiesToTheHigher: rank <= row.rank,
                FirstBranch: false,
                LastBranch: true)
        };
        if best.map_or(true, better) {
            best = Some(Row {
                node,
                branch: number,
                rank,
            });
        }
    }
    best
}

// ---------------------------------------------------------------------------------------------
// Rows
// ---------------------------------------------------------------------------------------------

/// The published rows, in rising node order, or the lowest reached node with no exit.
pub fn make(sheet: &Sheet, participant: usize) -> Result<Vec<Row>, usize> {
    make_where(sheet, participant, &reached(sheet))
}

/// The same where it is known which nodes are reached.
fn make_where(sheet: &Sheet, participant: usize, reached: &[bool]) -> Result<Vec<Row>, usize> {
    let participant = rule!(participant; MadeForTheFirst: 0);
    let exits = exits(sheet, participant);
    let branch = |node: usize, number: usize| &sheet.branches(node)[number];
    let exit = |node: usize, number: usize| exits[node].is_some_and(|row| row.branch == number);
    let own = |node: usize, number: usize| sheet.is_own(node, number, participant);
    let is_false = |node: usize, number: usize| wrong::is_false(sheet, branch(node, number));
    let otherwise = rule!(None;
        EveryNode: Some(vec![true; sheet.nodes.len()]),
        RootAlone: Some(reached_by(sheet, |_, _| false)),
        First8BranchesFollowed: Some(reached_by(sheet, |_, number| number < 8)),
        First15BranchesFollowed: Some(reached_by(sheet, |_, number| number < 15)),
        ExitPathOnly: Some(reached_by(sheet, exit)),
        OwnBranchesOnly: Some(reached_by(sheet, own)),
        OpenBranchesOnly: Some(reached_by(sheet, |node, number| branch(node, number).opens == 0)),
        UnsignedBranchesOnly: Some(reached_by(sheet, |node, number| branch(node, number).signers == 0)),
        RenewalsNotFollowed: Some(reached_by(sheet, |node, number| !branch(node, number).is_renewal())),
        LaterRevealsNotFollowed: Some(reached_by(sheet, wrong::but(sheet, wrong::is_later_reveal))),
        LaterRenewalsNotFollowed: Some(reached_by(sheet, wrong::but(sheet, wrong::is_later_renewal))),
        SignedRevealsNotFollowed: Some(reached_by(sheet, wrong::but(sheet, wrong::is_signed_reveal))),
        SignedRenewalsNotFollowed: Some(reached_by(sheet, wrong::but(sheet, wrong::is_signed_renewal))),
        FalseNotFollowed: Some(reached_by(sheet, |node, number| !is_false(node, number))));
    let reached = otherwise.as_deref().unwrap_or(reached);
    let mut nodes = (0..sheet.nodes.len()).filter(|node| reached[*node]);
    let frozen = |node: &usize| exits[*node].is_none();
    let found = rule!(nodes.clone().find(frozen);
        FrozenOnSight: Some(0),
        FrozenNamesTheHighest: nodes.rfind(frozen),
        FrozenNamesTheRoot: nodes.find(frozen).map(|_| 0));
    if let Some(node) = found {
        return Err(node);
    }
    let mut rows = Vec::with_capacity(sheet.nodes.len());
    rows.extend(nodes.filter_map(|node| exits[node]));
    rule!(();
        MadeFalling: rows.reverse(),
        MadeByRank: rows.sort_by_key(|row| row.rank),
        MadeAsWalkedDeep: wrong::as_walked(sheet, &mut rows, true),
        MadeAsWalkedWide: wrong::as_walked(sheet, &mut rows, false));
    Ok(rows)
}

/// A number, and the place of the row at whose line it is told; with no row at the line of `check`.
type Fault = (u32, Option<usize>);

/// Judges rows from anyone.  `line` is the line of the word `check`.
pub fn check(sheet: &Sheet, participant: usize, rows: &[Row], line: usize) -> Result<(), Refusal> {
    let participant = rule!(participant; CheckedForTheFirst: 0);
    rule!((); AllRowsAccepted: return Ok(()));
    let (rank_of, twice) = ranks(sheet, rows);
    // What is asked over all rows comes first, then the rest row by row.
    let by_row = |(place, row): (usize, &Row)| {
        let number = row_fault(sheet, participant, row, &rank_of);
        let number = rule!(number;
            TwiceRowByRow: if wrong::first_of(rows, row.node) < place { Some(10) } else { number },
            FallRowByRow: if wrong::falls(rows, place) { Some(21) } else { number },
            UnreachedNotJudged: number.filter(|_| reached(sheet)[row.node]));
        number.map(|number| (number, Some(place)))
    };
    let mut by_row = rows.iter().enumerate().filter_map(by_row);
    let found = fault_of_all(sheet, rows, &rank_of, twice).or_else(|| {
        rule!(by_row.next();
            NumberByNumber: by_row.min_by_key(|(number, _)| *number),
            FallAfterAll: by_row.next().or(falling(rows).map(|place| (21, Some(place)))))
    });
    let Some((number, place)) = found else {
        return Ok(());
    };
    let line = line + place.map_or(0, |place| place + rule!(1; RowLinesOneEarly: 0));
    let field = rule!(0; RowsAtField1: 1, FallAtTheNode: if number == 21 { 2 } else { 0 });
    Err(Refusal {
        number,
        line,
        field,
    })
}

/// The rank of each node with a row, up to the first row whose node an earlier one has; and the place of
/// that row.
fn ranks(sheet: &Sheet, rows: &[Row]) -> (Vec<Option<u64>>, Option<usize>) {
    let mut rank_of: Vec<Option<u64>> = vec![None; sheet.nodes.len()];
    for (place, row) in rows.iter().enumerate() {
        let again = rank_of[row.node].replace(row.rank).is_some();
        let again = rule!(again;
            TwiceRowAllowed: false,
            TwiceRowByRow: false,
            SameRowAllowed: again && !rows[..place].contains(row),
            TwiceAmongNeighbours: again && rows[place - 1].node == row.node);
        if again {
            return (rank_of, Some(place));
        }
    }
    (rank_of, None)
}

/// The place of the first row whose node is below that of the row before it.
fn falling(rows: &[Row]) -> Option<usize> {
    let falls = |place: &usize| {
        let (before, node) = (rows[place - 1].node, rows[*place].node);
        rule!(node < before;
            OrderNotAsked: false,
            FallingAsked: node > before,
            GapsRefused: node != before + 1,
            ComparedWithTheFirst: node < rows[0].node,
            ComparedAsTexts: node.to_string() < before.to_string(),
            ComparedAsBytes: (node as u8) < before as u8)
    };
    let from = rule!(1; SecondNotCompared: 2);
    let to = rule!(rows.len(); LastNotCompared: rows.len().saturating_sub(1));
    let mut places = (from..to).filter(falls);
    let place = rule!(places.next(); FallAtTheLast: places.last());
    let above_zero = || rows.first().map(|row| row.node > 0);
    rule!(place;
        FallAtTheEarlier: place.map(|place| place - 1),
        FirstIsZero: if above_zero() == Some(true) { Some(0) } else { place },
        FirstAboveZero: if above_zero() == Some(false) { Some(0) } else { place })
}

/// "10 over all rows", 21 "over all rows after 10 and before 11", then "11 for the root".
fn fault_of_all(
    sheet: &Sheet,
    rows: &[Row],
    rank_of: &[Option<u64>],
    twice: Option<usize>,
) -> Option<Fault> {
    let twice = twice.map(|place| {
        let number = rule!(10;
            AgainNextIs21: wrong::again(rows, place, |before, node| before == node),
            AgainBelowIs21: wrong::again(rows, place, |before, node| before > node));
        let place = rule!(place;
            TwiceAtTheFirst: wrong::first_of(rows, rows[place].node),
            TwiceAtTheLast: wrong::last_twice(rows));
        (number, Some(place))
    });
    let number = rule!(21; FallIs20: 20, FallIs22: 22);
    let fall = || falling(rows).map(|place| (number, rule!(Some(place); FallAtCheck: None)));
    let first = rule!(0; RootOfTheLast: sheet.definitions.len() - 1);
    let missing = rank_of[sheet.definitions[first].root].is_none();
    let missing = rule!(missing; RootNotAsked: false, AllRowsDeclined: true);
    let root = missing.then_some((11, rule!(None; RootAtTheFirstRow: Some(0))));
    let both = || twice.into_iter().chain(fall()).min_by_key(|fault| fault.1);
    rule!(twice.or_else(fall).or(root);
        RootBeforeTwice: root.or(twice).or_else(fall),
        FallBeforeTwice: fall().or(twice).or(root),
        FirstOfBoth: both().or(root),
        FallAfterTheRoot: twice.or(root).or_else(fall),
        FallRowByRow: twice.or(root),
        FallAfterAll: twice.or(root))
}

/// Of 11, 12 and 13 the lowest that applies to a row.
fn row_fault(sheet: &Sheet, participant: usize, row: &Row, rank_of: &[Option<u64>]) -> Option<u32> {
    let own = |number: &usize| sheet.is_own(row.node, *number, participant);
    let branches = sheet.branches(row.node);
    let asks = |number: &usize| {
        rule!(true;
            RowsOfTheBranchOnly: *number == row.branch,
            RowsOfOwnOnly: own(number),
            RowsOfFalseNotAsked: !wrong::is_false(sheet, &branches[*number]),
            RowsOfRenewalsNotAsked: !branches[*number].is_renewal(),
            RowsOfEarlierRenewalsNotAsked: *number >= row.branch || !branches[*number].is_renewal(),
            RowsOfFirst8Branches: *number < 8,
            RowsOfFirst15Branches: *number < 15,
            RowsOfOpenOnly: branches[*number].opens == 0,
            RowsOfUnsignedOnly: branches[*number].signers == 0)
    };
    let asking = (0..branches.len()).filter(asks);
    let contracts = |number: usize| sheet.replaced_by(&branches[number]);
    let lacks = |node: usize| rank_of[node].is_none();
    let missing = rule!(asking.flat_map(contracts).any(lacks);
        RowsOfFirst2: asking.flat_map(|number| contracts(number).take(2)).any(lacks),
        RowsOfFirst7: asking.flat_map(|number| contracts(number).take(7)).any(lacks));
    let parts = sheet.contracts(&branches[row.branch]);
    let ranks = parts.clone().filter_map(|node| rank_of[node]);
    let sum: u64 = rule!(ranks.sum();
        RankByLargest: ranks.max().unwrap_or(0),
        RankOfFirst2: ranks.take(2).sum(),
        RankOfFirst7: ranks.take(7).sum(),
        RankByPublished: wrong::published(sheet, participant, parts));
    let least = rule!(1; RankWithout1: 0) + sum;
    let too_low = rule!(row.rank < least;
        RankAnything: false,
        RankExact: row.rank != least,
        RankAbove: row.rank <= least,
        RanksWrap: row.rank < least % 65_536,
        RanksStop: row.rank < least.min(65_535));
    lowest!(11: missing, 12: !own(&row.branch), 13: too_low)
}

// ---------------------------------------------------------------------------------------------
// Why a sheet is frozen
// ---------------------------------------------------------------------------------------------

/// A step of an abstract run: the node that it replaces, and by which branch.
pub type Step = (usize, usize);

/// For each node, the least count of steps by these branches from it alone to a list that holds `goal`.
fn steps_away(
    sheet: &Sheet,
    goal: usize,
    follows: &impl Fn(usize, usize) -> bool,
) -> Vec<Option<usize>> {
    let before = Before::of(sheet, follows);
    let mut away = vec![None; sheet.nodes.len()];
    away[goal] = Some(0);
    let mut found = VecDeque::with_capacity(sheet.nodes.len());
    found.push_back((goal, 0));
    while let Some((node, steps)) = found.pop_front() {
        for earlier in before.nodes(node) {
            if away[earlier].is_none() {
                away[earlier] = Some(steps + 1);
                found.push_back((earlier, steps + 1));
            }
        }
    }
    away
}

/// For each node the nodes from which a step leads to it, chained in one list.
struct Before {
    /// The last entry of each node.
    last: Vec<Option<usize>>,
    /// A node, and the entry before for the same node that it leads to.
    entries: Vec<(usize, Option<usize>)>,
}

impl Before {
    fn of(sheet: &Sheet, follows: &impl Fn(usize, usize) -> bool) -> Before {
        let mut before = Before {
            last: vec![None; sheet.nodes.len()],
            entries: Vec::with_capacity(sheet.nodes.len() + sheet.branches.len()),
        };
        for node in 0..sheet.nodes.len() {
            let numbers = 0..sheet.branches(node).len();
            for number in numbers.filter(|number| follows(node, *number)) {
                for next in step_to(sheet, (node, number)) {
                    let entry = before.entries.len();
                    let earlier = before.last[next].replace(entry);
                    before.entries.push((node, earlier));
                }
            }
        }
        before
    }

    fn nodes(&self, node: usize) -> impl Iterator<Item = usize> + '_ {
        let entry = |place: usize| self.entries[place];
        let first = self.last[node].map(entry);
        std::iter::successors(first, move |(_, earlier)| earlier.map(entry)).map(|(node, _)| node)
    }
}

/// The nodes that a step puts in the place of its node.
fn step_to(sheet: &Sheet, (node, number): Step) -> impl Iterator<Item = usize> + '_ {
    let nodes = sheet.replaced_by(&sheet.branches(node)[number]);
    let (skipped, taken) = rule!((0, usize::MAX);
        StepsToTheFirstPart: (0, 1),
        StepsToFirst2Parts: (0, 2),
        StepsToFirst7Parts: (0, 7),
        StepsToTheLastPart: (nodes.clone().count().saturating_sub(1), 1));
    nodes.skip(skipped).take(taken)
}

/// Of the shortest runs by these branches to a list that holds `goal`, the first when compared step by
/// step by node, then branch.
pub fn run_to(sheet: &Sheet, goal: usize, follows: impl Fn(usize, usize) -> bool) -> Vec<Step> {
    let away = steps_away(sheet, goal, &follows);
    let first = rule!(0; StepsFromTheLast: sheet.definitions.len() - 1);
    let mut list = vec![sheet.definitions[first].root];
    let mut run = Vec::new();
    // What a step leaves in the list is further away than what it puts there, so that no shortest run
    // comes back to it.
    while let Some(step) = next_step(sheet, &list, &away, &follows) {
        list.clear();
        list.extend(step_to(sheet, step));
        run.push(step);
    }
    run
}

/// The next step of that run, if the list does not hold its goal.
fn next_step(
    sheet: &Sheet,
    list: &[usize],
    away: &[Option<usize>],
    follows: &impl Fn(usize, usize) -> bool,
) -> Option<Step> {
    let nearest = list.iter().filter_map(|node| away[*node]).min()?;
    let after = nearest.checked_sub(1)?;
    let leads = |step: &Step| {
        let mut next = step_to(sheet, *step);
        follows(step.0, step.1) && next.any(|node| away[node] == Some(after))
    };
    let steps = list
        .iter()
        .filter(|node| away[**node] == Some(nearest))
        .flat_map(|node| (0..sheet.branches(*node).len()).map(|number| (*node, number)));
    let steps = steps.filter(leads);
    rule!(steps.min();
        LastRun: steps.max(),
        HighestNodeFirst: steps.min_by_key(|step| (Reverse(step.0), step.1)),
        HighestBranchFirst: steps.min_by_key(|step| (step.0, Reverse(step.1))),
        BranchBeforeNode: steps.min_by_key(|step| (step.1, step.0)),
        StepNodesAsTexts: steps.min_by_key(|step| (step.0.to_string(), step.1)),
        StepBranchesAsTexts: steps.min_by_key(|step| (step.0, step.1.to_string())),
        StepNodesAsBytes: steps.min_by_key(|step| (step.0 as u8, step.1)))
}

/// The run that `why` tells.
fn told_run(sheet: &Sheet, participant: usize, frozen: usize) -> Vec<Step> {
    let branch = |node: usize, number: usize| &sheet.branches(node)[number];
    let is_false = |node: usize, number: usize| wrong::is_false(sheet, branch(node, number));
    let own = |node: usize, number: usize| sheet.is_own(node, number, participant);
    let mut run = rule!(run_to(sheet, frozen, |_, _| true);
        OwnStepsOnly: run_to(sheet, frozen, own),
        StepsByFirst8: run_to(sheet, frozen, |_, number| number < 8),
        StepsByFirst15: run_to(sheet, frozen, |_, number| number < 15),
        OpenStepsOnly: run_to(sheet, frozen, |node, number| branch(node, number).opens == 0),
        UnsignedStepsOnly: run_to(sheet, frozen, |node, number| branch(node, number).signers == 0),
        NoStepsByRenewals: run_to(sheet, frozen, |node, number| !branch(node, number).is_renewal()),
        NoStepsByLaterReveals: run_to(sheet, frozen, wrong::but(sheet, wrong::is_later_reveal)),
        NoStepsByLaterRenewals: run_to(sheet, frozen, wrong::but(sheet, wrong::is_later_renewal)),
        NoStepsBySignedRenewals: run_to(sheet, frozen, wrong::but(sheet, wrong::is_signed_renewal)),
        NoFalseSteps: run_to(sheet, frozen, |node, number| !is_false(node, number)),
        AnyRun: wrong::any_run(sheet, frozen),
        RunFromTheEnd: wrong::run_from_the_end(sheet, frozen),
        RunByNodes: wrong::run_by_nodes(sheet, &steps_away(sheet, frozen, &|_, _| true)),
        RunToTheNearest: wrong::run_to_the_nearest(sheet, participant));
    rule!(();
        FirstStepUntold: drop(run.drain(..run.len().min(1))),
        LastStepUntold: run.truncate(run.len().saturating_sub(1)),
        StepsBackwards: run.reverse(),
        StepFromTheFrozen: run.push((frozen, 0)),
        StepFromTheRoot: if run.is_empty() { run.push((frozen, 0)) },
        StepsNameTheNext: wrong::name_the_next(&mut run, frozen),
        StepsByDefinition: wrong::count_by_definition(&mut run, sheet),
        StepNodesFrom1: run.iter_mut().for_each(|step| step.0 += 1),
        StepBranchesFrom1: run.iter_mut().for_each(|step| step.1 += 1));
    run
}

/// Why the branch is not an exit, the lowest cause that applies.
pub fn cause(
    sheet: &Sheet,
    participant: usize,
    node: usize,
    number: usize,
    exits: &[Option<Row>],
) -> u32 {
    let branch = &sheet.branches(node)[number];
    let definition = rule!(sheet.nodes[node].definition; CauseByDefinition0: 0);
    let owners = &sheet.definitions[definition].owners;
    let (anothers, doubtful) = match &branch.action {
        Action::Reveal {
            secrets, condition, ..
        } => {
            let condition = sheet.condition(*condition);
            (
                secret_is_anothers(owners, secrets, condition, participant),
                condition_is_cause(condition),
            )
        }
        _ => (false, false),
    };
    let causes = [
        (1, another_signs(branch, participant)),
        (2, anothers),
        (3, doubtful),
        (4, rule!(branch.is_renewal(); RenewalsAreNoCause: false)),
        (5, lacks_an_exit(sheet, branch, exits)),
    ];
    let applying = causes.iter().filter(|(_, applies)| *applies);
    let numbers = applying.map(|(number, _)| *number);
    let told = rule!(numbers.reduce(|one, other| cause!(one, other)); LastCause: numbers.max());
    told.unwrap_or(0)
}

/// 1: is anyone but the participant among the signers?
fn another_signs(branch: &Branch, participant: usize) -> bool {
    let others = u64::from(branch.signers) & !number!(Cause, participant) != 0;
    let along = branch.signers >> participant & 1 == 1;
    rule!(others;
        SignedAlongIsNoCause: others && !along,
        OwnSignatureIsACause: branch.signers != 0,
        SignersOfRenewalsAreNoCause: others && !branch.is_renewal(),
        SignersOfSplitsAreNoCause: others && !matches!(branch.action, Action::Split { .. }),
        SignersOfRevealsAreNoCause: others && !matches!(branch.action, Action::Reveal { .. }),
        SignersAreNoCause: false)
}

/// 2: is a listed secret another's?
fn secret_is_anothers(
    owners: &[u8],
    secrets: &[u8],
    condition: Condition,
    participant: usize,
) -> bool {
    let is_anothers = |secret: u8| usize::from(owners[usize::from(secret)]) != participant;
    let mut anothers = secrets.iter().filter(|secret| is_anothers(**secret));
    rule!(anothers.next().is_some();
        OwnSecretsAreACause: true,
        NamedSecretsOnly: anothers.any(|secret| wrong::names(condition, *secret)),
        UnnamedSecretsOnly: anothers.any(|secret| !wrong::names(condition, *secret)),
        AllSecretsAnothers: anothers.count() == secrets.len(),
        FirstSecretAnothers: is_anothers(secrets[0]),
        LastSecretAnothers: is_anothers(secrets[secrets.len() - 1]),
        First2SecretsOnly: secrets.iter().take(2).any(|secret| is_anothers(*secret)),
        First7SecretsOnly: secrets.iter().take(7).any(|secret| is_anothers(*secret)),
        SecretsAreNoCause: false)
}

/// 3: does the condition not count as `t`?
fn condition_is_cause(condition: Condition) -> bool {
    let value = || condition.holds(|_| None);
    rule!(!condition.counts();
        FalseIsNoCause: value().is_none(),
        NamingIsNoCause: value() == Some(false),
        OtherThanTIsACause: !condition.is_t(),
        ConditionsAreNoCause: false)
}

/// 5: does a contract in the branch lack an exit?
fn lacks_an_exit(sheet: &Sheet, branch: &Branch, exits: &[Option<Row>]) -> bool {
    let contracts = sheet.contracts(branch);
    let mut without = contracts.clone().map(|node| exits[node].is_none());
    rule!(without.any(|without| without);
        AllLackExits: contracts.count() > 0 && without.all(|without| without),
        FirstLacksAnExit: without.next() == Some(true),
        LastLacksAnExit: without.last() == Some(true),
        First2LackAnExit: without.take(2).any(|without| without),
        First7LackAnExit: without.take(7).any(|without| without))
}

/// A line for each branch of the frozen node: its number and its cause.
fn put_causes(sheet: &Sheet, participant: usize, frozen: usize, text: &mut Text) {
    let exits = exits(sheet, participant);
    let node = rule!(frozen; CausesOfTheRoot: 0);
    let count = sheet.branches(node).len();
    let told = rule!(count;
        CauseOfTheFirst: count.min(1),
        CausesButTheLast: count.saturating_sub(1));
    for place in 0..told {
        let number = rule!(place; CausesFalling: count - 1 - place);
        let of = rule!(number; CauseOfTheNext: (number + 1) % count);
        let cause = cause(sheet, participant, node, of, &exits);
        let number = rule!(number; CausesFrom1: number + 1);
        let cause = rule!(cause; CausesOneLess: cause.wrapping_sub(1));
        text.line("branch", [number as u64, u64::from(cause)]);
    }
}

/// The run to the frozen node.
fn put_steps(sheet: &Sheet, participant: usize, frozen: usize, text: &mut Text) {
    for (node, branch) in told_run(sheet, participant, frozen) {
        text.line("step", [node as u64, branch as u64]);
    }
}

/// What is told of a frozen sheet.
#[derive(Clone, Copy)]
enum Told {
    Frozen,
    Steps,
    Causes,
}

/// What `why` answers: the last line of `make`, and if that is `frozen` a run to the node and what is wrong
/// with its branches.
fn why(sheet: &Sheet, participant: usize, text: &mut Text) {
    let participant = rule!(participant; WhyForTheFirst: 0);
    let frozen = match make(sheet, participant) {
        Ok(rows) => {
            rule!((); WhyPrintsRows: rows.iter().for_each(|row| put_row(sheet, row, text)));
            return rule!(put_liquid(sheet, participant, &rows, text); LiquidUntold: ());
        }
        Err(frozen) => frozen,
    };
    let told: &[Told] = rule!(&[Told::Frozen, Told::Steps, Told::Causes];
        FrozenUntold: &[Told::Steps, Told::Causes],
        FrozenLast: &[Told::Steps, Told::Causes, Told::Frozen],
        FrozenBetween: &[Told::Steps, Told::Frozen, Told::Causes],
        CausesBeforeSteps: &[Told::Frozen, Told::Causes, Told::Steps],
        StepsAlone: &[Told::Frozen, Told::Steps],
        CausesAlone: &[Told::Frozen, Told::Causes]);
    for told in told {
        match told {
            Told::Frozen => text.line("frozen", [participant as u64, frozen as u64]),
            Told::Steps => put_steps(sheet, participant, frozen, text),
            Told::Causes => put_causes(sheet, participant, frozen, text),
        }
    }
}

// ---------------------------------------------------------------------------------------------
// The ledger
// ---------------------------------------------------------------------------------------------

/// What is committed, and which secrets are told: the sum of 2^j over those.
#[derive(Clone, Copy, Debug, Default, PartialEq, Eq)]
pub struct Commitments {
    pub values: Few<Value>,
    told: u32,
}

impl Commitments {
    fn of(values: &[Value]) -> Commitments {
        Commitments {
            values: Few::from(values),
            told: 0,
        }
    }

    pub fn is_told(&self, secret: usize) -> bool {
        self.told >> secret & 1 == 1
    }
}

#[derive(Clone, Copy, Debug, PartialEq, Eq)]
pub struct Contract {
    pub node: usize,
    pub balance: u64,
    /// The number of its commitment set.
    pub set: usize,
    /// For each branch, the sum of 2^p over those who have signed it.
    pub signed: [u32; BRANCHES_OF_A_NODE as usize],
    pub alive: bool,
}

/// The program's ledger.
#[derive(Clone, Debug, PartialEq, Eq)]
pub struct Ledger {
    pub time: u64,
    /// Contracts, numbered as made; dead ones keep their number.
    pub contracts: Vec<Contract>,
    pub sets: Vec<Commitments>,
    /// What each participant has been paid.
    pub paid: Vec<u64>,
    /// The deposits of stipulation and of every taken renewal.
    pub deposits_taken: u64,
}

/// `add`.
#[inline(always)]
fn sum(left: i64, right: i64) -> i64 {
    rule!(left + right;
        AddIsSub: left - right,
        AddIsFirst: left,
        AddIsSecond: right,
        AddIn32Bits: i64::from((left + right) as i32),
        AddStops: (left + right).min(VALUE as i64),
        AddStopsAt31Bits: (left + right).clamp(i32::MIN.into(), i32::MAX.into()),
        AddStopsAt32Bits: (left + right).min(u32::MAX.into()),
        AddStopsBelow: (left + right).max(i32::MIN.into()))
}

/// `sub`.
#[inline(always)]
fn difference(left: i64, right: i64) -> i64 {
    rule!(left - right;
        SubIsAdd: left + right,
        SubIsFirst: left,
        SubIsSecond: right,
        SubAbsolute: (left - right).abs(),
        SubClipped: (left - right).max(0),
        SubTurned: right - left,
        SubIn32Bits: i64::from((left - right) as i32),
        SubStops: (left - right).max(-(VALUE as i64)),
        SubStopsAt31Bits: (left - right).max(i32::MIN.into()),
        SubStopsAt32Bits: (left - right).max(-i64::from(u32::MAX)),
        SubStopsAbove: (left - right).min(i32::MAX.into()))
}

/// `and`.
#[inline(always)]
fn both(left: bool, right: bool) -> bool {
    rule!(left & right; AndIsOr: left || right, AndIsLeft: left, AndIsRight: right)
}

/// `eq`.
#[inline(always)]
fn equal(left: i64, right: i64) -> bool {
    rule!(left == right;
        EqIsUnequal: left != right,
        EqIsAtMost: left <= right,
        EqIsAtLeast: left >= right,
        EqOfSizes: left.abs() == right.abs(),
        EqIn32Bits: left as i32 == right as i32,
        EqInFloats: left as f32 == right as f32)
}

/// `lt`.
#[inline(always)]
fn less(left: i64, right: i64) -> bool {
    rule!(left < right;
        LtIsGreater: left > right,
        LtIsAtMost: left <= right,
        LtIsUnequal: left != right,
        LtUnsigned: (left as u64) < right as u64,
        LtOfSizes: left.abs() < right.abs(),
        LtIn32Bits: (left as i32) < right as i32,
        LtInUnsigned32Bits: left < right && (left < 0 || (left as u32) < right as u32),
        LtInFloats: (left as f32) < right as f32)
}

/// What a term makes of the two values that it asks for; those of conditions are 0 and 1.  None if it asks
/// for less.
#[inline(always)]
fn joined(term: Term, left: i64, right: i64) -> Option<i64> {
    Some(match term {
        Term::Add => sum(left, right),
        Term::Subtract => difference(left, right),
        Term::And => i64::from(both(left == 1, right == 1)),
        Term::Equal => i64::from(equal(left, right)),
        Term::Less => i64::from(less(left, right)),
        Term::True | Term::Not | Term::Constant(_) | Term::Secret(_) => return None,
    })
}

/// What the last of these terms makes of two values, if it asks for two, and the terms before it.
#[inline(always)]
fn joined_before(terms: &[Term], left: i64, right: i64) -> Option<(i64, &[Term])> {
    let (term, before) = terms.split_last()?;
    Some((joined(*term, left, right)?, before))
}

impl Condition<'_> {
    /// Is it the one field `t`?
    pub fn is_t(self) -> bool {
        self.0 == [Term::True]
    }

    /// How many fields it has.
    pub fn fields(self) -> usize {
        let numbered = |term: &&Term| matches!(term, Term::Constant(_) | Term::Secret(_));
        self.0.len() + self.0.iter().filter(numbered).count()
    }

    /// Is it true?  None if it names a secret that has no value, also in a part that can't matter.
    ///
    /// From the last term to the first, so that the values that a term asks for are found before it: the
    /// first of two comes last.
    #[inline]
    pub fn holds(self, secret: impl Fn(usize) -> Option<i64>) -> Option<bool> {
        let mut terms = self.0;
        // The value that was found last, and those before it that nothing has asked for yet.
        let (mut last, mut waiting, mut count) = (0, [0; CONDITION_FIELDS / 2 + 1], 0);
        while let [before @ .., term] = terms {
            terms = before;
            let value = match *term {
                Term::Constant(number) => i64::from(number),
                Term::Secret(number) => secret(usize::from(number))?,
                Term::True => i64::from(rule!(true; TrueIsFalse: false)),
                Term::Not => {
                    let part = last == 1;
                    last = i64::from(rule!(!part; NotIsNothing: part));
                    continue;
                }
                term => {
                    count -= 1;
                    last = joined(term, last, waiting[count])?;
                    continue;
                }
            };
            // Most often the term before asks for this value and then for the one before it.
            if let Some((value, before)) = joined_before(terms, value, last) {
                (last, terms) = (value, before);
                continue;
            }
            waiting[count] = last;
            count += 1;
            last = value;
        }
        Some(last == 1)
    }

    /// Does it count as `t` where a branch may be own: does it name no secret, and is it true?
    pub fn counts(self) -> bool {
        let value = asking!(self.holds(|_| None));
        let true_with = |value: i64| self.holds(|_| Some(value)) == Some(true);
        rule!(value == Some(true);
            OnlyT: self.is_t(),
            ComparedCountOnly: value == Some(true) && wrong::is_flat(self),
            SumsDoNotCount: value == Some(true) && !wrong::has_sums(self),
            LongestDoNotCount: value == Some(true) && self.fields() < CONDITION_FIELDS,
            FalseCounts: value.is_some(),
            TrueForZeros: true_with(0),
            TrueForOnes: true_with(1),
            TrueForAll: [0, 1, 2, 9, VALUE as i64].into_iter().all(true_with),
            TrueForTheirNumbers: self.holds(|secret| Some(secret as i64)) == Some(true),
            SecretZeroOverlooked: self.holds(|it| (it == 0).then_some(0)) == Some(true),
            OneIsNamed: value == Some(true) && !wrong::has_one(self, false),
            OneOrAndIsNamed: value == Some(true) && !wrong::has_one(self, true),
            FalseAndDecides: wrong::lazily(self, [true, false]) == Some(true),
            FalseBehindDecides: wrong::lazily(self, [false, true]) == Some(true),
            UnnamedInNot: wrong::overlooks(self, Operand::OfNot),
            UnnamedFirstInAnd: wrong::overlooks(self, Operand::FirstOfAnd),
            UnnamedSecondInAnd: wrong::overlooks(self, Operand::SecondOfAnd),
            UnnamedFirstInEq: wrong::overlooks(self, Operand::FirstOfEq),
            UnnamedSecondInEq: wrong::overlooks(self, Operand::SecondOfEq),
            UnnamedFirstInLt: wrong::overlooks(self, Operand::FirstOfLt),
            UnnamedSecondInLt: wrong::overlooks(self, Operand::SecondOfLt),
            UnnamedFirstInAdd: wrong::overlooks(self, Operand::FirstOfAdd),
            UnnamedSecondInAdd: wrong::overlooks(self, Operand::SecondOfAdd),
            UnnamedFirstInSub: wrong::overlooks(self, Operand::FirstOfSub),
            UnnamedSecondInSub: wrong::overlooks(self, Operand::SecondOfSub))
    }
}

impl Ledger {
    /// The ledger at stipulation.
    pub fn stipulate(sheet: &Sheet, values: &[Value]) -> Ledger {
        let first = rule!(0; StipulatedAsTheLast: sheet.definitions.len() - 1);
        let deposits = sheet.deposits(first);
        let deposits: u64 = rule!(deposits.iter().sum();
            FirstDepositOnly: deposits[0],
            FifteenDeposits: deposits.iter().take(15).sum());
        let mut ledger = Ledger {
            time: 0,
            contracts: Vec::with_capacity(CONTRACTS_MADE),
            sets: Vec::with_capacity(SETS_MADE),
            paid: vec![0; sheet.participants],
            deposits_taken: rule!(deposits; StipulationNotCounted: 0),
        };
        ledger.sets.push(Commitments::of(values));
        ledger.add_contract(sheet.definitions[first].root, deposits, 0);
        ledger
    }

    fn add_contract(&mut self, node: usize, balance: u64, set: usize) {
        let made = Contract {
            node,
            balance,
            set,
            signed: [rule!(0; BornSigned: u32::MAX); BRANCHES_OF_A_NODE as usize],
            alive: true,
        };
        let free = rule!(None; NumbersGivenTwice: self.contracts.iter().position(|old| !old.alive));
        match free {
            Some(number) => self.contracts[number] = made,
            None => self.contracts.push(made),
        }
    }

    /// The branch of a contract, if there are such a contract and such a branch.
    fn branch<'s>(&self, sheet: &'s Sheet, contract: usize, branch: usize) -> Option<&'s Branch> {
        let contract = self.contracts.get(contract)?;
        sheet.branches(contract.node).get(branch)
    }

    /// The same for a live contract.
    #[inline(always)]
    fn live_branch<'s>(
        &self,
        sheet: &'s Sheet,
        contract: usize,
        branch: usize,
    ) -> Option<&'s Branch> {
        let contract = self.contracts.get(contract)?;
        if !contract.alive {
            return None;
        }
        sheet.branches(contract.node).get(branch)
    }

    pub fn live_contracts(&self) -> usize {
        let live = self.contracts.iter().filter(|contract| contract.alive);
        live.count()
    }

    /// The lowest number for which the event is refused, or none if it is taken.  The values of a renewal
    /// are among these.
    pub fn refusal(&self, sheet: &Sheet, event: Event, values: &[Value]) -> Option<u32> {
        match event {
            Event::Wait { delay } => lowest!(19: self.time + delay > limit!(Time, TIME)),
            Event::Sign {
                participant,
                contract,
                branch,
            } => self.sign_refusal(
                sheet,
                participant.into(),
                contract as usize,
                branch as usize,
            ),
            Event::Tell { set, secret } => self.tell_refusal(set as usize, secret as usize),
            Event::Fire { contract, branch } => {
                self.fire_refusal(sheet, contract as usize, branch as usize)
            }
            Event::Renew {
                contract,
                branch,
                values: given,
            } => {
                let given = given.of(values).len();
                self.renew_refusal(sheet, contract as usize, branch as usize, given)
            }
        }
    }

    #[inline(always)]
    fn sign_refusal(
        &self,
        sheet: &Sheet,
        participant: usize,
        contract: usize,
        branch: usize,
    ) -> Option<u32> {
        let signable = rule!(self.live_branch(sheet, contract, branch);
            DeadSigned: self.branch(sheet, contract, branch));
        let Some(signable) = signable else {
            return Some(14);
        };
        let signed = u64::from(self.contracts[contract].signed[branch]);
        let signer = rule!(signable.is_signed_by(participant); AnyoneSigns: true);
        let already = rule!(signed & number!(Signs, participant) != 0;
            SignedTwice: false,
            SignedTwiceAfterOthers: signed == 1 << participant);
        let early = rule!(false; SignedWhenOpen: signable.opens > self.time);
        let of_kind = rule!(true; RenewalsNotSigned: !signable.is_renewal());
        lowest!(14: !of_kind, 15: early, 16: !signer, 16: already)
    }

    #[inline(always)]
    fn tell_refusal(&self, set: usize, secret: usize) -> Option<u32> {
        let set = rule!(set; ToldByContract: wrong::set_of(&self.contracts, set));
        let commitments = self.sets.get(set);
        let value = commitments.and_then(|set| set.values.get(secret));
        let told = commitments.is_some_and(|set| set.is_told(secret));
        let can_be_told = match value {
            Some(Value::Number(_)) => rule!(!told; ToldTwice: true),
            Some(Value::IllFormed) => rule!(false; IllFormedTold: true),
            None => rule!(false; UnknownTold: true),
        };
        let live = rule!(true; DeadNotTold: wrong::set_lives(&self.contracts, set));
        let known = rule!(true;
            UnknownSetIs14: set < self.sets.len(),
            UnknownSecretIs14: value.is_some());
        lowest!(14: !known, 17: !can_be_told, 17: !live)
    }

    #[inline(always)]
    fn fire_refusal(&self, sheet: &Sheet, contract: usize, branch: usize) -> Option<u32> {
        let fired = rule!(self.live_branch(sheet, contract, branch);
            DeadFired: self.branch(sheet, contract, branch));
        let Some(fired) = fired else {
            return Some(rule!(14; NoBranchIs16: 16));
        };
        // How many contracts the firing makes.
        let parts = match fired.action {
            Action::Withdraw { .. } => rule!(0; WithdrawalsMake: 1),
            Action::Split { parts } => rule!(usize::from(parts.count); SplitsMakeOne: 1),
            Action::Reveal { .. } => rule!(1; RevealsMakeNone: 0),
            Action::Renew { .. } => 0,
        };
        let early = rule!(fired.opens > self.time;
            FiredAfterOpening: fired.opens > 0 && fired.opens >= self.time,
            FiredIn16Bits: fired.opens as u16 > self.time as u16,
            FiredInSigned32Bits: fired.opens as i32 > self.time as i32,
            FiredEarly: false);
        let (signers, signed) = (fired.signers, self.contracts[contract].signed[branch]);
        let unsigned = rule!(signers & !signed != 0;
            OneSignerSuffices: signers != 0 && signers & signed == 0,
            FiredUnsigned: false);
        let made = rule!(self.contracts.len(); LiveCounted: self.live_contracts() - 1);
        let no_room = made + parts > limit!(ContractsMade, CONTRACTS_MADE);
        lowest!(
            14: fired.is_renewal(),
            15: early,
            16: unsigned,
            17: !self.secrets_allow(sheet, contract, &fired.action),
            19: no_room)
    }

    /// `given` is the count of values.
    #[inline(always)]
    fn renew_refusal(
        &self,
        sheet: &Sheet,
        contract: usize,
        branch: usize,
        given: usize,
    ) -> Option<u32> {
        let renewed = rule!(self.live_branch(sheet, contract, branch);
            DeadRenewed: self.branch(sheet, contract, branch));
        let Some(renewed) = renewed else {
            return Some(14);
        };
        let own = sheet.nodes[self.contracts[contract].node].definition;
        let definition = match renewed.action {
            Action::Renew { definition } => definition,
            _ => own,
        };
        let early = rule!(renewed.opens > self.time;
            RenewedAfterOpening: renewed.opens > 0 && renewed.opens >= self.time,
            RenewedIn16Bits: renewed.opens as u16 > self.time as u16,
            RenewedInSigned32Bits: renewed.opens as i32 > self.time as i32,
            RenewedEarly: false);
        let signers = rule!(renewed.signers; AllRenew: (1 << sheet.participants) - 1);
        let signed = self.contracts[contract].signed[branch];
        let unsigned = rule!(signers & !signed != 0;
            OneRenewerSuffices: signers != 0 && signers & signed == 0,
            RenewedUnsigned: false);
        let secrets = rule!(definition; ValuesOfTheOld: own);
        let secrets = sheet.definitions[secrets].owners.len();
        let wrong_count = rule!(given != secrets;
            FewerValuesTaken: given > secrets,
            MoreValuesTaken: given < secrets);
        lowest!(
            14: !renewed.is_renewal(),
            15: early,
            16: unsigned,
            18: wrong_count,
            19: !self.has_room_for(sheet.deposits(definition)))
    }

    /// May a renewal with these deposits make one more contract and one more set?
    fn has_room_for(&self, deposits: &[u64]) -> bool {
        let made = rule!(self.contracts.len(); LiveCounted: self.live_contracts() - 1);
        let made = made + rule!(1; RenewalsMakeNone: 0);
        let sets = rule!(self.sets.len(); EmptySetsNotCounted: wrong::filled(&self.sets));
        let taken = rule!(self.deposits_taken; HeldCounted: wrong::held(&self.contracts));
        let deposits: u64 = rule!(deposits.iter().sum();
            FirstDepositLimited: deposits[0],
            FifteenLimited: deposits.iter().take(15).sum());
        let taken = taken + deposits;
        made <= limit!(ContractsMade, CONTRACTS_MADE)
            && sets < limit!(SetsMade, SETS_MADE)
            && taken <= limit!(DepositsTaken, SATOSHI)
    }

    /// For `r`: are all listed secrets told and the condition true, in the contract's own set?
    /// Nothing is asked of `w` and `s`.
    fn secrets_allow(&self, sheet: &Sheet, contract: usize, action: &Action) -> bool {
        let Action::Reveal {
            secrets, condition, ..
        } = action
        else {
            return true;
        };
        let condition = sheet.condition(*condition);
        let set = rule!(self.contracts[contract].set;
            FirstSetServes: 0,
            NewestSetServes: self.sets.len() - 1,
            FirstSetsServe: self.contracts[contract].set % 16);
        let set = &self.sets[set];
        let told = |secret: &u8| set.is_told(usize::from(*secret));
        let all_told = rule!(secrets.iter().all(told);
            UntoldServe: true,
            ZerosServe: secrets.iter().all(|it| told(it) || wrong::is_zero(set, *it)),
            OneToldSuffices: secrets.iter().any(told),
            FirstToldSuffices: told(&secrets[0]),
            NamedToldSuffice: secrets.iter().all(|it| told(it) || !wrong::names(condition, *it)),
            UntoldServeAnyway: condition.counts() || secrets.iter().all(told),
            OldSetsServe: secrets.iter().all(|secret| wrong::told_anywhere(&self.sets, *secret)));
        // A condition names only listed secrets, and only a number can be told.
        let value = |secret: usize| match set.values.items[secret] {
            Value::Number(number) => Some(number as i64),
            Value::IllFormed => rule!(unreachable!("an ill-formed commitment was told");
                IllFormedTold: Some(0),
                UntoldServe: Some(0)),
        };
        let constant = || condition.holds(|_| None).is_some();
        all_told
            && rule!(condition.holds(value) == Some(true);
                ConditionsNotAsked: true,
                ConstantsNotAsked: constant() || condition.holds(value) == Some(true),
                ConstantsRefused: !constant() && condition.holds(value) == Some(true))
    }

    /// Takes the event, or gives the number for which it is refused and leaves the ledger the same.  The
    /// values of a renewal are among these.
    #[inline]
    pub fn step(&mut self, sheet: &Sheet, event: Event, values: &[Value]) -> Result<(), u32> {
        let refusal = rule!(self.refusal(sheet, event, values);
            DeadAfter15: wrong::dead_after(15, self, sheet, event, values),
            DeadAfter16: wrong::dead_after(16, self, sheet, event, values),
            DeadAfter17: wrong::dead_after(17, self, sheet, event, values),
            DeadAfter18: wrong::dead_after(18, self, sheet, event, values),
            DeadAfter19: wrong::dead_after(19, self, sheet, event, values));
        if let Some(number) = refusal {
            rule!(();
                RefusedFiringsKill: wrong::kill(&mut self.contracts, event),
                RefusedWaitsMove: if let Event::Wait { .. } = event { self.time = TIME },
                RefusedRenewalsTake: wrong::take_all_the_same(self, sheet, event),
                RefusedRenewalsMakeSets: wrong::make_a_set(self, event, number),
                RefusedRenewalsMakeContracts: wrong::make_a_contract(self, event, number));
            return Err(number);
        }
        match event {
            Event::Wait { delay } => {
                self.time = rule!(self.time; WaitsFromZero: 0) + delay;
                rule!((); WaitsUnsign: wrong::unsign(&mut self.contracts));
            }
            Event::Sign {
                participant,
                contract,
                branch,
            } => self.sign(participant.into(), contract as usize, branch as usize),
            Event::Tell { set, secret } => {
                self.sets[set as usize].told |= 1 << secret;
                rule!(();
                    TellsEverySecret: self.sets[set as usize].told = u32::MAX,
                    TellsInEverySet: wrong::tell_in_every_set(&mut self.sets, secret));
            }
            Event::Fire { contract, branch } => {
                self.fire(sheet, contract as usize, branch as usize)
            }
            Event::Renew {
                contract,
                branch,
                values: given,
            } => self.renew(sheet, contract as usize, branch as usize, given.of(values)),
        }
        Ok(())
    }

    fn sign(&mut self, participant: usize, contract: usize, branch: usize) {
        let signed = rule!(number!(Signs, participant) as u32; OneSignsForAll: u32::MAX);
        self.contracts[contract].signed[branch] |= signed;
        rule!(();
            SignsEveryBranch: self.contracts[contract].signed.fill(signed),
            SignsForTheNode: wrong::sign_for_the_node(&mut self.contracts, contract));
    }

    fn fire(&mut self, sheet: &Sheet, contract: usize, branch: usize) {
        let Contract {
            node, balance, set, ..
        } = self.contracts[contract];
        self.contracts[contract].alive = rule!(false; FiredLivesOn: true);
        let set = rule!(set; PartsOfTheFirstSet: 0);
        let before = self.contracts.len();
        match sheet.branches(node)[branch].action {
            Action::Withdraw { to } => {
                let to = rule!(to; PaidToTheFirst: 0);
                self.paid[to] = rule!(self.paid[to]; PaidAnew: 0) + balance;
            }
            Action::Reveal { next, .. } => {
                let set = rule!(set; RevealedOfTheFirstSet: 0);
                self.add_contract(next, balance, set)
            }
            Action::Split { parts } => self.split(sheet.parts(parts), balance, set),
            Action::Renew { .. } => unreachable!("a renewal was fired"),
        }
        rule!(();
            SignaturesKept: wrong::keep_signatures(&mut self.contracts, contract, before),
            FiringsUnsign: wrong::unsign(&mut self.contracts),
            FiringsEndTheNode: wrong::end_the_node(&mut self.contracts, node));
    }

    /// Parts a balance by weight.
    fn split(&mut self, parts: &[Part], balance: u64, set: usize) {
        let mut shares = shares(parts, balance);
        let remainder = balance.wrapping_sub(shares.iter().sum::<u64>());
        let last = parts.len() - 1;
        let weighty = || parts.iter().rposition(|part| part.weight > 0);
        let taker = rule!(last;
            RemainderToTheFirst: 0,
            RemainderToTheWeighty: weighty().unwrap_or(last));
        shares[taker] = shares[taker].wrapping_add(rule!(remainder; RemainderLost: 0));
        for place in 0..parts.len() {
            let place = rule!(place; PartsBackwards: last - place);
            self.add_contract(parts[place].node, shares[place], set);
        }
    }

    fn renew(&mut self, sheet: &Sheet, contract: usize, branch: usize, values: &[Value]) {
        let Contract {
            node, balance, set, ..
        } = self.contracts[contract];
        let Action::Renew { definition } = sheet.branches(node)[branch].action else {
            unreachable!("a branch of another kind was renewed");
        };
        let old = sheet.nodes[node].definition;
        let to = rule!(definition;
            RenewedAsTheFirst: 0,
            RenewedAsTheOld: old,
            RenewedBelow16: definition % 16);
        let from = rule!(definition; DepositsOfTheFirst: 0, DepositsOfTheOld: old);
        let deposits = sheet.deposits(from).iter();
        let deposits: u64 = rule!(deposits.sum(); FifteenRenewed: deposits.take(15).sum());
        let before = self.contracts.len();
        self.contracts[contract].alive = rule!(false; RenewedLivesOn: true);
        self.deposits_taken += rule!(deposits;
            RenewalsNotCounted: 0,
            FirstDepositCounted: sheet.deposits(from)[0]);
        self.sets.push(Commitments::of(values));
        rule!((); RenewedStaysTold: wrong::stay_told(&mut self.sets, set));
        let set = rule!(self.sets.len() - 1; OldSetKept: set);
        let balance = rule!(balance + deposits; NoDepositsAdded: balance, BalanceLeftOut: deposits);
        self.add_contract(sheet.definitions[to].root, balance, set);
        rule!(();
            RenewedSignaturesKept: wrong::keep_signatures(&mut self.contracts, contract, before),
            RenewalsUnsign: wrong::unsign(&mut self.contracts));
    }
}

/// The share of each part before the remainder, and zeros past the last.
fn shares(parts: &[Part], balance: u64) -> [u64; PARTS as usize] {
    let weights: u64 = parts.iter().map(|part| part.weight).sum();
    let weights = rule!(weights;
        WeightsPerMille: 1_000,
        WeightsAlike: parts.len() as u64,
        WeightsOfFirst7: parts.iter().take(7).map(|part| part.weight).sum(),
        WeightsStop: weights.min(4_095));
    let mut shares = [0; PARTS as usize];
    for (share, part) in shares.iter_mut().zip(parts) {
        let weight = rule!(part.weight; WeightsAlike: 1);
        // All satoshi times the largest weight are below 2^64.
        let product = balance * weight;
        *share = rule!(product / weights;
            SharesRoundedUp: product.div_ceil(weights),
            SharesInFloats: (balance as f64 * weight as f64 / weights as f64) as u64,
            SharesByQuotients: (balance as f64 * (weight as f64 / weights as f64)) as u64,
            SharesInShortFloats: (balance as f32 * weight as f32 / weights as f32) as u64,
            SharesRounded: (product + weights / 2) / weights,
            SharesDividedFirst: balance / weights * weight);
    }
    rule!(shares; SharesOfTheRest: wrong::shares_of_the_rest(balance, parts))
}

// ---------------------------------------------------------------------------------------------
// The program
// ---------------------------------------------------------------------------------------------

/// What the program answers: a refused request, or the text that it prints.
#[derive(Clone, Debug, PartialEq, Eq)]
pub enum Reply {
    Refused {
        number: u32,
        line: usize,
        field: usize,
    },
    Text(String),
}

impl Reply {
    /// What the program `judge` prints, LF after every line.
    pub fn printed(&self) -> String {
        match self {
            Reply::Refused {
                number,
                line,
                field,
            } => format!("refused,{number},{line},{field}\n"),
            Reply::Text(text) => text.clone(),
        }
    }
}

impl From<Refusal> for Reply {
    fn from(refusal: Refusal) -> Reply {
        Reply::Refused {
            number: refusal.number,
            line: refusal.line,
            field: refusal.field,
        }
    }
}

/// Lines as they are put into a lent buffer; what does not fit is only counted.
pub struct Text<'b> {
    buffer: &'b mut [u8],
    length: usize,
}

impl Text<'_> {
    #[inline(always)]
    fn put(&mut self, bytes: &[u8]) {
        let end = self.length + bytes.len();
        if let Some(places) = self.buffer.get_mut(self.length..end) {
            places.copy_from_slice(bytes);
        }
        self.length = end;
    }

    /// A number behind a comma.
    #[inline(always)]
    fn put_field(&mut self, mut number: u64) {
        let end = self.length + 1 + digits_of(number);
        if let Some([comma, places @ ..]) = self.buffer.get_mut(self.length..end) {
            *comma = b',';
            for place in places.iter_mut().rev() {
                *place = b'0' + (number % 10) as u8;
                number /= 10;
            }
        }
        self.length = end;
    }

    /// A word and numbers.
    #[inline(always)]
    fn line<const N: usize>(&mut self, word: &str, numbers: [u64; N]) {
        self.put(word.as_bytes());
        for number in numbers {
            self.put_field(number);
        }
        self.put(b"\n");
    }
}

/// How many digits a number has; most have few.
#[inline(always)]
fn digits_of(number: u64) -> usize {
    match number {
        0..=9 => 1,
        10..=99 => 2,
        100..=999 => 3,
        1_000..=9_999 => 4,
        _ => number.ilog10() as usize + 1,
    }
}

/// The numbers of a row: node, branch, rank.
pub const ROW_NUMBERS: usize = 3;

/// A place of the row buffer.
pub type Place = [u64; ROW_NUMBERS];

impl Row {
    #[inline(always)]
    fn numbers(&self) -> Place {
        [self.node as u64, self.branch as u64, self.rank]
    }
}

/// Puts rows into the first places, and gives their count.
fn hold(rows: &[Row], places: &mut [Place]) -> usize {
    for (place, row) in places[..rows.len()].iter_mut().zip(rows) {
        *place = row.numbers();
    }
    rows.len()
}

/// Answers a request as the program does, which lends as much as any request asks for.
pub fn judge(request: &[u8]) -> (Reply, Vec<Place>) {
    judge_lent(request, ALL_ROWS, TEXT_BYTES)
}

/// Answers a request with so many places for rows and so many bytes for text lent.  The second part
/// is what the row buffer holds afterwards (it is zero past that): the rows of `make` in rising node
/// order, those of an accepted `check` as given, those of `makeall` by participant.
pub fn judge_lent(request: &[u8], places: usize, bytes: usize) -> (Reply, Vec<Place>) {
    let mut rows = vec![Place::default(); places];
    let mut text = vec![0; bytes];
    match answer(request, &mut rows, &mut text) {
        Ok(Held { places, bytes }) => {
            rows.truncate(places);
            text.truncate(bytes);
            let text = String::from_utf8_lossy(&text).into_owned();
            (Reply::Text(text), rows)
        }
        Err(refusal) => {
            let reply = refusal.into();
            let reply = rule!(reply; JudgedWhileReading: wrong::judged_before(request, reply));
            (reply, Vec::new())
        }
    }
}

/// So many places and bytes from the first on hold an answer.
struct Held {
    places: usize,
    bytes: usize,
}

/// 1, then short buffers, then reading, then the places that `makeall` asks for, then judging.
fn answer(request: &[u8], rows: &mut [Place], text: &mut [u8]) -> Result<Held, Refusal> {
    let (places, bytes) = (rows.len(), text.len());
    let too_long = request.len() > limit!(RequestBytes, REQUEST_BYTES);
    let short = places < limit!(LentRows, ROWS) || bytes < limit!(LentText, TEXT_BYTES);
    let short = rule!(short;
        ShortBuffersAfter: false,
        FewPlacesFirst: short || wrong::few_for_all(request, places));
    if short && rule!(!too_long; ShortBuffersFirst: true) {
        return Err(nowhere(7));
    }
    let request = read(request)?;
    let all = matches!(request.part, LastPart::MakeAll);
    let all = rule!(all;
        FewPlacesForAnyWord: true,
        FewPlacesForWhy: all || matches!(request.part, LastPart::Why { .. }));
    let asked = rule!(limit!(LentAllRows, ALL_ROWS);
        FewPlacesByCount: ROWS * request.sheet.participants,
        FewPlacesTaken: ROWS);
    let few = all && places < asked;
    if rule!(few; ShortBuffersAfter: few || places < ROWS || bytes < TEXT_BYTES) {
        let (told, line) = (nowhere(7), request.line);
        return Err(rule!(told; FewPlacesAtTheWord: Refusal { line, field: 1, ..told }));
    }
    let mut text = Text {
        buffer: text,
        length: 0,
    };
    let places = judge_part(&request, rows, &mut text)?;
    let bytes = text.length;
    Ok(Held { places, bytes })
}

/// Judges the last part, and gives how many places hold rows.
fn judge_part(request: &Request, places: &mut [Place], text: &mut Text) -> Result<usize, Refusal> {
    let Request { sheet, part, line } = request;
    match part {
        LastPart::Make { participant } => {
            let count = rule!(made(sheet, *participant, places, text);
                OnlyTInMake: made(&wrong::only_t(sheet), *participant, places, text));
            rule!((); HeldFalling: places[..count].reverse());
            Ok(count)
        }
        LastPart::MakeAll => Ok(made_for_all(sheet, places, text)),
        LastPart::Why { participant } => {
            rule!(why(sheet, *participant, text);
                OnlyTInWhy: why(&wrong::only_t(sheet), *participant, text));
            Ok(
                rule!(0; WhyHoldsRows: make(sheet, *participant).map_or(0, |rows| hold(&rows, places))),
            )
        }
        LastPart::Check { participant, rows } => {
            rule!(check(sheet, *participant, rows, *line);
                OnlyTInCheck: check(&wrong::only_t(sheet), *participant, rows, *line),
                RowsSorted: check(sheet, *participant, &wrong::sorted(rows), *line))?;
            rule!((); CheckPrintsRows: rows.iter().for_each(|row| put_row(sheet, row, text)));
            put_liquid(sheet, *participant, rows, text);
            Ok(hold(rows, places))
        }
        LastPart::Play(play) => {
            put_play(sheet, play, *line, text);
            Ok(0)
        }
    }
}

/// The lines of `make`, and its rows, of which there are none with `frozen`; gives their count.
fn made(sheet: &Sheet, participant: usize, places: &mut [Place], text: &mut Text) -> usize {
    made_where(sheet, participant, &reached(sheet), places, text)
}

/// The same where it is known which nodes are reached.
fn made_where(
    sheet: &Sheet,
    participant: usize,
    reached: &[bool],
    places: &mut [Place],
    text: &mut Text,
) -> usize {
    match make_where(sheet, participant, reached) {
        Ok(rows) => {
            for row in &rows {
                put_row(sheet, row, text);
            }
            put_liquid(sheet, participant, &rows, text);
            hold(&rows, places)
        }
        Err(node) => {
            let found = || exits(sheet, participant).into_iter().flatten();
            rule!((); FrozenWithRows: found().for_each(|row| put_plainly(&row, text)));
            text.line("frozen", [participant as u64, node as u64]);
            rule!(0; FrozenHoldsRows: hold(&found().collect::<Vec<_>>(), places))
        }
    }
}

/// A `row` line.
#[inline(always)]
fn put_row(sheet: &Sheet, row: &Row, text: &mut Text) {
    let root = || sheet.definitions[sheet.nodes[row.node].definition].root;
    let node = rule!(row.node;
        NumberedFrom1: row.node + 1,
        NumberedByDefinition: row.node - root(),
        NumberedPartsFirst: wrong::parts_first(sheet, row.node));
    put_plainly(&Row { node, ..*row }, text);
}

#[inline(always)]
fn put_plainly(row: &Row, text: &mut Text) {
    text.line("row", row.numbers());
}

/// The `liquid` line: participant, count of rows, rank of node 0.
fn put_liquid(sheet: &Sheet, participant: usize, rows: &[Row], text: &mut Text) {
    let root = sheet.definitions[0].root;
    let row = rows.iter().find(|row| row.node == root);
    let rank = rule!(row; RankOfTheLastRow: rows.last()).map_or(0, |row| row.rank);
    let rank = rule!(rank;
        RankAsPublished: exits(sheet, participant)[root].map_or(0, |row| row.rank),
        RankLargest: rows.iter().map(|row| row.rank).max().unwrap_or(0));
    let reached = |row: &&Row| reached(sheet)[row.node];
    let count = rule!(rows.len();
        ReachedRowsCounted: rows.iter().filter(reached).count(),
        NodesCounted: sheet.nodes.len());
    text.line("liquid", [participant as u64, count as u64, rank]);
}

/// What `make` answers for participants 0 to K - 1, in that order.  The rows of participant p stand from
/// place `ROWS` x p on, with zeros past them.
fn made_for_all(sheet: &Sheet, places: &mut [Place], text: &mut Text) -> usize {
    let count = rule!(sheet.participants;
        AllButTheLast: sheet.participants - 1,
        AllAndOneMore: sheet.participants + 1,
        AllSixteen: PARTICIPANTS as usize);
    let each = limit!(PlacesEach, ROWS);
    let reached = reached(sheet);
    places[..ALL_ROWS].fill(Place::default());
    for participant in 0..count {
        let first = rule!(each * participant;
            PlacesFromTheFirst: 0,
            PlacesBackwards: each * (count - 1 - participant),
            PlacesByParticipants: ALL_ROWS / sheet.participants * participant,
            PlacesByNodes: sheet.nodes.len() * participant,
            PlacesTogether: wrong::lines_so_far(text, "row"),
            FrozenWithoutPlaces: each * wrong::lines_so_far(text, "liquid"));
        let places = &mut places[first..];
        let plainly = rule!(false;
            OnlyTInMakeAll: true,
            OnlyTPastTheFirst: participant > 0,
            OnlyTForTheFirst: participant == 0);
        if plainly {
            made(&wrong::only_t(sheet), participant, places, text);
        } else {
            made_where(sheet, participant, &reached, places, text);
        }
    }
    wrong_for_all(places, text);
    ALL_ROWS
}

/// What wrong rules make of the answers for all participants.
fn wrong_for_all(places: &mut [Place], text: &mut Text) {
    rule!(();
        AllBackwards: wrong::rearrange(places, text, |answers| answers.reverse()),
        AllEndAtFrozen: wrong::rearrange(places, text, wrong::end_at_frozen),
        AllFrozenIfOne: wrong::rearrange(places, text, wrong::freeze_all),
        AllFrozenLeftOut: wrong::rearrange(places, text, wrong::leave_out_frozen),
        AllForTheFirst: wrong::rearrange(places, text, wrong::first_for_all),
        AllRowsCounted: wrong::rearrange(places, text, wrong::count_so_far),
        AllRowsFirst: wrong::rows_first(text),
        AllVerdictsOnly: wrong::keep_lines(text, |line| !line.starts_with("row")),
        AllRowsOnly: wrong::keep_lines(text, |line| line.starts_with("row")),
        FrozenClearsAll: if wrong::lines_so_far(text, "frozen") > 0 { places.fill(Place::default()) });
}

/// Answers a request into the lent buffers, of which every place and every byte is written.
pub fn call(request: &[u8], rows: &mut [Place], text: &mut [u8]) -> Answer {
    let old = wrong::copy_of(rows);
    let answered = answer(request, rows, text);
    let refused = answered.is_err();
    let (Held { places, bytes }, answer) = match answered {
        Ok(held) => {
            let length = held.bytes;
            (
                held,
                Answer {
                    length,
                    ..Answer::default()
                },
            )
        }
        Err(refusal) => {
            let (places, bytes) = (0, 0);
            (Held { places, bytes }, refusal.into())
        }
    };
    rows[places..].fill(Place::default());
    let why = || !refused && wrong::asks_why(request);
    let printed = &text[..bytes];
    let liquid = || printed.starts_with(b"liquid");
    let short = rows.len() < ROWS;
    rule!(();
        WhyRowsKept: wrong::keep(rows, &old, |_, _| why()),
        WhyLiquidRowsKept: wrong::keep(rows, &old, |_, _| why() && liquid()),
        WhyPlacesKept: wrong::keep(rows, &old, |_, place| why() && place >= ROWS),
        PastRowsKept: wrong::keep(rows, &old, wrong::is_past_rows),
        FrozenPlacesKept: wrong::keep(rows, &old, wrong::is_of_frozen(printed)),
        OtherPlacesKept: wrong::keep(rows, &old, wrong::is_of_nobody(printed)),
        FarPlacesKept: wrong::keep(rows, &old, |_, place| place >= ALL_ROWS),
        RefusedRowsKept: wrong::keep(rows, &old, |_, _| refused),
        RefusedPlacesKept: wrong::keep(rows, &old, |_, place| refused && place >= ROWS),
        ShortRowsKept: wrong::keep(rows, &old, |_, _| short));
    rule!(text[bytes..].fill(0);
        PastTextKept: (),
        RefusedTextKept: if !refused { text[bytes..].fill(0) },
        ShortTextKept: if text.len() >= TEXT_BYTES { text[bytes..].fill(0) });
    answer
}

/// The lines of a play whose word `play` stands on `line`.
fn put_play(sheet: &Sheet, play: &Play, line: usize, text: &mut Text) {
    let Play { events, values, .. } = play;
    let mut ledger = Ledger::stipulate(sheet, play.stipulated.of(values));
    for (index, event) in events.iter().enumerate() {
        let taken = rule!(ledger.step(sheet, *event, values);
            TakenAfterTheFirst: if index > 0 { Ok(()) } else { ledger.step(sheet, *event, values) },
            NineteenOnSight: Err(19));
        match taken {
            Ok(()) => text.put(b"taken\n"),
            Err(number) => {
                let before = rule!(line; EventLinesFromPlay: 0, EventLinesOneEarly: line - 1);
                let line = (before + 1 + index) as u64;
                let field = rule!(0; EventsAtField1: 1);
                text.line("refused", [u64::from(number), line, field]);
                if rule!(false; RefusalEndsPlay: true) {
                    break;
                }
            }
        }
    }
    put_end(&mut ledger, text);
}

/// The `end` line: time, live contracts, what each participant was paid.
fn put_end(ledger: &mut Ledger, text: &mut Text) {
    let live = rule!(ledger.live_contracts(); MadePrinted: ledger.contracts.len());
    text.put(b"end");
    text.put_field(ledger.time);
    text.put_field(live as u64);
    rule!((); PaidBackwards: ledger.paid.reverse());
    for paid in &ledger.paid {
        text.put_field(*paid);
    }
    text.put(b"\n");
}
