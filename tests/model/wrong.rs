//! Wrong rules: for each rule of document 01 ways to misread it.
//!
//! The model names them where they apply: `rule!(right; Name: wrong, ..)` for a rule, `limit!(Name, most)`
//! for a limit, which is also tried one higher and one lower, and `lower!(one, other)` and
//! `cause!(one, other)` for the order of two refusals and of two causes.  `lowest!(number: applies, ..)`,
//! by rising number, is the lowest of the refusals that apply.  `number!(Name, p)` is 2^p, which
//! stands for participant p in a signers field: each is also tried in the place of the next.
//! `asking!(value)` marks where the value of a condition is asked for an own branch: the rules of
//! conditions are tried there alone, in the ledger alone, and in both.
//! Without `--cfg wrong_rules` these are the right expression and nothing else is run.  With it one wrong
//! rule at a time can be turned on, and pins.rs shows that some case then has another answer.

use std::collections::VecDeque;

use super::{
    exits, fault, hold, judge, reached, run_to, Action, Branch, Commitments, Condition, Contract,
    Event, Ledger, Part, Place, Reader, Reply, Row, Sheet, Span, Step, Term, Text, Value, ALL_ROWS,
    PARTS, ROWS,
};

#[cfg(not(wrong_rules))]
macro_rules! rule {
    ($right:expr; $($name:ident: $wrong:expr),+ $(,)?) => { $(if false { $wrong } else)+ { $right } };
}
#[cfg(not(wrong_rules))]
macro_rules! limit {
    ($name:ident, $most:expr) => {
        $most
    };
}
#[cfg(not(wrong_rules))]
macro_rules! lower {
    ($one:expr, $other:expr) => {
        $one.min($other)
    };
}
#[cfg(not(wrong_rules))]
macro_rules! lowest {
    ($($number:literal: $applies:expr),+) => { $(if $applies { Some($number) } else)+ { None } };
}
#[cfg(not(wrong_rules))]
macro_rules! cause {
    ($one:expr, $other:expr) => {
        $one.min($other)
    };
}
#[cfg(not(wrong_rules))]
macro_rules! asking {
    ($value:expr) => {
        $value
    };
}
#[cfg(not(wrong_rules))]
macro_rules! number {
    ($name:ident, $power:expr) => {
        1u64 << $power
    };
}

#[cfg(wrong_rules)]
macro_rules! rule {
    ($right:expr; $($name:ident: $wrong:expr),+ $(,)?) => {
        match wrong::rule() { $(Some(wrong::Rule::$name) => $wrong,)+ _ => $right }
    };
}
#[cfg(wrong_rules)]
macro_rules! limit {
    ($name:ident, $most:expr) => {
        match wrong::on() {
            Some(wrong::Wrong::More(wrong::Limit::$name)) => $most + 1,
            Some(wrong::Wrong::Fewer(wrong::Limit::$name)) => $most - if $most > 0 { 1 } else { 0 },
            _ => $most,
        }
    };
}
#[cfg(wrong_rules)]
macro_rules! lower {
    ($one:expr, $other:expr) => {
        wrong::lower($one, $other)
    };
}
#[cfg(wrong_rules)]
macro_rules! lowest {
    ($($number:literal: $applies:expr),+) => {
        wrong::lowest(&[$(($number, $applies)),+])
    };
}
#[cfg(wrong_rules)]
macro_rules! cause {
    ($one:expr, $other:expr) => {
        wrong::cause($one, $other)
    };
}
#[cfg(wrong_rules)]
macro_rules! asking {
    ($value:expr) => {
        wrong::ask(|| $value)
    };
}
#[cfg(wrong_rules)]
macro_rules! number {
    ($name:ident, $power:expr) => {
        1u64 << wrong::instead(wrong::Number::$name, $power)
    };
}

#[cfg(wrong_rules)]
pub use switch::*;

#[cfg(wrong_rules)]
mod switch {
    use std::cell::Cell;

    /// One way to be wrong.
    #[derive(Clone, Copy, Debug, PartialEq, Eq)]
    pub enum Wrong {
        Rule(Rule),
        /// A rule of conditions, for own branches alone.
        Asking(Rule),
        /// A rule of conditions, in the ledger alone.
        Firing(Rule),
        /// The limit is one higher.
        More(Limit),
        /// The limit is one lower.
        Fewer(Limit),
        /// Of these two refusals the first, the higher number, is given where both apply.
        Order(u32, u32),
        /// Of these two causes the first, the higher number, is told where both apply.
        Causes(u32, u32),
        /// These two powers of 2 are swapped.
        Swapped(Number, usize, usize),
    }

    thread_local! {
        static ON: Cell<Option<Wrong>> = const { Cell::new(None) };
        /// Is the value of a condition asked for an own branch?
        static ASKING: Cell<bool> = const { Cell::new(false) };
    }

    /// The wrong rule that is on.
    pub fn on() -> Option<Wrong> {
        ON.get()
    }

    pub fn turn(wrong: Option<Wrong>) {
        ON.set(wrong);
    }

    pub fn rule() -> Option<Rule> {
        match on() {
            Some(Wrong::Rule(rule)) => Some(rule),
            Some(Wrong::Asking(rule)) if ASKING.get() => Some(rule),
            Some(Wrong::Firing(rule)) if !ASKING.get() => Some(rule),
            _ => None,
        }
    }

    /// The value of a condition that is asked for an own branch.
    pub fn ask<T>(value: impl FnOnce() -> T) -> T {
        ASKING.set(true);
        let value = value();
        ASKING.set(false);
        value
    }

    /// The power of 2 that is taken, which may be swapped with another.
    pub fn instead(number: Number, power: usize) -> usize {
        match on() {
            Some(Wrong::Swapped(on, one, other)) if on == number => match power {
                _ if power == one => other,
                _ if power == other => one,
                _ => power,
            },
            _ => power,
        }
    }

    /// The lower of two refusals, or the higher where just these two are in the wrong order.
    pub fn lower(one: u32, other: u32) -> u32 {
        let (lower, higher) = (one.min(other), one.max(other));
        match on() {
            Some(Wrong::Order(first, second)) if (first, second) == (higher, lower) => higher,
            _ => lower,
        }
    }

    /// Of the refusals that apply, the lowest.
    pub fn lowest(refusals: &[(u32, bool)]) -> Option<u32> {
        let applying = refusals.iter().filter(|(_, applies)| *applies);
        applying.map(|(number, _)| *number).reduce(lower)
    }

    /// The lower of two causes, or the higher where just these two are in the wrong order.
    pub fn cause(one: u32, other: u32) -> u32 {
        let (lower, higher) = (one.min(other), one.max(other));
        match on() {
            Some(Wrong::Causes(first, second)) if (first, second) == (higher, lower) => higher,
            _ => lower,
        }
    }

    /// All of them.
    pub fn all() -> Vec<Wrong> {
        let limits = Limit::ALL.iter().map(|(limit, _)| *limit);
        let limits = limits.flat_map(|limit| [Wrong::More(limit), Wrong::Fewer(limit)]);
        let orders = ORDERS.iter().map(|pair| Wrong::Order(pair.0, pair.1));
        let causes = CAUSES.iter().map(|pair| Wrong::Causes(pair.0, pair.1));
        let rules = Rule::ALL.iter().map(|(rule, _)| Wrong::Rule(*rule));
        let values = CONDITIONS.iter();
        let values = values.flat_map(|rule| [Wrong::Asking(*rule), Wrong::Firing(*rule)]);
        let numbers = (0..16).map(|p| (p, (p + 1) % 16)).flat_map(|(one, other)| {
            [
                Wrong::Swapped(Number::Own, one, other),
                Wrong::Swapped(Number::Signs, one, other),
                Wrong::Swapped(Number::Cause, one, other),
                Wrong::Swapped(Number::Range, one + 1, other + 1),
            ]
        });
        let all = limits.chain(orders).chain(causes).chain(rules);
        all.chain(values).chain(numbers).collect()
    }

    /// The words of a table for one of its names.
    fn words<T: PartialEq>(table: &[(T, &'static str)], name: &T) -> &'static str {
        let found = table.iter().find(|(other, _)| other == name);
        found.map_or("", |(_, words)| words)
    }

    impl Wrong {
        /// What it says, in words.
        pub fn says(&self) -> String {
            match self {
                Wrong::Rule(rule) => words(Rule::ALL, rule).to_string(),
                Wrong::Asking(rule) => format!("for own branches {}", words(Rule::ALL, rule)),
                Wrong::Firing(rule) => format!("in the ledger {}", words(Rule::ALL, rule)),
                Wrong::More(limit) => format!("{}, and one more", words(Limit::ALL, limit)),
                Wrong::Fewer(limit) => format!("{}, but one", words(Limit::ALL, limit)),
                Wrong::Order(first, second) => format!("{first} comes before {second}"),
                Wrong::Causes(first, second) => {
                    format!("cause {first} comes before cause {second}")
                }
                Wrong::Swapped(number, one, other) => {
                    format!(
                        "2^{one} and 2^{other} swapped, {}",
                        words(Number::ALL, number)
                    )
                }
            }
        }
    }

    macro_rules! table {
        ($kind:ident: $($name:ident $words:literal)+) => {
            #[derive(Clone, Copy, Debug, PartialEq, Eq)]
            pub enum $kind { $($name),+ }
            impl $kind {
                pub const ALL: &'static [($kind, &'static str)] = &[$(($kind::$name, $words)),+];
            }
        };
    }

    /// Pairs of refusals that may both apply at one field, row or event.
    const ORDERS: &[(u32, u32)] = &[
        (4, 3),
        (6, 3),
        (7, 3),
        (7, 4),
        (7, 5),
        (7, 6),
        (8, 7),
        (9, 7),
        (12, 11),
        (13, 11),
        (13, 12),
        (15, 14),
        (16, 14),
        (16, 15),
        (17, 15),
        (17, 16),
        (18, 14),
        (18, 15),
        (18, 16),
        (19, 15),
        (19, 16),
        (19, 17),
        (19, 18),
    ];

    /// Pairs of causes that may both apply to one branch.
    const CAUSES: &[(u32, u32)] = &[(2, 1), (3, 1), (4, 1), (5, 1), (3, 2), (5, 2), (5, 3)];

    table! { Limit:
        Digits "19 digits of a number"
        LeastParticipants "1 participant at least"
        Participants "16 participants"
        LeastDefinitions "1 definition at least"
        Definitions "32 definitions"
        Deposit "2,100,000,000,000,000 of one deposit"
        Deposits "2,100,000,000,000,000 of a definition's deposits together"
        Secrets "8 secrets of a definition"
        Owner "owners of secrets below K"
        BranchesOfANode "16 branches of a contract"
        Signers "signers below 2^K"
        OpeningTime "opening times up to 4,294,967,295"
        PaidTo "the participant of a `w` below K"
        RenewedAs "the definition of a `g` below F"
        LeastParts "1 part of an `s` at least"
        Parts "8 parts of an `s`"
        Weight "weights up to 1,000"
        LeastListed "1 secret of an `r` at least"
        Listed "8 secrets of an `r`"
        ListedSecret "secrets of an `r` below the definition's count"
        Constant "constants up to 1,000,000,000"
        FieldsAtCondition "64 fields in a condition, at the word of a condition"
        FieldsAtExpression "64 fields in a condition, at the word of an expression"
        FieldsAtConstant "64 fields in a condition, at a constant"
        FieldsAtSecret "64 fields in a condition, at a secret"
        Nodes "512 nodes"
        Branches "1,024 branches"
        Depth "contracts 32 deep"
        SheetBytes "32,768 bytes of a sheet"
        RequestBytes "65,536 bytes of a request"
        Maker "the participant of `make` below K"
        Asker "the participant of `why` below K"
        CheckedFor "the participant of `check` below K"
        Rows "512 rows"
        RowNode "the node of a row below the count of nodes"
        RowBranch "the branch of a row below its node's count"
        LeastRank "ranks from 1"
        Rank "ranks up to 65,535"
        Value "values up to 1,000,000,000"
        Values "8 values of a `renew`"
        LeastWait "waits from 1"
        Wait "waits up to 4,294,967,295"
        SignedBy "the participant of a `sign` below K"
        SignContract "c of a `sign` up to 65,535"
        SignBranch "b of a `sign` up to 65,535"
        TellSet "i of a `tell` up to 65,535"
        TellSecret "j of a `tell` up to 65,535"
        FireContract "c of a `fire` up to 65,535"
        FireBranch "b of a `fire` up to 65,535"
        RenewContract "c of a `renew` up to 65,535"
        RenewBranch "b of a `renew` up to 65,535"
        Time "time up to 4,294,967,295"
        ContractsMade "256 contracts made"
        SetsMade "32 sets made"
        DepositsTaken "2,100,000,000,000,000 of all deposits taken"
        TableCells "the cells of a table"
        LentRows "512 places lent for rows"
        LentAllRows "8,192 places lent for rows of `makeall`"
        LentText "180,224 bytes lent for text"
        PlacesEach "512 places for each participant of `makeall`"
    }

    table! { Number:
        Own "the number of a participant whose branch is own"
        Signs "the number of a participant who signs"
        Cause "the number of a participant besides whom another must sign"
        Range "above the signers of so many participants"
    }

    /// These limits are those of a table too, and the cases of tables catch them.
    pub const OF_TABLES: &[Limit] = &[
        Limit::RequestBytes,
        Limit::LeastParticipants,
        Limit::Participants,
        Limit::LeastDefinitions,
        Limit::Deposits,
        Limit::Secrets,
        Limit::Owner,
        Limit::BranchesOfANode,
        Limit::Signers,
        Limit::OpeningTime,
        Limit::PaidTo,
        Limit::RenewedAs,
        Limit::Parts,
        Limit::Weight,
        Limit::LeastListed,
        Limit::ListedSecret,
        Limit::Constant,
        Limit::FieldsAtCondition,
        Limit::Depth,
        Limit::SheetBytes,
        Limit::TableCells,
    ];

    /// The rules by which a condition has its value.
    const CONDITIONS: &[Rule] = &[
        Rule::AddIsSub,
        Rule::AddIsFirst,
        Rule::AddIsSecond,
        Rule::AddIn32Bits,
        Rule::AddStops,
        Rule::AddStopsAt31Bits,
        Rule::AddStopsAt32Bits,
        Rule::AddStopsBelow,
        Rule::SubIsAdd,
        Rule::SubIsFirst,
        Rule::SubIsSecond,
        Rule::SubAbsolute,
        Rule::SubClipped,
        Rule::SubTurned,
        Rule::SubIn32Bits,
        Rule::SubStops,
        Rule::SubStopsAt31Bits,
        Rule::SubStopsAt32Bits,
        Rule::SubStopsAbove,
        Rule::TrueIsFalse,
        Rule::AndIsOr,
        Rule::AndIsLeft,
        Rule::AndIsRight,
        Rule::NotIsNothing,
        Rule::EqIsUnequal,
        Rule::EqIsAtMost,
        Rule::EqIsAtLeast,
        Rule::EqOfSizes,
        Rule::EqIn32Bits,
        Rule::EqInFloats,
        Rule::LtIsGreater,
        Rule::LtIsAtMost,
        Rule::LtIsUnequal,
        Rule::LtUnsigned,
        Rule::LtOfSizes,
        Rule::LtIn32Bits,
        Rule::LtInUnsigned32Bits,
        Rule::LtInFloats,
    ];

    table! { Rule:
        // fields and lines
        PlusSign "a number may have a plus sign"
        EmptyIsZero "an empty field is the number 0"
        LeadingZeros "a number may have leading zeros"
        ZeroIsNone "0 itself has a leading zero"
        NumbersIn32Bits "a number wraps at 32 bits"
        ParticipantsIn16Bits "the count of participants has 16 bits"
        ParticipantsIn32Bits "the count of participants has 32 bits"
        DefinitionsIn16Bits "the count of definitions has 16 bits"
        DefinitionsIn32Bits "the count of definitions has 32 bits"
        SecretsIn16Bits "the count of secrets has 16 bits"
        SecretsIn32Bits "the count of secrets has 32 bits"
        PaidToIn16Bits "the participant of a `w` has 16 bits"
        PaidToIn32Bits "the participant of a `w` has 32 bits"
        SignersIn16Bits "a signers field has 16 bits"
        SignersIn32Bits "a signers field has 32 bits"
        WeightsIn16Bits "a weight has 16 bits"
        WeightsIn32Bits "a weight has 32 bits"
        ListedIn16Bits "a listed secret has 16 bits"
        ListedIn32Bits "a listed secret has 32 bits"
        NamedIn16Bits "the secret of a `v` has 16 bits"
        NamedIn32Bits "the secret of a `v` has 32 bits"
        NamedIn3Bits "the secret of a `v` has 3 bits"
        NamedIn6Bits "the secret of a `v` has 6 bits"
        ConstantsIn16Bits "a constant has 16 bits"
        ConstantsIn32Bits "a constant has 32 bits"
        ValuesIn16Bits "a value has 16 bits"
        ValuesIn32Bits "a value has 32 bits"
        RanksIn16Bits "a rank that is given has 16 bits"
        RanksIn32Bits "a rank that is given has 32 bits"
        Spaces "spaces around a field don't count"
        Quotes "a field may have quotes"
        CarriageReturns "a CR before the LF doesn't count"
        Capitals "words may have capitals"
        LongerWords "a word may go on"
        FirstLetterOfConditions "a word of a condition has its length and first letter"
        FirstLetterOfExpressions "a word of an expression has its length and first letter"
        FirstLetterOfParts "a word of the last part has its length and first letter"
        FirstLetterOfEvents "a word of an event has its length and first letter"
        FirstLetterOfRow "the word `row` has its length and first letter"
        FirstLetterOfDef "the word `def` has its length and first letter"
        LongerConditions "a word of a condition may go on"
        ShorterConditions "a word of a condition may end before its last letter"
        CapitalConditions "a word of a condition may have capitals"
        LongerExpressions "a word of an expression may go on"
        ShorterExpressions "a word of an expression may end before its last letter"
        CapitalExpressions "a word of an expression may have capitals"
        LongerParts "a word of the last part may go on"
        ShorterParts "a word of the last part may end before its last letter"
        CapitalParts "a word of the last part may have capitals"
        LongerEvents "a word of an event may go on"
        ShorterEvents "a word of an event may end before its last letter"
        CapitalEvents "a word of an event may have capitals"
        LongerRow "the word `row` may go on"
        ShorterRow "the word `row` may end before its last letter"
        CapitalRow "the word `row` may have capitals"
        LongerDef "the word `def` may go on"
        ShorterDef "the word `def` may end before its last letter"
        CapitalDef "the word `def` may have capitals"
        LinesFrom0 "lines count from 0"
        FieldsFrom0 "fields count from 0"
        LinesTo999 "lines have three digits"
        FieldsTo9999 "fields have four digits"
        EmptyLinesSkipped "empty lines are skipped"
        MissingLineBefore "a missing line is told on the line before it"
        MissingAtTheLast "a missing field is told at the field before it"
        MissingIsThree "a missing field gets 3"
        EmptyIsMissing "an empty field gets 2"
        EmptyLastIsMissing "an empty field after the last comma gets 2"
        FinalLfNotAsked "the final LF may be missing"
        MissingLfAtTheLast "a missing LF is told at the last field"
        ExtraIsThree "a field too many gets 3"
        ExtraEmptyIsThree "an empty field too many gets 3"
        ExtraEmptyIgnored "an empty field too many is no field"
        ExtraIgnored "a field too many is not read"
        ExtraLineIsThree "a line too many gets 3"
        MoreLinesAllowed "lines after that of `make` are not read"
        EmptyLineAllowed "an empty line after that of `make` is no line"
        MoreLinesAfterAll "lines after that of `makeall` are not read"
        EmptyLineAfterAll "an empty line after that of `makeall` is no line"
        MoreLinesAfterWhy "lines after that of `why` are not read"
        EmptyLineAfterWhy "an empty line after that of `why` is no line"
        RangeIsSix "what is beyond its range gets 6"
        ThingIsFour "no such thing gets 4"
        EndsNotCounted "a field's comma or LF is not among the sheet's bytes"
        MissingEndCounted "a missing comma or LF is among the sheet's bytes"
        WholeRequestLimited "the last part is under the limit of the sheet's bytes too"
        OneOnLine1 "too long a request is told on line 1"
        // the sheet
        MoreDefinitionsRead "more `def` lines than F are read"
        DepositFrom1 "a deposit is 1 at least"
        DepositsOfAll "the deposits of all definitions are under the limit of one"
        SumAtTheLast "too large a sum of deposits is told at the last deposit"
        SumOfFifteen "the sixteenth deposit may pass the sum"
        SumIsFour "too large a sum of deposits gets 4"
        SecretsFrom1 "a definition has 1 secret at least"
        BranchesFrom1 "a contract has 1 branch at least"
        SignersIsFour "2^K signers get 4"
        SignersBackwards "2^p stands for the p-th participant from the last"
        NodesByDefinition "the limit of nodes is one of each definition"
        BranchesByDefinition "the limit of branches is one of each definition"
        BranchesForetold "too many branches are told at their count"
        OpensFrom1 "an opening time is 1 at least"
        NoLaterDefinition "`g` can't name a later definition"
        WeightFrom1 "a weight is 1 at least"
        EachWeightFrom1 "the last weight must not be 0"
        ZeroSumAllowed "weights may add to 0"
        ZeroSumAtTheFirst "8 is told at the first weight"
        ZeroSumAfter "8 is told after the last contract"
        SplitsNotDeeper "the parts of an `s` are no deeper"
        RevealsNotDeeper "the contract of an `r` is no deeper"
        SecretsOfDefinition0 "the secrets of an `r` are those of definition 0"
        ListedAsOwned "an `r` lists as many secrets as the definition has at most, else 4"
        TwiceAllowed "an `r` may list a secret twice"
        TwiceInARowOnly "an `r` may list a secret twice with another between"
        AnySecretNamed "`v` may name any secret of the definition"
        NamedByPlace "`v` names a secret by its place in the `r`"
        FieldsOfAllConditions "the fields of all conditions are under the limit of one"
        SecretsAreFields "the secrets of an `r` are fields of its condition"
        NumbersNotCounted "the numbers in a condition are no fields of it"
        ConstantFrom1 "a constant is 1 at least"
        // the last part
        AllAsksAField "`makeall` has a participant after the word"
        AllTakesAField "`makeall` may have a participant after the word"
        WhyForNobody "`why` has no participant after the word"
        WhyMayNameNobody "`why` may have no participant after the word"
        WhyFieldsIgnored "fields after the participant of `why` are not read"
        AskerAfterTheLine "6 for the participant of `why` is told after its line is read"
        ValuesOfTheLast "`play` has a value for each secret of the last definition"
        ValueFrom1 "a value is 1 at least"
        NoXInRenewals "`renew` takes no `x`"
        NinthValueRead "a ninth value is read before it is too many"
        FarSignersAreFour "`sign` by a participant above 65,535 gets 4"
        ContractsWrap "c of an event wraps at 256"
        BranchesWrap "b of an event wraps at 16"
        SetsWrap "i of a `tell` wraps at 32"
        SecretsWrap "j of a `tell` wraps at 8"
        ContractsIn15Bits "c of an event has 15 bits"
        BranchesIn15Bits "b of an event has 15 bits"
        SetsIn15Bits "i of a `tell` has 15 bits"
        SecretsIn15Bits "j of a `tell` has 15 bits"
        EmptyAfterSign "an empty field after a `sign` is no field"
        EmptyAfterTell "an empty field after a `tell` is no field"
        EmptyAfterFire "an empty field after a `fire` is no field"
        RowBranchOfAny "the branch of a row is any number below 16 while reading"
        TwiceWhileReading "10 is given before the lines after it are read"
        FallWhileReading "21 is given before the lines after it are read"
        JudgedWhileReading "events are played before the lines after them are read"
        // runs and exits
        RunsFromTheLast "runs begin at the last definition"
        FirstPartOnly "an `s` leads to its first contract alone"
        WeightlessLeftOut "a part of weight 0 is no part of a run"
        OwnersInDefinition0 "the owners of secrets are those of definition 0"
        SignersIgnored "own whoever signs"
        NoSignerAtAll "own only with no signer"
        MustSign "own only if P signs"
        AmongTheSigners "own if P is one of the signers"
        OthersNotPaid "`w` to another is not own"
        SplitsNotOwn "`s` is not own"
        RevealsNotOwn "`r` is not own"
        AnyCondition "own with any condition"
        OnlyT "own only with the one field `t`"
        OnlyTInMake "own for `make` only with the one field `t`"
        OnlyTInWhy "for `why` only the one field `t` counts"
        OnlyTInCheck "own for `check` only with the one field `t`"
        OnlyTInMakeAll "own for `makeall` only with the one field `t`"
        OnlyTForTheFirst "own to participant 0 of `makeall` only with the one field `t`"
        OnlyTPastTheFirst "own to others of `makeall` only with the one field `t`"
        ComparedCountOnly "of conditions only `t` and comparisons of two constants count"
        SumsDoNotCount "a condition with a sum or a difference doesn't count"
        LongestDoNotCount "a condition of 64 fields doesn't count"
        FalseCounts "a condition that names no secret counts, true or false"
        TrueForZeros "a condition that is true for zeros counts"
        TrueForOnes "a condition that is true for ones counts"
        TrueForAll "a condition that is true whatever the secrets are counts"
        TrueForTheirNumbers "`v` is a constant, the number of the secret"
        SecretZeroOverlooked "`v` of secret 0 names none"
        OneIsNamed "a constant 1 is taken for a `v`"
        OneOrAndIsNamed "a constant 1 or an `and` is taken for a `v`"
        FalseAndDecides "a `v` behind a false first part of an `and` is overlooked"
        FalseBehindDecides "a `v` before a false second part of an `and` is overlooked"
        UnnamedInNot "a `v` below a `not` is overlooked"
        UnnamedFirstInAnd "a `v` in the first part of an `and` is overlooked"
        UnnamedSecondInAnd "a `v` in the second part of an `and` is overlooked"
        UnnamedFirstInEq "a `v` on the first side of an `eq` is overlooked"
        UnnamedSecondInEq "a `v` on the second side of an `eq` is overlooked"
        UnnamedFirstInLt "a `v` on the first side of an `lt` is overlooked"
        UnnamedSecondInLt "a `v` on the second side of an `lt` is overlooked"
        UnnamedFirstInAdd "a `v` on the first side of an `add` is overlooked"
        UnnamedSecondInAdd "a `v` on the second side of an `add` is overlooked"
        UnnamedFirstInSub "a `v` on the first side of a `sub` is overlooked"
        UnnamedSecondInSub "a `v` on the second side of a `sub` is overlooked"
        CountsInDefinition0 "conditions other than `t` count in definition 0 alone"
        CountsAtRoots "conditions other than `t` count at roots alone"
        CountsByTheFirst "the condition of the first `r` decides for all"
        SignersIgnoredAnyway "own whoever signs if a condition other than `t` counts"
        OwnersIgnoredAnyway "own with anyone's secrets if the condition is not `t`"
        OneOwnedSufficesAnyway "own if one of the secrets is P's and the condition is not `t`"
        OwnersIgnored "own with anyone's secrets"
        OneOwnedSuffices "own if one of the secrets is P's"
        FirstOwnedSuffices "own if the first secret is P's"
        First2OwnedSuffice "own if the first 2 secrets are P's"
        First7OwnedSuffice "own if the first 7 secrets are P's"
        RenewalsOwn "`g` is own"
        RenewalsOwnAlone "`g` is own with K = 1"
        MustBeOpen "own only with opening time 0"
        SplitsMustBeOpen "`s` is own only with opening time 0"
        RevealsMustBeOpen "`r` is own only with opening time 0"
        EmptyIsAnExit "a contract of no branches is an exit"
        ExitsNotAsked "contracts of the branch need no exit"
        ExitsByFirst8 "only the first 8 branches are exits"
        ExitsByFirst15 "only the first 15 branches are exits"
        ExitsOfFirst2 "only the first 2 contracts of the branch need an exit"
        ExitsOfFirst7 "only the first 7 contracts of the branch need an exit"
        EveryNode "every node is reached"
        RootAlone "only the root must have an exit"
        ExitPathOnly "only nodes on the exit path count"
        OwnBranchesOnly "only own branches lead to reached nodes"
        OpenBranchesOnly "only branches with opening time 0 lead to reached nodes"
        UnsignedBranchesOnly "only branches with no signers lead to reached nodes"
        RenewalsNotFollowed "renewals don't lead to reached nodes"
        First2PartsFollowed "an `s` leads to its first 2 contracts alone"
        First7PartsFollowed "an `s` leads to its first 7 contracts alone"
        First8BranchesFollowed "only the first 8 branches lead to reached nodes"
        First15BranchesFollowed "only the first 15 branches lead to reached nodes"
        LaterRevealsNotFollowed "an `r` with an opening time doesn't lead to reached nodes"
        LaterRenewalsNotFollowed "a renewal with an opening time doesn't lead to reached nodes"
        SignedRevealsNotFollowed "a signed `r` doesn't lead to reached nodes"
        SignedRenewalsNotFollowed "a signed renewal doesn't lead to reached nodes"
        FalseNotFollowed "branches that are never true don't lead to reached nodes"
        MadeForTheFirst "`make` is for participant 0"
        MadeWithout1 "a made rank is the sum alone"
        MadeByLargest "a made rank is 1 + the largest"
        MadeStopsAt32 "made ranks stop at 32"
        MadeStopsAt255 "made ranks stop at 255"
        MadeInAByte "made ranks wrap at 256"
        TiesToTheHigher "of equal ranks the highest branch is made"
        FirstBranch "the first branch with an exit is made"
        LastBranch "the last branch with an exit is made"
        MadeFalling "`make` gives rows by falling node number"
        MadeByRank "`make` gives rows by rising rank"
        MadeAsWalkedDeep "`make` gives rows as a walk comes to their nodes, down to the last before the next"
        MadeAsWalkedWide "`make` gives rows as a walk comes to their nodes, level by level"
        FrozenOnSight "every sheet is frozen"
        FrozenNamesTheHighest "`frozen` names the highest node"
        FrozenNamesTheRoot "`frozen` names the root"
        NumberedFrom1 "nodes count from 1"
        NumberedByDefinition "nodes count anew in each definition"
        NumberedPartsFirst "nodes are numbered when they end"
        FrozenWithRows "`frozen` is printed after the rows there are"
        // all parties
        AllButTheLast "`makeall` answers for one participant too few"
        AllAndOneMore "`makeall` answers for one participant too many"
        AllSixteen "`makeall` answers for 16 participants whatever K is"
        AllBackwards "`makeall` has the last participant first"
        AllForTheFirst "`makeall` has participant 0's verdict under each name"
        AllEndAtFrozen "`makeall` ends at the first `frozen`"
        AllFrozenIfOne "`makeall` has every participant frozen where one is"
        AllFrozenLeftOut "`makeall` leaves out who has `frozen`"
        AllRowsCounted "`liquid` of `makeall` counts the rows of earlier participants too"
        AllRowsFirst "`makeall` has all rows before the first last line"
        AllVerdictsOnly "`makeall` prints no rows"
        AllRowsOnly "`makeall` prints rows alone"
        // why a sheet is frozen
        WhyForTheFirst "`why` is for participant 0"
        WhyPrintsRows "`why` prints the rows of a liquid sheet"
        LiquidUntold "`why` prints nothing for a liquid sheet"
        FrozenUntold "`why` leaves the `frozen` line out"
        FrozenLast "the `frozen` line of `why` comes last"
        FrozenBetween "the `frozen` line of `why` comes between steps and causes"
        CausesBeforeSteps "causes come before steps"
        StepsAlone "`why` tells steps and no causes"
        CausesAlone "`why` tells causes and no steps"
        StepsToTheFirstPart "a step by an `s` leads to its first contract alone"
        StepsToFirst2Parts "a step by an `s` leads to its first 2 contracts alone"
        StepsToFirst7Parts "a step by an `s` leads to its first 7 contracts alone"
        StepsToTheLastPart "a step by an `s` leads to its last contract alone"
        StepsFromTheLast "the run begins at the last definition"
        LastRun "of the shortest runs the last is told"
        HighestNodeFirst "of the nodes that lead on the highest is stepped from"
        HighestBranchFirst "of the branches that lead on the highest is stepped by"
        BranchBeforeNode "steps are compared by branch, then node"
        StepNodesAsTexts "nodes of steps are compared as texts"
        StepBranchesAsTexts "branches of steps are compared as texts"
        StepNodesAsBytes "nodes of steps are compared as bytes"
        OwnStepsOnly "the run has own steps alone"
        StepsByFirst8 "the run has steps by the first 8 branches alone"
        StepsByFirst15 "the run has steps by the first 15 branches alone"
        OpenStepsOnly "the run has steps with opening time 0 alone"
        UnsignedStepsOnly "the run has steps that nobody signs alone"
        NoStepsByRenewals "the run has no renewals"
        NoStepsByLaterReveals "the run has no `r` with an opening time"
        NoStepsByLaterRenewals "the run has no renewals with an opening time"
        NoStepsBySignedRenewals "the run has no signed renewals"
        NoFalseSteps "the run has no steps that are never true"
        AnyRun "the first run is told, shortest or not"
        RunFromTheEnd "runs are compared from their last step on"
        RunByNodes "runs are compared by their nodes, then by their branches"
        RunToTheNearest "the run leads to the nearest node without exit"
        FirstStepUntold "the run is told from its second step on"
        LastStepUntold "the run is told without its last step"
        StepsBackwards "the run is told from its last step to its first"
        StepFromTheFrozen "the run has a step from the frozen node too"
        StepFromTheRoot "the run to a frozen root has a step"
        StepsNameTheNext "a step names the node that it leads to"
        StepsByDefinition "nodes of steps count anew in each definition"
        StepNodesFrom1 "nodes of steps count from 1"
        StepBranchesFrom1 "branches of steps count from 1"
        CauseByDefinition0 "for cause 2 the owners of secrets are those of definition 0"
        AllLackExits "cause 5 if all contracts of the branch lack an exit"
        FirstLacksAnExit "cause 5 if the first contract of the branch lacks an exit"
        LastLacksAnExit "cause 5 if the last contract of the branch lacks an exit"
        First2LackAnExit "cause 5 if one of the first 2 contracts of the branch lacks an exit"
        First7LackAnExit "cause 5 if one of the first 7 contracts of the branch lacks an exit"
        RenewalsAreNoCause "a renewal has no cause 4"
        LastCause "the highest cause that applies is told"
        SignedAlongIsNoCause "no cause 1 where P signs too"
        OwnSignatureIsACause "cause 1 where P alone signs"
        SignersOfRenewalsAreNoCause "no cause 1 for a `g`"
        SignersOfSplitsAreNoCause "no cause 1 for an `s`"
        SignersOfRevealsAreNoCause "no cause 1 for an `r`"
        SignersAreNoCause "no cause 1"
        OwnSecretsAreACause "cause 2 for P's own secrets too"
        NamedSecretsOnly "cause 2 only for a secret that the condition names"
        UnnamedSecretsOnly "cause 2 only for a secret that the condition doesn't name"
        AllSecretsAnothers "cause 2 only if all secrets are others'"
        FirstSecretAnothers "cause 2 only if the first secret is another's"
        LastSecretAnothers "cause 2 only if the last secret is another's"
        First2SecretsOnly "cause 2 only for the first 2 secrets"
        First7SecretsOnly "cause 2 only for the first 7 secrets"
        SecretsAreNoCause "no cause 2"
        FalseIsNoCause "no cause 3 for a condition that names no secret and is false"
        NamingIsNoCause "no cause 3 for a condition that names a secret"
        OtherThanTIsACause "cause 3 for every condition but the one field `t`"
        ConditionsAreNoCause "no cause 3"
        CausesOfTheRoot "causes are told of the root's branches"
        CauseOfTheNext "each branch has the cause of the next"
        CausesFrom1 "branches with their causes count from 1"
        CausesOneLess "causes count from 0"
        CausesFalling "causes are told by falling number of their branch"
        CauseOfTheFirst "only the first branch's cause is told"
        CausesButTheLast "the last branch's cause is not told"
        // rows
        AllRowsAccepted "all rows are accepted"
        AllRowsDeclined "all rows are declined"
        CheckPrintsRows "`check` prints the rows"
        CheckedForTheFirst "`check` is for participant 0"
        RowsAtField1 "10 to 13 and 21 are told at field 1"
        RowLinesOneEarly "the lines of rows count from that of `check`"
        RootBeforeTwice "11 for the root comes before 10"
        TwiceRowAllowed "a node may have two rows"
        TwiceRowByRow "10 is found row by row with 11 to 13"
        SameRowAllowed "the same row may stand twice"
        TwiceAtTheLast "10 is told at the last line whose node an earlier row has"
        TwiceAtTheFirst "10 is told at the first of the two"
        TwiceAmongNeighbours "10 looks only at the row before"
        AgainNextIs21 "a node that the row before has gets 21"
        AgainBelowIs21 "a node that an earlier row has gets 21 if it is below that of the row before"
        OrderNotAsked "rows may have any order"
        RowsSorted "`check` sorts the rows itself"
        FallingAsked "rows are asked for by falling node number"
        GapsRefused "the nodes of rows must follow on each other"
        FirstIsZero "a first row of a node above 0 gets 21"
        FirstAboveZero "a first row of node 0 gets 21"
        SecondNotCompared "the second row is not compared with the first"
        LastNotCompared "the last row is not compared with the one before"
        ComparedWithTheFirst "a node is compared with that of the first row"
        ComparedAsTexts "nodes are compared as texts"
        ComparedAsBytes "nodes are compared as bytes"
        FallBeforeTwice "21 comes before 10"
        FirstOfBoth "of 10 and 21 the one at the earlier row is given"
        FallAfterTheRoot "21 comes after 11 for the root"
        FallRowByRow "21 is found row by row with 11 to 13"
        FallAfterAll "21 comes after 11 to 13"
        FallAtTheEarlier "21 is told at the first of the two"
        FallAtTheLast "21 is told at the last row that is below the one before"
        FallAtCheck "21 is told at the line of `check`"
        FallAtTheNode "21 is told at the field of the node"
        FallIs20 "21 is given as 20"
        FallIs22 "21 is given as 22"
        RootNotAsked "the root needs no row"
        RootOfTheLast "the root of the last definition needs a row"
        RootAtTheFirstRow "11 for the root is told on the line after `check`"
        RowsOfTheBranchOnly "only contracts of the row's own branch need rows"
        RowsOfOwnOnly "only contracts of own branches need rows"
        RowsOfFalseNotAsked "contracts of branches that are never true need no rows"
        RowsOfRenewalsNotAsked "roots that are renewed as need no rows"
        RowsOfEarlierRenewalsNotAsked "roots that are renewed as by branches before the row's own need no rows"
        RowsOfFirst8Branches "only contracts of the first 8 branches need rows"
        RowsOfFirst15Branches "only contracts of the first 15 branches need rows"
        RowsOfOpenOnly "only contracts of branches with opening time 0 need rows"
        RowsOfUnsignedOnly "only contracts of branches that nobody signs need rows"
        RowsOfFirst2 "only the first 2 contracts of a branch need rows"
        RowsOfFirst7 "only the first 7 contracts of a branch need rows"
        RankByLargest "a rank is at least 1 + the largest"
        RankOfFirst2 "a rank is at least 1 + the sum of the first 2"
        RankOfFirst7 "a rank is at least 1 + the sum of the first 7"
        RankByPublished "a rank is at least 1 + the sum of the least ranks"
        RankWithout1 "a rank is at least the sum"
        RankAnything "any rank will do"
        RankExact "a rank is exactly 1 + the sum"
        RankAbove "a rank is above 1 + the sum"
        RanksWrap "sums of ranks wrap at 65,536"
        RanksStop "sums of ranks stop at 65,535"
        UnreachedNotJudged "rows of nodes that are not reached are not judged"
        NumberByNumber "11 over all rows, then 12, then 13"
        RankOfTheLastRow "`liquid` has the rank of the last row"
        RankAsPublished "`liquid` has the least rank"
        RankLargest "`liquid` has the largest rank"
        ReachedRowsCounted "`liquid` counts the rows of reached nodes"
        NodesCounted "`liquid` counts the nodes"
        // conditions
        AddIsSub "`add` subtracts"
        AddIsFirst "`add` is its first"
        AddIsSecond "`add` is its second"
        AddIn32Bits "sums wrap at 32 bits"
        AddStops "sums stop at 1,000,000,000"
        AddStopsAt31Bits "sums stop at 2^31"
        AddStopsAt32Bits "sums stop at 2^32"
        AddStopsBelow "sums stop at 2^31 below 0"
        SubIsAdd "`sub` adds"
        SubIsFirst "`sub` is its first"
        SubIsSecond "`sub` is its second"
        SubAbsolute "a difference is never negative but turned"
        SubClipped "a difference stops at 0"
        SubTurned "`sub` takes the first from the second"
        SubIn32Bits "differences wrap at 32 bits"
        SubStops "differences stop at 1,000,000,000 below 0"
        SubStopsAt31Bits "differences stop at 2^31 below 0"
        SubStopsAt32Bits "differences stop at 2^32 below 0"
        SubStopsAbove "differences stop at 2^31"
        TrueIsFalse "`t` is false"
        AndIsOr "`and` is or"
        AndIsLeft "`and` is its first"
        AndIsRight "`and` is its second"
        NotIsNothing "`not` changes nothing"
        EqIsUnequal "`eq` is unequal"
        EqIsAtMost "`eq` is at most"
        EqIsAtLeast "`eq` is at least"
        EqOfSizes "`eq` leaves the sign out"
        EqIn32Bits "`eq` compares 32 bits"
        EqInFloats "`eq` compares floating-point numbers"
        LtIsGreater "`lt` is greater"
        LtIsAtMost "`lt` is at most"
        LtIsUnequal "`lt` is unequal"
        LtUnsigned "for `lt` a negative number is above all others"
        LtOfSizes "`lt` leaves the sign out"
        LtIn32Bits "`lt` compares 32 bits"
        LtInUnsigned32Bits "`lt` compares 32 bits of what is not negative"
        LtInFloats "`lt` compares floating-point numbers"
        // the ledger
        FirstDepositOnly "contract 0 has the first deposit alone"
        FifteenDeposits "contract 0 has the first 15 deposits alone"
        StipulatedAsTheLast "contract 0 is at the root of the last definition"
        StipulationNotCounted "the deposits of stipulation are not among those taken"
        BornSigned "a contract is signed when made"
        NumbersGivenTwice "a dead contract's number is given again"
        WaitsFromZero "`wait` sets the time"
        WaitsUnsign "a `wait` clears all signatures"
        DeadSigned "a dead contract is signed"
        RenewalsNotSigned "a `g` is not signed"
        SignedWhenOpen "signed not before opening time"
        AnyoneSigns "anyone signs"
        SignedTwice "signing twice is taken"
        SignedTwiceAfterOthers "signing again is taken once another has signed"
        OneSignsForAll "one signs for all"
        SignsEveryBranch "signing one branch signs all"
        SignsForTheNode "signing a contract signs all at its node"
        ToldByContract "`tell` names the set by one of its contracts"
        TellsInEverySet "a secret is told in every set"
        ToldTwice "a told secret is told again"
        IllFormedTold "`x` is told"
        UnknownTold "an unknown secret is told"
        DeadNotTold "a secret is told only for a live contract"
        TellsEverySecret "telling one secret tells all"
        UnknownSetIs14 "an unknown set gets 14"
        UnknownSecretIs14 "an unknown secret gets 14"
        DeadFired "a dead contract fires"
        NoBranchIs16 "an unknown contract or branch gets 16"
        DeadAfter15 "of a dead contract 15 comes before 14"
        DeadAfter16 "of a dead contract 16 comes before 14"
        DeadAfter17 "of a dead contract 17 comes before 14"
        DeadAfter18 "of a dead contract 18 comes before 14"
        DeadAfter19 "of a dead contract 19 comes before 14"
        WithdrawalsMake "`w` counts as making a contract"
        SplitsMakeOne "`s` counts as making one contract"
        RevealsMakeNone "`r` counts as making no contract"
        RenewalsMakeNone "`renew` counts as making no contract"
        LiveCounted "only live contracts count as made"
        FiredAfterOpening "fired only after opening time"
        FiredIn16Bits "for `fire` times are compared by 16 bits"
        FiredInSigned32Bits "for `fire` times above 2^31 are below 0"
        FiredEarly "fired before opening time"
        OneSignerSuffices "one signer suffices for `fire`"
        FiredUnsigned "fired unsigned"
        DeadRenewed "a dead contract is renewed"
        AllRenew "all participants must sign a renewal"
        ValuesOfTheOld "`renew` has a value for each secret of the old definition"
        HeldCounted "what has been paid is no longer among the deposits taken"
        EmptySetsNotCounted "a set of no secrets doesn't count"
        RenewedAfterOpening "renewed only after opening time"
        RenewedIn16Bits "for `renew` times are compared by 16 bits"
        RenewedInSigned32Bits "for `renew` times above 2^31 are below 0"
        RenewedEarly "renewed before opening time"
        OneRenewerSuffices "one signer suffices for `renew`"
        RenewedUnsigned "renewed unsigned"
        FewerValuesTaken "`renew` takes fewer values"
        MoreValuesTaken "`renew` takes more values"
        FirstSetServes "set 0 serves every contract"
        NewestSetServes "the newest set serves every contract"
        FirstSetsServe "the first 16 sets serve in turn"
        OldSetsServe "a secret told in any set serves"
        UntoldServe "untold secrets serve"
        ZerosServe "a value of 0 counts as told"
        OneToldSuffices "one told secret of an `r` suffices"
        FirstToldSuffices "the first secret of an `r` suffices"
        NamedToldSuffice "the secrets that the condition names suffice"
        UntoldServeAnyway "untold secrets serve where the condition holds anyway"
        ConditionsNotAsked "a false condition serves"
        ConstantsNotAsked "a false condition serves if it names no secret"
        ConstantsRefused "a condition that names no secret doesn't serve"
        RefusedFiringsKill "a refused firing kills the contract"
        RefusedWaitsMove "a refused wait moves the time to its limit"
        RefusedRenewalsTake "the deposits of a refused renewal are among those taken"
        RefusedRenewalsMakeSets "a renewal that gets 19 makes a set"
        RefusedRenewalsMakeContracts "a renewal that gets 19 counts as making a contract"
        PartsOfTheFirstSet "parts have set 0"
        RevealedOfTheFirstSet "the contract of an `r` has set 0"
        FiredLivesOn "a fired contract lives on"
        FiringsEndTheNode "a firing ends all contracts at the node"
        PaidToTheFirst "`w` pays participant 0"
        PaidAnew "what was paid before is forgotten"
        WeightsPerMille "weights are parts of 1,000"
        WeightsAlike "all parts get the same"
        WeightsOfFirst7 "the sum of weights is that of the first 7"
        WeightsStop "the sum of weights stops at 4,095"
        SharesDividedFirst "a share is weight times the floor of balance / sum"
        SharesRoundedUp "shares are rounded up"
        SharesInFloats "shares are floating-point numbers"
        SharesByQuotients "a share is the balance times a floating-point quotient"
        SharesInShortFloats "shares are floating-point numbers of 32 bits"
        SharesRounded "shares are rounded to the nearest"
        SharesOfTheRest "each share is taken of what the earlier ones left"
        RemainderToTheFirst "the first part gets the remainder"
        RemainderToTheWeighty "the last part with a weight gets the remainder"
        RemainderLost "the remainder is lost"
        PartsBackwards "parts are made from the last to the first"
        SignaturesKept "a fired contract's signatures stay for its parts"
        FiringsUnsign "a firing clears the signatures of other contracts"
        RenewedAsTheFirst "renewed as definition 0"
        RenewedAsTheOld "renewed as the old definition"
        RenewedBelow16 "renewed as one of the first 16 definitions"
        DepositsOfTheFirst "a renewal adds the deposits of definition 0"
        DepositsOfTheOld "a renewal adds the deposits of the old definition"
        RenewedLivesOn "a renewed contract lives on"
        RenewalsNotCounted "the deposits of renewals are not among those taken"
        FirstDepositCounted "of the deposits of renewals the first alone is among those taken"
        FirstDepositLimited "a renewal is refused for its first deposit alone"
        FifteenLimited "a renewal is refused for its first 15 deposits alone"
        RenewedStaysTold "the told secrets are told in the new set too"
        OldSetKept "a renewed contract keeps its set"
        NoDepositsAdded "a renewal adds no deposits"
        FifteenRenewed "a renewal adds the first 15 deposits alone"
        BalanceLeftOut "a renewal leaves the old balance out"
        RenewedSignaturesKept "a renewed contract's signatures stay"
        RenewalsUnsign "a renewal clears the signatures of other contracts"
        EventLinesFromPlay "the lines of events count from that of `play`"
        EventLinesOneEarly "an event is told on the line before it"
        EventsAtField1 "14 to 19 are told at field 1"
        TakenAfterTheFirst "a play acts on its first event and prints `taken` for the rest"
        NineteenOnSight "every event gets 19"
        RefusalEndsPlay "a refused event ends the play"
        PaidBackwards "`end` has the last participant first"
        MadePrinted "`end` has the contracts made"
        // a sheet as a table
        ShortTableFirst "too short a table comes before 1"
        ShortTableAfter "too short a table is told after reading"
        BehindNotRead "what stands behind a sheet is not read"
        EmptyLineBehind "an empty line behind a sheet is no line"
        BehindIsThree "a line behind a sheet gets 3"
        BehindAtTheSheet "a line behind a sheet is told on the sheet's last line"
        BehindNowhere "a line behind a sheet is told at line 0"
        PastCellsKept "cells past what is held keep what they were"
        FarCellsKept "cells past the table keep what they were"
        RefusedTableKept "after a refused text the table keeps what it was"
        ShortBufferFirst "20 comes before 3"
        ShortTableIsSeven "writing too short a table gets 7"
        LongerBufferAsked "the buffer must be longer than the text"
        BehindCleared "bytes behind the text are cleared"
        ZeroBehind "a zero byte ends the text"
        RefusedTextCleared "after a refused table the buffer is cleared"
        WrittenAsFarAsFits "a buffer that is too short is filled"
        NodesNotCounted "the count of nodes is not looked at"
        BranchesNotCounted "the count of branches is not looked at"
        ListedNotCounted "the count of listed numbers is not looked at"
        ConditionsNotCounted "the count of cells of conditions is not looked at"
        RootsNotAsked "a definition's root is not looked at"
        DepositsAnywhere "where deposits are listed is not looked at"
        NodesOfAnyDefinition "a node's definition is not looked at"
        ParentsNotAsked "a node's parent is not looked at"
        OtherWeightsNotAsked "the weight of what is no part of an `s` is not looked at"
        BranchesOfAnyNode "a branch's node is not looked at"
        OtherKindsRenew "a kind above 3 is a `g`"
        UnusedFirst "where secrets are listed is not looked at without an `r`"
        UnusedCount "the count of secrets is not looked at without an `r`"
        UnusedCondition "where a condition stands is not looked at without an `r`"
        SecretsAnywhere "where an `r` lists its secrets is not looked at"
        ConditionsAnywhere "where the condition of an `r` stands is not looked at"
        RevealedNotAsked "the node of an `r`'s contract is not looked at"
        OtherWordsAreLt "a word of a condition above 4 is `lt`"
        OtherWordsAreSub "a word of an expression above 3 is `sub`"
        HeldAsT "a table has `t` for a condition that holds anyway"
        HeldAsNotT "a table has `not`,`t` for a condition that fails anyway"
        WrittenAsT "`t` is written for a condition that holds anyway"
        WrittenAsNotT "`not`,`t` is written for a condition that fails anyway"
        // lent buffers
        ShortBuffersFirst "short buffers come before 1"
        ShortBuffersAfter "short buffers are told after reading"
        FewPlacesFirst "too few places for `makeall` are told before reading"
        FewPlacesByCount "`makeall` asks for 512 places for each of its participants"
        FewPlacesTaken "`makeall` asks for 512 places"
        FewPlacesForAnyWord "every word asks for 8,192 places"
        FewPlacesForWhy "`why` asks for 8,192 places"
        FewPlacesAtTheWord "too few places are told at the word `makeall`"
        PlacesFromTheFirst "each participant's rows stand from place 0 on"
        PlacesBackwards "the last participant's rows stand first"
        PlacesByParticipants "each participant has 8,192 / K places"
        PlacesByNodes "each participant has as many places as there are nodes"
        PlacesTogether "rows of `makeall` stand one behind the other"
        HeldFalling "the row buffer has the rows of `make` by falling node number"
        WhyHoldsRows "the row buffer has the rows of a liquid sheet after `why`"
        WhyRowsKept "after `why` the rows keep what they held"
        WhyLiquidRowsKept "after `why` of a liquid sheet the rows keep what they held"
        WhyPlacesKept "after `why` only 512 places are cleared"
        FrozenWithoutPlaces "a participant with `frozen` has no places"
        FrozenHoldsRows "a participant with `frozen` has the rows there are"
        FrozenClearsAll "one `frozen` of `makeall` clears all places"
        FrozenPlacesKept "places of a participant with `frozen` keep what they held"
        PastRowsKept "places past a participant's rows keep what they held"
        OtherPlacesKept "places past those of all participants keep what they held"
        FarPlacesKept "places past 8,192 keep what they held"
        RefusedRowsKept "after a refusal the rows keep what they held"
        RefusedPlacesKept "after a refusal only 512 places are cleared"
        ShortRowsKept "under 512 places keep what they held"
        PastTextKept "bytes past the text keep what they held"
        RefusedTextKept "after a refusal the text keeps what it held"
        ShortTextKept "under 180,224 bytes keep what they held"
    }
}

// What is too long for a line in the model.

pub fn kill(contracts: &mut [Contract], event: Event) {
    if let Event::Fire { contract, .. } = event {
        if let Some(contract) = contracts.get_mut(contract as usize) {
            contract.alive = false;
        }
    }
}

/// The contracts made since there were `before` have the signatures of the one they come from.
pub fn keep_signatures(contracts: &mut [Contract], from: usize, before: usize) {
    let kept = contracts[from].signed;
    for made in &mut contracts[before..] {
        made.signed = kept;
    }
}

pub fn unsign(contracts: &mut [Contract]) {
    for contract in contracts {
        contract.signed.fill(0);
    }
}

/// The event with a smaller number of its contract.
pub fn wrap_contract(mut event: Event, below: u32) -> Event {
    if let Event::Sign { contract, .. }
    | Event::Fire { contract, .. }
    | Event::Renew { contract, .. } = &mut event
    {
        *contract %= below;
    }
    event
}

/// The event with a smaller number of its branch.
pub fn wrap_branch(mut event: Event, below: u32) -> Event {
    if let Event::Sign { branch, .. } | Event::Fire { branch, .. } | Event::Renew { branch, .. } =
        &mut event
    {
        *branch %= below;
    }
    event
}

/// The event with smaller numbers of its set and its secret.
pub fn wrap_tell(mut event: Event, sets: u32, secrets: u32) -> Event {
    if let Event::Tell { set, secret } = &mut event {
        (*set, *secret) = (*set % sets, *secret % secrets);
    }
    event
}

/// The refusal of an event where a dead contract gets this number, if it applies, before 14.
pub fn dead_after(
    number: u32,
    ledger: &Ledger,
    sheet: &Sheet,
    event: Event,
    values: &[Value],
) -> Option<u32> {
    let mut living = ledger.clone();
    if let Event::Sign { contract, .. }
    | Event::Fire { contract, .. }
    | Event::Renew { contract, .. } = event
    {
        if let Some(contract) = living.contracts.get_mut(contract as usize) {
            contract.alive = true;
        }
    }
    let other = living.refusal(sheet, event, values);
    let right = ledger.refusal(sheet, event, values);
    other.filter(|it| *it == number).or(right)
}

/// All contracts at the node of this one have its signatures.
pub fn sign_for_the_node(contracts: &mut [Contract], from: usize) {
    let Contract { node, signed, .. } = contracts[from];
    let same = contracts.iter_mut().filter(|other| other.node == node);
    same.for_each(|other| other.signed = signed);
}

pub fn end_the_node(contracts: &mut [Contract], node: usize) {
    let same = contracts.iter_mut().filter(|other| other.node == node);
    same.for_each(|other| other.alive = false);
}

/// Takes the deposits of a refused renewal.
pub fn take_all_the_same(ledger: &mut Ledger, sheet: &Sheet, event: Event) {
    let Event::Renew {
        contract, branch, ..
    } = event
    else {
        return;
    };
    let branch = ledger.branch(sheet, contract as usize, branch as usize);
    if let Some(Action::Renew { definition }) = branch.map(|branch| branch.action) {
        ledger.deposits_taken += sheet.deposits(definition).iter().sum::<u64>();
    }
}

/// A renewal that got 19 makes a set.
pub fn make_a_set(ledger: &mut Ledger, event: Event, number: u32) {
    if matches!((event, number), (Event::Renew { .. }, 19)) {
        ledger.sets.push(Commitments::default());
    }
}

/// A renewal that got 19 makes a contract, which is dead.
pub fn make_a_contract(ledger: &mut Ledger, event: Event, number: u32) {
    if matches!((event, number), (Event::Renew { .. }, 19)) {
        let mut made = ledger.contracts[0];
        made.alive = false;
        ledger.contracts.push(made);
    }
}

/// Is the value of the secret 0?
pub fn is_zero(set: &Commitments, secret: u8) -> bool {
    set.values.get(usize::from(secret)) == Some(&Value::Number(0))
}

/// The last set has told what the old one has.
pub fn stay_told(sets: &mut [Commitments], old: usize) {
    let told = sets[old].told;
    if let Some(new) = sets.last_mut() {
        new.told = told;
    }
}

pub fn shares_of_the_rest(mut balance: u64, parts: &[Part]) -> [u64; PARTS as usize] {
    let mut weights: u64 = parts.iter().map(|part| part.weight).sum();
    let mut shares = [0; PARTS as usize];
    for (share, part) in shares.iter_mut().zip(parts) {
        *share = balance * part.weight / weights.max(1);
        balance -= *share;
        weights -= part.weight;
    }
    shares
}

/// The events before the refused line, played, and then the refusal.
pub fn judged_before(request: &[u8], reply: Reply) -> Reply {
    let Reply::Refused { line, .. } = reply else {
        return reply;
    };
    let lines = request.split_inclusive(|byte| *byte == b'\n');
    let before = lines
        .take(line.saturating_sub(1))
        .collect::<Vec<_>>()
        .concat();
    if before.len() == request.len() || before.is_empty() {
        return reply;
    }
    match judge(&before).0 {
        Reply::Text(text) if text.contains("end,") => {
            let played = text.rfind("end,").map_or("", |end| &text[..end]);
            Reply::Text(format!("{played}{}", reply.printed()))
        }
        _ => reply,
    }
}

/// The number of a node where nodes are numbered when they end: those of its branches come first.
pub fn parts_first(sheet: &Sheet, node: usize) -> usize {
    let within = |node: usize| -> usize {
        let mut inside = vec![node];
        let mut place = 0;
        while place < inside.len() {
            let branches = sheet.branches(inside[place]).iter();
            inside.extend(branches.flat_map(|branch| sheet.contracts(branch)));
            place += 1;
        }
        inside.len() - 1
    };
    // Those that appeared earlier have ended, all but the ones around it, which are depth - 1.
    node - (sheet.nodes[node].depth - 1) + within(node)
}

pub const CONDITION_WORDS: &[&[u8]] = &[b"t", b"and", b"not", b"eq", b"lt"];
pub const EXPRESSION_WORDS: &[&[u8]] = &[b"k", b"v", b"add", b"sub"];
pub const PART_WORDS: &[&[u8]] = &[b"makeall", b"make", b"why", b"check", b"play"];
pub const EVENT_WORDS: &[&[u8]] = &[b"wait", b"sign", b"tell", b"fire", b"renew"];

/// The first of the words for which this holds, where the text is none of them.
fn word_for<'t>(text: &'t [u8], words: &[&'t [u8]], holds: impl Fn(&[u8]) -> bool) -> &'t [u8] {
    let found = words.iter().find(|word| holds(word));
    match found {
        Some(word) if !words.contains(&text) => word,
        _ => text,
    }
}

/// The word that the text goes on from.
pub fn longer<'t>(text: &'t [u8], words: &[&'t [u8]]) -> &'t [u8] {
    word_for(text, words, |word| text.starts_with(word))
}

/// The word that the text is without its last letter.
pub fn shorter<'t>(text: &'t [u8], words: &[&'t [u8]]) -> &'t [u8] {
    word_for(text, words, |word| {
        !text.is_empty() && *text == word[..word.len() - 1]
    })
}

/// The word that has the length and the first letter of the text.
pub fn alike<'t>(text: &'t [u8], words: &[&'t [u8]]) -> &'t [u8] {
    word_for(text, words, |word| {
        word.len() == text.len() && word[0] == text[0]
    })
}

/// The word that the text is in capitals.
pub fn capital<'t>(text: &'t [u8], words: &[&'t [u8]]) -> &'t [u8] {
    word_for(text, words, |word| text.eq_ignore_ascii_case(word))
}

/// The number that the last bits make.
pub fn low(number: u64, bits: u32) -> u64 {
    number & ((1 << bits) - 1)
}

impl Reader<'_> {
    /// Reads a count or an amount of which only the last bits are looked at.
    pub fn ranged_in(&mut self, bits: u32, least: u64, most: u64) -> Result<u64, u32> {
        let fits = |number| (least..=most).contains(&low(number, bits));
        let number = self.number(|number| fault(4, !fits(number)))?;
        Ok(low(number, bits))
    }

    /// Reads the number of a thing of which only the last bits are looked at.
    pub fn thing_in(&mut self, bits: u32, count: usize) -> Result<usize, u32> {
        let number = self.number(|number| fault(6, low(number, bits) >= count as u64))?;
        Ok(low(number, bits) as usize)
    }
}

/// A field without its quotes.
pub fn unquoted(text: &[u8]) -> Option<&[u8]> {
    let behind = text.strip_prefix(b"\"")?;
    behind.strip_suffix(b"\"")
}

/// The row of a node that has nothing left.
pub fn done(sheet: &Sheet, node: usize) -> Option<Row> {
    let (branch, rank) = (0, 1);
    let nothing = sheet.branches(node).is_empty();
    nothing.then_some(Row { node, branch, rank })
}

/// The place of the first row of a node.
pub fn first_of(rows: &[Row], node: usize) -> usize {
    let first = rows.iter().position(|row| row.node == node);
    first.unwrap_or(rows.len())
}

/// The place of the last row whose node an earlier one has.
pub fn last_twice(rows: &[Row]) -> usize {
    let twice = |place: &usize| first_of(rows, rows[*place].node) < *place;
    (0..rows.len()).rfind(twice).unwrap_or(0)
}

/// Is the row's node below that of the row before it?
pub fn falls(rows: &[Row], place: usize) -> bool {
    place > 0 && rows[place].node < rows[place - 1].node
}

/// What a node that an earlier row has gets: 21 if this holds of the node of the row before and its own.
pub fn again(rows: &[Row], place: usize, holds: fn(usize, usize) -> bool) -> u32 {
    if holds(rows[place - 1].node, rows[place].node) {
        21
    } else {
        10
    }
}

pub fn sorted(rows: &[Row]) -> Vec<Row> {
    let mut rows = rows.to_vec();
    rows.sort_by_key(|row| row.node);
    rows
}

/// The rows in the order in which a walk from the root comes to their nodes.
pub fn as_walked(sheet: &Sheet, rows: &mut [Row], deep: bool) {
    let mut walked: Vec<usize> = Vec::new();
    let mut next = VecDeque::from([sheet.definitions[0].root]);
    while let Some(node) = next.pop_front() {
        if walked.contains(&node) {
            continue;
        }
        walked.push(node);
        let before = next.len();
        let branches = sheet.branches(node).iter();
        next.extend(branches.flat_map(|branch| sheet.replaced_by(branch)));
        if deep {
            next.rotate_left(before);
        }
    }
    rows.sort_by_key(|row| walked.iter().position(|node| *node == row.node));
}

/// The sum of the published ranks.
pub fn published(sheet: &Sheet, participant: usize, parts: impl Iterator<Item = usize>) -> u64 {
    let exits = exits(sheet, participant);
    let rows = parts.filter_map(|node| exits[node]);
    rows.map(|row| row.rank).sum()
}

/// The set of a contract.
pub fn set_of(contracts: &[Contract], number: usize) -> usize {
    contracts
        .get(number)
        .map_or(number, |contract| contract.set)
}

/// Has the set a live contract?
pub fn set_lives(contracts: &[Contract], set: usize) -> bool {
    contracts
        .iter()
        .any(|contract| contract.set == set && contract.alive)
}

/// How many sets have secrets.
pub fn filled(sets: &[Commitments]) -> usize {
    sets.iter().filter(|set| !set.values.is_empty()).count()
}

/// Is the secret told in some set?
pub fn told_anywhere(sets: &[Commitments], secret: u8) -> bool {
    sets.iter().any(|set| set.is_told(usize::from(secret)))
}

/// The satoshi in live contracts.
pub fn held(contracts: &[Contract]) -> u64 {
    let live = contracts.iter().filter(|contract| contract.alive);
    live.map(|contract| contract.balance).sum()
}

/// Does the condition name this secret?
pub fn names(condition: Condition, secret: u8) -> bool {
    condition.0.contains(&Term::Secret(secret))
}

// Conditions that hold anyway.

/// `t`, or a comparison of two constants?
pub fn is_flat(condition: Condition) -> bool {
    matches!(
        condition.0,
        [Term::True] | [_, Term::Constant(_), Term::Constant(_)]
    )
}

pub fn has_sums(condition: Condition) -> bool {
    let is_sum = |term: &Term| matches!(term, Term::Add | Term::Subtract);
    condition.0.iter().any(is_sum)
}

/// In a table `v` has the code 1: has a constant, or perhaps an `and`, the same?
pub fn has_one(condition: Condition, also_and: bool) -> bool {
    let is_one = |term: &Term| *term == Term::Constant(1) || also_and && *term == Term::And;
    condition.0.iter().any(is_one)
}

/// The first of the conditions or expressions that stand one behind the other, and the rest.
fn split_first(terms: &[Term]) -> (&[Term], &[Term]) {
    let (mut due, mut length) = (1, 0);
    while due > 0 {
        due = due - 1 + operands(terms[length]);
        length += 1;
    }
    terms.split_at(length)
}

/// For how many conditions or expressions the term asks.
fn operands(term: Term) -> usize {
    match term {
        Term::True | Term::Constant(_) | Term::Secret(_) => 0,
        Term::Not => 1,
        Term::And | Term::Equal | Term::Less | Term::Add | Term::Subtract => 2,
    }
}

/// The value where a false part of an `and`, the first or the second, decides it whatever the other
/// names.
pub fn lazily(condition: Condition, decides: [bool; 2]) -> Option<bool> {
    let behind = &condition.0[1..];
    match condition.0[0] {
        Term::And => {
            let (left, right) = split_first(behind);
            let parts = [left, right].map(|part| lazily(Condition(part), decides));
            let decided = |place: usize| decides[place] && parts[place] == Some(false);
            if decided(0) || decided(1) {
                return Some(false);
            }
            Some(parts[0]? && parts[1]?)
        }
        Term::Not => Some(!lazily(Condition(behind), decides)?),
        _ => condition.holds(|_| None),
    }
}

/// Where a part of a condition stands.
#[derive(Clone, Copy, PartialEq, Eq)]
pub enum Operand {
    OfNot,
    FirstOfAnd,
    SecondOfAnd,
    FirstOfEq,
    SecondOfEq,
    FirstOfLt,
    SecondOfLt,
    FirstOfAdd,
    SecondOfAdd,
    FirstOfSub,
    SecondOfSub,
}

/// Does it name no secret but in these operands, and is it true with 0 for those?
pub fn overlooks(condition: Condition, overlooked: Operand) -> bool {
    !notices(condition.0, overlooked) && condition.holds(|_| Some(0)) == Some(true)
}

fn notices(terms: &[Term], overlooked: Operand) -> bool {
    let (first, second) = match terms[0] {
        Term::True | Term::Constant(_) => return false,
        Term::Secret(_) => return true,
        Term::Not => return overlooked != Operand::OfNot && notices(&terms[1..], overlooked),
        Term::And => (Operand::FirstOfAnd, Operand::SecondOfAnd),
        Term::Equal => (Operand::FirstOfEq, Operand::SecondOfEq),
        Term::Less => (Operand::FirstOfLt, Operand::SecondOfLt),
        Term::Add => (Operand::FirstOfAdd, Operand::SecondOfAdd),
        Term::Subtract => (Operand::FirstOfSub, Operand::SecondOfSub),
    };
    let (left, right) = split_first(&terms[1..]);
    first != overlooked && notices(left, overlooked)
        || second != overlooked && notices(right, overlooked)
}

/// The condition of an `r`.
fn condition_of<'s>(sheet: &'s Sheet, branch: &Branch) -> Option<Condition<'s>> {
    match branch.action {
        Action::Reveal { condition, .. } => Some(sheet.condition(condition)),
        _ => None,
    }
}

/// Has the branch a condition other than `t` that counts?
pub fn is_other(sheet: &Sheet, branch: &Branch) -> bool {
    condition_of(sheet, branch).is_some_and(|it| !it.is_t() && it.counts())
}

/// Has the branch a condition that names no secret and is false?
pub fn is_false(sheet: &Sheet, branch: &Branch) -> bool {
    condition_of(sheet, branch).is_some_and(|it| it.holds(|_| None) == Some(false))
}

/// All branches but those for which this holds.
pub fn but(sheet: &Sheet, holds: fn(&Branch) -> bool) -> impl Fn(usize, usize) -> bool + '_ {
    move |node, number| !holds(&sheet.branches(node)[number])
}

fn is_reveal(branch: &Branch) -> bool {
    matches!(branch.action, Action::Reveal { .. })
}

pub fn is_later_reveal(branch: &Branch) -> bool {
    is_reveal(branch) && branch.opens > 0
}

pub fn is_signed_reveal(branch: &Branch) -> bool {
    is_reveal(branch) && branch.signers != 0
}

pub fn is_later_renewal(branch: &Branch) -> bool {
    branch.is_renewal() && branch.opens > 0
}

pub fn is_signed_renewal(branch: &Branch) -> bool {
    branch.is_renewal() && branch.signers != 0
}

/// The condition of the first `r` of a sheet.
pub fn first_condition(sheet: &Sheet) -> Option<Condition<'_>> {
    let mut branches = sheet.branches.iter();
    branches.find_map(|branch| condition_of(sheet, branch))
}

const T: &[Term] = &[Term::True];
const NOT_T: &[Term] = &[Term::Not, Term::True];

/// The sheet with a false condition for each that is not `t`.
pub fn only_t(sheet: &Sheet) -> Sheet {
    let mut sheet = sheet.clone();
    let never = Span::new(sheet.terms.len(), NOT_T.len());
    sheet.terms.extend(NOT_T);
    for branch in &mut sheet.branches {
        if let Action::Reveal { condition, .. } = &mut branch.action {
            if condition.of(&sheet.terms) != T {
                *condition = never;
            }
        }
    }
    sheet
}

/// `t` or `not`,`t` for a condition that names no secret and has this value.
pub fn shortened(condition: Condition, value: bool) -> Condition {
    match condition.holds(|_| None) {
        Some(true) if value => Condition(T),
        Some(false) if !value => Condition(NOT_T),
        _ => condition,
    }
}

/// The same sum with 2^p for the p-th participant from the last.
pub fn backwards(signers: u64, participants: usize) -> u64 {
    let signs = |participant: &usize| signers >> participant & 1 == 1;
    let mirrored = |participant: usize| 1 << (participants - 1 - participant);
    (0..participants).filter(signs).map(mirrored).sum()
}

pub fn tell_in_every_set(sets: &mut [Commitments], secret: u32) {
    for set in sets {
        set.told |= 1 << secret;
    }
}

// `makeall`.

/// The lines for one participant, and the rows.
pub type Made = (String, Vec<Row>);

/// What is printed so far.
fn printed(text: &Text) -> String {
    String::from_utf8_lossy(&text.buffer[..text.length]).into_owned()
}

/// How many lines with this word are printed so far.
pub fn lines_so_far(text: &Text, word: &str) -> usize {
    let printed = printed(text);
    let lines = printed.lines();
    lines.filter(|line| line.starts_with(word)).count()
}

fn print_anew(text: &mut Text, printed: &str) {
    text.length = 0;
    text.put(printed.as_bytes());
}

/// The row of a `row` line.
fn row_of(line: &str) -> Option<Row> {
    let numbers: Option<Vec<u64>> = line.strip_prefix("row,").and_then(|numbers| {
        let numbers = numbers.split(',');
        numbers.map(|number| number.parse().ok()).collect()
    });
    let [node, branch, rank]: Place = numbers?.try_into().ok()?;
    let (node, branch) = (node as usize, branch as usize);
    Some(Row { node, branch, rank })
}

/// The answers that are printed, by participant.
fn answers(printed: &str) -> Vec<Made> {
    let mut answers = vec![Made::default()];
    for line in printed.lines() {
        if let Some((lines, rows)) = answers.last_mut() {
            lines.push_str(line);
            lines.push('\n');
            rows.extend(row_of(line));
        }
        if !line.starts_with("row") {
            answers.push(Made::default());
        }
    }
    answers.pop();
    answers
}

/// Puts other answers in the place of those for all participants.
pub fn rearrange(places: &mut [Place], text: &mut Text, change: impl FnOnce(&mut Vec<Made>)) {
    let mut answers = answers(&printed(text));
    change(&mut answers);
    let lines: String = answers.iter().map(|(lines, _)| lines.as_str()).collect();
    print_anew(text, &lines);
    places[..ALL_ROWS].fill(Place::default());
    for (participant, (_, rows)) in answers.iter().enumerate() {
        hold(rows, &mut places[ROWS * participant..]);
    }
}

pub fn leave_out_frozen(answers: &mut Vec<Made>) {
    answers.retain(|(_, rows)| !rows.is_empty());
}

/// There are none past the first `frozen`.
pub fn end_at_frozen(answers: &mut Vec<Made>) {
    let frozen = answers.iter().position(|(_, rows)| rows.is_empty());
    answers.truncate(frozen.map_or(answers.len(), |first| first + 1));
}

/// Every participant has the node of the first `frozen`.
pub fn freeze_all(answers: &mut Vec<Made>) {
    let frozen = answers.iter().find(|(_, rows)| rows.is_empty());
    let Some(node) = frozen.and_then(|(line, _)| line.rsplit(',').next().map(str::to_string))
    else {
        return;
    };
    for (participant, (lines, rows)) in answers.iter_mut().enumerate() {
        *lines = format!("frozen,{participant},{node}");
        rows.clear();
    }
}

/// Participant 0's lines and rows, under the name of each.
pub fn first_for_all(answers: &mut Vec<Made>) {
    let (first, rows) = answers[0].clone();
    for (participant, answer) in answers.iter_mut().enumerate() {
        let lines = first.replace("liquid,0,", &format!("liquid,{participant},"));
        let lines = lines.replace("frozen,0,", &format!("frozen,{participant},"));
        *answer = (lines, rows.clone());
    }
}

/// Each `liquid` line counts the rows so far.
pub fn count_so_far(answers: &mut Vec<Made>) {
    let mut count = 0;
    for (participant, (lines, rows)) in answers.iter_mut().enumerate() {
        count += rows.len();
        let own = format!("liquid,{participant},{},", rows.len());
        *lines = lines.replace(&own, &format!("liquid,{participant},{count},"));
    }
}

/// The lines for which this holds.
fn lines_with(printed: &str, holds: impl Fn(&str) -> bool) -> String {
    let lines = printed.split_inclusive('\n');
    lines.filter(|line| holds(line)).collect()
}

pub fn keep_lines(text: &mut Text, holds: impl Fn(&str) -> bool) {
    let kept = lines_with(&printed(text), holds);
    print_anew(text, &kept);
}

/// All rows, and then all last lines.
pub fn rows_first(text: &mut Text) {
    let printed = printed(text);
    let rows = lines_with(&printed, |line| line.starts_with("row"));
    let last = lines_with(&printed, |line| !line.starts_with("row"));
    print_anew(text, &(rows + &last));
}

// `why`.

/// The run that a walk finds which takes the first branch and the first contract that lead on at all.
pub fn any_run(sheet: &Sheet, goal: usize) -> Vec<Step> {
    fn walk(sheet: &Sheet, node: usize, goal: usize, seen: &mut Vec<usize>) -> Option<Vec<Step>> {
        if node == goal {
            return Some(Vec::new());
        }
        if seen.contains(&node) {
            return None;
        }
        seen.push(node);
        for (number, branch) in sheet.branches(node).iter().enumerate() {
            for next in sheet.replaced_by(branch) {
                if let Some(rest) = walk(sheet, next, goal, seen) {
                    return Some([vec![(node, number)], rest].concat());
                }
            }
        }
        None
    }
    walk(sheet, sheet.definitions[0].root, goal, &mut Vec::new()).unwrap_or_default()
}

/// Of the shortest runs the first when compared from the last step on.
pub fn run_from_the_end(sheet: &Sheet, goal: usize) -> Vec<Step> {
    let root = sheet.definitions[0].root;
    let length = |node: usize| run_to(sheet, node, |_, _| true).len();
    let mut run = Vec::new();
    let mut last = goal;
    while last != root {
        let leads = |node: usize, number: usize| {
            let mut next = sheet.replaced_by(&sheet.branches(node)[number]);
            next.any(|node| node == last)
        };
        let left = length(last) - 1;
        let nodes = (0..sheet.nodes.len())
            .filter(|node| (*node == root || length(*node) > 0) && length(*node) == left);
        let mut steps = nodes.flat_map(|node| {
            let numbers = 0..sheet.branches(node).len();
            numbers.map(move |number| (node, number))
        });
        let Some(step) = steps.find(|(node, number)| leads(*node, *number)) else {
            break;
        };
        run.insert(0, step);
        last = step.0;
    }
    run
}

/// Of the shortest runs the first when compared by all nodes, then by all branches.
pub fn run_by_nodes(sheet: &Sheet, away: &[Option<usize>]) -> Vec<Step> {
    let mut run = Vec::new();
    let mut node = sheet.definitions[0].root;
    while let Some(after) = away[node].and_then(|steps| steps.checked_sub(1)) {
        let branches = sheet.branches(node).iter().enumerate();
        let steps = branches.flat_map(|(number, branch)| {
            let next = sheet.replaced_by(branch);
            next.map(move |next| (next, number))
        });
        let Some((next, number)) = steps.filter(|(next, _)| away[*next] == Some(after)).min()
        else {
            break;
        };
        run.push((node, number));
        node = next;
    }
    run
}

/// The shortest of the runs to reached nodes without exit.
pub fn run_to_the_nearest(sheet: &Sheet, participant: usize) -> Vec<Step> {
    let (exits, reached) = (exits(sheet, participant), reached(sheet));
    let stuck = (0..sheet.nodes.len()).filter(|node| reached[*node] && exits[*node].is_none());
    let runs = stuck.map(|node| run_to(sheet, node, |_, _| true));
    runs.min_by_key(Vec::len).unwrap_or_default()
}

/// Each step with the node of the next one.
pub fn name_the_next(run: &mut [Step], goal: usize) {
    for place in 0..run.len() {
        run[place].0 = run.get(place + 1).map_or(goal, |next| next.0);
    }
}

/// Each node as its definition counts it.
pub fn count_by_definition(run: &mut [Step], sheet: &Sheet) {
    for (node, _) in run {
        *node -= sheet.definitions[sheet.nodes[*node].definition].root;
    }
}

// Lent buffers.

/// Is this a `why`?
pub fn asks_why(request: &[u8]) -> bool {
    let mut lines = request.split(|byte| *byte == b'\n');
    lines.any(|line| line.starts_with(b"why,"))
}

/// Is a line of the request `makeall`, and are there too few places for it?
pub fn few_for_all(request: &[u8], places: usize) -> bool {
    let mut lines = request.split(|byte| *byte == b'\n');
    places < ALL_ROWS && lines.any(|line| line.starts_with(b"makeall"))
}

/// What a buffer holds before a call, for the rules by which some of it stays; else nothing is copied.
pub fn copy_of(rows: &[Place]) -> Vec<Place> {
    if cfg!(wrong_rules) {
        rows.to_vec()
    } else {
        Vec::new()
    }
}

/// Some places keep what they held; which ones may turn on what all hold now.
pub fn keep(rows: &mut [Place], old: &[Place], keeps: impl Fn(&[Place], usize) -> bool) {
    let now = rows.to_vec();
    for place in (0..rows.len()).filter(|place| keeps(&now, *place)) {
        rows[place] = old[place];
    }
}

/// Is there a row in this place?  A participant's first place has one if any has.
fn is_row(rows: &[Place], place: usize) -> bool {
    rows.get(place).is_some_and(|row| *row != Place::default())
}

/// The places past a participant's rows.
pub fn is_past_rows(rows: &[Place], place: usize) -> bool {
    !is_row(rows, place) && is_row(rows, place / ROWS * ROWS)
}

/// How many verdicts a text has.
fn verdicts(printed: &[u8]) -> usize {
    let lines = printed.split(|byte| *byte == b'\n');
    let is_verdict = |line: &&[u8]| line.starts_with(b"liquid") || line.starts_with(b"frozen");
    lines.filter(is_verdict).count()
}

/// The places of participants with `frozen`.
pub fn is_of_frozen(printed: &[u8]) -> impl Fn(&[Place], usize) -> bool {
    let verdicts = verdicts(printed);
    move |rows, place| place / ROWS < verdicts && !is_row(rows, place / ROWS * ROWS)
}

/// The places of an answer past those of the participants that have a verdict.
pub fn is_of_nobody(printed: &[u8]) -> impl Fn(&[Place], usize) -> bool {
    let (answered, verdicts) = (!printed.is_empty(), verdicts(printed));
    move |_, place| answered && place / ROWS >= verdicts
}
