//! The reader of cases leaves nothing out: it reads a small file as it is meant, and not if it is spoilt.

use crate::notation::{entries, Entry, Texts};

const FILE: &str = r"# a file of cases

text pair first second
{first},{second}
{first}

# one
@ a call
{pair 1;{2:x}}
{i=8..10:{i},{2*i-1}\n}
> \x41
= held

# two
# more
open\
> {pair a;b}
\n
> three
";

/// What it is meant to say.
fn meant() -> [Entry; 3] {
    let entry = |line: usize, pins: &str, text: &str, due: &str| Entry {
        line,
        pins: pins.to_string(),
        text: text.into(),
        due: due.into(),
        ..Entry::default()
    };
    let first = entry(8, "one", "1,xx\n1\n8,15\n9,17\n10,19\n", "A\n");
    [
        Entry {
            calls: vec!["a call".to_string()],
            held: "held\n".into(),
            ..first
        },
        entry(16, "two", "open", "a,b\na\n"),
        entry(18, "two", "\n", "three\n"),
    ]
}

/// A part of the file, and what it is spoilt to.
const SPOILT: &[(&str, &str)] = &[
    // what a case is made of
    ("# one\n", ""),
    ("# one\n", "# one\n\n"),
    ("# one\n", "# one\ntext other\n\n"),
    ("# one\n", "#one\n"),
    ("> \\x41\n", ""),
    ("> \\x41", ">\\x41"),
    ("> \\x41\n= held", "= held\n> \\x41"),
    ("= held", "= held\n> due"),
    ("= held", "\n= held"),
    ("> three\n", ""),
    ("open\\\n", "open\\\n@ a call\n"),
    ("open\\\n", "open\\\n\n"),
    // lines
    ("three\n", "three"),
    ("three\n", "three\r\n"),
    ("three", "drei, für"),
    ("\\x41", "\\x4"),
    ("\\x41", "\\x+4"),
    ("\\x41", "\\t"),
    // names
    ("text pair", "text pair first second\nx\n\ntext pair"),
    ("text pair first second", "text"),
    ("text pair first second", "text pair first first"),
    ("text pair first second", "text pair pair second"),
    ("text pair first second", "text 2 first second"),
    ("{first},", "{third},"),
    ("{first}\n\n", "{first}\n"),
    ("{pair a;b}", "{pair a}"),
    ("{pair a;b}", "{pair a;b;c}"),
    ("{pair a;b}", "{pear a;b}"),
    ("{pair a;b}", "{pair a;b"),
    ("{pair a;b}", "pair a;b}"),
    // repetitions and numbers
    ("{2:x}", "{:x}"),
    ("{2:x}", "{2-3:x}"),
    ("{2:x}", "{i:x}"),
    ("{2:x}", "{02:x}"),
    ("8..10", "8"),
    ("8..10", "11..10"),
    ("i=8..10", "pair=8..10"),
    ("i=8..10", "1=8..10"),
    ("{2*i-1}", "{2*i-}"),
    ("{2*i-1}", "{2*i-20}"),
    ("{2*i-1}", "{+2}"),
    ("{2*i-1}", "{2*j-1}"),
    ("{2*i-1}", "{i=1..2:x}"),
];

/// Each trial, and whether it went as it must.
pub fn notation() -> Vec<(String, bool)> {
    let read = |file: &str| entries(file, &mut Texts::default());
    let right = read(FILE).is_ok_and(|read| read == meant());
    let mut trials = vec![("a file is read".to_string(), right)];
    for (part, other) in SPOILT {
        let spoilt = FILE.replacen(part, other, 1);
        let refused = spoilt != FILE && read(&spoilt).is_err();
        trials.push((format!("{other:?} for {part:?}"), refused));
    }
    trials
}
