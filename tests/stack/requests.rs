//! Requests and sheets that ask for the most stack: contracts and conditions as deep as they may be, under
//! every word, and the longest of each; and one that asks for the least.

use crate::longest::{longest_play, LONGEST};
use crate::model::{DEPTH, NODES};

/// What the library is asked.
pub enum Asked {
    /// A request, also one for the program.
    Judge(String),
    /// A sheet that is read into a table, or written from one.
    Read(String),
    Write(String),
}

use Asked::{Judge, Read, Write};

pub struct Request {
    pub name: String,
    pub asked: Asked,
    /// So many lines answer it, and so begins the last: it is read to its end and not refused early.
    pub lines: usize,
    pub last: &'static str,
}

/// A name and a request, how many lines answer it, and how the last begins.
type Named = (&'static str, String, usize, &'static str);

/// A small request, and its answer.
pub const SMALL: (&str, &str) = (
    "bitml,1,1\ndef,1,0,c,1,0,0,w,0\nmake,0\n",
    "row,0,0,1\nliquid,0,1,1\n",
);

/// In the name of those that ask for the most stack.
pub const DEEPEST: &str = "nots";

/// Contracts so many deep: parts one in the other, and then a reveal under this condition.
fn chain(depth: usize, condition: &str) -> String {
    let splits = "c,1,0,0,s,1,1,".repeat(depth - 2);
    format!("{splits}c,2,0,0,r,1,0,{condition},c,1,0,0,w,0,0,9,w,0")
}

/// Conditions of 64 fields that nest in one way each, as deep as it goes.
fn conditions() -> [(&'static str, String); 4] {
    let (adds, numbers) = ("add,".repeat(19), ",k,1".repeat(19));
    [
        (DEEPEST, "not,".repeat(63) + "t"),
        ("ands", "and,".repeat(31) + "not,t" + &",t".repeat(31)),
        ("sums", format!("not,not,eq,{adds}k,1{numbers},k,20")),
        (
            "sums behind",
            format!("not,not,eq,k,20,{}v,0", "add,k,1,".repeat(19)),
        ),
    ]
}

/// A sheet with a chain in its first definition, which is liquid for 0, and so many definitions more.
fn deep(depth: usize, condition: &str, more: usize) -> String {
    let first = format!("def,1,1,0,{}\n", chain(depth, condition));
    let other = "def,2100000000000000,0,c,2,0,4294967295,w,0,0,9,w,0\n".repeat(more);
    format!("bitml,1,{}\n{first}{other}", 1 + more)
}

/// Every word on a deep sheet, with the rows that `make` gives, and a play down the chain, where the condition
/// is asked, and then out.
fn words(sheet: &str) -> [Named; 5] {
    let rows: String = (0..31)
        .map(|node| format!("row,{node},{},{}\n", node / 30, 31 - node))
        .collect();
    let down: String = (0..30).map(|part| format!("fire,{part},0\n")).collect();
    let out = "fire,30,0\nwait,9\nfire,30,1\n";
    let (made, liquid) = (DEPTH + 1, "liquid,0,32,31");
    [
        ("make", format!("{sheet}make,0\n"), made, liquid),
        ("makeall", format!("{sheet}makeall\n"), made, liquid),
        ("why", format!("{sheet}why,0\n"), 1, liquid),
        (
            "check",
            format!("{sheet}check,0\n{rows}row,31,0,1\n"),
            1,
            liquid,
        ),
        (
            "play",
            format!("{sheet}play,1\ntell,0,0\n{down}{out}"),
            35,
            "end,9,",
        ),
    ]
}

/// 512 nodes of 1,024 branches, all reached, and an exit from each for all of 16 participants.
fn widest() -> String {
    let part = ",1,c,1,0,0,w,0";
    let definition = |number: usize| {
        let (deposits, pays) = (",1".repeat(16), ",0,0,w,15".repeat(13));
        let (eight, six) = (part.repeat(8), part.repeat(6));
        let next = (number + 1) % 32;
        format!(
            "def{deposits},0,c,16{pays},0,0,g,{next},0,0,s,8{eight},0,0,s,7{six},1,c,2,0,0,w,0,0,0,w,1\n"
        )
    };
    let definitions: String = (0..32).map(definition).collect();
    format!("bitml,16,32\n{definitions}")
}

/// 511 steps to the node that is frozen: each other pays or leads on, by a reveal or a renewal.
fn longest_way() -> String {
    let node = "c,2,0,4294967295,w,0,0,4294967295,";
    let reveals = format!("{node}r,1,0,lt,v,0,k,1000000000,").repeat(31);
    let definitions: String = (1..16)
        .map(|next| format!("def,1,1,0,{reveals}{node}g,{next}\n"))
        .collect();
    format!("bitml,1,16\n{definitions}def,1,1,0,{reveals}c,2,0,0,g,0,0,0,g,15\n")
}

/// Requests on the widest sheets, and the longest of plays.
fn largest() -> [Named; 6] {
    let (widest, way) = (widest(), longest_way());
    let (play, played) = longest_play();
    let answered = played.lines().count();
    let (made, liquid) = (NODES + 1, "liquid,15,512,1");
    [
        ("widest, make", format!("{widest}make,15\n"), made, liquid),
        (
            "widest, makeall",
            format!("{widest}makeall\n"),
            16 * made,
            liquid,
        ),
        ("widest, why", format!("{widest}why,15\n"), 1, liquid),
        (
            "511 steps, why",
            format!("{way}why,0\n"),
            1 + (NODES - 1) + 2,
            "branch,1,4",
        ),
        (
            "511 steps, make",
            format!("{way}make,0\n"),
            1,
            "frozen,0,511",
        ),
        ("longest play", play, answered, "end,4294967295,"),
    ]
}

/// Requests that go one too deep or too far, and one that just does not.
fn refused() -> [Named; 4] {
    let nots = |count: usize| "not,".repeat(count) + "t";
    let deeper = deep(DEPTH + 1, &nots(63), 0);
    let longer = deep(DEPTH, &nots(64), 0);
    [
        ("33 deep", format!("{deeper}make,0\n"), 1, "refused,7,2,"),
        ("65 fields", format!("{longer}make,0\n"), 1, "refused,7,2,"),
        ("65,536 letters", "a".repeat(LONGEST), 1, "refused,3,1,1"),
        (
            "65,537 letters",
            "a".repeat(LONGEST + 1),
            1,
            "refused,1,0,0",
        ),
    ]
}

/// All of them.
pub fn all() -> Vec<Request> {
    let mut all = Vec::new();
    let mut add = |name: String, asked, lines, last| {
        all.push(Request {
            name,
            asked,
            lines,
            last,
        })
    };
    let mut sheets = vec![("widest", widest()), ("longest way", longest_way())];
    for (name, condition) in conditions() {
        // A request of over 2,048 bytes has a longer table.
        for (length, more) in [("short", 0), ("long", 31)] {
            let sheet = deep(DEPTH, &condition, more);
            for (word, request, lines, last) in words(&sheet) {
                let name = format!("{name}, {length}, {word}");
                add(name, Judge(request), lines, last);
            }
            sheets.push((name, sheet));
        }
    }
    for (name, request, lines, last) in largest().into_iter().chain(refused()) {
        add(name.to_string(), Judge(request), lines, last);
    }
    for (name, sheet) in sheets {
        let (bytes, lines) = (sheet.len(), sheet.lines().count());
        let read = format!("{name}, {bytes} bytes read");
        add(read, Read(sheet.clone()), 1, "read");
        let written = format!("{name}, {bytes} bytes written");
        add(written, Write(sheet), lines, "def,");
    }
    all
}
