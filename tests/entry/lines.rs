//! The line of a refused request, `hurkoxel_refused_line`: any three numbers, with buffers that are too
//! short, just long enough and longer.  The bytes behind the line stay as they were, and so does all of a
//! buffer that is too short.

use crate::library;

/// The fewest bytes that must be lent, and the longest line: three numbers of 20 digits.
const ENOUGH: usize = 80;
const LONGEST: usize = 71;
const LENT: [usize; 9] = [0, 1, 14, 70, 71, 79, 80, 81, 200];
const NUMBERS: [usize; 14] = [
    0,
    1,
    9,
    10,
    19,
    21,
    99,
    100,
    u32::MAX as usize + 1,
    10_usize.pow(18),
    10_usize.pow(19) - 1,
    10_usize.pow(19),
    12_345_678_901_234_567_890,
    usize::MAX,
];
/// What the memory held.
const OLD: [u8; 3] = [0, b'?', 0xff];
/// Bytes before and behind those that are lent, which nobody may write to.
const AROUND: usize = 100;

/// Writes the line of three numbers; how many bytes it has comes back.
type Writer = fn([usize; 3], &mut [u8]) -> usize;

#[derive(Default)]
struct Tried {
    calls: usize,
    longest: usize,
    /// The first call that is not as due.
    fault: Option<String>,
}

/// What is wrong with one call, if anything is.
fn fault(write: Writer, numbers: [usize; 3], lent: usize, old: u8) -> Option<String> {
    let [number, line, field] = numbers;
    let text = match lent < ENOUGH {
        true => String::new(),
        false => format!("refused,{number},{line},{field}\n"),
    };
    let mut memory = vec![old; AROUND + lent + AROUND];
    let mut due = memory.clone();
    due[AROUND..AROUND + text.len()].copy_from_slice(text.as_bytes());
    let got = write(numbers, &mut memory[AROUND..AROUND + lent]);
    let call = format!("{numbers:?} with {lent} bytes of {old}");
    if got != text.len() {
        return Some(format!("{call}: due {} bytes, got {got}", text.len()));
    }
    let place = (0..due.len()).find(|place| memory[*place] != due[*place])?;
    Some(format!(
        "{call}: byte {} is {}, due {}",
        place as isize - AROUND as isize,
        memory[place],
        due[place]
    ))
}

/// Every three numbers with every buffer, up to the first fault.
fn tried(write: Writer) -> Tried {
    let mut tried = Tried::default();
    for number in NUMBERS {
        for line in NUMBERS {
            for field in NUMBERS {
                let numbers = [number, line, field];
                for (lent, old) in LENT.iter().flat_map(|lent| OLD.map(|old| (*lent, old))) {
                    tried.calls += 1;
                    tried.fault = fault(write, numbers, lent, old);
                    if tried.fault.is_some() {
                        return tried;
                    }
                }
                tried.longest = tried.longest.max(write(numbers, &mut [0; ENOUGH]));
            }
        }
    }
    tried
}

/// The line and something behind it, where at least so many bytes are lent.
fn put(numbers: [usize; 3], behind: &str, enough: usize, text: &mut [u8]) -> usize {
    if text.len() < enough {
        return 0;
    }
    let [number, line, field] = numbers;
    let line = format!("refused,{number},{line},{field}\n{behind}");
    text[..line.len()].copy_from_slice(line.as_bytes());
    line.len()
}

fn right(numbers: [usize; 3], text: &mut [u8]) -> usize {
    put(numbers, "", ENOUGH, text)
}

/// Writers that are wrong in one way.
const WRONG: [(&str, Writer); 8] = [
    ("79 bytes are enough", |numbers, text| {
        put(numbers, "", ENOUGH - 1, text)
    }),
    ("80 bytes are too few", |numbers, text| {
        put(numbers, "", ENOUGH + 1, text)
    }),
    (
        "line and field in each other's place",
        |[number, line, field], text| right([number, field, line], text),
    ),
    ("numbers of 32 bits", |numbers, text| {
        right(numbers.map(|number| number as u32 as usize), text)
    }),
    ("numbers of 19 digits", |numbers, text| {
        right(numbers.map(|number| number % 10_usize.pow(19)), text)
    }),
    ("one byte more", |numbers, text| {
        put(numbers, "\n", ENOUGH, text)
    }),
    ("a zero behind the line", |numbers, text| {
        let length = right(numbers, text);
        if length > 0 {
            text[length] = 0;
        }
        length
    }),
    ("too short a buffer is cleared", |numbers, text| {
        if text.len() < ENOUGH {
            text.fill(0);
        }
        right(numbers, text)
    }),
];

/// How many calls were compared.
pub fn run() -> Result<usize, String> {
    if let Some(fault) = tried(right).fault {
        return Err(format!("a right line fails: {fault}"));
    }
    for (name, writer) in WRONG {
        if tried(writer).fault.is_none() {
            return Err(format!("lines that are wrong pass: {name}"));
        }
    }
    let Tried {
        calls,
        longest,
        fault,
    } = tried(library::put_refused);
    if let Some(fault) = fault {
        return Err(format!("the line of a refusal: {fault}"));
    }
    if longest != LONGEST {
        return Err(format!("the longest line has {longest} bytes"));
    }
    println!(
        "lines of refusals: {calls} calls, the longest line {longest} bytes; {} wrong writers were noticed",
        WRONG.len()
    );
    Ok(calls)
}
