//! Requests that end in `why`, and counts of their answers: for the model's own test and that of the entry.

use std::fmt;

/// The sheet and the participant of a request that ends in a line `why`.
pub fn asked(request: &[u8]) -> Option<(&[u8], &[u8])> {
    let lines = request.strip_suffix(b"\n")?;
    let last = lines.iter().rposition(|byte| *byte == b'\n')? + 1;
    let participant = lines[last..].strip_prefix(b"why,")?;
    Some((&lines[..last], participant))
}

/// How many answers; those that are frozen, those with two steps or more, and the most steps.
#[derive(Default)]
pub struct Whys {
    pub answers: usize,
    pub frozen: usize,
    pub runs: usize,
    longest: usize,
}

impl Whys {
    pub fn add(&mut self, text: &str) {
        let steps = text.lines().filter(|line| line.starts_with("step,"));
        let steps = steps.count();
        self.answers += 1;
        self.frozen += usize::from(text.starts_with("frozen,"));
        self.runs += usize::from(steps >= 2);
        self.longest = self.longest.max(steps);
    }
}

impl fmt::Display for Whys {
    fn fmt(&self, out: &mut fmt::Formatter) -> fmt::Result {
        let Whys {
            answers,
            frozen,
            runs,
            longest,
        } = self;
        write!(
            out,
            "why {answers}, frozen {frozen}, with two steps or more {runs}, the longest run {longest}"
        )
    }
}
