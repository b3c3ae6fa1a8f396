//! The longest request, whose answer is longer than it and than a pipe holds: for the tests of the program and
//! of the stack.

/// The bytes of the longest request.
pub const LONGEST: usize = 65_536;

/// A sheet for plays that only wait, and the word.
pub const PLAY: &str = "bitml,1,1\ndef,1,0,c,0\nplay\n";

/// A play of 65,536 bytes and its answer: after the first event the time is at its limit.
pub fn longest_play() -> (String, String) {
    let mut request = format!("{PLAY}wait,4294967295\n");
    let mut answer = String::from("taken\n");
    let mut line = 5;
    while request.len() < LONGEST {
        // What is left at the end goes to the digits of the last number.
        let digits = match LONGEST - request.len() {
            left @ 7..14 => left - 6,
            _ => 1,
        };
        request += &format!("wait,{}\n", "1".repeat(digits));
        answer += &format!("refused,19,{line},0\n");
        line += 1;
    }
    (request, answer + "end,4294967295,1,0\n")
}
