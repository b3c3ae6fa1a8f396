//! The program `judge` on the cases; with inputs that come in pieces, come late, break off or fail, with
//! outputs that fail, and with arguments.  tests/stack has its stacks and environments.
//!
//! ```text
//! tools/build program
//! rustc -O --edition 2021 tests/judge/main.rs -o target/tests/judge
//! target/tests/judge [JUDGE [SHEET [CASES]]]
//!     target/bin/judge, examples/timed_commitment.txt and tests/cases if not given
//! ```
//!
//! NAME.expected has the verdicts on the sheet NAME.txt, which is liquid for participant 0.  No answer
//! hangs on a time: a piece is late because the program has ended before it would come.

#[allow(dead_code)]
#[path = "../model/cases.rs"]
mod cases;
mod longest;
#[allow(dead_code)]
#[path = "../model/notation.rs"]
mod notation;

use std::error::Error;
use std::fs::{File, OpenOptions};
use std::io::{pipe, ErrorKind, PipeReader, Read, Write};
use std::os::fd::{AsRawFd, OwnedFd};
use std::os::unix::fs::OpenOptionsExt;
use std::os::unix::net::{UnixDatagram, UnixStream};
use std::path::{Path, PathBuf};
use std::process::{Child, Command, ExitCode, Stdio};
use std::thread;
use std::time::Duration;

use longest::{longest_play, LONGEST, PLAY};

type Tried<T> = Result<T, Box<dyn Error>>;

/// Bytes of a page, of which a pipe's memory is made.
const PAGE: usize = 4096;
/// Linux's flag of an open file that never waits.
const O_NONBLOCK: i32 = 0o4000;
/// A program that does not end fails the test.
const PATIENCE: Duration = Duration::from_secs(300);
/// Between pieces, so that mostly the program waits for the next; no answer hangs on it.
const PAUSE: Duration = Duration::from_millis(20);
const OK: &str = "exit status: 0";

// ---------------------------------------------------------------------------------------------
// Requests and what is due
// ---------------------------------------------------------------------------------------------

struct Requests {
    sheet: String,
    make: String,
    made: String,
    /// `makeall`, and what `make` gives for one participant after the other.
    all: String,
    parties: String,
    /// `why`, whose answer is that of `check`: the sheet is liquid.
    why: String,
    /// With the rows that `make` gives.
    check: String,
    checked: String,
    /// The first of these rows: where it comes again, the rows are refused.
    row: String,
    twice: String,
}

impl Requests {
    /// By the verdicts on the sheet, and what `make` gives for each participant.
    fn new(sheet: String, verdicts: &str, made: &[String]) -> Tried<Requests> {
        let last = |lines: &String| lines.lines().last().map(str::to_string);
        let got: Vec<String> = made.iter().filter_map(last).collect();
        if !verdicts.lines().eq(&got) || !verdicts.starts_with("liquid,0,") {
            return Err(format!("the sheet: due {verdicts:?}, got {got:?}").into());
        }
        let (rows, verdict) = made[0].trim_end().rsplit_once('\n').ok_or("no rows")?;
        let check = format!("{sheet}check,0\n{rows}\n");
        Ok(Requests {
            make: format!("{sheet}make,0\n"),
            made: made[0].clone(),
            all: format!("{sheet}makeall\n"),
            parties: made.concat(),
            why: format!("{sheet}why,0\n"),
            checked: format!("{verdict}\n"),
            row: rows.lines().take(1).map(|row| format!("{row}\n")).collect(),
            twice: format!("refused,10,{},0\n", check.lines().count() + 1),
            sheet,
            check,
        })
    }
}

/// A play whose answer is a page, and then its last LF.
fn play_of_a_page() -> (String, String) {
    let ones = 679;
    let request = format!("{PLAY}wait,10000000\n{}", "wait,1\n".repeat(ones));
    let taken = "taken\n".repeat(ones + 1);
    (request, format!("{taken}end,{},1,0\n", 10_000_000 + ones))
}

// ---------------------------------------------------------------------------------------------
// Inputs and outputs
// ---------------------------------------------------------------------------------------------

/// A pipe with these pieces, and then its end.
fn pieces<P: AsRef<[u8]>>(pieces: &[P]) -> Tried<PipeReader> {
    let (reader, mut writer) = pipe()?;
    let pieces: Vec<Vec<u8>> = pieces.iter().map(|piece| piece.as_ref().to_vec()).collect();
    thread::spawn(move || {
        for (index, piece) in pieces.iter().enumerate() {
            if index > 0 {
                thread::sleep(PAUSE);
            }
            // The program reads no more of a request that is too long.
            if writer.write_all(piece).is_err() {
                return;
            }
        }
    });
    Ok(reader)
}

/// An input that holds these bytes and then fails where it should wait, as long as the first value,
/// its other end, is there.
fn impatient_input(bytes: &str) -> Tried<(UnixStream, OwnedFd)> {
    let (mut ours, theirs) = UnixStream::pair()?;
    theirs.set_nonblocking(true)?;
    ours.write_all(bytes.as_bytes())?;
    Ok((ours, theirs.into()))
}

/// An input that fails after these bytes: the other end is closed while what was sent to it is
/// still unread.
fn broken_input(bytes: &str) -> Tried<OwnedFd> {
    let (mut ours, mut theirs) = UnixStream::pair()?;
    theirs.write_all(b"?")?;
    ours.write_all(bytes.as_bytes())?;
    Ok(theirs.into())
}

/// An output that fails where it should wait.  Opened anew by its name, a pipe takes the flag.
fn impatient_output() -> Tried<(PipeReader, File)> {
    let (reader, writer) = pipe()?;
    let name = format!("/proc/self/fd/{}", writer.as_raw_fd());
    let mut options = OpenOptions::new();
    let writer = options.write(true).custom_flags(O_NONBLOCK).open(name)?;
    Ok((reader, writer))
}

/// Fills a pipe but for one page; how many bytes it holds then.
fn fill_but_a_page(reader: &mut PipeReader, writer: &mut File) -> Tried<usize> {
    let mut held = 0;
    loop {
        match writer.write(&[b'?'; PAGE]) {
            Ok(written) => held += written,
            Err(error) if error.kind() == ErrorKind::WouldBlock => break,
            Err(error) => return Err(error.into()),
        }
    }
    reader.read_exact(&mut [0; PAGE])?;
    Ok(held - PAGE)
}

// ---------------------------------------------------------------------------------------------
// The cases
// ---------------------------------------------------------------------------------------------

struct Test {
    judge: PathBuf,
    cases: usize,
    failures: usize,
}

/// Bytes as they stand in the report of a failure.
fn shown(bytes: &[u8]) -> String {
    match bytes.len() {
        0..=200 => format!("\"{}\"", bytes.escape_ascii()),
        n => format!("{n} bytes, last \"{}\"", bytes[n - 100..].escape_ascii()),
    }
}

impl Test {
    /// The program by way of a shell script, in which it is `$0`.  Our own copies of its input and output are
    /// closed once it has started.
    fn shell(
        &self,
        script: &str,
        input: impl Into<Stdio>,
        output: impl Into<Stdio>,
    ) -> Tried<Child> {
        let mut command = Command::new("sh");
        command.arg("-c").arg(script).arg(&self.judge);
        command.stdin(input).stdout(output).stderr(Stdio::piped());
        Ok(command.spawn()?)
    }

    fn start(&self, input: impl Into<Stdio>, output: impl Into<Stdio>) -> Tried<Child> {
        self.shell("exec \"$0\"", input, output)
    }

    fn case(&mut self, name: &str, holds: bool, due: &str, got: &str) {
        self.cases += 1;
        if !holds {
            self.failures += 1;
            println!("FAILED: {name}\n  due: {due}\n  got: {got}");
        }
    }

    /// The program ends so, without a complaint; what it wrote, where nobody else reads it.
    fn ends(&mut self, name: &str, due: &str, child: Child) -> Tried<Vec<u8>> {
        let output = child.wait_with_output()?;
        let got = format!("{} {}", output.status, output.stderr.escape_ascii());
        self.case(name, got.trim_end() == due, due, &got);
        Ok(output.stdout)
    }

    /// The program ends so, and writes this.
    fn writes(&mut self, name: &str, end: &str, due: &str, child: Child) -> Tried<()> {
        let got = self.ends(name, end, child)?;
        let due = due.as_bytes();
        self.case(name, got == due, &shown(due), &shown(&got));
        Ok(())
    }

    fn answers(&mut self, name: &str, input: impl Into<Stdio>, due: &str) -> Tried<()> {
        let child = self.start(input, Stdio::piped())?;
        self.writes(name, OK, due, child)
    }

    /// A beginning of the answer arrived, and so not the whole of its last line.
    fn cut(&mut self, name: &str, answer: &str, got: &[u8]) {
        let (_, last) = answer.trim_end().rsplit_once('\n').unwrap_or_default();
        let holds = got.len() < answer.len()
            && answer.as_bytes().starts_with(got)
            && !got.ends_with(format!("{last}\n").as_bytes());
        self.case(name, holds, "a beginning of the answer", &shown(got));
    }

    /// Requests and what is printed for them.
    fn by_hand(&mut self, folder: &Path) -> Tried<()> {
        for case in cases::read(folder)? {
            self.answers(&case.name, pieces(&[&case.request])?, &case.due)?;
        }
        Ok(())
    }

    fn in_pieces(&mut self, r: &Requests) -> Tried<()> {
        let (play, played) = longest_play();
        let (start, rest) = play.split_at(PAGE + 1);
        let (middle, end) = rest.split_at(rest.len() - 1);
        let twice = format!("{}{}", r.check, r.row);
        let cases: [(&[&str], &str); 13] = [
            (&[&r.make], &r.made),
            (&[&r.all], &r.parties),
            (&[&r.why], &r.checked),
            (&[&r.check], &r.checked),
            (&[&twice], &r.twice),
            (&[&play], &played),
            (&[], "refused,2,1,1\n"),
            (&[&r.sheet, "make,0\n"], &r.made),
            (&[&r.sheet, "make", ",0", "\n"], &r.made),
            (&[&r.sheet, "make", "all", "\n"], &r.parties),
            (&[&r.sheet, "wh", "y,0", "\n"], &r.checked),
            (&[&r.check, &r.row], &r.twice),
            (&[start, middle, end], &played),
        ];
        for (parts, due) in cases {
            let name = format!("a pipe, {} pieces", parts.len());
            self.answers(&name, pieces(parts)?, due)?;
        }
        // Each datagram is a read of its own, and an empty one is the end.
        for (parts, due) in &cases[7..12] {
            let (ours, theirs) = UnixDatagram::pair()?;
            for part in *parts {
                ours.send(part.as_bytes())?;
            }
            ours.send(b"")?;
            let name = format!("{} datagrams", parts.len());
            self.answers(&name, OwnedFd::from(theirs), due)?;
        }
        Ok(())
    }

    fn inputs_that_fail(&mut self, r: &Requests) -> Tried<()> {
        for (name, bytes) in [
            ("a row is late", &r.check),
            ("the last line is late", &r.sheet),
            ("the end is late", &r.make),
            ("the end of all parties is late", &r.all),
            ("the end of `why` is late", &r.why),
            ("all is late", &String::new()),
        ] {
            let (other_end, input) = impatient_input(bytes)?;
            self.answers(name, input, "")?;
            drop(other_end);
            let name = format!("{name}, and never comes");
            self.answers(&name, broken_input(bytes)?, "")?;
        }
        let (other_end, input) = impatient_input(&r.make)?;
        drop(other_end);
        self.answers("all is there, with its end", input, &r.made)?;

        self.answers("a folder", File::open("/")?, "")?;
        let input = OpenOptions::new().write(true).open("/dev/null")?;
        self.answers("an input open for writing alone", input, "")?;
        let child = self.shell("exec \"$0\" <&-", Stdio::null(), Stdio::piped())?;
        self.writes("a closed input", OK, "", child)
    }

    fn lengths(&mut self) -> Tried<()> {
        for (length, due) in [
            (LONGEST, "refused,3,1,1\n"),
            (LONGEST + 1, "refused,1,0,0\n"),
            (100_000, "refused,1,0,0\n"),
        ] {
            let name = format!("{length} bytes");
            self.answers(&name, pieces(&[&"x".repeat(length)])?, due)?;
        }
        // A request that is too long is answered before its end.
        let (reader, mut writer) = pipe()?;
        let child = self.start(reader, Stdio::piped())?;
        writer.write_all(&[b'x'; LONGEST + 1])?;
        self.writes("65,537 bytes and no end", OK, "refused,1,0,0\n", child)
    }

    fn outputs_that_wait(&mut self) -> Tried<()> {
        let name = "an output that nobody empties";
        let (request, answer) = longest_play();
        let (mut reader, writer) = impatient_output()?;
        let child = self.start(pieces(&[&request])?, writer)?;
        self.ends(name, OK, child)?;
        let mut got = Vec::new();
        reader.read_to_end(&mut got)?;
        self.cut(name, &answer, &got);
        self.case(name, !got.is_empty(), "some of the answer", "nothing");

        let name = "an output with room for all but the last LF";
        let (request, answer) = play_of_a_page();
        let (mut reader, mut writer) = impatient_output()?;
        let held = fill_but_a_page(&mut reader, &mut writer)?;
        let child = self.start(pieces(&[&request])?, writer)?;
        self.ends(name, OK, child)?;
        let mut got = Vec::new();
        reader.read_to_end(&mut got)?;
        let got = &got[held..];
        self.cut(name, &answer, got);
        self.case(name, got.len() == PAGE, "a page", &shown(got));
        Ok(())
    }

    fn outputs_that_fail(&mut self, r: &Requests) -> Tried<()> {
        let (request, answer) = longest_play();
        for request in [&request, &r.make] {
            let full = OpenOptions::new().write(true).open("/dev/full")?;
            let child = self.start(pieces(&[request])?, full)?;
            self.ends("a full disk", OK, child)?;
            let child = self.shell("exec \"$0\" >&-", pieces(&[request])?, Stdio::null())?;
            self.ends("a closed output", OK, child)?;
        }
        // The reader goes away after so many bytes, and more are due than a pipe holds.
        let name = "a reader that goes away";
        // The program ignores SIGPIPE from its start on, so that the write fails.
        for script in ["exec \"$0\"", "trap '' PIPE; exec \"$0\""] {
            for first in [10_000, 0] {
                let (mut reader, writer) = pipe()?;
                let child = self.shell(script, pieces(&[&request])?, writer)?;
                let mut got = vec![0; first];
                reader.read_exact(&mut got)?;
                drop(reader);
                self.ends(name, OK, child)?;
                self.cut(name, &answer, &got);
            }
        }
        // It went away before anything is written.
        for script in [
            "exec \"$0\"",
            "\"$0\"; exit $?",
            "trap '' PIPE; exec \"$0\"",
        ] {
            let (_, writer) = pipe()?;
            let child = self.shell(script, pieces(&[&r.make])?, writer)?;
            self.ends("a reader that is gone", OK, child)?;
        }
        Ok(())
    }

    /// No argument is looked at.
    fn arguments(&mut self, r: &Requests) -> Tried<()> {
        for arguments in ["--help", "make,1", "-", "\"\" \"\"", "/dev/null x"] {
            let script = format!("exec \"$0\" {arguments}");
            let child = self.shell(&script, pieces(&[&r.make])?, Stdio::piped())?;
            let name = format!("with the arguments {arguments}");
            self.writes(&name, OK, &r.made, child)?;
        }
        Ok(())
    }

    fn all(&mut self, sheet: &Path, folder: &Path) -> Tried<()> {
        self.by_hand(folder)?;
        let verdicts = std::fs::read_to_string(sheet.with_extension("expected"))?;
        let sheet = std::fs::read_to_string(sheet)?;
        let mut made = Vec::new();
        for participant in 0..verdicts.lines().count() {
            let make = pieces(&[&format!("{sheet}make,{participant}\n")])?;
            let output = self.start(make, Stdio::piped())?.wait_with_output()?;
            made.push(String::from_utf8(output.stdout)?);
        }
        let requests = Requests::new(sheet, &verdicts, &made)?;
        self.in_pieces(&requests)?;
        self.inputs_that_fail(&requests)?;
        self.lengths()?;
        self.outputs_that_wait()?;
        self.outputs_that_fail(&requests)?;
        self.arguments(&requests)
    }
}

fn main() -> ExitCode {
    let mut arguments = std::env::args().skip(1);
    let mut next = |default: &str| PathBuf::from(arguments.next().unwrap_or(default.to_string()));
    let judge = next("target/bin/judge");
    let sheet = next("examples/timed_commitment.txt");
    let folder = next(cases::FOLDER);
    thread::spawn(|| {
        thread::sleep(PATIENCE);
        println!("FAILED: the program does not end");
        std::process::exit(1);
    });
    let (cases, failures) = (0, 0);
    let mut test = Test {
        judge,
        cases,
        failures,
    };
    let run = test.all(&sheet, &folder);
    println!("{} cases, {} failed", test.cases, test.failures);
    match run {
        Ok(()) if test.failures == 0 => ExitCode::SUCCESS,
        Ok(()) => ExitCode::FAILURE,
        Err(what) => {
            println!("the test of the program failed: {what}");
            ExitCode::FAILURE
        }
    }
}
