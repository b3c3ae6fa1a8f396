//! The stack that is promised: 1 MiB for whoever calls the library, and 1.25 MiB for the program `judge` with
//! arguments and an environment of up to 256 KiB.
//!
//! ```text
//! tools/build
//! rustc -O --edition 2021 -L target/staticlib -l static=checker tests/stack/main.rs -o target/tests/stack
//! target/tests/stack [JUDGE]       target/bin/judge if not given
//! target/tests/stack on KIB NAME   one request, answered in this process by a thread with such a stack
//! ```
//!
//! The deepest and the longest requests (requests.rs) are answered each in a process of its own, so that one
//! that runs past its stack ends that process alone.  The answers must be those that a large stack gives, and
//! too small a stack must end the process; none of them leaves a core file.  The program is also tried on a small
//! request with stacks and environments of several sizes.

#[allow(dead_code)]
#[path = "../entry/library.rs"]
mod library;
#[path = "../judge/longest.rs"]
mod longest;
#[allow(dead_code)]
#[path = "../model/model.rs"]
mod model;
mod requests;

use std::error::Error;
use std::fs::File;
use std::io::Write;
use std::os::unix::process::ExitStatusExt;
use std::path::{Path, PathBuf};
use std::process::{Command, ExitCode, Output};
use std::thread;

use library::{Reply, Row};
use requests::{Asked, Request};

type Tried<T> = Result<T, Box<dyn Error>>;

// In KiB: what is promised for the library and for the program, how much of the latter its arguments and
// environment may take, and more than anything asks for.
const LIBRARY: usize = 1_024;
const PROGRAM: usize = 1_280;
const ENVIRONMENT: usize = 256;
const PLENTY: usize = 65_536;

/// The signal that ends a program which runs past its stack.
const SIGSEGV: i32 = 11;
/// The status of a shell that cannot start a program, and the kernel's word for arguments and an environment
/// that it does not take.
const NOT_STARTED: i32 = 126;
const TOO_LONG: &str = "Argument list too long";

impl Request {
    /// Is it answered so?
    fn is_answered(&self, output: &Output) -> bool {
        let answer = String::from_utf8_lossy(&output.stdout);
        let last = answer.lines().last().unwrap_or_default();
        let lines = answer.lines().count();
        output.status.success() && lines == self.lines && last.starts_with(self.last)
    }
}

impl Asked {
    /// A stack that is too small for the deepest, in KiB.
    fn too_small(&self) -> usize {
        match self {
            Asked::Judge(_) => 512,
            Asked::Read(_) => 24,
            Asked::Write(_) => 384,
        }
    }
}

// ---------------------------------------------------------------------------------------------
// One request
// ---------------------------------------------------------------------------------------------

/// What `judge` prints, where a reply and the lent text say it.
fn printed(reply: &Reply, text: &[u8]) -> Vec<u8> {
    let mut line = [0; 80];
    match reply.number {
        0 => text[..reply.length].to_vec(),
        _ => library::refused_line(reply, &mut line).to_vec(),
    }
}

/// The answer of the library, called on a thread with a stack of so many KiB.
fn on_thread(asked: Asked, kib: usize) -> Tried<Vec<u8>> {
    let mut rows = vec![Row::default(); library::ALL_ROWS];
    let mut text = vec![0; library::TEXT];
    let mut cells = vec![0; library::CELLS];
    if let Asked::Write(sheet) = &asked {
        // The table is filled here, where the stack is large.
        library::read_sheet(sheet.as_bytes(), &mut cells);
    }
    // Nothing but the call is made on the thread.
    let call = move || {
        let reply = match &asked {
            Asked::Judge(request) => library::judge(request.as_bytes(), &mut rows, &mut text),
            Asked::Read(sheet) => library::read_sheet(sheet.as_bytes(), &mut cells),
            Asked::Write(_) => library::write_sheet(&cells, &mut text),
        };
        (asked, reply, text, cells)
    };
    let thread = thread::Builder::new().stack_size(kib << 10).spawn(call)?;
    let (asked, reply, text, cells) = thread.join().map_err(|_| "the thread failed")?;
    Ok(match (asked, reply.number) {
        (Asked::Read(_), 0) => format!("read: {cells:?}").into_bytes(),
        _ => printed(&reply, &text),
    })
}

/// The process that answers one request.
fn answer(kib: &str, name: &str) -> Tried<()> {
    let mut all = requests::all().into_iter();
    let request = all.find(|request| request.name == name);
    let request = request.ok_or("no such request")?;
    let answer = on_thread(request.asked, kib.parse()?)?;
    Ok(std::io::stdout().write_all(&answer)?)
}

// ---------------------------------------------------------------------------------------------
// All of them
// ---------------------------------------------------------------------------------------------

struct Test {
    judge: PathBuf,
    /// Holds the request that the program reads.
    input: PathBuf,
    processes: usize,
    failures: usize,
}

/// Variables that take so many KiB, with the zeros behind them; one alone may take no more than 128.
fn variables(kib: usize) -> Vec<(String, String)> {
    let variable = |number: usize| {
        let name = format!("V{number:04}");
        let value = "x".repeat(1_024 - name.len() - "=\0".len());
        (name, value)
    };
    (0..kib).map(variable).collect()
}

/// Did it write this, and complain of nothing?
fn wrote(output: &Output, due: &[u8]) -> bool {
    output.status.success() && output.stdout == due && output.stderr.is_empty()
}

/// Did the program run past its stack, with nothing written?
fn ran_past(output: &Output) -> bool {
    let Output {
        status,
        stdout,
        stderr,
    } = output;
    let ended = status.signal() == Some(SIGSEGV) && !status.core_dumped();
    ended && stdout.is_empty() && stderr.is_empty()
}

/// Did the kernel refuse to start it for its environment?
fn not_started(output: &Output) -> bool {
    let said = String::from_utf8_lossy(&output.stderr);
    let refused = output.status.code() == Some(NOT_STARTED) && said.contains(TOO_LONG);
    refused && output.stdout.is_empty()
}

/// How a process ended, and the beginning of what it wrote.
fn shown(output: &Output) -> String {
    let most = output.stdout.len().min(100);
    let bytes = output.stdout[..most].escape_ascii();
    let said = output.stderr.escape_ascii();
    format!("{}, \"{bytes}\" {said}", output.status)
}

impl Test {
    fn case(&mut self, what: &str, holds: bool, output: &Output) {
        if !holds {
            self.failures += 1;
            println!("FAILED: {what}: {}", shown(output));
        }
    }

    /// The library on a stack of so many KiB.
    fn library(&mut self, name: &str, kib: usize) -> Tried<Output> {
        self.processes += 1;
        let mut command = Command::new("sh");
        command.args(["-c", "ulimit -c 0 && exec \"$0\" \"$@\""]);
        command.arg(std::env::current_exe()?);
        Ok(command.args(["on", &kib.to_string(), name]).output()?)
    }

    /// The program under a limit of so many KiB, with no environment but one of so many.
    fn program(&mut self, limit: usize, kib: usize) -> Tried<Output> {
        self.processes += 1;
        let mut command = Command::new("sh");
        let script = format!("ulimit -c 0 && ulimit -s {limit} && exec \"$0\"");
        command.arg("-c").arg(script).arg(&self.judge);
        command.env_clear().envs(variables(kib));
        Ok(command.stdin(File::open(&self.input)?).output()?)
    }

    /// Answered as on a large stack, and by the program as by the library.
    fn enough(&mut self, request: &Request) -> Tried<()> {
        let name = &request.name;
        let due = self.library(name, PLENTY)?;
        let holds = request.is_answered(&due);
        self.case(&format!("{name}, {PLENTY} KiB"), holds, &due);
        let got = self.library(name, LIBRARY)?;
        let holds = wrote(&got, &due.stdout);
        self.case(&format!("{name}, {LIBRARY} KiB"), holds, &got);
        if let Asked::Judge(asked) = &request.asked {
            std::fs::write(&self.input, asked)?;
            self.processes += 1;
            let mut free = Command::new(&self.judge);
            let free = free.stdin(File::open(&self.input)?).output()?;
            let limited = self.program(PROGRAM, ENVIRONMENT)?;
            let what = format!("{PROGRAM} KiB");
            for (what, got) in [("no limit", free), (&what, limited)] {
                let holds = wrote(&got, &due.stdout);
                self.case(&format!("{name}, the program, {what}"), holds, &got);
            }
        }
        Ok(())
    }

    /// Too small a stack ends the process by a signal, with nothing written.
    fn too_small(&mut self, Request { name, asked, .. }: &Request) -> Tried<()> {
        let kib = asked.too_small();
        let got = self.library(name, kib)?;
        // Rust's own threads end in an abort, not in SIGSEGV.
        let holds = got.status.signal().is_some() && got.stdout.is_empty();
        self.case(&format!("{name}, only {kib} KiB"), holds, &got);
        if let Asked::Judge(request) = asked {
            std::fs::write(&self.input, request)?;
            let got = self.program(kib, 0)?;
            let holds = ran_past(&got);
            self.case(&format!("{name}, the program, only {kib} KiB"), holds, &got);
        }
        Ok(())
    }

    /// The program on a small request.  What its arguments and environment take comes out of its stack; with
    /// too many of them the kernel does not start it.
    fn environments(&mut self) -> Tried<()> {
        let (request, answer) = requests::SMALL;
        std::fs::write(&self.input, request)?;
        let answered = |got: &Output| wrote(got, answer.as_bytes());
        // Stacks and environments, in KiB; the kernel takes up to a quarter of the stack.
        let enough = [(PROGRAM, 0), (PROGRAM, 200), (PROGRAM, ENVIRONMENT)];
        let refused = [(PROGRAM, 320), (PROGRAM, 1_024)];
        let ends: [(&str, &dyn Fn(&Output) -> bool, &[(usize, usize)]); 5] = [
            ("answered", &answered, &enough),
            ("answered", &answered, &[(4 * PROGRAM, 4 * ENVIRONMENT)]),
            ("too small", &ran_past, &[(128, 0), (512, 0), (768, 0)]),
            // Enough for the program, but the environment takes the rest of it.
            ("no room left", &ran_past, &[(1_000, 240)]),
            ("not started", &not_started, &refused),
        ];
        for (due, holds, sizes) in ends {
            for &(limit, kib) in sizes {
                let got = self.program(limit, kib)?;
                let what = format!("a stack of {limit} KiB, an environment of {kib}: {due}");
                self.case(&what, holds(&got), &got);
            }
        }
        Ok(())
    }

    /// The least stack that is enough, in steps of 4 KiB.
    fn least(&mut self, mut enough: impl FnMut(&mut Test, usize) -> Tried<bool>) -> Tried<usize> {
        let (mut short, mut long) = (4, 4_096);
        while long - short > 4 {
            let kib = (short + long) / 8 * 4;
            match enough(self, kib)? {
                true => long = kib,
                false => short = kib,
            }
        }
        Ok(long)
    }

    /// Prints what one request takes.
    fn report(&mut self, Request { name, asked, .. }: &Request) -> Tried<()> {
        let on_thread = self.least(|test, kib| Ok(test.library(name, kib)?.status.success()))?;
        print!("  {name}: {on_thread} KiB");
        if let Asked::Judge(request) = asked {
            std::fs::write(&self.input, request)?;
            let program = self.least(|test, kib| Ok(test.program(kib, 0)?.status.success()))?;
            print!(", the program about {program} KiB");
        }
        println!();
        Ok(())
    }

    fn all(&mut self) -> Tried<()> {
        let all = requests::all();
        for request in &all {
            self.enough(request)?;
        }
        let deepest = |request: &&Request| request.name.contains(requests::DEEPEST);
        for request in all.iter().filter(deepest) {
            self.too_small(request)?;
        }
        self.environments()?;
        println!("the least stacks that are enough for the deepest:");
        for request in all.iter().filter(deepest) {
            self.report(request)?;
        }
        let (requests, processes) = (all.len(), self.processes);
        println!(
            "{requests} requests, {processes} processes, {} failed",
            self.failures
        );
        Ok(())
    }
}

fn run(judge: &Path) -> Tried<bool> {
    let input = std::env::temp_dir().join(format!("hurkoxel-stack-{}", std::process::id()));
    let mut test = Test {
        judge: judge.to_path_buf(),
        input,
        processes: 0,
        failures: 0,
    };
    let run = test.all();
    let _ = std::fs::remove_file(&test.input);
    run.map(|()| test.failures == 0)
}

fn main() -> ExitCode {
    let arguments: Vec<String> = std::env::args().skip(1).collect();
    let arguments: Vec<&str> = arguments.iter().map(String::as_str).collect();
    let run = match arguments.as_slice() {
        ["on", kib, name] => answer(kib, name).map(|()| true),
        [] => run(Path::new("target/bin/judge")),
        [judge] => run(Path::new(judge)),
        _ => Err("stack [JUDGE], or stack on KIB NAME".into()),
    };
    match run {
        Ok(true) => ExitCode::SUCCESS,
        Ok(false) => ExitCode::FAILURE,
        Err(what) => {
            eprintln!("the test of the stack failed: {what}");
            ExitCode::FAILURE
        }
    }
}
