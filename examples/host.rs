//! A resident host in Rust: one pair of buffers, lent for every request and never cleared.
//!
//! ```text
//! tools/build library
//! rustc -O --edition 2021 -L target/staticlib -l static=checker examples/host.rs -o target/host
//! (cat examples/zcb.txt; echo make,0) > target/zcb.request
//! target/host target/zcb.request target/zcb.request
//! ```
//!
//! Each argument names a file that holds one request.

use std::io::Read;
use std::process::ExitCode;

#[repr(C)]
#[derive(Clone, Copy, Default)]
struct Row {
    node: usize,
    branch: usize,
    rank: usize,
}

#[repr(C)]
struct Reply {
    number: usize,
    line: usize,
    field: usize,
    length: usize,
}

// The contract in words is in include/hurkoxel.h.
extern "C" {
    fn hurkoxel_judge(
        request: *const u8,
        request_length: usize,
        rows: *mut Row,
        row_count: usize,
        text: *mut u8,
        text_length: usize,
    ) -> Reply;
}

// As include/hurkoxel.h has them: the longest request, rows of one participant, rows of as many as `makeall`
// answers for, and bytes of text.
const REQUEST_BYTES: u64 = 65_536;
const ROWS: usize = 512;
const PARTICIPANTS: usize = 16;
const ALL_ROWS: usize = ROWS * PARTICIPANTS;
const TEXT_BYTES: usize = 180_224;

/// What is lent for every request.
struct Buffers {
    rows: Vec<Row>,
    text: Vec<u8>,
}

impl Buffers {
    /// The text and the places of the rows of an answer, or the refusal.
    fn judge(&mut self, request: &[u8]) -> Result<(&[u8], &[Row]), Reply> {
        let (rows, text) = (&mut self.rows, &mut self.text);
        // SAFETY: each pointer goes with its length, and the three are different memory.
        let reply = unsafe {
            hurkoxel_judge(
                request.as_ptr(),
                request.len(),
                rows.as_mut_ptr(),
                rows.len(),
                text.as_mut_ptr(),
                text.len(),
            )
        };
        if reply.length == 0 {
            return Err(reply);
        }
        Ok((&text[..reply.length], rows))
    }
}

/// The rows of each participant for whom `makeall` found some; those of `make` and `check` stand from 0 on.
fn report_rows(places: &[Row]) {
    for (participant, places) in places.chunks(ROWS).enumerate() {
        // A rank is at least 1, so the first row of zeros ends the rows.
        let count = places.iter().take_while(|row| row.rank != 0).count();
        if let Some(Row { node, branch, rank }) = places[..count].last() {
            let first = ROWS * participant;
            println!("rows from {first} on: {count}, the last is {node},{branch},{rank}");
        }
    }
}

/// At most one byte more than a request may have, so that one that is too long is seen to be so.
fn load(name: &str) -> std::io::Result<Vec<u8>> {
    let mut request = Vec::new();
    std::fs::File::open(name)?
        .take(REQUEST_BYTES + 1)
        .read_to_end(&mut request)?;
    Ok(request)
}

fn main() -> ExitCode {
    let mut status = ExitCode::SUCCESS;
    let mut buffers = Buffers {
        rows: vec![Row::default(); ALL_ROWS],
        text: vec![0; TEXT_BYTES],
    };
    for name in std::env::args().skip(1) {
        let request = match load(&name) {
            Ok(request) => request,
            Err(error) => {
                eprintln!("{name}: {error}");
                status = ExitCode::FAILURE;
                continue;
            }
        };
        match buffers.judge(&request) {
            Ok((text, rows)) => {
                println!("{name}: {} bytes", text.len());
                print!("{}", String::from_utf8_lossy(text));
                report_rows(rows);
            }
            Err(Reply {
                number,
                line,
                field,
                ..
            }) => {
                println!("{name}: refused,{number},{line},{field}");
            }
        }
    }
    status
}
