//! The static library as a Rust program sees it; include/hurkoxel.h has the contract in words.  How much
//! must be lent is known to the model.

use crate::model::Place;
/// Fewest rows and fewest bytes of text that must be lent, more rows for `makeall`, and the cells of a
/// table.  Not every program that uses the library asks for all of them.
#[allow(unused_imports)]
pub use crate::model::{sheets::SHEET_CELLS as CELLS, ALL_ROWS, ROWS, TEXT_BYTES as TEXT};

#[repr(C)]
#[derive(Clone, Copy, Debug, Default, PartialEq, Eq)]
pub struct Row {
    pub node: usize,
    pub branch: usize,
    pub rank: usize,
}

impl Row {
    /// As the model has it.
    #[allow(dead_code)]
    pub fn numbers(&self) -> Place {
        [self.node, self.branch, self.rank].map(|number| number as u64)
    }
}

impl From<Place> for Row {
    fn from(place: Place) -> Row {
        let [node, branch, rank] = place.map(|number| number as usize);
        Row { node, branch, rank }
    }
}

/// `number` 0: answered, and `length` bytes of text; else refused.
#[repr(C)]
#[derive(Clone, Copy, Debug, Default, PartialEq, Eq)]
pub struct Reply {
    pub number: usize,
    pub line: usize,
    pub field: usize,
    pub length: usize,
}

extern "C" {
    fn hurkoxel_judge(
        request: *const u8,
        request_length: usize,
        rows: *mut Row,
        row_count: usize,
        text: *mut u8,
        text_length: usize,
    ) -> Reply;
    fn hurkoxel_refused_line(
        number: usize,
        line: usize,
        field: usize,
        text: *mut u8,
        text_length: usize,
    ) -> usize;
    fn hurkoxel_read_sheet(
        text: *const u8,
        text_length: usize,
        cells: *mut usize,
        cell_count: usize,
    ) -> Reply;
    fn hurkoxel_write_sheet(
        cells: *const usize,
        cell_count: usize,
        text: *mut u8,
        text_length: usize,
    ) -> Reply;
}

pub fn judge(request: &[u8], rows: &mut [Row], text: &mut [u8]) -> Reply {
    // SAFETY: each pointer goes with its slice's length, and mutable slices overlap nothing.
    unsafe {
        hurkoxel_judge(
            request.as_ptr(),
            request.len(),
            rows.as_mut_ptr(),
            rows.len(),
            text.as_mut_ptr(),
            text.len(),
        )
    }
}

/// The line of number, line and field to the first bytes of `text`; how many they are.
#[allow(dead_code)]
pub fn put_refused([number, line, field]: [usize; 3], text: &mut [u8]) -> usize {
    // SAFETY: as above.
    unsafe { hurkoxel_refused_line(number, line, field, text.as_mut_ptr(), text.len()) }
}

/// The line that `judge` prints for a refused request; `text` has 80 bytes or more.
#[allow(dead_code)]
pub fn refused_line<'t>(reply: &Reply, text: &'t mut [u8]) -> &'t [u8] {
    let length = put_refused([reply.number, reply.line, reply.field], text);
    &text[..length]
}

/// A text of line 1 and `def` lines into a table.
pub fn read_sheet(text: &[u8], cells: &mut [usize]) -> Reply {
    // SAFETY: as above.
    unsafe { hurkoxel_read_sheet(text.as_ptr(), text.len(), cells.as_mut_ptr(), cells.len()) }
}

/// A table to its text.
pub fn write_sheet(cells: &[usize], text: &mut [u8]) -> Reply {
    // SAFETY: as above.
    unsafe { hurkoxel_write_sheet(cells.as_ptr(), cells.len(), text.as_mut_ptr(), text.len()) }
}
