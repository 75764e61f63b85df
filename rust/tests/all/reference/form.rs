//! The two forms of the sheet: document 01's and the second one of document 02, each described once for reading, writing and
//! converting.

use super::limits::*;

/// A kind of block: the bytes of each number of a record, and the records of a full block.
pub struct Kind {
    pub widths: &'static [usize],
    pub in_full_block: usize,
}

impl Kind {
    pub fn record_bytes(&self) -> usize {
        self.widths.iter().sum()
    }
}

/// How many kinds of blocks there are.
pub const KINDS: usize = 8;

/// The kinds of blocks in the order of their codes, from 1 on.
static BY_CODE: [Kind; KINDS] = [
    Kind { widths: &[2], in_full_block: 250 },         // 1, the numbers of the head
    Kind { widths: &[4], in_full_block: 125 },         // 2, workloads
    Kind { widths: &[2, 2, 4], in_full_block: 62 },    // 3, edges
    Kind { widths: &[1, 1, 2, 8], in_full_block: 41 }, // 4, constraints
    Kind { widths: &[1], in_full_block: 500 },         // 5, colouring
    Kind { widths: &[4], in_full_block: 125 },         // 6, outside areas
    Kind { widths: &[1], in_full_block: 500 },         // 7, visit counts
    Kind { widths: &[2, 4], in_full_block: 83 },       // 8, visits
];

pub const COLOURING_KIND: usize = 5;
pub const OUTSIDE_KIND: usize = 6;
pub const COUNTS_KIND: usize = 7;

/// The kind with this code.
pub fn kind(code: usize) -> &'static Kind {
    &BY_CODE[code - 1]
}

/// A form of the sheet: its letters, the most blocks it has, how many numbers its head has, the kinds of its blocks in order, and
/// up to which kind it holds constraints.
#[derive(PartialEq, Eq)]
pub struct Form {
    pub letters: [u8; 4],
    pub blocks: usize,
    pub head: usize,
    pub kinds: &'static [usize],
    pub constraint_kinds: u64,
}

pub static FIRST: Form = Form { letters: *b"SCTR", blocks: 43, head: 4, kinds: &[1, 2, 3, 4, 5], constraint_kinds: 4 };

pub static SECOND: Form =
    Form { letters: *b"SCT2", blocks: 74, head: 6, kinds: &[1, 2, 6, 3, 4, 5, 7, 8], constraint_kinds: CALL_KINDS };

pub static FORMS: [&Form; 2] = [&FIRST, &SECOND];

impl Form {
    /// The form that a sheet is read by: the second where its first four bytes are the second's letters, else the first.
    pub fn of(sheet: &[u8]) -> &'static Form {
        if sheet.starts_with(&SECOND.letters) {
            &SECOND
        } else {
            &FIRST
        }
    }
}

impl std::fmt::Debug for Form {
    fn fmt(&self, f: &mut std::fmt::Formatter<'_>) -> std::fmt::Result {
        f.write_str(&String::from_utf8_lossy(&self.letters))
    }
}
