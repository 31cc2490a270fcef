//! Holding a lent table to a file's rows.

use super::layout::MAX_DEPTH;
use super::rows::{Head, Rows};
use super::walk::walk;
use crate::refusal::{number, Refusal};

/// No row.
const NONE: u32 = u32::MAX;

/// A table that is only looked at: a run of numbers for each thing that a row says.
#[derive(Clone, Copy, Debug, PartialEq, Eq)]
pub struct Table<'a> {
    pub first: &'a [u32],
    pub length: &'a [u32],
    pub next: &'a [u32],
    pub depth: &'a [u32],
    pub kind: &'a [u32],
}

/// Judges the file, then refuses a table that does not begin with its rows, and
/// gives their number.
pub fn rows_in(file: &[u8], table: Table<'_>) -> Result<usize, Refusal> {
    let mut compare = Compare::new(table);
    walk(file, &mut compare)?;
    compare.rows().ok_or(Refusal::of_call(number::OUT_OF_RANGE))
}

/// Compares a table with the rows while a file is gone over.
struct Compare<'a> {
    table: Table<'a>,
    /// As many rows as the shortest run has.
    len: usize,
    next: u32,
    same: bool,
    /// At each depth the last child so far of the row that is open above it.
    last: [u32; MAX_DEPTH as usize + 2],
    /// What the table says in place of a sibling, where a child was the last. How
    /// many rows there are is known at the end alone.
    no_sibling: Option<u32>,
}

impl<'a> Compare<'a> {
    fn new(table: Table<'a>) -> Self {
        let Table {
            first,
            length,
            next,
            depth,
            kind,
        } = table;
        let len = [first, length, next, depth, kind].map(<[u32]>::len);
        Compare {
            table,
            len: len.into_iter().min().unwrap_or(0),
            next: 0,
            same: true,
            last: [NONE; MAX_DEPTH as usize + 2],
            no_sibling: None,
        }
    }

    /// The number of rows, where the table begins with them.
    fn rows(mut self) -> Option<usize> {
        for depth in 0..self.last.len() {
            self.end_children(depth);
        }
        let same = self.same && self.no_sibling == Some(self.next);
        same.then_some(self.next as usize)
    }

    /// The last child at this depth has no sibling after it.
    #[inline(always)]
    fn end_children(&mut self, depth: usize) {
        let last = std::mem::replace(&mut self.last[depth], NONE);
        if last == NONE || !self.same {
            return;
        }
        let said = self.table.next[last as usize];
        self.same = *self.no_sibling.get_or_insert(said) == said;
    }
}

impl Rows for Compare<'_> {
    #[inline(always)]
    fn open(&mut self, head: Head) -> u32 {
        let row = self.next;
        self.next += 1;
        let (at, depth) = (row as usize, head.depth as usize);
        if at >= self.len {
            self.same = false;
        }
        self.end_children(depth + 1);
        let before = std::mem::replace(&mut self.last[depth], row);
        if self.same {
            self.same = self.table.first[at] == head.first as u32
                && self.table.depth[at] == head.depth
                && self.table.kind[at] == head.kind
                && (before == NONE || self.table.next[before as usize] == row);
        }
        row
    }

    #[inline(always)]
    fn close(&mut self, row: u32, first: usize, end: usize) {
        if self.same {
            self.same = self.table.length[row as usize] == (end - first) as u32;
        }
    }
}
