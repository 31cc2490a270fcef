//! What becomes of the rows while a file is gone over.

use super::layout::MAX_DEPTH;
use super::reader::Columns;

/// No row.
const NONE: u32 = u32::MAX;

/// What a row's head says of it.
#[derive(Clone, Copy)]
pub struct Head {
    pub kind: u32,
    pub first: usize,
    /// Where its value begins: after the type or form.
    pub value: usize,
    pub depth: u32,
}

/// Is told of each row in file order, and of its end once its children are over.
pub trait Rows {
    /// Takes a row, and gives its number.
    fn open(&mut self, head: Head) -> u32;
    fn close(&mut self, row: u32, first: usize, end: usize);
}

/// How many rows there are.
#[derive(Default)]
pub struct Count(u32);

impl Count {
    pub fn rows(&self) -> usize {
        self.0 as usize
    }
}

impl Rows for Count {
    #[inline(always)]
    fn open(&mut self, _: Head) -> u32 {
        // A row has five bytes at least, so that the number fits.
        let row = self.0;
        self.0 += 1;
        row
    }

    #[inline(always)]
    fn close(&mut self, _: u32, _: usize, _: usize) {}
}

/// Fills columns that have room for all of them. A row's next sibling is known
/// when that sibling is met, and until then there is none.
pub struct Fill<'a, 'b> {
    columns: &'a mut Columns<'b>,
    /// How many rows there are, which stands for no sibling.
    rows: u32,
    next: u32,
    /// At each depth the last child so far of the row that is open above it.
    last: [u32; MAX_DEPTH as usize + 2],
}

impl<'a, 'b> Fill<'a, 'b> {
    pub fn new(columns: &'a mut Columns<'b>, rows: usize) -> Self {
        Fill {
            columns,
            rows: rows as u32,
            next: 0,
            last: [NONE; MAX_DEPTH as usize + 2],
        }
    }
}

impl Rows for Fill<'_, '_> {
    #[inline(always)]
    fn open(&mut self, head: Head) -> u32 {
        let row = self.next;
        self.next += 1;
        let (at, depth) = (row as usize, head.depth as usize);
        // A file's places fit 32 bits, since its length does.
        self.columns.first[at] = head.first as u32;
        self.columns.depth[at] = head.depth;
        self.columns.kind[at] = head.kind;
        self.columns.next[at] = self.rows;
        let before = self.last[depth];
        if before != NONE {
            self.columns.next[before as usize] = row;
        }
        self.last[depth] = row;
        self.last[depth + 1] = NONE;
        row
    }

    #[inline(always)]
    fn close(&mut self, row: u32, first: usize, end: usize) {
        self.columns.length[row as usize] = (end - first) as u32;
    }
}

/// Fills in where values begin, in a run that has room for all.
pub struct Values<'a> {
    values: &'a mut [u32],
    next: u32,
}

impl<'a> Values<'a> {
    pub fn new(values: &'a mut [u32]) -> Self {
        Values { values, next: 0 }
    }
}

impl Rows for Values<'_> {
    #[inline(always)]
    fn open(&mut self, head: Head) -> u32 {
        let row = self.next;
        self.next += 1;
        self.values[row as usize] = head.value as u32;
        row
    }

    #[inline(always)]
    fn close(&mut self, _: u32, _: usize, _: usize) {}
}

/// A row's kind, and where its value lies.
#[derive(Clone, Copy)]
pub struct Found {
    pub kind: u32,
    pub first: usize,
    pub end: usize,
}

/// Looks for the row of one number.
pub struct Find {
    wanted: usize,
    next: u32,
    found: Option<Found>,
}

impl Find {
    pub fn new(wanted: usize) -> Self {
        Find {
            wanted,
            next: 0,
            found: None,
        }
    }

    pub fn found(self) -> Option<Found> {
        self.found
    }
}

impl Rows for Find {
    #[inline(always)]
    fn open(&mut self, head: Head) -> u32 {
        let row = self.next;
        self.next += 1;
        if row as usize == self.wanted {
            self.found = Some(Found {
                kind: head.kind,
                first: head.value,
                end: head.value,
            });
        }
        row
    }

    #[inline(always)]
    fn close(&mut self, row: u32, _: usize, end: usize) {
        if row as usize == self.wanted {
            self.found = self.found.map(|found| Found { end, ..found });
        }
    }
}
