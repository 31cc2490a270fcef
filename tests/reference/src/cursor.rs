//! Going over a file field by field.

use crate::name::bytes_of;
use crate::refusal::{number, Fault};

/// What is left of a file, and so where the next field begins.
pub struct Cursor<'a> {
    rest: &'a [u8],
    file_len: usize,
}

impl<'a> Cursor<'a> {
    #[inline(always)]
    pub fn new(file: &'a [u8]) -> Self {
        Cursor {
            rest: file,
            file_len: file.len(),
        }
    }

    /// The file from a place in it on.
    #[inline(always)]
    pub fn at(file: &'a [u8], place: usize) -> Self {
        Cursor {
            rest: &file[place..],
            file_len: file.len(),
        }
    }

    /// Where the next field begins.
    #[inline(always)]
    pub fn place(&self) -> usize {
        self.file_len - self.rest.len()
    }

    #[inline(always)]
    pub fn rest(&self) -> &'a [u8] {
        self.rest
    }

    #[inline(always)]
    fn cut(&self) -> Fault {
        Fault::at(number::CUT, self.place())
    }

    /// A field of a fixed length, which is stepped over.
    #[inline(always)]
    pub fn take<const LEN: usize>(&mut self) -> Result<[u8; LEN], Fault> {
        let (field, rest) = self.rest.split_first_chunk().ok_or_else(|| self.cut())?;
        self.rest = rest;
        Ok(*field)
    }

    #[inline(always)]
    pub fn take_u16(&mut self) -> Result<u16, Fault> {
        self.take().map(u16::from_be_bytes)
    }

    #[inline(always)]
    pub fn take_u32(&mut self) -> Result<u32, Fault> {
        self.take().map(u32::from_be_bytes)
    }

    /// The body of a counted run, one field whatever its length.
    #[inline(always)]
    pub fn take_run(&mut self, len: u64) -> Result<&'a [u8], Fault> {
        if len > self.rest.len() as u64 {
            return Err(self.cut());
        }
        let (run, rest) = self.rest.split_at(len as usize);
        self.rest = rest;
        Ok(run)
    }

    #[inline(always)]
    pub fn take_units(&mut self, units: u32) -> Result<&'a [u8], Fault> {
        self.take_run(bytes_of(units))
    }

    /// Refuses what is left over behind the last field.
    pub fn judge_end(&self) -> Result<(), Fault> {
        if self.rest.is_empty() {
            Ok(())
        } else {
            Err(Fault::at(number::LEFT_OVER, self.place()))
        }
    }
}
