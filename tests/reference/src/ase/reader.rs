//! Judging a file and handing out its records, one a block.

use super::layout::{
    CHANNELS, COLOUR, COUNT_PLACE, ENVELOPE_LEN, GROUP_END, GROUP_START, HEAD_LEN, LENGTH_OFFSET,
    MAJOR_PLACE, MAJOR_VERSION, MAX_OPEN, MINOR_PLACE, MINOR_VERSION, ROW_LEN, SIGNATURE,
};
use crate::ink;
use crate::model::{channel_count, is_in_range};
use crate::name::{is_closed, UNIT_LEN};
use crate::refusal::{number, Refusal};
use crate::LIMIT;

/// What judging an accepted file says of it.
#[derive(Clone, Copy, Debug, PartialEq, Eq)]
pub struct Accepted {
    pub blocks: usize,
    pub colours: usize,
}

/// A block of an accepted file. The name is where its units lie in the file. The
/// ink is what the file has as a colour's type.
/// What a block does not have is 0.
#[derive(Clone, Copy, Debug, Default, PartialEq, Eq)]
pub struct Record {
    pub block: u16,
    pub name: usize,
    pub units: u32,
    pub model: u32,
    pub channels: [u32; CHANNELS],
    pub ink: u32,
}

/// Judges a whole file.
pub fn judge(file: &[u8]) -> Result<Accepted, Refusal> {
    if file.len() > LIMIT {
        return Err(Refusal::of_call(number::TOO_LONG));
    }
    let blocks = judge_head(file)?;
    let mut place = HEAD_LEN;
    let mut open = 0;
    let mut colours = 0;
    // A count far too large is found out at the first block that is not there.
    for _ in 0..blocks {
        let envelope = judge_envelope(file, place)?;
        let content = Content::of(file, place, envelope)?;
        place += ENVELOPE_LEN + envelope.len as usize;
        match envelope.block {
            COLOUR => {
                judge_colour(content)?;
                colours += 1;
            }
            GROUP_START => {
                judge_group_start(content, open)?;
                open += 1;
            }
            _ => {
                judge_group_end(content, open)?;
                open -= 1;
            }
        }
    }
    if open > 0 {
        return Err(Refusal::at(number::UNBALANCED, place));
    }
    if place < file.len() {
        return Err(Refusal::at(number::LEFT_OVER, place));
    }
    Ok(Accepted {
        blocks: blocks as usize,
        colours,
    })
}

/// Judges the file, then fills a row of the table for each block. Nothing of
/// the table changes on a refusal, nor past the rows.
pub fn read(file: &[u8], table: &mut [u32]) -> Result<Accepted, Refusal> {
    let accepted = judge(file)?;
    let (rows, _) = table.as_chunks_mut::<ROW_LEN>();
    let rows = rows
        .get_mut(..accepted.blocks)
        .ok_or(Refusal::of_call(number::NO_ROOM))?;
    for (row, record) in rows.iter_mut().zip(Records::new(file, accepted)) {
        *row = record.row();
    }
    Ok(accepted)
}

/// Judges the file, then gives the record of that number, counted from 0.
pub fn record(file: &[u8], index: usize) -> Result<Record, Refusal> {
    let accepted = judge(file)?;
    Records::new(file, accepted)
        .nth(index)
        .ok_or(Refusal::of_call(number::NO_RECORD))
}

#[inline(always)]
fn field<const LEN: usize>(bytes: &[u8], place: usize) -> Option<[u8; LEN]> {
    bytes.get(place..)?.first_chunk().copied()
}

#[inline(always)]
fn field_or_cut<const LEN: usize>(file: &[u8], place: usize) -> Result<[u8; LEN], Refusal> {
    field(file, place).ok_or(Refusal::at(number::CUT, place))
}

/// Judges what stands before the blocks, and gives their count.
fn judge_head(file: &[u8]) -> Result<u32, Refusal> {
    if field_or_cut(file, 0)? != SIGNATURE {
        return Err(Refusal::at(number::WRONG_SIGNATURE, 0));
    }
    judge_version(file, MAJOR_PLACE, MAJOR_VERSION)?;
    judge_version(file, MINOR_PLACE, MINOR_VERSION)?;
    field_or_cut(file, COUNT_PLACE).map(u32::from_be_bytes)
}

fn judge_version(file: &[u8], place: usize, version: u16) -> Result<(), Refusal> {
    if field_or_cut(file, place)? != version.to_be_bytes() {
        return Err(Refusal::at(number::WRONG_VERSION, place));
    }
    Ok(())
}

#[derive(Clone, Copy)]
pub(super) struct Envelope {
    pub block: u16,
    len: u32,
}

/// Judges the two fields of the envelope at `place`; a type is known or not
/// only once the length is there.
#[inline(always)]
pub(super) fn judge_envelope(file: &[u8], place: usize) -> Result<Envelope, Refusal> {
    let block = u16::from_be_bytes(field_or_cut(file, place)?);
    let len = u32::from_be_bytes(field_or_cut(file, place + LENGTH_OFFSET)?);
    if !matches!(block, COLOUR | GROUP_START | GROUP_END) {
        return Err(Refusal::at(number::UNKNOWN_BLOCK, place));
    }
    Ok(Envelope { block, len })
}

/// What is left of a block's content, and where it stands.
pub(super) struct Content<'a> {
    rest: &'a [u8],
    block: usize,
    pub end: usize,
}

impl<'a> Content<'a> {
    /// The content of the block at `block`, where all of it is in the file.
    #[inline(always)]
    pub fn of(file: &'a [u8], block: usize, envelope: Envelope) -> Result<Self, Refusal> {
        let start = block + ENVELOPE_LEN;
        let after = &file[start..];
        if u64::from(envelope.len) > after.len() as u64 {
            return Err(Refusal::at(number::CUT, start));
        }
        let len = envelope.len as usize;
        Ok(Content {
            rest: &after[..len],
            block,
            end: start + len,
        })
    }

    /// Where the next field begins in the file.
    #[inline(always)]
    fn place(&self) -> usize {
        self.end - self.rest.len()
    }

    /// The refusal of a length that the content has too few or too many bytes for.
    fn wrong_length(&self) -> Refusal {
        Refusal::at(number::WRONG_LENGTH, self.block + LENGTH_OFFSET)
    }

    #[inline(always)]
    fn take<const LEN: usize>(&mut self) -> Result<[u8; LEN], Refusal> {
        let Some((field, rest)) = self.rest.split_first_chunk() else {
            return Err(self.wrong_length());
        };
        self.rest = rest;
        Ok(*field)
    }

    #[inline(always)]
    fn take_name(&mut self) -> Result<(), Refusal> {
        let place = self.place();
        let badly_closed = Refusal::at(number::BADLY_CLOSED, place);
        let count = u16::from_be_bytes(self.take()?);
        if count == 0 {
            return Err(badly_closed);
        }
        let Some((body, rest)) = self.rest.split_at_checked(UNIT_LEN * usize::from(count)) else {
            return Err(self.wrong_length());
        };
        if !is_closed(body) {
            return Err(badly_closed);
        }
        self.rest = rest;
        Ok(())
    }

    #[inline(always)]
    fn judge_end(&self) -> Result<(), Refusal> {
        if self.rest.is_empty() {
            Ok(())
        } else {
            Err(self.wrong_length())
        }
    }
}

#[inline(always)]
pub(super) fn judge_colour(mut content: Content) -> Result<(), Refusal> {
    content.take_name()?;
    let place = content.place();
    let model = u32::from_be_bytes(content.take()?);
    let Some(channels) = channel_count(model) else {
        return Err(Refusal::at(number::UNKNOWN_MODEL, place));
    };
    for _ in 0..channels {
        let place = content.place();
        if !is_in_range(model, u32::from_be_bytes(content.take()?)) {
            return Err(Refusal::at(number::OUT_OF_RANGE, place));
        }
    }
    let place = content.place();
    if !is_stated(u16::from_be_bytes(content.take()?).into()) {
        return Err(Refusal::at(number::OUT_OF_RANGE, place));
    }
    content.judge_end()
}

/// Whether a file can state the ink: global, spot or normal.
#[inline(always)]
pub(super) fn is_stated(ink: u32) -> bool {
    matches!(ink, ink::GLOBAL | ink::SPOT | ink::NORMAL)
}

/// Judges a group's start where so many groups stand open.
pub(super) fn judge_group_start(mut content: Content, open: usize) -> Result<(), Refusal> {
    if open == MAX_OPEN {
        return Err(Refusal::at(number::TOO_DEEP, content.block));
    }
    content.take_name()?;
    content.judge_end()
}

pub(super) fn judge_group_end(content: Content, open: usize) -> Result<(), Refusal> {
    content.judge_end()?;
    if open == 0 {
        return Err(Refusal::at(number::UNBALANCED, content.block));
    }
    Ok(())
}

impl Record {
    #[inline(always)]
    fn row(&self) -> [u32; ROW_LEN] {
        let [a, b, c, d] = self.channels;
        // A file's places fit 32 bits, since its length does.
        [
            u32::from(self.block),
            self.name as u32,
            self.units,
            self.model,
            a,
            b,
            c,
            d,
            self.ink,
        ]
    }
}

/// Goes over the records of an accepted file, in file order.
pub(crate) struct Records<'a> {
    /// The file from the next block on.
    rest: &'a [u8],
    file_len: usize,
    left: usize,
}

impl<'a> Records<'a> {
    pub(crate) fn new(file: &'a [u8], accepted: Accepted) -> Self {
        Records::starting_at(file, HEAD_LEN, accepted.blocks)
    }

    /// So many records from a place on, whose blocks have been judged.
    pub(super) fn starting_at(file: &'a [u8], place: usize, blocks: usize) -> Self {
        Records {
            rest: &file[place..],
            file_len: file.len(),
            left: blocks,
        }
    }

    /// A field of an accepted file, which is stepped over.
    #[inline(always)]
    fn take<const LEN: usize>(&mut self) -> [u8; LEN] {
        let (field, rest) = self
            .rest
            .split_first_chunk()
            .expect("an accepted file has its fields");
        self.rest = rest;
        *field
    }

    #[inline(always)]
    fn take_number(&mut self) -> u32 {
        u32::from_be_bytes(self.take())
    }

    #[inline(always)]
    fn take_short(&mut self) -> u16 {
        u16::from_be_bytes(self.take())
    }

    #[inline(always)]
    fn take_name(&mut self, record: &mut Record) {
        let count = self.take_short();
        record.name = self.file_len - self.rest.len();
        record.units = u32::from(count) - 1;
        self.rest = &self.rest[UNIT_LEN * usize::from(count)..];
    }

    #[inline(always)]
    fn take_colour(&mut self, record: &mut Record) {
        record.model = self.take_number();
        let mut take = || self.take_number();
        record.channels = match channel_count(record.model) {
            Some(1) => [take(), 0, 0, 0],
            Some(3) => [take(), take(), take(), 0],
            _ => [take(), take(), take(), take()],
        };
        record.ink = self.take_short().into();
    }
}

impl Iterator for Records<'_> {
    type Item = Record;

    #[inline(always)]
    fn next(&mut self) -> Option<Record> {
        self.left = self.left.checked_sub(1)?;
        let mut record = Record {
            block: self.take_short(),
            ..Record::default()
        };
        // The length says nothing that the content does not.
        self.take_number();
        if record.block != GROUP_END {
            self.take_name(&mut record);
        }
        if record.block == COLOUR {
            self.take_colour(&mut record);
        }
        Some(record)
    }
}
