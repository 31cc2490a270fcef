//! An ACO file that comes in chunks, cut anywhere.
//!
//! What is due next is known at any time: a field, a whole colour, or the units of a
//! name. Its bytes wait in the stream until all have come; then it is judged. At the
//! end whatever is still due is missing, or is what a file may end before.

use crate::colour::{
    is_sound, judge_colour, COLOUR_LEN, FIELD_LEN, MAX_COLOURS, NAME_COUNT_LEN, VERSION_ONE,
    VERSION_TWO,
};
use crate::name::{bytes_of, holds_zero_unit, is_closed, UNIT_LEN};
use crate::reader::{first_difference, Accepted, COUNT_FIELD};
use crate::refusal::{number, Refusal};
use crate::LIMIT;

/// The bytes of a store: ten for each of the most colours.
pub const STORE_LEN: usize = COLOUR_LEN * MAX_COLOURS;

/// What the file has next. Colours and names are counted from 0.
#[derive(Clone, Copy, Debug, PartialEq, Eq)]
enum Due {
    VersionOne,
    CountOne,
    Colour(usize),
    VersionTwo,
    CountTwo,
    Twin(usize),
    NameCount(usize),
    Units(Units),
    /// Behind list 2 there is nothing.
    End,
    /// The first fault was found; all that comes is only counted.
    Fault(Refusal),
}

/// How much of a name has come.
#[derive(Clone, Copy, Debug, PartialEq, Eq)]
struct Units {
    name: usize,
    /// The bytes of all its units, and those that have not come.
    len: u64,
    left: u64,
    /// Whether a unit before the last was zero.
    zero: bool,
}

/// What is kept between two chunks.
#[derive(Clone, Copy, Debug, PartialEq, Eq)]
pub struct Stream {
    total: u64,
    due: Due,
    /// Where what is due begins.
    place: usize,
    /// What has come of it; of units, of one that was cut.
    kept: [u8; COLOUR_LEN],
    kept_len: usize,
    colours: usize,
    ended: bool,
}

/// What start and feed answer: 0 or a number, and the stream for the next call.
#[derive(Clone, Copy, Debug, PartialEq, Eq)]
pub struct Fed {
    pub number: u32,
    pub stream: Stream,
}

/// The end's answer, and the stream that has ended.
#[derive(Clone, Copy, Debug, PartialEq, Eq)]
pub struct Finished {
    pub answer: Result<Accepted, Refusal>,
    pub stream: Stream,
}

/// The stream before the first chunk; one that has ended where the store is short.
pub fn start(store: &[u8]) -> Fed {
    let short = store.len() < STORE_LEN;
    let stream = Stream {
        total: 0,
        due: Due::VersionOne,
        place: 0,
        kept: [0; COLOUR_LEN],
        kept_len: 0,
        colours: 0,
        ended: short,
    };
    Fed {
        number: if short { number::NO_ROOM } else { 0 },
        stream,
    }
}

/// Takes a chunk.
pub fn feed(mut stream: Stream, store: &mut [u8], chunk: &[u8]) -> Fed {
    if let Err(number) = stream.judge_call(store) {
        return Fed { number, stream };
    }
    stream.total += chunk.len() as u64;
    let mut rest = chunk;
    while !rest.is_empty() {
        rest = stream.take(store, rest);
    }
    Fed { number: 0, stream }
}

/// The end of the file.
pub fn finish(mut stream: Stream, store: &[u8]) -> Finished {
    if let Err(number) = stream.judge_call(store) {
        let answer = Err(Refusal::of_call(number));
        return Finished { answer, stream };
    }
    let answer = stream.answer(store);
    stream.ended = true;
    Finished { answer, stream }
}

impl Due {
    /// The bytes of a field or colour; units are counted apart.
    fn len(self) -> usize {
        match self {
            Due::Colour(_) | Due::Twin(_) => COLOUR_LEN,
            Due::NameCount(_) => NAME_COUNT_LEN,
            _ => FIELD_LEN,
        }
    }
}

impl Stream {
    /// A stream that has ended is refused before a store that is short.
    fn judge_call(&self, store: &[u8]) -> Result<(), u32> {
        if self.ended {
            return Err(number::OUT_OF_RANGE);
        }
        if store.len() < STORE_LEN {
            return Err(number::NO_ROOM);
        }
        Ok(())
    }

    fn answer(&self, store: &[u8]) -> Result<Accepted, Refusal> {
        if self.total > LIMIT as u64 {
            return Err(Refusal::of_call(number::TOO_LONG));
        }
        let accepted = |lists| {
            Ok(Accepted {
                colours: self.colours,
                lists,
            })
        };
        let kept = &self.kept[..self.kept_len];
        match self.due {
            Due::Fault(refusal) => Err(refusal),
            Due::End => accepted(2),
            Due::VersionTwo if kept.is_empty() => accepted(1),
            // What there is of a colour is judged, and then it is cut.
            Due::Colour(_) => Err(self.colour_fault(kept)),
            Due::Twin(index) => Err(first_difference(
                stored(store, index),
                kept,
                self.place,
                index,
            )),
            _ => Err(Refusal::at(number::CUT, self.place)),
        }
    }

    /// Takes what is due, or what has come of it, and gives what is left of a chunk.
    fn take<'a>(&mut self, store: &mut [u8], chunk: &'a [u8]) -> &'a [u8] {
        match self.due {
            Due::Fault(_) => &[],
            Due::End => {
                self.due = Due::Fault(Refusal::at(number::LEFT_OVER, self.place));
                &[]
            }
            Due::Units(units) => self.take_units(units, chunk),
            Due::Colour(index) if self.kept_len == 0 => {
                let rest = self.take_colours(index, store, chunk);
                self.take_field_unless(rest, store, chunk)
            }
            Due::Twin(index) if self.kept_len == 0 => {
                let rest = self.take_records(index, store, chunk);
                self.take_field_unless(rest, store, chunk)
            }
            _ => self.take_field(store, chunk),
        }
    }

    /// What taking at once left of a chunk; where it took nothing, a field is taken.
    fn take_field_unless<'a>(
        &mut self,
        rest: &'a [u8],
        store: &mut [u8],
        chunk: &'a [u8],
    ) -> &'a [u8] {
        if rest.len() < chunk.len() {
            return rest;
        }
        self.take_field(store, chunk)
    }

    /// The colours at the chunk's start that are whole and sound, all at once.
    fn take_colours<'a>(&mut self, index: usize, store: &mut [u8], chunk: &'a [u8]) -> &'a [u8] {
        let (whole, _) = chunk.as_chunks::<COLOUR_LEN>();
        let due = &whole[..whole.len().min(self.colours - index)];
        let sound = due.iter().take_while(|colour| is_sound(colour)).count();
        let (taken, rest) = chunk.split_at(sound * COLOUR_LEN);
        store[index * COLOUR_LEN..][..taken.len()].copy_from_slice(taken);
        self.place += taken.len();
        self.due = self.colour_or_list_two(index + sound);
        rest
    }

    /// The records of list 2 at the chunk's start that are whole and sound, all at once.
    fn take_records<'a>(&mut self, index: usize, store: &[u8], chunk: &'a [u8]) -> &'a [u8] {
        let (colours, _) = store[..self.colours * COLOUR_LEN].as_chunks();
        let mut rest = chunk;
        let mut next = index;
        for colour in &colours[index..] {
            let Some(behind) = behind_record(colour, rest) else {
                break;
            };
            rest = behind;
            next += 1;
        }
        self.place += chunk.len() - rest.len();
        self.due = self.twin_or_end(next);
        rest
    }

    /// A field or a colour, or a part of it.
    fn take_field<'a>(&mut self, store: &mut [u8], chunk: &'a [u8]) -> &'a [u8] {
        let len = self.due.len();
        let (taken, rest) = chunk.split_at(chunk.len().min(len - self.kept_len));
        self.kept[self.kept_len..][..taken.len()].copy_from_slice(taken);
        self.kept_len += taken.len();
        if self.kept_len == len {
            self.due = self.judge_field(store).unwrap_or_else(Due::Fault);
            self.place += len;
            self.kept_len = 0;
        }
        rest
    }

    /// Judges what is due, all of which has come; gives what is due behind it.
    fn judge_field(&mut self, store: &mut [u8]) -> Result<Due, Refusal> {
        let refused = |number| Err(Refusal::at(number, self.place));
        let short = u16::from_be_bytes([self.kept[0], self.kept[1]]);
        match self.due {
            Due::VersionOne if short != VERSION_ONE => refused(number::WRONG_VERSION),
            Due::VersionOne => Ok(Due::CountOne),
            Due::CountOne if usize::from(short) > MAX_COLOURS => refused(number::OUT_OF_RANGE),
            Due::CountOne => {
                self.colours = usize::from(short);
                Ok(self.colour_or_list_two(0))
            }
            Due::Colour(_) if !is_sound(&self.kept) => Err(self.colour_fault(&self.kept)),
            Due::Colour(index) => {
                store[index * COLOUR_LEN..][..COLOUR_LEN].copy_from_slice(&self.kept);
                Ok(self.colour_or_list_two(index + 1))
            }
            Due::VersionTwo if short != VERSION_TWO => refused(number::WRONG_VERSION),
            Due::VersionTwo => Ok(Due::CountTwo),
            Due::CountTwo if usize::from(short) != self.colours => {
                Err(Refusal::disagreement(self.place, 0, COUNT_FIELD))
            }
            Due::CountTwo => Ok(self.twin_or_end(0)),
            Due::Twin(index) if stored(store, index) != &self.kept => Err(first_difference(
                stored(store, index),
                &self.kept,
                self.place,
                index,
            )),
            Due::Twin(index) => Ok(Due::NameCount(index)),
            Due::NameCount(name) => {
                let [a, b, c, d, ..] = self.kept;
                match bytes_of(u32::from_be_bytes([a, b, c, d])) {
                    0 => refused(number::BADLY_CLOSED),
                    len => Ok(Due::Units(Units {
                        name,
                        len,
                        left: len,
                        zero: false,
                    })),
                }
            }
            Due::Units(_) | Due::End | Due::Fault(_) => unreachable!("these are no fields"),
        }
    }

    /// Units of a name, or a part of one. A name is judged once all of it has come.
    fn take_units<'a>(&mut self, mut units: Units, chunk: &'a [u8]) -> &'a [u8] {
        let len = units.left.min(chunk.len() as u64);
        let (taken, rest) = chunk.split_at(len as usize);
        units.left -= len;
        let mut whole = taken;
        let mut closing = [1; UNIT_LEN];
        // The half that waits makes a unit with the first byte.
        if self.kept_len == 1 {
            let unit = [self.kept[0], taken[0]];
            whole = &taken[1..];
            if whole.is_empty() && units.left == 0 {
                closing = unit;
            } else {
                units.zero |= unit == [0; UNIT_LEN];
            }
        }
        let (whole, half) = whole.split_at(whole.len() / UNIT_LEN * UNIT_LEN);
        match whole.split_last_chunk() {
            Some((before, last)) if units.left == 0 => {
                units.zero |= holds_zero_unit(before);
                closing = *last;
            }
            _ => units.zero |= holds_zero_unit(whole),
        }
        self.kept_len = half.len();
        self.kept[..half.len()].copy_from_slice(half);
        if units.left > 0 {
            self.due = Due::Units(units);
        } else {
            self.close_name(units, closing);
        }
        rest
    }

    fn close_name(&mut self, units: Units, closing: [u8; UNIT_LEN]) {
        self.due = if units.zero || closing != [0; UNIT_LEN] {
            let count = self.place - NAME_COUNT_LEN;
            Due::Fault(Refusal::at(number::BADLY_CLOSED, count))
        } else {
            self.twin_or_end(units.name + 1)
        };
        self.place += units.len as usize;
    }

    fn colour_fault(&self, bytes: &[u8]) -> Refusal {
        match judge_colour(bytes) {
            Err(fault) => Refusal::at(fault.number, self.place + fault.offset),
            Ok(()) => unreachable!("called for a colour that is cut or not sound"),
        }
    }

    fn colour_or_list_two(&self, index: usize) -> Due {
        if index < self.colours {
            Due::Colour(index)
        } else {
            Due::VersionTwo
        }
    }

    fn twin_or_end(&self, index: usize) -> Due {
        if index < self.colours {
            Due::Twin(index)
        } else {
            Due::End
        }
    }
}

/// What is behind a record of list 2, where all of it is there and nothing is wrong.
#[inline(always)]
fn behind_record<'a>(colour: &[u8; COLOUR_LEN], bytes: &'a [u8]) -> Option<&'a [u8]> {
    let (twin, bytes) = bytes.split_first_chunk()?;
    let (count, bytes) = bytes.split_first_chunk()?;
    let len = bytes_of(u32::from_be_bytes(*count));
    if twin != colour || len == 0 || len > bytes.len() as u64 {
        return None;
    }
    let (body, behind) = bytes.split_at(len as usize);
    is_closed(body).then_some(behind)
}

/// A colour of list 1 as the store has it.
fn stored(store: &[u8], index: usize) -> &[u8; COLOUR_LEN] {
    let (colours, _) = store.as_chunks();
    &colours[index]
}
