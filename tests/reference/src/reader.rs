//! Judging a file and handing out its records.

use crate::colour::{
    field_at, is_sound, judge_colour, COLOUR_LEN, FIELDS, FIELD_LEN, HEAD_LEN, MAX_COLOURS,
    NAME_COUNT_LEN, SAMPLES, VERSION_ONE, VERSION_TWO,
};
use crate::ink;
use crate::name::{bytes_of, is_closed, UNIT_LEN};
use crate::refusal::{number, Refusal};
use crate::{LIMIT, ROW_LEN};

/// The field number that stands for the count where the lists' counts differ.
pub(crate) const COUNT_FIELD: usize = 5;

/// What judging an accepted file says of it.
#[derive(Clone, Copy, Debug, PartialEq, Eq)]
pub struct Accepted {
    pub colours: usize,
    pub lists: usize,
}

/// A record of an accepted file. The name is where its units lie in the file;
/// in a file of one list it is at 0 and has no units. No file states an ink.
#[derive(Clone, Copy, Debug, PartialEq, Eq)]
pub struct Swatch {
    pub space: u16,
    pub samples: [u16; SAMPLES],
    pub name: usize,
    pub units: u32,
    pub ink: u32,
}

/// Judges a whole file.
pub fn judge(file: &[u8]) -> Result<Accepted, Refusal> {
    if file.len() > LIMIT {
        return Err(Refusal::of_call(number::TOO_LONG));
    }
    judge_version(file, 0, VERSION_ONE)?;
    let colours = usize::from(field_or_cut(file, FIELD_LEN)?);
    if colours > MAX_COLOURS {
        return Err(Refusal::at(number::OUT_OF_RANGE, FIELD_LEN));
    }
    judge_list_one(file, colours)?;
    if file.len() == list_one_len(colours) {
        return Ok(Accepted { colours, lists: 1 });
    }
    judge_list_two(file, colours)?;
    Ok(Accepted { colours, lists: 2 })
}

/// Judges the file, then fills a row of the table for each colour. Nothing of
/// the table changes on a refusal, nor past the rows.
pub fn read(file: &[u8], table: &mut [u32]) -> Result<Accepted, Refusal> {
    let accepted = judge(file)?;
    let rows = table
        .get_mut(..accepted.colours * ROW_LEN)
        .ok_or(Refusal::of_call(number::NO_ROOM))?;
    let (rows, _) = rows.as_chunks_mut::<ROW_LEN>();
    for (row, swatch) in rows.iter_mut().zip(Swatches::new(file, accepted)) {
        *row = swatch.row();
    }
    Ok(accepted)
}

/// Judges the file, then gives the record of that number, counted from 0.
pub fn record(file: &[u8], index: usize) -> Result<Swatch, Refusal> {
    let accepted = judge(file)?;
    Swatches::new(file, accepted)
        .nth(index)
        .ok_or(Refusal::of_call(number::NO_RECORD))
}

pub(crate) fn list_one_len(colours: usize) -> usize {
    HEAD_LEN + colours * COLOUR_LEN
}

fn field_or_cut(file: &[u8], place: usize) -> Result<u16, Refusal> {
    field_at(file, place).ok_or(Refusal::at(number::CUT, place))
}

fn judge_version(file: &[u8], place: usize, version: u16) -> Result<(), Refusal> {
    if field_or_cut(file, place)? != version {
        return Err(Refusal::at(number::WRONG_VERSION, place));
    }
    Ok(())
}

fn judge_list_one(file: &[u8], colours: usize) -> Result<(), Refusal> {
    let end = list_one_len(colours).min(file.len());
    let (whole, cut) = file[HEAD_LEN..end].as_chunks::<COLOUR_LEN>();
    if let Some(index) = whole.iter().position(|colour| !is_sound(colour)) {
        judge_colour_at(&whole[index], index)?;
    }
    if whole.len() < colours {
        judge_colour_at(cut, whole.len())?;
    }
    Ok(())
}

fn judge_colour_at(bytes: &[u8], index: usize) -> Result<(), Refusal> {
    judge_colour(bytes)
        .map_err(|fault| Refusal::at(fault.number, list_one_len(index) + fault.offset))
}

/// Judges what follows list 1, in strict file order, to the file's end.
fn judge_list_two(file: &[u8], colours: usize) -> Result<(), Refusal> {
    let start = list_one_len(colours);
    judge_version(file, start, VERSION_TWO)?;
    let count_place = start + FIELD_LEN;
    if usize::from(field_or_cut(file, count_place)?) != colours {
        return Err(Refusal::disagreement(count_place, 0, COUNT_FIELD));
    }
    let mut place = start + HEAD_LEN;
    let (list_one, _) = file[HEAD_LEN..start].as_chunks::<COLOUR_LEN>();
    for (index, colour) in list_one.iter().enumerate() {
        compare_colour(colour, file, place, index)?;
        place = judge_name(file, place + COLOUR_LEN)?;
    }
    if place < file.len() {
        return Err(Refusal::at(number::LEFT_OVER, place));
    }
    Ok(())
}

#[inline(always)]
fn compare_colour(
    colour: &[u8; COLOUR_LEN],
    file: &[u8],
    place: usize,
    index: usize,
) -> Result<(), Refusal> {
    let rest = &file[place..];
    match rest.first_chunk::<COLOUR_LEN>() {
        Some(twin) if twin == colour => Ok(()),
        _ => Err(first_difference(colour, rest, place, index)),
    }
}

/// The refusal for a list 2 colour that is cut or differs, whichever its
/// fields come to first.
#[cold]
pub(crate) fn first_difference(
    colour: &[u8; COLOUR_LEN],
    rest: &[u8],
    place: usize,
    index: usize,
) -> Refusal {
    for field in 0..FIELDS {
        let offset = field * FIELD_LEN;
        match field_at(rest, offset) {
            None => return Refusal::at(number::CUT, place + offset),
            twin if twin != field_at(colour, offset) => {
                return Refusal::disagreement(place + offset, index, field)
            }
            Some(_) => {}
        }
    }
    unreachable!("called for a colour that is cut or differs")
}

/// Judges the name whose count is at `place`, and gives the place after it.
#[inline(always)]
pub(crate) fn judge_name(file: &[u8], place: usize) -> Result<usize, Refusal> {
    let count = name_count(file, place).ok_or(Refusal::at(number::CUT, place))?;
    let badly_closed = Refusal::at(number::BADLY_CLOSED, place);
    if count == 0 {
        return Err(badly_closed);
    }
    let body = place + NAME_COUNT_LEN;
    let rest = &file[body..];
    let body_len = bytes_of(count);
    if body_len > rest.len() as u64 {
        return Err(Refusal::at(number::CUT, body));
    }
    let body_len = body_len as usize;
    if !is_closed(&rest[..body_len]) {
        return Err(badly_closed);
    }
    Ok(body + body_len)
}

#[inline(always)]
pub(crate) fn name_count(file: &[u8], place: usize) -> Option<u32> {
    let count = file.get(place..)?.first_chunk()?;
    Some(u32::from_be_bytes(*count))
}

impl Swatch {
    /// A whole colour's fields, with where its name lies.
    #[inline(always)]
    pub(crate) fn of(colour: &[u8; COLOUR_LEN], (name, units): (usize, u32)) -> Self {
        let (fields, _) = colour.as_chunks::<FIELD_LEN>();
        let field = |index: usize| u16::from_be_bytes(fields[index]);
        Swatch {
            space: field(0),
            samples: [field(1), field(2), field(3), field(4)],
            name,
            units,
            ink: ink::NOT_STATED,
        }
    }

    #[inline(always)]
    fn row(&self) -> [u32; ROW_LEN] {
        let [a, b, c, d] = self.samples.map(u32::from);
        // A file's places fit 32 bits, since its length does.
        [
            u32::from(self.space),
            a,
            b,
            c,
            d,
            self.name as u32,
            self.units,
            self.ink,
        ]
    }
}

/// Goes over the records of an accepted file, in file order.
pub(crate) struct Swatches<'a> {
    file: &'a [u8],
    list_one: std::slice::Iter<'a, [u8; COLOUR_LEN]>,
    /// Where the next record of list 2 begins, in a file that has one.
    named: Option<usize>,
}

impl<'a> Swatches<'a> {
    pub(crate) fn new(file: &'a [u8], accepted: Accepted) -> Self {
        let end = list_one_len(accepted.colours);
        let (list_one, _) = file[HEAD_LEN..end].as_chunks();
        let named = (accepted.lists == 2).then_some(end + HEAD_LEN);
        Swatches {
            file,
            list_one: list_one.iter(),
            named,
        }
    }

    /// The place and units of the next name, which is stepped over.
    #[inline(always)]
    fn next_name(&mut self) -> (usize, u32) {
        let Some(record) = self.named else {
            return (0, 0);
        };
        let count_place = record + COLOUR_LEN;
        let count = name_count(self.file, count_place).expect("an accepted file has the count");
        let name = count_place + NAME_COUNT_LEN;
        self.named = Some(name + UNIT_LEN * count as usize);
        (name, count - 1)
    }
}

impl Iterator for Swatches<'_> {
    type Item = Swatch;

    #[inline(always)]
    fn next(&mut self) -> Option<Swatch> {
        let colour = self.list_one.next()?;
        Some(Swatch::of(colour, self.next_name()))
    }
}
