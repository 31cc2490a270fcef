//! Writing a descriptor from entries.

use super::entry::{member, root, Entry, Fields, Part, Wanted, ENTRY_LEN};
use super::layout::{CHARACTERS, DOUBLE_LEN, MAX_DEPTH};
use crate::name::{bytes_of, UNIT_LEN};
use crate::output::put;
use crate::refusal::{number, Refusal};
use crate::LIMIT;

type Judged = Result<(), u32>;

const WORD_LEN: u64 = 4;

/// The exact length of the output, or the refusal `build` would give, room aside.
pub fn build_length(entries: &[u32], text: &[u8]) -> Result<usize, Refusal> {
    let (entries, _) = entries.as_chunks::<ENTRY_LEN>();
    let mut measure = Measure(0);
    // What else is wrong ends the counting, and is told afterwards.
    if go_over(entries, &mut measure) == Err(number::TOO_LONG) {
        return Err(Refusal::of_call(number::TOO_LONG));
    }
    go_over(entries, &mut Judge { text }).map_err(Refusal::of_call)?;
    Ok(measure.0 as usize)
}

/// Writes the root and its members, whose parts lie in `text`. A remainder too
/// short for an entry is left alone. Nothing of `out` changes on a refusal, nor
/// past the length that is given back.
pub fn build(entries: &[u32], text: &[u8], out: &mut [u8]) -> Result<usize, Refusal> {
    let need = build_length(entries, text)?;
    let rest = out
        .get_mut(..need)
        .ok_or(Refusal::of_call(number::NO_ROOM))?;
    let (entries, _) = entries.as_chunks::<ENTRY_LEN>();
    go_over(entries, &mut Put { text, rest }).map_err(Refusal::of_call)?;
    Ok(need)
}

/// Goes over the entries in file order: each belongs to the innermost container
/// that still wants members.
fn go_over<F: Fields>(entries: &[Entry], fields: &mut F) -> Judged {
    let (first, mut rest) = entries.split_first().ok_or(number::CUT)?;
    // The containers that want members still, each in the one before it.
    let mut open = Vec::with_capacity(MAX_DEPTH as usize + 1);
    open_container(&mut open, 0, root(first, fields)?);
    while let Some((depth, wanted)) = open.last_mut() {
        let depth = *depth + 1;
        if depth > MAX_DEPTH {
            return Err(number::TOO_DEEP);
        }
        let (entry, behind) = rest.split_first().ok_or(number::CUT)?;
        rest = behind;
        let sort = wanted.members;
        wanted.count -= 1;
        if wanted.count == 0 {
            open.pop();
        }
        if let Some(wanted) = member(entry, sort, fields)? {
            open_container(&mut open, depth, wanted);
        }
    }
    if rest.is_empty() {
        Ok(())
    } else {
        Err(number::LEFT_OVER)
    }
}

/// A container at that depth, which is not open where it wants nothing.
#[inline(always)]
fn open_container(open: &mut Vec<(u32, Wanted)>, depth: u32, wanted: Wanted) {
    if wanted.count > 0 {
        open.push((depth, wanted));
    }
}

/// The bytes of an ID that has this length field.
#[inline(always)]
fn id_len(length: u32) -> u32 {
    match length {
        0 => CHARACTERS,
        length => length,
    }
}

/// The bytes from a place on, where the text holds them all. None at all are in
/// any text, whatever their place.
#[inline(always)]
fn lying(text: &[u8], place: u64, len: u64) -> Result<&[u8], u32> {
    if len == 0 {
        return Ok(&[]);
    }
    if place + len > text.len() as u64 {
        return Err(number::CUT);
    }
    Ok(&text[place as usize..(place + len) as usize])
}

#[inline(always)]
fn judge_double(bits: u64) -> Judged {
    if f64::from_bits(bits).is_finite() {
        Ok(())
    } else {
        Err(number::OUT_OF_RANGE)
    }
}

/// The bytes so far; it leaves off at the first entry over the limit, so that no
/// sum comes near what 64 bits hold.
struct Measure(u64);

impl Measure {
    #[inline(always)]
    fn add(&mut self, len: u64) -> Judged {
        self.0 += len;
        if self.0 > LIMIT as u64 {
            return Err(number::TOO_LONG);
        }
        Ok(())
    }
}

impl Fields for Measure {
    #[inline(always)]
    fn word(&mut self, _: u32) -> Judged {
        self.add(WORD_LEN)
    }

    #[inline(always)]
    fn id(&mut self, part: Part) -> Judged {
        self.add(WORD_LEN + u64::from(id_len(part.length)))
    }

    #[inline(always)]
    fn string(&mut self, part: Part) -> Judged {
        self.add(WORD_LEN + bytes_of(part.length))
    }

    #[inline(always)]
    fn bytes(&mut self, part: Part) -> Judged {
        self.add(WORD_LEN + u64::from(part.length))
    }

    #[inline(always)]
    fn boolean(&mut self, _: u32) -> Judged {
        self.add(1)
    }

    #[inline(always)]
    fn large(&mut self, _: u64) -> Judged {
        self.add(8)
    }

    #[inline(always)]
    fn double(&mut self, _: u64) -> Judged {
        self.add(DOUBLE_LEN as u64)
    }

    #[inline(always)]
    fn unit(&mut self, _: u32, _: bool) -> Judged {
        self.add(WORD_LEN)
    }

    #[inline(always)]
    fn doubles(&mut self, part: Part, _: u32) -> Judged {
        self.add(WORD_LEN + DOUBLE_LEN as u64 * u64::from(part.length))
    }

    /// It counts as its key and its four characters alone.
    #[inline(always)]
    fn misplaced(&mut self) -> Judged {
        Ok(())
    }
}

/// Judges the fields as the reader would judge the bytes made from them.
struct Judge<'a> {
    text: &'a [u8],
}

impl Judge<'_> {
    #[inline(always)]
    fn run(&self, part: Part, len: u64) -> Result<&[u8], u32> {
        lying(self.text, u64::from(part.place), len)
    }
}

impl Fields for Judge<'_> {
    #[inline(always)]
    fn word(&mut self, _: u32) -> Judged {
        Ok(())
    }

    #[inline(always)]
    fn id(&mut self, part: Part) -> Judged {
        self.run(part, u64::from(id_len(part.length))).map(|_| ())
    }

    #[inline(always)]
    fn string(&mut self, part: Part) -> Judged {
        let units = self.run(part, bytes_of(part.length))?;
        match units.last_chunk::<UNIT_LEN>() {
            None | Some([0, 0]) => Ok(()),
            Some(_) => Err(number::BADLY_CLOSED),
        }
    }

    #[inline(always)]
    fn bytes(&mut self, part: Part) -> Judged {
        self.run(part, u64::from(part.length)).map(|_| ())
    }

    #[inline(always)]
    fn boolean(&mut self, value: u32) -> Judged {
        if value > 1 {
            return Err(number::OUT_OF_RANGE);
        }
        Ok(())
    }

    #[inline(always)]
    fn large(&mut self, _: u64) -> Judged {
        Ok(())
    }

    #[inline(always)]
    fn double(&mut self, bits: u64) -> Judged {
        judge_double(bits)
    }

    #[inline(always)]
    fn unit(&mut self, _: u32, known: bool) -> Judged {
        if known {
            Ok(())
        } else {
            Err(number::UNKNOWN_UNIT)
        }
    }

    /// Each double is a field, so that one that is there is judged before the
    /// next is looked for.
    #[inline(always)]
    fn doubles(&mut self, part: Part, objects: u32) -> Judged {
        if part.length != objects {
            return Err(number::OUT_OF_RANGE);
        }
        let mut place = u64::from(part.place);
        for _ in 0..part.length {
            let double = lying(self.text, place, DOUBLE_LEN as u64)?;
            let bytes = *double.first_chunk().expect("a double's bytes");
            judge_double(u64::from_be_bytes(bytes))?;
            place += DOUBLE_LEN as u64;
        }
        Ok(())
    }

    #[inline(always)]
    fn misplaced(&mut self) -> Judged {
        Err(number::UNKNOWN_TYPE)
    }
}

/// Puts the bytes of judged fields.
struct Put<'a, 'b> {
    text: &'a [u8],
    rest: &'b mut [u8],
}

impl Put<'_, '_> {
    #[inline(always)]
    fn put(&mut self, bytes: &[u8]) -> Judged {
        put(&mut self.rest, bytes);
        Ok(())
    }

    /// The length or count field, and the body.
    #[inline(always)]
    fn part(&mut self, part: Part, len: u64) -> Judged {
        self.put(&part.length.to_be_bytes())?;
        let body = lying(self.text, u64::from(part.place), len)?;
        self.put(body)
    }
}

impl Fields for Put<'_, '_> {
    #[inline(always)]
    fn word(&mut self, word: u32) -> Judged {
        self.put(&word.to_be_bytes())
    }

    #[inline(always)]
    fn id(&mut self, part: Part) -> Judged {
        self.part(part, u64::from(id_len(part.length)))
    }

    #[inline(always)]
    fn string(&mut self, part: Part) -> Judged {
        self.part(part, bytes_of(part.length))
    }

    #[inline(always)]
    fn bytes(&mut self, part: Part) -> Judged {
        self.part(part, u64::from(part.length))
    }

    #[inline(always)]
    fn boolean(&mut self, value: u32) -> Judged {
        self.put(&[value as u8])
    }

    #[inline(always)]
    fn large(&mut self, bits: u64) -> Judged {
        self.put(&bits.to_be_bytes())
    }

    #[inline(always)]
    fn double(&mut self, bits: u64) -> Judged {
        self.put(&bits.to_be_bytes())
    }

    #[inline(always)]
    fn unit(&mut self, unit: u32, _: bool) -> Judged {
        self.put(&unit.to_be_bytes())
    }

    #[inline(always)]
    fn doubles(&mut self, part: Part, _: u32) -> Judged {
        self.part(part, DOUBLE_LEN as u64 * u64::from(part.length))
    }

    #[inline(always)]
    fn misplaced(&mut self) -> Judged {
        Err(number::UNKNOWN_TYPE)
    }
}
