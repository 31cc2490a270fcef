//! Where the resource section of a whole Photoshop document lies.

use crate::refusal::{number, Refusal};
use crate::LIMIT;

pub(super) const SIGNATURE: [u8; 4] = *b"8BPS";
const VERSION: u16 = 1;
const RESERVED: [u8; 6] = [0; 6];

/// A section by its first byte in the document and its length.
#[derive(Clone, Copy, Debug, PartialEq, Eq)]
pub struct Section {
    pub first: usize,
    pub length: usize,
}

/// Judges a document up to its section's end, and says where the section lies.
/// What follows it need not be there, and is not looked at.
pub fn section_of(document: &[u8]) -> Result<Section, Refusal> {
    let mut fields = Fields { document, place: 0 };
    fields.judge(SIGNATURE, number::WRONG_SIGNATURE)?;
    fields.judge(VERSION.to_be_bytes(), number::WRONG_VERSION)?;
    fields.judge(RESERVED, number::OUT_OF_RANGE)?;
    fields.pass_picture()?;
    let colour_data = fields.take_number()?;
    fields.pass_run(colour_data)?;
    let length = fields.take_number()?;
    if length as usize > LIMIT {
        return Err(Refusal::of_call(number::TOO_LONG));
    }
    let first = fields.place;
    fields.pass_run(length)?;
    Ok(Section {
        first,
        length: length as usize,
    })
}

/// A document and the place of its next field. A document may be longer than a
/// file, and its places past 32 bits.
struct Fields<'a> {
    document: &'a [u8],
    place: usize,
}

impl<'a> Fields<'a> {
    fn rest(&self) -> &'a [u8] {
        &self.document[self.place..]
    }

    fn cut(&self) -> Refusal {
        Refusal::at(number::CUT, self.place)
    }

    fn take<const LEN: usize>(&mut self) -> Result<[u8; LEN], Refusal> {
        let field = *self.rest().first_chunk().ok_or_else(|| self.cut())?;
        self.place += LEN;
        Ok(field)
    }

    fn take_number(&mut self) -> Result<u32, Refusal> {
        self.take().map(u32::from_be_bytes)
    }

    /// A field that has to be this one, else it is refused with that number.
    fn judge<const LEN: usize>(&mut self, right: [u8; LEN], number: u32) -> Result<(), Refusal> {
        let place = self.place;
        if self.take()? != right {
            return Err(Refusal::at(number, place));
        }
        Ok(())
    }

    /// The channels, the height and width, the depth and the mode: any numbers.
    fn pass_picture(&mut self) -> Result<(), Refusal> {
        self.take::<2>()?;
        self.take::<4>()?;
        self.take::<4>()?;
        self.take::<2>()?;
        self.take::<2>()?;
        Ok(())
    }

    fn pass_run(&mut self, len: u32) -> Result<(), Refusal> {
        let len = len as usize;
        if len > self.rest().len() {
            return Err(self.cut());
        }
        self.place += len;
        Ok(())
    }
}
