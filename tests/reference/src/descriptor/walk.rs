//! Going over a descriptor, with every fault judged in its turn.
//!
//! A list's items, an object's pairs and the like are gone over in loops; only
//! what is nested calls itself again, so that the stack is bounded by nesting.

use super::layout::{
    form, is_array_unit, is_unit, item, CHARACTERS, DOUBLE_LEN, MAX_DEPTH, UNIT_DOUBLES, VERSION,
    VERSION_LEN,
};
use super::rows::{Head, Rows};
use crate::cursor::Cursor;
use crate::name::UNIT_LEN;
use crate::refusal::{number, Fault, Refusal};
use crate::LIMIT;

type Judged = Result<(), Fault>;

/// Judges a whole file, and hands its rows on.
pub fn walk<R: Rows>(file: &[u8], rows: &mut R) -> Result<(), Refusal> {
    if file.len() > LIMIT {
        return Err(Refusal::of_call(number::TOO_LONG));
    }
    let mut walk = Walk {
        cursor: Cursor::new(file),
        rows,
    };
    walk.root()?;
    Ok(walk.cursor.judge_end()?)
}

struct Walk<'a, R> {
    cursor: Cursor<'a>,
    rows: &'a mut R,
}

impl<R: Rows> Walk<'_, R> {
    fn root(&mut self) -> Judged {
        if self.cursor.take_u32()? != VERSION {
            return Err(Fault::at(number::WRONG_VERSION, 0));
        }
        let row = self.rows.open(Head {
            kind: item::OBJECT,
            first: 0,
            value: VERSION_LEN,
            depth: 0,
        });
        self.object(1)?;
        self.rows.close(row, 0, self.cursor.place());
        Ok(())
    }

    // Below, `depth` is that of the children.

    fn object(&mut self, depth: u32) -> Judged {
        self.class()?;
        let pairs = self.cursor.take_u32()?;
        for _ in 0..pairs {
            let first = self.child(depth)?;
            self.id()?;
            self.item(first, depth)?;
        }
        Ok(())
    }

    fn list(&mut self, depth: u32) -> Judged {
        let items = self.cursor.take_u32()?;
        for _ in 0..items {
            let first = self.child(depth)?;
            self.item(first, depth)?;
        }
        Ok(())
    }

    /// Where a child begins, if it may stand so deep. A count far too large is
    /// found out at the first child that is not there.
    #[inline(always)]
    fn child(&self, depth: u32) -> Result<usize, Fault> {
        let first = self.cursor.place();
        if depth > MAX_DEPTH {
            return Err(Fault::at(number::TOO_DEEP, first));
        }
        Ok(first)
    }

    /// Tells of a child whose type or form was read just now.
    #[inline(always)]
    fn open(&mut self, kind: u32, first: usize, depth: u32) -> u32 {
        self.rows.open(Head {
            kind,
            first,
            value: self.cursor.place(),
            depth,
        })
    }

    /// An item, whose row began at `first` with a key or with the item itself.
    #[inline(always)]
    fn item(&mut self, first: usize, depth: u32) -> Judged {
        let place = self.cursor.place();
        let kind = self.cursor.take_u32()?;
        let row = self.open(kind, first, depth);
        match kind {
            item::BOOL => self.boolean()?,
            item::LONG => self.skip::<4>()?,
            item::LARGE => self.skip::<8>()?,
            item::DOUBLE => self.double()?,
            item::UNIT_DOUBLE => self.unit_double()?,
            item::TEXT => self.unicode()?,
            item::ENUMERATED => self.enumerated()?,
            item::TYPE | item::GLOBAL_CLASS => self.class()?,
            item::ALIAS | item::PATH | item::RAW => self.counted_bytes()?,
            item::LIST => self.list(depth + 1)?,
            item::OBJECT | item::GLOBAL_OBJECT => self.object(depth + 1)?,
            item::REFERENCE => self.reference(depth + 1)?,
            item::OBJECT_ARRAY => self.object_array(depth + 1)?,
            _ => return Err(Fault::at(number::UNKNOWN_TYPE, place)),
        }
        self.rows.close(row, first, self.cursor.place());
        Ok(())
    }

    fn reference(&mut self, depth: u32) -> Judged {
        let items = self.cursor.take_u32()?;
        for _ in 0..items {
            let first = self.child(depth)?;
            self.reference_item(first, depth)?;
        }
        Ok(())
    }

    /// The form is known or not before the class is looked for.
    #[inline(always)]
    fn reference_item(&mut self, first: usize, depth: u32) -> Judged {
        let kind = self.cursor.take_u32()?;
        let row = self.open(kind, first, depth);
        match kind {
            form::CLASS => self.class()?,
            form::ENUMERATED => {
                self.class()?;
                self.enumerated()?;
            }
            form::IDENTIFIER | form::INDEX | form::OFFSET => {
                self.class()?;
                self.skip::<4>()?;
            }
            form::NAME => {
                self.class()?;
                self.unicode()?;
            }
            form::PROPERTY => {
                self.class()?;
                self.id()?;
            }
            _ => return Err(Fault::at(number::UNKNOWN_FORM, first)),
        }
        self.rows.close(row, first, self.cursor.place());
        Ok(())
    }

    fn object_array(&mut self, depth: u32) -> Judged {
        let objects = self.cursor.take_u32()?;
        self.class()?;
        let pairs = self.cursor.take_u32()?;
        for _ in 0..pairs {
            let first = self.child(depth)?;
            self.id()?;
            self.array_pair(first, depth, objects)?;
        }
        Ok(())
    }

    /// What follows the key of an object array's pair.
    #[inline(always)]
    fn array_pair(&mut self, first: usize, depth: u32, objects: u32) -> Judged {
        let place = self.cursor.place();
        if self.cursor.take_u32()? != UNIT_DOUBLES {
            return Err(Fault::at(number::UNKNOWN_TYPE, place));
        }
        let row = self.open(UNIT_DOUBLES, first, depth);
        self.unit(is_array_unit)?;
        let place = self.cursor.place();
        if self.cursor.take_u32()? != objects {
            return Err(Fault::at(number::OUT_OF_RANGE, place));
        }
        for _ in 0..objects {
            self.double()?;
        }
        self.rows.close(row, first, self.cursor.place());
        Ok(())
    }

    #[inline(always)]
    fn skip<const LEN: usize>(&mut self) -> Judged {
        self.cursor.take::<LEN>().map(|_| ())
    }

    #[inline(always)]
    fn boolean(&mut self) -> Judged {
        let place = self.cursor.place();
        let [byte] = self.cursor.take()?;
        if byte > 1 {
            return Err(Fault::at(number::OUT_OF_RANGE, place));
        }
        Ok(())
    }

    #[inline(always)]
    fn double(&mut self) -> Judged {
        let place = self.cursor.place();
        let bytes = self.cursor.take::<DOUBLE_LEN>()?;
        if !f64::from_be_bytes(bytes).is_finite() {
            return Err(Fault::at(number::OUT_OF_RANGE, place));
        }
        Ok(())
    }

    #[inline(always)]
    fn unit_double(&mut self) -> Judged {
        self.unit(is_unit)?;
        self.double()
    }

    #[inline(always)]
    fn unit(&mut self, is_known: impl Fn(u32) -> bool) -> Judged {
        let place = self.cursor.place();
        if !is_known(self.cursor.take_u32()?) {
            return Err(Fault::at(number::UNKNOWN_UNIT, place));
        }
        Ok(())
    }

    #[inline(always)]
    fn enumerated(&mut self) -> Judged {
        self.id()?;
        self.id()
    }

    #[inline(always)]
    fn class(&mut self) -> Judged {
        self.unicode()?;
        self.id()
    }

    #[inline(always)]
    fn id(&mut self) -> Judged {
        let len = match self.cursor.take_u32()? {
            0 => CHARACTERS,
            len => len,
        };
        self.cursor.take_run(u64::from(len)).map(|_| ())
    }

    #[inline(always)]
    fn counted_bytes(&mut self) -> Judged {
        let len = self.cursor.take_u32()?;
        self.cursor.take_run(u64::from(len)).map(|_| ())
    }

    /// A string closed by a zero unit, or of no units at all.
    #[inline(always)]
    fn unicode(&mut self) -> Judged {
        let place = self.cursor.place();
        let count = self.cursor.take_u32()?;
        let units = self.cursor.take_units(count)?;
        match units.last_chunk::<UNIT_LEN>() {
            None | Some([0, 0]) => Ok(()),
            Some(_) => Err(Fault::at(number::BADLY_CLOSED, place)),
        }
    }
}
