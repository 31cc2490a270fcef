//! Objects of JSON, written as they are made.

use std::fmt::Display;
use std::io::{self, Write};

/// An object, of which some pairs are written.
pub struct Object<'a> {
    out: &'a mut dyn Write,
    some: bool,
}

/// An array, of which some elements are written.
pub struct Array<'a> {
    out: &'a mut dyn Write,
    some: bool,
}

impl<'a> Object<'a> {
    pub fn begin(out: &'a mut dyn Write) -> io::Result<Self> {
        out.write_all(b"{")?;
        Ok(Object { out, some: false })
    }

    fn key(&mut self, key: &str) -> io::Result<()> {
        if self.some {
            self.out.write_all(b",")?;
        }
        self.some = true;
        string(self.out, key)?;
        self.out.write_all(b":")
    }

    pub fn text(&mut self, key: &str, text: &str) -> io::Result<()> {
        self.key(key)?;
        string(self.out, text)
    }

    /// A number, `true`, `false` or `null`, which are shown as JSON has them.
    pub fn plain(&mut self, key: &str, value: impl Display) -> io::Result<()> {
        self.key(key)?;
        write!(self.out, "{value}")
    }

    pub fn object(&mut self, key: &str) -> io::Result<Object<'_>> {
        self.key(key)?;
        Object::begin(self.out)
    }

    pub fn array(&mut self, key: &str) -> io::Result<Array<'_>> {
        self.key(key)?;
        Array::begin(self.out)
    }

    /// An array of numbers.
    pub fn numbers(
        &mut self,
        key: &str,
        values: impl Iterator<Item = impl Display>,
    ) -> io::Result<()> {
        let mut array = self.array(key)?;
        for value in values {
            array.plain(value)?;
        }
        array.end()
    }

    pub fn end(self) -> io::Result<()> {
        self.out.write_all(b"}")
    }
}

impl<'a> Array<'a> {
    fn begin(out: &'a mut dyn Write) -> io::Result<Self> {
        out.write_all(b"[")?;
        Ok(Array { out, some: false })
    }

    fn next(&mut self) -> io::Result<()> {
        if self.some {
            self.out.write_all(b",")?;
        }
        self.some = true;
        Ok(())
    }

    pub fn plain(&mut self, value: impl Display) -> io::Result<()> {
        self.next()?;
        write!(self.out, "{value}")
    }

    pub fn text(&mut self, text: &str) -> io::Result<()> {
        self.next()?;
        string(self.out, text)
    }

    pub fn object(&mut self) -> io::Result<Object<'_>> {
        self.next()?;
        Object::begin(self.out)
    }

    pub fn end(self) -> io::Result<()> {
        self.out.write_all(b"]")
    }
}

/// A string: quotes, backslashes and control characters are escaped, and so are the
/// characters that end a line elsewhere.
fn string(out: &mut dyn Write, text: &str) -> io::Result<()> {
    out.write_all(b"\"")?;
    for c in text.chars() {
        match c {
            '"' | '\\' => write!(out, "\\{c}")?,
            '\u{0}'..='\u{1F}' | '\u{7F}'..='\u{9F}' | '\u{2028}' | '\u{2029}' => {
                write!(out, "\\u{:04x}", u32::from(c))?
            }
            _ => write!(out, "{c}")?,
        }
    }
    out.write_all(b"\"")
}
