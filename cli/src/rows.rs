//! In which row of a refused descriptor a place is.
//!
//! What stands before the place follows the layout, or the library would have refused
//! it there; so this goes from field to field and judges nothing.

/// The row and the keys, or numbers in lists, that lead to it from the root.
pub fn find(bytes: &[u8], place: usize) -> Option<(usize, Vec<String>)> {
    let mut walk = Walk {
        bytes,
        place,
        at: 0,
        begun: 1,
        path: Vec::new(),
    };
    match walk.file() {
        // The walk stops in the field that the place is in.
        None => Some((walk.begun - 1, walk.path)),
        Some(()) => None,
    }
}

struct Walk<'a> {
    bytes: &'a [u8],
    place: usize,
    at: usize,
    /// How many rows are begun, the root among them.
    begun: usize,
    path: Vec<String>,
}

impl<'a> Walk<'a> {
    /// So many bytes, if they end before the place.
    fn field(&mut self, length: usize) -> Option<&'a [u8]> {
        let end = self.at.checked_add(length)?;
        let field = self.bytes.get(self.at..end);
        let field = field.filter(|_| end <= self.place)?;
        self.at = end;
        Some(field)
    }

    fn number(&mut self) -> Option<usize> {
        let field = self.field(4)?.first_chunk()?;
        usize::try_from(u32::from_be_bytes(*field)).ok()
    }

    fn id(&mut self) -> Option<&'a [u8]> {
        match self.number()? {
            0 => self.field(4),
            length => self.field(length),
        }
    }

    fn string(&mut self) -> Option<&'a [u8]> {
        let count = self.number()?;
        self.field(count.checked_mul(2)?)
    }

    fn class(&mut self) -> Option<()> {
        self.string()?;
        self.id()?;
        Some(())
    }

    fn file(&mut self) -> Option<()> {
        self.field(4)?;
        self.object()
    }

    fn object(&mut self) -> Option<()> {
        self.class()?;
        self.pairs(Self::item)
    }

    fn pairs(&mut self, value: fn(&mut Self) -> Option<()>) -> Option<()> {
        for _ in 0..self.number()? {
            self.begun += 1;
            self.path.push("?".to_string());
            let key = self.id()?.trim_ascii_end().escape_ascii().to_string();
            *self.path.last_mut()? = key;
            value(self)?;
            self.path.pop();
        }
        Some(())
    }

    fn items(&mut self, item: fn(&mut Self) -> Option<()>) -> Option<()> {
        for index in 0..self.number()? {
            self.begun += 1;
            self.path.push(index.to_string());
            item(self)?;
            self.path.pop();
        }
        Some(())
    }

    fn item(&mut self) -> Option<()> {
        match self.field(4)? {
            b"bool" => self.field(1).map(drop),
            b"long" => self.field(4).map(drop),
            b"comp" | b"doub" => self.field(8).map(drop),
            b"UntF" => self.field(4).and_then(|_| self.field(8)).map(drop),
            b"type" | b"GlbC" => self.class(),
            b"enum" => self.id().and_then(|_| self.id()).map(drop),
            b"TEXT" => self.string().map(drop),
            b"alis" | b"Pth " | b"tdta" => {
                let length = self.number()?;
                self.field(length).map(drop)
            }
            b"VlLs" => self.items(Self::item),
            b"Objc" | b"GlbO" => self.object(),
            b"obj " => self.items(Self::reference),
            b"ObAr" => {
                self.number()?;
                self.class()?;
                self.pairs(Self::column)
            }
            // A type that is not known is refused before anything behind it.
            _ => None,
        }
    }

    fn reference(&mut self) -> Option<()> {
        let form = self.field(4)?;
        self.class()?;
        match form {
            b"Clss" => Some(()),
            b"Enmr" => self.id().and_then(|_| self.id()).map(drop),
            b"prop" => self.id().map(drop),
            b"name" => self.string().map(drop),
            _ => self.field(4).map(drop),
        }
    }

    fn column(&mut self) -> Option<()> {
        // The type, always `UnFl`, and the unit.
        self.field(4)?;
        self.field(4)?;
        let count = self.number()?;
        self.field(count.checked_mul(8)?).map(drop)
    }
}
