//! What is said of a file, as bytes, so that the reference, the wrapper and a program in
//! another language can be compared: big-endian numbers, names with the number of their
//! units before them, other bytes with their length.

#[derive(Clone, Debug, Default, PartialEq, Eq)]
pub struct Said(pub Vec<u8>);

/// What stands for a record or page that is not there.
pub const NONE: usize = u32::MAX as usize;

impl Said {
    pub fn byte(&mut self, byte: u32) -> &mut Self {
        self.0.push(u8::try_from(byte).expect("a byte"));
        self
    }

    pub fn half(&mut self, half: u16) -> &mut Self {
        self.0.extend(half.to_be_bytes());
        self
    }

    pub fn word(&mut self, word: u32) -> &mut Self {
        self.0.extend(word.to_be_bytes());
        self
    }

    pub fn count(&mut self, count: usize) -> &mut Self {
        self.word(u32::try_from(count).expect("32 bits"))
    }

    pub fn wide(&mut self, wide: u64) -> &mut Self {
        self.0.extend(wide.to_be_bytes());
        self
    }

    pub fn plain(&mut self, bytes: &[u8]) -> &mut Self {
        self.0.extend_from_slice(bytes);
        self
    }

    pub fn bytes(&mut self, bytes: &[u8]) -> &mut Self {
        self.count(bytes.len()).plain(bytes)
    }

    /// A name by the bytes of its units.
    pub fn name(&mut self, units: &[u8]) -> &mut Self {
        self.count(units.len() / 2).plain(units)
    }

    /// A refusal; `file` is which of two palettes is refused.
    pub fn refused(number: u32, file: u32, place: usize, record: usize, field: usize) -> Said {
        let mut said = Said::default();
        said.byte(number).byte(file);
        said.count(place).count(record).count(field);
        said
    }

    /// An answer that is no refusal.
    pub fn accepted() -> Said {
        let mut said = Said::default();
        said.byte(0);
        said
    }

    /// What a writer answers.
    pub fn written(written: Result<Vec<u8>, u32>) -> Said {
        match written {
            Err(number) => Said::refused(number, 0, 0, 0, 0),
            Ok(bytes) => {
                let mut said = Said::accepted();
                said.bytes(&bytes);
                said
            }
        }
    }
}
