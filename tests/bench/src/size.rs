//! How many colours a file of a given length has, with names of a given length.

/// A file's colours, and the units of each of their names.
#[derive(Clone, Copy)]
pub struct Size {
    pub colours: usize,
    pub units: usize,
}

/// What a format's file has besides the units of its names.
pub struct Frame {
    pub head: usize,
    /// Of each colour.
    pub unnamed: usize,
    pub most_colours: usize,
}

impl Frame {
    /// As long as `len` or a little shorter: names of so many units, or longer
    /// ones where more colours would be needed than a file may have.
    pub fn within(&self, len: usize, units: usize) -> Size {
        let room = len - self.head;
        let colours = (room / (self.unnamed + 2 * units)).min(self.most_colours);
        Size {
            colours,
            units: (room / colours - self.unnamed) / 2,
        }
    }
}
