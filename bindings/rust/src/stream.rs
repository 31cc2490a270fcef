//! An ACO file that arrives in chunks, cut anywhere.

use crate::aco::Counts;
use crate::{raw, Refusal};

/// The bytes of a store: ten for each of the most colours.
pub const STORE: usize = 40_960;

/// What is kept between two chunks, beside a lent store.
///
/// ```
/// use khuyurek::stream;
///
/// fn colours(chunks: &[&[u8]]) -> Result<Vec<u8>, khuyurek::Refusal> {
///     let mut store = vec![0; stream::STORE];
///     let mut palette = stream::start(&store)?;
///     for chunk in chunks {
///         palette.feed(&mut store, chunk)?;
///     }
///     let counts = palette.finish(&store)?;
///     store.truncate(10 * counts.colours);
///     Ok(store)
/// }
///
/// let gray = [0, 1, 0, 1, 0, 8, 0x27, 0x10, 0, 0, 0, 0, 0, 0];
/// assert_eq!(colours(&[&gray[..3], &[], &gray[3..]]).unwrap(), gray[4..]);
/// assert_eq!(colours(&[&gray[..3]]).unwrap_err().number, 2);
/// ```
#[derive(Clone, Copy, Debug, PartialEq, Eq)]
pub struct Stream(raw::stream::Stream);

/// The stream before the first chunk; a store that is shorter than [`STORE`] is 11.
pub fn start(store: &[u8]) -> Result<Stream, Refusal> {
    let fed = raw::stream::start(store);
    Refusal::unless(fed.number, 0)?;
    Ok(Stream(fed.stream))
}

impl Stream {
    /// Takes a chunk. The store is the one that the call before was lent: at the
    /// end it begins with the colours of list 1 that stand before the first fault,
    /// ten bytes each.
    pub fn feed(&mut self, store: &mut [u8], chunk: &[u8]) -> Result<(), Refusal> {
        let fed = raw::stream::feed(self.0, store, chunk);
        self.0 = fed.stream;
        Refusal::unless(fed.number, 0)
    }

    /// The end of the file: what reading it whole gives. Every later call is 5.
    pub fn finish(&mut self, store: &[u8]) -> Result<Counts, Refusal> {
        let finished = raw::stream::finish(self.0, store);
        self.0 = finished.stream;
        Counts::of(finished.answer)
    }

    /// How many bytes came, the last chunk's too; past the limit it stops.
    pub fn total(&self) -> usize {
        self.0.total
    }
}
