//! Books with names that are hard to tell apart, names to look for in them, and
//! indexes with a change.

use super::book::{Book, Colour};
use crate::random::Random;

const FEW_UNITS: [u16; 5] = [0, 0x0041, 0x0042, 0x00FF, 0x0100];
const LONG_PREFIX: usize = 300;

impl Book {
    /// A book whose names are short and of few units, so that many are equal or begin
    /// alike; or have one long beginning; or are all the same; or are in order.
    pub fn of_pickers(random: &mut Random) -> Self {
        let mut book = if random.one_in(3) {
            Book::small(random)
        } else {
            Book::any(random)
        };
        let longest = random.pick(&[1, 2, 3, 5]);
        let prefix: Vec<u16> = match random.below(6) {
            0 => few_units(random, LONG_PREFIX),
            1 => few_units(random, 3),
            _ => Vec::new(),
        };
        let dummies = random.pick(&[usize::MAX, 2, 4, 9]);
        for colour in &mut book.colours {
            let units = random.below(longest + 1);
            colour.name = [&prefix[..], &few_units(random, units)].concat();
            if random.one_in(dummies) {
                colour.name.clear();
            }
        }
        match random.below(5) {
            0 => book.colours.sort_by(|a, b| a.name.cmp(&b.name)),
            1 => book.colours.sort_by(|a, b| b.name.cmp(&a.name)),
            _ => {}
        }
        book
    }

    /// So many colours that are shown, with names of few units.
    pub fn shown(random: &mut Random, colours: usize) -> Self {
        let mut book = Book::small(random);
        let space = book.space;
        let colour = |_| {
            let units = 1 + random.below(2);
            Colour {
                name: few_units(random, units),
                ..Colour::any(random, space, 0)
            }
        };
        book.colours = (0..colours).map(colour).collect();
        book
    }

    /// The numbers of all colours but dummies, by their names and numbers.
    pub fn index(&self) -> Vec<u32> {
        let shown = |number: &u32| !self.colours[*number as usize].name.is_empty();
        let mut index: Vec<u32> = (0..self.colours.len() as u32).filter(shown).collect();
        index.sort_by_key(|&number| (&self.colours[number as usize].name, number));
        index
    }

    /// A name to look for: one that is there, or near to one, or any.
    pub fn looked_for(&self, random: &mut Random) -> Vec<u16> {
        let mut name = match self.colours.len() {
            0 => Vec::new(),
            count => self.colours[random.below(count)].name.clone(),
        };
        match random.below(9) {
            0 => name.push(random.pick(&FEW_UNITS)),
            1 => drop(name.pop()),
            2 => name.clear(),
            3 if !name.is_empty() => {
                let unit = random.below(name.len());
                name[unit] = name[unit].wrapping_add(random.pick(&[1, 0x0100, 0xFFFF, 0xFF00]));
            }
            4 if !name.is_empty() => {
                let unit = random.below(name.len());
                name[unit] = name[unit].swap_bytes();
            }
            5 => {
                let units = random.below(4);
                name = few_units(random, units);
            }
            _ => {}
        }
        name
    }

    /// One change to the book: to what no index looks at, or to a name.
    pub fn change(&mut self, random: &mut Random) {
        let count = self.colours.len();
        if count == 0 {
            return;
        }
        let index = random.below(count);
        match random.below(9) {
            0 => self.colours[index].components[0] ^= 1,
            1 => self.page_size = self.page_size % 9 + 1,
            2 => self.colours[index].name.push(random.pick(&FEW_UNITS)),
            3 => drop(self.colours[index].name.pop()),
            4 => self.colours[index].name.clear(),
            5 => self.colours.swap(index, count - 1 - index),
            6 => drop(self.colours.remove(index)),
            7 => self
                .colours
                .insert(index, self.colours[count - 1 - index].clone()),
            _ => {
                let units = random.below(3);
                self.colours[index].name = few_units(random, units);
            }
        }
    }
}

fn few_units(random: &mut Random, units: usize) -> Vec<u16> {
    (0..units).map(|_| random.pick(&FEW_UNITS)).collect()
}

/// One way to change an index.
#[derive(Clone, Copy, Debug, PartialEq, Eq)]
pub enum IndexChange {
    /// Not a fault: what follows the entries counts for nothing.
    Longer,
    Shorter,
    Swapped,
    /// Neighbours, which may have the same name.
    Neighbours,
    Twice,
    /// The entry of a dummy, or of one that is there already.
    Other,
    PastCount,
    /// A number that is right once cut to 16 bits.
    Wide,
    Reversed,
    ByNumber,
    Bit,
    Noise,
}

impl IndexChange {
    pub const ALL: [IndexChange; 12] = [
        IndexChange::Longer,
        IndexChange::Shorter,
        IndexChange::Swapped,
        IndexChange::Neighbours,
        IndexChange::Twice,
        IndexChange::Other,
        IndexChange::PastCount,
        IndexChange::Wide,
        IndexChange::Reversed,
        IndexChange::ByNumber,
        IndexChange::Bit,
        IndexChange::Noise,
    ];

    /// Changes the index of a book of so many colours; one that gives no hold for it
    /// stays as it is.
    pub fn change(self, index: &mut Vec<u32>, colours: usize, random: &mut Random) {
        if self == IndexChange::Longer {
            let more = 1 + random.below(4);
            return index.extend((0..more).map(|_| random.u32()));
        }
        let len = index.len();
        if len == 0 {
            return;
        }
        let (at, other) = (random.below(len), random.below(len));
        match self {
            IndexChange::Shorter => index.truncate(at),
            IndexChange::Swapped => index.swap(at, other),
            IndexChange::Neighbours => index.swap(at, (at + 1).min(len - 1)),
            IndexChange::Twice => index[at] = index[other],
            IndexChange::Other => index[at] = random.below(colours.max(1)) as u32,
            IndexChange::PastCount => index[at] = (colours + random.below(3)) as u32,
            IndexChange::Wide => index[at] = index[at].wrapping_add(0x1_0000),
            IndexChange::Reversed => index.reverse(),
            IndexChange::ByNumber => index.sort_unstable(),
            IndexChange::Bit => index[at] ^= 1 << random.below(32),
            IndexChange::Noise | IndexChange::Longer => index[at] = random.u32(),
        }
    }
}
