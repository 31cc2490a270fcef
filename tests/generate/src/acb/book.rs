//! Sound books, and the files laid out from them.

use super::{CMYK, SPACES, TAGS};
use crate::palette::{any_unit, put_u16};
use crate::random::Random;

/// What is before the colours besides the strings' units.
const BARE_HEAD_LEN: usize = 32;
/// What a CMYK colour has besides its name's units.
const UNNAMED_CMYK_LEN: usize = 14;

const KEY_START: &str = "$$$/";
/// Parts of strings that begin with a key, or nearly so, and what is put
/// between them.
const PIECES: [&str; 12] = [
    KEY_START,
    "$$$/",
    "$$$",
    "$",
    "/",
    "=",
    "=",
    "==",
    "title",
    "colorbook/",
    "^R",
    " ",
];

#[derive(Clone, Debug, PartialEq, Eq)]
pub struct Colour {
    /// Without units the colour is a dummy.
    pub name: Vec<u16>,
    pub code: [u8; 6],
    /// The fourth is 0 save in CMYK.
    pub components: [u8; 4],
}

#[derive(Clone, Debug, PartialEq, Eq)]
pub struct Book {
    pub identifier: u16,
    /// The title, the prefix, the suffix and the description.
    pub strings: [Vec<u16>; 4],
    pub page_size: u16,
    pub page_offset: u16,
    pub space: u16,
    pub colours: Vec<Colour>,
    /// 0 for none, 1 for spot, 2 for process.
    pub tag: usize,
}

/// Where the fields of a file stand.
pub struct Layout {
    /// The counts of the four strings.
    pub strings: [usize; 4],
    pub count: usize,
    /// The first byte of each colour, its name's count.
    pub colours: Vec<usize>,
    /// Behind the last colour.
    pub end: usize,
}

impl Layout {
    pub fn page_size(&self) -> usize {
        self.count + 2
    }

    pub fn space(&self) -> usize {
        self.count + 6
    }
}

impl Book {
    /// Mostly a few colours with short names; now and then many, or long ones.
    pub fn any(random: &mut Random) -> Self {
        let colours = any_count(random);
        let longest = match random.below(40) {
            0 if colours < 64 => 400,
            1..=3 => 0,
            _ => 9,
        };
        Book::with(random, colours, longest, any_string)
    }

    /// A small book, for going through all of its lengths or bytes.
    pub fn small(random: &mut Random) -> Self {
        let colours = random.below(5);
        Book::with(random, colours, 3, |random| {
            let units = random.below(4);
            any_name(random, units)
        })
    }

    fn with(
        random: &mut Random,
        colours: usize,
        longest: usize,
        string: fn(&mut Random) -> Vec<u16>,
    ) -> Self {
        let space = random.pick(&SPACES);
        // All of them, none, or one in some.
        let dummies = random.pick(&[1, usize::MAX, 2, 2, 3, 8]);
        let any_colour = |random: &mut Random| {
            let units = if random.one_in(dummies) {
                0
            } else {
                random.below(longest + 1)
            };
            let mut colour = Colour::any(random, space, units);
            // A name may look like a key, too; it is none.
            if units > 0 && random.one_in(6) {
                colour.name = string(random);
            }
            colour
        };
        Book {
            identifier: random.u16(),
            strings: std::array::from_fn(|_| string(random)),
            page_size: any_page_size(random, colours),
            page_offset: any_page_offset(random),
            space,
            colours: (0..colours).map(|_| any_colour(random)).collect(),
            tag: random.below(TAGS.len()),
        }
    }

    /// A book to be timed: Lab colours with names of the same length.
    pub fn uniform(random: &mut Random, colours: usize, units: usize) -> Self {
        let colour = |_| Colour::any(random, super::LAB, units);
        Book {
            space: super::LAB,
            colours: (0..colours).map(colour).collect(),
            ..Book::empty()
        }
    }

    /// CMYK colours whose file is exactly `len` bytes long, without a tag. An
    /// even length with room for the colours is the caller's to choose.
    pub fn of_length(random: &mut Random, colours: usize, len: usize) -> Self {
        let units = (len - BARE_HEAD_LEN - colours * UNNAMED_CMYK_LEN) / 2;
        let colour = |index| {
            let longer = usize::from(index < units % colours);
            Colour::any(random, CMYK, units / colours + longer)
        };
        let book = Book {
            space: CMYK,
            colours: (0..colours).map(colour).collect(),
            ..Book::empty()
        };
        debug_assert_eq!(book.file().len(), len);
        book
    }

    /// No colours, no strings, pages of 6.
    fn empty() -> Self {
        Book {
            identifier: 0,
            strings: Default::default(),
            page_size: 6,
            page_offset: 0,
            space: CMYK,
            colours: Vec::new(),
            tag: 0,
        }
    }

    pub fn file(&self) -> Vec<u8> {
        let mut file = b"8BCB\0\x01".to_vec();
        put_u16(&mut file, self.identifier);
        self.strings
            .iter()
            .for_each(|string| put_string(&mut file, string));
        put_u16(&mut file, self.colours.len() as u16);
        put_u16(&mut file, self.page_size);
        put_u16(&mut file, self.page_offset);
        put_u16(&mut file, self.space);
        for colour in &self.colours {
            put_string(&mut file, &colour.name);
            file.extend(colour.code);
            file.extend(&colour.components[..components(self.space)]);
        }
        file.extend(TAGS[self.tag]);
        file
    }

    pub fn layout(&self) -> Layout {
        let mut place = 8;
        let strings = self.strings.each_ref().map(|string| {
            let here = place;
            place += 4 + 2 * string.len();
            here
        });
        let count = place;
        place += 8;
        let mut colours = Vec::new();
        for colour in &self.colours {
            colours.push(place);
            place += 4 + 2 * colour.name.len() + 6 + components(self.space);
        }
        Layout {
            strings,
            count,
            colours,
            end: place,
        }
    }

    /// The sample of each page, page after page, found by counting its colours.
    pub fn samples(&self) -> Vec<Option<usize>> {
        let size = usize::from(self.page_size);
        let pages = self.colours.chunks(size).enumerate();
        let sample = |(page, colours): (usize, &[Colour])| {
            let shown: Vec<usize> = (0..colours.len())
                .filter(|&index| !colours[index].name.is_empty())
                .collect();
            let last = shown.len().checked_sub(1)?;
            Some(page * size + shown[last.min(usize::from(self.page_offset))])
        };
        pages.map(sample).collect()
    }
}

impl Colour {
    pub fn any(random: &mut Random, space: u16, units: usize) -> Self {
        let mut components = [0; 4];
        components[..self::components(space)].fill_with(|| any_component(random));
        Colour {
            name: any_name(random, units),
            code: std::array::from_fn(|_| random.pick(&[b' ', b'7', b'D', 0, 0xFF])),
            components,
        }
    }
}

pub fn components(space: u16) -> usize {
    if space == CMYK {
        4
    } else {
        3
    }
}

fn any_component(random: &mut Random) -> u8 {
    if random.one_in(3) {
        return random.pick(&[0, 1, 127, 128, 129, 254, 255]);
    }
    random.byte()
}

fn any_count(random: &mut Random) -> usize {
    match random.below(4000) {
        0 => random.pick(&[1000, 5000]),
        1..=40 => random.below(300),
        41..=400 => random.below(40),
        _ => random.below(9),
    }
}

/// Pages of one colour, of all and of more than there are, and of some.
fn any_page_size(random: &mut Random, colours: usize) -> u16 {
    match random.below(6) {
        0 => 1,
        1 => (colours as u16).max(1),
        2 => random.u16().max(1),
        3 => u16::MAX,
        _ => 1 + random.below(7) as u16,
    }
}

fn any_page_offset(random: &mut Random) -> u16 {
    match random.below(6) {
        0 => 0,
        1 => u16::MAX,
        2 => random.u16(),
        _ => random.below(7) as u16,
    }
}

/// A name's units; zeros may stand anywhere among them.
fn any_name(random: &mut Random, units: usize) -> Vec<u16> {
    let mut any = || {
        if random.one_in(12) {
            0
        } else {
            any_unit(random)
        }
    };
    (0..units).map(|_| any()).collect()
}

/// A string of any units, or one that begins with a key or nearly so and holds
/// no `=`, one or several.
fn any_string(random: &mut Random) -> Vec<u16> {
    match random.below(8) {
        0 => Vec::new(),
        1 => {
            let units = random.below(12);
            any_name(random, units)
        }
        2..=4 => [units(KEY_START), any_pieces(random)].concat(),
        5 => {
            let mut string = [units(KEY_START), any_pieces(random)].concat();
            let place = random.below(string.len());
            // A byte of a unit, or both of them, other than they should be.
            string[place] = random.pick(&[0, string[place].swap_bytes(), string[place] ^ 1]);
            string
        }
        6 => split_equals(random),
        _ => any_pieces(random),
    }
}

/// The bytes of `=` on two units, which are no `=`.
fn split_equals(random: &mut Random) -> Vec<u16> {
    let split = [0x6100, 0x3D00].to_vec();
    [units(KEY_START), split, any_pieces(random)].concat()
}

fn any_pieces(random: &mut Random) -> Vec<u16> {
    let pieces = random.below(6);
    (0..pieces)
        .flat_map(|_| units(random.pick(&PIECES)))
        .collect()
}

fn units(text: &str) -> Vec<u16> {
    text.encode_utf16().collect()
}

fn put_string(file: &mut Vec<u8>, string: &[u16]) {
    file.extend((string.len() as u32).to_be_bytes());
    string.iter().for_each(|&unit| put_u16(file, unit));
}
