//! Sound palettes, and the files laid out from them.

use crate::random::Random;

const LAB: u16 = 7;
const GRAY: u16 = 8;

/// The known spaces, each with the number of samples it uses.
pub const SPACES: [(u16, usize); 5] = [(0, 3), (1, 3), (2, 4), (LAB, 3), (GRAY, 1)];
/// Samples that are out of range in gray and as Lab's lightness, and those of
/// them that are no chrominance either; each is just outside, or far.
pub(crate) const OUTSIDE: [u16; 6] = [10_001, 12_701, 0x7FFF, 0x8000, 52_735, 0xFFFF];

pub(crate) const HEAD_LEN: usize = 4;
pub(crate) const COLOUR_LEN: usize = 10;
pub(crate) const NAME_COUNT_LEN: usize = 4;
const MAX_COLOURS: usize = 4096;

/// Samples at the ends of their range and with a byte of their own at zero.
const EDGE_SAMPLES: [u16; 6] = [0, 1, 0x00FF, 0x0100, 0x8080, 0xFFFF];
/// The same of gray and of Lab's lightness.
const SHORT_EDGES: [u16; 6] = [0, 1, 0x00FF, 0x0100, 9_999, 10_000];
const SHORT_SCALE: usize = 10_000;
/// The same of Lab's chrominances: 12,700, -1, -12,799 and -12,800 among them.
const SIGNED_EDGES: [u16; 6] = [0, 1, 12_700, 0xFFFF, 52_737, 52_736];
const LOWEST: u16 = 52_736;
const SIGNED_NUMBERS: usize = 25_501;
/// Units that look like a closing zero when read a byte off, surrogates that
/// pair with nothing, and the plainest letter.
const EDGE_UNITS: [u16; 6] = [0x0041, 0x0100, 0x0001, 0xD800, 0xDFFF, 0xFFFF];

#[derive(Clone, Copy, Debug, PartialEq, Eq)]
pub struct Colour {
    pub space: u16,
    pub samples: [u16; 4],
}

impl Colour {
    pub fn any(random: &mut Random) -> Self {
        let known = random.pick(&SPACES);
        Colour::of_space(random, known)
    }

    /// The spaces by turns: however many colours there are, none of their
    /// spaces is harder to foresee than another's.
    pub fn in_turn(random: &mut Random, index: usize) -> Self {
        Colour::of_space(random, SPACES[index % SPACES.len()])
    }

    fn of_space(random: &mut Random, (space, used): (u16, usize)) -> Self {
        let mut samples = [0; 4];
        for (index, sample) in samples[..used].iter_mut().enumerate() {
            *sample = any_sample(random, space, index);
        }
        Colour { space, samples }
    }

    fn put(&self, file: &mut Vec<u8>) {
        put_u16(file, self.space);
        for sample in self.samples {
            put_u16(file, sample);
        }
    }
}

/// A palette of one list, or of two where there are names.
#[derive(Clone, Debug, PartialEq, Eq)]
pub struct Palette {
    pub colours: Vec<Colour>,
    /// A name for each colour, without the closing zero.
    pub names: Option<Vec<Vec<u16>>>,
}

/// Where the parts of a palette's file lie.
pub struct Layout {
    pub colours: usize,
    /// Where list 2 begins, if there is one.
    pub list_two: Option<usize>,
    /// Where each record of list 2 begins.
    pub named: Vec<usize>,
}

impl Palette {
    /// Mostly a few colours with short names; now and then many, or long ones.
    pub fn any(random: &mut Random) -> Self {
        let colours = any_count(random);
        if random.one_in(4) {
            return Palette::plain(random, colours);
        }
        let longest = match random.below(40) {
            0 if colours < 64 => 400,
            1..=5 => 0,
            _ => 9,
        };
        Palette::named(random, colours, |random| random.below(longest + 1))
    }

    /// A small palette, for going through all of its lengths or bytes.
    pub fn small(random: &mut Random) -> Self {
        let colours = random.below(4);
        Palette::named(random, colours, |random| random.below(4))
    }

    pub fn plain(random: &mut Random, colours: usize) -> Self {
        let colours = (0..colours).map(|_| Colour::any(random)).collect();
        Palette {
            colours,
            names: None,
        }
    }

    /// A palette of two lists; `units` says how long each name is.
    pub fn named(
        random: &mut Random,
        colours: usize,
        units: impl FnMut(&mut Random) -> usize,
    ) -> Self {
        Palette::plain(random, colours).with_names(random, units)
    }

    fn with_names(
        mut self,
        random: &mut Random,
        mut units: impl FnMut(&mut Random) -> usize,
    ) -> Self {
        let mut any_name = || {
            let units = units(random);
            (0..units).map(|_| any_unit(random)).collect()
        };
        self.names = Some(self.colours.iter().map(|_| any_name()).collect());
        self
    }

    /// A palette to be timed: the spaces by turns, and names of the same length
    /// where there are any.
    pub fn uniform(random: &mut Random, colours: usize, units: Option<usize>) -> Self {
        let colours = (0..colours)
            .map(|index| Colour::in_turn(random, index))
            .collect();
        let palette = Palette {
            colours,
            names: None,
        };
        match units {
            None => palette,
            Some(units) => palette.with_names(random, |_| units),
        }
    }

    /// A palette of two lists whose file is exactly `len` bytes long. An even
    /// length with room for the colours is the caller's to choose.
    pub fn of_length(random: &mut Random, colours: usize, len: usize) -> Self {
        let unnamed = 2 * HEAD_LEN + colours * (2 * COLOUR_LEN + NAME_COUNT_LEN + 2);
        let units = (len - unnamed) / 2;
        let mut longer = units % colours;
        let palette = Palette::named(random, colours, |_| {
            let spare = usize::from(longer > 0);
            longer -= spare;
            units / colours + spare
        });
        debug_assert_eq!(palette.file().len(), len);
        palette
    }

    /// The file, with each name directly after its colour.
    pub fn file(&self) -> Vec<u8> {
        let mut file = self.list_one();
        if let Some(names) = &self.names {
            put_head(&mut file, 2, self.colours.len());
            for (colour, name) in self.colours.iter().zip(names) {
                colour.put(&mut file);
                put_name(&mut file, name);
            }
        }
        file
    }

    /// The file as it is often misread: all names after all colours.
    pub fn file_with_names_last(&self) -> Vec<u8> {
        let mut file = self.list_one();
        if let Some(names) = &self.names {
            put_head(&mut file, 2, self.colours.len());
            self.colours.iter().for_each(|colour| colour.put(&mut file));
            names.iter().for_each(|name| put_name(&mut file, name));
        }
        file
    }

    pub fn layout(&self) -> Layout {
        let colours = self.colours.len();
        let list_one_end = HEAD_LEN + colours * COLOUR_LEN;
        let mut place = list_one_end + HEAD_LEN;
        let mut named = Vec::new();
        for name in self.names.iter().flatten() {
            named.push(place);
            place += COLOUR_LEN + NAME_COUNT_LEN + 2 * (name.len() + 1);
        }
        Layout {
            colours,
            list_two: self.names.as_ref().map(|_| list_one_end),
            named,
        }
    }

    fn list_one(&self) -> Vec<u8> {
        let mut file = Vec::new();
        put_head(&mut file, 1, self.colours.len());
        self.colours.iter().for_each(|colour| colour.put(&mut file));
        file
    }
}

fn any_sample(random: &mut Random, space: u16, index: usize) -> u16 {
    let edge = random.one_in(3);
    match (space, index) {
        (LAB | GRAY, 0) if edge => random.pick(&SHORT_EDGES),
        (LAB | GRAY, 0) => random.below(SHORT_SCALE + 1) as u16,
        (LAB, _) if edge => random.pick(&SIGNED_EDGES),
        (LAB, _) => LOWEST.wrapping_add(random.below(SIGNED_NUMBERS) as u16),
        _ if edge => random.pick(&EDGE_SAMPLES),
        _ => random.u16(),
    }
}

fn any_count(random: &mut Random) -> usize {
    match random.below(4000) {
        0 => random.pick(&[MAX_COLOURS, MAX_COLOURS - 1, 1000]),
        1..=40 => random.below(300),
        41..=400 => random.below(30),
        _ => random.below(6),
    }
}

pub(crate) fn any_unit(random: &mut Random) -> u16 {
    if random.one_in(3) {
        return random.pick(&EDGE_UNITS);
    }
    random.u16().max(1)
}

pub(crate) fn put_u16(file: &mut Vec<u8>, value: u16) {
    file.extend(value.to_be_bytes());
}

fn put_head(file: &mut Vec<u8>, version: u16, colours: usize) {
    put_u16(file, version);
    put_u16(file, colours as u16);
}

fn put_name(file: &mut Vec<u8>, name: &[u16]) {
    file.extend((name.len() as u32 + 1).to_be_bytes());
    name.iter().for_each(|&unit| put_u16(file, unit));
    put_u16(file, 0);
}
