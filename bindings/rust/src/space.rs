//! Spaces of ACO and ACB, and models of ASE.

/// A colour space. A colour book has RGB, CMYK or Lab.
#[derive(Clone, Copy, Debug, PartialEq, Eq, Hash)]
pub enum Space {
    /// Red, green, blue.
    Rgb,
    /// Hue, saturation, brightness.
    Hsb,
    /// Cyan, magenta, yellow, black; 0 is full ink.
    Cmyk,
    /// Lightness, a, b.
    Lab,
    /// Gray.
    Gray,
}

impl Space {
    /// Every space.
    pub const ALL: [Space; 5] = [Space::Rgb, Space::Hsb, Space::Cmyk, Space::Lab, Space::Gray];

    /// Its number in a file.
    pub fn number(self) -> u16 {
        match self {
            Space::Rgb => 0,
            Space::Hsb => 1,
            Space::Cmyk => 2,
            Space::Lab => 7,
            Space::Gray => 8,
        }
    }

    /// How many samples or components a colour of it has.
    pub fn count(self) -> usize {
        match self {
            Space::Rgb | Space::Hsb | Space::Lab => 3,
            Space::Cmyk => 4,
            Space::Gray => 1,
        }
    }

    /// The space with a number.
    pub fn from_number(number: u16) -> Option<Space> {
        Space::ALL
            .into_iter()
            .find(|space| space.number() == number)
    }

    /// The space of an accepted record.
    pub(crate) fn known(number: u16) -> Space {
        Space::from_number(number).expect("an accepted record has a known space")
    }
}

/// A colour model.
#[derive(Clone, Copy, Debug, PartialEq, Eq, Hash)]
pub enum Model {
    /// Red, green, blue.
    Rgb,
    /// Cyan, magenta, yellow, black; 1 is full ink.
    Cmyk,
    /// Lightness, a, b.
    Lab,
    /// Gray.
    Gray,
}

impl Model {
    /// Every model.
    pub const ALL: [Model; 4] = [Model::Rgb, Model::Cmyk, Model::Lab, Model::Gray];

    /// Its tag in a file, four characters as one number.
    pub fn tag(self) -> u32 {
        u32::from_be_bytes(match self {
            Model::Rgb => *b"RGB ",
            Model::Cmyk => *b"CMYK",
            Model::Lab => *b"LAB ",
            Model::Gray => *b"Gray",
        })
    }

    /// The model with a tag.
    pub fn from_tag(tag: u32) -> Option<Model> {
        Model::ALL.into_iter().find(|model| model.tag() == tag)
    }

    /// The model of an accepted colour.
    pub(crate) fn known(tag: u32) -> Model {
        Model::from_tag(tag).expect("an accepted colour has a known model")
    }
}
