//! Inks: to which station of the press a colour goes.

/// What a colour says of its ink. An ASE file states global, spot or normal, a
/// colour book spot or process by its closing tag, an ACO file nothing.
#[derive(Clone, Copy, Debug, PartialEq, Eq, Hash)]
pub enum Ink {
    /// A change of it changes all that use it.
    Global,
    /// An ink of its own.
    Spot,
    /// Neither.
    Normal,
    /// Mixed from the inks of the press.
    Process,
    /// The file does not say.
    NotStated,
}

impl Ink {
    /// Every ink.
    pub const ALL: [Ink; 5] = [
        Ink::Global,
        Ink::Spot,
        Ink::Normal,
        Ink::Process,
        Ink::NotStated,
    ];

    /// Its number in a record; in an ASE file it is the colour's type.
    pub fn number(self) -> u32 {
        match self {
            Ink::Global => 0,
            Ink::Spot => 1,
            Ink::Normal => 2,
            Ink::Process => 3,
            Ink::NotStated => 4,
        }
    }

    /// The ink with a number.
    pub fn from_number(number: u32) -> Option<Ink> {
        Ink::ALL.into_iter().find(|ink| ink.number() == number)
    }

    /// The ink of an accepted record.
    pub(crate) fn known(number: u32) -> Ink {
        Ink::from_number(number).expect("an accepted record has a known ink")
    }
}
