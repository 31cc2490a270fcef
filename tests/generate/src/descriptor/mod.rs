//! Descriptors made up from a seed.

mod damage;
mod fixed;
mod keys;
mod laid;
mod long;
mod lot;
mod tags;
mod tree;

pub use damage::{damage, Damage};
pub use fixed::{
    fixed_files, Answer, Fixed, EVERY_TYPE, EVERY_TYPE_LISTING, EVERY_TYPE_VALUES, P11, P12,
    P12_LISTING, P12_ROWS,
};
pub use keys::{any_keys, root_keys};
pub use laid::{Field, Laid};
pub use long::{deep, flat, keyed, lists, wide, Long};
pub use lot::{any_number, Lot, LotDamage};
pub use tags::{ARRAY_UNITS, FORMS, TYPES, UNITS};
pub use tree::{Array, Class, Form, Id, Object, Rest, Value};

/// No row stands deeper.
pub const MAX_DEPTH: usize = 32;
