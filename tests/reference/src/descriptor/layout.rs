//! The fixed measures of the layout, and its tags, each by the number that its
//! four characters are.

pub const VERSION: u32 = 16;
/// The version, which stands before the root's class.
pub const VERSION_LEN: usize = 4;

/// An ID whose length is 0 has so many bytes.
pub const CHARACTERS: u32 = 4;
pub const DOUBLE_LEN: usize = 8;

/// The root has depth 0, and no row a greater one than this.
pub const MAX_DEPTH: u32 = 32;

/// The types of items.
pub mod item {
    pub const BOOL: u32 = u32::from_be_bytes(*b"bool");
    pub const TYPE: u32 = u32::from_be_bytes(*b"type");
    pub const GLOBAL_CLASS: u32 = u32::from_be_bytes(*b"GlbC");
    pub const DOUBLE: u32 = u32::from_be_bytes(*b"doub");
    pub const ENUMERATED: u32 = u32::from_be_bytes(*b"enum");
    pub const ALIAS: u32 = u32::from_be_bytes(*b"alis");
    pub const PATH: u32 = u32::from_be_bytes(*b"Pth ");
    pub const LONG: u32 = u32::from_be_bytes(*b"long");
    pub const LARGE: u32 = u32::from_be_bytes(*b"comp");
    pub const LIST: u32 = u32::from_be_bytes(*b"VlLs");
    pub const OBJECT: u32 = u32::from_be_bytes(*b"Objc");
    pub const GLOBAL_OBJECT: u32 = u32::from_be_bytes(*b"GlbO");
    pub const RAW: u32 = u32::from_be_bytes(*b"tdta");
    pub const REFERENCE: u32 = u32::from_be_bytes(*b"obj ");
    pub const TEXT: u32 = u32::from_be_bytes(*b"TEXT");
    pub const UNIT_DOUBLE: u32 = u32::from_be_bytes(*b"UntF");
    pub const OBJECT_ARRAY: u32 = u32::from_be_bytes(*b"ObAr");
}

/// The type of every pair of an object array.
pub const UNIT_DOUBLES: u32 = u32::from_be_bytes(*b"UnFl");

/// The forms of reference items.
pub mod form {
    pub const CLASS: u32 = u32::from_be_bytes(*b"Clss");
    pub const ENUMERATED: u32 = u32::from_be_bytes(*b"Enmr");
    pub const IDENTIFIER: u32 = u32::from_be_bytes(*b"Idnt");
    pub const INDEX: u32 = u32::from_be_bytes(*b"indx");
    pub const NAME: u32 = u32::from_be_bytes(*b"name");
    pub const OFFSET: u32 = u32::from_be_bytes(*b"rele");
    pub const PROPERTY: u32 = u32::from_be_bytes(*b"prop");
}

const ANGLE: u32 = u32::from_be_bytes(*b"#Ang");
const DENSITY: u32 = u32::from_be_bytes(*b"#Rsl");
const DISTANCE: u32 = u32::from_be_bytes(*b"#Rlt");
const NONE: u32 = u32::from_be_bytes(*b"#Nne");
const PERCENT: u32 = u32::from_be_bytes(*b"#Prc");
const PIXELS: u32 = u32::from_be_bytes(*b"#Pxl");
const MILLIMETRES: u32 = u32::from_be_bytes(*b"#Mlm");
const POINTS: u32 = u32::from_be_bytes(*b"#Pnt");

/// Whether a unit double may have this unit.
#[inline(always)]
pub fn is_unit(tag: u32) -> bool {
    matches!(
        tag,
        ANGLE | DENSITY | DISTANCE | NONE | PERCENT | PIXELS | MILLIMETRES | POINTS
    )
}

/// Whether the doubles of an object array may have this unit.
#[inline(always)]
pub fn is_array_unit(tag: u32) -> bool {
    matches!(tag, DISTANCE | PERCENT | PIXELS)
}
