//! The tags of the layout, as its description lists them.

pub type Tag = [u8; 4];

pub const TYPES: [Tag; 17] = [
    *b"bool", *b"type", *b"GlbC", *b"doub", *b"enum", *b"alis", *b"Pth ", *b"long", *b"comp",
    *b"VlLs", *b"Objc", *b"GlbO", *b"tdta", *b"obj ", *b"TEXT", *b"UntF", *b"ObAr",
];

pub const FORMS: [Tag; 7] = [
    *b"Clss", *b"Enmr", *b"Idnt", *b"indx", *b"name", *b"rele", *b"prop",
];

/// Those that are not for text code only.
pub const UNITS: [Tag; 8] = [
    *b"#Ang", *b"#Rsl", *b"#Rlt", *b"#Nne", *b"#Prc", *b"#Pxl", *b"#Mlm", *b"#Pnt",
];

pub const ARRAY_UNITS: [Tag; 3] = [*b"#Rlt", *b"#Prc", *b"#Pxl"];

/// The type of an object array's pairs.
pub const ARRAY_PAIR: Tag = *b"UnFl";
