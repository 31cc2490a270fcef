//! Sound descriptors as trees of members.

use super::tags::{Tag, ARRAY_UNITS, FORMS, TYPES, UNITS};
use super::MAX_DEPTH;
use crate::palette::any_unit;
use crate::random::Random;

/// Doubles of every class that is finite, by their bits.
const FINITE: [u64; 10] = [
    0,
    1 << 63,
    1,
    0x000F_FFFF_FFFF_FFFF,
    0x0010_0000_0000_0000,
    0x3FF0_0000_0000_0000,
    0xBFF0_0000_0000_0000,
    0x4059_0000_0000_0000,
    0x7FEF_FFFF_FFFF_FFFF,
    0xFFEF_FFFF_FFFF_FFFF,
];
const EXPONENT: u64 = 0x7FF0_0000_0000_0000;

#[derive(Clone, Debug, PartialEq, Eq)]
pub enum Id {
    /// Four characters, with the length 0.
    Characters(Tag),
    /// A name of a byte at least, four as well.
    Name(Vec<u8>),
}

#[derive(Clone, Debug, PartialEq, Eq)]
pub struct Class {
    /// Units with their closing zero, or none.
    pub name: Vec<u16>,
    pub id: Id,
}

#[derive(Clone, Debug, PartialEq, Eq)]
pub struct Object {
    pub class: Class,
    pub pairs: Vec<(Id, Value)>,
}

/// An object array. Each pair has its unit and as many doubles as there are
/// objects.
#[derive(Clone, Debug, PartialEq, Eq)]
pub struct Array {
    pub objects: u32,
    pub class: Class,
    pub pairs: Vec<(Id, Tag, Vec<u64>)>,
}

/// A reference item.
#[derive(Clone, Debug, PartialEq, Eq)]
pub struct Form {
    pub tag: Tag,
    pub class: Class,
    pub rest: Rest,
}

/// What a reference item has after its class.
#[derive(Clone, Debug, PartialEq, Eq)]
pub enum Rest {
    Nothing,
    Enumerated(Id, Id),
    Number(u32),
    Name(Vec<u16>),
    Property(Id),
}

/// An item; where several types have the same value, its tag says which it is.
#[derive(Clone, Debug, PartialEq, Eq)]
pub enum Value {
    Bool(bool),
    Class(Tag, Class),
    Double(u64),
    Enumerated(Id, Id),
    Bytes(Tag, Vec<u8>),
    Long(u32),
    Large(u64),
    List(Vec<Value>),
    Object(Tag, Object),
    Reference(Vec<Form>),
    Text(Vec<u16>),
    Unit(Tag, u64),
    Array(Array),
}

impl Value {
    pub(super) fn tag(&self) -> Tag {
        match self {
            Value::Bool(_) => *b"bool",
            Value::Double(_) => *b"doub",
            Value::Enumerated(..) => *b"enum",
            Value::Long(_) => *b"long",
            Value::Large(_) => *b"comp",
            Value::List(_) => *b"VlLs",
            Value::Reference(_) => *b"obj ",
            Value::Text(_) => *b"TEXT",
            Value::Unit(..) => *b"UntF",
            Value::Array(_) => *b"ObAr",
            Value::Class(tag, _) | Value::Bytes(tag, _) | Value::Object(tag, _) => *tag,
        }
    }
}

/// A descriptor that is being made up.
struct Making<'a> {
    random: &'a mut Random,
    /// How many members are still to be made.
    members: usize,
    /// Whether they mostly stand in each other.
    deep: bool,
}

impl Object {
    /// Mostly a few members; now and then many, and now and then nested as deep
    /// as they may be.
    pub fn any(random: &mut Random) -> Self {
        if random.one_in(8) {
            let members = random.below(2 * MAX_DEPTH);
            return Object::of(random, members, true);
        }
        let members = match random.below(400) {
            0 => random.below(3_000),
            1..=9 => random.below(300),
            10..=100 => random.below(50),
            _ => random.below(12),
        };
        Object::of(random, members, false)
    }

    /// A small descriptor, for going through all of its lengths or bytes.
    pub fn small(random: &mut Random) -> Self {
        let (members, deep) = (random.below(7), random.one_in(4));
        Object::of(random, members, deep)
    }

    fn of(random: &mut Random, members: usize, deep: bool) -> Self {
        let mut making = Making {
            random,
            members,
            deep,
        };
        making.object(1)
    }

    /// One pair, with an item of the given type that has few members or none.
    pub fn of_type(random: &mut Random, tag: Tag) -> Self {
        let mut making = Making {
            random,
            members: 4,
            deep: false,
        };
        let value = making.value(tag, 1);
        Object {
            class: any_class(random),
            pairs: vec![(any_id(random), value)],
        }
    }

    /// Members inside each other by turns of list and object, so that the
    /// innermost stands at the given depth.
    pub fn nested(random: &mut Random, depth: usize, innermost: Value) -> Self {
        let mut value = innermost;
        for _ in 1..depth {
            value = if random.one_in(2) {
                Value::List(vec![value])
            } else {
                let tag = random.pick(&[*b"Objc", *b"GlbO"]);
                Value::Object(tag, object_of(random, value))
            };
        }
        object_of(random, value)
    }
}

/// An object of a single pair.
fn object_of(random: &mut Random, value: Value) -> Object {
    Object {
        class: any_class(random),
        pairs: vec![(any_id(random), value)],
    }
}

impl Making<'_> {
    /// How many children a member has, where these stand at the given depth.
    fn children(&mut self, depth: usize) -> usize {
        if depth > MAX_DEPTH || self.members == 0 {
            return 0;
        }
        let children = if self.deep {
            1 + self.random.below(8) / 7
        } else {
            self.random.below(6)
        };
        let children = children.min(self.members);
        self.members -= children;
        children
    }

    /// An object whose pairs stand at the given depth. All that is still to be
    /// made is, where it is the root.
    fn object(&mut self, depth: usize) -> Object {
        let class = any_class(self.random);
        let mut pairs = Vec::new();
        while depth == 1 && self.members > 0 {
            self.members -= 1;
            pairs.push((any_id(self.random), self.any_value(depth)));
        }
        for _ in 0..self.children(depth) {
            pairs.push((any_id(self.random), self.any_value(depth)));
        }
        Object { class, pairs }
    }

    /// An item that stands at the given depth.
    fn any_value(&mut self, depth: usize) -> Value {
        let tag = if self.deep && !self.random.one_in(30) {
            self.random.pick(&[*b"VlLs", *b"Objc", *b"GlbO"])
        } else {
            self.random.pick(&TYPES)
        };
        self.value(tag, depth)
    }

    fn value(&mut self, tag: Tag, depth: usize) -> Value {
        match &tag {
            b"bool" => Value::Bool(self.random.one_in(2)),
            b"type" | b"GlbC" => Value::Class(tag, any_class(self.random)),
            b"doub" => Value::Double(any_double(self.random)),
            b"enum" => Value::Enumerated(any_id(self.random), any_id(self.random)),
            b"alis" | b"Pth " | b"tdta" => {
                let len = self.random.below(9);
                Value::Bytes(tag, self.random.bytes(len))
            }
            b"long" => Value::Long(self.random.u32()),
            b"comp" => Value::Large(self.random.u64()),
            b"VlLs" => self.list(depth + 1),
            b"Objc" | b"GlbO" => Value::Object(tag, self.object(depth + 1)),
            b"obj " => {
                let items = self.children(depth + 1);
                Value::Reference((0..items).map(|_| any_form(self.random)).collect())
            }
            b"TEXT" => Value::Text(any_text(self.random)),
            b"UntF" => Value::Unit(self.random.pick(&UNITS), any_double(self.random)),
            _ => self.array(depth + 1),
        }
    }

    fn list(&mut self, depth: usize) -> Value {
        let items = self.children(depth);
        Value::List((0..items).map(|_| self.any_value(depth)).collect())
    }

    /// Without pairs there may be any number of objects.
    fn array(&mut self, depth: usize) -> Value {
        let pairs = self.children(depth);
        let objects = if pairs == 0 {
            self.random.pick(&[0, 1, 7, u32::MAX])
        } else {
            self.random.below(4) as u32
        };
        let random = &mut *self.random;
        let mut any_pair = || {
            let unit = random.pick(&ARRAY_UNITS);
            let doubles = (0..objects).map(|_| any_double(random)).collect();
            (any_id(random), unit, doubles)
        };
        let pairs = (0..pairs).map(|_| any_pair()).collect();
        Value::Array(Array {
            objects,
            class: any_class(self.random),
            pairs,
        })
    }
}

fn any_form(random: &mut Random) -> Form {
    let tag = random.pick(&FORMS);
    Form {
        tag,
        class: any_class(random),
        rest: match &tag {
            b"Clss" => Rest::Nothing,
            b"Enmr" => Rest::Enumerated(any_id(random), any_id(random)),
            b"name" => Rest::Name(any_text(random)),
            b"prop" => Rest::Property(any_id(random)),
            _ => Rest::Number(random.u32()),
        },
    }
}

/// Names of four bytes among them, which are other IDs than four characters.
fn any_id(random: &mut Random) -> Id {
    let characters = random.pick(&[*b"null", *b"Nm  ", *b"bool", [0; 4]]);
    match random.below(5) {
        0 | 1 => Id::Characters(characters),
        2 => Id::Name(characters.to_vec()),
        _ => {
            let len = 1 + random.below(6);
            Id::Name(random.bytes(len))
        }
    }
}

fn any_class(random: &mut Random) -> Class {
    Class {
        name: any_text(random),
        id: any_id(random),
    }
}

/// No units, or some and a closing zero; zeros may stand before it, too.
fn any_text(random: &mut Random) -> Vec<u16> {
    if random.one_in(2) {
        return Vec::new();
    }
    let units = random.below(4);
    let mut text: Vec<u16> = (0..units).map(|_| any_unit_or_zero(random)).collect();
    text.push(0);
    text
}

fn any_unit_or_zero(random: &mut Random) -> u16 {
    if random.one_in(6) {
        0
    } else {
        any_unit(random)
    }
}

pub(super) fn any_double(random: &mut Random) -> u64 {
    let bits = if random.one_in(2) {
        random.pick(&FINITE)
    } else {
        random.u64()
    };
    if bits & EXPONENT == EXPONENT {
        return FINITE[0];
    }
    bits
}
