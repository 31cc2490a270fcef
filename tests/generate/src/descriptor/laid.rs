//! Laying a descriptor out: its bytes, its rows, and where its fields stand.

use super::tags::{Tag, ARRAY_PAIR};
use super::tree::{Array, Class, Form, Id, Object, Rest, Value};

/// The fields that damage is done to.
#[derive(Clone, Copy, Debug, PartialEq, Eq)]
pub enum Field {
    Version,
    IdLength,
    StringCount,
    /// The last unit of a string that has one.
    LastUnit,
    PairCount,
    ItemCount,
    Type,
    ArrayPairType,
    Form,
    Bool,
    Double,
    Unit,
    ArrayUnit,
    ObjectCount,
    DoubleCount,
    ByteCount,
}

/// A descriptor's file, and what is to be said of it.
#[derive(Clone, Debug, Default)]
pub struct Laid {
    pub file: Vec<u8>,
    /// Kind, parent, first byte, length and depth of each row.
    pub rows: Vec<[u32; 5]>,
    /// Where each row's value begins.
    pub values: Vec<usize>,
    pub fields: Vec<(Field, usize)>,
}

/// The row in whose value the children stand.
#[derive(Clone, Copy)]
struct Parent {
    row: usize,
    depth: u32,
}

impl Laid {
    /// The root's kind is `Objc`; its value follows the version.
    pub fn of(root: &Object) -> Self {
        let mut laid = Laid::default();
        laid.field(Field::Version);
        laid.u32(16);
        laid.rows.push([u32::from_be_bytes(*b"Objc"), 0, 0, 0, 0]);
        laid.values.push(4);
        laid.object(root, Parent { row: 0, depth: 0 });
        laid.close(0);
        laid
    }

    fn field(&mut self, field: Field) {
        self.fields.push((field, self.file.len()));
    }

    fn u32(&mut self, value: u32) {
        self.file.extend(value.to_be_bytes());
    }

    fn u64(&mut self, value: u64) {
        self.file.extend(value.to_be_bytes());
    }

    fn counted(&mut self, field: Field, count: usize) {
        self.field(field);
        self.u32(count as u32);
    }

    /// The row of a member that began at `first`, whose type or form was put
    /// just now.
    fn open(&mut self, tag: Tag, first: usize, parent: Parent) -> Parent {
        let row = self.rows.len();
        let (kind, depth) = (u32::from_be_bytes(tag), parent.depth + 1);
        self.rows
            .push([kind, parent.row as u32, first as u32, 0, depth]);
        self.values.push(self.file.len());
        Parent { row, depth }
    }

    fn close(&mut self, row: usize) {
        let [_, _, first, length, _] = &mut self.rows[row];
        *length = self.file.len() as u32 - *first;
    }

    fn object(&mut self, object: &Object, row: Parent) {
        self.class(&object.class);
        self.counted(Field::PairCount, object.pairs.len());
        for (key, value) in &object.pairs {
            let first = self.file.len();
            self.id(key);
            self.item(value, first, row);
        }
    }

    fn item(&mut self, value: &Value, first: usize, parent: Parent) {
        self.field(Field::Type);
        let tag = value.tag();
        self.file.extend(tag);
        let row = self.open(tag, first, parent);
        match value {
            Value::Bool(value) => {
                self.field(Field::Bool);
                self.file.push(u8::from(*value));
            }
            Value::Class(_, class) => self.class(class),
            Value::Double(bits) => self.double(*bits),
            Value::Enumerated(kind, value) => {
                self.id(kind);
                self.id(value);
            }
            Value::Bytes(_, bytes) => {
                self.counted(Field::ByteCount, bytes.len());
                self.file.extend(bytes);
            }
            Value::Long(value) => self.u32(*value),
            Value::Large(value) => self.u64(*value),
            Value::List(items) => self.list(items, row),
            Value::Object(_, object) => self.object(object, row),
            Value::Reference(forms) => self.reference(forms, row),
            Value::Text(text) => self.text(text),
            Value::Unit(unit, bits) => {
                self.field(Field::Unit);
                self.file.extend(unit);
                self.double(*bits);
            }
            Value::Array(array) => self.array(array, row),
        }
        self.close(row.row);
    }

    fn list(&mut self, items: &[Value], row: Parent) {
        self.counted(Field::ItemCount, items.len());
        for item in items {
            self.item(item, self.file.len(), row);
        }
    }

    fn reference(&mut self, forms: &[Form], row: Parent) {
        self.counted(Field::ItemCount, forms.len());
        for form in forms {
            let first = self.file.len();
            self.field(Field::Form);
            self.file.extend(form.tag);
            let row = self.open(form.tag, first, row);
            self.class(&form.class);
            match &form.rest {
                Rest::Nothing => {}
                Rest::Enumerated(kind, value) => {
                    self.id(kind);
                    self.id(value);
                }
                Rest::Number(value) => self.u32(*value),
                Rest::Name(name) => self.text(name),
                Rest::Property(id) => self.id(id),
            }
            self.close(row.row);
        }
    }

    fn array(&mut self, array: &Array, row: Parent) {
        self.field(Field::ObjectCount);
        self.u32(array.objects);
        self.class(&array.class);
        self.counted(Field::PairCount, array.pairs.len());
        for (key, unit, doubles) in &array.pairs {
            let first = self.file.len();
            self.id(key);
            self.field(Field::ArrayPairType);
            self.file.extend(ARRAY_PAIR);
            let row = self.open(ARRAY_PAIR, first, row);
            self.field(Field::ArrayUnit);
            self.file.extend(unit);
            self.counted(Field::DoubleCount, doubles.len());
            doubles.iter().for_each(|&bits| self.double(bits));
            self.close(row.row);
        }
    }

    fn class(&mut self, class: &Class) {
        self.text(&class.name);
        self.id(&class.id);
    }

    fn id(&mut self, id: &Id) {
        match id {
            Id::Characters(characters) => {
                self.counted(Field::IdLength, 0);
                self.file.extend(characters);
            }
            Id::Name(name) => {
                self.counted(Field::IdLength, name.len());
                self.file.extend(name);
            }
        }
    }

    fn text(&mut self, text: &[u16]) {
        self.counted(Field::StringCount, text.len());
        for (index, unit) in text.iter().enumerate() {
            if index + 1 == text.len() {
                self.field(Field::LastUnit);
            }
            self.file.extend(unit.to_be_bytes());
        }
    }

    fn double(&mut self, bits: u64) {
        self.field(Field::Double);
        self.u64(bits);
    }
}
