//! The wrapper over each format: agreed files by their rule's number, files
//! written back, refusals.

use std::fs;
use std::path::Path;

use khuyurek::descriptor::{self, Entry, Part, Tag, Text, Value};
use khuyurek::{
    acb, aco, ase, stream, to_channel, to_channels, to_sample, to_samples, Ink, Model, Refusal,
    Space, Units,
};

const P2: [u8; 4] = [0, 1, 0, 0];
const P3: [u8; 36] = [
    0x00, 0x01, 0x00, 0x01, 0x00, 0x00, 0xFF, 0xFF, 0x00, 0x00, 0x80, 0x80, //
    0x00, 0x00, 0x00, 0x02, 0x00, 0x01, 0x00, 0x00, 0xFF, 0xFF, 0x00, 0x00, //
    0x80, 0x80, 0x00, 0x00, 0x00, 0x00, 0x00, 0x02, 0x00, 0x41, 0x00, 0x00,
];
const P5: [u8; 12] = *b"ASEF\0\x01\0\0\0\0\0\0";
const P6: [u8; 32] = *b"ASEF\0\x01\0\0\0\0\0\x01\0\x01\0\0\0\x0E\0\x01\0\0Gray\x3F\x80\0\0\0\x02";
const P11: [u8; 17] = *b"\0\0\0\x10\0\0\0\0\0\0\0\x01a\0\0\0\0";
const P12: [u8; 40] =
    *b"\0\0\0\x10\0\0\0\0\0\0\0\x01a\0\0\0\x01\0\0\0\x01aVlLs\0\0\0\x02bool\x01bool\x01";

fn refusal(number: u32, place: usize) -> Refusal {
    Refusal {
        number,
        place,
        record: 0,
        field: 0,
    }
}

fn example(name: &str) -> Vec<u8> {
    let folder = Path::new(env!("CARGO_MANIFEST_DIR")).join("../../examples/files");
    fs::read(folder.join(name)).expect("the example is there")
}

#[test]
fn no_bytes_are_refused_by_every_kind() {
    assert_eq!(aco::judge(&[]), Err(refusal(2, 0)));
    assert_eq!(ase::judge(&[]), Err(refusal(2, 0)));
    assert_eq!(acb::judge(&[]), Err(refusal(2, 0)));
    assert_eq!(descriptor::judge(&[]), Err(refusal(2, 0)));
}

#[test]
fn too_long_a_file_is_refused_by_every_kind() {
    let file = vec![0; khuyurek::LIMIT + 1];
    assert_eq!(aco::read(&file).unwrap_err(), refusal(1, 0));
    assert_eq!(ase::read(&file).unwrap_err(), refusal(1, 0));
    assert_eq!(acb::read(&file).unwrap_err(), refusal(1, 0));
    assert_eq!(descriptor::read(&file).unwrap_err(), refusal(1, 0));
}

// ---- ACO

#[test]
fn aco_is_read() {
    let palette = aco::read(&P3).unwrap();
    assert_eq!((palette.len(), palette.lists()), (1, 2));
    let swatch = palette.get(0).unwrap();
    assert_eq!(swatch.space, Space::Rgb);
    assert_eq!(swatch.samples, [65535, 0, 32896, 0]);
    assert_eq!(swatch.ink, Ink::NotStated);
    assert_eq!(swatch.name.to_string(), "A");
    assert_eq!(swatch.name.bytes().as_ptr(), P3[32..].as_ptr());
    assert_eq!(palette.get(1), None);
    assert_eq!(aco::record_at(&P3, 0), Ok(swatch));
    assert_eq!(aco::record_at(&P3, 1), Err(refusal(12, 0)));
    assert!(aco::read(&P2).unwrap().is_empty());
    let counts = aco::Counts {
        colours: 0,
        lists: 1,
    };
    assert_eq!(aco::judge(&P2), Ok(counts));
}

#[test]
fn aco_lists_that_disagree_name_record_and_field() {
    let mut p4 = P3;
    p4[25] = 0x81;
    let differs = Refusal {
        number: 7,
        place: 24,
        record: 0,
        field: 3,
    };
    assert_eq!(aco::judge(&p4), Err(differs));
    assert_eq!(aco::record_at(&p4, 9), Err(differs));
    assert_eq!(aco::walk(&p4).unwrap_err(), differs);
    assert_eq!(
        differs.to_string(),
        "refused 7 at 24: the two ACO lists disagree (record 0, field 3)"
    );
}

#[test]
fn aco_is_walked() {
    let file = example("swatches.aco");
    let palette = aco::read(&file).unwrap();
    let mut walk = aco::walk(&file).unwrap();
    assert!(palette.iter().eq(walk.by_ref()));
    assert_eq!(walk.next(), None);
    assert_eq!(palette.len(), 5);
    // A plain file is walked by its only list.
    let plain = &P3[..14];
    assert_eq!(aco::walk(plain).unwrap().count(), 1);
    assert_eq!(aco::step_at(plain, 5), Err(refusal(5, 0)));
    assert_eq!(aco::step_at(plain, 14), Ok(None));
    assert_eq!(aco::step_at(plain, usize::MAX), Err(refusal(5, 0)));
}

#[test]
fn aco_is_written() {
    let file = example("swatches.aco");
    let palette = aco::read(&file).unwrap();
    assert_eq!(palette.write().unwrap(), file);
    let swatches: Vec<_> = palette.iter().collect();
    assert_eq!(aco::write_length(&swatches), Ok(file.len()));
    assert_eq!(aco::write(&swatches).unwrap(), file);
    // A file of one list is written with both.
    let both = aco::read(&P2).unwrap().write().unwrap();
    assert_eq!(both, [0, 1, 0, 0, 0, 2, 0, 0]);
    let closed = Units::encode("a\0");
    let mut swatch = aco::Swatch {
        space: Space::Gray,
        samples: [9, 0, 0, 0],
        name: Units::new(&closed),
        ink: Ink::NotStated,
    };
    assert_eq!(aco::write(&[swatch]), Err(refusal(8, 0)));
    swatch.samples[1] = 1;
    assert_eq!(aco::write(&[swatch]), Err(refusal(5, 0)));
    assert_eq!(aco::write_length(&[swatch; 4097]), Err(refusal(5, 0)));
    let long = vec![0; khuyurek::LIMIT];
    swatch.name = Units::new(&long);
    assert_eq!(aco::write_length(&[swatch]), Err(refusal(1, 0)));
}

/// What a stream answers to chunks and to their end, and the store.
fn streamed(chunks: &[&[u8]]) -> (Result<aco::Counts, Refusal>, Vec<u8>) {
    let mut store = vec![0xA5; stream::STORE];
    let mut stream = stream::start(&store).unwrap();
    for chunk in chunks {
        assert_eq!(stream.feed(&mut store, chunk), Ok(()));
    }
    (stream.finish(&store), store)
}

#[test]
fn aco_is_taken_in_chunks() {
    let file = example("swatches.aco");
    let counts = aco::judge(&file);
    for cut in 0..=file.len() {
        let (front, back) = file.split_at(cut);
        let (answer, store) = streamed(&[front, &[], back]);
        assert_eq!(answer, counts);
        assert_eq!(store[..50], file[4..54]);
        assert!(store[50..].iter().all(|byte| *byte == 0xA5));
        // What has come is judged as a file of its own.
        assert_eq!(streamed(&[front]).0, aco::judge(front));
    }
    let mut p4 = P3;
    p4[25] = 0x81;
    let bytes: Vec<&[u8]> = p4.chunks(1).collect();
    assert_eq!(streamed(&bytes).0, aco::judge(&p4));
}

#[test]
fn streams_end() {
    let mut store = vec![0xA5; stream::STORE];
    let short = &mut vec![0; stream::STORE - 1][..];
    assert_eq!(stream::start(short), Err(refusal(11, 0)));
    let mut stream = stream::start(&store).unwrap();
    let begun = stream;
    assert_eq!(stream.feed(short, &P3), Err(refusal(11, 0)));
    assert_eq!(stream.finish(short), Err(refusal(11, 0)));
    assert_eq!(stream, begun);
    stream.feed(&mut store, &P3).unwrap();
    assert_eq!(stream.total(), P3.len());
    assert_eq!(stream.finish(&store), aco::judge(&P3));
    let ended = stream;
    let held = store.clone();
    assert_eq!(stream.feed(&mut store, &P3), Err(refusal(5, 0)));
    assert_eq!(stream.feed(short, &[]), Err(refusal(5, 0)));
    assert_eq!(stream.finish(&store), Err(refusal(5, 0)));
    assert_eq!((stream, store), (ended, held));
}

#[test]
fn too_many_bytes_are_1_whatever_came_before() {
    let mut store = vec![0; stream::STORE];
    let mut stream = stream::start(&store).unwrap();
    let chunk = vec![9; khuyurek::LIMIT];
    stream.feed(&mut store, &chunk).unwrap();
    let mut longer = stream;
    assert_eq!(stream.finish(&store), Err(refusal(3, 0)));
    longer.feed(&mut store, &[0]).unwrap();
    longer.feed(&mut store, &chunk).unwrap();
    assert_eq!(longer.finish(&store), Err(refusal(1, 0)));
}

// ---- ASE

#[test]
fn ase_is_read() {
    let gray = ase::Block::Colour(ase::Colour {
        name: Units::default(),
        channels: ase::Channels::Gray(1.0),
        ink: Ink::Normal,
    });
    assert!(ase::read(&P5).unwrap().is_empty());
    let palette = ase::read(&P6).unwrap();
    assert!(palette.iter().eq([gray]));
    assert_eq!((palette.get(0), palette.get(1)), (Some(gray), None));
    assert_eq!(ase::record_at(&P6, 0), Ok(gray));
    assert_eq!(ase::record_at(&P6, 1), Err(refusal(12, 0)));
    let mut p7 = P6.to_vec();
    p7[17] = 0x0F;
    p7.push(0);
    assert_eq!(ase::judge(&p7), Err(refusal(13, 14)));
}

#[test]
fn ase_is_walked() {
    let file = example("palette.ase");
    let palette = ase::read(&file).unwrap();
    let mut blocks = ase::walk_blocks(&file).unwrap();
    assert!(palette.iter().eq(blocks.by_ref()));
    assert_eq!(blocks.next(), None);
    let mut colours = ase::walk(&file).unwrap();
    let only = palette.iter().filter_map(|block| match block {
        ase::Block::Colour(colour) => Some(colour),
        _ => None,
    });
    assert!(only.eq(colours.by_ref()));
    assert_eq!(colours.next(), None);
    let counts = ase::Counts {
        blocks: 8,
        colours: 4,
    };
    assert_eq!(ase::judge(&file), Ok(counts));
    for (i, block) in palette.iter().enumerate() {
        assert_eq!(ase::record_at(&file, i), Ok(block));
    }
    assert_eq!(ase::step_at(&file, 13), Err(refusal(5, 0)));
    assert_eq!(ase::block_at(&file, file.len()), Ok(None));
}

#[test]
fn ase_is_written() {
    let file = example("palette.ase");
    let palette = ase::read(&file).unwrap();
    assert_eq!(palette.write().unwrap(), file);
    let blocks: Vec<_> = palette.iter().collect();
    assert_eq!(ase::write_length(&blocks), Ok(file.len()));
    assert_eq!(ase::write(&blocks).unwrap(), file);
    let open = ase::Block::Start(Units::default());
    assert_eq!(ase::write(&[open]), Err(refusal(9, 0)));
    assert_eq!(ase::write(&[ase::Block::Stop]), Err(refusal(9, 0)));
    assert_eq!(ase::write(&[open; 17]), Err(refusal(10, 0)));
    let gray = |channel| {
        ase::Block::Colour(ase::Colour {
            name: Units::default(),
            channels: ase::Channels::Gray(channel),
            ink: Ink::Spot,
        })
    };
    assert_eq!(ase::write(&[gray(f32::NAN)]), Err(refusal(5, 0)));
    let minus_zero = ase::write(&[gray(-0.0)]).unwrap();
    assert_eq!(minus_zero[26..30], [0x80, 0, 0, 0]);
}

// ---- ACB

/// A book of seven colours, three to a page, the third its sample.
fn book(space: Space, components: [u8; 4], names: [&str; 7]) -> Result<Vec<u8>, Refusal> {
    let names = names.map(Units::encode);
    let swatches: Vec<_> = names
        .iter()
        .map(|name| acb::Swatch {
            name: Units::new(name),
            code: *b"abcdef",
            components,
            ink: Ink::Spot,
        })
        .collect();
    let prefix = Units::encode("$$$/key=p ");
    let suffix = Units::encode(" s");
    let header = acb::Header {
        identifier: 3000,
        page_size: 3,
        page_offset: 2,
        space,
        tag: Some(acb::Tag::Spot),
        title: Units::default(),
        prefix: Units::new(&prefix),
        suffix: Units::new(&suffix),
        description: Units::default(),
    };
    acb::write(&header, &swatches)
}

#[test]
fn acb_is_read_and_written() {
    for file in [
        example("book.acb"),
        book(Space::Lab, [1, 2, 3, 0], ["n"; 7]).unwrap(),
    ] {
        let book = acb::read(&file).unwrap();
        assert_eq!(book.write().unwrap(), file);
        let swatches: Vec<_> = book.iter().collect();
        assert_eq!(acb::write_length(book.header(), &swatches), Ok(file.len()));
        assert_eq!(acb::write(book.header(), &swatches).unwrap(), file);
        for (i, swatch) in swatches.iter().enumerate() {
            assert_eq!(acb::record_at(&file, i).as_ref(), Ok(swatch));
            assert_eq!(book.get(i).as_ref(), Some(swatch));
            assert_eq!(acb::shown_at(&file, i), Ok(book.shown(swatch)));
            assert_eq!(acb::full_name(&file, i), Ok(book.full_name(swatch)));
        }
        let none = Err(refusal(12, 0));
        assert_eq!(acb::record_at(&file, book.len()), none);
        assert_eq!(acb::judge(&file).unwrap(), (book.len(), *book.header()));
        let cut = acb::judge(&file[..file.len() - 1]);
        assert_eq!(cut, Err(refusal(2, file.len() - 8)));
    }
}

#[test]
fn acb_is_shown() {
    let shown = |space, components| {
        let file = book(space, components, ["n"; 7]).unwrap();
        let shown = acb::shown_at(&file, 6).unwrap();
        let read = acb::read(&file).unwrap();
        assert_eq!(read.shown(&read.get(6).unwrap()), shown);
        shown.values().to_vec()
    };
    assert_eq!(shown(Space::Lab, [0xF8, 0x7B, 0x7B, 0]), [97, -5, -5]);
    assert_eq!(shown(Space::Cmyk, [0, 128, 255, 0]), [100, 50, 0, 100]);
    assert_eq!(shown(Space::Rgb, [1, 2, 255, 9]), [1, 2, 255]);
    let file = book(Space::Rgb, [0; 4], ["n"; 7]).unwrap();
    assert_eq!(acb::shown_at(&file, 7), Err(refusal(12, 0)));
    let full = acb::full_name(&file, 0).unwrap();
    assert_eq!(Units::new(&full).to_string(), "p n s");
    assert_eq!(acb::full_length(&file, 0), Ok(10));
    assert_eq!(acb::full_name(&file, 7), Err(refusal(12, 0)));
    let bare = Units::encode("bare");
    assert_eq!(acb::shown_text(Units::new(&bare)).to_string(), "bare");
}

#[test]
fn acb_pages_show_their_sample() {
    let file = book(Space::Rgb, [0; 4], ["n"; 7]).unwrap();
    let read = acb::read(&file).unwrap();
    assert_eq!(read.pages(), 3);
    assert!(read.samples().eq([Some(2), Some(5), Some(6)]));
    let samples = [2, 3, usize::MAX].map(|page| read.sample(page));
    assert_eq!(samples, [Some(6), None, None]);
    let pages = [0, 1, 2, 3, usize::MAX].map(|page| acb::page_at(&file, page));
    let none = Err(refusal(12, 0));
    assert_eq!(pages, [Ok(2), Ok(5), Ok(6), none, none]);
    let dummies = book(Space::Rgb, [0; 4], ["", "n", "", "", "", "", "n"]).unwrap();
    let pages = [0, 1, 2].map(|page| acb::page_at(&dummies, page));
    assert_eq!(pages, [Ok(1), none, Ok(6)]);
    let read = acb::read(&dummies).unwrap();
    assert!(read.samples().eq([Some(1), None, Some(6)]));
}

#[test]
fn acb_writer_refuses() {
    assert_eq!(book(Space::Gray, [0; 4], ["n"; 7]), Err(refusal(4, 0)));
    let file = example("book.acb");
    let mut header = *acb::read(&file).unwrap().header();
    header.page_size = 0;
    assert_eq!(acb::write(&header, &[]), Err(refusal(5, 0)));
}

// ---- descriptors

#[test]
fn descriptor_is_read() {
    assert_eq!(descriptor::judge(&P11), Ok(1));
    let rows = descriptor::read(&P12).unwrap();
    let told: Vec<_> = rows
        .iter()
        .map(|r| (r.kind.to_string(), r.parent, r.first, r.length, r.depth))
        .collect();
    let row =
        |kind: &str, parent, first, length, depth| (kind.to_string(), parent, first, length, depth);
    let expected = [
        row("Objc", 0, 0, 40, 0),
        row("VlLs", 0, 17, 23, 1),
        row("bool", 1, 30, 5, 2),
        row("bool", 1, 35, 5, 2),
    ];
    assert_eq!(told, expected);
    let nexts: Vec<_> = rows.iter().map(|r| r.next).collect();
    assert_eq!(nexts, [None, None, Some(3), None]);
    assert_eq!(rows.columns().next, [4, 4, 3, 4]);
    assert_eq!(descriptor::values(&P12), Ok(vec![4, 26, 34, 39]));
    let last = rows.get(3).unwrap();
    assert_eq!(rows.bytes(&last), Some(&b"bool\x01"[..]));
    assert_eq!(rows.get(4), None);
    assert_eq!(descriptor::value_at(&P12, 1), Ok(&P12[26..]));
    assert_eq!(descriptor::value_at(&P12, 4), Err(refusal(12, 0)));
    assert_eq!(descriptor::judge(&P12[..39]), Err(refusal(2, 39)));
}

#[test]
fn descriptor_is_built() {
    let mut text = Text::new();
    let class = text.string_id(b"a");
    let key = text.string_id(b"a");
    let root = Entry {
        class,
        members: 1,
        ..Entry::new(b"Objc")
    };
    let list = Entry {
        key,
        members: 2,
        ..Entry::new(b"VlLs")
    };
    let flag = Entry {
        bits: 1,
        ..Entry::new(b"bool")
    };
    let entries = [root, list, flag, flag];
    assert_eq!(descriptor::build_length(&entries, text.bytes()), Ok(40));
    assert_eq!(descriptor::build(&entries, text.bytes()), Ok(P12.to_vec()));
    // An entry too few or too many, a text that is too short, and a `bool` that is none.
    let short = descriptor::build(&entries[..3], text.bytes());
    assert_eq!(short, Err(refusal(2, 0)));
    let long = [root, list, flag, flag, flag];
    assert_eq!(descriptor::build(&long, text.bytes()), Err(refusal(6, 0)));
    let cut = descriptor::build(&entries, &text.bytes()[..1]);
    assert_eq!(cut, Err(refusal(2, 0)));
    let two = [root, list, flag, Entry { bits: 2, ..flag }];
    assert_eq!(descriptor::build(&two, text.bytes()), Err(refusal(5, 0)));
    assert_eq!(descriptor::build(&[], &[]), Err(refusal(2, 0)));
}

#[test]
fn built_descriptor_holds_what_was_given() {
    let mut text = Text::new();
    let pair = |key: Part, kind: &[u8; 4]| Entry {
        key,
        ..Entry::new(kind)
    };
    let root = Entry {
        class_name: text.string("Class"),
        class: text.char_id(b"clss"),
        members: 6,
        ..Entry::new(b"Objc")
    };
    let ink = Entry {
        unit: Tag(*b"#Prc"),
        bits: 37.5f64.to_bits(),
        ..pair(text.char_id(b"Ink "), b"UntF")
    };
    let long = Entry {
        bits: (-3i32 as u32).into(),
        ..pair(text.string_id(b"layer"), b"long")
    };
    let wide = Entry {
        bits: (-3i64) as u64,
        ..pair(text.char_id(b"Wide"), b"comp")
    };
    let name = Entry {
        one: text.string("Label"),
        ..pair(text.char_id(b"Nm  "), b"TEXT")
    };
    let data = Entry {
        one: text.data(&[1, 2, 3]),
        ..pair(text.char_id(b"Data"), b"tdta")
    };
    let array = Entry {
        objects: 2,
        class: text.char_id(b"Pnt "),
        members: 1,
        ..pair(text.char_id(b"Pts "), b"ObAr")
    };
    let column = Entry {
        unit: Tag(*b"#Pxl"),
        one: text.doubles(&[0.5, -1.0]),
        ..pair(text.char_id(b"Hrzn"), b"UnFl")
    };
    let entries = [root, ink, long, wide, name, data, array, column];
    let file = descriptor::build(&entries, text.bytes()).unwrap();
    let rows = descriptor::read(&file).unwrap();
    let kinds: Vec<Tag> = rows.iter().map(|row| row.kind).collect();
    assert_eq!(kinds, entries.map(|entry| entry.kind));
    let typed = |row| descriptor::typed_at(&file, row);
    assert_eq!(typed(1), Ok(Value::UnitDouble(Tag(*b"#Prc"), 37.5)));
    assert_eq!(typed(2), Ok(Value::Long(-3)));
    assert_eq!(typed(3), Ok(Value::Comp(-3)));
    let string = descriptor::value_at(&file, 4).unwrap();
    assert_eq!(string, *b"\0\0\0\x06\0L\0a\0b\0e\0l\0\0");
    assert_eq!(
        descriptor::value_at(&file, 5),
        Ok(&[0, 0, 0, 3, 1, 2, 3][..])
    );
    let keys = [*b"\0\0\0\0Pts ", *b"\0\0\0\0Hrzn"].concat();
    assert_eq!(rows.find(&keys), Ok(vec![Some(6), None]));
    for entry in entries {
        assert_eq!(Entry::from_numbers(entry.numbers()), entry);
    }
}

#[test]
fn entries_of_a_descriptor_build_it() {
    let swatch = example("swatch.desc");
    for file in [&P12[..], &swatch] {
        let entries = descriptor::entries(file).unwrap();
        let rows = descriptor::read(file).unwrap();
        let kinds: Vec<Tag> = rows.iter().map(|row| row.kind).collect();
        let found: Vec<Tag> = entries.iter().map(|entry| entry.kind).collect();
        assert_eq!(found, kinds);
        assert_eq!(descriptor::build(&entries, file), Ok(file.to_vec()));
    }
    // The place of a part of no bytes is where it would begin.
    let root = descriptor::entries(&P12).unwrap()[0];
    assert_eq!(root.class_name, Part { count: 0, first: 8 });
    assert_eq!(root.class, Part { count: 1, first: 12 });
    assert_eq!(root.key, Part::default());
    assert_eq!(descriptor::entries(&P12[..39]), Err(refusal(2, 39)));
}

#[test]
fn descriptor_values_have_their_types() {
    let file = example("swatch.desc");
    let rows = descriptor::read(&file).unwrap();
    let values: Vec<_> = (0..rows.len())
        .map(|row| descriptor::typed_at(&file, row).unwrap())
        .collect();
    let expected = [
        Value::Other,
        Value::Other,
        Value::Bool(true),
        Value::Other,
        Value::Double(255.0),
        Value::Double(128.5),
        Value::UnitDouble(Tag(*b"#Prc"), 75.0),
        Value::Other,
        Value::Long(-3),
        Value::Comp(1 << 40),
    ];
    assert_eq!(values, expected);
    let none = descriptor::typed_at(&file, rows.len());
    assert_eq!(none, Err(refusal(12, 0)));
}

// ---- damaged files

/// Every cut of a file, and the file with each byte at some other values.
fn damaged(file: &[u8]) -> impl Iterator<Item = Vec<u8>> + '_ {
    let cuts = (0..file.len()).map(|end| file[..end].to_vec());
    let altered = (0..file.len()).flat_map(move |at| {
        [0x00, 0x01, 0x02, 0x10, 0x7F, 0xC0, 0xD8, 0xFF].map(|byte| {
            let mut altered = file.to_vec();
            altered[at] = byte;
            altered
        })
    });
    cuts.chain(altered)
}

/// Whether accepted or refused, all calls on a file say the same.
#[test]
fn damaged_files_are_refused_or_read() {
    for file in damaged(&example("swatches.aco")) {
        match aco::read(&file) {
            Ok(palette) => {
                assert!(palette.iter().eq(aco::walk(&file).unwrap()));
                assert!(palette.write().is_ok());
            }
            Err(refusal) => {
                assert_eq!(aco::walk(&file).unwrap_err(), refusal);
                assert_eq!(aco::record_at(&file, 0), Err(refusal));
            }
        }
    }
    for file in damaged(&example("palette.ase")) {
        match ase::read(&file) {
            Ok(palette) => {
                assert!(palette.iter().eq(ase::walk_blocks(&file).unwrap()));
                assert_eq!(palette.write().unwrap(), file);
            }
            Err(refusal) => {
                assert_eq!(ase::walk(&file).unwrap_err(), refusal);
                assert_eq!(ase::record_at(&file, 0), Err(refusal));
            }
        }
    }
    for file in damaged(&example("book.acb")) {
        match acb::read(&file) {
            Ok(book) => {
                assert_eq!(book.write().unwrap(), file);
                for i in 0..book.len() {
                    let full = acb::full_name(&file, i).unwrap();
                    assert_eq!(acb::full_length(&file, i), Ok(full.len()));
                }
            }
            Err(refusal) => {
                assert_eq!(acb::shown_at(&file, 0), Err(refusal));
                assert_eq!(acb::full_name(&file, 0), Err(refusal));
                assert_eq!(acb::page_at(&file, 0), Err(refusal));
            }
        }
    }
    for file in damaged(&example("swatch.desc")) {
        match descriptor::read(&file) {
            Ok(rows) => {
                for (i, row) in rows.iter().enumerate() {
                    let value = descriptor::value_at(&file, i).unwrap();
                    assert!(rows.bytes(&row).unwrap().ends_with(value));
                }
            }
            Err(refusal) => {
                assert_eq!(descriptor::value_at(&file, 0), Err(refusal));
                assert_eq!(descriptor::typed_at(&file, 0), Err(refusal));
            }
        }
    }
}

// ---- conversions

#[test]
fn samples_come_back() {
    for (space, model, full) in [
        (Space::Rgb, Model::Rgb, u16::MAX),
        (Space::Cmyk, Model::Cmyk, u16::MAX),
        (Space::Gray, Model::Gray, 10_000),
    ] {
        for sample in 0..=full {
            let channel = to_channel(space, sample).unwrap();
            assert_eq!(to_sample(model, channel), Ok(sample));
        }
    }
    assert_eq!(to_sample(Model::Rgb, 0.5), Ok(32768));
    assert_eq!(to_sample(Model::Cmyk, 0.5), Ok(32767));
    assert_eq!(to_sample(Model::Gray, 0.5), Ok(5000));
    assert_eq!(to_channel(Space::Hsb, 0), Err(refusal(14, 0)));
    assert_eq!(to_channel(Space::Lab, u16::MAX), Err(refusal(14, 0)));
    assert_eq!(to_channel(Space::Gray, 10_001), Err(refusal(5, 0)));
    assert_eq!(to_sample(Model::Lab, 2.0), Err(refusal(14, 0)));
    assert_eq!(to_sample(Model::Gray, 2.0), Err(refusal(5, 0)));
}

#[test]
fn runs_come_back() {
    for (space, model, full) in [
        (Space::Rgb, Model::Rgb, u16::MAX),
        (Space::Cmyk, Model::Cmyk, u16::MAX),
        (Space::Gray, Model::Gray, 10_000),
    ] {
        let samples: Vec<u16> = (0..=full).collect();
        let channels = to_channels(space, &samples).unwrap();
        assert_eq!(channels.len(), samples.len());
        assert_eq!(to_samples(model, &channels), Ok(samples));
    }
    assert_eq!(
        to_channels(Space::Gray, &[0, 1, 10_001]),
        Err(refusal(5, 2))
    );
    assert_eq!(to_channels(Space::Lab, &[1, 2]), Err(refusal(14, 0)));
    assert_eq!(to_channels(Space::Hsb, &[]), Ok(vec![]));
    assert_eq!(to_samples(Model::Cmyk, &[0.5, 2.0]), Err(refusal(5, 1)));
    assert_eq!(to_samples(Model::Lab, &[0.5]), Err(refusal(14, 0)));
}

// ---- names and refusals

#[test]
fn units_are_shown_as_text() {
    let text = "Grün \u{1F3A8}";
    let bytes = Units::encode(text);
    let units = Units::new(&bytes);
    assert_eq!(units.to_string(), text);
    assert_eq!(units.len(), 7);
    let unpaired = [0xDC, 0x00, 0xD8, 0x3C, 0x00, 0x41, 0xD8];
    let unpaired = Units::new(&unpaired);
    assert_eq!(unpaired.to_string(), "\u{FFFD}\u{FFFD}A");
    assert_eq!(unpaired.iter().collect::<Vec<_>>(), [0xDC00, 0xD83C, 0x41]);
}

#[test]
fn names_in_utf8() {
    let bytes = Units::encode("Cyan 🎨 ü€");
    assert_eq!(Units::new(&bytes).to_utf8().unwrap(), "Cyan 🎨 ü€");
    assert_eq!(Units::default().to_utf8().unwrap(), "");
    // As many units as a file can have, and one more, which is still shown.
    let zeros = vec![0; khuyurek::LIMIT + 2];
    let most = Units::new(&zeros[..khuyurek::LIMIT]);
    assert_eq!(most.to_utf8().unwrap().len(), khuyurek::LIMIT / 2);
    let more = Units::new(&zeros);
    assert_eq!(more.to_utf8(), Err(refusal(1, 0)));
    assert_eq!(more.to_string().len(), khuyurek::LIMIT / 2 + 1);
}

#[test]
fn sentences_are_those_of_the_rules() {
    let rules = Path::new(env!("CARGO_MANIFEST_DIR")).join("../../docs/RULES.md");
    let rules = fs::read_to_string(rules).expect("the rules are there");
    for number in 0..15 {
        let sentence = refusal(number, 0).sentence();
        let line = format!("| {number} | {sentence} |\n");
        assert!(rules.contains(&line), "the rules have no line {line}");
    }
}

#[test]
fn resources_of_a_document() {
    let blocks = [
        khuyurek::resource::Block {
            id: 1000,
            name: b"",
            data: b"abc",
        },
        khuyurek::resource::Block {
            id: 1005,
            name: b"ink",
            data: b"",
        },
    ];
    let section = khuyurek::resource::write(&blocks).unwrap();
    assert_eq!(khuyurek::resource::write_length(&blocks), Ok(section.len()));
    let read = khuyurek::resource::read(&section).unwrap();
    assert_eq!(read.len(), 2);
    assert!(read.iter().eq(blocks.iter().copied()));
    assert_eq!(read.get(1), Some(blocks[1]));
    assert_eq!(read.get(2), None);
    assert_eq!(read.write().unwrap(), section);
    assert_eq!(khuyurek::resource::record_at(&section, 0), Ok(blocks[0]));
    assert_eq!(khuyurek::resource::find(&section, 1005), Ok(1));
    assert_eq!(
        khuyurek::resource::find(&section, 7).unwrap_err().number,
        12
    );
    // A document: its header, no colour mode data, the section, and what follows it.
    let mut document = b"8BPS\0\x01\0\0\0\0\0\0".to_vec();
    document.extend([0; 14]);
    document.extend([0; 4]);
    document.extend((section.len() as u32).to_be_bytes());
    document.extend(&section);
    document.extend(b"layers");
    assert_eq!(khuyurek::resource::section_of(&document), Ok(&section[..]));
    let cut = khuyurek::resource::section_of(&document[..30]).unwrap_err();
    assert_eq!((cut.number, cut.place), (2, 30));
}
