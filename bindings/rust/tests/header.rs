//! The functions that the library exports, those that the header for C declares
//! and those that `khuyurek-sys` declares are the same, with the same parameters and
//! answers: names, order and types, down to the fields of each struct.

use std::collections::BTreeMap;
use std::fs;
use std::path::{Path, PathBuf};

/// A struct is held by its fields, so that its own name does not matter.
#[derive(Clone, Debug)]
enum Type {
    Plain(String),
    Fields(Vec<Named>),
}

/// A field or a parameter.
type Named = (String, Type);

#[derive(Debug)]
struct Function {
    parameters: Vec<Named>,
    answer: Type,
}

type Functions = BTreeMap<String, Function>;
type Structs = BTreeMap<String, Type>;

/// Names of the library's source, and what they are called outside of it: some
/// are words of the language there, or here.
const RENAMED: [(&str, &str); 5] = [
    ("rec", "record"),
    ("i", "index"),
    ("size", "length"),
    ("size", "page_size"),
    ("offset", "page_offset"),
];

#[test]
fn header_declares_what_is_exported() {
    same(&exported(), &header(&source("include/khuyurek.h")));
}

#[test]
fn rust_declares_what_is_exported() {
    same(&exported(), &declared());
}

#[test]
fn longest_sentence_is_the_librarys() {
    let most = khuyurek::raw::text::SENTENCE;
    for (path, line) in [
        ("include/khuyurek.h", format!("#define KHUYUREK_SENTENCE {most}")),
        ("crates/refusal/specs/Sentences.antt", format!("most = {most}")),
    ] {
        assert!(source(path).lines().any(|found| found == line), "{line}");
    }
}

#[test]
fn widths_and_limit_are_the_librarys() {
    let header = source("include/khuyurek.h");
    let library = |name: &str| source(&format!("crates/{name}/src/lib.rt"));
    for (name, layout, judging, width) in [
        ("ACO", "aco", "aco", khuyurek::aco::WIDTH),
        ("ASE", "ase", "ase", khuyurek::ase::WIDTH),
        ("ACB", "acb", "acb", khuyurek::acb::WIDTH),
        (
            "RESOURCE",
            "resource",
            "resource",
            khuyurek::resource::WIDTH,
        ),
    ] {
        let limit = khuyurek::LIMIT;
        for (text, line) in [
            (&header, format!("#define KHUYUREK_LIMIT {limit}u")),
            (
                &library(judging),
                format!("pub const LIMIT: usize = {limit};"),
            ),
            (&header, format!("#define KHUYUREK_{name}_WIDTH {width}")),
            (
                &library(layout),
                format!("pub const WIDTH: usize = {width};"),
            ),
        ] {
            assert!(text.lines().any(|found| found == line), "{name}: {line}");
        }
    }
}

#[test]
fn entry_is_the_librarys() {
    let entry = khuyurek::descriptor::ENTRY;
    let header = source("include/khuyurek.h");
    let line = format!("#define KHUYUREK_DESCRIPTOR_ENTRY {entry}");
    assert!(header.lines().any(|found| found == line), "{line}");
    let library = source("crates/descriptor_entry/src/lib.rt");
    let line = format!("pub const WIDTH: usize = {entry};");
    assert!(library.lines().any(|found| found == line), "{line}");
}

#[test]
fn store_is_the_librarys() {
    let store = khuyurek::stream::STORE;
    let header = source("include/khuyurek.h");
    let line = format!("#define KHUYUREK_ACO_STORE {store}");
    assert!(header.lines().any(|found| found == line), "{line}");
    let library = source("crates/aco_stream/src/lib.rt");
    let line = format!("pub const STORE: usize = {store};");
    assert!(library.lines().any(|found| found == line), "{line}");
}

/// A stream is handed over by value and is kept small.
#[test]
fn stream_is_small() {
    assert!(size_of::<khuyurek::raw::stream::Stream>() <= 128);
}

/// The header and docs/INTERFACE.md name the refusals of docs/RULES.md's table, in its words.
#[test]
fn refusals_are_the_tables() {
    let header = source("include/khuyurek.h");
    let interface = source("docs/INTERFACE.md");
    for (number, sentence) in refusals() {
        let comment = format!("/* {sentence} */");
        let mut lines = header.lines().skip_while(|line| *line != comment).skip(1);
        let named = lines.next().unwrap_or_else(|| panic!("no {comment}"));
        let name = named
            .strip_prefix("#define ")
            .and_then(|after| after.strip_suffix(&format!(" {number}u")));
        let name = name.unwrap_or_else(|| panic!("{named} is not {number}"));
        let row = format!("| {number} | `{name}` | {sentence}");
        assert!(
            interface.lines().any(|line| line.starts_with(&row)),
            "{row}"
        );
    }
}

/// The numbers of docs/RULES.md's table with their sentences, 0 left out.
fn refusals() -> Vec<(usize, String)> {
    let rules = source("docs/RULES.md");
    let (_, table) = rules
        .split_once("\n### Refusals\n")
        .expect("a table of refusals");
    let rows = table
        .lines()
        .filter_map(|line| line.strip_prefix("| ")?.strip_suffix(" |"));
    let rows = rows.filter_map(|row| row.split_once(" | "));
    let rows = rows.filter_map(|(number, sentence)| Some((number.parse().ok()?, sentence.into())));
    let rows: Vec<(usize, String)> = rows.filter(|(number, _)| *number != 0).collect();
    assert!(rows.iter().map(|(number, _)| *number).eq(1..=14));
    rows
}

/// A difference in a name, an order or a type is seen.
#[test]
fn differences_are_seen() {
    let text = source("include/khuyurek.h");
    for (from, to) in [
        ("size_t lists;", "uint32_t lists;"),
        (
            "size_t colours;\n    size_t lists;",
            "size_t lists;\n    size_t colours;",
        ),
        ("uint16_t samples[4];", "uint16_t samples[5];"),
        (
            "uint32_t model, uint32_t bits",
            "uint32_t bits, uint32_t model",
        ),
        ("const uint8_t *string", "uint8_t *string"),
        ("khuyurek_acb_page_at", "khuyurek_acb_page_of"),
    ] {
        assert!(text.contains(from), "the header has no {from}");
        let altered = header(&text.replacen(from, to, 1));
        let difference = first_difference(&exported(), &altered);
        assert!(difference.is_some(), "{to} is not seen");
    }
}

// ---- comparing

fn same(exported: &Functions, declared: &Functions) {
    assert!(!exported.is_empty());
    if let Some(difference) = first_difference(exported, declared) {
        panic!("{difference}");
    }
}

fn first_difference(exported: &Functions, declared: &Functions) -> Option<String> {
    let names = |functions: &Functions| functions.keys().cloned().collect::<Vec<_>>();
    if names(exported) != names(declared) {
        return Some(format!("{:?}\n{:?}", names(exported), names(declared)));
    }
    exported.iter().find_map(|(name, a)| {
        let b = &declared[name];
        let agree = agree_all(&a.parameters, &b.parameters) && agree(&a.answer, &b.answer);
        (!agree).then(|| format!("{name}: {a:?}\n{b:?}"))
    })
}

fn agree_all(a: &[Named], b: &[Named]) -> bool {
    a.len() == b.len()
        && a.iter().zip(b).all(|((name, of), (other, is))| {
            let named = name == other || RENAMED.contains(&(name, other));
            named && agree(of, is)
        })
}

fn agree(a: &Type, b: &Type) -> bool {
    match (a, b) {
        (Type::Plain(a), Type::Plain(b)) => a == b,
        (Type::Fields(a), Type::Fields(b)) => agree_all(a, b),
        _ => false,
    }
}

// ---- the three sources

fn repository() -> PathBuf {
    Path::new(env!("CARGO_MANIFEST_DIR")).join("../..")
}

fn source(path: &str) -> String {
    let path = repository().join(path);
    fs::read_to_string(&path).unwrap_or_else(|error| panic!("{}: {error}", path.display()))
}

/// The sources of a folder with an ending, in the order of their names.
fn sources(folder: &str, ending: &str) -> Vec<String> {
    let entries = fs::read_dir(repository().join(folder)).expect("the folder is there");
    let mut paths: Vec<PathBuf> = entries.map(|entry| entry.unwrap().path()).collect();
    paths.retain(|path| path.extension().is_some_and(|found| found == ending));
    paths.sort();
    let texts = paths.iter().map(|path| fs::read_to_string(path).unwrap());
    texts.map(|text| without_comments(&text)).collect()
}

fn without_comments(text: &str) -> String {
    let lines = text.lines().map(|line| line.split("//").next().unwrap());
    lines.collect::<Vec<_>>().join("\n")
}

/// The structs of a source file.
fn structs_of(path: &str) -> Structs {
    rust_structs(&without_comments(&source(path)), &Structs::new())
}

/// What the library's source exports; a struct of one module is known in all.
fn exported() -> Functions {
    let texts = sources("crates/khuyurek/src", "rt");
    // Twice, since one may hold another's.
    let both = texts.iter().chain(&texts);
    let structs = both.fold(Structs::new(), |known, text| rust_structs(text, &known));
    let mut functions = Functions::new();
    for text in &texts {
        for after in text.split("pub extern \"C\" fn ").skip(1) {
            // What an answer promises, or its body, follows its type.
            let end = after.find("ensures").expect("each says what it answers");
            add_rust_function(&mut functions, after[..end].trim(), &structs);
        }
    }
    functions
}

/// What `khuyurek-sys` declares; a struct of its root is known in its modules.
fn declared() -> Functions {
    let root = structs_of("bindings/rust/sys/src/lib.rs");
    let mut functions = Functions::new();
    for text in sources("bindings/rust/sys/src", "rs") {
        let structs = rust_structs(&text, &root);
        for block in text.split("extern \"C\" {").skip(1) {
            let block = &block[..block.find('}').expect("a block ends")];
            for function in block.split("fn ").skip(1) {
                let end = function.find(';').expect("a declaration ends");
                add_rust_function(&mut functions, &function[..end], &structs);
            }
        }
    }
    functions
}

/// The structs of a source, each after those that it holds.
fn rust_structs(text: &str, known: &Structs) -> Structs {
    let mut structs = known.clone();
    for after in text.split("#[repr(C)]").skip(1) {
        let (_, after) = after.split_once("pub struct ").expect("a struct follows");
        let (name, after) = after.split_once('{').expect("its fields follow");
        let (fields, _) = after.split_once('}').expect("its fields end");
        let fields = rust_named(&fields.replace("pub ", ""), &structs);
        structs.insert(name.trim().into(), Type::Fields(fields));
    }
    structs
}

fn add_rust_function(functions: &mut Functions, text: &str, structs: &Structs) {
    let (name, after) = text.split_once('(').expect("parameters follow");
    let (parameters, answer) = after.split_once(')').expect("parameters end");
    let answer = answer.trim().strip_prefix("->").expect("an answer");
    let function = Function {
        parameters: rust_named(parameters, structs),
        answer: rust_type(answer.trim(), structs),
    };
    let before = functions.insert(name.trim().into(), function);
    assert!(before.is_none(), "{name} is there twice");
}

/// A slice is a pointer and a length.
fn rust_named(text: &str, structs: &Structs) -> Vec<Named> {
    let mut named = Vec::new();
    for part in text.split(',').map(str::trim).filter(|p| !p.is_empty()) {
        let (name, of) = part.split_once(": ").expect("a name has a type");
        let (pointer, element) = match (of.strip_prefix("&["), of.strip_prefix("&mut [")) {
            (Some(element), _) => ("*const", element),
            (_, Some(element)) => ("*mut", element),
            _ => {
                named.push((name.into(), rust_type(of, structs)));
                continue;
            }
        };
        let element = element.trim_end_matches(']');
        named.push((name.into(), Type::Plain(format!("{pointer} {element}"))));
        named.push((format!("{name}_len"), Type::Plain("usize".into())));
    }
    named
}

fn rust_type(name: &str, structs: &Structs) -> Type {
    let plain = || Type::Plain(name.into());
    structs.get(name).cloned().unwrap_or_else(plain)
}

/// What the header declares.
fn header(text: &str) -> Functions {
    let mut text = text.to_string();
    while let Some(start) = text.find("/*") {
        let end = start + text[start..].find("*/").expect("a comment ends") + 2;
        text.replace_range(start..end, " ");
    }
    let lines = text.lines().filter(|line| !line.starts_with('#'));
    let text = lines.collect::<Vec<_>>().join(" ");
    let text = text.replacen("extern \"C\" {", "", 1);
    let mut structs = Structs::new();
    let mut functions = Functions::new();
    let mut rest = text.trim();
    while !rest.is_empty() && rest != "}" {
        if let Some(after) = rest.strip_prefix("typedef struct {") {
            let (fields, after) = after.split_once('}').expect("its fields end");
            let (name, after) = after.split_once(';').expect("its name follows");
            let fields = fields.split(';').flat_map(|field| c_named(field, &structs));
            let fields = Type::Fields(fields.collect());
            structs.insert(name.trim().into(), fields);
            rest = after.trim();
            continue;
        }
        let (declaration, after) = rest.split_once(';').expect("a declaration ends");
        let (head, parameters) = declaration.split_once('(').expect("parameters follow");
        let parameters = parameters.trim_end().trim_end_matches(')');
        let (answer, name) = head.rsplit_once(' ').expect("an answer and a name");
        let parameters = parameters.split(',').flat_map(|p| c_named(p, &structs));
        let function = Function {
            parameters: parameters.collect(),
            answer: c_type(answer, &structs),
        };
        let before = functions.insert(name.into(), function);
        assert!(before.is_none(), "{name} is there twice");
        rest = after.trim();
    }
    functions
}

/// The fields of one declaration, which may name several.
fn c_named(text: &str, structs: &Structs) -> Vec<Named> {
    let text = text.trim();
    if text.is_empty() {
        return Vec::new();
    }
    let (constant, text) = match text.strip_prefix("const ") {
        Some(text) => (true, text),
        None => (false, text),
    };
    let (of, names) = text.split_once(' ').expect("a type and a name");
    let element = c_type(of, structs);
    let names = names.split(',').map(str::trim);
    let named = names.map(|name| {
        let plain = match &element {
            Type::Plain(plain) => plain,
            Type::Fields(_) => return (name.into(), element.clone()),
        };
        if let Some(name) = name.strip_prefix('*') {
            let pointer = if constant { "*const" } else { "*mut" };
            return (name.into(), Type::Plain(format!("{pointer} {plain}")));
        }
        match name.trim_end_matches(']').split_once('[') {
            Some((name, count)) => (name.into(), Type::Plain(format!("[{plain}; {count}]"))),
            None => (name.into(), element.clone()),
        }
    });
    named.collect()
}

fn c_type(name: &str, structs: &Structs) -> Type {
    let plain = match name.trim() {
        "size_t" => "usize",
        "uint8_t" => "u8",
        "uint16_t" => "u16",
        "uint32_t" => "u32",
        "uint64_t" => "u64",
        "int32_t" => "i32",
        name => return structs.get(name).expect("a known type").clone(),
    };
    Type::Plain(plain.into())
}
