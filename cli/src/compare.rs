//! `compare OLD NEW`: the positions at which two palettes differ.

use crate::arguments::{parse, Misuse};
use crate::colours::{colour, colour_pairs, swatch, swatch_pairs};
use crate::each::Form;
use crate::files::{complain, take, Kind, Taken};
use crate::json::Object;
use crate::refusals::{self, line};
use crate::status::Status;
use crate::Stopped;
use khuyurek::compare::{compare, Difference, Palette, Refused};
use khuyurek::{aco, ase};
use std::ffi::OsString;
use std::io::{self, Write};

pub fn run(words: &[OsString], out: &mut dyn Write) -> Result<Status, Stopped> {
    let arguments = parse(words, &["--json"])?;
    let [old, new] = arguments.names[..] else {
        return Err(Misuse("compare takes two files".to_string()).into());
    };
    if old == "-" && new == "-" {
        return Err(Misuse("standard input is one file".to_string()).into());
    }
    let mut taken = Vec::new();
    for name in [old, new] {
        match take(name, arguments.kind) {
            Ok(file) => taken.push(file),
            Err(untaken) => untaken.complain(),
        }
    }
    let [first, second] = &taken[..] else {
        return Ok(Status::Failed);
    };
    let (Some(old), Some(new)) = (palette(first), palette(second)) else {
        return Ok(Status::Failed);
    };
    let files = [first, second];
    match (compare(old, new), Form::of(&arguments)) {
        (Ok(found), Form::Words) => write(files, &found, out),
        (Ok(found), Form::Json) => write_object(files, &found, out),
        (Err(refused), form) => {
            match form {
                Form::Words => {
                    let file = files[refused.file as usize - 1];
                    writeln!(out, "{}", line(file, &refused.refusal))?;
                }
                Form::Json => write_refused(files, &refused, out)?,
            }
            Ok(Status::Refused)
        }
    }
}

/// None of another kind, which is said.
pub fn palette(file: &Taken) -> Option<Palette<'_>> {
    match file.kind {
        Kind::Aco => Some(Palette::Aco(&file.bytes)),
        Kind::Ase => Some(Palette::Ase(&file.bytes)),
        kind => {
            complain(&format!("{}: {} is no palette", file.title, kind.title()));
            None
        }
    }
}

fn write(files: [&Taken; 2], found: &[Difference], out: &mut dyn Write) -> Result<Status, Stopped> {
    let [mut first, mut second] = files.map(Colours::of);
    let mut differing = 0;
    for (position, found) in found.iter().enumerate() {
        let (old, new) = (first.next(), second.next());
        let (what, colours) = match found {
            Difference::Same => continue,
            Difference::Name => ("name differs", [old, new]),
            Difference::Colour => ("colour differs", [old, new]),
            Difference::Both => ("both differ", [old, new]),
            Difference::OnlyFirst => ("only in the first", [old, None]),
            Difference::OnlySecond => ("only in the second", [new, None]),
        };
        differing += 1;
        let colours = colours.into_iter().flatten();
        let colours: Vec<String> = colours.map(|colour| colour.words()).collect();
        writeln!(out, "{position} {what}: {}", colours.join(" -> "))?;
    }
    if differing == 0 {
        writeln!(out, "same")?;
        return Ok(Status::Fine);
    }
    writeln!(out, "{differing} of {} differ", found.len())?;
    Ok(Status::Different)
}

fn write_object(
    files: [&Taken; 2],
    found: &[Difference],
    out: &mut dyn Write,
) -> Result<Status, Stopped> {
    let differing = found
        .iter()
        .filter(|kind| **kind != Difference::Same)
        .count();
    let mut object = begun(files, true, out)?;
    object.plain("same", differing == 0)?;
    object.plain("positions", found.len())?;
    object.plain("differing", differing)?;
    let mut array = object.array("differences")?;
    let [mut first, mut second] = files.map(Colours::of);
    for (position, found) in found.iter().enumerate() {
        let (old, new) = (first.next(), second.next());
        let what = match found {
            Difference::Same => continue,
            Difference::Name => "name",
            Difference::Colour => "colour",
            Difference::Both => "both",
            Difference::OnlyFirst => "only first",
            Difference::OnlySecond => "only second",
        };
        let mut object = array.object()?;
        object.plain("position", position)?;
        object.text("difference", what)?;
        for (key, colour) in [("first", old), ("second", new)] {
            if let Some(colour) = colour {
                let mut within = object.object(key)?;
                colour.pairs(&mut within)?;
                within.end()?;
            }
        }
        object.end()?;
    }
    array.end()?;
    object.end()?;
    writeln!(out)?;
    Ok(match differing {
        0 => Status::Fine,
        _ => Status::Different,
    })
}

fn write_refused(files: [&Taken; 2], refused: &Refused, out: &mut dyn Write) -> io::Result<()> {
    let mut object = begun(files, false, out)?;
    object.plain("refused", refused.file)?;
    let within = object.object("refusal")?;
    let file = files[refused.file as usize - 1];
    refusals::object(file, &refused.refusal, within)?;
    object.end()?;
    writeln!(out)
}

fn begun<'a>(files: [&Taken; 2], accepted: bool, out: &'a mut dyn Write) -> io::Result<Object<'a>> {
    let mut object = Object::begin(out)?;
    object.text("first_file", &files[0].title)?;
    object.text("first_kind", files[0].kind.word())?;
    object.text("second_file", &files[1].title)?;
    object.text("second_kind", files[1].kind.word())?;
    object.plain("accepted", accepted)?;
    Ok(object)
}

/// The colours of an accepted palette; groups are passed over.
enum Colours<'a> {
    Aco(aco::Walk<'a>),
    Ase(ase::Walk<'a>),
}

enum Colour<'a> {
    Aco(aco::Swatch<'a>),
    Ase(ase::Colour<'a>),
}

impl<'a> Colours<'a> {
    fn of(file: &'a Taken) -> Self {
        let judged = "an accepted palette is walked";
        match file.kind {
            Kind::Ase => Colours::Ase(ase::walk(&file.bytes).expect(judged)),
            _ => Colours::Aco(aco::walk(&file.bytes).expect(judged)),
        }
    }
}

impl<'a> Iterator for Colours<'a> {
    type Item = Colour<'a>;

    fn next(&mut self) -> Option<Colour<'a>> {
        match self {
            Colours::Aco(walk) => walk.next().map(Colour::Aco),
            Colours::Ase(walk) => walk.next().map(Colour::Ase),
        }
    }
}

impl Colour<'_> {
    fn words(&self) -> String {
        match self {
            Colour::Aco(found) => swatch(found),
            Colour::Ase(found) => colour(found),
        }
    }

    fn pairs(&self, object: &mut Object<'_>) -> io::Result<()> {
        match self {
            Colour::Aco(found) => swatch_pairs(found, object),
            Colour::Ase(found) => colour_pairs(found, object),
        }
    }
}
