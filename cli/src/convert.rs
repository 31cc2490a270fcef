//! `convert IN OUT`: a palette in the other format.

use crate::arguments::{parse, Misuse};
use crate::compare::palette;
use crate::each::{begun, refused, Form};
use crate::files::{by_name, complain, take, Kind, Taken};
use crate::refusals::{self, line};
use crate::status::Status;
use crate::text::{many, shown_name};
use crate::whole_file::WholeFile;
use crate::Stopped;
use khuyurek::compare::{compare, Difference, Palette};
use khuyurek::{aco, ase, to_channels, to_samples, Ink, Refusal, Space};
use std::ffi::{OsStr, OsString};
use std::fs;
use std::io::Write;
use std::path::Path;

/// A palette in the other format, and what of the first it does not say.
struct Converted {
    bytes: Vec<u8>,
    kind: Kind,
    colours: usize,
    groups: usize,
    inks: usize,
}

/// A refusal, and what of the palette it is of.
struct Unconverted {
    refusal: Refusal,
    of: Of,
}

enum Of {
    /// The file itself.
    File,
    /// The colour at a position, which has no counterpart.
    Colour(usize),
    /// So many colours, which the other format does not hold.
    Colours(usize),
}

pub fn run(words: &[OsString], out: &mut dyn Write) -> Result<Status, Stopped> {
    let arguments = parse(words, &["--force", "--json"])?;
    let [input, output] = arguments.names[..] else {
        return Err(Misuse("convert takes two files".to_string()).into());
    };
    if output == "-" {
        return Err(Misuse("the second file is written, and has a name".to_string()).into());
    }
    let file = match take(input, arguments.kind) {
        Ok(file) => file,
        Err(untaken) => {
            untaken.complain();
            return Ok(Status::Failed);
        }
    };
    if palette(&file).is_none() || !is_named_so(&file, output) {
        return Ok(Status::Failed);
    }
    if is_same(input, output) {
        complain(&format!(
            "{}: is the file to be converted",
            shown_name(output)
        ));
        return Ok(Status::Failed);
    }
    let made = match file.kind {
        Kind::Aco => to_ase(&file.bytes),
        _ => to_aco(&file.bytes),
    };
    let form = Form::of(&arguments);
    let made = match made {
        Ok(made) => made,
        Err(unconverted) => return write_refused(&file, &unconverted, form, out),
    };
    match put(&file, &made, Path::new(output), arguments.has("--force")) {
        Ok(rounded) => write(&file, &made, rounded, output, form, out),
        Err(complaint) => {
            complain(&format!("{}: {complaint}", shown_name(output)));
            Ok(Status::Failed)
        }
    }
}

/// Whether the name of the output does not say another kind; that is complained of.
fn is_named_so(file: &Taken, output: &OsStr) -> bool {
    let other = match file.kind {
        Kind::Aco => Kind::Ase,
        _ => Kind::Aco,
    };
    match by_name(output) {
        Some(kind) if kind != other => {
            let (title, from, output) = (&file.title, file.kind.title(), shown_name(output));
            let to = other.title();
            complain(&format!(
                "{output}: {title} is {from} and is converted to {to}, which its name does not say"
            ));
            false
        }
        _ => true,
    }
}

/// Whether both are names of one file that is there.
fn is_same(input: &OsStr, output: &OsStr) -> bool {
    match (fs::canonicalize(input), fs::canonicalize(output)) {
        (Ok(input), Ok(output)) => input == output,
        _ => false,
    }
}

/// The place of a refused colour.
fn at(position: usize) -> impl Fn(Refusal) -> Unconverted {
    move |refusal| Unconverted {
        refusal: Refusal {
            place: 0,
            ..refusal
        },
        of: Of::Colour(position),
    }
}

/// The refusal of a writer of so many colours.
fn writing(colours: usize) -> impl Fn(Refusal) -> Unconverted {
    move |refusal| Unconverted {
        refusal,
        of: Of::Colours(colours),
    }
}

impl From<Refusal> for Unconverted {
    fn from(refusal: Refusal) -> Self {
        Unconverted {
            refusal,
            of: Of::File,
        }
    }
}

fn to_ase(bytes: &[u8]) -> Result<Converted, Unconverted> {
    let palette = aco::read(bytes)?;
    let mut blocks = Vec::with_capacity(palette.len());
    for (position, swatch) in palette.iter().enumerate() {
        let samples = &swatch.samples[..swatch.space.count()];
        let channels = to_channels(swatch.space, samples).map_err(at(position))?;
        let channels = match (swatch.space, &channels[..]) {
            (Space::Cmyk, &[c, m, y, k]) => ase::Channels::Cmyk([c, m, y, k]),
            (Space::Gray, &[gray]) => ase::Channels::Gray(gray),
            (_, &[r, g, b]) => ase::Channels::Rgb([r, g, b]),
            _ => unreachable!("a channel for each sample"),
        };
        let (name, ink) = (swatch.name, Ink::Normal);
        blocks.push(ase::Block::Colour(ase::Colour {
            name,
            channels,
            ink,
        }));
    }
    Ok(Converted {
        bytes: ase::write(&blocks).map_err(writing(blocks.len()))?,
        kind: Kind::Ase,
        colours: blocks.len(),
        groups: 0,
        inks: 0,
    })
}

fn to_aco(bytes: &[u8]) -> Result<Converted, Unconverted> {
    let palette = ase::read(bytes)?;
    let (mut swatches, mut groups) = (Vec::new(), 0);
    for block in palette.iter() {
        let colour = match block {
            ase::Block::Start(_) => {
                groups += 1;
                continue;
            }
            ase::Block::Stop => continue,
            ase::Block::Colour(colour) => colour,
        };
        let (model, values) = (colour.channels.model(), colour.channels.values());
        let found = to_samples(model, values).map_err(at(swatches.len()))?;
        let mut samples = [0; 4];
        samples[..found.len()].copy_from_slice(&found);
        let space = match colour.channels {
            ase::Channels::Rgb(_) => Space::Rgb,
            ase::Channels::Cmyk(_) => Space::Cmyk,
            ase::Channels::Gray(_) => Space::Gray,
            ase::Channels::Lab(_) => Space::Lab,
        };
        swatches.push(aco::Swatch {
            space,
            samples,
            name: colour.name,
            ink: Ink::NotStated,
        });
    }
    Ok(Converted {
        bytes: aco::write(&swatches).map_err(writing(swatches.len()))?,
        kind: Kind::Aco,
        colours: swatches.len(),
        groups,
        inks: swatches.len(),
    })
}

/// Writes the file, reads it back, compares it, and names it; the number of colours
/// that were rounded, or why not.
fn put(file: &Taken, made: &Converted, output: &Path, force: bool) -> Result<usize, String> {
    let written = WholeFile::write(output, &made.bytes, force)?;
    let back = written.read_back()?;
    let rounded = compared(file, made, &back).ok_or("differs from what was to be written")?;
    written.name(force)?;
    Ok(rounded)
}

/// Compares what was read back with the file and with what was made: how many colours
/// of an ASE file fall between samples; none where something else differs.
fn compared(file: &Taken, made: &Converted, back: &[u8]) -> Option<usize> {
    let of = |kind, bytes| match kind {
        Kind::Ase => Palette::Ase(bytes),
        _ => Palette::Aco(bytes),
    };
    let written = of(made.kind, back);
    let is_made = compare(of(made.kind, &made.bytes), written).ok()?;
    let from_file = compare(of(file.kind, &file.bytes), written).ok()?;
    let same = |found: &Difference| *found == Difference::Same;
    // A channel is rounded to the nearest sample; a sample never is to a channel.
    let rounded = |found: &Difference| made.kind == Kind::Aco && *found == Difference::Colour;
    let sound = is_made.iter().all(same)
        && from_file.iter().all(|found| same(found) || rounded(found))
        && back == made.bytes;
    sound.then(|| from_file.iter().filter(|found| rounded(found)).count())
}

fn write(
    file: &Taken,
    made: &Converted,
    rounded: usize,
    output: &OsStr,
    form: Form,
    out: &mut dyn Write,
) -> Result<Status, Stopped> {
    if form == Form::Json {
        let mut object = begun(file, true, out)?;
        object.text("out", &output.to_string_lossy())?;
        object.text("out_kind", made.kind.word())?;
        object.plain("colours", made.colours)?;
        object.plain("groups_left_out", made.groups)?;
        object.plain("inks_left_out", made.inks)?;
        object.plain("rounded", rounded)?;
        object.end()?;
        writeln!(out)?;
        return Ok(Status::Fine);
    }
    let (title, kind) = (shown_name(output), made.kind.title());
    let colours = many(made.colours, "colour");
    write!(
        out,
        "{title} ({kind}): {colours} from {} ({})",
        file.title,
        file.kind.title()
    )?;
    if made.kind == Kind::Ase {
        writeln!(out, ", ink normal")?;
        return Ok(Status::Fine);
    }
    let (groups, inks) = (many(made.groups, "group"), many(made.inks, "ink"));
    write!(out, "; left out: {groups}, {inks}")?;
    if rounded > 0 {
        write!(out, "; rounded to samples: {}", many(rounded, "colour"))?;
    }
    writeln!(out)?;
    Ok(Status::Fine)
}

fn write_refused(
    file: &Taken,
    unconverted: &Unconverted,
    form: Form,
    out: &mut dyn Write,
) -> Result<Status, Stopped> {
    let Unconverted { refusal, of } = unconverted;
    if form == Form::Words {
        let line = line(file, refusal);
        match of {
            Of::File => writeln!(out, "{line}")?,
            Of::Colour(position) => writeln!(out, "{line} (colour {position})")?,
            Of::Colours(count) => {
                let colours = many(*count, "colour");
                writeln!(out, "{line} (the other format does not hold {colours})")?;
            }
        }
        return Ok(Status::Refused);
    }
    match of {
        Of::File => refused(file, refusal, out)?,
        Of::Colour(number) | Of::Colours(number) => {
            let mut object = begun(file, false, out)?;
            let is_one = matches!(of, Of::Colour(_));
            object.plain(if is_one { "position" } else { "colours" }, number)?;
            refusals::object(file, refusal, object.object("refusal")?)?;
            object.end()?;
            writeln!(out)?;
        }
    }
    Ok(Status::Refused)
}
