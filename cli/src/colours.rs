//! Colours in words and as JSON.

use crate::json::Object;
use crate::text::{is_torn, quoted, unit_digits};
use khuyurek::{aco, ase, Ink, Model, Space, Units};
use std::io;

/// A swatch: its name in quotes, its space and its samples.
pub fn swatch(swatch: &aco::Swatch<'_>) -> String {
    let values: Vec<String> = samples(swatch).map(|sample| sample.to_string()).collect();
    let (name, space) = (quoted(swatch.name), space(swatch.space));
    format!("{name} {space} {}", values.join(" "))
}

/// A colour of a palette, without its ink: its name in quotes, its model and its
/// channels, with as few digits as tell a float from every other.
pub fn colour(colour: &ase::Colour<'_>) -> String {
    let channels = &colour.channels;
    let values: Vec<String> = channels.values().iter().map(|v| format!("{v:?}")).collect();
    let (name, model) = (quoted(colour.name), model(channels.model()));
    format!("{name} {model} {}", values.join(" "))
}

/// The pairs of a swatch.
pub fn swatch_pairs(swatch: &aco::Swatch<'_>, object: &mut Object<'_>) -> io::Result<()> {
    name_pairs("name", swatch.name, object)?;
    object.text("space", space(swatch.space))?;
    object.numbers("samples", samples(swatch))
}

/// The pairs of a colour, its ink too.
pub fn colour_pairs(colour: &ase::Colour<'_>, object: &mut Object<'_>) -> io::Result<()> {
    name_pairs("name", colour.name, object)?;
    object.text("model", model(colour.channels.model()))?;
    let values = colour.channels.values().iter();
    object.numbers("channels", values.map(|value| format!("{value:?}")))?;
    object.text("ink", ink(colour.ink))
}

/// A name as text. Where a surrogate is without its other half, which is U+FFFD in the
/// text, there is a pair with all units in hex.
pub fn name_pairs(key: &str, name: Units<'_>, object: &mut Object<'_>) -> io::Result<()> {
    object.text(key, &name.to_string())?;
    if is_torn(name) {
        object.text(&format!("{key}_units"), &unit_digits(name))?;
    }
    Ok(())
}

/// The samples that the space has; the chrominances of Lab have a sign.
fn samples<'a>(swatch: &'a aco::Swatch<'_>) -> impl Iterator<Item = i32> + 'a {
    let values = swatch.samples.iter().take(swatch.space.count()).enumerate();
    values.map(|(index, &sample)| match swatch.space {
        Space::Lab if index > 0 => (sample as i16).into(),
        _ => sample.into(),
    })
}

pub fn space(space: Space) -> &'static str {
    match space {
        Space::Rgb => "RGB",
        Space::Hsb => "HSB",
        Space::Cmyk => "CMYK",
        Space::Lab => "Lab",
        Space::Gray => "gray",
    }
}

pub fn model(model: Model) -> &'static str {
    match model {
        Model::Rgb => "RGB",
        Model::Cmyk => "CMYK",
        Model::Lab => "LAB",
        Model::Gray => "Gray",
    }
}

pub fn ink(ink: Ink) -> &'static str {
    match ink {
        Ink::Global => "global",
        Ink::Spot => "spot",
        Ink::Normal => "normal",
        Ink::Process => "process",
        Ink::NotStated => "not stated",
    }
}
