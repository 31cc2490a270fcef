//! A report's totals: their names, and as JSON.

use khuyurek::Refusal;
use std::fmt::Write;

/// How many totals a report has.
const TOTALS: usize = 31;

/// A report's totals, in the library's order.
type Totals = [u32; TOTALS];

/// How many numbers a file is refused with.
const REFUSALS: u32 = 14;

/// The names of the totals behind the refusals, in the library's order: for programs,
/// and for people.
const NAMES: [(&str, &str); 16] = [
    ("aco_rgb", "ACO colours in RGB"),
    ("aco_hsb", "ACO colours in HSB"),
    ("aco_cmyk", "ACO colours in CMYK"),
    ("aco_lab", "ACO colours in Lab"),
    ("aco_gray", "ACO colours in gray"),
    ("ase_rgb", "ASE colours in RGB"),
    ("ase_cmyk", "ASE colours in CMYK"),
    ("ase_lab", "ASE colours in LAB"),
    ("ase_gray", "ASE colours in Gray"),
    ("acb_rgb", "ACB colours in RGB"),
    ("acb_cmyk", "ACB colours in CMYK"),
    ("acb_lab", "ACB colours in Lab"),
    ("named", "colours with a name"),
    ("unnamed", "colours without a name"),
    ("dummies", "dummies"),
    ("rows", "descriptor rows"),
];

/// The name of each total, for programs.
fn keys() -> [String; TOTALS] {
    let refused = (1..=REFUSALS).map(|number| format!("refused_{number}"));
    let names = NAMES.iter().map(|(key, _)| key.to_string());
    let mut keys = ["accepted".to_string()]
        .into_iter()
        .chain(refused)
        .chain(names);
    [(); TOTALS].map(|()| keys.next().expect("every total has a name"))
}

/// A line for each total.
pub fn lines(totals: &Totals) -> String {
    let refused = (1..=REFUSALS).map(|number| {
        let refusal = Refusal {
            number,
            place: 0,
            record: 0,
            field: 0,
        };
        format!("refused by {number}: {}", refusal.sentence())
    });
    let names = NAMES.iter().map(|(_, name)| name.to_string());
    let names = ["accepted".to_string()]
        .into_iter()
        .chain(refused)
        .chain(names);
    let mut lines = String::new();
    for (total, name) in totals.iter().zip(names) {
        writeln!(lines, "{total} {name}").expect("a string takes any text");
    }
    lines
}

/// One object, a line for each total.
pub fn to_json(totals: &Totals) -> String {
    let pairs = keys().into_iter().zip(totals);
    let pairs: Vec<String> = pairs
        .map(|(key, total)| format!("  \"{key}\": {total}"))
        .collect();
    format!("{{\n{}\n}}\n", pairs.join(",\n"))
}

/// The totals of such an object: every name once, in any order, with a number that 32
/// bits hold.
pub fn from_json(text: &str) -> Result<Totals, String> {
    let keys = keys();
    let mut totals = [None; TOTALS];
    let body = text.trim_matches(is_space);
    let body = body
        .strip_prefix('{')
        .and_then(|body| body.strip_suffix('}'));
    let body = body.ok_or("is no object of totals")?;
    for pair in body.split(',') {
        let (key, total) = pair.split_once(':').ok_or("is no object of totals")?;
        let key = key.trim_matches(is_space);
        let key = key.strip_prefix('"').and_then(|key| key.strip_suffix('"'));
        let key = key.ok_or("is no object of totals")?;
        let at = keys.iter().position(|known| known == key);
        let at = at.ok_or_else(|| format!("has a total that is not known: {key}"))?;
        let total = number(total.trim_matches(is_space));
        let total = total.ok_or_else(|| format!("has no whole number for {key}"))?;
        if totals[at].replace(total).is_some() {
            return Err(format!("has {key} twice"));
        }
    }
    for (key, total) in keys.iter().zip(&totals) {
        if total.is_none() {
            return Err(format!("lacks {key}"));
        }
    }
    Ok(totals.map(Option::unwrap_or_default))
}

fn is_space(c: char) -> bool {
    matches!(c, ' ' | '\t' | '\n' | '\r')
}

/// A number as JSON has it, without a sign, a point or a leading zero.
fn number(digits: &str) -> Option<u32> {
    let plain = digits.bytes().all(|byte| byte.is_ascii_digit());
    let leading = digits.len() > 1 && digits.starts_with('0');
    if !plain || leading {
        return None;
    }
    digits.parse().ok()
}
