//! Comparing what a listing program prints with what it has to print.

use crate::difference::{agree, hex, Checked};
use std::io::{self, ErrorKind, Write};
use std::path::Path;
use std::process::{Command, Output, Stdio};
use std::thread;
use std::time::Duration;

/// Between two pieces of an input, so that the program reads them one by one.
const PAUSE: Duration = Duration::from_millis(3);
/// One input in so many is handed over in pieces.
const INPUTS_A_PIECEMEAL: usize = 8;
/// Long lines are shown up to this many characters.
const SHOWN_LINE: usize = 400;

/// Lists each of the inputs, up to the first difference; says how many.
pub fn check_listings(
    program: &Path,
    inputs: &[Vec<u8>],
    wanted: impl Fn(&[u8]) -> String,
) -> Checked<usize> {
    for (index, input) in inputs.iter().enumerate() {
        let piecemeal = index % INPUTS_A_PIECEMEAL == 0;
        check_listing(program, input, &wanted(input), piecemeal)
            .map_err(|difference| difference.given("input", hex(input)))?;
    }
    Ok(inputs.len())
}

fn check_listing(program: &Path, input: &[u8], wanted: &str, piecemeal: bool) -> Checked {
    let call = || format!("the listing by {}", program.display());
    let output = match listing_of(program, input, piecemeal) {
        Ok(output) => output,
        Err(error) => return agree(call, &shown(wanted, 0), &error.to_string()),
    };
    if output.stdout == wanted.as_bytes() && output.status.success() {
        return Ok(());
    }
    let found = String::from_utf8_lossy(&output.stdout);
    let line = first_differing_line(wanted, &found);
    let shown_found = format!("{}, {}", shown(&found, line), output.status);
    agree(call, &shown(wanted, line), &shown_found)
}

fn first_differing_line(wanted: &str, found: &str) -> usize {
    let pairs = wanted
        .split_inclusive('\n')
        .zip(found.split_inclusive('\n'));
    pairs.take_while(|(a, b)| a == b).count()
}

/// A line of a listing with its end, cut where it is long.
fn shown(listing: &str, line: usize) -> String {
    let text = listing.split_inclusive('\n').nth(line).unwrap_or("");
    let text: String = text.chars().take(SHOWN_LINE).collect();
    format!("line {line} {text:?}")
}

fn listing_of(program: &Path, input: &[u8], piecemeal: bool) -> io::Result<Output> {
    let mut child = Command::new(program)
        .stdin(Stdio::piped())
        .stdout(Stdio::piped())
        .spawn()?;
    let mut stdin = child.stdin.take().expect("standard input was asked for");
    thread::scope(|scope| {
        // Beside the reading of its output: either pipe may fill up.
        let feeding = scope.spawn(move || feed(&mut stdin, input, piecemeal));
        let output = child.wait_with_output()?;
        feeding
            .join()
            .expect("feeding the program does not panic")?;
        Ok(output)
    })
}

fn feed(stdin: &mut impl Write, input: &[u8], piecemeal: bool) -> io::Result<()> {
    let first = if piecemeal { input.len() / 3 } else { 0 };
    let outcome = feed_in_two(stdin, &input[..first], &input[first..]);
    match outcome {
        // The program need not read an input to its end to refuse it.
        Err(error) if error.kind() == ErrorKind::BrokenPipe => Ok(()),
        outcome => outcome,
    }
}

fn feed_in_two(stdin: &mut impl Write, first: &[u8], second: &[u8]) -> io::Result<()> {
    if !first.is_empty() {
        stdin.write_all(first)?;
        stdin.flush()?;
        thread::sleep(PAUSE);
    }
    stdin.write_all(second)
}
