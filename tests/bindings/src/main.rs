//! Holds the wrapper for Rust to the reference on made-up files, and writes such files with
//! the reference's answers, for the tests of a wrapper in another language.

#![forbid(unsafe_code)]

mod made;
mod said;
mod wanted;
mod wrapped;

use made::{Asked, KINDS};
use said::Said;
use std::fs::File;
use std::io::{BufWriter, Write};
use std::process::ExitCode;
use wanted::wanted;
use wrapped::wrapped;

const USAGE: &str = "usage: bindings rust [SEED [FILES]]
       bindings corpus PATH [SEED [FILES]]";
const DEFAULT_SEED: u64 = 20_240_229;
const DEFAULT_FILES: u64 = 300_000;
const DEFAULT_CORPUS: u64 = 200_000;

fn main() -> ExitCode {
    let args: Vec<String> = std::env::args().skip(1).collect();
    let args: Vec<&str> = args.iter().map(String::as_str).collect();
    let outcome = match args[..] {
        ["rust", ref rest @ ..] => numbers(rest, DEFAULT_FILES).and_then(compare),
        ["corpus", path, ref rest @ ..] => {
            numbers(rest, DEFAULT_CORPUS).and_then(|asked| corpus(path, asked))
        }
        _ => Err(USAGE.to_string()),
    };
    match outcome {
        Ok(summary) => {
            println!("{summary}");
            ExitCode::SUCCESS
        }
        Err(complaint) => {
            eprintln!("{complaint}");
            ExitCode::FAILURE
        }
    }
}

fn numbers(args: &[&str], files: u64) -> Result<(u64, u64), String> {
    let number = |text: &str| text.parse().map_err(|_| USAGE.to_string());
    match args[..] {
        [] => Ok((DEFAULT_SEED, files)),
        [seed] => Ok((number(seed)?, files)),
        [seed, files] => Ok((number(seed)?, number(files)?)),
        _ => Err(USAGE.to_string()),
    }
}

/// How many questions of each kind were accepted and refused.
#[derive(Default)]
struct Tally([[u64; 2]; KINDS as usize]);

impl Tally {
    fn count(&mut self, asked: &Asked, answer: &Said) {
        self.0[asked.number() as usize][usize::from(answer.0[0] != 0)] += 1;
    }

    fn summary(&self) -> Result<String, String> {
        let all: u64 = self.0.iter().flatten().sum();
        let refused: u64 = self.0.iter().map(|kind| kind[1]).sum();
        if self.0.iter().flatten().any(|count| *count == 0) {
            return Err(format!(
                "a kind is never accepted, or never refused: {:?}",
                self.0
            ));
        }
        Ok(format!("{all} questions, {refused} of them refused"))
    }
}

fn compare((seed, files): (u64, u64)) -> Result<String, String> {
    let mut tally = Tally::default();
    for item in 0..files {
        let Some(asked) = Asked::made(seed, item) else {
            continue;
        };
        let Some(found) = wrapped(&asked) else {
            continue;
        };
        let wanted = wanted(&asked);
        if found != wanted {
            let question = asked.question();
            return Err(format!(
                "question {item} of kind {}: {:02X?}\nreference: {:02X?}\nwrapper:   {:02X?}",
                asked.number(),
                question.0,
                wanted.0,
                found.0,
            ));
        }
        tally.count(&asked, &found);
    }
    let summary = tally.summary()?;
    Ok(format!(
        "Rust's wrapper and the reference agree on {summary}"
    ))
}

/// Each question is its kind, a byte, and question and answer with their lengths before them.
fn corpus(path: &str, (seed, files): (u64, u64)) -> Result<String, String> {
    let failed = |error: std::io::Error| format!("{path}: {error}");
    let mut file = BufWriter::new(File::create(path).map_err(failed)?);
    let mut tally = Tally::default();
    for item in 0..files {
        let Some(asked) = Asked::made(seed, item) else {
            continue;
        };
        let answer = wanted(&asked);
        let mut said = Said::default();
        said.byte(asked.number());
        said.bytes(&asked.question().0).bytes(&answer.0);
        file.write_all(&said.0).map_err(failed)?;
        tally.count(&asked, &answer);
    }
    file.flush().map_err(failed)?;
    let summary = tally.summary()?;
    Ok(format!("{summary}, written with their answers"))
}
