//! The stack that reading a descriptor needs, found by trying.
//!
//! A program that runs out of its stack is stopped, so each size is tried by a
//! process of its own: this program once more, told whose calls and what size.

use crate::descriptor::{lent, lent_reference};
use generate::descriptor::{deep, flat, Long};
use std::env;
use std::hint::black_box;
use std::io;
use std::process::{Command, ExitCode, Stdio};
use std::thread;

const KIB: usize = 1 << 10;
const LIMIT: usize = 1 << 24;
/// From what a thread has at least.
const SIZES: [usize; 10] = [16, 20, 24, 32, 48, 64, 96, 128, 192, 256];

type Read = fn(&[u8], &mut [Vec<u32>; 5]);
type Shape = fn(usize) -> Long;

const READERS: [(&str, Read); 3] = [
    ("nothing", |_, _| {}),
    ("library", |file, runs| {
        black_box(proved::descriptor::judge(file));
        black_box(proved::descriptor::read(file, lent(runs)));
    }),
    ("reference", |file, runs| {
        let _ = black_box(reference::descriptor::judge(file));
        let _ = black_box(reference::descriptor::read(file, lent_reference(runs)));
    }),
];
const SHAPES: [(&str, Shape); 2] = [("flat", flat), ("deep", deep)];

/// Prints the smallest size of a thread's stack on which each reader judges and
/// reads 16 MiB.
pub fn compare() -> io::Result<()> {
    println!("\nKiB of stack on which a thread judges and reads a descriptor of 16 MiB");
    println!("nothing: a thread that reads nothing; sizes tried: {SIZES:?}");
    for (shape, _) in SHAPES {
        for (reader, _) in READERS {
            let shown = match smallest(reader, shape)? {
                Some(size) => size.to_string(),
                None => "more".to_string(),
            };
            println!("{shape:6} {reader:10} {shown:>5}");
        }
    }
    Ok(())
}

fn smallest(reader: &str, shape: &str) -> io::Result<Option<usize>> {
    for size in SIZES {
        if suffices(reader, shape, size)? {
            return Ok(Some(size));
        }
    }
    Ok(None)
}

fn suffices(reader: &str, shape: &str, size: usize) -> io::Result<bool> {
    let tried = Command::new(env::current_exe()?)
        .args(["stack-of", reader, shape, &size.to_string()])
        .stdout(Stdio::null())
        .stderr(Stdio::null())
        .status()?;
    Ok(tried.success())
}

/// What the process that tries one size does.
pub fn try_one(args: &[String]) -> ExitCode {
    let [reader, shape, size] = args else {
        return ExitCode::FAILURE;
    };
    let read = READERS.iter().find(|(title, _)| title == reader);
    let make = SHAPES.iter().find(|(title, _)| title == shape);
    let (Some((_, read)), Some((_, make)), Ok(size)) = (read, make, size.parse::<usize>()) else {
        return ExitCode::FAILURE;
    };
    let long = make(LIMIT);
    let mut runs = [(); 5].map(|()| vec![0; long.rows]);
    thread::scope(|scope| {
        let thread = thread::Builder::new().stack_size(size * KIB);
        match thread.spawn_scoped(scope, || read(&long.file, &mut runs)) {
            Ok(_) => ExitCode::SUCCESS,
            Err(_) => ExitCode::FAILURE,
        }
    })
}
