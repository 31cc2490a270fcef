//! How far a call over many files has come, on standard error.

use std::io::{stderr, stdout, IsTerminal, Write};
use std::sync::atomic::{AtomicBool, Ordering};
use std::time::{Duration, Instant};

/// Whether a line of progress stands at the terminal.
static STANDS: AtomicBool = AtomicBool::new(false);

/// How often a terminal's line is written anew.
const PAUSE: Duration = Duration::from_millis(100);

pub struct Progress {
    shown: Shown,
    files: Option<usize>,
    done: usize,
    /// When the line was last written.
    written: Option<Instant>,
}

#[derive(PartialEq, Eq)]
enum Shown {
    Not,
    /// One line, written anew.
    Line,
    /// A line a file.
    Lines,
}

impl Progress {
    /// For so many files, where that is known. It is shown where it is asked for, and
    /// else at a terminal that does not also show the output.
    pub fn of(files: Option<usize>, asked: bool, late: bool) -> Self {
        let terminal = stderr().is_terminal();
        let alone = late || !stdout().is_terminal();
        let many = files != Some(1);
        let shown = match (terminal, asked) {
            (true, true) => Shown::Line,
            (true, false) if alone && many => Shown::Line,
            (false, true) => Shown::Lines,
            _ => Shown::Not,
        };
        Progress {
            shown,
            files,
            done: 0,
            written: None,
        }
    }

    /// Another file is begun.
    pub fn next(&mut self, title: &str) {
        self.done += 1;
        let count = match self.files {
            Some(files) => format!("{} of {files}", self.done),
            None => self.done.to_string(),
        };
        match self.shown {
            Shown::Not => {}
            Shown::Lines => eprintln!("khuyurek: {count}: {title}"),
            Shown::Line => {
                let due = self.written.is_none_or(|then| then.elapsed() >= PAUSE);
                if due {
                    eprint!("\r\x1b[Kkhuyurek: {count}");
                    let _ = stderr().flush();
                    self.written = Some(Instant::now());
                    STANDS.store(true, Ordering::Relaxed);
                }
            }
        }
    }
}

/// Takes the line away, before something else is said.
pub fn clear() {
    if STANDS.swap(false, Ordering::Relaxed) {
        eprint!("\r\x1b[K");
        let _ = stderr().flush();
    }
}

impl Drop for Progress {
    fn drop(&mut self) {
        clear();
    }
}
