//! How far the reading of an image is, on standard error where that is a terminal.

use std::io::{self, IsTerminal, Write};
use std::sync::atomic::{AtomicUsize, Ordering};

pub struct Progress {
    name: String,
    tracks: usize,
    done: AtomicUsize,
    shown: bool,
}

impl Progress {
    pub fn new(name: String, tracks: usize) -> Progress {
        Progress { name, tracks, done: AtomicUsize::new(0), shown: io::stderr().is_terminal() }
    }

    /// One track more is read.
    pub fn step(&self) {
        if self.shown {
            // Under the lock, so that the numbers come in their order.
            let mut terminal = io::stderr().lock();
            let done = self.done.fetch_add(1, Ordering::Relaxed) + 1;
            let line = format!("\r\x1b[K{}: {done} of {} tracks", self.name, self.tracks);
            let _ = terminal.write_all(line.as_bytes());
        }
    }

    /// Takes the line away, so that what is said next does not stand behind it.
    pub fn clear(&self) {
        if self.shown {
            let _ = write!(io::stderr(), "\r\x1b[K");
        }
    }
}
