//! How far the reading of a capture has come, on standard error: only where that is a terminal, and
//! only after a second.

use std::io::{self, IsTerminal, Write};
use std::sync::atomic::{AtomicBool, Ordering};
use std::time::{Duration, Instant};

/// Nothing is shown before this time has passed.
const PATIENCE: Duration = Duration::from_secs(1);
/// The time between two of its lines.
const PAUSE: Duration = Duration::from_millis(250);

/// Whether `--quiet` is given.
static QUIET: AtomicBool = AtomicBool::new(false);
/// Whether a line of progress stands on the terminal.
static STANDS: AtomicBool = AtomicBool::new(false);

pub fn silence() {
    QUIET.store(true, Ordering::Relaxed);
}

/// Removes the line of progress, so that another line can be written there.
pub fn clear() {
    if STANDS.swap(false, Ordering::Relaxed) {
        let _ = write!(io::stderr(), "\r\x1b[K");
    }
}

pub struct Progress {
    name: String,
    /// The size of a file; none if it is no plain file.
    all: Option<u64>,
    done: u64,
    start: Instant,
    /// When the next line is due; none if none ever is.
    due: Option<Instant>,
}

impl Progress {
    pub fn new(name: &str, all: Option<u64>) -> Progress {
        let start = Instant::now();
        let wanted = !QUIET.load(Ordering::Relaxed) && io::stderr().is_terminal();
        Progress {
            name: short(name),
            all,
            done: 0,
            start,
            due: wanted.then(|| start + PATIENCE),
        }
    }

    pub fn stop(&mut self) {
        self.due = None;
    }

    /// So many bytes more are done.
    pub fn add(&mut self, bytes: usize) {
        self.done += bytes as u64;
        let Some(due) = self.due else {
            return;
        };
        let now = Instant::now();
        if now >= due {
            self.due = Some(now + PAUSE);
            let line = line(self.done, self.all, now - self.start);
            clear();
            let _ = write!(io::stderr(), "rietknoest: {}: {line}", self.name);
            STANDS.store(true, Ordering::Relaxed);
        }
    }
}

impl Drop for Progress {
    fn drop(&mut self) {
        clear();
    }
}

/// A name that leaves room for the rest in a narrow terminal: of a long one the end.
fn short(name: &str) -> String {
    let letters: Vec<char> = name.chars().collect();
    match letters.len() {
        0..=32 => name.to_string(),
        n => format!("..{}", String::from_iter(&letters[n - 30..])),
    }
}

/// Done, of how much, how fast.
fn line(done: u64, all: Option<u64>, time: Duration) -> String {
    let speed = done as f64 / time.as_secs_f64();
    let speed = size(speed as u64);
    match all {
        Some(all) => format!("{} of {}, {speed}/s", size(done), size(all.max(done))),
        None => format!("{}, {speed}/s", size(done)),
    }
}

/// Bytes in the largest unit of which there is one: `3.4 MB`.
fn size(bytes: u64) -> String {
    let units = [(1_000_000_000, "GB"), (1_000_000, "MB"), (1_000, "kB")];
    match units.iter().find(|(unit, _)| bytes >= *unit) {
        Some((unit, name)) => format!("{}.{} {name}", bytes / unit, bytes % unit * 10 / unit),
        None => format!("{bytes} B"),
    }
}

#[cfg(test)]
mod tests {
    use super::*;

    #[test]
    fn sizes_and_lines() {
        let sizes = [
            (0, "0 B"),
            (999, "999 B"),
            (1_000, "1.0 kB"),
            (3_449_999, "3.4 MB"),
            (2_000_000_000, "2.0 GB"),
            (u64::MAX, "18446744073.7 GB"),
        ];
        for (bytes, text) in sizes {
            assert_eq!(size(bytes), text);
        }
        let two = Duration::from_secs(2);
        let all = Some(4_000_000);
        assert_eq!(line(1_000_000, all, two), "1.0 MB of 4.0 MB, 500.0 kB/s");
        assert_eq!(line(1_000_000, None, two), "1.0 MB, 500.0 kB/s");
    }

    #[test]
    fn a_long_name_is_cut_in_front() {
        assert_eq!(short("capture"), "capture");
        let long = format!("{}capture", "folder/".repeat(20));
        assert_eq!(short(&long).len(), 32);
        assert!(short(&long).ends_with("folder/capture"));
    }
}
