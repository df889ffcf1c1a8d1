//! How the tests run the command, and the captures that they give it. All data is made up.

#![allow(dead_code)] // each test program uses a part

use std::collections::BTreeMap;
use std::ffi::OsStr;
use std::fs;
use std::io::{self, Write};
use std::path::{Path, PathBuf};
use std::process::{self, Command, Stdio};
use std::sync::atomic::{AtomicU32, Ordering};
use std::sync::Mutex;

use rietknoest_host::SessionNumber;

/// The root of the project.
pub fn root() -> PathBuf {
    Path::new(env!("CARGO_MANIFEST_DIR")).join("..")
}

pub fn sample() -> Vec<u8> {
    fs::read(root().join("crates/listing/stdin")).unwrap()
}

/// A folder that goes with its value.
pub struct Folder(PathBuf);

impl Folder {
    pub fn new() -> Folder {
        static MADE: AtomicU32 = AtomicU32::new(0);
        let number = MADE.fetch_add(1, Ordering::Relaxed);
        let name = format!("rietknoest-test-{}-{number}", process::id());
        let path = std::env::temp_dir().join(name);
        fs::create_dir(&path).unwrap();
        Folder(path)
    }

    pub fn path(&self, name: impl AsRef<Path>) -> PathBuf {
        self.0.join(name)
    }

    pub fn with(self, name: impl AsRef<Path>, bytes: &[u8]) -> Folder {
        fs::write(self.path(name), bytes).unwrap();
        self
    }

    /// The names in it, in order.
    pub fn names(&self) -> Vec<String> {
        let entries = fs::read_dir(&self.0).unwrap();
        let mut names: Vec<_> = entries
            .map(|entry| entry.unwrap().file_name().to_string_lossy().into_owned())
            .collect();
        names.sort();
        names
    }
}

impl Drop for Folder {
    fn drop(&mut self) {
        let _ = fs::remove_dir_all(&self.0);
    }
}

/// What a run came to.
pub struct Ran {
    pub status: Option<i32>,
    pub out: Vec<u8>,
    pub error: Vec<u8>,
}

impl Ran {
    pub fn out(&self) -> &str {
        std::str::from_utf8(&self.out).unwrap()
    }

    pub fn error(&self) -> &str {
        std::str::from_utf8(&self.error).unwrap()
    }

    /// A run that ended as told, with nothing on standard error.
    pub fn quiet(&self, status: i32, out: &str) {
        assert_eq!(
            (self.status, self.out(), self.error()),
            (Some(status), out, "")
        );
    }

    /// A run that failed for one file: nothing on standard output, one line on standard error.
    pub fn failed(&self, file: &str, what: &str) {
        let line = format!("rietknoest: {file}: {what}\n");
        assert_eq!(
            (self.status, self.out(), self.error()),
            (Some(2), "", line.as_str())
        );
    }
}

/// Says what a test left out, and why: past the test's own output, which is shown only of a test
/// that fails.
pub fn not_tried(why: &str) {
    let _ = writeln!(io::stderr(), "not tried: {why}");
}

/// Whether a program is installed; if not, that is said once.
pub fn is_installed(program: &str) -> bool {
    static KNOWN: Mutex<BTreeMap<String, bool>> = Mutex::new(BTreeMap::new());
    let mut known = KNOWN.lock().unwrap();
    *known.entry(program.to_string()).or_insert_with(|| {
        let runs = Command::new(program).arg("--version").output().is_ok();
        if !runs {
            not_tried(&format!("no {program} on this machine"));
        }
        runs
    })
}

/// What a program for JSON prints of an input, if it is installed. It finds no fault in it.
pub fn json_program(words: &[&str], input: &[u8]) -> Option<String> {
    if !is_installed(words[0]) {
        return None;
    }
    let mut command = Command::new(words[0]);
    command.args(&words[1..]);
    let ran = finish(command, input);
    assert_eq!((ran.status, ran.error()), (Some(0), ""), "{}", words[0]);
    Some(ran.out().to_string())
}

/// The command, to be run in a folder.
pub fn command(folder: &Folder) -> Command {
    let mut command = Command::new(env!("CARGO_BIN_EXE_rietknoest"));
    command.current_dir(&folder.0);
    command
}

pub fn finish(mut command: Command, input: &[u8]) -> Ran {
    let mut child = command
        .stdin(Stdio::piped())
        .stdout(Stdio::piped())
        .stderr(Stdio::piped())
        .spawn()
        .unwrap();
    let mut pipe = child.stdin.take().unwrap();
    let input = input.to_vec();
    // it may end without reading all of it
    let writer = std::thread::spawn(move || drop(pipe.write_all(&input)));
    let ended = child.wait_with_output().unwrap();
    writer.join().unwrap();
    Ran {
        status: ended.status.code(),
        out: ended.stdout,
        error: ended.stderr,
    }
}

/// The command run in a folder with nothing on standard input.
pub fn run<S: AsRef<OsStr>>(folder: &Folder, words: &[S]) -> Ran {
    run_on(folder, words, b"")
}

/// The command run in a folder over a pipe.
pub fn run_on<S: AsRef<OsStr>>(folder: &Folder, words: &[S], input: &[u8]) -> Ran {
    let mut command = command(folder);
    command.args(words);
    finish(command, input)
}

/// Sends a signal, and says whether there was a program to get it.
pub fn send(signal: &str, run: u32) -> bool {
    let line = format!("kill -s {signal} {run} 2>/dev/null");
    let sent = Command::new("sh").args(["-c", &line]).status();
    sent.unwrap().success()
}

/// The files in a folder that a running program has open, with a name or without one.
pub fn open_files(run: u32, folder: &Folder) -> Vec<PathBuf> {
    let Ok(entries) = fs::read_dir(format!("/proc/{run}/fd")) else {
        return Vec::new();
    };
    let paths = entries.filter_map(|entry| Some(entry.ok()?.path()));
    let within = |path: &PathBuf| fs::read_link(path).is_ok_and(|to| to.starts_with(&folder.0));
    paths.filter(within).collect()
}

/// A frame.
pub fn frame(kind: &[u8; 4], seq: u64, body: &[u8]) -> Vec<u8> {
    let mut out = vec![0; 8192];
    let msg_type = u32::from_be_bytes(*kind);
    let seq = SessionNumber::new(seq);
    let n = rietknoest_host::write(msg_type, 20260121093000000, seq, body, &mut out).unwrap();
    out.truncate(n);
    out
}

pub fn heartbeats(n: u64) -> Vec<u8> {
    (1..=n).flat_map(|seq| frame(b"S003", seq, b"")).collect()
}

/// Letters, and spaces behind them.
pub fn text(width: usize, letters: &str) -> Vec<u8> {
    let mut field = letters.as_bytes().to_vec();
    field.resize(width, b' ');
    field
}

pub fn logon(sender: &str, target: &str) -> Vec<u8> {
    let fields = [
        text(32, sender),
        text(32, target),
        vec![0, 30],
        text(8, "0.62"),
    ];
    frame(b"S001", 1, &fields.concat())
}

/// A tick of a stream that source document 000 does not name: its extension has any length, and is
/// private.
pub fn tick(number: u64, extension: &[u8]) -> Vec<u8> {
    tick_on(100, number, extension)
}

pub fn tick_on(channel: u16, number: u64, extension: &[u8]) -> Vec<u8> {
    tick_of(b"MD219", channel, number, extension)
}

/// An order, with MemberID, TraderCode and InvestorName among its 139 bytes.
pub fn order(number: u64, member: &str, trader: &str, investor: &str) -> Vec<u8> {
    let extension = [
        text(19, "1Q20260121000000009"),
        text(12, member),
        text(12, trader),
        vec![0; 16],
        text(16, "BASKET-11001"),
        text(32, investor),
        vec![0; 6],
        text(18, ""),
        vec![0; 8],
    ];
    tick_of(b"MD211", 100, number, &extension.concat())
}

fn tick_of(stream: &[u8; 5], channel: u16, number: u64, extension: &[u8]) -> Vec<u8> {
    let fields = [
        &[13][..],
        &channel.to_be_bytes(),
        &number.to_be_bytes(),
        stream,
        b"019733  ",
        &[0; 4],
        b"0",
        &[0; 16],
        extension,
    ];
    frame(b"M201", number, &fields.concat())
}

/// A row of numbers that is always the same.
pub struct Dice(pub u64);

impl Dice {
    pub fn below(&mut self, n: usize) -> usize {
        self.0 = self
            .0
            .wrapping_mul(6364136223846793005)
            .wrapping_add(1442695040888963407);
        (self.0 >> 33) as usize % n
    }
}

/// The sample with bytes changed, cut out and put in.
pub fn damaged(dice: &mut Dice) -> Vec<u8> {
    let mut capture = sample();
    for _ in 0..dice.below(40) {
        let at = dice.below(capture.len());
        match dice.below(4) {
            0 => capture[at] ^= 1 << dice.below(8),
            1 => capture.insert(at, dice.below(256) as u8),
            2 => drop(capture.drain(at..(at + dice.below(60)).min(capture.len()))),
            _ => capture.truncate(capture.len() - dice.below(9)),
        }
    }
    capture
}
