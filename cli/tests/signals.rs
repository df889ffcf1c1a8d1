//! Signals while `scrub` writes: nothing is left behind, at whatever moment they come, with a file
//! that has no name and with one that has.

mod common;

use std::fs;
use std::io::Write;
use std::os::unix::process::ExitStatusExt;
use std::path::PathBuf;
use std::process::{Child, Command, ExitStatus, Stdio};
use std::thread;
use std::time::Duration;

use common::*;
use rietknoest_host::step;

/// The signals by which people end a program.
const SIGNALS: [(&str, i32); 4] = [("HUP", 1), ("INT", 2), ("QUIT", 3), ("TERM", 15)];

/// A library that takes the place of a file system without files that have no name.
const SHIM: &str = "
#define _GNU_SOURCE
#include <errno.h>
#include <fcntl.h>
#include <stdarg.h>
#include <sys/syscall.h>
#include <unistd.h>
static int opened(const char *path, int flags, int mode) {
    if (flags & 020000000) {
        errno = EOPNOTSUPP;
        return -1;
    }
    return (int)syscall(SYS_openat, AT_FDCWD, path, flags, mode);
}
#define OPEN(name)                                   \\
    int name(const char *path, int flags, ...) {     \\
        va_list rest;                                \\
        va_start(rest, flags);                       \\
        int mode = va_arg(rest, int);                \\
        va_end(rest);                                \\
        return opened(path, flags, mode);            \\
    }
OPEN(open)
OPEN(open64)
";

/// That library, built.
fn shim(folder: &Folder) -> PathBuf {
    fs::write(folder.path("shim.c"), SHIM).unwrap();
    let mut cc = Command::new("cc");
    cc.args(["-shared", "-fPIC", "-o"])
        .arg(folder.path("shim.so"))
        .arg(folder.path("shim.c"));
    finish(cc, b"").quiet(0, "");
    folder.path("shim.so")
}

/// Whether the file has no name until it is whole.
#[derive(Clone, Copy, PartialEq)]
enum Way {
    Unnamed,
    Named,
}

/// Runs `scrub` from a pipe to a file, in one of the two ways.
fn scrub(folder: &Folder, library: &PathBuf, way: Way, out: &str) -> Child {
    scrub_with(folder, library, way, &["scrub", "-", "-o", out])
}

fn scrub_with(folder: &Folder, library: &PathBuf, way: Way, words: &[&str]) -> Child {
    let mut command = command(folder);
    command.args(words);
    if way == Way::Named {
        command.env("LD_PRELOAD", library);
    }
    command
        .stdin(Stdio::piped())
        .stdout(Stdio::null())
        .stderr(Stdio::null())
        .spawn()
        .unwrap()
}

fn beside(folder: &Folder) -> bool {
    folder.names().iter().any(|name| name.starts_with('.'))
}

/// Waits until the run has a file of the folder open.
fn wait_for_file(folder: &Folder, child: &Child) {
    for _ in 0..12_000 {
        if !open_files(child.id(), folder).is_empty() {
            return;
        }
        thread::sleep(Duration::from_millis(5));
    }
    panic!("no file is open");
}

/// In both ways, for each signal, while it waits for more: it ends by the signal, and nothing is
/// left.
#[test]
fn a_signal_leaves_nothing() {
    let tools = Folder::new();
    let library = shim(&tools);
    for way in [Way::Unnamed, Way::Named] {
        for (signal, number) in SIGNALS {
            for out in ["new", "old"] {
                let folder = Folder::new().with("old", b"old");
                let mut child = scrub(&folder, &library, way, out);
                let mut input = child.stdin.take().unwrap();
                input.write_all(&logon("A", "B")).unwrap();
                wait_for_file(&folder, &child);
                assert_eq!(beside(&folder), way == Way::Named, "{signal}");
                assert!(send(signal, child.id()));
                let ended = child.wait().unwrap();
                assert_eq!(ended.signal(), Some(number), "{signal}");
                assert_eq!(folder.names(), ["old"], "{signal}");
                assert_eq!(fs::read(folder.path("old")).unwrap(), b"old");
            }
        }
    }
}

/// A heartbeat of the STEP line.
fn step_heartbeat(number: usize) -> Vec<u8> {
    let number = format!("34={number}");
    let fields = ["49=A", "56=B", &number, "52=20260121-09:30:00.123"];
    let fields: Vec<_> = fields
        .iter()
        .flat_map(|f| [f, "\x01"].concat().into_bytes())
        .collect();
    let mut out = vec![0; step::LONGEST];
    let len = step::write(b'0', &fields, &mut out).unwrap();
    out.truncate(len);
    out
}

/// How the runs in one of the ways ended.
#[derive(Debug, Default)]
struct Ends {
    /// By the signal, while the file was there, with a name or without one.
    with_a_file: usize,
    /// By themselves.
    whole: usize,
}

/// At random moments, up to a tenth of a second, over a pipe that is slow: the file is there whole,
/// or as it was. In each way some runs end by the signal while they write, and some by themselves.
#[test]
fn a_signal_at_any_moment() {
    let beats = heartbeats(200);
    at_any_moment(4, &["scrub", "-", "-o", "out"], &beats, &beats);
}

#[test]
fn a_signal_at_any_moment_of_the_step_line() {
    let frames: Vec<_> = (1..=40).map(step_heartbeat).collect();
    let scrubbed = frames.iter().map(|frame| {
        let mut frame = frame.clone();
        step::scrub(&mut frame).unwrap();
        frame
    });
    let scrubbed: Vec<_> = scrubbed.collect();
    let words = ["scrub", "--step", "-", "-o", "out"];
    at_any_moment(5, &words, &frames.concat(), &scrubbed.concat());
}

/// Six times the piece is written, of which the file has the scrubbed one.
fn at_any_moment(seed: u64, words: &[&str], piece: &[u8], scrubbed: &[u8]) {
    let tools = Folder::new();
    let library = shim(&tools);
    let dice = &mut Dice(seed);
    let mut ends = [Ends::default(), Ends::default()];
    let seen = |ends: &Ends| ends.with_a_file > 0 && ends.whole > 0;
    // where all is slow the moments become longer
    for round in 0..2_000 {
        if round >= 120 && ends.iter().all(seen) {
            break;
        }
        let way = [Way::Unnamed, Way::Named][round % 2];
        let (signal, number) = SIGNALS[dice.below(4)];
        let folder = Folder::new().with("out", b"old");
        let mut child = scrub_with(&folder, &library, way, words);
        let mut input = child.stdin.take().unwrap();
        // up to so many pieces are written before it, and a moment passes
        let longest = 1 << (4 + dice.below(14 + round / 200));
        let (before, moment) = (dice.below(9), dice.below(longest) as u64);
        for _ in 0..before.min(6) {
            input.write_all(piece).unwrap();
            thread::sleep(Duration::from_micros(moment / 8));
        }
        if before >= 6 {
            drop(input);
        }
        thread::sleep(Duration::from_micros(moment));
        let was_there = !open_files(child.id(), &folder).is_empty();
        assert!(way == Way::Named || !beside(&folder), "it has a name");
        // it may have ended by itself
        if child.try_wait().unwrap().is_none() {
            send(signal, child.id());
        }
        let ended = child.wait().unwrap();
        whole_or_not(&folder, ended, number, &scrubbed.repeat(6));
        let ends = &mut ends[round % 2];
        ends.whole += usize::from(ended.success());
        ends.with_a_file += usize::from(was_there && !ended.success());
    }
    assert!(ends.iter().all(seen), "unnamed, named: {ends:?}");
}

fn whole_or_not(folder: &Folder, ended: ExitStatus, number: i32, all: &[u8]) {
    assert_eq!(folder.names(), ["out"]);
    let out = fs::read(folder.path("out")).unwrap();
    if ended.success() {
        assert!(out == all, "it is not whole");
    } else {
        assert_eq!(ended.signal(), Some(number));
        // a signal that came while it was renamed waited for that
        assert!(out == b"old" || out == all, "neither old nor whole");
    }
}

/// nohup and a shell's background ignore signals: they stay ignored.
#[test]
fn an_ignored_signal_stays_ignored() {
    let folder = Folder::new();
    let mut shell = Command::new("sh");
    shell
        .current_dir(folder.path("."))
        .args(["-c", "trap '' HUP INT; exec \"$0\" scrub - -o out"])
        .arg(env!("CARGO_BIN_EXE_rietknoest"))
        .stdin(Stdio::piped())
        .stderr(Stdio::null());
    let mut child = shell.spawn().unwrap();
    let mut input = child.stdin.take().unwrap();
    input.write_all(&heartbeats(1)).unwrap();
    wait_for_file(&folder, &child);
    assert!(send("HUP", child.id()) && send("INT", child.id()));
    input.write_all(&heartbeats(1)).unwrap();
    drop(input);
    assert_eq!(child.wait().unwrap().code(), Some(0));
    assert_eq!(
        fs::read(folder.path("out")).unwrap(),
        heartbeats(1).repeat(2)
    );
}

/// A file that becomes too large is an error of writing, in both ways, though the system sends a
/// signal.
#[test]
fn a_file_that_becomes_too_large() {
    let tools = Folder::new();
    let library = shim(&tools);
    let folder = Folder::new()
        .with("in", &heartbeats(3000))
        .with("old", b"old");
    for preload in ["", library.to_str().unwrap()] {
        for out in ["out", "old"] {
            let mut shell = Command::new("sh");
            shell
                .current_dir(folder.path("."))
                .args(["-c", "ulimit -f 8; exec \"$0\" scrub in -o \"$1\""])
                .arg(env!("CARGO_BIN_EXE_rietknoest"))
                .arg(out)
                .env("LD_PRELOAD", preload);
            finish(shell, b"").failed(out, "File too large");
        }
    }
    assert_eq!(folder.names(), ["in", "old"]);
    assert_eq!(fs::read(folder.path("old")).unwrap(), b"old");
}

/// In the way with a name too the file has the mode of the umask, and appears whole.
#[test]
fn a_file_with_a_name_becomes_whole() {
    let tools = Folder::new();
    let library = shim(&tools);
    let folder = Folder::new().with("old", b"old");
    for out in ["new", "old"] {
        let mut child = scrub(&folder, &library, Way::Named, out);
        let mut input = child.stdin.take().unwrap();
        input.write_all(&logon("A", "B")).unwrap();
        wait_for_file(&folder, &child);
        assert!(beside(&folder));
        drop(input);
        assert_eq!(child.wait().unwrap().code(), Some(0));
        assert_eq!(fs::read(folder.path(out)).unwrap(), logon("", ""));
    }
    assert_eq!(folder.names(), ["new", "old"]);
}
