//! A capture of two gigabytes in 64 megabytes of memory.

mod common;

use std::fs::{self, OpenOptions};
use std::io::{Seek, SeekFrom, Write};
use std::process::Command;
use std::thread;

use common::*;
use rietknoest_host::step;

/// Frames at both ends of a file of that size, and nothing between them, which takes no room on the
/// disk. Returns where the first ends and the last starts.
fn sparse(folder: &Folder, name: &str, size: u64) -> (u64, u64) {
    sparse_of(folder, name, size, &logon("", ""), &tick(2, b""))
}

fn sparse_of(folder: &Folder, name: &str, size: u64, first: &[u8], last: &[u8]) -> (u64, u64) {
    let file = OpenOptions::new()
        .write(true)
        .create_new(true)
        .open(folder.path(name));
    let end = size - last.len() as u64;
    let mut file = file.unwrap();
    file.write_all(first).unwrap();
    file.seek(SeekFrom::Start(end)).unwrap();
    file.write_all(last).unwrap();
    (first.len() as u64, end)
}

/// The line of counts.
const LAST: &str = "frames 2 refused 1 floor 0 top 2 missing 1\n";

fn limited(folder: &Folder, words: &str) -> Ran {
    let line = format!("ulimit -v 65536; exec \"$0\" {words}");
    let mut shell = Command::new("sh");
    shell
        .current_dir(folder.path("."))
        .args(["-c", &line, env!("CARGO_BIN_EXE_rietknoest")]);
    finish(shell, b"")
}

#[test]
fn two_gigabytes() {
    let folder = Folder::new();
    let (start, end) = sparse(&folder, "large", 2_000_000_000);
    let listing = format!(
        "0 S001 0 1 0 0 0 0
{start} ---- 2 0 0 0 0 0
{end} M201 0 2 100 2 0 2
{LAST}"
    );
    let counts = format!(
        "rietknoest: large: kept 2 frames, left out {} bytes, 1 frame after damage\n",
        end - start
    );
    thread::scope(|scope| {
        scope.spawn(|| limited(&folder, "list large").quiet(1, &listing));
        let ran = limited(&folder, "scrub large -o out");
        assert!(ran.error().starts_with(&counts), "{}", ran.error());
        assert_eq!((ran.status, ran.out()), (Some(1), ""));
    });
}

/// The other ways to read a capture, over one that is larger than the memory: they too read it
/// piece by piece.
#[test]
fn no_capture_is_held() {
    let folder = Folder::new();
    let (start, end) = sparse(&folder, "large", 100_000_000);
    thread::scope(|scope| {
        scope.spawn(|| {
            let stray = format!("stray bytes from {start} on, where reading answers 2 (type)");
            let said = format!("large: not clean: place {start}: {stray}\n");
            limited(&folder, "check large").quiet(1, &said);
            let ran = limited(&folder, &format!("explain large {end}"));
            assert_eq!((ran.status, ran.error()), (Some(0), ""));
            assert!(ran.out().contains("\nApplSeqNum 2\n"));
            assert!(ran.out().contains("\nit stands after damage, "));
            let ran = limited(&folder, "list --json large");
            assert_eq!((ran.status, ran.error()), (Some(1), ""));
            assert_eq!(ran.out().lines().count(), 4);
        });
        let ran = limited(&folder, "gaps large");
        let gaps = "channel 100: floor 0, top 2, missing 1: 1\nnext request: channel 100, 1 to 1\n";
        let refused = "rietknoest: large: 1 reading refused, and what is there not counted: 'rietknoest list' has the places\n";
        assert_eq!(
            (ran.status, ran.out(), ran.error()),
            (Some(1), gaps, refused)
        );
        let ran = limited(&folder, "gaps --json large");
        assert_eq!((ran.status, ran.out().lines().count()), (Some(1), 2));
        limited(&folder, "list --summary large").quiet(1, LAST);
    });
}

/// The same of the STEP line, whose places are tried one by one.
#[test]
fn no_capture_of_the_step_line_is_held() {
    let mut beat = vec![0; step::LONGEST];
    let fields = b"49= \x0156= \x0134=1\x0152=20260121-09:30:00.123\x01";
    let len = step::write(b'0', fields, &mut beat).unwrap();
    beat.truncate(len);
    let folder = Folder::new();
    let (start, end) = sparse_of(&folder, "large", 70_000_000, &beat, &beat);
    thread::scope(|scope| {
        scope.spawn(|| {
            let ran = limited(&folder, "scrub --step large -o out");
            let stray = end - start;
            let counts = format!("rietknoest: large: kept 2 STEP frames, left out {stray} bytes\n");
            assert_eq!((ran.status, ran.error()), (Some(1), counts.as_str()));
        });
        let ran = limited(&folder, &format!("explain --step large {end}"));
        assert_eq!((ran.status, ran.error()), (Some(0), ""));
        assert!(ran.out().contains("MsgType 0, a heartbeat\n"));
    });
    // it ends at the first stray byte: this capture is of frames alone
    fs::write(folder.path("frames"), beat.repeat(70_000_000 / len)).unwrap();
    limited(&folder, "check --step frames").quiet(0, "frames: clean\n");
}
