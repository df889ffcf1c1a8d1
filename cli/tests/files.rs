//! Files that are not there, not to be read, not to be written; the input, which stays; and nothing
//! left behind.

mod common;

use std::ffi::{OsStr, OsString};
use std::fs::{self, File, OpenOptions};
use std::os::unix::ffi::OsStrExt;
use std::os::unix::fs::{chown, symlink, MetadataExt, PermissionsExt};
use std::process::{Command, Stdio};

use common::*;

fn mode(folder: &Folder, name: &str) -> u32 {
    let data = fs::metadata(folder.path(name)).unwrap();
    data.permissions().mode() & 0o777
}

fn set_mode(folder: &Folder, name: &str, mode: u32) {
    fs::set_permissions(folder.path(name), PermissionsExt::from_mode(mode)).unwrap();
}

/// The command run by a shell, after a line of the shell's own.
fn run_behind(folder: &Folder, line: &str, words: &[&str]) -> Ran {
    let mut shell = Command::new("sh");
    shell
        .current_dir(folder.path("."))
        .args(["-c", &format!("{line}; exec \"$@\""), "sh"])
        .arg(env!("CARGO_BIN_EXE_rietknoest"))
        .args(words);
    finish(shell, b"")
}

#[test]
fn a_file_that_is_not_there() {
    let folder = Folder::new();
    let cases: [&[&str]; 4] = [
        &["list", "no"],
        &["check", "no"],
        &["scrub", "no", "-o", "out"],
        &["explain", "no", "0"],
    ];
    for words in cases {
        run(&folder, words).failed("no", "No such file or directory");
    }
    run(&folder, &["list", ""]).failed("", "No such file or directory");
    assert!(folder.names().is_empty());
}

#[test]
fn a_folder_is_no_capture() {
    let folder = Folder::new();
    fs::create_dir(folder.path("inner")).unwrap();
    let cases: [&[&str]; 4] = [
        &["list", "inner"],
        &["check", "inner"],
        &["scrub", "inner", "-o", "out"],
        &["explain", "inner", "0"],
    ];
    for words in cases {
        run(&folder, words).failed("inner", "Is a directory");
    }
    assert_eq!(folder.names(), ["inner"]);
    assert!(folder_is_empty(&folder, "inner"));
}

fn folder_is_empty(folder: &Folder, name: &str) -> bool {
    fs::read_dir(folder.path(name)).unwrap().next().is_none()
}

/// This file can be opened but not read: its first page belongs to nobody.
#[test]
fn a_file_that_does_not_read() {
    let folder = Folder::new();
    run(&folder, &["list", "/proc/self/mem"]).failed("/proc/self/mem", "Input/output error");
    let words = ["scrub", "/proc/self/mem", "-o", "out"];
    run(&folder, &words).failed("/proc/self/mem", "Input/output error");
    assert!(folder.names().is_empty());
}

#[test]
fn a_file_that_may_not_be_read() {
    let folder = Folder::new().with("closed", b"");
    set_mode(&folder, "closed", 0);
    // root may read it all the same
    if File::open(folder.path("closed")).is_err() {
        run(&folder, &["list", "closed"]).failed("closed", "Permission denied");
    }
}

#[test]
fn an_unwritable_folder() {
    let folder = Folder::new().with("in", &heartbeats(1));
    fs::create_dir(folder.path("inner")).unwrap();
    set_mode(&folder, "inner", 0o555);
    // root may write there all the same, but nobody makes a file in /proc
    let root = File::create(folder.path("inner/try")).is_ok();
    let (out, what) = if root {
        fs::remove_file(folder.path("inner/try")).unwrap();
        ("/proc/out", "No such file or directory")
    } else {
        ("inner/out", "Permission denied")
    };
    run(&folder, &["scrub", "in", "-o", out]).failed(out, what);
    assert!(folder_is_empty(&folder, "inner"));
    let ran = run(&folder, &["scrub", "in", "-o", "no/out"]);
    ran.failed("no/out", "No such file or directory");
    let ran = run(&folder, &["scrub", "in", "-o", "in/out"]);
    ran.failed("in/out", "Not a directory");
    let ran = run(&folder, &["scrub", "in", "-o", "out/"]);
    assert_eq!(ran.status, Some(2));
    let ran = run(&folder, &["scrub", "in", "-o", ""]);
    assert_eq!(ran.status, Some(2));
    assert_eq!(folder.names(), ["in", "inner"]);
}

#[test]
fn what_is_no_plain_file_is_not_replaced() {
    let folder = Folder::new().with("in", &heartbeats(1));
    fs::create_dir(folder.path("inner")).unwrap();
    let made = Command::new("mkfifo").arg(folder.path("pipe")).status();
    assert!(made.unwrap().success());
    symlink("nowhere", folder.path("lost")).unwrap();
    let words = |out| ["scrub", "in", "-o", out];
    run(&folder, &words("inner")).failed("inner", "it is a folder");
    run(&folder, &words(".")).failed(".", "it is a folder");
    run(&folder, &words("/")).failed("/", "it is a folder");
    run(&folder, &words("pipe")).failed("pipe", "it is no plain file; - is standard output");
    run(&folder, &words("lost")).failed("lost", "No such file or directory");
    assert_eq!(folder.names(), ["in", "inner", "lost", "pipe"]);
    assert!(folder_is_empty(&folder, "inner"));
}

#[test]
fn the_input_is_never_overwritten() {
    let capture = logon("A", "B");
    let folder = Folder::new().with("in", &capture);
    let before = fs::metadata(folder.path("in")).unwrap();
    fs::create_dir(folder.path("inner")).unwrap();
    symlink("in", folder.path("soft")).unwrap();
    symlink("soft", folder.path("softer")).unwrap();
    symlink(folder.path("."), folder.path("inner/up")).unwrap();
    fs::hard_link(folder.path("in"), folder.path("hard")).unwrap();
    let names = [
        "in",
        "./in",
        "inner/../in",
        "soft",
        "softer",
        "hard",
        "inner/up/in",
    ];
    let what = "it is the input, which is never overwritten";
    for from in names {
        for to in names {
            run(&folder, &["scrub", from, "-o", to]).failed(to, what);
        }
    }

    // over standard input and standard output too
    let mut from_in = command(&folder);
    from_in.args(["scrub", "-", "-o", "hard"]);
    from_in.stdin(File::open(folder.path("in")).unwrap());
    let ended = from_in.output().unwrap();
    assert_eq!(ended.status.code(), Some(2));
    let mut onto_in = command(&folder);
    onto_in.args(["scrub", "in", "-o", "-"]);
    let onto = OpenOptions::new().append(true).open(folder.path("in"));
    let ended = onto_in.stdout(onto.unwrap()).output().unwrap();
    assert_eq!(ended.status.code(), Some(2));

    assert_eq!(fs::read(folder.path("in")).unwrap(), capture);
    let after = fs::metadata(folder.path("in")).unwrap();
    assert_eq!((before.ino(), before.mtime()), (after.ino(), after.mtime()));
    assert_eq!(folder.names(), ["hard", "in", "inner", "soft", "softer"]);
}

#[test]
fn what_stood_there_is_replaced() {
    let folder = Folder::new()
        .with("in", &logon("A", "B"))
        .with("old", &[1; 5000])
        .with("far", b"far");
    symlink("far", folder.path("link")).unwrap();
    for out in ["old", "link"] {
        let ran = run(&folder, &["scrub", "in", "-o", out]);
        assert_eq!(ran.status, Some(0));
        assert_eq!(fs::read(folder.path(out)).unwrap(), logon("", ""));
    }
    // the file that a link leads to is replaced, and the link stays
    assert_eq!(fs::read(folder.path("far")).unwrap(), logon("", ""));
    assert!(folder.path("link").is_symlink());
    assert_eq!(folder.names(), ["far", "in", "link", "old"]);
}

#[test]
fn a_new_file_is_no_more_open_than_it_may_be() {
    let folder = Folder::new().with("in", &heartbeats(1)).with("old", b"");
    let masks = [("022", 0o644), ("077", 0o600), ("027", 0o640)];
    for (mask, expected) in masks {
        let ran = run_behind(
            &folder,
            &format!("umask {mask}"),
            &["scrub", "in", "-o", mask],
        );
        assert_eq!((ran.status, mode(&folder, mask)), (Some(0), expected));
    }
    // one that is replaced was open to its owner alone
    set_mode(&folder, "old", 0o600);
    let ran = run_behind(&folder, "umask 022", &["scrub", "in", "-o", "old"]);
    assert_eq!((ran.status, mode(&folder, "old")), (Some(0), 0o600));
    assert_eq!(fs::read(folder.path("old")).unwrap(), heartbeats(1));
    // one of the group that a new file has keeps its group's bits
    set_mode(&folder, "old", 0o640);
    let ran = run_behind(&folder, "umask 022", &["scrub", "in", "-o", "old"]);
    assert_eq!((ran.status, mode(&folder, "old")), (Some(0), 0o640));
}

/// A replaced file's group says who may open it. A new file of another group must not be open to
/// that group, nor, as others, to the old group's members if it was not before.
#[test]
fn a_new_file_of_another_group() {
    let folder = Folder::new().with("in", &heartbeats(1));
    for (old, expected) in [(0o664, 0o604), (0o640, 0o600), (0o604, 0o600)] {
        fs::write(folder.path("old"), b"").unwrap();
        let group = fs::metadata(folder.path("old")).unwrap().gid();
        if chown(folder.path("old"), None, Some(group + 1)).is_err() {
            not_tried("only root may give a file to another group");
            return;
        }
        set_mode(&folder, "old", old);
        let ran = run_behind(&folder, "umask 022", &["scrub", "in", "-o", "old"]);
        assert_eq!((ran.status, mode(&folder, "old")), (Some(0), expected));
        let data = fs::metadata(folder.path("old")).unwrap();
        assert_eq!(data.gid(), group);
        assert_eq!(folder.names(), ["in", "old"]);
    }
}

/// A file may have 4,096 or 8,192 bytes here, by the shell's unit: writing fails half way.
#[test]
fn nothing_is_left_of_a_file_that_was_half_written() {
    let folder = Folder::new()
        .with("in", &heartbeats(3000))
        .with("old", b"old");
    for out in ["out", "old"] {
        let limit = "trap '' XFSZ; ulimit -f 8";
        run_behind(&folder, limit, &["scrub", "in", "-o", out]).failed(out, "File too large");
    }
    assert_eq!(folder.names(), ["in", "old"]);
    assert_eq!(fs::read(folder.path("old")).unwrap(), b"old");
    assert_eq!(fs::read(folder.path("in")).unwrap(), heartbeats(3000));
}

/// The command may have 16 MB here: too little for a capture of 20 that is to be whole first. The
/// others do not hold it whole.
#[test]
fn a_capture_too_large_for_the_memory() {
    let folder = Folder::new().with("large", &vec![0; 20_000_000]);
    let limited = |words: &[&str]| run_behind(&folder, "ulimit -v 16384", words);
    let too_large = "too large for this machine's memory";
    limited(&["scrub", "--whole", "large", "-o", "out"]).failed("large", too_large);
    limited(&["market", "large"]).failed("large", too_large);
    for words in [
        &["list", "large"][..],
        &["check", "large"],
        &["check", "--step", "large"],
        &["explain", "large", "19999999"],
        &["explain", "--step", "large", "19999999"],
        &["scrub", "large", "-o", "out"],
        &["scrub", "--step", "large", "-o", "out"],
    ] {
        let ran = limited(words);
        assert_eq!(ran.status, Some(1), "{words:?}: {}", ran.error());
    }
}

/// No file is written with the name under which another run is writing.
#[test]
fn two_at_once() {
    let folder = Folder::new().with("in", &heartbeats(3000));
    let runs: Vec<_> = (0..8)
        .map(|_| {
            let mut command = command(&folder);
            command.args(["scrub", "in", "-o", "out"]);
            command.stderr(Stdio::null()).spawn().unwrap()
        })
        .collect();
    for mut run in runs {
        assert_eq!(run.wait().unwrap().code(), Some(0));
    }
    assert_eq!(folder.names(), ["in", "out"]);
    assert_eq!(fs::read(folder.path("out")).unwrap(), heartbeats(3000));
}

#[test]
fn names_that_are_no_text() {
    let folder = Folder::new();
    let name = OsStr::from_bytes(b"caf\xE9");
    let folder = folder.with(name, &heartbeats(1));
    let words = |words: &[&str], behind: &[&str]| -> Vec<OsString> {
        let before = words.iter().map(OsString::from);
        let file = [name.to_os_string()];
        before
            .chain(file)
            .chain(behind.iter().map(OsString::from))
            .collect()
    };
    let shown = "caf\u{FFFD}";
    run(&folder, &words(&["check"], &[])).quiet(0, &format!("{shown}: clean\n"));
    assert_eq!(run(&folder, &words(&["list"], &[])).status, Some(0));
    assert_eq!(run(&folder, &words(&["explain"], &["0"])).status, Some(0));
    let ran = run(&folder, &words(&["scrub"], &["-o", "out"]));
    assert_eq!(ran.status, Some(0));
    let ran = run(&folder, &words(&["scrub", "out", "-o"], &[]));
    assert_eq!(ran.status, Some(0));
    // a command, an option and a place that are no text
    assert_eq!(run(&folder, &words(&[], &[])).status, Some(2));
    let dashed = OsStr::from_bytes(b"-\xFF");
    assert_eq!(run(&folder, &[OsStr::new("list"), dashed]).status, Some(2));
    assert_eq!(
        run(&folder, &words(&["explain", "out"], &[])).status,
        Some(2)
    );
    // what would control a terminal is escaped
    run(&folder, &["list", "a\u{1b}[2J\nb"]).failed("a\\u{1b}[2J\\nb", "No such file or directory");
    // a name that looks like an option or like standard input
    let folder = folder.with("-x", &heartbeats(1)).with("-", &heartbeats(1));
    run(&folder, &["check", "--", "-x"]).quiet(0, "-x: clean\n");
    run(&folder, &["check", "./-"]).quiet(0, "./-: clean\n");
}
