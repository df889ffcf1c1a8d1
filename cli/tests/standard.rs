//! Standard input and output: closed, of the wrong kind, or a terminal.

mod common;

use std::fs;
use std::process::Command;

use common::*;

/// A line of a shell, in which "$0" is the command.
fn shell(folder: &Folder, line: &str) -> Ran {
    let mut shell = Command::new("sh");
    shell
        .current_dir(folder.path("."))
        .args(["-c", line, env!("CARGO_BIN_EXE_rietknoest")]);
    finish(shell, b"")
}

#[test]
fn a_closed_output_is_an_error() {
    let folder = Folder::new().with("good", &heartbeats(16));
    for words in [
        "list good",
        "list --summary good",
        "list --json good",
        "gaps good",
        "check good",
        "explain good 0",
        "month --channels 100 good",
        "market good",
        "scrub good -o -",
        "scrub good -o - --whole",
        "scrub --step good -o -",
        "--help",
        "--version",
        "help list",
    ] {
        let ran = shell(&folder, &format!("\"$0\" {words} >&-"));
        ran.failed("standard output", "it is closed");
        // open for reading alone, and something to write
        if !words.contains("--step") {
            let ran = shell(&folder, &format!("\"$0\" {words} 1</dev/null"));
            ran.failed("standard output", "Bad file descriptor");
        }
    }
    // it is not used, so that it may be closed
    let ran = shell(&folder, "\"$0\" scrub good -o out >&-");
    assert_eq!(ran.status, Some(0));
    assert_eq!(fs::read(folder.path("out")).unwrap(), heartbeats(16));
}

#[test]
fn a_closed_input_is_an_error() {
    let folder = Folder::new();
    for words in [
        "list",
        "list -",
        "list --follow",
        "gaps",
        "check -",
        "check --step -",
        "explain - 0",
        "month --channels 100 -",
        "market -",
        "scrub - -o out",
        "scrub - -o out --whole",
        "scrub - -o -",
    ] {
        let ran = shell(&folder, &format!("\"$0\" {words} <&-"));
        ran.failed("standard input", "it is closed");
        // open for writing alone
        let ran = shell(&folder, &format!("\"$0\" {words} 0>/dev/null"));
        ran.failed("standard input", "Bad file descriptor");
    }
    assert!(folder.names().is_empty());
}

/// Messages go nowhere then, and the rest is as ever.
#[test]
fn closed_errors_change_nothing_else() {
    let folder = Folder::new().with("in", &sample());
    let ran = shell(&folder, "\"$0\" scrub in -o out 2>&-");
    assert_eq!((ran.status, ran.error()), (Some(1), ""));
    assert!(fs::metadata(folder.path("out")).unwrap().len() > 0);
    let ran = shell(&folder, "\"$0\" scrub in -o out 2>&- >&- <&-");
    assert_eq!(ran.status, Some(1));
}

#[test]
fn dev_null_is_an_output() {
    let folder = Folder::new().with("in", &sample()).with("stray", b"stray");
    std::os::unix::fs::symlink("/dev/null", folder.path("null")).unwrap();
    for out in ["/dev/null", "null"] {
        for words in [
            &["scrub", "in", "-o", out][..],
            &["scrub", "in", "--whole", "-o", out],
            &["scrub", "stray", "--step", "-o", out],
        ] {
            let ran = run(&folder, words);
            assert_eq!((ran.status, ran.out()), (Some(1), ""), "{}", ran.error());
        }
    }
    run(&folder, &["scrub", "in", "-o", "/dev/zero"])
        .failed("/dev/zero", "it is no plain file; - is standard output");
    assert_eq!(folder.names(), ["in", "null", "stray"]);
}

#[test]
fn an_output_right_behind_its_option() {
    let folder = Folder::new().with("in", &logon("A", "B"));
    for (word, out) in [("-oout", "out"), ("-o-o", "-o"), ("-o./-", "-")] {
        assert_eq!(run(&folder, &["scrub", word, "in"]).status, Some(0));
        assert_eq!(fs::read(folder.path(out)).unwrap(), logon("", ""));
    }
    let ran = run(&folder, &["scrub", "in", "-o-"]);
    assert_eq!((ran.status, ran.out), (Some(0), logon("", "")));
}

/// A line of a shell on a terminal: its status, and what the terminal showed. None where `script`
/// is not installed.
fn on_terminal(folder: &Folder, line: &str) -> Option<Ran> {
    if !is_installed("script") {
        return None;
    }
    let line = line.replace("$0", env!("CARGO_BIN_EXE_rietknoest"));
    let mut script = Command::new("script");
    script
        .current_dir(folder.path("."))
        .args(["-q", "-e", "-c", &line, "/dev/null"])
        .env("SHELL", "/bin/sh");
    Some(finish(script, b""))
}

/// Frames are no text: a terminal gets them only if they are forced on it.
#[test]
fn no_frame_on_a_terminal() {
    let folder = Folder::new().with("in", &logon("A", "B"));
    let Some(ran) = on_terminal(&folder, "$0 scrub in -o -") else {
        return;
    };
    assert_eq!(ran.status, Some(2));
    let said = "rietknoest: standard output: it is a terminal, and scrubbed frames are no text: --force writes them all the same\r\n";
    assert_eq!(ran.out(), said);
    let ran = on_terminal(&folder, "$0 scrub in -o - --force").unwrap();
    assert_eq!(ran.status, Some(0));
    assert!(ran.out.starts_with(b"S001"));
    // a pipe is none, and text goes to a terminal
    let ran = on_terminal(&folder, "$0 scrub in -o - | $0 list").unwrap();
    assert!(ran.out().contains("0 S001 0 1 0 0 0 0\r\n"));
    assert_eq!(ran.status, Some(0));
}

/// After a second a terminal is told how far it has come, and the line is gone at the end.
#[test]
fn progress_on_a_terminal() {
    let folder = Folder::new().with("in", &heartbeats(2_000));
    let slow = |rest| {
        let feed = "(cat in; sleep 1.2; cat in; sleep 0.3; cat in)";
        on_terminal(&folder, &format!("{feed} | $0 {rest}"))
    };
    let Some(ran) = slow("check -") else {
        return;
    };
    let shown = ran.out();
    assert!(shown.contains("rietknoest: standard input: 1"), "{shown:?}");
    assert!(shown.contains("/s"), "{shown:?}");
    assert!(shown.ends_with("\r\u{1b}[Kstandard input: clean\r\n"));
    // asked not to, no terminal for messages, and lines that show it
    let silent = [
        "check --quiet -",
        "check -q -",
        "check - 2>/dev/null",
        "list --json -",
    ];
    std::thread::scope(|scope| {
        for rest in silent {
            scope.spawn(move || {
                let ran = slow(rest).unwrap();
                assert!(!ran.out().contains("/s"), "{rest}: {:?}", ran.out());
                assert_eq!(ran.status, Some(0), "{rest}");
            });
        }
    });
    let ran = slow("scrub - -o out").unwrap();
    assert!(ran.out().contains("/s"));
    let last = "\r\u{1b}[Krietknoest: standard input: kept 6000 frames, left out 0 bytes, 0 frames after damage\r\n";
    assert!(ran.out().ends_with(last), "{:?}", ran.out());
}

/// Of a file it is also said of how much: here of eight gigabytes that take no room on the disk,
/// and much longer than the run is given.
#[test]
fn progress_over_a_file() {
    let folder = Folder::new().with("large", &logon("", ""));
    let large = fs::OpenOptions::new()
        .write(true)
        .open(folder.path("large"));
    large.unwrap().set_len(8_000_000_000).unwrap();
    let Some(ran) = on_terminal(&folder, "timeout -s INT 2.5 $0 check large") else {
        return;
    };
    let shown = ran.out();
    let line = shown.rsplit("rietknoest: large: ").next().unwrap();
    let done_and_all = line.split_once(" of 8.0 GB, ");
    let (done, speed) = done_and_all.unwrap_or_else(|| panic!("{shown:?}"));
    for size in [done, speed.split("/s").next().unwrap()] {
        let (number, unit) = size.split_once(' ').unwrap();
        assert!(number.parse::<f64>().unwrap() > 0.0, "{shown:?}");
        assert!(["B", "kB", "MB", "GB"].contains(&unit), "{shown:?}");
    }
    // asked not to, nothing
    let quiet = "timeout -s INT 1.5 $0 check --quiet large";
    let ran = on_terminal(&folder, quiet).unwrap();
    assert_eq!(ran.out().trim_end().trim_start_matches("^C"), "");
}

/// What takes less than a second shows nothing.
#[test]
fn no_progress_for_what_is_quick() {
    let folder = Folder::new().with("in", &heartbeats(10));
    if let Some(ran) = on_terminal(&folder, "$0 check in") {
        assert_eq!((ran.status, ran.out()), (Some(0), "in: clean\r\n"));
    }
}
