//! Several files on one call, summaries, JSON, files that grow, and files of another kind.

mod common;

use std::fs::{self, OpenOptions};
use std::io::{BufRead, BufReader, Write};
use std::process::{Child, ChildStdout, Stdio};

use common::*;

const GAP: &str = "frames 1 refused 0 floor 0 top 2 missing 1\n";
const NONE: &str = "frames 2 refused 0 floor 0 top 0 missing 0\n";

fn folder() -> Folder {
    Folder::new()
        .with("a", &heartbeats(2))
        .with("b", &tick(2, b""))
}

#[test]
fn several_listings() {
    let folder = folder();
    let one = |file: &str| run(&folder, &["list", file]).out().to_string();
    let listing = format!("==> a <==\n{}==> b <==\n{}", one("a"), one("b"));
    run(&folder, &["list", "a", "b"]).quiet(1, &listing);
    run(&folder, &["list", "--summary", "a"]).quiet(0, NONE);
    run(&folder, &["list", "--summary", "b", "a"]).quiet(1, &format!("b: {GAP}a: {NONE}"));
    let ran = run_on(&folder, &["list", "--summary", "a", "-"], &tick(2, b""));
    ran.quiet(1, &format!("a: {NONE}standard input: {GAP}"));
}

/// One that can't be read is told, and the others are read.
#[test]
fn one_of_several_is_not_there() {
    let folder = folder();
    let said = "rietknoest: no: No such file or directory\n";
    for (words, out) in [
        (
            &["list", "--summary", "a", "no", "b"][..],
            format!("a: {NONE}b: {GAP}"),
        ),
        (
            &["check", "a", "no", "b"],
            "a: clean\nb: clean\n".to_string(),
        ),
        (
            &["market", "a", "no"],
            run(&folder, &["market", "a"]).out().to_string(),
        ),
    ] {
        let ran = run(&folder, words);
        assert_eq!(
            (ran.status, ran.out(), ran.error()),
            (Some(2), out.as_str(), said)
        );
    }
}

#[test]
fn several_are_checked() {
    let folder = folder().with("c", &logon("A", ""));
    let private = "c: not clean: place 24: SenderCompID of the S001 at 0\n";
    run(&folder, &["check", "a", "c", "b"]).quiet(1, &format!("a: clean\n{private}b: clean\n"));
}

/// What a program for JSON makes of the objects on its input: of each reading the listing's line,
/// and of the last object the line of counts. None where it is not installed.
fn lines_of(objects: &[u8]) -> [Option<String>; 2] {
    let python = "import json, sys
for line in sys.stdin:
    o = json.loads(line)
    if 'place' in o:
        print(*[o[n] for n in ['place', 'msg_type', 'answer', 'seq', 'channel', 'tick', 'floor', 'top']])
    else:
        print(*[w for n in ['frames', 'refused', 'floor', 'top', 'missing'] for w in (n, o[n])])
";
    let jq =
        "if has(\"place\") then [.place, .msg_type, .answer, .seq, .channel, .tick, .floor, .top] \
              | map(if . == null then \"None\" else tostring end) | join(\" \") \
              else . as $o | [\"frames\", \"refused\", \"floor\", \"top\", \"missing\"] \
              | map(. + \" \" + ($o[.] | tostring)) | join(\" \") end";
    [["python3", "-c", python], ["jq", "-r", jq]].map(|words| {
        let printed = json_program(&words, objects)?;
        Some(printed.replace(" None ", " ---- "))
    })
}

/// The objects have the listing's numbers, for the sample and for damaged captures.
#[test]
fn json_has_what_the_listing_has() {
    let folder = Folder::new();
    let dice = &mut Dice(5);
    let mut captures: Vec<_> = (0..10).map(|_| damaged(dice)).collect();
    captures.extend([sample(), Vec::new()]);
    for capture in captures {
        let listed = run_on(&folder, &["list"], &capture);
        let objects = run_on(&folder, &["list", "--json"], &capture);
        assert_eq!(listed.status, objects.status);
        assert_eq!(listed.error(), objects.error());
        for lines in lines_of(&objects.out).into_iter().flatten() {
            assert_eq!(lines, listed.out());
        }
        let summary = run_on(&folder, &["list", "--json", "--summary"], &capture);
        assert_eq!(objects.out().lines().last(), summary.out().lines().next());
        assert_eq!(summary.out().lines().count(), 1);
    }
}

/// The names and their order are stable.
#[test]
fn the_objects_of_a_listing() {
    let capture = [tick(2, b""), tick_on(7, 1, b""), vec![0]].concat();
    let folder = Folder::new().with("a \"b\"", &capture);
    let name = r#""file":"a \"b\"""#;
    let expected = [
        r#""place":0,"msg_type":"M201","answer":0,"seq":2,"channel":100,"tick":2,"body_len":45,"floor":0,"top":2"#,
        r#""place":73,"msg_type":"M201","answer":18,"seq":1,"channel":7,"tick":1,"body_len":45,"floor":0,"top":2"#,
        r#""place":146,"msg_type":null,"answer":1,"seq":0,"channel":0,"tick":0,"body_len":0,"floor":0,"top":2"#,
        r#""frames":2,"refused":1,"channel":100,"floor":0,"top":2,"missing":1,"held":1,"not_counted":[{"channel":7,"frames":1}]"#,
    ];
    let expected = expected.map(|rest| format!("{{{name},{rest}}}\n")).concat();
    let ran = run(&folder, &["list", "--json", "a \"b\""]);
    assert_eq!((ran.status, ran.out()), (Some(1), expected.as_str()));
}

/// A file of another kind is told by its first bytes, once.
#[test]
fn files_of_another_kind() {
    let folder = Folder::new();
    let kinds: [(&[u8], &str); 8] = [
        (b"\xD4\xC3\xB2\xA1\x02\x00", "a pcap file"),
        (b"\xA1\xB2\xC3\xD4\x00\x02", "a pcap file"),
        (b"\x4D\x3C\xB2\xA1", "a pcap file"),
        (b"\xA1\xB2\x3C\x4D", "a pcap file"),
        (b"\x0A\x0D\x0D\x0A\x1C", "a pcapng file"),
        (b"\x1F\x8B\x08", "a gzip file"),
        (b"\x28\xB5\x2F\xFD\x24", "a zstd file"),
        (b"8=FIXT.1.1\x019=5\x01", "a capture of the STEP line"),
    ];
    for (start, what) in kinds {
        let bytes = [start, &[7; 100]].concat();
        for words in [
            &["list"][..],
            &["check", "-"],
            &["explain", "-", "3"],
            &["scrub", "-", "-o", "-"],
            &["scrub", "-", "-o", "-", "--whole"],
            &["gaps"],
            &["month", "--channels", "100", "-"],
            &["market", "-"],
        ] {
            let ran = run_on(&folder, words, &bytes);
            let said = format!("rietknoest: standard input: this looks like {what}");
            assert_eq!(ran.error().matches("this looks like").count(), 1);
            assert!(ran.error().starts_with(&said), "{words:?}: {}", ran.error());
            assert_eq!(ran.status, Some(1));
            // scrubbing makes no capture of it, and no line says so
            assert!(!ran.error().contains("makes it clean"), "{words:?}");
        }
    }
    // the STEP line's commands know their own, and the others
    for (start, what) in &kinds[4..] {
        let ran = run_on(&folder, &["check", "--step", "-"], start);
        let is_step = what.ends_with("STEP line");
        assert_eq!(ran.error().contains(what), !is_step, "{what}");
    }
    for start in [&b"S003"[..], b"", b"8=", b"\x1F"] {
        let ran = run_on(&folder, &["list"], start);
        assert_eq!(ran.error(), "");
    }
}

/// `list --follow` of a file that grows.
struct Following {
    child: Child,
    lines: BufReader<ChildStdout>,
}

impl Following {
    fn new(folder: &Folder, words: &[&str]) -> Following {
        let mut child = command(folder)
            .args(["list", "--follow"])
            .args(words)
            .stdin(Stdio::piped())
            .stdout(Stdio::piped())
            .stderr(Stdio::piped())
            .spawn()
            .unwrap();
        let lines = BufReader::new(child.stdout.take().unwrap());
        Following { child, lines }
    }

    fn line(&mut self) -> String {
        let mut line = String::new();
        self.lines.read_line(&mut line).unwrap();
        line
    }

    fn end(mut self, signal: &str) -> (Option<i32>, String, String) {
        assert!(send(signal, self.child.id()));
        self.rest()
    }

    fn rest(&mut self) -> (Option<i32>, String, String) {
        let mut rest = String::new();
        while self.lines.read_line(&mut rest).unwrap() > 0 {}
        let mut error = String::new();
        let pipe = self.child.stderr.take().unwrap();
        std::io::Read::read_to_string(&mut { pipe }, &mut error).unwrap();
        (self.child.wait().unwrap().code(), rest, error)
    }
}

fn append(folder: &Folder, bytes: &[u8]) {
    let file = OpenOptions::new().append(true).open(folder.path("grows"));
    file.unwrap().write_all(bytes).unwrap();
}

/// Lines come as the file grows; a signal that asks for the end gets the last line.
#[test]
fn a_file_that_grows() {
    for (signal, words) in [
        ("INT", &["grows"][..]),
        ("TERM", &["grows"]),
        ("HUP", &["--json", "grows"]),
    ] {
        let folder = Folder::new().with("grows", b"");
        let mut following = Following::new(&folder, words);
        let beat = heartbeats(1);
        append(&folder, &beat);
        assert!(following.line().contains("S003"));
        append(&folder, &beat[..20]);
        append(&folder, &beat[20..]);
        assert!(following.line().contains("28"));
        append(&folder, &tick(2, b""));
        assert!(following.line().contains("M201"));
        let (status, rest, error) = following.end(signal);
        assert_eq!((status, error.as_str()), (Some(1), ""));
        assert_eq!(rest.lines().count(), 1);
        if words.len() == 1 {
            assert_eq!(rest, "frames 3 refused 0 floor 0 top 2 missing 1\n");
        }
    }
}

/// Of a pipe too the last line is printed when the end is asked for.
#[test]
fn a_pipe_that_is_broken_off() {
    let folder = Folder::new();
    let mut following = Following::new(&folder, &[]);
    let mut input = following.child.stdin.take().unwrap();
    input.write_all(&heartbeats(1)).unwrap();
    assert_eq!(following.line(), "0 S003 0 1 0 0 0 0\n");
    assert!(send("INT", following.child.id()));
    // if the signal came just before it began to wait
    let _ = input.write_all(b"S");
    let (status, rest, error) = following.rest();
    assert!(rest.ends_with(" floor 0 top 0 missing 0\n"), "{rest}");
    assert_eq!((rest.lines().count() < 3, error.as_str()), (true, ""));
    assert!(status.is_some());
}

/// Bytes that wait are listed as the end of a capture when the end is asked for.
#[test]
fn half_a_frame_at_the_end_of_a_file_that_grows() {
    let folder = Folder::new().with("grows", &heartbeats(1));
    let mut following = Following::new(&folder, &["grows"]);
    assert_eq!(following.line(), "0 S003 0 1 0 0 0 0\n");
    append(&folder, b"S003");
    let (status, rest, _) = following.end("INT");
    assert_eq!(status, Some(1));
    let last = "frames 1 refused 1 floor 0 top 0 missing 0\n";
    assert_eq!(rest, format!("28 ---- 1 0 0 0 0 0\n{last}"));
}

#[test]
fn a_file_that_becomes_shorter() {
    let folder = Folder::new().with("grows", &heartbeats(2));
    let mut following = Following::new(&folder, &["grows"]);
    following.line();
    following.line();
    fs::write(folder.path("grows"), b"").unwrap();
    let (status, _, error) = following.rest();
    let said = "rietknoest: grows: it has become shorter while it was read\n";
    assert_eq!((status, error.as_str()), (Some(2), said));
}
