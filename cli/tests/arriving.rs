//! Captures that arrive in pieces: what is written, and when.

mod common;

use std::fs::{self, File};
use std::io::{Read, Write};
use std::os::fd::OwnedFd;
use std::os::unix::fs::PermissionsExt;
use std::os::unix::net::UnixStream;
use std::process::{Child, ChildStdin, Command, Stdio};
use std::sync::mpsc::{self, Receiver, RecvTimeoutError};
use std::thread;
use std::time::{Duration, Instant};

use common::*;
use rietknoest_host::{clean, first_unclean, read};

/// A command that prints nothing for so long never will.
const PATIENCE: Duration = Duration::from_secs(60);

/// The running command, with pipes for input and output.
struct Running {
    child: Child,
    input: ChildStdin,
    /// What comes out, as it comes; it ends with the output.
    output: Receiver<Vec<u8>>,
    /// What has come out and was not taken yet.
    unread: Vec<u8>,
}

impl Running {
    fn new(folder: &Folder, words: &[&str]) -> Running {
        let mut child = command(folder)
            .args(words)
            .stdin(Stdio::piped())
            .stdout(Stdio::piped())
            .stderr(Stdio::piped())
            .spawn()
            .unwrap();
        let mut out = child.stdout.take().unwrap();
        let (send, output) = mpsc::channel();
        thread::spawn(move || loop {
            let mut piece = vec![0; 65_536];
            let n = out.read(&mut piece).unwrap();
            piece.truncate(n);
            // if nobody takes it, the pipe is closed
            if n == 0 || send.send(piece).is_err() {
                return;
            }
        });
        Running {
            input: child.stdin.take().unwrap(),
            output,
            unread: Vec::new(),
            child,
        }
    }

    fn write(&mut self, bytes: &[u8]) {
        self.input.write_all(bytes).unwrap();
    }

    fn bytes(&mut self, n: usize) -> Vec<u8> {
        while self.unread.len() < n {
            let more = self.output.recv_timeout(PATIENCE);
            self.unread.extend(more.expect("more output"));
        }
        self.unread.drain(..n).collect()
    }

    fn line(&mut self) -> String {
        let mut line = Vec::new();
        while line.last() != Some(&b'\n') {
            line.extend(self.bytes(1));
        }
        String::from_utf8(line).unwrap()
    }

    /// Closes the input. Returns what is still written, the exit status, and standard error.
    fn end(mut self) -> Ran {
        drop(self.input);
        loop {
            match self.output.recv_timeout(PATIENCE) {
                Ok(more) => self.unread.extend(more),
                Err(RecvTimeoutError::Disconnected) => break,
                Err(RecvTimeoutError::Timeout) => panic!("the output does not end"),
            }
        }
        let ended = self.child.wait_with_output().unwrap();
        Ran {
            status: ended.status.code(),
            out: self.unread,
            error: ended.stderr,
        }
    }
}

/// The command over a pipe into which each piece is written by itself; some may have come together
/// when they are read.
fn run_in_pieces(folder: &Folder, words: &[&str], pieces: &[&[u8]]) -> Ran {
    let mut running = Running::new(folder, words);
    for piece in pieces {
        // `check` ends as soon as it knows
        if running.input.write_all(piece).is_err() {
            break;
        }
        thread::yield_now();
    }
    running.end()
}

/// The pieces of a capture, cut at random places; now and then two of them are the same place.
fn cut_at_random<'a>(dice: &mut Dice, capture: &'a [u8]) -> Vec<&'a [u8]> {
    let mut places: Vec<_> = (0..dice.below(60))
        .map(|_| dice.below(capture.len() + 1))
        .collect();
    places.extend([0, capture.len()]);
    places.sort();
    places
        .windows(2)
        .map(|place| &capture[place[0]..place[1]])
        .collect()
}

/// Whether two runs have the same results.
#[track_caller]
fn same(a: &Ran, b: &Ran) {
    assert_eq!((a.status, a.error()), (b.status, b.error()));
    assert!(a.out == b.out, "the outputs differ");
}

/// In these pieces `list --follow` prints what `list` prints, `check` tells the place that the
/// library tells of the whole, and `scrub` writes what it makes of that.
fn arrives(folder: &Folder, capture: &[u8], pieces: &[&[u8]]) {
    let listed = run_on(folder, &["list"], capture);
    let followed = run_in_pieces(folder, &["list", "--follow"], pieces);
    same(&followed, &listed);

    let checked = run_in_pieces(folder, &["check", "-"], pieces);
    let place = match first_unclean(capture) {
        Some(place) => format!("standard input: not clean: place {place}: "),
        None => "standard input: clean".to_string(),
    };
    assert!(checked.out().starts_with(&place), "{}", checked.out());

    let scrubbed = run_in_pieces(folder, &["scrub", "-", "-o", "-"], pieces);
    let mut cleaned = vec![0; capture.len()];
    let done = clean(capture, &mut cleaned).unwrap();
    cleaned.truncate(done.bytes as usize);
    assert!(scrubbed.out == cleaned, "the frames differ");
    let stray = capture.len() - cleaned.len();
    let count = |n: usize, what: &str| format!("{n} {what}{}", if n == 1 { "" } else { "s" });
    let said = format!(
        "rietknoest: standard input: kept {}, left out {}, {} after damage\n",
        count(done.frames as usize, "frame"),
        count(stray, "byte"),
        count(done.after_damage as usize, "frame"),
    );
    assert_eq!(
        scrubbed.error().lines().next(),
        Some(said.trim_end()),
        "the counts"
    );
    let mut lines = if done.after_damage > 0 { 3 } else { 1 };
    if let said @ 1.. = unjudged(&cleaned) {
        lines += 1;
        let mark = format!(": {said} M101 bod");
        assert!(scrubbed.error().contains(&mark), "the bodies not judged");
    }
    assert_eq!(scrubbed.error().lines().count(), lines);
    assert_eq!(scrubbed.status, Some(i32::from(stray > 0)));
}

/// How many frames of a cleaned capture are M101: an empty body counts, as the library counts it.
fn unjudged(cleaned: &[u8]) -> usize {
    let (mut place, mut n) = (0, 0);
    while let Ok(frame) = read(cleaned, place) {
        n += usize::from(&frame.type_name() == b"M101");
        place += frame.frame_len();
    }
    n
}

#[test]
fn the_sample_byte_by_byte() {
    let sample = sample();
    let pieces: Vec<_> = sample.chunks(1).collect();
    arrives(&Folder::new(), &sample, &pieces);
}

#[test]
fn damaged_captures_in_pieces() {
    let folder = Folder::new();
    let dice = &mut Dice(2);
    for _ in 0..60 {
        let capture = damaged(dice);
        let pieces = cut_at_random(dice, &capture);
        arrives(&folder, &capture, &pieces);
    }
}

#[test]
fn nothing_arrives() {
    arrives(&Folder::new(), b"", &[]);
}

/// Bodies that are not judged, empty ones too, are counted as the library counts them.
#[test]
fn bodies_that_are_not_judged() {
    let status = |body: &[u8]| frame(b"M101", 1, body);
    let capture = [status(b""), status(b"STATUS"), heartbeats(1), status(b"")];
    let capture = capture.concat();
    let pieces: Vec<_> = capture.chunks(7).collect();
    arrives(&Folder::new(), &capture, &pieces);
    let ran = run_in_pieces(&Folder::new(), &["check", "-"], &pieces);
    let said =
        "standard input: clean, except that 3 M101 bodies are not judged and could hold anything\n";
    ran.quiet(0, said);
}

/// At most 65,536 bytes are read at a time: frames cross these bounds, and so does damage.
#[test]
fn long_captures() {
    let folder = Folder::new();
    let dice = &mut Dice(3);
    for size in [65_535, 65_536, 65_537, 200_000, 5_000_000] {
        let mut capture = Vec::new();
        while capture.len() < size {
            capture.extend(damaged(dice));
            let n = dice.below(3_000) as u64;
            capture.extend(heartbeats(n));
            let letters = vec![b'Z'; dice.below(8_100)];
            capture.extend(tick(1 + n, &letters));
        }
        capture.truncate(size);
        let pieces = cut_at_random(dice, &capture);
        arrives(&folder, &capture, &pieces);
    }
}

/// Clean frames, then stray bytes of any length, of which the first may be those of the next frame:
/// the place that `check` tells is the library's.
#[test]
fn stray_bytes_that_look_like_the_next_frame() {
    let folder = Folder::new();
    let dice = &mut Dice(6);
    for round in 0..40 {
        let letters = vec![b' '; dice.below(8_000)];
        let next = tick(1, &letters);
        let alike = dice.below(next.len());
        let long = [0, 1, 8_192, 8_193, 70_000, 140_000][dice.below(6)];
        let capture = [
            heartbeats(dice.below(3_000) as u64),
            next[..alike].to_vec(),
            vec![b'Z'; long],
            next,
            tick(2, b"A"),
        ];
        let capture = capture.concat();
        let ran = run_on(&folder, &["check", "-"], &capture);
        let place = match first_unclean(&capture) {
            Some(place) => format!("standard input: not clean: place {place}: "),
            None => "standard input: clean".to_string(),
        };
        assert!(ran.out().starts_with(&place), "{round}: {}", ran.out());
    }
}

/// Each line of the sample comes out before the next frame is there. A refused reading is decided
/// by its own bytes too, except for 1.
#[test]
fn a_line_comes_as_soon_as_it_is_decided() {
    let listing = fs::read_to_string(root().join("crates/listing/stdout")).unwrap();
    let sample = sample();
    let mut running = Running::new(&Folder::new(), &["list", "--follow"]);
    let mut at = 0;
    for line in listing.lines() {
        let Some(place) = line.split(' ').next().and_then(|n| n.parse().ok()) else {
            continue;
        };
        let Ok(frame) = read(&sample, place) else {
            continue;
        };
        let end = place + frame.frame_len();
        running.write(&sample[at..end - 1]);
        running.write(&sample[end - 1..end]);
        at = end;
        // those of refused readings before it, then its own
        let mut told = running.line();
        while told.contains(" ---- ") {
            told = running.line();
        }
        assert_eq!(told.trim_end(), line);
    }
    running.write(&sample[at..]);
    let ran = running.end();
    assert!(listing.ends_with(ran.out()));
    assert_eq!(ran.status, Some(1));
    assert!(ran.error().contains("1 frame of channel 101"));
}

/// A frame, then a stray byte: its refusal is printed once the 24 bytes of a header are there, not
/// only at the end.
#[test]
fn a_refusal_is_told_before_the_end() {
    let mut running = Running::new(&Folder::new(), &["list", "--follow", "-"]);
    running.write(&heartbeats(1));
    assert_eq!(running.line(), "0 S003 0 1 0 0 0 0\n");
    running.write(&[0xFF; 24]);
    assert_eq!(running.line(), "28 ---- 2 0 0 0 0 0\n");
    running.write(&heartbeats(1));
    assert_eq!(running.line(), "52 S003 0 1 0 0 0 0\n");
    let ran = running.end();
    ran.quiet(1, "frames 2 refused 1 floor 0 top 0 missing 0\n");
}

/// The first frame comes out before the second is whole, and before the input ends.
#[test]
fn frames_come_out_as_they_arrive() {
    let mut running = Running::new(&Folder::new(), &["scrub", "-", "-o", "-"]);
    let (first, second) = (logon("A", "B"), tick(1, b"C"));
    running.write(&[&first[..], &second[..50]].concat());
    assert!(running.bytes(first.len()) == logon("", ""));
    running.write(&second[50..]);
    assert!(running.bytes(second.len()) == tick(1, b" "));
    let ran = running.end();
    let said =
        "rietknoest: standard input: kept 2 frames, left out 0 bytes, 0 frames after damage\n";
    assert_eq!((ran.status, ran.out(), ran.error()), (Some(0), "", said));
}

/// The damage is in one piece, and the frame after it in the next: it is counted.
#[test]
fn a_frame_after_damage_in_an_earlier_piece() {
    let mut running = Running::new(&Folder::new(), &["scrub", "-", "-o", "-"]);
    running.write(&[heartbeats(1), vec![0xFF; 60]].concat());
    assert!(running.bytes(28) == heartbeats(1));
    running.write(&heartbeats(2));
    assert!(running.bytes(56) == heartbeats(2));
    let ran = running.end();
    let said =
        "rietknoest: standard input: kept 3 frames, left out 60 bytes, 1 frame after damage\n";
    assert!(ran.error().starts_with(said));
    assert_eq!((ran.status, ran.out()), (Some(1), ""));
}

/// With --whole nothing is written before the end, since a stray byte may still come.
#[test]
fn whole_waits_for_the_end() {
    let folder = Folder::new();
    for (last, status, out) in [(&b"\xFF"[..], 1, vec![]), (b"", 0, heartbeats(2))] {
        let mut running = Running::new(&folder, &["scrub", "-", "-o", "-", "--whole"]);
        running.write(&heartbeats(2));
        let early = running.output.recv_timeout(Duration::from_millis(200));
        assert_eq!(early, Err(RecvTimeoutError::Timeout));
        running.write(last);
        let ran = running.end();
        assert_eq!((ran.status, ran.out), (Some(status), out));
    }
}

/// The file appears when all is written, not before: until then it has no name, and only scrubbed
/// bytes.
#[test]
fn a_file_appears_at_the_end() {
    let folder = Folder::new().with("old", b"old");
    for out in ["new", "old"] {
        let mut running = Running::new(&folder, &["scrub", "-", "-o", out]);
        running.write(&logon("A", "B"));
        let written = wait_for_bytes(&folder, running.child.id());
        assert_eq!(written, logon("", ""));
        assert!(!folder.path("new").exists() || out == "old");
        assert_eq!(fs::read(folder.path("old")).unwrap(), b"old");
        let ran = running.end();
        assert_eq!((ran.status, ran.out()), (Some(0), ""));
        assert_eq!(fs::read(folder.path(out)).unwrap(), logon("", ""));
    }
    assert_eq!(folder.names(), ["new", "old"]);
}

/// A capture may take hours. The file that is there at its end decides who may open the new one.
#[test]
fn a_file_that_was_closed_to_others_meanwhile() {
    let folder = Folder::new();
    let mode = |name: &str| {
        let data = fs::metadata(folder.path(name)).unwrap();
        data.permissions().mode() & 0o777
    };
    let mut running = Running::new(&folder, &["scrub", "-", "-o", "out"]);
    running.write(&heartbeats(1));
    wait_for_bytes(&folder, running.child.id());
    fs::write(folder.path("out"), b"").unwrap();
    fs::set_permissions(folder.path("out"), PermissionsExt::from_mode(0o400)).unwrap();
    assert_eq!(running.end().status, Some(0));
    assert_eq!((folder.names(), mode("out")), (vec!["out".into()], 0o400));
}

/// What a run has written to a file of a folder, as soon as that is something: to one without a
/// name, or beside its place.
fn wait_for_bytes(folder: &Folder, run: u32) -> Vec<u8> {
    let mut found = Vec::new();
    wait_for("nothing is written", || {
        let files = open_files(run, folder).into_iter();
        let mut bytes = files.filter_map(|file| fs::read(file).ok());
        bytes.any(|bytes| {
            found = bytes;
            !found.is_empty()
        })
    });
    found
}

/// Waits until it holds, or says what is wrong.
#[track_caller]
fn wait_for(what: &str, mut holds: impl FnMut() -> bool) {
    let start = Instant::now();
    while !holds() {
        assert!(start.elapsed() < PATIENCE, "{what}");
        thread::sleep(Duration::from_millis(5));
    }
}

/// A connection that the other side breaks off: a socket closed with unread bytes in it gives the
/// other end an error.
#[test]
fn nothing_is_left_of_a_line_that_broke() {
    let folder = Folder::new().with("old", b"old");
    for out in ["new", "old"] {
        let (mut ours, mut theirs) = UnixStream::pair().unwrap();
        theirs.write_all(b"unread").unwrap();
        let child = command(&folder)
            .args(["scrub", "-", "-o", out])
            .stdin(Stdio::from(OwnedFd::from(theirs)))
            .stdout(Stdio::piped())
            .stderr(Stdio::piped())
            .spawn()
            .unwrap();
        ours.write_all(&logon("A", "B")).unwrap();
        wait_for_bytes(&folder, child.id());
        drop(ours);
        let ended = child.wait_with_output().unwrap();
        let said = "rietknoest: standard input: Connection reset by peer\n";
        assert_eq!(String::from_utf8_lossy(&ended.stderr), said);
        assert_eq!((ended.status.code(), ended.stdout), (Some(2), vec![]));
        assert_eq!(folder.names(), ["old"]);
        assert_eq!(fs::read(folder.path("old")).unwrap(), b"old");
    }
}

#[test]
fn what_does_not_read_is_2() {
    let folder = Folder::new();
    let from_folder = |words: &[&str]| {
        let mut command = command(&folder);
        command
            .args(words)
            .stdin(File::open(folder.path(".")).unwrap());
        let ended = command.output().unwrap();
        let said = "rietknoest: standard input: Is a directory\n";
        assert_eq!(String::from_utf8_lossy(&ended.stderr), said);
        assert_eq!((ended.status.code(), ended.stdout), (Some(2), vec![]));
    };
    from_folder(&["list", "--follow"]);
    from_folder(&["scrub", "-", "-o", "out"]);
    from_folder(&["scrub", "-", "-o", "-"]);
    run(&folder, &["list", "--follow", "no"]).failed("no", "No such file or directory");
    assert!(folder.names().is_empty());
}

/// A closed output ends `list --follow`, with the status of what had come by then, while its input
/// is still open.
#[test]
fn a_reader_who_goes_away() {
    let folder = Folder::new();
    for (first, status) in [(heartbeats(1), 0), (tick(2, b""), 1)] {
        let (reader, writer) = UnixStream::pair().unwrap();
        let mut child = command(&folder)
            .args(["list", "--follow"])
            .stdin(Stdio::piped())
            .stdout(Stdio::from(OwnedFd::from(writer)))
            .stderr(Stdio::piped())
            .spawn()
            .unwrap();
        let mut input = child.stdin.take().unwrap();
        input.write_all(&first).unwrap();
        reader.set_read_timeout(Some(PATIENCE)).unwrap();
        assert!((&reader).read(&mut [0; 100]).unwrap() > 0);
        drop(reader);
        // lines that nobody reads: more than one, since a process that another test is starting may
        // still have its copy of the reader's end
        wait_for("it does not end", || {
            let _ = input.write_all(&heartbeats(1));
            child.try_wait().unwrap().is_some()
        });
        let ended = child.wait_with_output().unwrap();
        assert_eq!(ended.status.code(), Some(status));
        assert_eq!(String::from_utf8_lossy(&ended.stderr), "");
    }
}

/// Twenty megabytes pass through 16: what arrives is not gathered.
#[test]
fn a_capture_larger_than_the_memory() {
    let mut capture = heartbeats(10_000).repeat(70);
    capture.extend([0; 1_000_000]);
    let folder = Folder::new().with("large", &capture);
    let limited = |words: &str| {
        let line = format!("ulimit -v 16384; exec \"$0\" {words}");
        let mut shell = Command::new("sh");
        shell
            .current_dir(folder.path("."))
            .args(["-c", &line, env!("CARGO_BIN_EXE_rietknoest")]);
        finish(shell, b"")
    };
    let ran = limited("list large");
    assert_eq!((ran.status, ran.error()), (Some(1), ""));
    let last = "frames 700000 refused 1 floor 0 top 0 missing 0\n";
    assert!(ran.out().ends_with(last));
    let ran = limited("scrub large -o out");
    let said =
        "rietknoest: large: kept 700000 frames, left out 1000000 bytes, 0 frames after damage\n";
    assert_eq!((ran.status, ran.error()), (Some(1), said));
    assert!(fs::read(folder.path("out")).unwrap() == capture[..capture.len() - 1_000_000]);
}
