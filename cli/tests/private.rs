//! No private byte of the sample appears in anything that the command writes.

mod common;

use std::collections::BTreeSet;
use std::fs;

use common::*;
use rietknoest_host::{first_unclean, private_spans, read, search, tail_fields, Frame, HEADER};

/// Shorter runs of bytes occur anywhere by chance.
const ROW: usize = 6;

type Rows = BTreeSet<Vec<u8>>;

/// What the sample's private bytes are, and what else may be written of it.
#[derive(Default)]
struct Told {
    private: Rows,
    public: Rows,
    /// Private numbers as text.
    numbers: BTreeSet<String>,
    /// Numbers of a tick's public fields, as text.
    shown: BTreeSet<String>,
}

impl Told {
    /// Every run of six bytes that are not fill, and every number of six digits or more in four or
    /// eight bytes: shorter fields have fewer digits.
    fn hide(&mut self, bytes: &[u8], fill: u8) {
        let rows = bytes.windows(ROW).filter(|row| !row.contains(&fill));
        self.private.extend(rows.map(<[u8]>::to_vec));
        for width in [4, 8] {
            for field in bytes.windows(width) {
                let number = field.iter().fold(0, |n, b| n << 8 | u64::from(*b));
                let digits = number.to_string();
                if digits.len() >= ROW {
                    self.numbers.insert(digits);
                }
            }
        }
    }

    fn show(&mut self, bytes: &[u8]) {
        self.public.extend(bytes.windows(ROW).map(<[u8]>::to_vec));
    }

    /// A frame that reads: its public bytes, and its numbers as text, since two of them have the
    /// same day in them as a private order number.
    fn frame(&mut self, bytes: &[u8], frame: &Frame) {
        let body = &bytes[HEADER..][..frame.body_len as usize];
        let mut public_from = 0;
        for span in private_spans(frame.msg_type as u32, body).unwrap() {
            let place = HEADER + span.place as usize;
            let end = place + span.len as usize;
            self.hide(&bytes[place..end], span.fill as u8);
            self.show(&bytes[public_from..place]);
            public_from = end;
        }
        // of CheckSum the first three bytes are 0, and the last is set anew
        self.show(&bytes[public_from..frame.frame_len() - 1]);
        for number in [frame.sending_time, frame.seq.value(), frame.tick.value()] {
            self.show(number.to_string().as_bytes());
        }
        let mut show = |place: usize, len: usize| {
            let bytes = &body[place..][..len];
            let number = bytes.iter().fold(0, |n, b| n << 8 | u64::from(*b));
            self.shown.insert(number.to_string());
        };
        for field in tail_fields(body).unwrap_or_default() {
            if (field.hidden, field.text) == (0, 0) {
                show(field.place as usize, field.len as usize);
            }
        }
        if &frame.type_name() == b"M201" {
            // TransactTime, Price, OrderQty
            for (place, len) in [(24, 4), (29, 8), (37, 8)] {
                show(place, len);
            }
        }
    }
}

/// The sample's frames, those that read and the damaged ones. Every byte of a damaged one counts as
/// private: none may be shown.
fn told() -> Told {
    let sample = sample();
    let mut told = Told::default();
    let mut at = 0;
    while at < sample.len() {
        match read(&sample, at) {
            Ok(frame) => {
                told.frame(&sample[at..], &frame);
                at += frame.frame_len();
            }
            Err(_) => {
                let next = search(&sample, at + 1).unwrap().unwrap_or(sample.len());
                told.hide(&sample[at..next], b' ');
                at = next;
            }
        }
    }
    told
}

/// What is searched for.
struct Sought {
    /// Private runs that are in no public part, nor in the command's own words, as it prints them
    /// for an empty capture.
    rows: Rows,
    /// Private numbers as text. No public one is the same.
    numbers: BTreeSet<String>,
}

impl Sought {
    fn of_sample() -> Sought {
        let mut told = told();
        let folder = Folder::new();
        told.show(&run(&folder, &["scrub", "-", "-o", "-"]).error);
        Sought {
            rows: told.private.difference(&told.public).cloned().collect(),
            numbers: told.numbers.difference(&told.shown).cloned().collect(),
        }
    }

    /// How many of the runs are in the bytes, plain or in hex, and how many of the numbers, each a
    /// whole run of digits. The bytes themselves are not printed.
    fn found(&self, bytes: &[u8]) -> usize {
        let plain = bytes.windows(ROW).filter(|row| self.rows.contains(*row));
        let spelt = bytes.windows(2 * ROW).filter_map(of_hex);
        let digits = bytes.split(|b| !b.is_ascii_digit());
        let numbers = digits.map(|run| String::from_utf8_lossy(run));
        plain.count()
            + spelt.filter(|row| self.rows.contains(row)).count()
            + numbers.filter(|run| self.numbers.contains(&**run)).count()
    }
}

fn of_hex(digits: &[u8]) -> Option<Vec<u8>> {
    let digit = |b: u8| char::from(b).to_digit(16);
    let pairs = digits.chunks(2);
    pairs
        .map(|pair| Some((digit(pair[0])? * 16 + digit(pair[1])?) as u8))
        .collect()
}

/// The search works: in the sample itself it finds the texts and numbers that tools/sample puts
/// into private fields and damaged frames.
#[test]
fn the_rows_are_those_of_the_sample() {
    let sought = Sought::of_sample();
    let texts = [
        "MADE-UP BROKER",
        "GATEWAY-1",
        "MEMBER-A",
        "TRADER-07",
        "MADE-UP INVESTOR",
        "MADE-UP NOTE",
        "MADE-UP REASON: LINE TEST IS OVER",
        "Q20260121000000005",
    ];
    for text in texts {
        assert!(sought.found(text.as_bytes()) > 0, "{text}");
    }
    assert_eq!(sought.found(b"4d414445"), 0);
    assert!(sought.found(b" 4D4144452D5550 ") > 0);
    assert_eq!(sought.found(b"SendingTime 20260121093000010"), 0);
    assert!(sought.found(&sample()) > 300);
    assert!(sought.rows.len() > 100);
}

#[test]
fn no_private_byte_is_written() {
    let sought = Sought::of_sample();
    let folder = Folder::new().with("sample", &sample());
    let mut words: Vec<Vec<String>> = [
        "--help",
        "list sample",
        "list --json sample",
        "list --summary sample",
        "list sample sample",
        "list --follow",
        "list --follow --json",
        "gaps sample",
        "gaps --json sample",
        "month --channels 100 sample",
        "check sample",
        "scrub sample -o out",
        "scrub sample -o -",
        "scrub sample --whole -o whole",
        "scrub out -o again --whole",
        "scrub sample -o sample",
        "scrub sample -o no/out",
        "list out",
        "check out",
        "month --channels 100,101 out",
        "explain sample 9999",
        "explain sample x",
    ]
    .iter()
    .map(|line| line.split(' ').map(String::from).collect())
    .collect();
    for place in 0..=sample().len() {
        words.push(vec!["explain".into(), "sample".into(), place.to_string()]);
    }
    let capture = sample();
    for words in words {
        let ran = run_on(&folder, &words, &capture);
        assert_ne!(ran.status, None, "{words:?}");
        assert_eq!(sought.found(&ran.out), 0, "{words:?}");
        assert_eq!(sought.found(&ran.error), 0, "{words:?}");
    }
    assert_eq!(folder.names(), ["again", "out", "sample"]);
    for name in ["again", "out"] {
        assert_eq!(sought.found(&fs::read(folder.path(name)).unwrap()), 0);
    }
}

/// A tick whose extension holds the bytes of a frame. Reading there answers 0, and nothing of the
/// frame is printed; it counts as a frame only if the one around it is damaged.
#[test]
fn a_frame_inside_private_bytes_is_not_told() {
    let inner = frame(b"S003", 7_777_777, b"");
    let outer = tick(1, &inner);
    let damaged = [b"N", &outer[1..]].concat();
    let folder = Folder::new()
        .with("outer", &outer)
        .with("damaged", &damaged);
    run(&folder, &["explain", "outer", "69"]).quiet(
        0,
        "outer: place 69: a frame reads here, 0 (done): every check passes
the walk does not read here: the place lies inside the M201 at 0, and no more is said of it
",
    );
    let ran = run(&folder, &["scrub", "outer", "-o", "-", "--whole"]);
    assert_eq!((ran.status, &ran.out), (Some(0), &tick(1, &[b' '; 28])));

    let ran = run(&folder, &["explain", "damaged", "69"]);
    assert!(ran.out().contains("\nMsgSeqNum 7777777\n"));
    assert!(ran.out().contains("\nit stands after damage, "));
    let ran = run(&folder, &["scrub", "damaged", "-o", "-"]);
    assert_eq!((ran.status, &ran.out), (Some(1), &inner));
    let counts = "rietknoest: damaged: kept 1 frame, left out 73 bytes, 1 frame after damage\n";
    assert!(ran.error().starts_with(counts));
    assert!(ran.error().contains("may lie inside private bytes"));
    // once it is alone nothing can tell, and the help says so
    run_on(&folder, &["check", "-"], &inner).quiet(0, "standard input: clean\n");
    let help = run(&folder, &["--help"])
        .out()
        .split_whitespace()
        .collect::<Vec<_>>()
        .join(" ");
    assert!(help.contains("It can't tell a frame that came out of private bytes"));
}

/// Two frames end to end in the extension of a damaged tick: the second follows the first without a
/// gap, and is as suspect.
#[test]
fn every_frame_behind_damage_is_warned_of() {
    let damaged = tick(1, &[heartbeats(2), vec![b' ']].concat());
    let damaged = [b"N", &damaged[1..]].concat();
    let capture = [heartbeats(1), damaged, heartbeats(1)].concat();
    let folder = Folder::new().with("in", &capture);
    let warned = |place: usize| {
        let ran = run(&folder, &["explain", "in", &place.to_string()]);
        assert_eq!(ran.status, Some(0));
        assert!(ran.out().contains("\nMsgType S003, "), "{place}");
        ran.out().contains("\nit stands after damage, ")
    };
    let first = 28 + HEADER + 45;
    let places = [0, first, first + 28, capture.len() - 28];
    assert_eq!(places.map(warned), [false, true, true, true]);
}

/// A session whose private bytes are made of one letter, each as long as ever, with damage in it
/// and another channel. The letter is in private fields alone, and in a damaged frame's.
fn session(letter: &str) -> Vec<u8> {
    let letters = |n: usize| letter.repeat(n);
    let resend = |status: u8| {
        let numbers = [&[0, 100, 1][..], &4u64.to_be_bytes(), &5u64.to_be_bytes()].concat();
        let body = [numbers, vec![status], text(32, &letters(32))].concat();
        frame(b"P002", 9, &body)
    };
    let announce = |last: u64| {
        let body = [&[13, 0, 100][..], &last.to_be_bytes(), b"N"].concat();
        frame(b"P001", 3, &body)
    };
    let spoilt = |mut frame: Vec<u8>| {
        let last = frame.len() - 1;
        frame[last] ^= 1;
        frame
    };
    let hidden = letters(40);
    [
        logon(&letters(32), &letters(32)),
        announce(3),
        order(1, &letters(12), &letters(12), &letters(32)),
        order(2, &letters(12), &letters(12), &letters(32)),
        tick(5, hidden.as_bytes()),
        resend(0),
        resend(4),
        tick_on(101, 7, hidden.as_bytes()),
        spoilt(announce(9)),
        frame(b"M101", 8, b"STATUS"),
        spoilt(logon(&letters(32), &letters(32))),
        tick(300, hidden.as_bytes()),
        spoilt(tick(6, hidden.as_bytes())),
        frame(
            b"S002",
            10,
            &[vec![0; 4], text(256, &letters(256))].concat(),
        ),
    ]
    .concat()
}

/// A line of words is told alike over two captures that stand in their folders as `in`, and come
/// through a pipe too, for the lines that name no file.
fn told_alike(folders: &[Folder; 2], line: &str) {
    let words: Vec<_> = line.split(' ').collect();
    let [one, other] = [&folders[0], &folders[1]].map(|folder| {
        let capture = fs::read(folder.path("in")).unwrap();
        run_on(folder, &words, &capture)
    });
    assert_eq!(one.status, other.status, "{line}");
    assert!(one.out == other.out, "{line}: standard output differs");
    assert!(one.error == other.error, "{line}: standard error differs");
    assert_eq!(folders[0].names(), folders[1].names(), "{line}");
}

/// Damaged frames full of private bytes, each with what reading answers: a wrong sum under a type
/// that has no private field, by its letters or since it reaches over the next frame; a wrong
/// length; a field that breaks its rule.
fn damaged_frames(letter: &str) -> [(Vec<u8>, &'static str); 5] {
    let letters = |n: usize| letter.repeat(n);
    let named = |kind: &[u8; 4]| {
        let mut frame = order(1, &letters(12), &letters(12), &letters(32));
        frame[..4].copy_from_slice(kind);
        frame
    };
    // the letters of both types have one sum: another byte is damaged too
    let mut snapshot = named(b"M102");
    *snapshot.last_mut().unwrap() ^= 1;
    // the sample's first snapshot, its body longer by 256 bytes
    let mut longer = sample()[285..416].to_vec();
    longer[22] += 1;
    longer.extend(order(1, &letters(12), &letters(12), &letters(32)));
    longer.extend(logon(&letters(32), &letters(32)));
    let mut resting = logon(&letters(32), &letters(32));
    // HeartBtInt becomes 0, and the sum suits it
    let end = resting.len() - 4;
    resting[end + 3] = resting[end + 3].wrapping_sub(resting[89]);
    resting[89] = 0;
    [
        (named(b"M101"), "5 (sum)"),
        (snapshot, "5 (sum)"),
        (longer, "5 (sum)"),
        (named(b"S001"), "4 (length)"),
        (resting, "6 (field)"),
    ]
}

/// Two captures that differ in private bytes alone: every command prints the same of both, on both
/// streams, with the same status, and writes the same file. So it does where the first damage is
/// another.
#[test]
fn private_bytes_leave_no_trace() {
    leaves_no_trace(["Q", "z"].map(session));
    for case in 0..damaged_frames("").len() {
        let captures = ["Q", "z"].map(|letter| {
            let (frame, answer) = &damaged_frames(letter)[case];
            let capture = [heartbeats(1), frame.clone(), session(letter)].concat();
            let folder = Folder::new().with("in", &capture);
            let ran = run(&folder, &["explain", "in", "28"]);
            let start = format!("in: place 28: refused, {answer}: ");
            assert!(ran.out().starts_with(&start), "{}", ran.out());
            capture
        });
        leaves_no_trace(captures);
    }
}

fn leaves_no_trace(captures: [Vec<u8>; 2]) {
    let folders = captures.map(|capture| Folder::new().with("in", &capture));
    let mut lines: Vec<String> = [
        "list in",
        "list --json in",
        "list --summary in",
        "list --json --summary in in",
        "list --follow",
        "list --follow --json",
        "gaps in",
        "gaps --json in in",
        "month --channels 100 in",
        "month --channels 100,101 in in",
        "check in",
        "check in in",
        "scrub in -o out",
        "scrub in -o -",
        "scrub in -oout --whole",
        "check out",
        "list out",
        "month --channels 100,101 out out",
        "market in",
        "check --step in",
        "scrub --step in -o none",
        "explain --step in 30",
    ]
    .map(String::from)
    .to_vec();
    let listed = run(&folders[0], &["list", "in"]);
    let rows = listed.out().lines().map(|row| row.split(' ').next());
    for place in rows.filter_map(|place| place?.parse::<usize>().ok()) {
        lines.extend([0, 1, 24, 60].map(|more| format!("explain in {}", place + more)));
    }
    for line in lines {
        told_alike(&folders, &line);
    }
    let [one, other] = folders.map(|folder| fs::read(folder.path("out")).unwrap());
    assert!(one == other && !one.is_empty());
}

/// A frame whose type was damaged, so that it looks like one without private fields and every other
/// check up to the sum's suits it: M201 to M101 by one byte, to M102 by two. Or an M102 whose
/// length was, so that it reaches over the next frame. No sum of it is shown.
#[test]
fn a_damaged_type_or_length_shows_no_sum() {
    let reasons = [
        "the body of an M101 could hold anything",
        "with the right one it would not read either",
        "with the right one it would not read either",
    ];
    for ((frame, _), reason) in damaged_frames("Q").iter().zip(reasons) {
        let folder = Folder::new().with("in", frame);
        let ran = run(&folder, &["explain", "in", "0"]);
        let lines = format!(
            "in: place 0: refused, 5 (sum): its CheckSum differs from the sum of its bytes
the sums are not shown: {reason}
"
        );
        assert_eq!((ran.status, ran.error()), (Some(1), ""));
        assert!(ran.out().starts_with(&lines), "{}", ran.out());
        assert_eq!(ran.out().lines().count(), 4);
    }
}

/// Generated pairs of captures of all types, up to 64 KiB, that the second program finds to differ
/// in private fields and checksums alone (CR 13). `month` over the pair itself is compared where
/// neither is clean: it counts clean captures alone (13.8). `check` is where both have the same
/// first place that scrubbing changes, since it tells that place; `explain` at places where the
/// walk reads.
#[test]
fn generated_pairs_are_told_alike() {
    let (mut left_out, mut checked, mut explained) = (0, 0, 0);
    for (case, about) in [(0, 300), (1, 3_000), (2, 20_000), (3, 60_000)] {
        let mut d = oracle::made::Dice::new(13, case);
        let (one, other) = oracle::alike::pair_of_captures(&mut d, about, 600);
        assert!(oracle::alike::captures_alike(&one, &other) && one != other);
        let unclean = [&one, &other].map(|capture| first_unclean(capture));
        let clean = unclean.map(|place| place.is_none());
        let folders = [one, other].map(|capture| Folder::new().with("in", &capture));
        for line in [
            "list in",
            "list --json in",
            "list --summary in",
            "list --follow",
            "list --follow --json",
            "gaps in",
            "gaps --json in",
            "scrub in -o out",
            "scrub in -o -",
            "list out",
            "check out",
            "month --channels 100,101 out",
        ] {
            told_alike(&folders, line);
        }
        if unclean[0] == unclean[1] {
            told_alike(&folders, "check in");
            checked += 1;
        }
        let listed = run(&folders[0], &["list", "in"]);
        let rows: Vec<_> = listed.out().lines().collect();
        for row in rows[..rows.len() - 1].iter().step_by(1 + rows.len() / 12) {
            let place = row.split(' ').next().unwrap();
            told_alike(&folders, &format!("explain in {place}"));
            explained += 1;
        }
        if clean == [false; 2] {
            let ran = run(&folders[0], &["month", "--channels", "100,101", "in"]);
            assert_eq!(ran.status, Some(1), "case {case}");
            assert!(ran.out().starts_with("sums of 0 captures\n"), "case {case}");
            told_alike(&folders, "month --channels 100,101 in");
            left_out += 1;
        }
        let [one, other] = folders.map(|folder| fs::read(folder.path("out")).unwrap());
        assert!(one == other, "case {case}: what scrub wrote");
    }
    assert!(left_out > 1, "most pairs have no clean one: {left_out}");
    assert!(checked > 0 && explained > 20, "{checked} {explained}");
}

/// `month` counts clean captures alone, so it tells a clean one from its unscrubbed pair:
/// docs/PRIVATE.md names it.
#[test]
fn month_tells_a_clean_capture_from_another() {
    let capture = logon("MADE-UP SENDER", "MADE-UP TARGET");
    let folder = Folder::new().with("in", &capture);
    assert_eq!(run(&folder, &["scrub", "in", "-o", "out"]).status, Some(0));
    let clean = run(&folder, &["month", "--channels", "100", "out"]);
    let other = run(&folder, &["month", "--channels", "100", "in"]);
    assert!(clean.out().contains("sums of 1 captures"));
    assert!(other.out().contains("sums of 0 captures"));
}
