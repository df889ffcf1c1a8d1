//! Captures of the STEP line: what the command says and writes of them. All data is made up.

mod common;

use std::fs;

use common::*;
use rietknoest_host::step;

/// The private values of the frames below.
const PRIVATE: [&str; 5] = [
    "BROKERONE",
    "GATEWAYTWO",
    "traderjoe",
    "s3cretword",
    "see you later",
];

fn message(kind: u8, fields: &[&str]) -> Vec<u8> {
    let fields: Vec<u8> = fields
        .iter()
        .flat_map(|f| [f.as_bytes(), b"\x01"].concat())
        .collect();
    let mut out = vec![0; step::LONGEST];
    let len = step::write(kind, &fields, &mut out).unwrap();
    out.truncate(len);
    out
}

fn logon() -> Vec<u8> {
    let fields = [
        "49=BROKERONE",
        "56=GATEWAYTWO",
        "34=1",
        "52=20260121-09:30:00.123",
        "98=0",
        "108=30",
        "553=traderjoe",
        "554=s3cretword",
        "1137=9",
    ];
    message(b'A', &fields)
}

fn logout() -> Vec<u8> {
    let fields = [
        "56=GATEWAYTWO",
        "49=BROKERONE",
        "34=2",
        "52=20260121-15:30:00.000",
        "58=see you later",
    ];
    message(b'5', &fields)
}

#[test]
fn a_capture_is_scrubbed_frame_by_frame() {
    let capture = [logon(), b"stray".to_vec(), logout()].concat();
    let folder = Folder::new().with("in", &capture);
    let done = run(&folder, &["scrub", "--step", "in", "-o", "out"]);
    assert_eq!(done.status, Some(1));
    assert_eq!(
        done.error(),
        "rietknoest: in: kept 2 STEP frames, left out 5 bytes\n"
    );
    let out = fs::read(folder.path("out")).unwrap();
    assert_eq!(out.len() + 5, capture.len());
    for word in PRIVATE {
        assert!(!out.windows(word.len()).any(|w| w == word.as_bytes()));
    }
    let clean = run(&folder, &["check", "--step", "out"]);
    assert_eq!((clean.status, clean.out()), (Some(0), "out: clean\n"));
    let whole = run(&folder, &["scrub", "--step", "in", "-o", "none", "--whole"]);
    assert_eq!(whole.status, Some(1));
    assert!(!folder.path("none").exists());
}

#[test]
fn the_first_place_that_is_not_clean_is_told() {
    let folder = Folder::new()
        .with("in", &logon())
        .with("stray", b"8=FIXT.1.1\x019=05\x01");
    let told = run(&folder, &["check", "--step", "in"]);
    assert_eq!(told.status, Some(1));
    assert_eq!(
        told.out(),
        "in: not clean: place 25: SenderCompID of the frame at 0\n"
    );
    let told = run(&folder, &["check", "--step", "stray"]);
    assert_eq!(
        told.out(),
        "stray: not clean: place 0: stray bytes, where reading answers 24: no body length of one to nine digits stands second\n"
    );
}

#[test]
fn a_frame_is_explained_without_a_private_value() {
    let folder = Folder::new().with("in", &logon());
    let told = run(&folder, &["explain", "--step", "in", "0"]);
    assert_eq!(told.status, Some(0));
    assert!(told.out().contains("MsgType A, a logon\n"));
    assert!(told
        .out()
        .contains("554 Password: is private: 10 bytes, not shown\n"));
    assert!(told.out().contains("108 HeartBtInt: number 30\n"));
    let inside = run(&folder, &["explain", "--step", "in", "1"]);
    assert_eq!(inside.status, Some(1));
    assert!(inside.out().contains("inside the frame at 0"));
    for word in PRIVATE {
        assert!(!told.out().contains(word) && !inside.out().contains(word));
    }
}

/// Whatever the command is asked of a capture with damage in it, it writes none of the private
/// values, to no output and no file.
#[test]
fn no_private_value_is_written() {
    let mut damaged = logon();
    damaged[20] ^= 1;
    let capture = [logon(), damaged, logout(), b"s3cretword".to_vec()].concat();
    let folder = Folder::new().with("in", &capture);
    let mut words: Vec<String> = [
        "check --step in",
        "scrub --step in -o out",
        "scrub --step in -o -",
        "scrub --step in -o none --whole",
        "check --step out",
        "scrub --step out -o again",
        "list in",
        "check in",
        "scrub in -o plain",
        "market in",
    ]
    .map(String::from)
    .into();
    words.extend((0..=capture.len()).map(|place| format!("explain --step in {place}")));
    for line in words {
        let ran = run(&folder, &line.split(' ').collect::<Vec<_>>());
        assert_ne!(ran.status, Some(2), "{line}");
        told_nothing(&ran.out, &line);
        told_nothing(&ran.error, &line);
    }
    assert_eq!(folder.names(), ["again", "in", "out", "plain"]);
    for name in ["again", "out", "plain"] {
        told_nothing(&fs::read(folder.path(name)).unwrap(), name);
    }
}

fn told_nothing(bytes: &[u8], of: &str) {
    for word in PRIVATE {
        assert!(
            !bytes.windows(word.len()).any(|w| w == word.as_bytes()),
            "{of}"
        );
    }
}

#[test]
fn a_capture_of_the_other_line_is_told_of() {
    let folder = Folder::new().with("in", &logon());
    for words in [
        &["check", "in"][..],
        &["list", "in"],
        &["explain", "in", "0"],
        &["scrub", "in", "-o", "-"],
        &["scrub", "in", "-o", "-", "--whole"],
    ] {
        let told = run(&folder, words);
        assert!(
            told.error()
                .contains("scrub, check and explain take --step"),
            "{words:?}"
        );
        for word in PRIVATE {
            assert!(!told.out().contains(word) && !told.error().contains(word));
        }
    }
}

/// In a BINARY text a STEP frame may stand: of a BINARY capture `--step` takes nothing.
#[test]
fn a_binary_capture_is_refused() {
    let folder = Folder::new().with("in", &sample());
    for words in [
        &["scrub", "--step", "in", "-o", "out"][..],
        &["check", "--step", "in"],
        &["explain", "--step", "in", "0"],
    ] {
        let refused = run(&folder, words);
        assert_eq!(refused.status, Some(2), "{words:?}");
        assert!(refused.out().is_empty());
        assert!(refused.error().contains("leave out --step"), "{words:?}");
    }
    assert_eq!(folder.names(), ["in"]);
}
