//! STEP frames through the wrapper and through C, on rows made by hand. All data is made up.

use std::io::Write;
use std::path::Path;
use std::process::{Command, Stdio};

use rietknoest_host::step::{self, Frame};
use rietknoest_host::Refusal::{self, *};

/// A frame as paper 001 has it: `|` stands for SOH; the length and the sum are worked out here.
fn framed(kind: &str, fields: &str) -> Vec<u8> {
    let body = format!("35={kind}|{fields}");
    let plain = format!("8=FIXT.1.1|9={}|{body}", body.len()).replace('|', "\x01");
    let sum: u32 = plain.bytes().map(u32::from).sum();
    format!("{plain}10={:03}\x01", sum % 256).into_bytes()
}

const BEAT: &str = "49=AB|56=CD|34=7|52=20260121-09:30:00.123|";
const LOGON: &str =
    "49=AB|56=CD|34=1|52=20260121-09:30:00.123|98=0|108=30|553=joe|554=pass|1137=9|";

fn refusal(bytes: &[u8]) -> Refusal {
    Frame::read(bytes, 0).unwrap_err()
}

#[test]
fn a_frame_reads_with_its_fields_in_their_order() {
    let bytes = [b"??".to_vec(), framed("0", BEAT), b"more".to_vec()].concat();
    let frame = Frame::read(&bytes, 2).unwrap();
    assert_eq!((frame.kind, frame.len), (b'0', bytes.len() - 6));
    let fields: Vec<_> = frame.fields().map(|f| (f.tag, f.value)).collect();
    let said: [(u64, &[u8]); 4] = [
        (49, b"AB"),
        (56, b"CD"),
        (34, b"7"),
        (52, b"20260121-09:30:00.123"),
    ];
    assert_eq!(fields, said);
}

#[test]
fn every_front_of_a_frame_waits_and_every_wrong_byte_is_refused() {
    let frame = framed("A", LOGON);
    for cut in 0..frame.len() {
        assert_eq!(refusal(&frame[..cut]), More, "{cut}");
        let mut wrong = frame.clone();
        wrong[cut] ^= 0x80;
        assert!(Frame::read(&wrong, 0).is_err(), "{cut}");
    }
    assert_eq!(Frame::read(&frame, frame.len() + 1), Err(More));
}

#[test]
fn each_refusal_has_its_number() {
    let rows: [(Vec<u8>, Refusal); 12] = [
        (b"8=FIXX".to_vec(), Begin),
        (b"8=FIXT.1.1\x019=05\x01".to_vec(), BodyLength),
        (b"8=FIXT.1.1\x019=8172\x01".to_vec(), Long),
        (framed("h", BEAT), MsgType),
        (b"8=FIXT.1.1\x019=4\x01".to_vec(), MsgType),
        (framed("0", "49=AB"), Sum),
        (framed("0", &BEAT.replace("0121", "1321")), Time),
        (framed("0", &format!("{BEAT}49=AB|")), Fields),
        (framed("0", "49=AB|56=CD|34=7|"), Fields),
        (framed("0", &format!("{BEAT}108=30|")), Fields),
        (framed("0", &BEAT.replace("34=7", "34=07")), Fields),
        (framed("5", &format!("{BEAT}36=9|")), Fields),
    ];
    for (i, (bytes, why)) in rows.iter().enumerate() {
        assert_eq!(refusal(bytes), *why, "row {i}");
    }
}

#[test]
fn what_is_written_reads_and_what_is_read_is_written() {
    for (kind, fields) in [("0", BEAT), ("A", LOGON)] {
        let frame = framed(kind, fields);
        let text = fields.replace('|', "\x01");
        let mut out = vec![7; frame.len() + 2];
        assert_eq!(
            step::write(kind.as_bytes()[0], text.as_bytes(), &mut out),
            Ok(frame.len())
        );
        assert_eq!(out[..frame.len()], frame);
        assert_eq!(out[frame.len()..], [7, 7]);
        let read = Frame::read(&out, 0).unwrap();
        assert_eq!(read.fields, text.as_bytes());
        let mut short = vec![7; frame.len() - 1];
        assert_eq!(step::write(read.kind, read.fields, &mut short), Err(Room));
        assert!(short.iter().all(|b| *b == 7));
    }
}

#[test]
fn the_five_values_become_spaces_and_nothing_else_moves() {
    let spaces = "49=  |56=  |34=1|52=20260121-09:30:00.123|98=0|108=30|553=   |554=    |1137=9|";
    let mut frame = framed("A", LOGON);
    let n = frame.len();
    frame.extend(b"behind");
    assert_eq!(step::scrub(&mut frame), Ok(n));
    assert_eq!(frame[..n], framed("A", spaces));
    assert_eq!(frame[n..], *b"behind");
    let again = frame.clone();
    assert_eq!(step::scrub(&mut frame), Ok(n));
    assert_eq!(frame, again);
    let mut wrong = framed("0", &format!("{BEAT}999=A|"));
    let was = wrong.clone();
    assert_eq!(step::scrub(&mut wrong), Err(Fields));
    assert_eq!(wrong, was);
}

/// What a failed `unwrap` or a log prints of a frame has lengths and tags, no byte of a value.
#[test]
fn no_value_is_in_a_debug_text() {
    let bytes = framed("A", LOGON);
    let frame = Frame::read(&bytes, 0).unwrap();
    let texts = [
        format!("{frame:?}"),
        format!("{:?}", frame.fields()),
        format!("{:?}", frame.fields().collect::<Vec<_>>()),
    ];
    for text in &texts {
        assert!(!text.contains("pass") && !text.contains("joe"), "a value");
        // as a row of bytes: `p` is 112, `a` 97
        assert!(!text.contains("112, 97"), "a value's bytes");
    }
    let told = "Field { tag: 554, value_len: 4, place: 66 }";
    assert!(texts[2].contains(told));
}

#[test]
fn ten_lines_of_c_scrub_a_logon() {
    let root = Path::new(env!("CARGO_MANIFEST_DIR")).join("..");
    let program = Path::new(env!("CARGO_TARGET_TMPDIR")).join("scrub_step");
    let built = Command::new("cc")
        .args(["-std=c11", "-Wall", "-Wextra", "-Werror", "-pedantic", "-I"])
        .arg(root.join("host/include"))
        .arg(root.join("host/examples/scrub_step.c"))
        .arg(root.join("build/librietknoest.a"))
        .arg("-o")
        .arg(&program)
        .status();
    assert!(built.unwrap().success());
    let mut child = Command::new(program)
        .stdin(Stdio::piped())
        .stdout(Stdio::piped())
        .spawn()
        .unwrap();
    let mut frame = framed("A", LOGON);
    child.stdin.take().unwrap().write_all(&frame).unwrap();
    let said = child.wait_with_output().unwrap().stdout;
    step::scrub(&mut frame).unwrap();
    assert_eq!(said, frame);
}
