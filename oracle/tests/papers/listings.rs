//! Records, the walk and the listing.

use crate::samples::*;
use oracle::answer::No;
use oracle::bytes::put;
use oracle::ledger::Ledger;
use oracle::listing::listing;
use oracle::numbers::{Channel, Session, Tick};
use oracle::record::Record;
use oracle::walk::{records, walk, CHANNEL};

fn example() -> Vec<u8> {
    let mut capture = a();
    capture.push(0xFF);
    capture.extend(b());
    capture
}

fn text(capture: &[u8]) -> String {
    String::from_utf8(listing(capture)).unwrap()
}

/// A tick's frame, with the session number that the samples carry.
fn tick(n: u64) -> Vec<u8> {
    framed(b"M201", &trade(n))
}

#[test]
fn the_example_of_69_bytes() {
    assert_eq!(example().len(), 69);
    assert_eq!(
        text(&example()),
        "0 S003 0 1 0 0 0 0\n\
         28 ---- 2 0 0 0 0 0\n\
         29 P001 0 2 100 3 0 3\n\
         frames 2 refused 1 floor 0 top 3 missing 3\n"
    );
}

#[test]
fn an_empty_capture() {
    assert_eq!(text(&[]), "frames 0 refused 0 floor 0 top 0 missing 0\n");
}

#[test]
fn the_limit_of_the_program() {
    assert_eq!(text(&[0; 65_537]), "capture over 65536 bytes\n");
    assert_eq!(
        text(&[0; 65_536]),
        "0 ---- 2 0 0 0 0 0\nframes 0 refused 1 floor 0 top 0 missing 0\n"
    );
}

#[test]
fn captures_of_65536_bytes_of_every_kind() {
    let mut all_s003 = Vec::new();
    while all_s003.len() + 28 <= 65_536 {
        all_s003.extend(a());
    }
    all_s003.resize(65_536, 0);
    let out = text(&all_s003);
    assert_eq!(out.lines().count(), 2_340 + 1 + 1);
    assert!(out.ends_with("frames 2340 refused 1 floor 0 top 0 missing 0\n"));

    let mut before_each = Vec::new();
    while before_each.len() + 29 <= 65_536 {
        before_each.push(0xFF);
        before_each.extend(a());
    }
    before_each.resize(65_536, 0xFF);
    assert!(text(&before_each).ends_with("frames 2259 refused 2260 floor 0 top 0 missing 0\n"));

    let mut headers = Vec::new();
    while headers.len() < 65_536 {
        let mut header = framed(b"M101", &[])[..24].to_vec();
        put(&mut header, 20, 4, 8_164);
        headers.extend(header);
    }
    headers.truncate(65_536);
    assert!(text(&headers).ends_with("refused 1 floor 0 top 0 missing 0\n"));
}

#[test]
fn the_walk_offers_ticks_and_announcements_only() {
    let mut capture = tick(2);
    capture.extend(framed(b"P002", &p002()));
    capture.extend(tick(1));
    capture.extend(tick(2));
    capture.extend(tick(400));
    capture.extend(framed(b"M201", &with(&trade(9), 1, 2, 101)));
    capture.extend(framed(b"P001", &with(&p001(), 1, 2, 99)));
    capture.extend(framed(b"P001", &with(&p001(), 3, 8, 500)));
    capture.extend(framed(b"S001", &s001()));
    assert_eq!(
        text(&capture),
        "0 M201 0 7 100 2 0 2\n\
         126 P002 0 7 100 5 0 2\n\
         206 M201 0 7 100 1 2 2\n\
         332 M201 11 7 100 2 2 2\n\
         458 M201 12 7 100 400 2 400\n\
         584 M201 18 7 101 9 2 400\n\
         710 P001 18 7 99 3 2 400\n\
         750 P001 0 7 100 500 2 500\n\
         790 S001 0 7 0 0 2 500\n\
         frames 9 refused 0 floor 2 top 500 missing 498\n"
    );
}

#[test]
fn each_refusal_is_recorded_blank() {
    let mut sum = tick(1);
    sum[30] ^= 1;
    let field = framed(b"P001", &with(&p001(), 0, 1, 12));
    let length = framed(b"S003", &[0]);
    let long = {
        let mut bytes = framed(b"M101", &[]);
        put(&mut bytes, 20, 4, 8_165);
        bytes
    };
    let more = tick(1)[..50].to_vec();
    let mut capture = Vec::new();
    for piece in [sum, field, length, long, more] {
        capture.extend(piece);
        capture.extend(a());
    }
    let (made, walked) = records(&capture);
    let answers: Vec<u32> = made.iter().map(|r| r.answer).collect();
    // The cut tick is longer than all that follows it: 1.
    assert_eq!(answers, [5, 0, 6, 0, 4, 0, 3, 0, 1, 0]);
    for r in made.iter().filter(|r| r.answer != 0) {
        assert_eq!(*r, Record::refused(r.place, r.answer, Tick(0), Tick(0)));
        assert_eq!(&r.bytes()[8..12], b"    ");
        assert!(r.bytes()[16..40].iter().all(|b| *b == 0));
    }
    assert_eq!((walked.frames, walked.refused), (5, 5));
}

#[test]
fn the_search_goes_on_from_the_next_byte() {
    // A damaged outer frame: the inner ones are found.
    let mut body = vec![1, 2, 3];
    body.extend(a());
    body.extend(b());
    let mut outer = framed(b"M101", &body);
    assert_eq!(records(&outer).0.len(), 1);
    outer[5] ^= 0x40;
    let places: Vec<u64> = records(&outer).0.iter().map(|r| r.place).collect();
    // The end of the outer frame, its CheckSum, is one more refusal.
    assert_eq!(places, [0, 27, 55, 95]);
}

#[test]
fn records_need_room() {
    let capture = example();
    for room in 0..=260 {
        let mut buffer = vec![0xA5; room];
        let (walked, answer) = walk(&capture, &mut buffer);
        if room < 192 {
            assert_eq!(answer, Err(No::Room));
            assert!(buffer.iter().all(|b| *b == 0xA5));
            assert_eq!((walked.records, walked.frames, walked.refused), (0, 0, 0));
            assert_eq!(walked.ledger, Ledger::open(CHANNEL).0);
        } else {
            assert_eq!(answer, Ok(()));
            let (made, expected) = records(&capture);
            assert_eq!(walked, expected);
            for (i, r) in made.iter().enumerate() {
                assert_eq!(buffer[64 * i..64 * (i + 1)], r.bytes());
            }
            assert!(buffer[192..].iter().all(|b| *b == 0xA5));
        }
    }
    assert_eq!(walk(&[], &mut []).1, Ok(()));
}

#[test]
fn a_record_byte_for_byte() {
    let r = Record {
        place: 0x0102030405060708,
        msg_type: *b"M201",
        answer: 0x0A0B0C0D,
        seq: Session(0x1112131415161718),
        tick: Tick(0x2122232425262728),
        channel: Channel(0x3132),
        body_length: 0x41424344,
        floor: Tick(0x5152535455565758),
        top: Tick(0x6162636465666768),
    };
    let expected = hex(
        "0102030405060708 4D323031 0A0B0C0D 1112131415161718 2122232425262728 3132 0000 41424344 \
         5152535455565758 6162636465666768 0000000000000000",
    );
    assert_eq!(r.bytes().to_vec(), expected);
    assert_eq!(Record::of(&r.bytes()), r);
}

#[test]
fn lines_of_records() {
    let r = Record::refused(12, 5, Tick(3), Tick(4));
    assert_eq!(r.line(), b"12 ---- 5 0 0 0 3 4\n");
    let r = Record {
        msg_type: *b"P002",
        channel: Channel(100),
        tick: Tick(5),
        ..r
    };
    assert_eq!(r.line(), b"12 P002 5 0 100 5 3 4\n");
}
