//! Lengths, the order of checks in reading and writing, and the search.

use crate::samples::*;
use oracle::answer::No;
use oracle::bytes::put;
use oracle::frame::{read, search, write};

/// A sound body for each type.
fn sound() -> Vec<(&'static [u8; 4], Vec<u8>)> {
    vec![
        (b"S001", s001()),
        (b"S002", s002()),
        (b"S003", vec![]),
        (b"P001", p001()),
        (b"P002", p002()),
        (b"M101", vec![1, 2, 3]),
        (b"M102", m102(13, b"MD210", 2)),
        (b"M201", trade(42)),
    ]
}

#[test]
fn lengths_of_the_table() {
    let table: [(&[u8; 4], usize, usize); 8] = [
        (b"S001", 74, 74),
        (b"S002", 260, 260),
        (b"S003", 0, 0),
        (b"P001", 12, 12),
        (b"P002", 52, 52),
        (b"M101", 0, 8_164),
        (b"M102", 73, 8_164),
        (b"M201", 45, 8_164),
    ];
    for (msg_type, least, most) in table {
        for length in [
            0, 1, 11, 12, 13, 44, 45, 51, 52, 53, 72, 73, 74, 75, 259, 260, 261, 8_164,
        ] {
            let answer = reads(&framed(msg_type, &vec![0; length]));
            let suits = least <= length && length <= most;
            assert_eq!(answer == 4, !suits, "{msg_type:?} {length}");
            let answer = writes(&message(msg_type, &vec![0; length]), 9_000);
            assert_eq!(answer == 4, !suits, "{msg_type:?} {length}");
        }
        assert_eq!(reads(&framed(msg_type, &vec![0; 8_165])), 3);
        assert_eq!(writes(&message(msg_type, &vec![0; 8_165]), 9_000), 3);
    }
}

#[test]
fn an_m201_and_an_m101_of_8164_read() {
    assert_eq!(
        reads(&framed(b"M201", &m201(42, b"MD299", b'F', 8_164 - 45))),
        0
    );
    assert_eq!(reads(&framed(b"M101", &[0; 8_164])), 0);
}

#[test]
fn every_cut_is_more() {
    for (msg_type, body) in sound() {
        let whole = framed(msg_type, &body);
        for cut in 0..whole.len() {
            assert_eq!(reads(&whole[..cut]), 1);
        }
        assert_eq!(reads(&whole), 0);
    }
}

#[test]
fn reading_checks_in_order() {
    // 24 bytes before 2: a wrong type in 23 bytes is 1.
    assert_eq!(reads(&framed(b"XXXX", &[])[..23]), 1);
    // 2 before 3, with and without the body.
    assert_eq!(reads(&framed(b"XXXX", &[0; 8_165])), 2);
    assert_eq!(reads(&framed(b"XXXX", &[0; 8_165])[..24]), 2);
    // 3 before 4: no fixed type suits 8,165.
    assert_eq!(reads(&framed(b"S003", &[0; 8_165])[..24]), 3);
    // 4 before the whole length.
    assert_eq!(reads(&framed(b"S003", &[0])[..24]), 4);
    assert_eq!(reads(&framed(b"M102", &[0; 72])[..24]), 4);
    // the whole length before 5.
    let mut wrong = framed(b"P001", &with(&p001(), 0, 1, 12));
    let end = wrong.len();
    wrong[end - 1] ^= 1;
    assert_eq!(reads(&wrong[..end - 1]), 1);
    // 5 before 6.
    assert_eq!(reads(&wrong), 5);
    wrong[end - 1] ^= 1;
    assert_eq!(reads(&wrong), 6);
}

#[test]
fn writing_checks_in_order() {
    // 2 before 3.
    assert_eq!(writes(&message(b"XXXX", &[0; 8_165]), 0), 2);
    // 3 before 4.
    assert_eq!(writes(&message(b"S003", &[0; 8_165]), 0), 3);
    // 4 before 6: 72 bytes of an M102 break rules too.
    assert_eq!(writes(&message(b"M102", &[0; 72]), 0), 4);
    // 6 before 8.
    assert_eq!(writes(&message(b"P001", &with(&p001(), 0, 1, 12)), 0), 6);
    // 8.
    assert_eq!(writes(&message(b"P001", &p001()), 39), 8);
    assert_eq!(writes(&message(b"P001", &p001()), 40), 0);
}

#[test]
fn all_32_bits_of_the_sum() {
    for (msg_type, body) in sound() {
        let whole = framed(msg_type, &body);
        for bit in 0..32 {
            let mut wrong = whole.clone();
            let at = wrong.len() - 1 - bit / 8;
            wrong[at] ^= 1 << (bit % 8);
            assert_eq!(reads(&wrong), 5);
        }
    }
}

#[test]
fn types_match_by_all_four_bytes() {
    for (msg_type, body) in sound() {
        for at in 0..4 {
            let mut other = *msg_type;
            other[at] = other[at].to_ascii_lowercase().wrapping_add(128);
            assert_eq!(reads(&framed(&other, &body)), 2);
        }
    }
    for other in [
        b"S000", b"S004", b"P003", b"M100", b"M103", b"M202", b"    ",
    ] {
        assert_eq!(reads(&framed(other, &[])), 2);
    }
}

#[test]
fn bytes_behind_the_frame_do_not_matter() {
    let mut bytes = a();
    bytes.extend([0xFF; 9]);
    assert_eq!(read(&bytes), read(&a()));
}

#[test]
fn writing_leaves_what_lies_beyond() {
    let mut out = [0xA5; 50];
    assert_eq!(write(&message(b"P001", &p001()), &mut out), Ok(40));
    assert_eq!(out[..40], framed(b"P001", &p001()));
    assert!(out[40..].iter().all(|b| *b == 0xA5));
}

#[test]
fn search_in_the_example() {
    let mut capture = a();
    capture.push(0xFF);
    capture.extend(b());
    for from in 0..=70u64 {
        let expected = match from {
            0 => Ok(Some(0)),
            1..=29 => Ok(Some(29)),
            30..=69 => Ok(None),
            _ => Err(No::Place),
        };
        assert_eq!(search(&capture, from), expected);
    }
    assert_eq!(search(&capture, u64::MAX), Err(No::Place));
    assert_eq!(search(&[], 0), Ok(None));
    assert_eq!(search(&[], 1), Err(No::Place));
}

#[test]
fn search_finds_a_frame_inside_a_body() {
    let mut body = vec![9, 9];
    body.extend(a());
    let capture = framed(b"M101", &body);
    assert_eq!(search(&capture, 0), Ok(Some(0)));
    assert_eq!(search(&capture, 1), Ok(Some(26)));
    let mut damaged = capture.clone();
    put(&mut damaged, 24, 1, 8);
    assert_eq!(search(&damaged, 0), Ok(Some(26)));
}

#[test]
fn a_damaged_body_length_does_not_hide_the_next_frame() {
    let mut first = framed(b"M101", &[1, 2, 3]);
    put(&mut first, 20, 4, 40);
    let place = first.len() as u64;
    let mut capture = first;
    capture.extend(a());
    capture.extend(b());
    assert_eq!(search(&capture, 1), Ok(Some(place as usize)));
}
