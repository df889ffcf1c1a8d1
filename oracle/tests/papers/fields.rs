//! Every field rule at and beside its bound, read and written.

use crate::samples::*;

/// Reading and writing must answer alike: 0 or 6.
fn judged(msg_type: &[u8; 4], body: &[u8], sound: bool) {
    let number = if sound { 0 } else { 6 };
    assert_eq!(reads(&framed(msg_type, body)), number, "read {body:?}");
    assert_eq!(
        writes(&message(msg_type, body), 8_192),
        number,
        "write {body:?}"
    );
}

/// A field of `width` bytes at `at` that may have at most `digits` digits.
fn bounded(msg_type: &[u8; 4], body: &[u8], at: usize, width: usize, digits: u32, least: u64) {
    let over = 10u64.pow(digits);
    judged(msg_type, &with(body, at, width, over - 1), true);
    judged(msg_type, &with(body, at, width, least), true);
    if width == 8 || over < 256u64.pow(width as u32) {
        judged(msg_type, &with(body, at, width, over), false);
        let most = if width == 8 {
            u64::MAX
        } else {
            256u64.pow(width as u32) - 1
        };
        judged(msg_type, &with(body, at, width, most), false);
    }
    if least > 0 {
        judged(msg_type, &with(body, at, width, least - 1), false);
    }
}

/// A one-byte field that takes only the values listed.
fn only(msg_type: &[u8; 4], body: &[u8], at: usize, allowed: &[u8]) {
    for value in 0..=255u8 {
        judged(
            msg_type,
            &with(body, at, 1, u64::from(value)),
            allowed.contains(&value),
        );
    }
}

#[test]
fn s001_heart_bt_int_above_0() {
    judged(b"S001", &with(&s001(), 64, 2, 0), false);
    judged(b"S001", &with(&s001(), 64, 2, 1), true);
    judged(b"S001", &with(&s001(), 64, 2, 65_535), true);
}

#[test]
fn s001_text_is_not_judged() {
    judged(b"S001", &with(&s001(), 0, 8, u64::MAX), true);
    judged(b"S001", &with(&s001(), 66, 8, 0), true);
}

#[test]
fn s002_session_status_at_most_9999() {
    judged(b"S002", &with(&s002(), 0, 4, 0), true);
    judged(b"S002", &with(&s002(), 0, 4, 9_999), true);
    judged(b"S002", &with(&s002(), 0, 4, 10_000), false);
    judged(b"S002", &with(&s002(), 0, 4, 4_294_967_295), false);
}

#[test]
fn p001_security_type_and_end_of_channel() {
    only(b"P001", &p001(), 0, &[13]);
    only(b"P001", &p001(), 11, b"YN");
}

#[test]
fn p001_widths() {
    bounded(b"P001", &p001(), 1, 2, 4, 0);
    bounded(b"P001", &p001(), 3, 8, 18, 0);
}

#[test]
fn p002_type_and_status() {
    only(b"P002", &p002(), 2, &[1]);
    only(b"P002", &p002(), 19, &[0, 1, 2, 3, 4, 5, 99]);
}

#[test]
fn p002_widths_in_requests_and_replies() {
    for status in [0, 1, 2, 3, 4, 5, 99] {
        let body = with(&p002(), 19, 1, status);
        bounded(b"P002", &body, 0, 2, 4, 0);
        // ApplEndSeqNum is as large as can be, so that the first number may be.
        let far = with(&body, 11, 8, 999_999_999_999_999_999);
        bounded(b"P002", &far, 3, 8, 18, 1);
        bounded(b"P002", &body, 11, 8, 18, 0);
    }
}

#[test]
fn p002_a_request_ends_at_0_or_not_below_its_start() {
    for (end, sound) in [(0, true), (1, false), (4, false), (5, true), (6, true)] {
        judged(b"P002", &with(&p002(), 11, 8, end), sound);
        // A reply's last number may be anything (0.4).
        judged(b"P002", &with(&with(&p002(), 11, 8, end), 19, 1, 1), true);
    }
}

#[test]
fn m102_trad_ses_mode() {
    only(b"M102", &m102(13, b"MD210", 2), 1, &[1, 2, 3]);
}

#[test]
fn m102_pairs() {
    let pairs: [(u8, &[u8; 5]); 10] = [
        (1, b"MD001"),
        (1, b"MD002"),
        (1, b"MD003"),
        (1, b"MD004"),
        (2, b"MD301"),
        (3, b"MD101"),
        (3, b"MD102"),
        (12, b"MD201"),
        (13, b"MD210"),
        (14, b"MDE01"),
    ];
    for security_type in 0..=255u8 {
        for (_, stream) in pairs {
            let sound = pairs.contains(&(security_type, stream));
            judged(b"M102", &m102(security_type, stream, 1), sound);
        }
        for other in [
            b"MD000", b"MD005", b"MD211", b"MD217", b"md001", b"MDE02", b"     ",
        ] {
            judged(b"M102", &m102(security_type, other, 0), false);
        }
    }
}

#[test]
fn m102_widths() {
    for body in [m102(13, b"MD210", 3), m102(1, b"MD001", 3)] {
        bounded(b"M102", &body, 2, 4, 8, 0);
        bounded(b"M102", &body, 6, 4, 9, 0);
        bounded(b"M102", &body, 31, 8, 13, 0);
        bounded(b"M102", &body, 39, 8, 16, 0);
        bounded(b"M102", &body, 47, 8, 16, 0);
        bounded(b"M102", &body, 55, 8, 16, 0);
    }
}

#[test]
fn m102_entry_widths() {
    for k in 0..3 {
        let short = m102(1, b"MD001", 3);
        bounded(b"M102", &short, 73 + 10 * k + 2, 8, 13, 0);
        let long = m102(13, b"MD210", 3);
        bounded(b"M102", &long, 73 + 19 * k + 2, 8, 13, 0);
        bounded(b"M102", &long, 73 + 19 * k + 10, 8, 12, 0);
        bounded(b"M102", &long, 73 + 19 * k + 18, 1, 2, 0);
        // "Entry types are not judged."
        judged(b"M102", &with(&long, 73 + 19 * k, 2, 0xFFFF), true);
    }
}

#[test]
fn m102_whole_entries() {
    let long = m102(13, b"MD210", 3);
    let short = m102(1, b"MD001", 3);
    for (body, size) in [(long, 19), (short, 10)] {
        for count in [0, 1, 2, 3, 4, 5, 6, 65_535] {
            judged(b"M102", &with(&body, 71, 2, count), count == 3);
        }
        for cut in 1..size {
            judged(b"M102", &body[..body.len() - cut], false);
        }
        let mut more = body.clone();
        more.push(0);
        judged(b"M102", &more, false);
    }
    judged(b"M102", &m102(13, b"MD210", 0), true);
}

#[test]
fn m201_security_type_and_exec_type() {
    only(b"M201", &trade(42), 0, &[13]);
    only(b"M201", &trade(42), 28, b"04F");
}

#[test]
fn m201_widths() {
    for tail in [0, 53, 139] {
        let body = m201(42, b"MD299", b'F', tail);
        bounded(b"M201", &body, 1, 2, 4, 0);
        bounded(b"M201", &body, 3, 8, 18, 1);
        bounded(b"M201", &body, 24, 4, 9, 0);
        bounded(b"M201", &body, 29, 8, 13, 0);
        bounded(b"M201", &body, 37, 8, 15, 0);
        // "The stream is not judged."
        judged(b"M201", &with(&body, 11, 5, 0), true);
    }
}

#[test]
fn m101_is_not_judged() {
    for length in [0, 1, 14, 8_164] {
        judged(b"M101", &vec![0xFF; length], true);
    }
}

#[test]
fn header_numbers_are_carried_without_judgement() {
    for value in [0, 1, 999_999_999_999_999_999, u64::MAX] {
        let bytes = mended(with(&framed(b"P001", &p001()), 12, 8, value));
        assert_eq!(oracle::frame::read(&bytes).unwrap().seq.0, value);
    }
}

/// CR 6. What a real time is, `oracle::calendar` tries.
#[test]
fn a_time_that_is_none_is_7() {
    let sent = |body: &[u8], time| mended(with(&framed(b"P001", body), 4, 8, time));
    for time in [20_000_229_235_959_999, 99_991_231_000_000_000] {
        let bytes = sent(&p001(), time);
        assert_eq!(oracle::frame::read(&bytes).unwrap().sending_time, time);
    }
    for time in [0, u64::MAX, 20_261_301_093_000_000] {
        let bytes = sent(&p001(), time);
        assert_eq!(reads(&bytes), 7);
        // After 5 and before 6.
        assert_eq!(reads(&with(&bytes, 39, 1, 0)), 5);
        let spoilt = with(&p001(), 0, 1, 12);
        assert_eq!(reads(&sent(&spoilt, time)), 7);
        // Writing: 2, 3, 4, 7, 6, 8.
        let mut m = message(b"P001", &spoilt);
        m.sending_time = time;
        assert_eq!(writes(&m, 0), 7);
        m.body.pop();
        assert_eq!(writes(&m, 0), 4);
    }
}
