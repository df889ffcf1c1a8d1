//! The scrubber.

use crate::samples::*;
use oracle::answer::No;
use oracle::scrub::scrub;

fn scrubbed(msg_type: &[u8; 4], body: &[u8]) -> Vec<u8> {
    let mut buffer = framed(msg_type, body);
    let length = buffer.len();
    buffer.extend([0xA5; 5]);
    assert_eq!(scrub(&mut buffer), Ok(length));
    // Bytes behind the frame stay, and scrubbing again changes nothing.
    assert!(buffer[length..].iter().all(|b| *b == 0xA5));
    let once = buffer.clone();
    assert_eq!(scrub(&mut buffer), Ok(length));
    assert_eq!(buffer, once);
    buffer.truncate(length);
    buffer
}

#[test]
fn both_comp_ids_of_s001() {
    let mut body = s001();
    body[..64].fill(b' ');
    assert_eq!(scrubbed(b"S001", &s001()), framed(b"S001", &body));
}

#[test]
fn text_of_s002() {
    let mut body = s002();
    body[4..].fill(b' ');
    assert_eq!(scrubbed(b"S002", &s002()), framed(b"S002", &body));
}

#[test]
fn reject_text_of_p002() {
    let mut body = p002();
    body[20..].fill(b' ');
    assert_eq!(scrubbed(b"P002", &p002()), framed(b"P002", &body));
}

#[test]
fn tail_of_m201() {
    for tail in [0, 1, 53, 139, 8_164 - 45] {
        let mut body = m201(42, b"MD299", b'F', tail);
        body[45..].fill(b' ');
        assert_eq!(
            scrubbed(b"M201", &m201(42, b"MD299", b'F', tail)),
            framed(b"M201", &body)
        );
    }
}

/// CR 2: side and order number stay, member, trader and investor go.
#[test]
fn tails_that_000_names() {
    for stream in [b"MD211", b"MD212", b"MD213", b"MD214", b"MD215", b"MD216"] {
        for exec in *b"04" {
            let order = m201(42, stream, exec, 139);
            let mut body = order.clone();
            body[64..88].fill(b' ');
            body[120..152].fill(b' ');
            assert_eq!(scrubbed(b"M201", &order), framed(b"M201", &body));
        }
    }
    assert_eq!(scrubbed(b"M201", &trade(42)), framed(b"M201", &trade(42)));
    for (stream, exec, tail) in [(b"MD211", b'F', 139), (b"MD217", b'0', 53)] {
        let other = m201(42, stream, exec, tail);
        let mut body = other.clone();
        body[45..].fill(b' ');
        assert_eq!(scrubbed(b"M201", &other), framed(b"M201", &body));
    }
}

#[test]
fn nothing_private_elsewhere() {
    for (msg_type, body) in [
        (b"S003", vec![]),
        (b"P001", p001()),
        (b"M101", vec![b'Z'; 100]),
        (b"M102", m102(13, b"MD210", 4)),
        (b"M102", m102(1, b"MD001", 4)),
    ] {
        assert_eq!(scrubbed(msg_type, &body), framed(msg_type, &body));
    }
}

#[test]
fn a_refusal_is_passed_on_and_changes_nothing() {
    let mut sum = framed(b"S002", &s002());
    let last = sum.len() - 1;
    sum[last] ^= 1;
    let cases = [
        (framed(b"S001", &s001())[..60].to_vec(), No::More),
        (framed(b"XXXX", &s001()), No::Type),
        (framed(b"S001", &[0; 8_165]), No::Long),
        (framed(b"S001", &[0; 73]), No::Length),
        (sum, No::Sum),
        (framed(b"S001", &with(&s001(), 64, 2, 0)), No::Field),
    ];
    for (bytes, no) in cases {
        let mut buffer = bytes.clone();
        assert_eq!(scrub(&mut buffer), Err(no));
        assert_eq!(buffer, bytes);
    }
}
