//! Bytes that arrive in cuts, by hand.

use super::captures::made;
use super::Run;
use crate::answers::{Answers, Parts};
use crate::ledger::Words;
use crate::made::{framed, m102};
use crate::stream::KEPT;

/// Room for the records of every call here.
const ROOM: usize = 18_432;

pub fn streams<A: Answers>(run: &mut Run<A>) {
    let captures = made();
    for (name, capture) in captures.iter().filter(|(_, c)| c.len() <= 250) {
        for cut in 0..=capture.len() {
            run.case(&format!("cut at {cut}: {name}"));
            let (first, rest) = capture.split_at(cut);
            let mut stream = run.answers.stream_open();
            for cut in [Some(first), Some(rest), None] {
                run.call(&mut stream, cut, ROOM);
            }
        }
    }
    for (name, capture) in &captures {
        run.case(&format!("byte by byte: {name}"));
        byte_by_byte(run, capture);
    }
    long_frames(run);
    near_the_last_place(run, &captures[0].1);
    by_hand(run);
    after_the_end(run, &captures[0].1);
}

/// The calls that give records, and the last one.
fn byte_by_byte<A: Answers>(run: &mut Run<A>, capture: &[u8]) {
    let mut stream = run.answers.stream_open();
    for byte in capture {
        let quiet = run.text.out.len();
        if run.call(&mut stream, Some(&[*byte]), ROOM) == Some(0) {
            run.text.out.truncate(quiet);
        }
    }
    run.call(&mut stream, None, ROOM);
}

/// The most that waits: a frame but for its last byte.
fn long_frames<A: Answers>(run: &mut Run<A>) {
    let entries = framed(b"M102", &m102(13, b"MD210", 425));
    let longest = framed(b"M101", &[0x20; 8_164]);
    for (name, frame) in [("425 entries", entries), ("8,192 bytes", longest)] {
        let (first, last) = frame.split_at(frame.len() - 1);
        for cuts in [vec![Some(first), Some(last), None], vec![Some(first), None]] {
            run.case(&format!("a frame of {name}, {} calls", cuts.len()));
            let mut stream = run.answers.stream_open();
            for cut in cuts {
                run.call(&mut stream, cut, ROOM);
            }
        }
    }
}

/// A state of a stream: a row of docs/STATES.md, the first bytes of its store,
/// and channel, floor and top of its ledger.
fn parts(words: [u64; 6], store: &[u8], (channel, floor, top): (u64, u64, u64)) -> Parts {
    let mut ledger: Words = [0; 9];
    ledger[..3].copy_from_slice(&[channel, floor, top]);
    let mut kept = [0; KEPT];
    kept[..store.len()].copy_from_slice(store);
    Parts {
        words,
        ledger,
        kept,
    }
}

const OPENED: (u64, u64, u64) = (100, 0, 0);

/// A cut that was refused is not taken, and its bytes come again.
fn near_the_last_place<A: Answers>(run: &mut Run<A>, capture: &[u8]) {
    run.case("near the last place");
    let state = parts([u64::MAX - 5, 0, 0, 0, 0, 0], &[], OPENED);
    let mut stream = run.answers.stream_of(state);
    let mut done = 0;
    for n in [6, 2, 4, 3, 0, 1] {
        if run
            .call(&mut stream, Some(&capture[done..done + n]), ROOM)
            .is_some()
        {
            done += n;
        }
    }
    run.call(&mut stream, None, 63);
    run.call(&mut stream, None, ROOM);
}

fn by_hand<A: Answers>(run: &mut Run<A>) {
    const MAX: u64 = u64::MAX;
    let mut last = [0; KEPT];
    last[KEPT - 1] = 1;
    let rows: [(&str, Parts); 28] = [
        ("just opened", parts([0; 6], &[], OPENED)),
        ("at work", parts([7, 1, 0, 0, 3, 4], &[], (100, 2, 5))),
        ("closed", parts([7, 0, 1, 0, 3, 4], &[], (100, 2, 5))),
        (
            "three bytes wait",
            parts([9, 0, 0, 3, 0, 0], b"S00", OPENED),
        ),
        ("any three do", parts([9, 1, 0, 3, 0, 0], b"XXX", OPENED)),
        ("S003 waits", parts([9, 1, 0, 4, 0, 0], b"S003", OPENED)),
        ("any four wait", parts([9, 0, 0, 4, 0, 0], b"XXXX", OPENED)),
        (
            "closed with bytes",
            parts([9, 1, 1, 4, 0, 0], b"S003", OPENED),
        ),
        ("a byte behind", parts([9, 0, 0, 3, 0, 0], b"S003", OPENED)),
        (
            "the store's last byte",
            parts([9, 0, 0, 0, 0, 0], &last, OPENED),
        ),
        (
            "more than the store",
            parts([9, 0, 0, 8_192, 0, 0], b"S003", OPENED),
        ),
        ("far more", parts([9, 0, 0, MAX, 0, 0], &[], OPENED)),
        (
            "as many readings as bytes",
            parts([7, 0, 0, 0, 7, 0], &[], OPENED),
        ),
        (
            "more frames than bytes",
            parts([7, 0, 0, 0, 8, 0], &[], OPENED),
        ),
        (
            "more readings than bytes",
            parts([7, 0, 0, 0, 4, 4], &[], OPENED),
        ),
        (
            "counts that pass 64 bits",
            parts([7, 0, 0, 0, MAX, 1], &[], OPENED),
        ),
        (
            "another channel",
            parts([7, 0, 0, 0, 0, 0], &[], (101, 0, 0)),
        ),
        (
            "a broken ledger",
            parts([7, 0, 0, 0, 0, 0], &[], (100, 3, 2)),
        ),
        (
            "closed and broken",
            parts([7, 0, 1, 0, 0, 0], &[], (101, 0, 0)),
        ),
        (
            "the last place of all",
            parts([MAX, 0, 0, 0, 0, 0], &[], OPENED),
        ),
        (
            "up to the last place",
            parts([MAX - 4, 0, 0, 4, 0, 0], b"S003", OPENED),
        ),
        (
            "beyond the last place",
            parts([MAX - 3, 0, 0, 4, 0, 0], b"S003", OPENED),
        ),
        (
            "24 bytes that read 2",
            parts([9, 0, 0, 24, 0, 0], b"XXXX", OPENED),
        ),
        (
            "28 bytes that read 5",
            parts([9, 0, 0, 28, 0, 0], b"S003", OPENED),
        ),
        (
            "27 of 28 bytes wait",
            parts([9, 0, 0, 27, 0, 0], b"S003", OPENED),
        ),
        ("seeking is 2", parts([7, 2, 0, 0, 0, 0], &[], OPENED)),
        ("closed is 2", parts([7, 0, 2, 0, 0, 0], &[], OPENED)),
        (
            "a channel above two bytes",
            parts([7, 0, 0, 0, 0, 0], &[], (65_636, 0, 0)),
        ),
    ];
    for (name, state) in rows {
        run.case(&format!("a stream's state: {name}"));
        for cut in [Some(&[0x20][..]), Some(&[]), None] {
            let mut stream = run.answers.stream_of(state.clone());
            run.call(&mut stream, cut, ROOM);
        }
    }
}

fn after_the_end<A: Answers>(run: &mut Run<A>, capture: &[u8]) {
    run.case("calls after the closing one");
    let mut stream = run.answers.stream_open();
    for (cut, room) in [
        (Some(capture), 191),
        (Some(capture), 192),
        (None, 0),
        (Some(capture), ROOM),
        (Some(&[]), ROOM),
        (None, 0),
    ] {
        run.call(&mut stream, cut, room);
    }
}
