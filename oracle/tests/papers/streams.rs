//! CR 1: bytes that arrive in cuts.

use crate::properties::Dice;
use crate::samples::*;
use oracle::answer::No;
use oracle::ledger::Pending;
use oracle::numbers::{Channel, Tick};
use oracle::record::{Record, SIZE};
use oracle::stream::{State, Stream, KEPT};
use oracle::walk::{records, walk};
use std::ops::Deref;

/// A stream beside the state that it shows.
#[derive(Clone)]
struct Shown {
    stream: Stream,
    state: State,
}

impl Deref for Shown {
    type Target = State;

    fn deref(&self) -> &State {
        &self.state
    }
}

fn shown(stream: Stream) -> Shown {
    let state = stream.state();
    Shown { stream, state }
}

fn opened() -> Shown {
    shown(Stream::opened())
}

/// The stream of that state, changed.
fn changed(state: &State, change: impl Fn(&mut State)) -> Shown {
    let mut state = state.clone();
    change(&mut state);
    shown(Stream::of(state))
}

/// A call with that room: the stream after it, the records given, the answer.
/// Bytes behind the records must stand as they stood.
fn call(s: &Shown, cut: Option<&[u8]>, room: usize) -> (Shown, Vec<Record>, Result<(), No>) {
    let mut buffer = vec![0xA5; room];
    let (next, answer) = match cut {
        Some(cut) => s.stream.feed(cut, &mut buffer),
        None => s.stream.close(&mut buffer),
    };
    let given = answer.unwrap_or(0);
    assert!(buffer[SIZE * given..].iter().all(|b| *b == 0xA5));
    let made = buffer[..SIZE * given]
        .chunks(SIZE)
        .map(|chunk| Record::of(chunk.try_into().unwrap()))
        .collect();
    if answer.is_err() {
        assert_eq!(next, s.stream);
    }
    (shown(next), made, answer.map(|_| ()))
}

const ROOM: usize = 1 << 16;

fn feed(stream: &Shown, cut: &[u8]) -> (Shown, Vec<Record>) {
    let (next, made, answer) = call(stream, Some(cut), ROOM);
    assert_eq!(answer, Ok(()));
    assert!(next.sound() && !next.closed);
    (next, made)
}

fn close(stream: &Shown) -> (Shown, Vec<Record>) {
    let (next, made, answer) = call(stream, None, ROOM);
    assert_eq!(answer, Ok(()));
    assert!(next.sound() && next.closed && next.waiting == 0);
    (next, made)
}

/// The cuts fed in turn to an opened stream, then the closing call: records,
/// counts and ledger must be those of the closed walk over the joined bytes.
fn same_as_closed(cuts: &[&[u8]]) {
    let capture = cuts.concat();
    let mut stream = opened();
    let mut made = Vec::new();
    for cut in cuts {
        let (next, given) = feed(&stream, cut);
        stream = next;
        made.extend(given);
    }
    let (stream, given) = close(&stream);
    made.extend(given);
    let (expected, walked) = records(&capture);
    assert_eq!(made, expected);
    assert_eq!(stream.place, capture.len() as u64);
    assert_eq!(
        (stream.frames, stream.refused, stream.ledger),
        (walked.frames, walked.refused, walked.ledger)
    );
    let last_refused = expected.last().is_some_and(|r| r.msg_type == *b"    ");
    assert_eq!(stream.seeking, last_refused);
}

/// Captures with stray bytes, a damaged frame around others, a cut one.
fn captures() -> Vec<Vec<u8>> {
    let tick = |n| framed(b"M201", &trade(n));
    let example = [a(), vec![0xFF], b()].concat();
    let mut broken = framed(b"M101", &example);
    broken[5] ^= 0x40;
    let stray = [vec![0xFF], tick(2), b"S003".to_vec(), tick(1)].concat();
    let cut = [tick(3), a()[..27].to_vec()].concat();
    let long = {
        let whole = framed(b"M101", &[0x20; 8_164]);
        [&whole[..24], &a(), &whole[..24], &tick(1)].concat()
    };
    vec![vec![], vec![0xFF], example, broken, stray, cut, long]
}

#[test]
fn every_cutting_into_two() {
    for capture in captures() {
        for at in 0..=capture.len() {
            let (first, rest) = capture.split_at(at);
            same_as_closed(&[first, rest]);
            same_as_closed(&[&[], first, &[], rest, &[]]);
        }
    }
}

#[test]
fn byte_by_byte() {
    for capture in captures() {
        same_as_closed(&capture.chunks(1).collect::<Vec<_>>());
    }
}

#[test]
fn cuttings_that_are_generated() {
    let mut dice = Dice(8);
    for _ in 0..400 {
        let capture = dice.capture();
        let mut cuts = Vec::new();
        let mut rest = &capture[..];
        while !rest.is_empty() {
            let most = [2, 30, 300, 4_000][dice.roll(4) as usize];
            let n = (dice.roll(most) as usize).min(rest.len());
            let (cut, behind) = rest.split_at(n);
            cuts.push(cut);
            rest = behind;
        }
        same_as_closed(&cuts);
    }
}

#[test]
fn there_is_no_limit_of_65536_bytes() {
    let mut capture = Vec::new();
    while capture.len() <= 70_000 {
        capture.extend(framed(b"S002", &s002()));
        capture.push(0);
    }
    same_as_closed(&capture.chunks(9_000).collect::<Vec<_>>());
    same_as_closed(&[&capture]);
}

#[test]
fn a_record_is_given_in_the_call_that_decides_its_reading() {
    let capture = [a(), vec![0xFF], b()].concat();
    let places = |made: Vec<Record>| made.iter().map(|r| r.place).collect::<Vec<_>>();
    let (s, made) = feed(&opened(), &capture[..27]);
    assert_eq!((s.place, s.waiting, places(made)), (0, 27, vec![]));
    let (s, made) = feed(&s, &capture[27..28]);
    assert_eq!((s.place, s.waiting, places(made)), (28, 0, vec![0]));
    // The stray byte is refused by 2, which takes 24 bytes.
    let (s, made) = feed(&s, &capture[28..51]);
    assert_eq!((s.place, s.waiting, places(made)), (28, 23, vec![]));
    assert!(!s.seeking);
    let (s, made) = feed(&s, &capture[51..52]);
    assert_eq!((s.place, s.waiting, places(made)), (29, 23, vec![28]));
    assert!(s.seeking);
    let (s, made) = feed(&s, &capture[52..]);
    assert_eq!((s.place, s.waiting, places(made)), (69, 0, vec![29]));
    assert!(!s.seeking);
    let (s, made) = close(&s);
    assert_eq!((s.place, places(made)), (69, vec![]));
}

#[test]
fn the_search_waits_too() {
    // The outer frame's sum is wrong, and the header within it promises more
    // bytes than there are: the search waits there, and the S003 behind it is
    // found when the stream is closed.
    let whole = framed(b"M101", &[0x20; 8_164]);
    let mut outer = framed(b"M101", &[&whole[..24], &a()].concat());
    let end = outer.len() as u64;
    outer[end as usize - 1] ^= 1;
    let (s, made) = feed(&opened(), &outer);
    assert_eq!(made, [Record::refused(0, 5, Tick(0), Tick(0))]);
    assert_eq!((s.place, s.waiting, s.seeking), (24, end - 24, true));
    let (s, made) = close(&s);
    let found: Vec<_> = made.iter().map(|r| (r.place, r.answer)).collect();
    assert_eq!(found, [(48, 0), (76, 1)]);
    assert_eq!((s.place, s.frames, s.refused), (end, 1, 2));
    same_as_closed(&[&outer]);
}

#[test]
fn the_most_that_waits() {
    let longest = framed(b"M101", &[0x20; 8_164]);
    let (s, made) = feed(&opened(), &longest[..KEPT]);
    assert_eq!((s.waiting, made.len()), (8_191, 0));
    let (s, made) = feed(&s, &longest[KEPT..]);
    assert_eq!((s.place, s.waiting, made.len()), (8_192, 0, 1));
    assert_eq!(s.store, [0; KEPT]);
}

#[test]
fn records_need_room() {
    let capture = [a(), vec![0xFF], b()].concat();
    let s = opened();
    for room in 0..=260 {
        let (next, made, answer) = call(&s, Some(&capture), room);
        if room < 192 {
            assert_eq!(answer, Err(No::Room));
            assert!(made.is_empty());
        } else {
            assert_eq!(answer, Ok(()));
            assert_eq!(made, records(&capture).0);
            assert_eq!((next.frames, next.refused), (2, 1));
        }
    }
    // A closing call refused by 8 leaves the stream open: what waits is then
    // decided by the bytes that follow.
    let (s, _) = feed(&s, &capture[..51]);
    let (s, _, answer) = call(&s, None, 63);
    assert_eq!(answer, Err(No::Room));
    assert_eq!(close(&s).1, [Record::refused(28, 1, Tick(0), Tick(0))]);
    let (_, made) = feed(&s, &capture[51..]);
    assert_eq!(made, records(&capture).0[1..]);
}

#[test]
fn calls_refused_leave_no_trace() {
    let mut dice = Dice(9);
    let mut refused = 0;
    for _ in 0..400 {
        let capture = dice.capture();
        let (mut s, mut made, mut done) = (opened(), Vec::new(), 0);
        while done < capture.len() || !s.closed {
            let n = (dice.roll(200) as usize).min(capture.len() - done);
            let cut = &capture[done..done + n];
            let room = dice.roll(300) as usize + 64 * (capture.len() / 200);
            let (next, given, answer) = if done == capture.len() {
                call(&s, None, ROOM)
            } else {
                call(&s, Some(cut), room)
            };
            match answer {
                Ok(()) => done += n,
                Err(no) => {
                    assert_eq!(no, No::Room);
                    refused += 1;
                }
            }
            s = next;
            made.extend(given);
        }
        let (expected, walked) = records(&capture);
        assert_eq!((made, s.ledger), (expected, walked.ledger));
    }
    assert!(refused > 50, "{refused}");
}

#[test]
fn any_call_after_the_closing_one_is_19() {
    let (s, _) = close(&feed(&opened(), &a()).0);
    // Before 29 and before 8.
    let last = changed(&s, |s| s.place = u64::MAX);
    for s in [s, last] {
        for cut in [Some(&a()[..]), Some(&[]), None] {
            assert_eq!(call(&s, cut, 0).2, Err(No::Closed));
        }
    }
}

#[test]
fn places_stay_within_64_bits() {
    let s = changed(&opened(), |s| s.place = u64::MAX - 30);
    let (s, _) = feed(&s, &a()[..4]);
    assert_eq!(call(&s, Some(&[0x20; 27]), ROOM).2, Err(No::Places));
    // 29 before 8.
    assert_eq!(call(&s, Some(&[0x20; 27]), 0).2, Err(No::Places));
    assert_eq!(call(&s, Some(&[0x20; 26]), 0).2, Err(No::Room));
    let (s, made) = feed(&s, &[&a()[4..], &[0, 0]].concat());
    assert_eq!(made[0].place, u64::MAX - 30);
    assert_eq!((s.place, s.waiting), (u64::MAX - 2, 2));
    let (s, made) = close(&s);
    assert_eq!((s.place, made[0].place), (u64::MAX, u64::MAX - 2));
}

/// A change made to a stream by hand.
type Change = fn(&mut State);

#[test]
fn each_state_rule() {
    let sound = feed(&opened(), &[&a()[..], &b()[..30]].concat()).0;
    assert_eq!((sound.place, sound.waiting), (28, 30));
    let broken: [(&str, Change); 12] = [
        ("few", |s| s.waiting = 8_192),
        ("far too many", |s| s.waiting = u64::MAX),
        ("blank", |s| s.store[30] = 1),
        ("blank to the end", |s| s.store[KEPT - 1] = 1),
        ("counts", |s| s.refused = 28),
        ("counts beyond 64 bits", |s| s.refused = u64::MAX),
        ("channel", |s| s.ledger.channel = Channel(101)),
        ("ledger", |s| s.ledger.floor = Tick(1)),
        ("places", |s| s.place = u64::MAX - 29),
        ("closed with bytes that wait", |s| s.closed = true),
        ("decided: the type", |s| s.store[0] = 0),
        ("decided: a whole frame", |s| {
            s.waiting = 28;
            s.store = [0; KEPT];
            s.store[..28].copy_from_slice(&a());
        }),
    ];
    for (rule, break_it) in broken {
        let s = changed(&sound, break_it);
        assert!(!s.sound(), "{rule}");
        for cut in [Some(&[0x20; 40][..]), Some(&[]), None] {
            // Before 19, 29 and 8.
            for closed in [s.closed, true] {
                let s = changed(&s, |s| s.closed = closed);
                assert_eq!(call(&s, cut, 0).2, Err(No::State), "{rule}");
            }
        }
    }
    let kept: [Change; 5] = [
        |s| s.refused = 27,
        |s| s.place = u64::MAX - 30,
        |s| s.seeking = true,
        |s| s.store[4] = 0xFF,
        |s| {
            s.ledger.top = Tick(9);
            s.ledger.pending = Pending::Asked {
                first: Tick(1),
                last: Tick(9),
            };
        },
    ];
    for keep in kept {
        let s = changed(&sound, keep);
        assert!(s.sound());
        feed(&s, &[]);
        close(&s);
    }
}

#[test]
fn fewer_than_24_bytes_wait_whatever_they_are() {
    for n in 1..24 {
        let (s, made) = feed(&opened(), &vec![b'X'; n]);
        assert_eq!((s.place, s.waiting, made.len()), (0, n as u64, 0));
    }
    let (s, made) = feed(&opened(), &[b'X'; 24]);
    assert_eq!((s.place, s.waiting, made.len()), (1, 23, 1));
}

#[test]
fn the_walk_with_its_buffer_agrees() {
    for capture in captures() {
        let mut lent = vec![0xA5; ROOM];
        let (walked, answer) = walk(&capture, &mut lent);
        assert_eq!(answer, Ok(()));
        let mut buffer = vec![0xA5; ROOM];
        let (s, fed) = Stream::opened().feed(&capture, &mut buffer);
        let given = fed.unwrap();
        let (s, closed) = s.close(&mut buffer[SIZE * given..]);
        assert_eq!((given + closed.unwrap()) as u64, walked.records);
        assert_eq!((buffer, s.state().ledger), (lent, walked.ledger));
    }
}
