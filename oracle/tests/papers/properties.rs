//! Properties over generated cases.

use crate::samples::*;
use oracle::answer::No;
use oracle::frame::{read, search, write, Message};
use oracle::ledger::{places_of, Ledger, Pending};
use oracle::numbers::{Channel, Session, Tick, MOST};
use oracle::record::Record;
use oracle::scrub::scrub;
use oracle::walk::records;
use std::collections::BTreeSet;

/// A generator of the tests' own.
pub struct Dice(pub u64);

impl Dice {
    pub fn roll(&mut self, n: u64) -> u64 {
        self.0 ^= self.0 << 13;
        self.0 ^= self.0 >> 7;
        self.0 ^= self.0 << 17;
        self.0 % n
    }

    fn bytes(&mut self, n: u64) -> Vec<u8> {
        (0..n).map(|_| self.roll(256) as u8).collect()
    }

    /// A body of a random type, sound but for a changed byte now and then.
    fn body(&mut self) -> (&'static [u8; 4], Vec<u8>) {
        let (msg_type, mut body): (&[u8; 4], Vec<u8>) = match self.roll(9) {
            0 => (b"S001", s001()),
            1 => (b"S002", s002()),
            2 => (b"S003", vec![]),
            3 => (b"P001", with(&p001(), 3, 8, self.0 % 50)),
            4 => (b"P002", p002()),
            5 => {
                let length = self.roll(60);
                (b"M101", self.bytes(length))
            }
            6 => (b"M102", m102(13, b"MD210", self.roll(5) as u16)),
            7 => (b"M102", m102(1, b"MD001", self.roll(5) as u16)),
            _ => (
                b"M201",
                m201(
                    1 + self.roll(40),
                    [b"MD299", b"MD211", b"MD217"][self.roll(3) as usize],
                    [b'F', b'0'][self.roll(2) as usize],
                    [0, 53, 139, 7][self.0 as usize % 4],
                ),
            ),
        };
        if self.roll(3) == 0 && !body.is_empty() {
            let at = self.roll(body.len() as u64) as usize;
            body[at] = self.roll(256) as u8;
        }
        (msg_type, body)
    }

    /// Frames with stray bytes and damage between them.
    pub fn capture(&mut self) -> Vec<u8> {
        let mut capture = Vec::new();
        for _ in 0..self.roll(12) {
            let (msg_type, body) = self.body();
            let mut piece = framed(msg_type, &body);
            match self.roll(6) {
                0 => {
                    let at = self.roll(piece.len() as u64) as usize;
                    piece[at] ^= 1 << self.roll(8);
                }
                1 => piece.truncate(self.roll(piece.len() as u64) as usize),
                2 => {
                    let stray = self.roll(9);
                    piece.extend(self.bytes(stray));
                }
                _ => (),
            }
            capture.extend(piece);
        }
        capture
    }
}

#[test]
fn what_is_written_is_read_back() {
    let mut dice = Dice(1);
    let mut written = 0;
    for _ in 0..3_000 {
        let (msg_type, body) = dice.body();
        let m = Message {
            msg_type: *msg_type,
            sending_time: TIME + dice.roll(1_000),
            seq: Session(dice.roll(u64::MAX)),
            body,
        };
        let mut out = vec![0xA5; 400];
        match write(&m, &mut out) {
            Ok(length) => {
                written += 1;
                assert_eq!(length, m.frame_length());
                assert_eq!(read(&out), Ok(m.clone()));
                assert_eq!(read(&out[..length]), Ok(m));
                assert!(out[length..].iter().all(|b| *b == 0xA5));
            }
            Err(no) => assert_eq!(no, No::Field),
        }
    }
    assert!(written > 1_500);
}

#[test]
fn what_is_read_is_written_back() {
    let mut dice = Dice(2);
    for _ in 0..2_000 {
        let capture = dice.capture();
        if let Ok(m) = read(&capture) {
            let length = m.frame_length();
            let mut out = vec![0; length];
            assert_eq!(write(&m, &mut out), Ok(length));
            assert_eq!(out, capture[..length]);
            assert_eq!(write(&m, &mut vec![0; length - 1]), Err(No::Room));
        }
    }
}

#[test]
fn scrubbing_keeps_the_public_part_and_is_idempotent() {
    let mut dice = Dice(3);
    for _ in 0..2_000 {
        let mut buffer = dice.capture();
        let before = buffer.clone();
        let answer = scrub(&mut buffer);
        match read(&before) {
            Err(no) => {
                assert_eq!(answer, Err(no));
                assert_eq!(buffer, before);
            }
            Ok(m) => {
                let length = m.frame_length();
                assert_eq!(answer, Ok(length));
                let after = read(&buffer).unwrap();
                assert_eq!(after.msg_type, m.msg_type);
                assert_eq!(after.sending_time, m.sending_time);
                assert_eq!(after.seq, m.seq);
                assert_eq!(after.body.len(), m.body.len());
                let changed = (0..m.body.len()).filter(|i| after.body[*i] != m.body[*i]);
                for i in changed {
                    assert_eq!(after.body[i], 0x20);
                }
                assert_eq!(buffer[length..], before[length..]);
                let once = buffer.clone();
                assert_eq!(scrub(&mut buffer), Ok(length));
                assert_eq!(buffer, once);
            }
        }
    }
}

#[test]
fn the_search_finds_the_lowest_place() {
    let mut dice = Dice(4);
    for _ in 0..300 {
        let capture = dice.capture();
        let good: Vec<usize> = (0..capture.len())
            .filter(|p| read(&capture[*p..]).is_ok())
            .collect();
        for from in 0..=capture.len() {
            let expected = good.iter().copied().find(|p| *p >= from);
            assert_eq!(search(&capture, from as u64), Ok(expected));
        }
    }
}

/// A ledger told in sets: what was received, what was given up, the largest
/// offered or announced, and what was delivered so far.
#[derive(Default)]
struct Sets {
    received: BTreeSet<u64>,
    given_up: BTreeSet<u64>,
    delivered: Vec<u64>,
    top: u64,
    asked: Option<(u64, u64)>,
}

impl Sets {
    fn settled(&self, n: u64) -> bool {
        self.received.contains(&n) || self.given_up.contains(&n)
    }

    fn floor(&self) -> u64 {
        (1..).find(|n| !self.settled(*n)).unwrap() - 1
    }

    fn held(&self) -> u64 {
        let floor = self.floor();
        self.received.iter().filter(|n| **n > floor).count() as u64
    }

    fn missing(&self) -> u64 {
        (1..=self.top).filter(|n| !self.settled(*n)).count() as u64
    }
}

#[test]
fn the_ledger_agrees_with_plain_sets() {
    let mut dice = Dice(5);
    for _ in 0..60 {
        let mut l = fresh();
        let mut sets = Sets::default();
        let spread = [1, 3, 40, 300][dice.roll(4) as usize];
        for _ in 0..200 {
            let floor = sets.floor();
            match dice.roll(12) {
                0 => {
                    let n = dice.roll(sets.top + 20);
                    let (next, answer) = l.announce(C, Tick(n));
                    l = next;
                    assert_eq!(answer, Ok(()));
                    sets.top = sets.top.max(n);
                }
                1 => {
                    let (next, answer) = l.request(C);
                    l = next;
                    if sets.asked.is_some() {
                        assert_eq!(answer, Err(No::Busy));
                    } else if sets.missing() == 0 {
                        assert_eq!(answer, Err(No::Whole));
                    } else {
                        let r = answer.unwrap();
                        assert_eq!(r.first.0, floor + 1);
                        let asked = r.first.0..=r.last.0;
                        assert!(asked.clone().all(|n| !sets.settled(n)));
                        assert!(asked.clone().count() <= 200);
                        let next = r.last.0 + 1;
                        assert!(
                            asked.count() == 200
                                || next > sets.top
                                || sets.received.contains(&next)
                        );
                        sets.asked = Some((r.first.0, r.last.0));
                    }
                }
                2 => {
                    let first = sets.asked.map_or(1, |a| a.0) + dice.roll(2);
                    let status = [1, 4][dice.roll(2) as usize];
                    let (next, answer) = l.reply(C, Tick(first), status);
                    l = next;
                    match sets.asked {
                        Some((asked, last)) if asked == first => {
                            let lost = (first..=last).filter(|n| !sets.settled(*n));
                            let lost: Vec<u64> = lost.filter(|_| status == 4).collect();
                            sets.given_up.extend(&lost);
                            sets.asked = None;
                            let numbers = |of: Vec<Tick>| of.iter().map(|t| t.0).collect();
                            let answer = answer.unwrap();
                            let (named, passed): (Vec<u64>, Vec<u64>) =
                                (numbers(answer.given_up), numbers(answer.passed));
                            assert_eq!(named, lost);
                            sets.delivered.extend(passed);
                        }
                        _ => assert_eq!(answer, Err(No::Unasked)),
                    }
                }
                // A new session: that request is no longer pending.
                3 if dice.roll(4) == 0 => {
                    let (next, answer) = l.renew();
                    l = next;
                    assert_eq!(answer, Ok(()));
                    sets.asked = None;
                }
                _ => {
                    let n = (floor + dice.roll(spread) + 1)
                        .saturating_sub(dice.roll(3))
                        .max(1);
                    let (next, answer) = l.tick(C, Tick(n));
                    l = next;
                    sets.top = sets.top.max(n);
                    if sets.settled(n) {
                        assert_eq!(answer, Err(No::Repeat));
                    } else if n > floor + 256 {
                        assert_eq!(answer, Err(No::Far));
                    } else {
                        sets.received.insert(n);
                        let now = sets.floor();
                        let passed = answer.unwrap().map(|r| (r.first.0, r.last.0));
                        assert_eq!(passed, (now > floor).then_some((floor + 1, now)));
                        sets.delivered.extend(floor + 1..=now);
                    }
                }
            }
            assert!(l.sound());
            assert_eq!((l.floor.0, l.top.0), (sets.floor(), sets.top));
            assert_eq!(l.held(), (l, Ok(sets.held())));
            assert_eq!(l.missing(), (l, Ok(sets.missing())));
            let (a, b) = (1 + dice.roll(600), 1 + dice.roll(600));
            let between = (a..=b).filter(|n| *n <= sets.top && !sets.settled(*n));
            let count = Ok(between.count() as u64);
            assert_eq!(l.missing_between(C, Tick(a), Tick(b)), (l, count));
            let all = l.missing_between(C, Tick(1), Tick(MOST)).1;
            assert_eq!(all, Ok(sets.missing()));
            // Delivered are the received numbers up to the floor, in order and
            // once; all others there were given up; the four counts make the top.
            let floor = sets.floor();
            let up: Vec<u64> = sets.received.range(..=floor).copied().collect();
            assert_eq!(sets.delivered, up);
            assert!(sets.received.is_disjoint(&sets.given_up));
            let (delivered, lost) = (sets.delivered.len(), sets.given_up.len());
            assert_eq!((delivered + lost) as u64, floor);
            assert_eq!(sets.missing() + sets.held() + floor, sets.top);
            let pending = match l.pending {
                Pending::Nothing => None,
                Pending::Asked { first, last } => Some((first.0, last.0)),
            };
            assert_eq!(pending, sets.asked);
        }
    }
}

#[test]
fn no_call_breaks_a_sound_state_or_mends_a_broken_one() {
    let mut dice = Dice(6);
    let mut seen = [0, 0];
    for _ in 0..20_000 {
        let near = [0, 5, 300, MOST - 300, MOST][dice.roll(5) as usize];
        let floor = near + dice.roll(3);
        let top = floor + dice.roll(300);
        let word = |d: &mut Dice| if d.roll(2) == 0 { 0 } else { 1 << d.roll(64) };
        let map = [
            word(&mut dice),
            word(&mut dice),
            word(&mut dice),
            word(&mut dice),
        ];
        let held = places_of(floor, map);
        let pending = if dice.roll(2) == 0 {
            Pending::Nothing
        } else {
            let first = (floor + 2).saturating_sub(dice.roll(210));
            Pending::Asked {
                first: Tick(first),
                last: Tick(first + dice.roll(202)),
            }
        };
        let channel = Channel([100, 9_999, 10_000][dice.roll(3) as usize]);
        let l = Ledger {
            channel,
            floor: Tick(floor),
            top: Tick(top),
            held,
            pending,
        };
        seen[usize::from(l.sound())] += 1;
        let n = Tick(floor + dice.roll(400));
        let first = match pending {
            Pending::Asked { first, .. } => first,
            Pending::Nothing => n,
        };
        for next in [
            l.tick(channel, n).0,
            l.announce(channel, n).0,
            l.request(channel).0,
            l.reply(channel, first, 2).0,
            l.reply(channel, first, 4).0,
            l.renew().0,
            l.missing().0,
            l.held().0,
        ] {
            assert_eq!(next.sound(), l.sound());
            if !l.sound() {
                assert_eq!(next, l);
            }
        }
        if l.sound() {
            let (missing, held) = (l.missing().1.unwrap(), l.held().1.unwrap());
            assert_eq!(missing + held + floor, top);
        }
    }
    assert!(seen[0] > 1_000 && seen[1] > 1_000, "{seen:?}");
}

#[test]
fn the_walk_records_every_frame_outside_recorded_ones() {
    let mut dice = Dice(7);
    for _ in 0..400 {
        let capture = dice.capture();
        let (made, walked) = records(&capture);
        assert_eq!(walked.records, walked.frames + walked.refused);
        assert!(made.len() <= 2 * (capture.len() / 29) + 2);
        assert!(made.windows(2).all(|w| w[0].place < w[1].place));
        let mut covered = vec![false; capture.len()];
        let mut places = BTreeSet::new();
        for r in &made {
            places.insert(r.place as usize);
            let m = read(&capture[r.place as usize..]);
            assert_eq!(m.is_err(), r.msg_type == *b"    ");
            if let Ok(m) = m {
                let at = r.place as usize;
                covered[at..at + m.frame_length()].fill(true);
                assert_eq!((r.msg_type, r.seq), (m.msg_type, m.seq));
                assert_eq!(r.body_length as usize, m.body.len());
            }
            assert_eq!(Record::of(&r.bytes()), *r);
        }
        for (place, inside) in covered.iter().enumerate() {
            if !inside && read(&capture[place..]).is_ok() {
                assert!(places.contains(&place));
            }
        }
        let (missing, held) = (
            walked.ledger.missing().1.unwrap(),
            walked.ledger.held().1.unwrap(),
        );
        assert_eq!(missing + held + walked.ledger.floor.0, walked.ledger.top.0);
    }
}
