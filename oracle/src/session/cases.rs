//! Cases of a session: what answers them, the scripts made by hand
//! (scripts/session.txt), and generated ones.

use super::script::{bytes_of, cases, made_on, Call, Frame};
use super::{Line, Turn, Words};
use crate::answer::No;
use crate::answers::Answer;
use crate::cases::text::{joined, Numbers, Text};
use crate::made::Dice;
use crate::numbers::Session;

/// The scripts made by hand.
pub const SCRIPTS: &str = include_str!("../../scripts/session.txt");

/// What a call that is not refused comes to: the message to send, if any,
/// whether the line was called dead, and the length of a frame that arrived.
#[derive(Clone, Copy, Debug, Default, PartialEq, Eq)]
pub struct Turned {
    pub send: Option<([u8; 4], Session)>,
    pub dead: bool,
    pub length: usize,
}

/// The calls. Sessions go in and out as eight words; a refusal leaves them.
pub trait Answers {
    fn open(&self) -> Words;
    fn begin(&self, session: &mut Words, now: u64) -> Answer<Turned>;
    fn time(&self, session: &mut Words, now: u64) -> Answer<Turned>;
    fn leave(&self, session: &mut Words, now: u64) -> Answer<Turned>;
    fn ask(&self, session: &mut Words, now: u64) -> Answer<Turned>;
    /// The frame at the front of the bytes arrives.
    fn receive(&self, session: &mut Words, now: u64, bytes: &[u8]) -> Answer<Turned>;
    fn may_send(&self, session: &Words, now: u64) -> Answer<()>;
}

/// This program.
pub struct Oracle;

/// A call on the session that words stand for; 13 where they stand for none.
fn on<T>(words: &mut Words, call: impl FnOnce(Line) -> (Line, Result<T, No>)) -> Answer<T> {
    let line = Line::of_words(*words).ok_or(No::State.number())?;
    let (next, answer) = call(line);
    let told = answer.map_err(No::number)?;
    *words = next.words();
    Ok(told)
}

fn turned(turn: Turn, length: usize) -> Turned {
    let Turn { send, dead } = turn;
    Turned { send, dead, length }
}

fn host(words: &mut Words, now: u64, event: super::Event) -> Answer<Turned> {
    on(words, |line| line.turn(now, event)).map(|turn| turned(turn, 0))
}

impl Answers for Oracle {
    fn open(&self) -> Words {
        Line::opened().words()
    }

    fn begin(&self, session: &mut Words, now: u64) -> Answer<Turned> {
        host(session, now, super::Event::Begin)
    }

    fn time(&self, session: &mut Words, now: u64) -> Answer<Turned> {
        host(session, now, super::Event::Time)
    }

    fn leave(&self, session: &mut Words, now: u64) -> Answer<Turned> {
        host(session, now, super::Event::Leave)
    }

    fn ask(&self, session: &mut Words, now: u64) -> Answer<Turned> {
        host(session, now, super::Event::Ask)
    }

    fn receive(&self, session: &mut Words, now: u64, bytes: &[u8]) -> Answer<Turned> {
        on(session, |line| {
            let (next, answer, length) = line.received(now, bytes);
            (next, answer.map(|turn| turned(turn, length)))
        })
    }

    fn may_send(&self, session: &Words, now: u64) -> Answer<()> {
        on(&mut session.clone(), |line| (line, line.may_send(now)))
    }
}

/// Every number that each call can give.
pub const NUMBERS: [Numbers; 6] = [
    ("begin", &[0, 13, 32, 33]),
    ("time", &[0, 13, 32]),
    ("leave", &[0, 13, 30, 32]),
    ("ask", &[0, 13, 30, 32]),
    ("may-send", &[0, 13, 30, 32]),
    ("receive", &[0, 1, 2, 3, 4, 5, 6, 7, 13, 30, 31, 32, 33]),
];

struct Run<'a, A: Answers> {
    answers: &'a A,
    text: Text,
}

impl<A: Answers> Run<'_, A> {
    /// A call, its answer, and the words after it.
    fn call(&mut self, words: &mut Words, call: Call) {
        match call {
            Call::Set(set) => *words = set,
            Call::Words => (),
            _ => {
                let answer = made_on(self.answers, words, call);
                self.line(call, &answer);
            }
        }
        self.text.more(&format!("{call}: {}", joined(words)));
    }

    fn line(&mut self, call: Call, answer: &Answer<Turned>) {
        let line = call.to_string();
        let name = line.split(' ').next().unwrap_or("");
        self.text.line(name, answer, |t| {
            format!("{}{}", t.length, super::script::told(t))
        });
    }

    /// A frame that arrives with other bytes behind it.
    fn receive(&mut self, words: &mut Words, now: u64, bytes: &[u8]) {
        let answer = self.answers.receive(words, now, bytes);
        self.line(Call::Receive(now, Frame::Unread(0)), &answer);
        let shown = crate::cases::text::hex(bytes);
        self.text.more(&format!("{shown} {now}: {}", joined(words)));
    }
}

fn run<A: Answers>(answers: &A) -> Run<'_, A> {
    let text = Text::default();
    Run { answers, text }
}

/// The text of the scripts made by hand.
pub fn by_hand(answers: &impl Answers) -> String {
    let mut run = run(answers);
    for (name, calls) in cases(SCRIPTS) {
        run.text.case(name);
        let mut words = run.answers.open();
        for (call, _) in calls {
            run.call(&mut words, call);
        }
    }
    run.text.out
}

/// The text of generated case n of a seed: a script of up to forty calls on a
/// session just opened, or on words made by hand.
pub fn generated(answers: &impl Answers, seed: u64, n: u64) -> String {
    let mut run = run(answers);
    let d = &mut Dice::new(seed, n);
    let mut words = run.answers.open();
    if d.once_in(3) {
        let set = any_words(d);
        run.call(&mut words, Call::Set(set));
    }
    // What the host's clock shows.
    let mut now = d.of(&[0, 1, 1_000, u64::MAX / 2]);
    for _ in 0..1 + d.below(40) {
        now = any_time(d, &words, now);
        let call = any_call(d, &words, now);
        match call {
            Call::Receive(now, frame) if d.once_in(4) => {
                let mut bytes = bytes_of(frame);
                let more = d.len(30);
                bytes.extend(d.bytes(more));
                if d.once_in(4) {
                    crate::made::damage(d, &mut bytes);
                }
                run.receive(&mut words, now, &bytes);
            }
            _ => run.call(&mut words, call),
        }
    }
    run.text.out
}

/// A time: the same, a little later, back, or at and beside the moments when a
/// heartbeat is due and when the line is dead.
fn any_time(d: &mut Dice, words: &Words, now: u64) -> u64 {
    let [_, _, _, last, sent, heard, interval, _] = *words;
    let beside = d.of(&[0, 1, u64::MAX]);
    let due = sent.saturating_add(interval).wrapping_add(beside);
    let twice = interval.saturating_mul(2);
    let dead = heard.saturating_add(twice).wrapping_add(beside);
    match d.below(16) {
        0..=3 => now,
        4..=8 => now.saturating_add(d.below(3_000)),
        9 => now.saturating_sub(d.below(100_000)),
        10 => last.wrapping_add(beside),
        11 | 12 => due,
        13 => dead,
        14 if d.once_in(6) => d.edge(),
        _ => now.saturating_add(d.below(interval.saturating_add(2).min(70_000))),
    }
}

fn any_call(d: &mut Dice, words: &Words, now: u64) -> Call {
    // What leads on, in a state where little else is taken.
    if d.once_in(2) {
        match words[0] {
            0 => return Call::Begin(now),
            1 => return Call::Receive(now, Frame::Logon(words[2], d.of(&[1, 2, 30, 65_535]))),
            _ => (),
        }
    }
    match d.below(24) {
        0 => Call::Begin(now),
        1..=7 => Call::Time(now),
        8 if d.once_in(3) => Call::Leave(now),
        9 | 10 => Call::Ask(now),
        11 | 12 => Call::MaySend(now),
        _ => Call::Receive(now, any_arrival(d, words[2])),
    }
}

/// A frame, mostly under the expected number.
fn any_arrival(d: &mut Dice, expected: u64) -> Frame {
    let near = expected.wrapping_add(d.of(&[1, u64::MAX]));
    let edge = d.edge();
    let seq = match d.below(8) {
        0 => near,
        1 => edge,
        _ => expected,
    };
    match d.below(16) {
        0 => Frame::Unread(1 + d.below(7) as u32),
        1 => Frame::Logon(seq, d.of(&[1, 30, 65_535])),
        2 if d.once_in(2) => Frame::Of(*b"S002", seq),
        3..=6 => Frame::Of(*b"S003", seq),
        _ => Frame::Of(*d.of(&[b"P001", b"P002", b"M101", b"M102", b"M201"]), seq),
    }
}

/// Words of a session, mostly sound: counters near both ends, times beside one
/// another.
fn any_words(d: &mut Dice) -> Words {
    let state = d.of(&[2, 2, 2, 3, 4, 0, 1]);
    let end = u64::MAX - d.below(3);
    let low = 2 + d.below(3);
    let (mut out, mut expected) = (d.of(&[end, low]), d.of(&[end, low]));
    if state < 2 && !d.once_in(8) {
        (out, expected) = (1 + state, 1);
    }
    let interval = d.of(&[1_000, 30_000, 65_535_000, 0, u64::MAX]);
    let last = d.of(&[1_000, 100_000, u64::MAX - 50_000, u64::MAX]);
    let sent = last - d.below(last.min(interval).saturating_add(1).min(1 << 40));
    let heard = last - d.below(last.min(interval).saturating_add(1).min(1 << 40));
    let mut words = [state, out, expected, last, sent, heard, interval, 0];
    if d.once_in(6) {
        let at = d.len(8);
        let near = words[at].wrapping_add(d.of(&[1, u64::MAX]));
        let edge = d.edge();
        words[at] = d.of(&[near, edge]);
    }
    words
}

#[cfg(test)]
mod tests {
    use super::super::script::{call_of, otherwise};
    use super::*;
    use crate::cases::text::{count, untried, Given};

    #[test]
    fn every_number_of_every_call_is_given() {
        let mut given = Given::new();
        count(&by_hand(&Oracle), &mut given);
        let by_hand = untried(&given, &NUMBERS);
        assert_eq!(by_hand, [""; 0]);
        let mut given = Given::new();
        for n in 0..3_000 {
            count(&generated(&Oracle, 2, n), &mut given);
        }
        assert_eq!(untried(&given, &NUMBERS), [""; 0]);
    }

    #[test]
    fn scripts_are_answered_as_they_say() {
        assert_eq!(otherwise(&Oracle, SCRIPTS), [""; 0]);
    }

    #[test]
    fn a_line_shows_its_call() {
        for (_, calls) in cases(SCRIPTS) {
            for (call, _) in calls {
                assert_eq!(call_of(&call.to_string()), Some(call));
            }
        }
    }
}
