//! Scripts of a session: a line a call, and what it must answer.
//!
//! ```text
//! # a case's name: what follows is on a session just opened
//! begin 1000 -> 0 S001 1
//! receive 2000 S001 1 30 -> 0
//! time 31000 -> 0 S003 2
//! time 92001 -> 0 dead
//! ```
//!
//! A call has its time first. What arrives is told by MsgType and MsgSeqNum, a
//! logon also by HeartBtInt, and a frame that reading refuses as `unread` and
//! the number. An answer is its number, the message to send, and `dead` where the
//! line is called dead. `words -> ..` tells the eight words, `set ..` puts others
//! in their place, and `in STATE` makes the calls that lead there.

use super::cases::{Answers, Turned};
use super::Words;
use crate::answers::Answer;
use crate::cases::text::joined;
use crate::made::{self, framed, mended, with};
use std::fmt;

/// What arrives.
#[derive(Clone, Copy, Debug, PartialEq, Eq)]
pub enum Frame {
    /// MsgSeqNum and HeartBtInt.
    Logon(u64, u16),
    /// Any other type, and MsgSeqNum.
    Of([u8; 4], u64),
    /// A frame that reading refuses with that number.
    Unread(u32),
}

/// A line of a script without its answer.
#[derive(Clone, Copy, Debug, PartialEq, Eq)]
pub enum Call {
    Begin(u64),
    Time(u64),
    Leave(u64),
    Ask(u64),
    MaySend(u64),
    Receive(u64, Frame),
    Words,
    Set(Words),
}

/// A case of a script: its name, and each call with what it must answer, unless
/// the script leaves that open.
pub type Case<'a> = (&'a str, Vec<(Call, Option<&'a str>)>);

impl fmt::Display for Frame {
    fn fmt(&self, f: &mut fmt::Formatter) -> fmt::Result {
        match self {
            Frame::Logon(seq, heart) => write!(f, "S001 {seq} {heart}"),
            Frame::Of(kind, seq) => write!(f, "{} {seq}", String::from_utf8_lossy(kind)),
            Frame::Unread(number) => write!(f, "unread {number}"),
        }
    }
}

impl fmt::Display for Call {
    fn fmt(&self, f: &mut fmt::Formatter) -> fmt::Result {
        match self {
            Call::Begin(now) => write!(f, "begin {now}"),
            Call::Time(now) => write!(f, "time {now}"),
            Call::Leave(now) => write!(f, "leave {now}"),
            Call::Ask(now) => write!(f, "ask {now}"),
            Call::MaySend(now) => write!(f, "may-send {now}"),
            Call::Receive(now, frame) => write!(f, "receive {now} {frame}"),
            Call::Words => write!(f, "words"),
            Call::Set(words) => write!(f, "set {}", joined(words)),
        }
    }
}

fn frame_of(words: &[&str]) -> Option<Frame> {
    match *words {
        ["unread", number] => Some(Frame::Unread(number.parse().ok()?)),
        ["S001", seq, heart] => Some(Frame::Logon(seq.parse().ok()?, heart.parse().ok()?)),
        [kind, seq] => {
            let kind = kind.as_bytes().try_into().ok()?;
            Some(Frame::Of(kind, seq.parse().ok()?))
        }
        _ => None,
    }
}

/// The call that a line spells.
pub fn call_of(line: &str) -> Option<Call> {
    let words: Vec<&str> = line.split_whitespace().collect();
    let time = || words.get(1)?.parse().ok();
    match (words[0], words.len()) {
        ("begin", 2) => Some(Call::Begin(time()?)),
        ("time", 2) => Some(Call::Time(time()?)),
        ("leave", 2) => Some(Call::Leave(time()?)),
        ("ask", 2) => Some(Call::Ask(time()?)),
        ("may-send", 2) => Some(Call::MaySend(time()?)),
        ("receive", 4 | 5) => Some(Call::Receive(time()?, frame_of(&words[2..])?)),
        ("words", 1) => Some(Call::Words),
        ("set", 9) => {
            let numbers: Result<Vec<u64>, _> = words[1..].iter().map(|w| w.parse()).collect();
            Some(Call::Set(numbers.ok()?.try_into().ok()?))
        }
        _ => None,
    }
}

/// The calls that lead from a session just opened to a state: our logon at 1000,
/// the answer at 2000 with 30 seconds, the end at 3000.
pub fn way_to(state: &str) -> Option<&'static [&'static str]> {
    match state {
        "new" => Some(&[]),
        "waiting" => Some(&["begin 1000"]),
        "active" => Some(&["begin 1000", "receive 2000 S001 1 30"]),
        "leaving" => Some(&["begin 1000", "receive 2000 S001 1 30", "leave 3000"]),
        "over" => Some(&[
            "begin 1000",
            "receive 2000 S001 1 30",
            "receive 3000 S002 2",
        ]),
        _ => None,
    }
}

/// The cases of a script. Panics at a line that is none.
pub fn cases(script: &str) -> Vec<Case<'_>> {
    let mut cases: Vec<Case> = Vec::new();
    for line in script.lines().filter(|l| !l.is_empty()) {
        if let Some(name) = line.strip_prefix("# ") {
            cases.push((name, Vec::new()));
            continue;
        }
        let calls = &mut cases.last_mut().expect("a case begins with its name").1;
        if let Some(state) = line.strip_prefix("in ") {
            let way = way_to(state).unwrap_or_else(|| panic!("no state: {line}"));
            calls.extend(way.iter().map(|l| (call_of(l).expect("a call"), None)));
            continue;
        }
        let (call, answer) = match line.split_once(" -> ") {
            Some((call, answer)) => (call, Some(answer)),
            None => (line, None),
        };
        let call = call_of(call).unwrap_or_else(|| panic!("no call: {line}"));
        calls.push((call, answer));
    }
    cases
}

/// The bytes of what arrives.
pub fn bytes_of(frame: Frame) -> Vec<u8> {
    let numbered = |kind: &[u8; 4], body: &[u8], seq: u64| {
        let bytes = framed(kind, body);
        mended(with(&bytes, 12, 8, seq))
    };
    match frame {
        Frame::Logon(seq, heart) => {
            let body = with(&made::s001(), 64, 2, u64::from(heart));
            numbered(b"S001", &body, seq)
        }
        Frame::Of(kind, seq) => numbered(&kind, &body_of(&kind), seq),
        Frame::Unread(number) => unread(number),
    }
}

fn body_of(kind: &[u8; 4]) -> Vec<u8> {
    match kind {
        b"S001" => made::s001(),
        b"S002" => made::s002(),
        b"P001" => made::p001(),
        b"P002" => made::p002(),
        b"M101" => made::m101(),
        b"M102" => made::m102(13, b"MD210", 2),
        b"M201" => made::trade(1),
        _ => vec![],
    }
}

/// A frame that reading refuses with a number of its own.
fn unread(number: u32) -> Vec<u8> {
    let sound = framed(b"S003", &[]);
    match number {
        1 => sound[..27].to_vec(),
        2 => mended(framed(b"S009", &[])),
        3 => with(&sound, 20, 4, 8_165),
        4 => with(&sound, 20, 4, 1),
        5 => with(&sound, 24, 4, 0x0100),
        6 => bytes_of(Frame::Logon(1, 0)),
        7 => mended(with(&sound, 4, 8, 20_261_321_093_000_000)),
        _ => panic!("reading gives no {number}"),
    }
}

/// What a call that is no `words` and no `set` answers.
pub fn made_on(answers: &impl Answers, words: &mut Words, call: Call) -> Answer<Turned> {
    match call {
        Call::Begin(now) => answers.begin(words, now),
        Call::Time(now) => answers.time(words, now),
        Call::Leave(now) => answers.leave(words, now),
        Call::Ask(now) => answers.ask(words, now),
        Call::MaySend(now) => answers.may_send(words, now).map(|()| Turned::default()),
        Call::Receive(now, frame) => answers.receive(words, now, &bytes_of(frame)),
        Call::Words | Call::Set(_) => panic!("no call of a session"),
    }
}

/// A turn as a script has it: the message to send, and `dead`.
pub fn told(turned: &Turned) -> String {
    let mut told = String::new();
    if let Some((kind, seq)) = turned.send {
        told = format!(" {} {}", String::from_utf8_lossy(&kind), seq.0);
    }
    if turned.dead {
        told += " dead";
    }
    told
}

/// What a call answers, as a script has it.
pub fn answered(answers: &impl Answers, words: &mut Words, call: Call) -> String {
    match call {
        Call::Words => return joined(words),
        Call::Set(set) => {
            *words = set;
            return String::new();
        }
        _ => (),
    }
    match made_on(answers, words, call) {
        Ok(turned) => format!("0{}", told(&turned)),
        Err(number) => number.to_string(),
    }
}

/// The lines of a script that a program answers otherwise, each with its answer.
pub fn otherwise(answers: &impl Answers, script: &str) -> Vec<String> {
    let mut wrong = Vec::new();
    for (name, calls) in cases(script) {
        let mut words = answers.open();
        for (call, must) in calls {
            let answer = answered(answers, &mut words, call);
            if must.is_some_and(|must| must != answer) {
                let must = must.unwrap_or("");
                wrong.push(format!("{name}: {call} -> {answer}, not {must}"));
            }
        }
    }
    wrong
}
