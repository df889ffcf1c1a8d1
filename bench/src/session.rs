//! A session: a turn of ours beside plain Rust by value, and receiving a frame beside reading it.

use crate::{done, made, number, plain, Job};
use rietknoest_host as host;
use rietknoest_host::{Passing, Session, ToSend};
use std::hint::black_box;

#[derive(Clone, Copy, PartialEq, Eq, Debug)]
enum State {
    New,
    Waiting,
    Active,
    Leaving,
    Over,
}

/// What happens: a frame with its MsgSeqNum, a logon with its HeartBtInt too.
#[derive(Clone, Copy)]
enum Event {
    Begin,
    Time,
    Leave,
    Ask,
    Logon(u64, u16),
    Logout(u64),
    Other(u64),
}

/// What a call answers: a message to send and its number, and whether the line is dead.
#[derive(Clone, Copy, PartialEq, Eq, Debug)]
struct Said {
    send: Option<(u32, u64)>,
    dead: bool,
}

/// The client's side of a line, written by hand. It makes the checks of the library in the same
/// order.
#[derive(Clone, Copy, PartialEq, Eq, Debug)]
struct Line {
    state: State,
    sending: u64,
    expecting: u64,
    last: u64,
    sent: u64,
    heard: u64,
    interval: u64,
}

const LOGON: u32 = u32::from_be_bytes(*b"S001");
const LOGOUT: u32 = u32::from_be_bytes(*b"S002");
const BEAT: u32 = u32::from_be_bytes(*b"S003");
const RESEND: u32 = u32::from_be_bytes(*b"P002");

impl Line {
    fn open() -> Line {
        Line {
            state: State::New,
            sending: 1,
            expecting: 1,
            last: 0,
            sent: 0,
            heard: 0,
            interval: 0,
        }
    }

    fn sound(&self) -> bool {
        let (out, into) = (self.sending, self.expecting);
        self.sent <= self.last
            && self.heard <= self.last
            && match self.state {
                State::New => (out, into) == (1, 1),
                State::Waiting => (out, into) == (2, 1),
                State::Active => out >= 2 && into >= 2,
                State::Leaving => out >= 3 && into >= 2,
                State::Over => out >= 1 && into >= 1,
            }
    }

    /// What a call sends and the state after it, or a refusal. A dead line is told by itself.
    fn cell(&self, event: Event, dead: bool, due: bool) -> Result<(u32, State), u32> {
        use State::{Active, Leaving, New, Over, Waiting};
        match (self.state, event) {
            (New, Event::Begin) => Ok((LOGON, Waiting)),
            (New | Waiting, Event::Leave | Event::Ask | Event::Other(_)) => Err(30),
            (New | Waiting, Event::Logout(_)) => Ok((0, Over)),
            (Waiting, Event::Logon(..)) => Ok((0, Active)),
            (Active | Leaving, Event::Time) if dead => Ok((0, Over)),
            (Active, Event::Time) if due => Ok((BEAT, Active)),
            (Active, Event::Leave) => Ok((LOGOUT, Leaving)),
            (Active, Event::Ask) => Ok((RESEND, Active)),
            (Active, Event::Logout(_)) => Ok((LOGOUT, Over)),
            (Leaving, Event::Logout(_)) => Ok((0, Over)),
            (state, Event::Time) => Ok((0, state)),
            (Active | Leaving, Event::Other(_)) => Ok((0, self.state)),
            (Over, _) | (Leaving, Event::Leave | Event::Ask) => Err(32),
            (_, Event::Begin | Event::Logon(..)) => Err(33),
        }
    }

    fn turn(self, now: u64, event: Event) -> (Line, Result<Said, u32>) {
        if !self.sound() {
            return (self, Err(13));
        }
        let clock = now.max(self.last);
        let listens = matches!(self.state, State::Active | State::Leaving);
        let dead = listens && clock - self.heard > self.interval.saturating_mul(2);
        let due = clock - self.sent >= self.interval;
        let cell = self.cell(event, dead, due);
        if cell == Err(30) {
            return (self, Err(30));
        }
        let frame = match event {
            Event::Logon(n, _) | Event::Logout(n) | Event::Other(n) => Some(n),
            _ => None,
        };
        if frame.is_some_and(|n| n != self.expecting) {
            return (self, Err(31));
        }
        let ours = matches!(event, Event::Begin | Event::Leave | Event::Ask);
        let sends = cell.is_ok_and(|(kind, _)| kind != 0);
        if (ours || frame.is_some()) && dead
            || (ours || sends) && self.sending == u64::MAX
            || frame.is_some() && self.expecting == u64::MAX
        {
            return (self, Err(32));
        }
        let (kind, state) = match cell {
            Ok(cell) => cell,
            Err(n) => return (self, Err(n)),
        };
        let mut next = self;
        (next.state, next.last) = (state, clock);
        if sends {
            (next.sending, next.sent) = (self.sending + 1, clock);
        }
        if frame.is_some() {
            (next.expecting, next.heard) = (self.expecting + 1, clock);
        }
        if let Event::Logon(_, heart) = event {
            next.interval = u64::from(heart) * 1_000;
        }
        let said = Said {
            send: sends.then_some((kind, self.sending)),
            dead: dead && matches!(event, Event::Time),
        };
        (next, Ok(said))
    }

    fn words(&self) -> [u64; 8] {
        let state = self.state as u64;
        let [out, into] = [self.sending, self.expecting];
        [
            state,
            out,
            into,
            self.last,
            self.sent,
            self.heard,
            self.interval,
            0,
        ]
    }
}

fn said(send: ToSend) -> Said {
    let send = send.frame().map(|(kind, seq)| (kind, seq.value()));
    Said { send, dead: false }
}

/// One call of ours; a frame is written for one that has arrived.
fn ours(s: &mut Session, now: u64, event: Event) -> Result<Said, u32> {
    let frame = match event {
        Event::Begin => return number(s.begin(now)).map(said),
        Event::Leave => return number(s.leave(now)).map(said),
        Event::Ask => return number(s.ask(now)).map(said),
        Event::Time => {
            return number(s.time(now)).map(|passing| match passing {
                Passing::Send(send) => said(send),
                Passing::Dead => Said {
                    send: None,
                    dead: true,
                },
            })
        }
        Event::Logon(n, heart) => {
            let mut body = [b'1'; 74];
            body[64..66].copy_from_slice(&heart.to_be_bytes());
            made::frame(LOGON, n, &body)
        }
        Event::Logout(n) => {
            let mut body = [b'1'; 260];
            body[..4].fill(0);
            made::frame(LOGOUT, n, &body)
        }
        Event::Other(n) => made::frame(BEAT, n, &[]),
    };
    number(s.receive(now, &frame)).map(|a| said(a.send))
}

/// Both programs through some sessions, with the same answers and the same words.
fn compared(d: &mut made::Dice) {
    for _ in 0..2_000 {
        let (mut a, mut b, mut now) = (Session::open(), Line::open(), 0);
        for turn in 0..20 {
            now += d.below(5) * 700;
            let n = b.expecting + u64::from(d.below(10) == 0);
            let event = match d.below(12) {
                _ if turn == 0 => Event::Begin,
                _ if turn == 1 => Event::Logon(n, 1),
                0 => Event::Begin,
                1 => Event::Leave,
                2 | 3 => Event::Ask,
                4 => Event::Logon(n, 2),
                5 => Event::Logout(n),
                6..=8 => Event::Other(n),
                _ => Event::Time,
            };
            let (next, answer) = b.turn(now, event);
            b = next;
            assert_eq!(ours(&mut a, now, event), answer);
            assert_eq!(a.to_words(), b.words());
        }
    }
}

/// A line of the table: one call on this session.
fn turn(input: &str, start: Line, now: u64, event: Event) {
    let job = Job {
        name: "session turn",
        input,
        bytes: 50,
        goal: Some(2.0),
    };
    let words = start.words();
    let call = |s: &mut Session, now| match event {
        Event::Ask => done(s.ask(now)),
        _ => done(s.time(now)),
    };
    job.race(
        "call",
        50,
        || {
            let mut s = Session::from_words(*black_box(&words));
            call(&mut s, black_box(now));
            done(s);
        },
        || done(black_box(&start).turn(black_box(now), event)),
    );
}

/// A frame is received, beside reading it.
fn receive(input: &str, start: Line, frame: &[u8]) {
    let job = Job {
        name: "session receive",
        input,
        bytes: frame.len(),
        goal: Some(1.5),
    };
    let words = start.words();
    let mut s = Session::from_words(words);
    assert!(s.receive(1_000, frame).is_ok());
    job.race(
        "frame",
        frame.len(),
        || {
            let mut s = Session::from_words(*black_box(&words));
            done(s.receive(1_000, black_box(frame)));
            done(s);
        },
        || done(host::read(black_box(frame), 0)),
    );
}

/// The rows of the table.
pub fn rows() {
    let d = &mut made::Dice(12);
    compared(d);
    let line = Line {
        state: State::Active,
        sending: 2,
        expecting: 2,
        last: 1_000,
        sent: 1_000,
        heard: 1_000,
        interval: 30_000,
    };
    turn("time passes, nothing is due", line, 2_000, Event::Time);
    turn("time passes, a heartbeat is due", line, 40_000, Event::Time);
    turn("asks for a resend", line, 2_000, Event::Ask);
    receive(
        "a heartbeat of 28 bytes, beside reading it",
        line,
        &made::frame(BEAT, 2, &[]),
    );
    let order = made::frame(plain::M201, 2, &made::order(d, 1));
    receive("an order of 212 bytes, beside reading it", line, &order);
    let long = made::frame(plain::M101, 2, &d.bytes(8_164));
    receive("an M101 of 8,192 bytes, beside reading it", line, &long);
}
