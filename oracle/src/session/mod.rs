//! CR 12: the client's side of the line, by the table of states.
//!
//! What is to be sent follows from the table of docs/SESSION.md, whatever times
//! and frames come. Times are whole milliseconds given by the host. A session
//! sends nothing itself: a call tells what is to be sent, as MsgType and MsgSeqNum.
//!
//! A tick number offered where MsgSeqNum belongs does not build:
//!
//! ```compile_fail
//! use oracle::{numbers::Tick, session::*};
//! Line::opened().turn(0, Event::Logout(Tick(1)));
//! ```
//! ```
//! use oracle::{numbers::Session, session::*};
//! Line::opened().turn(0, Event::Logout(Session(1)));
//! ```

pub mod cases;
pub mod script;
pub mod table;

use crate::answer::No;
use crate::bytes::number;
use crate::frame::read;
use crate::numbers::Session;
use crate::rules::Kind;

/// The rows of the table, in its order.
#[derive(Clone, Copy, Debug, PartialEq, Eq)]
pub enum State {
    New,
    Waiting,
    Active,
    Leaving,
    Over,
}

pub const STATES: [State; 5] = [
    State::New,
    State::Waiting,
    State::Active,
    State::Leaving,
    State::Over,
];

/// A session as eight numbers (docs/STATES.md): the state, the MsgSeqNum of our
/// next message and of the next frame, the last time, when we last sent, when a
/// frame was last taken, the interval, 0.
pub type Words = [u64; 8];

/// What a session keeps between two calls. Times and interval are milliseconds.
#[derive(Clone, Copy, Debug, PartialEq, Eq)]
pub struct Line {
    pub state: State,
    /// The MsgSeqNum of our next message.
    pub out: Session,
    /// The MsgSeqNum of the frame that is expected.
    pub expected: Session,
    /// The time of the last call that was not refused.
    pub last: u64,
    /// When we last sent a message.
    pub sent: u64,
    /// When a frame was last taken.
    pub heard: u64,
    /// The interval agreed; 0 before.
    pub interval: u64,
}

/// What happens to a session: the columns of the table, and a frame that reading
/// refused.
#[derive(Clone, Copy, Debug, PartialEq, Eq)]
pub enum Event {
    Begin,
    Time,
    Leave,
    Ask,
    /// A logon, with HeartBtInt in seconds.
    Logon(Session, u64),
    Logout(Session),
    Other(Session),
    Unread(No),
}

/// What a call that is not refused comes to: the message to send, if any, and
/// whether the line was called dead.
#[derive(Clone, Copy, Debug, Default, PartialEq, Eq)]
pub struct Turn {
    pub send: Option<([u8; 4], Session)>,
    pub dead: bool,
}

/// "2^64 - 1 is never sent nor taken: the counter could not step behind it."
const FULL: Session = Session(u64::MAX);

impl Event {
    /// The MsgSeqNum of a frame that was read.
    fn seq(self) -> Option<Session> {
        match self {
            Event::Logon(seq, _) | Event::Logout(seq) | Event::Other(seq) => Some(seq),
            _ => None,
        }
    }
}

impl Line {
    /// "A new session starts both counters at 1".
    pub fn opened() -> Line {
        Line {
            state: State::New,
            out: Session(1),
            expected: Session(1),
            last: 0,
            sent: 0,
            heard: 0,
            interval: 0,
        }
    }

    pub fn words(self) -> Words {
        let state = STATES.iter().position(|s| *s == self.state);
        let state = state.expect("one of the five") as u64;
        [
            state,
            self.out.0,
            self.expected.0,
            self.last,
            self.sent,
            self.heard,
            self.interval,
            0,
        ]
    }

    /// The session that eight words stand for: the first is at most 4, the last
    /// is 0. Its own rules are not looked at.
    pub fn of_words(w: Words) -> Option<Line> {
        let state = *STATES.get(usize::try_from(w[0]).ok()?)?;
        (w[7] == 0).then_some(Line {
            state,
            out: Session(w[1]),
            expected: Session(w[2]),
            last: w[3],
            sent: w[4],
            heard: w[5],
            interval: w[6],
        })
    }

    /// The state rules of docs/STATES.md.
    pub fn sound(self) -> bool {
        let (out, expected) = (self.out.0, self.expected.0);
        let counters = match self.state {
            State::New => out == 1 && expected == 1,
            State::Waiting => out == 2 && expected == 1,
            State::Active => out >= 2 && expected >= 2,
            State::Leaving => out >= 3 && expected >= 2,
            State::Over => out >= 1 && expected >= 1,
        };
        counters && self.sent <= self.last && self.heard <= self.last
    }

    /// Whether the logon answer has come and nothing has ended the session.
    fn open(self) -> bool {
        matches!(self.state, State::Active | State::Leaving)
    }

    /// "the line called dead when more than two intervals pass with nothing
    /// received"; before the logon answer never.
    fn dead(self, now: u64) -> bool {
        self.open() && u128::from(now - self.heard) > 2 * u128::from(self.interval)
    }

    /// "heartbeat sent when the agreed interval has passed since our last
    /// message"; "dead first".
    fn due(self, now: u64) -> bool {
        self.state == State::Active && !self.dead(now) && now - self.sent >= self.interval
    }

    /// Whether a call needs the number of our next message.
    fn uses_out(self, now: u64, event: Event) -> bool {
        match event {
            Event::Begin | Event::Leave | Event::Ask => true,
            Event::Time => self.due(now),
            Event::Logout(_) => self.state == State::Active,
            Event::Logon(..) | Event::Other(_) | Event::Unread(_) => false,
        }
    }

    /// The refusals in their order: reading's own, 30, 31, 32, 33.
    fn refusal(self, now: u64, event: Event) -> Option<No> {
        if let Event::Unread(no) = event {
            return Some(no);
        }
        // 30: "anything but logon or logout before the logon answer"
        let before = matches!(self.state, State::New | State::Waiting);
        if before && matches!(event, Event::Leave | Event::Ask | Event::Other(_)) {
            return Some(No::Early);
        }
        // 31: "MsgSeqNum not the expected one", in every state
        if event.seq().is_some_and(|seq| seq != self.expected) {
            return Some(No::Sequence);
        }
        // 32: "session over", to leave and to ask also after our logout; "a call
        // but time at a moment when the line is dead"; "a counter at its last
        // 64-bit number"
        let over = self.state == State::Over || self.dead(now);
        let ours = self.state == State::Leaving && matches!(event, Event::Leave | Event::Ask);
        let full = (self.uses_out(now, event) && self.out == FULL)
            || (event.seq().is_some() && self.expected == FULL);
        if (over && event != Event::Time) || ours || full {
            return Some(No::Over);
        }
        // 33: "a second logon"
        match event {
            Event::Begin if self.state != State::New => Some(No::Again),
            Event::Logon(..) if self.state != State::Waiting => Some(No::Again),
            _ => None,
        }
    }

    /// The cell of a call that is not refused: what is sent, and the next state.
    fn cell(self, now: u64, event: Event) -> (Option<&'static [u8; 4]>, State) {
        match event {
            Event::Begin => (Some(b"S001"), State::Waiting),
            Event::Time if self.dead(now) => (None, State::Over),
            Event::Time if self.due(now) => (Some(b"S003"), self.state),
            Event::Time => (None, self.state),
            Event::Leave => (Some(b"S002"), State::Leaving),
            Event::Ask => (Some(b"P002"), self.state),
            Event::Logon(..) => (None, State::Active),
            // "logout answered by logout", but one "in place of the logon answer
            // ends the session with nothing sent", and so does the answer to ours.
            Event::Logout(_) if self.state == State::Active => (Some(b"S002"), State::Over),
            Event::Logout(_) => (None, State::Over),
            Event::Other(_) | Event::Unread(_) => (None, self.state),
        }
    }

    /// One call. A refusal "moves nothing, the last time included".
    pub fn turn(self, now: u64, event: Event) -> (Line, Result<Turn, No>) {
        if !self.sound() {
            return (self, Err(No::State));
        }
        // time does not go back
        let now = now.max(self.last);
        if let Some(no) = self.refusal(now, event) {
            return (self, Err(no));
        }
        let (kind, state) = self.cell(now, event);
        let mut next = Line { state, ..self };
        next.last = now;
        if kind.is_some() {
            next.out = Session(self.out.0 + 1);
            next.sent = now;
        }
        if event.seq().is_some() {
            next.expected = Session(self.expected.0 + 1);
            next.heard = now;
        }
        if let Event::Logon(_, seconds) = event {
            next.interval = seconds * 1_000;
        }
        let send = kind.map(|kind| (*kind, self.out));
        let dead = event == Event::Time && self.dead(now);
        (next, Ok(Turn { send, dead }))
    }

    /// The frame at the front of the bytes arrives. Beside the answer stands the
    /// frame's length, 0 where reading refused.
    pub fn received(self, now: u64, bytes: &[u8]) -> (Line, Result<Turn, No>, usize) {
        let (event, length) = event_of(bytes);
        let (next, answer) = self.turn(now, event);
        (next, answer, length)
    }

    /// What sending a message at that time would be answered. It moves nothing.
    pub fn may_send(self, now: u64) -> Result<(), No> {
        self.turn(now, Event::Ask).1.map(|_| ())
    }
}

/// The event that the frame at the front of bytes is, and its length.
fn event_of(bytes: &[u8]) -> (Event, usize) {
    let message = match read(bytes) {
        Ok(message) => message,
        Err(no) => return (Event::Unread(no), 0),
    };
    let seq = message.seq;
    let event = match Kind::of(message.msg_type) {
        // HeartBtInt stands behind both CompIDs.
        Some(Kind::S001) => Event::Logon(seq, number(&message.body[64..66])),
        Some(Kind::S002) => Event::Logout(seq),
        _ => Event::Other(seq),
    };
    (event, message.frame_length())
}
