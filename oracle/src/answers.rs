//! What answers the cases: this program, or another one that is held against it.
//!
//! Ledgers go in and out as nine words and streams as their parts, as
//! docs/STATES.md has them, so that states made by hand can be asked too.

use crate::answer::No;
use crate::broken::{broken_of, Broken};
use crate::bytes::number;
use crate::clean::{clean, first_unclean, Cleaned};
use crate::entries::{Entry, Reader};
use crate::frame::{read, search, write, Message};
use crate::ledger::{Ledger, Range, Settled, Words};
use crate::listing::listed;
use crate::numbers::{Channel, Tick};
use crate::rules::Kind;
use crate::scrub::{private_of, scrub, Span};
use crate::stream::{State, Stream, KEPT};
use crate::walk::{numbers_of, walk};

/// A value, or the number of a refusal.
pub type Answer<T> = Result<T, u32>;

/// What is told of a frame that reads. Where the type has no such number, 0.
#[derive(Clone, Copy, Debug, PartialEq, Eq)]
pub struct Shown {
    pub msg_type: [u8; 4],
    pub sending_time: u64,
    pub seq: u64,
    pub body_length: u64,
    pub channel: u64,
    pub tick: u64,
    /// A resend's first and last number, and its status.
    pub first: u64,
    pub last: u64,
    pub status: u64,
}

impl Shown {
    fn of(message: &Message) -> Shown {
        let (channel, tick) = numbers_of(message);
        let resend = Kind::of(message.msg_type) == Some(Kind::P002);
        let field = |at: usize, width: usize| match resend {
            true => number(&message.body[at..at + width]),
            false => 0,
        };
        Shown {
            msg_type: message.msg_type,
            sending_time: message.sending_time,
            seq: message.seq.0,
            body_length: message.body.len() as u64,
            channel: u64::from(channel.0),
            tick: tick.0,
            first: field(3, 8),
            last: field(11, 8),
            status: field(19, 1),
        }
    }
}

/// What a ledger has to tell.
#[derive(Clone, Copy, Debug, PartialEq, Eq)]
pub struct Told {
    pub channel: u64,
    pub floor: u64,
    pub top: u64,
    pub missing: u64,
    pub held: u64,
    /// The pending request, 0 and 0 for none.
    pub first: u64,
    pub last: u64,
}

/// What a walk comes to.
#[derive(Clone, Copy, Debug, PartialEq, Eq)]
pub struct Walked {
    pub records: usize,
    pub frames: u64,
    pub refused: u64,
    pub ledger: Words,
}

/// A stream by its parts: place, seeking, closed, waiting, frames, refused; the
/// ledger; the store.
#[derive(Clone, Debug, PartialEq, Eq)]
pub struct Parts {
    pub words: [u64; 6],
    pub ledger: Words,
    pub kept: [u8; KEPT],
}

/// What a call of a stream comes to: its records, and the stream after it.
#[derive(Clone, Copy, Debug, PartialEq, Eq)]
pub struct Fed {
    pub records: usize,
    pub frames: u64,
    pub refused: u64,
    pub place: u64,
    pub waiting: u64,
}

/// The calls. A ledger or stream that is lent stays as it is where a call is
/// refused, save that 12 raises the top.
pub trait Answers {
    type Stream: Clone;

    fn read(&self, bytes: &[u8], place: usize) -> Answer<Shown>;
    fn write(&self, message: &Message, out: &mut [u8]) -> Answer<usize>;
    fn search(&self, bytes: &[u8], from: usize) -> Answer<Option<usize>>;
    fn scrub(&self, buffer: &mut [u8]) -> Answer<usize>;
    fn private(&self, msg_type: [u8; 4], body: &[u8]) -> Answer<Vec<Span>>;
    fn broken(&self, msg_type: [u8; 4], body: &[u8]) -> Answer<Option<Broken>>;

    /// Every step of a reader opened on a body, each with the place behind it.
    fn entries(&self, body: &[u8]) -> Answer<Vec<(Entry, u64)>>;
    fn entry(&self, body: &[u8], place: u64) -> Answer<(Entry, u64)>;

    fn open(&self, channel: Channel) -> Answer<Words>;
    fn tick(&self, ledger: &mut Words, channel: Channel, tick: Tick) -> Answer<Option<Range>>;
    fn announce(&self, ledger: &mut Words, channel: Channel, last: Tick) -> Answer<()>;
    fn request(&self, ledger: &mut Words, channel: Channel) -> Answer<Range>;
    fn reply(
        &self,
        ledger: &mut Words,
        channel: Channel,
        first: Tick,
        status: u8,
    ) -> Answer<Settled>;
    fn renew(&self, ledger: &mut Words) -> Answer<()>;
    fn told(&self, ledger: &Words) -> Answer<Told>;
    fn missing(&self, ledger: &Words, channel: Channel, a: Tick, b: Tick) -> Answer<u64>;

    fn walk(&self, capture: &[u8], records: &mut [u8]) -> Answer<Walked>;
    fn listing(&self, records: &[u8], walked: &Walked, text: &mut [u8]) -> Answer<usize>;
    fn clean(&self, capture: &[u8], out: &mut [u8]) -> Answer<Cleaned>;
    fn first_unclean(&self, capture: &[u8]) -> Option<usize>;

    fn stream_open(&self) -> Self::Stream;
    fn stream_of(&self, parts: Parts) -> Self::Stream;
    fn parts(&self, stream: &Self::Stream) -> Parts;
    fn feed(&self, stream: &mut Self::Stream, cut: &[u8], records: &mut [u8]) -> Answer<Fed>;
    fn close(&self, stream: &mut Self::Stream, records: &mut [u8]) -> Answer<Fed>;
}

/// This program.
pub struct Oracle;

fn plain<T>(answer: Result<T, No>) -> Answer<T> {
    answer.map_err(No::number)
}

/// Keeps the ledger after a call, but for 13, which leaves the very words.
fn kept<T>(ledger: &mut Words, (next, answer): (Ledger, Result<T, No>)) -> Answer<T> {
    if !matches!(answer, Err(No::State)) {
        *ledger = next.words();
    }
    plain(answer)
}

/// The parts of a stream, and the stream itself unless a flag is neither 0 nor
/// 1: such parts break the rules, and each call is answered 13.
#[derive(Clone)]
pub struct Standing {
    parts: Parts,
    stream: Option<Stream>,
}

fn parts_of(state: &State) -> Parts {
    let (seeking, closed) = (u64::from(state.seeking), u64::from(state.closed));
    let words = [
        state.place,
        seeking,
        closed,
        state.waiting,
        state.frames,
        state.refused,
    ];
    Parts {
        words,
        ledger: state.ledger.words(),
        kept: state.store,
    }
}

fn state_of(parts: &Parts) -> Option<State> {
    let [place, seeking, closed, waiting, frames, refused] = parts.words;
    (seeking <= 1 && closed <= 1).then(|| State {
        place,
        seeking: seeking == 1,
        closed: closed == 1,
        waiting,
        store: parts.kept,
        frames,
        refused,
        ledger: Ledger::of_words(parts.ledger),
    })
}

impl Standing {
    fn call(&mut self, cut: Option<&[u8]>, records: &mut [u8]) -> Answer<Fed> {
        let stream = self.stream.as_ref().ok_or(No::State.number())?;
        let (next, answer) = match cut {
            Some(cut) => stream.feed(cut, records),
            None => stream.close(records),
        };
        let records = plain(answer)?;
        self.parts = parts_of(&next.state());
        self.stream = Some(next);
        let [place, _, _, waiting, frames, refused] = self.parts.words;
        Ok(Fed {
            records,
            frames,
            refused,
            place,
            waiting,
        })
    }
}

impl Answers for Oracle {
    type Stream = Standing;

    fn read(&self, bytes: &[u8], place: usize) -> Answer<Shown> {
        // A place beyond the end reads as no bytes (0.6).
        let rest = bytes.get(place..).unwrap_or(&[]);
        plain(read(rest)).map(|message| Shown::of(&message))
    }

    fn write(&self, message: &Message, out: &mut [u8]) -> Answer<usize> {
        plain(write(message, out))
    }

    fn search(&self, bytes: &[u8], from: usize) -> Answer<Option<usize>> {
        plain(search(bytes, from as u64))
    }

    fn scrub(&self, buffer: &mut [u8]) -> Answer<usize> {
        plain(scrub(buffer))
    }

    fn private(&self, msg_type: [u8; 4], body: &[u8]) -> Answer<Vec<Span>> {
        plain(private_of(msg_type, body))
    }

    fn broken(&self, msg_type: [u8; 4], body: &[u8]) -> Answer<Option<Broken>> {
        plain(broken_of(msg_type, body))
    }

    fn entries(&self, body: &[u8]) -> Answer<Vec<(Entry, u64)>> {
        let (mut reader, opened) = Reader::open(body);
        plain(opened)?;
        let mut steps = Vec::new();
        while let (next, Ok(entry)) = reader.step() {
            steps.push((entry, next.place));
            reader = next;
        }
        Ok(steps)
    }

    fn entry(&self, body: &[u8], place: u64) -> Answer<(Entry, u64)> {
        let (next, step) = Reader { body, place }.step();
        plain(step).map(|entry| (entry, next.place))
    }

    fn open(&self, channel: Channel) -> Answer<Words> {
        let (ledger, answer) = Ledger::open(channel);
        plain(answer).map(|()| ledger.words())
    }

    fn tick(&self, ledger: &mut Words, channel: Channel, tick: Tick) -> Answer<Option<Range>> {
        kept(ledger, Ledger::of_words(*ledger).tick(channel, tick))
    }

    fn announce(&self, ledger: &mut Words, channel: Channel, last: Tick) -> Answer<()> {
        kept(ledger, Ledger::of_words(*ledger).announce(channel, last))
    }

    fn request(&self, ledger: &mut Words, channel: Channel) -> Answer<Range> {
        kept(ledger, Ledger::of_words(*ledger).request(channel))
    }

    fn reply(
        &self,
        ledger: &mut Words,
        channel: Channel,
        first: Tick,
        status: u8,
    ) -> Answer<Settled> {
        let now = Ledger::of_words(*ledger);
        kept(ledger, now.reply(channel, first, status))
    }

    fn renew(&self, ledger: &mut Words) -> Answer<()> {
        kept(ledger, Ledger::of_words(*ledger).renew())
    }

    fn told(&self, ledger: &Words) -> Answer<Told> {
        let now = Ledger::of_words(*ledger);
        Ok(Told {
            missing: plain(now.missing().1)?,
            held: plain(now.held().1)?,
            channel: ledger[0],
            floor: ledger[1],
            top: ledger[2],
            first: ledger[7],
            last: ledger[8],
        })
    }

    fn missing(&self, ledger: &Words, channel: Channel, a: Tick, b: Tick) -> Answer<u64> {
        plain(Ledger::of_words(*ledger).missing_between(channel, a, b).1)
    }

    fn walk(&self, capture: &[u8], records: &mut [u8]) -> Answer<Walked> {
        let (walked, answer) = walk(capture, records);
        plain(answer).map(|()| Walked {
            records: walked.records as usize,
            frames: walked.frames,
            refused: walked.refused,
            ledger: walked.ledger.words(),
        })
    }

    fn listing(&self, records: &[u8], walked: &Walked, text: &mut [u8]) -> Answer<usize> {
        let ledger = Ledger::of_words(walked.ledger);
        let lines = plain(listed(records, walked.frames, walked.refused, ledger))?;
        match text.get_mut(..lines.len()) {
            Some(front) => front.copy_from_slice(&lines),
            None => return Err(No::Room.number()),
        }
        Ok(lines.len())
    }

    fn clean(&self, capture: &[u8], out: &mut [u8]) -> Answer<Cleaned> {
        plain(clean(capture, out))
    }

    fn first_unclean(&self, capture: &[u8]) -> Option<usize> {
        first_unclean(capture)
    }

    fn stream_open(&self) -> Standing {
        self.stream_of(parts_of(&State::opened()))
    }

    fn stream_of(&self, parts: Parts) -> Standing {
        let stream = state_of(&parts).map(Stream::of);
        Standing { parts, stream }
    }

    fn parts(&self, stream: &Standing) -> Parts {
        stream.parts.clone()
    }

    fn feed(&self, stream: &mut Standing, cut: &[u8], records: &mut [u8]) -> Answer<Fed> {
        stream.call(Some(cut), records)
    }

    fn close(&self, stream: &mut Standing, records: &mut [u8]) -> Answer<Fed> {
        stream.call(None, records)
    }
}
