//! CR 1: a capture read while it arrives.
//!
//! Bytes come cut anyhow, an empty cut included, up to a closing call. A stream
//! here keeps every byte that it was given, and each call walks all of them anew
//! by document 01: what a call gives is what the closed walk over the joined
//! bytes has decided by now and had not before. So it has nothing in common with
//! a program that keeps 8,191 bytes and goes on from where it stood, but for the
//! state that such a program shows.

use crate::answer::No;
use crate::frame::{read, search};
use crate::ledger::Ledger;
use crate::record::{lay, Record};
use crate::walk::{readings, Reading, CHANNEL};

/// "At most 8,191 bytes are kept between calls."
pub const KEPT: usize = 8_191;

/// What is kept between two calls, as docs/STATES.md has it. All fields are
/// open, so that a state may be made by hand.
#[derive(Clone, Debug, PartialEq, Eq)]
pub struct State {
    /// The place of the first byte that waits, or of the next byte to come.
    pub place: u64,
    /// Whether the last reading recorded was refused, so that the search goes
    /// on at the place.
    pub seeking: bool,
    pub closed: bool,
    /// How many bytes wait: the first ones of the store.
    pub waiting: u64,
    pub store: [u8; KEPT],
    pub frames: u64,
    pub refused: u64,
    pub ledger: Ledger,
}

impl State {
    /// The state to which no byte has come.
    pub fn opened() -> State {
        let (ledger, _) = Ledger::open(CHANNEL);
        State {
            place: 0,
            seeking: false,
            closed: false,
            waiting: 0,
            store: [0; KEPT],
            frames: 0,
            refused: 0,
            ledger,
        }
    }

    /// The state rules of docs/STATES.md.
    pub fn sound(&self) -> bool {
        // "at most 8,191 bytes wait"
        if self.waiting > KEPT as u64 {
            return false;
        }
        let (kept, behind) = self.store.split_at(self.waiting as usize);
        // "the bytes of the store behind them are 0"
        let blank = *behind == [0; KEPT][..behind.len()];
        // "no more readings are counted than there are bytes before the place"
        let counts = self
            .frames
            .checked_add(self.refused)
            .is_some_and(|readings| readings <= self.place);
        // "the ledger is of channel 100", "the ledger keeps its own rules"
        let ledger = self.ledger.channel == CHANNEL && self.ledger.sound();
        // "the place behind the bytes that wait is at most 2^64 - 1"
        let places = self.place.checked_add(self.waiting).is_some();
        // "no byte waits, or the stream is not closed and reading answers 1 at
        // the first of them"
        let rests = kept.is_empty() || (!self.closed && read(kept) == Err(No::More));
        blank && counts && ledger && places && rests
    }
}

/// A stream: the state it started from, every byte since then, the bytes that
/// waited in that state first, and whether it was closed. "Every call takes the
/// stream and gives back the next one."
#[derive(Clone, Debug, PartialEq, Eq)]
pub struct Stream {
    start: State,
    joined: Vec<u8>,
    closed: bool,
    /// What the walk over all joined bytes came to: the records of the readings
    /// decided so far, and the state shown. No later walk looks at them.
    records: Vec<Record>,
    state: State,
}

impl Stream {
    /// A stream that no byte has come to.
    pub fn opened() -> Stream {
        Stream::of(State::opened())
    }

    /// A stream of a state, perhaps made by hand.
    pub fn of(state: State) -> Stream {
        let waiting = state.waiting.min(KEPT as u64) as usize;
        let (joined, closed) = (state.store[..waiting].to_vec(), state.closed);
        Stream::walked(state, joined, closed)
    }

    /// The stream of all bytes so far, walked from the first of them on. A state
    /// that breaks its rules is not walked from, and stays what is shown.
    fn walked(start: State, joined: Vec<u8>, closed: bool) -> Stream {
        let mut state = start.clone();
        let mut records = Vec::new();
        if start.sound() {
            let mut walked = closed_walk(&start, &joined);
            let decided = match closed {
                // the closing call: what is left is decided as a closed walk does
                true => joined.len(),
                false => decided(&joined, &walked),
            };
            walked.retain(|reading| reading.record.place < decided as u64);
            state = shown(&start, &walked, decided, &joined[decided..], closed);
            records = walked.iter().map(|r| placed(r, start.place)).collect();
        }
        Stream {
            start,
            joined,
            closed,
            records,
            state,
        }
    }

    /// What the stream shows between two calls.
    pub fn state(&self) -> State {
        self.state.clone()
    }

    /// 13, then 19, then 29, for a call that brings so many bytes.
    fn check(&self, more: usize) -> Result<(), No> {
        if !self.start.sound() {
            return Err(No::State);
        }
        if self.closed {
            return Err(No::Closed);
        }
        // The end of the joined bytes is a place too (1.1).
        let end = self.joined.len() as u64 + more as u64;
        if end > u64::MAX - self.start.place {
            return Err(No::Places);
        }
        Ok(())
    }

    /// A call with its refusals in order: 13, 19, 29, 8; "nothing changes".
    fn call(&self, cut: &[u8], closed: bool, buffer: &mut [u8]) -> (Stream, Result<usize, No>) {
        if let Err(no) = self.check(cut.len()) {
            return (self.clone(), Err(no));
        }
        let joined = [&self.joined, cut].concat();
        let next = Stream::walked(self.start.clone(), joined, closed);
        // What one call decided no later one takes back.
        let (before, made) = next.records.split_at(self.records.len());
        assert_eq!(before, self.records);
        match lay(made, buffer) {
            Ok(()) => {
                let given = made.len();
                (next, Ok(given))
            }
            Err(no) => (self.clone(), Err(no)),
        }
    }

    /// Takes a cut, lays the records of the readings that it decides in the
    /// lent buffer and answers how many they are.
    pub fn feed(&self, cut: &[u8], buffer: &mut [u8]) -> (Stream, Result<usize, No>) {
        self.call(cut, false, buffer)
    }

    /// The closing call. It brings no bytes (1.1).
    pub fn close(&self, buffer: &mut [u8]) -> (Stream, Result<usize, No>) {
        self.call(&[], true, buffer)
    }
}

/// The closed walk over the joined bytes, which begins with a search where the
/// stream started with one under way. Places count from the first of them.
fn closed_walk(start: &State, joined: &[u8]) -> Vec<Reading> {
    let first = if start.seeking {
        search(joined, 0).ok().flatten()
    } else {
        Some(0)
    };
    readings(joined, first.unwrap_or(joined.len()), start.ledger)
}

/// How many of the joined bytes are decided. "A place that answers 1 waits for
/// more", whether the walk reads there or the search tries it; both pass over
/// places within accepted frames alone.
fn decided(joined: &[u8], walked: &[Reading]) -> usize {
    let mut tried = vec![true; joined.len()];
    for reading in walked {
        tried[reading.record.place as usize + 1..reading.end].fill(false);
    }
    let waits = |place: &usize| tried[*place] && read(&joined[*place..]) == Err(No::More);
    (0..joined.len()).find(waits).unwrap_or(joined.len())
}

/// The record of a reading, its place counted from the capture's first byte.
fn placed(reading: &Reading, start: u64) -> Record {
    Record {
        place: start + reading.record.place,
        ..reading.record
    }
}

/// The state after these readings, with so many bytes decided and the rest
/// waiting.
fn shown(start: &State, walked: &[Reading], decided: usize, rest: &[u8], closed: bool) -> State {
    let refused = walked.iter().filter(|r| r.record.is_refused()).count();
    let mut state = start.clone();
    state.place += decided as u64;
    state.closed = closed;
    state.waiting = rest.len() as u64;
    state.store = [0; KEPT];
    state.store[..rest.len()].copy_from_slice(rest);
    state.frames += (walked.len() - refused) as u64;
    state.refused += refused as u64;
    if let Some(last) = walked.last() {
        state.seeking = last.record.is_refused();
        state.ledger = last.ledger;
    }
    state
}
