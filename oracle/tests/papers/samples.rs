//! What the tests start from, beside the samples of `oracle::made`.

use oracle::answer::No;
use oracle::frame::{read, write, Message};
use oracle::ledger::{Ledger, Pending, PLACES};
pub use oracle::made::*;
use oracle::numbers::{Channel, Session, Tick};

pub fn message(msg_type: &[u8; 4], body: &[u8]) -> Message {
    Message {
        msg_type: *msg_type,
        sending_time: TIME,
        seq: Session(7),
        body: body.to_vec(),
    }
}

/// The number that reading answers.
pub fn reads(bytes: &[u8]) -> u32 {
    oracle::answer::number(&read(bytes))
}

/// The number that writing into a buffer of that room answers. The buffer must
/// be untouched on a refusal.
pub fn writes(m: &Message, room: usize) -> u32 {
    let mut out = vec![0xA5; room];
    let answer: Result<usize, No> = write(m, &mut out);
    if answer.is_err() {
        assert!(out.iter().all(|b| *b == 0xA5));
    }
    oracle::answer::number(&answer)
}

pub const C: Channel = Channel(100);

pub fn fresh() -> Ledger {
    Ledger::open(C).0
}

/// A state made by hand, with the numbers given held.
pub fn state(floor: u64, top: u64, held: &[u64], pending: Option<(u64, u64)>) -> Ledger {
    let mut places = [false; PLACES as usize];
    for n in held {
        places[(n - floor - 1) as usize] = true;
    }
    let pending = match pending {
        None => Pending::Nothing,
        Some((first, last)) => Pending::Asked {
            first: Tick(first),
            last: Tick(last),
        },
    };
    Ledger {
        channel: C,
        floor: Tick(floor),
        top: Tick(top),
        held: places,
        pending,
    }
}
