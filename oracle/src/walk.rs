//! The walk over a capture: one record for each reading.

use crate::answer::{number, No, DONE};
use crate::bytes;
use crate::frame::{read, search, Message};
use crate::ledger::Ledger;
use crate::numbers::{Channel, Tick};
use crate::record::{lay, Record};
use crate::rules::Kind;

/// "The walk opens a ledger for channel 100."
pub const CHANNEL: Channel = Channel(100);

/// What the walk answers beside its number.
#[derive(Clone, Copy, Debug, PartialEq, Eq)]
pub struct Walked {
    pub records: u64,
    pub frames: u64,
    pub refused: u64,
    pub ledger: Ledger,
}

/// The channel and the tick number of a frame that reads: of an M201 its own, of a
/// P001 the last number announced, of a P002 the first one asked for; 0 where a
/// type has none.
pub fn numbers_of(message: &Message) -> (Channel, Tick) {
    let body = &message.body;
    let field = |at: usize, width: usize| bytes::number(&body[at..at + width]);
    match Kind::of(message.msg_type) {
        // SecurityType 1, ChannelNO 2, ApplSeqNum or ApplLastSeqNum 8
        Some(Kind::M201) | Some(Kind::P001) => (Channel(field(1, 2) as u16), Tick(field(3, 8))),
        // ChannelNO 2, ResendType 1, ApplBegSeqNum 8
        Some(Kind::P002) => (Channel(field(0, 2) as u16), Tick(field(3, 8))),
        _ => (Channel(0), Tick(0)),
    }
}

/// The record of a frame that reads at a place, and the ledger after it. "On 0
/// it offers M201 and P001 to the ledger (the record's answer is the ledger's,
/// its floor and top those after the call)". A P002 is never offered (0.14).
pub fn offered(place: u64, message: &Message, ledger: Ledger) -> (Record, Ledger) {
    let (channel, tick) = numbers_of(message);
    let (ledger, answer) = match Kind::of(message.msg_type) {
        Some(Kind::M201) => {
            let (next, answer) = ledger.tick(channel, tick);
            (next, number(&answer))
        }
        Some(Kind::P001) => {
            let (next, answer) = ledger.announce(channel, tick);
            (next, number(&answer))
        }
        _ => (ledger, DONE),
    };
    let record = Record {
        place,
        msg_type: message.msg_type,
        answer,
        seq: message.seq,
        tick,
        channel,
        body_length: message.body.len() as u32,
        floor: ledger.floor,
        top: ledger.top,
    };
    (record, ledger)
}

/// One reading of a walk: its record, the place behind the frame if one was
/// read, else behind the place itself, and the ledger after it.
pub struct Reading {
    pub record: Record,
    pub end: usize,
    pub ledger: Ledger,
}

/// The readings of a walk over a capture, from a place of it on, with a ledger.
pub fn readings(capture: &[u8], from: usize, ledger: Ledger) -> Vec<Reading> {
    let mut made = Vec::new();
    let mut ledger = ledger;
    let mut place = from;
    // the end of the capture has no record
    while place < capture.len() {
        // "At each place it reads."
        match read(&capture[place..]) {
            Ok(message) => {
                let (record, next) = offered(place as u64, &message, ledger);
                ledger = next;
                // "and steps past the frame"
                place += message.frame_length();
                made.push(Reading {
                    record,
                    end: place,
                    ledger,
                });
            }
            Err(no) => {
                // a refusal is recorded; then on to what the search finds
                let (floor, top) = (ledger.floor, ledger.top);
                made.push(Reading {
                    record: Record::refused(place as u64, no.number(), floor, top),
                    end: place + 1,
                    ledger,
                });
                match search(capture, place as u64 + 1) {
                    Ok(Some(found)) => place = found,
                    _ => break,
                }
            }
        }
    }
    made
}

/// The walk itself, with as many records as it makes.
pub fn records(capture: &[u8]) -> (Vec<Record>, Walked) {
    let (opened, _) = Ledger::open(CHANNEL);
    let readings = readings(capture, 0, opened);
    let made: Vec<Record> = readings.iter().map(|r| r.record).collect();
    let refused = made.iter().filter(|r| r.is_refused()).count();
    let walked = Walked {
        records: made.len() as u64,
        frames: (made.len() - refused) as u64,
        refused: refused as u64,
        ledger: readings.last().map_or(opened, |r| r.ledger),
    };
    (made, walked)
}

/// Lays the records in the caller's buffer. Without room for all of them: 8,
/// nothing written, a fresh ledger, and counts of 0 (0.18).
pub fn walk(capture: &[u8], buffer: &mut [u8]) -> (Walked, Result<(), No>) {
    let (made, walked) = records(capture);
    if let Err(no) = lay(&made, buffer) {
        let (ledger, _) = Ledger::open(CHANNEL);
        let nothing = Walked {
            records: 0,
            frames: 0,
            refused: 0,
            ledger,
        };
        return (nothing, Err(no));
    }
    (walked, Ok(()))
}
