//! Fault records, their listing lines and the summary line.

use crate::answer::No;
use crate::bytes::{number, put};
use crate::numbers::{Channel, Session, Tick};

/// The bytes of a record. There is no file header.
pub const SIZE: usize = 64;

/// MsgType of the record of a refused reading.
pub const BLANK: [u8; 4] = *b"    ";

#[derive(Clone, Copy, Debug, PartialEq, Eq)]
pub struct Record {
    pub place: u64,
    pub msg_type: [u8; 4],
    pub answer: u32,
    pub seq: Session,
    pub tick: Tick,
    pub channel: Channel,
    pub body_length: u32,
    pub floor: Tick,
    pub top: Tick,
}

impl Record {
    /// Of a refused reading, 1 to 7 (7 by CR 6): place, answer, floor and top;
    /// four spaces for a type, and 0 for all else.
    pub fn refused(place: u64, answer: u32, floor: Tick, top: Tick) -> Record {
        Record {
            place,
            msg_type: BLANK,
            answer,
            seq: Session(0),
            tick: Tick(0),
            channel: Channel(0),
            body_length: 0,
            floor,
            top,
        }
    }

    /// Whether it is the record of a refused reading: no type of the table is
    /// four spaces.
    pub fn is_refused(self) -> bool {
        self.msg_type == BLANK
    }

    /// The fields in order, 8, 4, 4, 8, 8, 2, 2, 4, 8, 8 and 8 bytes; two are zero.
    pub fn bytes(self) -> [u8; SIZE] {
        let mut b = [0u8; SIZE];
        put(&mut b, 0, 8, self.place);
        b[8..12].copy_from_slice(&self.msg_type);
        put(&mut b, 12, 4, u64::from(self.answer));
        put(&mut b, 16, 8, self.seq.0);
        put(&mut b, 24, 8, self.tick.0);
        put(&mut b, 32, 2, u64::from(self.channel.0));
        put(&mut b, 36, 4, u64::from(self.body_length));
        put(&mut b, 40, 8, self.floor.0);
        put(&mut b, 48, 8, self.top.0);
        b
    }

    /// The record that 64 bytes spell. It judges nothing; the zero fields are
    /// not looked at.
    pub fn of(b: &[u8; SIZE]) -> Record {
        Record {
            place: number(&b[0..8]),
            msg_type: [b[8], b[9], b[10], b[11]],
            answer: number(&b[12..16]) as u32,
            seq: Session(number(&b[16..24])),
            tick: Tick(number(&b[24..32])),
            channel: Channel(number(&b[32..34]) as u16),
            body_length: number(&b[36..40]) as u32,
            floor: Tick(number(&b[40..48])),
            top: Tick(number(&b[48..56])),
        }
    }

    /// A line of the listing: eight columns, a blank type as `----`. It ends in a
    /// newline (0.17).
    pub fn line(self) -> Vec<u8> {
        let name = if self.is_refused() {
            *b"----"
        } else {
            self.msg_type
        };
        let mut line = format!("{} ", self.place).into_bytes();
        line.extend_from_slice(&name);
        let rest = format!(
            " {} {} {} {} {} {}\n",
            self.answer, self.seq.0, self.channel.0, self.tick.0, self.floor.0, self.top.0
        );
        line.extend_from_slice(rest.as_bytes());
        line
    }
}

/// "Records go to a lent buffer; if it can't take all of them, 8, nothing is
/// written". A buffer of 64 k + r bytes takes k records (0.18).
pub fn lay(records: &[Record], buffer: &mut [u8]) -> Result<(), No> {
    if buffer.len() / SIZE < records.len() {
        return Err(No::Room);
    }
    for (i, record) in records.iter().enumerate() {
        buffer[i * SIZE..(i + 1) * SIZE].copy_from_slice(&record.bytes());
    }
    Ok(())
}

/// The last line of a listing. `frames` are the readings answered 0, `refused`
/// those that reading itself refused; `missing` the ledger counts.
pub fn summary(frames: u64, refused: u64, floor: Tick, top: Tick, missing: u64) -> Vec<u8> {
    format!(
        "frames {} refused {} floor {} top {} missing {}\n",
        frames, refused, floor.0, top.0, missing
    )
    .into_bytes()
}
