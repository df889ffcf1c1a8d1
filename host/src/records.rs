//! The records of a walk, taken apart.

use crate::captures::RECORD;
use crate::numbers::{always, ChannelNumber, Refusal, SessionNumber, TickNumber};
use crate::raw;

/// One record of a walk. The names are those of the header's structs.
#[derive(Clone, Copy, Debug, Default, PartialEq, Eq)]
pub struct Record {
    pub place: u64,
    /// MsgType as four letters; spaces if the reading was refused.
    pub msg_type: [u8; 4],
    /// 0, the number of a refused reading, or the ledger's.
    pub answer: u32,
    pub seq: SessionNumber,
    pub tick: TickNumber,
    pub channel: ChannelNumber,
    pub body_len: u32,
    /// The ledger's after the reading.
    pub floor: TickNumber,
    pub top: TickNumber,
}

impl Record {
    /// The record in 64 bytes, as a walk or a stream writes it.
    #[must_use]
    pub fn of(bytes: &[u8; RECORD]) -> Record {
        let mut row = raw::ReadingRow::default();
        let answer = raw::record(bytes, &mut row);
        let row = always(answer, row);
        Record {
            place: row.place,
            msg_type: (row.msg_type as u32).to_be_bytes(),
            answer: row.answer as u32,
            seq: SessionNumber::new(row.seq),
            tick: TickNumber::new(row.tick),
            channel: ChannelNumber::new(row.channel as u16),
            body_len: row.body_len as u32,
            floor: TickNumber::new(row.floor),
            top: TickNumber::new(row.top),
        }
    }

    /// Whether the reading was refused: then the type is blank.
    #[must_use]
    pub const fn is_refused(&self) -> bool {
        matches!(&self.msg_type, b"    ")
    }

    /// What the reading or the ledger was refused by; none if the answer is 0.
    #[must_use]
    pub const fn refusal(&self) -> Option<Refusal> {
        Refusal::from_number(self.answer)
    }
}

/// The records in the bytes that a walk or a stream wrote, in order; bytes after the last whole one
/// do not matter.
pub fn records(bytes: &[u8]) -> impl Iterator<Item = Record> + '_ {
    let rows = bytes.chunks_exact(RECORD);
    rows.map(|row| Record::of(row.try_into().expect("64 bytes")))
}
