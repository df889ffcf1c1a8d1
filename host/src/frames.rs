//! Reads, writes, finds and scrubs one frame; its private spans, and the entries of an M102.

use crate::numbers::{result, ChannelNumber, Refusal, SessionNumber, TickNumber};
use crate::raw;

/// How many bytes of a frame are not body.
pub const HEADER: usize = 24;
pub const CHECK_SUM: usize = 4;

/// A frame has at most so many bytes.
pub const LONGEST: usize = 8_192;

/// What a frame holds. Channel, tick, first, last and status are 0 if the type has none.
#[derive(Clone, Copy, Debug, Default, PartialEq, Eq)]
#[repr(C)]
pub struct Frame {
    pub msg_type: u64,
    pub sending_time: u64,
    pub seq: SessionNumber,
    pub body_len: u64,
    pub channel: ChannelNumber,
    /// ApplSeqNum of M201, ApplLastSeqNum of P001, ApplBegSeqNum of P002.
    pub tick: TickNumber,
    /// A resend's first and last number, and its status.
    pub first: TickNumber,
    pub last: TickNumber,
    pub status: u64,
}

impl Frame {
    /// MsgType as four letters.
    pub fn type_name(&self) -> [u8; 4] {
        (self.msg_type as u32).to_be_bytes()
    }

    /// The length of the whole frame.
    pub fn frame_len(&self) -> usize {
        self.body_len as usize + HEADER + CHECK_SUM
    }
}

/// Reads the frame at a place. The bytes after it do not matter.
pub fn read(bytes: &[u8], place: usize) -> Result<Frame, Refusal> {
    let mut frame = Frame::default();
    let answer = raw::read(bytes, place, &mut frame);
    result(answer, frame)
}

/// Writes a frame to the front of `out`, and returns its length. The bytes after it stay.
pub fn write(
    msg_type: u32,
    sending_time: u64,
    seq: SessionNumber,
    body: &[u8],
    out: &mut [u8],
) -> Result<usize, Refusal> {
    let mut bytes = 0;
    let answer = raw::write(msg_type, sending_time, seq, body, out, &mut bytes);
    result(answer, bytes as usize)
}

/// Finds the lowest place, from `from` on, at which a frame reads.
pub fn search(bytes: &[u8], from: usize) -> Result<Option<usize>, Refusal> {
    let mut found = raw::Found::default();
    let answer = raw::search(bytes, from, &mut found);
    result(answer, found.place())
}

/// Scrubs the frame at the front of a buffer in place, and returns its length. The bytes after it
/// stay.
pub fn scrub(frame: &mut [u8]) -> Result<usize, Refusal> {
    let mut bytes = 0;
    let answer = raw::scrub(frame, &mut bytes);
    result(answer, bytes as usize)
}

/// A private part of a body: where it starts, how many bytes it has, and the byte that replaces
/// each.
#[derive(Clone, Copy, Debug, Default, PartialEq, Eq)]
#[repr(C)]
pub struct Span {
    pub place: u64,
    pub len: u64,
    pub fill: u64,
}

/// The private spans of a body of that type; they are within it. 2, 3 or 4 if no frame of that type
/// has such a body. Its fields are not checked.
pub fn private_spans(msg_type: u32, body: &[u8]) -> Result<Vec<Span>, Refusal> {
    let mut spans = Vec::new();
    loop {
        let mut span = Span::default();
        let answer = raw::private(msg_type, body, spans.len(), &mut span);
        let span = result(answer, span)?;
        if span.len == 0 {
            return Ok(spans);
        }
        spans.push(span);
    }
}

/// A field of an M201's extension: where it starts in the body and how many bytes it has; `text` is
/// 1 for letters and 0 for a number, `hidden` 1 for a private field, else 0.
#[derive(Clone, Copy, Debug, Default, PartialEq, Eq)]
#[repr(C)]
pub struct Field {
    pub place: u64,
    pub len: u64,
    pub text: u64,
    pub hidden: u64,
}

/// The fields of the extension of an M201 body: sixteen of an order, five of a trade, else at most
/// one, all of it and private. 3, 4 or 6 if no M201 has such a body, by its length.
pub fn tail_fields(body: &[u8]) -> Result<Vec<Field>, Refusal> {
    let mut fields = Vec::new();
    loop {
        let mut field = Field::default();
        let answer = raw::tail_field(body, fields.len(), &mut field);
        let field = result(answer, field)?;
        if field.len == 0 {
            return Ok(fields);
        }
        fields.push(field);
    }
}

/// A field of a body that breaks a rule: where it starts in the body, how many bytes it has, and
/// its number in the order of the type's widths, counted from 0. An M201's extension is number 9;
/// type, price, size and position of an M102 entry are 13 to 16, and `entry` is that entry's
/// number, counted from 1, and 0 for any other field.
#[derive(Clone, Copy, Debug, Default, PartialEq, Eq)]
pub struct BrokenField {
    pub place: u64,
    pub len: u64,
    pub index: u64,
    pub entry: u64,
}

/// Why reading answers 6: the lowest field of a body of that type whose rule is broken, and none if
/// every rule holds. 2, 3 or 4 if no frame of that type has such a body. It is told from public
/// bytes alone.
pub fn broken_field(msg_type: u32, body: &[u8]) -> Result<Option<BrokenField>, Refusal> {
    let mut row = raw::BrokenRow::default();
    let answer = raw::broken_field(msg_type, body, &mut row);
    let field = BrokenField {
        place: row.place,
        len: row.len,
        index: row.index,
        entry: row.entry,
    };
    result(answer, (row.any != 0).then_some(field))
}

/// An entry of an M102 body, with its kind as two letters.
#[derive(Clone, Copy, Debug, PartialEq, Eq)]
pub enum Entry {
    /// Of MD001: it has no size and no position.
    Index { kind: [u8; 2], price: u64 },
    /// Of any other stream.
    Full {
        kind: [u8; 2],
        price: u64,
        size: u64,
        position: u8,
    },
}

impl Entry {
    fn from_row(row: &raw::EntryRow) -> Entry {
        let kind = (row.kind as u16).to_be_bytes();
        let price = row.price;
        if row.is_short != 0 {
            return Entry::Index { kind, price };
        }
        Entry::Full {
            kind,
            price,
            size: row.size,
            position: row.position as u8,
        }
    }
}

/// The entries of an M102 body, one after the other; 3, 4 or 6 if the body is not sound.
pub fn entries(body: &[u8]) -> Result<Entries<'_>, Refusal> {
    let mut place = 0;
    let answer = raw::entries(body, &mut place);
    let place = place as usize;
    result(answer, Entries { body, place })
}

/// The entry at a place of a body, and the place after it; or 20.
pub fn entry(body: &[u8], place: usize) -> Result<(Entry, usize), Refusal> {
    let mut row = raw::EntryRow::default();
    let answer = raw::entry(body, place, &mut row);
    result(answer, (Entry::from_row(&row), row.behind as usize))
}

/// Iterates over the entries of an M102 body.
#[derive(Clone, Debug)]
#[must_use = "it reads no entry until asked for the next"]
pub struct Entries<'a> {
    body: &'a [u8],
    place: usize,
}

impl Entries<'_> {
    /// The place of the next entry in the body; after the last, the end.
    pub fn place(&self) -> usize {
        self.place
    }
}

impl Iterator for Entries<'_> {
    type Item = Entry;

    /// The next entry. In a sound body 20 comes only after the last.
    fn next(&mut self) -> Option<Entry> {
        let (entry, after) = entry(self.body, self.place).ok()?;
        self.place = after;
        Some(entry)
    }
}
