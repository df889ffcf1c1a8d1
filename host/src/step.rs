//! STEP frames: read, written and scrubbed, field by field.

use std::fmt;

use crate::numbers::{result, Refusal};
use crate::raw;

/// A frame has at most so many bytes.
pub const LONGEST: usize = 8_192;

/// A frame that reads: its type and its fields, as they stand in the bytes that it was read from. A
/// field may be a password: so `Debug` shows lengths and tags, and no byte of a value.
#[derive(Clone, Copy, PartialEq, Eq)]
pub struct Frame<'a> {
    /// One of A 5 0 1 2 3 4.
    pub kind: u8,
    /// The fields behind 35, `tag=value` SOH one behind the other.
    pub fields: &'a [u8],
    /// Where the fields start behind the frame's start.
    pub place: usize,
    /// How many bytes the frame has.
    pub len: usize,
}

impl<'a> Frame<'a> {
    /// The frame at a place of bytes; what stands behind it does not matter. 1 for a place beyond
    /// the end.
    pub fn read(bytes: &'a [u8], place: usize) -> Result<Frame<'a>, Refusal> {
        let mut row = raw::StepFrame::default();
        let answer = raw::step_read(bytes, place, &mut row);
        result(answer, ())?;
        let start = row.fields as usize;
        Ok(Frame {
            kind: row.kind as u8,
            fields: &bytes[place + start..][..row.fields_len as usize],
            place: start,
            len: row.len as usize,
        })
    }

    /// Its fields in the writer's order.
    pub fn fields(&self) -> Fields<'a> {
        Fields {
            fields: self.fields,
            place: 0,
        }
    }
}

/// A field, and where its value starts among the fields.
#[derive(Clone, Copy, PartialEq, Eq)]
pub struct Field<'a> {
    pub tag: u64,
    pub value: &'a [u8],
    pub place: usize,
}

/// The fields of a message, one after the other; it ends where none stands.
#[derive(Clone)]
pub struct Fields<'a> {
    fields: &'a [u8],
    place: usize,
}

impl fmt::Debug for Frame<'_> {
    fn fmt(&self, f: &mut fmt::Formatter<'_>) -> fmt::Result {
        f.debug_struct("Frame")
            .field("kind", &char::from(self.kind))
            .field("fields_len", &self.fields.len())
            .field("place", &self.place)
            .field("len", &self.len)
            .finish()
    }
}

impl fmt::Debug for Field<'_> {
    fn fmt(&self, f: &mut fmt::Formatter<'_>) -> fmt::Result {
        f.debug_struct("Field")
            .field("tag", &self.tag)
            .field("value_len", &self.value.len())
            .field("place", &self.place)
            .finish()
    }
}

impl fmt::Debug for Fields<'_> {
    fn fmt(&self, f: &mut fmt::Formatter<'_>) -> fmt::Result {
        f.debug_struct("Fields")
            .field("fields_len", &self.fields.len())
            .field("place", &self.place)
            .finish()
    }
}

impl<'a> Iterator for Fields<'a> {
    type Item = Field<'a>;

    fn next(&mut self) -> Option<Field<'a>> {
        let (field, after) = field_at(self.fields, self.place).ok()?;
        self.place = after;
        Some(field)
    }
}

/// The field at a place of a message's fields, and the place after it; 26 if none is there.
pub fn field_at(fields: &[u8], place: usize) -> Result<(Field<'_>, usize), Refusal> {
    let mut row = raw::StepField::default();
    let answer = raw::step_field(fields, place, &mut row);
    result(answer, ())?;
    let place = row.value as usize;
    let field = Field {
        tag: row.tag,
        value: &fields[place..][..row.value_len as usize],
        place,
    };
    Ok((field, row.behind as usize))
}

/// Writes a message at the front of a buffer, and tells how many bytes. A refusal writes nothing.
pub fn write(kind: u8, fields: &[u8], out: &mut [u8]) -> Result<usize, Refusal> {
    let mut bytes = 0;
    let answer = raw::step_write(kind, fields, out, &mut bytes);
    result(answer, bytes as usize)
}

/// Scrubs the frame at the front of a buffer where it stands, and tells how many bytes it has. A
/// refusal writes nothing.
pub fn scrub(frame: &mut [u8]) -> Result<usize, Refusal> {
    let mut bytes = 0;
    let answer = raw::step_scrub(frame, &mut bytes);
    result(answer, bytes as usize)
}
