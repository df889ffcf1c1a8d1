//! The reader of an M102 body's entries.

use crate::answer::No;
use crate::bytes::number;
use crate::rules::{entry_count, entry_size, Kind, MOST_BODY};

/// One entry. "An MD001 entry is a case of its own, without size and position"
/// (0.7).
#[derive(Clone, Copy, Debug, PartialEq, Eq)]
pub enum Entry {
    Index {
        kind: [u8; 2],
        price: u64,
    },
    Full {
        kind: [u8; 2],
        price: u64,
        size: u64,
        position: u8,
    },
}

/// The reader of an M102's entries: the caller's body, and a place in it. It may
/// be made by hand, over any body and any place.
#[derive(Clone, Copy, Debug, PartialEq, Eq)]
pub struct Reader<'a> {
    pub body: &'a [u8],
    pub place: u64,
}

impl<'a> Reader<'a> {
    /// Opens it: 3, 4, 6, as of an M102. Beside a refusal stands a reader over the
    /// body's empty part, whose every step is 20 (0.7).
    pub fn open(body: &'a [u8]) -> (Reader<'a>, Result<(), No>) {
        let refused = Reader {
            body: &body[..0],
            place: 0,
        };
        if body.len() > MOST_BODY {
            return (refused, Err(No::Long));
        }
        if !Kind::M102.length_suits(body.len()) {
            return (refused, Err(No::Length));
        }
        if !Kind::M102.fields_hold(body) {
            return (refused, Err(No::Field));
        }
        (Reader { body, place: 73 }, Ok(()))
    }

    /// A step: an entry, and the reader past it; else 20. It judges only what the
    /// row of 20 names, so that a reader over an unsound body still steps; beside a
    /// 20 stands the reader passed in (0.7).
    pub fn step(self) -> (Reader<'a>, Result<Entry, No>) {
        let refused = (self, Err(No::Entries));
        // "the entry reader's body is below 73 bytes"
        if self.body.len() < 73 {
            return refused;
        }
        // "its place is not 73 + k sizes with k below NoMDEntries"
        let size = entry_size(self.body);
        let count = entry_count(self.body);
        let Some(k) = (0..count).find(|k| self.place == (73 + k * size) as u64) else {
            return refused;
        };
        // "or that entry passes the body's end"
        let place = 73 + k * size;
        if place + size > self.body.len() {
            return refused;
        }
        let bytes = &self.body[place..place + size];
        let kind = [bytes[0], bytes[1]];
        let price = number(&bytes[2..10]);
        let entry = if size == 10 {
            Entry::Index { kind, price }
        } else {
            Entry::Full {
                kind,
                price,
                size: number(&bytes[10..18]),
                position: bytes[18],
            }
        };
        (
            Reader {
                body: self.body,
                place: (place + size) as u64,
            },
            Ok(entry),
        )
    }
}
