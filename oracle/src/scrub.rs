//! The scrubber.

use crate::answer::No;
use crate::bytes::{put, sum};
use crate::frame::{read, CHECK_SUM, HEADER};
use crate::rules::{Kind, MOST_BODY};
use crate::tails;

/// A private part of a body: where it starts, its length, and the byte that
/// replaces each of its bytes.
#[derive(Clone, Copy, Debug, PartialEq, Eq)]
pub struct Span {
    pub place: u64,
    pub len: u64,
    pub fill: u8,
}

/// A part painted with spaces.
fn text(place: usize, len: usize) -> Span {
    Span {
        place: place as u64,
        len: len as u64,
        fill: 0x20,
    }
}

/// The private parts of a body of a type that is asked for by itself: 2, 3 and 4
/// as reading gives them, else all of them, which lie within the body.
pub fn private_of(msg_type: [u8; 4], body: &[u8]) -> Result<Vec<Span>, No> {
    let kind = Kind::of(msg_type).ok_or(No::Type)?;
    if body.len() > MOST_BODY {
        return Err(No::Long);
    }
    if !kind.length_suits(body.len()) {
        return Err(No::Length);
    }
    Ok(private(kind, body))
}

/// The private parts of a body whose length suits the type.
fn private(kind: Kind, body: &[u8]) -> Vec<Span> {
    match kind {
        // "both CompIDs of S001"
        Kind::S001 => vec![text(0, 32), text(32, 32)],
        // "Text of S002"
        Kind::S002 => vec![text(4, 256)],
        // "RejectText of P002"
        Kind::P002 => vec![text(20, 32)],
        // CR 2: "Tick tails are not all private."
        Kind::M201 => tails::private(body)
            .into_iter()
            .map(|(place, len, fill)| Span {
                place: place as u64,
                len: len as u64,
                fill,
            })
            .collect(),
        // M101, M102, S003 and P001 have nothing private (0.19).
        Kind::M101 | Kind::M102 | Kind::S003 | Kind::P001 => vec![],
    }
}

/// Reads the frame at the front of the buffer and answers as reading does where it
/// refuses. Otherwise it paints the private fields there, sets CheckSum anew and
/// answers the frame's length. The buffer may be longer than its frame; the bytes
/// behind it stay (0.19).
pub fn scrub(buffer: &mut [u8]) -> Result<usize, No> {
    let message = read(buffer)?;
    let length = message.body.len();
    let kind = Kind::of(message.msg_type).expect("a frame that reads has a type of the table");
    let end = HEADER + length;
    for span in private(kind, &message.body) {
        let place = HEADER + span.place as usize;
        buffer[place..place + span.len as usize].fill(span.fill);
    }
    let check_sum = u64::from(sum(&buffer[..end]));
    put(buffer, end, CHECK_SUM, check_sum);
    Ok(end + CHECK_SUM)
}
