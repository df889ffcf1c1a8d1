//! CR 5: STEP frames, by source document 001.
//!
//! `8=FIXT.1.1 SOH`, `9=` and the body's length, the body, which begins with
//! `35=` and the type, and `10=` with the sum of all before it as three digits.
//! The fields behind 35 come in any order (5.1); a message is its type and these
//! fields as bytes, so that they "keep their order and their bytes".

pub mod cases;
pub mod made;
mod tags;

use crate::bytes::sum;
use crate::calendar::real;
pub use tags::{fields_of, Field, Form, TYPES};

/// The byte behind each field.
pub const SOH: u8 = 1;

/// "8,192 bytes at most"
pub const MOST: usize = 8_192;

const BEGIN: &[u8] = b"8=FIXT.1.1\x01";

/// The bytes of `10=`, three digits and SOH.
const TRAILER: usize = 7;

/// What is refused, by its number: 1, 3, 5, 7, 8, 23, 24, 25 or 26.
pub type Answer<T> = Result<T, u32>;

/// A frame that reads: its type, where its fields stand behind its first byte
/// and how long they are, and the length of the whole.
#[derive(Clone, Copy, Debug, PartialEq, Eq)]
pub struct Frame {
    pub kind: u8,
    pub fields: usize,
    pub fields_length: usize,
    pub length: usize,
}

/// Passes over bytes that must stand at a place, one by one: a byte that nothing
/// can mend refuses at once, "else 1" where the bytes end before (5.1).
fn expects(bytes: &[u8], at: usize, literal: &[u8], number: u32) -> Answer<usize> {
    for (i, wanted) in literal.iter().enumerate() {
        match bytes.get(at + i) {
            None => return Err(1),
            Some(byte) if byte != wanted => return Err(number),
            Some(_) => (),
        }
    }
    Ok(at + literal.len())
}

/// The length behind `9=`: 1 to 9 digits, no needless zero, then SOH. Answers it
/// and the place behind.
fn length_field(bytes: &[u8], from: usize) -> Answer<(usize, usize)> {
    let mut length = 0;
    for (digits, at) in (from..from + 10).enumerate() {
        let byte = *bytes.get(at).ok_or(1u32)?;
        if byte == SOH && digits > 0 {
            return Ok((length, at + 1));
        }
        let needless = digits > 0 && length == 0;
        if !byte.is_ascii_digit() || needless {
            return Err(24);
        }
        length = length * 10 + usize::from(byte - b'0');
    }
    // a tenth digit
    Err(24)
}

/// Reads the frame at the front of the bytes; what follows it does not matter.
/// The refusals in order: 23 for the begin string, 24 for the body length field,
/// 3, 25 for the type, 5 for sum or trailer, 7 (CR 6), 26; and 1 as soon as a
/// check needs bytes that are not there.
pub fn read(bytes: &[u8]) -> Answer<Frame> {
    let at = expects(bytes, 0, BEGIN, 23)?;
    let at = expects(bytes, at, b"9=", 24)?;
    let (length, body) = length_field(bytes, at)?;
    let end = body + length;
    // "3 where the whole frame, told from its length field, would pass 8,192"
    if end + TRAILER > MOST {
        return Err(3);
    }
    // "A body too short for 35 is 25."
    if length < 5 {
        return Err(25);
    }
    let at = expects(bytes, body, b"35=", 25)?;
    let kind = *bytes.get(at).ok_or(1u32)?;
    if !TYPES.contains(&kind) {
        return Err(25);
    }
    let fields = expects(bytes, at + 1, &[SOH], 25)?;
    // "A body whose last byte is no SOH is 5."
    expects(bytes, end - 1, &[SOH], 5)?;
    let trailer = format!("10={:03}\x01", sum(&bytes[..end]));
    let length = expects(bytes, end, trailer.as_bytes(), 5)?;
    judge(kind, &bytes[fields..end])?;
    Ok(Frame {
        kind,
        fields,
        fields_length: end - fields,
        length,
    })
}

/// The pieces between the SOHs; what stands behind the last one too, if anything
/// does.
fn pieces(fields: &[u8]) -> Vec<&[u8]> {
    let mut pieces: Vec<&[u8]> = fields.split(|b| *b == SOH).collect();
    if pieces.last() == Some(&&[][..]) {
        pieces.pop();
    }
    pieces
}

/// 7, then 26.
fn judge(kind: u8, fields: &[u8]) -> Answer<()> {
    let times = pieces(fields).into_iter();
    let first = times.filter_map(|p| p.strip_prefix(b"52=")).next();
    // "a 52 of the 21-byte shape that is no real time is 7" (6.1)
    if first.is_some_and(|value| time_of(value).is_some_and(|time| !real(time))) {
        return Err(7);
    }
    if fields_sound(kind, fields) {
        Ok(())
    } else {
        Err(26)
    }
}

/// The 17 digits of a value of the shape YYYYMMDD-HH:mm:SS.sss, as a number.
fn time_of(value: &[u8]) -> Option<u64> {
    if value.len() != 21 {
        return None;
    }
    let mut time = 0;
    for (i, byte) in value.iter().enumerate() {
        match (i, byte) {
            (8, b'-') | (11, b':') | (14, b':') | (17, b'.') => (),
            (8 | 11 | 14 | 17, _) => return None,
            (_, b'0'..=b'9') => time = time * 10 + u64::from(byte - b'0'),
            _ => return None,
        }
    }
    Some(time)
}

/// Digits without a needless zero, at most so many.
fn number_holds(text: &[u8], most: usize) -> bool {
    let digits = text.iter().all(u8::is_ascii_digit);
    let needless = text.len() > 1 && text[0] == b'0';
    digits && !needless && (1..=most).contains(&text.len())
}

impl Form {
    /// "26 judges form only: length, digits, Y or N, the 21-byte time. .. Text is
    /// any byte but SOH" (5.2).
    fn holds(self, value: &[u8]) -> bool {
        match self {
            Form::Text(most) => (1..=most).contains(&value.len()),
            Form::Number(most) => number_holds(value, most),
            Form::Flag => value == b"Y" || value == b"N",
            Form::Time => time_of(value).is_some_and(real),
        }
    }
}

/// The tag of a piece and its value: "A tag ends at the first `=`; a value may
/// hold more of them."
fn taken_apart(piece: &[u8]) -> Option<(u64, &[u8])> {
    let end = piece.iter().position(|b| *b == b'=')?;
    let (tag, value) = (&piece[..end], &piece[end + 1..]);
    // No tag of 001 has more digits.
    if !number_holds(tag, 4) {
        return None;
    }
    let tag = tag.iter().fold(0, |tag, b| tag * 10 + u64::from(b - b'0'));
    Some((tag, value))
}

/// 26: no field "malformed, empty, repeated, missing, or not given to the type
/// by 001".
fn fields_sound(kind: u8, fields: &[u8]) -> bool {
    // Fields that do not end in SOH are 26; there are none without required ones.
    if fields.last() != Some(&SOH) {
        return false;
    }
    let table = fields_of(kind);
    let mut seen = Vec::new();
    for piece in pieces(fields) {
        let Some((tag, value)) = taken_apart(piece) else {
            return false;
        };
        let Some(row) = table.iter().find(|row| row.tag == tag) else {
            return false;
        };
        if !row.form.holds(value) || seen.contains(&tag) {
            return false;
        }
        seen.push(tag);
    }
    let required = table.iter().filter(|row| row.required);
    required.into_iter().all(|row| seen.contains(&row.tag))
}

/// A field at a place of a message's fields: its tag, the place and the length
/// of its value, and the place behind it.
#[derive(Clone, Copy, Debug, PartialEq, Eq)]
pub struct At {
    pub tag: u64,
    pub value: usize,
    pub value_length: usize,
    pub next: usize,
}

/// The field that stands at a place, or 26 where none does.
pub fn field_at(fields: &[u8], place: usize) -> Answer<At> {
    let rest = fields.get(place..).ok_or(26u32)?;
    let end = rest.iter().position(|b| *b == SOH).ok_or(26u32)?;
    let (tag, value) = taken_apart(&rest[..end]).ok_or(26u32)?;
    Ok(At {
        tag,
        value: place + end - value.len(),
        value_length: value.len(),
        next: place + end + 1,
    })
}

/// Writes the message's frame to the front of the buffer. "Writing checks 3, 25,
/// 26, 8, and with CR 6 3, 25, 7, 26, 8" (5.3).
pub fn write(kind: u8, fields: &[u8], out: &mut [u8]) -> Answer<usize> {
    let mut frame = BEGIN.to_vec();
    frame.extend(format!("9={}\x01", 5 + fields.len()).bytes());
    frame.extend([b'3', b'5', b'=', kind, SOH]);
    frame.extend(fields);
    let check_sum = sum(&frame);
    frame.extend(format!("10={check_sum:03}\x01").bytes());
    if frame.len() > MOST {
        return Err(3);
    }
    if !TYPES.contains(&kind) {
        return Err(25);
    }
    judge(kind, fields)?;
    let front = out.get_mut(..frame.len()).ok_or(8u32)?;
    front.copy_from_slice(&frame);
    Ok(frame.len())
}

/// Paints the values of 49, 56, 553, 554 and 58 with spaces, length kept.
pub const PRIVATE: [u64; 5] = [49, 56, 553, 554, 58];

/// Scrubs the frame at the front of a lent buffer and answers its length; a
/// refusal is passed on, and the bytes behind the frame stay.
pub fn scrub(buffer: &mut [u8]) -> Answer<usize> {
    let frame = read(buffer)?;
    let end = frame.fields + frame.fields_length;
    let mut place = 0;
    while let Ok(at) = field_at(&buffer[frame.fields..end], place) {
        if PRIVATE.contains(&at.tag) {
            let value = frame.fields + at.value;
            buffer[value..value + at.value_length].fill(b' ');
        }
        place = at.next;
    }
    let trailer = format!("10={:03}\x01", sum(&buffer[..end]));
    buffer[end..frame.length].copy_from_slice(trailer.as_bytes());
    Ok(frame.length)
}
