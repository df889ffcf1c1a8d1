//! One frame read and written, and the next good one found.

use crate::answer::No;
use crate::bytes::{number, put, sum};
use crate::calendar::real;
use crate::numbers::Session;
use crate::rules::{Kind, MOST_BODY};

/// The bytes of a header: MsgType has 4, SendingTime and MsgSeqNum 8 each,
/// BodyLength 4.
pub const HEADER: usize = 24;

/// "Then CheckSum, 4 bytes."
pub const CHECK_SUM: usize = 4;

/// What a writer gives: type, time, number and body. Length and sum are worked
/// out.
#[derive(Clone, Debug, PartialEq, Eq)]
pub struct Message {
    pub msg_type: [u8; 4],
    pub sending_time: u64,
    pub seq: Session,
    pub body: Vec<u8>,
}

impl Message {
    /// The bytes of the whole frame.
    pub fn frame_length(&self) -> usize {
        HEADER + self.body.len() + CHECK_SUM
    }
}

/// Reads the frame at the front of the bytes; what follows it does not matter
/// (0.6). The checks: 24 bytes are there, 2, 3, 4, the whole frame is there, 5,
/// 7 (CR 6), 6.
pub fn read(bytes: &[u8]) -> Result<Message, No> {
    // "fewer than 24 bytes"
    if bytes.len() < HEADER {
        return Err(No::More);
    }
    let msg_type = [bytes[0], bytes[1], bytes[2], bytes[3]];
    let sending_time = number(&bytes[4..12]);
    let seq = Session(number(&bytes[12..20]));
    let length = number(&bytes[20..24]) as usize;
    // 2: "MsgType not in the table"
    let Some(kind) = Kind::of(msg_type) else {
        return Err(No::Type);
    };
    // 3: "body above 8,164"
    if length > MOST_BODY {
        return Err(No::Long);
    }
    // 4: "BodyLength doesn't suit the type"
    if !kind.length_suits(length) {
        return Err(No::Length);
    }
    // 1: "fewer than the frame's length"
    if bytes.len() < HEADER + length + CHECK_SUM {
        return Err(No::More);
    }
    let end = HEADER + length;
    // 5: "CheckSum differs, all 32 bits compared"
    if number(&bytes[end..end + CHECK_SUM]) != u64::from(sum(&bytes[..end])) {
        return Err(No::Sum);
    }
    // 7: "A frame's time must be a real date"
    if !real(sending_time) {
        return Err(No::Time);
    }
    // 6: "a field rule is broken"
    let body = &bytes[HEADER..end];
    if !kind.fields_hold(body) {
        return Err(No::Field);
    }
    Ok(Message {
        msg_type,
        sending_time,
        seq,
        body: body.to_vec(),
    })
}

/// Writes the message's frame to the front of the buffer and answers its
/// length. Writing checks 2, 3, 4, 7, 6, 8 (6.1). A refusal leaves the buffer as it
/// stood, and bytes behind the written ones always stay.
pub fn write(message: &Message, out: &mut [u8]) -> Result<usize, No> {
    let Some(kind) = Kind::of(message.msg_type) else {
        return Err(No::Type);
    };
    let length = message.body.len();
    if length > MOST_BODY {
        return Err(No::Long);
    }
    if !kind.length_suits(length) {
        return Err(No::Length);
    }
    if !real(message.sending_time) {
        return Err(No::Time);
    }
    if !kind.fields_hold(&message.body) {
        return Err(No::Field);
    }
    let whole = message.frame_length();
    if out.len() < whole {
        return Err(No::Room);
    }
    let end = HEADER + length;
    out[..4].copy_from_slice(&message.msg_type);
    put(out, 4, 8, message.sending_time);
    put(out, 12, 8, message.seq.0);
    put(out, 20, 4, length as u64);
    out[HEADER..end].copy_from_slice(&message.body);
    let check_sum = u64::from(sum(&out[..end]));
    put(out, end, CHECK_SUM, check_sum);
    Ok(whole)
}

/// The lowest place from a start on, up to the end of the bytes, at which a frame
/// reads, or none. 9 for a start beyond the end; a start at the end finds none
/// (0.8).
pub fn search(capture: &[u8], from: u64) -> Result<Option<usize>, No> {
    if from > capture.len() as u64 {
        return Err(No::Place);
    }
    let from = from as usize;
    Ok((from..capture.len()).find(|place| read(&capture[*place..]).is_ok()))
}
