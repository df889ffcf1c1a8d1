//! CR 13: "two captures, each made of accepted frames end to end with no stray
//! byte, whose frames agree pairwise in all but private fields and checksum".

use crate::frame::{read, CHECK_SUM, HEADER};
use crate::made::{self, mended, Dice, Ticks};
use crate::scrub::private_of;
use std::collections::BTreeSet;

/// The places of a frame's private bytes. Private is the set after CR 2 (13.1).
/// None where the bytes are not exactly one frame that reads.
pub fn private_places(frame: &[u8]) -> Option<BTreeSet<usize>> {
    let message = read(frame).ok()?;
    if message.frame_length() != frame.len() {
        return None;
    }
    let spans = private_of(message.msg_type, &message.body).ok()?;
    let places = spans.iter().flat_map(|span| {
        let from = HEADER + span.place as usize;
        from..from + span.len as usize
    });
    Some(places.collect())
}

/// Whether two frames agree in all but private fields and checksum: both read,
/// have equal lengths, and are equal at every other place. What is private in
/// them follows from bytes that are not, so it is the same in both.
pub fn frames_alike(one: &[u8], other: &[u8]) -> bool {
    let (Some(private), Some(_)) = (private_places(one), private_places(other)) else {
        return false;
    };
    if one.len() != other.len() {
        return false;
    }
    let public = (0..one.len() - CHECK_SUM).filter(|at| !private.contains(at));
    { public }.all(|at| one[at] == other[at])
}

/// Whether two lists of frames are as long and agree pairwise.
pub fn lists_alike<F: AsRef<[u8]>>(ones: &[F], others: &[F]) -> bool {
    let pairs = ones.iter().zip(others);
    ones.len() == others.len() && { pairs }.all(|(a, b)| frames_alike(a.as_ref(), b.as_ref()))
}

/// The frames of a capture that is made of accepted frames end to end; None
/// where a byte belongs to none of them.
pub fn end_to_end(capture: &[u8]) -> Option<Vec<&[u8]>> {
    let mut frames = Vec::new();
    let mut rest = capture;
    while !rest.is_empty() {
        let (frame, more) = rest.split_at(read(rest).ok()?.frame_length());
        frames.push(frame);
        rest = more;
    }
    Some(frames)
}

/// Whether two captures meet the premise of CR 13.
pub fn captures_alike(one: &[u8], other: &[u8]) -> bool {
    match (end_to_end(one), end_to_end(other)) {
        (Some(ones), Some(others)) => lists_alike(&ones, &others),
        _ => false,
    }
}

// THE GENERATOR

/// Two lists of frames that agree in all but private fields and checksum: of all
/// types, about so many bytes, each open part up to about `most` bytes.
pub fn pair(d: &mut Dice, about: usize, most: usize) -> (Vec<Vec<u8>>, Vec<Vec<u8>>) {
    let (mut ones, mut others) = (Vec::new(), Vec::new());
    let mut ticks = Ticks(d.of(&[0, 0, 250]));
    let mut bytes = 0;
    while bytes < about {
        let name = d.of(&made::TYPES);
        let body = made::body(d, name, &mut ticks, most);
        let one = made::frame(d, name, &body);
        let Some(private) = private_places(&one) else {
            // A time that is none, or a tail that does not suit.
            continue;
        };
        bytes += one.len();
        others.push(twin(d, &one, &private));
        ones.push(one);
    }
    (ones, others)
}

/// The same frame with other private bytes.
fn twin(d: &mut Dice, frame: &[u8], private: &BTreeSet<usize>) -> Vec<u8> {
    let mut bytes = frame.to_vec();
    let few = d.once_in(4);
    let inner = made::a();
    let kind = d.below(5);
    for (i, at) in private.iter().enumerate() {
        bytes[*at] = match kind {
            0 => b' ',
            1 => inner[i % inner.len()],
            2 => 0,
            _ => d.draw() as u8,
        };
        if few {
            break;
        }
    }
    mended(bytes)
}

/// Two captures of such frames, each end to end.
pub fn pair_of_captures(d: &mut Dice, about: usize, most: usize) -> (Vec<u8>, Vec<u8>) {
    let (ones, others) = pair(d, about, most);
    (ones.concat(), others.concat())
}
