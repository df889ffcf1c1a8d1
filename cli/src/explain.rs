//! `explain`: what the walk answers at a place, and why, in words.

use std::ffi::OsStr;
use std::fmt::Write;
use std::ops::ControlFlow;

use rietknoest_host::{
    broken_field, entries, private_spans, read, tail_fields, types, Entry, Frame, Record, Refusal,
    Span, CHECK_SUM, HEADER, LONGEST,
};

use crate::capture::{Source, Step};
use crate::{count, names, print, Status, Trouble};

/// Amiss if reading or the ledger refuses, as in the line that `list` has for the place. A frame's
/// fields are printed only where the walk reads it: a frame that reads inside another may be in
/// private bytes. Of a refused frame only the answer's number, name and rule are printed, and what
/// `why_not` adds.
pub fn explain(file: &OsStr, place: u64) -> Result<Status, Trouble> {
    let source = Source::open(file)?;
    let name = source.name.clone();
    let mut spot = Spot::at(place);
    source.walk(|step| {
        spot.see(&step);
        Ok(if spot.is_enough() {
            ControlFlow::Break(())
        } else {
            ControlFlow::Continue(())
        })
    })?;
    if place > spot.end {
        let what = format!("the place is beyond the end, {}", spot.end);
        return Err(Trouble::File(name, what));
    }
    let (text, status) = spot.told();
    print(format!("{name}: place {place}: {text}"))?;
    Ok(status)
}

/// A place of a capture, and what the walk has shown of it.
struct Spot {
    place: u64,
    /// The capture from there on, as far as one frame reaches.
    bytes: Vec<u8>,
    /// The last reading at the place or before it.
    before: Option<Record>,
    /// Whether a reading before the place was refused.
    damaged: bool,
    /// The first reading behind it.
    behind: Option<u64>,
    /// Where the bytes end that were seen.
    end: u64,
}

impl Spot {
    fn at(place: u64) -> Spot {
        Spot {
            place,
            bytes: Vec::new(),
            before: None,
            damaged: false,
            behind: None,
            end: 0,
        }
    }

    fn see(&mut self, step: &Step) {
        for record in step.readings() {
            if record.place > self.place {
                self.behind = self.behind.or(Some(record.place));
            } else {
                self.damaged |= record.is_refused() && record.place < self.place;
                self.before = Some(record);
            }
        }
        self.end = step.place + step.bytes.len() as u64;
        if self.end > self.place {
            let more = step.from(self.place.max(step.place));
            let room = LONGEST - self.bytes.len();
            self.bytes.extend(&more[..more.len().min(room)]);
        }
    }

    /// The walk's own reading here; none if it does not read here.
    fn reading(&self) -> Option<Record> {
        self.before.filter(|record| record.place == self.place)
    }

    /// Whether the rest of the capture changes nothing of what is told.
    fn is_enough(&self) -> bool {
        match self.reading() {
            Some(record) if !record.is_refused() => true,
            Some(_) => self.bytes.len() == LONGEST && self.behind.is_some(),
            None => self.bytes.len() == LONGEST,
        }
    }

    fn told(&self) -> (String, Status) {
        let answer = read(&self.bytes, 0);
        let Some(record) = self.reading() else {
            let (first, status) = match answer {
                Ok(_) => (DONE.to_string(), Status::Well),
                Err(refusal) => (refused(refusal), Status::Amiss),
            };
            return (format!("{first}\n{}", self.passed_over()), status);
        };
        let status = Status::amiss(record.answer != 0);
        let mut text = match (&answer, record.refusal()) {
            (Ok(_), None) => DONE.to_string(),
            (Ok(_), Some(refusal)) => format!(
                "a frame reads here, and the ledger of channel 100 refuses it, {}: {}",
                names::answer(refusal),
                names::reason(refusal)
            ),
            (Err(refusal), _) => refused(*refusal),
        };
        text.push('\n');
        match &answer {
            Ok(frame) => text.push_str(&self.fields(frame)),
            Err(refusal) => {
                text.push_str(&self.why_not(*refusal));
                text.push_str(&self.onward());
            }
        }
        let (floor, top) = (record.floor.value(), record.top.value());
        let _ = writeln!(
            text,
            "the ledger of channel 100 then has floor {floor}, top {top}"
        );
        (text, status)
    }

    /// The public fields of a frame that the walk reads. After damage it was found by the search,
    /// or follows one that was without a gap: then those that a listing has too.
    fn fields(&self, frame: &Frame) -> String {
        let mut text = format!(
            "MsgType {}, {}\n",
            names::letters(frame),
            names::purpose(frame)
        );
        let header = [
            ("SendingTime", frame.sending_time),
            ("MsgSeqNum", frame.seq.value()),
            ("BodyLength", frame.body_len),
        ];
        for (name, value) in header {
            let _ = writeln!(text, "{name} {value}");
        }
        let body = &self.bytes[HEADER..][..frame.body_len as usize];
        if !self.damaged {
            text.push_str(&body_fields(frame, body));
        } else if !body.is_empty() {
            for (name, value) in names::listed_fields(frame) {
                let _ = writeln!(text, "{name} {value}");
            }
            text.push_str("no other field is shown: after damage it may be private bytes\n");
        }
        let len = frame.frame_len() as u64;
        let _ = writeln!(
            text,
            "the frame has {} and ends before place {}",
            count(len, "byte"),
            self.place + len
        );
        if self.damaged {
            text.push_str(AFTER_DAMAGE);
        }
        text
    }

    /// More of why the walk's reading is refused: the lengths that suit, both sums, or the field.
    fn why_not(&self, refusal: Refusal) -> String {
        match refusal {
            Refusal::Length if self.damaged => suiting(&self.bytes) + AFTER_DAMAGE,
            Refusal::Length => suiting(&self.bytes),
            Refusal::Sum if self.damaged => {
                "the sums are not shown: after damage they may be those of private bytes\n"
                    .to_string()
            }
            Refusal::Sum => sums(&self.bytes),
            Refusal::Field if self.damaged => self.broken() + AFTER_DAMAGE,
            Refusal::Field => self.broken(),
            _ => String::new(),
        }
    }

    /// The field that breaks its rule, by name, place and rule: none of its bytes.
    fn broken(&self) -> String {
        let Some((msg_type, len)) = type_at(&self.bytes).zip(whole(&self.bytes)) else {
            return String::new();
        };
        let body = &self.bytes[HEADER..len - CHECK_SUM];
        let Ok(Some(field)) = broken_field(msg_type, body) else {
            return String::new();
        };
        let (name, rule) = names::rule(&msg_type.to_be_bytes(), field.index);
        let name = match field.entry {
            0 => name.to_string(),
            entry => format!("{name} of entry {entry}"),
        };
        format!(
            "{name} breaks its rule: {rule} ({} from place {} on)\n",
            count(field.len, "byte"),
            self.place + HEADER as u64 + field.place
        )
    }

    /// Where the walk goes on after a refused reading.
    fn onward(&self) -> String {
        match self.behind {
            Some(next) => format!("the walk goes on at {next}, where the next frame reads\n"),
            None => "no frame reads after it: the walk stops\n".to_string(),
        }
    }

    /// What a place is in where the walk does not read.
    fn passed_over(&self) -> String {
        let Some(before) = self.before.filter(|_| self.place < self.end) else {
            return "this is the capture's end\n".to_string();
        };
        let at = before.place;
        let lies = if before.is_refused() {
            format!("among the stray bytes from {at} on")
        } else {
            let letters = String::from_utf8_lossy(&before.msg_type).into_owned();
            format!("inside the {letters} at {at}")
        };
        format!("the walk does not read here: the place lies {lies}, and no more is said of it\n")
    }
}

const AFTER_DAMAGE: &str =
    "it stands after damage, and may lie inside private bytes of a damaged frame (docs/PRIVATE.md)\n";

const DONE: &str = "a frame reads here, 0 (done): every check passes";

fn refused(refusal: Refusal) -> String {
    let (answer, reason) = (names::answer(refusal), names::reason(refusal));
    format!("refused, {answer}: {reason}")
}

/// The public fields of a body, and the names of the private ones, which the library says.
fn body_fields(frame: &Frame, body: &[u8]) -> String {
    // the frame was read, so its length suits its type
    let private = private_spans(frame.msg_type as u32, body).unwrap_or_default();
    let mut text = String::new();
    let mut place = 0;
    for (name, width, is_text) in names::layout(&frame.type_name()) {
        let span = place as u64..(place + width) as u64;
        let bytes = &body[place..place + width];
        place += width;
        let hides = |s: &Span| s.place < span.end && span.start < s.place + s.len;
        if !private.iter().any(hides) {
            let _ = writeln!(text, "{name} {}", value(bytes, *is_text));
        }
    }
    text.push_str(&match frame.msg_type as u32 {
        types::M201 => extension(body),
        types::M102 => entry_lines(body),
        types::M101 if !body.is_empty() => {
            let body = count(frame.body_len, "byte");
            format!("the body is not judged: {body}, not shown\n")
        }
        _ => String::new(),
    });
    for span in private {
        let _ = writeln!(
            text,
            "{} is private: {}, not shown",
            names::private_field(frame, span.place),
            count(span.len, "byte")
        );
    }
    text
}

/// The public fields of an M201's extension.
fn extension(body: &[u8]) -> String {
    let mut text = String::new();
    let fields = tail_fields(body).unwrap_or_default();
    for (name, field) in names::tail_names(fields.len()).iter().zip(&fields) {
        let bytes = &body[field.place as usize..][..field.len as usize];
        if field.hidden == 0 {
            let value = value(bytes, field.text != 0);
            let _ = writeln!(text, "{name} {value}");
        }
    }
    text
}

/// A field's value: its number, or its letters without the spaces after them.
fn value(bytes: &[u8], is_text: bool) -> String {
    if is_text {
        let letters = bytes.escape_ascii().to_string();
        letters.trim_end().to_string()
    } else {
        let number = bytes.iter().fold(0, |n, b| n << 8 | u64::from(*b));
        number.to_string()
    }
}

/// The entries of an M102.
fn entry_lines(body: &[u8]) -> String {
    let mut text = String::new();
    let Ok(entries) = entries(body) else {
        return text;
    };
    for (i, entry) in entries.enumerate() {
        let (kind, price, more) = match entry {
            Entry::Index { kind, price } => (kind, price, String::new()),
            Entry::Full {
                kind,
                price,
                size,
                position,
            } => (kind, price, format!(", size {size}, position {position}")),
        };
        let kind = value(&kind, true);
        let _ = writeln!(text, "entry {}: type {kind}, price {price}{more}", i + 1);
    }
    text
}

/// The longest body.
const LONGEST_BODY: usize = LONGEST - HEADER - CHECK_SUM;

/// The lengths that suit the type of a frame, as the library tells them: the lowest and the
/// highest. None if it knows no such type.
fn lengths(msg_type: u32) -> Option<(usize, usize)> {
    let zeros = [0; LONGEST_BODY];
    let suits = |len: &usize| private_spans(msg_type, &zeros[..*len]).is_ok();
    let low = (0..=LONGEST_BODY).find(suits)?;
    let high = (low..=LONGEST_BODY).rev().find(suits)?;
    Some((low, high))
}

fn type_at(bytes: &[u8]) -> Option<u32> {
    let letters = bytes.get(..4)?.try_into().ok()?;
    Some(u32::from_be_bytes(letters))
}

/// The lengths that suit a frame whose own does not.
fn suiting(bytes: &[u8]) -> String {
    match type_at(bytes).and_then(lengths) {
        Some((low, high)) if low == high => {
            format!("a body of its type has {}\n", count(low as u64, "byte"))
        }
        Some((low, _)) => {
            let low = count(low as u64, "byte");
            format!("a body of its type has {low} or more\n")
        }
        None => String::new(),
    }
}

/// The length of the frame at the front: with fewer bytes reading asks for more.
fn whole(bytes: &[u8]) -> Option<usize> {
    let is_whole = |len: &usize| read(&bytes[..*len], 0) != Err(Refusal::More);
    (HEADER + CHECK_SUM..=bytes.len()).find(is_whole)
}

/// Both sums of a frame whose own is wrong: not if its type has private fields, if its body is not
/// judged, or if it would not read with the right sum either. A damaged type makes one frame look
/// like another, and then the sum may be that of private bytes.
fn sums(bytes: &[u8]) -> String {
    let Some((msg_type, (_, high))) = type_at(bytes).and_then(|t| Some((t, lengths(t)?))) else {
        return String::new();
    };
    if names::is_unjudged_type(msg_type) {
        return "the sums are not shown: the body of an M101 could hold anything\n".to_string();
    }
    let private = private_spans(msg_type, &[0; LONGEST_BODY][..high]);
    if private.map_or(true, |spans| !spans.is_empty()) {
        return "the sums are not shown: a frame of its type has private fields\n".to_string();
    }
    let Some(len) = whole(bytes) else {
        return String::new();
    };
    let mut frame = bytes[..len].to_vec();
    let sum = len - CHECK_SUM;
    let stored = frame[sum..].iter().fold(0, |n, b| n << 8 | u32::from(*b));
    let right = (0..=255u8).find(|right| {
        frame[sum..].copy_from_slice(&u32::from(*right).to_be_bytes());
        read(&frame, 0).is_ok()
    });
    let Some(right) = right else {
        return "the sums are not shown: with the right one it would not read either\n".to_string();
    };
    let stored = match stored {
        0..=255 => stored.to_string(),
        _ => "above 255".to_string(),
    };
    format!("its bytes sum to {right}, and its CheckSum is {stored}\n")
}
