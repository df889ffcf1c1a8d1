//! `scrub --step`, `check --step` and `explain --step`: captures of the STEP line. Each place is
//! tried in turn: where a frame reads the next place is the one behind it, else the next byte.
//! Nothing is written but what the library's scrubbing gave.

use std::ffi::OsStr;
use std::fmt::Write;
use std::ops::ControlFlow;

use rietknoest_host::step::{self, Frame, LONGEST};
use rietknoest_host::Refusal;

use crate::capture::Source;
use crate::target::{Held, Target};
use crate::{count, hint, print, say, system, Status, Trouble};

/// What is at a place.
enum Part<'a> {
    /// A frame, and its bytes.
    Frame(Frame<'a>, &'a [u8]),
    /// A byte at which reading refuses.
    Stray(Refusal),
    End,
}

/// At least so many bytes are there before one is read: those of a frame, and a piece.
const ROOM: usize = LONGEST + 65_536;

/// How many bytes tell a BINARY frame's type and length.
const HEADER: usize = 24;

/// An error where the first bytes are a BINARY frame, or the front of one. In a private text of it
/// a STEP frame may stand, of which only STEP's own private fields would be painted.
fn no_binary(name: &str, bytes: &[u8]) -> Result<(), Trouble> {
    hint::hint_for_step(name, bytes);
    let front = rietknoest_host::read(bytes, 0).map(|_| ());
    if front.is_ok() || (front == Err(Refusal::More) && bytes.len() >= HEADER) {
        let what = "this begins with a BINARY frame: leave out --step";
        return Err(Trouble::File(name.to_string(), what.to_string()));
    }
    Ok(())
}

/// Passes on what is at each place in turn, the end last, until enough was told. The bytes are
/// those from the place on that are there; of a frame all are.
fn walk(
    mut source: Source,
    mut tell: impl FnMut(u64, Part) -> Result<ControlFlow<()>, Trouble>,
) -> Result<(), Trouble> {
    let mut bytes = vec![0; ROOM];
    // what is there stands from `at` to `end`, and `at` is at `place` of the capture
    let (mut at, mut end, mut place) = (0, 0, 0);
    let mut ended = false;
    while !ended && end < HEADER {
        let read = source.piece(&mut bytes[end..])?;
        (end, ended) = (end + read, read == 0);
    }
    no_binary(&source.name, &bytes[..end])?;
    loop {
        let rest = &bytes[at..end];
        let answer = Frame::read(rest, 0);
        if !ended && matches!(answer, Err(Refusal::More)) {
            bytes.copy_within(at..end, 0);
            (at, end) = (0, end - at);
            let read = source.piece(&mut bytes[end..])?;
            (end, ended) = (end + read, read == 0);
            continue;
        }
        let (len, told) = match answer {
            Ok(frame) => (
                frame.len,
                tell(place, Part::Frame(frame, &rest[..frame.len]))?,
            ),
            Err(_) if rest.is_empty() => return tell(place, Part::End).map(|_| ()),
            Err(refusal) => (1, tell(place, Part::Stray(refusal))?),
        };
        if told.is_break() {
            return Ok(());
        }
        at += len;
        place += len as u64;
    }
}

/// A frame, scrubbed in memory of its own.
fn scrubbed(name: &str, frame: &[u8]) -> Result<Vec<u8>, Trouble> {
    let mut bytes = frame.to_vec();
    match step::scrub(&mut bytes) {
        Ok(_) => Ok(bytes),
        Err(refusal) => Err(Trouble::refused(name, refusal)),
    }
}

/// Amiss where a byte of the capture was left out. With `whole` nothing is written then.
pub fn scrub(from: &OsStr, to: &OsStr, whole: bool, force: bool) -> Result<Status, Trouble> {
    let source = Source::open(from)?;
    let target = Target::of(to, source.identity, force)?;
    let name = source.name.clone();
    system::remove_before_the_end();
    let mut output = if whole {
        Held::All(target, Vec::new())
    } else {
        Held::Nothing(target.open()?)
    };
    let (mut frames, mut stray) = (0, 0);
    walk(source, |_, part| {
        match part {
            Part::Frame(_, bytes) => {
                frames += 1;
                output.write(&name, &scrubbed(&name, bytes)?)?;
            }
            Part::Stray(_) => stray += 1,
            Part::End => {}
        }
        Ok(ControlFlow::Continue(()))
    })?;
    if whole && stray > 0 {
        say(&format!(
            "{name}: {} in no frame that reads: nothing is written (--whole)",
            count(stray, "byte")
        ));
        return Ok(Status::Amiss);
    }
    output.finish()?;
    say(&format!(
        "{name}: kept {}, left out {}",
        count(frames, "STEP frame"),
        count(stray, "byte")
    ));
    Ok(Status::amiss(stray > 0))
}

/// Amiss where scrubbing the capture would change a byte of it, or leave one out. Told is the first
/// place where it would.
pub fn check(file: &OsStr) -> Result<Status, Trouble> {
    let source = Source::open(file)?;
    let name = source.name.clone();
    let mut amiss = None;
    walk(source, |place, part| {
        amiss = match part {
            Part::Frame(frame, bytes) => {
                let clean = scrubbed(&name, bytes)?;
                changed(place, &frame, bytes, &clean)
            }
            Part::Stray(refusal) => Some(format!(
                "place {place}: stray bytes, where reading answers {}",
                why(refusal)
            )),
            Part::End => None,
        };
        Ok(if amiss.is_some() {
            ControlFlow::Break(())
        } else {
            ControlFlow::Continue(())
        })
    })?;
    match &amiss {
        None => print(format!("{name}: clean\n"))?,
        Some(what) => print(format!("{name}: not clean: {what}\n"))?,
    }
    Ok(Status::amiss(amiss.is_some()))
}

/// The first place of a frame that scrubbing changes, and its field.
fn changed(place: u64, frame: &Frame, bytes: &[u8], clean: &[u8]) -> Option<String> {
    let i = (0..frame.len).find(|i| bytes[*i] != clean[*i])?;
    let field = frame.fields().find(|f| {
        let from = frame.place + f.place;
        (from..from + f.value.len()).contains(&i)
    });
    let name = field.map_or("CheckSum", |f| names(f.tag).0);
    let at = place + i as u64;
    Some(format!("place {at}: {name} of the frame at {place}"))
}

/// Amiss where reading refuses. A frame's fields are told where the command reads it, and nowhere
/// else; of a field its name, its form and its length, and the value only of numbers, flags and
/// times.
pub fn explain(file: &OsStr, place: u64) -> Result<Status, Trouble> {
    let source = Source::open(file)?;
    let name = source.name.clone();
    let mut beyond = None;
    let mut told = None;
    walk(source, |at, part| {
        told = match part {
            Part::Frame(frame, _) if at == place => Some((Status::Well, fields(place, &frame))),
            Part::Frame(frame, bytes) if place < at + frame.len as u64 => {
                Some(inside(at, &bytes[(place - at) as usize..]))
            }
            Part::Stray(refusal) if at == place => Some((Status::Amiss, refused(refusal))),
            Part::End if at == place => Some((Status::Amiss, refused(Refusal::More))),
            Part::End => {
                beyond = Some(at);
                None
            }
            _ => None,
        };
        Ok(if told.is_some() {
            ControlFlow::Break(())
        } else {
            ControlFlow::Continue(())
        })
    })?;
    if let Some(end) = beyond {
        let what = format!("the place is beyond the end, {end}");
        return Err(Trouble::File(name, what));
    }
    let (status, text) = told.unwrap_or((Status::Amiss, String::new()));
    print(format!("{name}: place {place}: {text}"))?;
    Ok(status)
}

fn refused(refusal: Refusal) -> String {
    format!("refused, {}\n", why(refusal))
}

/// A place inside a frame. No frame reads there: within one every byte before a field's end is that
/// field's, and a begin string has a SOH in it.
fn inside(at: u64, bytes: &[u8]) -> (Status, String) {
    let (status, first) = match Frame::read(bytes, 0) {
        Ok(_) => (Status::Well, READS.to_string()),
        Err(refusal) => (Status::Amiss, refused(refusal)),
    };
    let rest = format!("the place lies inside the frame at {at}, and no more is said of it\n");
    (status, first + &rest)
}

const READS: &str = "a STEP frame reads here, 0 (done): every check passes\n";

fn fields(place: u64, frame: &Frame) -> String {
    let purpose = purpose(frame.kind);
    let mut text = format!("{READS}MsgType {}, {purpose}\n", frame.kind as char);
    for field in frame.fields() {
        let (name, form) = names(field.tag);
        let long = count(field.value.len() as u64, "byte");
        let shown = match form {
            "text" => format!("text of {long}, not shown"),
            "private text" => format!("is private: {long}, not shown"),
            // digits, a letter, a time: plain letters all
            _ => format!("{form} {}", String::from_utf8_lossy(field.value)),
        };
        let _ = writeln!(text, "{} {name}: {shown}", field.tag);
    }
    let _ = writeln!(
        text,
        "the frame has {} and ends before place {}",
        count(frame.len as u64, "byte"),
        place + frame.len as u64
    );
    text
}

/// Number and words, where STEP's differ from the gateway's.
fn why(refusal: Refusal) -> String {
    let words = match refusal {
        Refusal::Long => "the frame would have more than 8,192 bytes",
        Refusal::Sum => "the body does not end in SOH, or no right checksum follows it",
        _ => refusal.words(),
    };
    format!("{}: {words}", refusal.number())
}

fn purpose(kind: u8) -> &'static str {
    match kind {
        b'A' => "a logon",
        b'5' => "a logout",
        b'0' => "a heartbeat",
        b'1' => "a test request",
        b'2' => "a resend request",
        b'3' => "a reject",
        b'4' => "a sequence reset",
        _ => "a frame",
    }
}

/// A field's name in the paper, and its form.
fn names(tag: u64) -> (&'static str, &'static str) {
    match tag {
        49 => ("SenderCompID", "private text"),
        56 => ("TargetCompID", "private text"),
        34 => ("MsgSeqNum", "number"),
        43 => ("PossDupFlag", "flag"),
        97 => ("PossResend", "flag"),
        52 => ("SendingTime", "time"),
        347 => ("MessageEncoding", "text"),
        98 => ("EncryptMethod", "number"),
        108 => ("HeartBtInt", "number"),
        141 => ("ResetSeqNumFlag", "flag"),
        789 => ("NextExpectedMsgSeqNum", "number"),
        553 => ("Username", "private text"),
        554 => ("Password", "private text"),
        1137 => ("DefaultApplVerID", "text"),
        1407 => ("DefaultApplExtID", "number"),
        1406 => ("DefaultCstmApplVerID", "text"),
        1409 => ("SessionStatus", "number"),
        112 => ("TestReqID", "text"),
        7 => ("BeginSeqNo", "number"),
        16 => ("EndSeqNo", "number"),
        45 => ("RefSeqNum", "number"),
        371 => ("RefTagID", "number"),
        372 => ("RefMsgType", "text"),
        373 => ("SessionRejectReason", "number"),
        58 => ("Text", "private text"),
        123 => ("GapFillFlag", "flag"),
        36 => ("NewSeqNo", "number"),
        _ => ("a field", "text"),
    }
}
