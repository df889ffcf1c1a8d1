//! `check`: is this capture clean?

use std::ffi::OsStr;
use std::ops::ControlFlow;

use rietknoest_host::{
    first_unclean, private_spans, read, scrub, Frame, Record, Refusal, HEADER, LONGEST,
};

use crate::capture::{Source, Step};
use crate::{names, print, Status, Trouble};

/// Amiss if cleaning the capture would change a byte. Prints the first such place, and what is
/// there.
pub fn check(file: &OsStr) -> Result<Status, Trouble> {
    let source = Source::open(file)?;
    let name = source.name.clone();
    let mut looked = Looked::default();
    source.walk(|step| {
        let more = looked.at(&step);
        more.map_err(|refusal| Trouble::refused(&name, refusal))
    })?;
    let (line, status) = match (looked.amiss(), looked.unjudged) {
        (Some((place, what)), _) => (format!("not clean: place {place}: {what}"), Status::Amiss),
        (None, 0) => ("clean".to_string(), Status::Well),
        (None, bodies) => (
            format!("clean, except that {}", names::unjudged(bodies)),
            Status::Well,
        ),
    };
    print(format!("{name}: {line}\n"))?;
    Ok(status)
}

/// What was found so far.
#[derive(Default)]
struct Looked {
    /// The first place that is not clean, and what is there.
    found: Option<(u64, String)>,
    /// The first refused reading: the cleaned capture differs from there on.
    stray: Option<Stray>,
    /// How many bodies are not judged.
    unjudged: u64,
}

/// Bytes that cleaning leaves out.
struct Stray {
    from: u64,
    answer: Refusal,
    /// The capture from there on, as far as one frame reaches.
    bytes: Vec<u8>,
}

impl Stray {
    fn keep(&mut self, more: &[u8]) {
        let room = LONGEST - self.bytes.len();
        self.bytes.extend(&more[..more.len().min(room)]);
    }

    fn what(&self) -> String {
        format!(
            "stray bytes from {} on, where reading answers {}",
            self.from,
            names::answer(self.answer)
        )
    }
}

impl Looked {
    /// Looks at a step, and says whether it is enough.
    fn at(&mut self, step: &Step) -> Result<ControlFlow<()>, Refusal> {
        let refused = match &mut self.stray {
            Some(stray) => {
                stray.keep(step.bytes);
                Some(stray.from)
            }
            None => {
                self.frames(step)?;
                self.stray.as_ref().map(|stray| stray.from)
            }
        };
        if let (None, Some(from)) = (&self.found, refused) {
            // the frame that cleaning puts where the stray bytes are
            if let Some(record) = step.readings().find(|r| r.place > from) {
                self.shifted(step, &record)?;
            }
        }
        Ok(match self.found {
            Some(_) => ControlFlow::Break(()),
            None => ControlFlow::Continue(()),
        })
    }

    /// The frames of a step up to its end, or to the first refused reading: cleaning leaves each at
    /// its place.
    fn frames(&mut self, step: &Step) -> Result<(), Refusal> {
        let refused = step.readings().find(Record::is_refused);
        let frames = match &refused {
            Some(record) => &step.bytes[..(record.place - step.place) as usize],
            None => step.bytes,
        };
        if let Some(i) = first_unclean(frames) {
            let place = step.place + i as u64;
            let before = step.readings().take_while(|r| r.place <= place);
            let what = before.last().map(|r| what_is_at(step, &r, place));
            self.found = Some((place, what.transpose()?.unwrap_or_default()));
            return Ok(());
        }
        let good = step.readings().take_while(|r| !r.is_refused());
        self.unjudged += good.filter(names::is_unjudged).count() as u64;
        if let Some((record, answer)) = refused.and_then(|r| Some((r, r.refusal()?))) {
            let mut stray = Stray {
                from: record.place,
                answer,
                bytes: Vec::new(),
            };
            stray.keep(step.from(record.place));
            self.stray = Some(stray);
        }
        Ok(())
    }

    /// Where the capture first differs from the frame that cleaning puts there. It differs within
    /// the frame: else a frame would read where one was refused.
    fn shifted(&mut self, step: &Step, record: &Record) -> Result<(), Refusal> {
        let mut frame = step.from(record.place)[..names::frame_len(record)].to_vec();
        scrub(&mut frame)?;
        if let Some(stray) = &self.stray {
            let mut pairs = frame.iter().zip(&stray.bytes);
            let same = pairs.position(|(a, b)| a != b).unwrap_or(frame.len());
            self.found = Some((stray.from + same as u64, stray.what()));
        }
        Ok(())
    }

    /// The first place that is not clean, and what is there. If no frame follows stray bytes,
    /// cleaning ends where they start.
    fn amiss(&self) -> Option<(u64, String)> {
        let stray = || self.stray.as_ref().map(|stray| (stray.from, stray.what()));
        self.found.clone().or_else(stray)
    }
}

/// The private field of a frame that a place is in. Scrubbing changes these fields and the
/// checksum, nothing else.
fn what_is_at(step: &Step, record: &Record, place: u64) -> Result<String, Refusal> {
    let bytes = step.from(record.place);
    let frame = read(bytes, 0)?;
    let field = field_at(bytes, &frame, place - record.place)?;
    let letters = names::letters(&frame);
    Ok(format!("{field} of the {letters} at {}", record.place))
}

fn field_at(bytes: &[u8], frame: &Frame, place: u64) -> Result<&'static str, Refusal> {
    let body = &bytes[HEADER..][..frame.body_len as usize];
    let spans = private_spans(frame.msg_type as u32, body)?;
    let within = spans.iter().find(|span| {
        let from = HEADER as u64 + span.place;
        (from..from + span.len).contains(&place)
    });
    Ok(within.map_or("CheckSum", |span| names::private_field(frame, span.place)))
}
