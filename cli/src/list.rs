//! `list`: document 01's lines for a capture of any size, each as soon as it is decided.

use std::collections::BTreeMap;
use std::ffi::{OsStr, OsString};
use std::io::{self, IsTerminal};
use std::ops::ControlFlow;

use rietknoest_host::{lines, listing, text_room, Record, Refusal, Walked, RECORD};

use crate::capture::{Source, Step};
use crate::{count, each, json, put, say, Status, Trouble};

/// What is printed, and until when.
#[derive(Clone, Copy, Default)]
pub struct How {
    /// Wait for a file to grow.
    pub follow: bool,
    /// The last line alone.
    pub summary: bool,
    /// An object for each line.
    pub json: bool,
}

pub fn list(files: &[OsString], how: How) -> Result<Status, Trouble> {
    let several = files.len() > 1;
    each(files, |file| list_one(file, how, several))
}

/// Prints each line as soon as its reading is decided, and the last line at the end. Stops if
/// standard output is closed.
fn list_one(file: &OsStr, how: How, several: bool) -> Result<ControlFlow<Status, Status>, Trouble> {
    let mut source = Source::open(file)?;
    if how.follow {
        source = source.growing();
    }
    if io::stdout().is_terminal() {
        source = source.silent();
    }
    let mut listed = Listed {
        name: source.name.clone(),
        how,
        several,
        others: Others::default(),
        so_far: Status::Well,
    };
    match listed
        .begin()
        .and_then(|()| source.walk(|step| listed.add(&step)))
    {
        Ok(()) => {
            listed.others.say(&listed.name);
            Ok(ControlFlow::Continue(listed.so_far))
        }
        Err(Trouble::Unread) => Ok(ControlFlow::Break(listed.so_far)),
        Err(trouble) => Err(trouble),
    }
}

/// A capture that is being listed.
struct Listed {
    name: String,
    how: How,
    /// Whether it is one of several.
    several: bool,
    others: Others,
    so_far: Status,
}

impl Listed {
    /// The name of one of several listings.
    fn begin(&self) -> Result<(), Trouble> {
        if self.several && !self.how.json && !self.how.summary {
            put(format!("==> {} <==\n", self.name).as_bytes())?;
        }
        Ok(())
    }

    /// Prints what a step has decided.
    fn add(&mut self, step: &Step) -> Result<ControlFlow<()>, Trouble> {
        self.others.add(step);
        if !step.records.is_empty() || step.is_last {
            let told = self.text(step);
            let (text, missing) = told.map_err(|refusal| Trouble::refused(&self.name, refusal))?;
            let amiss = step.walked.refused > 0 || missing > 0 || !self.others.is_empty();
            self.so_far = Status::amiss(amiss);
            put(&text)?;
        }
        Ok(ControlFlow::Continue(()))
    }

    /// The text of a step's readings, behind the last ones the counts; and how many numbers are
    /// missing.
    fn text(&self, step: &Step) -> Result<(Vec<u8>, u64), Refusal> {
        let missing = step.walked.ledger.status()?.missing;
        let text = if self.how.json {
            self.objects(step)?.into_bytes()
        } else {
            self.lines(step)?
        };
        Ok((text, missing))
    }

    /// A line for each record, and at the end the line of counts.
    fn lines(&self, step: &Step) -> Result<Vec<u8>, Refusal> {
        let records = if self.how.summary { &[] } else { step.records };
        let mut text = vec![0; text_room(records.len() / RECORD)];
        let bytes = if step.is_last {
            listing(records, &step.walked, &mut text)?
        } else {
            lines(records, &mut text)?
        };
        text.truncate(bytes);
        if step.is_last && self.how.summary && self.several {
            text.splice(..0, format!("{}: ", self.name).into_bytes());
        }
        Ok(text)
    }

    /// The same as objects.
    fn objects(&self, step: &Step) -> Result<String, Refusal> {
        let name = json::string(&self.name);
        let mut text = String::new();
        if !self.how.summary {
            text.extend(step.readings().map(|record| reading(&name, &record)));
        }
        if step.is_last {
            text.push_str(&counts(&name, &step.walked, &self.others)?);
        }
        Ok(text)
    }
}

/// An object for a reading. A refused one has no type.
fn reading(name: &str, record: &Record) -> String {
    let letters = if record.is_refused() {
        "null".to_string()
    } else {
        json::string(&String::from_utf8_lossy(&record.msg_type))
    };
    format!(
        "{{\"file\":{name},\"place\":{},\"msg_type\":{letters},\"answer\":{},\"seq\":{},\
         \"channel\":{},\"tick\":{},\"body_len\":{},\"floor\":{},\"top\":{}}}\n",
        record.place,
        record.answer,
        record.seq.value(),
        record.channel.value(),
        record.tick.value(),
        record.body_len,
        record.floor.value(),
        record.top.value(),
    )
}

/// The last object: the line of counts, and the frames that it does not count.
fn counts(name: &str, walked: &Walked, others: &Others) -> Result<String, Refusal> {
    let status = walked.ledger.status()?;
    let others: Vec<_> = others
        .frames
        .iter()
        .map(|(channel, frames)| format!("{{\"channel\":{channel},\"frames\":{frames}}}"))
        .collect();
    Ok(format!(
        "{{\"file\":{name},\"frames\":{},\"refused\":{},\"channel\":{},\"floor\":{},\"top\":{},\
         \"missing\":{},\"held\":{},\"not_counted\":[{}]}}\n",
        walked.frames,
        walked.refused,
        status.channel.value(),
        status.floor.value(),
        status.top.value(),
        status.missing,
        status.held,
        others.join(",")
    ))
}

/// The frames that the ledger refused since they are of other channels, by channel.
#[derive(Default)]
struct Others {
    frames: BTreeMap<u16, u64>,
}

/// So many channels are named, as many as `gaps` has room for, and the rest counted.
const NAMED: usize = 32;

impl Others {
    fn add(&mut self, step: &Step) {
        for record in step.readings() {
            if record.refusal() == Some(Refusal::Channel) {
                *self.frames.entry(record.channel.value()).or_default() += 1;
            }
        }
    }

    fn is_empty(&self) -> bool {
        self.frames.is_empty()
    }

    fn say(&self, name: &str) {
        if self.is_empty() {
            return;
        }
        let named = self.frames.iter().take(NAMED);
        let mut parts: Vec<_> = named
            .map(|(channel, frames)| format!("{} of channel {channel}", count(*frames, "frame")))
            .collect();
        if self.frames.len() > NAMED {
            let rest: u64 = self.frames.values().skip(NAMED).sum();
            let channels = count((self.frames.len() - NAMED) as u64, "more channel");
            parts.push(format!("{} of {channels}", count(rest, "frame")));
        }
        let more = if self.frames.len() > NAMED {
            " (up to 32 channels, and 'rietknoest list --json' names them all)"
        } else {
            ""
        };
        say(&format!(
            "{name}: a listing counts channel 100 alone, and not {}: 'rietknoest gaps' counts them{more}",
            parts.join(", ")
        ));
    }
}
