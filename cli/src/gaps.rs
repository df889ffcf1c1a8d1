//! `gaps`: which tick numbers the captures lack, channel by channel.

use std::collections::BTreeMap;
use std::ffi::{OsStr, OsString};
use std::ops::ControlFlow;

use rietknoest_host::{types, ChannelNumber, Channels, LedgerStatus, Record, Refusal, TickNumber};

use crate::capture::Source;
use crate::{count, each, print, say, Status, Trouble};

/// So many runs of missing numbers are printed of a channel, and the rest counted.
const RUNS: usize = 20;

/// Reads the captures one after the other, as one, and prints a line for each channel, and the
/// request that would be given next. Amiss if a number is missing, or if something was left out.
pub fn gaps(files: &[OsString], json: bool) -> Result<Status, Trouble> {
    let mut lines = Lines::new();
    let read = each(files, |file| lines.read(file).map(ControlFlow::Continue))?;
    let told = lines.told(json);
    let (text, status) = told.map_err(|refusal| Trouble::refused("the table", refusal))?;
    lines.say_far();
    lines.say_left_out();
    print(text)?;
    Ok(read.max(status))
}

/// The channels so far.
struct Lines {
    table: Channels,
    /// The ticks of a channel that its ledger refused as far. They are in the captures, and count
    /// as missing all the same.
    far: BTreeMap<ChannelNumber, u64>,
    /// The frames of channels for which the table has no place.
    left_out: BTreeMap<ChannelNumber, u64>,
}

impl Lines {
    fn new() -> Lines {
        Lines {
            table: Channels::none(),
            far: BTreeMap::new(),
            left_out: BTreeMap::new(),
        }
    }

    /// Offers the ticks and announcements of a capture. Amiss if a reading was refused: a tick may
    /// have been there.
    fn read(&mut self, file: &OsStr) -> Result<Status, Trouble> {
        let source = Source::open(file)?;
        let name = source.name.clone();
        let mut refused = 0;
        source.walk(|step| {
            for record in step.readings() {
                let taken = self.take(&record);
                taken.map_err(|refusal| Trouble::refused(&name, refusal))?;
            }
            refused = step.walked.refused;
            Ok(ControlFlow::Continue(()))
        })?;
        if refused > 0 {
            let readings = count(refused, "reading");
            say(&format!(
                "{name}: {readings} refused, and what is there not counted: 'rietknoest list' has the places"
            ));
        }
        Ok(Status::amiss(refused > 0))
    }

    /// Offers what a reading shows to its channel, which is opened where it is new.
    fn take(&mut self, record: &Record) -> Result<(), Refusal> {
        let msg_type = u32::from_be_bytes(record.msg_type);
        if !matches!(msg_type, types::M201 | types::P001 | types::P002) {
            return Ok(());
        }
        let channel = record.channel;
        match self.table.open(channel) {
            Ok(()) | Err(Refusal::Open) => {}
            Err(Refusal::Full) => {
                *self.left_out.entry(channel).or_default() += 1;
                return Ok(());
            }
            Err(refusal) => return Err(refusal),
        }
        let answer = match msg_type {
            types::M201 => self.table.tick(channel, record.tick).map(|_| ()),
            types::P001 => self.table.announce(channel, record.tick),
            // a resend names its channel, and is offered to no ledger
            _ => Ok(()),
        };
        match answer {
            Err(Refusal::Repeat) => Ok(()),
            Err(Refusal::Far) => {
                *self.far.entry(channel).or_default() += 1;
                Ok(())
            }
            answer => answer,
        }
    }

    /// The text, and whether a number is missing.
    fn told(&self, json: bool) -> Result<(String, Status), Refusal> {
        let mut text = String::new();
        let mut status = Status::amiss(!self.left_out.is_empty());
        for channel in self.table.places().flatten() {
            let told = self.table.status(channel)?;
            let runs = self.runs(&told)?;
            status = status.max(Status::amiss(told.missing > 0));
            text.push_str(&if json {
                object(&told, self.far_of(channel), &runs)
            } else {
                line(&told, &runs)
            });
        }
        text.push_str(&match (self.request()?, json) {
            (Some((channel, first, last)), false) => {
                format!("next request: channel {channel}, {first} to {last}\n")
            }
            (None, false) => "next request: none\n".to_string(),
            (Some((channel, first, last)), true) => format!(
                "{{\"request\":{{\"channel\":{channel},\"first\":{first},\"last\":{last}}}}}\n"
            ),
            (None, true) => "{\"request\":null}\n".to_string(),
        });
        Ok((text, status))
    }

    /// The request that would be given next: channel, first and last number. It is asked of a copy.
    fn request(&self) -> Result<Option<(u16, u64, u64)>, Refusal> {
        let mut table = self.table;
        match table.request() {
            Ok(asked) => {
                let (first, last) = (asked.range.first, asked.range.last);
                Ok(Some((asked.channel.value(), first.value(), last.value())))
            }
            Err(Refusal::Whole) => Ok(None),
            Err(refusal) => Err(refusal),
        }
    }

    /// The runs of missing numbers of a channel, rising. The library counts what is missing between
    /// two numbers: a stretch that lacks all is a run, one that lacks some is halved.
    fn runs(&self, told: &LedgerStatus) -> Result<Vec<Run>, Refusal> {
        let mut runs: Vec<Run> = Vec::new();
        // stretches to be looked at, the lowest last
        let mut stretches = vec![(told.floor.value() + 1, told.top.value())];
        while let Some((first, last)) = stretches.pop() {
            if first > last {
                continue;
            }
            let (a, b) = (TickNumber::new(first), TickNumber::new(last));
            match self.table.missing_between(told.channel, a, b)? {
                0 => {}
                n if n == last - first + 1 => match runs.last_mut() {
                    Some(run) if run.last + 1 == first => run.last = last,
                    _ => runs.push(Run { first, last }),
                },
                _ => {
                    let middle = first + (last - first) / 2;
                    stretches.extend([(middle + 1, last), (first, middle)]);
                }
            }
        }
        Ok(runs)
    }

    fn far_of(&self, channel: ChannelNumber) -> u64 {
        self.far.get(&channel).copied().unwrap_or_default()
    }

    /// Ticks that were there and not taken, in the order of the lines.
    fn say_far(&self) {
        for channel in self.table.places().flatten() {
            let (were, they) = match self.far_of(channel) {
                0 => continue,
                1 => ("1 tick was".to_string(), "it counts"),
                n => (format!("{n} ticks were"), "they count"),
            };
            say(&format!(
                "channel {}: {were} more than 256 above the floor and not taken (12): {they} as missing, unless taken later",
                channel.value()
            ));
        }
    }

    /// Channels for which there was no place.
    fn say_left_out(&self) {
        let frames: u64 = self.left_out.values().sum();
        if frames > 0 {
            let open = self.table.places().flatten().count();
            let channels = count(self.left_out.len() as u64, "more channel");
            let frames = count(frames, "frame");
            say(&format!(
                "{open} channels are counted, and not {frames} of {channels}"
            ));
        }
    }
}

/// Numbers that are missing, both included.
struct Run {
    first: u64,
    last: u64,
}

/// `channel 1: floor 2, top 9, missing 5: 3-4 6-8`
fn line(told: &LedgerStatus, runs: &[Run]) -> String {
    let mut text = format!(
        "channel {}: floor {}, top {}, missing {}",
        told.channel.value(),
        told.floor.value(),
        told.top.value(),
        told.missing
    );
    for (i, Run { first, last }) in runs.iter().take(RUNS).enumerate() {
        let before = if i == 0 { ": " } else { " " };
        text.push_str(&if first == last {
            format!("{before}{first}")
        } else {
            format!("{before}{first}-{last}")
        });
    }
    if runs.len() > RUNS {
        text.push_str(&format!(" and {} more", runs.len() - RUNS));
    }
    text.push('\n');
    text
}

fn object(told: &LedgerStatus, far: u64, runs: &[Run]) -> String {
    let ranges: Vec<_> = runs
        .iter()
        .take(RUNS)
        .map(|Run { first, last }| format!("{{\"first\":{first},\"last\":{last}}}"))
        .collect();
    format!(
        "{{\"channel\":{},\"floor\":{},\"top\":{},\"missing\":{},\"held\":{},\"ranges\":[{}],\"more\":{},\"far\":{far}}}\n",
        told.channel.value(),
        told.floor.value(),
        told.top.value(),
        told.missing,
        told.held,
        ranges.join(","),
        runs.len().saturating_sub(RUNS)
    )
}
