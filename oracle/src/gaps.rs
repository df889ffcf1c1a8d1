//! Which numbers of which channels a capture lacks, told from the capture by
//! plain sets.

use crate::channels::Table;
use crate::frame::Message;
use crate::ledger::Range;
use crate::month::{counted, frames_of};
use crate::numbers::{Channel, Tick};
use crate::rules::Kind;
use crate::walk::numbers_of;

/// What is known of a channel that a capture names.
#[derive(Clone, Debug, PartialEq, Eq)]
pub struct Gap {
    pub channel: Channel,
    /// Whether a tick or an announcement names it, and not resends alone.
    pub ticked: bool,
    pub floor: Tick,
    pub top: Tick,
    pub missing: u64,
    /// The missing numbers, as the longest runs, rising.
    pub ranges: Vec<Range>,
}

/// The channels that the frames of a capture name (M201, P001 and P002 do), in
/// the order in which they first appear.
pub fn channels_of(frames: &[Message]) -> Vec<Channel> {
    let mut named = Vec::new();
    for message in frames {
        let names = matches!(
            Kind::of(message.msg_type),
            Some(Kind::M201 | Kind::P001 | Kind::P002)
        );
        let (channel, _) = numbers_of(message);
        if names && !named.contains(&channel) {
            named.push(channel);
        }
    }
    named
}

/// The runs of the numbers from 1 to the top that are not among the rising ones.
fn runs_between(received: impl Iterator<Item = u64>, top: u64) -> Vec<Range> {
    let mut runs = Vec::new();
    let mut next = 1;
    for n in received.chain([top + 1]) {
        if next < n {
            runs.push(Range {
                first: Tick(next),
                last: Tick(n - 1),
            });
        }
        next = n + 1;
    }
    runs
}

/// What a capture tells of each channel that it names, however many.
pub fn gaps(capture: &[u8]) -> Vec<Gap> {
    let frames = frames_of(capture);
    let gap = |channel: Channel| {
        let (figures, numbers) = counted(channel, &frames);
        let of = |m: &&Message| numbers_of(m).0 == channel;
        let ticks = |m: &Message| matches!(Kind::of(m.msg_type), Some(Kind::M201 | Kind::P001));
        Gap {
            channel,
            ticked: frames.iter().filter(of).any(ticks),
            floor: Tick(numbers.floor),
            top: Tick(numbers.top),
            missing: figures.missing,
            ranges: runs_between(numbers.received.iter().copied(), numbers.top),
        }
    };
    channels_of(&frames).into_iter().map(gap).collect()
}

/// The request that would be given next: the channels opened in a table as they
/// appear, up to 32, and fed from the capture. `of_resends` says whether a
/// channel that resends alone name is opened too.
pub fn next_request(capture: &[u8], of_resends: bool) -> Option<(Channel, Range)> {
    let mut table = Table::none();
    for message in frames_of(capture) {
        let (channel, n) = numbers_of(&message);
        match Kind::of(message.msg_type) {
            // 18 where the table was full.
            Some(Kind::M201) => {
                let _ = table.open(channel);
                let _ = table.tick(channel, n);
            }
            Some(Kind::P001) => {
                let _ = table.open(channel);
                let _ = table.announce(channel, n);
            }
            Some(Kind::P002) if of_resends => {
                let _ = table.open(channel);
            }
            _ => (),
        }
    }
    table.request().ok()
}
