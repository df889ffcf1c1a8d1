//! Walks, lists and cleans a whole capture.

use crate::ledger::Ledger;
use crate::numbers::{always, result, Refusal};
use crate::raw;

/// The length of a record.
pub const RECORD: usize = 64;

/// Room for the records of any capture of `len` bytes: at most two for every 29 bytes, and two
/// more.
#[must_use]
pub const fn records_room(len: usize) -> usize {
    (2 * (len / 29) + 2) * RECORD
}

/// Room for the listing of so many records: at most 127 bytes for each, and 138 for the last line.
#[must_use]
pub const fn text_room(records: usize) -> usize {
    records * 127 + 138
}

/// The result of a walk, with the ledger of channel 100 at its end.
#[derive(Clone, Copy, Debug, PartialEq, Eq)]
#[must_use = "it says how many records there are"]
pub struct Walked {
    pub records: usize,
    pub frames: u64,
    pub refused: u64,
    pub ledger: Ledger,
}

/// Walks a capture: a record of 64 bytes for each reading, at the front of `records`; 8 if they do
/// not fit.
pub fn walk(capture: &[u8], records: &mut [u8]) -> Result<Walked, Refusal> {
    let mut ledger = Ledger::from_words([0; 9]);
    let mut counts = raw::Counts::default();
    let answer = raw::walk(capture, records, &mut ledger, &mut counts);
    let walked = Walked {
        records: counts.records as usize,
        frames: counts.frames,
        refused: counts.refused,
        ledger,
    };
    result(answer, walked)
}

/// The listing of a walk's records: a line for each whole record of `records`, then the last line.
/// Returns how many bytes of `text` it has.
pub fn listing(records: &[u8], walked: &Walked, text: &mut [u8]) -> Result<usize, Refusal> {
    let mut bytes = 0;
    let Walked {
        frames,
        refused,
        ledger,
        ..
    } = walked;
    let answer = raw::listing(records, *frames, *refused, ledger, text, &mut bytes);
    result(answer, bytes as usize)
}

/// The listing without its last line: a line for each whole record of `records`. Returns how many
/// bytes of `text` they have; 8 if they do not fit.
pub fn lines(records: &[u8], text: &mut [u8]) -> Result<usize, Refusal> {
    let mut bytes = 0;
    let answer = raw::lines(records, text, &mut bytes);
    result(answer, bytes as usize)
}

/// The result of cleaning a capture. `after_damage` counts the frames that the search found after
/// damage. One of these may come from private bytes of a damaged frame; so may the frames that
/// follow it without a gap, which are not counted.
#[derive(Clone, Copy, Debug, Default, PartialEq, Eq)]
#[must_use = "it says how many bytes are clean, and how many frames stood after damage"]
#[repr(C)]
pub struct Cleaned {
    pub bytes: u64,
    pub frames: u64,
    pub after_damage: u64,
}

/// Scrubs a capture: its accepted frames go to the front of `out`, stray bytes are left out; 8 if
/// they do not fit. The capture's length is always room enough. While it runs, `out` briefly holds
/// each frame unscrubbed: use memory of your own, not a mapped file.
pub fn clean(capture: &[u8], out: &mut [u8]) -> Result<Cleaned, Refusal> {
    let mut cleaned = Cleaned::default();
    let answer = raw::clean(capture, out, &mut cleaned);
    result(answer, cleaned)
}

/// None if a capture is clean, else the first place that `clean` would change.
#[must_use]
pub fn first_unclean(capture: &[u8]) -> Option<usize> {
    let mut changed = raw::Found::default();
    let answer = raw::is_clean(capture, &mut changed);
    always(answer, changed).place()
}
