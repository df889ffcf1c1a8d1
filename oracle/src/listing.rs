//! What the program `listing` prints for a capture.

use crate::answer::No;
use crate::ledger::Ledger;
use crate::record::{summary, Record, SIZE};
use crate::walk::records;

/// "takes at most 65,536 bytes from standard input"
pub const MOST: usize = 65_536;

/// The lines of records, then the last line. Bytes behind the last whole record
/// are no record. 13 where the ledger breaks its rules.
pub fn listed(records: &[u8], frames: u64, refused: u64, ledger: Ledger) -> Result<Vec<u8>, No> {
    let missing = ledger.missing().1?;
    let mut out = Vec::new();
    for bytes in records.chunks_exact(SIZE) {
        out.extend(Record::of(bytes.try_into().expect("64 bytes")).line());
    }
    let (floor, top) = (ledger.floor, ledger.top);
    out.extend(summary(frames, refused, floor, top, missing));
    Ok(out)
}

/// The whole output for what stood on standard input.
pub fn listing(capture: &[u8]) -> Vec<u8> {
    if capture.len() > MOST {
        return b"capture over 65536 bytes\n".to_vec();
    }
    let (made, walked) = records(capture);
    let bytes: Vec<u8> = made.iter().flat_map(|r| r.bytes()).collect();
    listed(&bytes, walked.frames, walked.refused, walked.ledger)
        .expect("the walk keeps the state rules")
}
