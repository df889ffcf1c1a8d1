//! Safe functions over the proved library. Each returns a value, or a refusal of the documents'
//! tables; a refusal writes nothing to any argument. The library is proved, this wrapper is tested:
//! tests/ compares it with the C header and with oracle/.
//!
//! `numbers` has the refusals and the counters, `raw` everything unsafe; the other modules have a
//! part of the library each.

#![deny(unsafe_code)]

mod captures;
mod channels;
mod frames;
mod ledger;
pub mod market;
mod month;
mod numbers;
#[allow(unsafe_code)]
mod raw;
mod records;
mod session;
pub mod step;
mod stream;
pub mod types;

pub use captures::{
    clean, first_unclean, lines, listing, records_room, text_room, walk, Cleaned, Walked, RECORD,
};
pub use channels::{ChannelRequest, Channels};
pub use frames::{
    broken_field, entries, entry, private_spans, read, scrub, search, tail_fields, write,
    BrokenField, Entries, Entry, Field, Frame, Span, CHECK_SUM, HEADER, LONGEST,
};
pub use ledger::{Ledger, LedgerStatus, Passed, Request, Settled, STATE_FORM};
pub use month::{Figures, Month};
pub use numbers::{ChannelNumber, Refusal, SessionNumber, TickNumber};
pub use records::{records, Record};
pub use session::{Arrival, Passing, Session, ToSend};
pub use stream::{Fed, Scrubbed, Scrubber, Stream, KEPT};

/// Places and lengths are 64-bit numbers.
const _: () = assert!(usize::BITS == 64);
