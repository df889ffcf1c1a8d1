//! The three counters that the source keeps apart.
//!
//! A session's MsgSeqNum, a channel's ApplSeqNum and ChannelNO are types of their
//! own: one in another's place does not build.
//!
//! Each of the six mix-ups:
//!
//! ```compile_fail
//! use oracle::{ledger::Ledger, numbers::*};
//! // A session number where a tick number belongs.
//! Ledger::open(Channel(100)).0.tick(Channel(100), Session(1));
//! ```
//! ```compile_fail
//! use oracle::{ledger::Ledger, numbers::*};
//! // A channel where a tick number belongs.
//! Ledger::open(Channel(100)).0.tick(Channel(100), Channel(1));
//! ```
//! ```compile_fail
//! use oracle::{ledger::Ledger, numbers::*};
//! // A session number where a channel belongs.
//! Ledger::open(Session(100));
//! ```
//! ```compile_fail
//! use oracle::{ledger::Ledger, numbers::*};
//! // A tick number where a channel belongs.
//! Ledger::open(Tick(100));
//! ```
//! ```compile_fail
//! use oracle::{frame::Message, numbers::*};
//! // A tick number where a session number belongs.
//! Message { msg_type: *b"S003", sending_time: 0, seq: Tick(1), body: vec![] };
//! ```
//! ```compile_fail
//! use oracle::{frame::Message, numbers::*};
//! // A channel where a session number belongs.
//! Message { msg_type: *b"S003", sending_time: 0, seq: Channel(1), body: vec![] };
//! ```
//!
//! The same with each in its place builds:
//!
//! ```
//! use oracle::{frame::Message, ledger::Ledger, numbers::*};
//! Ledger::open(Channel(100)).0.tick(Channel(100), Tick(1));
//! Message { msg_type: *b"S003", sending_time: 0, seq: Session(1), body: vec![] };
//! ```

/// MsgSeqNum, the session's counter.
#[derive(Clone, Copy, Debug, PartialEq, Eq)]
pub struct Session(pub u64);

/// ApplSeqNum, the channel's counter.
#[derive(Clone, Copy, Debug, PartialEq, Eq)]
pub struct Tick(pub u64);

/// ChannelNO.
#[derive(Clone, Copy, Debug, PartialEq, Eq)]
pub struct Channel(pub u16);

/// The largest number of 18 digits ("n digits" means below 10^n, 0.3).
pub const MOST: u64 = 999_999_999_999_999_999;

/// The largest channel: 4 digits.
pub const MOST_CHANNEL: u16 = 9_999;
