//! The library's functions as include/rietknoest.h declares them, and a safe function for each:
//! everything unsafe is here. tests/declarations.rs checks the declarations against the header, the
//! library and the proved sources.
//!
//! The header says what a caller must guarantee. Each `SAFETY` below says how its call does; these
//! hold for all of them:
//!
//! - a slice's pointer is not null, and its bytes may be read, and written if it is `&mut`;
//! - nothing else borrows what a `&mut` borrows, so nothing overlaps what the library writes;
//! - a row is a `repr(C)` or transparent type of 64-bit numbers only: it has the header's layout,
//!   and any numbers that the library writes are a value of its type;
//! - the library stays within its arguments and keeps no pointer: its language and its proofs see
//!   to that in the source, and tests of the compiled library with known bytes around each buffer;
//! - it does not unwind or call back, and it probes each page of a large stack frame, so a thread
//!   with too little stack stops at its guard page, as in Rust.

#![deny(clippy::undocumented_unsafe_blocks)]

use crate::captures::Cleaned;
use crate::channels::Channels;
use crate::frames::{Field, Frame, Span};
use crate::ledger::{Ledger, Passed, Request, Settled};
use crate::month::{Figures, Month};
use crate::numbers::{ChannelNumber, SessionNumber, TickNumber};
use crate::session::Session;
use crate::stream::{Fed, Scrubbed, KEPT};

/// A place, or none if `any` is 0.
#[derive(Default)]
#[repr(C)]
pub struct Found {
    any: u64,
    place: u64,
}

impl Found {
    pub fn place(self) -> Option<usize> {
        (self.any != 0).then_some(self.place as usize)
    }
}

/// An entry of an M102 body; `is_short` is 1 for one of MD001, whose size and position are 0.
#[derive(Default)]
#[repr(C)]
pub struct EntryRow {
    pub is_short: u64,
    pub kind: u64,
    pub price: u64,
    pub size: u64,
    pub position: u64,
    pub behind: u64,
}

/// What a ledger holds; `asked_first` and `asked_last` are 0 if nothing is pending.
#[derive(Default)]
#[repr(C)]
pub struct StatusRow {
    pub channel: u64,
    pub floor: u64,
    pub top: u64,
    pub missing: u64,
    pub held: u64,
    pub asked_first: u64,
    pub asked_last: u64,
}

/// A call on a table of channels, and what it is answered.
#[repr(C)]
pub struct Exchange {
    pub code: u64,
    pub channel: u64,
    pub number: u64,
    pub second: u64,
    pub answer: u64,
    pub values: [u64; 9],
}

/// A capture's figures at all 32 places of a page.
#[derive(Default)]
#[repr(C)]
pub struct FiguresRow {
    pub rows: [Figures; 32],
}

/// The counts of a walk.
#[derive(Default)]
#[repr(C)]
pub struct Counts {
    pub records: u64,
    pub frames: u64,
    pub refused: u64,
}

/// A STEP frame: its type, the place of its fields behind the frame's start, their length, the
/// frame's length.
#[derive(Default)]
#[repr(C)]
pub struct StepFrame {
    pub kind: u64,
    pub fields: u64,
    pub fields_len: u64,
    pub len: u64,
}

/// A field: its tag, the place and the length of its value, the place behind it.
#[derive(Default)]
#[repr(C)]
pub struct StepField {
    pub tag: u64,
    pub value: u64,
    pub value_len: u64,
    pub behind: u64,
}

/// What a call on a market file answers: a number, and the count or the place beside it.
#[repr(C)]
pub struct Finding {
    pub number: u64,
    pub place: u64,
}

/// A field that breaks a rule, or none if `any` is 0.
#[derive(Default)]
#[repr(C)]
pub struct BrokenRow {
    pub any: u64,
    pub place: u64,
    pub len: u64,
    pub index: u64,
    pub entry: u64,
}

/// A record's numbers.
#[derive(Default)]
#[repr(C)]
pub struct ReadingRow {
    pub place: u64,
    pub msg_type: u64,
    pub answer: u64,
    pub seq: u64,
    pub tick: u64,
    pub channel: u64,
    pub body_len: u64,
    pub floor: u64,
    pub top: u64,
}

/// What a session's call tells: the MsgType to send, 0 for nothing, its number, and 1 for a dead
/// line.
#[derive(Default)]
#[repr(C)]
pub struct TurnRow {
    pub msg_type: u64,
    pub seq: u64,
    pub dead: u64,
}

/// The same of a frame that was taken, and its length.
#[derive(Default)]
#[repr(C)]
pub struct ArrivalRow {
    pub msg_type: u64,
    pub seq: u64,
    pub dead: u64,
    pub len: u64,
}

#[rustfmt::skip]
extern "C" {
    fn rk_read(bytes: *const u8, len: usize, place: usize, told: *mut Frame) -> u32;
    fn rk_write(msg_type: u32, sending_time: u64, seq: u64, body: *const u8, body_len: usize, out: *mut u8, out_len: usize, told: *mut u64) -> u32;
    fn rk_search(bytes: *const u8, len: usize, from: usize, told: *mut Found) -> u32;
    fn rk_scrub(frame: *mut u8, len: usize, told: *mut u64) -> u32;
    fn rk_private(msg_type: u32, body: *const u8, len: usize, i: usize, told: *mut Span) -> u32;
    fn rk_tail_field(body: *const u8, len: usize, i: usize, told: *mut Field) -> u32;
    fn rk_broken_field(msg_type: u32, body: *const u8, len: usize, told: *mut BrokenRow) -> u32;
    fn rk_entries(body: *const u8, len: usize, told: *mut u64) -> u32;
    fn rk_entry(body: *const u8, len: usize, place: usize, told: *mut EntryRow) -> u32;
    fn rk_ledger_open(channel: u16, state: *mut Ledger) -> u32;
    fn rk_ledger_tick(state: *mut Ledger, channel: u16, number: u64, told: *mut Passed) -> u32;
    fn rk_ledger_announce(state: *mut Ledger, channel: u16, last: u64) -> u32;
    fn rk_ledger_request(state: *mut Ledger, channel: u16, told: *mut Request) -> u32;
    fn rk_ledger_reply(state: *mut Ledger, channel: u16, first: u64, status: u8, told: *mut Settled) -> u32;
    fn rk_ledger_renew(state: *mut Ledger) -> u32;
    fn rk_ledger_told(state: *const Ledger, told: *mut StatusRow) -> u32;
    fn rk_ledger_missing(state: *const Ledger, channel: u16, a: u64, b: u64, told: *mut u64) -> u32;
    fn rk_channels(table: *mut Channels, exchange: *mut Exchange);
    fn rk_walk(capture: *const u8, len: usize, records: *mut u8, records_len: usize, state: *mut Ledger, told: *mut Counts) -> u32;
    fn rk_record(bytes: *const u8, len: usize, told: *mut ReadingRow) -> u32;
    fn rk_lines(records: *const u8, records_len: usize, text: *mut u8, text_len: usize, told: *mut u64) -> u32;
    fn rk_listing(records: *const u8, records_len: usize, frames: u64, refused: u64, state: *const Ledger, text: *mut u8, text_len: usize, told: *mut u64) -> u32;
    fn rk_clean(capture: *const u8, len: usize, out: *mut u8, out_len: usize, told: *mut Cleaned) -> u32;
    fn rk_is_clean(capture: *const u8, len: usize, told: *mut Found) -> u32;
    fn rk_stream_open(words: *mut [u64; 6], ledger: *mut Ledger, kept: *mut [u8; KEPT]) -> u32;
    fn rk_stream_feed(words: *mut [u64; 6], ledger: *mut Ledger, kept: *mut [u8; KEPT], cut: *const u8, cut_len: usize, records: *mut u8, records_len: usize, told: *mut Fed) -> u32;
    fn rk_stream_close(words: *mut [u64; 6], ledger: *mut Ledger, kept: *mut [u8; KEPT], records: *mut u8, records_len: usize, told: *mut Fed) -> u32;
    fn rk_stream_clean(words: *mut [u64; 6], ledger: *mut Ledger, kept: *mut [u8; KEPT], cut: *const u8, cut_len: usize, out: *mut u8, out_len: usize, told: *mut Scrubbed) -> u32;
    fn rk_stream_clean_close(words: *mut [u64; 6], ledger: *mut Ledger, kept: *mut [u8; KEPT], out: *mut u8, out_len: usize, told: *mut Scrubbed) -> u32;
    fn rk_step_read(bytes: *const u8, len: usize, place: usize, told: *mut StepFrame) -> u32;
    fn rk_step_field(fields: *const u8, len: usize, place: usize, told: *mut StepField) -> u32;
    fn rk_step_write(kind: u8, fields: *const u8, fields_len: usize, out: *mut u8, out_len: usize, told: *mut u64) -> u32;
    fn rk_step_scrub(frame: *mut u8, len: usize, told: *mut u64) -> u32;
    fn rk_market_check(file: *const u8, len: usize) -> Finding;
    fn rk_market_values(file: *const u8, len: usize, out: *mut u8, out_len: usize) -> Finding;
    fn rk_market_write(values: *const u8, len: usize, out: *mut u8, out_len: usize) -> Finding;
    fn rk_month_start(channels: *const u16, named: usize, state: *mut Month) -> u32;
    fn rk_month_add(state: *mut Month, capture: *const u8, len: usize, told: *mut FiguresRow) -> u32;
    fn rk_session_open(state: *mut Session) -> u32;
    fn rk_session_begin(state: *mut Session, time: u64, told: *mut TurnRow) -> u32;
    fn rk_session_time(state: *mut Session, time: u64, told: *mut TurnRow) -> u32;
    fn rk_session_leave(state: *mut Session, time: u64, told: *mut TurnRow) -> u32;
    fn rk_session_ask(state: *mut Session, time: u64, told: *mut TurnRow) -> u32;
    fn rk_session_receive(state: *mut Session, time: u64, bytes: *const u8, len: usize, told: *mut ArrivalRow) -> u32;
    fn rk_session_may_send(state: *const Session, time: u64) -> u32;
}

// FRAMES

pub fn read(bytes: &[u8], place: usize, told: &mut Frame) -> u32 {
    // SAFETY: `bytes` is passed with its own length and only read; any place is allowed, also
    // beyond the end; `told` is a row of nine.
    unsafe { rk_read(bytes.as_ptr(), bytes.len(), place, told) }
}

pub fn write(
    msg_type: u32,
    time: u64,
    seq: SessionNumber,
    body: &[u8],
    out: &mut [u8],
    told: &mut u64,
) -> u32 {
    let (read, len) = (body.as_ptr(), body.len());
    let (written, room) = (out.as_mut_ptr(), out.len());
    // SAFETY: `body` is passed with its own length and only read, `out` with its own length;
    // `told` is one number. `body` and `told` are not in `out`: nothing else borrows that.
    unsafe { rk_write(msg_type, time, seq.value(), read, len, written, room, told) }
}

pub fn search(bytes: &[u8], from: usize, told: &mut Found) -> u32 {
    // SAFETY: `bytes` is passed with its own length and only read; any start is allowed, also
    // beyond the end; `told` is a row of two.
    unsafe { rk_search(bytes.as_ptr(), bytes.len(), from, told) }
}

pub fn scrub(frame: &mut [u8], told: &mut u64) -> u32 {
    // SAFETY: `frame` is passed with its own length; `told` is one number, and not in `frame`:
    // nothing else borrows that.
    unsafe { rk_scrub(frame.as_mut_ptr(), frame.len(), told) }
}

pub fn private(msg_type: u32, body: &[u8], i: usize, told: &mut Span) -> u32 {
    // SAFETY: `body` is passed with its own length and only read; any `i` is allowed; `told` is a
    // row of three.
    unsafe { rk_private(msg_type, body.as_ptr(), body.len(), i, told) }
}

pub fn tail_field(body: &[u8], i: usize, told: &mut Field) -> u32 {
    // SAFETY: `body` is passed with its own length and only read; any number is allowed; `told` is
    // a row of four.
    unsafe { rk_tail_field(body.as_ptr(), body.len(), i, told) }
}

pub fn broken_field(msg_type: u32, body: &[u8], told: &mut BrokenRow) -> u32 {
    // SAFETY: `body` is passed with its own length and only read; any type is allowed; `told` is a
    // row of five.
    unsafe { rk_broken_field(msg_type, body.as_ptr(), body.len(), told) }
}

pub fn entries(body: &[u8], told: &mut u64) -> u32 {
    // SAFETY: `body` is passed with its own length and only read; `told` is one number.
    unsafe { rk_entries(body.as_ptr(), body.len(), told) }
}

pub fn entry(body: &[u8], place: usize, told: &mut EntryRow) -> u32 {
    // SAFETY: `body` is passed with its own length and only read; any place is allowed, also
    // beyond the end; `told` is a row of six.
    unsafe { rk_entry(body.as_ptr(), body.len(), place, told) }
}

// THE LEDGER

pub fn ledger_open(channel: ChannelNumber, state: &mut Ledger) -> u32 {
    // SAFETY: `state` is a row of nine; any channel is allowed.
    unsafe { rk_ledger_open(channel.value(), state) }
}

#[inline]
pub fn ledger_tick(
    state: &mut Ledger,
    channel: ChannelNumber,
    number: TickNumber,
    told: &mut Passed,
) -> u32 {
    // SAFETY: `state` is a row of nine, `told` one of two, and two `&mut` do not overlap. Any
    // words are allowed: those that break the state rules get 13.
    unsafe { rk_ledger_tick(state, channel.value(), number.value(), told) }
}

pub fn ledger_announce(state: &mut Ledger, channel: ChannelNumber, last: TickNumber) -> u32 {
    // SAFETY: `state` is a row of nine, and any words in it are allowed.
    unsafe { rk_ledger_announce(state, channel.value(), last.value()) }
}

pub fn ledger_request(state: &mut Ledger, channel: ChannelNumber, told: &mut Request) -> u32 {
    // SAFETY: `state` is a row of nine, with any words in it, `told` one of two, and two `&mut`
    // do not overlap.
    unsafe { rk_ledger_request(state, channel.value(), told) }
}

pub fn ledger_reply(
    state: &mut Ledger,
    channel: ChannelNumber,
    first: TickNumber,
    status: u8,
    told: &mut Settled,
) -> u32 {
    // SAFETY: `state` and `told` are rows of nine, and any words in them are allowed; they can't
    // overlap: both are `&mut`.
    unsafe { rk_ledger_reply(state, channel.value(), first.value(), status, told) }
}

pub fn ledger_renew(state: &mut Ledger) -> u32 {
    // SAFETY: `state` is a row of nine, and any words in it are allowed.
    unsafe { rk_ledger_renew(state) }
}

pub fn ledger_told(state: &Ledger, told: &mut StatusRow) -> u32 {
    // SAFETY: `state` is a row of nine, with any words in it, and only read; `told` is a row of
    // seven, which `state` can't overlap: it is `&mut`.
    unsafe { rk_ledger_told(state, told) }
}

#[inline]
pub fn ledger_missing(
    state: &Ledger,
    channel: ChannelNumber,
    a: TickNumber,
    b: TickNumber,
    told: &mut u64,
) -> u32 {
    // SAFETY: `state` is a row of nine, with any words in it, and only read; `told` is a number,
    // which `state` can't overlap: it is `&mut`.
    unsafe { rk_ledger_missing(state, channel.value(), a.value(), b.value(), told) }
}

// THIRTY-TWO CHANNELS

pub fn channels(table: &mut Channels, exchange: &mut Exchange) {
    // SAFETY: both are structs of numbers in the header's layout, with any numbers in them, and two
    // `&mut` do not overlap.
    unsafe { rk_channels(table, exchange) }
}

// CAPTURES

pub fn walk(capture: &[u8], records: &mut [u8], state: &mut Ledger, told: &mut Counts) -> u32 {
    let (read, len) = (capture.as_ptr(), capture.len());
    let (written, room) = (records.as_mut_ptr(), records.len());
    // SAFETY: `capture` is passed with its own length and only read, `records` with its own
    // length; `state` is a row of nine, `told` one of three. The last three are `&mut`: none
    // overlaps another argument.
    unsafe { rk_walk(read, len, written, room, state, told) }
}

pub fn record(bytes: &[u8], told: &mut ReadingRow) -> u32 {
    // SAFETY: `bytes` is passed with its own length and only read, any bytes in it; `told` is a row
    // of nine.
    unsafe { rk_record(bytes.as_ptr(), bytes.len(), told) }
}

pub fn lines(records: &[u8], text: &mut [u8], told: &mut u64) -> u32 {
    let (read, len) = (records.as_ptr(), records.len());
    let (written, room) = (text.as_mut_ptr(), text.len());
    // SAFETY: `records` is passed with its own length and only read, any bytes in it; `text` is
    // passed with its own length; `told` is one number. The last two are `&mut`: neither overlaps
    // another argument.
    unsafe { rk_lines(read, len, written, room, told) }
}

pub fn listing(
    records: &[u8],
    frames: u64,
    refused: u64,
    state: &Ledger,
    text: &mut [u8],
    told: &mut u64,
) -> u32 {
    let (read, len) = (records.as_ptr(), records.len());
    let (written, room) = (text.as_mut_ptr(), text.len());
    // SAFETY: `records` is passed with its own length and only read, any bytes in it; `state` is
    // a row of nine, and only read; `text` is passed with its own length; `told` is one number.
    // The last two are `&mut`: neither overlaps another argument.
    unsafe { rk_listing(read, len, frames, refused, state, written, room, told) }
}

pub fn clean(capture: &[u8], out: &mut [u8], told: &mut Cleaned) -> u32 {
    let (read, len) = (capture.as_ptr(), capture.len());
    let (written, room) = (out.as_mut_ptr(), out.len());
    // SAFETY: `capture` is passed with its own length and only read, `out` with its own length;
    // `told` is a row of three. The last two are `&mut`: neither overlaps another argument.
    unsafe { rk_clean(read, len, written, room, told) }
}

pub fn is_clean(capture: &[u8], told: &mut Found) -> u32 {
    // SAFETY: `capture` is passed with its own length and only read; `told` is a row of two.
    unsafe { rk_is_clean(capture.as_ptr(), capture.len(), told) }
}

// A CAPTURE WHILE IT ARRIVES

pub fn stream_open(words: &mut [u64; 6], ledger: &mut Ledger, kept: &mut [u8; KEPT]) -> u32 {
    // SAFETY: `words` and `ledger` are rows of six and nine, and `kept` is 8,191 bytes. All are
    // `&mut`: none overlaps another.
    unsafe { rk_stream_open(words, ledger, kept) }
}

pub fn stream_feed(
    words: &mut [u64; 6],
    ledger: &mut Ledger,
    kept: &mut [u8; KEPT],
    cut: &[u8],
    records: &mut [u8],
    told: &mut Fed,
) -> u32 {
    let (read, len) = (cut.as_ptr(), cut.len());
    let (written, room) = (records.as_mut_ptr(), records.len());
    // SAFETY: `words` and `ledger` are rows of six and nine, and `kept` is 8,191 bytes, with
    // anything in them; `cut` is passed with its own length and only read, `records` with its own
    // length; `told` is a row of five. All but `cut` are `&mut`: none overlaps another argument.
    unsafe { rk_stream_feed(words, ledger, kept, read, len, written, room, told) }
}

pub fn stream_close(
    words: &mut [u64; 6],
    ledger: &mut Ledger,
    kept: &mut [u8; KEPT],
    records: &mut [u8],
    told: &mut Fed,
) -> u32 {
    let (written, room) = (records.as_mut_ptr(), records.len());
    // SAFETY: `words` and `ledger` are rows of six and nine, and `kept` is 8,191 bytes, with
    // anything in them; `records` is passed with its own length; `told` is a row of five. All are
    // `&mut`: none overlaps another.
    unsafe { rk_stream_close(words, ledger, kept, written, room, told) }
}

pub fn stream_clean(
    words: &mut [u64; 6],
    ledger: &mut Ledger,
    kept: &mut [u8; KEPT],
    cut: &[u8],
    out: &mut [u8],
    told: &mut Scrubbed,
) -> u32 {
    let (read, len) = (cut.as_ptr(), cut.len());
    let (written, room) = (out.as_mut_ptr(), out.len());
    // SAFETY: `words` and `ledger` are rows of six and nine, and `kept` is 8,191 bytes, with
    // anything in them; `cut` is passed with its own length and only read, `out` with its own
    // length; `told` is a row of six. All but `cut` are `&mut`: none overlaps another argument.
    unsafe { rk_stream_clean(words, ledger, kept, read, len, written, room, told) }
}

pub fn stream_clean_close(
    words: &mut [u64; 6],
    ledger: &mut Ledger,
    kept: &mut [u8; KEPT],
    out: &mut [u8],
    told: &mut Scrubbed,
) -> u32 {
    let (written, room) = (out.as_mut_ptr(), out.len());
    // SAFETY: `words` and `ledger` are rows of six and nine, and `kept` is 8,191 bytes, with
    // anything in them; `out` is passed with its own length; `told` is a row of six. All are
    // `&mut`: none overlaps another.
    unsafe { rk_stream_clean_close(words, ledger, kept, written, room, told) }
}

// STEP FRAMES

pub fn step_read(bytes: &[u8], place: usize, told: &mut StepFrame) -> u32 {
    // SAFETY: `bytes` is passed with its own length and only read; any place is allowed, also
    // beyond the end; `told` is a row of four.
    unsafe { rk_step_read(bytes.as_ptr(), bytes.len(), place, told) }
}

pub fn step_field(fields: &[u8], place: usize, told: &mut StepField) -> u32 {
    // SAFETY: `fields` is passed with its own length and only read; any place is allowed, also
    // beyond the end; `told` is a row of four.
    unsafe { rk_step_field(fields.as_ptr(), fields.len(), place, told) }
}

pub fn step_write(kind: u8, fields: &[u8], out: &mut [u8], told: &mut u64) -> u32 {
    let (read, len) = (fields.as_ptr(), fields.len());
    let (written, room) = (out.as_mut_ptr(), out.len());
    // SAFETY: `fields` is passed with its own length and only read, `out` with its own length;
    // `told` is one number. `fields` and `told` are not in `out`: nothing else borrows that.
    unsafe { rk_step_write(kind, read, len, written, room, told) }
}

pub fn step_scrub(frame: &mut [u8], told: &mut u64) -> u32 {
    // SAFETY: `frame` is passed with its own length; `told` is one number, not in `frame`, which
    // nothing else borrows.
    unsafe { rk_step_scrub(frame.as_mut_ptr(), frame.len(), told) }
}

pub fn market_check(file: &[u8]) -> Finding {
    // SAFETY: `file` is passed with its own length and only read.
    unsafe { rk_market_check(file.as_ptr(), file.len()) }
}

pub fn market_values(file: &[u8], out: &mut [u8]) -> Finding {
    // SAFETY: both are passed with their own lengths, and `out` is not in `file`: nothing else
    // borrows it.
    unsafe { rk_market_values(file.as_ptr(), file.len(), out.as_mut_ptr(), out.len()) }
}

pub fn market_write(values: &[u8], out: &mut [u8]) -> Finding {
    // SAFETY: both are passed with their own lengths, and `out` is not in `values`.
    unsafe { rk_market_write(values.as_ptr(), values.len(), out.as_mut_ptr(), out.len()) }
}

// A MONTH OF CAPTURES

pub fn month_start(channels: &[u16], state: &mut Month) -> u32 {
    let (named, count) = (channels.as_ptr(), channels.len());
    // SAFETY: `channels` is passed with its own length, in two-byte numbers, and only read; any
    // numbers are allowed. `state` is a row of 226, which `channels` can't overlap: it is `&mut`.
    unsafe { rk_month_start(named, count, state) }
}

pub fn month_add(state: &mut Month, capture: &[u8], told: &mut FiguresRow) -> u32 {
    let (read, len) = (capture.as_ptr(), capture.len());
    // SAFETY: `capture` is passed with its own length and only read, any bytes in it; `state` is a
    // row of 226, with any words in it, `told` one of 192. Both are `&mut`: neither overlaps
    // another argument.
    unsafe { rk_month_add(state, read, len, told) }
}

// A SESSION

pub fn session_open(state: &mut Session) -> u32 {
    // SAFETY: `state` is a row of eight.
    unsafe { rk_session_open(state) }
}

pub fn session_begin(state: &mut Session, time: u64, told: &mut TurnRow) -> u32 {
    // SAFETY: `state` is a row of eight, with any words in it, `told` one of three, and two `&mut`
    // do not overlap. Any time is allowed.
    unsafe { rk_session_begin(state, time, told) }
}

pub fn session_time(state: &mut Session, time: u64, told: &mut TurnRow) -> u32 {
    // SAFETY: as for `session_begin`.
    unsafe { rk_session_time(state, time, told) }
}

pub fn session_leave(state: &mut Session, time: u64, told: &mut TurnRow) -> u32 {
    // SAFETY: as for `session_begin`.
    unsafe { rk_session_leave(state, time, told) }
}

pub fn session_ask(state: &mut Session, time: u64, told: &mut TurnRow) -> u32 {
    // SAFETY: as for `session_begin`.
    unsafe { rk_session_ask(state, time, told) }
}

pub fn session_receive(state: &mut Session, time: u64, bytes: &[u8], told: &mut ArrivalRow) -> u32 {
    let (read, len) = (bytes.as_ptr(), bytes.len());
    // SAFETY: `state` is a row of eight, with any words in it; `bytes` is passed with its own
    // length and only read; `told` is a row of four. The first and the last are `&mut`: neither
    // overlaps another argument.
    unsafe { rk_session_receive(state, time, read, len, told) }
}

pub fn session_may_send(state: &Session, time: u64) -> u32 {
    // SAFETY: `state` is a row of eight, with any words in it, and only read.
    unsafe { rk_session_may_send(state, time) }
}
