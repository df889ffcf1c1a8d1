//! The gap ledger of one tick channel.

use crate::numbers::{result, told, ChannelNumber, Refusal, TickNumber};
use crate::raw;

/// The form of a ledger's words. Saved words are for the library that made them: with another form
/// the same words are another ledger.
pub const STATE_FORM: u32 = 2;

/// The gap ledger of one tick channel. Do not read its words: `status` returns what it holds.
#[derive(Clone, Copy, Debug, PartialEq, Eq)]
#[repr(C)]
pub struct Ledger {
    words: [u64; 9],
}

/// A run of numbers: the first, and how many. If there are none, the first is floor + 1.
#[derive(Clone, Copy, Debug, Default, PartialEq, Eq)]
#[must_use = "no later call returns these numbers again"]
#[repr(C)]
pub struct Passed {
    pub first: TickNumber,
    pub count: u64,
}

/// The range of a resend request: its first and last number.
#[derive(Clone, Copy, Debug, Default, PartialEq, Eq)]
#[must_use = "the range is pending until the exchange replies or a new session begins: send it"]
#[repr(C)]
pub struct Request {
    pub first: TickNumber,
    pub last: TickNumber,
}

/// What a reply settles: two sets of numbers, both empty unless its status is 4.
#[derive(Clone, Copy, Debug, Default, PartialEq, Eq)]
#[must_use = "no later call returns the numbers passed again"]
#[repr(C)]
pub struct Settled {
    first: TickNumber,
    given_up: [u64; 4],
    passed: [u64; 4],
}

impl Settled {
    /// Of nine words: the first number, and two sets of four each.
    pub(crate) fn from_words([first, a, b, c, d, e, f, g, h]: [u64; 9]) -> Settled {
        Settled {
            first: TickNumber::new(first),
            given_up: [a, b, c, d],
            passed: [e, f, g, h],
        }
    }

    /// The floor + 1 before the call: both sets have numbers from it to 255 above it.
    #[must_use]
    pub const fn first(&self) -> TickNumber {
        self.first
    }

    /// The numbers of the request that were not received, rising: they will not come.
    pub fn given_up(&self) -> impl Iterator<Item = TickNumber> {
        self.those_in(self.given_up)
    }

    /// The received numbers that the floor has just passed, rising: to be delivered.
    pub fn passed(&self) -> impl Iterator<Item = TickNumber> {
        self.those_in(self.passed)
    }

    fn those_in(&self, set: [u64; 4]) -> impl Iterator<Item = TickNumber> {
        let first = self.first.value();
        let is_in = move |n: &u64| set[(n / 64 % 4) as usize] >> (n % 64) & 1 == 1;
        (first..first + 256).filter(is_in).map(TickNumber::new)
    }
}

/// What a ledger holds.
#[derive(Clone, Copy, Debug, Default, PartialEq, Eq)]
pub struct LedgerStatus {
    pub channel: ChannelNumber,
    /// Every number up to it was received or given up.
    pub floor: TickNumber,
    /// The largest number offered or announced.
    pub top: TickNumber,
    pub missing: u64,
    /// How many numbers above the floor were received.
    pub held: u64,
    pub pending: Option<Request>,
}

impl LedgerStatus {
    pub(crate) fn from_row(row: &raw::StatusRow) -> LedgerStatus {
        // a pending request starts from 1 on
        let pending = (row.asked_first != 0).then_some(Request {
            first: TickNumber::new(row.asked_first),
            last: TickNumber::new(row.asked_last),
        });
        LedgerStatus {
            channel: ChannelNumber::new(row.channel as u16),
            floor: TickNumber::new(row.floor),
            top: TickNumber::new(row.top),
            missing: row.missing,
            held: row.held,
            pending,
        }
    }
}

impl Ledger {
    /// A fresh ledger for a channel, or 10.
    pub fn open(channel: ChannelNumber) -> Result<Ledger, Refusal> {
        let mut ledger = Ledger::from_words([0; 9]);
        let answer = raw::ledger_open(channel, &mut ledger);
        result(answer, ledger)
    }

    /// Offers a tick, and returns the numbers that the floor has just passed. Only one refusal
    /// changes the ledger: 12 raises the top.
    #[inline]
    pub fn tick(&mut self, channel: ChannelNumber, number: TickNumber) -> Result<Passed, Refusal> {
        told(|passed| raw::ledger_tick(self, channel, number, passed))
    }

    /// Announces the channel's last number.
    pub fn announce(&mut self, channel: ChannelNumber, last: TickNumber) -> Result<(), Refusal> {
        result(raw::ledger_announce(self, channel, last), ())
    }

    /// Asks what to request again. The range returned is pending from now on.
    pub fn request(&mut self, channel: ChannelNumber) -> Result<Request, Refusal> {
        told(|request| raw::ledger_request(self, channel, request))
    }

    /// The exchange's reply to the pending request, which is then no longer pending. On status 4
    /// the numbers of the request that were not received are given up, and the floor passes them
    /// and the received ones that follow. A given-up number that arrives later is a repeat, 11.
    pub fn reply(
        &mut self,
        channel: ChannelNumber,
        first: TickNumber,
        status: u8,
    ) -> Result<Settled, Refusal> {
        let mut settled = Settled::default();
        let answer = raw::ledger_reply(self, channel, first, status, &mut settled);
        result(answer, settled)
    }

    /// A new session of the line begins: what was requested on the old line will not be answered on
    /// the new one, and is no longer pending. Nothing else changes.
    pub fn renew(&mut self) -> Result<(), Refusal> {
        result(raw::ledger_renew(self), ())
    }

    /// What the ledger holds, or 13.
    pub fn status(&self) -> Result<LedgerStatus, Refusal> {
        let mut row = raw::StatusRow::default();
        let answer = raw::ledger_told(self, &mut row);
        result(answer, LedgerStatus::from_row(&row))
    }

    /// How many numbers from `a` to `b`, both included, are missing: neither received nor given up,
    /// and not above the top. 0 if `b` is below `a`. No span takes longer than one of 256 numbers.
    #[inline]
    pub fn missing_between(
        &self,
        channel: ChannelNumber,
        a: TickNumber,
        b: TickNumber,
    ) -> Result<u64, Refusal> {
        let mut count = 0;
        let answer = raw::ledger_missing(self, channel, a, b, &mut count);
        result(answer, count)
    }

    /// The words, to save the ledger. Save [`STATE_FORM`] with them.
    #[must_use]
    pub const fn to_words(self) -> [u64; 9] {
        self.words
    }

    /// The ledger of saved words. Each call returns 13 if they break the state rules. Words of
    /// another [`STATE_FORM`] may keep them and be another ledger.
    #[must_use]
    pub const fn from_words(words: [u64; 9]) -> Ledger {
        Ledger { words }
    }
}
