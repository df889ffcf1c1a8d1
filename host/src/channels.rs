//! Thirty-two channels on one line.

use crate::ledger::{Ledger, LedgerStatus, Passed, Request, Settled};
use crate::numbers::{result, ChannelNumber, Refusal, TickNumber};
use crate::raw::{self, Exchange, StatusRow};

/// Up to 32 gap ledgers, and one resend request pending for all of them. A request goes to the
/// first channel with something missing, counted round from the place after the last one asked: a
/// channel that stays open and keeps something missing is asked within 32 granted requests. Do not
/// read its words: `status` returns what a channel holds.
///
/// ```
/// # use rietknoest_host::*;
/// let (a, b) = (ChannelNumber::new(100), ChannelNumber::new(101));
/// let mut channels = Channels::none();
/// channels.open(a)?;
/// channels.open(b)?;
/// channels.announce(a, TickNumber::new(3))?;
/// channels.announce(b, TickNumber::new(5))?;
/// let asked = channels.request()?;
/// assert_eq!(asked.channel, a);
/// assert_eq!(channels.request(), Err(Refusal::Busy));
/// let _ = channels.reply(a, asked.range.first, 1)?;
/// assert_eq!(channels.request()?.channel, b);
/// # Ok::<(), Refusal>(())
/// ```
#[derive(Clone, Copy, Debug, PartialEq, Eq)]
#[repr(C)]
pub struct Channels {
    names: [u64; 33],
    used: u64,
    lacking: u64,
    asked: u64,
    last: u64,
    rows: [Ledger; 33],
}

/// How many numbers a table has.
const WORDS: usize = 33 + 4 + 33 * 9;

/// A resend request: the channel whose turn it is, and the range.
#[derive(Clone, Copy, Debug, Default, PartialEq, Eq)]
#[must_use = "the request is pending until the exchange replies: send it"]
pub struct ChannelRequest {
    pub channel: ChannelNumber,
    pub range: Request,
}

// the codes of the calls, as the header has them
const OPEN: u64 = 0;
const CLOSE: u64 = 1;
const TICK: u64 = 2;
const ANNOUNCE: u64 = 3;
const REQUEST: u64 = 4;
const REPLY: u64 = 5;
const MISSING: u64 = 6;
const RENEW: u64 = 7;
const TOLD: u64 = 8;

impl Channels {
    /// The table without a channel.
    #[must_use]
    pub const fn none() -> Channels {
        Channels {
            names: [0; 33],
            used: 0,
            lacking: 0,
            asked: 32,
            last: 31,
            rows: [Ledger::from_words([0; 9]); 33],
        }
    }

    /// A call by its numbers; what it tells.
    fn call(&mut self, code: u64, channel: u64, number: u64, second: u64) -> Told {
        let mut exchange = Exchange {
            code,
            channel,
            number,
            second,
            answer: 0,
            values: [0; 9],
        };
        raw::channels(self, &mut exchange);
        result(exchange.answer as u32, exchange.values)
    }

    fn on(&mut self, code: u64, channel: ChannelNumber, number: u64, second: u64) -> Told {
        self.call(code, u64::from(channel.value()), number, second)
    }

    /// Opens a channel: the lowest free place takes a fresh ledger. 10, 13, 21, 22.
    pub fn open(&mut self, channel: ChannelNumber) -> Result<(), Refusal> {
        self.on(OPEN, channel, 0, 0).map(|_| ())
    }

    /// Closes a channel: its place is free, and its pending request is cleared. 13, 18.
    pub fn close(&mut self, channel: ChannelNumber) -> Result<(), Refusal> {
        self.on(CLOSE, channel, 0, 0).map(|_| ())
    }

    /// Offers a tick, and returns the numbers that the floor has just passed. Only one refusal
    /// changes the table: 12 raises the ledger's top.
    pub fn tick(&mut self, channel: ChannelNumber, number: TickNumber) -> Result<Passed, Refusal> {
        let [first, count, ..] = self.on(TICK, channel, number.value(), 0)?;
        Ok(Passed {
            first: TickNumber::new(first),
            count,
        })
    }

    /// Announces the channel's last number.
    pub fn announce(&mut self, channel: ChannelNumber, last: TickNumber) -> Result<(), Refusal> {
        self.on(ANNOUNCE, channel, last.value(), 0).map(|_| ())
    }

    /// Asks what to request again, and of which channel. It is pending from now on, for the whole
    /// table. 13, 14, 15.
    pub fn request(&mut self) -> Result<ChannelRequest, Refusal> {
        let [channel, first, last, ..] = self.call(REQUEST, 0, 0, 0)?;
        Ok(ChannelRequest {
            channel: ChannelNumber::new(channel as u16),
            range: Request {
                first: TickNumber::new(first),
                last: TickNumber::new(last),
            },
        })
    }

    /// The exchange's reply to the pending request, as [`Ledger::reply`]. 16 also on an open
    /// channel other than the one asked.
    pub fn reply(
        &mut self,
        channel: ChannelNumber,
        first: TickNumber,
        status: u8,
    ) -> Result<Settled, Refusal> {
        self.on(REPLY, channel, first.value(), u64::from(status))
            .map(Settled::from_words)
    }

    /// How many numbers from `a` to `b`, both included, are missing. 10, 13, 18.
    pub fn missing_between(
        &self,
        channel: ChannelNumber,
        a: TickNumber,
        b: TickNumber,
    ) -> Result<u64, Refusal> {
        // the call changes nothing, and a lent table is lent to be changed
        let mut table = *self;
        table
            .on(MISSING, channel, a.value(), b.value())
            .map(|[count, ..]| count)
    }

    /// A new session of the line begins: what is pending no longer is. Nothing else changes. 13.
    pub fn renew(&mut self) -> Result<(), Refusal> {
        self.call(RENEW, 0, 0, 0).map(|_| ())
    }

    /// What an open channel's ledger holds. 13, 18.
    pub fn status(&self, channel: ChannelNumber) -> Result<LedgerStatus, Refusal> {
        let mut table = *self;
        let [floor, top, missing, held, asked_first, asked_last, ..] =
            table.on(TOLD, channel, 0, 0)?;
        Ok(LedgerStatus::from_row(&StatusRow {
            channel: u64::from(channel.value()),
            floor,
            top,
            missing,
            held,
            asked_first,
            asked_last,
        }))
    }

    /// The channel at each of the 32 places; none at a free one. A name that needs more than two
    /// bytes, which no call writes, is told as 65,535: no channel's.
    pub fn places(&self) -> impl Iterator<Item = Option<ChannelNumber>> + '_ {
        let open = |i: &usize| self.used >> i & 1 == 1;
        let name = |i: usize| u16::try_from(self.names[i]).unwrap_or(u16::MAX);
        (0..32).map(move |i| open(&i).then(|| ChannelNumber::new(name(i))))
    }

    /// The numbers, to save the table. Save [`STATE_FORM`](crate::STATE_FORM) with them.
    #[must_use]
    pub fn to_words(&self) -> [u64; WORDS] {
        let rows = self.rows.iter().flat_map(|row| row.to_words());
        let index = [self.used, self.lacking, self.asked, self.last];
        let mut all = self.names.into_iter().chain(index).chain(rows);
        std::array::from_fn(|_| all.next().expect("as many numbers as the table has"))
    }

    /// The table of saved numbers. A call returns 13 if they break the state rules where it looks.
    #[must_use]
    pub fn from_words(words: &[u64; WORDS]) -> Channels {
        let row = |i: usize| std::array::from_fn(|j| words[37 + 9 * i + j]);
        Channels {
            names: std::array::from_fn(|i| words[i]),
            used: words[33],
            lacking: words[34],
            asked: words[35],
            last: words[36],
            rows: std::array::from_fn(|i| Ledger::from_words(row(i))),
        }
    }
}

type Told = Result<[u64; 9], Refusal>;
