//! A table of channels: a tick and a request of ours beside plain Rust with the same checks, both
//! lent.

use crate::plain::{Ledger, Settled};
use crate::{done, number, Job};
use rietknoest_host as host;
use rietknoest_host::{ChannelNumber, Channels, Passed, TickNumber};
use std::hint::black_box;

/// The table written by hand. It makes the checks of the library in the same order: the index, the
/// named channel at one place only, and of the row that a call turns to its channel, its bit, its
/// request and its ledger.
#[derive(Clone, Copy)]
struct Table {
    names: [u16; 32],
    used: u64,
    lacking: u64,
    asked: usize,
    last: usize,
    rows: [Ledger; 32],
}

impl Table {
    fn none() -> Table {
        Table {
            names: [0; 32],
            used: 0,
            lacking: 0,
            asked: 32,
            last: 31,
            rows: [Ledger::open(0); 32],
        }
    }

    fn is_open(&self, place: usize) -> bool {
        place < 32 && self.used >> place & 1 == 1
    }

    fn sound(&self) -> bool {
        self.used < 1 << 32
            && self.lacking & !self.used == 0
            && self.last < 32
            && (self.asked == 32 || self.is_open(self.asked))
    }

    /// The channel's place, or none; 13 where it has two.
    fn place_of(&self, channel: u16) -> Result<Option<usize>, u32> {
        let mut found = None;
        for place in 0..32 {
            if self.used >> place == 0 {
                break;
            }
            if self.names[place] == channel && self.is_open(place) {
                if found.is_some() {
                    return Err(13);
                }
                found = Some(place);
            }
        }
        Ok(found)
    }

    fn fits(&self, place: usize) -> Result<(), u32> {
        let row = &self.rows[place];
        let lacks = self.lacking >> place & 1 == 1;
        let right = row.channel == self.names[place]
            && lacks == (row.top != row.floor)
            && row.pending.is_some() == (self.asked == place);
        right.then_some(()).ok_or(13)
    }

    /// The open place that a call on a channel turns to.
    fn turned(&self, channel: u16) -> Result<usize, u32> {
        if !self.sound() {
            return Err(13);
        }
        let place = self.place_of(channel)?.ok_or(18u32)?;
        self.fits(place)?;
        Ok(place)
    }

    /// The index after the ledger at a place has changed.
    fn renew(&mut self, place: usize) {
        let row = &self.rows[place];
        let bit = u64::from(row.top != row.floor);
        self.lacking = self.lacking & !(1 << place) | bit << place;
        if row.pending.is_some() {
            self.asked = place;
        } else if self.asked == place {
            self.asked = 32;
        }
    }

    fn open(&mut self, channel: u16) {
        let place = (!self.used).trailing_zeros() as usize;
        self.used |= 1 << place;
        self.names[place] = channel;
        self.rows[place] = Ledger::open(channel);
    }

    fn announce(&mut self, channel: u16, last: u64) -> Result<(), u32> {
        let place = self.turned(channel)?;
        self.rows[place].announce(channel, last)?;
        self.renew(place);
        Ok(())
    }

    fn tick(&mut self, channel: u16, n: u64) -> Result<Passed, u32> {
        let place = self.turned(channel)?;
        let answer = self.rows[place].tick(channel, n);
        if matches!(answer, Ok(_) | Err(12)) {
            self.renew(place);
        }
        answer
    }

    fn request(&mut self) -> Result<(u16, u64, u64), u32> {
        if !self.sound() {
            return Err(13);
        }
        let place = match self.asked {
            32 => {
                let twice = (self.lacking << 32 | self.lacking) >> (self.last + 1);
                match twice.trailing_zeros() as usize {
                    32.. => return Err(15),
                    steps => (self.last + 1 + steps) % 32,
                }
            }
            asked => asked,
        };
        self.fits(place)?;
        let channel = self.names[place];
        let (first, last) = self.rows[place].request(channel)?;
        self.asked = place;
        self.last = place;
        Ok((channel, first, last))
    }

    /// A new session of the line.
    fn begin(&mut self) -> Result<(), u32> {
        if !self.sound() {
            return Err(13);
        }
        if self.asked == 32 {
            return Ok(());
        }
        let place = self.asked;
        self.fits(place)?;
        self.rows[place].renew()?;
        self.renew(place);
        Ok(())
    }

    fn reply(&mut self, channel: u16, first: u64, status: u8) -> Result<Settled, u32> {
        let place = self.turned(channel)?;
        let settled = self.rows[place].reply(channel, first, status)?;
        self.renew(place);
        Ok(settled)
    }
}

/// Both tables with so many open channels.
fn opened(channels: u16) -> (Channels, Table) {
    let (mut ours, mut theirs) = (Channels::none(), Table::none());
    for channel in 100..100 + channels {
        ours.open(ChannelNumber::new(channel)).expect("a place");
        theirs.open(channel);
    }
    (ours, theirs)
}

/// Ticks in order, a tick of each channel in turn.
fn ticks(input: &str, channels: u16) {
    let (ours, theirs) = opened(channels);
    let ticks: Vec<(u16, u64)> = (0..16_384)
        .map(|i| (100 + i % channels, u64::from(i / channels) + 1))
        .collect();
    let (mut a, mut b) = (ours, theirs);
    for (channel, n) in &ticks {
        let said = number(a.tick(ChannelNumber::new(*channel), TickNumber::new(*n)));
        assert_eq!(said, b.tick(*channel, *n));
    }
    let job = Job {
        name: "table tick",
        input,
        bytes: ticks.len(),
        goal: Some(2.0),
    };
    job.race(
        "tick",
        1,
        || {
            let mut table = black_box(ours);
            for (channel, n) in &ticks {
                done(table.tick(ChannelNumber::new(*channel), TickNumber::new(*n)));
            }
            done(table);
        },
        || {
            let mut table = black_box(theirs);
            for (channel, n) in &ticks {
                done(table.tick(*channel, *n));
            }
            done(table);
        },
    );
}

/// Both tables, with three numbers missing on each channel, and the same request of both.
fn missing(channels: u16) -> (Channels, Table) {
    let (mut ours, mut theirs) = opened(channels);
    for channel in 100..100 + channels {
        let c = ChannelNumber::new(channel);
        ours.announce(c, TickNumber::new(3)).expect("a top");
        theirs.announce(channel, 3).expect("a top");
    }
    let (mut a, mut b) = (ours, theirs);
    for i in 0..100 {
        let asked = a.request().expect("a turn");
        let (channel, range) = (asked.channel.value(), asked.range);
        let said = (channel, range.first.value(), range.last.value());
        assert_eq!(Ok(said), b.request());
        if i % 2 == 0 {
            assert!(a.renew().is_ok() && b.begin().is_ok());
        } else {
            assert!(a.reply(asked.channel, range.first, 1).is_ok());
            assert!(b.reply(channel, said.1, 1).is_ok());
        }
    }
    (ours, theirs)
}

const TIMES: usize = 4_096;

/// Requests, each ended by a new session, so that the next one goes to the next channel.
fn requests(input: &str, channels: u16) {
    let (ours, theirs) = missing(channels);
    let job = Job {
        name: "table request and new session",
        input,
        bytes: TIMES,
        goal: Some(2.0),
    };
    job.race(
        "pair",
        1,
        || {
            let mut table = black_box(ours);
            for _ in 0..TIMES {
                done(table.request());
                done(table.renew());
            }
            done(table);
        },
        || {
            let mut table = black_box(theirs);
            for _ in 0..TIMES {
                done(table.request());
                done(table.begin());
            }
            done(table);
        },
    );
}

/// Requests, each with its reply: the ledger's own reply is most of it.
fn replies(input: &str, channels: u16) {
    let (ours, theirs) = missing(channels);
    let job = Job {
        name: "table request and reply",
        input,
        bytes: TIMES,
        goal: None,
    };
    job.race(
        "pair",
        1,
        || {
            let mut table = black_box(ours);
            for _ in 0..TIMES {
                let asked: host::ChannelRequest = table.request().expect("a turn");
                done(table.reply(asked.channel, asked.range.first, 1));
            }
            done(table);
        },
        || {
            let mut table = black_box(theirs);
            for _ in 0..TIMES {
                let (channel, first, _) = table.request().expect("a turn");
                done(table.reply(channel, first, 1));
            }
            done(table);
        },
    );
}

/// Requests while one is pending: a refusal, and so a request alone.
fn busy() {
    let (mut ours, mut theirs) = opened(32);
    ours.announce(ChannelNumber::new(131), TickNumber::new(3))
        .expect("a top");
    theirs.announce(131, 3).expect("a top");
    assert!(ours.request().is_ok() && theirs.request().is_ok());
    assert_eq!(ours.request().map_err(host::Refusal::number), Err(14));
    assert_eq!(theirs.request(), Err(14));
    let job = Job {
        name: "table request",
        input: "one is pending",
        bytes: TIMES,
        goal: Some(2.0),
    };
    job.race(
        "request",
        1,
        || {
            for _ in 0..TIMES {
                done(ours.request());
            }
        },
        || {
            for _ in 0..TIMES {
                done(theirs.request());
            }
        },
    );
}

pub fn rows() {
    ticks("one channel", 1);
    ticks("32 channels in turn", 32);
    requests("two channels", 2);
    requests("32 channels", 32);
    busy();
    replies("two channels", 2);
    replies("32 channels", 32);
}
