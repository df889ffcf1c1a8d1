//! CR 3: up to 32 channels on one line.
//!
//! "Hold up to 32 ledgers in one table"; "one request is pending for the whole
//! table". A place is free or has a ledger. Calls from the empty table alone make
//! a `Table`, so 13 is never given; `lent` has the table as a host lends it, in
//! numbers that may be anything.

pub mod cases;
pub mod lent;
pub mod script;

use crate::answer::No;
use crate::answers::Told;
use crate::ledger::{Ledger, Pending, Range, Settled};
use crate::numbers::{Channel, Tick, MOST_CHANNEL};

/// "Hold up to 32 ledgers in one table".
pub const PLACES: usize = 32;

/// What a ledger has to tell.
fn told_of(ledger: Ledger) -> Result<Told, No> {
    let (first, last) = match ledger.pending {
        Pending::Nothing => (0, 0),
        Pending::Asked { first, last } => (first.0, last.0),
    };
    Ok(Told {
        channel: u64::from(ledger.channel.0),
        floor: ledger.floor.0,
        top: ledger.top.0,
        missing: ledger.missing().1?,
        held: ledger.held().1?,
        first,
        last,
    })
}

#[derive(Clone, Debug, PartialEq, Eq)]
pub struct Table {
    pub places: [Option<Ledger>; PLACES],
    /// The place last asked. It stays when its channel is closed and when a new
    /// session starts (3.1).
    pub last: Option<usize>,
}

impl Table {
    /// The table without a channel.
    pub fn none() -> Table {
        Table {
            places: [None; PLACES],
            last: None,
        }
    }

    /// The place of an open channel.
    pub fn place_of(&self, channel: Channel) -> Option<usize> {
        let named = |ledger: &Option<Ledger>| ledger.is_some_and(|l| l.channel == channel);
        self.places.iter().position(named)
    }

    /// "18 for a channel not open"; else its place and its ledger.
    fn of(&self, channel: Channel) -> Result<(usize, Ledger), No> {
        let place = self.place_of(channel).ok_or(No::Channel)?;
        let ledger = self.places[place].expect("a channel stands there");
        Ok((place, ledger))
    }

    /// A call of an open channel's ledger, which then stands in its place.
    fn on<T>(
        &mut self,
        channel: Channel,
        call: impl FnOnce(Ledger) -> (Ledger, Result<T, No>),
    ) -> Result<T, No> {
        let (place, ledger) = self.of(channel)?;
        let (next, answer) = call(ledger);
        self.places[place] = Some(next);
        answer
    }

    /// "on opening, 10, then 22 already open, then 21 table full"; "Opening takes
    /// the lowest free place."
    pub fn open(&mut self, channel: Channel) -> Result<(), No> {
        if channel.0 > MOST_CHANNEL {
            return Err(No::Number);
        }
        if self.place_of(channel).is_some() {
            return Err(No::Open);
        }
        let free = self.places.iter().position(Option::is_none);
        self.places[free.ok_or(No::Full)?] = Some(Ledger::open(channel).0);
        Ok(())
    }

    /// Closes a channel: its place is free, and what is pending for it no longer is.
    /// 18.
    pub fn close(&mut self, channel: Channel) -> Result<(), No> {
        let (place, _) = self.of(channel)?;
        self.places[place] = None;
        Ok(())
    }

    /// 18, 10, 11, 12.
    pub fn tick(&mut self, channel: Channel, tick: Tick) -> Result<Option<Range>, No> {
        self.on(channel, |ledger| ledger.tick(channel, tick))
    }

    /// 18, 10.
    pub fn announce(&mut self, channel: Channel, last: Tick) -> Result<(), No> {
        self.on(channel, |ledger| ledger.announce(channel, last))
    }

    /// A request for the channel whose turn it is: from the place after the one
    /// last asked, round, the first that misses something; before any request,
    /// from the first place. Names no channel; 14, 15.
    pub fn request(&mut self) -> Result<(Channel, Range), No> {
        for ledger in self.places.iter().flatten() {
            if ledger.pending != Pending::Nothing {
                return Err(No::Busy);
            }
        }
        let from = self.last.map_or(0, |last| last + 1);
        for step in 0..PLACES {
            let place = (from + step) % PLACES;
            let Some(ledger) = self.places[place] else {
                continue;
            };
            if ledger.missing().1? > 0 {
                let channel = ledger.channel;
                let range = self.on(channel, |ledger| ledger.request(channel))?;
                self.last = Some(place);
                return Ok((channel, range));
            }
        }
        Err(No::Whole)
    }

    /// 18, 17, 16; 16 too on an open channel that was not asked: nothing is
    /// pending in its ledger.
    pub fn reply(&mut self, channel: Channel, first: Tick, status: u8) -> Result<Settled, No> {
        self.on(channel, |ledger| ledger.reply(channel, first, status))
    }

    /// How many numbers from a to b are missing (CR 8). 18, 10.
    pub fn between(&self, channel: Channel, a: Tick, b: Tick) -> Result<u64, No> {
        let (_, ledger) = self.of(channel)?;
        ledger.missing_between(channel, a, b).1
    }

    /// What an open channel's ledger has to tell. 18.
    pub fn told(&self, channel: Channel) -> Result<Told, No> {
        told_of(self.of(channel)?.1)
    }

    /// CR 12: a new session "clears a pending resend request, and keeps all else
    /// in the tick ledgers".
    pub fn renew(&mut self) -> Result<(), No> {
        for place in &mut self.places {
            *place = place.map(|ledger| ledger.renew().0);
        }
        Ok(())
    }
}
