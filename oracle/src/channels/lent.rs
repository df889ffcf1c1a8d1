//! The table as a host lends it: 334 numbers, which may be anything.
//!
//! By docs/STATES.md, "A table in numbers". "13 first, judged where a call
//! looks" (3.1): at the index, and at the row that the call turns to. A row that
//! it does not turn to may be broken, and the call answers as ever; it writes
//! "only the index and the one row that it has checked".

use super::{told_of, PLACES};
use crate::answer::No;
use crate::answers::Told;
use crate::ledger::{Ledger, Pending, Range, Settled, Words};
use crate::numbers::{Channel, Tick, MOST_CHANNEL};

/// A row for each place, and one that "stands for no place".
pub const ROWS: usize = PLACES + 1;

/// How many numbers a table has.
pub const COUNT: usize = ROWS + 4 + 9 * ROWS;

/// The numbers in the order in which they lie.
pub type TableNumbers = [u64; COUNT];

/// `asked` where no request is pending.
const NONE: u64 = PLACES as u64;

#[derive(Clone, Debug, PartialEq, Eq)]
pub struct Lent {
    /// "the channel of each row, the row's first word again"
    pub names: [u64; ROWS],
    /// "bit i is set if place i is open"
    pub used: u64,
    /// "bit i is set if place i is open and its top is above its floor"
    pub lacking: u64,
    /// "the place whose request is pending, or 32"
    pub asked: u64,
    /// "the place last asked"; at first 31, "so that counting begins at place 0"
    pub last: u64,
    pub rows: [Words; ROWS],
}

fn has(bits: u64, place: usize) -> bool {
    (bits >> place) % 2 == 1
}

fn with(bits: u64, place: usize, set: bool) -> u64 {
    match has(bits, place) == set {
        true => bits,
        false => bits ^ 1 << place,
    }
}

/// 13 where a rule is broken.
fn rule(holds: bool) -> Result<(), No> {
    match holds {
        true => Ok(()),
        false => Err(No::State),
    }
}

impl Lent {
    /// The empty table.
    pub fn none() -> Lent {
        Lent {
            names: [0; ROWS],
            used: 0,
            lacking: 0,
            asked: NONE,
            last: NONE - 1,
            rows: [[0; 9]; ROWS],
        }
    }

    pub fn of_numbers(all: &TableNumbers) -> Lent {
        let (names, rest) = all.split_at(ROWS);
        let (index, rows) = rest.split_at(4);
        let mut lent = Lent::none();
        lent.names.copy_from_slice(names);
        lent.used = index[0];
        lent.lacking = index[1];
        lent.asked = index[2];
        lent.last = index[3];
        for (row, words) in lent.rows.iter_mut().zip(rows.chunks(9)) {
            row.copy_from_slice(words);
        }
        lent
    }

    pub fn numbers(&self) -> TableNumbers {
        let mut all = [0; COUNT];
        let (names, rest) = all.split_at_mut(ROWS);
        let (index, rows) = rest.split_at_mut(4);
        names.copy_from_slice(&self.names);
        index.copy_from_slice(&[self.used, self.lacking, self.asked, self.last]);
        for (words, row) in rows.chunks_mut(9).zip(&self.rows) {
            words.copy_from_slice(row);
        }
        all
    }

    /// The channel at an open place, by its name. One "that needs more than two
    /// bytes stands for 65,535".
    pub fn channel_at(&self, place: usize) -> Option<Channel> {
        let name = u16::try_from(self.names[place]).unwrap_or(u16::MAX);
        has(self.used, place).then_some(Channel(name))
    }

    // THE RULES

    /// The rules of the index that every call looks at.
    fn index(&self) -> Result<(), No> {
        for bit in 0..64 {
            // "`used` has no bit above 31"
            rule(bit < PLACES || !has(self.used, bit))?;
            // "a place that lacks something is open"
            rule(has(self.used, bit) || !has(self.lacking, bit))?;
        }
        // "`last` is below 32"
        rule(self.last < NONE)?;
        // "`asked` is 32, or an open place"
        rule(self.asked == NONE || self.asked < NONE && has(self.used, self.asked as usize))
    }

    /// The open place of a channel. "the channel that the call names is open at
    /// one place at most"
    fn named(&self, channel: Channel) -> Result<Option<usize>, No> {
        let mut found = None;
        for place in 0..PLACES {
            if has(self.used, place) && self.names[place] == u64::from(channel.0) {
                rule(found.is_none())?;
                found = Some(place);
            }
        }
        Ok(found)
    }

    /// The ledger of the row that a call turns to.
    fn row(&self, place: usize) -> Result<Ledger, No> {
        // "its nine words are a ledger that keeps its rules"
        let ledger = Ledger::of_words(self.rows[place]);
        rule(ledger.sound())?;
        // "the ledger's channel is the name beside the row"
        rule(u64::from(ledger.channel.0) == self.names[place])?;
        // "its bit of `lacking` is set exactly if its floor is below its top"
        rule(has(self.lacking, place) == (ledger.floor.0 < ledger.top.0))?;
        // "its request is pending exactly if `asked` is its place"
        rule((ledger.pending != Pending::Nothing) == (self.asked == place as u64))?;
        Ok(ledger)
    }

    /// 13, 18: "A call on a channel looks at the row of its open place".
    fn of(&self, channel: Channel) -> Result<(usize, Ledger), No> {
        self.index()?;
        let place = self.named(channel)?.ok_or(No::Channel)?;
        Ok((place, self.row(place)?))
    }

    /// A ledger takes a place: its row, the name beside it, and the index.
    fn put(&mut self, place: usize, ledger: Ledger) {
        self.names[place] = u64::from(ledger.channel.0);
        self.rows[place] = ledger.words();
        self.used = with(self.used, place, true);
        self.lacking = with(self.lacking, place, ledger.floor.0 < ledger.top.0);
        match ledger.pending {
            Pending::Asked { .. } => self.asked = place as u64,
            Pending::Nothing if self.asked == place as u64 => self.asked = NONE,
            Pending::Nothing => (),
        }
    }

    // THE CALLS

    fn on<T>(
        &mut self,
        channel: Channel,
        call: impl FnOnce(Ledger) -> (Ledger, Result<T, No>),
    ) -> Result<T, No> {
        let (place, ledger) = self.of(channel)?;
        let (next, answer) = call(ledger);
        self.put(place, next);
        answer
    }

    /// 13, 10, 22, 21. "A row is looked at only where the channel is already
    /// open; 13 of it comes before 10 and 22" (3.5).
    pub fn open(&mut self, channel: Channel) -> Result<(), No> {
        self.index()?;
        let place = self.named(channel)?;
        if let Some(place) = place {
            self.row(place)?;
        }
        if channel.0 > MOST_CHANNEL {
            return Err(No::Number);
        }
        if place.is_some() {
            return Err(No::Open);
        }
        let free = (0..PLACES).find(|place| !has(self.used, *place));
        self.put(free.ok_or(No::Full)?, Ledger::open(channel).0);
        Ok(())
    }

    /// 13, 18. "closing leaves zeros"
    pub fn close(&mut self, channel: Channel) -> Result<(), No> {
        let (place, _) = self.of(channel)?;
        self.put(place, Ledger::open(Channel(0)).0);
        self.used = with(self.used, place, false);
        Ok(())
    }

    /// 13, 18, 10, 11, 12.
    pub fn tick(&mut self, channel: Channel, tick: Tick) -> Result<Option<Range>, No> {
        self.on(channel, |ledger| ledger.tick(channel, tick))
    }

    /// 13, 18, 10.
    pub fn announce(&mut self, channel: Channel, last: Tick) -> Result<(), No> {
        self.on(channel, |ledger| ledger.announce(channel, last))
    }

    /// 13, 14, 15. "A request looks at the place `asked`, or else at the place
    /// whose turn it is".
    pub fn request(&mut self) -> Result<(Channel, Range), No> {
        self.index()?;
        if self.asked != NONE {
            self.row(self.asked as usize)?;
            return Err(No::Busy);
        }
        for step in 1..=PLACES {
            let place = (self.last as usize + step) % PLACES;
            if has(self.lacking, place) {
                let ledger = self.row(place)?;
                let (next, answer) = ledger.request(ledger.channel);
                self.put(place, next);
                self.last = place as u64;
                return Ok((ledger.channel, answer?));
            }
        }
        Err(No::Whole)
    }

    /// 13, 18, 17, 16.
    pub fn reply(&mut self, channel: Channel, first: Tick, status: u8) -> Result<Settled, No> {
        self.on(channel, |ledger| ledger.reply(channel, first, status))
    }

    /// 13, 18, 10.
    pub fn between(&self, channel: Channel, a: Tick, b: Tick) -> Result<u64, No> {
        let (_, ledger) = self.of(channel)?;
        ledger.missing_between(channel, a, b).1
    }

    /// 13, 18.
    pub fn told(&self, channel: Channel) -> Result<Told, No> {
        told_of(self.of(channel)?.1)
    }

    /// 13. "a new session" looks "at the place `asked`".
    pub fn renew(&mut self) -> Result<(), No> {
        self.index()?;
        if self.asked != NONE {
            let place = self.asked as usize;
            let (next, answer) = self.row(place)?.renew();
            self.put(place, next);
            answer?;
        }
        Ok(())
    }
}
