//! CR 3: the table of channels, and the one that a host lends, against plain sets;
//! its sentence on turns.

use crate::properties::Dice;
use oracle::answer::No;
use oracle::channels::cases::{Oracle, SCRIPTS};
use oracle::channels::lent::{Lent, TableNumbers, COUNT, ROWS};
use oracle::channels::script::otherwise;
use oracle::channels::{Table, PLACES};
use oracle::ledger::{Range, Settled};
use oracle::numbers::{Channel, Tick, MOST};
use std::collections::BTreeSet;
use std::fmt::Debug;

/// A channel since its opening: what was received, what was given up, the top.
#[derive(Clone, Default)]
struct Plain {
    channel: u16,
    received: BTreeSet<u64>,
    up: BTreeSet<u64>,
    top: u64,
    /// How many requests were granted while it missed something.
    waited: usize,
}

impl Plain {
    fn done(&self, n: u64) -> bool {
        self.received.contains(&n) || self.up.contains(&n)
    }

    fn floor(&self) -> u64 {
        (1..).find(|n| !self.done(*n)).expect("some number") - 1
    }

    fn missing(&self) -> u64 {
        self.top - (self.received.len() + self.up.len()) as u64
    }

    /// From the first missing number on, up to the next that is not, at most 200.
    fn run(&self) -> Range {
        let first = self.floor() + 1;
        let open = (first..=self.top).take(200).take_while(|n| !self.done(*n));
        Range {
            first: Tick(first),
            last: Tick(open.last().expect("something is missing")),
        }
    }
}

/// The table with plain sets: the channels by place, the request that is pending
/// with its place, and the place last asked.
#[derive(Default)]
struct Sets {
    places: [Option<Plain>; PLACES],
    pending: Option<(usize, u64, u64)>,
    last: Option<usize>,
}

impl Sets {
    fn place(&self, channel: u16) -> Option<usize> {
        let stands = |p: &Option<Plain>| p.as_ref().is_some_and(|p| p.channel == channel);
        self.places.iter().position(stands)
    }

    fn of(&mut self, channel: u16) -> Result<&mut Plain, No> {
        let place = self.place(channel).ok_or(No::Channel)?;
        Ok(self.places[place].as_mut().expect("it stands there"))
    }

    fn open(&mut self, channel: u16) -> Result<(), No> {
        if channel > 9_999 {
            return Err(No::Number);
        }
        if self.place(channel).is_some() {
            return Err(No::Open);
        }
        let free = self.places.iter().position(Option::is_none);
        self.places[free.ok_or(No::Full)?] = Some(Plain {
            channel,
            ..Plain::default()
        });
        Ok(())
    }

    fn close(&mut self, channel: u16) -> Result<(), No> {
        let place = self.place(channel).ok_or(No::Channel)?;
        self.places[place] = None;
        self.pending = self.pending.filter(|(asked, _, _)| *asked != place);
        Ok(())
    }

    fn tick(&mut self, channel: u16, n: u64) -> Result<Option<Range>, No> {
        let plain = self.of(channel)?;
        if n == 0 || n > MOST {
            return Err(No::Number);
        }
        if plain.done(n) {
            return Err(No::Repeat);
        }
        plain.top = plain.top.max(n);
        let before = plain.floor();
        if n > before + 256 {
            return Err(No::Far);
        }
        plain.received.insert(n);
        let passed = Range {
            first: Tick(before + 1),
            last: Tick(plain.floor()),
        };
        Ok((plain.floor() > before).then_some(passed))
    }

    fn announce(&mut self, channel: u16, n: u64) -> Result<(), No> {
        let plain = self.of(channel)?;
        if n > MOST {
            return Err(No::Number);
        }
        plain.top = plain.top.max(n);
        Ok(())
    }

    fn request(&mut self) -> Result<(Channel, Range), No> {
        if self.pending.is_some() {
            return Err(No::Busy);
        }
        // Every place once, the one after the last asked first.
        let from = self.last.map_or(0, |l| l + 1);
        let round = (from..PLACES).chain(0..from.min(PLACES));
        let lacks = |p: &Option<Plain>| p.as_ref().is_some_and(|p| p.missing() > 0);
        let place = { round }
            .find(|p| lacks(&self.places[*p]))
            .ok_or(No::Whole)?;
        for (i, plain) in self.places.iter_mut().enumerate() {
            let Some(plain) = plain else { continue };
            let waits = i != place && plain.missing() > 0;
            plain.waited = if waits { plain.waited + 1 } else { 0 };
            // "is asked within 32 granted requests"
            assert!(plain.waited < 32);
        }
        let plain = self.places[place].as_ref().expect("it misses something");
        let run = plain.run();
        self.pending = Some((place, run.first.0, run.last.0));
        self.last = Some(place);
        Ok((Channel(plain.channel), run))
    }

    fn reply(&mut self, channel: u16, first: u64, status: u8) -> Result<Settled, No> {
        let place = self.place(channel).ok_or(No::Channel)?;
        if ![1, 2, 3, 4, 5, 99].contains(&status) {
            return Err(No::Status);
        }
        let asked = self
            .pending
            .filter(|(at, f, _)| (*at, *f) == (place, first));
        let (_, _, last) = asked.ok_or(No::Unasked)?;
        self.pending = None;
        if status != 4 {
            return Ok(Settled::default());
        }
        let plain = self.places[place].as_mut().expect("it stands there");
        let before = plain.floor();
        let given_up: Vec<u64> = (first..=last).filter(|n| !plain.done(*n)).collect();
        plain.up.extend(&given_up);
        let passed = before + 1..=plain.floor();
        let passed = passed.filter(|n| plain.received.contains(n));
        Ok(Settled {
            passed: passed.map(Tick).collect(),
            given_up: given_up.into_iter().map(Tick).collect(),
        })
    }
}

fn agree<T: PartialEq + Debug>([one, other, third]: [T; 3]) {
    assert_eq!(one, other);
    assert_eq!(one, third);
}

/// One call of all three; their answers are equal.
fn all(d: &mut Dice, names: u64, table: &mut Table, lent: &mut Lent, sets: &mut Sets) {
    let c = d.roll(names) as u16;
    let channel = Channel(c);
    let (floor, top) = match sets.of(c) {
        Ok(plain) => (plain.floor(), plain.top),
        Err(_) => (0, 0),
    };
    let n = match d.roll(8) {
        0 => floor + 250 + d.roll(10),
        1 => d.roll(4),
        2 => top + 1,
        _ => floor + 1 + d.roll(4),
    };
    match d.roll(24) {
        0..=3 => agree([table.open(channel), lent.open(channel), sets.open(c)]),
        4 if d.roll(3) == 0 => {
            agree([table.close(channel), lent.close(channel), sets.close(c)]);
        }
        5..=11 => {
            let tick = Tick(n);
            agree([
                table.tick(channel, tick),
                lent.tick(channel, tick),
                sets.tick(c, n),
            ]);
        }
        12..=14 => {
            let last = Tick(n);
            agree([
                table.announce(channel, last),
                lent.announce(channel, last),
                sets.announce(c, n),
            ]);
        }
        15..=19 => agree([table.request(), lent.request(), sets.request()]),
        20 if d.roll(8) == 0 => {
            sets.pending = None;
            agree([table.renew(), lent.renew(), Ok(())]);
        }
        _ => {
            let asked = sets.pending.map(|(place, first, _)| (place, first));
            let (c, first) = match asked {
                Some((place, first)) if d.roll(4) > 0 => {
                    let plain = sets.places[place].as_ref();
                    (plain.expect("it stands there").channel, first)
                }
                _ => (c, n),
            };
            let status = [1, 2, 3, 4, 4, 5, 99, 0, 6][d.roll(9) as usize];
            agree([
                table.reply(Channel(c), Tick(first), status),
                lent.reply(Channel(c), Tick(first), status),
                sets.reply(c, first, status),
            ]);
        }
    }
}

/// The numbers of a table, by docs/STATES.md.
fn numbers_of(table: &Table) -> TableNumbers {
    let mut numbers = [0; COUNT];
    numbers[ROWS + 2] = 32;
    numbers[ROWS + 3] = table.last.map_or(31, |last| last as u64);
    for (place, ledger) in table.places.iter().enumerate() {
        let Some(ledger) = ledger else { continue };
        let words = ledger.words();
        numbers[place] = words[0];
        numbers[ROWS] += 1 << place;
        if words[2] > words[1] {
            numbers[ROWS + 1] += 1 << place;
        }
        if words[7] > 0 {
            numbers[ROWS + 2] = place as u64;
        }
        numbers[ROWS + 4 + 9 * place..][..9].copy_from_slice(&words);
    }
    numbers
}

/// What the table tells of each place is what the sets have.
fn same(table: &Table, sets: &Sets) {
    assert_eq!(table.last, sets.last);
    for (place, plain) in sets.places.iter().enumerate() {
        let Some(plain) = plain else {
            assert!(table.places[place].is_none());
            continue;
        };
        let channel = Channel(plain.channel);
        assert_eq!(table.place_of(channel), Some(place));
        let told = table.told(channel).expect("it is open");
        assert_eq!((told.floor, told.top), (plain.floor(), plain.top));
        assert_eq!(told.missing, plain.missing());
        let above = plain.received.iter().filter(|n| **n > plain.floor());
        assert_eq!(told.held, above.count() as u64);
        let asked = sets.pending.filter(|(at, _, _)| *at == place);
        let asked = asked.map_or((0, 0), |(_, first, last)| (first, last));
        assert_eq!((told.first, told.last), asked);
        // Missing, held, given up, received below the floor: all up to the top.
        let settled = plain.received.len() + plain.up.len();
        assert_eq!(told.missing + settled as u64, told.top);
        let between = table.between(channel, Tick(1), Tick(MOST));
        assert_eq!(between, Ok(told.missing));
    }
}

#[test]
fn the_table_against_plain_sets() {
    let mut d = Dice(3);
    for names in [1, 2, 3, 5, 33, 40] {
        for _ in 0..30 {
            let (mut table, mut sets) = (Table::none(), Sets::default());
            let mut lent = Lent::none();
            for c in 0..names as u16 {
                let channel = Channel(c);
                agree([table.open(channel), lent.open(channel), sets.open(c)]);
            }
            for _ in 0..300 {
                all(&mut d, names, &mut table, &mut lent, &mut sets);
                assert_eq!(lent.numbers(), numbers_of(&table));
            }
            same(&table, &sets);
            assert_eq!(Lent::of_numbers(&lent.numbers()), lent);
        }
    }
}

#[test]
fn a_refusal_leaves_the_table_as_found() {
    let mut table = Table::none();
    for c in 0..32 {
        assert_eq!(table.open(Channel(c)), Ok(()));
    }
    table.announce(Channel(3), Tick(9)).expect("open");
    table.request().expect("something is missing");
    let found = table.clone();
    assert_eq!(table.open(Channel(10_000)), Err(No::Number));
    assert_eq!(table.open(Channel(3)), Err(No::Open));
    assert_eq!(table.open(Channel(32)), Err(No::Full));
    assert_eq!(table.close(Channel(32)), Err(No::Channel));
    assert_eq!(table.tick(Channel(32), Tick(1)), Err(No::Channel));
    assert_eq!(table.tick(Channel(3), Tick(0)), Err(No::Number));
    assert_eq!(table.announce(Channel(3), Tick(MOST + 1)), Err(No::Number));
    assert_eq!(table.request(), Err(No::Busy));
    assert_eq!(table.reply(Channel(4), Tick(1), 1), Err(No::Unasked));
    assert_eq!(table.reply(Channel(3), Tick(1), 0), Err(No::Status));
    assert_eq!(table, found);
    // Save that 12 raises a top.
    assert_eq!(table.tick(Channel(3), Tick(257)), Err(No::Far));
    assert_ne!(table, found);
    assert_eq!(table.told(Channel(3)).expect("open").top, 257);
}

#[test]
fn thirty_one_would_not_do() {
    // The one after which all others are asked waits for 31 requests.
    let mut table = Table::none();
    for c in 0..32 {
        table.open(Channel(c)).expect("a place is free");
        table.announce(Channel(c), Tick(5)).expect("open");
    }
    let mut asked = Vec::new();
    for _ in 0..64 {
        let (channel, range) = table.request().expect("all miss something");
        asked.push(channel.0);
        table.reply(channel, range.first, 1).expect("it was asked");
    }
    let all: Vec<u16> = (0..32).chain(0..32).collect();
    assert_eq!(asked, all);
}

#[test]
fn a_script_that_says_otherwise_is_told() {
    let wrong = SCRIPTS.replace("request -> 14", "request -> 15");
    assert!(!otherwise(&Oracle, &wrong).is_empty());
}
