//! The gap ledger of one tick channel.
//!
//! Each call takes a ledger and returns the next one. All fields are open, so
//! that a state may be made by hand; each call checks it first.

use crate::answer::No;
use crate::numbers::{Channel, Tick, MOST, MOST_CHANNEL};

/// How many numbers above the floor have a place.
pub const PLACES: u64 = 256;

/// How many numbers a request asks for at most.
pub const MOST_ASKED: u64 = 200;

/// A span of fewer numbers is counted number by number.
const SHORT: u64 = 1_000;

/// What was asked for and not answered: no request is a case of its own (0.9).
#[derive(Clone, Copy, Debug, PartialEq, Eq)]
pub enum Pending {
    Nothing,
    Asked { first: Tick, last: Tick },
}

/// A ledger. Every number up to the floor was received or given up (CR 7); the
/// top is the largest number that was announced, or offered and answered neither
/// 10 nor 18.
#[derive(Clone, Copy, Debug, PartialEq, Eq)]
pub struct Ledger {
    pub channel: Channel,
    pub floor: Tick,
    pub top: Tick,
    /// Whether floor + 1, floor + 2 .. floor + 256 are held.
    pub held: Places,
    pub pending: Pending,
}

/// One place for each number from floor + 1 to floor + 256, in this order.
pub type Places = [bool; PLACES as usize];

/// A ledger as nine numbers (docs/STATES.md): channel, floor, top, the four
/// words of the map, first and last number of the pending request.
pub type Words = [u64; 9];

/// What a reply answered 0 names, both rising: the numbers given up, and apart
/// from them "the received numbers newly passed, for delivery" (CR 7).
#[derive(Clone, Debug, Default, PartialEq, Eq)]
pub struct Settled {
    pub given_up: Vec<Tick>,
    pub passed: Vec<Tick>,
}

/// A run of numbers from the first to the last.
#[derive(Clone, Copy, Debug, PartialEq, Eq)]
pub struct Range {
    pub first: Tick,
    pub last: Tick,
}

/// How far the list of places is turned in the words: "Let a number's place be
/// its remainder by 256" (CR 9), and the first of the list is floor + 1.
fn turn(floor: u64) -> usize {
    (floor.wrapping_add(1) % PLACES) as usize
}

/// The places as the four words of a map. Place p is bit p % 64, low bit first,
/// of word p / 64, and stands for the one number from floor + 1 to floor + 256
/// whose remainder by 256 is p.
pub fn map_of(floor: u64, held: &Places) -> [u64; 4] {
    let mut ring = *held;
    ring.rotate_right(turn(floor));
    let mut map = [0; 4];
    for (p, held) in ring.iter().enumerate() {
        map[p / 64] |= u64::from(*held) << (p % 64);
    }
    map
}

/// The places of such words.
pub fn places_of(floor: u64, map: [u64; 4]) -> Places {
    let mut ring = [false; PLACES as usize];
    for (p, held) in ring.iter_mut().enumerate() {
        *held = (map[p / 64] >> (p % 64)) % 2 == 1;
    }
    ring.rotate_left(turn(floor));
    ring
}

impl Ledger {
    /// "Fresh: floor 0, top 0, nothing held."
    fn fresh(channel: Channel) -> Ledger {
        Ledger {
            channel,
            floor: Tick(0),
            top: Tick(0),
            held: [false; PLACES as usize],
            pending: Pending::Nothing,
        }
    }

    /// Opens a ledger, or 10; beside 10 stands a fresh ledger of channel 0.
    pub fn open(channel: Channel) -> (Ledger, Result<(), No>) {
        if channel.0 > MOST_CHANNEL {
            return (Ledger::fresh(Channel(0)), Err(No::Number));
        }
        (Ledger::fresh(channel), Ok(()))
    }

    /// The ledger in nine words: "0 and 0 where nothing is pending".
    pub fn words(self) -> Words {
        let (first, last) = match self.pending {
            Pending::Nothing => (0, 0),
            Pending::Asked { first, last } => (first.0, last.0),
        };
        let map = map_of(self.floor.0, &self.held);
        let mut words = [0; 9];
        words[..3].copy_from_slice(&[u64::from(self.channel.0), self.floor.0, self.top.0]);
        words[3..7].copy_from_slice(&map);
        words[7..].copy_from_slice(&[first, last]);
        words
    }

    /// The ledger that nine words stand for. "A channel above two bytes stands
    /// for 65,535, which breaks" the rules.
    pub fn of_words(w: Words) -> Ledger {
        let pending = match (w[7], w[8]) {
            (0, 0) => Pending::Nothing,
            (first, last) => Pending::Asked {
                first: Tick(first),
                last: Tick(last),
            },
        };
        Ledger {
            channel: Channel(u16::try_from(w[0]).unwrap_or(u16::MAX)),
            floor: Tick(w[1]),
            top: Tick(w[2]),
            held: places_of(w[1], [w[3], w[4], w[5], w[6]]),
            pending,
        }
    }

    /// The state rules.
    pub fn sound(self) -> bool {
        // channel, floor and top
        if self.channel.0 > MOST_CHANNEL || self.floor.0 > self.top.0 || self.top.0 > MOST {
            return false;
        }
        // floor + 1 is not held, nor is any number above the top
        for (i, held) in self.held.iter().enumerate() {
            let n = self.floor.0 + 1 + i as u64;
            if *held && (i == 0 || n > self.top.0) {
                return false;
            }
        }
        // a pending range does not start above floor + 1, nor end above the top
        match self.pending {
            Pending::Nothing => true,
            Pending::Asked { first, last } => {
                1 <= first.0
                    && first.0 <= self.floor.0 + 1
                    && first.0 <= last.0
                    && last.0 <= self.top.0
                    && last.0 - first.0 < MOST_ASKED
            }
        }
    }

    /// What each call checks first: 13, then 18.
    fn check(self, channel: Channel) -> Result<(), No> {
        if !self.sound() {
            return Err(No::State);
        }
        if channel != self.channel {
            return Err(No::Channel);
        }
        Ok(())
    }

    /// Whether a number of a sound state was received or given up: it is up to
    /// the floor, or held.
    fn settled(self, n: u64) -> bool {
        n <= self.floor.0
            || (n - self.floor.0 <= PLACES && self.held[(n - self.floor.0 - 1) as usize])
    }

    /// A tick is received. The floor moves up to the first number that was not,
    /// and the answer has the numbers that it passed. Checks 13, 18, 10, 11, 12.
    pub fn tick(self, channel: Channel, number: Tick) -> (Ledger, Result<Option<Range>, No>) {
        if let Err(no) = self.check(channel) {
            return (self, Err(no));
        }
        let n = number.0;
        // 10: "tick number 0 or above 18 digits"
        if n == 0 || n > MOST {
            return (self, Err(No::Number));
        }
        // 11: "tick already received"; "a given-up number that arrives late
        // answers 11"
        if self.settled(n) {
            return (self, Err(No::Repeat));
        }
        let top = Tick(self.top.0.max(n));
        // 12: "tick above floor + 256 and not a repeat"; "the ledger keeps its
        // state, save that 12 raises the top to that tick if it was lower".
        if n > self.floor.0 + PLACES {
            return (Ledger { top, ..self }, Err(No::Far));
        }
        let mut held = self.held;
        held[(n - self.floor.0 - 1) as usize] = true;
        let next = Ledger { top, ..self }.risen(held);
        let passed = Range {
            first: Tick(self.floor.0 + 1),
            last: next.floor,
        };
        let any = next.floor != self.floor;
        (next, Ok(any.then_some(passed)))
    }

    /// The floor passes the leading run of the places; those behind it move down
    /// and become free again.
    fn risen(self, mut held: Places) -> Ledger {
        let run = held.iter().take_while(|h| **h).count();
        held[..run].fill(false);
        held.rotate_left(run);
        let floor = Tick(self.floor.0 + run as u64);
        Ledger {
            floor,
            held,
            ..self
        }
    }

    /// An announcement (P001) raises the top, or changes nothing. Checks 13, 18, 10.
    pub fn announce(self, channel: Channel, last: Tick) -> (Ledger, Result<(), No>) {
        if let Err(no) = self.check(channel) {
            return (self, Err(no));
        }
        // 10: "announced top above 18 digits"
        if last.0 > MOST {
            return (self, Err(No::Number));
        }
        (
            Ledger {
                top: Tick(self.top.0.max(last.0)),
                ..self
            },
            Ok(()),
        )
    }

    /// A request: the run of missing numbers from floor + 1 on, at most 200 of
    /// them. Checks 13, 18, 14, 15.
    pub fn request(self, channel: Channel) -> (Ledger, Result<Range, No>) {
        if let Err(no) = self.check(channel) {
            return (self, Err(no));
        }
        // 14: "a request is pending"
        if self.pending != Pending::Nothing {
            return (self, Err(No::Busy));
        }
        // 15: "nothing is missing". In a sound state floor + 1 is not held, so
        // it is missing unless it lies above the top.
        let first = self.floor.0 + 1;
        if first > self.top.0 {
            return (self, Err(No::Whole));
        }
        let mut last = first;
        while last < self.top.0 && !self.settled(last + 1) && last - first + 1 < MOST_ASKED {
            last += 1;
        }
        let range = Range {
            first: Tick(first),
            last: Tick(last),
        };
        let pending = Pending::Asked {
            first: range.first,
            last: range.last,
        };
        (Ledger { pending, ..self }, Ok(range))
    }

    /// A reply (P002) clears what is pending. No status makes a number received;
    /// only a tick does. Checks 13, 18, 17, 16. The reply's last number is compared
    /// with nothing (0.12) and is not asked for here.
    pub fn reply(self, channel: Channel, first: Tick, status: u8) -> (Ledger, Result<Settled, No>) {
        if let Err(no) = self.check(channel) {
            return (self, Err(no));
        }
        // 17: "reply status not 1 to 5 or 99"
        if !((1..=5).contains(&status) || status == 99) {
            return (self, Err(No::Status));
        }
        // 16: "reply with no request pending, or with another first number"
        let last = match self.pending {
            Pending::Asked { first: asked, last } if asked == first => last,
            _ => return (self, Err(No::Unasked)),
        };
        let clear = Ledger {
            pending: Pending::Nothing,
            ..self
        };
        match status {
            4 => {
                let (next, settled) = clear.given_up(first, last);
                (next, Ok(settled))
            }
            _ => (clear, Ok(Settled::default())),
        }
    }

    /// CR 7: "each number of the pending range not received so far is given up
    /// and named in the answer; the floor then passes over them and over all
    /// that follows and was received, and the same answer names apart the
    /// received numbers newly passed".
    fn given_up(self, first: Tick, last: Tick) -> (Ledger, Settled) {
        let range = first.0..=last.0;
        let given_up: Vec<Tick> = range.filter(|n| !self.settled(*n)).map(Tick).collect();
        let mut held = self.held;
        for n in &given_up {
            held[(n.0 - self.floor.0 - 1) as usize] = true;
        }
        let next = self.risen(held);
        let passed = (self.floor.0 + 1..=next.floor.0).map(Tick);
        let passed = passed.filter(|n| !given_up.contains(n)).collect();
        (next, Settled { given_up, passed })
    }

    /// CR 12: "A new session .. clears a pending resend request, and keeps all
    /// else in the tick ledgers". It names no channel and checks 13 alone.
    pub fn renew(self) -> (Ledger, Result<(), No>) {
        if !self.sound() {
            return (self, Err(No::State));
        }
        let pending = Pending::Nothing;
        (Ledger { pending, ..self }, Ok(()))
    }

    /// How many numbers up to the top were neither received nor given up. A call
    /// too: it checks 13, with a count of 0 then (0.10).
    pub fn missing(self) -> (Ledger, Result<u64, No>) {
        if !self.sound() {
            return (self, Err(No::State));
        }
        let held = self.held.iter().filter(|h| **h).count() as u64;
        (self, Ok(self.top.0 - self.floor.0 - held))
    }

    /// CR 8: how many numbers from a to b are missing, both ends counted; "an
    /// empty span (b below a) answers 0". Checks 13, 18, then 10 on a and b both
    /// (8.1).
    pub fn missing_between(self, channel: Channel, a: Tick, b: Tick) -> (Ledger, Result<u64, No>) {
        if let Err(no) = self.check(channel) {
            return (self, Err(no));
        }
        // 10: "an a or b that is 0 or too long"
        if [a.0, b.0].iter().any(|n| *n == 0 || *n > MOST) {
            return (self, Err(No::Number));
        }
        let short = b.0 < a.0 || b.0 - a.0 < SHORT;
        let count = if short {
            self.counted(a.0, b.0)
        } else {
            self.reckoned(a.0, b.0)
        };
        (self, Ok(count))
    }

    /// "the count made number by number": those up to the top that are neither
    /// received nor given up.
    fn counted(self, a: u64, b: u64) -> u64 {
        let missing = |n: &u64| *n <= self.top.0 && !self.settled(*n);
        (a..=b).filter(missing).count() as u64
    }

    /// The same, for a span that is too long for it: all numbers of it above the
    /// floor and up to the top, but for the held ones among them.
    fn reckoned(self, a: u64, b: u64) -> u64 {
        let (low, high) = (a.max(self.floor.0 + 1), b.min(self.top.0));
        if high < low {
            return 0;
        }
        let numbers = (self.floor.0 + 1..).zip(self.held);
        let held = numbers.filter(|(n, held)| *held && (low..=high).contains(n));
        high - low + 1 - held.count() as u64
    }

    /// How many numbers above the floor are held. Checks 13 likewise (0.10).
    pub fn held(self) -> (Ledger, Result<u64, No>) {
        if !self.sound() {
            return (self, Err(No::State));
        }
        (self, Ok(self.held.iter().filter(|h| **h).count() as u64))
    }
}

#[cfg(test)]
mod tests {
    use super::*;
    use crate::made::{any_words, Dice};

    /// Both counts of a span are the same.
    #[test]
    fn counted_and_reckoned() {
        let mut more = 0;
        for case in 0..20_000 {
            let d = &mut Dice::new(8, case);
            let ledger = Ledger::of_words(any_words(d));
            if ledger.sound() {
                let a = (ledger.floor.0 + d.below(300)).saturating_sub(20).max(1);
                let b = a + d.below(300);
                let count = ledger.counted(a, b);
                assert_eq!(count, ledger.reckoned(a, b));
                more += u64::from(count > 0);
            }
        }
        assert!(more > 1_000, "{more}");
    }
}
