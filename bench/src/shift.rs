//! The ledger with the map as it was before request 9, by value: place i stands for floor + 1 + i,
//! and each tick delivered shifts the map.

use crate::plain::{pending_right, LARGEST};
use rietknoest_host::{Passed, TickNumber};

#[derive(Clone, Copy, Debug, PartialEq, Eq)]
pub struct Shifting {
    pub channel: u16,
    pub floor: u64,
    pub top: u64,
    pub map: [u64; 4],
    pub pending: Option<(u64, u64)>,
}

impl Shifting {
    pub fn open(channel: u16) -> Shifting {
        Shifting {
            channel,
            floor: 0,
            top: 0,
            map: [0; 4],
            pending: None,
        }
    }

    fn sound(&self) -> bool {
        if self.channel > 9_999 || self.floor > self.top || self.top > LARGEST {
            return false;
        }
        let known = self.top - self.floor;
        let above = |i: usize| match known.saturating_sub(64 * i as u64) {
            held @ 0..64 => self.map[i] >> held,
            _ => 0,
        };
        if self.map[0] & 1 != 0 || above(0) | above(1) | above(2) | above(3) != 0 {
            return false;
        }
        pending_right(self.pending, self.floor, self.top)
    }

    /// Numbers from the floor on without a break.
    fn run(&self) -> u32 {
        let mut run = 0;
        for word in self.map {
            run += word.trailing_ones();
            if word != u64::MAX {
                break;
            }
        }
        run
    }

    /// The floor and the map behind so many numbers that were passed.
    fn pass(&mut self, count: u32) {
        self.floor += u64::from(count);
        for _ in 0..count / 64 {
            let [_, b, c, d] = self.map;
            self.map = [b, c, d, 0];
        }
        let bits = count % 64;
        if bits > 0 {
            let [a, b, c, d] = self.map;
            let join = |low: u64, high: u64| low >> bits | high << (64 - bits);
            self.map = [join(a, b), join(b, c), join(c, d), d >> bits];
        }
    }

    pub fn tick(mut self, channel: u16, n: u64) -> (Shifting, Result<Passed, u32>) {
        if !self.sound() {
            return (self, Err(13));
        }
        if channel != self.channel {
            return (self, Err(18));
        }
        if n == 0 || n > LARGEST {
            return (self, Err(10));
        }
        if n <= self.floor {
            return (self, Err(11));
        }
        let place = n - self.floor - 1;
        if place >= 256 {
            self.top = self.top.max(n);
            return (self, Err(12));
        }
        let (word, bit) = ((place / 64) as usize, 1 << (place % 64));
        if self.map[word] & bit != 0 {
            return (self, Err(11));
        }
        self.map[word] |= bit;
        self.top = self.top.max(n);
        let first = TickNumber::new(self.floor + 1);
        let count = self.run();
        if count > 0 {
            self.pass(count);
        }
        let count = count.into();
        (self, Ok(Passed { first, count }))
    }
}
