//! CR 11: the month in whole numbers.
//!
//! Six figures for each of up to 32 channels: ticks received, repeated, too far
//! ahead and missing, P002 frames of status 0 and of status 4; and their sums
//! over all captures. The figures are told here from plain sets of the calls that
//! a capture makes, one channel after the other.

pub mod cases;

use crate::answer::No;
use crate::bytes::number;
use crate::channels::PLACES;
use crate::frame::{read, search, Message};
use crate::ledger;
use crate::numbers::{Channel, MOST_CHANNEL};
use crate::rules::Kind;
use crate::walk::numbers_of;
use std::collections::BTreeSet;

/// "a page over up to 500 captures"
pub const MOST_CAPTURES: u64 = 500;

/// The six figures of a channel.
#[derive(Clone, Copy, Debug, Default, PartialEq, Eq)]
pub struct Figures {
    /// Ticks answered 0.
    pub received: u64,
    /// Ticks answered 11.
    pub repeated: u64,
    /// Ticks answered 12.
    pub far: u64,
    /// Numbers from 1 to the known top that were not received.
    pub missing: u64,
    /// P002 frames of status 0.
    pub asked: u64,
    /// P002 frames of status 4.
    pub unavailable: u64,
}

impl Figures {
    /// In the order of the page.
    pub fn numbers(self) -> [u64; 6] {
        [
            self.received,
            self.repeated,
            self.far,
            self.missing,
            self.asked,
            self.unavailable,
        ]
    }

    fn of(numbers: [u64; 6]) -> Figures {
        let [received, repeated, far, missing, asked, unavailable] = numbers;
        Figures {
            received,
            repeated,
            far,
            missing,
            asked,
            unavailable,
        }
    }

    /// The sums, figure by figure, unless one would pass 64 bits.
    fn plus(self, more: Figures) -> Option<Figures> {
        let mut sums = self.numbers();
        for (sum, more) in sums.iter_mut().zip(more.numbers()) {
            *sum = sum.checked_add(more)?;
        }
        Some(Figures::of(sums))
    }
}

/// The frames that the walk over a capture accepts, in order.
pub fn frames_of(capture: &[u8]) -> Vec<Message> {
    let mut frames = Vec::new();
    let mut place = Some(0).filter(|_| !capture.is_empty());
    while let Some(at) = place {
        let next = match read(&capture[at..]) {
            Ok(message) => {
                let behind = at + message.frame_length();
                frames.push(message);
                Some(behind).filter(|behind| *behind < capture.len())
            }
            Err(_) => search(capture, at as u64 + 1).ok().flatten(),
        };
        place = next;
    }
    frames
}

/// What a channel's frames say of its numbers: those received, and the top.
#[derive(Clone, Debug, Default, PartialEq, Eq)]
pub struct Numbers {
    pub received: BTreeSet<u64>,
    pub top: u64,
    /// All numbers up to it are received.
    pub floor: u64,
}

impl Numbers {
    /// A tick: its number. 11 where it was received before, 12 above floor + 256;
    /// both a received one and one that is too far are known.
    fn tick(&mut self, n: u64) -> u32 {
        if self.received.contains(&n) {
            return No::Repeat.number();
        }
        self.top = self.top.max(n);
        if n > self.floor + ledger::PLACES {
            return No::Far.number();
        }
        self.received.insert(n);
        while self.received.contains(&(self.floor + 1)) {
            self.floor += 1;
        }
        0
    }
}

/// A channel's figures over frames, and its numbers then. Calls that name another
/// channel are 18 and count for nothing; a P002 is offered to no ledger.
pub fn counted(channel: Channel, frames: &[Message]) -> (Figures, Numbers) {
    let mut figures = Figures::default();
    let mut numbers = Numbers::default();
    for message in frames {
        let (of, n) = numbers_of(message);
        if of != channel {
            continue;
        }
        match Kind::of(message.msg_type) {
            Some(Kind::M201) => match numbers.tick(n.0) {
                0 => figures.received += 1,
                11 => figures.repeated += 1,
                _ => figures.far += 1,
            },
            Some(Kind::P001) => numbers.top = numbers.top.max(n.0),
            Some(Kind::P002) => {
                let status = number(&message.body[19..20]);
                figures.asked += u64::from(status == 0);
                figures.unavailable += u64::from(status == 4);
            }
            _ => (),
        }
    }
    figures.missing = numbers.top - numbers.received.len() as u64;
    (figures, numbers)
}

/// The page so far.
#[derive(Clone, Debug, Default, PartialEq, Eq)]
pub struct Month {
    /// The channels, in the order named.
    pub channels: Vec<Channel>,
    /// How many captures were taken.
    pub captures: u64,
    /// For each channel the sums over them.
    pub sums: Vec<Figures>,
}

impl Month {
    /// 10, 22, 21, as CR 3 opens a channel: the channels are judged one by one,
    /// and the first that is refused gives the number (11.1). Beside a refusal
    /// stands a page with no channel.
    pub fn started(channels: &[Channel]) -> (Month, Result<(), No>) {
        let mut named: Vec<Channel> = Vec::new();
        for channel in channels {
            let refusal = if channel.0 > MOST_CHANNEL {
                No::Number
            } else if named.contains(channel) {
                No::Open
            } else if named.len() == PLACES {
                No::Full
            } else {
                named.push(*channel);
                continue;
            };
            return (Month::default(), Err(refusal));
        }
        let page = Month {
            sums: vec![Figures::default(); named.len()],
            channels: named,
            captures: 0,
        };
        (page, Ok(()))
    }

    /// A capture, and its own figures for each channel named. 27 where 500 are
    /// taken, 28 where a sum has no room in 64 bits; then the page stays.
    pub fn add(&mut self, capture: &[u8]) -> Result<Vec<Figures>, No> {
        if self.captures == MOST_CAPTURES {
            return Err(No::Captures);
        }
        let frames = frames_of(capture);
        let channels = self.channels.iter();
        let figures: Vec<Figures> = channels.map(|c| counted(*c, &frames).0).collect();
        let sums = self.sums.iter().zip(&figures);
        let sums: Option<Vec<Figures>> = sums.map(|(sum, more)| sum.plus(*more)).collect();
        self.sums = sums.ok_or(No::Sums)?;
        self.captures += 1;
        Ok(figures)
    }
}
