//! A page of sums over a month of captures.

use crate::numbers::{result, ChannelNumber, Refusal};
use crate::raw;

/// What a capture has of a channel, or the sums over captures.
#[derive(Clone, Copy, Debug, Default, PartialEq, Eq)]
#[repr(C)]
pub struct Figures {
    /// Ticks received for the first time.
    pub received: u64,
    /// Ticks received before.
    pub repeated: u64,
    /// Ticks refused as more than 256 above the floor.
    pub far: u64,
    /// Numbers up to the known top that were not received.
    pub missing: u64,
    /// P002 frames of status 0: requests.
    pub asked: u64,
    /// P002 frames of status 4: no data.
    pub unavailable: u64,
}

/// Up to 500 captures, and for each of up to 32 channels named at the start six sums. A capture's
/// figures are counted from a fresh ledger of each channel. They are the same for a scrubbed
/// capture, and the sums are the same in every order of the captures.
///
/// ```
/// # use rietknoest_host::*;
/// let mut page = Month::start(&[ChannelNumber::new(100)])?;
/// let told = page.add(b"no frame at all")?;
/// assert_eq!(told, [Figures::default()]);
/// assert_eq!(page.captures(), 1);
/// # Ok::<(), Refusal>(())
/// ```
#[derive(Clone, Copy, Debug, PartialEq, Eq)]
#[repr(C)]
pub struct Month {
    channels: [u64; 32],
    named: u64,
    taken: u64,
    sums: [Figures; 32],
}

/// How many numbers a page has.
const WORDS: usize = 32 + 2 + 32 * 6;

impl Month {
    /// How many captures a page takes.
    pub const CAPTURES: u64 = 500;

    /// A page of these channels, with nothing taken. They are judged one by one: 10 above 9,999,
    /// 22 if named before, 21 for a 33rd.
    pub fn start(channels: &[ChannelNumber]) -> Result<Month, Refusal> {
        let channels: Vec<u16> = channels.iter().map(|c| c.value()).collect();
        let mut page = Month::from_words([0; WORDS]);
        let answer = raw::month_start(&channels, &mut page);
        result(answer, page)
    }

    /// Takes one more capture, and returns its figures for each channel in the order named. 27 for
    /// a 501st capture, 28 if a sum would pass 64 bits: then the page stays as it is.
    pub fn add(&mut self, capture: &[u8]) -> Result<Vec<Figures>, Refusal> {
        let mut told = raw::FiguresRow::default();
        let answer = raw::month_add(self, capture, &mut told);
        result(answer, told.rows[..self.named()].to_vec())
    }

    /// How many channels are named; at most 32, whatever the words say.
    fn named(&self) -> usize {
        self.named.min(32) as usize
    }

    /// The channels, in the order named. One that needs more than two bytes, which no call writes,
    /// is told as 65,535: no channel's.
    pub fn channels(&self) -> impl Iterator<Item = ChannelNumber> + '_ {
        let named = &self.channels[..self.named()];
        let name = |c: &u64| u16::try_from(*c).unwrap_or(u16::MAX);
        named.iter().map(move |c| ChannelNumber::new(name(c)))
    }

    /// How many captures were taken.
    #[must_use]
    pub const fn captures(&self) -> u64 {
        self.taken
    }

    /// The sums over them, for each channel in the order named.
    #[must_use]
    pub fn sums(&self) -> &[Figures] {
        &self.sums[..self.named()]
    }

    /// The words, to save the page.
    #[must_use]
    pub fn to_words(self) -> [u64; WORDS] {
        let mut words = [0; WORDS];
        words[..32].copy_from_slice(&self.channels);
        words[32] = self.named;
        words[33] = self.taken;
        for (row, f) in words[34..].chunks_exact_mut(6).zip(self.sums) {
            row.copy_from_slice(&[
                f.received,
                f.repeated,
                f.far,
                f.missing,
                f.asked,
                f.unavailable,
            ]);
        }
        words
    }

    /// The page of saved words. Each call returns 13 if they break the page's rules.
    #[must_use]
    pub fn from_words(words: [u64; WORDS]) -> Month {
        let mut sums = [Figures::default(); 32];
        for (f, row) in sums.iter_mut().zip(words[34..].chunks_exact(6)) {
            *f = Figures {
                received: row[0],
                repeated: row[1],
                far: row[2],
                missing: row[3],
                asked: row[4],
                unavailable: row[5],
            };
        }
        let mut channels = [0; 32];
        channels.copy_from_slice(&words[..32]);
        Month {
            channels,
            named: words[32],
            taken: words[33],
            sums,
        }
    }
}
