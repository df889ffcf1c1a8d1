//! Walks or scrubs a capture while it arrives.

use crate::ledger::Ledger;
use crate::numbers::{always, result, Refusal};
use crate::raw;

/// At most so many bytes wait between two calls of a stream.
pub const KEPT: usize = 8_191;

/// A capture that is read while it arrives, in cuts of any size. However it is cut, the records of
/// all calls, the counts and the ledger are those of `walk` over the joined bytes of the calls that
/// were not refused.
///
/// The bytes that wait are kept as they came, private ones included; so there is no `Debug`.
#[derive(Clone, PartialEq, Eq)]
#[repr(C)]
pub struct Stream {
    words: [u64; 6],
    /// The ledger of channel 100. You may make a request or a reply on it, or renew it, between two
    /// calls; the walk does none of these.
    pub ledger: Ledger,
    kept: [u8; KEPT],
}

/// The result of a stream's call. `records` counts those of this call, `frames` and `refused` the
/// readings so far; `place` is that of the first byte that waits, or of the next one to come;
/// `waiting` is how many bytes wait.
#[derive(Clone, Copy, Debug, Default, PartialEq, Eq)]
#[must_use = "no later call says how many records this one gave"]
#[repr(C)]
pub struct Fed {
    pub records: u64,
    pub frames: u64,
    pub refused: u64,
    pub place: u64,
    pub waiting: u64,
}

impl Stream {
    /// A fresh stream.
    #[must_use]
    pub fn open() -> Stream {
        let mut stream = Stream::from_parts([0; 6], Ledger::from_words([0; 9]), [0; KEPT]);
        let (words, ledger, kept) = stream.parts();
        always(raw::stream_open(words, ledger, kept), ());
        stream
    }

    /// One more cut, perhaps empty: the records of the readings that it decides, at the front of
    /// `records`; 8 if they do not fit. `records_room` of the bytes that wait and the cut's is
    /// always enough. It takes at most 2 KB of stack.
    pub fn feed(&mut self, cut: &[u8], records: &mut [u8]) -> Result<Fed, Refusal> {
        let mut fed = Fed::default();
        let (words, ledger, kept) = self.parts();
        let answer = raw::stream_feed(words, ledger, kept, cut, records, &mut fed);
        result(answer, fed)
    }

    /// Ends the stream: what waits is walked as the end of a capture. After 8 the stream is still
    /// open. It takes at most 2 KB of stack.
    pub fn close(&mut self, records: &mut [u8]) -> Result<Fed, Refusal> {
        let mut fed = Fed::default();
        let (words, ledger, kept) = self.parts();
        let answer = raw::stream_close(words, ledger, kept, records, &mut fed);
        result(answer, fed)
    }

    fn parts(&mut self) -> (&mut [u64; 6], &mut Ledger, &mut [u8; KEPT]) {
        (&mut self.words, &mut self.ledger, &mut self.kept)
    }

    /// The words, the ledger and the bytes that wait, with zeros after them, to save the stream.
    /// These bytes are not scrubbed. Save [`STATE_FORM`](crate::STATE_FORM) with them.
    #[must_use]
    pub fn into_parts(self) -> ([u64; 6], Ledger, [u8; KEPT]) {
        (self.words, self.ledger, self.kept)
    }

    /// The stream of saved parts. Each call returns 13 if they break the state rules.
    #[must_use]
    pub const fn from_parts(words: [u64; 6], ledger: Ledger, kept: [u8; KEPT]) -> Stream {
        Stream {
            words,
            ledger,
            kept,
        }
    }
}

/// A capture that is scrubbed while it arrives, in cuts of any size. However it is cut, the bytes
/// of all calls are, one after the other, those that `clean` writes of the whole, and their counts
/// add up to `clean`'s.
///
/// The bytes that wait are kept as they came, private ones included; so there is no `Debug`.
#[derive(Clone, PartialEq, Eq)]
pub struct Scrubber {
    stream: Stream,
}

/// The result of a scrubber's call, of this call alone: how many bytes were written, how many
/// frames they are, how many of these the search found after damage, and how many are M101 frames,
/// whose bodies no rule judges. `place` is that of the first byte that waits, or of the next one to
/// come; `waiting` is how many bytes wait.
#[derive(Clone, Copy, Debug, Default, PartialEq, Eq)]
#[must_use = "no later call says how many bytes this one wrote"]
#[repr(C)]
pub struct Scrubbed {
    pub bytes: u64,
    pub frames: u64,
    pub after_damage: u64,
    pub unjudged: u64,
    pub place: u64,
    pub waiting: u64,
}

impl Scrubber {
    /// A fresh scrubber.
    #[must_use]
    pub fn open() -> Scrubber {
        Scrubber::from_stream(Stream::open())
    }

    /// One more cut, perhaps empty: the accepted frames that it decides, each scrubbed, at the
    /// front of `out`; 8 if they do not fit. As many bytes as wait and the cut has are always
    /// enough. It takes at most 2 KB of stack.
    pub fn clean(&mut self, cut: &[u8], out: &mut [u8]) -> Result<Scrubbed, Refusal> {
        let mut scrubbed = Scrubbed::default();
        let (words, ledger, kept) = self.stream.parts();
        let answer = raw::stream_clean(words, ledger, kept, cut, out, &mut scrubbed);
        result(answer, scrubbed)
    }

    /// Ends it: what waits is cleaned as the end of a capture. After 8 it is still open. It
    /// takes at most 2 KB of stack.
    pub fn close(&mut self, out: &mut [u8]) -> Result<Scrubbed, Refusal> {
        let mut scrubbed = Scrubbed::default();
        let (words, ledger, kept) = self.stream.parts();
        let answer = raw::stream_clean_close(words, ledger, kept, out, &mut scrubbed);
        result(answer, scrubbed)
    }

    /// The stream that stands between two calls, to save it. The bytes that wait are not scrubbed.
    #[must_use]
    pub fn into_stream(self) -> Stream {
        self.stream
    }

    /// The scrubber of a saved stream. Each call returns 13 if it breaks the state rules.
    #[must_use]
    pub const fn from_stream(stream: Stream) -> Scrubber {
        Scrubber { stream }
    }
}
