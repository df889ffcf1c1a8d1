//! The refusals, and the three counters that are not accepted for each other.

use std::error::Error;
use std::fmt;

/// Makes `Refusal` of its table: a row has variant, number, name and words.
macro_rules! refusals {
    ($($variant:ident = $number:literal, $name:literal, $words:literal;)*) => {
        /// A refusal: any row of document 01's table but 0, or one of document 02. Later requests
        /// add rows.
        #[derive(Clone, Copy, Debug, PartialEq, Eq, Hash)]
        #[non_exhaustive]
        #[repr(u32)]
        pub enum Refusal {
            $(#[doc = $words] $variant = $number,)*
        }

        impl Refusal {
            /// Every refusal, in the order of the table.
            pub const ALL: &'static [Refusal] = &[$(Refusal::$variant),*];

            /// Its name in the table.
            pub const fn name(self) -> &'static str {
                match self {
                    $(Refusal::$variant => $name,)*
                }
            }

            /// What happened, in words.
            pub const fn words(self) -> &'static str {
                match self {
                    $(Refusal::$variant => $words,)*
                }
            }

            /// The refusal with a number; none for 0 or a number that is not in the table.
            pub const fn from_number(number: u32) -> Option<Refusal> {
                match number {
                    $($number => Some(Refusal::$variant),)*
                    _ => None,
                }
            }
        }
    };
}

refusals! {
    More = 1, "more", "the bytes end before the frame does";
    Type = 2, "type", "the MsgType is not in the table";
    Long = 3, "long", "the body has more than 8,164 bytes";
    Length = 4, "length", "the BodyLength does not suit the type";
    Sum = 5, "sum", "the checksum differs";
    Field = 6, "field", "a field breaks its rule";
    Time = 7, "time", "the SendingTime is no real time";
    Room = 8, "room", "the output buffer is too short";
    Place = 9, "place", "the search starts beyond the end";
    Number = 10, "number", "a tick number is 0 or above 18 digits, or a channel above 9,999";
    Repeat = 11, "repeat", "the tick was received before, or given up";
    Far = 12, "far", "the tick is more than 256 above the floor";
    State = 13, "state", "the state breaks its rules: other code wrote it";
    Busy = 14, "busy", "a request is pending";
    Whole = 15, "whole", "nothing is missing";
    Unasked = 16, "unasked", "the reply answers no pending request";
    Status = 17, "status", "the reply's status is not 1 to 5 or 99";
    Channel = 18, "channel", "the call names another channel, or one that is not open";
    Closed = 19, "closed", "the stream is closed already";
    Entries = 20, "entries", "the body has no whole entry at this place";
    Full = 21, "full", "all 32 places of the table are taken";
    Open = 22, "open", "the channel is open already";
    Begin = 23, "begin", "the begin string is not 8=FIXT.1.1";
    BodyLength = 24, "body_length", "no body length of one to nine digits stands second";
    MsgType = 25, "msg_type", "the type is none of A 5 0 1 2 3 4";
    Fields = 26, "fields", "a field is malformed, empty, repeated, missing, or not of the type";
    Captures = 27, "captures", "the page has 500 captures already";
    Sums = 28, "sums", "a sum would not fit 64 bits";
    Places = 29, "places", "a place in the stream would not fit 64 bits";
    Early = 30, "early", "anything but logon or logout before the logon answer";
    Sequence = 31, "sequence", "the MsgSeqNum is not the expected one";
    Over = 32, "over", "the session is over, the line dead, or a counter at its last number";
    Again = 33, "again", "a second logon";
}

impl Refusal {
    /// Its number in the table.
    pub const fn number(self) -> u32 {
        self as u32
    }
}

/// Number and words: `5: the checksum differs`.
impl fmt::Display for Refusal {
    fn fmt(&self, f: &mut fmt::Formatter<'_>) -> fmt::Result {
        write!(f, "{}: {}", self.number(), self.words())
    }
}

impl Error for Refusal {}

/// The value if the code is 0, else the refusal.
pub(crate) fn result<T>(answer: u32, value: T) -> Result<T, Refusal> {
    match answer {
        0 => Ok(value),
        n => Err(Refusal::from_number(n).expect("the library answers numbers of the table")),
    }
}

/// What a call writes, if its code is 0, else the refusal. The call writes where the result stands:
/// a copy of two words by one load would wait until both stores are done.
#[inline]
pub(crate) fn told<T: Default>(call: impl FnOnce(&mut T) -> u32) -> Result<T, Refusal> {
    let mut told = Ok(T::default());
    if let Ok(value) = &mut told {
        if let Err(why) = result(call(value), ()) {
            told = Err(why);
        }
    }
    told
}

/// The value of a call that is never refused.
pub(crate) fn always<T>(answer: u32, value: T) -> T {
    result(answer, value).expect("the library never refuses this call")
}

/// A session's count of frames: MsgSeqNum. A tick number or a channel is not accepted for one:
///
/// ```
/// # use rietknoest_host::*;
/// write(0x53303033, 20260121093000000, SessionNumber::new(1), b"", &mut [0; 28]).unwrap();
/// ```
/// ```compile_fail,E0308
/// # use rietknoest_host::*;
/// write(0x53303033, 20260121093000000, TickNumber::new(1), b"", &mut [0; 28]).unwrap();
/// ```
/// ```compile_fail,E0308
/// # use rietknoest_host::*;
/// write(0x53303033, 20260121093000000, ChannelNumber::new(1), b"", &mut [0; 28]).unwrap();
/// ```
#[derive(Clone, Copy, Debug, Default, PartialEq, Eq, PartialOrd, Ord, Hash)]
#[repr(transparent)]
pub struct SessionNumber(u64);

impl SessionNumber {
    pub const fn new(value: u64) -> SessionNumber {
        SessionNumber(value)
    }

    pub const fn value(self) -> u64 {
        self.0
    }
}

/// A number within a tick channel: a tick, the ends of a resend, a ledger's floor and top. A
/// session number or a channel is not accepted for one:
///
/// ```
/// # use rietknoest_host::*;
/// let channel = ChannelNumber::new(100);
/// let _ = Ledger::open(channel).unwrap().tick(channel, TickNumber::new(1)).unwrap();
/// ```
/// ```compile_fail,E0308
/// # use rietknoest_host::*;
/// let channel = ChannelNumber::new(100);
/// let _ = Ledger::open(channel).unwrap().tick(channel, SessionNumber::new(1)).unwrap();
/// ```
/// ```compile_fail,E0308
/// # use rietknoest_host::*;
/// let channel = ChannelNumber::new(100);
/// let _ = Ledger::open(channel).unwrap().tick(channel, ChannelNumber::new(1)).unwrap();
/// ```
#[derive(Clone, Copy, Debug, Default, PartialEq, Eq, PartialOrd, Ord, Hash)]
#[repr(transparent)]
pub struct TickNumber(u64);

impl TickNumber {
    pub const fn new(value: u64) -> TickNumber {
        TickNumber(value)
    }

    pub const fn value(self) -> u64 {
        self.0
    }
}

/// A channel: ChannelNO. A session number or a tick number is not accepted for one:
///
/// ```
/// # use rietknoest_host::*;
/// Ledger::open(ChannelNumber::new(100)).unwrap();
/// ```
/// ```compile_fail,E0308
/// # use rietknoest_host::*;
/// Ledger::open(SessionNumber::new(100)).unwrap();
/// ```
/// ```compile_fail,E0308
/// # use rietknoest_host::*;
/// Ledger::open(TickNumber::new(100)).unwrap();
/// ```
///
/// It has eight bytes, as in the library's structs; the number itself fits into two.
#[derive(Clone, Copy, Debug, Default, PartialEq, Eq, PartialOrd, Ord, Hash)]
#[repr(transparent)]
pub struct ChannelNumber(u64);

impl ChannelNumber {
    pub const fn new(value: u16) -> ChannelNumber {
        ChannelNumber(value as u64)
    }

    pub const fn value(self) -> u16 {
        self.0 as u16
    }
}
