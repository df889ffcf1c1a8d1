//! "What each number says": the refusals and their numbers.

/// The number of a call that none of the refusals applies to.
pub const DONE: u32 = 0;

/// A refusal. Each comment is the table's "Given exactly when".
#[derive(Clone, Copy, Debug, PartialEq, Eq)]
pub enum No {
    /// 1: fewer than 24 bytes, or fewer than the frame's length
    More,
    /// 2: MsgType not in the table
    Type,
    /// 3: body above 8,164
    Long,
    /// 4: BodyLength doesn't suit the type
    Length,
    /// 5: CheckSum differs, all 32 bits compared
    Sum,
    /// 6: a field rule is broken
    Field,
    /// 7: SendingTime is no real time (CR 6)
    Time,
    /// 8: output buffer shorter than what is to be written
    Room,
    /// 9: search start beyond the end
    Place,
    /// 10: tick number 0 or above 18 digits; announced top above 18 digits;
    /// channel above 9,999
    Number,
    /// 11: tick already received
    Repeat,
    /// 12: tick above floor + 256 and not a repeat
    Far,
    /// 13: a state passed in breaks its state rules
    State,
    /// 14: a request is pending
    Busy,
    /// 15: nothing is missing
    Whole,
    /// 16: reply with no request pending, or with another first number
    Unasked,
    /// 17: reply status not 1 to 5 or 99
    Status,
    /// 18: call names another channel
    Channel,
    /// 19: any call after the closing one (CR 1)
    Closed,
    /// 20: the entry reader's body is below 73 bytes, its place is not
    /// 73 + k sizes with k below NoMDEntries, or that entry passes the body's
    /// end
    Entries,
    /// 21: the table of channels is full (CR 3)
    Full,
    /// 22: the channel is open already (CR 3)
    Open,
    /// 27: a 501st capture (CR 11)
    Captures,
    /// 28: a sum that would pass 64 bits (CR 11)
    Sums,
    /// 29: places would pass 64 bits (CR 1)
    Places,
    /// 30: anything but logon or logout before the logon answer (CR 12)
    Early,
    /// 31: MsgSeqNum not the expected one (CR 12)
    Sequence,
    /// 32: session over or a counter at its last 64-bit number (CR 12)
    Over,
    /// 33: a second logon (CR 12)
    Again,
}

impl No {
    pub fn number(self) -> u32 {
        match self {
            No::More => 1,
            No::Type => 2,
            No::Long => 3,
            No::Length => 4,
            No::Sum => 5,
            No::Field => 6,
            No::Time => 7,
            No::Room => 8,
            No::Place => 9,
            No::Number => 10,
            No::Repeat => 11,
            No::Far => 12,
            No::State => 13,
            No::Busy => 14,
            No::Whole => 15,
            No::Unasked => 16,
            No::Status => 17,
            No::Channel => 18,
            No::Closed => 19,
            No::Entries => 20,
            No::Full => 21,
            No::Open => 22,
            No::Captures => 27,
            No::Sums => 28,
            No::Places => 29,
            No::Early => 30,
            No::Sequence => 31,
            No::Over => 32,
            No::Again => 33,
        }
    }
}

/// Document 01's number for an answer: 0 for done, else the refusal's.
pub fn number<T>(answer: &Result<T, No>) -> u32 {
    match answer {
        Ok(_) => DONE,
        Err(no) => no.number(),
    }
}
