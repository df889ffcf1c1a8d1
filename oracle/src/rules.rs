//! The table of types: lengths and field rules.

use crate::bytes::number;
use crate::tails;

/// The longest body: that of a frame of 8,192 bytes.
pub const MOST_BODY: usize = 8_164;

/// The types of the table, in its order.
#[derive(Clone, Copy, Debug, PartialEq, Eq)]
pub enum Kind {
    S001,
    S002,
    S003,
    P001,
    P002,
    M101,
    M102,
    M201,
}

pub const KINDS: [Kind; 8] = [
    Kind::S001,
    Kind::S002,
    Kind::S003,
    Kind::P001,
    Kind::P002,
    Kind::M101,
    Kind::M102,
    Kind::M201,
];

impl Kind {
    /// The four bytes of MsgType.
    pub fn name(self) -> [u8; 4] {
        match self {
            Kind::S001 => *b"S001",
            Kind::S002 => *b"S002",
            Kind::S003 => *b"S003",
            Kind::P001 => *b"P001",
            Kind::P002 => *b"P002",
            Kind::M101 => *b"M101",
            Kind::M102 => *b"M102",
            Kind::M201 => *b"M201",
        }
    }

    /// The kind that a MsgType names, if it is in the table.
    pub fn of(name: [u8; 4]) -> Option<Kind> {
        KINDS.into_iter().find(|k| k.name() == name)
    }

    /// Whether a BodyLength suits the type: the table's column "Length".
    /// The upper bound of 8,164 is a check of its own (3) and comes before.
    pub fn length_suits(self, length: usize) -> bool {
        match self {
            Kind::S001 => length == 74,
            Kind::S002 => length == 260,
            Kind::S003 => length == 0,
            Kind::P001 => length == 12,
            Kind::P002 => length == 52,
            Kind::M101 => length <= MOST_BODY,
            // 0.2: a body below 73 bytes is 4; one that is not 73 plus
            // NoMDEntries whole entries is 6.
            Kind::M102 => length >= 73,
            Kind::M201 => length >= 45,
        }
    }

    /// Whether a body, whose length suits the type, keeps every field rule.
    pub fn fields_hold(self, body: &[u8]) -> bool {
        match self {
            Kind::S001 => s001(body),
            Kind::S002 => s002(body),
            Kind::S003 => true,
            Kind::P001 => p001(body),
            Kind::P002 => p002(body),
            // "carried as bytes, not judged"
            Kind::M101 => true,
            Kind::M102 => m102(body),
            Kind::M201 => m201(body),
        }
    }
}

/// A body taken apart field by field, in the order of the table's widths.
struct Fields<'a> {
    rest: &'a [u8],
}

impl<'a> Fields<'a> {
    fn of(body: &'a [u8]) -> Fields<'a> {
        Fields { rest: body }
    }

    fn text(&mut self, width: usize) -> &'a [u8] {
        let (field, rest) = self.rest.split_at(width);
        self.rest = rest;
        field
    }

    fn number(&mut self, width: usize) -> u64 {
        number(self.text(width))
    }
}

/// "n digits" means below 10^n (0.3).
pub fn digits(value: u64, n: u32) -> bool {
    value < 10u64.pow(n)
}

/// SenderCompID 32, TargetCompID 32, HeartBtInt 2, ApplVerID 8
fn s001(body: &[u8]) -> bool {
    let mut f = Fields::of(body);
    let _sender = f.text(32);
    let _target = f.text(32);
    let heart_bt_int = f.number(2);
    let _version = f.text(8);
    // "HeartBtInt is above 0."
    heart_bt_int > 0
}

/// SessionStatus 4, Text 256
fn s002(body: &[u8]) -> bool {
    let mut f = Fields::of(body);
    let session_status = f.number(4);
    // "SessionStatus is at most 9,999."
    session_status <= 9_999
}

/// SecurityType 1, ChannelNO 2, ApplLastSeqNum 8, EndOfChannel 1
fn p001(body: &[u8]) -> bool {
    let mut f = Fields::of(body);
    let security_type = f.number(1);
    let channel = f.number(2);
    let last = f.number(8);
    let end = f.number(1);
    // "P001: SecurityType 13, EndOfChannel Y or N."
    security_type == 13
        && (end == u64::from(b'Y') || end == u64::from(b'N'))
        // "ChannelNO 4 digits", "ApplLastSeqNum .. at most 18 digits"
        && digits(channel, 4)
        && digits(last, 18)
}

/// ChannelNO 2, ResendType 1, ApplBegSeqNum 8, ApplEndSeqNum 8,
/// ResendStatus 1, RejectText 32
fn p002(body: &[u8]) -> bool {
    let mut f = Fields::of(body);
    let channel = f.number(2);
    let resend_type = f.number(1);
    let begin = f.number(8);
    let end = f.number(8);
    let status = f.number(1);
    // ResendType, the first number, and ResendStatus; status 0 is a request
    resend_type == 1
        && begin > 0
        && (status <= 5 || status == 99)
        // a request is open-ended, or does not end below its start
        && (status != 0 || end == 0 || end >= begin)
        // "ChannelNO 4 digits", "both resend numbers have at most 18 digits"
        && digits(channel, 4)
        && digits(begin, 18)
        && digits(end, 18)
}

/// The stream whose entries are short.
pub const INDEX_STREAM: &[u8] = b"MD001";

/// The bytes of an M102 entry: 10 for stream MD001, type and price alone; 19 for
/// any other, with size and position. The body has at least 73 bytes.
pub fn entry_size(body: &[u8]) -> usize {
    if &body[10..15] == INDEX_STREAM {
        10
    } else {
        19
    }
}

/// NoMDEntries. The body has at least 73 bytes.
pub fn entry_count(body: &[u8]) -> usize {
    number(&body[71..73]) as usize
}

/// Which stream goes with which SecurityType.
pub fn stream_pairs(security_type: u64, stream: &[u8]) -> bool {
    match security_type {
        1 => [b"MD001", b"MD002", b"MD003", b"MD004"]
            .iter()
            .any(|s| stream == s.as_slice()),
        2 => stream == b"MD301",
        3 => stream == b"MD101" || stream == b"MD102",
        12 => stream == b"MD201",
        13 => stream == b"MD210",
        14 => stream == b"MDE01",
        _ => false,
    }
}

/// SecurityType 1, TradSesMode 1, TradeDate 4, LastUpdateTime 4, MDStreamID 5,
/// SecurityID 8, Symbol 8, PreClosePx 8, TotalVolumeTraded 8, NumTrades 8,
/// TotalValueTraded 8, TradingPhaseCode 8, NoMDEntries 2, entries
fn m102(body: &[u8]) -> bool {
    let mut f = Fields::of(body);
    let security_type = f.number(1);
    let mode = f.number(1);
    let date = f.number(4);
    let time = f.number(4);
    let stream = f.text(5);
    let _security = f.text(8);
    let _symbol = f.text(8);
    let pre_close = f.number(8);
    let volume = f.number(8);
    let trades = f.number(8);
    let value = f.number(8);
    let _phase = f.text(8);
    let count = f.number(2) as usize;
    let size = entry_size(body);

    // "M102: TradSesMode 1 to 3; SecurityType and stream pair as .."
    let head = (1..=3).contains(&mode)
        && stream_pairs(security_type, stream)
        // "TradeDate 8, both times of day 9, PreClosePx .. 13, the three
        // totals 16"
        && digits(date, 8)
        && digits(time, 9)
        && digits(pre_close, 13)
        && digits(volume, 16)
        && digits(trades, 16)
        && digits(value, 16);
    // as many whole entries as NoMDEntries says, and no byte more
    if !head || body.len() != 73 + count * size {
        return false;
    }
    // "Entry types are not judged."
    (0..count).all(|_| {
        let _entry_type = f.text(2);
        let price = f.number(8);
        // "entry price 13, .. entry size 12, position 2"
        let long = size == 10 || {
            let quantity = f.number(8);
            let position = f.number(1);
            digits(quantity, 12) && digits(position, 2)
        };
        digits(price, 13) && long
    })
}

/// SecurityType 1, ChannelNO 2, ApplSeqNum 8, MDStreamID 5, SecurityID 8,
/// TransactTime 4, ExecType 1, Price 8, OrderQty 8, extension
fn m201(body: &[u8]) -> bool {
    let mut f = Fields::of(body);
    let security_type = f.number(1);
    let channel = f.number(2);
    let tick = f.number(8);
    let _stream = f.text(5);
    let _security = f.text(8);
    let time = f.number(4);
    let exec_type = f.text(1)[0];
    let price = f.number(8);
    let quantity = f.number(8);
    // SecurityType, ExecType (a letter, 0.5) and ApplSeqNum; any stream
    security_type == 13
        && (exec_type == b'0' || exec_type == b'4' || exec_type == b'F')
        && tick > 0
        // "ChannelNO 4 digits", "both times of day 9", "Price .. 13",
        // "OrderQty 15", "ApplSeqNum .. at most 18 digits"
        && digits(channel, 4)
        && digits(tick, 18)
        && digits(time, 9)
        && digits(price, 13)
        && digits(quantity, 15)
        // CR 2: the tail is as long as its layout says
        && tails::suits(body)
}
