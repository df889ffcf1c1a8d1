//! B-to-H market files, mktdth.txt: checked, taken apart into values, and written again from them.
//! A refusal writes nothing. The columns' names are for people, and decide nothing: tests/market.rs
//! holds them against what the library answers.

use std::error::Error;
use std::fmt;

use crate::raw::{self, Finding};

/// A file of more bytes is refused.
pub const LARGEST: usize = 65_536;

/// How many lines a sound file has between its header and its trailer.
#[derive(Clone, Copy, Debug, PartialEq, Eq)]
pub struct Lines(pub usize);

/// What is wrong: document 02's numbers, and 8.
#[derive(Clone, Copy, Debug, PartialEq, Eq, Hash)]
#[repr(u32)]
pub enum Wrong {
    /// The output buffer is shorter than what is to be written.
    Room = 8,
    /// Cut short, or left-over bytes.
    CutShort = 40,
    Header = 41,
    LineType = 42,
    /// A column or bar of a line, or a value that does not fit its column.
    Column = 43,
    Count = 44,
    Trailer = 45,
    Sum = 46,
    /// Above 65,536 bytes.
    Large = 47,
}

impl Wrong {
    pub const ALL: [Wrong; 9] = [
        Wrong::Room,
        Wrong::CutShort,
        Wrong::Header,
        Wrong::LineType,
        Wrong::Column,
        Wrong::Count,
        Wrong::Trailer,
        Wrong::Sum,
        Wrong::Large,
    ];

    pub fn number(self) -> u32 {
        self as u32
    }
}

/// A refusal and its place; the place is 0 where there is none to tell.
#[derive(Clone, Copy, Debug, PartialEq, Eq)]
pub struct Fault {
    pub wrong: Wrong,
    pub place: usize,
}

impl fmt::Display for Fault {
    fn fmt(&self, f: &mut fmt::Formatter) -> fmt::Result {
        write!(f, "{} at {}", self.wrong.number(), self.place)
    }
}

impl Error for Fault {}

fn told(finding: Finding) -> Result<usize, Fault> {
    let place = finding.place as usize;
    let found = |w: &Wrong| u64::from(w.number()) == finding.number;
    match Wrong::ALL.into_iter().find(found) {
        None => Ok(place),
        Some(wrong) => Err(Fault { wrong, place }),
    }
}

/// Whether a file is sound.
pub fn check(file: &[u8]) -> Result<Lines, Fault> {
    told(raw::market_check(file)).map(Lines)
}

/// Takes a sound file's values, and answers how many bytes they are.
pub fn values(file: &[u8], out: &mut [u8]) -> Result<usize, Fault> {
    told(raw::market_values(file, out))
}

/// Writes the file that values make, and answers how long it is.
pub fn write(values: &[u8], out: &mut [u8]) -> Result<usize, Fault> {
    told(raw::market_write(values, out))
}

/// What a column holds.
#[derive(Clone, Copy, Debug, PartialEq, Eq)]
pub enum Form {
    Constant(&'static str),
    Blank(usize),
    /// Bytes, and decimals among them.
    Number(usize, usize),
    Text(usize),
    Name(usize),
}

impl Form {
    pub fn width(self) -> usize {
        match self {
            Form::Constant(text) => text.len(),
            Form::Blank(n) | Form::Number(n, _) | Form::Text(n) | Form::Name(n) => n,
        }
    }
}

impl fmt::Display for Form {
    fn fmt(&self, f: &mut fmt::Formatter) -> fmt::Result {
        match self {
            Form::Constant(text) => write!(f, "not `{text}`"),
            Form::Blank(n) => write!(f, "not {n} spaces"),
            Form::Number(n, 0) => write!(f, "not a whole number of {n}"),
            Form::Number(n, d) => write!(f, "not a number of {n} with {d} decimals"),
            Form::Text(n) => write!(f, "not a text of {n} that starts at the left"),
            Form::Name(n) => write!(f, "not a name of {n}"),
        }
    }
}

pub type Column = (&'static str, Form);

use Form::{Blank, Constant, Name, Number, Text};

pub const HEADER: [Column; 9] = [
    ("BeginString", Constant("HEADER")),
    ("Version", Constant("BTH1.00 ")),
    ("BodyLength", Blank(10)),
    ("TotNumTradeReports", Number(5, 0)),
    ("MDReportID", Blank(8)),
    ("SenderCompID", Constant("SSEIN ")),
    ("MDTime", Text(21)),
    ("MDUpdateType", Number(1, 0)),
    ("MktStatus", Text(8)),
];

pub const MD401: [Column; 17] = [
    ("MDStreamID", Constant("MD401")),
    ("SecurityID", Text(5)),
    ("Symbol", Name(32)),
    ("SymbolEn", Text(15)),
    ("TradeVolume", Number(16, 0)),
    ("TotalValueTraded", Number(16, 3)),
    ("PreClosePx", Number(11, 3)),
    ("NominalPrice", Number(11, 3)),
    ("HighPrice", Number(11, 3)),
    ("LowPrice", Number(11, 3)),
    ("TradePrice", Number(11, 3)),
    ("BuyPrice1", Number(11, 3)),
    ("BuyVolume1", Number(12, 0)),
    ("SellPrice1", Number(11, 3)),
    ("SellVolume1", Number(12, 0)),
    ("SecTradingStatus", Text(8)),
    ("Timestamp", Text(12)),
];

pub const MD404: [Column; 10] = [
    ("MDStreamID", Constant("MD404")),
    ("SecurityID", Text(5)),
    ("Symbol", Name(32)),
    ("SymbolEn", Text(15)),
    ("VCMStartTime", Text(8)),
    ("VCMEndTime", Text(8)),
    ("VCMRefPrice", Number(11, 3)),
    ("VCMLowerPrice", Number(11, 3)),
    ("VCMUpperPrice", Number(11, 3)),
    ("Timestamp", Text(12)),
];

pub const MD405: [Column; 10] = [
    ("MDStreamID", Constant("MD405")),
    ("SecurityID", Text(5)),
    ("Symbol", Name(32)),
    ("SymbolEn", Text(15)),
    ("CASRefPrice", Number(11, 3)),
    ("CASLowerPrice", Number(11, 3)),
    ("CASUpperPrice", Number(11, 3)),
    ("OrdImbDirection", Text(1)),
    ("OrdImbQty", Number(12, 0)),
    ("Timestamp", Text(12)),
];

pub const MD406: [Column; 12] = [
    ("MDStreamID", Constant("MD406")),
    ("SecurityID", Text(5)),
    ("Symbol", Name(32)),
    ("SymbolEn", Text(15)),
    ("POSRefPrice", Number(11, 3)),
    ("POSLowerBidPrice", Number(11, 3)),
    ("POSUpperBidPrice", Number(11, 3)),
    ("POSLowerAskPrice", Number(11, 3)),
    ("POSUpperAskPrice", Number(11, 3)),
    ("OrdImbDirection", Text(1)),
    ("OrdImbQty", Number(12, 0)),
    ("Timestamp", Text(12)),
];

/// The layouts of lines, each under its type.
pub const LAYOUTS: [(&str, &[Column]); 4] = [
    ("MD401", &MD401),
    ("MD404", &MD404),
    ("MD405", &MD405),
    ("MD406", &MD406),
];

/// The bytes of a line: each column, and the bar or newline behind it.
pub fn length(layout: &[Column]) -> usize {
    layout.iter().map(|(_, form)| form.width() + 1).sum()
}

/// Where a place lies: the header is line 0.
#[derive(Clone, Copy, Debug, PartialEq, Eq)]
pub struct Spot {
    pub line: usize,
    /// `header`, or the line's type.
    pub layout: &'static str,
    pub column: Column,
    /// The place is that of the byte behind the column.
    pub behind: bool,
}

/// The column in which a place of a file lies, as far as the lines before it have types. It looks
/// at no byte but those of types.
pub fn spot(file: &[u8], place: usize) -> Option<Spot> {
    let mut line = 0;
    let mut start = 0;
    let mut layout: (&'static str, &[Column]) = ("header", &HEADER);
    while start + length(layout.1) <= place {
        start += length(layout.1);
        line += 1;
        let kind = file.get(start..start + 5)?;
        layout = LAYOUTS
            .into_iter()
            .find(|(name, _)| name.as_bytes() == kind)?;
    }
    let mut at = start;
    for column in layout.1 {
        let end = at + column.1.width();
        if place <= end {
            return Some(Spot {
                line,
                layout: layout.0,
                column: *column,
                behind: place == end,
            });
        }
        at = end + 1;
    }
    None
}
