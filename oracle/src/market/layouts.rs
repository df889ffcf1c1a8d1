//! The columns of the five rows, in the order of 003, 3.1.

/// What a column is; each but a constant with its width.
#[derive(Clone, Copy, Debug, PartialEq, Eq)]
pub enum Kind {
    Constant(&'static str),
    /// "blank where 003 says so"
    Blank(usize),
    /// NX or NX(Y): the width, and how many decimals.
    Number(usize, usize),
    /// CX
    Text(usize),
    /// The name in UTF-16LE.
    Name(usize),
}

impl Kind {
    pub fn width(self) -> usize {
        match self {
            Kind::Constant(text) => text.len(),
            Kind::Blank(n) | Kind::Number(n, _) | Kind::Text(n) | Kind::Name(n) => n,
        }
    }
}

#[derive(Clone, Copy, Debug, PartialEq, Eq)]
pub struct Column {
    pub name: &'static str,
    pub kind: Kind,
}

/// The four types of lines: MD401, MD404, MD405, MD406.
pub const TYPES: [u16; 4] = [401, 404, 405, 406];

/// N11(3), the form of every price.
const PRICE: Kind = Kind::Number(11, 3);

fn columns(list: &[(&'static str, Kind)]) -> Vec<Column> {
    let column = |(name, kind): &(&'static str, Kind)| Column { name, kind: *kind };
    list.iter().map(column).collect()
}

/// "the header line of 82 bytes"
pub fn header() -> Vec<Column> {
    columns(&[
        ("BeginString", Kind::Constant("HEADER")),
        ("Version", Kind::Constant("BTH1.00 ")),
        ("BodyLength", Kind::Blank(10)),
        ("TotNumTradeReports", Kind::Number(5, 0)),
        ("MDReportID", Kind::Blank(8)),
        ("SenderCompID", Kind::Constant("SSEIN ")),
        ("MDTime", Kind::Text(21)),
        ("MDUpdateType", Kind::Number(1, 0)),
        ("MktStatus", Kind::Text(8)),
    ])
}

/// "lines of MD401 (227 bytes), MD404 (128), MD405 (125) and MD406 (149)"
pub fn line(kind: u16) -> Vec<Column> {
    let (name, rest) = match kind {
        401 => ("MD401", md401()),
        404 => ("MD404", md404()),
        405 => ("MD405", md405()),
        406 => ("MD406", md406()),
        _ => panic!("there is no such type"),
    };
    let front = columns(&[
        ("MDStreamID", Kind::Constant(name)),
        ("SecurityID", Kind::Text(5)),
        ("Symbol", Kind::Name(32)),
        ("SymbolEn", Kind::Text(15)),
    ]);
    [front, rest].concat()
}

fn md401() -> Vec<Column> {
    columns(&[
        ("TradeVolume", Kind::Number(16, 0)),
        ("TotalValueTraded", Kind::Number(16, 3)),
        ("PreClosePx", PRICE),
        ("NominalPrice", PRICE),
        ("HighPrice", PRICE),
        ("LowPrice", PRICE),
        ("TradePrice", PRICE),
        ("BuyPrice1", PRICE),
        ("BuyVolume1", Kind::Number(12, 0)),
        ("SellPrice1", PRICE),
        ("SellVolume1", Kind::Number(12, 0)),
        ("SecTradingStatus", Kind::Text(8)),
        ("Timestamp", Kind::Text(12)),
    ])
}

fn md404() -> Vec<Column> {
    columns(&[
        ("VCMStartTime", Kind::Text(8)),
        ("VCMEndTime", Kind::Text(8)),
        ("VCMRefPrice", PRICE),
        ("VCMLowerPrice", PRICE),
        ("VCMUpperPrice", PRICE),
        ("Timestamp", Kind::Text(12)),
    ])
}

fn md405() -> Vec<Column> {
    columns(&[
        ("CASRefPrice", PRICE),
        ("CASLowerPrice", PRICE),
        ("CASUpperPrice", PRICE),
        ("OrdImbDirection", Kind::Text(1)),
        ("OrdImbQty", Kind::Number(12, 0)),
        ("Timestamp", Kind::Text(12)),
    ])
}

fn md406() -> Vec<Column> {
    columns(&[
        ("POSRefPrice", PRICE),
        ("POSLowerBidPrice", PRICE),
        ("POSUpperBidPrice", PRICE),
        ("POSLowerAskPrice", PRICE),
        ("POSUpperAskPrice", PRICE),
        ("OrdImbDirection", Kind::Text(1)),
        ("OrdImbQty", Kind::Number(12, 0)),
        ("Timestamp", Kind::Text(12)),
    ])
}

#[cfg(test)]
mod tests {
    use super::*;

    fn length(columns: &[Column]) -> usize {
        columns.iter().map(|c| c.kind.width() + 1).sum()
    }

    fn place(columns: &[Column], name: &str) -> usize {
        let before = columns.iter().take_while(|c| c.name != name);
        before.map(|c| c.kind.width() + 1).sum()
    }

    #[test]
    fn the_lengths_are_those_of_the_request() {
        assert_eq!(length(&header()), 82);
        let lengths = TYPES.map(|kind| length(&line(kind)));
        assert_eq!(lengths, [227, 128, 125, 149]);
    }

    #[test]
    fn some_places() {
        assert_eq!(place(&header(), "TotNumTradeReports"), 27);
        assert_eq!(place(&header(), "MktStatus"), 73);
        assert_eq!(place(&line(401), "Symbol"), 12);
        assert_eq!(place(&line(401), "TotalValueTraded"), 78);
        assert_eq!(place(&line(401), "Timestamp"), 214);
        assert_eq!(place(&line(404), "VCMUpperPrice"), 103);
        assert_eq!(place(&line(405), "OrdImbDirection"), 97);
        assert_eq!(place(&line(406), "OrdImbQty"), 123);
    }
}
