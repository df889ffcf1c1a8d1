//! CR 2: the extension of an M201 body, by 2.5.4.1 and 2.5.4.2 of 000.

/// Where the extension begins.
pub const FIXED: usize = 45;

/// What a field holds, and so what replaces it where it is private: "A private
/// number becomes 0 and private text becomes spaces".
#[derive(Clone, Copy, Debug, PartialEq, Eq)]
pub enum Type {
    Text,
    Number,
}

impl Type {
    pub fn fill(self) -> u8 {
        match self {
            Type::Text => 0x20,
            Type::Number => 0,
        }
    }
}

use Type::{Number, Text};

/// A field of a tail: name, width, what it holds, and whether it is private.
type Field = (&'static str, usize, Type, bool);

/// 2.5.4.1. "Member and trader codes and free text stay private" (2.2).
const ORDER: [Field; 16] = [
    ("Side", 1, Text, false),
    ("QuoteID", 18, Text, false),
    ("MemberID", 12, Text, true),
    ("TraderCode", 12, Text, true),
    ("FullAmountTrade", 1, Number, false),
    ("SettlType", 1, Number, false),
    ("ContractMultiplier", 4, Number, false),
    ("ExpirationDays", 2, Number, false),
    ("TotalValueTraded", 8, Number, false),
    ("BasketID", 16, Text, false),
    ("InvestorName", 32, Text, true),
    ("BidTransType", 1, Number, false),
    ("BidExecInstType", 1, Number, false),
    ("ExpireDate", 4, Number, false),
    ("SecondaryOrderID", 18, Text, false),
    ("MinQty", 8, Number, false),
];

/// 2.5.4.2.
const TRADE: [Field; 5] = [
    ("BidApplSeqNum", 18, Text, false),
    ("OfferApplSeqNum", 18, Text, false),
    ("TotalValueTraded", 8, Number, false),
    ("TradeMethod", 1, Number, false),
    ("MarginPrice", 8, Number, false),
];

/// The layout that a body's stream and ExecType choose, if 000 pairs them: each
/// of MD211 to MD216 with 0 and 4 an order's, MD217 with F a trade's (2.1).
fn layout(body: &[u8]) -> Option<&'static [Field]> {
    let stream = &body[11..16];
    let orders = [b"MD211", b"MD212", b"MD213", b"MD214", b"MD215", b"MD216"];
    let order = orders.iter().any(|name| stream == *name);
    match body[28] {
        b'0' | b'4' if order => Some(&ORDER),
        b'F' if stream == b"MD217" => Some(&TRADE),
        _ => None,
    }
}

fn length(layout: &[Field]) -> usize {
    layout.iter().map(|(_, width, _, _)| width).sum()
}

/// Whether the tail of a body of 45 bytes or more is as long as its layout says;
/// if not, reading answers 6. No value in it is judged (2.3).
pub fn suits(body: &[u8]) -> bool {
    match layout(body) {
        Some(layout) => body.len() == FIXED + length(layout),
        None => true,
    }
}

/// The private parts of a body of 45 bytes or more: place, length, fill. A
/// tail of a stream without a layout is private to its end, and so is one whose
/// length does not suit its layout.
pub fn private(body: &[u8]) -> Vec<(usize, usize, u8)> {
    let Some(fields) = layout(body).filter(|_| suits(body)) else {
        let rest = body.len() - FIXED;
        let all = (FIXED, rest, Text.fill());
        return if rest > 0 { vec![all] } else { vec![] };
    };
    let mut found = Vec::new();
    let mut place = FIXED;
    for (_, width, kind, private) in fields {
        if *private {
            found.push((place, *width, kind.fill()));
        }
        place += width;
    }
    found
}

#[cfg(test)]
mod tests {
    use super::*;
    use crate::made::{m201, trade};

    #[test]
    fn lengths_and_places() {
        assert_eq!((length(&ORDER), length(&TRADE)), (139, 53));
        let order = m201(1, b"MD213", b'4', 139);
        let spans = [(64, 12, 0x20), (76, 12, 0x20), (120, 32, 0x20)];
        assert_eq!(private(&order), spans);
        assert_eq!(private(&trade(1)), []);
        assert_eq!(private(&m201(1, b"MD299", b'0', 9)), [(45, 9, 0x20)]);
        assert_eq!(private(&m201(1, b"MD299", b'0', 0)), []);
        // Such bodies never read; all of their tails is private.
        assert_eq!(private(&m201(1, b"MD213", b'4', 28)), [(45, 28, 0x20)]);
    }

    #[test]
    fn pairs() {
        for stream in [b"MD211", b"MD216"] {
            for exec in *b"04" {
                for (tail, suit) in [(138, false), (139, true), (140, false), (53, false)] {
                    assert_eq!(suits(&m201(1, stream, exec, tail)), suit);
                }
            }
            assert!(suits(&m201(1, stream, b'F', 7)));
        }
        for (tail, suit) in [(52, false), (53, true), (54, false), (139, false)] {
            assert_eq!(suits(&m201(1, b"MD217", b'F', tail)), suit);
        }
        for (stream, exec) in [
            (b"MD217", b'0'),
            (b"MD210", b'0'),
            (b"MD218", b'F'),
            (b"md211", b'0'),
        ] {
            assert!(suits(&m201(1, stream, exec, 7)));
        }
    }
}
