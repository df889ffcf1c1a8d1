//! Document 01's names and words, no rules: the library decides which bytes are private, and what
//! reads.

use rietknoest_host::{types, Frame, Record, Refusal, CHECK_SUM, HEADER};

/// MsgType as text.
pub fn letters(frame: &Frame) -> String {
    String::from_utf8_lossy(&frame.type_name()).into_owned()
}

/// What a type is for.
pub fn purpose(frame: &Frame) -> &'static str {
    match &frame.type_name() {
        b"S001" => "a logon",
        b"S002" => "a logout",
        b"S003" => "a heartbeat",
        b"P001" => "an announcement of a channel's last number",
        b"P002" if frame.status == 0 => "a request to send ticks again",
        b"P002" => "a reply to a request to send ticks again",
        b"M101" => "a market status",
        b"M102" => "a snapshot",
        b"M201" => "a tick",
        _ => "a frame",
    }
}

/// The private field that starts at a place of a body of a type. Which there are is the library's
/// to say.
pub fn private_field(frame: &Frame, place: u64) -> &'static str {
    match (&frame.type_name(), place) {
        (b"S001", 0) => "SenderCompID",
        (b"S001", 32) => "TargetCompID",
        (b"S002", 4) => "Text",
        (b"P002", 20) => "RejectText",
        (b"M201", 45) => "extension",
        (b"M201", 64) => "MemberID",
        (b"M201", 76) => "TraderCode",
        (b"M201", 120) => "InvestorName",
        _ => "a private field",
    }
}

/// The fields of an extension, by how many the library returns: source document 000, 2.5.4.1 has
/// those of an order, 2.5.4.2 those of a trade.
pub fn tail_names(count: usize) -> &'static [&'static str] {
    match count {
        16 => &[
            "Side",
            "QuoteID",
            "MemberID",
            "TraderCode",
            "FullAmountTrade",
            "SettlType",
            "ContractMultiplier",
            "ExpirationDays",
            "TotalValueTraded",
            "BasketID",
            "InvestorName",
            "BidTransType",
            "BidExecInstType",
            "ExpireDate",
            "SecondaryOrderID",
            "MinQty",
        ],
        5 => &[
            "BidApplSeqNum",
            "OfferApplSeqNum",
            "TotalValueTraded",
            "TradeMethod",
            "MarginPrice",
        ],
        _ => &[],
    }
}

/// What the library returns of a body, by name: numbers that a listing has too. What the type does
/// not have is left out.
pub fn listed_fields(frame: &Frame) -> Vec<(&'static str, u64)> {
    let channel = ("ChannelNO", frame.channel.value().into());
    match &frame.type_name() {
        b"P001" => vec![channel, ("ApplLastSeqNum", frame.tick.value())],
        b"P002" => vec![
            channel,
            ("ApplBegSeqNum", frame.first.value()),
            ("ApplEndSeqNum", frame.last.value()),
            ("ResendStatus", frame.status),
        ],
        b"M201" => vec![channel, ("ApplSeqNum", frame.tick.value())],
        _ => vec![],
    }
}

/// The fields of a body in the table's order: name, width, and whether it is letters. Of an M102
/// those before its entries, of an M201 those before its extension; none of an M101, which is not
/// judged. Which of them are private is the library's to say.
pub fn layout(letters: &[u8; 4]) -> &'static [(&'static str, usize, bool)] {
    match letters {
        b"S001" => &[
            ("SenderCompID", 32, true),
            ("TargetCompID", 32, true),
            ("HeartBtInt", 2, false),
            ("ApplVerID", 8, true),
        ],
        b"S002" => &[("SessionStatus", 4, false), ("Text", 256, true)],
        b"P001" => &[
            ("SecurityType", 1, false),
            ("ChannelNO", 2, false),
            ("ApplLastSeqNum", 8, false),
            ("EndOfChannel", 1, true),
        ],
        b"P002" => &[
            ("ChannelNO", 2, false),
            ("ResendType", 1, false),
            ("ApplBegSeqNum", 8, false),
            ("ApplEndSeqNum", 8, false),
            ("ResendStatus", 1, false),
            ("RejectText", 32, true),
        ],
        b"M102" => &[
            ("SecurityType", 1, false),
            ("TradSesMode", 1, false),
            ("TradeDate", 4, false),
            ("LastUpdateTime", 4, false),
            ("MDStreamID", 5, true),
            ("SecurityID", 8, true),
            ("Symbol", 8, true),
            ("PreClosePx", 8, false),
            ("TotalVolumeTraded", 8, false),
            ("NumTrades", 8, false),
            ("TotalValueTraded", 8, false),
            ("TradingPhaseCode", 8, true),
            ("NoMDEntries", 2, false),
        ],
        b"M201" => &[
            ("SecurityType", 1, false),
            ("ChannelNO", 2, false),
            ("ApplSeqNum", 8, false),
            ("MDStreamID", 5, true),
            ("SecurityID", 8, true),
            ("TransactTime", 4, false),
            ("ExecType", 1, true),
            ("Price", 8, false),
            ("OrderQty", 8, false),
        ],
        _ => &[],
    }
}

/// The name of a field that a rule is for, and the rule, by the field's number in the order of the
/// table's widths. Whether one is broken, and which, is the library's to say.
pub fn rule(letters: &[u8; 4], index: u64) -> (&'static str, &'static str) {
    match (letters, index) {
        (b"S001", 2) => ("HeartBtInt", "above 0"),
        (b"S002", 0) => ("SessionStatus", "at most 9,999"),
        (b"P001" | b"M201", 0) => ("SecurityType", "13"),
        (b"P001" | b"M201", 1) | (b"P002", 0) => ("ChannelNO", "at most 4 digits"),
        (b"P001", 2) => ("ApplLastSeqNum", "at most 18 digits"),
        (b"P001", 3) => ("EndOfChannel", "Y or N"),
        (b"P002", 1) => ("ResendType", "1"),
        (b"P002", 2) => ("ApplBegSeqNum", "above 0, at most 18 digits"),
        (b"P002", 3) => (
            "ApplEndSeqNum",
            "at most 18 digits, and in a request 0 or not below ApplBegSeqNum",
        ),
        (b"P002", 4) => ("ResendStatus", "0 to 5 or 99"),
        (b"M102", 0) => ("SecurityType", "1, 2, 3, 12, 13 or 14"),
        (b"M102", 1) => ("TradSesMode", "1 to 3"),
        (b"M102", 2) => ("TradeDate", "at most 8 digits"),
        (b"M102", 3) => ("LastUpdateTime", "at most 9 digits"),
        (b"M102", 4) => (
            "MDStreamID",
            "a stream of its SecurityType: MD001 to MD004 for 1, MD301 for 2, MD101 and MD102 for 3, \
             MD201 for 12, MD210 for 13, MDE01 for 14",
        ),
        (b"M102", 7) => ("PreClosePx", "at most 13 digits"),
        (b"M102", 8) => ("TotalVolumeTraded", "at most 16 digits"),
        (b"M102", 9) => ("NumTrades", "at most 16 digits"),
        (b"M102", 10) => ("TotalValueTraded", "at most 16 digits"),
        (b"M102", 12) => ("NoMDEntries", "so many whole entries fill the body"),
        (b"M102", 14) => ("price", "at most 13 digits"),
        (b"M102", 15) => ("size", "at most 12 digits"),
        (b"M102", 16) => ("position", "at most 2 digits"),
        (b"M201", 2) => ("ApplSeqNum", "above 0, at most 18 digits"),
        (b"M201", 5) => ("TransactTime", "at most 9 digits"),
        (b"M201", 6) => ("ExecType", "0, 4 or F"),
        (b"M201", 7) => ("Price", "at most 13 digits"),
        (b"M201", 8) => ("OrderQty", "at most 15 digits"),
        (b"M201", 9) => (
            "extension",
            "139 bytes for an order of MD211 to MD216, 53 for a trade of MD217",
        ),
        _ => ("a field", "the rule of its type"),
    }
}

/// The length of the frame that a record is of.
pub fn frame_len(record: &Record) -> usize {
    record.body_len as usize + HEADER + CHECK_SUM
}

/// Whether a frame's body is carried as bytes and not judged; an empty one counts, as the library
/// counts it.
pub fn is_unjudged(record: &Record) -> bool {
    is_unjudged_type(u32::from_be_bytes(record.msg_type))
}

pub fn is_unjudged_frame(frame: &Frame) -> bool {
    is_unjudged_type(frame.msg_type as u32)
}

pub fn is_unjudged_type(msg_type: u32) -> bool {
    msg_type == types::M101
}

/// What is to be known of so many such bodies.
pub fn unjudged(bodies: u64) -> String {
    match bodies {
        1 => "1 M101 body is not judged and could hold anything".to_string(),
        n => format!("{n} M101 bodies are not judged and could hold anything"),
    }
}

/// A refusal's number and name in the table.
pub fn answer(refusal: Refusal) -> String {
    format!("{} ({})", refusal.number(), refusal.name())
}

/// Why reading or the ledger refuses, in the table's words.
pub fn reason(refusal: Refusal) -> &'static str {
    match refusal {
        Refusal::More => {
            "the capture ends before the 24 bytes of a header, or before the frame's length"
        }
        Refusal::Type => "its MsgType is not in the table",
        Refusal::Long => "its body would have more than 8,164 bytes",
        Refusal::Length => "its BodyLength does not suit its type",
        Refusal::Sum => "its CheckSum differs from the sum of its bytes",
        Refusal::Field => "a field breaks a rule of its type",
        Refusal::Time => "its SendingTime is no real time",
        Refusal::Repeat => "the tick was received before",
        Refusal::Far => "the tick is more than 256 above the floor: the top is raised to it",
        Refusal::Channel => "it is of another channel, which a listing does not count",
        _ => "no frame reads here",
    }
}

#[cfg(test)]
mod tests {
    use super::*;
    use oracle::made::{any_body, Dice};
    use rietknoest_host::{
        broken_field, entries, private_spans, read, tail_fields, write, SessionNumber,
    };
    use std::collections::BTreeSet;

    /// The places of a type's fields, with their names and widths.
    fn places(letters: &[u8; 4]) -> Vec<(&'static str, usize, usize)> {
        let mut place = 0;
        let fields = layout(letters).iter().map(|(name, width, _)| {
            place += width;
            (*name, place - width, *width)
        });
        fields.collect()
    }

    /// The fields fill a body, up to an M102's entries, which the library finds, and up to an
    /// M201's extension.
    #[test]
    fn the_fields_fill_a_body() {
        let width = |letters: &[u8; 4]| places(letters).iter().map(|field| field.2).sum::<usize>();
        for kind in types::ALL {
            let letters = kind.to_be_bytes();
            let fits = |len: &usize| private_spans(kind, &vec![0; *len]).is_ok();
            assert_eq!((0..300).find(fits), Some(width(&letters)), "{letters:?}");
        }
        let snapshot = oracle::made::m102(1, b"MD002", 1);
        assert_eq!(
            entries(&snapshot).map(|entries| entries.place()),
            Ok(width(b"M102"))
        );
        let first = tail_fields(&oracle::made::trade(1)).unwrap()[0];
        assert_eq!(first.place, width(b"M201") as u64);
    }

    /// Where the library says that a field breaks its rule, the field of that number starts there,
    /// is so long, and has the rule's name; and what it returns of a frame is in these places.
    #[test]
    fn the_fields_are_where_the_library_has_them() {
        let (mut broken, mut read_back) = (BTreeSet::new(), BTreeSet::new());
        for case in 0..40_000 {
            let (letters, body) = any_body(&mut Dice::new(30, case));
            let kind = u32::from_be_bytes(letters);
            let places = places(&letters);
            match broken_field(kind, &body) {
                Ok(Some(field)) if (field.index as usize) < places.len() => {
                    let (name, place, width) = places[field.index as usize];
                    assert_eq!((place as u64, width as u64), (field.place, field.len));
                    assert_eq!(name, rule(&letters, field.index).0);
                    broken.insert((letters, field.index));
                }
                Ok(None) => {
                    let mut bytes = vec![0; body.len() + HEADER + CHECK_SUM];
                    let seq = SessionNumber::new(1);
                    write(kind, 20260121093000000, seq, &body, &mut bytes).unwrap();
                    let frame = read(&bytes, 0).unwrap();
                    for (name, value) in listed_fields(&frame) {
                        let field = places.iter().find(|field| field.0 == name);
                        let (_, place, width) = *field.unwrap();
                        let bytes = &body[place..place + width];
                        let number = bytes.iter().fold(0, |n, b| n << 8 | u64::from(*b));
                        assert_eq!(number, value, "{letters:?} {name}");
                        read_back.insert((letters, name));
                    }
                }
                _ => {}
            }
        }
        assert!(broken.len() > 20, "{}", broken.len());
        assert_eq!(read_back.len(), 8);
    }

    /// A field that the library tells of has a name and a rule; so has each that a rule is for.
    #[test]
    fn every_broken_field_has_a_name() {
        let mut named = BTreeSet::new();
        for case in 0..40_000 {
            let (letters, body) = any_body(&mut Dice::new(29, case));
            let told = broken_field(u32::from_be_bytes(letters), &body);
            if let Some(field) = told.unwrap_or_default() {
                let (name, _) = rule(&letters, field.index);
                assert_ne!(name, "a field", "{letters:?} {field:?}");
                named.insert((letters, field.index));
            }
        }
        let all: BTreeSet<_> = types::ALL
            .iter()
            .flat_map(|kind| (0..20).map(|index| (kind.to_be_bytes(), index)))
            .filter(|(letters, index)| rule(letters, *index).0 != "a field")
            .collect();
        assert_eq!(named, all);
    }

    /// The bodies' lengths are the table's; the last M201 is an order of MD211.
    #[test]
    fn every_private_span_has_a_name() {
        let kinds: [(&[u8; 4], usize, usize); 9] = [
            (b"S001", 74, 2),
            (b"S002", 260, 1),
            (b"S003", 0, 0),
            (b"P001", 12, 0),
            (b"P002", 52, 1),
            (b"M101", 100, 0),
            (b"M102", 92, 0),
            (b"M201", 100, 1),
            (b"M201", 184, 3),
        ];
        for (kind, len, private) in kinds {
            let msg_type = u32::from_be_bytes(*kind);
            let frame = Frame {
                msg_type: msg_type.into(),
                ..Frame::default()
            };
            let mut body = vec![0; len];
            if len == 184 {
                body[11..16].copy_from_slice(b"MD211");
                body[28] = b'0';
            }
            let spans = private_spans(msg_type, &body).unwrap();
            assert_eq!(spans.len(), private, "{kind:?}");
            for span in spans {
                let name = private_field(&frame, span.place);
                assert_ne!(name, "a private field");
                // it is a field of the type, or of an M201's extension
                let within = |field: &(&str, usize, usize)| field.1 as u64 == span.place;
                match places(kind).iter().find(|field| within(field)) {
                    Some(field) => assert_eq!((field.0, field.2 as u64), (name, span.len)),
                    None => assert!(span.place >= 45, "{name}"),
                }
            }
            assert_ne!(purpose(&frame), "a frame");
        }
    }
}
