//! Reading, writing and scrubbing, by hand.

use super::Run;
use crate::answers::Answers;
use crate::bytes::number;
use crate::frame::Message;
use crate::made::{
    a, b, framed, m101, m102, m201, mended, p001, p002, s001, s002, trade, with, TIME,
};
use crate::numbers::{Session, MOST};

const MAX: u64 = u64::MAX;

/// The smallest number of more than 18 digits.
const OVER: u64 = MOST + 1;

/// The bounds of fields of 12, 13, 15 and 16 digits.
const AT_12: &[u64] = &[0, 999_999_999_999, 1_000_000_000_000, MAX];
const AT_13: &[u64] = &[0, 9_999_999_999_999, 10_000_000_000_000, MAX];
const AT_15: &[u64] = &[0, 999_999_999_999_999, 1_000_000_000_000_000, MAX];
const AT_16: &[u64] = &[0, 9_999_999_999_999_999, 10_000_000_000_000_000, MAX];
const CLOCK: &[u64] = &[0, 999_999_999, 1_000_000_000, 4_294_967_295];

type Body = Vec<u8>;

fn long() -> Body {
    m102(13, b"MD210", 2)
}

fn short() -> Body {
    m102(1, b"MD001", 2)
}

/// An M201 of a stream that 000 names nowhere.
fn unnamed() -> Body {
    m201(42, b"MD299", b'4', 7)
}

/// A body of each type that has one, and both forms of M102 and M201.
pub fn bodies() -> Vec<(&'static [u8; 4], Body)> {
    vec![
        (b"S001", s001()),
        (b"S002", s002()),
        (b"S003", vec![]),
        (b"P001", p001()),
        (b"P002", p002()),
        (b"M101", m101()),
        (b"M102", long()),
        (b"M102", short()),
        (b"M102", m102(13, b"MD210", 0)),
        (b"M102", m102(13, b"MD210", 425)),
        (b"M201", trade(42)),
        (b"M201", m201(42, b"MD211", b'0', 139)),
        (b"M201", unnamed()),
        // two frames within another
        (
            b"M101",
            [framed(b"S003", &[]), framed(b"P001", &p001())].concat(),
        ),
        (b"M101", vec![0x20; 8_164]),
    ]
}

/// A field of a body, put to each of some values: type, body, name, place in
/// the body, width, values.
type Field = (
    &'static [u8; 4],
    fn() -> Body,
    &'static str,
    usize,
    usize,
    &'static [u64],
);

#[rustfmt::skip]
const FIELDS: &[Field] = &[
    (b"S001", s001, "HeartBtInt", 64, 2, &[0, 1, 65_535]),
    (b"S001", s001, "SenderCompID, not judged", 0, 8, &[MAX]),
    (b"S001", s001, "TargetCompID, not judged", 32, 8, &[0]),
    (b"S001", s001, "ApplVerID, not judged", 66, 8, &[MAX]),
    (b"S002", s002, "SessionStatus", 0, 4, &[0, 1, 9_999, 10_000, 4_294_967_295]),
    (b"S002", s002, "Text, not judged", 4, 8, &[MAX]),
    (b"P001", p001, "SecurityType", 0, 1, &[0, 12, 13, 14, 255]),
    (b"P001", p001, "ChannelNO", 1, 2, &[0, 1, 9_999, 10_000, 65_535]),
    (b"P001", p001, "ApplLastSeqNum", 3, 8, &[0, 1, MOST, OVER, MAX]),
    (b"P001", p001, "EndOfChannel", 11, 1, &[0x59, 0x4E, 0x58, 0x5A, 0x4D, 0x4F, 0x79, 0x6E, 0]),
    (b"P002", p002, "ChannelNO", 0, 2, &[0, 9_999, 10_000, 65_535]),
    (b"P002", p002, "ResendType", 2, 1, &[0, 1, 2, 255]),
    (b"P002", || with(&p002(), 11, 8, MOST), "ApplBegSeqNum, the end at most", 3, 8, &[0, 1, 9, 10, MOST, OVER, MAX]),
    (b"P002", p002, "ApplBegSeqNum, the end 9", 3, 8, &[1, 9, 10]),
    (b"P002", p002, "ApplEndSeqNum of a request from 5", 11, 8, &[1, 5, 6, MOST, OVER, MAX]),
    (b"P002", p002, "ResendStatus", 19, 1, &[0, 1, 2, 3, 4, 5, 6, 98, 99, 100, 255]),
    (b"P002", || with(&p002(), 19, 1, 1), "ApplEndSeqNum of a reply", 11, 8, &[0, 4, 5, MOST, OVER]),
    (b"P002", || with(&p002(), 19, 1, 99), "ApplBegSeqNum of a reply", 3, 8, &[0, MOST, OVER]),
    (b"P002", p002, "RejectText, not judged", 20, 8, &[MAX]),
    (b"M101", m101, "M101, not judged", 0, 8, &[MAX]),
    (b"M102", long, "TradSesMode", 1, 1, &[0, 1, 2, 3, 4, 255]),
    (b"M102", long, "TradeDate", 2, 4, &[0, 99_999_999, 100_000_000, 4_294_967_295]),
    (b"M102", long, "LastUpdateTime", 6, 4, CLOCK),
    (b"M102", long, "SecurityID, not judged", 15, 8, &[MAX]),
    (b"M102", long, "Symbol, not judged", 23, 8, &[MAX]),
    (b"M102", long, "PreClosePx", 31, 8, AT_13),
    (b"M102", long, "TotalVolumeTraded", 39, 8, AT_16),
    (b"M102", long, "NumTrades", 47, 8, AT_16),
    (b"M102", long, "TotalValueTraded", 55, 8, AT_16),
    (b"M102", long, "TradingPhaseCode, not judged", 63, 8, &[MAX]),
    (b"M102", long, "NoMDEntries, two long ones there", 71, 2, &[0, 1, 2, 3, 65_535]),
    (b"M102", long, "entry type, not judged", 73, 2, &[0xFFFF]),
    (b"M102", long, "price of entry 0", 75, 8, AT_13),
    (b"M102", long, "size of entry 0", 83, 8, AT_12),
    (b"M102", long, "position of entry 0", 91, 1, &[0, 99, 100, 255]),
    (b"M102", long, "price of entry 1", 94, 8, AT_13),
    (b"M102", long, "size of entry 1", 102, 8, AT_12),
    (b"M102", long, "position of entry 1", 110, 1, &[99, 100]),
    (b"M102", short, "NoMDEntries, two short ones there", 71, 2, &[0, 1, 2, 3, 65_535]),
    (b"M102", short, "price of short entry 0", 75, 8, AT_13),
    (b"M102", short, "price of short entry 1", 85, 8, AT_13),
    (b"M102", || m102(13, b"MD210", 0), "NoMDEntries, none there", 71, 2, &[0, 1]),
    (b"M201", || trade(42), "SecurityType", 0, 1, &[0, 12, 13, 14, 255]),
    (b"M201", || trade(42), "ChannelNO", 1, 2, &[0, 9_999, 10_000, 65_535]),
    (b"M201", || trade(42), "ApplSeqNum", 3, 8, &[0, 1, MOST, OVER, MAX]),
    (b"M201", unnamed, "MDStreamID, not judged", 11, 5, &[0, 0x4D_4432_3938, 0xFF_FFFF_FFFF]),
    (b"M201", || trade(42), "SecurityID, not judged", 16, 8, &[MAX]),
    (b"M201", || trade(42), "TransactTime", 24, 4, CLOCK),
    (b"M201", unnamed, "ExecType", 28, 1, &[0x30, 0x34, 0x46, 0x2F, 0x31, 0x33, 0x35, 0x45, 0x47, 0x66, 0, 4]),
    (b"M201", || trade(42), "Price", 29, 8, AT_13),
    (b"M201", || trade(42), "OrderQty", 37, 8, AT_15),
];

/// SecurityTypes and streams, each with each: those of M102's pairs, and others.
const TYPES: [u8; 10] = [0, 1, 2, 3, 4, 11, 12, 13, 14, 15];
const STREAMS: [&[u8; 5]; 23] = [
    b"MD001", b"MD002", b"MD003", b"MD004", b"MD301", b"MD101", b"MD102", b"MD201", b"MD210",
    b"MDE01", b"MD211", b"MD217", b"MD000", b"MD005", b"MD300", b"MD302", b"MD100", b"MD103",
    b"MD200", b"MD202", b"MD209", b"MDE00", b"MDE02",
];

impl<A: Answers> Run<'_, A> {
    /// Bytes by a name: read, and scrubbed where they stand.
    fn frame(&mut self, name: &str, bytes: &[u8]) {
        self.case(name);
        self.read(bytes, 0);
        self.scrub(bytes);
    }

    /// A body by a name: its frame read and scrubbed, and its message written.
    fn body(&mut self, name: &str, msg_type: &[u8; 4], body: &[u8]) {
        self.frame(name, &framed(msg_type, body));
        self.message(&message(msg_type, body), 0);
        self.private(*msg_type, body);
        self.broken(*msg_type, body);
    }

    /// Writes a message with so many bytes more than it needs, or fewer.
    fn message(&mut self, message: &Message, spare: isize) {
        let room = message.frame_length().saturating_add_signed(spare);
        self.write(message, room);
    }
}

fn message(msg_type: &[u8; 4], body: &[u8]) -> Message {
    Message {
        msg_type: *msg_type,
        sending_time: TIME,
        seq: Session(7),
        body: body.to_vec(),
    }
}

/// The body with another length: cut, or with spaces behind.
fn resized(body: &[u8], length: usize) -> Body {
    let mut body = body.to_vec();
    body.resize(length, 0x20);
    body
}

pub fn frames<A: Answers>(run: &mut Run<A>) {
    examples(run);
    times(run);
    fields(run);
    lengths(run);
    tails(run);
    types(run);
    orders(run);
    sums_and_cuts(run);
    rooms(run);
}

fn examples<A: Answers>(run: &mut Run<A>) {
    run.frame("example 1: empty input", &[]);
    run.frame("example 2: 23 bytes", &a()[..23]);
    run.frame("example 3: A", &a());
    run.frame("example 4: A ending 8F", &with(&a(), 27, 1, 0x8F));
    run.frame("example 5: A ending 0000018E", &with(&a(), 26, 1, 1));
    run.frame(
        "example 6: A with BodyLength 1",
        &mended(with(&a(), 20, 4, 1)),
    );
    let header = &framed(b"M101", &[])[..24];
    run.frame(
        "example 7: M101 header with 8,165",
        &with(header, 20, 4, 8_165),
    );
    run.frame(
        "example 7: with 8,164 and no body",
        &with(header, 20, 4, 8_164),
    );

    let whole = m102(13, b"MD210", 425);
    run.body("an M102 with 425 long entries reads", b"M102", &whole);
    let over = m102(13, b"MD210", 426);
    run.body("an M102 with 426 long entries gives 3", b"M102", &over);
    let told = resized(&whole, 8_167);
    run.body("426 long entries, 425 of them counted", b"M102", &told);
    run.body("resend 5 to 4 gives 6", b"P002", &with(&p002(), 11, 8, 4));
    run.body("resend 5 to 0 reads", b"P002", &with(&p002(), 11, 8, 0));

    for (name, body) in bodies() {
        let title = format!("{} of {} bytes", String::from_utf8_lossy(name), body.len());
        run.body(&title, name, &body);
        let behind = [framed(name, &body), vec![0xEE; 5]].concat();
        run.frame(&format!("{title}, with bytes behind it"), &behind);
    }
    run.frame("one stray byte", &[0xFF]);
}

fn fields<A: Answers>(run: &mut Run<A>) {
    for (msg_type, body, name, at, width, values) in FIELDS {
        for value in *values {
            let changed = with(&body(), *at, *width, *value);
            run.body(&format!("{name}: {value}"), msg_type, &changed);
        }
    }
    for value in [0, MAX] {
        let frame = mended(with(&framed(b"S003", &[]), 12, 8, value));
        run.frame(&format!("MsgSeqNum, not judged: {value}"), &frame);
    }
    let body = with(&short(), 10, 5, number(b"MD002"));
    run.body("long entries told, short ones there", b"M102", &body);
    for security_type in TYPES {
        for stream in STREAMS {
            let pair = format!("{security_type} with {}", String::from_utf8_lossy(stream));
            run.body(&pair, b"M102", &m102(security_type, stream, 0));
        }
    }
}

/// CR 6: at and beside every bound of a real time, each month's last day, and
/// the leap years.
#[rustfmt::skip]
const TIMES: &[u64] = &[
    0, MAX, 1, TIME,
    19_991_231_235_959_999, 20_000_101_000_000_000, 99_991_231_235_959_999, 100_000_101_000_000_000,
    20_260_021_093_000_000, 20_260_121_093_000_000, 20_261_221_093_000_000, 20_261_321_093_000_000,
    20_269_921_093_000_000, 20_260_100_093_000_000, 20_260_101_093_000_000, 20_260_199_093_000_000,
    20_260_121_000_000_000, 20_260_121_235_959_999, 20_260_121_240_000_000, 20_260_121_990_000_000,
    20_260_121_095_900_000, 20_260_121_096_000_000, 20_260_121_095_959_000, 20_260_121_095_960_000,
    20_260_121_235_960_000, 20_260_121_093_000_999, 2_026_012_109_300_000, 202_601_210_930_000_000,
    20_000_229_000_000_000, 20_000_230_000_000_000, 20_010_229_000_000_000, 20_040_229_000_000_000,
    20_260_228_000_000_000, 20_260_229_000_000_000, 21_000_228_000_000_000, 21_000_229_000_000_000,
    24_000_229_000_000_000, 99_960_229_000_000_000, 99_990_229_000_000_000,
];

fn times<A: Answers>(run: &mut Run<A>) {
    let months = (1..=12).flat_map(|month| (28..=32).map(move |day| month * 100 + day));
    let last_days = months.map(|date| (20_260_000 + date) * 1_000_000_000);
    for time in TIMES.iter().copied().chain(last_days) {
        run.frame(&format!("SendingTime {time}"), &timed(b"S003", &[], time));
        let message = Message {
            sending_time: time,
            ..message(b"S003", &[])
        };
        run.message(&message, 0);
    }
    let month_13 = 20_261_301_093_000_000;
    let bad_field = with(&p001(), 0, 1, 12);
    let both = timed(b"P001", &bad_field, month_13);
    run.frame("7 before 6", &both);
    run.frame("5 before 7", &with(&both, 39, 1, 0));
    run.frame("the whole length before 7", &both[..39]);
    run.frame("4 before 7", &timed(b"P001", &p001()[..11], month_13));
    run.frame("2 before 7", &timed(b"P003", &p001(), month_13));
    for (name, msg_type, body) in [
        ("2 before 7", b"P003", p001()),
        ("3 before 7", b"P001", vec![0x20; 8_165]),
        ("4 before 7", b"P001", p001()[..11].to_vec()),
        ("7 before 6", b"P001", bad_field),
        ("7 before 8", b"P001", p001()),
    ] {
        run.case(&format!("writing, {name}"));
        let message = Message {
            sending_time: month_13,
            ..message(msg_type, &body)
        };
        run.write(&message, 0);
    }
}

/// The frame of a body, sent at that time.
fn timed(msg_type: &[u8; 4], body: &[u8], time: u64) -> Vec<u8> {
    mended(with(&framed(msg_type, body), 4, 8, time))
}

fn lengths<A: Answers>(run: &mut Run<A>) {
    let lengths: [(&[u8; 4], Body, &[usize]); 9] = [
        (b"S001", s001(), &[0, 73, 75]),
        (b"S002", s002(), &[0, 259, 261]),
        (b"S003", vec![], &[1, 2]),
        (b"P001", p001(), &[0, 11, 13]),
        (b"P002", p002(), &[0, 51, 53]),
        (b"M101", m101(), &[0, 8_163, 8_164]),
        (b"M102", long(), &[0, 72, 73, 110, 112]),
        (b"M201", trade(42), &[0, 44, 45, 60]),
        (b"M201", unnamed(), &[44, 45, 60]),
    ];
    for (name, body, lengths) in lengths {
        let title = String::from_utf8_lossy(name);
        for length in lengths.iter().copied().chain([8_165, 8_167]) {
            // The whole body has that length, or BodyLength alone says so.
            let whole = resized(&body, length);
            run.body(&format!("{title} of {length} bytes"), name, &whole);
            let told = mended(with(&framed(name, &body), 20, 4, length as u64));
            run.frame(&format!("{title} with BodyLength {length}"), &told);
        }
        let most = mended(with(&framed(name, &body), 20, 4, 4_294_967_295));
        run.frame(&format!("{title} with the largest BodyLength"), &most);
    }
}

/// Each stream beside and among those that 000 names, with each ExecType, and
/// tails of every length beside its layouts'.
fn tails<A: Answers>(run: &mut Run<A>) {
    let streams = [
        b"MD210", b"MD211", b"MD212", b"MD213", b"MD214", b"MD215", b"MD216", b"MD217", b"MD218",
        b"MD299", b"md211", b"MD21 ",
    ];
    for stream in streams {
        for exec in *b"04F1" {
            for tail in [0, 1, 28, 52, 53, 54, 138, 139, 140, 8_119] {
                let named = String::from_utf8_lossy(stream);
                let title = format!("{named}, {}, a tail of {tail}", char::from(exec));
                run.body(&title, b"M201", &m201(42, stream, exec, tail));
            }
        }
    }
    // Every byte of a tail may be anything.
    for byte in [0, 0x20, 0x7F, 0xFF] {
        for (stream, exec, tail) in [(b"MD211", b'0', 139), (b"MD217", b'F', 53)] {
            let mut body = m201(42, stream, exec, tail);
            body[45..].fill(byte);
            run.body(&format!("a tail of bytes {byte}"), b"M201", &body);
        }
    }
}

fn types<A: Answers>(run: &mut Run<A>) {
    for (name, body) in bodies() {
        let mut other = *name;
        other[3] = b'9';
        run.body("MsgType, last byte", &other, &body);
    }
    for other in [
        b"XXXX", b"    ", b"S000", b"S004", b"P003", b"M100", b"M103", b"M202", b"s003", b"S03\0",
        b"30S0",
    ] {
        run.body("MsgType", other, &[]);
    }
}

/// Two faults in one frame: the first check in order gives its number.
fn orders<A: Answers>(run: &mut Run<A>) {
    let unknown = framed(b"XXXX", &[]);
    run.frame("24 bytes before 2", &unknown[..23]);
    run.frame("2 before 3", &with(&unknown, 20, 4, 8_165)[..24]);
    let s003 = framed(b"S003", &[]);
    run.frame("3 before 4", &with(&s003, 20, 4, 8_165)[..24]);
    run.frame("4 before the whole length", &with(&s003, 20, 4, 1)[..24]);
    let cut = with(&framed(b"M102", &long()), 20, 4, 72);
    run.frame("4 before the whole length", &cut[..24]);
    let spoilt = with(&framed(b"P001", &with(&p001(), 0, 1, 12)), 36, 1, 1);
    run.frame("the whole length before 5", &spoilt[..39]);
    run.frame("5 before 6", &spoilt);
    run.frame("6", &mended(spoilt));

    let bad_field = with(&p001(), 0, 1, 12);
    for (name, msg_type, body) in [
        ("2 before 3", b"XXXX", vec![0x20; 8_165]),
        ("3 before 4", b"S003", vec![0x20; 8_165]),
        ("4 before 6", b"M102", long()[..72].to_vec()),
        ("6 before 8", b"P001", bad_field),
    ] {
        run.case(&format!("writing, {name}"));
        run.write(&message(msg_type, &body), 0);
    }
}

fn sums_and_cuts<A: Answers>(run: &mut Run<A>) {
    for at in 36..39 {
        for value in [1, 128, 255] {
            run.frame("high bytes of CheckSum", &with(&b(), at, 1, value));
        }
    }
    for value in 0x57..=0x59 {
        run.frame("low byte of CheckSum", &with(&b(), 39, 1, value));
    }
    for n in 0..=40 {
        run.frame(&format!("{n} of 40 bytes"), &b()[..n]);
    }
    let longest = framed(b"M101", &[0x20; 8_164]);
    run.frame(
        "wrong CheckSum of the longest frame",
        &with(&longest, 8_191, 1, 0),
    );
    run.frame("the longest frame, cut", &longest[..8_191]);
}

fn rooms<A: Answers>(run: &mut Run<A>) {
    for (name, body) in bodies() {
        let message = message(name, &body);
        run.case(&format!("room for {}", String::from_utf8_lossy(name)));
        for spare in [-1, 5, -(message.frame_length() as isize)] {
            run.message(&message, spare);
        }
    }
    run.case("header numbers");
    run.message(
        &Message {
            sending_time: 20_261_231_235_959_999,
            seq: Session(MAX),
            ..message(b"P001", &p001())
        },
        0,
    );
}
