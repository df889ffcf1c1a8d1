//! Cases of STEP frames: what answers them, and the text of their answers.

use super::made::{self, damage, field, frame, mended, plain, sample, spoil_fields};
use super::{field_at, fields_of, read, scrub, write, Answer, At, Field, Form, Frame};
use super::{MOST, SOH, TYPES};
use crate::cases::text::{joined, lent, Numbers, Text};
use crate::made::{about, Dice};

/// The four calls. A refused one leaves the lent buffer as it was.
pub trait Answers {
    fn read(&self, bytes: &[u8], place: usize) -> Answer<Frame>;
    fn field(&self, fields: &[u8], place: usize) -> Answer<At>;
    fn write(&self, kind: u8, fields: &[u8], out: &mut [u8]) -> Answer<usize>;
    fn scrub(&self, buffer: &mut [u8]) -> Answer<usize>;
}

/// This program.
pub struct Oracle;

impl Answers for Oracle {
    fn read(&self, bytes: &[u8], place: usize) -> Answer<Frame> {
        // A place beyond the end is 1.
        read(bytes.get(place..).unwrap_or(&[]))
    }

    fn field(&self, fields: &[u8], place: usize) -> Answer<At> {
        field_at(fields, place)
    }

    fn write(&self, kind: u8, fields: &[u8], out: &mut [u8]) -> Answer<usize> {
        write(kind, fields, out)
    }

    fn scrub(&self, buffer: &mut [u8]) -> Answer<usize> {
        scrub(buffer)
    }
}

/// Every number that each call can give.
pub const NUMBERS: [Numbers; 4] = [
    ("read", &[0, 1, 3, 5, 7, 23, 24, 25, 26]),
    ("field", &[0, 26]),
    ("write", &[0, 3, 7, 8, 25, 26]),
    ("scrub", &[0, 1, 3, 5, 7, 23, 24, 25, 26]),
];

struct Run<'a, A: Answers> {
    answers: &'a A,
    text: Text,
}

impl<A: Answers> Run<'_, A> {
    fn read(&mut self, bytes: &[u8], place: usize) -> Option<Frame> {
        let answer = self.answers.read(bytes, place);
        self.text.line("read", &answer, |f| {
            let kind = char::from(f.kind);
            format!("{kind} {} {} {}", f.fields, f.fields_length, f.length)
        });
        answer.ok()
    }

    /// The fields from the first to the one that none follows, and a place
    /// beyond the end.
    fn fields(&mut self, fields: &[u8]) {
        let mut place = 0;
        loop {
            let answer = self.answers.field(fields, place);
            self.text.line("field", &answer, |at| {
                let numbers = [at.value, at.value_length, at.next].map(|n| n as u64);
                format!("{} {}", at.tag, joined(&numbers))
            });
            match answer {
                Ok(at) => place = at.next,
                Err(_) => break,
            }
        }
        for beyond in [fields.len() + 1, usize::MAX] {
            let answer = self.answers.field(fields, beyond);
            self.text.line("field", &answer, |at| at.tag.to_string());
        }
    }

    fn write(&mut self, kind: u8, fields: &[u8], room: usize) -> Vec<u8> {
        let before = lent(room);
        let mut out = before.clone();
        let answer = self.answers.write(kind, fields, &mut out);
        self.text.line("write", &answer, usize::to_string);
        let n = answer.unwrap_or(0);
        self.text.buffer(&before, &out, n);
        out[..n].to_vec()
    }

    fn scrub(&mut self, bytes: &[u8]) {
        let mut buffer = bytes.to_vec();
        let answer = self.answers.scrub(&mut buffer);
        self.text.line("scrub", &answer, usize::to_string);
        self.text.buffer(bytes, &buffer, answer.unwrap_or(0));
        if answer.is_ok() {
            let once = buffer.clone();
            let again = self.answers.scrub(&mut buffer);
            self.text.line("scrub", &again, usize::to_string);
            assert!(again == answer && buffer == once, "scrubbed again");
        }
    }

    /// Bytes read and scrubbed, the fields of a frame taken apart and its message
    /// written again.
    fn frame(&mut self, bytes: &[u8]) {
        if let Some(f) = self.read(bytes, 0) {
            let fields = &bytes[f.fields..f.fields + f.fields_length];
            self.fields(fields);
            let again = self.write(f.kind, fields, f.length);
            assert!(again == bytes[..f.length], "a frame is written again");
        }
        self.scrub(bytes);
    }

    /// Fields by a name: their frame, and their message written.
    fn message(&mut self, name: &str, kind: u8, fields: &[u8]) {
        self.text.case(name);
        self.frame(&frame(&[kind], fields));
        self.write(kind, fields, MOST);
    }
}

/// The text of the cases made by hand.
pub fn by_hand(answers: &impl Answers) -> String {
    let mut run = Run {
        answers,
        text: Text::default(),
    };
    types(&mut run);
    fields_by_hand(&mut run);
    forms(&mut run);
    times(&mut run);
    fronts(&mut run);
    every_byte(&mut run);
    lengths(&mut run);
    writing(&mut run);
    run.text.out
}

/// The text of generated case n of a seed.
pub fn generated(answers: &impl Answers, seed: u64, n: u64) -> String {
    let mut run = Run {
        answers,
        text: Text::default(),
    };
    let d = &mut Dice::new(seed, n);
    let kind = d.of(&TYPES);
    let mut fields = made::fields(d, kind);
    if d.once_in(3) {
        spoil_fields(d, &mut fields);
    }
    let named = if d.once_in(12) {
        d.of(b"hWA50678 \x01")
    } else {
        kind
    };
    let mut bytes = frame(&[named], &fields);
    match d.below(4) {
        0 => damage(d, &mut bytes),
        1 if d.once_in(2) => {
            damage(d, &mut bytes);
            if bytes.len() > 30 {
                bytes = mended(bytes);
            }
        }
        _ => (),
    }
    let n = d.len(12);
    bytes.extend(d.bytes(n));
    run.frame(&bytes);
    run.read(&bytes, d.len(bytes.len() + 3));
    run.read(&bytes[..d.len(bytes.len() + 1)], 0);
    if d.once_in(20) {
        // cut at every byte
        for n in 0..bytes.len() {
            run.read(&bytes[..n], 0);
        }
    }
    if d.once_in(200) {
        fields.resize(8_100 + d.len(120), b'A');
    }
    let room = about(d, fields.len() + 40);
    run.write(named, &fields, room);
    run.text.out
}

fn named(kind: u8) -> String {
    format!("type {}", char::from(kind))
}

/// Every type with the fields that it needs, and with all; types that are none.
fn types<A: Answers>(run: &mut Run<A>) {
    for kind in TYPES {
        for all in [false, true] {
            run.message(&named(kind), kind, &plain(kind, all));
        }
        let bytes = [frame(&[kind], &plain(kind, true)), vec![0xEE; 5]].concat();
        run.text
            .case(&format!("{}, with bytes behind it", named(kind)));
        run.frame(&bytes);
        for other in TYPES {
            let title = format!("{} with the fields of {}", named(other), named(kind));
            run.message(&title, other, &plain(kind, true));
        }
    }
    for kind in *b"hW67a \x01=B" {
        run.message("a type that is none", kind, &plain(b'0', false));
    }
    for kind in [&b""[..], b"AA", b"A ", b"A1", b"A\x01"] {
        run.text.case("a type that is none");
        run.frame(&frame(kind, &plain(b'A', false)));
    }
}

/// Each field of each type missing, repeated, empty, in another order, behind a
/// needless zero; tags that are none.
fn fields_by_hand<A: Answers>(run: &mut Run<A>) {
    for kind in TYPES {
        let rows = fields_of(kind);
        let made: Vec<Vec<u8>> = rows.iter().map(|r| field(r.tag, &sample(*r))).collect();
        for (i, row) in rows.iter().enumerate() {
            let title = format!("{}, tag {}", named(kind), row.tag);
            let without = [&made[..i], &made[i + 1..]].concat().concat();
            run.message(&format!("{title} missing"), kind, &without);
            let again = [made.concat(), made[i].clone()].concat();
            run.message(&format!("{title} repeated"), kind, &again);
            let first = [made[i].clone(), without.clone()].concat();
            run.message(&format!("{title} first"), kind, &first);
            let pieces: [&[u8]; 4] = [b"=\x01", b"\x01", b"=\x01\x01", b" =A\x01"];
            for piece in pieces {
                let piece = [row.tag.to_string().as_bytes(), piece].concat();
                let fields = [&without[..], &piece].concat();
                run.message(&format!("{title} malformed"), kind, &fields);
            }
            let zero = [&without[..], b"0", &made[i]].concat();
            run.message(&format!("{title} behind a zero"), kind, &zero);
        }
        let all = made.concat();
        for tag in [
            0,
            1,
            8,
            9,
            10,
            35,
            44,
            50,
            57,
            110,
            999,
            11_371,
            4_294_967_345,
        ] {
            let more = [all.clone(), field(tag, b"7")].concat();
            run.message(&format!("{}, with tag {tag}", named(kind)), kind, &more);
        }
        let pieces: [&[u8]; 7] = [
            b"\x01",
            b"=\x01",
            b"A\x01",
            b"=A\x01",
            b"-7=A\x01",
            b"49\x01",
            b"58=A=B\x01",
        ];
        for piece in pieces {
            for fields in [[piece, &all].concat(), [&all, piece].concat()] {
                run.message("a piece that is no field", kind, &fields);
            }
        }
        let backwards = made.iter().rev().flatten().copied().collect::<Vec<u8>>();
        run.message(&format!("{}, backwards", named(kind)), kind, &backwards);
    }
}

/// Values at and beside the bounds of each field's form.
fn forms<A: Answers>(run: &mut Run<A>) {
    for kind in TYPES {
        let rows = fields_of(kind);
        for row in &rows {
            for value in tries(row.form) {
                let fields: Vec<u8> = rows
                    .iter()
                    .flat_map(|r| match r.tag == row.tag {
                        true => field(r.tag, &value),
                        false => field(r.tag, &sample(*r)),
                    })
                    .collect();
                let title = format!("{}, tag {}: {} bytes", named(kind), row.tag, value.len());
                run.message(&title, kind, &fields);
            }
        }
    }
}

fn tries(form: Form) -> Vec<Vec<u8>> {
    let mut tried: Vec<Vec<u8>> = [
        &b"0"[..],
        b"00",
        b"01",
        b"-1",
        b"+1",
        b"1 ",
        b" 1",
        b"1.0",
        b"A",
        b"Y",
        b"N",
        b"y",
        b"YN",
        b" ",
        b"=",
        b"==",
        b"7=7",
        b"\x00",
        b"\xff\xfe",
        b"\xff",
        b"A\x80",
        b"\x02",
    ]
    .map(<[u8]>::to_vec)
    .to_vec();
    if let Form::Text(most) | Form::Number(most) = form {
        for length in [most - 1, most, most + 1] {
            tried.push(vec![b'9'; length]);
            tried.push(vec![b'A'; length]);
        }
    }
    tried
}

/// 7 and 26 of 52: real times, times that are none, and what has another shape.
fn times<A: Answers>(run: &mut Run<A>) {
    let shown = |text: &str| -> Vec<u8> {
        let row = |r: &Field| match r.tag {
            52 => field(52, text.as_bytes()),
            _ => field(r.tag, &sample(*r)),
        };
        fields_of(b'0').iter().flat_map(row).collect()
    };
    for text in [
        "20000101-00:00:00.000",
        "99991231-23:59:59.999",
        "19991231-23:59:59.999",
        "20261301-09:30:00.000",
        "20260001-09:30:00.000",
        "20260100-09:30:00.000",
        "20260132-09:30:00.000",
        "20260431-09:30:00.000",
        "20260229-09:30:00.000",
        "20000229-09:30:00.000",
        "21000229-09:30:00.000",
        "24000229-09:30:00.000",
        "20260121-24:00:00.000",
        "20260121-23:60:00.000",
        "20260121-23:59:60.000",
        "00000000-00:00:00.000",
        "20260121-09:30:00",
        "20260121-09:30:00.00",
        "20260121-09:30:00.0000",
        "20260121 09:30:00.000",
        "20260121-09.30:00.000",
        "20260121-09:30:00:000",
        "20260121-09:30 00.000",
        "2026012A-09:30:00.000",
        "20261301-09:30:00.00A",
        "20261301-9:30:00.0000",
        "",
        "2026012109:30:00.00000",
    ] {
        run.message(&format!("52 is {text:?}"), b'0', &shown(text));
    }
    let bad = shown("20261301-09:30:00.000");
    let good = shown("20260121-09:30:00.000");
    let join = |parts: &[&[u8]]| parts.concat();
    let month_13 = field(52, b"20261301-09:30:00.000");
    run.message("7 before 26", b'0', &join(&[&bad, b"49=A\x01"]));
    run.message(
        "7 before 26, a malformed one first",
        b'0',
        &join(&[b"=\x01", &bad]),
    );
    run.message("a second 52, of month 13", b'0', &join(&[&good, &month_13]));
    run.message(
        "a second 52, behind month 13",
        b'0',
        &join(&[&month_13, &good]),
    );
    let bad_shape = field(52, b"20261301");
    run.message(
        "52 of another shape first",
        b'0',
        &join(&[&bad_shape, &bad]),
    );
    run.message("052 of month 13", b'0', &join(&[b"0", &month_13, &good]));
    run.message("152 of month 13", b'0', &join(&[b"1", &month_13, &good]));
    let mut sum = frame(b"0", &bad);
    let at = sum.len() - 2;
    sum[at] ^= 1;
    run.text.case("5 before 7");
    run.frame(&sum);
    run.text.case("25 before 7");
    run.frame(&frame(b"h", &bad));
    run.text
        .case("writing: 3 before 25, 25 before 7, 7 before 26, 26 before 8");
    run.write(b'h', &vec![b'A'; MOST], 0);
    run.write(b'h', &bad, 0);
    run.write(b'0', &join(&[&bad, b"49=A\x01"]), 0);
    run.write(b'0', &join(&[&good, b"49=A\x01"]), 0);
    run.write(b'0', &good, 0);
}

/// Begin strings and length fields.
fn fronts<A: Answers>(run: &mut Run<A>) {
    let fields = plain(b'0', false);
    let body = [b"35=0\x01", &fields[..]].concat();
    let begins: [&[u8]; 8] = [
        b"8=FIXT.1.1\x01",
        b"8=FIXT.1.2\x01",
        b"8=FIX.4.2\x01",
        b"8=FIXT.1.1",
        b"9=FIXT.1.1\x01",
        b" 8=FIXT.1.1\x01",
        b"8=fixt.1.1\x01",
        b"",
    ];
    let length = body.len();
    let right = length.to_string();
    let off = [length - 1, length + 1, length + 7, 0, 1, 4, 5, 6].map(|n| n.to_string());
    let odd = [
        "",
        "0",
        "00",
        "05",
        "007",
        "-1",
        "+5",
        "5 ",
        " 5",
        "A",
        "8160",
        "8161",
        "8162",
        "8163",
        "8164",
        "8165",
        "8166",
        "8167",
        "8168",
        "8169",
        "8170",
        "8171",
        "8172",
        "9999",
        "10000",
        "99999999",
        "999999999",
        "9999999999",
        "000000000",
        "123456789A",
    ]
    .map(String::from);
    for begin in begins {
        run.text.case("a begin string");
        let front = [begin, format!("9={right}\x01").as_bytes(), &body].concat();
        run.frame(&made::with_sum(front));
    }
    for told in off.iter().chain(&odd).chain([&right]) {
        for field in ["9=", "9", "=", "09=", "8=", "10="] {
            run.text.case(&format!("a length field {field}{told}"));
            let front = format!("8=FIXT.1.1\x01{field}{told}\x01");
            let bytes = made::with_sum([front.as_bytes(), &body].concat());
            run.frame(&bytes);
            // the same where the bytes end behind it, and within it
            for n in 11..=front.len() {
                run.read(&bytes[..n], 0);
            }
        }
    }
    for piece in [
        "35=0",
        "35=\x01",
        "35",
        "3=0\x01",
        "36=0\x01",
        "=35\x01",
        "\x01\x01\x01\x01\x01",
    ] {
        run.text.case(&format!("a body that begins {piece:?}"));
        let body = [piece.as_bytes(), &fields].concat();
        let front = format!("8=FIXT.1.1\x019={}\x01", body.len());
        run.frame(&made::with_sum([front.as_bytes(), &body].concat()));
    }
}

/// A frame of each type: cut at every byte, and each byte another one, with the
/// sum as it was and mended.
fn every_byte<A: Answers>(run: &mut Run<A>) {
    for kind in TYPES {
        let bytes = frame(&[kind], &plain(kind, kind == b'5'));
        for n in 0..bytes.len() {
            run.text.case(&format!("{} cut at {n}", named(kind)));
            run.read(&bytes[..n], 0);
            run.scrub(&bytes[..n]);
        }
        for at in 0..bytes.len() {
            for byte in [0, SOH, b'0', b'9', b'=', b'A', 0xFF] {
                run.text
                    .case(&format!("{}, byte {at} is {byte}", named(kind)));
                let mut other = bytes.clone();
                other[at] = byte;
                run.read(&other, 0);
                // where the bytes end behind it
                run.read(&other[..at + 1], 0);
                if at < bytes.len() - 7 {
                    run.read(&mended(other), 0);
                }
            }
        }
        for place in 0..=bytes.len() + 1 {
            run.text.case(&format!("{} from {place}", named(kind)));
            run.read(&bytes, place);
        }
    }
    run.text.case("places far beyond the end");
    run.read(&frame(b"0", &plain(b'0', false)), usize::MAX);
}

/// Frames up to 8,192 bytes and above, of Text that is too long: 26 or 3.
fn lengths<A: Answers>(run: &mut Run<A>) {
    let front = plain(b'5', false);
    for text in [
        1_023, 1_024, 1_025, 8_065, 8_066, 8_067, 8_068, 8_069, 8_070, 8_100, 9_000,
    ] {
        let fields = [front.clone(), field(58, &vec![b'X'; text])].concat();
        run.message(&format!("a text of {text} bytes"), b'5', &fields);
    }
    let whole = |n: usize| frame(b"5", &[front.clone(), field(58, &vec![b'X'; n])].concat());
    let most = (8_000..8_200).filter(|n| whole(*n).len() <= MOST).max();
    let most = most.expect("some text has place");
    for n in [most, most + 1] {
        let bytes = whole(n);
        run.text.case(&format!("a frame of {} bytes", bytes.len()));
        run.read(&bytes, 0);
        run.read(&bytes[..bytes.len() - 1], 0);
        run.read(&bytes[..20], 0);
    }
}

/// Rooms, and fields that do not end in SOH.
fn writing<A: Answers>(run: &mut Run<A>) {
    for kind in TYPES {
        let fields = plain(kind, true);
        let whole = frame(&[kind], &fields).len();
        run.text.case(&format!("room for {}", named(kind)));
        for room in [0, 1, whole - 1, whole, whole + 5] {
            run.write(kind, &fields, room);
        }
        run.text.case("fields that do not end in SOH");
        run.write(kind, &fields[..fields.len() - 1], MOST);
        run.write(kind, &[&fields[..], b"58=A"].concat(), MOST);
        run.write(kind, &[], MOST);
        run.write(kind, &[SOH], MOST);
    }
    run.text.case("a 52 of month 13 that does not end in SOH");
    let fields = plain(b'0', false);
    let mut open = [&fields[..], b"52=20261301-09:30:00.000"].concat();
    run.write(b'0', &open, MOST);
    open.splice(..fields.len(), []);
    run.write(b'0', &open, MOST);
}

#[cfg(test)]
mod tests {
    use super::*;
    use crate::cases::text::{count, untried, Given};

    #[test]
    fn every_number_of_every_call_is_given() {
        let mut given = Given::new();
        count(&by_hand(&Oracle), &mut given);
        assert_eq!(untried(&given, &NUMBERS), [""; 0]);
        let mut given = Given::new();
        for n in 0..6_000 {
            count(&generated(&Oracle, 1, n), &mut given);
        }
        assert_eq!(untried(&given, &NUMBERS), [""; 0]);
    }

    #[test]
    fn what_is_made_is_sound() {
        let mut sound = 0;
        for case in 0..3_000 {
            let d = &mut Dice::new(4, case);
            let kind = d.of(&TYPES);
            let fields = made::fields(d, kind);
            let bytes = frame(&[kind], &fields);
            match read(&bytes) {
                Ok(f) => {
                    sound += 1;
                    assert_eq!((f.kind, f.length), (kind, bytes.len()));
                    let mut out = vec![0; bytes.len()];
                    assert_eq!(write(kind, &fields, &mut out), Ok(bytes.len()));
                    assert_eq!(out, bytes);
                    assert_eq!(read(&bytes[..bytes.len() - 1]), Err(1));
                }
                // one time in ten is none, and may have a year of five digits
                Err(no) => assert!([7, 26].contains(&no), "{no}"),
            }
        }
        assert!(sound > 2_500, "{sound}");
    }

    /// An answer but 1 stays whatever follows, and 8,192 bytes never answer 1.
    #[test]
    fn an_answer_but_1_stays() {
        let mut decided = 0;
        for case in 0..3_000 {
            let d = &mut Dice::new(6, case);
            let kind = d.of(&TYPES);
            let mut bytes = frame(&[kind], &made::fields(d, kind));
            if d.once_in(2) {
                damage(d, &mut bytes);
            }
            bytes.truncate(d.len(2 * bytes.len() + 1));
            let answer = read(&bytes);
            let more = d.len(40);
            let mut longer = [bytes.clone(), d.bytes(more)].concat();
            if answer != Err(1) {
                decided += 1;
                assert_eq!(read(&longer), answer);
            }
            longer.resize(MOST, d.of(b"0\x01A"));
            assert_ne!(read(&longer), Err(1));
        }
        assert!(decided > 1_000, "{decided}");
    }

    #[test]
    fn cuts_answer_1_until_the_frame_is_whole() {
        for kind in TYPES {
            let bytes = frame(&[kind], &plain(kind, true));
            for n in 0..bytes.len() {
                assert_eq!(read(&bytes[..n]), Err(1));
            }
            assert!(read(&bytes).is_ok());
        }
    }

    #[test]
    fn the_private_values_are_painted() {
        let mut bytes = frame(b"A", &plain(b'A', true));
        let n = bytes.len();
        assert_eq!(scrub(&mut bytes), Ok(n));
        let text = String::from_utf8(bytes).unwrap();
        for tag in ["\x0149=", "\x0156=", "\x01553=", "\x01554="] {
            assert!(text.contains(&format!("{tag}       \x01")), "{tag}");
        }
        for kept in [
            "\x011137=MADE-UP\x01",
            "\x011406=MADE-UP\x01",
            "\x01347=MADE-UP\x01",
        ] {
            assert!(text.contains(kept), "{kept}");
        }
    }

    #[test]
    fn orders_of_checks() {
        let reads = |text: &str| read(text.as_bytes()).map(|f| f.length);
        assert_eq!(reads(""), Err(1));
        assert_eq!(reads("8=FIXT.1.1\x01"), Err(1));
        assert_eq!(reads("8=FIXU"), Err(23));
        assert_eq!(reads("8=FIXT.1.1\x019=0"), Err(1));
        assert_eq!(reads("8=FIXT.1.1\x019=00"), Err(24));
        assert_eq!(reads("8=FIXT.1.1\x019=0\x01"), Err(25));
        assert_eq!(reads("8=FIXT.1.1\x019=123456789"), Err(1));
        assert_eq!(reads("8=FIXT.1.1\x019=1234567890"), Err(24));
        assert_eq!(reads("8=FIXT.1.1\x019=123456789\x01"), Err(3));
        assert_eq!(reads("8=FIXT.1.1\x019=8167\x01"), Err(1));
        assert_eq!(reads("8=FIXT.1.1\x019=8168\x01"), Err(3));
        assert_eq!(reads("8=FIXT.1.1\x019=5\x0135="), Err(1));
        assert_eq!(reads("8=FIXT.1.1\x019=5\x0135=h"), Err(25));
        assert_eq!(reads("8=FIXT.1.1\x019=5\x0135=A\x01"), Err(1));
        assert_eq!(reads("8=FIXT.1.1\x019=5\x0135=A\x0111"), Err(5));
        assert_eq!(reads("8=FIXT.1.1\x019=6\x0135=A\x01A"), Err(5));
    }
}
