//! Made-up STEP messages and frames, sound and spoilt.

use super::{fields_of, Field, Form, BEGIN, SOH, TYPES};
use crate::bytes::sum;
use crate::made::{time, Dice};

/// The shape of a time: 20260121-09:30:00.000.
pub fn shown(time: u64) -> Vec<u8> {
    let d = format!("{time:017}");
    let d = &d[..17];
    let (date, clock) = d.split_at(8);
    let (hour, rest) = clock.split_at(2);
    let (minute, rest) = rest.split_at(2);
    let (second, part) = rest.split_at(2);
    format!("{date}-{hour}:{minute}:{second}.{part}").into_bytes()
}

/// `tag=value SOH`
pub fn field(tag: u64, value: &[u8]) -> Vec<u8> {
    [format!("{tag}=").as_bytes(), value, &[SOH]].concat()
}

/// Text of any byte but SOH.
fn text(d: &mut Dice, n: usize) -> Vec<u8> {
    let any = d.once_in(3);
    (0..n)
        .map(|_| match d.draw() as u8 {
            byte if any && byte != SOH => byte,
            _ => d.of(b"ABCdef019=| "),
        })
        .collect()
}

/// A value of that form, often as long as it may be.
pub fn value(d: &mut Dice, form: Form) -> Vec<u8> {
    let length = |d: &mut Dice, most: usize| match d.below(4) {
        0 => 1,
        1 => most,
        _ => 1 + d.len(most.min(40)),
    };
    match form {
        Form::Text(most) => {
            let n = length(d, most);
            text(d, n)
        }
        Form::Number(most) => {
            let n = length(d, most);
            let mut digits: Vec<u8> = (0..n).map(|_| b'0' + d.below(10) as u8).collect();
            if n > 1 && digits[0] == b'0' {
                digits[0] = b'9';
            }
            digits
        }
        Form::Flag => vec![d.of(b"YN")],
        Form::Time => shown(time(d)),
    }
}

/// The fields of a type, each with a value, in some order; those that may be
/// missing now and then.
pub fn fields(d: &mut Dice, kind: u8) -> Vec<u8> {
    let left_out = d.of(&[2, 4, 1_000]);
    let mut parts: Vec<Vec<u8>> = Vec::new();
    for row in fields_of(kind) {
        if row.required || !d.once_in(left_out) {
            let made = field(row.tag, &value(d, row.form));
            let at = d.len(parts.len() + 1);
            parts.insert(at, made);
        }
    }
    parts.concat()
}

/// The shortest sound fields of a type, in the order of the tables.
pub fn plain(kind: u8, all: bool) -> Vec<u8> {
    let rows = fields_of(kind).into_iter().filter(|r| all || r.required);
    rows.flat_map(|row| field(row.tag, &sample(row))).collect()
}

/// A sound value of a field.
pub fn sample(row: Field) -> Vec<u8> {
    match row.form {
        Form::Text(_) => b"MADE-UP"[..7].to_vec(),
        Form::Number(_) => b"7".to_vec(),
        Form::Flag => b"N".to_vec(),
        Form::Time => b"20260121-09:30:00.000".to_vec(),
    }
}

/// The frame of a type and fields, whatever they are, with length and sum right.
pub fn frame(kind: &[u8], fields: &[u8]) -> Vec<u8> {
    let body = [b"35=", kind, &[SOH], fields].concat();
    let length = format!("9={}\x01", body.len());
    with_sum([BEGIN, length.as_bytes(), &body].concat())
}

/// The bytes with their sum behind them.
pub fn with_sum(bytes: Vec<u8>) -> Vec<u8> {
    let trailer = format!("10={:03}\x01", sum(&bytes));
    [&bytes, trailer.as_bytes()].concat()
}

/// The frame with its sum set right: its last seven bytes are the trailer.
pub fn mended(mut frame: Vec<u8>) -> Vec<u8> {
    frame.truncate(frame.len() - 7);
    with_sum(frame)
}

/// Spoils fields: a byte, a field lost, doubled, empty, of another type, or a
/// value of another form.
pub fn spoil_fields(d: &mut Dice, fields: &mut Vec<u8>) {
    let rows: Vec<Field> = TYPES.iter().flat_map(|kind| fields_of(*kind)).collect();
    let mut parts: Vec<Vec<u8>> = fields
        .split_inclusive(|b| *b == SOH)
        .map(<[u8]>::to_vec)
        .collect();
    if parts.is_empty() {
        return;
    }
    let i = d.len(parts.len());
    let other = d.of(&rows);
    match d.below(9) {
        0 => {
            parts.remove(i);
        }
        1 => {
            let again = parts[i].clone();
            let at = d.len(parts.len() + 1);
            parts.insert(at, again);
        }
        2 => {
            let made = field(other.tag, &value(d, other.form));
            parts.insert(i, made);
        }
        3 => {
            let form = d.of(&rows).form;
            parts[i] = field(other.tag, &value(d, form));
        }
        4 => {
            let row = d.of(&rows);
            parts[i] = field(row.tag, b"");
        }
        5 => parts[i].insert(0, b'0'),
        6 => {
            let piece = d.of(&[
                &b"\x01"[..],
                b"=\x01",
                b"49\x01",
                b"10=000\x01",
                b"35=A\x01",
            ]);
            parts.insert(i, piece.to_vec());
        }
        7 => {
            let n = parts[i].len();
            parts[i].truncate(n - 1);
        }
        _ => {
            let at = d.len(parts[i].len());
            parts[i][at] = d.of(b"0=\x01A-9");
        }
    }
    *fields = parts.concat();
}

/// Damages a frame.
pub fn damage(d: &mut Dice, frame: &mut Vec<u8>) {
    if frame.len() < 30 {
        return;
    }
    let at = d.len(frame.len());
    let front = d.len(26);
    let behind = frame.len() - 1 - d.len(9);
    match d.below(8) {
        0 => frame.truncate(at),
        1 => frame[at] = d.draw() as u8,
        2 => frame[front] = d.of(b"0189=\x01A35"),
        3 => frame[behind] = d.of(b"019=\x012"),
        4 => {
            frame.remove(front);
        }
        5 => frame.insert(front, d.of(b"0129=\x01")),
        6 => {
            frame.remove(behind);
        }
        _ => frame.insert(at, d.of(b"0=\x01")),
    }
}
