//! STEP frames in plain Rust, as one would write it by hand: the same checks and the same answers.

/// Type, place of the fields, their length, the frame's length.
pub type Read = Result<(u8, usize, usize, usize), u32>;

const BEGIN: &[u8] = b"8=FIXT.1.1\x01";

enum Form {
    Text,
    Number,
    Flag,
    Time,
}

fn rule(tag: u64) -> Option<(u32, Form, usize)> {
    use Form::*;
    Some(match tag {
        49 => (0, Text, 32),
        56 => (1, Text, 32),
        34 => (2, Number, 18),
        43 => (3, Flag, 1),
        97 => (4, Flag, 1),
        52 => (5, Time, 21),
        347 => (6, Text, 16),
        98 => (7, Number, 8),
        108 => (8, Number, 8),
        141 => (9, Flag, 1),
        789 => (10, Number, 18),
        553 => (11, Text, 32),
        554 => (12, Text, 32),
        1137 => (13, Text, 8),
        1407 => (14, Number, 8),
        1406 => (15, Text, 32),
        1409 => (16, Number, 4),
        112 => (17, Text, 32),
        7 => (18, Number, 18),
        16 => (19, Number, 18),
        45 => (20, Number, 18),
        371 => (21, Number, 6),
        372 => (22, Text, 16),
        373 => (23, Number, 5),
        58 => (24, Text, 1024),
        123 => (25, Flag, 1),
        36 => (26, Number, 18),
        _ => return None,
    })
}

/// The rows that a type has, and those that it needs.
fn rows(kind: u8) -> Option<(u32, u32)> {
    Some(match kind {
        b'A' => (0xFFFF, 0x21A7),
        b'5' => (0x101007F, 0x27),
        b'0' | b'1' => (0x2007F, 0x27),
        b'2' => (0xC007F, 0xC0027),
        b'3' => (0x1F0007F, 0x100027),
        b'4' => (0x600007F, 0x4000027),
        _ => return None,
    })
}

fn number(text: &[u8]) -> Option<u64> {
    if text.is_empty() || text.len() > 19 || (text.len() > 1 && text[0] == b'0') {
        return None;
    }
    let mut value = 0u64;
    for &b in text {
        let d = b.wrapping_sub(b'0');
        if d > 9 {
            return None;
        }
        value = value * 10 + d as u64;
    }
    Some(value)
}

/// Whether a text is a time, and whether it is a real one.
fn time(v: &[u8]) -> (bool, bool) {
    if v.len() != 21 || v[8] != b'-' || v[11] != b':' || v[14] != b':' || v[17] != b'.' {
        return (false, false);
    }
    let mut n = [0u32; 7];
    let parts = [(0, 4), (4, 2), (6, 2), (9, 2), (12, 2), (15, 2), (18, 3)];
    for (k, &(at, w)) in parts.iter().enumerate() {
        for &b in &v[at..at + w] {
            let d = b.wrapping_sub(b'0');
            if d > 9 {
                return (false, false);
            }
            n[k] = n[k] * 10 + d as u32;
        }
    }
    let [y, m, d, h, mi, s, _] = n;
    let leap = y % 4 == 0 && y % 100 != 0 || y % 400 == 0;
    let days = match m {
        2 if leap => 29,
        2 => 28,
        4 | 6 | 9 | 11 => 30,
        _ => 31,
    };
    let real =
        y >= 2000 && (1..=12).contains(&m) && d >= 1 && d <= days && h <= 23 && mi <= 59 && s <= 59;
    (true, real)
}

/// One field at a place: its tag, where its value starts, where it ends.
pub fn field(fields: &[u8], place: usize) -> Option<(u64, usize, usize)> {
    let rest = fields.get(place..)?;
    let end = rest.iter().position(|&b| b == 1)?;
    let mark = rest[..end].iter().position(|&b| b == b'=')?;
    let tag = number(&rest[..mark])?;
    Some((tag, place + mark + 1, place + end))
}

fn fine(kind: u8, fields: &[u8]) -> bool {
    let Some((has, needs)) = rows(kind) else {
        return false;
    };
    let (mut at, mut seen) = (0, 0u32);
    while at < fields.len() {
        let Some((tag, start, end)) = field(fields, at) else {
            return false;
        };
        let Some((row, form, width)) = rule(tag) else {
            return false;
        };
        let v = &fields[start..end];
        let good = match form {
            Form::Text => !v.is_empty() && v.len() <= width,
            Form::Number => v.len() <= width && number(v).is_some(),
            Form::Flag => v == b"Y" || v == b"N",
            Form::Time => time(v) == (true, true),
        };
        if !good || has >> row & 1 == 0 || seen >> row & 1 == 1 {
            return false;
        }
        seen |= 1 << row;
        at = end + 1;
    }
    seen & needs == needs
}

fn unreal(fields: &[u8]) -> bool {
    for piece in fields.split(|&b| b == 1) {
        if piece.starts_with(b"52=") {
            return time(&piece[3..]) == (true, false);
        }
    }
    false
}

fn judge(kind: u8, fields: &[u8]) -> Result<(), u32> {
    if fine(kind, fields) {
        return Ok(());
    }
    Err(if unreal(fields) { 7 } else { 26 })
}

fn expects(bytes: &[u8], literal: &[u8], why: u32) -> Result<(), u32> {
    if bytes.len() >= literal.len() {
        return if bytes[..literal.len()] == *literal {
            Ok(())
        } else {
            Err(why)
        };
    }
    Err(if literal.starts_with(bytes) { 1 } else { why })
}

fn trailer(sum: u8) -> [u8; 7] {
    [
        b'1',
        b'0',
        b'=',
        b'0' + sum / 100,
        b'0' + sum / 10 % 10,
        b'0' + sum % 10,
        1,
    ]
}

fn sum(bytes: &[u8]) -> u8 {
    bytes.iter().fold(0u8, |s, &b| s.wrapping_add(b))
}

pub fn read(bytes: &[u8], place: usize) -> Read {
    let s = bytes.get(place..).unwrap_or(&[]);
    expects(s, BEGIN, 23)?;
    expects(&s[11..], b"9=", 24)?;
    let window = &s[13..s.len().min(23)];
    let digits = window.iter().take_while(|b| b.is_ascii_digit()).count();
    if window.is_empty() {
        return Err(1);
    }
    if digits > 9 || (digits != 1 && window[0] == b'0') {
        return Err(24);
    }
    if digits == window.len() {
        return Err(1);
    }
    if window[digits] != 1 {
        return Err(24);
    }
    let len = number(&window[..digits]).ok_or(24u32)? as usize;
    let start = 14 + digits;
    let total = start + len + 7;
    if total > 8192 {
        return Err(3);
    }
    if len < 5 {
        return Err(25);
    }
    expects(&s[start..], b"35=", 25)?;
    let kind = *s.get(start + 3).ok_or(1u32)?;
    if rows(kind).is_none() {
        return Err(25);
    }
    expects(&s[start + 4..], b"\x01", 25)?;
    let end = start + len;
    if s.len() < end {
        return Err(1);
    }
    if s[end - 1] != 1 {
        return Err(5);
    }
    expects(&s[end..], &trailer(sum(&s[..end])), 5)?;
    judge(kind, &s[start + 5..end])?;
    Ok((kind, start + 5, len - 5, total))
}

fn width(n: usize) -> usize {
    1 + (n >= 10) as usize + (n >= 100) as usize + (n >= 1000) as usize
}

pub fn write(kind: u8, fields: &[u8], out: &mut [u8]) -> Result<usize, u32> {
    let n = fields.len();
    if n > 8192 || 26 + width(n + 5) + n > 8192 {
        return Err(3);
    }
    let total = 26 + width(n + 5) + n;
    if rows(kind).is_none() {
        return Err(25);
    }
    judge(kind, fields)?;
    if out.len() < total {
        return Err(8);
    }
    out[..13].copy_from_slice(b"8=FIXT.1.1\x019=");
    let w = width(n + 5);
    let mut x = n + 5;
    for k in (0..w).rev() {
        out[13 + k] = b'0' + (x % 10) as u8;
        x /= 10;
    }
    let at = 13 + w;
    out[at..at + 6].copy_from_slice(&[1, b'3', b'5', b'=', kind, 1]);
    out[at + 6..at + 6 + n].copy_from_slice(fields);
    let end = at + 6 + n;
    let t = trailer(sum(&out[..end]));
    out[end..end + 7].copy_from_slice(&t);
    Ok(total)
}

pub fn scrub(frame: &mut [u8]) -> Result<usize, u32> {
    let (_, place, len, total) = read(frame, 0)?;
    let end = place + len;
    let d = |k: usize| frame[end + 3 + k] - b'0';
    let mut sum = (d(0) as u32 * 100 + d(1) as u32 * 10 + d(2) as u32) as u8;
    let mut at = 0;
    while at < len {
        let (tag, start, stop) = field(&frame[place..end], at).unwrap();
        if matches!(tag, 49 | 56 | 553 | 554 | 58) {
            for b in &mut frame[place + start..place + stop] {
                sum = sum.wrapping_sub(*b).wrapping_add(b' ');
                *b = b' ';
            }
        }
        at = stop + 1;
    }
    frame[end..total].copy_from_slice(&trailer(sum));
    Ok(total)
}
