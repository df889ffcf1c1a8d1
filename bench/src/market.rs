//! Market files: the proved library beside plain Rust over the same table of columns.

use std::hint::black_box;

use rietknoest_host::market::{self, Column, Fault, Form, Lines, Wrong, HEADER, LAYOUTS};

use crate::{done, Job};

// PLAIN RUST

fn fault<T>(wrong: Wrong, place: usize) -> Result<T, Fault> {
    Err(Fault { wrong, place })
}

/// Sign and smallest units.
fn number(x: &[u8], d: usize) -> Option<(bool, u64)> {
    let mut i = 0;
    while i < x.len() && x[i] == b' ' {
        i += 1;
    }
    let minus = i < x.len() && x[i] == b'-';
    i += usize::from(minus);
    let behind = if d == 0 { 0 } else { d + 1 };
    if x.len() < i + behind + 1 {
        return None;
    }
    let whole = &x[i..x.len() - behind];
    if whole.len() > 1 && whole[0] == b'0' {
        return None;
    }
    let mut v = 0u64;
    for b in whole {
        if !b.is_ascii_digit() {
            return None;
        }
        v = v * 10 + u64::from(b - b'0');
    }
    if d > 0 {
        let parts = &x[x.len() - behind..];
        if parts[0] != b'.' {
            return None;
        }
        for b in &parts[1..] {
            if !b.is_ascii_digit() {
                return None;
            }
            v = v * 10 + u64::from(b - b'0');
        }
    }
    (!minus || v != 0).then_some((minus, v))
}

fn right(form: Form, x: &[u8]) -> bool {
    match form {
        Form::Constant(text) => x == text.as_bytes(),
        Form::Blank(_) => x.iter().all(|b| *b == b' '),
        Form::Number(_, d) => number(x, d).is_some(),
        Form::Text(_) => x[0] != b' ' || x.iter().all(|b| *b == b' '),
        Form::Name(_) => true,
    }
}

fn row(columns: &[Column], mut p: usize, s: &[u8], wrong: Wrong) -> Result<usize, Fault> {
    for (i, (_, form)) in columns.iter().enumerate() {
        let e = p + form.width();
        let Some(x) = s.get(p..e) else {
            return fault(Wrong::CutShort, s.len());
        };
        if !right(*form, x) {
            return fault(wrong, p);
        }
        let due = if i + 1 == columns.len() { b'\n' } else { b'|' };
        match s.get(e) {
            None => return fault(Wrong::CutShort, s.len()),
            Some(b) if *b != due => return fault(wrong, e),
            _ => p = e + 1,
        }
    }
    Ok(p)
}

fn layout(s: &[u8]) -> Option<&'static [Column]> {
    let kind = s.get(..5)?;
    let found = LAYOUTS.iter().find(|(name, _)| name.as_bytes() == kind);
    found.map(|(_, columns)| *columns)
}

fn check(s: &[u8]) -> Result<Lines, Fault> {
    if market::LARGEST < s.len() {
        return fault(Wrong::Large, 0);
    }
    let mut p = row(&HEADER, 0, s, Wrong::Header)?;
    let mut lines = 0;
    while let Some(columns) = layout(&s[p..]) {
        p = row(columns, p, s, Wrong::Column)?;
        lines += 1;
    }
    let words = ["TRAILER", "MD401", "MD404", "MD405", "MD406"];
    if !s[p..].starts_with(b"TRAILER") {
        let cut = words.iter().any(|w| w.as_bytes().starts_with(&s[p..]));
        return if cut {
            fault(Wrong::CutShort, s.len())
        } else {
            fault(Wrong::LineType, p)
        };
    }
    let at = p + 8;
    for (i, p) in (p + 7..p + 12).enumerate() {
        let right = match s.get(p) {
            None => return fault(Wrong::CutShort, s.len()),
            Some(b) => [*b == b'|', b.is_ascii_digit(), *b == b'\n'][i.div_ceil(3)],
        };
        if !right {
            return fault(Wrong::Trailer, p);
        }
    }
    if at + 4 < s.len() {
        return fault(Wrong::CutShort, at + 4);
    }
    if number(&s[27..32], 0) != Some((false, lines)) {
        return fault(Wrong::Count, 0);
    }
    let said = s[at..at + 3]
        .iter()
        .fold(0, |v, b| v * 10 + u32::from(b - b'0'));
    if said != u32::from(crate::plain::sum(&s[..at])) {
        return fault(Wrong::Sum, 0);
    }
    Ok(Lines(lines as usize))
}

/// The values of a row of columns, laid over out from a place on.
fn take(columns: &[Column], mut p: usize, s: &[u8], out: &mut [u8], mut a: usize) -> usize {
    for (_, form) in columns {
        let x = &s[p..p + form.width()];
        match form {
            Form::Constant(_) | Form::Blank(_) => {}
            Form::Number(_, d) => {
                let (minus, v) = number(x, *d).expect("a sound file");
                out[a] = u8::from(minus);
                out[a + 1..a + 9].copy_from_slice(&v.to_be_bytes());
                a += 9;
            }
            Form::Text(_) | Form::Name(_) => {
                out[a..a + x.len()].copy_from_slice(x);
                a += x.len();
            }
        }
        p += x.len() + 1;
    }
    a
}

fn sizes(columns: &[Column]) -> usize {
    let size = |(_, form): &Column| match form {
        Form::Constant(_) | Form::Blank(_) => 0,
        Form::Number(..) => 9,
        other => other.width(),
    };
    columns.iter().map(size).sum()
}

fn values(s: &[u8], out: &mut [u8]) -> Result<usize, Fault> {
    check(s)?;
    let (mut p, mut n) = (82, 38);
    while let Some(columns) = layout(&s[p..]) {
        p += market::length(columns);
        n += 2 + sizes(columns);
    }
    if out.len() < n {
        return fault(Wrong::Room, 0);
    }
    let (mut p, mut a) = (82, take(&HEADER[6..], 49, s, out, 0));
    while let Some(columns) = layout(&s[p..]) {
        let kind = 400 + u16::from(s[p + 4] - b'0');
        out[a..a + 2].copy_from_slice(&kind.to_be_bytes());
        a = take(columns, p, s, out, a + 2);
        p += market::length(columns);
    }
    Ok(a)
}

/// A number's text, right-aligned; false where it does not fit.
fn put(out: &mut [u8], d: usize, minus: u8, mut v: u64) -> bool {
    if minus > 1 || minus == 1 && v == 0 {
        return false;
    }
    let mut i = out.len();
    let mut done = 0;
    while done <= d || v > 0 {
        if i == 0 {
            return false;
        }
        i -= 1;
        if d > 0 && done == d {
            out[i] = b'.';
            if i == 0 {
                return false;
            }
            i -= 1;
        }
        out[i] = b'0' + (v % 10) as u8;
        v /= 10;
        done += 1;
    }
    if minus == 1 {
        if i == 0 {
            return false;
        }
        i -= 1;
        out[i] = b'-';
    }
    out[..i].fill(b' ');
    true
}

/// Whether a value fits its column; its size.
fn fits(form: Form, s: &[u8], p: usize, room: &mut [u8; 32]) -> Result<usize, Fault> {
    let size = sizes(&[("", form)]);
    let Some(x) = s.get(p..p + size) else {
        return fault(Wrong::CutShort, s.len());
    };
    let right = match form {
        Form::Constant(_) | Form::Blank(_) | Form::Name(_) => true,
        Form::Number(w, d) => {
            let v = u64::from_be_bytes(x[1..].try_into().expect("eight"));
            put(&mut room[..w], d, x[0], v)
        }
        Form::Text(_) => right(form, x),
    };
    if right {
        Ok(size)
    } else {
        fault(Wrong::Column, p)
    }
}

/// A row of columns made of the values from p on, over out from a on.
fn lay(columns: &[Column], out: &mut [u8], mut a: usize, s: &[u8], mut p: usize) -> (usize, usize) {
    for (i, (_, form)) in columns.iter().enumerate() {
        let w = form.width();
        let to = &mut out[a..a + w];
        match form {
            Form::Constant(text) => to.copy_from_slice(text.as_bytes()),
            Form::Blank(_) => to.fill(b' '),
            Form::Number(_, d) => {
                let v = u64::from_be_bytes(s[p + 1..p + 9].try_into().expect("eight"));
                put(to, *d, s[p], v);
                p += 9;
            }
            Form::Text(_) | Form::Name(_) => {
                to.copy_from_slice(&s[p..p + w]);
                p += w;
            }
        }
        out[a + w] = if i + 1 == columns.len() { b'\n' } else { b'|' };
        a += w + 1;
    }
    (a, p)
}

fn of_number(n: &[u8]) -> Option<&'static [Column]> {
    let kinds = [401u16, 404, 405, 406].map(u16::to_be_bytes);
    let found = kinds.iter().position(|k| k == n)?;
    Some(LAYOUTS[found].1)
}

fn write(s: &[u8], out: &mut [u8]) -> Result<usize, Fault> {
    let mut room = [0; 32];
    let (mut p, mut n, mut lines) = (0, 94, 0u64);
    for (_, form) in &HEADER[6..] {
        p += fits(*form, s, p, &mut room)?;
    }
    while p < s.len() {
        let Some(kind) = s.get(p..p + 2) else {
            return fault(Wrong::CutShort, s.len());
        };
        let Some(columns) = of_number(kind) else {
            return fault(Wrong::LineType, p);
        };
        p += 2;
        for (_, form) in columns {
            p += fits(*form, s, p, &mut room)?;
        }
        n += market::length(columns);
        lines += 1;
    }
    if market::LARGEST < n {
        return fault(Wrong::Large, 0);
    }
    if out.len() < n {
        return fault(Wrong::Room, 0);
    }
    let mut head = [0; 47];
    head[1..9].copy_from_slice(&lines.to_be_bytes());
    head[9..].copy_from_slice(&s[..38]);
    let (mut a, _) = lay(&HEADER, out, 0, &head, 0);
    let mut p = 38;
    while p < s.len() {
        let columns = of_number(&s[p..p + 2]).expect("judged");
        (a, p) = lay(columns, out, a, s, p + 2);
    }
    out[a..a + 8].copy_from_slice(b"TRAILER|");
    let sum = crate::plain::sum(&out[..a + 8]);
    put(&mut out[a + 8..a + 11], 0, 0, u64::from(sum));
    for b in &mut out[a + 8..a + 11] {
        *b |= b'0';
    }
    out[a + 11] = b'\n';
    Ok(n)
}

// THE RACE

/// A sound file of MD401 lines, as large as may be. Names hold bars and newlines.
fn made() -> Vec<u8> {
    let text = |form: Form, i: u64| -> Vec<u8> {
        match form {
            Form::Constant(text) => text.into(),
            Form::Blank(n) => vec![b' '; n],
            Form::Number(n, d) => {
                let mut x = vec![0; n];
                let v = (i * 2_654_435_761) % 10u64.pow((n as u32 - 2).min(9));
                put(&mut x, d, u8::from(v % 7 == 1), v);
                x
            }
            Form::Text(n) => format!("{:<n$}", &"SAMPLES"[..n.min(7)]).into(),
            Form::Name(n) => (0..n as u64)
                .map(|j| [b'|', b'\n', 7, 0xFF][((i + j) % 4) as usize])
                .collect(),
        }
    };
    let line = |columns: &[Column], i: u64| {
        let columns: Vec<_> = (0..)
            .zip(columns)
            .map(|(j, c)| text(c.1, i * 31 + j))
            .collect();
        let mut line = columns.join(&b'|');
        line.push(b'\n');
        line
    };
    let lines = (market::LARGEST - 94) / 227;
    let mut file = line(&HEADER, 1);
    file[27..32].copy_from_slice(format!("{lines:>5}").as_bytes());
    file[71] = b'0';
    for i in 0..lines as u64 {
        file.extend(line(LAYOUTS[0].1, i));
    }
    file.extend(b"TRAILER|");
    let sum = crate::plain::sum(&file);
    file.extend(format!("{sum:03}\n").bytes());
    file
}

pub fn race() {
    let file = made();
    let sound = check(&file);
    assert!(sound.is_ok() && market::check(&file) == sound);
    let (mut a, mut b) = (vec![0; file.len()], vec![0; file.len()]);
    let n = market::values(&file, &mut a).expect("room");
    assert_eq!(values(&file, &mut b), Ok(n));
    assert_eq!(a, b);
    let told = a[..n].to_vec();
    assert_eq!(market::write(&told, &mut a), Ok(file.len()));
    assert_eq!(write(&told, &mut b), Ok(file.len()));
    assert!(a == file && b == file);
    let job = |name, goal| Job {
        name,
        input: "64 KiB of MD401",
        bytes: file.len(),
        goal: Some(goal),
    };
    job("market check", 1.6).race(
        "byte",
        1,
        || done(market::check(black_box(&file))),
        || done(check(black_box(&file))),
    );
    job("market values", 1.8).race(
        "byte",
        1,
        || done(market::values(black_box(&file), &mut a)),
        || done(values(black_box(&file), &mut b)),
    );
    job("market writing", 1.8).race(
        "byte",
        1,
        || done(market::write(black_box(&told), &mut a)),
        || done(write(black_box(&told), &mut b)),
    );
}
