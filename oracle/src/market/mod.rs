//! CR 10: B-to-H market files, by source document 003, 1.3 and 3.1.
//!
//! A file is the header line, lines of four types and the trailer line. A column
//! is found by counting bytes: a bar or a newline may stand within the UTF-16LE
//! name. There is no extension area.

pub mod cases;
mod layouts;
pub mod made;

use crate::bytes::{self, sum};
pub use layouts::{header, line, Column, Kind, TYPES};

/// "47 above 65,536 bytes"
pub const MOST: usize = 65_536;

/// A refusal: its number, and the place of what is wrong; 0 beside 8, 44, 46
/// and 47.
#[derive(Clone, Copy, Debug, PartialEq, Eq)]
pub struct Fault {
    pub number: u32,
    pub place: u64,
}

fn fault(number: u32, place: usize) -> Fault {
    let place = place as u64;
    Fault { number, place }
}

/// A whole number in its smallest units.
#[derive(Clone, Copy, Debug, PartialEq, Eq)]
pub struct Number {
    pub minus: bool,
    pub units: u64,
}

/// The number that a column spells: spaces, perhaps a minus, digits with "no
/// needless zeros in front", and for one with decimals a point and so many
/// digits, up to the column's end; "no minus zero", never blank.
pub fn number_of(column: &[u8], decimals: usize) -> Option<Number> {
    let text = std::str::from_utf8(column).ok()?;
    let text = text.trim_start_matches(' ');
    let (minus, text) = match text.strip_prefix('-') {
        Some(rest) => (true, rest),
        None => (false, text),
    };
    let (whole, part) = match decimals {
        0 => (text, ""),
        _ => text.split_once('.')?,
    };
    let digits = |text: &str| text.bytes().all(|b| b.is_ascii_digit());
    if !digits(whole) || !digits(part) || whole.is_empty() || part.len() != decimals {
        return None;
    }
    if whole.len() > 1 && whole.starts_with('0') {
        return None;
    }
    let units: u64 = [whole, part].concat().parse().ok()?;
    (units > 0 || !minus).then_some(Number { minus, units })
}

/// The column of a number, right-aligned, if it has place for it.
pub fn column_of(number: Number, width: usize, decimals: usize) -> Option<Vec<u8>> {
    if number.minus && number.units == 0 {
        return None;
    }
    let sign = if number.minus { "-" } else { "" };
    let digits = number.units.to_string();
    // At least one digit stands before the point.
    let zeros = "0".repeat((decimals + 1).saturating_sub(digits.len()));
    let digits = format!("{sign}{zeros}{digits}");
    let text = match decimals {
        0 => digits,
        _ => {
            let (whole, part) = digits.split_at(digits.len() - decimals);
            format!("{whole}.{part}")
        }
    };
    (text.len() <= width).then(|| format!("{text:>width$}").into_bytes())
}

/// Text is left-aligned: blank, or it does not begin with a space (10.1).
fn text_holds(text: &[u8]) -> bool {
    text.first() != Some(&b' ') || text.iter().all(|b| *b == b' ')
}

impl Kind {
    /// Whether a column has its form.
    fn holds(self, column: &[u8]) -> bool {
        match self {
            Kind::Constant(text) => column == text.as_bytes(),
            Kind::Blank(_) => column.iter().all(|b| *b == b' '),
            Kind::Number(_, decimals) => number_of(column, decimals).is_some(),
            Kind::Text(_) => text_holds(column),
            Kind::Name(_) => true,
        }
    }
}

/// The byte behind a column: a bar, and a newline behind a row's last one.
fn behind(columns: &[Column], i: usize) -> u8 {
    if i + 1 == columns.len() {
        b'\n'
    } else {
        b'|'
    }
}

/// Judges a row from a place on, column by column, bar by bar, and answers the
/// place behind it. What is wrong has that number; where the file ends in a
/// column, it is 40 and the column is not judged.
fn row(file: &[u8], from: usize, columns: &[Column], number: u32) -> Result<usize, Fault> {
    let mut at = from;
    for (i, column) in columns.iter().enumerate() {
        let end = at + column.kind.width();
        let bytes = file.get(at..end).ok_or(fault(40, file.len()))?;
        if !column.kind.holds(bytes) {
            return Err(fault(number, at));
        }
        let byte = *file.get(end).ok_or(fault(40, file.len()))?;
        if byte != behind(columns, i) {
            return Err(fault(number, end));
        }
        at = end + 1;
    }
    Ok(at)
}

/// The word that a row starts with, or 42; where the file ends before one of the
/// five is whole, 40.
fn start(file: &[u8], at: usize) -> Result<Option<u16>, Fault> {
    let rest = &file[at..];
    if rest.starts_with(b"TRAILER") {
        return Ok(None);
    }
    let whole = |kind: &&u16| rest.starts_with(format!("MD{kind}").as_bytes());
    if let Some(kind) = TYPES.iter().find(whole) {
        return Ok(Some(*kind));
    }
    let words = TYPES.map(|kind| format!("MD{kind}"));
    let words = words.iter().map(String::as_str).chain(["TRAILER"]);
    for word in words {
        if word.as_bytes().starts_with(rest) {
            return Err(fault(40, file.len()));
        }
    }
    Err(fault(42, at))
}

/// The five bytes behind `TRAILER`, one by one: a bar, three digits, a newline;
/// and no byte behind them. Answers what the digits say.
fn trailer(file: &[u8], from: usize) -> Result<u64, Fault> {
    let mut digits = 0;
    for (i, at) in (from + 7..from + 12).enumerate() {
        let byte = *file.get(at).ok_or(fault(40, file.len()))?;
        let right = match i {
            0 => byte == b'|',
            4 => byte == b'\n',
            _ => byte.is_ascii_digit(),
        };
        if !right {
            return Err(fault(45, at));
        }
        if byte.is_ascii_digit() {
            digits = digits * 10 + u64::from(byte - b'0');
        }
    }
    if file.len() > from + 12 {
        return Err(fault(40, from + 12));
    }
    Ok(digits)
}

/// A sound file's rows: the type and the place of each line.
fn lines(file: &[u8]) -> Result<Vec<(u16, usize)>, Fault> {
    if file.len() > MOST {
        return Err(fault(47, 0));
    }
    let mut at = row(file, 0, &header(), 41)?;
    let mut found = Vec::new();
    while let Some(kind) = start(file, at)? {
        let end = row(file, at, &line(kind), 43)?;
        found.push((kind, at));
        at = end;
    }
    let digits = trailer(file, at)?;
    // "44 and 46 only on an otherwise sound file, 44 before 46"
    let count = number_of(&file[27..32], 0).expect("the header's columns were judged");
    if count.minus || count.units != found.len() as u64 {
        return Err(fault(44, 0));
    }
    // "the three-digit sum over all but the sum field and the newline after it"
    if digits != u64::from(sum(&file[..at + 8])) {
        return Err(fault(46, 0));
    }
    Ok(found)
}

/// Checks a file, and answers how many lines stand between header and trailer.
pub fn check(file: &[u8]) -> Result<u64, Fault> {
    Ok(lines(file)?.len() as u64)
}

/// The columns of a row that are values: all but constants, blanks and the
/// header's count.
fn is_value(column: &Column) -> bool {
    let constant = matches!(column.kind, Kind::Constant(_) | Kind::Blank(_));
    !constant && column.name != "TotNumTradeReports"
}

/// The values of a row: a number as its sign and its units in nine bytes, text
/// and name as they are.
fn row_values(file: &[u8], from: usize, columns: &[Column]) -> Vec<u8> {
    let mut out = Vec::new();
    let mut at = from;
    for column in columns {
        let end = at + column.kind.width();
        let bytes = &file[at..end];
        match column.kind {
            _ if !is_value(column) => (),
            Kind::Number(_, decimals) => {
                let n = number_of(bytes, decimals).expect("the column was judged");
                out.push(u8::from(n.minus));
                out.extend(n.units.to_be_bytes());
            }
            _ => out.extend(bytes),
        }
        at = end + 1;
    }
    out
}

/// The values of a sound file at the front of a lent buffer; else what is wrong
/// with the file, then 8. They are the header's, then for each line its type in
/// two bytes and its own.
pub fn values(file: &[u8], out: &mut [u8]) -> Result<usize, Fault> {
    let mut made = Vec::new();
    let found = lines(file)?;
    made.extend(row_values(file, 0, &header()));
    for (kind, at) in found {
        made.extend(kind.to_be_bytes());
        made.extend(row_values(file, at, &line(kind)));
    }
    laid(&made, out)
}

fn laid(made: &[u8], out: &mut [u8]) -> Result<usize, Fault> {
    let front = out.get_mut(..made.len()).ok_or(fault(8, 0))?;
    front.copy_from_slice(made);
    Ok(made.len())
}

/// A row from its values at a place: its bytes, and the place behind them. A
/// value that does not fit its column is 43, values that end within one 40.
fn row_from(values: &[u8], from: usize, columns: &[Column]) -> Result<(Vec<u8>, usize), Fault> {
    let mut out = Vec::new();
    let mut at = from;
    for (i, column) in columns.iter().enumerate() {
        let width = column.kind.width();
        let taken = match column.kind {
            _ if !is_value(column) => 0,
            Kind::Number(..) => 9,
            _ => width,
        };
        let value = values.get(at..at + taken).ok_or(fault(40, values.len()))?;
        match column.kind {
            Kind::Constant(text) => out.extend(text.as_bytes()),
            _ if !is_value(column) => out.extend(vec![b' '; width]),
            Kind::Number(_, decimals) => {
                let units = bytes::number(&value[1..]);
                let minus = value[0] == 1;
                let written = column_of(Number { minus, units }, width, decimals);
                let fits = written.filter(|_| value[0] <= 1);
                out.extend(fits.ok_or(fault(43, at))?);
            }
            Kind::Text(_) if !text_holds(value) => return Err(fault(43, at)),
            _ => out.extend(value),
        }
        out.push(behind(columns, i));
        at += taken;
    }
    Ok((out, at))
}

/// The file of values at the front of a lent buffer: by rising place among the
/// values 40, 42 and 43, then 47, then 8. Count and sum are worked out.
pub fn written(values: &[u8], out: &mut [u8]) -> Result<usize, Fault> {
    let (mut file, mut at) = row_from(values, 0, &header())?;
    let mut count = 0;
    while at < values.len() {
        let kind = values.get(at..at + 2).ok_or(fault(40, values.len()))?;
        let kind = bytes::number(kind) as u16;
        if !TYPES.contains(&kind) {
            return Err(fault(42, at));
        }
        let (row, end) = row_from(values, at + 2, &line(kind))?;
        file.extend(row);
        at = end;
        count += 1;
    }
    file.extend(b"TRAILER|");
    if file.len() + 4 > MOST {
        return Err(fault(47, 0));
    }
    let count = column_of(
        Number {
            minus: false,
            units: count,
        },
        5,
        0,
    );
    file[27..32].copy_from_slice(&count.expect("so short a file has few lines"));
    let sum = sum(&file);
    file.extend(format!("{sum:03}\n").bytes());
    laid(&file, out)
}
