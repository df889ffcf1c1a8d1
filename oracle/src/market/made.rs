//! Made-up market files, sound and spoilt.

use super::{column_of, header, line, Column, Kind, Number, TYPES};
use crate::bytes::sum;
use crate::made::Dice;

/// A number that fits a column, often at its ends.
fn number(d: &mut Dice, width: usize, decimals: usize) -> Vec<u8> {
    // The digits that fit, beside the point.
    let digits = width - usize::from(decimals > 0);
    let most = 10u64.pow(digits as u32) - 1;
    let units = match d.below(6) {
        0 => 0,
        1 => most,
        2 => d.below(most.min(1_000) + 1),
        _ => d.below(most + 1) / 10u64.pow(d.below(digits as u64) as u32),
    };
    let minus = units > 0 && d.once_in(6);
    let shown = column_of(Number { minus, units }, width, decimals);
    let plain = Number {
        minus: false,
        units,
    };
    shown.unwrap_or_else(|| column_of(plain, width, decimals).expect("it has place"))
}

/// Text: blank, full, or padded, of letters or of any bytes.
fn text(d: &mut Dice, width: usize) -> Vec<u8> {
    let used = match d.below(4) {
        0 => 0,
        1 => width,
        _ => d.len(width + 1),
    };
    let mut text = if d.once_in(4) {
        d.bytes(used)
    } else {
        (0..used).map(|_| d.of(b"ABCXYZ0123:.-| ")).collect()
    };
    if text.first() == Some(&b' ') {
        text[0] = b'T';
    }
    text.resize(width, b' ');
    text
}

/// A name, often of bars and newlines.
fn name(d: &mut Dice, width: usize) -> Vec<u8> {
    match d.below(4) {
        0 => d.bytes(width),
        1 => (0..width).map(|_| d.of(b"|\n")).collect(),
        2 => b"MD401|TRAILER|000\nHEADER|MD405|\n\n".repeat(2)[..width].to_vec(),
        _ => {
            let mut name: Vec<u8> = Vec::new();
            // Two bytes a letter, the low one first.
            while name.len() < width {
                let letter = 0x4E00 + d.below(0x5000) as u16;
                name.extend(letter.to_le_bytes());
            }
            name.truncate(width);
            name
        }
    }
}

/// A sound row.
fn row(d: &mut Dice, columns: &[Column]) -> Vec<u8> {
    let mut out = Vec::new();
    for (i, column) in columns.iter().enumerate() {
        let width = column.kind.width();
        match column.kind {
            Kind::Constant(text) => out.extend(text.as_bytes()),
            Kind::Blank(_) => out.extend(vec![b' '; width]),
            Kind::Number(_, decimals) => out.extend(number(d, width, decimals)),
            Kind::Text(_) => out.extend(text(d, width)),
            Kind::Name(_) => out.extend(name(d, width)),
        }
        out.push(super::behind(columns, i));
    }
    out
}

/// A sound file with lines of these types.
pub fn file(d: &mut Dice, types: &[u16]) -> Vec<u8> {
    let mut file = row(d, &header());
    for kind in types {
        file.extend(row(d, &line(*kind)));
    }
    file.extend(b"TRAILER|000\n");
    mended(file, types.len())
}

/// Types of so many lines.
pub fn types(d: &mut Dice, lines: usize) -> Vec<u16> {
    (0..lines).map(|_| d.of(&TYPES)).collect()
}

/// A fault somewhere: a byte, a cut, bytes over, a byte lost, a column that is
/// another's, a count, a sum.
pub fn spoil(d: &mut Dice, file: &mut Vec<u8>) {
    let n = file.len();
    if n < 94 {
        return;
    }
    let at = d.len(n);
    match d.below(10) {
        0 => file.truncate(at),
        1 => file.push(d.of(b"\nM ")),
        2 => {
            file.remove(at);
        }
        3 => file.insert(at, d.of(b" 0|\n")),
        4 => file[27..32].copy_from_slice(&number(d, 5, 0)),
        5 => {
            let byte = n - 12 + d.len(12);
            file[byte] = d.of(b"0129|\n T");
        }
        6 => file[at] = d.draw() as u8,
        _ => file[at] = d.of(b"   0019-.|\nM"),
    }
}

/// The file with its count and its sum set right, whatever else is wrong with
/// it: its last twelve bytes are the trailer.
pub fn mended(mut file: Vec<u8>, lines: usize) -> Vec<u8> {
    file[27..32].copy_from_slice(format!("{lines:>5}").as_bytes());
    summed(file)
}

/// The file with its sum set right.
pub fn summed(mut file: Vec<u8>) -> Vec<u8> {
    let at = file.len() - 4;
    let digits = format!("{:03}", sum(&file[..at]));
    file[at..at + 3].copy_from_slice(digits.as_bytes());
    file
}
