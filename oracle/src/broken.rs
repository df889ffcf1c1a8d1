//! Which field of a body breaks a field rule: the first one from the front, in
//! the order of document 01's widths. A rule counts for the field that it is
//! said of (decision 0.124): a pair for MDStreamID, a request's range for
//! ApplEndSeqNum, whole entries for NoMDEntries, a tail's length for the
//! extension.

use crate::answer::No;
use crate::bytes::number;
use crate::rules::{digits, entry_count, entry_size, stream_pairs, Kind, MOST_BODY};
use crate::tails;

/// A field, and the rule that it breaks.
#[derive(Clone, Copy, Debug, PartialEq, Eq)]
pub struct Broken {
    pub place: u64,
    pub len: u64,
    /// Its number in the table's order, from 0; 13 to 16 for the fields of an
    /// M102 entry.
    pub index: u64,
    /// The entry's number, from 1; 0 for any other field.
    pub entry: u64,
}

/// 2, 3 and 4 as reading gives them, else the field, if there is one.
pub fn broken_of(msg_type: [u8; 4], body: &[u8]) -> Result<Option<Broken>, No> {
    let kind = Kind::of(msg_type).ok_or(No::Type)?;
    if body.len() > MOST_BODY {
        return Err(No::Long);
    }
    if !kind.length_suits(body.len()) {
        return Err(No::Length);
    }
    let mut place = 0;
    for (index, (width, kept)) in fields(kind, body).into_iter().enumerate() {
        if !kept {
            return Ok(Some(told(place, width, index, 0)));
        }
        place += width;
    }
    Ok(if kind == Kind::M102 {
        in_entries(body)
    } else {
        None
    })
}

fn told(place: usize, len: usize, index: usize, entry: usize) -> Broken {
    let [place, len, index, entry] = [place, len, index, entry].map(|n| n as u64);
    Broken {
        place,
        len,
        index,
        entry,
    }
}

/// The widths of a type's fields but for an M102's entries, and whether each
/// field keeps the rules that are said of it.
fn fields(kind: Kind, body: &[u8]) -> Vec<(usize, bool)> {
    let n = |from: usize, width: usize| number(&body[from..from + width]);
    let any = true;
    match kind {
        Kind::S003 | Kind::M101 => vec![],
        Kind::S001 => vec![(32, any), (32, any), (2, n(64, 2) > 0), (8, any)],
        Kind::S002 => vec![(4, n(0, 4) <= 9_999), (256, any)],
        Kind::P001 => vec![
            (1, n(0, 1) == 13),
            (2, digits(n(1, 2), 4)),
            (8, digits(n(3, 8), 18)),
            (1, [b'Y', b'N'].contains(&body[11])),
        ],
        Kind::P002 => {
            let (begin, end, status) = (n(3, 8), n(11, 8), n(19, 1));
            let range = status != 0 || end == 0 || end >= begin;
            vec![
                (2, digits(n(0, 2), 4)),
                (1, n(2, 1) == 1),
                (8, begin > 0 && digits(begin, 18)),
                (8, digits(end, 18) && range),
                (1, status <= 5 || status == 99),
                (32, any),
            ]
        }
        Kind::M102 => vec![
            (1, [1, 2, 3, 12, 13, 14].contains(&body[0])),
            (1, (1..=3).contains(&body[1])),
            (4, digits(n(2, 4), 8)),
            (4, digits(n(6, 4), 9)),
            (5, stream_pairs(n(0, 1), &body[10..15])),
            (8, any),
            (8, any),
            (8, digits(n(31, 8), 13)),
            (8, digits(n(39, 8), 16)),
            (8, digits(n(47, 8), 16)),
            (8, digits(n(55, 8), 16)),
            (8, any),
            (2, body.len() == 73 + entry_count(body) * entry_size(body)),
        ],
        Kind::M201 => vec![
            (1, n(0, 1) == 13),
            (2, digits(n(1, 2), 4)),
            (8, n(3, 8) > 0 && digits(n(3, 8), 18)),
            (5, any),
            (8, any),
            (4, digits(n(24, 4), 9)),
            (1, [b'0', b'4', b'F'].contains(&body[28])),
            (8, digits(n(29, 8), 13)),
            (8, digits(n(37, 8), 15)),
            (body.len() - tails::FIXED, tails::suits(body)),
        ],
    }
}

/// The first field of an entry that has too many digits: price 13, size 12,
/// position 2.
fn in_entries(body: &[u8]) -> Option<Broken> {
    let size = entry_size(body);
    for (i, entry) in body[73..].chunks_exact(size).enumerate() {
        for (index, from, width, most) in [(14, 2, 8, 13), (15, 10, 8, 12), (16, 18, 1, 2)] {
            if from < size && !digits(number(&entry[from..from + width]), most) {
                return Some(told(73 + i * size + from, width, index, i + 1));
            }
        }
    }
    None
}

#[cfg(test)]
mod tests {
    use super::*;
    use crate::made::{self, Dice};

    /// None exactly where the rules hold, and else within the body.
    #[test]
    fn told_exactly_where_a_rule_is_broken() {
        let mut some = 0;
        for case in 0..20_000 {
            let (name, body) = made::any_body(&mut Dice::new(5, case));
            let Ok(broken) = broken_of(name, &body) else {
                continue;
            };
            let kind = Kind::of(name).expect("known");
            assert_eq!(broken.is_none(), kind.fields_hold(&body), "case {case}");
            if let Some(b) = broken {
                assert!(b.place + b.len <= body.len() as u64);
                some += 1;
            }
        }
        assert!(some > 100, "{some}");
    }
}
