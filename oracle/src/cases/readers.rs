//! The entry reader, by hand: readers opened, and readers made at any place,
//! over sound bodies and unsound ones.

use super::Run;
use crate::answers::Answers;
use crate::bytes::number;
use crate::made::{m102, with};

/// Places at and beside entries, and far ones.
const PLACES: [u64; 20] = [
    0,
    1,
    72,
    73,
    74,
    82,
    83,
    84,
    91,
    92,
    93,
    102,
    103,
    110,
    111,
    112,
    1_245_238,
    655_413,
    u64::MAX - 18,
    u64::MAX,
];

pub fn readers<A: Answers>(run: &mut Run<A>) {
    let (long, short) = (m102(13, b"MD210", 2), m102(1, b"MD001", 2));
    let most = m102(13, b"MD210", 425);
    let sized = |body: &[u8], n: usize| {
        let mut body = body.to_vec();
        body.resize(n, 0x20);
        body
    };
    let rows = [
        ("two long entries", long.clone()),
        ("two short entries", short.clone()),
        ("no entries", m102(13, b"MD210", 0)),
        ("425 entries", most.clone()),
        ("entries and 16 bytes over", sized(&most, 8_164)),
        ("3", sized(&most, 8_165)),
        ("3 before 6", sized(&most, 8_167)),
        ("4", sized(&long, 72)),
        ("4, an empty body", vec![]),
        ("6: entries cut", sized(&long, 73)),
        ("6: the second entry cut", sized(&long, 100)),
        ("6: the second entry a byte short", sized(&long, 110)),
        ("6: a byte behind the second entry", sized(&long, 112)),
        ("6: the second short entry missing", sized(&short, 83)),
        ("6: the second short entry a byte short", sized(&short, 92)),
        ("6: a byte behind the second short entry", sized(&short, 94)),
        ("6: three entries told", with(&long, 71, 2, 3)),
        ("6: one entry told", with(&long, 71, 2, 1)),
        ("6: 65535 entries told", with(&long, 71, 2, 65_535)),
        ("6: position", with(&long, 91, 1, 100)),
        ("6: SecurityType", with(&long, 0, 1, 12)),
        (
            "6: short entries told",
            with(&long, 10, 5, number(b"MD001")),
        ),
        (
            "6: long entries told",
            with(&short, 10, 5, number(b"MD002")),
        ),
        ("6: 65535 short entries told", with(&short, 71, 2, 65_535)),
    ];
    for (name, body) in rows {
        run.case(&format!("entry reader: {name}"));
        run.entries(&body);
        for place in PLACES {
            run.entry(&body, place);
        }
    }
}
