//! The entry reader.

use crate::samples::*;
use oracle::answer::No;
use oracle::entries::{Entry, Reader};

fn all(body: &[u8]) -> Vec<Entry> {
    let (mut reader, answer) = Reader::open(body);
    assert_eq!(answer, Ok(()));
    let mut entries = Vec::new();
    loop {
        match reader.step() {
            (next, Ok(entry)) => {
                entries.push(entry);
                reader = next;
            }
            (same, Err(no)) => {
                assert_eq!(no, No::Entries);
                assert_eq!(same, reader);
                assert_eq!(reader.place, body.len() as u64);
                return entries;
            }
        }
    }
}

#[test]
fn steps_over_long_entries() {
    for count in [0, 1, 5, 425] {
        let entries = all(&m102(13, b"MD210", count));
        assert_eq!(entries.len(), usize::from(count));
        for (i, entry) in entries.into_iter().enumerate() {
            let price = 10012300 + i as u64;
            assert_eq!(
                entry,
                Entry::Full {
                    kind: *b"2 ",
                    price,
                    size: 500,
                    position: 1
                }
            );
        }
    }
}

#[test]
fn steps_over_short_entries() {
    let entries = all(&m102(1, b"MD001", 809));
    assert_eq!(entries.len(), 809);
    for (i, entry) in entries.into_iter().enumerate() {
        assert_eq!(
            entry,
            Entry::Index {
                kind: *b"2 ",
                price: 10012300 + i as u64
            }
        );
    }
}

#[test]
fn opening_checks_3_4_6() {
    let cases = [
        (m102(13, b"MD210", 426), No::Long),
        (vec![0; 8_165], No::Long),
        (vec![0; 72], No::Length),
        (vec![], No::Length),
        (vec![0; 73], No::Field),
        (with(&m102(13, b"MD210", 2), 71, 2, 3), No::Field),
        (with(&m102(13, b"MD210", 2), 73 + 18, 1, 100), No::Field),
    ];
    for (body, no) in cases {
        let (reader, answer) = Reader::open(&body);
        assert_eq!(answer, Err(no));
        assert_eq!(reader.body.len(), 0);
        assert_eq!(reader.step(), (reader, Err(No::Entries)));
    }
}

#[test]
fn readers_made_by_hand() {
    let long = m102(13, b"MD210", 4);
    let short = m102(1, b"MD001", 4);
    for (body, size) in [(&long, 19u64), (&short, 10)] {
        for place in (0..200).chain([u64::MAX, u64::MAX - 18, 73 + 65_535 * size]) {
            let reader = Reader { body, place };
            let good = place >= 73 && (place - 73) % size == 0 && (place - 73) / size < 4;
            match reader.step() {
                (next, Ok(_)) => {
                    assert!(good);
                    assert_eq!(
                        next,
                        Reader {
                            body,
                            place: place + size
                        }
                    );
                }
                (same, Err(no)) => {
                    assert!(!good);
                    assert_eq!((same, no), (reader, No::Entries));
                }
            }
        }
    }
}

#[test]
fn a_cut_body_still_steps_up_to_its_end() {
    let body = m102(13, b"MD210", 4);
    for length in 0..body.len() {
        let cut = &body[..length];
        for k in 0..4u64 {
            let reader = Reader {
                body: cut,
                place: 73 + 19 * k,
            };
            let fits = length >= 73 + 19 * (k as usize + 1);
            assert_eq!(reader.step().1.is_ok(), fits, "{length} {k}");
        }
    }
}

#[test]
fn an_unsound_body_still_steps() {
    // 0.7: a step judges only what the row of 20 names.
    let body = vec![0xFF; 73 + 19];
    let reader = Reader {
        body: &body,
        place: 73,
    };
    let entry = Entry::Full {
        kind: [0xFF; 2],
        price: u64::MAX,
        size: u64::MAX,
        position: 255,
    };
    assert_eq!(
        reader.step(),
        (
            Reader {
                body: &body,
                place: 92
            },
            Ok(entry)
        )
    );
    // No entries are counted: no place is good.
    let none = vec![0; 73 + 19];
    assert_eq!(
        Reader {
            body: &none,
            place: 73
        }
        .step()
        .1,
        Err(No::Entries)
    );
}
