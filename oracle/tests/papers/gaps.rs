//! Which numbers a capture lacks: by hand, and against ledgers and counts.

use crate::samples::*;
use oracle::gaps::{channels_of, gaps, next_request, Gap};
use oracle::ledger::Range;
use oracle::month::frames_of;
use oracle::numbers::{Channel, Tick, MOST};
use oracle::walk::records;

fn tick(channel: u64, n: u64) -> Vec<u8> {
    framed(b"M201", &with(&trade(n), 1, 2, channel))
}

fn announced(channel: u64, n: u64) -> Vec<u8> {
    framed(b"P001", &with(&with(&p001(), 1, 2, channel), 3, 8, n))
}

fn resend(channel: u64) -> Vec<u8> {
    framed(b"P002", &with(&p002(), 0, 2, channel))
}

fn range(first: u64, last: u64) -> Range {
    Range {
        first: Tick(first),
        last: Tick(last),
    }
}

fn gap(channel: u16, floor: u64, top: u64, ranges: &[(u64, u64)]) -> Gap {
    let ranges: Vec<Range> = ranges.iter().map(|(a, b)| range(*a, *b)).collect();
    let counts = ranges.iter().map(|r| r.last.0 - r.first.0 + 1);
    Gap {
        channel: Channel(channel),
        ticked: true,
        floor: Tick(floor),
        top: Tick(top),
        missing: counts.sum(),
        ranges,
    }
}

#[test]
fn the_missing_numbers_by_channel() {
    let ticks = [1, 2, 5, 9].map(|n| tick(1, n)).concat();
    assert_eq!(gaps(&ticks), [gap(1, 2, 9, &[(3, 4), (6, 8)])]);
    let both = [ticks, tick(7, 2), announced(7, 3), tick(1, 6)].concat();
    let told = [
        gap(1, 2, 9, &[(3, 4), (7, 8)]),
        gap(7, 0, 3, &[(1, 1), (3, 3)]),
    ];
    assert_eq!(gaps(&both), told);
}

#[test]
fn ends_of_what_is_missing() {
    for (capture, told) in [
        (vec![], vec![]),
        (framed(b"S003", &[]), vec![]),
        (announced(5, 0), vec![gap(5, 0, 0, &[])]),
        (announced(5, 1), vec![gap(5, 0, 1, &[(1, 1)])]),
        (tick(5, 1), vec![gap(5, 1, 1, &[])]),
        (tick(5, 2), vec![gap(5, 0, 2, &[(1, 1)])]),
        (announced(0, MOST), vec![gap(0, 0, MOST, &[(1, MOST)])]),
        // Far, so known and not received.
        (tick(5, 257), vec![gap(5, 0, 257, &[(1, 257)])]),
        (tick(5, 256), vec![gap(5, 0, 256, &[(1, 255)])]),
        (
            [tick(5, 1), tick(5, MOST)].concat(),
            vec![gap(5, 1, MOST, &[(2, MOST)])],
        ),
    ] {
        assert_eq!(gaps(&capture), told);
    }
}

#[test]
fn channels_stand_as_they_appear() {
    let capture = [
        tick(9, 1),
        resend(3),
        tick(4, 1),
        announced(9, 2),
        tick(3, 1),
    ]
    .concat();
    let named = channels_of(&frames_of(&capture));
    assert_eq!(named, [Channel(9), Channel(3), Channel(4)]);
    let only = Gap {
        ticked: false,
        ..gap(8, 0, 0, &[])
    };
    assert_eq!(gaps(&resend(8)), [only]);
    assert!(gaps(&capture).iter().all(|g| g.ticked));
}

#[test]
fn the_next_request_is_the_tables() {
    assert_eq!(next_request(&[], true), None);
    assert_eq!(next_request(&tick(5, 1), true), None);
    let capture = [tick(5, 1), tick(6, 3), tick(7, 2)].concat();
    let asked = Some((Channel(6), range(1, 2)));
    assert_eq!(next_request(&capture, true), asked);
    // With 33 channels the last has no place.
    let many: Vec<Vec<u8>> = (0..33).map(|c| tick(c, 1 + c / 32)).collect();
    let many = many.concat();
    assert_eq!(gaps(&many).len(), 33);
    assert_eq!(next_request(&many, true), None);
    assert_eq!(next_request(&announced(5, 999), true), {
        Some((Channel(5), range(1, 200)))
    });
    // Thirty-two channels that resends alone name take all places, or none.
    let resends: Vec<Vec<u8>> = (0..32).map(resend).collect();
    let after = [resends.concat(), tick(100, 2)].concat();
    assert_eq!(next_request(&after, true), None);
    assert_eq!(
        next_request(&after, false),
        Some((Channel(100), range(1, 1)))
    );
}

#[test]
fn gaps_against_the_walk_and_counts() {
    let mut missing = 0;
    for n in 0..400 {
        let d = &mut Dice::new(29, n);
        let about = d.len(2_000);
        let capture = busy_capture(d, &[100, 0, 9_999], about);
        for gap in gaps(&capture) {
            let counts = gap.ranges.iter().map(|r| r.last.0 - r.first.0 + 1);
            assert_eq!(counts.sum::<u64>(), gap.missing);
            // The runs rise, and a number that is not missing stands between two.
            let pairs = gap.ranges.windows(2);
            assert!({ pairs }.all(|p| p[0].last.0 + 1 < p[1].first.0));
            let first = gap.ranges.first().map_or(gap.top.0 + 1, |r| r.first.0);
            assert_eq!(first, gap.floor.0 + 1);
            let last = gap.ranges.last().map_or(0, |r| r.last.0);
            assert!(last <= gap.top.0);
            if gap.channel == Channel(100) {
                let ledger = records(&capture).1.ledger;
                assert_eq!((gap.floor, gap.top), (ledger.floor, ledger.top));
                assert_eq!(ledger.missing().1, Ok(gap.missing));
                // Number by number, as far as the map reaches.
                let near = gap.floor.0 + 1..=gap.top.0.min(gap.floor.0 + 300);
                for n in near {
                    let one = ledger.missing_between(gap.channel, Tick(n), Tick(n));
                    let within = |r: &Range| (r.first.0..=r.last.0).contains(&n);
                    let among = gap.ranges.iter().any(within);
                    assert_eq!(one.1, Ok(u64::from(among)));
                }
            }
            missing += u32::from(gap.missing > 0);
        }
    }
    assert!(missing > 300, "{missing}");
}
