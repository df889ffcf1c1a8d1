//! The ledger's calls and the order of their checks.

use crate::samples::*;
use oracle::answer::No;
use oracle::ledger::{Ledger, Pending, Range, Settled};
use oracle::numbers::{Channel, Tick, MOST};

const OTHER: Channel = Channel(101);

fn range(first: u64, last: u64) -> Range {
    Range {
        first: Tick(first),
        last: Tick(last),
    }
}

/// States that break one rule each.
fn broken() -> Vec<Ledger> {
    vec![
        Ledger {
            channel: Channel(10_000),
            ..fresh()
        },
        Ledger {
            channel: Channel(65_535),
            ..fresh()
        },
        state(6, 5, &[], None),
        state(u64::MAX, u64::MAX, &[], None),
        state(0, MOST + 1, &[], None),
        state(0, u64::MAX, &[], None),
        state(10, 20, &[11], None),
        state(10, 20, &[21], None),
        state(10, 20, &[15, 266], None),
        state(10, 10, &[12], None),
        state(10, 20, &[], Some((0, 5))),
        state(10, 20, &[], Some((12, 15))),
        state(10, 20, &[], Some((5, 4))),
        state(10, 20, &[], Some((5, 21))),
        state(300, 400, &[], Some((101, 301))),
        state(300, 400, &[], Some((1, u64::MAX))),
        state(10, 10, &[], Some((11, 11))),
    ]
}

/// States beside them that keep every rule.
fn sound() -> Vec<Ledger> {
    vec![
        fresh(),
        Ledger {
            channel: Channel(9_999),
            ..fresh()
        },
        state(5, 5, &[], None),
        state(MOST, MOST, &[], None),
        state(0, MOST, &[2, 256], None),
        state(10, 20, &[12, 20], None),
        state(10, 266, &[15, 266], None),
        state(10, 20, &[], Some((1, 5))),
        state(10, 20, &[], Some((11, 20))),
        state(10, 20, &[], Some((5, 5))),
        state(300, 400, &[], Some((101, 300))),
        state(MOST - 1, MOST, &[], Some((MOST, MOST))),
    ]
}

#[test]
fn state_rules() {
    for l in broken() {
        assert!(!l.sound(), "{l:?}");
    }
    for l in sound() {
        assert!(l.sound(), "{l:?}");
    }
}

#[test]
fn thirteen_comes_first_and_gives_the_state_back() {
    for l in broken() {
        // Another channel, and numbers that would be refused too.
        assert_eq!(l.tick(OTHER, Tick(0)), (l, Err(No::State)));
        assert_eq!(l.tick(l.channel, Tick(1)), (l, Err(No::State)));
        assert_eq!(l.announce(OTHER, Tick(u64::MAX)), (l, Err(No::State)));
        assert_eq!(l.request(OTHER), (l, Err(No::State)));
        assert_eq!(l.reply(OTHER, Tick(1), 0), (l, Err(No::State)));
        assert_eq!(l.missing(), (l, Err(No::State)));
        assert_eq!(l.held(), (l, Err(No::State)));
    }
}

#[test]
fn eighteen_comes_second() {
    let l = state(10, 20, &[15], Some((11, 14)));
    for n in [0, 1, 11, 15, 500, MOST + 1] {
        assert_eq!(l.tick(OTHER, Tick(n)), (l, Err(No::Channel)));
    }
    assert_eq!(l.tick(Channel(10_000), Tick(1)), (l, Err(No::Channel)));
    assert_eq!(l.announce(OTHER, Tick(MOST + 1)), (l, Err(No::Channel)));
    // before 14 and 15
    assert_eq!(l.request(OTHER), (l, Err(No::Channel)));
    assert_eq!(fresh().request(OTHER), (fresh(), Err(No::Channel)));
    // before 17 and 16
    assert_eq!(l.reply(OTHER, Tick(11), 0), (l, Err(No::Channel)));
    assert_eq!(
        fresh().reply(OTHER, Tick(11), 1),
        (fresh(), Err(No::Channel))
    );
}

#[test]
fn ten_comes_before_eleven_and_twelve() {
    let l = state(10, 20, &[15], None);
    // 0 lies below the floor, MOST + 1 above floor + 256.
    assert_eq!(l.tick(C, Tick(0)), (l, Err(No::Number)));
    assert_eq!(l.tick(C, Tick(MOST + 1)), (l, Err(No::Number)));
    assert_eq!(l.tick(C, Tick(u64::MAX)), (l, Err(No::Number)));
    assert_eq!(l.announce(C, Tick(MOST + 1)), (l, Err(No::Number)));
    assert_eq!(l.announce(C, Tick(MOST)).1, Ok(()));
}

#[test]
fn repeats_and_far_ticks() {
    let l = state(10, 20, &[15], None);
    for n in [1, 9, 10, 15] {
        assert_eq!(l.tick(C, Tick(n)), (l, Err(No::Repeat)));
    }
    assert_eq!(l.tick(C, Tick(266)).1, Ok(None));
    // 12 moves the top and nothing else.
    assert_eq!(
        l.tick(C, Tick(267)),
        (
            Ledger {
                top: Tick(267),
                ..l
            },
            Err(No::Far)
        )
    );
    assert_eq!(
        l.tick(C, Tick(MOST)),
        (
            Ledger {
                top: Tick(MOST),
                ..l
            },
            Err(No::Far)
        )
    );
    let high = Ledger {
        top: Tick(300),
        ..l
    };
    assert_eq!(high.tick(C, Tick(299)), (high, Err(No::Far)));
}

#[test]
fn the_last_numbers_of_all() {
    let l = state(MOST - 2, MOST, &[MOST], None);
    let (l, answer) = l.tick(C, Tick(MOST - 1));
    assert_eq!(answer, Ok(Some(range(MOST - 1, MOST))));
    assert_eq!(l, state(MOST, MOST, &[], None));
    assert_eq!(l.tick(C, Tick(MOST)).1, Err(No::Repeat));
    assert_eq!(l.tick(C, Tick(MOST + 1)).1, Err(No::Number));
    assert_eq!(l.request(C).1, Err(No::Whole));
}

#[test]
fn the_floor_passes_held_numbers() {
    let l = state(10, 20, &[12, 13, 15], None);
    let (l, answer) = l.tick(C, Tick(11));
    assert_eq!(answer, Ok(Some(range(11, 13))));
    assert_eq!(l, state(13, 20, &[15], None));
    // A whole map passed at once.
    let all: Vec<u64> = (2..=256).collect();
    let (l, answer) = state(0, 256, &all, None).tick(C, Tick(1));
    assert_eq!(answer, Ok(Some(range(1, 256))));
    assert_eq!(l, state(256, 256, &[], None));
}

#[test]
fn map_places_are_free_again() {
    // Pairs in the wrong order, far beyond 256 numbers.
    let mut l = fresh();
    for k in 0..1_000u64 {
        let (held, answer) = l.tick(C, Tick(2 * k + 2));
        assert_eq!(answer, Ok(None));
        assert_eq!(held.held().1, Ok(1));
        let (next, answer) = held.tick(C, Tick(2 * k + 1));
        assert_eq!(answer, Ok(Some(range(2 * k + 1, 2 * k + 2))));
        l = next;
    }
    assert_eq!(l, state(2_000, 2_000, &[], None));
}

#[test]
fn announcements() {
    let l = state(10, 20, &[15], Some((11, 14)));
    assert_eq!(
        l.announce(C, Tick(25)),
        (Ledger { top: Tick(25), ..l }, Ok(()))
    );
    for n in [0, 5, 20] {
        assert_eq!(l.announce(C, Tick(n)), (l, Ok(())));
    }
}

#[test]
fn requests() {
    let cases = [
        (state(10, 20, &[], None), range(11, 20)),
        (state(10, 20, &[12], None), range(11, 11)),
        (state(10, 20, &[20], None), range(11, 19)),
        (state(10, 210, &[], None), range(11, 210)),
        (state(10, 211, &[], None), range(11, 210)),
        (state(10, 211, &[211], None), range(11, 210)),
        (state(10, 212, &[210], None), range(11, 209)),
        (state(0, MOST, &[], None), range(1, 200)),
        (state(MOST - 1, MOST, &[], None), range(MOST, MOST)),
    ];
    for (l, asked) in cases {
        let (next, answer) = l.request(C);
        assert_eq!(answer, Ok(asked));
        let pending = Pending::Asked {
            first: asked.first,
            last: asked.last,
        };
        assert_eq!(next, Ledger { pending, ..l });
        assert_eq!(next.request(C), (next, Err(No::Busy)));
    }
    // 14 before 15: pending, and nothing missing.
    let whole = state(20, 20, &[], Some((11, 20)));
    assert_eq!(whole.request(C), (whole, Err(No::Busy)));
}

#[test]
fn replies() {
    let l = state(10, 20, &[15], Some((8, 14)));
    let clear = Ledger {
        pending: Pending::Nothing,
        ..l
    };
    for status in 0..=255u8 {
        let known = (1..=5).contains(&status) || status == 99;
        if known {
            // Every status clears, and but for 4 changes nothing else.
            let (next, answer) = l.reply(C, Tick(8), status);
            assert_eq!(next.pending, Pending::Nothing);
            if status != 4 {
                assert_eq!((next, answer), (clear, Ok(Settled::default())));
            }
            assert_eq!(l.reply(C, Tick(11), status), (l, Err(No::Unasked)));
            assert_eq!(clear.reply(C, Tick(8), status), (clear, Err(No::Unasked)));
        } else {
            // 17 before 16.
            assert_eq!(l.reply(C, Tick(8), status), (l, Err(No::Status)));
            assert_eq!(l.reply(C, Tick(11), status), (l, Err(No::Status)));
            assert_eq!(clear.reply(C, Tick(8), status), (clear, Err(No::Status)));
        }
    }
}

#[test]
fn all_done_marks_nothing_as_received() {
    let (l, _) = fresh().announce(C, Tick(3));
    let (l, _) = l.request(C);
    let (l, answer) = l.reply(C, Tick(1), 1);
    assert_eq!(answer, Ok(Settled::default()));
    assert_eq!(l.missing().1, Ok(3));
    assert_eq!(l.tick(C, Tick(1)).1, Ok(Some(range(1, 1))));
}

#[test]
fn opening() {
    for channel in [0, 100, 9_999] {
        let (l, answer) = Ledger::open(Channel(channel));
        assert_eq!(answer, Ok(()));
        assert_eq!(
            l,
            Ledger {
                channel: Channel(channel),
                ..fresh()
            }
        );
    }
    for channel in [10_000, 65_535] {
        let (l, answer) = Ledger::open(Channel(channel));
        assert_eq!(answer, Err(No::Number));
        assert_eq!(
            l,
            Ledger {
                channel: Channel(0),
                ..fresh()
            }
        );
    }
}

#[test]
fn counts() {
    let l = state(10, 20, &[12, 15], None);
    assert_eq!(l.held(), (l, Ok(2)));
    assert_eq!(l.missing(), (l, Ok(8)));
    assert_eq!(state(0, MOST, &[], None).missing().1, Ok(MOST));
}

/// CR 9: "Let a number's place be its remainder by 256". Place p is bit p % 64
/// of word p / 64.
#[test]
fn the_words_of_a_map() {
    for floor in [0, 1, 62, 63, 64, 254, 255, 256, 300, 511, 512, MOST - 300] {
        for ahead in [2, 3, 64, 65, 128, 200, 255, 256] {
            let n = floor + ahead;
            let words = state(floor, floor + 256, &[n], None).words();
            let mut map = [0; 4];
            let p = n % 256;
            map[(p / 64) as usize] = 1 << (p % 64);
            assert_eq!(words[3..7], map, "{floor} {ahead}");
            let held = Ledger::of_words(words);
            assert_eq!(held, state(floor, floor + 256, &[n], None));
        }
    }
    // All that nine words can hold goes there and back, sound or not.
    for floor in [0, 255, 256, 300, u64::MAX - 1, u64::MAX] {
        let words = [100, floor, 7, 1, u64::MAX, 0x8000_0000_0000_0001, 6, 1, 2];
        assert_eq!(Ledger::of_words(words).words(), words);
    }
}

/// "with places cleared as the floor passes them"
#[test]
fn passed_places_are_cleared() {
    let mut l = fresh();
    for n in 1..=1_000 {
        l = l.tick(C, Tick(n)).0;
        assert_eq!(l.words(), [100, n, n, 0, 0, 0, 0, 0, 0]);
    }
}

/// CR 7, and decision 7.1's case.
#[test]
fn status_4_gives_up() {
    let ticks = |numbers: std::ops::RangeInclusive<u64>| numbers.map(Tick).collect::<Vec<_>>();
    let held: Vec<u64> = (201..=455).collect();
    let l = state(199, 500, &held, Some((1, 200)));
    let (next, answer) = l.reply(C, Tick(1), 4);
    let settled = Settled {
        given_up: vec![Tick(200)],
        passed: ticks(201..=455),
    };
    assert_eq!((next, answer), (state(455, 500, &[], None), Ok(settled)));
    assert_eq!(next.tick(C, Tick(200)), (next, Err(No::Repeat)));

    // Received numbers of the range are named apart; the floor stops before the
    // next gap.
    let l = state(10, 20, &[12, 15, 17], Some((9, 14)));
    let (next, answer) = l.reply(C, Tick(9), 4);
    let settled = Settled {
        given_up: vec![Tick(11), Tick(13), Tick(14)],
        passed: vec![Tick(12), Tick(15)],
    };
    assert_eq!((next, answer), (state(15, 20, &[17], None), Ok(settled)));
    assert_eq!(next.request(C).1, Ok(range(16, 16)));

    // A range wholly passed gives up nothing.
    let l = state(10, 20, &[], Some((5, 10)));
    let (next, answer) = l.reply(C, Tick(5), 4);
    let nothing = Ok(Settled::default());
    assert_eq!((next, answer), (state(10, 20, &[], None), nothing));
}

/// CR 8.
#[test]
fn missing_between() {
    let between = |l: Ledger, a, b| l.missing_between(C, Tick(a), Tick(b)).1;
    let l = state(10, MOST, &[12, 15], None);
    assert_eq!(between(l, 1, MOST), Ok(MOST - 12));
    assert_eq!(between(l, 1, 10), Ok(0));
    assert_eq!(between(l, 11, 11), Ok(1));
    assert_eq!(between(l, 12, 12), Ok(0));
    assert_eq!(between(l, 11, 15), Ok(3));
    assert_eq!(between(l, 15, 11), Ok(0));
    assert_eq!(between(l, MOST, 1), Ok(0));
    // Numbers above the top are not missing.
    assert_eq!(between(state(10, 20, &[], None), 1, MOST), Ok(10));
    // 13, then 18, then 10 on both.
    for (a, b) in [(0, 1), (1, 0), (MOST + 1, 1), (1, MOST + 1), (0, u64::MAX)] {
        assert_eq!(between(l, a, b), Err(No::Number));
        let other = l.missing_between(OTHER, Tick(a), Tick(b));
        assert_eq!(other, (l, Err(No::Channel)));
        let broken = state(10, 5, &[], None);
        let answer = broken.missing_between(OTHER, Tick(a), Tick(b));
        assert_eq!(answer, (broken, Err(No::State)));
    }
}
