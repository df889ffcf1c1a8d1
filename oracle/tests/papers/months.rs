//! CR 11: figures of made-up captures, sums, orders and refusals; and that the
//! figures are those that ledgers fed from the capture would tell.

use crate::samples::*;
use oracle::answer::No;
use oracle::clean::cleaned;
use oracle::ledger::Ledger;
use oracle::month::{counted, frames_of, Figures, Month};
use oracle::numbers::{Channel, Tick, MOST};
use oracle::rules::Kind;
use oracle::walk::{numbers_of, records};

fn tick(channel: u64, n: u64) -> Vec<u8> {
    framed(b"M201", &with(&trade(n), 1, 2, channel))
}

fn announced(channel: u64, n: u64) -> Vec<u8> {
    framed(b"P001", &with(&with(&p001(), 1, 2, channel), 3, 8, n))
}

fn resend(channel: u64, status: u64) -> Vec<u8> {
    framed(b"P002", &with(&with(&p002(), 0, 2, channel), 19, 1, status))
}

fn channels(list: &[u16]) -> Vec<Channel> {
    list.iter().map(|c| Channel(*c)).collect()
}

fn page(list: &[u16]) -> Month {
    let (page, answer) = Month::started(&channels(list));
    assert_eq!(answer, Ok(()));
    page
}

fn row(figures: Figures) -> [u64; 6] {
    figures.numbers()
}

#[test]
fn the_six_figures_of_a_capture() {
    let capture = [
        tick(100, 1),
        tick(100, 3),
        tick(100, 3),
        tick(100, 1),
        tick(100, 258),
        tick(7, 5),
        resend(100, 0),
        resend(100, 4),
        resend(100, 4),
        resend(100, 1),
        resend(7, 0),
        announced(7, 6),
    ]
    .concat();
    let mut page = page(&[100, 7, 8]);
    let told = page.add(&capture).expect("it is taken");
    // 258 is far from floor 1, and known: 2 and 4 to 258 are missing.
    assert_eq!(row(told[0]), [2, 2, 1, 256, 1, 2]);
    assert_eq!(row(told[1]), [1, 0, 0, 5, 1, 0]);
    assert_eq!(row(told[2]), [0; 6]);
    assert_eq!((page.captures, page.sums.clone()), (1, told));
}

#[test]
fn each_capture_starts_fresh_and_the_sums_add_up() {
    let mut page = page(&[100]);
    for n in [1, 2, 1] {
        page.add(&tick(100, n)).expect("it is taken");
    }
    // 2 alone leaves 1 missing; the second 1 is no repeat.
    assert_eq!(row(page.sums[0]), [3, 0, 0, 1, 0, 0]);
    assert_eq!(page.captures, 3);
}

#[test]
fn channels_are_judged_one_by_one() {
    let full: Vec<u16> = (0..32).collect();
    let and = |more: &[u16]| [&full[..], more].concat();
    for (list, number) in [
        (and(&[32]), No::Full),
        (and(&[31]), No::Open),
        (and(&[10_000]), No::Number),
        (and(&[32, 10_000]), No::Full),
        (vec![10_000, 10_000], No::Number),
        (vec![5, 5, 10_000], No::Open),
        (vec![5, 10_000, 5], No::Number),
    ] {
        let (page, answer) = Month::started(&channels(&list));
        assert_eq!(answer, Err(number), "{list:?}");
        assert_eq!(page, Month::default());
    }
    assert_eq!(page(&full).channels.len(), 32);
    // No channel is a page too: every capture is taken.
    let mut none = page(&[]);
    assert_eq!(none.add(&tick(100, 1)), Ok(vec![]));
    assert_eq!(none.captures, 1);
}

#[test]
fn the_501st_capture_is_27_before_28() {
    let mut page = page(&[100]);
    for _ in 0..18 {
        page.add(&announced(100, MOST)).expect("18 fit");
    }
    assert_eq!(page.add(&announced(100, MOST)), Err(No::Sums));
    for _ in 18..500 {
        page.add(&[]).expect("up to 500");
    }
    let before = page.clone();
    assert_eq!(page.add(&[]), Err(No::Captures));
    assert_eq!(page.add(&announced(100, MOST)), Err(No::Captures));
    assert_eq!(page, before);
}

#[test]
fn a_sum_may_reach_the_last_number_of_64_bits_and_not_pass_it() {
    let mut page = page(&[7, 100]);
    for _ in 0..18 {
        page.add(&announced(100, MOST)).expect("18 fit");
    }
    let rest = u64::MAX - 18 * MOST;
    let before = page.clone();
    // A capture that is refused leaves nothing, though another channel has room.
    let over = [tick(7, 1), announced(100, rest + 1)].concat();
    assert_eq!(page.add(&over), Err(No::Sums));
    assert_eq!(page, before);
    page.add(&announced(100, rest)).expect("exactly");
    assert_eq!(page.sums[1].missing, u64::MAX);
    assert_eq!(page.add(&announced(100, 1)), Err(No::Sums));
    page.add(&tick(100, 1)).expect("nothing is missing in it");
    page.add(&announced(7, MOST)).expect("sums are kept apart");
}

const LIST: [u16; 4] = [100, 0, 256, 9_999];

/// A capture of generated frames of these channels, damage among them.
fn capture(d: &mut Dice) -> Vec<u8> {
    let about = d.len(1_500);
    busy_capture(d, &LIST, about)
}

#[test]
fn other_orders_and_scrubbed_captures_give_the_same_sums() {
    let mut counts = 0;
    for n in 0..200 {
        let d = &mut Dice::new(11, n);
        let captures: Vec<Vec<u8>> = (0..6).map(|_| capture(d)).collect();
        let mut pages = [page(&LIST), page(&LIST), page(&LIST)];
        for i in 0..6 {
            let last = &captures[5 - i];
            let told = pages[0].add(&captures[i]);
            pages[1].add(last).expect("none is refused");
            // "Their figures equal those of the originals."
            assert_eq!(pages[2].add(&cleaned(&captures[i]).0), told);
        }
        assert_eq!(pages[0], pages[1]);
        assert_eq!(pages[0], pages[2]);
        counts += pages[0].sums[0].received;
    }
    assert!(counts > 500, "{counts}");
}

/// The figures of a ledger that is fed from the frames.
fn by_ledger(channel: Channel, capture: &[u8]) -> [u64; 4] {
    let mut ledger = Ledger::open(channel).0;
    let mut counts = [0; 4];
    for message in frames_of(capture) {
        let (of, n) = numbers_of(&message);
        match Kind::of(message.msg_type) {
            Some(Kind::M201) => {
                let (next, answer) = ledger.tick(of, n);
                ledger = next;
                match answer {
                    Ok(_) => counts[0] += 1,
                    Err(No::Repeat) => counts[1] += 1,
                    Err(No::Far) => counts[2] += 1,
                    Err(no) => assert_eq!(no, No::Channel),
                }
            }
            Some(Kind::P001) => ledger = ledger.announce(of, n).0,
            _ => (),
        }
    }
    counts[3] = ledger.missing().1.expect("calls keep the rules");
    counts
}

#[test]
fn figures_are_those_of_a_ledger_and_of_the_walk() {
    for n in 0..600 {
        let capture = capture(&mut Dice::new(25, n));
        let frames = frames_of(&capture);
        for c in LIST {
            let channel = Channel(c);
            let (figures, numbers) = counted(channel, &frames);
            assert_eq!(row(figures)[..4], by_ledger(channel, &capture));
            if c == 100 {
                let (made, walked) = records(&capture);
                let accepted = made.iter().filter(|r| !r.is_refused());
                assert_eq!(accepted.count(), frames.len());
                assert_eq!(walked.ledger.missing().1, Ok(figures.missing));
                assert_eq!(walked.ledger.floor, Tick(numbers.floor));
                assert_eq!(walked.ledger.top, Tick(numbers.top));
            }
        }
    }
}
