//! Cases of a month's page: what answers them, and the text of their answers.

use super::{Figures, Month};
use crate::answer::No;
use crate::answers::Answer;
use crate::cases::text::{hex, joined, Numbers, Text};
use crate::clean::cleaned;
use crate::made::{self, busy_capture, damage, framed, m201, p001, p002, with, Dice};
use crate::numbers::{Channel, MOST};

/// The two calls, and what a page shows. A refusal leaves the page as it was.
pub trait Answers {
    type Page: Clone;

    /// Beside a refusal stands a page with no channel.
    fn start(&self, channels: &[Channel]) -> (Self::Page, Answer<()>);
    /// The capture's own figures, for each channel in the order named.
    fn add(&self, page: &mut Self::Page, capture: &[u8]) -> Answer<Vec<Figures>>;
    /// The channels named, how many captures were taken, and the sums.
    fn page(&self, page: &Self::Page) -> Month;
}

/// This program.
pub struct Oracle;

impl Answers for Oracle {
    type Page = Month;

    fn start(&self, channels: &[Channel]) -> (Month, Answer<()>) {
        let (page, answer) = Month::started(channels);
        (page, answer.map_err(No::number))
    }

    fn add(&self, page: &mut Month, capture: &[u8]) -> Answer<Vec<Figures>> {
        page.add(capture).map_err(No::number)
    }

    fn page(&self, page: &Month) -> Month {
        page.clone()
    }
}

/// Every number that each call can give.
pub const NUMBERS: [Numbers; 2] = [("start", &[0, 10, 21, 22]), ("add", &[0, 27, 28])];

struct Run<'a, A: Answers> {
    answers: &'a A,
    text: Text,
}

fn shown(figures: &[Figures]) -> String {
    let rows = figures.iter().map(|f| joined(&f.numbers()));
    rows.collect::<Vec<_>>().join(", ")
}

impl<A: Answers> Run<'_, A> {
    fn start(&mut self, channels: &[u16]) -> A::Page {
        let named: Vec<Channel> = channels.iter().map(|c| Channel(*c)).collect();
        let (page, answer) = self.answers.start(&named);
        self.text.line("start", &answer, |()| String::new());
        self.page(&page);
        page
    }

    fn add(&mut self, page: &mut A::Page, capture: &[u8]) -> Option<Vec<Figures>> {
        let answer = self.answers.add(page, capture);
        self.text.line("add", &answer, |figures| shown(figures));
        self.page(page);
        answer.ok()
    }

    fn page(&mut self, page: &A::Page) {
        let Month {
            channels,
            captures,
            sums,
        } = self.answers.page(page);
        let channels: Vec<u64> = channels.iter().map(|c| u64::from(c.0)).collect();
        let (channels, sums) = (joined(&channels), shown(&sums));
        self.text.more(&format!("{channels}: {captures}: {sums}"));
    }

    /// A page over captures, by a name.
    fn over(&mut self, name: &str, channels: &[u16], captures: &[Vec<u8>]) {
        self.text.case(name);
        let mut page = self.start(channels);
        for capture in captures {
            self.add(&mut page, capture);
        }
    }

    /// The captures as they are and scrubbed, in this order and in others. Where
    /// none is refused, the sums are the same.
    fn orders(&mut self, d: &mut Dice, channels: &[u16], captures: &[Vec<u8>]) {
        let mut sums = Vec::new();
        let mut order: Vec<usize> = (0..captures.len()).collect();
        for turn in 0..3 {
            let mut page = self.start(channels);
            let mut taken = true;
            for i in &order {
                let capture = match turn {
                    1 => cleaned(&captures[*i]).0,
                    _ => captures[*i].clone(),
                };
                taken &= self.add(&mut page, &capture).is_some();
            }
            if taken {
                sums.push(self.answers.page(&page));
            }
            for i in (1..order.len()).rev() {
                order.swap(i, d.len(i + 1));
            }
        }
        assert!(sums.windows(2).all(|s| s[0] == s[1]), "another order");
        assert!(sums.is_empty() || sums.len() == 3, "refused in one order");
    }
}

// FRAMES OF A CHANNEL

fn tick(channel: u16, n: u64) -> Vec<u8> {
    let body = with(&m201(n, b"MD299", b'0', 9), 1, 2, u64::from(channel));
    framed(b"M201", &body)
}

fn announced(channel: u16, n: u64) -> Vec<u8> {
    let body = with(&with(&p001(), 1, 2, u64::from(channel)), 3, 8, n);
    framed(b"P001", &body)
}

fn resend(channel: u16, first: u64, status: u8) -> Vec<u8> {
    let body = with(&with(&p002(), 0, 2, u64::from(channel)), 3, 8, first);
    let body = with(&with(&body, 11, 8, first), 19, 1, u64::from(status));
    framed(b"P002", &body)
}

/// The text of the cases made by hand.
pub fn by_hand(answers: &impl Answers) -> String {
    let mut run = Run {
        answers,
        text: Text::default(),
    };
    starts(&mut run);
    figures(&mut run);
    several(&mut run);
    ends(&mut run);
    edges(&mut run);
    run.text.out
}

/// Channels named at the start, judged one by one.
fn starts<A: Answers>(run: &mut Run<A>) {
    let upto = |n: u16| (0..n).collect::<Vec<u16>>();
    let and = |mut channels: Vec<u16>, more: &[u16]| {
        channels.extend(more);
        channels
    };
    for (name, channels) in [
        ("no channel", vec![]),
        ("one channel", vec![100]),
        ("the first and the last channel", vec![9_999, 0]),
        ("thirty-two channels", upto(32)),
        ("thirty-three channels: 21", upto(33)),
        ("a channel above 9,999: 10", vec![10_000]),
        ("the last number of two bytes: 10", vec![65_535]),
        ("a channel twice: 22", vec![100, 100]),
        ("10 first, then twice", vec![100, 10_000, 100]),
        ("twice first, then 10", vec![100, 100, 10_000]),
        ("too long, and twice: 10", vec![10_000, 10_000]),
        ("a full page, then 10", and(upto(32), &[10_000])),
        ("a full page, then one of its own: 22", and(upto(32), &[31])),
        (
            "a full page, then another: 21",
            and(upto(32), &[32, 10_000]),
        ),
    ] {
        run.over(name, &channels, &[b"".to_vec(), tick(100, 2)]);
    }
}

/// Each figure of one capture.
fn figures<A: Answers>(run: &mut Run<A>) {
    let join = |frames: &[Vec<u8>]| vec![frames.concat()];
    let statuses: Vec<Vec<u8>> = [0, 1, 2, 3, 4, 5, 99, 0, 4, 4]
        .map(|s| resend(100, 1, s))
        .to_vec();
    let far = [1, 258, 258, 2, 258, 259, 1, 999].map(|n| tick(100, n));
    for (name, capture) in [
        ("an empty capture", join(&[])),
        ("no frame", join(&[b"stray bytes".to_vec()])),
        ("ticks in order", join(&[1, 2, 3].map(|n| tick(100, n)))),
        ("a gap", join(&[1, 2, 5].map(|n| tick(100, n)))),
        ("a repeat below the floor, and one held", {
            join(&[1, 3, 1, 3, 3].map(|n| tick(100, n)))
        }),
        ("far, then near enough, then far again", join(&far)),
        ("far makes everything below it missing", {
            join(&[tick(100, MOST)])
        }),
        ("an announcement above the ticks", {
            join(&[tick(100, 2), announced(100, 9)])
        }),
        ("an announcement below the ticks", {
            join(&[tick(100, 4), announced(100, 1)])
        }),
        ("only an announcement", join(&[announced(100, MOST)])),
        ("every status", join(&statuses)),
        ("a reply with no data gives up nothing here", {
            join(&[announced(100, 3), resend(100, 1, 0), resend(100, 1, 4)])
        }),
        ("another channel", {
            join(&[tick(101, 5), announced(101, 9), resend(101, 1, 4)])
        }),
        ("frames without a channel", {
            let logon = framed(b"S001", &made::s001());
            let snapshot = framed(b"M102", &made::m102(13, b"MD210", 2));
            join(&[
                logon,
                framed(b"S003", &[]),
                snapshot,
                framed(b"M101", b"100"),
            ])
        }),
        ("a frame that does not read is not counted", {
            let mut spoilt = tick(100, 2);
            spoilt[30] ^= 1;
            join(&[tick(100, 1), spoilt, b"\xFF\xFF".to_vec(), tick(100, 3)])
        }),
        ("a frame inside a damaged one counts once", {
            let inner = tick(100, 1);
            let mut outer = framed(b"M101", &[&inner[..], b"after"].concat());
            outer[0] = b'N';
            join(&[outer, tick(100, 2)])
        }),
        ("a frame inside a whole one is not counted", {
            let inner = tick(100, 1);
            join(&[framed(b"M101", &inner), tick(100, 2)])
        }),
    ] {
        run.over(name, &[100], &capture);
        // As the first of several channels, and as the last.
        run.over(name, &[100, 101, 0], &capture);
        run.over(name, &[7, 0, 100], &capture);
        let clean = vec![cleaned(&capture[0]).0];
        run.over(&format!("{name}, scrubbed"), &[100], &clean);
    }
}

/// Several captures: each starts each ledger fresh.
fn several<A: Answers>(run: &mut Run<A>) {
    let one = [tick(100, 1), tick(100, 3), tick(101, 1)].concat();
    let two = [tick(100, 2), tick(100, 3), announced(101, 4)].concat();
    let twice = [one.clone(), one.clone()];
    run.over("the same capture twice", &[100, 101], &twice);
    let both = [one.clone(), two.clone()];
    run.over("a gap is not filled by another capture", &[100, 101], &both);
    let other = [two, one];
    run.over("in the other order", &[100, 101], &other);
    run.text
        .case("generated captures in other orders, and scrubbed");
    for n in 0..40 {
        let d = &mut Dice::new(11, n);
        let names: Vec<u16> = match n % 4 {
            0 => (0..32).map(|i| i * 300).collect(),
            1 => vec![100],
            _ => vec![100, 9_999, 0, 55],
        };
        let captures: Vec<Vec<u8>> = (0..5).map(|_| busy_capture(d, &names, 2_000)).collect();
        run.orders(d, &names, &captures);
    }
}

/// Five hundred captures, and one more.
fn ends<A: Answers>(run: &mut Run<A>) {
    for name in ["the 501st capture", "the 501st would pass 64 bits too: 27"] {
        run.text.case(name);
        let large = name.ends_with("27");
        let mut page = run.start(&[100]);
        if large {
            for _ in 0..18 {
                run.add(&mut page, &announced(100, MOST));
            }
            run.add(&mut page, &announced(100, MOST));
        }
        let more = if large { 482 } else { 500 };
        for n in 0..more {
            run.add(&mut page, &tick(100, 1 + n % 2));
        }
        for capture in [tick(100, 1), announced(100, MOST), vec![]] {
            run.add(&mut page, &capture);
        }
    }
    run.text.case("500 captures and no channel");
    let mut page = run.start(&[]);
    for _ in 0..502 {
        run.add(&mut page, b"");
    }
}

/// Sums at the edge of 64 bits.
fn edges<A: Answers>(run: &mut Run<A>) {
    run.text
        .case("nineteen captures that announce eighteen nines");
    let mut page = run.start(&[100, 101]);
    for _ in 0..19 {
        let capture = [tick(101, 1), announced(100, MOST)].concat();
        run.add(&mut page, &capture);
    }
    // 18 times that many leave room for this number, and no more.
    let rest = u64::MAX - 18 * MOST;
    for n in [MOST, rest + 1, rest, 1, 0] {
        run.add(&mut page, &announced(100, n));
    }
    let frames = [tick(100, 1), resend(100, 1, 4), tick(101, 1)].concat();
    run.add(&mut page, &frames);
    run.add(&mut page, &announced(100, 1));
    run.text
        .case("28 is for a channel and a figure, not for all together");
    let mut page = run.start(&[100, 101]);
    for _ in 0..19 {
        let capture = [announced(101, MOST), announced(100, 5)].concat();
        run.add(&mut page, &capture);
        run.add(&mut page, &announced(100, MOST));
    }
    run.text.case("28 on the last of thirty-two channels");
    let names: Vec<u16> = (1..=32).collect();
    let mut page = run.start(&names);
    for _ in 0..19 {
        let capture = [tick(1, 1), announced(32, MOST)].concat();
        run.add(&mut page, &capture);
    }
}

/// The text of generated case n of a seed.
pub fn generated(answers: &impl Answers, seed: u64, n: u64) -> String {
    let mut run = Run {
        answers,
        text: Text::default(),
    };
    let d = &mut Dice::new(seed, n);
    let names = any_names(d);
    let named = if names.is_empty() {
        vec![100]
    } else {
        names.clone()
    };
    match d.below(200) {
        0 | 1 => long_page(&mut run, d, &names),
        2..=9 => large_page(&mut run, d, &names, &named),
        10..=59 => {
            let captures: Vec<Vec<u8>> = (0..1 + d.below(4))
                .map(|_| any_capture(d, &named))
                .collect();
            run.orders(d, &names, &captures);
        }
        _ => {
            let mut page = run.start(&names);
            for _ in 0..1 + d.below(5) {
                let capture = any_capture(d, &named);
                run.add(&mut page, &capture);
                if d.once_in(8) {
                    run.text.more(&hex(&capture));
                }
            }
        }
    }
    run.text.out
}

/// Channels, mostly such as are taken.
fn any_names(d: &mut Dice) -> Vec<u16> {
    let count = d.of(&[0, 1, 1, 2, 3, 32, 33]);
    let from = d.of(&[0, 100, 9_960]);
    let mut names: Vec<u16> = (0..count).map(|i| from + i).collect();
    if d.once_in(6) && !names.is_empty() {
        let other = d.of(&[10_000, 65_535, from]);
        let at = d.len(names.len());
        names[at] = other;
    }
    names
}

fn any_capture(d: &mut Dice, named: &[u16]) -> Vec<u8> {
    let about = d.of(&[0, 200, 1_000, 3_000]);
    let n = d.len(about + 1);
    match d.below(8) {
        0 => made::capture(d, n, 40),
        _ => {
            let mut of = named.to_vec();
            of.push(d.of(&[0, 100, 9_999]));
            of.retain(|c| *c <= 9_999);
            busy_capture(d, &of, n)
        }
    }
}

/// More captures than a page takes.
fn long_page<A: Answers>(run: &mut Run<A>, d: &mut Dice, names: &[u16]) {
    let mut page = run.start(names);
    let some = any_capture(d, &[100, 101]);
    for n in 0..503 {
        let capture = if n % 50 == 0 { &some[..] } else { b"" };
        run.add(&mut page, capture);
    }
}

/// Captures that announce nearly all numbers, until the sums are full.
fn large_page<A: Answers>(run: &mut Run<A>, d: &mut Dice, names: &[u16], named: &[u16]) {
    let mut page = run.start(names);
    for _ in 0..24 {
        let channel = d.of(named).min(9_999);
        let less = d.below(5);
        let last = d.of(&[MOST, MOST, MOST - less]);
        let mut capture = announced(channel, last);
        capture.extend(tick(channel, 1 + d.below(3)));
        if d.once_in(10) {
            damage(d, &mut capture);
        }
        run.add(&mut page, &capture);
    }
    // What is left of the first channel's sum, exactly, and one more.
    if let (Some(sum), Some(c)) = (run.answers.page(&page).sums.first(), names.first()) {
        let rest = (u64::MAX - sum.missing).min(MOST);
        for n in [rest.saturating_add(1).min(MOST), rest, 1] {
            run.add(&mut page, &announced(*c, n));
        }
    }
}

#[cfg(test)]
mod tests {
    use super::*;
    use crate::cases::text::{count, untried, Given};

    #[test]
    fn every_number_of_every_call_is_given() {
        let mut given = Given::new();
        count(&by_hand(&Oracle), &mut given);
        assert_eq!(untried(&given, &NUMBERS), [""; 0]);
        let mut given = Given::new();
        for n in 0..1_000 {
            count(&generated(&Oracle, 2, n), &mut given);
        }
        assert_eq!(untried(&given, &NUMBERS), [""; 0]);
    }
}
