//! Cases of a table of channels: what answers them, the scripts made by hand
//! (scripts/channels.txt), tables with one number changed, and generated ones.

use super::lent::{Lent, TableNumbers, ROWS};
use super::script::{cases, made_on, places as places_of, put, Call};
use super::PLACES;
use crate::answer::No;
use crate::answers::{Answer, Told};
use crate::cases::text::{Numbers, Text};
use crate::ledger::{Range, Settled};
use crate::made::Dice;
use crate::numbers::{Channel, Tick, MOST};
use std::fmt::Write;

/// The scripts made by hand.
pub const SCRIPTS: &str = include_str!("../../scripts/channels.txt");

/// The calls. A table that is lent stays as it is where a call is refused, save
/// that 12 raises a top.
pub trait Answers {
    type Table;

    /// The table without a channel.
    fn none(&self) -> Self::Table;
    /// The table of these numbers, whatever they are (docs/STATES.md, "A table in
    /// numbers").
    fn of_numbers(&self, numbers: &TableNumbers) -> Self::Table;
    /// The numbers of a table, to be seen behind a call.
    fn numbers(&self, table: &Self::Table) -> TableNumbers;
    fn open(&self, table: &mut Self::Table, channel: Channel) -> Answer<()>;
    fn close(&self, table: &mut Self::Table, channel: Channel) -> Answer<()>;
    fn tick(&self, table: &mut Self::Table, channel: Channel, tick: Tick) -> Answer<Option<Range>>;
    fn announce(&self, table: &mut Self::Table, channel: Channel, last: Tick) -> Answer<()>;
    /// The channel whose turn it is, and what is asked of it.
    fn request(&self, table: &mut Self::Table) -> Answer<(Channel, Range)>;
    fn reply(
        &self,
        table: &mut Self::Table,
        channel: Channel,
        first: Tick,
        status: u8,
    ) -> Answer<Settled>;
    fn between(&self, table: &mut Self::Table, channel: Channel, a: Tick, b: Tick) -> Answer<u64>;
    fn told(&self, table: &mut Self::Table, channel: Channel) -> Answer<Told>;
    fn renew(&self, table: &mut Self::Table) -> Answer<()>;
    /// The channel at each of the 32 places. Not a call: it looks at the table.
    fn places(&self, table: &Self::Table) -> Vec<Option<Channel>>;
}

/// This program.
pub struct Oracle;

fn plain<T>(answer: Result<T, No>) -> Answer<T> {
    answer.map_err(No::number)
}

impl Answers for Oracle {
    type Table = Lent;

    fn none(&self) -> Lent {
        Lent::none()
    }

    fn of_numbers(&self, numbers: &TableNumbers) -> Lent {
        Lent::of_numbers(numbers)
    }

    fn numbers(&self, table: &Lent) -> TableNumbers {
        table.numbers()
    }

    fn open(&self, table: &mut Lent, channel: Channel) -> Answer<()> {
        plain(table.open(channel))
    }

    fn close(&self, table: &mut Lent, channel: Channel) -> Answer<()> {
        plain(table.close(channel))
    }

    fn tick(&self, table: &mut Lent, channel: Channel, tick: Tick) -> Answer<Option<Range>> {
        plain(table.tick(channel, tick))
    }

    fn announce(&self, table: &mut Lent, channel: Channel, last: Tick) -> Answer<()> {
        plain(table.announce(channel, last))
    }

    fn request(&self, table: &mut Lent) -> Answer<(Channel, Range)> {
        plain(table.request())
    }

    fn reply(
        &self,
        table: &mut Lent,
        channel: Channel,
        first: Tick,
        status: u8,
    ) -> Answer<Settled> {
        plain(table.reply(channel, first, status))
    }

    fn between(&self, table: &mut Lent, channel: Channel, a: Tick, b: Tick) -> Answer<u64> {
        plain(table.between(channel, a, b))
    }

    fn told(&self, table: &mut Lent, channel: Channel) -> Answer<Told> {
        plain(table.told(channel))
    }

    fn renew(&self, table: &mut Lent) -> Answer<()> {
        plain(table.renew())
    }

    fn places(&self, table: &Lent) -> Vec<Option<Channel>> {
        (0..PLACES).map(|place| table.channel_at(place)).collect()
    }
}

/// Every number that each call can give.
pub const NUMBERS: [Numbers; 9] = [
    ("open", &[0, 10, 13, 21, 22]),
    ("close", &[0, 13, 18]),
    ("tick", &[0, 10, 11, 12, 13, 18]),
    ("announce", &[0, 10, 13, 18]),
    ("request", &[0, 13, 14, 15]),
    ("reply", &[0, 13, 16, 17, 18]),
    ("between", &[0, 10, 13, 18]),
    ("told", &[0, 13, 18]),
    ("renew", &[0, 13]),
];

struct Run<'a, A: Answers> {
    answers: &'a A,
    text: Text,
    table: A::Table,
}

impl<'a, A: Answers> Run<'a, A> {
    fn new(answers: &'a A) -> Self {
        Run {
            answers,
            text: Text::default(),
            table: answers.none(),
        }
    }

    fn case(&mut self, name: &str) {
        self.text.case(name);
        self.table = self.answers.none();
    }

    /// A call, and every number of the table that is another behind it.
    fn call(&mut self, call: Call) {
        let was = self.answers.numbers(&self.table);
        match call {
            Call::Places => {
                let places = self.answers.places(&self.table);
                self.text.more(&places_of(&places));
            }
            Call::Put(at, number) => put(self.answers, &mut self.table, at, number),
            _ => {
                let answer = made_on(self.answers, &mut self.table, call);
                let line = call.to_string();
                let name = line.split(' ').next().unwrap_or("");
                self.text.line(name, &answer, String::clone);
            }
        }
        let mut changed = format!("{call}:");
        let now = self.answers.numbers(&self.table);
        if was != now {
            for at in (0..now.len()).filter(|at| was[*at] != now[*at]) {
                let _ = write!(changed, " {at}={}", now[at]);
            }
        }
        self.text.more(&changed);
    }

    /// What every open channel has to tell.
    fn all_told(&mut self) {
        for channel in self.answers.places(&self.table).into_iter().flatten() {
            self.call(Call::Told(channel));
        }
    }
}

/// The text of the scripts made by hand.
pub fn by_hand(answers: &impl Answers) -> String {
    let mut run = Run::new(answers);
    for (name, calls) in cases(SCRIPTS) {
        run.case(name);
        for (call, _) in calls {
            run.call(call);
        }
        run.all_told();
    }
    for asked in [false, true] {
        changed(&mut run, asked);
    }
    run.text.out
}

/// Channels 7, 8 and 9, of which 7 and 9 miss numbers, with a request of 7 pending
/// or none; one number of the table changed; and each call on each channel, one
/// that is not open and one that never is, on such a table.
fn changed<A: Answers>(run: &mut Run<A>, asked: bool) {
    run.case(&format!("one number changed, pending {asked}"));
    for c in [7, 8, 9] {
        run.call(Call::Open(Channel(c)));
    }
    run.call(Call::Announce(Channel(7), Tick(3)));
    run.call(Call::Tick(Channel(8), Tick(1)));
    run.call(Call::Tick(Channel(9), Tick(2)));
    if asked {
        run.call(Call::Request);
    }
    let sound = run.answers.numbers(&run.table);
    let mut calls = vec![Call::Request, Call::Renew, Call::Places];
    for c in [7, 8, 9, 10, 10_000].map(Channel) {
        calls.extend([Call::Open(c), Call::Close(c), Call::Told(c)]);
        calls.extend([0, 1, 2, 257].map(|n| Call::Tick(c, Tick(n))));
        calls.extend([1, 5, MOST + 1].map(|n| Call::Announce(c, Tick(n))));
        calls.extend([0, 1, 4].map(|status| Call::Reply(c, Tick(1), status)));
        calls.extend([1, MOST + 1].map(|b| Call::Between(c, Tick(1), Tick(b))));
    }
    for (at, number) in changes(&sound) {
        let mut numbers = sound;
        numbers[at] = number;
        run.text.more(&Call::Put(at, number).to_string());
        for call in &calls {
            run.table = run.answers.of_numbers(&numbers);
            run.call(*call);
        }
    }
}

/// Where a number is changed, and to what: the names and rows of the three open
/// places, of a free one, and of the one that stands for no place; and the index.
fn changes(sound: &TableNumbers) -> Vec<(usize, u64)> {
    let high = [1 << 31, 1 << 32, 1 << 63, u64::MAX];
    let mut changes = Vec::new();
    for place in [0, 1, 2, 3, 31, PLACES] {
        let names = [0, 7, 8, 9, 10, 10_000, (1 << 16) + 7, (1 << 32) + 8];
        changes.extend(names.map(|n| (place, n)));
        for word in 0..9 {
            let at = ROWS + 4 + 9 * place + word;
            changes.extend([0, 1, 2, 3, 8, 9, MOST + 1, u64::MAX].map(|n| (at, n)));
        }
    }
    for at in [ROWS, ROWS + 1] {
        changes.extend((0..16).map(|bits| (at, bits)));
        changes.extend(high.map(|bits| (at, sound[at] | bits)));
    }
    for at in [ROWS + 2, ROWS + 3] {
        changes.extend([0, 1, 2, 3, 30, 31, 32, 33, 64, 256].map(|n| (at, n)));
        changes.extend(high.map(|n| (at, n)));
    }
    changes.retain(|(at, n)| sound[*at] != *n);
    changes
}

/// The text of generated case n of a seed: a script on an empty table, over few
/// channels or over more than have place. In some a number of the table is
/// changed on the way.
pub fn generated(answers: &impl Answers, seed: u64, n: u64) -> String {
    let mut run = Run::new(answers);
    let d = &mut Dice::new(seed, n);
    let names = d.of(&[1, 2, 3, 5, 34, 40]);
    let first = d.of(&[0, 100, 9_960, 10_000 - names]);
    // Full tables come from opening far more often than closing.
    let closing = d.of(&[2, 10, 40]);
    for _ in 0..names {
        run.call(Call::Open(any_channel(d, first, names)));
    }
    let calls = d.of(&[20, 60, 120]);
    let broken = d.once_in(3).then(|| d.below(calls));
    for i in 0..calls {
        if broken == Some(i) {
            let sound = answers.numbers(&run.table);
            run.call(any_change(d, &sound));
        }
        let call = any_call(d, &mut run, (first, names, closing));
        run.call(call);
        if let (Call::Request, true) = (call, d.once_in(2)) {
            answer_it(d, &mut run);
        }
    }
    run.all_told();
    run.text.out
}

/// One number changed: the index, or a name or word of some place, mostly of an
/// open one.
fn any_change(d: &mut Dice, sound: &TableNumbers) -> Call {
    let open: Vec<usize> = (0..PLACES).filter(|p| sound[ROWS] >> p & 1 == 1).collect();
    let [one, other] = [(); 2].map(|()| match open.is_empty() || d.once_in(8) {
        true => d.len(ROWS),
        false => d.of(&open),
    });
    let word = d.len(9);
    let row = |place: usize| ROWS + 4 + 9 * place + word;
    let (at, beside) = match d.below(4) {
        0 | 1 => {
            let at = ROWS + d.len(4);
            (at, at)
        }
        2 => (one, other),
        _ => (row(one), row(other)),
    };
    let near = [sound[at].wrapping_add(1), sound[at].wrapping_sub(1)];
    let bit = 1 << d.of(&[0, 1, 2, 5, 31, 32, 63]);
    let number = match d.below(8) {
        0 => d.edge(),
        1 | 2 => sound[beside],
        3 => one as u64,
        4 | 5 => d.of(&near),
        _ => sound[at] ^ bit,
    };
    Call::Put(at, number)
}

fn any_channel(d: &mut Dice, first: u64, names: u64) -> Channel {
    let other = d.of(&[0, 9_999, 10_000, 65_535]);
    match d.below(30) {
        0 => Channel(other),
        _ => Channel((first + d.below(names)) as u16),
    }
}

fn any_call<A: Answers>(d: &mut Dice, run: &mut Run<A>, of: (u64, u64, u64)) -> Call {
    let (first, names, closing) = of;
    let c = any_channel(d, first, names);
    let told = run.answers.told(&mut run.table, c).ok();
    let (floor, top, asked) = told.map_or((0, 0, 0), |t| (t.floor, t.top, t.first));
    let near = floor + d.of(&[1, 1, 1, 2, 3, 5]);
    let far = floor + d.of(&[64, 200, 255, 256, 257, 300]);
    let edge = d.edge();
    let n = match d.below(12) {
        0 => far,
        1 => top,
        2 => edge,
        _ => near,
    };
    match d.below(40) {
        0..=3 => Call::Open(c),
        4 | 5 if d.below(40) < closing => Call::Close(c),
        6..=20 => Call::Tick(c, Tick(n)),
        21..=24 => Call::Announce(c, Tick(d.of(&[top + 1, top + 3, far, n]))),
        25..=30 => Call::Request,
        31 | 32 => {
            let first = d.of(&[asked, asked, 1, n]);
            let status = d.of(&[1, 2, 3, 4, 4, 5, 99, 0, 6, 255]);
            Call::Reply(c, Tick(first), status)
        }
        33 | 34 => {
            let (a, b) = (d.of(&[1, near, floor, edge]), d.of(&[top, far, MOST, edge]));
            Call::Between(c, Tick(a), Tick(b))
        }
        35..=38 => Call::Told(c),
        _ if d.once_in(3) => Call::Renew,
        _ => Call::Places,
    }
}

/// Some of the ticks that are asked for, and the reply; now and then on another
/// open channel first.
fn answer_it<A: Answers>(d: &mut Dice, run: &mut Run<A>) {
    let open: Vec<Channel> = run
        .answers
        .places(&run.table)
        .into_iter()
        .flatten()
        .collect();
    let asked = open.iter().find_map(|c| {
        let told = run.answers.told(&mut run.table, *c).ok()?;
        (told.first > 0).then_some((*c, told.first, told.last))
    });
    let Some((channel, first, last)) = asked else {
        return;
    };
    for n in first..=last.min(first + d.below(4)) {
        if !d.once_in(4) {
            run.call(Call::Tick(channel, Tick(n)));
        }
    }
    let status = d.of(&[1, 2, 3, 4, 4, 4, 5, 99]);
    if d.once_in(4) {
        run.call(Call::Reply(d.of(&open), Tick(first), status));
    }
    run.call(Call::Reply(channel, Tick(first), status));
}

#[cfg(test)]
mod tests {
    use super::super::script::{call_of, otherwise};
    use super::*;
    use crate::cases::text::{count, untried, Given};

    #[test]
    fn every_number_of_every_call_is_given() {
        let mut given = Given::new();
        count(&by_hand(&Oracle), &mut given);
        assert_eq!(untried(&given, &NUMBERS), [""; 0]);
        let mut given = Given::new();
        for n in 0..2_000 {
            count(&generated(&Oracle, 2, n), &mut given);
        }
        assert_eq!(untried(&given, &NUMBERS), [""; 0]);
    }

    /// "a refusal other than 12 leaves all 334 numbers as they were, 13 included"
    #[test]
    fn a_refusal_changes_no_number() {
        let text = by_hand(&Oracle);
        let lines: Vec<&str> = text.lines().collect();
        let mut refused = 0;
        for pair in lines.windows(2).filter(|l| !l[0].starts_with(['#', ' '])) {
            let number = pair[0].split(' ').nth(1);
            if !matches!(number, Some("0" | "12")) {
                assert!(pair[1].ends_with(':'), "{pair:?}");
                refused += 1;
            }
        }
        assert!(refused > 10_000, "{refused}");
    }

    #[test]
    fn scripts_are_answered_as_they_say() {
        assert_eq!(otherwise(&Oracle, SCRIPTS), [""; 0]);
    }

    #[test]
    fn a_line_shows_its_call() {
        for (_, calls) in cases(SCRIPTS) {
            for (call, _) in calls {
                assert_eq!(call_of(&call.to_string()), Some(call));
            }
        }
    }
}
