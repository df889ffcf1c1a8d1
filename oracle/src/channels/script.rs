//! Scripts of a table of channels: a line a call, and what it must answer.
//!
//! ```text
//! # a case's name: what follows is on an empty table
//! 1..3: open $ -> 0
//! tick 1 2 -> 0 none
//! tick 1 1 -> 0 1-2
//! announce 2 9 -> 0
//! request -> 0 2 1-9
//! reply 2 1 4 -> 0 up 1-9 passed none
//! told 2 -> 0 9 9 0 0 0 0
//! ```
//!
//! A call names its channel first. A line that begins with `A..B: ` stands for
//! one line for each number from A to B, put where `$` stands. Sets are told by
//! their runs. `told` answers floor, top, missing, held, and the pending
//! request; `places -> ..` has the channel at each place, `-` at a free one, up
//! to the last that is used.
//!
//! A line that begins with `put` is no call: it writes a number of the lent
//! table, as no call would. `put used 3` and the like write the index, `put name
//! 1 8` the name at place 1, `put row 1 2 9` word 2 of row 1.

use super::cases::Answers;
use super::lent::ROWS;
use crate::answers::Answer;
use crate::cases::text::joined;
use crate::ledger::{Range, Settled};
use crate::numbers::{Channel, Tick};
use std::fmt;

/// A line of a script without its answer.
#[derive(Clone, Copy, Debug, PartialEq, Eq)]
pub enum Call {
    Open(Channel),
    Close(Channel),
    Tick(Channel, Tick),
    Announce(Channel, Tick),
    Request,
    /// The first number and the status.
    Reply(Channel, Tick, u8),
    Between(Channel, Tick, Tick),
    Told(Channel),
    Renew,
    /// The channel at each place. Not a call: it looks at the table.
    Places,
    /// Where a number stands in the table, and what is written there. Not a call.
    Put(usize, u64),
}

/// The numbers behind the names, as `put` calls them.
const INDEX: [&str; 4] = ["used", "lacking", "asked", "last"];

/// Where word 0 of row 0 stands.
const FIRST_ROW: usize = ROWS + INDEX.len();

/// A case of a script: its name, and each call with what it must answer, unless
/// the script leaves that open.
pub type Case<'a> = (&'a str, Vec<(Call, Option<String>)>);

impl fmt::Display for Call {
    fn fmt(&self, f: &mut fmt::Formatter) -> fmt::Result {
        match *self {
            Call::Open(c) => write!(f, "open {}", c.0),
            Call::Close(c) => write!(f, "close {}", c.0),
            Call::Tick(c, n) => write!(f, "tick {} {}", c.0, n.0),
            Call::Announce(c, n) => write!(f, "announce {} {}", c.0, n.0),
            Call::Request => write!(f, "request"),
            Call::Reply(c, first, status) => write!(f, "reply {} {} {status}", c.0, first.0),
            Call::Between(c, a, b) => write!(f, "between {} {} {}", c.0, a.0, b.0),
            Call::Told(c) => write!(f, "told {}", c.0),
            Call::Renew => write!(f, "renew"),
            Call::Places => write!(f, "places"),
            Call::Put(at, n) if at < ROWS => write!(f, "put name {at} {n}"),
            Call::Put(at, n) if at < FIRST_ROW => write!(f, "put {} {n}", INDEX[at - ROWS]),
            Call::Put(at, n) => {
                let (row, word) = ((at - FIRST_ROW) / 9, (at - FIRST_ROW) % 9);
                write!(f, "put row {row} {word} {n}")
            }
        }
    }
}

/// The call that a line spells.
pub fn call_of(line: &str) -> Option<Call> {
    let words: Vec<&str> = line.split_whitespace().collect();
    let channel = || Some(Channel(words.get(1)?.parse().ok()?));
    let number = |i: usize| Some(Tick(words.get(i)?.parse().ok()?));
    match (words[0], words.len()) {
        ("open", 2) => Some(Call::Open(channel()?)),
        ("close", 2) => Some(Call::Close(channel()?)),
        ("tick", 3) => Some(Call::Tick(channel()?, number(2)?)),
        ("announce", 3) => Some(Call::Announce(channel()?, number(2)?)),
        ("request", 1) => Some(Call::Request),
        ("reply", 4) => {
            let status = words[3].parse().ok()?;
            Some(Call::Reply(channel()?, number(2)?, status))
        }
        ("between", 4) => Some(Call::Between(channel()?, number(2)?, number(3)?)),
        ("told", 2) => Some(Call::Told(channel()?)),
        ("renew", 1) => Some(Call::Renew),
        ("places", 1) => Some(Call::Places),
        ("put", n) => {
            let number = |i: usize| words.get(i)?.parse::<usize>().ok();
            let at = match (words.get(1).copied()?, n) {
                ("name", 4) => number(2)?,
                ("row", 5) => FIRST_ROW + 9 * number(2)? + number(3)?,
                (name, 3) => ROWS + INDEX.iter().position(|i| *i == name)?,
                _ => return None,
            };
            Some(Call::Put(at, words[n - 1].parse().ok()?))
        }
        _ => None,
    }
}

/// The lines that a line stands for.
fn lines_of(line: &str) -> Vec<String> {
    let Some((span, rest)) = line.split_once(": ") else {
        return vec![line.to_string()];
    };
    let (a, b) = span.split_once("..").expect("A..B");
    let (a, b): (u64, u64) = (a.parse().expect("A"), b.parse().expect("B"));
    (a..=b).map(|n| rest.replace('$', &n.to_string())).collect()
}

/// The cases of a script. Panics at a line that is none.
pub fn cases(script: &str) -> Vec<Case<'_>> {
    let mut cases: Vec<Case> = Vec::new();
    for line in script.lines().filter(|l| !l.is_empty()) {
        if let Some(name) = line.strip_prefix("# ") {
            cases.push((name, Vec::new()));
            continue;
        }
        let calls = &mut cases.last_mut().expect("a case begins with its name").1;
        for line in lines_of(line) {
            let (call, answer) = match line.split_once(" -> ") {
                Some((call, answer)) => (call, Some(answer.to_string())),
                None => (line.as_str(), None),
            };
            let call = call_of(call).unwrap_or_else(|| panic!("no call: {line}"));
            calls.push((call, answer));
        }
    }
    cases
}

/// Rising numbers by their runs: `1-3 5`, or `none`.
pub fn runs(numbers: &[Tick]) -> String {
    let mut runs: Vec<(u64, u64)> = Vec::new();
    for n in numbers.iter().map(|t| t.0) {
        match runs.last_mut() {
            Some((_, last)) if *last + 1 == n => *last = n,
            _ => runs.push((n, n)),
        }
    }
    let shown = runs.iter().map(|(a, b)| span(*a, *b));
    let shown: Vec<String> = shown.collect();
    match shown.is_empty() {
        true => "none".to_string(),
        false => shown.join(" "),
    }
}

fn span(first: u64, last: u64) -> String {
    match first == last {
        true => first.to_string(),
        false => format!("{first}-{last}"),
    }
}

fn range(range: &Range) -> String {
    span(range.first.0, range.last.0)
}

fn settled(settled: &Settled) -> String {
    let (up, passed) = (runs(&settled.given_up), runs(&settled.passed));
    format!("up {up} passed {passed}")
}

/// Writes a number of a table.
pub fn put<A: Answers>(answers: &A, table: &mut A::Table, at: usize, number: u64) {
    let mut numbers = answers.numbers(table);
    numbers[at] = number;
    *table = answers.of_numbers(&numbers);
}

/// What a call answers, and what it tells.
pub fn made_on<A: Answers>(answers: &A, table: &mut A::Table, call: Call) -> Answer<String> {
    let nothing = |()| String::new();
    match call {
        Call::Open(c) => answers.open(table, c).map(nothing),
        Call::Close(c) => answers.close(table, c).map(nothing),
        Call::Tick(c, n) => {
            let passed = answers.tick(table, c, n);
            passed.map(|p| p.as_ref().map_or("none".to_string(), range))
        }
        Call::Announce(c, n) => answers.announce(table, c, n).map(nothing),
        Call::Request => {
            let asked = answers.request(table);
            asked.map(|(c, r)| format!("{} {}", c.0, range(&r)))
        }
        Call::Reply(c, first, status) => {
            let answer = answers.reply(table, c, first, status);
            answer.map(|s| settled(&s))
        }
        Call::Between(c, a, b) => answers.between(table, c, a, b).map(|n| n.to_string()),
        Call::Told(c) => {
            let told = answers.told(table, c);
            told.map(|t| joined(&[t.floor, t.top, t.missing, t.held, t.first, t.last]))
        }
        Call::Renew => answers.renew(table).map(nothing),
        Call::Places | Call::Put(..) => panic!("no call of a table"),
    }
}

/// The channel at each place, `-` at a free one, up to the last that is used.
pub fn places(of: &[Option<Channel>]) -> String {
    let used = of.iter().rposition(Option::is_some).map_or(0, |p| p + 1);
    let shown = of[..used].iter().map(|c| match c {
        Some(c) => c.0.to_string(),
        None => "-".to_string(),
    });
    let shown: Vec<String> = shown.collect();
    match used {
        0 => "none".to_string(),
        _ => shown.join(" "),
    }
}

/// What a call answers, as a script has it.
pub fn answered<A: Answers>(answers: &A, table: &mut A::Table, call: Call) -> String {
    match call {
        Call::Places => return places(&answers.places(table)),
        Call::Put(at, number) => {
            put(answers, table, at, number);
            return String::new();
        }
        _ => (),
    }
    match made_on(answers, table, call) {
        Ok(told) if told.is_empty() => "0".to_string(),
        Ok(told) => format!("0 {told}"),
        Err(number) => number.to_string(),
    }
}

/// The lines of a script that a program answers otherwise, each with its answer.
pub fn otherwise<A: Answers>(answers: &A, script: &str) -> Vec<String> {
    let mut wrong = Vec::new();
    for (name, calls) in cases(script) {
        let mut table = answers.none();
        for (call, must) in calls {
            let answer = answered(answers, &mut table, call);
            if let Some(must) = must.filter(|must| *must != answer) {
                wrong.push(format!("{name}: {call} -> {answer}, not {must}"));
            }
        }
    }
    wrong
}
