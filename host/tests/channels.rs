//! Thirty-two channels on one line: the library against oracle/, the second program, by the scripts
//! of oracle/scripts/channels.txt and generated ones, tables that break their rules among both; and
//! a C program that calls every name of the header.

use oracle::answers::{Answer, Told};
use oracle::cases::text::{compare, difference};
use oracle::channels::cases::{by_hand, generated, Answers, Oracle, NUMBERS, SCRIPTS};
use oracle::channels::lent::TableNumbers;
use oracle::channels::script::otherwise;
use oracle::ledger::{Range, Settled};
use oracle::made::Dice;
use oracle::numbers::{Channel, Tick};
use rietknoest_host::{ChannelNumber, Channels, Refusal, TickNumber};
use std::collections::BTreeSet;
use std::fmt::Write as _;
use std::io::Write as _;
use std::path::{Path, PathBuf};
use std::process::{Command, Stdio};

// THE SAME ANSWERS AS THE SECOND PROGRAM'S

struct Library;

fn plain<T>(answer: Result<T, Refusal>) -> Answer<T> {
    answer.map_err(Refusal::number)
}

fn channel_of(channel: Channel) -> ChannelNumber {
    ChannelNumber::new(channel.0)
}

fn tick_of(tick: Tick) -> TickNumber {
    TickNumber::new(tick.0)
}

fn range(first: TickNumber, last: u64) -> Range {
    Range {
        first: Tick(first.value()),
        last: Tick(last),
    }
}

impl Answers for Library {
    type Table = Channels;

    fn none(&self) -> Channels {
        Channels::none()
    }

    fn of_numbers(&self, numbers: &TableNumbers) -> Channels {
        Channels::from_words(numbers)
    }

    fn numbers(&self, table: &Channels) -> TableNumbers {
        table.to_words()
    }

    fn open(&self, table: &mut Channels, channel: Channel) -> Answer<()> {
        plain(table.open(channel_of(channel)))
    }

    fn close(&self, table: &mut Channels, channel: Channel) -> Answer<()> {
        plain(table.close(channel_of(channel)))
    }

    fn tick(&self, table: &mut Channels, channel: Channel, tick: Tick) -> Answer<Option<Range>> {
        plain(table.tick(channel_of(channel), tick_of(tick))).map(|p| {
            let last = p.first.value() + p.count;
            (p.count > 0).then(|| range(p.first, last - 1))
        })
    }

    fn announce(&self, table: &mut Channels, channel: Channel, last: Tick) -> Answer<()> {
        plain(table.announce(channel_of(channel), tick_of(last)))
    }

    fn request(&self, table: &mut Channels) -> Answer<(Channel, Range)> {
        plain(table.request()).map(|r| {
            let asked = range(r.range.first, r.range.last.value());
            (Channel(r.channel.value()), asked)
        })
    }

    fn reply(
        &self,
        table: &mut Channels,
        channel: Channel,
        first: Tick,
        status: u8,
    ) -> Answer<Settled> {
        let ticks = |n: TickNumber| Tick(n.value());
        plain(table.reply(channel_of(channel), tick_of(first), status)).map(|s| Settled {
            given_up: s.given_up().map(ticks).collect(),
            passed: s.passed().map(ticks).collect(),
        })
    }

    fn between(&self, table: &mut Channels, channel: Channel, a: Tick, b: Tick) -> Answer<u64> {
        plain(table.missing_between(channel_of(channel), tick_of(a), tick_of(b)))
    }

    fn told(&self, table: &mut Channels, channel: Channel) -> Answer<Told> {
        plain(table.status(channel_of(channel))).map(|s| Told {
            channel: s.channel.value().into(),
            floor: s.floor.value(),
            top: s.top.value(),
            missing: s.missing,
            held: s.held,
            first: s.pending.map_or(0, |r| r.first.value()),
            last: s.pending.map_or(0, |r| r.last.value()),
        })
    }

    fn renew(&self, table: &mut Channels) -> Answer<()> {
        plain(table.renew())
    }

    fn places(&self, table: &Channels) -> Vec<Option<Channel>> {
        let places = table.places().map(|c| c.map(|c| Channel(c.value())));
        places.collect()
    }
}

#[test]
fn the_scripts_are_answered_as_they_say() {
    assert_eq!(otherwise(&Library, SCRIPTS), [""; 0]);
}

#[test]
fn scripts_made_by_hand() {
    if let Some(difference) = difference(&by_hand(&Library), &by_hand(&Oracle)) {
        panic!("the programs differ\n{difference}");
    }
}

#[test]
fn generated_scripts() {
    let ours = |seed, n| generated(&Library, seed, n);
    let theirs = |seed, n| generated(&Oracle, seed, n);
    compare(&NUMBERS, 20, ours, theirs);
}

// A TABLE IN NUMBERS

/// Where the index stands among a table's numbers.
const USED: usize = 33;
const LACKING: usize = 34;
const ASKED: usize = 35;
const LAST: usize = 36;
const ROWS: usize = 37;

/// Channels 7 and 8; 7 misses three numbers.
fn two() -> Channels {
    let mut table = Channels::none();
    for channel in [7, 8] {
        table.open(ChannelNumber::new(channel)).expect("a place");
    }
    let seven = ChannelNumber::new(7);
    table.announce(seven, TickNumber::new(3)).expect("a top");
    table
}

#[test]
fn a_table_has_the_size_that_the_header_says() {
    assert_eq!(std::mem::size_of::<Channels>(), 8 * 334);
    let table = two();
    assert_eq!(Channels::from_words(&table.to_words()), table);
}

// THE SAME ANSWERS IN C

fn root() -> &'static Path {
    Path::new(concat!(env!("CARGO_MANIFEST_DIR"), "/.."))
}

fn run(command: &mut Command, input: &[u8]) -> Vec<u8> {
    let mut child = command
        .stdin(Stdio::piped())
        .stdout(Stdio::piped())
        .spawn()
        .unwrap_or_else(|e| panic!("{command:?}: {e}"));
    let mut stdin = child.stdin.take().expect("a pipe");
    let input = input.to_vec();
    let feeding = std::thread::spawn(move || stdin.write_all(&input));
    let output = child.wait_with_output().expect("its output");
    feeding.join().expect("fed").expect("it reads all");
    assert!(output.status.success(), "{command:?}: {}", output.status);
    output.stdout
}

fn compiled(source: &str, name: &str) -> PathBuf {
    let program = Path::new(env!("CARGO_TARGET_TMPDIR")).join(name);
    let mut command = Command::new("cc");
    command
        .args(["-std=c11", "-Wall", "-Wextra", "-Werror", "-pedantic"])
        .arg("-I")
        .arg(root().join("host/include"))
        .arg(root().join(source))
        .arg(root().join("build/librietknoest.a"))
        .arg("-o")
        .arg(&program);
    run(&mut command, b"");
    program
}

/// The lines for the C program, and what it should print for each.
#[derive(Default)]
struct Script {
    asked: String,
    expected: String,
    given: BTreeSet<(&'static str, u32)>,
}

impl Script {
    fn ask(
        &mut self,
        call: &'static str,
        asked: &[u64],
        answer: Result<Vec<u64>, Refusal>,
        table: &Channels,
    ) {
        let spell = |out: &mut String, numbers: &[u64]| {
            for n in numbers {
                write!(out, " {n}").expect("memory");
            }
        };
        self.asked += call;
        spell(&mut self.asked, asked);
        self.asked += "\n";
        let number = answer.as_ref().err().map_or(0, |r| r.number());
        self.given.insert((call, number));
        if call != "none" && call != "numbers" {
            write!(self.expected, "{number}").expect("memory");
        }
        spell(&mut self.expected, &answer.unwrap_or_default());
        self.expected += " :";
        spell(&mut self.expected, &table.to_words());
        self.expected += "\n";
    }
}

/// The ten numbers of a set's words, as the header has them.
fn sets(first: u64, given_up: &[u64], passed: &[u64]) -> Vec<u64> {
    let mut row = vec![first; 1];
    for set in [given_up, passed] {
        let mut words = [0; 4];
        for n in set {
            words[(n / 64 % 4) as usize] |= 1 << (n % 64);
        }
        row.extend(words);
    }
    row
}

fn one_call(s: &mut Script, d: &mut Dice, table: &mut Channels) {
    let channel = d.of(&[7, 8, 9, 9_999, 10_000]);
    let c = ChannelNumber::new(channel as u16);
    let status = table.status(c).ok();
    let floor = status.map_or(0, |s| s.floor.value());
    let n = floor + d.of(&[0, 1, 1, 2, 3, 256, 257]);
    let tick = TickNumber::new(n);
    match d.below(12) {
        0 => {
            let answer = table.open(c).map(|()| vec![]);
            s.ask("open", &[channel], answer, table);
        }
        1 => {
            let answer = table.close(c).map(|()| vec![]);
            s.ask("close", &[channel], answer, table);
        }
        2..=4 => {
            let answer = table.tick(c, tick).map(|p| vec![p.first.value(), p.count]);
            s.ask("tick", &[channel, n], answer, table);
        }
        5 => {
            let last = d.of(&[n, n + 5, 1_000_000_000_000_000_000]);
            let answer = table.announce(c, TickNumber::new(last)).map(|()| vec![]);
            s.ask("announce", &[channel, last], answer, table);
        }
        6 | 7 => {
            let answer = table.request().map(|r| {
                let range = r.range;
                vec![
                    r.channel.value().into(),
                    range.first.value(),
                    range.last.value(),
                ]
            });
            s.ask("request", &[], answer, table);
        }
        8 => {
            let asked = status
                .and_then(|s| s.pending)
                .map_or(1, |r| r.first.value());
            let first = d.of(&[asked, asked, asked + 1]);
            let status = d.of(&[1, 3, 4, 4, 6]);
            let answer = table
                .reply(c, TickNumber::new(first), status as u8)
                .map(|r| {
                    let up: Vec<_> = r.given_up().map(TickNumber::value).collect();
                    let passed: Vec<_> = r.passed().map(TickNumber::value).collect();
                    sets(r.first().value(), &up, &passed)
                });
            s.ask("reply", &[channel, first, status], answer, table);
        }
        9 => {
            let b = n + d.of(&[0, 3, 300]);
            let answer = table.missing_between(c, tick, TickNumber::new(b));
            s.ask("missing", &[channel, n, b], answer.map(|k| vec![k]), table);
        }
        10 => {
            let answer = table.renew().map(|()| vec![]);
            s.ask("renew", &[], answer, table);
        }
        _ => {
            let answer = table.status(c).map(|t| {
                let (first, last) = t
                    .pending
                    .map_or((0, 0), |r| (r.first.value(), r.last.value()));
                let (floor, top) = (t.floor.value(), t.top.value());
                vec![channel, floor, top, t.missing, t.held, first, last]
            });
            s.ask("told", &[channel], answer, table);
        }
    }
}

/// 33 channels: the last one has no place before another is closed. 10 and 22 come before 21.
fn thirty_three(s: &mut Script) {
    let mut table = Channels::none();
    s.ask("none", &[], Ok(vec![]), &table);
    let (full, open, range) = (21, 22, 10);
    let calls = (101..=132).map(|channel| ("open", channel, 0)).chain([
        ("open", 133, full),
        ("open", 10_000, range),
        ("open", 132, open),
        ("open", 101, open),
        ("close", 117, 0),
        ("open", 133, 0),
        ("open", 117, full),
    ]);
    for (call, channel, number) in calls {
        let c = ChannelNumber::new(channel as u16);
        let answer = match call {
            "open" => table.open(c),
            _ => table.close(c),
        };
        let said = answer.map_or_else(Refusal::number, |()| 0);
        assert_eq!(said, number, "{call} {channel}");
        s.ask(call, &[channel], answer.map(|()| vec![]), &table);
    }
    let seventeenth = table.places().nth(16).flatten();
    assert_eq!(seventeenth, Some(ChannelNumber::new(133)));
}

#[test]
fn c_gets_the_answers_that_rust_gets() {
    let mut s = Script::default();
    thirty_three(&mut s);
    let d = &mut Dice::new(3, 1);
    for _ in 0..150 {
        let mut table = Channels::none();
        s.ask("none", &[], Ok(vec![]), &table);
        for _ in 0..40 {
            one_call(&mut s, d, &mut table);
        }
        // one number of the index or of a row broken
        let mut words = table.to_words();
        words[d.of(&[USED, LACKING, ASKED, LAST, ROWS, ROWS + 1])] ^= 1 << d.below(40);
        table = Channels::from_words(&words);
        s.ask("numbers", &words, Ok(vec![]), &table);
        for _ in 0..5 {
            one_call(&mut s, d, &mut table);
        }
    }
    for (call, numbers) in [
        ("open", &[0, 10, 13, 21, 22][..]),
        ("close", &[0, 13, 18]),
        ("tick", &[0, 10, 11, 12, 13, 18]),
        ("announce", &[0, 10, 13, 18]),
        ("request", &[0, 13, 14, 15]),
        ("reply", &[0, 13, 16, 17, 18]),
        ("missing", &[0, 10, 13, 18]),
        ("renew", &[0, 13]),
        ("told", &[0, 13, 18]),
    ] {
        for number in numbers {
            assert!(s.given.contains(&(call, *number)), "{call} never {number}");
        }
    }
    let program = compiled("host/tests/channels.c", "channels_calls");
    let printed = run(&mut Command::new(program), s.asked.as_bytes());
    let printed = String::from_utf8(printed).expect("text");
    for (i, (said, must)) in printed.lines().zip(s.expected.lines()).enumerate() {
        let call = s.asked.lines().nth(i).expect("a call");
        assert_eq!(said, must, "line {i}: {call}");
    }
    assert_eq!(printed.lines().count(), s.expected.lines().count());
}

#[test]
fn ten_lines_of_c_and_of_rust_ask_in_turn() {
    let must =
        "ask channel 100 for 1 to 3\nask channel 101 for 1 to 5\nask channel 100 for 1 to 3\n";
    let program = compiled("host/examples/channels.c", "channels_example");
    let printed = run(&mut Command::new(program), b"");
    assert_eq!(String::from_utf8(printed).expect("text"), must);
    let mut cargo = Command::new(env!("CARGO"));
    cargo
        .args(["run", "--offline", "--quiet", "--example", "channels"])
        .args((!cfg!(debug_assertions)).then_some("--release"))
        .current_dir(root().join("host"));
    let printed = run(&mut cargo, b"");
    assert_eq!(String::from_utf8(printed).expect("text"), must);
}
