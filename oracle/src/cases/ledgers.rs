//! Ledgers, by hand: rows of calls on a fresh ledger or on a state, and long
//! runs of ticks.

use super::text::joined;
use super::Run;
use crate::answers::Answers;
use crate::ledger::{Ledger, Pending, Words, PLACES};
use crate::made::Dice;
use crate::numbers::{Channel, Tick, MOST};

const MAX: u64 = u64::MAX;
const OVER: u64 = MOST + 1;

/// A call: the channel first.
#[derive(Clone, Copy)]
enum Call {
    Tick(u16, u64),
    Announce(u16, u64),
    Request(u16),
    /// The first number and the status.
    Reply(u16, u64, u8),
    Renew,
    Told,
}

use Call::{Announce, Renew, Reply, Request, Told};

fn tick(n: u64) -> Call {
    Call::Tick(100, n)
}

fn announce(n: u64) -> Call {
    Announce(100, n)
}

fn reply(first: u64, status: u8) -> Call {
    Reply(100, first, status)
}

const REQUEST: Call = Request(100);

impl<A: Answers> Run<'_, A> {
    fn calls(&mut self, ledger: &mut Words, calls: &[Call]) {
        for call in calls {
            match *call {
                Call::Tick(channel, n) => self.tick(ledger, channel, n),
                Announce(channel, n) => self.announce(ledger, channel, n),
                Request(channel) => self.request(ledger, channel),
                Reply(channel, first, status) => self.reply(ledger, channel, first, status),
                Renew => self.renew(ledger),
                Told => {
                    self.told(ledger);
                    0
                }
            };
        }
    }

    /// Calls on a fresh ledger for channel 100.
    fn fresh(&mut self, name: &str, calls: &[Call]) {
        self.case(name);
        let mut ledger = self.open(100).expect("channel 100 opens");
        self.calls(&mut ledger, calls);
    }

    /// Calls on a state.
    fn on(&mut self, name: &str, state: Words, calls: &[Call]) {
        self.case(name);
        self.more(&joined(&state));
        self.calls(&mut state.clone(), calls);
    }
}

/// A state of channel 100: floor, top, the numbers held, and the pending
/// request, 0 and 0 for none.
fn state(floor: u64, top: u64, numbers: &[u64], (first, last): (u64, u64)) -> Words {
    let mut held = [false; PLACES as usize];
    for n in numbers {
        held[(n - floor - 1) as usize] = true;
    }
    let pending = match (first, last) {
        (0, 0) => Pending::Nothing,
        _ => Pending::Asked {
            first: Tick(first),
            last: Tick(last),
        },
    };
    let ledger = Ledger {
        channel: Channel(100),
        floor: Tick(floor),
        top: Tick(top),
        held,
        pending,
    };
    ledger.words()
}

const NONE: (u64, u64) = (0, 0);

/// The same state for another channel.
fn of_channel(channel: u64) -> Words {
    let mut words = state(0, 0, &[], NONE);
    words[0] = channel;
    words
}

fn sound() -> Vec<(&'static str, Words)> {
    let all: Vec<u64> = (2..=256).collect();
    vec![
        ("fresh", state(0, 0, &[], NONE)),
        ("the last channel", of_channel(9_999)),
        ("whole", state(5, 5, &[], NONE)),
        ("all numbers received", state(MOST, MOST, &[], NONE)),
        ("both ends of the map", state(0, MOST, &[2, 256], NONE)),
        ("held up to the top", state(10, 20, &[12, 20], NONE)),
        ("the last place held", state(10, 266, &[15, 266], NONE)),
        ("pending below the floor", state(10, 20, &[], (1, 5))),
        ("pending up to the top", state(10, 20, &[], (11, 20))),
        ("200 pending", state(300, 400, &[], (101, 300))),
        (
            "the last number pending",
            state(MOST - 1, MOST, &[], (MOST, MOST)),
        ),
        ("pending and whole", state(20, 20, &[], (11, 20))),
        ("one number from the whole map", state(0, 256, &all, NONE)),
        ("a run and a single one", state(10, 20, &[12, 13, 15], NONE)),
    ]
}

/// States whose map goes round, or begins at a word's first or last bit: floors
/// at and beside multiples of 64 and of 256.
fn turned() -> Vec<(u64, Words)> {
    let mut states = Vec::new();
    for edge in [64, 128, 192, 256, 320, 512, 256_000, MOST - 255, MOST - 511] {
        for floor in edge - 2..=edge + 1 {
            let (low, high) = (floor + 2, floor + 256);
            let middle = [floor + 64, floor + 65, floor + 128];
            let held: Vec<u64> = [&[low], &middle[..], &[high]].concat();
            let held: Vec<u64> = held.into_iter().filter(|n| *n <= MOST).collect();
            let top = (floor + 300).min(MOST);
            states.push((floor, state(floor, top, &held, NONE)));
        }
    }
    states
}

fn broken() -> Vec<(&'static str, Words)> {
    vec![
        ("channel 10000", of_channel(10_000)),
        ("channel 65535", of_channel(65_535)),
        ("channel 65636", of_channel(65_636)),
        ("floor above top", state(6, 5, &[], NONE)),
        (
            "floor and top at the last number of all",
            state(MAX, MAX, &[], NONE),
        ),
        ("top of 19 digits", state(0, OVER, &[], NONE)),
        ("top at the last number of all", state(0, MAX, &[], NONE)),
        ("floor + 1 held", state(10, 20, &[11], NONE)),
        ("held just above the top", state(10, 20, &[21], NONE)),
        ("held far above the top", state(10, 20, &[15, 266], NONE)),
        ("floor + 1 held, its place 0", state(255, 300, &[256], NONE)),
        (
            "held above the top, its place 0",
            state(250, 255, &[256], NONE),
        ),
        (
            "held above the top, its place 255",
            state(250, 254, &[255], NONE),
        ),
        ("held above the top, round", state(300, 320, &[513], NONE)),
        (
            "held above the floor that is the top",
            state(10, 10, &[12], NONE),
        ),
        ("pending from 0", state(10, 20, &[], (0, 5))),
        ("pending from above floor + 1", state(10, 20, &[], (12, 15))),
        ("pending backwards", state(10, 20, &[], (5, 4))),
        ("pending above the top", state(10, 20, &[], (5, 21))),
        ("201 pending", state(300, 400, &[], (101, 301))),
        (
            "pending to the last number of all",
            state(300, 400, &[], (1, MAX)),
        ),
        ("pending above a whole top", state(10, 10, &[], (11, 11))),
        (
            "pending above the last top",
            state(MOST, MOST, &[], (MOST, MAX)),
        ),
    ]
}

pub fn ledgers<A: Answers>(run: &mut Run<A>) {
    run.case("channels");
    for channel in [0, 1, 100, 9_999, 10_000, 65_535] {
        run.open(channel);
    }
    examples(run);
    states(run);
    orders(run);
    replies(run);
    requests(run);
    passing(run);
    turning(run);
    giving_up(run);
    renewing(run);
    spans(run);
    runs(run);
}

fn examples<A: Answers>(run: &mut Run<A>) {
    run.fresh("example 8", &[tick(2), Told, REQUEST, tick(1), Told]);
    run.fresh("example 9", &[tick(256)]);
    run.fresh("example 10", &[tick(257), REQUEST]);
    run.fresh("example 11", &[announce(0), REQUEST]);
    run.fresh("example 12", &[announce(300), tick(100), REQUEST]);
    run.fresh(
        "a resent range is not received until its ticks come",
        &[
            announce(3),
            REQUEST,
            REQUEST,
            reply(1, 1),
            Told,
            tick(1),
            tick(3),
            reply(1, 1),
            REQUEST,
            tick(2),
            reply(2, 2),
            REQUEST,
        ],
    );
}

fn states<A: Answers>(run: &mut Run<A>) {
    for (name, state) in sound() {
        run.on(name, state, &[Told]);
    }
    for (name, state) in broken() {
        // 13 before 18, 10, 17 and 16.
        let calls = [
            Told,
            Call::Tick(101, 0),
            tick(1),
            Announce(101, MAX),
            Request(101),
            Reply(101, 1, 0),
            Renew,
        ];
        run.on(name, state, &calls);
    }
}

/// The sound state of that name.
fn named(name: &str) -> Words {
    let found = sound().into_iter().find(|(n, _)| *n == name);
    found.expect("such a state").1
}

fn orders<A: Answers>(run: &mut Run<A>) {
    run.on(
        "orders of a tick",
        named("held up to the top"),
        &[
            Call::Tick(101, 0),
            Call::Tick(101, OVER),
            Call::Tick(10_000, 13),
            Call::Tick(101, 500),
            tick(0),
            tick(OVER),
            tick(MAX),
            tick(10),
            tick(12),
            tick(1),
            tick(267),
            tick(266),
            tick(268),
            tick(267),
            tick(MOST),
            tick(11),
        ],
    );
    run.on(
        "orders of an announcement",
        named("pending up to the top"),
        &[
            Announce(101, OVER),
            announce(OVER),
            announce(MAX),
            announce(5),
            announce(20),
            announce(21),
            announce(MOST),
        ],
    );
    let both = [Request(101), REQUEST];
    run.on("14 before 15", named("pending and whole"), &both);
    run.on("15", named("whole"), &both);
    run.on(
        "no number is left",
        named("all numbers received"),
        &[REQUEST, tick(MOST), tick(OVER)],
    );
}

fn replies<A: Answers>(run: &mut Run<A>) {
    let pending = named("pending below the floor");
    for status in [0, 6, 98, 100, 255] {
        let calls = [Reply(101, 1, status), reply(2, status), reply(1, status)];
        run.on("18, then 17, then 16", pending, &calls);
    }
    run.on("16", pending, &[reply(2, 1), reply(0, 5), reply(MAX, 99)]);
    for status in [1, 2, 3, 4, 5, 99] {
        let calls = [reply(1, status), reply(1, status)];
        run.on(&format!("status {status}"), pending, &calls);
    }
    run.on(
        "the first number granted, wherever the floor stands",
        named("200 pending"),
        &[reply(301, 1), reply(101, 1)],
    );
}

fn requests<A: Answers>(run: &mut Run<A>) {
    for (name, state) in sound() {
        run.on(&format!("a request where: {name}"), state, &[REQUEST]);
    }
    for last in [200, 201, 202] {
        run.fresh("a request up to the top", &[announce(last), REQUEST]);
        run.fresh("a request up to a held one", &[tick(last), REQUEST]);
    }
}

fn passing<A: Answers>(run: &mut Run<A>) {
    run.on(
        "a whole map passed at once",
        named("one number from the whole map"),
        &[tick(1), tick(512), tick(513), tick(257)],
    );
    run.on(
        "a run passed",
        named("a run and a single one"),
        &[tick(11), tick(14), tick(16)],
    );
    run.on(
        "the last number of all",
        named("the last number pending"),
        &[tick(MOST), reply(MOST, 1), REQUEST, Told],
    );
}

/// Status 4: the exchange has no data (CR 7).
fn giving_up<A: Answers>(run: &mut Run<A>) {
    run.fresh(
        "a range given up, some of it received",
        &[
            announce(10),
            REQUEST,
            tick(3),
            tick(5),
            reply(1, 4),
            Told,
            REQUEST,
        ],
    );
    run.fresh(
        "the floor passes what follows, up to the next gap",
        &[
            tick(12),
            tick(13),
            tick(15),
            REQUEST,
            reply(1, 4),
            Told,
            REQUEST,
            tick(14),
        ],
    );
    run.fresh(
        "late ticks",
        &[
            announce(3),
            REQUEST,
            reply(1, 4),
            tick(1),
            tick(2),
            tick(3),
            tick(4),
            Told,
        ],
    );
    run.fresh(
        "200 given up, and the next request behind them",
        &[
            announce(1_000),
            REQUEST,
            reply(1, 4),
            REQUEST,
            reply(201, 4),
            Told,
        ],
    );
    run.fresh(
        "a range wholly passed",
        &[
            announce(3),
            REQUEST,
            tick(1),
            tick(2),
            tick(3),
            reply(1, 4),
            Told,
        ],
    );
    run.fresh(
        "only its end is left",
        &[
            announce(3),
            REQUEST,
            tick(1),
            tick(2),
            reply(1, 4),
            tick(3),
            Told,
        ],
    );
    // Decision 7.1: with 1 to 200 granted, 1 to 199 received since and 201 to
    // 455 held, 455 is passed, 454 behind the range's first number.
    let ticks = (1..=199).chain(201..=455).map(tick);
    let mut calls = vec![announce(500), REQUEST];
    calls.extend(ticks);
    calls.extend([reply(1, 4), Told, tick(200), tick(455), tick(456), REQUEST]);
    run.fresh("200 given up, 201 to 455 passed", &calls);

    for (name, state) in sound() {
        let first = state[7];
        let calls = [reply(first, 4), Told, tick(first), REQUEST];
        run.on(&format!("status 4 where: {name}"), state, &calls);
    }
    for (floor, mut state) in turned() {
        (state[7], state[8]) = (floor + 1, (floor + 199).min(state[2]));
        let calls = [
            reply(floor + 2, 4),
            reply(floor + 1, 4),
            tick(floor + 1),
            Told,
        ];
        run.on(
            &format!("status 4, a map from {} on", floor + 1),
            state,
            &calls,
        );
    }
    for status in [1, 2, 3, 5, 99] {
        let state = state(10, 20, &[12, 15], (11, 14));
        let calls = [reply(11, status), Told, REQUEST];
        run.on(&format!("status {status} gives up nothing"), state, &calls);
    }
}

/// A new session (CR 12): the pending request is cleared, all else is kept.
fn renewing<A: Answers>(run: &mut Run<A>) {
    for (name, state) in sound() {
        let first = state[7];
        let calls = [Renew, Told, reply(first, 4), Renew, REQUEST, Renew, REQUEST];
        run.on(&format!("a new session where: {name}"), state, &calls);
    }
    for (floor, mut state) in turned() {
        (state[7], state[8]) = (floor + 1, (floor + 199).min(state[2]));
        let calls = [Renew, Told, tick(floor + 2), tick(floor + 1), REQUEST];
        run.on(
            &format!("a new session, a map from {} on", floor + 1),
            state,
            &calls,
        );
    }
    run.fresh(
        "a reply to what the old session asked is 16, and its ticks still count",
        &[
            announce(5),
            REQUEST,
            REQUEST,
            Renew,
            reply(1, 1),
            tick(2),
            REQUEST,
            reply(1, 4),
            tick(1),
            Renew,
            Told,
            REQUEST,
        ],
    );
}

/// How many are missing from a to b (CR 8), with a and b at and beside every
/// bound, over held numbers and over the edges of words and of the map.
fn spans<A: Answers>(run: &mut Run<A>) {
    let broken = broken();
    let turned = turned();
    let turned = turned
        .iter()
        .map(|(_, state)| ("a map that goes round", *state));
    let states = sound().into_iter().chain(turned).chain(broken);
    for (name, state) in states {
        run.case(&format!("missing between, where: {name}"));
        run.more(&joined(&state));
        let [channel, floor, top, ..] = state;
        let channel = channel.min(65_535) as u16;
        let up = |n: u64| floor.saturating_add(n);
        let ends = [
            0,
            1,
            floor,
            up(1),
            up(2),
            up(63),
            up(64),
            up(65),
            up(128),
            up(256),
            up(257),
            top,
            top.saturating_add(1),
            MOST,
            OVER,
            MAX,
        ];
        for a in ends {
            for b in ends {
                run.missing(&state, channel, a, b);
            }
        }
        // 13, then 18, then 10.
        run.missing(&state, channel ^ 1, 0, 0);
        run.missing(&state, channel ^ 1, 1, top);
    }
}

/// Calls on the states whose map goes round: each held number again, the last
/// place and the one behind it, whose place is free but too far, and the floor
/// that passes over an edge.
fn turning<A: Answers>(run: &mut Run<A>) {
    for (floor, state) in turned() {
        run.on(
            &format!("a map from {} on", floor + 1),
            state,
            &[
                Told,
                REQUEST,
                tick(floor + 2),
                tick(floor + 256),
                tick(floor + 257),
                tick(floor + 3),
                tick(floor + 1),
                tick(floor + 257),
                tick(floor + 258),
                Told,
            ],
        );
    }
    // Every place is used, cleared and used again: 256 numbers later a tick is
    // no repeat.
    run.fresh(
        "a place is free again",
        &[tick(1), tick(257), tick(2), tick(258)],
    );
    let mut calls = Vec::new();
    for n in 1..=600 {
        calls.push(tick(n));
        calls.push(tick(n + 256));
    }
    run.fresh("each number, and the one 256 behind it", &calls);
}

/// Ticks drawn from the numbers above the floor, round the map several times;
/// the state after each hundred.
fn runs<A: Answers>(run: &mut Run<A>) {
    for width in [1, 2, 8, 64, 256, 300] {
        run.case(&format!("a run of ticks within {width}"));
        let mut dice = Dice::new(8, width);
        let mut ledger = run.open(100).expect("channel 100 opens");
        let mut answered = [0; 3];
        for calls in 1..=3_000 {
            let n = ledger[1] + 1 + dice.below(width);
            let answer = run.answers.tick(&mut ledger, Channel(100), Tick(n));
            match answer {
                Ok(_) => answered[0] += 1,
                Err(11) => answered[1] += 1,
                Err(12) => answered[2] += 1,
                Err(other) => panic!("a run's tick is answered {other}"),
            }
            if calls % 100 == 0 {
                run.more(&format!("{}: {}", joined(&answered), joined(&ledger)));
            }
        }
    }
}
