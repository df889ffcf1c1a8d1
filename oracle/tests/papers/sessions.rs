//! CR 12: a session against the words of the request, told from its calls and
//! answers alone; and what a new session does to a ledger.

use crate::properties::Dice;
use crate::samples::*;
use oracle::answer::No;
use oracle::ledger::{Ledger, Pending};
use oracle::numbers::{Channel, Session, Tick};
use oracle::session::cases::{Oracle, SCRIPTS};
use oracle::session::script::otherwise;
use oracle::session::table::table;
use oracle::session::{Event, Line, State, Turn};

/// A call, the time that counts for it, and what it answered.
struct Made {
    now: u64,
    event: Event,
    answer: Result<Turn, No>,
}

impl Made {
    fn sent(&self) -> Option<([u8; 4], Session)> {
        self.answer.ok().and_then(|turn| turn.send)
    }

    fn is_frame(&self) -> bool {
        matches!(
            self.event,
            Event::Logon(..) | Event::Logout(_) | Event::Other(_)
        )
    }

    /// Whether a frame was taken.
    fn taken(&self) -> bool {
        self.is_frame() && self.answer.is_ok()
    }
}

/// What the host does, or what arrives: mostly under the number expected.
fn any_event(d: &mut Dice, line: &Line) -> Event {
    let seq = match d.roll(12) {
        0 => Session(d.roll(5)),
        _ => line.expected,
    };
    match d.roll(24) {
        0 | 1 => Event::Begin,
        2..=9 => Event::Time,
        10 => Event::Leave,
        11..=13 => Event::Ask,
        14..=16 => Event::Logon(seq, 1 + d.roll(3)),
        17 => Event::Logout(seq),
        18 => Event::Unread(No::Sum),
        _ => Event::Other(seq),
    }
}

/// A row of calls on a session just opened.
fn row(d: &mut Dice) -> Vec<Made> {
    let mut line = Line::opened();
    let mut made = Vec::new();
    let (mut clock, mut last) = (0, 0);
    for _ in 0..60 {
        clock += match d.roll(4) {
            0 => 0,
            1 => d.roll(100),
            2 => d.roll(1_500),
            _ => 500 * d.roll(4),
        };
        // Now and then the clock goes back.
        let shown = if d.roll(9) == 0 { clock / 2 } else { clock };
        let event = any_event(d, &line);
        let (next, answer) = line.turn(shown, event);
        let now = shown.max(last);
        if answer.is_ok() {
            last = now;
        } else {
            assert_eq!(next, line, "a refusal moves nothing");
        }
        assert!(next.sound());
        line = next;
        made.push(Made { now, event, answer });
    }
    made
}

fn rows() -> impl Iterator<Item = Vec<Made>> {
    let mut d = Dice(12);
    (0..4_000).map(move |_| row(&mut d))
}

#[test]
fn the_table_is_the_one_in_the_docs() {
    let page = std::fs::read_to_string("../docs/SESSION.md").expect("the page");
    let rows = page.lines().skip_while(|l| !l.starts_with("| state |"));
    let rows: Vec<&str> = rows.take_while(|l| l.starts_with('|')).collect();
    assert_eq!(table(&Oracle), rows.join("\n") + "\n");
}

#[test]
fn a_script_that_says_otherwise_is_told() {
    let wrong = SCRIPTS.replace("time 31000 -> 0 S003 2", "time 31000 -> 0");
    let told = otherwise(&Oracle, &wrong);
    assert!(
        !told.is_empty()
            && told
                .iter()
                .all(|t| t.ends_with("time 31000 -> 0 S003 2, not 0"))
    );
}

#[test]
fn logon_is_sent_first_and_nothing_else_before_the_answer() {
    let mut sessions = 0;
    for made in rows() {
        let sent: Vec<_> = made.iter().filter_map(Made::sent).collect();
        if let Some(first) = sent.first() {
            assert_eq!(*first, (*b"S001", Session(1)));
        }
        let answer = made
            .iter()
            .position(|m| matches!(m.event, Event::Logon(..)) && m.taken());
        let before = &made[..answer.unwrap_or(made.len())];
        let count = before.iter().filter(|m| m.sent().is_some()).count();
        assert!(count <= 1);
        // Our logon came before a logon that was taken.
        assert!(answer.is_none() || count == 1);
        let logons = sent.iter().filter(|s| s.0 == *b"S001");
        assert!(logons.count() <= 1);
        sessions += u32::from(answer.is_some());
    }
    assert!(sessions > 1_000, "{sessions}");
}

#[test]
fn both_counters_rise_by_one_from_one() {
    for made in rows() {
        let sent = made.iter().filter_map(Made::sent);
        for (n, (_, seq)) in (1..).zip(sent) {
            assert_eq!(seq, Session(n));
        }
        let taken = made.iter().filter(|m| m.taken());
        for (n, m) in (1..).zip(taken) {
            let (Event::Logon(seq, _) | Event::Logout(seq) | Event::Other(seq)) = m.event else {
                panic!("no frame");
            };
            assert_eq!(seq, Session(n));
        }
    }
}

/// What the calls so far tell: whether the logon answer was taken, with which
/// interval, whether we sent our logout, whether the session ended, and when we
/// last sent and last took a frame.
#[derive(Default)]
struct Heard {
    interval: Option<u64>,
    ours: bool,
    ended: bool,
    sent: u64,
    taken: u64,
}

impl Heard {
    fn of(made: &[Made]) -> Heard {
        let mut heard = Heard::default();
        for m in made {
            if let (Event::Logon(_, seconds), true) = (m.event, m.taken()) {
                heard.interval = Some(seconds * 1_000);
            }
            if let Some((kind, _)) = m.sent() {
                heard.sent = m.now;
                heard.ours |= kind == *b"S002";
            }
            if m.taken() {
                heard.taken = m.now;
                heard.ended |= matches!(m.event, Event::Logout(_));
            }
            heard.ended |= m.answer.is_ok_and(|turn| turn.dead);
        }
        heard
    }

    fn dead(&self, now: u64) -> bool {
        let interval = self.interval.filter(|_| !self.ended);
        interval.is_some_and(|i| now - self.taken > 2 * i)
    }
}

#[test]
fn heartbeats_and_dead_lines_are_told_by_the_history() {
    let (mut beats, mut dead) = (0, 0);
    for made in rows() {
        for (i, m) in made.iter().enumerate() {
            let heard = Heard::of(&made[..i]);
            let turn = m.answer.unwrap_or_default();
            let time = m.event == Event::Time;
            assert_eq!(turn.dead, time && heard.dead(m.now));
            let live = heard.interval.filter(|_| !heard.ours && !heard.ended);
            let due = live.is_some_and(|i| !heard.dead(m.now) && m.now - heard.sent >= i);
            let beat = m.sent().is_some_and(|s| s.0 == *b"S003");
            assert_eq!(beat, time && due);
            beats += u32::from(beat);
            dead += u32::from(turn.dead);
            // Any call but time on a dead line is refused.
            assert!(time || !heard.dead(m.now) || m.answer.is_err());
        }
    }
    assert!(beats > 1_000 && dead > 500, "{beats} {dead}");
}

#[test]
fn logout_is_answered_by_logout_and_nothing_is_sent_after_ours() {
    let mut answered = 0;
    for made in rows() {
        for (i, m) in made.iter().enumerate() {
            let heard = Heard::of(&made[..i]);
            if heard.ours || heard.ended {
                assert_eq!(m.sent(), None);
            }
            if let (Event::Logout(_), true) = (m.event, m.taken()) {
                let active = heard.interval.is_some() && !heard.ours;
                assert_eq!(m.sent().map(|s| s.0), active.then_some(*b"S002"));
                answered += u32::from(active);
            }
        }
    }
    assert!(answered > 500, "{answered}");
}

#[test]
fn refusals_are_told_by_the_history() {
    for made in rows() {
        for (i, m) in made.iter().enumerate() {
            let heard = Heard::of(&made[..i]);
            let begun = made[..i].iter().any(|m| m.sent().is_some());
            let awaited = heard.interval.is_none() && !heard.ended;
            let expected = 1 + made[..i].iter().filter(|m| m.taken()).count() as u64;
            let over = heard.ended || (heard.dead(m.now) && m.event != Event::Time);
            let seq = match m.event {
                Event::Logon(seq, _) | Event::Logout(seq) | Event::Other(seq) => Some(seq),
                _ => None,
            };
            let must = if let Event::Unread(no) = m.event {
                Err(no)
            } else if awaited && matches!(m.event, Event::Leave | Event::Ask | Event::Other(_)) {
                Err(No::Early)
            } else if seq.is_some_and(|s| s.0 != expected) {
                Err(No::Sequence)
            } else if (over && m.event != Event::Time)
                || (heard.ours && matches!(m.event, Event::Leave | Event::Ask))
            {
                Err(No::Over)
            } else if (m.event == Event::Begin && begun)
                || (matches!(m.event, Event::Logon(..)) && !(begun && awaited))
            {
                Err(No::Again)
            } else {
                Ok(())
            };
            assert_eq!(m.answer.map(|_| ()), must);
        }
    }
}

#[test]
fn may_send_answers_as_asking_would_and_moves_nothing() {
    let mut d = Dice(33);
    for _ in 0..2_000 {
        let mut line = Line::opened();
        for _ in 0..30 {
            let now = line.last + d.roll(3_000);
            let asked = line.turn(now, Event::Ask).1.map(|_| ());
            assert_eq!(line.may_send(now), asked);
            let event = any_event(&mut d, &line);
            line = line.turn(now, event).0;
        }
    }
}

#[test]
fn words_stand_for_one_session() {
    let line = Line {
        state: State::Leaving,
        out: Session(3),
        expected: Session(9),
        last: 50,
        sent: 40,
        heard: 30,
        interval: 1_000,
    };
    assert_eq!(line.words(), [3, 3, 9, 50, 40, 30, 1_000, 0]);
    assert_eq!(Line::of_words(line.words()), Some(line));
    assert_eq!(Line::of_words([5, 1, 1, 0, 0, 0, 0, 0]), None);
    assert_eq!(Line::of_words([u64::MAX, 1, 1, 0, 0, 0, 0, 0]), None);
    assert_eq!(Line::of_words([0, 1, 1, 0, 0, 0, 0, 1]), None);
}

#[test]
fn a_new_session_clears_the_pending_request_alone() {
    let asked = state(10, 20, &[12, 15], Some((11, 11)));
    let (next, answer) = asked.renew();
    assert_eq!(answer, Ok(()));
    assert_eq!(next, state(10, 20, &[12, 15], None));
    assert_eq!(next.renew(), (next, Ok(())));
    // The reply to the old request has no request; the next one may be asked.
    assert_eq!(next.reply(C, Tick(11), 4), (next, Err(No::Unasked)));
    assert!(next.request(C).1.is_ok());
    // It names no channel; 13 alone.
    let broken = Ledger {
        channel: Channel(10_000),
        pending: Pending::Asked {
            first: Tick(1),
            last: Tick(1),
        },
        ..asked
    };
    assert_eq!(broken.renew(), (broken, Err(No::State)));
}
