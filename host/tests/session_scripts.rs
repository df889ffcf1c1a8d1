//! Sessions: the library against oracle/, the second program. The scripts of
//! oracle/scripts/session.txt, a line a call and what it must answer, and generated ones are put to
//! both; and the table of docs/SESSION.md is the one that runs of the library show.
//!
//! What it takes of the wrapper stands in `impl Answers` alone.

use oracle::answers::Answer;
use oracle::cases::text::{compare, difference};
use oracle::numbers;
use oracle::session::cases::{by_hand, generated, Answers, Oracle, Turned, NUMBERS, SCRIPTS};
use oracle::session::script::otherwise;
use oracle::session::table::table;
use oracle::session::Words;
use rietknoest_host::{Passing, Refusal, Session, ToSend};

struct Library;

/// A call on the session of these words, which are then those that it left.
fn on<T>(words: &mut Words, call: impl FnOnce(&mut Session) -> Result<T, Refusal>) -> Answer<T> {
    let mut session = Session::from_words(*words);
    let answer = call(&mut session);
    *words = session.to_words();
    answer.map_err(Refusal::number)
}

fn turned(send: ToSend) -> Turned {
    let send = send.frame().map(|(kind, seq)| {
        let seq = numbers::Session(seq.value());
        (kind.to_be_bytes(), seq)
    });
    Turned {
        send,
        dead: false,
        length: 0,
    }
}

impl Answers for Library {
    fn open(&self) -> Words {
        Session::open().to_words()
    }

    fn begin(&self, session: &mut Words, now: u64) -> Answer<Turned> {
        on(session, |s| s.begin(now)).map(turned)
    }

    fn time(&self, session: &mut Words, now: u64) -> Answer<Turned> {
        on(session, |s| s.time(now)).map(|passing| match passing {
            Passing::Send(send) => turned(send),
            Passing::Dead => Turned {
                dead: true,
                ..turned(ToSend::Nothing)
            },
        })
    }

    fn leave(&self, session: &mut Words, now: u64) -> Answer<Turned> {
        on(session, |s| s.leave(now)).map(turned)
    }

    fn ask(&self, session: &mut Words, now: u64) -> Answer<Turned> {
        on(session, |s| s.ask(now)).map(turned)
    }

    fn receive(&self, session: &mut Words, now: u64, bytes: &[u8]) -> Answer<Turned> {
        on(session, |s| s.receive(now, bytes)).map(|arrival| Turned {
            length: arrival.len,
            ..turned(arrival.send)
        })
    }

    fn may_send(&self, session: &Words, now: u64) -> Answer<()> {
        on(&mut session.clone(), |s| s.may_send(now))
    }
}

#[test]
fn the_scripts_are_answered_as_they_say() {
    assert_eq!(otherwise(&Library, SCRIPTS), [""; 0]);
}

#[test]
fn scripts_made_by_hand() {
    if let Some(difference) = difference(&by_hand(&Library), &by_hand(&Oracle)) {
        panic!("the programs differ\n{difference}");
    }
}

#[test]
fn generated_scripts() {
    let ours = |seed, n| generated(&Library, seed, n);
    let theirs = |seed, n| generated(&Oracle, seed, n);
    compare(&NUMBERS, 10, ours, theirs);
}

/// The page's table is that of the definitions too: tools/cells.
#[test]
fn the_page_has_the_table_that_runs_show() {
    let page = include_str!("../../docs/SESSION.md");
    assert!(page.contains(&format!("\n\n{}\n", table(&Library))));
}
