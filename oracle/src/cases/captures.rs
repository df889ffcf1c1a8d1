//! Searching, walking, listing and cleaning captures made by hand.

use super::Run;
use crate::answers::{Answers, Walked};
use crate::made::{
    a, b, framed, m101, m102, m201, mended, p001, p002, s001, s002, trade, with, Dice,
};
use crate::numbers::{Channel, Session, Tick, MOST};
use crate::record::{Record, BLANK, SIZE};
use crate::rules::KINDS;

/// A tick on channel 100.
fn tick(n: u64) -> Vec<u8> {
    framed(b"M201", &trade(n))
}

/// A tick on another channel.
fn tick_on(channel: u64, n: u64) -> Vec<u8> {
    framed(b"M201", &with(&trade(n), 1, 2, channel))
}

fn announced(channel: u64, n: u64) -> Vec<u8> {
    let body = with(&with(&p001(), 1, 2, channel), 3, 8, n);
    framed(b"P001", &body)
}

fn heartbeat() -> Vec<u8> {
    framed(b"S003", &[])
}

/// The header of an M101 that tells more bytes than there are.
fn promise(length: u64) -> Vec<u8> {
    with(&framed(b"M101", &[])[..24], 20, 4, length)
}

fn order(n: u64) -> Vec<u8> {
    framed(b"M201", &m201(n, b"MD211", b'0', 139))
}

/// Two good frames within another.
fn around() -> Vec<u8> {
    framed(b"M101", &[heartbeat(), announced(100, 3)].concat())
}

/// The frame with another time.
fn sent(time: u64, frame: &[u8]) -> Vec<u8> {
    mended(with(frame, 4, 8, time))
}

/// The captures, each with its name.
pub fn made() -> Vec<(&'static str, Vec<u8>)> {
    let stray = vec![0xFF];
    let every: Vec<u8> = super::frames::bodies()
        .iter()
        .filter(|(_, body)| body.len() < 4_000)
        .flat_map(|(name, body)| framed(name, body))
        .collect();
    let m101 = framed(b"M101", &m101());
    let resent = |status| {
        let body = with(&with(&p002(), 3, 8, 1), 19, 1, status);
        framed(b"P002", &body)
    };
    let headers = [vec![promise(8_164); 6].concat(), heartbeat()].concat();
    vec![
        (
            "the 69 bytes of document 01",
            [a(), stray.clone(), b()].concat(),
        ),
        ("nothing", vec![]),
        ("one byte", stray.clone()),
        ("every type, in order", every),
        (
            "a damaged BodyLength that would step over good frames",
            [
                with(&m101, 20, 4, 82),
                heartbeat(),
                announced(100, 3),
                tick(1),
                tick(2),
            ]
            .concat(),
        ),
        (
            "a damaged BodyLength, smaller",
            [with(&order(42), 20, 4, 150), tick(1), heartbeat()].concat(),
        ),
        (
            "sums with high bytes set",
            [
                with(&tick(1), 122, 1, 1),
                tick(1),
                with(&announced(100, 9), 38, 1, 255),
                heartbeat(),
            ]
            .concat(),
        ),
        (
            "a damaged M101 around two good frames",
            [with(&around(), 23, 1, 67), heartbeat()].concat(),
        ),
        (
            "the same, its sum damaged",
            [with(&around(), 95, 1, 0), tick(4)].concat(),
        ),
        (
            "a good M101 around two good frames",
            [around(), tick(1)].concat(),
        ),
        (
            "a resent range is not received until its ticks come",
            [
                announced(100, 5),
                resent(0),
                resent(1),
                tick(3),
                tick(1),
                tick(2),
                order(5),
                order(4),
            ]
            .concat(),
        ),
        (
            "repeats, a far tick, other channels",
            [
                [1, 1, 3, 3, 257, 258, 2, 259, 260].map(tick).concat(),
                tick_on(101, 4),
                announced(99, 900),
                announced(100, 0),
                announced(100, 261),
                tick(MOST),
            ]
            .concat(),
        ),
        (
            "each refusal before a good frame",
            [
                stray.clone(),
                tick(1),
                mended(with(&m101, 20, 4, 8_165)),
                tick(2),
                mended(with(&announced(100, 3), 20, 4, 13)),
                tick(3),
                with(&announced(100, 3), 39, 1, 0),
                tick(4),
                framed(b"P001", &with(&p001(), 0, 1, 12)),
                tick(5),
                mended(with(&m101, 20, 4, 8_000)),
                tick(6),
            ]
            .concat(),
        ),
        (
            "a cut frame at the end",
            [tick(1), tick(42)[..60].to_vec()].concat(),
        ),
        (
            "a cut frame that takes in what follows",
            [order(42)[..60].to_vec(), tick(1), tick(2), tick(3)].concat(),
        ),
        (
            "a cut header at the end",
            [heartbeat(), b()[..23].to_vec()].concat(),
        ),
        ("headers without bodies", headers),
        (
            "sound frames too far",
            vec![order(42)[..24].to_vec(); 3].concat(),
        ),
        (
            "stray bytes before each frame",
            [heartbeat(), announced(100, 3), tick(42), order(42), vec![]]
                .map(|frame| [stray.clone(), frame].concat())
                .concat(),
        ),
        (
            "a type and nothing else",
            [&heartbeat()[..4], &heartbeat()[..4], &heartbeat()].concat(),
        ),
        (
            "a frame of month 13 before good ones, and within one",
            [
                sent(20_261_301_093_000_000, &tick(1)),
                tick(1),
                framed(b"M101", &sent(0, &tick(2))),
                sent(20_260_230_093_000_000, &around()),
                tick(3),
            ]
            .concat(),
        ),
        (
            "texts of every kind",
            [
                framed(b"S001", &s001()),
                framed(b"S002", &s002()),
                framed(b"M102", &m102(1, b"MD001", 3)),
            ]
            .concat(),
        ),
    ]
}

pub fn captures<A: Answers>(run: &mut Run<A>) {
    for (name, capture) in made() {
        run.case(name);
        // Each good frame in turn, to the last line, which says none.
        let mut from = 0;
        while let Some(place) = run.search(&capture, from) {
            from = place + 1;
        }
        for beyond in [0, 1, 2] {
            run.search(&capture, capture.len() + beyond);
        }
        run.search(&capture, usize::MAX);
        run.walk(&capture, 18_432);
        let whole = run.clean(&capture, capture.len());
        run.clean(&whole, whole.len().saturating_sub(1));
        listing(run, &capture);
    }
    let (name, capture) = &made()[0];
    run.case(&format!("searched from each place, and room: {name}"));
    for from in 0..=70 {
        run.search(capture, from);
    }
    for room in [0, 1, 63, 64, 127, 128, 191, 192, 193, 256] {
        run.walk(capture, room);
    }
    run.case("no room for no record");
    run.walk(&[], 0);
    records(run);
}

/// The listing of a capture that is walked.
fn listing<A: Answers>(run: &mut Run<A>, capture: &[u8]) {
    let mut records = vec![0; 18_432];
    let walked = run.answers.walk(capture, &mut records);
    let walked = walked.expect("room for all");
    records.truncate(walked.records * SIZE);
    for spare in [0, -1, 3] {
        run.listing(&records, &walked, spare);
    }
}

/// Lines of records that no walk made.
fn records<A: Answers>(run: &mut Run<A>) {
    let dice = &mut Dice::new(6, 0);
    let mut bytes = Vec::new();
    for kind in KINDS.iter().map(|k| k.name()).chain([BLANK]) {
        let d = &mut *dice;
        let record = Record {
            place: d.edge(),
            msg_type: kind,
            answer: d.below(21) as u32,
            seq: Session(d.edge()),
            tick: Tick(d.edge()),
            channel: Channel(d.draw() as u16),
            body_length: d.below(8_165) as u32,
            floor: Tick(d.edge()),
            top: Tick(d.edge()),
        };
        bytes.extend(record.bytes());
    }
    let ledger = run.answers.open(Channel(100));
    let ledger = ledger.expect("channel 100 opens");
    run.case("records that no walk made, and half a record behind them");
    for (frames, refused) in [(0, 0), (u64::MAX, 1)] {
        let walked = Walked {
            records: 0,
            frames,
            refused,
            ledger,
        };
        run.listing(&bytes, &walked, 0);
        run.listing(&bytes[..bytes.len() - 32], &walked, 0);
        let broken = Walked {
            ledger: [1; 9],
            ..walked
        };
        run.listing(&bytes, &broken, 0);
    }
}
