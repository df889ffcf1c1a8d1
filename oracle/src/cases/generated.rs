//! The generated cases. Each is made from its seed and its number alone.

use super::Run;
use crate::answers::{Answers, Walked};
use crate::frame::Message;
use crate::made::{self, Dice, Ticks};
use crate::numbers::Session;
use crate::record::SIZE;
use crate::stream::KEPT;

pub fn case<A: Answers>(run: &mut Run<A>, seed: u64, n: u64) {
    let d = &mut Dice::new(seed, n);
    match d.below(400) {
        0 => capture(run, d, 100_000, &[40, 1_000, 9_000]),
        1..=79 => {
            let long = d.of(&[100, 300, 1_000, 3_000]);
            capture(run, d, long, &[0, 40, 200]);
        }
        80..=119 => noise(run, d),
        120..=199 => frame(run, d),
        200..=259 => writing(run, d),
        260..=319 => body(run, d),
        320..=334 => stream(run, d),
        335..=339 => stream_state(run, d),
        _ => ledger(run, d),
    }
}

/// Every call that takes bytes alone, on the same bytes.
fn bytes<A: Answers>(run: &mut Run<A>, d: &mut Dice, bytes: &[u8]) {
    let n = bytes.len();
    run.read(bytes, 0);
    let places = [d.len(n + 1), n, n + 1, usize::MAX - d.len(30)];
    run.read(bytes, d.of(&places));
    run.search(bytes, d.len(n + 1));
    run.search(bytes, d.of(&places));
    run.scrub(bytes);
}

fn frame<A: Answers>(run: &mut Run<A>, d: &mut Dice) {
    let mut ticks = Ticks(0);
    let most = d.of(&[0, 40, 200, 1_000, 9_000]);
    let mut f = made::any_frame(d, &mut ticks, most);
    if d.once_in(2) {
        made::damage(d, &mut f);
    }
    let n = d.len(6);
    f.extend(d.bytes(n));
    bytes(run, d, &f);
}

fn noise<A: Answers>(run: &mut Run<A>, d: &mut Dice) {
    let n = d.len(400);
    let noise = if d.once_in(4) {
        d.bytes(n)
    } else {
        d.dull_bytes(n)
    };
    bytes(run, d, &noise);
    walked(run, d, &noise);
}

fn writing<A: Answers>(run: &mut Run<A>, d: &mut Dice) {
    let (msg_type, body) = made::any_body(d);
    let message = Message {
        msg_type,
        sending_time: made::time(d),
        seq: Session(d.edge()),
        body,
    };
    let room = made::about(d, message.frame_length());
    run.write(&message, room);
}

fn body<A: Answers>(run: &mut Run<A>, d: &mut Dice) {
    let (name, body) = made::any_body(d);
    run.private(name, &body);
    run.broken(name, &body);
    let most = d.of(&[0, 40, 200, 9_000]);
    let mut b = made::body(d, b"M102", &mut Ticks(0), most);
    if d.once_in(2) {
        made::spoil_body(d, b"M102", &mut b);
    }
    run.broken(*b"M102", &b);
    if d.once_in(50) {
        b.resize(8_164 + d.len(3), 0);
    }
    run.entries(&b);
    let (k, n) = (d.below(6), b.len() as u64);
    let places = [73 + k * 10, 73 + k * 19, d.below(n + 2), d.draw(), n];
    run.entry(&b, d.of(&places));
}

fn ledger<A: Answers>(run: &mut Run<A>, d: &mut Dice) {
    let any = d.draw() as u16;
    let opened = run.open(d.of(&[100, 100, 0, 9_999, 10_000, u16::MAX, any]));
    let mut words = match opened {
        Some(words) if d.once_in(2) => words,
        _ => made::any_words(d),
    };
    let mut ticks = Ticks(words[1].min(1 << 60));
    for _ in 0..24 {
        let [channel, floor, top, ..] = words;
        let (own, other) = (channel.min(65_535) as u16, d.draw() as u16);
        let channel = d.of(&[own, own, own, own, other]);
        let near = floor.wrapping_add(d.below(262));
        let edge = d.edge();
        let n = d.of(&[near, near, floor.wrapping_add(1), top, edge]);
        let answer = match d.below(8) {
            0 => run.announce(&mut words, channel, n),
            1 => run.request(&mut words, channel),
            2 => {
                let first = d.of(&[words[7], words[7], n]);
                let other = d.of(&[1, 2, 3, 5, 99, 0, 6, 98, 100, 255]);
                let status = d.of(&[4, other]);
                run.reply(&mut words, channel, first, status)
            }
            3 if d.once_in(2) => run.renew(&mut words),
            _ => {
                let n = if d.once_in(2) { n } else { ticks.next(d) };
                run.tick(&mut words, channel, n)
            }
        };
        run.told(&words);
        let [_, floor, top, ..] = words;
        let near = floor.saturating_add(d.below(300));
        let edge = d.edge();
        let ends = [near, top, 1, floor, edge];
        let (a, b) = (d.of(&ends), near.saturating_add(d.below(400)));
        run.missing(&words, channel, a, d.of(&[b, b, top, a, edge]));
        if answer == 13 {
            words = made::any_words(d);
        }
    }
}

fn capture<A: Answers>(run: &mut Run<A>, d: &mut Dice, long: usize, most: &[usize]) {
    let n = d.len(long);
    let most = d.of(most);
    let capture = made::capture(d, n, most);
    bytes(run, d, &capture);
    walked(run, d, &capture);
}

/// A capture walked, listed and cleaned, with about as much room as it takes.
fn walked<A: Answers>(run: &mut Run<A>, d: &mut Dice, capture: &[u8]) {
    let mut records = vec![0; (2 * (capture.len() / 29) + 2) * SIZE];
    let whole = run.answers.walk(capture, &mut records);
    let whole = whole.expect("room for all");
    records.truncate(whole.records * SIZE);
    run.walk(capture, made::about(d, records.len()));
    let spare = [0, 0, 0, -1, 1, 70, -(d.below(200) as isize)];
    run.listing(&records, &whole, d.of(&spare));

    // the listing of a few bytes that are no records
    let n = d.len(200);
    let stray = d.bytes(n);
    let counts = Walked {
        records: 0,
        frames: d.edge(),
        refused: d.edge(),
        ledger: made::any_words(d),
    };
    run.listing(&stray, &counts, d.of(&spare));

    let clean = clean_of(run.answers, capture);
    run.clean(capture, made::about(d, clean.len()));
    let again = run.answers.first_unclean(&clean);
    assert!(again.is_none(), "what is clean stays so");
}

/// A capture in cuts. A call that lacked room is made again, perhaps with
/// another cut.
fn stream<A: Answers>(run: &mut Run<A>, d: &mut Dice) {
    let sizes = [(300, 1), (1_500, 20), (3_000, 300), (3_000, 2_000)];
    let (long, size) = match d.below(100) {
        0 => (100_000, 20_000),
        _ => d.of(&sizes),
    };
    let n = d.len(long);
    let most = d.of(&[0, 40, 200, long]);
    let mut capture = made::capture(d, n, most);
    capture.truncate(long);
    let mut stream = run.answers.stream_open();
    let (mut at, mut from) = (0, 0);
    let mut parts = Vec::new();
    loop {
        let n = made::cut(d, size, capture.len() - at);
        let cut = (at < capture.len()).then_some(&capture[at..at + n]);
        if called(run, d, &mut stream, cut) {
            at += cut.map_or(0, <[u8]>::len);
            // as the command scrubs what arrives: the bytes that became
            // decided, by themselves
            let decided = at - run.answers.parts(&stream).words[3] as usize;
            parts.extend(clean_of(run.answers, &capture[from..decided]));
            from = decided;
            if cut.is_none() {
                break;
            }
        }
    }
    let whole = clean_of(run.answers, &capture);
    assert!(parts == whole, "the clean capture in parts");
    let more = &capture[..d.len(capture.len() + 1)];
    for cut in [Some(more), Some(&[][..]), None] {
        called(run, d, &mut stream, cut);
    }
}

fn clean_of(answers: &impl Answers, bytes: &[u8]) -> Vec<u8> {
    let mut out = vec![0; bytes.len()];
    let cleaned = answers.clean(bytes, &mut out).expect("room for all");
    out.truncate(cleaned.bytes);
    out
}

/// One call, with room for all of its records, and every fourth time about as
/// much as they need. Answers whether it was taken.
fn called<A: Answers>(
    run: &mut Run<A>,
    d: &mut Dice,
    stream: &mut A::Stream,
    cut: Option<&[u8]>,
) -> bool {
    let waiting = run.answers.parts(stream).words[3].min(KEPT as u64) as usize;
    let bytes = waiting + cut.map_or(0, <[u8]>::len);
    let ample = (2 * (bytes / 29) + 2) * SIZE;
    if !d.once_in(4) {
        return run.call(stream, cut, ample).is_some();
    }
    let mut records = vec![0; ample];
    let mut trial = stream.clone();
    let needed = match cut {
        Some(cut) => run.answers.feed(&mut trial, cut, &mut records),
        None => run.answers.close(&mut trial, &mut records),
    };
    let needed = needed.map_or(0, |fed| fed.records * SIZE);
    let room = made::about(d, needed);
    run.call(stream, cut, room).is_some()
}

/// A stream that was made or changed by other hands.
fn stream_state<A: Answers>(run: &mut Run<A>, d: &mut Dice) {
    let n = d.len(600);
    let capture = made::capture(d, n, 200);
    let (first, rest) = capture.split_at(d.len(capture.len() + 1));
    let mut stream = run.answers.stream_open();
    run.call(&mut stream, Some(first), 18_432);
    if d.once_in(8) {
        run.call(&mut stream, None, 1 << 16);
    }
    let mut parts = run.answers.parts(&stream);
    made::spoil_stream(d, &mut parts.words, &mut parts.ledger, &mut parts.kept);
    let mut stream = run.answers.stream_of(parts);
    let cut = &rest[..d.len(rest.len() + 1)];
    for cut in [Some(cut), Some(&[][..]), None] {
        called(run, d, &mut stream, cut);
    }
}
