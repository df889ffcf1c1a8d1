//! The cases: calls made by hand and generated ones, put to whatever answers
//! them, and what it answered as a text. Two programs that answer alike give the
//! same text, line by line.
//!
//! A line `# NAME` begins a case. A line with a call has its name, the number
//! answered, and what the call was given and told; a line that begins with two
//! spaces has more of it: the bytes of a lent buffer that were to be written, in
//! hex, with how many of the others changed (0 throughout); or a state.

mod captures;
mod frames;
mod generated;
mod ledgers;
mod readers;
mod streams;
pub mod text;

use crate::answers::{Answers, Parts, Walked};
use crate::entries::Entry;
use crate::frame::Message;
use crate::ledger::{Range, Words};
use crate::numbers::{Channel, Tick};
use crate::record::SIZE;
use text::{hex, joined, lent, Text};

/// Every number that each call can give: cases that give fewer try too little.
pub const NUMBERS: [text::Numbers; 22] = [
    ("read", &[0, 1, 2, 3, 4, 5, 6, 7]),
    ("write", &[0, 2, 3, 4, 6, 7, 8]),
    ("search", &[0, 9]),
    ("scrub", &[0, 1, 2, 3, 4, 5, 6, 7]),
    ("private", &[0, 2, 3, 4]),
    ("broken", &[0, 2, 3, 4]),
    ("entries", &[0, 3, 4, 6]),
    ("entry", &[0, 20]),
    ("open", &[0, 10]),
    ("tick", &[0, 10, 11, 12, 13, 18]),
    ("announce", &[0, 10, 13, 18]),
    ("request", &[0, 13, 14, 15, 18]),
    ("reply", &[0, 13, 16, 17, 18]),
    ("renew", &[0, 13]),
    ("told", &[0, 13]),
    ("missing", &[0, 10, 13, 18]),
    ("walk", &[0, 8]),
    ("listing", &[0, 8, 13]),
    ("clean", &[0, 8]),
    ("damaged", &[0]),
    ("feed", &[0, 8, 13, 19, 29]),
    ("close", &[0, 8, 13, 19]),
];

/// The text of the cases made by hand.
pub fn by_hand(answers: &impl Answers) -> String {
    let mut run = Run::new(answers);
    frames::frames(&mut run);
    readers::readers(&mut run);
    ledgers::ledgers(&mut run);
    captures::captures(&mut run);
    streams::streams(&mut run);
    run.text.out
}

/// The text of generated case n of a seed.
pub fn generated(answers: &impl Answers, seed: u64, n: u64) -> String {
    let mut run = Run::new(answers);
    generated::case(&mut run, seed, n);
    run.text.out
}

fn range(range: Option<Range>) -> String {
    range.map_or("none".to_string(), |r| {
        format!("{} {}", r.first.0, r.last.0)
    })
}

fn entry((entry, behind): &(Entry, u64)) -> String {
    match entry {
        Entry::Index { kind, price } => format!("index {} {price} {behind}", hex(kind)),
        Entry::Full {
            kind,
            price,
            size,
            position,
        } => format!("full {} {price} {size} {position} {behind}", hex(kind)),
    }
}

/// The cases so far: each method makes a call and writes down its answer.
struct Run<'a, A: Answers> {
    answers: &'a A,
    text: Text,
}

impl<'a, A: Answers> Run<'a, A> {
    fn new(answers: &'a A) -> Self {
        let text = Text::default();
        Run { answers, text }
    }

    fn case(&mut self, name: &str) {
        self.text.case(name);
    }

    fn more(&mut self, words: &str) {
        self.text.more(words);
    }

    // FRAMES

    fn read(&mut self, bytes: &[u8], place: usize) {
        let answer = self.answers.read(bytes, place);
        self.text.line("read", &answer, |m| {
            let name = String::from_utf8_lossy(&m.msg_type);
            let header = [m.sending_time, m.seq, m.body_length];
            let numbers = [m.channel, m.tick, m.first, m.last, m.status];
            format!("{name} {} {}", joined(&header), joined(&numbers))
        });
    }

    fn write(&mut self, message: &Message, room: usize) {
        let before = lent(room);
        let mut out = before.clone();
        let answer = self.answers.write(message, &mut out);
        self.text.line("write", &answer, usize::to_string);
        self.text.buffer(&before, &out, answer.unwrap_or(0));
    }

    fn search(&mut self, bytes: &[u8], from: usize) -> Option<usize> {
        let answer = self.answers.search(bytes, from);
        self.text.line("search", &answer, |found| {
            found.map_or("none".to_string(), |place| place.to_string())
        });
        answer.ok().flatten()
    }

    /// Scrubs a copy of the bytes, and what came out once more. What is painted
    /// are the private spans, and they alone.
    fn scrub(&mut self, bytes: &[u8]) {
        let mut buffer = bytes.to_vec();
        let answer = self.answers.scrub(&mut buffer);
        self.text.line("scrub", &answer, usize::to_string);
        let n = *answer.as_ref().unwrap_or(&0);
        self.text.buffer(bytes, &buffer, n);
        if answer.is_err() {
            return;
        }
        let name = bytes[..4].try_into().expect("four bytes");
        let spans = self.answers.private(name, &bytes[24..n - 4]);
        let mut painted = bytes.to_vec();
        for s in spans.expect("a frame that reads has spans") {
            let at = 24 + s.place as usize;
            painted[at..at + s.len as usize].fill(s.fill);
        }
        painted[n - 1] = crate::bytes::sum(&painted[..n - 4]);
        assert!(painted == buffer, "the painted spans differ");
        let once = buffer.clone();
        let again = self.answers.scrub(&mut buffer);
        self.text.line("scrub", &again, usize::to_string);
        self.text.buffer(&once, &buffer, 0);
    }

    fn private(&mut self, name: [u8; 4], body: &[u8]) {
        let answer = self.answers.private(name, body);
        self.text.line("private", &answer, |spans| {
            let shown = spans
                .iter()
                .map(|s| format!("{} {} {:02x}", s.place, s.len, s.fill));
            shown.collect::<Vec<_>>().join(", ")
        });
    }

    fn broken(&mut self, name: [u8; 4], body: &[u8]) {
        let answer = self.answers.broken(name, body);
        self.text.line("broken", &answer, |broken| {
            broken.map_or("none".to_string(), |b| {
                format!("{} {} {} {}", b.place, b.len, b.index, b.entry)
            })
        });
    }

    fn entries(&mut self, body: &[u8]) {
        let answer = self.answers.entries(body);
        self.text
            .line("entries", &answer, |steps| steps.len().to_string());
        for step in answer.unwrap_or_default() {
            self.more(&entry(&step));
        }
    }

    fn entry(&mut self, body: &[u8], place: u64) {
        let answer = self.answers.entry(body, place);
        self.text.line("entry", &answer, entry);
    }

    // LEDGERS

    fn open(&mut self, channel: u16) -> Option<Words> {
        let answer = self.answers.open(Channel(channel));
        self.text.line("open", &answer, |words| joined(words));
        answer.ok()
    }

    fn tick(&mut self, ledger: &mut Words, channel: u16, n: u64) -> u32 {
        let answer = self.answers.tick(ledger, Channel(channel), Tick(n));
        self.text.line("tick", &answer, |passed| range(*passed));
        self.more(&format!("{channel} {n}: {}", joined(ledger)));
        answer.err().unwrap_or(0)
    }

    fn announce(&mut self, ledger: &mut Words, channel: u16, n: u64) -> u32 {
        let answer = self.answers.announce(ledger, Channel(channel), Tick(n));
        self.text.line("announce", &answer, |()| String::new());
        self.more(&format!("{channel} {n}: {}", joined(ledger)));
        answer.err().unwrap_or(0)
    }

    fn request(&mut self, ledger: &mut Words, channel: u16) -> u32 {
        let answer = self.answers.request(ledger, Channel(channel));
        self.text
            .line("request", &answer, |asked| range(Some(*asked)));
        self.more(&format!("{channel}: {}", joined(ledger)));
        answer.err().unwrap_or(0)
    }

    fn reply(&mut self, ledger: &mut Words, channel: u16, first: u64, status: u8) -> u32 {
        let (on, asked) = (Channel(channel), Tick(first));
        let answer = self.answers.reply(ledger, on, asked, status);
        self.text.line("reply", &answer, |settled| {
            let numbers = |of: &[Tick]| joined(&of.iter().map(|t| t.0).collect::<Vec<_>>());
            let (up, passed) = (&settled.given_up, &settled.passed);
            format!("given up {}; passed {}", numbers(up), numbers(passed))
        });
        self.more(&format!("{channel} {first} {status}: {}", joined(ledger)));
        answer.err().unwrap_or(0)
    }

    fn renew(&mut self, ledger: &mut Words) -> u32 {
        let answer = self.answers.renew(ledger);
        self.text.line("renew", &answer, |()| String::new());
        self.more(&joined(ledger));
        answer.err().unwrap_or(0)
    }

    fn told(&mut self, ledger: &Words) {
        let answer = self.answers.told(ledger);
        self.text.line("told", &answer, |t| {
            let counts = [t.missing, t.held, t.first, t.last];
            joined(&[&[t.channel, t.floor, t.top][..], &counts].concat())
        });
    }

    fn missing(&mut self, ledger: &Words, channel: u16, a: u64, b: u64) {
        let on = Channel(channel);
        let answer = self.answers.missing(ledger, on, Tick(a), Tick(b));
        self.text.line("missing", &answer, u64::to_string);
        self.text.more(&format!("{channel} {a} {b}"));
    }

    // CAPTURES

    fn walk(&mut self, capture: &[u8], room: usize) {
        let before = lent(room);
        let mut records = before.clone();
        let answer = self.answers.walk(capture, &mut records);
        self.text.line("walk", &answer, |w| {
            let counts = [w.records as u64, w.frames, w.refused];
            format!("{}: {}", joined(&counts), joined(&w.ledger))
        });
        let n = answer.map_or(0, |w| w.records * SIZE);
        self.text.buffer(&before, &records, n);
    }

    /// The listing of records, into a buffer that lacks so many bytes or has so
    /// many more than it needs.
    fn listing(&mut self, records: &[u8], walked: &Walked, spare: isize) {
        let most = records.len() / SIZE * 127 + 138;
        let mut text = lent(most);
        let needed = self.answers.listing(records, walked, &mut text);
        let room = needed.unwrap_or(0).saturating_add_signed(spare);
        let before = lent(room);
        let mut text = before.clone();
        let answer = self.answers.listing(records, walked, &mut text);
        self.text.line("listing", &answer, usize::to_string);
        let n = answer.unwrap_or(0);
        self.text.buffer(&before[n..], &text[n..], 0);
        for line in String::from_utf8_lossy(&text[..n]).lines() {
            self.more(line);
        }
    }

    /// The clean capture; `room` bytes are lent for it.
    fn clean(&mut self, capture: &[u8], room: usize) -> Vec<u8> {
        let before = lent(room);
        let mut out = before.clone();
        let answer = self.answers.clean(capture, &mut out);
        self.text.line("clean", &answer, |c| {
            joined(&[c.bytes as u64, c.frames, c.after_damage])
        });
        if answer.is_ok_and(|c| c.after_damage > 0) {
            self.text.line("damaged", &Ok(()), |()| String::new());
        }
        let n = answer.map_or(0, |c| c.bytes);
        self.text.buffer(&before, &out, n);
        let unclean = self.answers.first_unclean(capture);
        self.more(&unclean.map_or("clean".to_string(), |place| place.to_string()));
        out[..n].to_vec()
    }

    // STREAMS

    /// A feed, or a close where there is no cut. Answers the records given,
    /// where it was taken.
    fn call(&mut self, stream: &mut A::Stream, cut: Option<&[u8]>, room: usize) -> Option<usize> {
        let before = lent(room);
        let mut records = before.clone();
        let (call, answer) = match cut {
            Some(cut) => ("feed", self.answers.feed(stream, cut, &mut records)),
            None => ("close", self.answers.close(stream, &mut records)),
        };
        self.text.line(call, &answer, |fed| {
            joined(&[
                fed.records as u64,
                fed.frames,
                fed.refused,
                fed.place,
                fed.waiting,
            ])
        });
        let n = answer.map_or(0, |fed| fed.records * SIZE);
        self.text.buffer(&before, &records, n);
        let Parts {
            words,
            ledger,
            kept,
        } = self.answers.parts(stream);
        let used = kept
            .iter()
            .rposition(|b| *b != 0)
            .map_or(0, |last| last + 1);
        let kept = hex(&kept[..used]);
        self.more(&format!("{}: {}: {kept}", joined(&words), joined(&ledger)));
        answer.ok().map(|fed| fed.records)
    }
}

#[cfg(test)]
mod tests {
    use super::text::{count, untried, Given};
    use super::*;
    use crate::answers::Oracle;

    #[test]
    fn every_number_of_every_call_is_given() {
        let mut given = Given::new();
        count(&by_hand(&Oracle), &mut given);
        for n in 0..3_000 {
            count(&generated(&Oracle, 2, n), &mut given);
        }
        assert_eq!(untried(&given, &NUMBERS), [""; 0]);
    }

    #[test]
    fn examples_by_program_only_stand_by_name() {
        let text = by_hand(&Oracle);
        for (name, answer) in [
            ("an M102 with 425 long entries reads", "read 0 M102 "),
            ("an M102 with 426 long entries gives 3", "read 3"),
            ("resend 5 to 4 gives 6", "read 6"),
            ("resend 5 to 0 reads", "read 0 P002 "),
        ] {
            let mut lines = text.lines().skip_while(|l| *l != format!("# {name}"));
            assert!(lines.next().is_some(), "{name}");
            let line = lines.next().expect("a call follows");
            assert!(line.starts_with(answer), "{name}: {line}");
        }
    }
}
