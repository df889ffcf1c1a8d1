//! The library against oracle/, the second program: the cases of oracle/src/cases, made by hand and
//! generated, put to both, and the two texts compared line by line. All data are made up.
//!
//!     RK_INPUTS=1000000 RK_SEED=1 \
//!         cargo test --release -p rietknoest-host --test compare -- --nocapture
//!
//! A run that does not say takes 200,000 generated cases; the gate says a million.

use oracle::answers::{Answer, Answers, Fed, Oracle, Parts, Shown, Told, Walked};
use oracle::broken::Broken;
use oracle::cases::text::{compare, difference};
use oracle::cases::{self, NUMBERS};
use oracle::clean::Cleaned;
use oracle::entries::Entry;
use oracle::frame::Message;
use oracle::ledger::{Range, Settled, Words};
use oracle::numbers::{Channel, Tick};
use oracle::scrub::Span;
use rietknoest_host as host;
use rietknoest_host::{ChannelNumber, Ledger, Refusal, SessionNumber, Stream, TickNumber};

// THE LIBRARY AS WHAT ANSWERS

struct Library;

fn plain<T>(answer: Result<T, Refusal>) -> Answer<T> {
    answer.map_err(Refusal::number)
}

fn channel_of(channel: Channel) -> ChannelNumber {
    ChannelNumber::new(channel.0)
}

fn tick_of(tick: Tick) -> TickNumber {
    TickNumber::new(tick.0)
}

fn range(first: TickNumber, last: u64) -> Range {
    Range {
        first: Tick(first.value()),
        last: Tick(last),
    }
}

/// A call on the ledger of these words, which are then those that it left.
fn on<T>(words: &mut Words, call: impl FnOnce(&mut Ledger) -> Result<T, Refusal>) -> Answer<T> {
    let mut ledger = Ledger::from_words(*words);
    let answer = call(&mut ledger);
    *words = ledger.to_words();
    plain(answer)
}

fn name(msg_type: [u8; 4]) -> u32 {
    u32::from_be_bytes(msg_type)
}

/// An entry, and the place after it.
fn entry_of((entry, after): (host::Entry, usize)) -> (Entry, u64) {
    let entry = match entry {
        host::Entry::Index { kind, price } => Entry::Index { kind, price },
        host::Entry::Full {
            kind,
            price,
            size,
            position,
        } => Entry::Full {
            kind,
            price,
            size,
            position,
        },
    };
    (entry, after as u64)
}

fn fed(fed: host::Fed) -> Fed {
    Fed {
        records: fed.records as usize,
        frames: fed.frames,
        refused: fed.refused,
        place: fed.place,
        waiting: fed.waiting,
    }
}

impl Answers for Library {
    type Stream = Stream;

    fn read(&self, bytes: &[u8], place: usize) -> Answer<Shown> {
        plain(host::read(bytes, place)).map(|f| Shown {
            msg_type: f.type_name(),
            sending_time: f.sending_time,
            seq: f.seq.value(),
            body_length: f.body_len,
            channel: u64::from(f.channel.value()),
            tick: f.tick.value(),
            first: f.first.value(),
            last: f.last.value(),
            status: f.status,
        })
    }

    fn write(&self, m: &Message, out: &mut [u8]) -> Answer<usize> {
        let seq = SessionNumber::new(m.seq.0);
        plain(host::write(
            name(m.msg_type),
            m.sending_time,
            seq,
            &m.body,
            out,
        ))
    }

    fn search(&self, bytes: &[u8], from: usize) -> Answer<Option<usize>> {
        plain(host::search(bytes, from))
    }

    fn scrub(&self, buffer: &mut [u8]) -> Answer<usize> {
        plain(host::scrub(buffer))
    }

    fn private(&self, msg_type: [u8; 4], body: &[u8]) -> Answer<Vec<Span>> {
        let spans = plain(host::private_spans(name(msg_type), body))?;
        let span = |s: &host::Span| Span {
            place: s.place,
            len: s.len,
            fill: s.fill as u8,
        };
        Ok(spans.iter().map(span).collect())
    }

    fn broken(&self, msg_type: [u8; 4], body: &[u8]) -> Answer<Option<Broken>> {
        let broken = plain(host::broken_field(name(msg_type), body))?;
        Ok(broken.map(|b| Broken {
            place: b.place,
            len: b.len,
            index: b.index,
            entry: b.entry,
        }))
    }

    fn entries(&self, body: &[u8]) -> Answer<Vec<(Entry, u64)>> {
        let mut steps = plain(host::entries(body))?;
        let mut all = Vec::new();
        while let Some(entry) = steps.next() {
            all.push(entry_of((entry, steps.place())));
        }
        Ok(all)
    }

    fn entry(&self, body: &[u8], place: u64) -> Answer<(Entry, u64)> {
        plain(host::entry(body, place as usize)).map(entry_of)
    }

    fn open(&self, channel: Channel) -> Answer<Words> {
        plain(Ledger::open(channel_of(channel))).map(Ledger::to_words)
    }

    fn tick(&self, words: &mut Words, channel: Channel, tick: Tick) -> Answer<Option<Range>> {
        let passed = on(words, |l| l.tick(channel_of(channel), tick_of(tick)))?;
        let last = passed.first.value() + passed.count;
        if passed.count == 0 {
            // where there are none, the first is the one above the floor
            assert_eq!(passed.first.value(), words[1] + 1);
            return Ok(None);
        }
        Ok(Some(range(passed.first, last - 1)))
    }

    fn announce(&self, words: &mut Words, channel: Channel, last: Tick) -> Answer<()> {
        on(words, |l| l.announce(channel_of(channel), tick_of(last)))
    }

    fn request(&self, words: &mut Words, channel: Channel) -> Answer<Range> {
        let asked = on(words, |l| l.request(channel_of(channel)))?;
        Ok(range(asked.first, asked.last.value()))
    }

    fn reply(
        &self,
        words: &mut Words,
        channel: Channel,
        first: Tick,
        status: u8,
    ) -> Answer<Settled> {
        let (channel, first) = (channel_of(channel), tick_of(first));
        let told = on(words, |l| l.reply(channel, first, status))?;
        let mut settled = Settled::default();
        for n in told.given_up() {
            settled.given_up.push(Tick(n.value()));
        }
        for n in told.passed() {
            settled.passed.push(Tick(n.value()));
        }
        Ok(settled)
    }

    fn renew(&self, words: &mut Words) -> Answer<()> {
        on(words, Ledger::renew)
    }

    fn told(&self, words: &Words) -> Answer<Told> {
        let status = plain(Ledger::from_words(*words).status())?;
        let asked = status.pending.unwrap_or_default();
        Ok(Told {
            channel: u64::from(status.channel.value()),
            floor: status.floor.value(),
            top: status.top.value(),
            missing: status.missing,
            held: status.held,
            first: asked.first.value(),
            last: asked.last.value(),
        })
    }

    fn missing(&self, words: &Words, channel: Channel, a: Tick, b: Tick) -> Answer<u64> {
        let ledger = Ledger::from_words(*words);
        plain(ledger.missing_between(channel_of(channel), tick_of(a), tick_of(b)))
    }

    fn walk(&self, capture: &[u8], records: &mut [u8]) -> Answer<Walked> {
        let walked = plain(host::walk(capture, records))?;
        let most = host::records_room(capture.len());
        assert!(most >= walked.records * host::RECORD, "records_room");
        Ok(Walked {
            records: walked.records,
            frames: walked.frames,
            refused: walked.refused,
            ledger: walked.ledger.to_words(),
        })
    }

    fn listing(&self, records: &[u8], walked: &Walked, text: &mut [u8]) -> Answer<usize> {
        let walked = host::Walked {
            records: walked.records,
            frames: walked.frames,
            refused: walked.refused,
            ledger: Ledger::from_words(walked.ledger),
        };
        let bytes = plain(host::listing(records, &walked, text))?;
        assert!(
            host::text_room(records.len() / host::RECORD) >= bytes,
            "text_room"
        );
        without_the_last_line(records, &text[..bytes]);
        Ok(bytes)
    }

    fn clean(&self, capture: &[u8], out: &mut [u8]) -> Answer<Cleaned> {
        plain(host::clean(capture, out)).map(|c| Cleaned {
            bytes: c.bytes as usize,
            frames: c.frames,
            after_damage: c.after_damage,
        })
    }

    fn first_unclean(&self, capture: &[u8]) -> Option<usize> {
        host::first_unclean(capture)
    }

    fn stream_open(&self) -> Stream {
        Stream::open()
    }

    fn stream_of(&self, parts: Parts) -> Stream {
        Stream::from_parts(parts.words, Ledger::from_words(parts.ledger), parts.kept)
    }

    fn parts(&self, stream: &Stream) -> Parts {
        let (words, ledger, kept) = stream.clone().into_parts();
        Parts {
            words,
            ledger: ledger.to_words(),
            kept,
        }
    }

    fn feed(&self, stream: &mut Stream, cut: &[u8], records: &mut [u8]) -> Answer<Fed> {
        let waiting = self.parts(stream).words[3] as usize;
        let fed = fed(plain(stream.feed(cut, records))?);
        let most = host::records_room(waiting + cut.len());
        assert!(most >= fed.records * host::RECORD, "records_room");
        Ok(fed)
    }

    fn close(&self, stream: &mut Stream, records: &mut [u8]) -> Answer<Fed> {
        plain(stream.close(records)).map(fed)
    }
}

// THE TWO TEXTS

#[test]
fn cases_made_by_hand() {
    let (ours, theirs) = (cases::by_hand(&Library), cases::by_hand(&Oracle));
    if let Some(difference) = difference(&ours, &theirs) {
        panic!("the programs differ\n{difference}");
    }
}

#[test]
fn generated_cases() {
    let ours = |seed, n| cases::generated(&Library, seed, n);
    let theirs = |seed, n| cases::generated(&Oracle, seed, n);
    compare(&NUMBERS, 1, ours, theirs);
}

/// The lines of the records are the listing without its last line; a byte less is no room for them.
fn without_the_last_line(records: &[u8], listing: &[u8]) {
    let mut lines = listing.to_vec();
    let bytes = host::lines(records, &mut lines).expect("room");
    let last = listing.strip_prefix(&lines[..bytes]).expect("the front");
    let ends = last.iter().filter(|byte| **byte == b'\n').count();
    assert!(ends == 1 && last.ends_with(b"\n"), "one line is left");
    if bytes > 0 {
        let refused = host::lines(records, &mut lines[..bytes - 1]);
        assert_eq!(refused, Err(Refusal::Room));
    }
}
