//! CR 13 through the library: two captures that agree in all but private fields and checksum are
//! listed, recorded, asked about and scrubbed alike. oracle/, the second program, makes the pairs
//! and judges that they meet the premise. Every function that is lent a capture, a frame or a body
//! is called here, and the ledger's and the table's calls that a capture is fed to. The rest has
//! no place here: `write` is lent a message, private body and all, and STEP and market functions
//! are lent other forms.

use oracle::alike::{captures_alike, pair, pair_of_captures};
use oracle::made::Dice;
use rietknoest_host::{
    broken_field, clean, entries, entry, listing, private_spans, read, scrub, search, tail_fields,
    walk, ChannelNumber, Channels, Cleaned, Figures, Ledger, Month, Refusal, Request, Scrubber,
    Session, Span, Stream, Walked, HEADER, RECORD,
};

/// All that a walk, its listing, a request on its ledger and a cleaning give, with buffers of
/// `room` bytes.
#[derive(PartialEq)]
struct Outcome {
    walked: Result<Walked, Refusal>,
    records: Vec<u8>,
    listed: Option<Result<usize, Refusal>>,
    text: Vec<u8>,
    request: Option<(Result<Request, Refusal>, Ledger)>,
    cleaned: Result<Cleaned, Refusal>,
    scrubbed: Vec<u8>,
    figures: Result<Vec<Figures>, Refusal>,
    page: Month,
}

fn outcome(capture: &[u8], room: usize) -> Outcome {
    let [mut records, mut text, mut scrubbed] = [room, 2 * room, room].map(|n| vec![0xA5; n]);
    let walked = walk(capture, &mut records);
    let listed = walked.ok().map(|w| {
        let whole = &records[..RECORD * w.records];
        listing(whole, &w, &mut text)
    });
    let request = walked.ok().map(|w| {
        let mut ledger = w.ledger;
        (ledger.request(ChannelNumber::new(100)), ledger)
    });
    let cleaned = clean(capture, &mut scrubbed);
    let mut page = Month::start(&[100, 7].map(ChannelNumber::new)).unwrap();
    let figures = page.add(capture);
    Outcome {
        walked,
        records,
        listed,
        text,
        request,
        cleaned,
        scrubbed,
        figures,
        page,
    }
}

#[test]
fn pairs_that_differ_in_private_bytes_alone_come_out_alike() {
    let mut differing = 0;
    for case in 0..300 {
        let mut d = Dice::new(13, case);
        let about = d.of(&[100, 1_000, 8_000, 65_536]);
        let (one, other) = pair_of_captures(&mut d, about, 600);
        assert!(
            captures_alike(&one, &other),
            "case {case} meets the premise"
        );
        differing += usize::from(one != other);
        for room in [one.len() * 3 + 64, one.len(), 63] {
            let (a, b) = (outcome(&one, room), outcome(&other, room));
            assert!(
                a == b,
                "case {case} with {room} bytes of room is told apart"
            );
        }
    }
    assert!(differing > 250, "most pairs differ: {differing}");
}

/// What the calls on one frame tell: the reading, the searches from its ends, its private places,
/// the fields of an extension, the entries of an M102, and how a session that awaits its logon
/// answer takes it. A search from within may find a frame in private bytes, and a body that is no
/// M102's may have private bytes where an M102's has its counts: no promise is made of these.
fn told(frame: &[u8]) -> String {
    let at = read(frame, 0).unwrap();
    let body = &frame[HEADER..HEADER + at.body_len as usize];
    let from = [0, frame.len(), frame.len() + 1];
    let found = from.map(|from| search(frame, from));
    assert_eq!(found[0], Ok(Some(0)));
    let within = (at.msg_type == u64::from(u32::from_be_bytes(*b"M102"))).then(|| {
        let all: Vec<_> = entries(body).unwrap().collect();
        let places = (0..=body.len()).map(|place| entry(body, place));
        (all, places.collect::<Vec<_>>())
    });
    let spans = private_spans(at.msg_type as u32, body);
    let fields = tail_fields(body);
    let mut session = Session::open();
    let begun = session.begin(0);
    let received = session.receive(1, frame);
    format!(
        "{at:?} {found:?} {within:?} {spans:?} {fields:?} {begun:?} {received:?} {:?}",
        session.to_words()
    )
}

#[test]
fn paired_frames_scrub_to_the_same_bytes() {
    for case in 0..200 {
        let mut d = Dice::new(14, case);
        let (ones, others) = pair(&mut d, 4_000, 600);
        for (one, other) in ones.into_iter().zip(others) {
            assert_eq!(told(&one), told(&other), "case {case}");
            let (mut a, mut b) = (one, other);
            assert_eq!(scrub(&mut a), scrub(&mut b), "case {case}");
            assert!(a == b, "case {case}: scrubbed frames differ");
        }
    }
}

/// A ledger and a table that are fed frame by frame answer alike, call by call, and end the same.
#[test]
fn ledgers_and_tables_are_fed_alike() {
    let mut calls = 0;
    for case in 0..300 {
        let mut d = Dice::new(17, case);
        let (ones, others) = pair(&mut d, 4_000, 600);
        let fed = [ones, others].map(|frames| {
            let mut ledger = Ledger::open(ChannelNumber::new(100)).unwrap();
            let mut table = Channels::none();
            let mut told = Vec::new();
            for frame in frames {
                let f = read(&frame, 0).unwrap();
                let opened = table.open(f.channel);
                match &f.type_name() {
                    b"M201" => told.push(format!(
                        "{opened:?} {:?} {:?}",
                        ledger.tick(f.channel, f.tick),
                        table.tick(f.channel, f.tick)
                    )),
                    b"P001" => told.push(format!(
                        "{opened:?} {:?} {:?}",
                        ledger.announce(f.channel, f.tick),
                        table.announce(f.channel, f.tick)
                    )),
                    _ => {}
                }
            }
            told.push(format!("{:?} {:?}", ledger.status(), table.request()));
            (told, ledger, table.to_words())
        });
        calls += fed[0].0.len() - 1;
        assert!(fed[0] == fed[1], "case {case}");
    }
    assert!(calls > 200, "{calls} calls were made");
}

/// Which field breaks a rule is told of both alike, where the same public byte was changed in both.
#[test]
fn the_same_field_is_told_of_paired_bodies() {
    let mut found = 0;
    for case in 0..300 {
        let mut d = Dice::new(16, case);
        let (ones, others) = pair(&mut d, 4_000, 600);
        for (one, other) in ones.into_iter().zip(others) {
            let at = read(&one, 0).unwrap();
            let (msg_type, len) = (at.msg_type as u32, at.body_len as usize);
            let [mut a, mut b] = [one, other].map(|frame| frame[HEADER..][..len].to_vec());
            let place = d.len(90);
            let spans = private_spans(msg_type, &a).unwrap();
            let is_in = |s: &Span| (s.place..s.place + s.len).contains(&(place as u64));
            if place < len && !spans.iter().any(is_in) {
                let byte = d.of(&[0, 9, b'X', 0xFF]);
                (a[place], b[place]) = (byte, byte);
            }
            let field = broken_field(msg_type, &a);
            assert_eq!(field, broken_field(msg_type, &b), "case {case}");
            found += usize::from(field.unwrap().is_some());
        }
    }
    assert!(found > 200, "a rule was broken {found} times");
}

/// Two captures and the ends of the cuts in which both arrive.
fn arriving(d: &mut Dice) -> (Vec<u8>, Vec<u8>, Vec<usize>) {
    let (one, other) = pair_of_captures(d, 6_000, 600);
    let mut ends = Vec::new();
    while ends.last().copied().unwrap_or(0) < one.len() {
        let at = ends.last().copied().unwrap_or(0);
        ends.push((at + 1 + d.len(700)).min(one.len()));
    }
    (one, other, ends)
}

/// While the captures arrive in the same cuts, each call gives the same: beyond what CR 13 asks.
#[test]
fn the_same_cuts_give_the_same_records_call_by_call() {
    for case in 0..60 {
        let (one, other, ends) = arriving(&mut Dice::new(15, case));
        let (mut a, mut b) = (Stream::open(), Stream::open());
        let mut at = 0;
        for to in ends {
            let (mut mine, mut theirs) = (vec![0; 65_536], vec![0; 65_536]);
            let fed = a.feed(&one[at..to], &mut mine);
            assert_eq!(fed, b.feed(&other[at..to], &mut theirs));
            assert!(mine == theirs, "case {case}: records of a cut differ");
            at = to;
        }
        let (mut mine, mut theirs) = (vec![0; 65_536], vec![0; 65_536]);
        let closed = a.close(&mut mine);
        assert_eq!(closed, b.close(&mut theirs));
        assert!(mine == theirs, "case {case}: records of the end differ");
    }
}

/// So does each call that scrubs: its counts, and every byte of the buffer, also where that is too
/// short and nothing is written.
#[test]
fn the_same_cuts_give_the_same_scrubbed_bytes_call_by_call() {
    let mut short = 0;
    for case in 0..60 {
        let d = &mut Dice::new(16, case);
        let (one, other, ends) = arriving(d);
        let (mut a, mut b) = (Scrubber::open(), Scrubber::open());
        let mut all = Vec::new();
        let mut at = 0;
        // the call behind the last cut closes
        for to in ends.into_iter().map(Some).chain([None]) {
            for room in [d.len(200), 65_536] {
                let (mut mine, mut theirs) = (vec![0xA5; room], vec![0xA5; room]);
                let (told, others) = match to {
                    Some(to) => (
                        a.clean(&one[at..to], &mut mine),
                        b.clean(&other[at..to], &mut theirs),
                    ),
                    None => (a.close(&mut mine), b.close(&mut theirs)),
                };
                assert_eq!(told, others, "case {case}");
                assert!(mine == theirs, "case {case}: scrubbed bytes differ");
                let Ok(told) = told else {
                    assert!(mine.iter().all(|byte| *byte == 0xA5));
                    short += 1;
                    continue;
                };
                all.extend_from_slice(&mine[..told.bytes as usize]);
                break;
            }
            at = to.unwrap_or(at);
        }
        let mut whole = vec![0; one.len()];
        let cleaned = clean(&one, &mut whole).unwrap();
        assert!(all == whole[..cleaned.bytes as usize], "case {case}");
    }
    assert!(short > 60, "some buffers are too short: {short}");
}
