//! The month in whole numbers: the library against oracle/, the second program; pages made by hand
//! that break their rules; and a C program that calls both functions of the header.

use oracle::answers::Answer;
use oracle::cases::text::{compare, difference};
use oracle::made::{busy_capture, Dice};
use oracle::month::cases::{by_hand, generated, Answers, Oracle, NUMBERS};
use oracle::numbers::Channel;
use rietknoest_host::{clean, first_unclean, walk, ChannelNumber, Figures, Month, Refusal, RECORD};
use std::fmt::Write as _;
use std::io::Write as _;
use std::path::Path;
use std::process::{Command, Stdio};

// THE SAME ANSWERS AS THE SECOND PROGRAM'S

struct Library;

fn told(f: Figures) -> oracle::month::Figures {
    oracle::month::Figures {
        received: f.received,
        repeated: f.repeated,
        far: f.far,
        missing: f.missing,
        asked: f.asked,
        unavailable: f.unavailable,
    }
}

fn named(channels: &[Channel]) -> Vec<ChannelNumber> {
    channels.iter().map(|c| ChannelNumber::new(c.0)).collect()
}

impl Answers for Library {
    type Page = Month;

    fn start(&self, channels: &[Channel]) -> (Month, Answer<()>) {
        match Month::start(&named(channels)) {
            Ok(page) => (page, Ok(())),
            Err(why) => (page_of(&[]), Err(why.number())),
        }
    }

    fn add(&self, page: &mut Month, capture: &[u8]) -> Answer<Vec<oracle::month::Figures>> {
        let figures = page.add(capture).map_err(Refusal::number)?;
        Ok(figures.into_iter().map(told).collect())
    }

    fn page(&self, page: &Month) -> oracle::month::Month {
        oracle::month::Month {
            channels: page.channels().map(|c| Channel(c.value())).collect(),
            captures: page.captures(),
            sums: page.sums().iter().copied().map(told).collect(),
        }
    }
}

fn page_of(channels: &[u16]) -> Month {
    let channels: Vec<ChannelNumber> = channels.iter().map(|c| ChannelNumber::new(*c)).collect();
    Month::start(&channels).expect("channels of four digits, each once")
}

#[test]
fn pages_made_by_hand() {
    if let Some(difference) = difference(&by_hand(&Library), &by_hand(&Oracle)) {
        panic!("the programs differ\n{difference}");
    }
}

#[test]
fn generated_pages() {
    let ours = |seed, n| generated(&Library, seed, n);
    let theirs = |seed, n| generated(&Oracle, seed, n);
    compare(&NUMBERS, 10, ours, theirs);
}

// THE PAGE BESIDE THE LISTING

#[test]
fn channel_100_is_that_of_the_walk_and_scrubbing_changes_nothing() {
    let mut d = Dice::new(11, 0);
    for _ in 0..200 {
        let capture = busy_capture(&mut d, &[100, 101, 7], 40);
        let mut scrubbed = vec![0; capture.len()];
        let cleaned = clean(&capture, &mut scrubbed).expect("room");
        scrubbed.truncate(cleaned.bytes as usize);
        assert_eq!(first_unclean(&scrubbed), None);
        let mut page = page_of(&[100]);
        let raw = page.add(&capture).expect("it is taken");
        assert_eq!(page.add(&scrubbed).expect("it is taken"), raw);
        let mut records = vec![0; rietknoest_host::records_room(capture.len())];
        let walked = walk(&capture, &mut records).expect("room");
        let status = walked.ledger.status().expect("a sound ledger");
        assert_eq!(raw[0].missing, status.missing);
        let count = walked.records * RECORD;
        let brought = records[..count]
            .chunks_exact(RECORD)
            .filter(|r| r[8..12] == *b"M201" && r[12..16] == [0; 4]);
        assert_eq!(raw[0].received, brought.count() as u64);
    }
}

// PAGES THAT BREAK THEIR RULES

#[test]
fn thirteen_for_a_page_of_other_hands() {
    let mut two = page_of(&[7, 8]);
    two.add(b"").expect("it is taken");
    type Changes<'a> = &'a [(usize, u64)];
    let cases: [(Changes, Result<(), Refusal>); 14] = [
        (&[], Ok(())),
        (&[(33, 500)], Err(Refusal::Captures)),
        (&[(33, 501)], Err(Refusal::State)),
        (&[(32, 33)], Err(Refusal::State)),
        (&[(32, u64::MAX)], Err(Refusal::State)),
        (&[(0, 8)], Err(Refusal::State)),
        (&[(0, 10_000)], Err(Refusal::State)),
        (&[(0, 65_536 + 9)], Err(Refusal::State)),
        (&[(2, 9)], Err(Refusal::State)),
        (&[(31, 65_536)], Err(Refusal::State)),
        (&[(32, 1)], Err(Refusal::State)),
        (&[(34 + 11, u64::MAX)], Ok(())),
        (&[(34 + 12, 1)], Err(Refusal::State)),
        (&[(225, 1)], Err(Refusal::State)),
    ];
    for (changes, answer) in cases {
        let mut words = two.to_words();
        for (at, word) in changes {
            words[*at] = *word;
        }
        let mut page = Month::from_words(words);
        assert_eq!(page.to_words(), words);
        assert_eq!(page.add(b"").map(|_| ()), answer, "{changes:?}");
        if answer.is_err() {
            assert_eq!(page.to_words(), words, "{changes:?}");
        }
    }
}

/// A channel that needs more than two bytes is not told as the one of its low bytes.
#[test]
fn channels_of_words_that_no_call_writes() {
    let mut words = page_of(&[7]).to_words();
    words[0] = 65_536 + 7;
    let page = Month::from_words(words);
    let told: Vec<_> = page.channels().map(ChannelNumber::value).collect();
    assert_eq!(told, [65_535]);
}

// A C PROGRAM

/// The page as the C program prints it.
fn printed(page: &Month) -> String {
    let words = page.to_words();
    let mut line = format!(" : {} {}", words[32], words[33]);
    for (i, channel) in page.channels().enumerate() {
        write!(line, " {}", channel.value()).expect("memory");
        for word in &words[34 + 6 * i..40 + 6 * i] {
            write!(line, " {word}").expect("memory");
        }
    }
    line
}

#[test]
fn c_gets_the_same() {
    let root = Path::new(concat!(env!("CARGO_MANIFEST_DIR"), "/.."));
    let program = Path::new(env!("CARGO_TARGET_TMPDIR")).join("month");
    let compiled = Command::new("cc")
        .args(["-std=c11", "-Wall", "-Wextra", "-Werror", "-pedantic"])
        .arg("-I")
        .arg(root.join("host/include"))
        .arg(root.join("host/tests/month.c"))
        .arg(root.join("build/librietknoest.a"))
        .arg("-o")
        .arg(&program)
        .status()
        .expect("a C compiler");
    assert!(compiled.success());
    let mut d = Dice::new(28, 0);
    let (mut asked, mut expected) = (String::new(), String::new());
    let mut page = page_of(&[]);
    for turn in 0..300 {
        if turn == 0 || d.once_in(9) {
            let count = d.below(36);
            let mut channels: Vec<u16> = (0..count as u16).map(|i| 95 + i).collect();
            if d.once_in(4) {
                channels.push(d.of(&[10_000, 100, 65_535]));
            }
            let said = channels.iter().map(u16::to_string).collect::<Vec<_>>();
            writeln!(asked, "start {} {}", channels.len(), said.join(" ")).expect("memory");
            let named: Vec<ChannelNumber> =
                channels.iter().map(|c| ChannelNumber::new(*c)).collect();
            let answer = Month::start(&named);
            let number = answer.as_ref().map_or_else(|why| why.number(), |_| 0);
            page = answer.unwrap_or(page);
            writeln!(expected, "{number} :{}", printed(&page)).expect("memory");
            continue;
        }
        let capture = busy_capture(&mut d, &[100, 101, 7], 40);
        let said = capture.iter().map(u8::to_string).collect::<Vec<_>>();
        writeln!(asked, "add {} {}", capture.len(), said.join(" ")).expect("memory");
        let answer = page.add(&capture);
        let number = answer.as_ref().map_or_else(|why| why.number(), |_| 0);
        let mut line = format!("{number} :");
        for f in answer.unwrap_or_default() {
            for n in told(f).numbers() {
                write!(line, " {n}").expect("memory");
            }
        }
        writeln!(expected, "{line}{}", printed(&page)).expect("memory");
    }
    // the page as C finds it before its first start is not looked at
    let mut child = Command::new(&program)
        .stdin(Stdio::piped())
        .stdout(Stdio::piped())
        .spawn()
        .expect("the program");
    let mut stdin = child.stdin.take().expect("a pipe");
    let feeding = std::thread::spawn(move || stdin.write_all(asked.as_bytes()));
    let output = child.wait_with_output().expect("its output");
    feeding.join().expect("fed").expect("it reads all");
    assert!(output.status.success(), "{}", output.status);
    let said = String::from_utf8(output.stdout).expect("text");
    for (ours, theirs) in said.lines().zip(expected.lines()) {
        assert_eq!(ours, theirs);
    }
    assert_eq!(said.lines().count(), expected.lines().count());
}
