//! `month`: a page over scrubbed captures.

mod common;

use common::*;

fn resend(channel: u16, status: u8) -> Vec<u8> {
    let body = [
        &channel.to_be_bytes()[..],
        &[1],
        &3u64.to_be_bytes(),
        &5u64.to_be_bytes(),
        &[status],
        &[b' '; 32],
    ];
    frame(b"P002", 1, &body.concat())
}

fn announced(channel: u16, last: u64) -> Vec<u8> {
    let body = [&[13][..], &channel.to_be_bytes(), &last.to_be_bytes(), b"N"];
    frame(b"P001", 1, &body.concat())
}

/// Ticks 1 to 3 of channel 100 with a repeat, one of 101 that is too far, and resends.
fn first() -> Vec<u8> {
    let mut capture = Vec::new();
    for n in [1, 2, 3, 2] {
        capture.extend(tick_on(100, n, b""));
    }
    capture.extend(tick_on(101, 258, b""));
    capture.extend(
        [
            resend(100, 0),
            resend(100, 4),
            resend(101, 4),
            resend(101, 1),
        ]
        .concat(),
    );
    capture
}

#[test]
fn each_capture_and_the_sums() {
    let second = [tick_on(100, 2, b""), announced(101, 2)].concat();
    let folder = Folder::new().with("one", &first()).with("two", &second);
    let both = "\
one
100 received 3 repeated 1 far 0 missing 0 asked 1 unavailable 1
101 received 0 repeated 0 far 1 missing 258 asked 0 unavailable 1
two
100 received 1 repeated 0 far 0 missing 1 asked 0 unavailable 0
101 received 0 repeated 0 far 0 missing 2 asked 0 unavailable 0
";
    let sums = "\
sums of 2 captures
100 received 4 repeated 1 far 0 missing 1 asked 1 unavailable 1
101 received 0 repeated 0 far 1 missing 260 asked 0 unavailable 1
";
    let words = ["month", "--channels", "100,101", "one", "two"];
    run(&folder, &words).quiet(1, &format!("{both}{sums}"));
    let words = ["month", "--sums", "two", "one", "--channels", "100,101"];
    run(&folder, &words).quiet(1, sums);
}

#[test]
fn a_whole_capture_is_well() {
    let capture = [tick_on(7, 1, b""), tick_on(7, 2, b"")].concat();
    let folder = Folder::new();
    let page = "\
standard input
7 received 2 repeated 0 far 0 missing 0 asked 0 unavailable 0
sums of 1 captures
7 received 2 repeated 0 far 0 missing 0 asked 0 unavailable 0
";
    run_on(&folder, &["month", "--channels", "7", "-"], &capture).quiet(0, page);
}

/// A capture that is not clean is named and left out, whatever it has.
#[test]
fn an_unscrubbed_capture_is_left_out() {
    let private = [tick_on(100, 1, b""), logon("SENDER", "TARGET")].concat();
    let stray = [tick_on(100, 1, b""), b"stray".to_vec()].concat();
    let folder = Folder::new()
        .with("good", &tick_on(100, 1, b""))
        .with("private", &private)
        .with("stray", &stray);
    let ran = run(
        &folder,
        &[
            "month",
            "--channels",
            "100",
            "--sums",
            "private",
            "good",
            "stray",
        ],
    );
    let page = "\
sums of 1 captures
100 received 1 repeated 0 far 0 missing 0 asked 0 unavailable 0
";
    let said = "\
rietknoest: private: not clean, and left out: 'rietknoest scrub' makes it clean
rietknoest: stray: not clean, and left out: 'rietknoest scrub' makes it clean
";
    assert_eq!((ran.status, ran.out(), ran.error()), (Some(1), page, said));
}

/// Scrubbed, the sample has a page, and the listing's missing count.
#[test]
fn the_sample_scrubbed() {
    let folder = Folder::new().with("sample", &sample());
    run(&folder, &["scrub", "sample", "-o", "scrubbed"]);
    let page = run(
        &folder,
        &["month", "--sums", "--channels", "100", "scrubbed"],
    );
    let listing = run(&folder, &["list", "--summary", "scrubbed"]);
    let word = |text: &str, name: &str| {
        let mut words = text.split_whitespace().skip_while(|word| *word != name);
        words.nth(1).map(String::from)
    };
    assert_eq!(word(page.out(), "missing"), word(listing.out(), "missing"));
}

/// The 501st capture: it is named, and the page so far is printed.
#[test]
fn five_hundred_captures() {
    let folder = Folder::new()
        .with("a", &tick_on(5, 1, b""))
        .with("last", b"");
    let page = |n: u64, status: i32, more: &[&str], said: &str| {
        let mut words = vec!["month", "--sums", "--channels", "5"];
        words.extend(["a"; 499]);
        words.extend(more);
        let ran = run(&folder, &words);
        let out = format!(
            "sums of {n} captures\n5 received 499 repeated 0 far 0 missing 0 asked 0 unavailable 0\n"
        );
        assert_eq!(
            (ran.status, ran.out(), ran.error()),
            (Some(status), &*out, said)
        );
    };
    page(500, 0, &["last"], "");
    let said = "rietknoest: last: refused, 27: the page has 500 captures already\n";
    page(500, 1, &["last", "last", "a"], said);
}

/// Nineteen announcements of eighteen nines pass 64 bits.
#[test]
fn a_sum_that_does_not_fit() {
    let most = 999_999_999_999_999_999;
    let folder = Folder::new().with("a", &announced(5, most));
    let mut words = vec!["month", "--sums", "--channels", "5"];
    words.extend(["a"; 19]);
    let ran = run(&folder, &words);
    let out = format!(
        "sums of 18 captures\n5 received 0 repeated 0 far 0 missing {} asked 0 unavailable 0\n",
        18 * most
    );
    let said = "rietknoest: a: refused, 28: a sum would not fit 64 bits\n";
    assert_eq!((ran.status, ran.out(), ran.error()), (Some(1), &*out, said));
}

#[test]
fn wrong_usage() {
    let folder = Folder::new().with("good", b"");
    let usage = "rietknoest: 'rietknoest help month' shows how to call it\n";
    let long = (0..33).map(|n| n.to_string()).collect::<Vec<_>>().join(",");
    for (words, what) in [
        (&["good"][..], "month: --channels is missing"),
        (&["--channels"], "month: --channels names no channel"),
        (&["--channels", "1"], "month: it takes a file, or several"),
        (
            &["--channels", "1", "--channels", "2", "good"],
            "month: --channels is given twice",
        ),
        (&["--channels", "", "good"], "month: : not a list of channels"),
        (&["--channels", "1,", "good"], "month: 1,: not a list of channels"),
        (&["--channels", "+1", "good"], "month: +1: not a list of channels"),
        (
            &["--channels", "65536", "good"],
            "month: 65536: not a list of channels",
        ),
        (
            &["--channels", "1,10000", "good"],
            "month: --channels: refused, 10: a tick number is 0 or above 18 digits, or a channel above 9,999",
        ),
        (
            &["--channels", "1,1", "good"],
            "month: --channels: refused, 22: the channel is open already",
        ),
        (
            &["--channels", &long, "good"],
            "month: --channels: refused, 21: all 32 places of the table are taken",
        ),
    ] {
        let ran = run(&folder, &[&["month"], words].concat());
        let said = format!("rietknoest: {what}\n{usage}");
        assert_eq!((ran.status, ran.out(), ran.error()), (Some(2), "", &*said));
    }
}

/// One that can't be read does not keep the others from the page.
#[test]
fn a_file_that_is_not_there() {
    let folder = Folder::new().with("a", &tick_on(5, 1, b""));
    let ran = run(
        &folder,
        &["month", "--sums", "--channels", "5", "none", "a"],
    );
    let out = "sums of 1 captures\n5 received 1 repeated 0 far 0 missing 0 asked 0 unavailable 0\n";
    let said = "rietknoest: none: No such file or directory\n";
    assert_eq!((ran.status, ran.out(), ran.error()), (Some(2), out, said));
}

/// The second program's figures of captures, told from their originals, are those of the page over
/// what `scrub` makes of them.
#[test]
fn it_agrees_with_the_second_program() {
    use oracle::month::{Figures, Month};
    let named = [100, 7, 9].map(oracle::numbers::Channel);
    let lines = |figures: &[Figures]| {
        let rows = named.iter().zip(figures).map(|(channel, f)| {
            let [received, repeated, far, missing, asked, unavailable] = f.numbers();
            format!(
                "{} received {received} repeated {repeated} far {far} missing {missing} \
                 asked {asked} unavailable {unavailable}\n",
                channel.0
            )
        });
        rows.collect::<String>()
    };
    for case in 0..30 {
        let mut d = oracle::made::Dice::new(11, case);
        let mut page = Month::started(&named).0;
        let mut folder = Folder::new();
        let mut text = String::new();
        for name in ["one", "two", "three"] {
            let about = d.of(&[0, 300, 5_000]);
            let capture = oracle::made::busy_capture(&mut d, &[100, 7, 8], about);
            let figures = page.add(&capture).expect("few captures and small sums");
            text += &format!("{name}\n{}", lines(&figures));
            folder = folder.with("in", &capture);
            assert_ne!(
                run(&folder, &["scrub", "in", "-o", name]).status,
                Some(2),
                "case {case}"
            );
        }
        text += &format!("sums of 3 captures\n{}", lines(&page.sums));
        let missing = page.sums.iter().any(|f| f.missing > 0);
        let words = ["month", "--channels", "100,7,9", "one", "two", "three"];
        run(&folder, &words).quiet(i32::from(missing), &text);
    }
}
