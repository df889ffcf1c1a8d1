//! Each subcommand and each exit status.

mod common;

use std::fs;
use std::process::Stdio;

use common::*;

/// The subcommands.
const COMMANDS: [&str; 7] = [
    "list", "gaps", "scrub", "check", "explain", "month", "market",
];

/// What is told of the sample's first M102, an index: its entries have no size and no position.
const SNAPSHOT: &str = "\
sample: place 285: a frame reads here, 0 (done): every check passes
MsgType M102, a snapshot
SendingTime 20260121092503000
MsgSeqNum 4
BodyLength 103
SecurityType 1
TradSesMode 1
TradeDate 20260121
LastUpdateTime 92503000
MDStreamID MD001
SecurityID 000001
Symbol INDEX
PreClosePx 10025000
TotalVolumeTraded 182300
NumTrades 41
TotalValueTraded 1827557500
TradingPhaseCode T111
NoMDEntries 3
entry 1: type 3, price 313500120
entry 2: type 7, price 313980000
entry 3: type 8, price 312900000
the frame has 131 bytes and ends before place 416
the ledger of channel 100 then has floor 0, top 0
";

const EMPTY: &str = "frames 0 refused 0 floor 0 top 0 missing 0\n";

#[test]
fn help_and_version() {
    let folder = Folder::new();
    for words in [&["--help"][..], &["-h"], &["help"]] {
        let ran = run(&folder, words);
        assert!(ran.out().starts_with("usage: rietknoest list ["));
        assert_eq!((ran.status, ran.error()), (Some(0), ""));
    }
    for name in COMMANDS {
        let help = run(&folder, &[name, "--help"]);
        let start = format!("usage: rietknoest {name} ");
        assert!(help.out().starts_with(&start), "{name}");
        assert_eq!((help.status, help.error()), (Some(0), ""), "{name}");
        run(&folder, &["help", name]).quiet(0, help.out());
        run(&folder, &[name, "-h"]).quiet(0, help.out());
        // also behind other words
        run(&folder, &[name, "no", "-h"]).quiet(0, help.out());
    }
    for word in ["--version", "-V"] {
        run(&folder, &[word]).quiet(0, concat!("rietknoest ", env!("CARGO_PKG_VERSION"), "\n"));
    }
}

/// No line of a help text is wider than a terminal.
#[test]
fn the_help_fits_a_terminal() {
    let folder = Folder::new();
    for name in COMMANDS.iter().chain(&["help"]) {
        let help = run(
            &folder,
            &[name, "--help"][..if *name == "help" { 1 } else { 2 }],
        );
        assert!(help.out().lines().all(|line| line.len() <= 80), "{name}");
    }
}

#[test]
fn wrong_usage_is_2() {
    let folder = Folder::new().with("a", b"").with("b", b"");
    let wrong: [(&[&str], &str); 24] = [
        (&[], "no command is given"),
        (&["burn"], "burn: no such command"),
        (&["-x"], "-x: no such command"),
        (&["help", "burn"], "burn: no such command"),
        (&["list", "-x"], "list: -x: no such option"),
        (&["list", "-oa"], "list: -oa: no such option"),
        (&["list", "--whole"], "list: --whole: no such option"),
        (
            &["list", "--follow", "a", "b"],
            "list: --follow takes one file",
        ),
        (&["check", "--follow"], "check: --follow: no such option"),
        (&["check"], "check: it takes a file, or several"),
        (&["market"], "market: it takes a file, or several"),
        (&["market", "--step", "a"], "market: --step: no such option"),
        (&["scrub", "a", "b", "-o", "c"], "scrub: it takes one file"),
        (
            &["scrub", "a", "-oc", "-o", "d"],
            "scrub: -o is given twice",
        ),
        (&["scrub", "a"], "scrub: -o OUT is missing"),
        (&["scrub", "-o", "b"], "scrub: it takes one file"),
        (&["scrub", "a", "-o"], "scrub: -o names no file"),
        (
            &["scrub", "a", "-o", "b", "-o", "c"],
            "scrub: -o is given twice",
        ),
        (&["explain"], "explain: it takes a file and a place"),
        (&["explain", "a"], "explain: it takes a file and a place"),
        (
            &["explain", "a", "one"],
            "explain: one: not a number of bytes",
        ),
        (
            &["explain", "a", "+0"],
            "explain: +0: not a number of bytes",
        ),
        (&["explain", "a", ""], "explain: : not a number of bytes"),
        (
            &["explain", "a", "--", "-1"],
            "explain: -1: not a number of bytes",
        ),
    ];
    for (words, what) in wrong {
        let ran = run(&folder, words);
        let help = match what.split(':').next() {
            Some(name) if COMMANDS.contains(&name) => format!("help {name}"),
            _ => "--help".to_string(),
        };
        let lines =
            format!("rietknoest: {what}\nrietknoest: 'rietknoest {help}' shows how to call it\n");
        assert_eq!(ran.error(), lines, "{words:?}");
        assert_eq!((ran.status, ran.out()), (Some(2), ""), "{words:?}");
    }
    assert_eq!(folder.names(), ["a", "b"]);
}

#[test]
fn the_sample_is_listed() {
    let listing = fs::read_to_string(root().join("crates/listing/stdout")).unwrap();
    let folder = Folder::new().with("sample", &sample());
    let listed = |ran: Ran, name: &str| {
        assert_eq!((ran.status, ran.out()), (Some(1), listing.as_str()));
        assert_eq!(ran.error(), not_counted(name, "1 frame of channel 101"));
    };
    listed(run(&folder, &["list", "sample"]), "sample");
    // the same over a pipe, by name and without one
    for words in [&["list", "-"][..], &["list"], &["list", "--", "-"]] {
        listed(run_on(&folder, words, &sample()), "standard input");
    }
}

/// The line on frames of other channels.
fn not_counted(name: &str, frames: &str) -> String {
    format!("rietknoest: {name}: a listing counts channel 100 alone, and not {frames}: 'rietknoest gaps' counts them\n")
}

/// 1 if the last line counts a refusal or a missing number, or if there are frames of other
/// channels; a repeat is none of these.
#[test]
fn the_status_of_a_listing() {
    let folder = Folder::new();
    let both = [heartbeats(1), vec![0xFF]].concat();
    let status = |capture: &[u8]| run_on(&folder, &["list"], capture).status;
    assert_eq!(status(&heartbeats(2)), Some(0));
    assert_eq!(status(&both), Some(1));
    assert_eq!(status(&[tick(1, b""), tick(2, b"")].concat()), Some(0));
    assert_eq!(status(&[tick(1, b""), tick(1, b"")].concat()), Some(0));
    assert_eq!(status(&tick_on(101, 1, b"")), Some(1));
    assert_eq!(status(&tick(2, b"")), Some(1));
}

/// Five ticks of channel 1 are missing: the listing's own line says that none is, so another line
/// says what was not counted.
#[test]
fn frames_of_other_channels_are_told() {
    let folder = Folder::new();
    let on = |channel: u16| [1, 2, 5, 9].map(|n| tick_on(channel, n, b"")).concat();
    let ran = run_on(&folder, &["list"], &on(1));
    let last = "frames 4 refused 0 floor 0 top 0 missing 0";
    assert_eq!(ran.out().lines().last(), Some(last));
    let said = not_counted("standard input", "4 frames of channel 1");
    assert_eq!((ran.status, ran.error()), (Some(1), said.as_str()));

    // 32 are named, and of more the rest is counted
    let named = |n: u16| {
        let parts = (1..=n).map(|n| format!("4 frames of channel {n}"));
        parts.collect::<Vec<_>>().join(", ")
    };
    let many: Vec<_> = (1..=32).rev().flat_map(on).collect();
    let ran = run_on(&folder, &["list", "--summary"], &many);
    let said = not_counted("standard input", &named(32));
    assert_eq!((ran.status, ran.error()), (Some(1), said.as_str()));

    let many: Vec<_> = (1..=36).rev().flat_map(on).collect();
    let ran = run_on(&folder, &["list", "--summary"], &many);
    let all = format!("{}, 16 frames of 4 more channels", named(32));
    let said = not_counted("standard input", &all).replace(
        "counts them",
        "counts them (up to 32 channels, and 'rietknoest list --json' names them all)",
    );
    assert_eq!((ran.status, ran.error()), (Some(1), said.as_str()));
    let ran = run_on(&folder, &["list", "--json", "--summary"], &many);
    assert_eq!(ran.out().matches("\"frames\":4}").count(), 36);
}

#[test]
fn nothing_is_a_capture_too() {
    let folder = Folder::new().with("none", b"");
    run(&folder, &["list", "none"]).quiet(0, EMPTY);
    run(&folder, &["list"]).quiet(0, EMPTY);
    run(&folder, &["check", "none"]).quiet(0, "none: clean\n");
    let ran = run(&folder, &["scrub", "none", "-o", "out", "--whole"]);
    let said = "rietknoest: none: kept 0 frames, left out 0 bytes, 0 frames after damage\n";
    assert_eq!((ran.status, ran.error()), (Some(0), said));
    assert_eq!(fs::read(folder.path("out")).unwrap(), b"");
    let ran = run(&folder, &["explain", "none", "0"]);
    assert_eq!(ran.status, Some(1));
    assert!(ran.out().starts_with("none: place 0: refused, 1 (more): "));
}

#[test]
fn a_capture_above_65536_bytes() {
    let capture = heartbeats(3000);
    assert!(capture.len() > 65536);
    let folder = Folder::new().with("long", &capture);
    let ran = run(&folder, &["list", "long"]);
    assert_eq!(ran.out().lines().count(), 3001);
    assert!(ran
        .out()
        .ends_with("\n83972 S003 0 3000 0 0 0 0\nframes 3000 refused 0 floor 0 top 0 missing 0\n"));
    assert_eq!(ran.status, Some(0));
    assert_eq!(
        run(&folder, &["scrub", "long", "-o", "out"]).status,
        Some(0)
    );
    assert_eq!(fs::read(folder.path("out")).unwrap(), capture);
    run(&folder, &["check", "out"]).quiet(0, "out: clean\n");
    assert_eq!(run(&folder, &["explain", "long", "83972"]).status, Some(0));
}

#[test]
fn the_sample_is_scrubbed_and_then_clean() {
    let folder = Folder::new().with("sample", &sample());
    let ran = run(&folder, &["scrub", "sample", "-o", "out"]);
    let counts = "rietknoest: sample: kept 30 frames, left out 812 bytes, 8 frames after damage\n";
    assert!(ran.error().starts_with(counts));
    assert!(ran.error().contains("docs/PRIVATE.md"));
    assert_eq!((ran.status, ran.out()), (Some(1), ""));
    let cleaned = fs::read(folder.path("out")).unwrap();
    assert_eq!(cleaned.len(), sample().len() - 812);
    // it has an M101 with a body: never a bare `clean`
    let unjudged = "1 M101 body is not judged and could hold anything";
    let said = format!("out: clean, except that {unjudged}\n");
    run(&folder, &["check", "out"]).quiet(0, &said);
    assert!(ran
        .error()
        .ends_with(&format!("sample: {unjudged}: passed on as sent\n")));

    // to standard output, and from standard input, the same
    let ran = run(&folder, &["scrub", "sample", "-o", "-"]);
    assert_eq!((ran.status, &ran.out), (Some(1), &cleaned));
    let ran = run_on(&folder, &["scrub", "-", "-o", "-"], &sample());
    assert_eq!((ran.status, &ran.out), (Some(1), &cleaned));
    assert!(ran.error().starts_with("rietknoest: standard input: kept "));

    // again: nothing changes, nothing is left out, and no frame is after damage
    let ran = run(&folder, &["scrub", "--whole", "out", "-o", "again"]);
    let said = "rietknoest: out: kept 30 frames, left out 0 bytes, 0 frames after damage\n";
    let said = format!("{said}rietknoest: out: {unjudged}: passed on as sent\n");
    assert_eq!((ran.status, ran.error()), (Some(0), said.as_str()));
    assert_eq!(fs::read(folder.path("again")).unwrap(), cleaned);
    assert_eq!(folder.names(), ["again", "out", "sample"]);
    assert_eq!(fs::read(folder.path("sample")).unwrap(), sample());
}

#[test]
fn whole_writes_nothing_where_a_byte_is_stray() {
    let capture = [logon("A", "B"), vec![0], heartbeats(1)].concat();
    let folder = Folder::new().with("in", &capture).with("old", b"old");
    let said = "rietknoest: in: 1 byte in no frame that reads: nothing is written (--whole)\n";
    for out in ["out", "old", "-"] {
        let ran = run(&folder, &["scrub", "in", "-o", out, "--whole"]);
        assert_eq!((ran.status, ran.out(), ran.error()), (Some(1), "", said));
    }
    assert_eq!(folder.names(), ["in", "old"]);
    assert_eq!(fs::read(folder.path("old")).unwrap(), b"old");
    // without the option it is written, and 1 says that something was refused
    assert_eq!(run(&folder, &["scrub", "in", "-o", "out"]).status, Some(1));
    let kept = [logon("", ""), heartbeats(1)].concat();
    assert_eq!(fs::read(folder.path("out")).unwrap(), kept);
}

/// Something was refused, though no frame comes after it.
#[test]
fn a_stray_byte_at_the_end() {
    let folder = Folder::new();
    let capture = [heartbeats(1), vec![0]].concat();
    let ran = run_on(&folder, &["scrub", "-", "-o", "-"], &capture);
    let said = "rietknoest: standard input: kept 1 frame, left out 1 byte, 0 frames after damage\n";
    assert_eq!((ran.status, ran.error()), (Some(1), said));
    assert_eq!(ran.out, heartbeats(1));
}

/// A capture, and what `check` says of it after its name.
fn checked(capture: &[u8], says: &str) {
    let folder = Folder::new();
    let line = format!("standard input: {says}\n");
    run_on(&folder, &["check", "-"], capture).quiet(i32::from(says != "clean"), &line);
}

/// An M101 has any body, and is told of whatever its body, as the library counts it.
#[test]
fn bodies_that_are_not_judged_are_told() {
    let folder = Folder::new();
    let status = |n: usize, body: &[u8]| frame(b"M101", 1, body).repeat(n);
    let ran = run_on(&folder, &["check", "-"], &status(2, b"PASSWORD"));
    let told = "2 M101 bodies are not judged and could hold anything";
    ran.quiet(0, &format!("standard input: clean, except that {told}\n"));
    for words in [
        &["scrub", "-", "-o", "-"][..],
        &["scrub", "-", "-o-", "--whole"],
    ] {
        let ran = run_on(&folder, words, &status(2, b"PASSWORD"));
        let said = format!("rietknoest: standard input: {told}: passed on as sent\n");
        assert!(ran.error().ends_with(&said));
        assert_eq!((ran.status, ran.out), (Some(0), status(2, b"PASSWORD")));
        let ran = run_on(&folder, words, &status(3, b""));
        assert!(ran.error().contains("3 M101 bodies are not judged"));
    }
    let help = run(&folder, &["--help"]);
    assert!(help
        .out()
        .contains("M101 bodies are not judged, could hold anything"));
}

#[test]
fn check_names_each_private_field() {
    let beat = heartbeats(1);
    let resend = |reason: &str| {
        let numbers = [&[0, 100, 1][..], &4u64.to_be_bytes(), &5u64.to_be_bytes()].concat();
        frame(b"P002", 1, &[numbers, vec![1], text(32, reason)].concat())
    };
    let logout = |reason: &str| frame(b"S002", 1, &[vec![0; 4], text(256, reason)].concat());
    let all_clean = [
        logon("", ""),
        logout(""),
        resend(""),
        tick(1, b"  "),
        beat.clone(),
    ];
    checked(&all_clean.concat(), "clean");
    let field = |frame: Vec<u8>, says: &str| checked(&[beat.clone(), frame].concat(), says);
    field(
        logon("A", "B"),
        "not clean: place 52: SenderCompID of the S001 at 28",
    );
    field(
        logon("", " B"),
        "not clean: place 85: TargetCompID of the S001 at 28",
    );
    field(
        logout("   C"),
        "not clean: place 59: Text of the S002 at 28",
    );
    field(
        resend("D"),
        "not clean: place 72: RejectText of the P002 at 28",
    );
    field(
        tick(1, b"E"),
        "not clean: place 97: extension of the M201 at 28",
    );
    field(
        order(1, "F", "", ""),
        "not clean: place 116: MemberID of the M201 at 28",
    );
    field(
        order(1, "", "G", ""),
        "not clean: place 128: TraderCode of the M201 at 28",
    );
    field(
        order(1, "", "", "  H"),
        "not clean: place 174: InvestorName of the M201 at 28",
    );
}

/// The order of tick 1 stands at 823, in the sample and in what is left of it: its side and QuoteID
/// are as sent, codes and names are nowhere.
#[test]
fn scrub_leaves_side_and_order_number() {
    let folder = Folder::new().with("sample", &sample());
    let out = run(&folder, &["scrub", "sample", "-o", "-"]).out;
    assert_eq!(&out[823 + 69..][..19], b"1Q20260121000000001");
    for private in ["MEMBER-A", "TRADER-07", "MADE-UP INVESTOR"] {
        let rows = out.windows(private.len());
        assert_eq!(rows.filter(|row| *row == private.as_bytes()).count(), 0);
    }
}

#[test]
fn check_tells_stray_bytes() {
    let beats = heartbeats(2);
    let none = [&beats[..], b"\xFF\xFF"].concat();
    checked(
        &none,
        "not clean: place 56: stray bytes from 56 on, where reading answers 1 (more)",
    );
    let between = [&beats[..28], b"\xFF", &beats[28..]].concat();
    checked(
        &between,
        "not clean: place 28: stray bytes from 28 on, where reading answers 2 (type)",
    );
    // a stray byte that is the next frame's first: the two differ one place further on
    let alike = [&beats[..28], b"S", &beats[28..]].concat();
    checked(
        &alike,
        "not clean: place 29: stray bytes from 28 on, where reading answers 2 (type)",
    );
    // what is private comes before what is stray
    let both = [logon("A", ""), vec![0xFF]].concat();
    checked(&both, "not clean: place 24: SenderCompID of the S001 at 0");
}

#[test]
fn explain_tells_the_public_fields() {
    let folder = Folder::new().with("sample", &sample());
    run(&folder, &["explain", "sample", "823"]).quiet(
        0,
        "sample: place 823: a frame reads here, 0 (done): every check passes
MsgType M201, a tick
SendingTime 20260121093000010
MsgSeqNum 9
BodyLength 184
SecurityType 13
ChannelNO 100
ApplSeqNum 1
MDStreamID MD211
SecurityID 019733
TransactTime 93000010
ExecType 0
Price 10031500
OrderQty 2000000
Side 1
QuoteID Q20260121000000001
FullAmountTrade 2
SettlType 1
ContractMultiplier 9500
ExpirationDays 14
TotalValueTraded 200630000
BasketID BASKET-11001
BidTransType 2
BidExecInstType 1
ExpireDate 20260121
SecondaryOrderID 
MinQty 1000
MemberID is private: 12 bytes, not shown
TraderCode is private: 12 bytes, not shown
InvestorName is private: 32 bytes, not shown
the frame has 212 bytes and ends before place 1035
the ledger of channel 100 then has floor 1, top 1
",
    );
    run(&folder, &["explain", "sample", "2129"]).quiet(
        0,
        "sample: place 2129: a frame reads here, 0 (done): every check passes
MsgType P002, a reply to a request to send ticks again
SendingTime 20260121093001020
MsgSeqNum 17
BodyLength 52
ChannelNO 100
ResendType 1
ApplBegSeqNum 4
ApplEndSeqNum 5
ResendStatus 1
RejectText is private: 32 bytes, not shown
the frame has 80 bytes and ends before place 2209
the ledger of channel 100 then has floor 3, top 9
",
    );
    run(&folder, &["explain", "sample", "1671"]).quiet(
        0,
        "sample: place 1671: a frame reads here, 0 (done): every check passes
MsgType M201, a tick
SendingTime 20260121093000360
MsgSeqNum 13
BodyLength 98
SecurityType 13
ChannelNO 100
ApplSeqNum 7
MDStreamID MD217
SecurityID 019733
TransactTime 93000360
ExecType F
Price 10031500
OrderQty 2000000
BidApplSeqNum Q20260121000000001
OfferApplSeqNum 
TotalValueTraded 200630000
TradeMethod 1
MarginPrice 0
the frame has 126 bytes and ends before place 1797
the ledger of channel 100 then has floor 3, top 7
",
    );
    run(&folder, &["explain", "sample", "0"]).quiet(
        0,
        "sample: place 0: a frame reads here, 0 (done): every check passes
MsgType S001, a logon
SendingTime 20260121091500000
MsgSeqNum 1
BodyLength 74
HeartBtInt 30
ApplVerID 0.62
SenderCompID is private: 32 bytes, not shown
TargetCompID is private: 32 bytes, not shown
the frame has 102 bytes and ends before place 102
the ledger of channel 100 then has floor 0, top 0
",
    );
    run(&folder, &["explain", "sample", "245"]).quiet(
        0,
        "sample: place 245: a frame reads here, 0 (done): every check passes
MsgType P001, an announcement of a channel's last number
SendingTime 20260121091500500
MsgSeqNum 3
BodyLength 12
SecurityType 13
ChannelNO 100
ApplLastSeqNum 0
EndOfChannel N
the frame has 40 bytes and ends before place 285
the ledger of channel 100 then has floor 0, top 0
",
    );
    let logout = [&7u32.to_be_bytes()[..], &[b'T'; 256]].concat();
    run_on(&folder, &["explain", "-", "0"], &frame(b"S002", 2, &logout)).quiet(
        0,
        "standard input: place 0: a frame reads here, 0 (done): every check passes
MsgType S002, a logout
SendingTime 20260121093000000
MsgSeqNum 2
BodyLength 260
SessionStatus 7
Text is private: 256 bytes, not shown
the frame has 288 bytes and ends before place 288
the ledger of channel 100 then has floor 0, top 0
",
    );
    // an M201 of another stream: all of its extension is private, and nothing before it
    let ran = run_on(&folder, &["explain", "-", "0"], &tick(1, b"SECRET"));
    assert!(ran.out().contains("\nMDStreamID MD219\n"));
    assert!(ran
        .out()
        .contains("\nOrderQty 0\nextension is private: 6 bytes, not shown\n"));
}

/// After damage a frame may lie inside private bytes: of its body only what a listing has is shown,
/// and the numbers of a resend.
#[test]
fn after_damage_a_body_is_not_shown() {
    let sample = sample();
    let folder = Folder::new();
    let explained = |frame: &[u8]| {
        let capture = [&[0xFF][..], &heartbeats(1), frame].concat();
        let ran = run_on(&folder, &["explain", "-", "29"], &capture);
        assert_eq!((ran.status, ran.error()), (Some(0), ""));
        let lines = ran.out().lines().skip(2).map(String::from);
        lines.collect::<Vec<_>>()
    };
    let header = ["SendingTime ", "MsgSeqNum ", "BodyLength "];
    let cases: [(&[u8], &[&str]); 7] = [
        (&logon("A", "B"), &[]),
        (&sample[204..245], &[]),
        (&sample[245..285], &["ChannelNO 100", "ApplLastSeqNum 0"]),
        (&sample[416..574], &[]),
        (&sample[823..1035], &["ChannelNO 100", "ApplSeqNum 1"]),
        (
            &sample[2129..2209],
            &[
                "ChannelNO 100",
                "ApplBegSeqNum 4",
                "ApplEndSeqNum 5",
                "ResendStatus 1",
            ],
        ),
        (&sample[4133..4421], &[]),
    ];
    for (frame, fields) in cases {
        let lines = explained(frame);
        let (start, rest) = lines.split_at(3);
        for (line, name) in start.iter().zip(header) {
            assert!(line.starts_with(name), "{line}");
        }
        assert_eq!(rest[..fields.len()], *fields);
        let rest = &rest[fields.len()..];
        let withheld = "no other field is shown: after damage it may be private bytes";
        assert_eq!(rest[0], withheld);
        assert!(rest[1].starts_with("the frame has "), "{}", rest[1]);
        assert!(rest[2].starts_with("it stands after damage, "));
        assert_eq!(rest.len(), 4);
    }
    // nothing is withheld where there is nothing
    let lines = explained(&heartbeats(1));
    assert!(lines[3].starts_with("the frame has 28 bytes"));
    assert!(lines[4].starts_with("it stands after damage, "));
}

/// The fields of an M102 and its entries: all are public.
#[test]
fn explain_tells_a_snapshot() {
    let folder = Folder::new().with("sample", &sample());
    run(&folder, &["explain", "sample", "285"]).quiet(0, SNAPSHOT);
    let ran = run(&folder, &["explain", "sample", "416"]);
    let entries = ran.out().lines().filter(|l| l.starts_with("entry "));
    assert!(entries.clone().count() > 0);
    assert!(entries
        .clone()
        .all(|l| l.contains(", size ") && l.contains(", position ")));
}

/// The answer is that of the line that `list` has for the place, with its floor and top; also where
/// the ledger refuses a frame that reads.
#[test]
fn explain_agrees_with_list() {
    let folder = Folder::new().with("sample", &sample());
    let listing = fs::read_to_string(root().join("crates/listing/stdout")).unwrap();
    for line in listing.lines().filter(|line| !line.starts_with("frames")) {
        let columns: Vec<_> = line.split(' ').collect();
        let (answer, floor, top) = (columns[2], columns[6], columns[7]);
        let ran = run(&folder, &["explain", "sample", columns[0]]);
        let first = ran.out().lines().next().unwrap();
        assert!(first.contains(&format!(", {answer} (")), "{line}");
        let last = format!("the ledger of channel 100 then has floor {floor}, top {top}");
        assert_eq!(ran.out().lines().last(), Some(last.as_str()));
        assert_eq!(ran.status, Some(i32::from(answer != "0")), "{line}");
    }
    let refused = [
        ("2633", "11 (repeat): the tick was received before"),
        (
            "2845",
            "12 (far): the tick is more than 256 above the floor: the top is raised to it",
        ),
        (
            "2971",
            "18 (channel): it is of another channel, which a listing does not count",
        ),
    ];
    for (place, why) in refused {
        let ran = run(&folder, &["explain", "sample", place]);
        let said = "a frame reads here, and the ledger of channel 100 refuses it";
        let first = format!("sample: place {place}: {said}, {why}\nMsgType M201, a tick\n");
        assert!(ran.out().starts_with(&first), "{place}");
    }
}

/// For 4 the lengths that suit, for 5 both sums; of a type with private fields no sum.
#[test]
fn explain_tells_lengths_and_sums() {
    let folder = Folder::new();
    let second = |capture: &[u8]| {
        let ran = run_on(&folder, &["explain", "-", "0"], capture);
        assert_eq!(ran.status, Some(1));
        ran.out().lines().nth(1).unwrap().to_string()
    };
    let lengths: [(&[u8; 4], &str); 7] = [
        (b"S001", "74 bytes"),
        (b"S002", "260 bytes"),
        (b"S003", "0 bytes"),
        (b"P001", "12 bytes"),
        (b"P002", "52 bytes"),
        (b"M102", "73 bytes or more"),
        (b"M201", "45 bytes or more"),
    ];
    for (kind, suits) in lengths {
        let mut beat = heartbeats(1);
        beat[..4].copy_from_slice(kind);
        beat[23] = 11;
        let said = format!("a body of its type has {suits}");
        assert_eq!(second(&beat), said);
        // after damage it comes with a warning: the type may be four private bytes
        let after = [vec![0xFF], heartbeats(1), beat].concat();
        let ran = run_on(&folder, &["explain", "-", "29"], &after);
        let mut lines = ran.out().lines().skip(1);
        assert_eq!(lines.next(), Some(said.as_str()));
        assert!(lines.next().unwrap().starts_with("it stands after damage"));
    }

    let mut beat = heartbeats(1);
    let sum = beat[27];
    beat[27] ^= 1;
    let said = |stored: &str| format!("its bytes sum to {sum}, and its CheckSum is {stored}");
    assert_eq!(second(&beat), said(&(sum ^ 1).to_string()));
    // four bytes that are no sum are not shown: they may be another frame's
    beat[24] = b'A';
    assert_eq!(second(&beat), said("above 255"));
    let private = "the sums are not shown: a frame of its type has private fields";
    let resend = [&[0, 100, 1][..], &[0; 7], &[4], &[0; 7], &[5, 1], &[32; 32]].concat();
    let logout = [&[0; 4][..], &[32; 256]].concat();
    let frames = [
        logon("A", "B"),
        tick(1, b""),
        tick(1, b"C"),
        frame(b"P002", 1, &resend),
        frame(b"S002", 1, &logout),
    ];
    for mut frame in frames {
        *frame.last_mut().unwrap() ^= 1;
        assert_eq!(second(&frame), private);
        let behind = [vec![0xFF], heartbeats(1), beat.clone()].concat();
        let ran = run_on(&folder, &["explain", "-", "29"], &behind);
        assert!(ran
            .out()
            .contains("\nthe sums are not shown: after damage "));
    }
}

/// A frame with one byte of its body changed, and the sum that suits.
fn changed(mut frame: Vec<u8>, at: usize, byte: u8) -> Vec<u8> {
    frame[24 + at] = byte;
    let end = frame.len() - 4;
    frame[end + 3] = frame[..end]
        .iter()
        .fold(0, |sum: u8, b| sum.wrapping_add(*b));
    frame
}

/// For 6 the lowest field that breaks a rule, by name, rule and place; none of its bytes, and
/// nothing of the private fields beside it.
#[test]
fn explain_names_the_field() {
    let folder = Folder::new();
    let explained = |capture: &[u8], place: &str| {
        let ran = run_on(&folder, &["explain", "-", place], capture);
        assert_eq!((ran.status, ran.error()), (Some(1), ""));
        ran.out().to_string()
    };
    let line = |capture: &[u8]| explained(capture, "0").lines().nth(1).unwrap().to_string();
    let channel = [&[13, 0, 100][..], &[0; 7], b"\x09N"].concat();
    let resend = [
        &[0, 100, 1][..],
        &[0; 7],
        &[4],
        &[0; 7],
        &[5, 0],
        &[b'R'; 32],
    ]
    .concat();
    let logout = [&[0; 4][..], &[b'T'; 256]].concat();
    let cases = [
        (changed(logon("SECRET", "B"), 65, 0), "HeartBtInt breaks its rule: above 0 (2 bytes from place 88 on)"),
        (changed(frame(b"S002", 1, &logout), 0, 1), "SessionStatus breaks its rule: at most 9,999 (4 bytes from place 24 on)"),
        (changed(frame(b"P001", 1, &channel), 0, 12), "SecurityType breaks its rule: 13 (1 byte from place 24 on)"),
        (changed(changed(frame(b"P001", 1, &channel), 11, b'X'), 1, 0xFF), "ChannelNO breaks its rule: at most 4 digits (2 bytes from place 25 on)"),
        (changed(frame(b"P002", 1, &resend), 18, 3), "ApplEndSeqNum breaks its rule: at most 18 digits, and in a request 0 or not below ApplBegSeqNum (8 bytes from place 35 on)"),
        (changed(tick(1, b"SECRET"), 28, b'1'), "ExecType breaks its rule: 0, 4 or F (1 byte from place 52 on)"),
    ];
    for (capture, said) in cases {
        assert_eq!(line(&capture), said);
        let all = explained(&capture, "0");
        for secret in ["SECRET", "RRR", "TTT"] {
            assert!(!all.contains(secret));
        }
        // behind damage it is told with a warning
        let behind = [vec![0xFF], heartbeats(1), capture].concat();
        let told = explained(&behind, "29");
        assert!(told
            .lines()
            .nth(2)
            .unwrap()
            .starts_with("it stands after damage"));
    }

    // two frames that differ in private bytes alone are explained alike
    let of = |sender: &str| explained(&changed(logon(sender, "B"), 65, 0), "0");
    assert_eq!(of("SECRET"), of("HIDDEN"));

    let sample = sample();
    let snapshot = sample[416..416 + 130 + 28].to_vec();
    assert_eq!(
        line(&changed(snapshot.clone(), 73 + 19 + 2, 1)),
        "price of entry 2 breaks its rule: at most 13 digits (8 bytes from place 118 on)"
    );
    assert_eq!(
        line(&changed(snapshot.clone(), 72, 9)),
        "NoMDEntries breaks its rule: so many whole entries fill the body (2 bytes from place 95 on)"
    );
    assert!(line(&changed(snapshot, 0, 2))
        .starts_with("MDStreamID breaks its rule: a stream of its SecurityType: "));
}

/// The sample has a refusal for each number that reading gives.
#[test]
fn explain_tells_a_refusal_by_number_and_name() {
    let folder = Folder::new().with("sample", &sample());
    let refused = [
        ("4421", "1 (more)", "no frame reads after it"),
        ("3720", "2 (type)", "the walk goes on at 3748"),
        ("3776", "3 (long)", "the walk goes on at 3800"),
        ("3663", "4 (length)", "the walk goes on at 3692"),
        ("2421", "5 (sum)", "the walk goes on at 2633"),
        ("3183", "6 (field)", "the walk goes on at 3395"),
        ("3828", "7 (time)", "the walk goes on at 3868"),
        (
            "1",
            "2 (type)",
            "the walk does not read here: the place lies inside the S001 at 0,",
        ),
        (
            "3898",
            "2 (type)",
            "the walk does not read here: the place lies among the stray bytes from 3896 on,",
        ),
        ("4451", "1 (more)", "this is the capture's end"),
    ];
    for (place, answer, more) in refused {
        let ran = run(&folder, &["explain", "sample", place]);
        let start = format!("sample: place {place}: refused, {answer}: ");
        assert!(ran.out().starts_with(&start), "{place}");
        assert!(!ran.out().contains("no frame reads here"), "{place}");
        let mut lines = ran.out().lines().skip(1);
        assert!(lines.any(|line| line.starts_with(more)), "{place}");
        assert!(ran.out().lines().count() <= 5);
        assert_eq!((ran.status, ran.error()), (Some(1), ""));
    }
    let beyond = "the place is beyond the end, 4451";
    run(&folder, &["explain", "sample", "4452"]).failed("sample", beyond);
    let huge = "99999999999999999999999999999999999999";
    run(&folder, &["explain", "sample", huge]).failed("sample", beyond);
}

/// A closed output ends the command: no panic, no message.
#[test]
fn a_closed_pipe() {
    let folder = Folder::new().with("long", &heartbeats(10000));
    let cases: [(&[&str], i32); 3] = [
        (&["list", "long"], 0),
        (&["list", "--follow", "long"], 0),
        (&["scrub", "long", "-o", "-"], 2),
    ];
    for (words, status) in cases {
        let mut child = command(&folder)
            .args(words)
            .stdin(Stdio::null())
            .stdout(Stdio::piped())
            .stderr(Stdio::piped())
            .spawn()
            .unwrap();
        drop(child.stdout.take());
        let ended = child.wait_with_output().unwrap();
        assert_eq!(ended.status.code(), Some(status));
        assert_eq!(String::from_utf8_lossy(&ended.stderr), "");
    }
}

#[test]
fn a_full_standard_output() {
    let folder = Folder::new().with("in", &heartbeats(1));
    let cases: [&[&str]; 5] = [
        &["list", "in"],
        &["list", "--follow", "in"],
        &["check", "in"],
        &["scrub", "in", "-o", "-"],
        &["--help"],
    ];
    for words in cases {
        let full = fs::OpenOptions::new()
            .write(true)
            .open("/dev/full")
            .unwrap();
        let ended = command(&folder)
            .args(words)
            .stdin(Stdio::null())
            .stdout(full)
            .stderr(Stdio::piped())
            .spawn()
            .unwrap()
            .wait_with_output()
            .unwrap();
        assert_eq!(ended.status.code(), Some(2));
        let said = String::from_utf8_lossy(&ended.stderr).into_owned();
        assert!(said.starts_with("rietknoest: standard output: "), "{said}");
    }
}

/// The subcommands agree, and none panics.
#[test]
fn damaged_captures() {
    let folder = Folder::new();
    let dice = &mut Dice(1);
    for round in 0..100 {
        let capture = damaged(dice);
        let listed = run_on(&folder, &["list"], &capture);
        let cleaned = run_on(&folder, &["scrub", "-", "-o", "-"], &capture);
        let stray = capture.len() - cleaned.out.len();
        assert_eq!(listed.out().contains(" ---- "), stray > 0, "{round}");
        assert_eq!(cleaned.status, Some(i32::from(stray > 0)), "{round}");
        let left_out = format!(" left out {stray} byte");
        assert!(cleaned.error().contains(&left_out), "{round}");
        let checked = run_on(&folder, &["check", "-"], &capture);
        let clean = cleaned.out == capture;
        assert_eq!(checked.status, Some(i32::from(!clean)), "{round}");
        // the place is the library's, which has the capture whole
        let place = match rietknoest_host::first_unclean(&capture) {
            Some(place) => format!("standard input: not clean: place {place}: "),
            None => "standard input: clean".to_string(),
        };
        assert!(checked.out().starts_with(&place), "{round}");
        let again = run_on(&folder, &["check", "-"], &cleaned.out);
        assert!(again.out().starts_with("standard input: clean"), "{round}");
        assert_eq!((again.status, again.error()), (Some(0), ""), "{round}");
        let again = run_on(&folder, &["list"], &cleaned.out);
        assert!(!again.out().contains(" ---- "), "{round}");
        let place = dice.below(capture.len() + 1).to_string();
        let explained = run_on(&folder, &["explain", "-", &place], &capture);
        assert!(matches!(explained.status, Some(0 | 1)), "{round}");
        assert_eq!(explained.error(), "", "{round}");
    }
}
