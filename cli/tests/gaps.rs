//! `gaps`: which tick numbers are missing, channel by channel.

mod common;

use std::collections::BTreeSet;

use common::*;
use oracle::gaps::{gaps, next_request};

fn ticks(channel: u16, numbers: &[u64]) -> Vec<u8> {
    let frames = numbers.iter().map(|n| tick_on(channel, *n, b""));
    frames.collect::<Vec<_>>().concat()
}

fn announced(channel: u16, last: u64) -> Vec<u8> {
    let body = [&[13][..], &channel.to_be_bytes(), &last.to_be_bytes(), b"N"];
    frame(b"P001", 1, &body.concat())
}

fn resend(channel: u16, status: u8) -> Vec<u8> {
    let body = [
        &channel.to_be_bytes()[..],
        &[1],
        &4u64.to_be_bytes(),
        &5u64.to_be_bytes(),
        &[status],
        &[b' '; 32],
    ];
    frame(b"P002", 1, &body.concat())
}

/// What it prints of a capture, with nothing on standard error.
#[track_caller]
fn told(capture: &[u8], status: i32, lines: &[&str]) {
    told_and_said(capture, status, lines, &[]);
}

/// What it prints of a capture, on standard output and on standard error.
#[track_caller]
fn told_and_said(capture: &[u8], status: i32, lines: &[&str], said: &[&str]) {
    let folder = Folder::new();
    let lines: String = lines.iter().map(|line| format!("{line}\n")).collect();
    let said = said.iter().map(|line| format!("rietknoest: {line}\n"));
    let said: String = said.collect();
    for words in [&["gaps"][..], &["gaps", "-"]] {
        let ran = run_on(&folder, words, capture);
        assert_eq!(
            (ran.status, ran.out(), ran.error()),
            (Some(status), lines.as_str(), said.as_str())
        );
    }
}

#[test]
fn a_gap_has_its_numbers() {
    told(
        &ticks(1, &[1, 2, 5, 9]),
        1,
        &[
            "channel 1: floor 2, top 9, missing 5: 3-4 6-8",
            "next request: channel 1, 3 to 4",
        ],
    );
    told(
        &ticks(7, &[1, 2, 3]),
        0,
        &["channel 7: floor 3, top 3, missing 0", "next request: none"],
    );
    told(
        &ticks(7, &[3]),
        1,
        &[
            "channel 7: floor 0, top 3, missing 2: 1-2",
            "next request: channel 7, 1 to 2",
        ],
    );
    told(b"", 0, &["next request: none"]);
    told(
        &[heartbeats(2), logon("A", "B")].concat(),
        0,
        &["next request: none"],
    );
}

/// Channels come in the order in which the captures name them. An announcement names one too.
#[test]
fn several_channels() {
    let capture = [
        ticks(9, &[1, 2]),
        announced(3, 4),
        ticks(100, &[2]),
        ticks(3, &[1]),
    ];
    told(
        &capture.concat(),
        1,
        &[
            "channel 9: floor 2, top 2, missing 0",
            "channel 3: floor 1, top 4, missing 3: 2-4",
            "channel 100: floor 0, top 2, missing 1: 1",
            "next request: channel 3, 2 to 4",
        ],
    );
}

/// A resend names its channel too, and says nothing of its numbers.
#[test]
fn a_channel_of_resends() {
    told(
        &[resend(5, 4), ticks(6, &[1])].concat(),
        0,
        &[
            "channel 5: floor 0, top 0, missing 0",
            "channel 6: floor 1, top 1, missing 0",
            "next request: none",
        ],
    );
}

/// A tick more than 256 above the floor is not taken: the numbers up to it are missing, itself
/// among them, and standard error says so. A request has at most 200 numbers.
#[test]
fn far_ticks_are_reported() {
    let one = "channel 5: 1 tick was more than 256 above the floor and not taken (12): it counts as missing, unless taken later";
    told_and_said(
        &ticks(5, &[1, 300]),
        1,
        &[
            "channel 5: floor 1, top 300, missing 299: 2-300",
            "next request: channel 5, 2 to 201",
        ],
        &[one],
    );
    // a capture that begins in the middle of a session: all of it is far
    let middle: Vec<u64> = (5_000..5_100).collect();
    told_and_said(
        &[ticks(9, &middle), ticks(5, &[1, 300])].concat(),
        1,
        &[
            "channel 9: floor 0, top 5099, missing 5099: 1-5099",
            "channel 5: floor 1, top 300, missing 299: 2-300",
            "next request: channel 9, 1 to 200",
        ],
        &[
            "channel 9: 100 ticks were more than 256 above the floor and not taken (12): they count as missing, unless taken later",
            one,
        ],
    );
    // taken later: none is missing, and it is still said
    let all: Vec<u64> = [300].into_iter().chain(1..=300).collect();
    told_and_said(
        &ticks(5, &all),
        0,
        &[
            "channel 5: floor 300, top 300, missing 0",
            "next request: none",
        ],
        &[one],
    );
}

/// Numbers have up to 18 digits.
#[test]
fn large_numbers() {
    let last = 999_999_999_999_999_999;
    told(
        &[ticks(5, &[1, 4]), announced(5, last)].concat(),
        1,
        &[
            "channel 5: floor 1, top 999999999999999999, missing 999999999999999997: 2-3 5-999999999999999999",
            "next request: channel 5, 2 to 3",
        ],
    );
}

/// At most 20 runs, and then how many more.
#[test]
fn many_runs() {
    let even: Vec<u64> = (1..=20).map(|n| 2 * n).collect();
    let runs = |n: u64| (0..n).map(|i| (2 * i + 1).to_string()).collect::<Vec<_>>();
    let line = format!(
        "channel 1: floor 0, top 40, missing 20: {}",
        runs(20).join(" ")
    );
    told(
        &ticks(1, &even),
        1,
        &[&line, "next request: channel 1, 1 to 1"],
    );
    let even: Vec<u64> = (1..=25).map(|n| 2 * n).collect();
    let line = format!(
        "channel 1: floor 0, top 50, missing 25: {} and 5 more",
        runs(20).join(" ")
    );
    told(
        &ticks(1, &even),
        1,
        &[&line, "next request: channel 1, 1 to 1"],
    );
}

/// Ticks in any order, with repeats: what is missing is what never came, up to the largest.
#[test]
fn ticks_in_any_order() {
    let folder = Folder::new();
    let dice = &mut Dice(7);
    for _ in 0..40 {
        let numbers: Vec<u64> = (0..dice.below(200))
            .map(|_| 1 + dice.below(256) as u64)
            .collect();
        let came: BTreeSet<u64> = numbers.iter().copied().collect();
        let Some(top) = came.last() else {
            continue;
        };
        let missing: Vec<u64> = (1..=*top).filter(|n| !came.contains(n)).collect();
        let floor = missing.first().map_or(*top, |first| first - 1);
        let ran = run_on(&folder, &["gaps"], &ticks(2, &numbers));
        let line = ran.out().lines().next().unwrap();
        let start = format!(
            "channel 2: floor {floor}, top {top}, missing {}",
            missing.len()
        );
        assert!(line.starts_with(&start), "{line}");
        let (runs, more) = line[start.len()..]
            .split_once(" and ")
            .unwrap_or((&line[start.len()..], ""));
        let mut named = Vec::new();
        for run in runs
            .trim_start_matches(": ")
            .split(' ')
            .filter(|run| !run.is_empty())
        {
            let (first, last) = run.split_once('-').unwrap_or((run, run));
            named.extend(first.parse::<u64>().unwrap()..=last.parse().unwrap());
        }
        assert_eq!(named, missing[..named.len()]);
        assert_eq!(more.is_empty(), named.len() == missing.len());
        assert_eq!(ran.status, Some(i32::from(!missing.is_empty())));
    }
}

/// Captures are one after the other: what the first lacks may be in the second.
#[test]
fn captures_in_a_row() {
    let folder = Folder::new()
        .with("a", &ticks(1, &[1, 2, 5]))
        .with("b", &ticks(1, &[3, 4, 7]));
    let whole = "channel 1: floor 5, top 7, missing 1: 6\nnext request: channel 1, 6 to 6\n";
    run(&folder, &["gaps", "a", "b"]).quiet(1, whole);
    let first = "channel 1: floor 2, top 5, missing 2: 3-4\nnext request: channel 1, 3 to 4\n";
    run(&folder, &["gaps", "a"]).quiet(1, first);
    let ran = run(&folder, &["gaps", "a", "no", "b"]);
    let said = "rietknoest: no: No such file or directory\n";
    assert_eq!((ran.status, ran.out(), ran.error()), (Some(2), whole, said));
}

/// The table has 32 places; frames of further channels are told of.
#[test]
fn more_channels_than_the_table_has() {
    let folder = Folder::new();
    let all = |n: u16| (1..=n).map(|c| ticks(c, &[1])).collect::<Vec<_>>().concat();
    let ran = run_on(&folder, &["gaps"], &all(32));
    assert_eq!((ran.status, ran.error()), (Some(0), ""));
    assert_eq!(ran.out().lines().count(), 33);
    let capture = [all(34), ticks(33, &[2])].concat();
    let ran = run_on(&folder, &["gaps"], &capture);
    let said = "rietknoest: 32 channels are counted, and not 3 frames of 2 more channels\n";
    assert_eq!((ran.status, ran.error()), (Some(1), said));
    assert_eq!(ran.out().lines().count(), 33);
}

/// Where a reading was refused a tick may have been.
#[test]
fn damage_is_told() {
    let folder = Folder::new().with("in", &[ticks(1, &[1]), vec![0; 9]].concat());
    let ran = run(&folder, &["gaps", "in"]);
    let said = "rietknoest: in: 1 reading refused, and what is there not counted: 'rietknoest list' has the places\n";
    assert_eq!((ran.status, ran.error()), (Some(1), said));
    let out = "channel 1: floor 1, top 1, missing 0\nnext request: none\n";
    assert_eq!(ran.out(), out);
}

#[test]
fn the_objects_of_gaps() {
    let folder = Folder::new();
    let capture = [ticks(1, &[1, 2, 5, 9]), ticks(2, &[1])].concat();
    let objects = r#"{"channel":1,"floor":2,"top":9,"missing":5,"held":2,"ranges":[{"first":3,"last":4},{"first":6,"last":8}],"more":0,"far":0}
{"channel":2,"floor":1,"top":1,"missing":0,"held":0,"ranges":[],"more":0,"far":0}
{"request":{"channel":1,"first":3,"last":4}}
"#;
    run_on(&folder, &["gaps", "--json"], &capture).quiet(1, objects);
    run_on(&folder, &["gaps", "--json"], b"").quiet(0, "{\"request\":null}\n");
}

/// What two programs for JSON make of the objects are the lines that it prints without `--json`.
#[test]
fn json_has_what_the_lines_have() {
    let python = "import json, sys
for line in sys.stdin:
    o = json.loads(line)
    if 'request' in o:
        r = o['request']
        print('next request: ' + ('channel %d, %d to %d' % (r['channel'], r['first'], r['last']) if r else 'none'))
    else:
        s = 'channel %d: floor %d, top %d, missing %d' % (o['channel'], o['floor'], o['top'], o['missing'])
        runs = [str(r['first']) if r['first'] == r['last'] else '%d-%d' % (r['first'], r['last']) for r in o['ranges']]
        print(s + (': ' + ' '.join(runs) if runs else '') + (' and %d more' % o['more'] if o['more'] else ''))
";
    let jq = r#"
if has("request") then
  .request | if . then "next request: channel \(.channel), \(.first) to \(.last)" else "next request: none" end
else
  (.ranges | map(if .first == .last then "\(.first)" else "\(.first)-\(.last)" end) | join(" ")) as $runs
  | "channel \(.channel): floor \(.floor), top \(.top), missing \(.missing)"
    + (if $runs == "" then "" else ": \($runs)" end) + (if .more > 0 then " and \(.more) more" else "" end)
end"#;
    let folder = Folder::new();
    let dice = &mut Dice(10);
    let mut captures: Vec<_> = (0..3).map(|_| many_channels(dice)).collect();
    let even: Vec<u64> = (1..=25).map(|n| 2 * n).collect();
    captures.extend([sample(), Vec::new(), ticks(1, &even)]);
    for capture in captures {
        let lines = run_on(&folder, &["gaps"], &capture);
        let objects = run_on(&folder, &["gaps", "--json"], &capture);
        assert_eq!(lines.status, objects.status);
        assert_eq!(lines.error(), objects.error());
        for words in [["python3", "-c", python], ["jq", "-r", jq]] {
            if let Some(printed) = json_program(&words, &objects.out) {
                assert_eq!(printed, lines.out(), "{}", words[0]);
            }
        }
        // the far ticks of each channel are those of standard error
        let count = |object: &str| {
            object
                .trim_end_matches('}')
                .rsplit(':')
                .next()?
                .parse()
                .ok()
        };
        let far = objects.out().lines().filter(|o| o.contains("\"far\":"));
        let far = far.filter_map(|o| count(o).filter(|n: &u64| *n > 0));
        let said = lines.error().matches(" above the floor").count();
        assert_eq!(far.count(), said);
    }
}

/// A capture of the sample's kind, damaged in any way: it agrees with the listing's channel 100,
/// and counts as many far ticks as the listing has lines that answer 12.
#[test]
fn it_agrees_with_the_listing() {
    let folder = Folder::new();
    let dice = &mut Dice(8);
    for round in 0..40 {
        let capture = damaged(dice);
        let listed = run_on(&folder, &["list"], &capture);
        let told = run_on(&folder, &["gaps"], &capture);
        let lines = listed.out().lines();
        let counts: Vec<_> = lines.clone().last().unwrap().split(' ').collect();
        let far = lines.filter(|line| line.split(' ').nth(2) == Some("12"));
        let far = match far.count() {
            0 => String::new(),
            1 => "channel 100: 1 tick was more than 256 above".to_string(),
            n => format!("channel 100: {n} ticks were more than 256 above"),
        };
        assert!(told.error().contains(&far), "{round}: {}", told.error());
        assert_eq!(told.error().contains(" above the floor"), !far.is_empty());
        let (floor, top, missing) = (counts[5], counts[7], counts[9]);
        let start = format!("channel 100: floor {floor}, top {top}, missing {missing}");
        let mut lines = told.out().lines();
        let line = lines.find(|line| line.starts_with("channel 100: "));
        match line {
            Some(line) => assert!(line.starts_with(&start), "{round}: {line}"),
            None => assert_eq!((top, missing), ("0", "0"), "{round}"),
        }
    }
}

/// A capture of several channels, in some order, perhaps more than the table has places for.
fn many_channels(dice: &mut Dice) -> Vec<u8> {
    let channels = 1 + dice.below(40);
    let mut next = vec![1u64; channels];
    let mut capture = Vec::new();
    for _ in 0..dice.below(300) {
        let i = dice.below(channels);
        let channel = 10 * i as u16 + 1;
        // mostly the next one, now and then one left out, one far, one again
        let number = match dice.below(12) {
            0 => next[i] + 1,
            1 => next[i] + dice.below(300) as u64,
            2 => 1 + dice.below(next[i] as usize) as u64,
            _ => next[i],
        };
        capture.extend(match dice.below(20) {
            0 => announced(channel, number + 5),
            1 => resend(channel, [0, 4, 99][dice.below(3)]),
            2 => heartbeats(1),
            3 => vec![0; dice.below(40)],
            _ => tick_on(channel, number, b""),
        });
        next[i] = next[i].max(number + 1);
    }
    capture
}

/// The second program's sets and its table say the same.
#[test]
fn it_agrees_with_the_second_program() {
    let folder = Folder::new();
    let dice = &mut Dice(9);
    for round in 0..120 {
        let capture = match round % 3 {
            0 => damaged(dice),
            _ => many_channels(dice),
        };
        let mut lines = String::new();
        for gap in gaps(&capture).iter().take(32) {
            let (floor, top, missing) = (gap.floor.0, gap.top.0, gap.missing);
            let mut line = format!(
                "channel {}: floor {floor}, top {top}, missing {missing}",
                gap.channel.0
            );
            for (i, run) in gap.ranges.iter().take(20).enumerate() {
                line += [" ", ": "][usize::from(i == 0)];
                line += &match (run.first.0, run.last.0) {
                    (first, last) if first == last => first.to_string(),
                    (first, last) => format!("{first}-{last}"),
                };
            }
            if gap.ranges.len() > 20 {
                line += &format!(" and {} more", gap.ranges.len() - 20);
            }
            lines += &format!("{line}\n");
        }
        lines += &match next_request(&capture, true) {
            None => "next request: none\n".to_string(),
            Some((channel, run)) => format!(
                "next request: channel {}, {} to {}\n",
                channel.0, run.first.0, run.last.0
            ),
        };
        let ran = run_on(&folder, &["gaps"], &capture);
        assert_eq!(ran.out(), lines, "{round}");
    }
}
