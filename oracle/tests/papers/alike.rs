//! CR 13: which pairs of captures meet its premise, and what is equal of those
//! that do.

use crate::samples::*;
use oracle::alike::{captures_alike, end_to_end, frames_alike, lists_alike};
use oracle::alike::{pair, pair_of_captures, private_places};
use oracle::clean::cleaned;
use oracle::listing::listing;
use oracle::month::Month;
use oracle::numbers::Channel;
use oracle::scrub::scrub;
use oracle::walk::{records, CHANNEL};
use std::collections::BTreeSet;

fn order() -> Vec<u8> {
    m201(1, b"MD213", b'0', 139)
}

/// A frame, and its private bytes: from one place up to another.
type Layout = (Vec<u8>, Vec<(usize, usize)>);

/// A frame of each layout, with the places that docs/PRIVATE.md has.
fn layouts() -> Vec<Layout> {
    vec![
        (framed(b"S001", &s001()), vec![(24, 88)]),
        (framed(b"S002", &s002()), vec![(28, 284)]),
        (framed(b"S003", &[]), vec![]),
        (framed(b"P001", &p001()), vec![]),
        (framed(b"P002", &p002()), vec![(44, 76)]),
        (framed(b"M101", &m101()), vec![]),
        (framed(b"M102", &m102(1, b"MD001", 3)), vec![]),
        (framed(b"M102", &m102(13, b"MD210", 3)), vec![]),
        (
            framed(b"M201", &order()),
            vec![(88, 100), (100, 112), (144, 176)],
        ),
        (framed(b"M201", &trade(1)), vec![]),
        (framed(b"M201", &m201(1, b"MD299", b'0', 9)), vec![(69, 78)]),
        (framed(b"M201", &m201(1, b"MD213", b'F', 7)), vec![(69, 76)]),
        (framed(b"M201", &m201(1, b"MD217", b'4', 7)), vec![(69, 76)]),
        (framed(b"M201", &m201(1, b"MD299", b'F', 0)), vec![]),
    ]
}

#[test]
fn a_changed_byte_is_hidden_exactly_where_it_is_private() {
    for (frame, spans) in layouts() {
        let spans = spans.into_iter().flat_map(|(from, to)| from..to);
        let private: BTreeSet<usize> = spans.collect();
        assert_eq!(private_places(&frame), Some(private.clone()));
        assert!(frames_alike(&frame, &frame));
        for at in 0..frame.len() - 4 {
            let mut other = frame.clone();
            other[at] ^= 1;
            // Its sum is wrong: it does not read.
            assert!(!frames_alike(&frame, &other));
            assert!(!frames_alike(&other, &frame));
            let other = mended(other);
            assert_eq!(frames_alike(&frame, &other), private.contains(&at));
            assert_eq!(frames_alike(&other, &frame), private.contains(&at));
        }
    }
}

#[test]
fn lengths_and_counts_must_agree() {
    let short = framed(b"M201", &m201(1, b"MD299", b'0', 8));
    let long = framed(b"M201", &m201(1, b"MD299", b'0', 9));
    assert!(!frames_alike(&short, &long));
    // More than one frame, or a byte behind it, is no frame.
    let more = [&a()[..], b"\0"].concat();
    assert!(!frames_alike(&more, &more));
    assert_eq!(private_places(&more), None);
    assert!(lists_alike::<Vec<u8>>(&[], &[]));
    assert!(lists_alike(&[a(), long.clone()], &[a(), long.clone()]));
    assert!(!lists_alike(&[a(), a()], &[a()]));
    assert!(!lists_alike(&[a(), long.clone()], &[long, a()]));
}

#[test]
fn a_stray_byte_stands_outside() {
    let two = [a(), b()].concat();
    assert_eq!(end_to_end(&two), Some(vec![&two[..28], &two[28..]]));
    assert_eq!(end_to_end(&[]), Some(vec![]));
    assert!(captures_alike(&two, &two));
    for stray in [
        [a(), vec![0xFF], b()].concat(),
        [a(), b(), vec![0]].concat(),
        [vec![0], a()].concat(),
        two[..two.len() - 1].to_vec(),
    ] {
        assert_eq!(end_to_end(&stray), None);
        assert!(!captures_alike(&stray, &stray));
    }
}

#[test]
fn what_is_generated_meets_the_premise_and_differs() {
    let mut types = BTreeSet::new();
    let mut differ = 0;
    for n in 0..300 {
        let (ones, others) = pair(&mut Dice::new(13, n), 2_000, 300);
        assert!(lists_alike(&ones, &others));
        for (one, other) in ones.iter().zip(&others) {
            let changed = one != other;
            types.insert((one[..4].to_vec(), changed));
            differ += u32::from(changed);
        }
    }
    // Every type is among them, and those with private fields differ in them.
    assert_eq!(types.len(), 8 + 4);
    assert!(differ > 1_000, "{differ}");
}

#[test]
fn a_public_byte_that_differs_is_seen() {
    for n in 0..300 {
        let d = &mut Dice::new(14, n);
        let (ones, mut others) = pair(d, 800, 100);
        let i = d.len(others.len());
        let private = private_places(&others[i]).expect("a frame");
        let at = d.len(others[i].len() - 4);
        if !private.contains(&at) {
            others[i][at] = others[i][at].wrapping_add(1 + d.below(255) as u8);
            others[i] = mended(others[i].clone());
            assert!(!captures_alike(&ones.concat(), &others.concat()));
        }
    }
}

#[test]
fn such_captures_can_not_be_told_apart() {
    for n in 0..60 {
        let d = &mut Dice::new(15, n);
        let about = d.of(&[300, 3_000, 20_000]);
        let (one, other) = pair_of_captures(d, about, 200);
        assert!(captures_alike(&one, &other));
        assert_eq!(listing(&one), listing(&other));
        let (ours, theirs) = (records(&one), records(&other));
        assert_eq!(ours, theirs);
        let request = |walked: oracle::walk::Walked| walked.ledger.request(CHANNEL).1;
        assert_eq!(request(ours.1), request(theirs.1));
        assert_eq!(cleaned(&one), cleaned(&other));
        let page = || Month::started(&[CHANNEL, Channel(0), Channel(9_999)]).0;
        assert_eq!(page().add(&one), page().add(&other));
        let (mut one, mut other) = (one, other);
        let (n, m) = (scrub(&mut one), scrub(&mut other));
        assert_eq!(n, m);
        let n = n.expect("its first frame reads");
        assert_eq!(one[..n], other[..n]);
    }
}

#[test]
fn a_damaged_pair_may_be_told_apart() {
    // An order's name holds a whole frame, or spaces; then a byte is damaged.
    let mut one = framed(b"M201", &order());
    one[144..172].copy_from_slice(&a());
    let other = mended(with(&one, 144, 8, 0x2020_2020_2020_2020));
    let one = mended(one);
    assert!(captures_alike(&one, &other));
    assert_eq!(listing(&one), listing(&other));
    let damaged = |capture: &[u8]| with(capture, 0, 1, u64::from(b'N'));
    let (one, other) = (damaged(&one), damaged(&other));
    assert!(!captures_alike(&one, &other));
    assert_ne!(listing(&one), listing(&other));
}
