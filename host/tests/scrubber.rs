//! A capture scrubbed while it arrives, held against the second program's `clean` over the whole:
//! generated captures and cuttings, refused calls among them.

use oracle::clean::cleaned;
use oracle::made::{self, Dice};
use rietknoest_host::{self as host, Refusal, Scrubber, KEPT};

/// How many frames of M101 a clean capture has.
fn unjudged(mut clean: &[u8]) -> u64 {
    let mut count = 0;
    while !clean.is_empty() {
        let frame = host::read(clean, 0).expect("a clean capture is frames end to end");
        count += u64::from(clean[..4] == *b"M101");
        clean = &clean[28 + frame.body_len as usize..];
    }
    count
}

/// What the calls of a capture come to, cut at random; some calls are first made with no room.
fn scrubbed(d: &mut Dice, capture: &[u8], size: usize) -> (Vec<u8>, [u64; 3]) {
    let mut scrubber = Scrubber::open();
    let (mut all, mut counts) = (Vec::new(), [0; 3]);
    let (mut at, mut waiting) = (0, 0);
    loop {
        let closing = at == capture.len() && d.once_in(2);
        let n = made::cut(d, size, capture.len() - at);
        let cut = &capture[at..at + n];
        let mut out = vec![0xA5; waiting + if closing { 0 } else { n }];
        let mut call = |out: &mut [u8]| {
            if closing {
                scrubber.close(out)
            } else {
                scrubber.clean(cut, out)
            }
        };
        if d.once_in(4) {
            match call(&mut []) {
                Err(refusal) => assert_eq!(refusal, Refusal::Room),
                Ok(done) => {
                    assert_eq!((done.bytes, done.frames), (0, 0));
                    at += if closing { 0 } else { n };
                    waiting = done.waiting as usize;
                    if closing {
                        return (all, counts);
                    }
                    continue;
                }
            }
        }
        let done = call(&mut out).expect("the room is enough");
        let bytes = done.bytes as usize;
        assert!(
            out[bytes..].iter().all(|b| *b == 0xA5),
            "written behind the frames"
        );
        all.extend(&out[..bytes]);
        counts[0] += done.frames;
        counts[1] += done.after_damage;
        counts[2] += done.unjudged;
        at += if closing { 0 } else { n };
        waiting = done.waiting as usize;
        assert!(waiting <= KEPT);
        assert_eq!(done.place as usize + waiting, at);
        if closing {
            assert_eq!(waiting, 0);
            assert_eq!(scrubber.clean(&[], &mut []), Err(Refusal::Closed));
            assert_eq!(scrubber.close(&mut []), Err(Refusal::Closed));
            return (all, counts);
        }
    }
}

#[test]
fn every_cutting_cleans_as_the_whole() {
    for case in 0..300 {
        let d = &mut Dice::new(29, case);
        let n = d.len(2_000);
        let most = d.of(&[40, 200, 9_000]);
        let capture = made::capture(d, n, most);
        let size = d.of(&[1, 30, 500, 10_000, 40_000]);
        let (clean, counts) = cleaned(&capture[..]);
        let (ours, told) = scrubbed(d, &capture, size);
        assert_eq!(ours, clean, "case {case}");
        let expected = [counts.frames, counts.after_damage, unjudged(&clean)];
        assert_eq!(told, expected, "case {case}");
    }
}
