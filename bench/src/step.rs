//! STEP frames: read, written and scrubbed, ours beside plain Rust.

use crate::{done, number, plain_step as plain, Job};
use rietknoest_host::step::{self, Frame};
use std::hint::black_box;

const BEAT: &[u8] = b"49=SENDER\x0156=TARGET\x0134=17\x0152=20260121-09:30:00.123\x01";
const LOGON: &[u8] =
    b"49=BROKERONE\x0156=GATEWAYTWO\x0134=1\x0152=20260121-09:30:00.123\x0198=0\x01108=30\x01\
    141=Y\x01553=traderjoe\x01554=s3cretword\x011137=9\x011407=5\x011406=STEP1.00\x01";

/// The rows of the table.
pub fn rows() {
    for (input, kind, fields) in [("a heartbeat", b'0', BEAT), ("a logon", b'A', LOGON)] {
        let mut frame = vec![0; step::LONGEST];
        let len = plain::write(kind, fields, &mut frame).expect("a message");
        frame.truncate(len);
        let mut out = vec![0; len];
        assert_eq!(step::write(kind, fields, &mut out), Ok(len));
        assert_eq!(out, frame);
        let read = number(Frame::read(&frame, 0)).map(|f| (f.kind, f.place, f.fields.len(), f.len));
        assert_eq!(read, plain::read(&frame, 0));
        let (mut ours, mut theirs) = (frame.clone(), frame.clone());
        assert_eq!(number(step::scrub(&mut ours)), plain::scrub(&mut theirs));
        assert_eq!(ours, theirs);
        let job = |name| Job {
            name,
            input,
            bytes: len,
            goal: Some(1.6),
        };
        job("STEP read").race(
            "frame",
            len,
            || done(Frame::read(black_box(&frame), 0)),
            || done(plain::read(black_box(&frame), 0)),
        );
        job("STEP write").race(
            "frame",
            len,
            || done(step::write(kind, black_box(fields), &mut ours)),
            || done(plain::write(kind, black_box(fields), &mut theirs)),
        );
        job("STEP scrub").race(
            "frame",
            len,
            || {
                ours.copy_from_slice(&frame);
                done(step::scrub(black_box(&mut ours)));
            },
            || {
                theirs.copy_from_slice(&frame);
                done(plain::scrub(black_box(&mut theirs)));
            },
        );
    }
}
