//! The marked examples 1 to 12, and those by program only.

use crate::samples::*;
use oracle::answer::No;
use oracle::frame::read;
use oracle::ledger::Range;
use oracle::numbers::Tick;

fn range(first: u64, last: u64) -> Range {
    Range {
        first: Tick(first),
        last: Tick(last),
    }
}

#[test]
fn example_1_empty_input() {
    assert_eq!(reads(&[]), 1);
}

#[test]
fn example_2_23_bytes() {
    assert_eq!(reads(&a()[..23]), 1);
    assert_eq!(reads(&[0xFF; 23]), 1);
}

#[test]
fn example_3_a_reads() {
    let message = read(&a()).unwrap();
    assert_eq!(message.frame_length(), 28);
    assert_eq!(&message.msg_type, b"S003");
    assert_eq!(message.sending_time, TIME);
    assert_eq!(message.seq.0, 1);
    assert!(message.body.is_empty());
}

#[test]
fn example_4_a_ending_8f() {
    let mut bytes = a();
    bytes[27] = 0x8F;
    assert_eq!(reads(&bytes), 5);
}

#[test]
fn example_5_a_ending_0000018e() {
    let mut bytes = a();
    bytes[26] = 0x01;
    assert_eq!(reads(&bytes), 5);
}

#[test]
fn example_6_a_with_body_length_1() {
    let mut bytes = a();
    bytes[23] = 1;
    assert_eq!(reads(&bytes), 4);
}

#[test]
fn example_7_m101_at_the_limit() {
    let header = |length| {
        let mut bytes = framed(b"M101", &[])[..24].to_vec();
        oracle::bytes::put(&mut bytes, 20, 4, length);
        bytes
    };
    assert_eq!(reads(&header(8_165)), 3);
    assert_eq!(reads(&header(8_164)), 1);
}

#[test]
fn example_8_a_gap_and_its_filling() {
    let (ledger, answer) = fresh().tick(C, Tick(2));
    assert_eq!(answer, Ok(None));
    assert_eq!(ledger.missing(), (ledger, Ok(1)));
    let (ledger, answer) = ledger.request(C);
    assert_eq!(answer, Ok(range(1, 1)));
    let (_, answer) = ledger.tick(C, Tick(1));
    assert_eq!(answer, Ok(Some(range(1, 2))));
}

#[test]
fn example_9_tick_256() {
    assert_eq!(fresh().tick(C, Tick(256)).1, Ok(None));
}

#[test]
fn example_10_tick_257() {
    let (ledger, answer) = fresh().tick(C, Tick(257));
    assert_eq!(answer, Err(No::Far));
    assert_eq!(ledger.top, Tick(257));
    assert_eq!(ledger.request(C).1, Ok(range(1, 200)));
}

#[test]
fn example_11_nothing_is_missing() {
    let (ledger, answer) = fresh().announce(C, Tick(0));
    assert_eq!(answer, Ok(()));
    assert_eq!(ledger.request(C), (fresh(), Err(No::Whole)));
}

#[test]
fn example_12_broken_off_before_the_first_held() {
    let (ledger, _) = fresh().announce(C, Tick(300));
    let (ledger, _) = ledger.tick(C, Tick(100));
    assert_eq!(ledger.request(C).1, Ok(range(1, 99)));
}

#[test]
fn by_program_425_and_426_long_entries() {
    let most = framed(b"M102", &m102(13, b"MD210", 425));
    assert_eq!(most.len(), 28 + 8_148);
    assert_eq!(reads(&most), 0);
    let over = m102(13, b"MD210", 426);
    assert_eq!(over.len(), 8_167);
    assert_eq!(reads(&framed(b"M102", &over)), 3);
    assert_eq!(writes(&message(b"M102", &over), 9_000), 3);
}

#[test]
fn by_program_resend_5_to_4_and_5_to_0() {
    assert_eq!(reads(&framed(b"P002", &with(&p002(), 11, 8, 4))), 6);
    assert_eq!(reads(&framed(b"P002", &with(&p002(), 11, 8, 0))), 0);
}
