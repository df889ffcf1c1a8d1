//! `market`: sound files, faults and their places, and that no byte of a file is shown.

mod common;

use common::*;

const SAMPLE: &[u8] = include_bytes!("../samples/mktdth.txt");

/// The sample with bytes laid over it at a place.
fn with(place: usize, bytes: &[u8]) -> Vec<u8> {
    let mut file = SAMPLE.to_vec();
    file[place..place + bytes.len()].copy_from_slice(bytes);
    file
}

#[test]
fn a_sound_file() {
    let folder = Folder::new().with("m", SAMPLE);
    run(&folder, &["market", "m"]).quiet(0, "m: sound, 2 lines\n");
}

#[test]
fn each_number_is_told_with_its_place() {
    let large = vec![b' '; 65_537];
    let count = with(31, b"3");
    let behind = [SAMPLE, b"\n"].concat();
    let cases: [(&[u8], &str); 9] = [
        (&SAMPLE[..100], "40 at 100: the file ends where more is due"),
        (&behind, "40 at 446: bytes after the trailer"),
        (
            &with(16, b"7"),
            "41 at 16: header, BodyLength: not 10 spaces",
        ),
        (
            &with(82, b"MD402"),
            "42 at 82: a line begins with none of MD401, MD404, MD405, MD406, TRAILER",
        ),
        (
            &with(201, b"     08.150"),
            "43 at 201: line 1, MD401, HighPrice: not a number of 11 with 3 decimals",
        ),
        (
            &with(308, b"x"),
            "43 at 308: line 1, MD401, Timestamp: no bar or newline after it",
        ),
        (&count, "44: the header's count is not the number of lines"),
        (
            &with(444, b"x"),
            "45 at 444: the trailer is TRAILER, a bar, three digits and a newline",
        ),
        (&large, "47: the file is above 65536 bytes"),
    ];
    for (file, line) in cases {
        let folder = Folder::new().with("m", file);
        run(&folder, &["market", "m"]).quiet(1, &format!("m: {line}\n"));
    }
}

#[test]
fn the_sum_is_46_and_one_file_is_taken() {
    let wrong = with(443, &[if SAMPLE[443] == b'0' { b'1' } else { b'0' }]);
    let folder = Folder::new().with("m", &wrong);
    let line = "m: 46: the trailer's sum is not that of the bytes before it\n";
    run(&folder, &["market", "m"]).quiet(1, line);
    assert_eq!(run(&folder, &["market"]).status, Some(2));
    assert_eq!(run(&folder, &["market", "none"]).status, Some(2));
}

#[test]
fn standard_input_is_taken() {
    let folder = Folder::new();
    let told = "standard input: sound, 2 lines\n";
    run_on(&folder, &["market", "-"], SAMPLE).quiet(0, told);
    let told = "standard input: 40 at 100: the file ends where more is due\n";
    run_on(&folder, &["market", "-"], &SAMPLE[..100]).quiet(1, told);
}

#[test]
fn no_byte_of_the_file_is_shown() {
    let mark = b"SECRETMARKS";
    for place in [201, 88, 49] {
        let folder = Folder::new().with("m", &with(place, mark));
        let ran = run(&folder, &["market", "m"]);
        assert!(!ran.out().contains("SECRET") && !ran.error().contains("SECRET"));
    }
}
