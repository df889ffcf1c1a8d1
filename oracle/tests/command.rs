//! The program itself: what it prints for what stands on standard input.

use std::io::Write;
use std::process::{Command, Stdio};

fn run(command: &str, input: &[u8]) -> (bool, Vec<u8>) {
    let mut child = Command::new(env!("CARGO_BIN_EXE_oracle"))
        .arg(command)
        .stdin(Stdio::piped())
        .stdout(Stdio::piped())
        .stderr(Stdio::null())
        .spawn()
        .expect("the program starts");
    let mut stdin = child.stdin.take().expect("it has an input");
    // A capture that is too long is not read to its end.
    let _ = stdin.write_all(input);
    drop(stdin);
    let output = child.wait_with_output().expect("it ends");
    (output.status.success(), output.stdout)
}

#[test]
fn list_prints_the_listing() {
    let hex = "53303033 0047FA7908DACB40 0000000000000001 00000000 0000008E FF \
               50303031 0047FA7908DACB40 0000000000000002 0000000C \
               0D 0064 0000000000000003 4E 00000058";
    let digits: Vec<u32> = hex.chars().filter_map(|c| c.to_digit(16)).collect();
    let capture: Vec<u8> = digits.chunks(2).map(|d| (d[0] * 16 + d[1]) as u8).collect();
    assert_eq!(capture.len(), 69);
    let expected = "0 S003 0 1 0 0 0 0\n\
                    28 ---- 2 0 0 0 0 0\n\
                    29 P001 0 2 100 3 0 3\n\
                    frames 2 refused 1 floor 0 top 3 missing 3\n";
    assert_eq!(run("list", &capture), (true, expected.as_bytes().to_vec()));
}

#[test]
fn list_takes_65536_bytes_and_no_more() {
    let empty = b"frames 0 refused 0 floor 0 top 0 missing 0\n".to_vec();
    assert_eq!(run("list", &[]), (true, empty));
    let noise = b"0 ---- 2 0 0 0 0 0\nframes 0 refused 1 floor 0 top 0 missing 0\n".to_vec();
    assert_eq!(run("list", &vec![0xFF; 65_536]), (true, noise));
    for size in [65_537, 200_000] {
        let over = b"capture over 65536 bytes\n".to_vec();
        assert_eq!(run("list", &vec![0xFF; size]), (true, over));
    }
}

#[test]
fn cases_prints_the_cases_made_by_hand() {
    let text = oracle::cases::by_hand(&oracle::answers::Oracle);
    assert_eq!(run("cases", &[]), (true, text.into_bytes()));
}

#[test]
fn other_words_are_refused() {
    assert_eq!(run("", &[]), (false, vec![]));
    assert_eq!(run("listing", &[]), (false, vec![]));
}
