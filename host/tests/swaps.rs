//! Numbers are loaded at once: the code of `rk_read` has byte swaps. That rests on passes of the
//! compiler, which no proof covers: it joins the loads of single bytes into one only where they are
//! put together as `octets` does.

use std::path::Path;
use std::process::Command;

/// The machine code of a function of the library, as text: by objdump, or else by LLVM's.
fn code(function: &str) -> String {
    let library =
        Path::new(concat!(env!("CARGO_MANIFEST_DIR"), "/..")).join("build/librietknoest.so");
    for (tool, option) in [
        ("objdump", "--disassemble="),
        ("llvm-objdump", "--disassemble-symbols="),
    ] {
        let run = Command::new(tool)
            .arg(format!("{option}{function}"))
            .arg(&library)
            .output();
        if let Ok(output) = run {
            assert!(output.status.success(), "{tool}: {}", output.status);
            return String::from_utf8(output.stdout).expect("text");
        }
    }
    panic!("neither objdump nor llvm-objdump is there");
}

/// Instructions that swap the bytes of a number, on Arm and on x86-64.
fn swaps(code: &str) -> usize {
    const NAMES: [&str; 5] = ["rev", "rev16", "rev32", "bswap", "movbe"];
    code.lines()
        .filter(|line| {
            line.split_whitespace()
                .any(|word| NAMES.contains(&word.trim_end_matches(['l', 'q', 'w'])))
        })
        .count()
}

#[test]
fn read_swaps_bytes() {
    let code = code("rk_read");
    assert!(code.contains("<rk_read>:"), "rk_read is not in the library");
    // MsgType, BodyLength, CheckSum, SendingTime and MsgSeqNum of every frame
    let n = swaps(&code);
    assert!(n >= 5, "{n} byte swaps in rk_read: single bytes are loaded");
}
