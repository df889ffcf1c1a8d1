//! What a file that is no capture of the gateway may be, by its first bytes.

use crate::say;

/// Packets, not the bytes in them.
const PACKETS: &str = "this looks like a pcap file, which has packets; a capture has what they \
                       carry alone, without their headers";

const STEP: &[u8] = b"8=FIX";

/// The first bytes of a kind of file, and what is said of it.
const KINDS: [(&[u8], &str); 8] = [
    (b"\xA1\xB2\xC3\xD4", PACKETS),
    (b"\xD4\xC3\xB2\xA1", PACKETS),
    (b"\xA1\xB2\x3C\x4D", PACKETS),
    (b"\x4D\x3C\xB2\xA1", PACKETS),
    (
        b"\x0A\x0D\x0D\x0A",
        "this looks like a pcapng file, which has packets; a capture has what they carry alone, \
         without their headers",
    ),
    (
        b"\x1F\x8B",
        "this looks like a gzip file: unpack it first, as in 'gzip -dc FILE | rietknoest .. -'",
    ),
    (
        b"\x28\xB5\x2F\xFD",
        "this looks like a zstd file: unpack it first, as in 'zstd -dc FILE | rietknoest .. -'",
    ),
    (
        STEP,
        "this looks like a capture of the STEP line: scrub, check and explain take --step",
    ),
];

/// What is said of a file whose first bytes are of another kind.
fn kind(bytes: &[u8]) -> Option<&'static str> {
    let kind = KINDS.iter().find(|(start, _)| bytes.starts_with(start));
    kind.map(|(_, what)| *what)
}

pub fn is_of_another_kind(bytes: &[u8]) -> bool {
    kind(bytes).is_some()
}

/// A line on standard error if a file's first bytes are of another kind.
pub fn hint(name: &str, bytes: &[u8]) {
    if let Some(what) = kind(bytes) {
        say(&format!("{name}: {what}"));
    }
}

/// The same for a file that is said to be of the STEP line.
pub fn hint_for_step(name: &str, bytes: &[u8]) {
    if !bytes.starts_with(STEP) {
        hint(name, bytes);
    }
}
