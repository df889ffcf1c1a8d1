//! The table of types: MsgType as a number, its four letters high byte first.

/// A logon.
pub const S001: u32 = u32::from_be_bytes(*b"S001");
/// A logout.
pub const S002: u32 = u32::from_be_bytes(*b"S002");
/// A heartbeat.
pub const S003: u32 = u32::from_be_bytes(*b"S003");
/// An announcement of a channel's last number.
pub const P001: u32 = u32::from_be_bytes(*b"P001");
/// A request to send ticks again, or a reply to one.
pub const P002: u32 = u32::from_be_bytes(*b"P002");
/// A market status, whose body is not judged.
pub const M101: u32 = u32::from_be_bytes(*b"M101");
/// A snapshot.
pub const M102: u32 = u32::from_be_bytes(*b"M102");
/// A tick.
pub const M201: u32 = u32::from_be_bytes(*b"M201");

/// All of them, in the table's order.
pub const ALL: [u32; 8] = [S001, S002, S003, P001, P002, M101, M102, M201];
