//! 001's tables: the fields behind 35 of the header, and those of each type.

/// CX, NX, Boolean, and the 21 bytes of a time.
#[derive(Clone, Copy, Debug, PartialEq, Eq)]
pub enum Form {
    Text(usize),
    Number(usize),
    Flag,
    Time,
}

use Form::{Flag, Number, Text, Time};

#[derive(Clone, Copy, Debug, PartialEq, Eq)]
pub struct Field {
    pub tag: u64,
    pub form: Form,
    pub required: bool,
}

const fn must(tag: u64, form: Form) -> Field {
    Field {
        tag,
        form,
        required: true,
    }
}

const fn may(tag: u64, form: Form) -> Field {
    Field {
        tag,
        form,
        required: false,
    }
}

/// The types of message: those of a session.
pub const TYPES: [u8; 7] = *b"A501234";

/// 2.2.2, behind the first three.
const HEADER: [Field; 7] = [
    must(49, Text(32)),
    must(56, Text(32)),
    must(34, Number(18)),
    may(43, Flag),
    may(97, Flag),
    must(52, Time),
    may(347, Text(16)),
];

/// 2.3.1 to 2.3.7. Of sequence reset "the heading decides": its type is 4.
fn own(kind: u8) -> Vec<Field> {
    match kind {
        b'A' => vec![
            must(98, Number(8)),
            must(108, Number(8)),
            may(141, Flag),
            may(789, Number(18)),
            may(553, Text(32)),
            may(554, Text(32)),
            must(1137, Text(8)),
            may(1407, Number(8)),
            may(1406, Text(32)),
        ],
        b'5' => vec![may(1409, Number(4)), may(58, Text(1_024))],
        b'0' | b'1' => vec![may(112, Text(32))],
        b'2' => vec![must(7, Number(18)), must(16, Number(18))],
        b'3' => vec![
            must(45, Number(18)),
            may(371, Number(6)),
            may(372, Text(16)),
            may(373, Number(5)),
            may(58, Text(1_024)),
        ],
        b'4' => vec![may(123, Flag), must(36, Number(18))],
        _ => vec![],
    }
}

/// The fields that 001 gives to a type, the header's first.
pub fn fields_of(kind: u8) -> Vec<Field> {
    [HEADER.to_vec(), own(kind)].concat()
}
