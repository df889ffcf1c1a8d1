//! STEP frames: the library against oracle/, the second program, on the cases of oracle/src/step,
//! made by hand and generated.
//!
//! What it takes of the wrapper stands in `impl Answers` alone.

use oracle::cases::text::{compare, difference};
use oracle::step::cases::{by_hand, generated, Answers, Oracle, NUMBERS};
use oracle::step::{Answer, At, Frame};
use rietknoest_host::{step, Refusal};

struct Library;

fn plain<T>(answer: Result<T, Refusal>) -> Answer<T> {
    answer.map_err(Refusal::number)
}

impl Answers for Library {
    fn read(&self, bytes: &[u8], place: usize) -> Answer<Frame> {
        plain(step::Frame::read(bytes, place)).map(|f| Frame {
            kind: f.kind,
            fields: f.place,
            fields_length: f.fields.len(),
            length: f.len,
        })
    }

    fn field(&self, fields: &[u8], place: usize) -> Answer<At> {
        plain(step::field_at(fields, place)).map(|(f, next)| At {
            tag: f.tag,
            value: f.place,
            value_length: f.value.len(),
            next,
        })
    }

    fn write(&self, kind: u8, fields: &[u8], out: &mut [u8]) -> Answer<usize> {
        plain(step::write(kind, fields, out))
    }

    fn scrub(&self, buffer: &mut [u8]) -> Answer<usize> {
        plain(step::scrub(buffer))
    }
}

#[test]
fn frames_made_by_hand() {
    if let Some(difference) = difference(&by_hand(&Library), &by_hand(&Oracle)) {
        panic!("the programs differ\n{difference}");
    }
}

#[test]
fn generated_frames() {
    let ours = |seed, n| generated(&Library, seed, n);
    let theirs = |seed, n| generated(&Oracle, seed, n);
    compare(&NUMBERS, 10, ours, theirs);
}
