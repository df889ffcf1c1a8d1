//! Market files: the library against oracle/, the second program, on the cases of
//! oracle/src/market, made by hand and generated.
//!
//! What it takes of the wrapper stands in `impl Answers` alone.

use oracle::cases::text::{compare, difference};
use oracle::market::cases::{by_hand, generated, Answers, Oracle, NUMBERS};
use oracle::market::Fault;
use rietknoest_host::market;

struct Library;

fn plain<T>(answer: Result<T, market::Fault>) -> Result<T, Fault> {
    answer.map_err(|fault| Fault {
        number: fault.wrong.number(),
        place: fault.place as u64,
    })
}

impl Answers for Library {
    fn check(&self, file: &[u8]) -> Result<u64, Fault> {
        plain(market::check(file)).map(|lines| lines.0 as u64)
    }

    fn values(&self, file: &[u8], out: &mut [u8]) -> Result<usize, Fault> {
        plain(market::values(file, out))
    }

    fn written(&self, values: &[u8], out: &mut [u8]) -> Result<usize, Fault> {
        plain(market::write(values, out))
    }
}

#[test]
fn files_made_by_hand() {
    if let Some(difference) = difference(&by_hand(&Library), &by_hand(&Oracle)) {
        panic!("the programs differ\n{difference}");
    }
}

#[test]
fn generated_files() {
    let ours = |seed, n| generated(&Library, seed, n);
    let theirs = |seed, n| generated(&Oracle, seed, n);
    compare(&NUMBERS, 50, ours, theirs);
}
