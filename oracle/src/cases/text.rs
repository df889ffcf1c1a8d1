//! The text of cases: one line for each call; what it shows of two programs, and
//! where their texts differ.

use crate::answers::Answer;
use std::collections::{BTreeMap, BTreeSet};
use std::env;
use std::fmt::Write;
use std::panic::{catch_unwind, AssertUnwindSafe};

/// Bytes in hex; `-` for none.
pub fn hex(bytes: &[u8]) -> String {
    const DIGITS: &[u8; 16] = b"0123456789abcdef";
    if bytes.is_empty() {
        return "-".to_string();
    }
    let mut text = String::with_capacity(2 * bytes.len());
    for b in bytes {
        text.push(char::from(DIGITS[usize::from(b / 16)]));
        text.push(char::from(DIGITS[usize::from(b % 16)]));
    }
    text
}

pub fn joined(words: &[u64]) -> String {
    let words: Vec<String> = words.iter().map(u64::to_string).collect();
    words.join(" ")
}

/// A buffer to be lent, full of bytes that nobody writes on purpose.
pub fn lent(n: usize) -> Vec<u8> {
    vec![0xA5; n]
}

/// The text so far.
#[derive(Default)]
pub struct Text {
    pub out: String,
}

impl Text {
    pub fn case(&mut self, name: &str) {
        let _ = writeln!(self.out, "# {name}");
    }

    pub fn line<T>(&mut self, call: &str, answer: &Answer<T>, told: impl FnOnce(&T) -> String) {
        let number = answer.as_ref().err().copied().unwrap_or(0);
        let _ = write!(self.out, "{call} {number}");
        if let Ok(value) = answer {
            let _ = write!(self.out, " {}", told(value));
        }
        self.out.push('\n');
    }

    pub fn more(&mut self, words: &str) {
        let _ = writeln!(self.out, "  {words}");
    }

    /// The first n bytes of a buffer that was lent, and how many of the others
    /// changed.
    pub fn buffer(&mut self, before: &[u8], now: &[u8], n: usize) {
        let changed = match before[n..] == now[n..] {
            true => 0,
            false => {
                let rest = before[n..].iter().zip(&now[n..]);
                rest.filter(|(a, b)| a != b).count()
            }
        };
        let _ = writeln!(self.out, "  {} {changed}", hex(&now[..n]));
    }
}

/// How often each call of a text gave each number.
pub type Given = BTreeMap<String, BTreeMap<u32, u64>>;

/// Counts the calls of a text.
pub fn count(text: &str, given: &mut Given) {
    for line in text.lines().filter(|l| !l.starts_with(['#', ' '])) {
        let mut words = line.split(' ');
        let call = words.next().unwrap_or("");
        let number = words.next().and_then(|w| w.parse().ok());
        let number = number.expect("a call's line has its number");
        // The key is made once for each call.
        if !given.contains_key(call) {
            given.insert(call.to_string(), BTreeMap::new());
        }
        let counts = given.get_mut(call).expect("it stands there");
        *counts.entry(number).or_default() += 1;
    }
}

/// A call, and every number that it can give.
pub type Numbers = (&'static str, &'static [u32]);

/// The calls of a table that gave other numbers than it has.
pub fn untried(given: &Given, table: &[Numbers]) -> Vec<String> {
    let seen = |call: &str| -> BTreeSet<u32> {
        let counts = given.get(call);
        counts.map_or(BTreeSet::new(), |c| c.keys().copied().collect())
    };
    let wrong = table.iter().filter(|(call, numbers)| {
        let all: BTreeSet<u32> = numbers.iter().copied().collect();
        seen(call) != all
    });
    wrong
        .map(|(call, _)| format!("{call} gave {:?}", seen(call)))
        .collect()
}

/// The first lines of two texts that differ, each cut short, and the case that
/// they belong to.
pub fn difference(ours: &str, theirs: &str) -> Option<String> {
    if ours == theirs {
        return None;
    }
    let mut case = "generated, or the first one";
    let mut rest = theirs.lines();
    for line in ours.lines() {
        case = line.strip_prefix("# ").unwrap_or(case);
        let other = rest.next().unwrap_or("");
        if line != other {
            let from = line.bytes().zip(other.bytes()).take_while(|(a, b)| a == b);
            let from = from.count().saturating_sub(40);
            let cut = |l: &str| l.chars().skip(from).take(160).collect::<String>();
            let (line, other) = (cut(line), cut(other));
            return Some(format!(
                "case: {case}\nfrom column {from} on\nthe library: {line}\nthe oracle:  {other}"
            ));
        }
    }
    Some(format!("case: {case}\nthe library's text ends there"))
}

/// A number that the environment says, or else the default.
fn setting(name: &str, default: u64) -> u64 {
    env::var(name).map_or(default, |v| v.parse().expect("a number"))
}

/// As many generated cases as a run takes that does not say.
const INPUTS: u64 = 200_000;

/// Puts generated cases to two programs, each told by its seed and number:
/// `RK_INPUTS` of them of `RK_SEED` from `RK_FIRST` on, or one in so many where
/// cases are long. Panics at the first difference, and where a number of the
/// table was never given though the run was no shorter than one that does not
/// say how long.
pub fn compare(
    table: &[Numbers],
    one_in: u64,
    ours: impl Fn(u64, u64) -> String,
    theirs: impl Fn(u64, u64) -> String,
) {
    let inputs = setting("RK_INPUTS", INPUTS).div_ceil(one_in);
    let seed = setting("RK_SEED", 1);
    let first = setting("RK_FIRST", 0);
    let mut given = Given::new();
    for n in first..first + inputs {
        let again = format!("RK_SEED={seed} RK_FIRST={n} RK_INPUTS=1 shows it again");
        let made = catch_unwind(AssertUnwindSafe(|| (ours(seed, n), theirs(seed, n))));
        let Ok((ours, theirs)) = made else {
            panic!("a case can't be made: {again}");
        };
        if let Some(difference) = difference(&ours, &theirs) {
            panic!("the programs differ: {again}\n{difference}");
        }
        count(&theirs, &mut given);
    }
    println!("{inputs} cases of seed {seed} from {first} on: no difference");
    for (call, numbers) in &given {
        println!("{call} gave {numbers:?}");
    }
    let untried = untried(&given, table);
    let short = inputs < INPUTS / one_in;
    assert!(untried.is_empty() || short, "{untried:?}");
}

#[cfg(test)]
mod tests {
    use super::*;

    #[test]
    fn a_difference_is_told_with_its_case() {
        let ours = "# one\nread 0 a\n# two\nread 0 b\n";
        let told = difference(ours, "# one\nread 0 a\n# two\nread 6\n").expect("they differ");
        assert!(told.starts_with("case: two\n"), "{told}");
        assert!(difference(ours, "# one\n").is_some() && difference("# one\n", ours).is_some());
        assert_eq!(difference(ours, ours), None);
    }
}
