//! Cases of market files: what answers them, and the text of their answers.

use super::made::{file, mended, spoil, summed, types};
use super::{behind, check, header, line, values, written};
use super::{Column, Fault, Kind, MOST, TYPES};
use crate::answers::Answer;
use crate::cases::text::{lent, Numbers, Text};
use crate::made::{about, Dice};

/// The three calls. A refused one leaves the lent buffer as it was.
pub trait Answers {
    fn check(&self, file: &[u8]) -> Result<u64, Fault>;
    fn values(&self, file: &[u8], out: &mut [u8]) -> Result<usize, Fault>;
    fn written(&self, values: &[u8], out: &mut [u8]) -> Result<usize, Fault>;
}

/// This program.
pub struct Oracle;

impl Answers for Oracle {
    fn check(&self, file: &[u8]) -> Result<u64, Fault> {
        check(file)
    }

    fn values(&self, file: &[u8], out: &mut [u8]) -> Result<usize, Fault> {
        values(file, out)
    }

    fn written(&self, values: &[u8], out: &mut [u8]) -> Result<usize, Fault> {
        written(values, out)
    }
}

/// Every number that each call can give.
pub const NUMBERS: [Numbers; 3] = [
    ("check", &[0, 40, 41, 42, 43, 44, 45, 46, 47]),
    ("values", &[0, 8, 40, 41, 42, 43, 44, 45, 46, 47]),
    ("written", &[0, 8, 40, 42, 43, 47]),
];

struct Run<'a, A: Answers> {
    answers: &'a A,
    text: Text,
}

impl<A: Answers> Run<'_, A> {
    fn line(&mut self, call: &str, answer: Result<u64, Fault>) {
        let number: Answer<u64> = answer.map_err(|fault| fault.number);
        self.text.line(call, &number, u64::to_string);
        if let Err(fault) = answer {
            self.text.more(&format!("at {}", fault.place));
        }
    }

    /// The check, and the values where there is no room for any.
    fn check(&mut self, file: &[u8]) {
        let answer = self.answers.check(file);
        self.line("check", answer);
        self.values(file, 0);
    }

    fn values(&mut self, file: &[u8], room: usize) -> Vec<u8> {
        let before = lent(room);
        let mut out = before.clone();
        let answer = self.answers.values(file, &mut out);
        self.line("values", answer.map(|n| n as u64));
        let n = answer.unwrap_or(0);
        self.text.buffer(&before, &out, n);
        out[..n].to_vec()
    }

    fn written(&mut self, values: &[u8], room: usize) -> Vec<u8> {
        let before = lent(room);
        let mut out = before.clone();
        let answer = self.answers.written(values, &mut out);
        self.line("written", answer.map(|n| n as u64));
        let n = answer.unwrap_or(0);
        self.text.buffer(&before, &out, n);
        out[..n].to_vec()
    }

    /// A file checked, its values taken, and the file written again from them.
    fn whole(&mut self, name: &str, file: &[u8]) {
        self.text.case(name);
        self.check(file);
        let values = self.values(file, file.len());
        if !values.is_empty() {
            let again = self.written(&values, file.len());
            assert!(again == file, "{name}: a sound file is written again");
            self.values(file, values.len() - 1);
            self.written(&values, file.len() - 1);
        }
    }
}

/// The text of the cases made by hand.
pub fn by_hand(answers: &impl Answers) -> String {
    let mut run = Run {
        answers,
        text: Text::default(),
    };
    sizes(&mut run);
    columns(&mut run);
    cuts(&mut run);
    rows(&mut run);
    two_faults(&mut run);
    values_by_hand(&mut run);
    run.text.out
}

/// The text of generated case n of a seed.
pub fn generated(answers: &impl Answers, seed: u64, n: u64) -> String {
    let mut run = Run {
        answers,
        text: Text::default(),
    };
    let d = &mut Dice::new(seed, n);
    let most = d.of(&[1, 4, 4, 4, 20, 20, 600]);
    let lines = d.len(most);
    let types = types(d, lines);
    let mut made = file(d, &types);
    let faults = d.of(&[0, 0, 1, 1, 1, 2, 3]);
    for _ in 0..faults {
        spoil(d, &mut made);
    }
    if faults > 0 && made.len() >= 94 && d.once_in(2) {
        made = summed(made);
    }
    run.check(&made);
    let room = about(d, made.len());
    let mut values = run.values(&made, room);
    if values.is_empty() {
        // values that nobody took from a file
        values = vec![b'A'; 38];
        values[21..30].copy_from_slice(&[0, 0, 0, 0, 0, 0, 0, 0, 3]);
    }
    if d.once_in(2) {
        let at = d.len(values.len());
        match d.below(5) {
            0 => values.truncate(at),
            3 => {
                // the same lines again, perhaps more than a file takes
                let lines = values[38..].to_vec();
                let times = d.of(&[1, 1, 2, 600]);
                values.extend(lines.repeat(times));
            }
            1 => values.push(d.draw() as u8),
            2 => values.insert(at, 1),
            _ => values[at] = d.of(&[0, 1, 2, 9, 10, b' ', 255]),
        }
    }
    run.written(&values, about(d, 2 * values.len()).min(2 * MOST));
    run.text.out
}

/// Files of every number of lines up to some, of one type and of all, up to the
/// last size that is taken, and one byte more.
fn sizes<A: Answers>(run: &mut Run<A>) {
    let d = &mut Dice::new(10, 0);
    run.whole("no lines", &file(d, &[]));
    for kind in TYPES {
        for lines in 1..=3 {
            let made = file(d, &vec![kind; lines]);
            run.whole(&format!("{lines} lines of MD{kind}"), &made);
        }
    }
    for lines in 1..=12 {
        let types = types(d, lines);
        let made = file(d, &types);
        run.whole(&format!("{lines} lines of any type"), &made);
    }
    let full = lines_of(MOST);
    let made = file(d, &full);
    assert_eq!(made.len(), MOST);
    run.whole("65,536 bytes", &made);
    run.whole("65,537 bytes, one left over", &[&made[..], b"\n"].concat());
    run.whole("65,537 bytes of nothing", &vec![0; MOST + 1]);
    run.whole("65,536 bytes of nothing", &vec![0; MOST]);
    for size in [
        MOST - 1,
        MOST,
        MOST + 1,
        MOST + 2,
        MOST + 3,
        MOST + 4,
        MOST + 5,
    ] {
        let types = lines_of(size);
        let made = file(d, &types);
        run.whole(
            &format!("a file of {size} bytes, sound but for that"),
            &made,
        );
        // Its values, which a file that is too large does not give, from two.
        let (front, rest) = types.split_at(types.len() / 2);
        let mut taken = run.values(&file(d, front), MOST);
        taken.extend(&run.values(&file(d, rest), MOST)[38..]);
        run.text.case(&format!("values of a file of {size} bytes"));
        run.written(&taken, size);
        run.written(&taken, size - 1);
        run.written(&taken, 0);
    }
}

/// Lines of 125 and of 128 bytes that make a file of that size with header and
/// trailer.
fn lines_of(size: usize) -> Vec<u16> {
    let fives = (0..128).find(|n| (size - 94 - 125 * n) % 128 == 0);
    let fives = fives.expect("125 and 128 have no common part");
    let fours = (size - 94 - 125 * fives) / 128;
    [vec![405; fives], vec![404; fours]].concat()
}

/// What a number's column may hold, of the right width or cut to it.
const NUMBERS_TRIED: &[&str] = &[
    "0", "00", "01", "-0", "-1", "1", "9", "+1", "1-", "--1", "- 1", "1 ", "1 1", "", "-", ".",
    "1e3", "0.000", "-0.000", "-0.001", "00.000", "0.00", "0.0000", ".500", "-.500", "1.", "1.5",
    "1.500", "01.500", "1.5 0", "1.-50", "1.50a", "1,500", "0x1", "1.500 ", "1..50", "1.5.0",
];

/// Each column of each row damaged, its bar or newline too, in a file whose sum
/// is right.
fn columns<A: Answers>(run: &mut Run<A>) {
    let d = &mut Dice::new(10, 1);
    for kind in TYPES {
        let made = file(d, &[kind, kind]);
        if kind == TYPES[0] {
            damaged(run, "header", &made, 0, &header());
        }
        let second = 82 + (made.len() - 94) / 2;
        damaged(run, &format!("MD{kind}"), &made, second, &line(kind));
    }
}

fn damaged<A: Answers>(run: &mut Run<A>, row: &str, made: &[u8], from: usize, columns: &[Column]) {
    let mut at = from;
    for (i, column) in columns.iter().enumerate() {
        let width = column.kind.width();
        let title = format!("{row}, {}", column.name);
        for tried in tries(column) {
            run.text.case(&format!("{title}: {} bytes", tried.len()));
            let mut file = made.to_vec();
            file[at..at + width].copy_from_slice(&tried);
            run.check(&summed(file));
        }
        for byte in [b' ', b'|', b'\n', b'}', 0] {
            if byte != behind(columns, i) {
                run.text.case(&format!("{title}: the byte behind it"));
                let mut file = made.to_vec();
                file[at + width] = byte;
                run.check(&summed(file));
            }
        }
        at += width + 1;
    }
}

/// Contents to try in a column.
fn tries(column: &Column) -> Vec<Vec<u8>> {
    let width = column.kind.width();
    let mut tried = vec![
        vec![b' '; width],
        vec![b'0'; width],
        vec![b'9'; width],
        vec![b'|'; width],
        vec![b'\n'; width],
        vec![0xFF; width],
    ];
    let mut late = vec![b' '; width];
    late[width - 1] = b'A';
    tried.push(late);
    match column.kind {
        Kind::Number(..) => {
            for text in NUMBERS_TRIED.iter().filter(|t| t.len() <= width) {
                tried.push(format!("{text:>width$}").into_bytes());
                tried.push(format!("{text:<width$}").into_bytes());
                tried.push(format!("{text:0>width$}").into_bytes());
            }
            let full = format!("{:9>width$}", ".999");
            tried.push(full.into_bytes()[..width].to_vec());
        }
        Kind::Constant(text) => {
            for i in 0..width {
                let mut other = text.as_bytes().to_vec();
                other[i] ^= 0x20;
                tried.push(other);
            }
        }
        _ => (),
    }
    tried
}

/// A file of one line of each type, cut at every byte; and every byte behind it.
fn cuts<A: Answers>(run: &mut Run<A>) {
    let d = &mut Dice::new(10, 2);
    let made = file(d, &TYPES);
    for n in 0..made.len() {
        run.text.case(&format!("cut at {n}"));
        run.check(&made[..n]);
    }
    for behind in [&b"\n"[..], b"T", b"TRAILER|000\n", b"MD401|"] {
        run.text.case("bytes left over");
        run.check(&[&made, behind].concat());
    }
}

/// Starts of rows, trailers, counts and sums.
fn rows<A: Answers>(run: &mut Run<A>) {
    let d = &mut Dice::new(10, 3);
    let made = file(d, &[401, 405]);
    let (front, end) = made.split_at(made.len() - 12);
    for word in [
        "MD400", "MD402", "MD403", "MD407", "md401", "MD4", "HEADER", "TRAILEX", "TRAIL", " MD401",
        "\n", "M", "", "TRAILER", "TRAILE",
    ] {
        for behind in ["", "|", "\n", "|000\n", "|00", "|0"] {
            run.text
                .case(&format!("a row that starts {word:?} {behind:?}"));
            run.check(&[front, word.as_bytes(), behind.as_bytes()].concat());
        }
        run.text.case(&format!("{word:?} before the trailer"));
        run.check(&[front, word.as_bytes(), end].concat());
    }
    for i in 0..12 {
        for byte in [b' ', b'0', b'9', b'|', b'\n', b'A', b'-'] {
            run.text.case(&format!("byte {i} of the trailer"));
            let mut file = made.clone();
            file[front.len() + i] = byte;
            run.check(&file);
        }
    }
    for digits in 0..1_000 {
        run.text.case(&format!("a sum of {digits}"));
        let mut file = made.clone();
        let at = front.len() + 8;
        file[at..at + 3].copy_from_slice(format!("{digits:03}").as_bytes());
        run.check(&file);
    }
    for count in [
        "    2", "    1", "    3", "    4", "   -2", "    0", "99999", "-9999",
    ] {
        run.text.case(&format!("a count of {count}"));
        let mut file = made.clone();
        file[27..32].copy_from_slice(count.as_bytes());
        run.check(&file);
        run.check(&summed(file));
    }
    for update in b'0'..=b'9' {
        run.text.case("MDUpdateType is any digit");
        let mut file = made.clone();
        file[71] = update;
        run.check(&summed(file));
    }
}

/// Two bytes wrong at once, in every pair of columns of a short file, its bars
/// and its end: the lowest place is told.
fn two_faults<A: Answers>(run: &mut Run<A>) {
    let d = &mut Dice::new(10, 4);
    let made = file(d, &[405]);
    let places: Vec<usize> = (0..made.len()).step_by(9).collect();
    for first in &places {
        for second in places.iter().filter(|p| *p > first) {
            run.text.case(&format!("bytes {first} and {second}"));
            let mut file = made.clone();
            file[*first] = b'\n';
            file[*second] = b'\n';
            run.check(&file);
            file.truncate(made.len() - 1);
            run.check(&file);
        }
    }
    let wrong_count = |file: &[u8]| mended(file.to_vec(), 7);
    run.text.case("44 alone");
    run.check(&wrong_count(&made));
    run.text.case("44 before 46");
    let mut both = made.clone();
    both[31] = b'7';
    run.check(&both);
    run.text.case("43 before 44 and 46");
    both[150] = b'x';
    run.check(&both);
    run.text.case("40 before 44 and 46");
    let mut left = made.clone();
    left[31] = b'7';
    left.push(b'\n');
    run.check(&left);
}

/// Values that no file gave, each value of each row out of its form, and cut.
fn values_by_hand<A: Answers>(run: &mut Run<A>) {
    let d = &mut Dice::new(10, 5);
    let made = file(d, &TYPES);
    run.text.case("values of one line of each type");
    let sound = run.values(&made, made.len());
    for n in 0..=sound.len() {
        run.text.case(&format!("{n} bytes of values"));
        run.written(&sound[..n], 2 * made.len());
    }
    for at in 0..sound.len() {
        for byte in [0, 1, 2, 10, b' ', 255] {
            run.text.case(&format!("byte {at} of the values is {byte}"));
            let mut values = sound.clone();
            values[at] = byte;
            let answer = run.answers.written(&values, &mut vec![0; made.len()]);
            run.line("written", answer.map(|n| n as u64));
        }
    }
    for kind in [0, 400, 402, 403, 407, 0x9101, u16::MAX] {
        run.text.case(&format!("a line of type {kind}"));
        let mut values = sound.clone();
        values[38..40].copy_from_slice(&kind.to_be_bytes());
        run.written(&values, made.len());
    }
}

#[cfg(test)]
mod tests {
    use super::*;
    use crate::cases::text::{count, untried, Given};
    use crate::market::{column_of, number_of, Number};

    #[test]
    fn every_number_of_every_call_is_given() {
        let mut given = Given::new();
        count(&by_hand(&Oracle), &mut given);
        assert_eq!(untried(&given, &NUMBERS), [""; 0]);
        let mut given = Given::new();
        for n in 0..1_500 {
            count(&generated(&Oracle, 1, n), &mut given);
        }
        assert_eq!(untried(&given, &NUMBERS), [""; 0]);
    }

    #[test]
    fn what_is_made_is_sound() {
        for case in 0..300 {
            let d = &mut Dice::new(3, case);
            let lines = d.len(20);
            let types = types(d, lines);
            let made = file(d, &types);
            assert_eq!(check(&made), Ok(lines as u64));
        }
    }

    /// What stands behind the lowest fault does not matter.
    #[test]
    fn the_lowest_place_is_told() {
        let mut told = 0;
        for case in 0..2_000 {
            let d = &mut Dice::new(7, case);
            let types = types(d, 3);
            let mut made = file(d, &types);
            spoil(d, &mut made);
            let Err(fault) = check(&made) else {
                continue;
            };
            // No column is wider than 32 bytes.
            let behind = fault.place as usize + 32;
            if [41, 42, 43, 45].contains(&fault.number) && behind < made.len() {
                told += 1;
                for byte in &mut made[behind..] {
                    *byte = d.of(b" 0|\nMDT");
                }
                assert_eq!(check(&made), Err(fault));
            }
        }
        assert!(told > 500, "{told}");
    }

    #[test]
    fn numbers() {
        let of = |text: &str, decimals| number_of(text.as_bytes(), decimals);
        let n = |minus, units| Some(Number { minus, units });
        assert_eq!(of("      1.500", 3), n(false, 1_500));
        assert_eq!(of("     -0.001", 3), n(true, 1));
        assert_eq!(of("      0.000", 3), n(false, 0));
        assert_eq!(of("9999999.999", 3), n(false, 9_999_999_999));
        assert_eq!(of("   12", 0), n(false, 12));
        for wrong in [
            "     -0.000",
            "     00.500",
            "       .500",
            "      1.50 ",
            "1.500      ",
            "           ",
            "       1.50",
            "     1.5000",
            "      1,500",
            "     +1.500",
        ] {
            assert_eq!(of(wrong, 3), None, "{wrong}");
        }
        for wrong in ["     ", "   -0", "   01", "  1.0", "1    ", "    -"] {
            assert_eq!(of(wrong, 0), None, "{wrong}");
        }
        // Each number has one column, and each sound column one number.
        for units in [0, 1, 999, 1_000, 1_001, 9_999_999_999] {
            for minus in [false, true] {
                let number = Number { minus, units };
                let wide = units > 999_999_999;
                let column = column_of(number, 11, 3);
                let fits = !(minus && (units == 0 || wide));
                assert_eq!(column.is_some(), fits, "{number:?}");
                if let Some(column) = column {
                    assert_eq!(number_of(&column, 3), Some(number));
                }
            }
        }
    }
}
