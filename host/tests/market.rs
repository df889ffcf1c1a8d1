//! The wrapper's names and layouts of market files, held against what the library answers: each
//! column damaged, each bar, each cut.

use std::io::Write;
use std::path::Path;
use std::process::{Command, Stdio};

use rietknoest_host::market::{
    check, length, spot, values, write, Fault, Form, Lines, Wrong, HEADER, LAYOUTS,
};

/// A column's bytes, right as they stand. Names hold bars and newlines.
fn right(form: Form) -> Vec<u8> {
    match form {
        Form::Constant(text) => text.into(),
        Form::Blank(n) => vec![b' '; n],
        Form::Number(n, 0) => format!("{:>n$}", 1).into(),
        Form::Number(n, d) => format!("{:>n$}", format!("-2.{:0d$}", 5)).into(),
        Form::Text(n) => format!("{:<n$}", &"TT"[..n.min(2)]).into(),
        Form::Name(n) => (0..n).map(|i| [b'|', b'\n', 0, 0xFF][i % 4]).collect(),
    }
}

fn line(layout: &[(&str, Form)]) -> Vec<u8> {
    let columns: Vec<_> = layout.iter().map(|(_, form)| right(*form)).collect();
    let mut line = columns.join(&b'|');
    line.push(b'\n');
    line
}

fn summed(mut file: Vec<u8>) -> Vec<u8> {
    file.extend(b"TRAILER|");
    let sum = file.iter().fold(0u8, |sum, b| sum.wrapping_add(*b));
    file.extend(format!("{sum:03}\n").bytes());
    file
}

/// One line of each type.
fn sample() -> Vec<u8> {
    let mut file = line(&HEADER);
    file[31] = b'4';
    for (_, layout) in LAYOUTS {
        file.extend(line(layout));
    }
    summed(file)
}

fn fault(wrong: Wrong, place: usize) -> Result<Lines, Fault> {
    Err(Fault { wrong, place })
}

#[test]
fn layouts_have_the_paper_s_lengths() {
    assert_eq!(length(&HEADER), 82);
    let lengths: Vec<_> = LAYOUTS.iter().map(|(_, layout)| length(layout)).collect();
    assert_eq!(lengths, [227, 128, 125, 149]);
}

#[test]
fn the_sample_is_sound_and_comes_back_from_its_values() {
    let file = sample();
    assert_eq!(check(&file), Ok(Lines(4)));
    let mut out = vec![0; file.len()];
    let n = values(&file, &mut out).expect("values");
    assert_eq!(n, 38 + 173 + 109 + 103 + 121);
    assert_eq!(
        values(&file, &mut vec![0; n - 1]),
        Err(Fault {
            wrong: Wrong::Room,
            place: 0
        })
    );
    let mut again = vec![0; file.len()];
    assert_eq!(write(&out[..n], &mut again), Ok(file.len()));
    assert_eq!(again, file);
    again.pop();
    assert_eq!(
        write(&out[..n], &mut again),
        Err(Fault {
            wrong: Wrong::Room,
            place: 0
        })
    );
}

#[test]
fn each_column_and_each_bar_is_looked_at() {
    let file = sample();
    let mut start = 0;
    let rows: [(&str, &[_]); 1] = [("header", &HEADER)];
    for (number, (layout, columns)) in rows.into_iter().chain(LAYOUTS).enumerate() {
        let wrong = if number == 0 {
            Wrong::Header
        } else {
            Wrong::Column
        };
        let mut at = start;
        for (i, column) in columns.iter().enumerate() {
            let end = at + column.1.width();
            let mut damaged = file.clone();
            damaged[at] = match column.1 {
                Form::Text(1) | Form::Name(_) => damaged[at],
                Form::Text(_) => b' ',
                _ => b'x',
            };
            // the first column of a line is its type
            let expected = match column.1 {
                Form::Text(1) | Form::Name(_) => Ok(Lines(4)),
                _ if i == 0 && number > 0 => fault(Wrong::LineType, at),
                _ => fault(wrong, at),
            };
            assert_eq!(check(&damaged), expected, "{layout} {}", column.0);
            let told = spot(&file, at).expect("a column");
            assert_eq!(
                (told.line, told.layout, told.column),
                (number, layout, *column)
            );
            assert!(!told.behind);
            let mut damaged = file.clone();
            damaged[end] = b'x';
            assert_eq!(
                check(&damaged),
                fault(wrong, end),
                "behind {layout} {}",
                column.0
            );
            assert!(spot(&file, end).expect("a column").behind);
            at = end + 1;
        }
        start = at;
    }
}

#[test]
fn each_cut_is_40_at_its_end() {
    let file = sample();
    for n in 0..file.len() {
        assert_eq!(check(&file[..n]), fault(Wrong::CutShort, n));
    }
    let mut longer = file.clone();
    longer.push(b'\n');
    assert_eq!(check(&longer), fault(Wrong::CutShort, file.len()));
}

#[test]
fn count_sum_and_size() {
    let mut file = line(&HEADER);
    file[31] = b'1';
    assert_eq!(check(&summed(file.clone())), fault(Wrong::Count, 0));
    file[31] = b'0';
    let mut sound = summed(file);
    assert_eq!(check(&sound), Ok(Lines(0)));
    let digit = sound.len() - 2;
    sound[digit] = if sound[digit] == b'9' {
        b'0'
    } else {
        sound[digit] + 1
    };
    assert_eq!(check(&sound), fault(Wrong::Sum, 0));
    assert_eq!(check(&vec![b' '; 65_537]), fault(Wrong::Large, 0));
    assert_eq!(check(&vec![b' '; 65_536]), fault(Wrong::Header, 0));
}

/// What the C program says of a file.
fn said_in_c(program: &Path, file: &[u8]) -> String {
    let mut child = Command::new(program)
        .stdin(Stdio::piped())
        .stdout(Stdio::piped())
        .spawn()
        .expect("the program");
    let mut input = child.stdin.take().expect("a pipe");
    input.write_all(file).expect("it reads all");
    drop(input);
    let output = child.wait_with_output().expect("its output");
    assert!(output.status.success());
    String::from_utf8(output.stdout).expect("text")
}

#[test]
fn c_gets_the_answers_that_rust_gets() {
    let root = Path::new(concat!(env!("CARGO_MANIFEST_DIR"), "/.."));
    let program = Path::new(env!("CARGO_TARGET_TMPDIR")).join("market");
    let built = Command::new("cc")
        .args(["-std=c11", "-Wall", "-Wextra", "-Werror", "-pedantic", "-I"])
        .arg(root.join("host/include"))
        .arg(root.join("host/tests/market.c"))
        .arg(root.join("build/librietknoest.a"))
        .arg("-o")
        .arg(&program)
        .status();
    assert!(built.expect("cc").success());
    let file = sample();
    let n = file.len();
    assert_eq!(
        said_in_c(&program, &file),
        format!("0 4\n0 544\n0 {n}\nsame\n")
    );
    for place in (0..n).step_by(7) {
        let mut damaged = file.clone();
        damaged[place] ^= 1;
        let answer = match check(&damaged) {
            Ok(_) => continue,
            Err(fault) => format!("{} {}\n", fault.wrong.number(), fault.place),
        };
        assert_eq!(said_in_c(&program, &damaged), answer);
    }
}
