//! The declarations: the header, the Rust wrapper and the library say the same as the proved
//! crate's sources, and a C program that calls every function gets the wrapper's answers.

use oracle::cases::NUMBERS;
use oracle::made::{self, about, Dice, Ticks};
use oracle::step;
use rietknoest_host as host;
use rietknoest_host::{
    ChannelNumber, Channels, Entry, Fed, Ledger, Passing, Refusal, Scrubber, Session,
    SessionNumber, Stream, TickNumber, ToSend,
};
use std::cell::RefCell;
use std::collections::{BTreeMap, BTreeSet};
use std::fmt::Write as _;
use std::fs;
use std::io::{Read, Write as _};
use std::mem::size_of;
use std::path::{Path, PathBuf};
use std::process::{Command, Stdio};

fn root() -> &'static Path {
    Path::new(concat!(env!("CARGO_MANIFEST_DIR"), "/.."))
}

fn text_of(path: &str) -> String {
    fs::read_to_string(root().join(path)).expect(path)
}

/// Runs a command on an input and answers its output. It must succeed.
fn run(command: &mut Command, input: &[u8]) -> Vec<u8> {
    let mut child = command
        .stdin(Stdio::piped())
        .stdout(Stdio::piped())
        .spawn()
        .unwrap_or_else(|e| panic!("{command:?}: {e}"));
    let mut stdin = child.stdin.take().expect("a pipe");
    let input = input.to_vec();
    let feeding = std::thread::spawn(move || stdin.write_all(&input));
    let output = child.wait_with_output().expect("its output");
    feeding.join().expect("fed").expect("it reads all");
    assert!(output.status.success(), "{command:?}: {}", output.status);
    output.stdout
}

/// The modules of the crate that exports the library's functions, and how many each has.
const EXPORTS: [(&str, usize); 9] = [
    ("frames", 9),
    ("ledgers", 8),
    ("tables", 1),
    ("sessions", 7),
    ("captures", 6),
    ("streams", 5),
    ("step", 4),
    ("markets", 3),
    ("months", 2),
];

/// The numbers of a call on a table of channels and its answer: four, its number, and nine that it
/// tells.
const EXCHANGE: usize = 4 + 1 + 9;

/// The numbers that each call of a session gives, as the header says.
const SESSION_NUMBERS: [(&str, &[u32]); 6] = [
    ("session_begin", &[0, 13, 32, 33]),
    ("session_time", &[0, 13]),
    ("session_leave", &[0, 13, 30, 32]),
    ("session_ask", &[0, 13, 30, 32]),
    ("session_receive", &[0, 5, 13, 30, 31, 32, 33]),
    ("session_may_send", &[0, 13, 30, 32]),
];

/// Compiles a program against the header and the library.
fn compiled(compiler: &str, standard: &str, source: &str) -> PathBuf {
    let name = Path::new(source).file_stem().expect("a name");
    let program = Path::new(env!("CARGO_TARGET_TMPDIR")).join(name);
    let mut command = Command::new(compiler);
    command
        .args([standard, "-Wall", "-Wextra", "-Werror", "-pedantic"])
        .arg("-I")
        .arg(root().join("host/include"))
        .arg(root().join(source))
        .arg(root().join("build/librietknoest.a"))
        .arg("-o")
        .arg(&program);
    run(&mut command, b"");
    program
}

// THE SAME FUNCTIONS WITH THE SAME PARAMETERS AND ANSWERS

/// The text up to the bracket that closes.
fn in_brackets(text: &str) -> &str {
    &text[..text.find(')').expect("a closing bracket")]
}

/// A function's name, its parameters, and what stands behind their bracket up to the end of its
/// line.
fn parts(text: &str) -> (&str, Vec<&str>, &str) {
    let (name, rest) = text.split_once('(').expect("parameters");
    let parameters = in_brackets(rest);
    let behind = rest[parameters.len() + 1..].lines().next();
    let parameters = parameters.split(',').map(str::trim);
    (
        name,
        parameters.filter(|p| !p.is_empty()).collect(),
        behind.expect("the end of its line"),
    )
}

/// The functions behind a mark.
fn functions<'a>(text: &'a str, mark: &str) -> Vec<(&'a str, Vec<&'a str>, &'a str)> {
    let found = text.split(mark).skip(1).filter(|t| t.starts_with("rk_"));
    found.map(parts).collect()
}

/// What a declaration in Rust's manner answers.
fn answer_of(behind: &str) -> String {
    let answer = behind.trim_start().strip_prefix("-> ").unwrap_or("()");
    let end = answer.find([' ', ';', '{']).unwrap_or(answer.len());
    answer[..end].to_string()
}

/// Each by its name: its parameters' types, and the answer's.
type Functions = BTreeMap<String, (Vec<String>, String)>;

/// A row by how many numbers it has.
fn row(pointer: &str, numbers: usize) -> String {
    format!("*{pointer} {numbers} u64")
}

/// What a module of the proved crate exports, in its own words; a slice is a pointer and a length.
fn of_module(name: &str) -> Functions {
    let text = text_of(&format!("crates/rietknoest/src/{name}.rt"));
    let mut all = Functions::new();
    let mark = "#[unsafe(no_mangle)]\npub extern \"C\" fn ";
    for (name, parameters, behind) in functions(&text, mark) {
        let mut kinds = Vec::new();
        for p in parameters {
            let kind = p.split_once(": ").expect("a type").1;
            match kind {
                "&[u8]" => kinds.extend(["*const u8".into(), "usize".into()]),
                "&[u16]" => kinds.extend(["*const u16".into(), "usize".into()]),
                "&mut [u8]" => kinds.extend(["*mut u8".into(), "usize".into()]),
                "&mut u64" => kinds.push(row("mut", 1)),
                "&mut Channels" => kinds.push(row("mut", size_of::<Channels>() / 8)),
                "&mut Exchange" => kinds.push(row("mut", EXCHANGE)),
                _ if kind.starts_with('&') => {
                    let (of, numbers) = kind.split_once("; ").expect("a row");
                    let of = of.split_once('[').expect("a row").1;
                    let numbers = numbers.trim_end_matches(']');
                    let mutable = kind.starts_with("&mut");
                    let pointer = if mutable { "mut" } else { "const" };
                    kinds.push(format!("*{pointer} {numbers} {of}"));
                }
                _ => kinds.push(kind.into()),
            }
        }
        all.insert(name.into(), (kinds, answer_of(behind)));
    }
    all
}

fn of_header() -> Functions {
    let text = text_of("host/include/rietknoest.h");
    let mut rows = BTreeMap::from([("uint64_t", 1)]);
    for part in text.split("\nRK_SIZE(").skip(1) {
        let (name, numbers) = in_brackets(part).split_once(", ").expect("a row's size");
        rows.insert(name, numbers.parse().expect("a number"));
    }
    let number = |kind: &str| match kind {
        "size_t" => "usize".to_string(),
        "rk_finding" => "Finding".to_string(),
        "void" => "()".to_string(),
        _ => kind.replace("uint", "u").replace("_t", ""),
    };
    let mut all = Functions::new();
    // at the start of a line: one word, which is the answer's type, the name and a bracket
    for (end, _) in text.match_indices('\n') {
        let Some((answer, declared)) = text[end + 1..].split_once(' ') else {
            continue;
        };
        let is_function = |(name, _): (&str, &str)| name.starts_with("rk_") && is_word(name);
        if !is_word(answer) || !declared.split_once('(').is_some_and(is_function) {
            continue;
        }
        let (name, parameters, _) = parts(declared);
        let kinds = parameters.iter().map(|p| {
            let (kind, _) = p.rsplit_once([' ', '*']).expect("a type");
            let pointer = if kind.starts_with("const") {
                "const"
            } else {
                "mut"
            };
            let kind = kind.trim_start_matches("const ").trim();
            if let Some((_, numbers)) = p.split_once('[') {
                let numbers = numbers.trim_end_matches(']');
                return format!("*{pointer} {numbers} {}", number(kind));
            }
            match (p.contains('*'), kind) {
                (true, "uint8_t") => format!("*{pointer} u8"),
                (true, "uint16_t") => format!("*{pointer} u16"),
                (true, _) => row(pointer, rows[kind]),
                (false, _) => number(kind),
            }
        });
        all.insert(name.into(), (kinds.collect(), number(answer)));
    }
    all
}

fn is_word(text: &str) -> bool {
    text.bytes().all(|b| b.is_ascii_alphanumeric() || b == b'_')
}

fn of_wrapper() -> Functions {
    let text = text_of("host/src/raw.rs");
    let numbers = |name: &str| match name {
        "Frame" => size_of::<host::Frame>() / 8,
        "Span" => size_of::<host::Span>() / 8,
        "Field" => size_of::<host::Field>() / 8,
        "Ledger" => size_of::<Ledger>() / 8,
        "Passed" => size_of::<host::Passed>() / 8,
        "Request" => size_of::<host::Request>() / 8,
        "Settled" => size_of::<host::Settled>() / 8,
        "Cleaned" => size_of::<host::Cleaned>() / 8,
        "Fed" => size_of::<Fed>() / 8,
        "Scrubbed" => size_of::<host::Scrubbed>() / 8,
        "Session" => size_of::<Session>() / 8,
        "Channels" => size_of::<Channels>() / 8,
        "Exchange" => EXCHANGE,
        "Month" => size_of::<host::Month>() / 8,
        "FiguresRow" => 32 * size_of::<host::Figures>() / 8,
        "u64" => 1,
        // the rows that the wrapper keeps to itself
        _ => {
            let (_, fields) = text
                .split_once(&format!("struct {name} {{"))
                .expect("a struct");
            let fields = fields.split('}').next().expect("its end");
            fields.matches(": u64,").count()
        }
    };
    let mut all = Functions::new();
    for (name, parameters, behind) in functions(&text, "\n    fn ") {
        let kinds = parameters.iter().map(|p| {
            let kind = p.split_once(": ").expect("a type").1;
            match kind.split_once(' ') {
                Some((pointer, "[u64; 6]")) => row(&pointer[1..], 6),
                Some((pointer, "[u8; KEPT]")) => format!("{pointer} {} u8", host::KEPT),
                Some((pointer, name)) if name != "u8" && name != "u16" => {
                    row(&pointer[1..], numbers(name))
                }
                _ => kind.into(),
            }
        });
        all.insert(name.into(), (kinds.collect(), answer_of(behind)));
    }
    all
}

#[test]
fn everyone_declares_the_same_functions() {
    let mut exported = Functions::new();
    for (name, count) in EXPORTS {
        let functions = of_module(name);
        assert_eq!(functions.len(), count);
        // a market file's number and place come back as one struct, a table's stands beside the
        // call
        let answer = match name {
            "markets" => "Finding",
            "tables" => "()",
            _ => "u32",
        };
        assert!(functions.values().all(|(_, said)| said == answer));
        exported.extend(functions);
    }
    let names: BTreeSet<_> = exported.keys().cloned().collect();
    assert_eq!(symbols(&["--extern-only"], "a"), names, "the archive");
    assert_eq!(symbols(&["--dynamic"], "so"), names, "the shared library");
    assert_eq!(of_header(), exported, "the header");
    assert_eq!(of_wrapper(), exported, "the wrapper");
}

/// The functions that the library has for others.
fn symbols(which: &[&str], suffix: &str) -> BTreeSet<String> {
    let mut nm = Command::new("nm");
    nm.args(which)
        .args(["--defined-only", "--format=posix"])
        .arg(root().join(format!("build/librietknoest.{suffix}")));
    let symbols = String::from_utf8(run(&mut nm, b"")).expect("text");
    symbols
        .lines()
        .filter_map(|line| line.split_once(" T "))
        .map(|(name, _)| name.to_string())
        .collect()
}

/// The parts stand in the wrapper's stream as they do in the header's, which asserts the same size.
#[test]
fn a_stream_has_the_size_that_the_header_says() {
    assert_eq!(size_of::<Stream>(), 8 * 1_039);
}

#[test]
fn the_header_has_the_table_of_numbers() {
    let text = text_of("host/include/rietknoest.h");
    let (_, table) = text.split_once("enum rk_answer {").expect("the table");
    let table = table.split("};").next().expect("its end");
    let mut rows = vec!["RK_DONE = 0".to_string()];
    for r in Refusal::ALL {
        rows.push(format!("RK_{} = {}", r.name().to_uppercase(), r.number()));
    }
    let lines = table.lines().map(str::trim).filter(|l| !l.is_empty());
    let said: Vec<_> = lines
        .map(|l| l.split("/*").next().expect("a row"))
        .map(|l| l.trim().trim_end_matches(',').to_string())
        .collect();
    assert_eq!(said, rows);
}

/// The numbers of the types stand in the header as in the wrapper, and no other number is a type.
#[test]
fn the_header_has_the_table_of_types() {
    let text = text_of("host/include/rietknoest.h");
    let (_, table) = text.split_once("enum rk_msg_type {").expect("the table");
    let table = table.split("};").next().expect("its end");
    let lines = table.lines().map(str::trim).filter(|l| !l.is_empty());
    let said: Vec<_> = lines
        .map(|l| l.split("/*").next().expect("a row"))
        .map(|l| l.trim().trim_end_matches(',').to_string())
        .collect();
    let rows = host::types::ALL.map(|number| {
        let letters = number.to_be_bytes().map(char::from);
        format!("RK_{} = {number:#X}", String::from_iter(letters))
    });
    assert_eq!(said, rows);
    // the library knows these alone: it refuses a type by 2, and lengths by 4
    for number in host::types::ALL {
        let body = [0; 73];
        assert_ne!(host::private_spans(number, &body), Err(Refusal::Type));
        for other in [number ^ 1 << 31, number + 0x100] {
            assert_eq!(host::private_spans(other, &body), Err(Refusal::Type));
        }
    }
}

/// The records of a capture taken apart have what its listing has.
#[test]
fn a_record_has_the_numbers_of_its_line() {
    let capture = fs::read(root().join("crates/listing/stdin")).expect("the sample");
    let mut bytes = vec![0; host::records_room(capture.len())];
    let walked = host::walk(&capture, &mut bytes).expect("room");
    bytes.truncate(walked.records * host::RECORD);
    let mut lines = String::new();
    for r in host::records(&bytes) {
        let letters = String::from_utf8(r.msg_type.to_vec()).expect("text");
        let letters = if r.is_refused() { "----" } else { &letters };
        let numbers = (r.seq.value(), r.channel.value(), r.tick.value());
        let _ = writeln!(
            lines,
            "{} {letters} {} {} {} {} {} {}",
            r.place,
            r.answer,
            numbers.0,
            numbers.1,
            numbers.2,
            r.floor.value(),
            r.top.value()
        );
        assert_eq!(r.refusal().map_or(0, Refusal::number), r.answer);
        let frame = host::read(&capture, r.place as usize);
        assert_eq!(frame.is_err(), r.is_refused());
        let len = frame.map_or(0, |frame| frame.body_len);
        assert_eq!(u64::from(r.body_len), len);
    }
    let listing = text_of("crates/listing/stdout");
    assert!(listing.starts_with(&lines));
    assert_eq!(listing.lines().count(), lines.lines().count() + 1);
}

/// What the header says on the stack of a call at its declaration, in KB.
fn stack_of(header: &str, name: &str) -> usize {
    let declared = header.find(&format!(" {name}(")).expect(name);
    let comment = header[..declared].rfind("/*").expect("a comment");
    let words: Vec<_> = header[comment..declared].split_whitespace().collect();
    let said = words.windows(4).find(|w| w[1..] == ["KB", "of", "stack."]);
    said.map_or(2, |w| w[0].parse().expect("a number"))
}

/// Each call takes no more stack than the header says, and one that takes much is not said to take
/// little. Symbols are bound before the first call, which takes stack too.
#[test]
fn the_header_says_how_much_stack_a_call_takes() {
    let program = Path::new(env!("CARGO_TARGET_TMPDIR")).join("stack");
    let mut cc = Command::new("cc");
    cc.args([
        "-std=gnu11",
        "-Wall",
        "-Wextra",
        "-Werror",
        "-Wl,-z,now",
        "-I",
    ])
    .arg(root().join("host/include"))
    .arg(root().join("host/tests/stack.c"))
    .arg(root().join("build/librietknoest.a"))
    .args(["-lpthread", "-o"])
    .arg(&program);
    run(&mut cc, b"");
    let sample = fs::read(root().join("crates/listing/stdin")).expect("the sample");
    let taken = String::from_utf8(run(&mut Command::new(program), &sample)).expect("text");
    let header = text_of("host/include/rietknoest.h");
    let mut called = BTreeSet::new();
    for line in taken.lines() {
        let (name, bytes) = line.split_once(' ').expect("a name and a number");
        let bytes: usize = bytes.parse().expect("a number");
        assert!(bytes <= 1024 * stack_of(&header, name), "{line}");
        called.insert(name.to_string());
    }
    let all: BTreeSet<_> = of_header().into_keys().collect();
    assert_eq!(called, all);
    assert_eq!(stack_of(&header, "rk_stream_feed"), 2);
}

/// The header's version is that of all crates, as the pkg-config file and the command have it.
#[test]
fn the_header_has_the_version() {
    let text = text_of("host/include/rietknoest.h");
    let version = ["MAJOR", "MINOR", "PATCH"].map(|part| {
        let mark = format!("#define RK_VERSION_{part} ");
        let mut lines = text.lines().filter_map(|line| line.strip_prefix(&mark));
        let number = lines.next().expect("a row");
        assert_eq!(lines.next(), None, "{part} is defined once");
        number
    });
    assert_eq!(version.join("."), env!("CARGO_PKG_VERSION"));
}

/// C and Rust keep the same number beside a saved state.
#[test]
fn saved_states_have_one_form() {
    let row = format!("#define RK_STATE_FORM {}", rietknoest_host::STATE_FORM);
    let text = text_of("host/include/rietknoest.h");
    assert_eq!(text.lines().filter(|line| *line == row).count(), 1);
}

/// A refusal is told by its number from every other, and says in words what happened.
#[test]
fn a_refusal_has_a_number_and_words() {
    for r in Refusal::ALL {
        assert_eq!(Refusal::from_number(r.number()), Some(*r));
        assert_eq!(r.to_string(), format!("{}: {}", r.number(), r.words()));
    }
    let numbers = Refusal::ALL.iter().map(|r| r.number());
    assert!(numbers.clone().zip(numbers.skip(1)).all(|(a, b)| a < b));
    let words: BTreeSet<_> = Refusal::ALL.iter().map(|r| r.words()).collect();
    assert_eq!(words.len(), Refusal::ALL.len());
    assert_eq!(Refusal::Sum.to_string(), "5: the checksum differs");
    assert_eq!(Refusal::from_number(0), None);
    assert_eq!(Refusal::from_number(u32::MAX), None);
}

/// As the header says of a ledger that is lent zeroed.
#[test]
fn nine_zeros_are_a_fresh_ledger_for_channel_0() {
    let fresh = Ledger::open(ChannelNumber::new(0)).expect("a channel");
    assert_eq!(fresh.to_words(), [0; 9]);
}

// THE SAME ANSWERS

fn hex(bytes: &[u8]) -> String {
    if bytes.is_empty() {
        return "-".into();
    }
    bytes.iter().fold(String::new(), |mut s, b| {
        write!(s, "{b:02x}").expect("memory");
        s
    })
}

/// The lines for the C program, and what it should print for each.
#[derive(Default)]
struct Script {
    asked: String,
    expected: Vec<String>,
    given: BTreeSet<(&'static str, u32)>,
}

impl Script {
    /// A call with its numbers, and its answer: the numbers and the bytes that are told, and the
    /// ledger behind a call that has one.
    fn ask(
        &mut self,
        call: &'static str,
        asked: &str,
        answer: Result<(Vec<u64>, Option<&[u8]>), Refusal>,
        ledger: Option<&Ledger>,
    ) {
        writeln!(self.asked, "{call} {asked}").expect("memory");
        self.given
            .insert((call, answer.as_ref().err().map_or(0, |r| r.number())));
        let mut line = match answer {
            Err(refusal) => refusal.number().to_string(),
            Ok((numbers, bytes)) => {
                let mut line = "0".to_string();
                for n in numbers {
                    write!(line, " {n}").expect("memory");
                }
                if let Some(bytes) = bytes {
                    line += " ";
                    if !bytes.is_empty() {
                        line += &hex(bytes);
                    }
                }
                line
            }
        };
        if let Some(ledger) = ledger {
            line += " :";
            for word in ledger.to_words() {
                write!(line, " {word}").expect("memory");
            }
        }
        self.expected.push(line);
    }

    fn words(&mut self, ledger: &Ledger) {
        let words = ledger.to_words().map(|w| w.to_string()).join(" ");
        writeln!(self.asked, "words {words}").expect("memory");
        self.expected.push(String::new());
    }

    fn stream(&mut self, stream: &Stream) {
        let (words, ledger, kept) = stream.clone().into_parts();
        let numbers = words.into_iter().chain(ledger.to_words());
        let numbers: Vec<_> = numbers.map(|n| n.to_string()).collect();
        let end = kept.iter().rposition(|b| *b != 0).map_or(0, |at| at + 1);
        let kept = hex(&kept[..end]);
        writeln!(self.asked, "stream {} {kept}", numbers.join(" ")).expect("memory");
        self.expected.push(String::new());
    }
}

fn frames(s: &mut Script, d: &mut Dice) {
    let mut f = made::any_frame(d, &mut Ticks(0), 300);
    if d.once_in(2) {
        made::damage(d, &mut f);
    }
    f.extend(d.dull_bytes(3));
    let place = if d.once_in(4) { d.len(f.len() + 3) } else { 0 };
    let answer = host::read(&f, place).map(|r| {
        let row = [
            r.msg_type,
            r.sending_time,
            r.seq.value(),
            r.body_len,
            r.channel.value().into(),
            r.tick.value(),
            r.first.value(),
            r.last.value(),
            r.status,
        ];
        (row.to_vec(), None)
    });
    s.ask("read", &format!("{place} {}", hex(&f)), answer, None);
    let answer = host::search(&f, place).map(|found| (place_row(found), None));
    s.ask("search", &format!("{place} {}", hex(&f)), answer, None);
    let mut scrubbed = f.clone();
    let answer = host::scrub(&mut scrubbed);
    let answer = answer.map(|n| (vec![n as u64], Some(&scrubbed[..n])));
    s.ask("scrub", &hex(&f), answer, None);

    let (name, body) = made::any_body(d);
    let name = u32::from_be_bytes(name);
    let (time, seq) = (made::time(d), d.edge());
    let mut out = vec![0; about(d, body.len() + 28)];
    let asked = format!("{name} {time} {seq} {} {}", out.len(), hex(&body));
    let answer = host::write(name, time, SessionNumber::new(seq), &body, &mut out);
    let answer = answer.map(|n| (vec![n as u64], Some(&out[..n])));
    s.ask("write", &asked, answer, None);
    spans(s, name, &body);
}

fn spans(s: &mut Script, name: u32, body: &[u8]) {
    writeln!(s.asked, "private {name} {}", hex(body)).expect("memory");
    let spans = host::private_spans(name, body);
    let answer = spans.as_ref().err().map_or(0, |r| r.number());
    let mut line = String::new();
    for span in spans.unwrap_or_default() {
        write!(line, "0 {} {} {} ", span.place, span.len, span.fill).expect("memory");
    }
    s.expected.push(line + &answer.to_string());

    let broken = host::broken_field(name, body).map(|field| {
        let row = field.map_or(vec![0; 5], |f| vec![1, f.place, f.len, f.index, f.entry]);
        (row, None)
    });
    s.ask("broken", &format!("{name} {}", hex(body)), broken, None);

    writeln!(s.asked, "fields {}", hex(body)).expect("memory");
    let fields = host::tail_fields(body);
    let answer = fields.as_ref().err().map_or(0, |r| r.number());
    let mut line = String::new();
    for f in fields.unwrap_or_default() {
        write!(line, "0 {} {} {} {} ", f.place, f.len, f.text, f.hidden).expect("memory");
    }
    s.expected.push(line + &answer.to_string());
}

fn place_row(place: Option<usize>) -> Vec<u64> {
    match place {
        None => vec![0, 0],
        Some(place) => vec![1, place as u64],
    }
}

fn entries(s: &mut Script, d: &mut Dice) {
    let mut b = made::body(d, b"M102", &mut Ticks(0), 200);
    if d.once_in(2) {
        made::spoil_body(d, b"M102", &mut b);
    }
    if d.once_in(20) {
        b.resize(8_165, 0);
    }
    let answer = host::entries(&b).map(|steps| (vec![steps.place() as u64], None));
    s.ask("entries", &hex(&b), answer, None);
    let place = 73 + d.len(4) * d.of(&[10, 19]);
    let answer = host::entry(&b, place).map(|(entry, behind)| {
        let spelled = |kind| u64::from(u16::from_be_bytes(kind));
        let mut row = match entry {
            Entry::Index { kind, price } => vec![1, spelled(kind), price, 0, 0],
            Entry::Full {
                kind,
                price,
                size,
                position,
            } => vec![0, spelled(kind), price, size, position.into()],
        };
        row.push(behind as u64);
        (row, None)
    });
    s.ask("entry", &format!("{place} {}", hex(&b)), answer, None);
}

fn ledgers(s: &mut Script, d: &mut Dice) {
    let mut ledger = Ledger::from_words(made::any_words(d));
    s.words(&ledger);
    let channel = d.of(&[100, 0, 9_999, 10_000]);
    let opened = Ledger::open(ChannelNumber::new(channel));
    ledger = opened.unwrap_or(ledger);
    let answer = opened.map(|_| (vec![], None));
    s.ask("open", &channel.to_string(), answer, Some(&ledger));
    if d.once_in(2) {
        ledger = Ledger::from_words(made::any_words(d));
        s.words(&ledger);
    }
    for _ in 0..12 {
        let words = ledger.to_words();
        let other = d.draw() as u16;
        let own = words[0] as u16;
        let channel = d.of(&[own, own, own, own, other]);
        let (near, edge) = (words[1].wrapping_add(d.below(262)), d.edge());
        let n = d.of(&[near, near, near, edge]);
        let (its, tick) = (ChannelNumber::new(channel), TickNumber::new(n));
        match d.below(9) {
            0 => {
                let answer = ledger.announce(its, tick).map(|()| (vec![], None));
                s.ask("announce", &format!("{channel} {n}"), answer, Some(&ledger));
            }
            1 => {
                let answer = ledger.request(its);
                let answer = answer.map(|r| (vec![r.first.value(), r.last.value()], None));
                s.ask("request", &channel.to_string(), answer, Some(&ledger));
            }
            2 => {
                let first = d.of(&[words[7], words[7], n]);
                let status = d.of(&[4, 4, 1, 5, 99, 0]);
                let answer = ledger.reply(its, TickNumber::new(first), status);
                // the first number, those given up, a 0, and those passed
                let answer = answer.map(|s| {
                    let sets = s.given_up().chain([TickNumber::new(0)]).chain(s.passed());
                    let row = [s.first()].into_iter().chain(sets).map(TickNumber::value);
                    (row.collect(), None)
                });
                let asked = format!("{channel} {first} {status}");
                s.ask("reply", &asked, answer, Some(&ledger));
            }
            3 => {
                let answer = ledger.status().map(|t| {
                    let asked = t
                        .pending
                        .map_or([0, 0], |r| [r.first, r.last].map(TickNumber::value));
                    let row = [
                        t.channel.value().into(),
                        t.floor.value(),
                        t.top.value(),
                        t.missing,
                        t.held,
                        asked[0],
                        asked[1],
                    ];
                    (row.to_vec(), None)
                });
                s.ask("told", "", answer, Some(&ledger));
            }
            4 => {
                let (near, edge) = (words[1].wrapping_add(d.below(262)), d.edge());
                let to = d.of(&[near, near, words[2], edge]);
                let answer = ledger.missing_between(its, tick, TickNumber::new(to));
                let answer = answer.map(|count| (vec![count], None));
                s.ask(
                    "missing",
                    &format!("{channel} {n} {to}"),
                    answer,
                    Some(&ledger),
                );
            }
            5 => {
                let answer = ledger.renew().map(|()| (vec![], None));
                s.ask("renew", "", answer, Some(&ledger));
            }
            _ => {
                let answer = ledger.tick(its, tick);
                let answer = answer.map(|p| (vec![p.first.value(), p.count], None));
                s.ask("tick", &format!("{channel} {n}"), answer, Some(&ledger));
            }
        }
    }
}

fn captures(s: &mut Script, d: &mut Dice) {
    let n = d.len(1_500);
    let capture = made::capture(d, n, 40);
    let mut ledger = Ledger::from_words(made::any_words(d));
    s.words(&ledger);

    let mut records = vec![0; host::records_room(capture.len())];
    let whole = host::walk(&capture, &mut records).expect("room for all");
    records.truncate(about(d, whole.records * host::RECORD));
    let asked = format!("{} {}", records.len(), hex(&capture));
    let walked = host::walk(&capture, &mut records);
    ledger = walked.map_or(ledger, |w| w.ledger);
    let answer = walked.map(|w| {
        let row = vec![w.records as u64, w.frames, w.refused];
        (row, Some(&records[..w.records * host::RECORD]))
    });
    s.ask("walk", &asked, answer, Some(&ledger));

    record(s, &records[..records.len().min(host::RECORD)]);
    let mut text = vec![0; host::text_room(records.len() / host::RECORD)];
    let room = host::lines(&records, &mut text).expect("room for all");
    text.truncate(about(d, room));
    let asked = format!("{} {}", text.len(), hex(&records));
    let answer = host::lines(&records, &mut text);
    let answer = answer.map(|n| (vec![n as u64], Some(&text[..n])));
    s.ask("lines", &asked, answer, None);

    let counts = host::Walked { ledger, ..whole };
    let mut text = vec![0; host::text_room(records.len() / host::RECORD)];
    let room = host::listing(&records, &counts, &mut text).unwrap_or(0);
    text.truncate(about(d, room));
    let asked = format!(
        "{} {} {} {}",
        counts.frames,
        counts.refused,
        text.len(),
        hex(&records)
    );
    let answer = host::listing(&records, &counts, &mut text);
    let answer = answer.map(|n| (vec![n as u64], Some(&text[..n])));
    s.ask("listing", &asked, answer, Some(&ledger));

    let mut out = vec![0; about(d, capture.len())];
    let asked = format!("{} {}", out.len(), hex(&capture));
    let cleaned = host::clean(&capture, &mut out);
    let joined = &out[..cleaned.map_or(0, |c| c.bytes as usize)];
    let answer = cleaned.map(|c| (vec![c.bytes, c.frames, c.after_damage], Some(joined)));
    s.ask("clean", &asked, answer, None);
    is_clean(s, joined);
    is_clean(s, &capture);
}

/// A record, or 1 if it is cut short: the wrapper takes whole ones alone.
fn record(s: &mut Script, bytes: &[u8]) {
    let answer = match bytes.try_into() {
        Ok(bytes) => {
            let r = host::Record::of(bytes);
            let letters = u64::from(u32::from_be_bytes(r.msg_type));
            let [seq, tick, channel] = [r.seq.value(), r.tick.value(), r.channel.value().into()];
            let head = vec![r.place, letters, r.answer.into(), seq, tick, channel];
            let (floor, top) = (r.floor.value(), r.top.value());
            let row = [head, vec![r.body_len.into(), floor, top]].concat();
            Ok((row, None))
        }
        Err(_) => Err(Refusal::More),
    };
    s.ask("record", &hex(bytes), answer, None);
}

fn is_clean(s: &mut Script, capture: &[u8]) {
    let answer = Ok((place_row(host::first_unclean(capture)), None));
    s.ask("is_clean", &hex(capture), answer, None);
}

/// A stream as the C program prints it: its numbers, and the bytes that wait; those behind them are
/// 0.
fn shown(stream: &Stream, waiting: u64) -> String {
    let (words, ledger, kept) = stream.clone().into_parts();
    let mut line = " :".to_string();
    for word in words.into_iter().chain(ledger.to_words()) {
        write!(line, " {word}").expect("memory");
    }
    let (waiting, behind) = kept.split_at(waiting as usize);
    assert!(behind.iter().all(|b| *b == 0));
    let waiting = if waiting.is_empty() {
        String::new()
    } else {
        hex(waiting)
    };
    format!("{line} {waiting}")
}

/// A call on a stream: beside 0 the numbers and the records that are told, and the stream behind
/// it.
fn call_stream(s: &mut Script, d: &mut Dice, stream: &mut Stream, cut: Option<&[u8]>) {
    let call = |stream: &mut Stream, records: &mut [u8]| match cut {
        Some(cut) => stream.feed(cut, records),
        None => stream.close(records),
    };
    let mut records = vec![0; host::records_room(host::KEPT + cut.map_or(0, <[u8]>::len))];
    let needed = call(&mut stream.clone(), &mut records).map_or(0, |fed| fed.records as usize);
    records.truncate(about(d, needed * host::RECORD));
    let (name, asked) = match cut {
        Some(cut) => ("feed", format!("{} {}", records.len(), hex(cut))),
        None => ("close", records.len().to_string()),
    };
    let answer = call(stream, &mut records);
    s.ask(
        name,
        &asked,
        answer.map(|fed| {
            let row = vec![fed.records, fed.frames, fed.refused, fed.place, fed.waiting];
            let given = fed.records as usize * host::RECORD;
            (row, Some(&records[..given]))
        }),
        None,
    );
    if let (Ok(fed), Some(line)) = (answer, s.expected.last_mut()) {
        line.push_str(&shown(stream, fed.waiting));
    }
}

/// A call that cleans: beside 0 the numbers and the bytes that are told, and the stream behind it.
fn call_scrubber(s: &mut Script, d: &mut Dice, stream: &mut Stream, cut: Option<&[u8]>) {
    let call = |stream: &mut Stream, out: &mut [u8]| {
        let mut scrubber = Scrubber::from_stream(stream.clone());
        let answer = match cut {
            Some(cut) => scrubber.clean(cut, out),
            None => scrubber.close(out),
        };
        *stream = scrubber.into_stream();
        answer
    };
    let mut out = vec![0; host::KEPT + cut.map_or(0, <[u8]>::len)];
    let needed = call(&mut stream.clone(), &mut out).map_or(0, |done| done.bytes as usize);
    let mut out = vec![0; about(d, needed)];
    let (name, asked) = match cut {
        Some(cut) => ("stream_clean", format!("{} {}", out.len(), hex(cut))),
        None => ("stream_clean_close", out.len().to_string()),
    };
    let answer = call(stream, &mut out);
    s.ask(
        name,
        &asked,
        answer.map(|done| {
            let row = vec![
                done.bytes,
                done.frames,
                done.after_damage,
                done.unjudged,
                done.place,
                done.waiting,
            ];
            (row, Some(&out[..done.bytes as usize]))
        }),
        None,
    );
    if let (Ok(done), Some(line)) = (answer, s.expected.last_mut()) {
        line.push_str(&shown(stream, done.waiting));
    }
}

fn scrubbers(s: &mut Script, d: &mut Dice) {
    let mut stream = Stream::open();
    s.asked += "stream_open\n";
    s.expected.push(format!("0{}", shown(&stream, 0)));
    let n = d.len(1_000);
    let most = d.of(&[40, 200, 9_000]);
    let mut capture = made::capture(d, n, most);
    capture.truncate(20_000);
    let size = d.of(&[100, 500, 10_000]);
    let mut at = 0;
    while at < capture.len() {
        let n = made::cut(d, size, capture.len() - at);
        call_scrubber(s, d, &mut stream, Some(&capture[at..at + n]));
        at += n;
    }
    for cut in [None, Some(&capture[..]), Some(&[]), None] {
        call_scrubber(s, d, &mut stream, cut);
    }
}

fn streams(s: &mut Script, d: &mut Dice) {
    let mut stream = Stream::open();
    s.asked += "stream_open\n";
    s.expected.push(format!("0{}", shown(&stream, 0)));
    let n = d.len(1_000);
    let most = d.of(&[40, 200, 9_000]);
    let mut capture = made::capture(d, n, most);
    capture.truncate(20_000);
    let size = d.of(&[100, 500, 10_000]);
    let mut at = 0;
    while at < capture.len() {
        let n = made::cut(d, size, capture.len() - at);
        call_stream(s, d, &mut stream, Some(&capture[at..at + n]));
        at += n;
        if d.once_in(4) {
            // one call on a stream that was changed by other hands
            let (mut words, ledger, mut kept) = stream.clone().into_parts();
            let mut ledger = ledger.to_words();
            made::spoil_stream(d, &mut words, &mut ledger, &mut kept);
            let mut other = Stream::from_parts(words, Ledger::from_words(ledger), kept);
            s.stream(&other);
            let n = d.len(capture.len() - at + 1);
            let cut = &capture[at..at + n];
            let cut = d.of(&[Some(cut), None]);
            call_stream(s, d, &mut other, cut);
            s.stream(&stream);
        }
    }
    for cut in [None, Some(&capture[..]), Some(&[]), None] {
        call_stream(s, d, &mut stream, cut);
    }
}

/// A call on a session, and the session behind it.
fn call_session(
    s: &mut Script,
    call: &'static str,
    asked: &str,
    answer: Result<Vec<u64>, Refusal>,
    session: &Session,
) {
    s.ask(call, asked, answer.map(|row| (row, None)), None);
    let line = s.expected.last_mut().expect("a line");
    line.push_str(" :");
    for word in session.to_words() {
        write!(line, " {word}").expect("memory");
    }
}

/// What is to be sent as the C program prints it, with 0 for a line that is not dead.
fn sent(send: ToSend) -> Vec<u64> {
    let (msg_type, seq) = send.frame().unwrap_or((0, SessionNumber::new(0)));
    vec![msg_type.into(), seq.value(), 0]
}

/// A frame of this type and number, at times damaged.
fn arrived(d: &mut Dice, name: &[u8; 4], seq: u64) -> Vec<u8> {
    let mut body = vec![b'1'; if name == b"S001" { 74 } else { 260 }];
    match name {
        b"S001" => body[64..66].copy_from_slice(&[0, d.of(&[1, 2, 30])]),
        b"S002" => body[..4].copy_from_slice(&[0; 4]),
        _ => body.clear(),
    }
    let mut f = vec![0; body.len() + 28];
    let (name, seq) = (u32::from_be_bytes(*name), SessionNumber::new(seq));
    host::write(name, 20260121093000000, seq, &body, &mut f).expect("a frame");
    if d.once_in(10) {
        let last = f.len() - 1;
        f[last] ^= 1;
    }
    f
}

fn sessions(s: &mut Script, d: &mut Dice) {
    let mut session = Session::open();
    call_session(s, "session_open", "", Ok(vec![]), &session);
    let mut time = 0;
    for turn in 0..30 {
        let words = session.to_words();
        time = d.of(&[time, time + 1, time + 1_000, time + 2_001, words[3] / 2]);
        let asked = time.to_string();
        if d.once_in(12) {
            // one call on a session that was changed by other hands
            let mut other = words;
            other[d.below(8) as usize] = d.edge();
            session = Session::from_words(other);
            let said = other.map(|w| w.to_string()).join(" ");
            writeln!(s.asked, "session {said}").expect("memory");
            s.expected.push(String::new());
        }
        let call = if turn == 0 { 0 } else { d.below(12) };
        match call {
            0 => {
                let answer = session.begin(time).map(sent);
                call_session(s, "session_begin", &asked, answer, &session);
            }
            1 | 2 => {
                let answer = session.time(time).map(|passing| match passing {
                    Passing::Send(send) => sent(send),
                    Passing::Dead => vec![0, 0, 1],
                });
                call_session(s, "session_time", &asked, answer, &session);
            }
            3 => {
                let answer = session.ask(time).map(sent);
                call_session(s, "session_ask", &asked, answer, &session);
            }
            4 if d.once_in(3) => {
                let answer = session.leave(time).map(sent);
                call_session(s, "session_leave", &asked, answer, &session);
            }
            5 => {
                let answer = session.may_send(time).map(|()| vec![]);
                call_session(s, "session_may_send", &asked, answer, &session);
            }
            _ => {
                let name = match words[0] {
                    1 => d.of(&[b"S001", b"S001", b"S001", b"S002", b"S003"]),
                    _ => d.of(&[b"S003", b"S003", b"S003", b"S003", b"S001", b"S002"]),
                };
                let seq = if d.once_in(6) { d.edge() } else { words[2] };
                let f = arrived(d, name, seq);
                let answer = session.receive(time, &f).map(|arrival| {
                    let mut row = sent(arrival.send);
                    row.push(arrival.len as u64);
                    row
                });
                let asked = format!("{time} {}", hex(&f));
                call_session(s, "session_receive", &asked, answer, &session);
            }
        }
        if session.to_words() != words && session.may_send(time) == Err(Refusal::State) {
            session = Session::from_words(words);
            let said = words.map(|w| w.to_string()).join(" ");
            writeln!(s.asked, "session {said}").expect("memory");
            s.expected.push(String::new());
        }
    }
}

/// Answers as the wrapper does, and asks C the same.
struct Asking(RefCell<Script>);

impl Asking {
    fn ask(
        &self,
        call: &'static str,
        asked: &str,
        answer: Result<(Vec<u64>, Option<&[u8]>), Refusal>,
    ) {
        self.0.borrow_mut().ask(call, asked, answer, None);
    }
}

impl step::cases::Answers for Asking {
    fn read(&self, bytes: &[u8], place: usize) -> step::Answer<step::Frame> {
        let answer = host::step::Frame::read(bytes, place);
        let told = answer.map(|f| {
            let row = [f.kind.into(), f.place, f.fields.len(), f.len].map(|n: usize| n as u64);
            (row.to_vec(), None)
        });
        self.ask("step_read", &format!("{place} {}", hex(bytes)), told);
        let frame = answer.map(|f| step::Frame {
            kind: f.kind,
            fields: f.place,
            fields_length: f.fields.len(),
            length: f.len,
        });
        frame.map_err(Refusal::number)
    }

    fn field(&self, fields: &[u8], place: usize) -> step::Answer<step::At> {
        let answer = host::step::field_at(fields, place);
        let told = answer.map(|(f, next)| {
            let row = [f.place, f.value.len(), next].map(|n| n as u64);
            ([&[f.tag][..], &row].concat(), None)
        });
        self.ask("step_field", &format!("{place} {}", hex(fields)), told);
        let at = answer.map(|(f, next)| step::At {
            tag: f.tag,
            value: f.place,
            value_length: f.value.len(),
            next,
        });
        at.map_err(Refusal::number)
    }

    fn write(&self, kind: u8, fields: &[u8], out: &mut [u8]) -> step::Answer<usize> {
        let answer = host::step::write(kind, fields, out);
        let asked = format!("{kind} {} {}", out.len(), hex(fields));
        let told = answer.map(|n| (vec![n as u64], Some(&out[..n])));
        self.ask("step_write", &asked, told);
        answer.map_err(Refusal::number)
    }

    fn scrub(&self, buffer: &mut [u8]) -> step::Answer<usize> {
        let asked = hex(buffer);
        let answer = host::step::scrub(buffer);
        let told = answer.map(|n| (vec![n as u64], Some(&buffer[..n])));
        self.ask("step_scrub", &asked, told);
        answer.map_err(Refusal::number)
    }
}

#[test]
fn c_gets_the_answers_that_rust_gets() {
    let mut s = Script::default();
    for case in 0..400 {
        let d = &mut Dice::new(7, case);
        frames(&mut s, d);
        entries(&mut s, d);
        ledgers(&mut s, d);
        captures(&mut s, d);
        streams(&mut s, d);
        scrubbers(&mut s, d);
        sessions(&mut s, d);
    }
    for (call, numbers) in SESSION_NUMBERS {
        for n in numbers {
            assert!(s.given.contains(&(call, *n)), "{call} never gave {n}");
        }
    }
    for (call, n) in [("record", 0), ("record", 1), ("lines", 0), ("lines", 8)] {
        assert!(s.given.contains(&(call, n)), "{call} never gave {n}");
    }
    // spans have lines of their own, and `damaged` is no call
    let aside = ["private", "damaged"];
    for (call, numbers) in NUMBERS {
        for n in numbers {
            let given = s.given.contains(&(call, *n));
            assert!(given || aside.contains(&call), "{call} never gave {n}");
        }
    }
    let asking = Asking(RefCell::new(s));
    step::cases::by_hand(&asking);
    for case in 0..400 {
        step::cases::generated(&asking, 7, case);
    }
    let s = asking.0.into_inner();
    for (call, numbers) in step::cases::NUMBERS {
        for n in numbers {
            let is = |(c, g): &(&str, u32)| c.strip_prefix("step_") == Some(call) && g == n;
            assert!(s.given.iter().any(is), "step_{call} never gave {n}");
        }
    }
    let program = compiled("cc", "-std=c11", "host/tests/calls.c");
    let said = String::from_utf8(run(&mut Command::new(program), s.asked.as_bytes()));
    let said = said.expect("text");
    let mut lines = said.lines();
    for (i, (expected, asked)) in s.expected.iter().zip(s.asked.lines()).enumerate() {
        let call = asked.split(' ').next().expect("a name");
        assert!(lines.next() == Some(expected), "line {i}, {call}, differs");
    }
    assert_eq!(lines.next(), None);
}

// THE EXAMPLES

#[test]
fn ten_lines_of_c_scrub_a_frame() {
    let d = &mut Dice::new(3, 0);
    let program = compiled("cc", "-std=c11", "host/examples/scrub.c");
    for name in made::TYPES {
        let body = made::body(d, name, &mut Ticks(0), 100);
        let mut f = made::frame(d, name, &body);
        while host::read(&f, 0).is_err() {
            f = made::frame(d, name, &body); // at a time that is none
        }
        let said = run(&mut Command::new(&program), &f);
        host::scrub(&mut f).expect("a frame that reads");
        assert!(said == f, "a scrubbed frame differs");
    }
}

#[test]
fn ten_lines_of_c_count_what_is_missing() {
    let program = compiled("cc", "-std=c11", "host/examples/screen.c");
    let said = run(&mut Command::new(program), b"");
    assert_eq!(said, b"4 of 1 to 1000 are missing\n");
}

#[test]
fn a_program_in_c_prints_what_a_reply_settles() {
    let program = compiled("cc", "-std=c11", "host/examples/no_data.c");
    let said = run(&mut Command::new(program), b"");
    assert_eq!(said, b"given up: 2 3\ndeliver: 4\n");
}

/// The next frame that a client sends, with its type and number; none after the last.
fn next_frame(from: &mut impl Read) -> Option<(u32, u64, Vec<u8>)> {
    let mut f = vec![0; 24];
    from.read_exact(&mut f).ok()?;
    let body = u32::from_be_bytes(f[20..].try_into().expect("4 bytes")) as usize;
    f.resize(28 + body, 0);
    from.read_exact(&mut f[24..]).expect("the rest");
    let read = host::read(&f, 0).expect("a frame");
    Some((read.msg_type as u32, read.seq.value(), f))
}

/// The letters of all that the C client sends, where so many milliseconds pass from one arrival to
/// the next (0: by the machine's clock), and whether it ends well. The gateway answers in kind,
/// under its own numbers, and leaves heartbeats unanswered.
fn client_sends(program: &Path, step: u64) -> (Vec<[u8; 4]>, bool) {
    let mut child = Command::new(program)
        .arg(step.to_string())
        .stdin(Stdio::piped())
        .stdout(Stdio::piped())
        .spawn()
        .expect("a client");
    let mut to = child.stdin.take().expect("a pipe");
    let mut from = child.stdout.take().expect("a pipe");
    let (mut sent, mut ours) = (Vec::new(), 0);
    while let Some((msg_type, seq, f)) = next_frame(&mut from) {
        sent.push(msg_type.to_be_bytes());
        assert_eq!(seq, sent.len() as u64, "its numbers are 1, 2, 3 and so on");
        if msg_type != u32::from_be_bytes(*b"S003") {
            ours += 1;
            let (mut answer, body) = (vec![0; f.len()], &f[24..f.len() - 4]);
            let number = SessionNumber::new(ours);
            host::write(msg_type, 20260121093000000, number, body, &mut answer).expect("a frame");
            to.write_all(&answer).expect("it reads");
        }
    }
    (sent, child.wait().expect("its end").success())
}

#[test]
fn a_small_client_in_c_keeps_a_session() {
    let program = compiled("cc", "-std=c11", "host/examples/client.c");
    // the agreed interval is 30 seconds: by the machine's clock, and just below it, none is due
    for step in [0, 29_999] {
        let sent = [*b"S001", *b"P002", *b"S002"].to_vec();
        assert_eq!(client_sends(&program, step), (sent, true));
    }
    // at one interval a heartbeat is due each time; at two exactly the line is not dead
    for step in [30_000, 60_000] {
        let sent = [*b"S001", *b"S003", *b"P002", *b"S003", *b"S002"].to_vec();
        assert_eq!(client_sends(&program, step), (sent, true));
    }
    // above two the next arrival comes too late
    let sent = [*b"S001", *b"S003", *b"P002"].to_vec();
    assert_eq!(client_sends(&program, 60_001), (sent, false));
}

#[test]
fn ten_lines_of_rust_drive_a_ledger() {
    let mut cargo = Command::new(env!("CARGO"));
    cargo
        .args(["run", "--offline", "--quiet", "--example", "ledger"])
        .args((!cfg!(debug_assertions)).then_some("--release"))
        .current_dir(root().join("host"));
    let said = String::from_utf8(run(&mut cargo, b"")).expect("text");
    assert_eq!(
        said,
        "passed 1 from 1 on\npassed 0 from 2 on\nask for 2 to 2\npassed 2 from 2 on\n"
    );
}

/// A program in C++ takes the header too, where there is a compiler to say so.
#[test]
fn the_header_is_for_cpp_too() {
    if Command::new("c++").arg("--version").output().is_err() {
        // past the test's own output, which is shown only of a test that fails
        let _ = writeln!(std::io::stderr(), "not tried: no c++ on this machine");
        return;
    }
    let source = Path::new(env!("CARGO_TARGET_TMPDIR")).join("plus.cpp");
    let text = "#include \"rietknoest.h\"
int main() { rk_stream s; rk_found f; unsigned char b = 0; return int(rk_stream_open(RK_STREAM(&s)) + rk_search(&b, 1, 0, &f)); }
";
    fs::write(&source, text).expect("a writable folder");
    for standard in ["-std=c++98", "-std=c++11", "-std=c++17"] {
        let program = compiled("c++", standard, source.to_str().expect("text"));
        run(&mut Command::new(program), b"");
    }
}
