//! Made-up inputs: samples of every type, and the generator of frames, sound and
//! spoilt, of captures and of states. The same seed makes the same inputs. All
//! data are made up.

use crate::bytes::{number, put, sum};
use crate::calendar::days_in;
use crate::ledger::{map_of, Places, Words, PLACES};
use crate::numbers::MOST;
use crate::stream::KEPT;

// SAMPLES

/// The time of the samples.
pub const TIME: u64 = 20_260_121_093_000_000;

/// A of document 01.
pub fn a() -> Vec<u8> {
    hex("53303033 0047FA7908DACB40 0000000000000001 00000000 0000008E")
}

/// B of document 01.
pub fn b() -> Vec<u8> {
    hex("50303031 0047FA7908DACB40 0000000000000002 0000000C 0D 0064 0000000000000003 4E 00000058")
}

pub fn hex(text: &str) -> Vec<u8> {
    let digits: Vec<u32> = text.chars().filter_map(|c| c.to_digit(16)).collect();
    digits.chunks(2).map(|d| (d[0] * 16 + d[1]) as u8).collect()
}

/// Bytes laid field after field: (width, value).
fn fields(list: &[(usize, u64)]) -> Vec<u8> {
    let mut bytes = Vec::new();
    for (width, value) in list {
        let at = bytes.len();
        bytes.resize(at + width, 0);
        put(&mut bytes, at, *width, *value);
    }
    bytes
}

pub fn s001() -> Vec<u8> {
    let mut body = vec![b'S'; 32];
    body.extend(vec![b'T'; 32]);
    body.extend([0, 30]);
    body.extend(b"0.62    ");
    body
}

pub fn s002() -> Vec<u8> {
    let mut body = vec![0, 0, 0, 0];
    body.extend(vec![b'X'; 256]);
    body
}

/// The last number 3, announced on channel 100.
pub fn p001() -> Vec<u8> {
    fields(&[(1, 13), (2, 100), (8, 3), (1, u64::from(b'N'))])
}

/// A request from 5 to 9.
pub fn p002() -> Vec<u8> {
    let mut body = fields(&[(2, 100), (1, 1), (8, 5), (8, 9), (1, 0)]);
    body.extend(vec![b'R'; 32]);
    body
}

pub fn m101() -> Vec<u8> {
    let mut body = vec![13, 3];
    body.extend(b"T 000   ");
    body.extend(fields(&[(4, 500)]));
    body
}

/// An M102 of the pair given, with that many entries, all sound.
pub fn m102(security_type: u8, stream: &[u8; 5], entries: u16) -> Vec<u8> {
    let mut body = fields(&[
        (1, u64::from(security_type)),
        (1, 3),
        (4, 20_260_121),
        (4, 93_000_000),
        (5, number(stream)),
    ]);
    body.extend(b"99900001SAMPLE  ");
    body.extend(fields(&[
        (8, 10_012_345),
        (8, 1_000),
        (8, 10),
        (8, 1_001_234),
    ]));
    body.extend(b" 1      ");
    body.extend(fields(&[(2, u64::from(entries))]));
    for i in 0..entries {
        body.extend(b"2 ");
        body.extend(fields(&[(8, 10_012_300 + u64::from(i))]));
        if stream != b"MD001" {
            body.extend(fields(&[(8, 500), (1, 1)]));
        }
    }
    body
}

/// A tick on channel 100, of a stream, an ExecType and a tail of that length.
pub fn m201(tick: u64, stream: &[u8; 5], exec: u8, tail: usize) -> Vec<u8> {
    let mut body = fields(&[(1, 13), (2, 100), (8, tick), (5, number(stream))]);
    body.extend(b"99900001");
    body.extend(fields(&[
        (4, 93_000_123),
        (1, u64::from(exec)),
        (8, 10_012_345),
        (8, 5_000),
    ]));
    body.extend((0..tail).map(|i| b'a' + (i % 26) as u8));
    body
}

/// A trade on channel 100: stream MD217, ExecType F, a tail of 53 bytes.
pub fn trade(tick: u64) -> Vec<u8> {
    m201(tick, b"MD217", b'F', 53)
}

/// The frame of those bytes, whatever they are, with a sum that fits.
pub fn framed(msg_type: &[u8; 4], body: &[u8]) -> Vec<u8> {
    let mut bytes = msg_type.to_vec();
    bytes.extend(fields(&[(8, TIME), (8, 7), (4, body.len() as u64)]));
    bytes.extend(body);
    bytes.extend([0; 4]);
    mended(bytes)
}

/// The same bytes with a field set.
pub fn with(bytes: &[u8], at: usize, width: usize, value: u64) -> Vec<u8> {
    let mut changed = bytes.to_vec();
    put(&mut changed, at, width, value);
    changed
}

/// The same frame, its last four bytes the sum of all before them.
pub fn mended(mut frame: Vec<u8>) -> Vec<u8> {
    let end = frame.len() - 4;
    let check = u64::from(sum(&frame[..end]));
    put(&mut frame, end, 4, check);
    frame
}

// THE GENERATOR

/// A generator of numbers (splitmix64).
pub struct Dice(u64);

impl Dice {
    /// The dice of one case: each case of a run can be made alone.
    pub fn new(seed: u64, case: u64) -> Dice {
        let mut dice = Dice(seed ^ case.wrapping_mul(0xd134_2543_de82_ef95));
        dice.draw();
        dice
    }

    pub fn draw(&mut self) -> u64 {
        self.0 = self.0.wrapping_add(0x9e37_79b9_7f4a_7c15);
        let mut z = self.0;
        z = (z ^ (z >> 30)).wrapping_mul(0xbf58_476d_1ce4_e5b9);
        z = (z ^ (z >> 27)).wrapping_mul(0x94d0_49bb_1331_11eb);
        z ^ (z >> 31)
    }

    pub fn below(&mut self, n: u64) -> u64 {
        self.draw() % n
    }

    pub fn len(&mut self, below: usize) -> usize {
        self.below(below as u64) as usize
    }

    /// Once in n times.
    pub fn once_in(&mut self, n: u64) -> bool {
        self.below(n) == 0
    }

    pub fn of<T: Copy>(&mut self, choices: &[T]) -> T {
        choices[self.len(choices.len())]
    }

    pub fn bytes(&mut self, n: usize) -> Vec<u8> {
        (0..n).map(|_| self.draw() as u8).collect()
    }

    /// Bytes of few values, such as headers are made of.
    pub fn dull_bytes(&mut self, n: usize) -> Vec<u8> {
        (0..n).map(|_| self.of(b"SSMMPP000123\0\0\0\0 ")).collect()
    }

    /// A number below the bound, often at one of its ends.
    fn up_to(&mut self, bound: u64) -> u64 {
        match self.below(8) {
            0 => 0,
            1 => bound - 1,
            2 => self.below(bound.min(4)),
            _ => self.below(bound),
        }
    }

    /// A number at or beside a bound that some rule has.
    pub fn edge(&mut self) -> u64 {
        let power = 10u64.pow(self.below(20) as u32);
        match self.below(8) {
            0 => 0,
            1 => 1,
            2 => u64::MAX,
            3 => power - 1,
            4 => power,
            5 => power.wrapping_add(1),
            6 => self.below(512),
            _ => self.draw(),
        }
    }
}

pub const TYPES: [&[u8; 4]; 8] = [
    b"S001", b"S002", b"S003", b"P001", b"P002", b"M101", b"M102", b"M201",
];

/// The widths of a body's fields, in the order of document 01's table.
fn widths(name: &[u8; 4]) -> &'static [usize] {
    match name {
        b"S001" => &[32, 32, 2, 8],
        b"S002" => &[4, 256],
        b"P001" => &[1, 2, 8, 1],
        b"P002" => &[2, 1, 8, 8, 1, 32],
        b"M102" => &[1, 1, 4, 4, 5, 8, 8, 8, 8, 8, 8, 8, 2, 2, 8, 8, 1],
        b"M201" => &[1, 2, 8, 5, 8, 4, 1, 8, 8],
        _ => &[],
    }
}

/// The low bytes of a value, as many as there is place for, at the end of it.
fn set(bytes: &mut [u8], value: u64) {
    let width = bytes.len().min(8);
    let end = bytes.len();
    bytes[end - width..].copy_from_slice(&value.to_be_bytes()[8 - width..]);
}

fn push(body: &mut Vec<u8>, width: usize, value: u64) {
    body.extend_from_slice(&value.to_be_bytes()[8 - width..]);
}

const DIGITS_18: u64 = MOST + 1;

/// The numbers of a channel's ticks as a capture has them: mostly in order, with gaps, repeats and
/// far ones.
pub struct Ticks(pub u64);

impl Ticks {
    pub fn next(&mut self, d: &mut Dice) -> u64 {
        match d.below(32) {
            0 => self.0 += 2 + d.below(6),
            1 => self.0 += 250 + d.below(12),
            2 => self.0 = self.0.saturating_sub(d.below(300)),
            3 => return 1 + d.up_to(DIGITS_18 - 1),
            _ => self.0 += 1,
        }
        self.0 = self.0.clamp(1, DIGITS_18 - 1);
        self.0
    }
}

fn channel(d: &mut Dice) -> u64 {
    if d.once_in(8) {
        d.up_to(10_000)
    } else {
        100
    }
}

/// Text of a private field; now and then with a whole frame in it.
fn text(d: &mut Dice, n: usize, ticks: &mut Ticks) -> Vec<u8> {
    let mut text = if d.once_in(3) {
        vec![b' '; n]
    } else {
        d.bytes(n)
    };
    if n >= 28 && d.once_in(3) {
        let inner = if n < 56 || d.once_in(2) {
            frame(d, b"S003", &[])
        } else {
            let name = d.of(&[b"P001", b"M201", b"P002"]);
            let body = body(d, name, ticks, 0);
            frame(d, name, &body)
        };
        if inner.len() <= n {
            let at = d.len(n - inner.len() + 1);
            text[at..at + inner.len()].copy_from_slice(&inner);
        }
    }
    text
}

/// A stream, an ExecType and a tail's length: mostly those that 000 pairs.
fn tail_of(d: &mut Dice, most: usize) -> ([u8; 5], u8, usize) {
    let named = [b"MD211", b"MD212", b"MD213", b"MD214", b"MD215", b"MD216"];
    let any = d.len(most.min(8_119) + 1);
    let (stream, exec, tail) = match d.below(8) {
        0..=2 => (*d.of(&named), d.of(b"04"), 139),
        3 | 4 => (*b"MD217", b'F', 53),
        5 => (*b"MD217", d.of(b"04"), any),
        6 => (*d.of(&named), b'F', any),
        _ => {
            let stream = d.bytes(5).try_into().expect("five bytes");
            (stream, d.of(b"04F"), any)
        }
    };
    if d.once_in(20) {
        return (stream, exec, d.of(&[52, 53, 54, 138, 139, 140, any]));
    }
    (stream, exec, tail)
}

/// A sound body of that type, save that one M201 in twenty may have a tail of
/// another length; `most` is about how long its open part may be.
pub fn body(d: &mut Dice, name: &[u8; 4], ticks: &mut Ticks, most: usize) -> Vec<u8> {
    let mut b = Vec::new();
    match name {
        b"S001" => {
            b.extend(text(d, 64, ticks));
            push(&mut b, 2, 1 + d.up_to(65_535));
            b.extend(d.bytes(8));
        }
        b"S002" => {
            push(&mut b, 4, d.up_to(10_000));
            b.extend(text(d, 256, ticks));
        }
        b"S003" => {}
        b"P001" => {
            push(&mut b, 1, 13);
            push(&mut b, 2, channel(d));
            let last = match d.below(4) {
                0 => d.up_to(DIGITS_18),
                _ => ticks.0 + d.below(40),
            };
            push(&mut b, 8, last);
            b.push(d.of(b"YN"));
        }
        b"P002" => {
            push(&mut b, 2, channel(d));
            b.push(1);
            let first = 1 + d.up_to(DIGITS_18 - 1);
            push(&mut b, 8, first);
            let status = d.of(&[0, 0, 1, 2, 3, 4, 5, 99]);
            let last = match d.below(3) {
                0 => 0,
                1 => (first + d.below(200)).min(DIGITS_18 - 1),
                _ if status == 0 => first,
                _ => d.up_to(DIGITS_18),
            };
            push(&mut b, 8, last);
            b.push(status);
            b.extend(text(d, 32, ticks));
        }
        b"M101" => {
            let n = d.len(most.min(8_164) + 1);
            b.extend(text(d, n, ticks));
        }
        b"M102" => {
            let pairs: [(u8, &[u8; 5]); 10] = [
                (1, b"MD001"),
                (1, b"MD002"),
                (1, b"MD003"),
                (1, b"MD004"),
                (2, b"MD301"),
                (3, b"MD101"),
                (3, b"MD102"),
                (12, b"MD201"),
                (13, b"MD210"),
                (14, b"MDE01"),
            ];
            let (security, stream) = d.of(&pairs);
            let short = stream == b"MD001";
            b.extend([security, 1 + d.below(3) as u8]);
            push(&mut b, 4, d.up_to(100_000_000));
            push(&mut b, 4, d.up_to(1_000_000_000));
            b.extend(stream);
            b.extend(d.bytes(16));
            push(&mut b, 8, d.up_to(10_000_000_000_000));
            for _ in 0..3 {
                push(&mut b, 8, d.up_to(10_000_000_000_000_000));
            }
            b.extend(d.bytes(8));
            let size = if short { 10 } else { 19 };
            let count = d.len(most.min(8_091) / size + 1);
            push(&mut b, 2, count as u64);
            for _ in 0..count {
                b.extend(d.bytes(2));
                push(&mut b, 8, d.up_to(10_000_000_000_000));
                if !short {
                    push(&mut b, 8, d.up_to(1_000_000_000_000));
                    b.push(d.up_to(100) as u8);
                }
            }
        }
        _ => {
            b.push(13);
            push(&mut b, 2, channel(d));
            push(&mut b, 8, ticks.next(d));
            let (stream, exec, tail) = tail_of(d, most);
            b.extend(stream);
            b.extend(d.bytes(8));
            push(&mut b, 4, d.up_to(1_000_000_000));
            b.push(exec);
            push(&mut b, 8, d.up_to(10_000_000_000_000));
            push(&mut b, 8, d.up_to(1_000_000_000_000_000));
            b.extend(text(d, tail, ticks));
        }
    }
    b
}

/// A body with one field at or beside a bound, or of another length.
pub fn spoil_body(d: &mut Dice, name: &[u8; 4], b: &mut Vec<u8>) {
    match d.below(8) {
        0 => b.truncate(d.len(b.len() + 1)),
        1 => b.push(0),
        2 if !b.is_empty() => {
            let at = d.len(b.len());
            b[at] = d.draw() as u8;
        }
        _ => {
            let widths = widths(name);
            if !widths.is_empty() {
                let i = d.len(widths.len());
                let at: usize = widths[..i].iter().sum();
                if at + widths[i] <= b.len() {
                    let value = d.edge();
                    set(&mut b[at..at + widths[i]], value);
                }
            }
        }
    }
}

/// A real time nine times of ten, else one with a part beside its bounds.
pub fn time(d: &mut Dice) -> u64 {
    let year = match d.below(4) {
        0 => d.of(&[2000, 2004, 2100, 2400, 9999]),
        _ => 2000 + d.below(8_000),
    };
    let month = 1 + d.below(12);
    let day = 1 + d.up_to(days_in(year, month));
    let mut parts = [year, month, day, d.up_to(24), d.up_to(60), d.up_to(60)];
    let thousandth = d.up_to(1_000);
    if d.once_in(10) {
        let i = d.len(7);
        let beside: [&[u64]; 7] = [
            &[1999, 10_000, 0],
            &[0, 13, 99],
            &[0, days_in(year, month) + 1, 99],
            &[24, 99],
            &[60, 99],
            &[60, 99],
            &[0],
        ];
        if i == 6 {
            return d.edge();
        }
        parts[i] = d.of(beside[i]);
    }
    let time = parts.iter().fold(0, |time, part| time * 100 + part);
    time * 1_000 + thousandth
}

/// The frame of a body, its sum right whatever the body is.
pub fn frame(d: &mut Dice, name: &[u8; 4], body: &[u8]) -> Vec<u8> {
    let mut f = name.to_vec();
    f.extend(time(d).to_be_bytes());
    f.extend(d.edge().to_be_bytes());
    f.extend((body.len() as u32).to_be_bytes());
    f.extend(body);
    f.extend([0; 4]);
    mended(f)
}

/// A frame of any type, its body sound but for one in eight.
pub fn any_frame(d: &mut Dice, ticks: &mut Ticks, most: usize) -> Vec<u8> {
    let name = if d.once_in(2) {
        d.of(&TYPES)
    } else {
        d.of(&[b"M201", b"M201", b"P001", b"S003"])
    };
    let mut b = body(d, name, ticks, most);
    if d.once_in(8) {
        spoil_body(d, name, &mut b);
    }
    frame(d, name, &b)
}

/// Damages a frame: a bit, the sum, the length, the type, or its end.
pub fn damage(d: &mut Dice, f: &mut Vec<u8>) {
    let n = f.len();
    if n < 28 {
        return;
    }
    match d.below(9) {
        0 => f[d.len(n)] ^= 1 << d.below(8),
        1 => f[n - 1] = f[n - 1].wrapping_add(1),
        2 => f[n - 4 + d.len(3)] = 1 + d.below(255) as u8,
        3 => f[20 + d.len(4)] = d.draw() as u8,
        4 => f[23] = f[23].wrapping_add(d.of(&[1, 255])),
        5 => f[..4].copy_from_slice(&d.of(&TYPES)[..]),
        6 => f[d.len(4)] = d.draw() as u8,
        7 => f.truncate(d.len(n)),
        _ => {
            f.remove(d.len(n));
        }
    }
}

/// A capture of about so many bytes: frames, damaged and cut ones, stray bytes, and beginnings of
/// frames that are none.
pub fn capture(d: &mut Dice, about: usize, most: usize) -> Vec<u8> {
    let mut c = Vec::new();
    let mut ticks = Ticks(d.of(&[0, 0, 0, 250, DIGITS_18 - 300]));
    let damaged_in = d.of(&[2, 5, 20, 1_000_000]);
    while c.len() < about {
        let mut f = any_frame(d, &mut ticks, most);
        if d.once_in(damaged_in) {
            match d.below(4) {
                0 => {
                    let n = d.len(60);
                    f = if d.once_in(2) {
                        d.dull_bytes(n)
                    } else {
                        d.bytes(n)
                    };
                }
                1 => {
                    // the beginning of a frame that reaches over what follows
                    f.truncate(24);
                    f[..4].copy_from_slice(b"M101");
                    set(&mut f[20..24], d.below(8_200));
                }
                _ => damage(d, &mut f),
            }
        }
        c.extend(f);
    }
    if d.once_in(2) {
        let end = c.len().saturating_sub(d.len(40));
        c.truncate(end);
    }
    c
}

/// A capture of several channels: ticks, announcements and resends of each, some
/// damaged, and other frames between them.
pub fn busy_capture(d: &mut Dice, channels: &[u16], about: usize) -> Vec<u8> {
    let mut c = Vec::new();
    let starts = [0, 0, 0, 250, DIGITS_18 - 300];
    let mut ticks: Vec<Ticks> = channels.iter().map(|_| Ticks(d.of(&starts))).collect();
    let damaged_in = d.of(&[4, 20, 1_000_000]);
    while c.len() < about {
        let of = d.len(channels.len());
        let name = d.of(&[b"M201", b"M201", b"M201", b"P001", b"P002", b"S003"]);
        let mut body = body(d, name, &mut ticks[of], 40);
        let channel = u64::from(channels[of]);
        match name {
            b"M201" | b"P001" => set(&mut body[1..3], channel),
            b"P002" => set(&mut body[0..2], channel),
            _ => (),
        }
        let mut f = frame(d, name, &body);
        if d.once_in(damaged_in) {
            damage(d, &mut f);
        }
        c.extend(f);
    }
    c
}

/// A type, mostly of the table, and a body for it, often spoilt.
pub fn any_body(d: &mut Dice) -> ([u8; 4], Vec<u8>) {
    let mut name = *d.of(&TYPES);
    let most = d.of(&[0, 40, 200, 9_000]);
    let mut b = body(d, &name, &mut Ticks(0), most);
    if d.once_in(2) {
        spoil_body(d, &name, &mut b);
    }
    match d.below(16) {
        0 => name = *d.of(&TYPES),
        1 => name[d.len(4)] = d.draw() as u8,
        2 => {
            let long = 8_150 + d.len(30);
            b.resize(long, 0);
        }
        _ => {}
    }
    (name, b)
}

/// Words near a sound state: floors near the bounds, numbers held in runs and
/// here and there, mostly from floor + 2 to the top.
pub fn any_words(d: &mut Dice) -> Words {
    let floor = match d.below(4) {
        0 => 0,
        1 => MOST - d.below(300),
        2 => d.edge(),
        _ => d.below(1_000),
    };
    let ahead = d.of(&[0, 1, 2, 63, 64, 65, 200, 255, 256, 257, 1_000]);
    let mut held: Places = [false; PLACES as usize];
    for run in held.chunks_mut(64) {
        let often = d.of(&[0, 0, 1, 2, 4, 64]);
        for place in run {
            *place = often > 0 && (often == 64 || d.below(4) < often);
        }
    }
    let known = ahead.min(PLACES) as usize;
    if !d.once_in(10) {
        held[known..].fill(false);
    }
    if !d.once_in(10) {
        held[0] = false;
    }
    let mut w = [0; 9];
    w[0] = d.of(&[100, 100, 100, 0, 9_999, 10_000, 65_535, 65_536, u64::MAX]);
    w[1] = floor;
    w[2] = floor.wrapping_add(ahead);
    w[3..7].copy_from_slice(&map_of(floor, &held));
    if d.once_in(2) {
        let back = d.of(&[0, 0, 1, 2, 100, 198, 199, 200]);
        w[7] = floor.wrapping_add(1).wrapping_sub(back);
        w[8] = w[7].wrapping_add(d.of(&[0, 1, 198, 199, 200]));
        if d.once_in(8) {
            w[d.of(&[7, 8])] = d.edge();
        }
    }
    if d.once_in(8) {
        w[d.len(9)] = d.edge();
    }
    w
}

/// A length about n: exact, one off, none, or more.
pub fn about(d: &mut Dice, n: usize) -> usize {
    match d.below(8) {
        0 => n.saturating_sub(1),
        1 => d.len(n + 1),
        2 => n + d.len(80),
        _ => n,
    }
}

/// How a stream is made broken, or moved so far that few places are left. A state by its parts: the
/// words, the ledger's, and the store.
pub fn spoil_stream(d: &mut Dice, words: &mut [u64; 6], ledger: &mut Words, kept: &mut [u8; KEPT]) {
    let waiting = words[3].min(8_190) as usize;
    match d.below(12) {
        // few places left
        0..=3 => words[0] = u64::MAX - words[3] - d.below(40),
        4 => words[d.of(&[1, 2])] = d.of(&[0, 1, 1, 2, u64::MAX]),
        5 => words[3] = words[3].wrapping_add(d.of(&[1, u64::MAX])),
        6 => words[3] = d.of(&[8_190, 8_191, 8_192, u64::MAX]),
        7 => words[d.of(&[0, 4, 5])] = d.edge(),
        8 => kept[d.of(&[waiting, 8_190])] = 1,
        9 => kept[d.len(waiting + 1)] ^= 1 << d.below(8),
        10 => ledger[0] = d.of(&[0, 99, 100, 65_536 + 100, u64::MAX]),
        _ => *ledger = any_words(d),
    }
}

/// How many of the bytes that are left a cut has, in a row of cuts of about that size; now and then
/// none.
pub fn cut(d: &mut Dice, size: usize, left: usize) -> usize {
    match d.below(8) {
        0 => 0,
        1 => d.len(left + 1),
        _ => (size / 2 + d.len(size) + 1).min(left),
    }
}
