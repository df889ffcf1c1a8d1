//! The same jobs in plain Rust, as one would write them by hand for speed: the same checks in the
//! same order, the same answers.

use rietknoest_host::{ChannelNumber, Cleaned, Frame, Passed, SessionNumber, TickNumber};

const fn name(bytes: &[u8; 4]) -> u32 {
    u32::from_be_bytes(*bytes)
}

pub const S001: u32 = name(b"S001");
pub const S002: u32 = name(b"S002");
pub const S003: u32 = name(b"S003");
pub const P001: u32 = name(b"P001");
pub const P002: u32 = name(b"P002");
pub const M101: u32 = name(b"M101");
pub const M102: u32 = name(b"M102");
pub const M201: u32 = name(b"M201");

fn u16_at(b: &[u8], at: usize) -> u16 {
    u16::from_be_bytes(b[at..at + 2].try_into().expect("2 bytes"))
}

fn u32_at(b: &[u8], at: usize) -> u32 {
    u32::from_be_bytes(b[at..at + 4].try_into().expect("4 bytes"))
}

fn u64_at(b: &[u8], at: usize) -> u64 {
    u64::from_be_bytes(b[at..at + 8].try_into().expect("8 bytes"))
}

pub fn sum(bytes: &[u8]) -> u8 {
    bytes.iter().fold(0, |sum, b| sum.wrapping_add(*b))
}

// FRAMES

fn digits(value: u64, n: u32) -> bool {
    value < 10u64.pow(n)
}

fn pairs(security: u8, stream: &[u8]) -> bool {
    match stream {
        b"MD001" | b"MD002" | b"MD003" | b"MD004" => security == 1,
        b"MD301" => security == 2,
        b"MD101" | b"MD102" => security == 3,
        b"MD201" => security == 12,
        b"MD210" => security == 13,
        b"MDE01" => security == 14,
        _ => false,
    }
}

fn m102_holds(b: &[u8]) -> bool {
    let short = &b[10..15] == b"MD001";
    let size = if short { 10 } else { 19 };
    let fixed = matches!(b[1], 1..=3)
        && pairs(b[0], &b[10..15])
        && digits(u32_at(b, 2).into(), 8)
        && digits(u32_at(b, 6).into(), 9)
        && digits(u64_at(b, 31), 13)
        && digits(u64_at(b, 39), 16)
        && digits(u64_at(b, 47), 16)
        && digits(u64_at(b, 55), 16)
        && b.len() == 73 + size * usize::from(u16_at(b, 71));
    fixed
        && b[73..].chunks_exact(size).all(|e| {
            digits(u64_at(e, 2), 13) && (short || (digits(u64_at(e, 10), 12) && e[18] <= 99))
        })
}

/// How the extension of an M201 is laid out.
#[derive(Clone, Copy, PartialEq, Eq)]
enum Layout {
    Order,
    Trade,
    Other,
}

fn layout(b: &[u8]) -> Layout {
    match (&b[11..16], b[28]) {
        (b"MD211" | b"MD212" | b"MD213" | b"MD214" | b"MD215" | b"MD216", b'0' | b'4') => {
            Layout::Order
        }
        (b"MD217", b'F') => Layout::Trade,
        _ => Layout::Other,
    }
}

fn fields_hold(msg_type: u32, b: &[u8]) -> bool {
    match msg_type {
        S001 => u16_at(b, 64) > 0,
        S002 => u32_at(b, 0) <= 9_999,
        P001 => {
            b[0] == 13
                && matches!(b[11], b'Y' | b'N')
                && u16_at(b, 1) <= 9_999
                && digits(u64_at(b, 3), 18)
        }
        P002 => {
            let (first, last, status) = (u64_at(b, 3), u64_at(b, 11), b[19]);
            b[2] == 1
                && first > 0
                && matches!(status, 0..=5 | 99)
                && (status != 0 || last == 0 || last >= first)
                && u16_at(b, 0) <= 9_999
                && digits(first, 18)
                && digits(last, 18)
        }
        M102 => m102_holds(b),
        M201 => {
            b[0] == 13
                && matches!(b[28], b'0' | b'4' | b'F')
                && u64_at(b, 3) > 0
                && u16_at(b, 1) <= 9_999
                && digits(u64_at(b, 3), 18)
                && digits(u32_at(b, 24).into(), 9)
                && digits(u64_at(b, 29), 13)
                && digits(u64_at(b, 37), 15)
                && match layout(b) {
                    Layout::Order => b.len() == 184,
                    Layout::Trade => b.len() == 98,
                    Layout::Other => true,
                }
        }
        _ => true,
    }
}

/// Whether a time, YYYYMMDDHHMMSSsss, is a real one from the year 2000 to 9999.
fn is_real(time: u64) -> bool {
    let Ok(date) = u32::try_from(time / 1_000_000_000) else {
        return false;
    };
    let clock = (time % 1_000_000_000) as u32;
    let (y, m, d) = (date / 10_000, date / 100 % 100, date % 100);
    let leap = y % 4 == 0 && (y % 100 != 0 || y % 400 == 0);
    let last = match m {
        2 if leap => 29,
        2 => 28,
        4 | 6 | 9 | 11 => 30,
        1..=12 => 31,
        _ => 0,
    };
    (2_000..=9_999).contains(&y)
        && (1..=last).contains(&d)
        && clock / 10_000_000 <= 23
        && clock / 100_000 % 100 <= 59
        && clock / 1_000 % 100 <= 59
}

/// Type and body of the frame at the front.
fn parts(bytes: &[u8]) -> Result<(u32, &[u8]), u32> {
    if bytes.len() < 24 {
        return Err(1);
    }
    let msg_type = u32_at(bytes, 0);
    let n = u32_at(bytes, 20) as usize;
    let suits = match msg_type {
        S001 => n == 74,
        S002 => n == 260,
        S003 => n == 0,
        P001 => n == 12,
        P002 => n == 52,
        M101 => true,
        M102 => n >= 73,
        M201 => n >= 45,
        _ => return Err(2),
    };
    if n > 8_164 {
        return Err(3);
    }
    if !suits {
        return Err(4);
    }
    if bytes.len() < 28 + n {
        return Err(1);
    }
    if u32_at(bytes, 24 + n) != u32::from(sum(&bytes[..24 + n])) {
        return Err(5);
    }
    if !is_real(u64_at(bytes, 4)) {
        return Err(7);
    }
    let body = &bytes[24..24 + n];
    if !fields_hold(msg_type, body) {
        return Err(6);
    }
    Ok((msg_type, body))
}

pub fn read(bytes: &[u8], place: usize) -> Result<Frame, u32> {
    let bytes = bytes.get(place..).unwrap_or(&[]);
    let (msg_type, b) = parts(bytes)?;
    let mut frame = Frame {
        msg_type: msg_type.into(),
        sending_time: u64_at(bytes, 4),
        seq: SessionNumber::new(u64_at(bytes, 12)),
        body_len: b.len() as u64,
        ..Frame::default()
    };
    match msg_type {
        P001 | M201 => {
            frame.channel = ChannelNumber::new(u16_at(b, 1));
            frame.tick = TickNumber::new(u64_at(b, 3));
        }
        P002 => {
            frame.channel = ChannelNumber::new(u16_at(b, 0));
            frame.tick = TickNumber::new(u64_at(b, 3));
            frame.first = frame.tick;
            frame.last = TickNumber::new(u64_at(b, 11));
            frame.status = b[19].into();
        }
        _ => {}
    }
    Ok(frame)
}

pub fn search(bytes: &[u8], from: usize) -> Result<Option<usize>, u32> {
    if from > bytes.len() {
        return Err(9);
    }
    let begins = |p: &usize| matches!(bytes[*p], b'S' | b'P' | b'M');
    let mut places = (from..bytes.len()).filter(begins);
    Ok(places.find(|p| parts(&bytes[*p..]).is_ok()))
}

/// Paints the private bytes of a frame that reads, and sets its sum anew.
fn paint(frame: &mut [u8], msg_type: u32) {
    let n = frame.len() - 4;
    let private = match msg_type {
        S001 => 24..88,
        S002 => 28..284,
        P002 => 44..76,
        M201 => match layout(&frame[24..n]) {
            Layout::Order => {
                frame[144..176].fill(b' ');
                88..112
            }
            Layout::Trade => return,
            Layout::Other => 69..n,
        },
        _ => return,
    };
    frame[private].fill(b' ');
    let sum = sum(&frame[..n]);
    frame[n..].copy_from_slice(&u32::from(sum).to_be_bytes());
}

pub fn scrub(buffer: &mut [u8]) -> Result<usize, u32> {
    let (msg_type, body) = parts(buffer)?;
    let n = body.len() + 28;
    paint(&mut buffer[..n], msg_type);
    Ok(n)
}

/// Scrubs as was done before CR 4: every frame is summed anew, one with nothing private too.
pub fn scrub_anew(buffer: &mut [u8]) -> Result<usize, u32> {
    let (msg_type, body) = parts(buffer)?;
    let n = body.len() + 24;
    paint(&mut buffer[..n + 4], msg_type);
    let sum = sum(&buffer[..n]);
    buffer[n..n + 4].copy_from_slice(&u32::from(sum).to_be_bytes());
    Ok(n + 4)
}

// THE LEDGER

pub const LARGEST: u64 = 999_999_999_999_999_999;

/// A number's place in the map is its remainder by 256. A state by `&mut`, so that its map stays
/// where it is.
#[derive(Clone, Copy, Debug, PartialEq, Eq)]
pub struct Ledger {
    pub channel: u16,
    pub floor: u64,
    pub top: u64,
    pub map: [u64; 4],
    pub pending: Option<(u64, u64)>,
}

/// What a reply settles: the first number, and the numbers given up and passed, each as a map.
pub type Settled = (u64, [u64; 4], [u64; 4]);

/// Clears so many places from that of `at` on.
fn clear(map: &mut [u64; 4], mut at: u64, mut left: u64) {
    while left > 0 {
        let n = left.min(64 - at % 64);
        map[(at / 64 % 4) as usize] &= !(u64::MAX >> (64 - n) << (at % 64));
        at += n;
        left -= n;
    }
}

/// Whether a pending request keeps the state rules.
pub fn pending_right(pending: Option<(u64, u64)>, floor: u64, top: u64) -> bool {
    pending.map_or(true, |(first, last)| {
        (1..=floor + 1).contains(&first) && (first..=top).contains(&last) && last - first < 200
    })
}

impl Ledger {
    pub fn open(channel: u16) -> Ledger {
        Ledger {
            channel,
            floor: 0,
            top: 0,
            map: [0; 4],
            pending: None,
        }
    }

    pub fn words(&self) -> [u64; 9] {
        let [a, b, c, d] = self.map;
        let (first, last) = self.pending.unwrap_or((0, 0));
        let channel = self.channel.into();
        [channel, self.floor, self.top, a, b, c, d, first, last]
    }

    fn holds(&self, n: u64) -> bool {
        self.map[(n / 64 % 4) as usize] >> (n % 64) & 1 == 1
    }

    /// How many places from that of n on are clear where `flip` is 0, or held where it is all ones.
    fn stretch(&self, n: u64, flip: u64) -> u64 {
        let (word, bit) = ((n / 64 % 4) as usize, n % 64);
        let own = (self.map[word] ^ flip) >> bit;
        if own != 0 {
            return own.trailing_zeros().into();
        }
        let mut passed = 64 - bit;
        for j in 1..=4 {
            let next = self.map[(word + j) % 4] ^ flip;
            if next != 0 {
                return passed + u64::from(next.trailing_zeros());
            }
            passed += 64;
        }
        256
    }

    fn sound(&self) -> bool {
        if self.channel > 9_999 || self.floor > self.top || self.top > LARGEST {
            return false;
        }
        let (next, known) = (self.floor + 1, self.top - self.floor);
        let map = match known {
            256.. => !self.holds(next),
            _ if self.map == [0; 4] => true,
            0 => false,
            _ => self.stretch(next + known, 0) > 256 - known,
        };
        map && pending_right(self.pending, self.floor, self.top)
    }

    fn checked(&self, channel: u16) -> Result<(), u32> {
        match () {
            _ if !self.sound() => Err(13),
            _ if channel != self.channel => Err(18),
            _ => Ok(()),
        }
    }

    pub fn tick(&mut self, channel: u16, n: u64) -> Result<Passed, u32> {
        self.checked(channel)?;
        if n == 0 || n > LARGEST {
            return Err(10);
        }
        if n <= self.floor {
            return Err(11);
        }
        if n - self.floor > 256 {
            self.top = self.top.max(n);
            return Err(12);
        }
        if self.holds(n) {
            return Err(11);
        }
        self.map[(n / 64 % 4) as usize] |= 1 << (n % 64);
        self.top = self.top.max(n);
        let first = self.floor + 1;
        let count = self.stretch(first, u64::MAX);
        clear(&mut self.map, first, count);
        self.floor += count;
        let first = TickNumber::new(first);
        Ok(Passed { first, count })
    }

    /// Of the map's places, those of the numbers from `first` on, so many.
    fn only(map: [u64; 4], first: u64, count: u64) -> [u64; 4] {
        let mut without = map;
        clear(&mut without, first, count);
        std::array::from_fn(|i| map[i] & !without[i])
    }

    pub fn reply(&mut self, channel: u16, first: u64, status: u8) -> Result<Settled, u32> {
        self.checked(channel)?;
        if !matches!(status, 1..=5 | 99) {
            return Err(17);
        }
        let Some((asked, last)) = self.pending else {
            return Err(16);
        };
        if asked != first {
            return Err(16);
        }
        let first = self.floor + 1;
        let wide = if status == 4 {
            last.saturating_sub(self.floor)
        } else {
            0
        };
        let count = wide + self.stretch(first + wide, u64::MAX);
        let given_up = Ledger::only(self.map.map(|w| !w), first, wide);
        let passed = Ledger::only(self.map, first, count);
        clear(&mut self.map, first, count);
        self.floor += count;
        self.pending = None;
        Ok((first, given_up, passed))
    }

    pub fn request(&mut self, channel: u16) -> Result<(u64, u64), u32> {
        self.checked(channel)?;
        if self.pending.is_some() {
            return Err(14);
        }
        if self.top == self.floor {
            return Err(15);
        }
        let first = self.floor + 1;
        let count = (self.top - self.floor).min(self.stretch(first, 0)).min(200);
        let range = (first, self.floor + count);
        self.pending = Some(range);
        Ok(range)
    }

    pub fn renew(&mut self) -> Result<(), u32> {
        self.checked(self.channel)?;
        self.pending = None;
        Ok(())
    }

    pub fn missing_between(&self, channel: u16, a: u64, b: u64) -> Result<u64, u32> {
        self.checked(channel)?;
        if !(1..=LARGEST).contains(&a) || !(1..=LARGEST).contains(&b) {
            return Err(10);
        }
        let (low, high) = (a.max(self.floor + 1), b.min(self.top));
        if high < low {
            return Ok(0);
        }
        let (width, off) = (high + 1 - low, low - self.floor - 1);
        if off >= 256 {
            return Ok(width);
        }
        let held = Ledger::only(self.map, low, width.min(256 - off));
        Ok(width - held.iter().map(|w| u64::from(w.count_ones())).sum::<u64>())
    }

    pub fn missing(&self) -> Result<u64, u32> {
        self.checked(self.channel)?;
        let held: u32 = self.map.iter().map(|w| w.count_ones()).sum();
        Ok(self.top - self.floor - u64::from(held))
    }

    pub fn announce(&mut self, channel: u16, last: u64) -> Result<(), u32> {
        self.checked(channel)?;
        if last > LARGEST {
            return Err(10);
        }
        self.top = self.top.max(last);
        Ok(())
    }
}

// CAPTURES

/// What a walk counts, and the ledger behind it.
#[derive(Clone, Copy, Debug, PartialEq, Eq)]
pub struct Walked {
    pub records: usize,
    pub frames: u64,
    pub refused: u64,
    pub ledger: Ledger,
}

/// The walk; records for which there is no room are only counted.
fn pass(capture: &[u8], records: &mut [u8]) -> Walked {
    let mut w = Walked {
        records: 0,
        frames: 0,
        refused: 0,
        ledger: Ledger::open(100),
    };
    let mut rows = records.chunks_exact_mut(64);
    let mut place = 0;
    while place < capture.len() {
        let seen = read(capture, place);
        let (frame, answer, next) = match seen {
            Ok(f) => {
                let (channel, tick) = (f.channel.value(), f.tick.value());
                let answer = match f.msg_type as u32 {
                    M201 => w.ledger.tick(channel, tick).err().unwrap_or(0),
                    P001 => w.ledger.announce(channel, tick).err().unwrap_or(0),
                    _ => 0,
                };
                w.frames += 1;
                (f, answer, Some(place + f.frame_len()))
            }
            Err(no) => {
                w.refused += 1;
                let blank = Frame {
                    msg_type: name(b"    ").into(),
                    ..Frame::default()
                };
                (blank, no, search(capture, place + 1).unwrap_or(None))
            }
        };
        if let Some(row) = rows.next() {
            row[..8].copy_from_slice(&(place as u64).to_be_bytes());
            row[8..12].copy_from_slice(&(frame.msg_type as u32).to_be_bytes());
            row[12..16].copy_from_slice(&answer.to_be_bytes());
            row[16..24].copy_from_slice(&frame.seq.value().to_be_bytes());
            row[24..32].copy_from_slice(&frame.tick.value().to_be_bytes());
            row[32..34].copy_from_slice(&frame.channel.value().to_be_bytes());
            row[34..36].fill(0);
            row[36..40].copy_from_slice(&(frame.body_len as u32).to_be_bytes());
            row[40..48].copy_from_slice(&w.ledger.floor.to_be_bytes());
            row[48..56].copy_from_slice(&w.ledger.top.to_be_bytes());
            row[56..].fill(0);
        }
        w.records += 1;
        match next {
            Some(next) => place = next,
            None => break,
        }
    }
    w
}

pub fn walk(capture: &[u8], records: &mut [u8]) -> Result<Walked, u32> {
    let room = records.len() / 64;
    if room < 2 * (capture.len() / 29) + 2 && room < pass(capture, &mut []).records {
        return Err(8);
    }
    Ok(pass(capture, records))
}

/// The accepted frames, scrubbed; those for which there is no room are only counted.
fn join(capture: &[u8], out: &mut [u8]) -> Cleaned {
    let mut cleaned = Cleaned::default();
    let mut place = 0;
    let mut damage = false;
    while place < capture.len() {
        match parts(&capture[place..]) {
            Ok((msg_type, body)) => {
                let n = body.len() + 28;
                let at = cleaned.bytes as usize;
                if let Some(to) = out.get_mut(at..at + n) {
                    to.copy_from_slice(&capture[place..place + n]);
                    paint(to, msg_type);
                }
                cleaned.bytes += n as u64;
                cleaned.frames += 1;
                cleaned.after_damage += u64::from(damage);
                damage = false;
                place += n;
            }
            Err(_) => {
                damage = true;
                match search(capture, place + 1) {
                    Ok(Some(next)) => place = next,
                    _ => break,
                }
            }
        }
    }
    cleaned
}

pub fn clean(capture: &[u8], out: &mut [u8]) -> Result<Cleaned, u32> {
    if out.len() < capture.len() && (out.len() as u64) < join(capture, &mut []).bytes {
        return Err(8);
    }
    Ok(join(capture, out))
}

// THE LISTING'S TEXT

/// The two digits of each number below 100.
const PAIRS: [[u8; 2]; 100] = {
    let mut pairs = [[0; 2]; 100];
    let mut n = 0;
    while n < 100 {
        pairs[n] = [b'0' + (n / 10) as u8, b'0' + (n % 10) as u8];
        n += 1;
    }
    pairs
};

/// All four digits of a number below 10,000, from a place on; the place behind them.
fn four(text: &mut [u8], at: usize, v: u32) -> usize {
    let [a, b] = PAIRS[(v / 100) as usize];
    let [c, d] = PAIRS[(v % 100) as usize];
    text[at..at + 4].copy_from_slice(&[a, b, c, d]);
    at + 4
}

/// Those that such a number needs.
fn few(text: &mut [u8], at: usize, v: u32) -> usize {
    if v < 10 {
        text[at] = b'0' + v as u8;
        return at + 1;
    }
    let [a, b] = PAIRS[(v % 100) as usize];
    if v < 100 {
        text[at..at + 2].copy_from_slice(&[a, b]);
        return at + 2;
    }
    if v < 1_000 {
        text[at..at + 3].copy_from_slice(&[b'0' + (v / 100) as u8, a, b]);
        return at + 3;
    }
    four(text, at, v)
}

/// Those of a number that is mostly not that short.
#[inline(never)]
fn many(text: &mut [u8], at: usize, v: u64) -> usize {
    if v < 10_000 {
        return few(text, at, v as u32);
    }
    let at = many(text, at, v / 10_000);
    four(text, at, (v % 10_000) as u32)
}

/// A number and the byte behind it.
fn column(text: &mut [u8], at: usize, v: u64, behind: u8) -> usize {
    let at = if v < 10_000 {
        few(text, at, v as u32)
    } else {
        many(text, at, v)
    };
    text[at] = behind;
    at + 1
}

/// A record's line.
fn line(text: &mut [u8], at: usize, row: &[u8]) -> usize {
    let at = column(text, at, u64_at(row, 0), b' ');
    let shown = match &row[8..12] {
        b"    " => b"----",
        name => name,
    };
    text[at..at + 4].copy_from_slice(shown);
    text[at + 4] = b' ';
    let at = column(text, at + 5, u32_at(row, 12).into(), b' ');
    let at = column(text, at, u64_at(row, 16), b' ');
    let at = column(text, at, u16_at(row, 32).into(), b' ');
    let at = column(text, at, u64_at(row, 24), b' ');
    let at = column(text, at, u64_at(row, 40), b' ');
    column(text, at, u64_at(row, 48), b'\n')
}

fn width(v: u64) -> usize {
    match v {
        0..=9 => 1,
        10..=99 => 2,
        100..=999 => 3,
        1_000..=9_999 => 4,
        _ => 4 + width(v / 10_000),
    }
}

fn line_len(row: &[u8]) -> usize {
    12 + width(u64_at(row, 0))
        + width(u32_at(row, 12).into())
        + width(u64_at(row, 16))
        + width(u16_at(row, 32).into())
        + width(u64_at(row, 24))
        + width(u64_at(row, 40))
        + width(u64_at(row, 48))
}

/// The listing of a walk's records. No line has more than 127 bytes, and the last no more than 138:
/// where there is room for so many, nothing is counted first.
pub fn listing(records: &[u8], walked: &Walked, text: &mut [u8]) -> Result<usize, u32> {
    let Walked {
        frames,
        refused,
        ledger,
        ..
    } = *walked;
    let missing = ledger.missing()?;
    let last = [
        ("frames ", frames, b' '),
        ("refused ", refused, b' '),
        ("floor ", ledger.floor, b' '),
        ("top ", ledger.top, b' '),
        ("missing ", missing, b'\n'),
    ];
    let rows = records.chunks_exact(64);
    let roomy = text.len() >= 138 && rows.len() <= (text.len() - 138) / 127;
    if !roomy {
        let lines: usize = rows.clone().map(line_len).sum();
        let end: usize = last.iter().map(|(w, v, _)| w.len() + width(*v) + 1).sum();
        if text.len() < lines + end {
            return Err(8);
        }
    }
    let mut at = 0;
    for row in rows {
        at = line(text, at, row);
    }
    for (word, v, behind) in last {
        text[at..at + word.len()].copy_from_slice(word.as_bytes());
        at = column(text, at + word.len(), v, behind);
    }
    Ok(at)
}
