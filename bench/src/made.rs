//! Made-up captures: a session's frames with ticks in order, a gap now and then, and damage in one
//! frame of two hundred.

use crate::plain;

/// A generator of numbers (splitmix64); the same seed makes the same capture.
pub struct Dice(pub u64);

impl Dice {
    pub fn next(&mut self) -> u64 {
        self.0 = self.0.wrapping_add(0x9e37_79b9_7f4a_7c15);
        let mut z = self.0;
        z = (z ^ (z >> 30)).wrapping_mul(0xbf58_476d_1ce4_e5b9);
        z = (z ^ (z >> 27)).wrapping_mul(0x94d0_49bb_1331_11eb);
        z ^ (z >> 31)
    }

    pub fn below(&mut self, n: u64) -> u64 {
        self.next() % n
    }

    pub fn bytes(&mut self, n: usize) -> Vec<u8> {
        let mut bytes = Vec::with_capacity(n + 8);
        while bytes.len() < n {
            bytes.extend(self.next().to_le_bytes());
        }
        bytes.truncate(n);
        bytes
    }
}

/// The frame of a sound body.
pub fn frame(msg_type: u32, seq: u64, body: &[u8]) -> Vec<u8> {
    let mut f = msg_type.to_be_bytes().to_vec();
    f.extend(20_260_102_093_000_000u64.to_be_bytes());
    f.extend(seq.to_be_bytes());
    f.extend((body.len() as u32).to_be_bytes());
    f.extend(body);
    f.extend(u32::from(plain::sum(&f)).to_be_bytes());
    f
}

/// An M201 of a stream that source document 000 does not name, with so many bytes behind its fixed
/// ones.
pub fn tick(d: &mut Dice, number: u64, tail: usize) -> Vec<u8> {
    tick_of(d, b"MD001", b'F', number, tail)
}

/// An M201 with an order's extension.
pub fn order(d: &mut Dice, number: u64) -> Vec<u8> {
    tick_of(d, b"MD211", b'0', number, 139)
}

/// An M201 with a trade's extension.
pub fn trade(d: &mut Dice, number: u64) -> Vec<u8> {
    tick_of(d, b"MD217", b'F', number, 53)
}

fn tick_of(d: &mut Dice, stream: &[u8; 5], exec: u8, number: u64, tail: usize) -> Vec<u8> {
    let mut b = vec![13, 0, 100];
    b.extend(number.to_be_bytes());
    b.extend(stream);
    b.extend(b"600000  ");
    b.extend(93_000_000u32.to_be_bytes());
    b.push(exec);
    b.extend(d.below(1_000_000).to_be_bytes());
    b.extend(d.below(1_000_000).to_be_bytes());
    b.extend(d.bytes(tail));
    b
}

fn snapshot(d: &mut Dice, entries: usize) -> Vec<u8> {
    let mut b = vec![1, 1];
    b.extend(20_260_102u32.to_be_bytes());
    b.extend(93_000_000u32.to_be_bytes());
    b.extend(b"MD002600000  MADE UP ");
    for _ in 0..4 {
        b.extend(d.below(1_000_000).to_be_bytes());
    }
    b.extend(b"T       ");
    b.extend((entries as u16).to_be_bytes());
    for i in 0..entries {
        b.extend(b"0 ");
        b.extend(d.below(1_000_000).to_be_bytes());
        b.extend(d.below(1_000_000).to_be_bytes());
        b.push(i as u8 % 10);
    }
    b
}

/// A capture of so many bytes; its last frame may be cut.
pub fn capture(bytes: usize) -> Vec<u8> {
    let d = &mut Dice(1);
    let mut c = Vec::with_capacity(bytes + 9_000);
    let (mut seq, mut number) = (0, 0);
    while c.len() < bytes {
        seq += 1;
        let mut f = match d.below(100) {
            0..=59 => {
                number += if d.below(50) == 0 { 2 } else { 1 };
                let body = match d.below(4) {
                    0 => trade(d, number),
                    1 => order(d, number),
                    _ => {
                        let tail = d.below(64) as usize;
                        tick(d, number, tail)
                    }
                };
                frame(plain::M201, seq, &body)
            }
            60..=84 => {
                let entries = d.below(40) as usize;
                frame(plain::M102, seq, &snapshot(d, entries))
            }
            85..=89 => {
                let mut b = vec![13, 0, 100];
                b.extend((number).to_be_bytes());
                b.push(b'N');
                frame(plain::P001, seq, &b)
            }
            90..=91 => {
                let mut b = d.bytes(64);
                b.extend([0, 30]);
                b.extend(b"0.62    ");
                frame(plain::S001, seq, &b)
            }
            92..=93 => {
                let mut b = vec![0; 4];
                b.extend(d.bytes(256));
                frame(plain::S002, seq, &b)
            }
            94..=95 => {
                let mut b = vec![0, 100, 1];
                b.extend((number + 1).to_be_bytes());
                b.extend((number + 1).to_be_bytes());
                b.push(1);
                b.extend(d.bytes(32));
                frame(plain::P002, seq, &b)
            }
            96..=97 => {
                let n = d.below(400) as usize;
                frame(plain::M101, seq, &d.bytes(n))
            }
            _ => frame(plain::S003, seq, &[]),
        };
        if d.below(200) == 0 {
            let at = d.below(f.len() as u64) as usize;
            f[at] ^= 0x55;
        }
        c.extend(f);
    }
    c.truncate(bytes);
    c
}

/// Headers of a frame of n bytes of body one behind the other, each with everything right but the
/// sum.
pub fn false_headers(bytes: usize, msg_type: u32, n: usize) -> Vec<u8> {
    let mut f = frame(msg_type, 1, &[]);
    f[20..24].copy_from_slice(&(n as u32).to_be_bytes());
    f.truncate(24);
    f.extend([0xff; 4]);
    f.iter().copied().cycle().take(bytes).collect()
}
