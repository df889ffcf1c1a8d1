//! A page over captures: adding one beside plain Rust, and beside our own walk over the same bytes.

use crate::{done, made, plain, Job};
use made::Dice;
use rietknoest_host as host;
use rietknoest_host::{ChannelNumber, Figures, Month};
use std::hint::black_box;

/// A channel's ledger and figures, written by hand.
struct Row {
    ledger: plain::Ledger,
    figures: Figures,
}

/// The figures of a capture for each channel, in one pass.
fn figures(channels: &[u16], capture: &[u8]) -> Vec<Figures> {
    let row = |c: &u16| Row {
        ledger: plain::Ledger::open(*c),
        figures: Figures::default(),
    };
    let mut rows: Vec<Row> = channels.iter().map(row).collect();
    let mut place = 0;
    while place < capture.len() {
        let Ok(f) = plain::read(capture, place) else {
            match plain::search(capture, place + 1) {
                Ok(Some(next)) => place = next,
                _ => break,
            }
            continue;
        };
        place += f.frame_len();
        let channel = f.channel.value();
        let Some(row) = rows.iter_mut().find(|r| r.ledger.channel == channel) else {
            continue;
        };
        let of = &mut row.figures;
        match f.msg_type as u32 {
            plain::M201 => match row.ledger.tick(channel, f.tick.value()) {
                Ok(_) => of.received += 1,
                Err(11) => of.repeated += 1,
                Err(12) => of.far += 1,
                Err(_) => {}
            },
            plain::P001 => done(row.ledger.announce(channel, f.tick.value())),
            plain::P002 => {
                of.asked += u64::from(f.status == 0);
                of.unavailable += u64::from(f.status == 4);
            }
            _ => {}
        }
    }
    let told = rows.into_iter().map(|mut row| {
        let held: u32 = row.ledger.map.iter().map(|w| w.count_ones()).sum();
        row.figures.missing = row.ledger.top - row.ledger.floor - u64::from(held);
        row.figures
    });
    told.collect()
}

/// The sums with a capture's figures added, unless one passes 64 bits.
fn added(sums: &mut [Figures], figures: &[Figures]) -> Option<()> {
    for (sum, f) in sums.iter_mut().zip(figures) {
        sum.received = sum.received.checked_add(f.received)?;
        sum.repeated = sum.repeated.checked_add(f.repeated)?;
        sum.far = sum.far.checked_add(f.far)?;
        sum.missing = sum.missing.checked_add(f.missing)?;
        sum.asked = sum.asked.checked_add(f.asked)?;
        sum.unavailable = sum.unavailable.checked_add(f.unavailable)?;
    }
    Some(())
}

/// Orders, trades and heartbeats of 32 channels from 100 on.
fn busy(bytes: usize) -> Vec<u8> {
    let d = &mut Dice(7);
    let mut c = Vec::with_capacity(bytes + 300);
    let mut ticks = [0; 32];
    while c.len() < bytes {
        let of = d.below(32) as usize;
        ticks[of] += 1;
        let mut body = match d.below(2) {
            0 => made::order(d, ticks[of]),
            _ => made::trade(d, ticks[of]),
        };
        body[1..3].copy_from_slice(&(100 + of as u16).to_be_bytes());
        c.extend(made::frame(plain::M201, 1, &body));
    }
    c
}

fn race(input: &str, capture: &[u8], channels: &[u16], walked: f64) {
    let named: Vec<ChannelNumber> = channels.iter().map(|c| ChannelNumber::new(*c)).collect();
    let page = Month::start(&named).expect("channels");
    let mut ours = page;
    let theirs = figures(channels, capture);
    assert_eq!(ours.add(capture).expect("it is taken"), theirs);
    let input = format!("{input}, {} named", channels.len());
    let job = Job {
        name: "a page with one capture more",
        input: &input,
        bytes: capture.len(),
        goal: Some(1.7),
    };
    job.race(
        "byte",
        1,
        || {
            let mut ours = page;
            done(ours.add(black_box(capture)));
            done(ours);
        },
        || {
            let mut sums = vec![Figures::default(); channels.len()];
            let told = figures(channels, black_box(capture));
            done(added(&mut sums, &told));
            done((sums, told));
        },
    );
    let mut records = vec![0; host::records_room(capture.len())];
    let job = Job {
        name: "the same beside our walk",
        input: &input,
        bytes: capture.len(),
        goal: Some(walked),
    };
    job.race(
        "byte",
        1,
        || {
            let mut ours = page;
            done(ours.add(black_box(capture)));
            done(ours);
        },
        || done(host::walk(black_box(capture), &mut records)),
    );
}

pub fn rows() {
    let capture = made::capture(crate::KIB_64);
    let all: Vec<u16> = (100..132).collect();
    race("64 KiB", &capture, &[100], 1.3);
    race("64 KiB", &capture, &all, 1.5);
    let capture = busy(crate::KIB_64);
    race("64 KiB of 32 channels' ticks", &capture, &[100], 1.3);
    race("64 KiB of 32 channels' ticks", &capture, &all, 1.5);
    let capture = busy(crate::MB);
    race("1 MB of 32 channels' ticks", &capture, &all, 1.5);
}
