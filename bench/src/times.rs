//! What the check of a time costs (CR 6): a heartbeat that is refused by 7, behind the check, less
//! the same one refused by 5, before it.

use crate::{best_of, done, made, number, plain};
use rietknoest_host as host;
use std::hint::black_box;

/// A row of the table. The time has a second of 60, the last part to be looked at.
pub fn row() {
    let mut late = made::frame(0x5330_3033, 1, b"");
    late[4..12].copy_from_slice(&20_260_121_095_960_000u64.to_be_bytes());
    late[27] = plain::sum(&late[..24]);
    let mut wrong = late.clone();
    wrong[27] ^= 1;
    for (frame, why) in [(&late, 7), (&wrong, 5)] {
        assert_eq!(number(host::read(frame, 0)).err(), Some(why));
        assert_eq!(plain::read(frame, 0).err(), Some(why));
    }
    let [ours_7, ours_5, plain_7, plain_5] = best_of(
        (200, 10_000),
        1,
        [
            &mut || done(host::read(black_box(&late), 0)),
            &mut || done(host::read(black_box(&wrong), 0)),
            &mut || done(plain::read(black_box(&late), 0)),
            &mut || done(plain::read(black_box(&wrong), 0)),
        ],
    );
    println!(
        "| the check of a time | a heartbeat refused by 7, less one refused by 5 | {:.1} ns a frame | {:.1} ns a frame | | |",
        ours_7 - ours_5,
        plain_7 - plain_5
    );
}
