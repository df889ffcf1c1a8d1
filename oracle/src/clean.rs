//! A capture scrubbed: the frames that the walk accepts, each scrubbed, one
//! after the other, and no other byte (document 02, CR 11).

use crate::answer::No;
use crate::scrub::scrub;
use crate::walk::records;

/// What cleaning a capture comes to; `after_damage` counts the frames that the
/// search found.
#[derive(Clone, Copy, Debug, Default, PartialEq, Eq)]
pub struct Cleaned {
    pub bytes: usize,
    pub frames: u64,
    pub after_damage: u64,
}

/// The clean capture.
pub fn cleaned(capture: &[u8]) -> (Vec<u8>, Cleaned) {
    let mut out = Vec::new();
    let mut counts = Cleaned::default();
    let mut damage = false;
    for record in records(capture).0 {
        if !record.is_refused() {
            let place = record.place as usize;
            let mut frame = capture[place..place + record.body_length as usize + 28].to_vec();
            let scrubbed = scrub(&mut frame);
            assert_eq!(scrubbed, Ok(frame.len()), "the walk accepted it");
            out.extend(frame);
            counts.frames += 1;
            counts.after_damage += u64::from(damage);
        }
        damage = record.is_refused();
    }
    counts.bytes = out.len();
    (out, counts)
}

/// The clean capture at the front of a lent buffer, or 8.
pub fn clean(capture: &[u8], out: &mut [u8]) -> Result<Cleaned, No> {
    let (joined, counts) = cleaned(capture);
    let front = out.get_mut(..joined.len()).ok_or(No::Room)?;
    front.copy_from_slice(&joined);
    Ok(counts)
}

/// The first place where a capture differs from what cleaning it gives.
pub fn first_unclean(capture: &[u8]) -> Option<usize> {
    let (joined, _) = cleaned(capture);
    let changed = joined.iter().zip(capture).position(|(a, b)| a != b);
    changed.or((joined.len() != capture.len()).then_some(joined.len()))
}
