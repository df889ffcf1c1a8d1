//! `scrub`: a capture, cleaned.

use std::ffi::OsStr;

use rietknoest_host::{clean, read, Cleaned, Scrubber, KEPT};

use crate::capture::{Source, PIECE};
use crate::target::Target;
use crate::{count, hint, names, say, system, Status, Trouble};

/// What was done.
#[derive(Default)]
struct Done {
    cleaned: Cleaned,
    /// How many bytes were left out.
    stray: u64,
    /// How many bodies were not judged.
    unjudged: u64,
}

/// Amiss if a byte of the capture was left out, since something was refused there. With `whole`
/// nothing is written then.
pub fn scrub(from: &OsStr, to: &OsStr, whole: bool, force: bool) -> Result<Status, Trouble> {
    let source = Source::open(from)?;
    let target = Target::of(to, source.identity, force)?;
    let name = source.name.clone();
    system::remove_before_the_end();
    let done = if whole {
        scrub_whole(source, target)?
    } else {
        scrub_arriving(source, target)?
    };
    if whole && done.stray > 0 {
        let stray = count(done.stray, "byte");
        say(&format!(
            "{name}: {stray} in no frame that reads: nothing is written (--whole)"
        ));
        return Ok(Status::Amiss);
    }
    say(&format!(
        "{name}: kept {}, left out {}, {} after damage",
        count(done.cleaned.frames, "frame"),
        count(done.stray, "byte"),
        count(done.cleaned.after_damage, "frame"),
    ));
    if done.cleaned.after_damage > 0 {
        for line in [
            "a frame after damage may lie inside private bytes of the damaged one (docs/PRIVATE.md)",
            "look at each, right after a ---- line of 'list', and at those that follow it without a gap, before you pass the result on",
        ] {
            say(&format!("{name}: {line}"));
        }
    }
    if done.unjudged > 0 {
        let bodies = names::unjudged(done.unjudged);
        say(&format!("{name}: {bodies}: passed on as sent"));
    }
    Ok(Status::amiss(done.stray > 0))
}

/// Reads all of it first, and writes nothing if a byte is stray.
fn scrub_whole(source: Source, target: Target) -> Result<Done, Trouble> {
    let capture = source.whole()?;
    // memory of our own: it briefly holds each frame unscrubbed
    let mut scrubbed = capture.room(capture.bytes.len())?;
    let cleaned = clean(&capture.bytes, &mut scrubbed)
        .map_err(|refusal| Trouble::refused(&capture.name, refusal))?;
    let stray = capture.bytes.len() as u64 - cleaned.bytes;
    let mut unjudged = 0;
    if stray == 0 {
        let mut output = target.open()?;
        output.write(&scrubbed)?;
        output.finish()?;
        let mut place = 0;
        while let Ok(frame) = read(&scrubbed, place) {
            unjudged += u64::from(names::is_unjudged_frame(&frame));
            place += frame.frame_len();
        }
    }
    Ok(Done {
        cleaned,
        stray,
        unjudged,
    })
}

/// Writes each frame as soon as it is decided, as the library scrubs it; the counts are the
/// library's too.
fn scrub_arriving(mut source: Source, target: Target) -> Result<Done, Trouble> {
    let mut output = target.open()?;
    let mut scrubber = Scrubber::open();
    let mut piece = vec![0; PIECE];
    // memory of our own: it briefly holds each frame unscrubbed
    let mut room = vec![0; KEPT + PIECE];
    let mut done = Done::default();
    let mut taken = 0;
    loop {
        let read = source.piece(&mut piece)?;
        if taken == 0 {
            hint::hint(&source.name, &piece[..read]);
        }
        let call = match read {
            0 => scrubber.close(&mut room),
            _ => scrubber.clean(&piece[..read], &mut room),
        };
        let step = call.map_err(|refusal| Trouble::refused(&source.name, refusal))?;
        output.write(&room[..step.bytes as usize])?;
        done.cleaned.bytes += step.bytes;
        done.cleaned.frames += step.frames;
        done.cleaned.after_damage += step.after_damage;
        done.unjudged += step.unjudged;
        taken += read as u64;
        if read == 0 {
            break;
        }
    }
    done.stray = taken - done.cleaned.bytes;
    output.finish()?;
    Ok(done)
}
