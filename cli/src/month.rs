//! `month`: a page over scrubbed captures, in whole numbers.

use std::ffi::{OsStr, OsString};
use std::ops::ControlFlow;

use rietknoest_host::{first_unclean, ChannelNumber, Figures, Month};

use crate::capture::Source;
use crate::{each, hint, print, say, Status, Trouble};

/// Prints each capture's name and figures, then the sums; or the sums alone. A capture that is not
/// clean is left out. Amiss if a number is missing, or if a capture was refused or left out.
pub fn month(
    files: &[OsString],
    channels: &[ChannelNumber],
    sums: bool,
) -> Result<Status, Trouble> {
    let page = Month::start(channels);
    let mut page = page.map_err(|refusal| {
        let what = format!("month: --channels: refused, {refusal}");
        Trouble::Usage(what, Some("month"))
    })?;
    let read = each(files, |file| one(file, &mut page, sums))?;
    let text = format!(
        "sums of {} captures\n{}",
        page.captures(),
        lines(&page, page.sums())
    );
    print(text)?;
    let missing = page.sums().iter().any(|figures| figures.missing > 0);
    Ok(read.max(Status::amiss(missing)))
}

/// A capture's own figures. The first that is refused ends it.
fn one(file: &OsStr, page: &mut Month, sums: bool) -> Result<ControlFlow<Status, Status>, Trouble> {
    let capture = Source::open(file)?.whole()?;
    let name = capture.name;
    if first_unclean(&capture.bytes).is_some() {
        // of a file that is no capture scrubbing makes nothing
        let how = if hint::is_of_another_kind(&capture.bytes) {
            ""
        } else {
            ": 'rietknoest scrub' makes it clean"
        };
        say(&format!("{name}: not clean, and left out{how}"));
        return Ok(ControlFlow::Continue(Status::Amiss));
    }
    match page.add(&capture.bytes) {
        Ok(figures) => {
            if !sums {
                print(format!("{name}\n{}", lines(page, &figures)))?;
            }
            Ok(ControlFlow::Continue(Status::Well))
        }
        Err(refusal) => {
            say(&format!("{name}: refused, {refusal}"));
            Ok(ControlFlow::Break(Status::Amiss))
        }
    }
}

/// `100 received 20 repeated 1 far 0 missing 3 asked 1 unavailable 0`, for each channel.
fn lines(page: &Month, figures: &[Figures]) -> String {
    let rows = page.channels().zip(figures).map(|(channel, f)| {
        format!(
            "{} received {} repeated {} far {} missing {} asked {} unavailable {}\n",
            channel.value(),
            f.received,
            f.repeated,
            f.far,
            f.missing,
            f.asked,
            f.unavailable
        )
    });
    rows.collect()
}
