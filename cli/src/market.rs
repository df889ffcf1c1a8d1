//! `market`: is this B-to-H market file sound?

use std::ffi::OsStr;

use rietknoest_host::market::{check, spot, Fault, Lines, Wrong};

use crate::capture::Capture;
use crate::{count, print, Status, Trouble};

/// Amiss where the file is not sound. Told is the number, its place and what stands there; no byte
/// of the file is shown.
pub fn market(file: &OsStr) -> Result<Status, Trouble> {
    let file = Capture::read(file)?;
    let name = &file.name;
    match check(&file.bytes) {
        Ok(Lines(n)) => {
            print(format!("{name}: sound, {}\n", count(n as u64, "line")))?;
            Ok(Status::Well)
        }
        Err(fault) => {
            print(format!("{name}: {}\n", said(&file.bytes, fault)))?;
            Ok(Status::Amiss)
        }
    }
}

fn said(file: &[u8], fault: Fault) -> String {
    let what = match fault.wrong {
        Wrong::Header | Wrong::Column => return format!("{fault}: {}", column(file, fault.place)),
        Wrong::CutShort if fault.place == file.len() => "the file ends where more is due",
        Wrong::CutShort => "bytes after the trailer",
        Wrong::LineType => "a line begins with none of MD401, MD404, MD405, MD406, TRAILER",
        Wrong::Trailer => "the trailer is TRAILER, a bar, three digits and a newline",
        Wrong::Count => return number(fault, "the header's count is not the number of lines"),
        Wrong::Sum => {
            return number(
                fault,
                "the trailer's sum is not that of the bytes before it",
            )
        }
        Wrong::Large => return number(fault, "the file is above 65536 bytes"),
        Wrong::Room => return number(fault, "no room"),
    };
    format!("{fault}: {what}")
}

/// A number that has no place.
fn number(fault: Fault, what: &str) -> String {
    format!("{}: {what}", fault.wrong.number())
}

fn column(file: &[u8], place: usize) -> String {
    let Some(spot) = spot(file, place) else {
        return "a column".to_string();
    };
    let (name, form) = spot.column;
    let whose = match spot.line {
        0 => "header".to_string(),
        line => format!("line {line}, {}", spot.layout),
    };
    if spot.behind {
        format!("{whose}, {name}: no bar or newline after it")
    } else {
        format!("{whose}, {name}: {form}")
    }
}
