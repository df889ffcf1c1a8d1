//! The command `rietknoest`: lists, scrubs, checks and explains captures, finds their gaps, and
//! sums them up. What a byte means is up to `rietknoest_host`. Of the documents' rules it has names
//! (`names`): where the fields of a body stand, for `explain`, and that the bodies of M101 are not
//! judged; and which types name a channel, for `gaps`. Files, words and exit statuses are handled
//! here, tested but not proved.

#![deny(unsafe_code)]

mod arguments;
mod capture;
mod check;
mod explain;
mod gaps;
mod help;
mod hint;
mod json;
mod list;
mod market;
mod month;
mod names;
mod progress;
mod scrub;
mod step;
#[allow(unsafe_code)]
mod system;
mod target;

use std::env;
use std::ffi::{OsStr, OsString};
use std::fs::File;
use std::io::{self, ErrorKind, Write};
use std::ops::ControlFlow;
use std::process::ExitCode;
use std::sync::OnceLock;

use arguments::Command;
use capture::opened;
use rietknoest_host::Refusal;

/// How a command that did its work ended.
#[derive(Clone, Copy, PartialEq, Eq, PartialOrd, Ord)]
enum Status {
    Well = 0,
    /// Something was refused, is missing or is private.
    Amiss = 1,
    /// One of several files could not be read, and that was said.
    Failed = 2,
}

impl Status {
    fn amiss(is: bool) -> Status {
        if is {
            Status::Amiss
        } else {
            Status::Well
        }
    }
}

/// Why a command could not do its work: exit status 2.
enum Trouble {
    /// Wrong arguments, and the subcommand whose they are.
    Usage(String, Option<&'static str>),
    /// A file's name for display, and what is wrong with it.
    File(String, String),
    /// The output was closed. There is nobody to tell either.
    Unread,
}

impl Trouble {
    fn of(name: &str, error: &io::Error) -> Trouble {
        // the system's message, without its number
        let what = error.to_string();
        let what = what.split(" (os error").next().unwrap_or_default();
        Trouble::File(name.to_string(), what.to_string())
    }

    /// No call here is refused: each has the room that it needs.
    fn refused(name: &str, refusal: Refusal) -> Trouble {
        let what = format!("refused, {}", names::answer(refusal));
        Trouble::File(name.to_string(), what)
    }

    /// A standard file that was closed when the program was started.
    fn closed(name: &str) -> Trouble {
        Trouble::File(name.to_string(), "it is closed".to_string())
    }

    fn too_large(name: &str) -> Trouble {
        let what = "too large for this machine's memory".to_string();
        Trouble::File(name.to_string(), what)
    }
}

fn main() -> ExitCode {
    let status = match arguments::parse(env::args_os().skip(1)).and_then(run) {
        Ok(status) => status as u8,
        Err(Trouble::Usage(what, whose)) => {
            say(&what);
            let help = whose.map_or("--help".to_string(), |name| format!("help {name}"));
            say(&format!("'rietknoest {help}' shows how to call it"));
            2
        }
        Err(Trouble::File(name, what)) => {
            say(&format!("{name}: {what}"));
            2
        }
        Err(Trouble::Unread) => 2,
    };
    ExitCode::from(status)
}

fn run(command: Command) -> Result<Status, Trouble> {
    match command {
        Command::Help(text) => print(text).map(|()| Status::Well),
        Command::Version => {
            print(concat!("rietknoest ", env!("CARGO_PKG_VERSION"), "\n")).map(|()| Status::Well)
        }
        Command::List { files, how } => list::list(&files, how),
        Command::Gaps { files, json } => gaps::gaps(&files, json),
        Command::Scrub {
            from,
            to,
            whole,
            step,
            force,
        } => {
            let scrub = if step { step::scrub } else { scrub::scrub };
            scrub(&from, &to, whole, force)
        }
        Command::Check { files, step } => {
            let check = if step { step::check } else { check::check };
            each(&files, |file| check(file).map(ControlFlow::Continue))
        }
        Command::Explain { file, place, step } => {
            let explain = if step {
                step::explain
            } else {
                explain::explain
            };
            explain(&file, place)
        }
        Command::Month {
            files,
            channels,
            sums,
        } => month::month(&files, &channels, sums),
        Command::Market { files } => each(&files, |file| {
            market::market(file).map(ControlFlow::Continue)
        }),
    }
}

/// Each file in turn, and the worst status. One of several that can't be read does not keep the
/// others from being read.
fn each(
    files: &[OsString],
    mut one: impl FnMut(&OsStr) -> Result<ControlFlow<Status, Status>, Trouble>,
) -> Result<Status, Trouble> {
    let mut worst = Status::Well;
    for file in files {
        match one(file) {
            Ok(ControlFlow::Continue(status)) => worst = worst.max(status),
            Ok(ControlFlow::Break(status)) => return Ok(worst.max(status)),
            Err(Trouble::File(name, what)) if files.len() > 1 => {
                say(&format!("{name}: {what}"));
                worst = Status::Failed;
            }
            Err(trouble) => return Err(trouble),
        }
    }
    Ok(worst)
}

/// A line on standard error. If that can't be written there is nowhere left to say so.
fn say(what: &str) {
    progress::clear();
    let _ = writeln!(io::stderr(), "rietknoest: {what}");
}

/// Text on standard output. If the reader has gone away, it has read what it wanted.
fn print(text: impl AsRef<[u8]>) -> Result<(), Trouble> {
    match put(text.as_ref()) {
        Err(Trouble::Unread) => Ok(()),
        other => other,
    }
}

/// Bytes on standard output, at once. Not by the standard library's own, which takes an output that
/// can't be written to for one that takes all.
fn put(bytes: &[u8]) -> Result<(), Trouble> {
    static OUTPUT: OnceLock<io::Result<File>> = OnceLock::new();
    let name = "standard output";
    if system::was_closed(&io::stdout()) {
        return Err(Trouble::closed(name));
    }
    let mut output: &File = match OUTPUT.get_or_init(|| opened(io::stdout())) {
        Ok(output) => output,
        Err(error) => return Err(Trouble::of(name, error)),
    };
    match output.write_all(bytes) {
        Ok(()) => Ok(()),
        Err(error) if error.kind() == ErrorKind::BrokenPipe => Err(Trouble::Unread),
        Err(error) => Err(Trouble::of(name, &error)),
    }
}

/// A count with its noun.
fn count(n: u64, what: &str) -> String {
    format!("{n} {what}{}", if n == 1 { "" } else { "s" })
}
