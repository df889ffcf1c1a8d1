//! The command's arguments. `SUBCOMMANDS` has a row for each subcommand.

use std::ffi::{OsStr, OsString};
use std::os::unix::ffi::OsStrExt;

use rietknoest_host::ChannelNumber;

use crate::capture::shown;
use crate::list::How;
use crate::{help, progress, Trouble};

pub enum Command {
    Help(&'static str),
    Version,
    List {
        files: Vec<OsString>,
        how: How,
    },
    Gaps {
        files: Vec<OsString>,
        json: bool,
    },
    Scrub {
        from: OsString,
        to: OsString,
        whole: bool,
        step: bool,
        force: bool,
    },
    Check {
        files: Vec<OsString>,
        step: bool,
    },
    Explain {
        file: OsString,
        place: u64,
        step: bool,
    },
    Month {
        files: Vec<OsString>,
        channels: Vec<ChannelNumber>,
        sums: bool,
    },
    Market {
        files: Vec<OsString>,
    },
}

/// A subcommand.
struct Subcommand {
    name: &'static str,
    /// The options that it takes, beside --help and --quiet. -o has a file behind it, --channels
    /// a list.
    options: &'static [&'static str],
    help: &'static str,
    /// What its words ask for.
    made: fn(Words) -> Result<Command, Trouble>,
}

const SUBCOMMANDS: &[Subcommand] = &[
    Subcommand {
        name: "list",
        options: &["--follow", "--summary", "--json"],
        help: help::LIST,
        made: list,
    },
    Subcommand {
        name: "gaps",
        options: &["--json"],
        help: help::GAPS,
        made: |words| {
            let json = words.has("--json");
            let files = words.files_or_input();
            Ok(Command::Gaps { files, json })
        },
    },
    Subcommand {
        name: "scrub",
        options: &["-o", "--whole", "--step", "--force"],
        help: help::SCRUB,
        made: scrub,
    },
    Subcommand {
        name: "check",
        options: &["--step"],
        help: help::CHECK,
        made: |words| {
            let step = words.has("--step");
            let files = words.files()?;
            Ok(Command::Check { files, step })
        },
    },
    Subcommand {
        name: "explain",
        options: &["--step"],
        help: help::EXPLAIN,
        made: explain,
    },
    Subcommand {
        name: "month",
        options: &["--channels", "--sums"],
        help: help::MONTH,
        made: month,
    },
    Subcommand {
        name: "market",
        options: &[],
        help: help::MARKET,
        made: |words| {
            let files = words.files()?;
            Ok(Command::Market { files })
        },
    },
];

/// What the arguments ask for.
pub fn parse(mut words: impl Iterator<Item = OsString>) -> Result<Command, Trouble> {
    let Some(name) = words.next() else {
        return wrong("no command is given");
    };
    match name.to_str() {
        Some("--help" | "-h") => Ok(Command::Help(help::ALL)),
        Some("--version" | "-V") => Ok(Command::Version),
        Some("help") => match words.next() {
            Some(name) => Ok(Command::Help(subcommand(&name)?.help)),
            None => Ok(Command::Help(help::ALL)),
        },
        _ => {
            let subcommand = subcommand(&name)?;
            match Words::of(subcommand, words)? {
                Some(words) => (subcommand.made)(words),
                None => Ok(Command::Help(subcommand.help)),
            }
        }
    }
}

fn subcommand(name: &OsStr) -> Result<&'static Subcommand, Trouble> {
    let found = SUBCOMMANDS.iter().find(|known| name == known.name);
    match found {
        Some(found) => Ok(found),
        None => wrong(format!("{}: no such command", shown(name))),
    }
}

/// The words behind a subcommand's name.
struct Words {
    name: &'static str,
    options: Vec<&'static str>,
    /// What stands behind -o, or behind --channels.
    out: Option<OsString>,
    files: Vec<OsString>,
}

impl Words {
    /// None if help is asked for.
    fn of(
        subcommand: &Subcommand,
        mut words: impl Iterator<Item = OsString>,
    ) -> Result<Option<Words>, Trouble> {
        let name = subcommand.name;
        let mut given = Words {
            name,
            options: Vec::new(),
            out: None,
            files: Vec::new(),
        };
        let has_out = subcommand.options.contains(&"-o");
        let mut options = true;
        while let Some(word) = words.next() {
            if !options || !is_option(&word) {
                given.files.push(word);
                continue;
            }
            let known = subcommand.options.iter().find(|known| word == **known);
            match (word.to_str(), known) {
                (Some("--"), _) => options = false,
                (Some("--help" | "-h"), _) => return Ok(None),
                (Some("--quiet" | "-q"), _) => progress::silence(),
                (Some("-o"), Some(_)) => match words.next() {
                    Some(out) => given.out_is("-o", out)?,
                    None => return wrong_in(name, "-o names no file"),
                },
                (Some("--channels"), Some(_)) => match words.next() {
                    Some(list) => given.out_is("--channels", list)?,
                    None => return wrong_in(name, "--channels names no channel"),
                },
                (_, Some(known)) => given.options.push(known),
                (_, None) => match word.as_bytes().strip_prefix(b"-o") {
                    Some(out) if has_out => given.out_is("-o", OsStr::from_bytes(out).into())?,
                    _ => return wrong_in(name, format!("{}: no such option", shown(&word))),
                },
            }
        }
        Ok(Some(given))
    }

    fn out_is(&mut self, option: &str, out: OsString) -> Result<(), Trouble> {
        match self.out.replace(out) {
            None => Ok(()),
            Some(_) => wrong_in(self.name, format!("{option} is given twice")),
        }
    }

    fn has(&self, option: &str) -> bool {
        self.options.contains(&option)
    }

    /// One file or more.
    fn files(self) -> Result<Vec<OsString>, Trouble> {
        if self.files.is_empty() {
            return wrong_in(self.name, "it takes a file, or several");
        }
        Ok(self.files)
    }

    /// The files, or standard input if there are none.
    fn files_or_input(self) -> Vec<OsString> {
        if self.files.is_empty() {
            return vec![OsString::from("-")];
        }
        self.files
    }
}

fn list(words: Words) -> Result<Command, Trouble> {
    let how = How {
        follow: words.has("--follow"),
        summary: words.has("--summary"),
        json: words.has("--json"),
    };
    let files = words.files_or_input();
    if how.follow && files.len() > 1 {
        return wrong_in("list", "--follow takes one file");
    }
    Ok(Command::List { files, how })
}

fn scrub(words: Words) -> Result<Command, Trouble> {
    let (whole, step) = (words.has("--whole"), words.has("--step"));
    let force = words.has("--force");
    let Ok([from]) = <[OsString; 1]>::try_from(words.files) else {
        return wrong_in("scrub", "it takes one file");
    };
    match words.out {
        Some(to) => Ok(Command::Scrub {
            from,
            to,
            whole,
            step,
            force,
        }),
        None => wrong_in("scrub", "-o OUT is missing"),
    }
}

/// The channels, with a comma between two, and the captures.
fn month(mut words: Words) -> Result<Command, Trouble> {
    let sums = words.has("--sums");
    let Some(list) = words.out.take() else {
        return wrong_in("month", "--channels is missing");
    };
    let files = words.files()?;
    let channel = |word: &str| {
        let digits = !word.is_empty() && word.bytes().all(|b| b.is_ascii_digit());
        let number = word.parse().ok().filter(|_| digits)?;
        Some(ChannelNumber::new(number))
    };
    let named = list
        .to_str()
        .and_then(|list| list.split(',').map(channel).collect());
    match named {
        Some(channels) => Ok(Command::Month {
            files,
            channels,
            sums,
        }),
        None => wrong_in("month", format!("{}: not a list of channels", shown(&list))),
    }
}

/// The file and the place. A number too large for a place is beyond the end of every file.
fn explain(words: Words) -> Result<Command, Trouble> {
    let step = words.has("--step");
    let Ok([file, place]) = <[OsString; 2]>::try_from(words.files) else {
        return wrong_in("explain", "it takes a file and a place");
    };
    match place.to_str() {
        Some(digits) if !digits.is_empty() && digits.bytes().all(|b| b.is_ascii_digit()) => {
            let place = digits.parse().unwrap_or(u64::MAX);
            Ok(Command::Explain { file, place, step })
        }
        _ => wrong_in(
            "explain",
            format!("{}: not a number of bytes", shown(&place)),
        ),
    }
}

fn is_option(word: &OsStr) -> bool {
    word.len() > 1 && word.as_bytes()[0] == b'-'
}

fn wrong<T>(what: impl Into<String>) -> Result<T, Trouble> {
    Err(Trouble::Usage(what.into(), None))
}

/// Wrong words behind a subcommand's name.
fn wrong_in<T>(name: &'static str, what: impl AsRef<str>) -> Result<T, Trouble> {
    let what = format!("{name}: {}", what.as_ref());
    Err(Trouble::Usage(what, Some(name)))
}

#[cfg(test)]
mod tests {
    use super::*;

    /// The help of a subcommand starts with how it is called, and has each of its options and no
    /// other; the help of all has each subcommand.
    #[test]
    fn the_help_has_every_option() {
        for subcommand in SUBCOMMANDS {
            let Subcommand { name, help, .. } = subcommand;
            assert!(help.starts_with(&format!("usage: rietknoest {name} ")));
            assert!(help::ALL.contains(&format!("\n{name:8} ")), "{name}");
            let words = help.split([' ', '\n', '[', ']', ',', '|', ';', '.']);
            let mut told: Vec<_> = words.filter(|word| is_option(OsStr::new(word))).collect();
            let mut takes = subcommand.options.to_vec();
            takes.extend(["--quiet", "--help"]);
            told.sort();
            told.dedup();
            takes.sort();
            assert_eq!(told, takes, "{name}");
        }
    }
}
