//! The completions and the manual have what the help texts have: every subcommand, every option of
//! each, and what each exit status means. README has lines that the command prints.

mod common;

use std::collections::BTreeSet;
use std::fs;
use std::process::Command;

use common::*;

type Words = BTreeSet<String>;

/// The subcommands, from the lines of usage.
fn subcommands() -> Vec<String> {
    let help = run(&Folder::new(), &["--help"]);
    let usage = help.out().lines().take_while(|line| !line.is_empty());
    let names = usage.filter_map(|line| line.split("rietknoest ").nth(1)?.split(' ').next());
    let names: Words = names.map(String::from).collect();
    names
        .into_iter()
        .filter(|name| !name.starts_with('-'))
        .collect()
}

/// The options of a subcommand, from the lines of its help that start with one.
fn options(name: &str) -> Words {
    let help = run(&Folder::new(), &[name, "--help"]);
    let lines = help.out().lines().filter(|line| line.starts_with('-'));
    lines
        .filter_map(|line| line.split(' ').next())
        .map(String::from)
        .collect()
}

/// What bash offers behind some words, the last of which is being typed.
fn offered(folder: &Folder, words: &[&str]) -> Words {
    let script = "source \"$1\"; shift
        COMP_WORDS=(rietknoest \"$@\"); COMP_CWORD=$#
        _rietknoest; printf '%s\\n' \"${COMPREPLY[@]}\"";
    let mut bash = Command::new("bash");
    bash.current_dir(folder.path("."))
        .args(["--norc", "-c", script, "bash"])
        .arg(root().join("cli/completions/rietknoest.bash"))
        .args(words);
    let ran = finish(bash, b"");
    assert_eq!((ran.status, ran.error()), (Some(0), ""));
    let lines = ran.out().lines().filter(|line| !line.is_empty());
    lines.map(String::from).collect()
}

#[test]
fn bash_offers_commands_options_and_files() {
    let folder = Folder::new().with("capture", b"").with("other", b"");
    let all: Words = subcommands().into_iter().collect();
    assert!(all.len() >= 6);
    let mut first = all.clone();
    first.extend(["--help", "-h", "--version", "-V"].map(String::from));
    assert_eq!(offered(&folder, &[""]), first);
    let all: Words = all.into_iter().filter(|name| name != "help").collect();
    assert_eq!(offered(&folder, &["help", ""]), all);
    for name in &all {
        // what is offered after `help` is a command that it knows
        assert_eq!(run(&folder, &["help", name]).status, Some(0), "{name}");
        let mut takes = options(name);
        takes.extend(["-q", "-h"].map(String::from));
        assert_eq!(offered(&folder, &[name, "-"]), takes, "{name}");
        let files = Words::from(["capture".to_string()]);
        assert_eq!(offered(&folder, &[name, "cap"]), files, "{name}");
    }
    let files = ["capture", "other"].map(String::from).into();
    assert_eq!(offered(&folder, &["scrub", "capture", "-o", ""]), files);
}

fn completions(name: &str) -> String {
    fs::read_to_string(root().join("cli/completions").join(name)).unwrap()
}

/// The options that zsh offers after a subcommand: those of its branch, and those of every one.
fn zsh_options(text: &str, name: &str) -> Words {
    let (before, branches) = text.split_once("case $name in\n").unwrap();
    let mut branches = branches.split(";;");
    let start = format!("{name})");
    let branch = branches.find(|branch| branch.trim_start().starts_with(&start));
    let branch = branch.expect(name);
    let named = branch.split('\'').filter(|word| word.starts_with('-'));
    let named = named.filter_map(|word| word.split('[').next());
    let mut options: Words = named.map(String::from).collect();
    if branch.contains("$every") {
        let every = before.split("every=(").nth(1).unwrap();
        for long in every.split('{').skip(1) {
            let (short_and_long, _) = long.split_once('}').unwrap();
            options.extend(short_and_long.split(',').map(String::from));
        }
    }
    options
}

/// The options that fish offers after a subcommand: those of the lines whose condition names it, or
/// that have no condition.
fn fish_options(text: &str, name: &str) -> Words {
    let mut options = Words::new();
    for line in text.lines() {
        let condition = line.split("__fish_seen_subcommand_from ").nth(1);
        let condition = condition.and_then(|rest| rest.split('\'').next());
        let is_for = match condition {
            Some(names) => names.split(' ').any(|known| known == name),
            None => line.starts_with("complete ") && !line.contains(" -n "),
        };
        if is_for {
            let words: Vec<_> = line.split(' ').collect();
            for pair in words.windows(2) {
                match pair {
                    ["-l", long] => drop(options.insert(format!("--{long}"))),
                    ["-s", short] => drop(options.insert(format!("-{short}"))),
                    _ => {}
                }
            }
        }
    }
    options
}

/// The other two are read as text, subcommand by subcommand, and by their shells where these are
/// installed.
#[test]
fn zsh_and_fish_know_the_same() {
    let (zsh, fish) = (completions("_rietknoest"), completions("rietknoest.fish"));
    for name in subcommands() {
        assert_eq!(zsh.matches(&format!("'{name}:")).count(), 1, "{name}");
        let line = format!("-n __fish_use_subcommand -f -a {name} ");
        assert_eq!(fish.matches(&line).count(), 1, "{name}");
        let mut takes = Words::new();
        if name != "help" {
            takes = options(&name);
            takes.extend(["-q", "-h"].map(String::from));
        }
        assert_eq!(zsh_options(&zsh, &name), takes, "zsh {name}");
        // fish has --help everywhere
        takes.extend(["-h", "--help"].map(String::from));
        assert_eq!(fish_options(&fish, &name), takes, "fish {name}");
    }
    for option in ["-V", "--version", "-h", "--help"] {
        assert!(zsh.contains(option), "{option}");
    }
    assert!(fish.contains("-n __fish_use_subcommand -s V -l version "));
    // after `help` come the commands, and not `help`
    let all: Vec<_> = subcommands().into_iter().filter(|n| n != "help").collect();
    let offered = fish.lines().last().unwrap().split("-a '").nth(1).unwrap();
    let mut offered: Vec<_> = offered.trim_end_matches('\'').split(' ').collect();
    offered.sort();
    assert_eq!(offered, all);
    let (commands, _) = zsh.split_once("\n)\n").unwrap();
    assert!(!commands.contains("'help:"));
    for (shell, name) in [("zsh", "_rietknoest"), ("fish", "rietknoest.fish")] {
        let path = root().join("cli/completions").join(name);
        if is_installed(shell) {
            let read = Command::new(shell).arg("-n").arg(path).output();
            assert!(read.unwrap().status.success(), "{shell}");
        }
    }
}

/// The manual has a part for each subcommand, which its synopsis shows with the options of its
/// help.
#[test]
fn the_manual_has_the_same() {
    let path = root().join("docs/rietknoest.1");
    let manual = fs::read_to_string(path).unwrap().replace('\\', "");
    let (_, synopsis) = manual.split_once(".SH SYNOPSIS\n").unwrap();
    let (synopsis, rest) = synopsis.split_once(".SH DESCRIPTION\n").unwrap();
    for name in subcommands() {
        let call = format!(".B rietknoest {name}\n");
        let (_, call) = synopsis.split_once(&call).expect(&name);
        let call = call.split(".br\n").next().unwrap();
        if name == "help" {
            continue;
        }
        assert!(rest.contains(&format!(".SS {name}\n")), "{name}");
        let words = call.split_whitespace().filter(|word| word.starts_with('-'));
        let mut shown: Words = words.map(String::from).collect();
        shown.extend(["--quiet", "--help"].map(String::from));
        assert_eq!(shown, options(&name), "{name}");
        for option in shown {
            assert!(rest.contains(&option), "{name} {option}");
        }
    }
}

/// What a help text says of each exit status, 0 to 2, in one line.
fn statuses(help: &str) -> [String; 3] {
    let line = help.split_whitespace().collect::<Vec<_>>().join(" ");
    let (_, line) = line.split_once("exit status: 0 ").unwrap();
    let (well, line) = line.split_once("; 1 ").unwrap();
    let (amiss, line) = line.split_once("; 2 ").unwrap();
    let (failed, _) = line.split_once('.').unwrap();
    [well, amiss, failed].map(String::from)
}

/// What the help texts say of each exit status stands in the manual, for the same subcommand, and
/// what they say of all in README.
#[test]
fn the_statuses_are_the_same() {
    let path = root().join("docs/rietknoest.1");
    let manual = fs::read_to_string(path).unwrap().replace('\\', "");
    let (_, part) = manual.split_once(".SH EXIT STATUS\n").unwrap();
    let (part, _) = part.split_once("\n.SH ").unwrap();
    let parts = part.split(".TP\n").skip(1).map(|part| {
        let words = part.split_whitespace().collect::<Vec<_>>();
        words.join(" ").to_lowercase()
    });
    let parts: Vec<_> = parts.collect();
    assert_eq!(parts.len(), 3);

    let folder = Folder::new();
    let all = statuses(run(&folder, &["--help"]).out());
    for (part, said) in parts.iter().zip(&all) {
        assert!(part.contains(said), "{said}");
    }
    let readme = fs::read_to_string(root().join("README.md")).unwrap();
    assert_eq!(statuses(&readme), all);

    for name in subcommands().iter().filter(|name| *name != "help") {
        let [well, amiss, failed] = statuses(run(&folder, &[name, "--help"]).out());
        // what is said of this subcommand, up to the next sentence
        let of = |part: &str| {
            let sentences = part.split(". ").filter(|sentence| {
                let whose = sentence.split(':').next().unwrap();
                whose.split(" and ").any(|whose| whose == name)
            });
            sentences.collect::<Vec<_>>().join(". ")
        };
        let is_general = well == all[0];
        assert!(
            is_general || of(&parts[0]).contains(&well),
            "{name}: {well}"
        );
        assert!(of(&parts[1]).contains(&amiss), "{name}: {amiss}");
        for what in failed.replace("the file", "a file").split(", ") {
            let what = what.trim_start_matches("or ");
            let is_said = parts[2].starts_with(&format!(".b 2 {}", all[2]))
                && all[2].contains(what)
                || of(&parts[2]).contains(what);
            assert!(is_said, "{name}: {what}");
        }
    }
}

/// What README shows of the sample is what is printed, line by line; `..` stands for lines that are
/// left out.
#[test]
fn readme_shows_what_is_printed() {
    let readme = fs::read_to_string(root().join("README.md")).unwrap();
    let folder = Folder::new().with("sample", &sample());
    let mut rest: Vec<String> = Vec::new();
    let (mut shown, mut commands, mut leaves_out) = (0, 0, false);
    // after three spaces a line is told about
    let lines = readme.lines().filter_map(|line| line.strip_prefix("    "));
    let lines = lines.map(|line| line.split("   ").next().unwrap());
    for line in lines.chain(["$ rietknoest list -"]) {
        if let Some(words) = line.strip_prefix("$ rietknoest ") {
            assert!(leaves_out || rest.is_empty(), "{rest:?} before {line}");
            let words: Vec<_> = words.split(' ').collect();
            let ran = run(&folder, &words);
            let printed = format!("{}{}", ran.out(), ran.error());
            rest = printed.lines().map(String::from).collect();
            (leaves_out, commands) = (false, commands + 1);
        } else if commands > 0 && line == ".." {
            leaves_out = true;
        } else if commands > 0 {
            let place = rest.iter().position(|row| row == line);
            let place = place.unwrap_or_else(|| panic!("not printed: {line}"));
            assert!(leaves_out || place == 0, "lines are left out before {line}");
            rest.drain(..=place);
            leaves_out = false;
            shown += 1;
        }
    }
    assert!(shown > 8 && commands > 5);
}
