//! The script `rietknoest` at the root, in a made-up project: its tools/archive, rt and cargo only
//! note that they were called.

mod common;

use std::fs::{self, File};
use std::io::{BufRead, BufReader};
use std::os::unix::fs::{symlink, PermissionsExt};
use std::path::{Path, PathBuf};
use std::process::{Command, Stdio};
use std::time::SystemTime;

use common::*;

/// What the script needs of a machine, except rt and cargo.
const TOOLS: [&str; 17] = [
    "awk", "bash", "cat", "chmod", "dirname", "env", "find", "flock", "grep", "mkdir", "readlink",
    "sed", "sleep", "sort", "tac", "tee", "wc",
];

/// Notes its call, prints what rt prints for a crate, and makes the library.
const ARCHIVE: &str = "#!/usr/bin/env bash
cd \"${0%/*}/..\"
echo archive >>calls
echo 'fn terms::new: proved' >&2
echo 'rt: terms proved (1 s)' >&2
echo 'rt: rules proved (unchanged since it was last proved)' >&2
[ ! -f broken ] || exit 1
while [ -f wait ]; do sleep 0.02; done
echo >build/librietknoest.a
";

/// Notes its call, and makes a command that prints its folder and arguments.
const CARGO: &str = "#!/usr/bin/env bash
echo cargo >>calls
mkdir -p build/cargo/release
printf '#!/usr/bin/env bash\\necho \"${PWD##*/}: $# $*\"\\nexit 1\\n' >build/cargo/release/rietknoest
chmod +x build/cargo/release/rietknoest
";

fn put(path: PathBuf, text: &str, mode: u32) {
    fs::create_dir_all(path.parent().unwrap()).unwrap();
    fs::write(&path, text).unwrap();
    fs::set_permissions(&path, PermissionsExt::from_mode(mode)).unwrap();
}

fn project() -> Folder {
    let folder = Folder::new();
    for ours in ["rietknoest", "tools/below"] {
        let script = fs::read_to_string(root().join(ours)).unwrap();
        put(folder.path("project").join(ours), &script, 0o755);
    }
    put(folder.path("project/tools/archive"), ARCHIVE, 0o755);
    put(
        folder.path("project/crates.txt"),
        "# all\nterms:\nrules: terms\nother: terms\nhost: rules\nhost_ledger: terms\nhost_captures: rules\nlast: host\nfollow: rules\nrietknoest staticlib: host host_ledger host_captures follow\n",
        0o644,
    );
    let files = [
        "tools/prove",
        "crates/terms/src/lib.rt",
        "crates/terms/specs/Lib.antt",
        "Cargo.toml",
        ".cargo/config.toml",
        "cli/Cargo.toml",
        "cli/src/main.rs",
        "host/Cargo.toml",
        "host/build.rs",
        "host/src/lib.rs",
    ];
    for file in files {
        put(folder.path("project").join(file), "", 0o644);
    }
    fs::create_dir(folder.path("bin")).unwrap();
    let paths = std::env::var_os("PATH").unwrap();
    for tool in TOOLS {
        let mut places = std::env::split_paths(&paths).map(|path| path.join(tool));
        let found = places.find(|path| path.is_file()).expect(tool);
        symlink(found, folder.path("bin").join(tool)).unwrap();
    }
    put(folder.path("bin/rt"), "#!/usr/bin/env bash\n", 0o755);
    put(folder.path("bin/cargo"), CARGO, 0o755);
    fs::create_dir(folder.path("elsewhere")).unwrap();
    folder
}

/// The script run from another folder, under a given name.
fn run_script(folder: &Folder, name: &Path, words: &[&str]) -> Ran {
    let mut script = Command::new(name);
    script
        .current_dir(folder.path("elsewhere"))
        .env("PATH", folder.path("bin"))
        .args(words);
    finish(script, b"")
}

fn calls(folder: &Folder) -> String {
    fs::read_to_string(folder.path("project/calls")).unwrap_or_default()
}

/// One after the other: a program that is being written while another is started can't be run.
#[test]
fn the_script() {
    it_builds_once_and_again_when_something_changed();
    a_library_that_is_there_takes_no_minutes();
    what_is_left_after_an_interruption_is_told();
    each_crate_is_told_as_it_is_proved();
    what_can_not_be_built_is_told();
}

fn it_builds_once_and_again_when_something_changed() {
    let folder = project();
    let script = folder.path("project/rietknoest");
    let first = "rietknoest: first use: 7 crates are proved, a line for each, then the command is built
rietknoest: that takes about five to ten minutes, once; what is proved stays proved if you break it off
rietknoest: terms proved (1 s)
rietknoest: the library is proved and built
rietknoest: built
";
    // arguments, folder and status are the command's
    let ran = run_script(&folder, &script, &["list", "a b", "-"]);
    assert_eq!(
        (ran.status, ran.out(), ran.error()),
        (Some(1), "elsewhere: 3 list a b -\n", first)
    );
    assert_eq!(calls(&folder), "archive\ncargo\n");

    // at once, also without rt and cargo, and through a link to a link
    fs::rename(folder.path("bin/rt"), folder.path("rt")).unwrap();
    fs::rename(folder.path("bin/cargo"), folder.path("cargo")).unwrap();
    symlink("project/rietknoest", folder.path("link")).unwrap();
    symlink("../link", folder.path("elsewhere/rk")).unwrap();
    for name in [script.clone(), folder.path("elsewhere/rk")] {
        let ran = run_script(&folder, &name, &["check"]);
        ran.quiet(1, "elsewhere: 1 check\n");
    }
    assert_eq!(calls(&folder), "archive\ncargo\n");
    fs::rename(folder.path("rt"), folder.path("bin/rt")).unwrap();
    fs::rename(folder.path("cargo"), folder.path("bin/cargo")).unwrap();

    // a file that changed, one that is new, one that is gone
    let changes: [fn(&Folder); 3] = [
        |f| fs::write(f.path("project/crates/terms/src/lib.rt"), "//").unwrap(),
        |f| fs::write(f.path("project/cli/src/new.rs"), "").unwrap(),
        |f| fs::remove_file(f.path("project/crates/terms/specs/Lib.antt")).unwrap(),
    ];
    for change in changes {
        fs::remove_file(folder.path("project/calls")).unwrap();
        change(&folder);
        let ran = run_script(&folder, &script, &[]);
        assert!(ran
            .error()
            .starts_with("rietknoest: something has changed: "));
        assert_eq!(calls(&folder), "archive\ncargo\n");
        run_script(&folder, &script, &[]).quiet(1, "elsewhere: 0 \n");
        assert_eq!(calls(&folder), "archive\ncargo\n");
    }

    // the same size and an older time
    for name in ["crates/terms/src/lib.rt", "cli/src/main.rs"] {
        let path = folder.path("project").join(name);
        let file = File::options().write(true).open(path).unwrap();
        file.set_modified(SystemTime::UNIX_EPOCH).unwrap();
        let ran = run_script(&folder, &script, &[]);
        assert_eq!(ran.error().lines().count(), 4);
    }
}

/// tools/archive was run before, by itself.
fn a_library_that_is_there_takes_no_minutes() {
    let folder = project();
    put(folder.path("project/build/librietknoest.a"), "", 0o644);
    let ran = run_script(&folder, &folder.path("project/rietknoest"), &[]);
    let first = "rietknoest: first use: the library is there, ";
    assert!(ran.error().starts_with(first) && !ran.error().contains("minutes"));
    assert_eq!((ran.status, ran.out()), (Some(1), "elsewhere: 0 \n"));
    assert_eq!(calls(&folder), "archive\ncargo\n");
}

/// rt leaves a mark for each crate that is proved.
fn what_is_left_after_an_interruption_is_told() {
    let folder = project();
    for proved in ["terms", "rules", "other"] {
        let mark = format!("project/crates/{proved}/out/rlib/stamp");
        put(folder.path(&mark), "", 0o644);
    }
    let ran = run_script(&folder, &folder.path("project/rietknoest"), &[]);
    let first = "rietknoest: it was broken off before: 2 of 7 crates are proved, and 5 are left, ";
    assert!(ran.error().starts_with(first), "{}", ran.error());
    // each line comes as it is printed, and those of crates that are proved already do not
    assert!(ran.error().contains("\nrietknoest: terms proved (1 s)\n"));
    assert!(!ran.error().contains("unchanged"));
    assert_eq!((ran.status, ran.out()), (Some(1), "elsewhere: 0 \n"));
}

/// A crate's line is there before the next crate is proved.
fn each_crate_is_told_as_it_is_proved() {
    let folder = project();
    fs::write(folder.path("project/wait"), "").unwrap();
    let mut script = Command::new(folder.path("project/rietknoest"));
    script
        .current_dir(folder.path("elsewhere"))
        .env("PATH", folder.path("bin"))
        .stdout(Stdio::null())
        .stderr(Stdio::piped());
    let mut child = script.spawn().unwrap();
    let mut lines = BufReader::new(child.stderr.take().unwrap()).lines();
    let told = lines.find(|line| line.as_ref().unwrap().contains("terms proved"));
    assert!(told.is_some());
    assert!(child.try_wait().unwrap().is_none());
    fs::remove_file(folder.path("project/wait")).unwrap();
    assert_eq!(lines.last().unwrap().unwrap(), "rietknoest: built");
    assert_eq!(child.wait().unwrap().code(), Some(1));
}

fn what_can_not_be_built_is_told() {
    let folder = project();
    let script = folder.path("project/rietknoest");
    fs::remove_file(folder.path("bin/cargo")).unwrap();
    let ran = run_script(&folder, &script, &["list"]);
    let said = "rietknoest: cargo is not there: it builds this command\n";
    assert_eq!((ran.status, ran.out(), ran.error()), (Some(2), "", said));
    fs::remove_file(folder.path("bin/rt")).unwrap();
    let ran = run_script(&folder, &script, &["list"]);
    assert!(ran.error().starts_with("rietknoest: rt is not there: "));
    assert_eq!((ran.status, ran.out()), (Some(2), ""));
    assert_eq!(calls(&folder), "");

    // a proof that fails, and a command that does not compile
    put(folder.path("bin/rt"), "#!/usr/bin/env bash\n", 0o755);
    put(
        folder.path("bin/cargo"),
        "#!/usr/bin/env bash\nexit 101\n",
        0o755,
    );
    fs::write(folder.path("project/broken"), "").unwrap();
    let ran = run_script(&folder, &script, &["list"]);
    assert!(ran
        .error()
        .contains("\nrietknoest: the library was not built; "));
    assert_eq!((ran.status, ran.out()), (Some(2), ""));
    fs::remove_file(folder.path("project/broken")).unwrap();
    let ran = run_script(&folder, &script, &["list"]);
    assert!(ran
        .error()
        .ends_with("\nrietknoest: the command was not built\n"));
    assert_eq!((ran.status, ran.out()), (Some(2), ""));
}
