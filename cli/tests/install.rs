//! tools/install: what it lays below a folder, and C programs built with what pkg-config then says.

mod common;

use std::fs;
use std::path::Path;
use std::process::Command;

use common::*;

const VERSION: &str = env!("CARGO_PKG_VERSION");

fn install(prefix: &Path, before: Option<&Path>) -> Ran {
    let mut install = Command::new(root().join("tools/install"));
    install.arg(prefix).env_remove("DESTDIR");
    if let Some(before) = before {
        install.env("DESTDIR", before);
    }
    finish(install, b"")
}

/// What pkg-config says of the library below a folder; none where there is no pkg-config.
fn said(prefix: &Path, words: &[&str]) -> Option<Vec<String>> {
    let mut asked = Command::new("pkg-config");
    asked
        .args(words)
        .arg("rietknoest")
        .env("PKG_CONFIG_PATH", prefix.join("lib/pkgconfig"));
    let said = asked.output().ok()?;
    assert!(said.status.success(), "{asked:?}");
    let said = String::from_utf8(said.stdout).unwrap();
    Some(said.split_whitespace().map(str::to_string).collect())
}

/// An example built with what pkg-config says, perhaps with words before the libraries and behind.
fn built(prefix: &Path, source: &Path, program: &Path, around: Option<[&str; 2]>) {
    let mut cc = Command::new("cc");
    cc.args(["-std=c11", "-Wall", "-Wextra", "-Werror", "-pedantic"])
        .args(said(prefix, &["--cflags"]).unwrap())
        .arg(source)
        .args(around.map(|words| words[0]))
        .args(said(prefix, &["--libs"]).unwrap())
        .args(around.map(|words| words[1]))
        .arg("-o")
        .arg(program);
    finish(cc, b"").quiet(0, "");
}

/// One after the other: each may build the command.
#[test]
fn the_installer() {
    let folder = Folder::new();
    what_is_installed_is_found_and_used(&folder.path("to"));
    with_destdir_the_files_name_the_prefix(&folder.path("stage"));
    let words = Command::new(root().join("tools/install"));
    assert_eq!(finish(words, b"").status, Some(2));
}

fn what_is_installed_is_found_and_used(to: &Path) {
    let ran = install(to, None);
    assert_eq!((ran.status, ran.out()), (Some(0), ""), "{}", ran.error());
    for file in [
        "include/rietknoest.h",
        "share/man/man1/rietknoest.1",
        "share/bash-completion/completions/rietknoest",
        "share/zsh/site-functions/_rietknoest",
        "share/fish/vendor_completions.d/rietknoest.fish",
    ] {
        assert!(to.join(file).is_file(), "{file}");
    }
    let mut command = Command::new(to.join("bin/rietknoest"));
    command.arg("--version");
    finish(command, b"").quiet(0, &format!("rietknoest {VERSION}\n"));

    let Some(version) = said(to, &["--modversion"]) else {
        not_tried("no pkg-config on this machine");
        return;
    };
    assert_eq!(version, [VERSION]);
    for example in fs::read_dir(root().join("host/examples")).unwrap() {
        let source = example.unwrap().path();
        if source.extension().is_some_and(|end| end == "c") {
            let name = source.file_stem().unwrap().to_str().unwrap();
            let (shared, whole) = (to.join(format!("{name}.shared")), to.join(name));
            built(to, &source, &shared, None);
            built(to, &source, &whole, Some(["-Wl,-Bstatic", "-Wl,-Bdynamic"]));
        }
    }

    // both scrub; without the folder of the shared library only the one that has it inside does
    let frame = logon("SENDER", "TARGET");
    let mut scrubbed = frame.clone();
    rietknoest_host::scrub(&mut scrubbed).unwrap();
    let run = |name: &str, libraries: &Path| {
        let mut program = Command::new(to.join(name));
        program.env("LD_LIBRARY_PATH", libraries);
        finish(program, &frame)
    };
    for (name, libraries) in [("scrub.shared", to.join("lib")), ("scrub", to.join("none"))] {
        let ran = run(name, &libraries);
        assert_eq!((ran.status, ran.error()), (Some(0), ""));
        assert!(ran.out == scrubbed, "{name}: a scrubbed frame differs");
    }
    assert_ne!(run("scrub.shared", &to.join("none")).status, Some(0));
}

fn with_destdir_the_files_name_the_prefix(stage: &Path) {
    let ran = install(Path::new("/opt/of ours"), Some(stage));
    assert_eq!((ran.status, ran.out()), (Some(0), ""), "{}", ran.error());
    let laid = stage.join("opt/of ours/lib/pkgconfig/rietknoest.pc");
    let text = fs::read_to_string(laid).unwrap();
    assert!(text.starts_with("prefix=/opt/of ours\n"));
    assert!(!text.contains(stage.to_str().unwrap()));
    let ran = install(Path::new("opt"), Some(stage));
    assert_eq!((ran.status, ran.out()), (Some(2), ""));
}
