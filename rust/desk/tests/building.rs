//! How the desk is built: `make` says what is missing, and the build script finds the engine's archive.

mod desk {
    pub mod room;
}

use std::ffi::OsString;
use std::os::unix::fs::symlink;
use std::path::{Path, PathBuf};
use std::process::Command;
use std::{env, fs};

use desk::room::{Room, Said};

const ROOT: &str = concat!(env!("CARGO_MANIFEST_DIR"), "/../..");

/// Where a command stands.
fn found(command: &str) -> PathBuf {
    let said = Command::new("sh").args(["-c", &format!("command -v {command}")]).output().expect("a shell");
    PathBuf::from(Said::of(said).done().trim_end())
}

/// A room like the repository before anything is built, but for what the kit, which does nothing here, would leave. In its
/// `bin` these commands stand, and do nothing, beside those that every recipe needs.
fn repository(idle: &[&str]) -> Room {
    let room = Room::new();
    room.set("crates.txt", "");
    room.set("crates/searchroom_c/out/libsearchroom_c.a", "");
    fs::create_dir(room.path("bin")).expect("a new folder");
    fs::copy(Path::new(ROOT).join("Makefile"), room.path("Makefile")).expect("the Makefile");
    let idle = idle.iter().map(|&name| (name, PathBuf::from("/bin/true")));
    for (name, command) in ["find", "ls", "install"].map(|name| (name, found(name))).into_iter().chain(idle) {
        symlink(command, room.path("bin").join(name)).expect("a link");
    }
    room
}

/// Runs `make` with the commands of the room alone.
fn make(room: &Room, words: &[&str]) -> Said {
    let mut make = Command::new(found("make"));
    make.args(words).current_dir(room.path("")).env_clear().env("PATH", room.path("bin"));
    Said::of(make.output().expect("make"))
}

#[test]
fn without_the_kit_every_target_says_what_it_is() {
    let room = repository(&["cargo"]);
    for target in ["parish", "library", "desk", "test", "install", "install-desk"] {
        let said = make(&room, &[target]).failed(2);
        assert!(said.starts_with("there is no command rt: it is the Rattle kit, "), "{target}: {said}");
        assert!(
            said.contains("docs/ASSUMPTIONS.md") && said.contains("README.md, \"Two commands\""),
            "{target}: {said}"
        );
    }
    for (page, named) in [("docs/ASSUMPTIONS.md", "`rattle-kit-"), ("README.md", "\n## Two commands\n")] {
        let text = fs::read_to_string(Path::new(ROOT).join(page)).expect("the page");
        assert!(text.contains(named), "{page}");
    }
}

#[test]
fn with_the_kit_it_is_used() {
    let room = repository(&["rt"]);
    assert_eq!(
        make(&room, &["library"]).done(),
        "cd crates/searchroom_c && rt lib\n\
         install -D -m 644 crates/searchroom_c/out/libsearchroom_c.a target/staticlib/libsearchroom.a\n"
    );
    assert!(room.path("target/staticlib/libsearchroom.a").is_file());
    assert_eq!(make(&room, &["-s", "kit"]).done(), "");
}

/// Who has the archive needs no kit.
#[test]
fn archive_that_is_there() {
    let room = repository(&[]);
    room.set("target/staticlib/libsearchroom.a", "");
    assert!(make(&room, &["library"]).done().contains("Nothing to be done"));
}

/// What else the desk needs is asked for before the engine is proved, which takes minutes.
#[test]
fn without_cargo_or_crates() {
    let said = make(&repository(&[]), &["desk"]).failed(2);
    assert!(said.starts_with("there is no command cargo: install Rust 1.89 or later"), "{said}");
    let said = make(&repository(&["cargo"]), &["desk", "registry=bin"]).failed(2);
    assert!(said.starts_with("no source of the crate clap: apt-get install librust-clap-dev "), "{said}");
}

/// With everything there the program that cargo built is the one that is installed.
#[test]
fn desk_is_installed() {
    let room = repository(&["rt", "cargo"]);
    fs::create_dir_all(room.path("rust/target/release")).expect("a new folder");
    symlink(env!("CARGO_BIN_EXE_searchroom"), room.path("rust/target/release/searchroom")).expect("a link");
    make(&room, &["-s", "install-desk", "PREFIX=there"]).done();
    let installed = Command::new(room.path("there/bin/searchroom")).arg("--version").output();
    assert_eq!(Said::of(installed.expect("the program runs")).done(), room.run(&["--version"]).done());
}

/// The build script, compiled by itself, in a room with these archives; its package is `repository/rust/package`.
fn build_script(archives: &[&str]) -> Room {
    let room = Room::new();
    for folder in archives {
        room.set(&format!("{folder}/libengine.a"), "");
    }
    let rustc = env::var_os("RUSTC").unwrap_or(OsString::from("rustc"));
    let source = Path::new(ROOT).join("rust/build.rs");
    let compiled = Command::new(rustc).args(["--edition", "2024", "-o"]).arg(room.path("script")).arg(source).output();
    Said::of(compiled.expect("rustc")).done();
    room
}

/// What the script tells cargo, with the room as `ROOM`. `shell` is the folder in which the shell says that it is.
fn told(room: &Room, named: Option<&str>, shell: Option<&str>) -> Vec<String> {
    let here = room.path("").display().to_string();
    let mut script = Command::new(room.path("script"));
    script.env_clear().env("CARGO_MANIFEST_LINKS", "engine");
    script.env("CARGO_MANIFEST_DIR", room.path("repository/rust/package"));
    script.envs(named.map(|named| ("SEARCHROOM_LIB_DIR", named.replace("ROOM/", &here))));
    script.envs(shell.map(|shell| ("PWD", shell.replace("ROOM/", &here))));
    let said = Said::of(script.output().expect("the script runs")).done();
    said.lines().map(|line| line.replace(&here, "ROOM/")).collect()
}

/// The folder that the script found, and whether another folder of the shell's may change that.
fn folder(room: &Room, named: Option<&str>, shell: Option<&str>) -> (String, bool) {
    let told = told(room, named, shell);
    let after = |start: &str| told.iter().filter_map(|line| line.strip_prefix(start)).collect::<Vec<_>>();
    let searched = after("cargo::rustc-link-search=native=");
    assert_eq!(searched.len(), 1, "{told:?}");
    assert_eq!(after("cargo::rustc-link-lib="), ["static=engine"]);
    assert_eq!(after("cargo::rerun-if-changed="), [format!("{}/libengine.a", searched[0])]);
    let variables = after("cargo::rerun-if-env-changed=");
    assert!(variables.contains(&"SEARCHROOM_LIB_DIR"), "{told:?}");
    (searched[0].to_owned(), variables.contains(&"PWD"))
}

#[test]
fn relative_folder_of_the_archive() {
    let (shell, workspace, root) = ("ROOM/shell/lib", "ROOM/repository/rust/lib", "ROOM/repository/lib");
    let all = ["shell/lib", "repository/rust/lib", "repository/lib"];
    for (archives, found) in [(&all[..], shell), (&all[1..], workspace), (&all[2..], root)] {
        let room = build_script(archives);
        assert_eq!(folder(&room, Some("lib"), Some("ROOM/shell")), (found.to_owned(), true), "{archives:?}");
    }
    let room = build_script(&all);
    assert_eq!(folder(&room, Some("../shell/lib"), Some("ROOM/repository")).0, "ROOM/repository/../shell/lib");
    for shell in [None, Some("shell"), Some("")] {
        assert_eq!(folder(&room, Some("lib"), shell).0, workspace, "{shell:?} is no folder of a shell's");
    }
}

#[test]
fn whole_path_of_the_archive_or_none() {
    let room = build_script(&["shell/lib", "elsewhere", "repository/target/staticlib"]);
    let shell = Some("ROOM/shell");
    assert_eq!(folder(&room, Some("ROOM/elsewhere"), shell), ("ROOM/elsewhere".to_owned(), false));
    for named in [None, Some("")] {
        assert_eq!(folder(&room, named, shell), ("ROOM/repository/target/staticlib".to_owned(), false), "{named:?}");
    }
}

/// Every place that was looked at is named, with what to do; and nothing is linked.
#[test]
fn archive_that_is_nowhere() {
    let room = build_script(&[]);
    let (shell, workspace, root) = ("ROOM/shell/lib", "ROOM/repository/rust/lib", "ROOM/repository/lib");
    for (named, at, places) in [
        (Some("lib"), "ROOM/shell", &[shell, workspace, root][..]),
        (Some("lib"), "ROOM/repository/rust", &[workspace, root]),
        (Some("lib"), "ROOM/repository", &[root, workspace]),
        (Some("ROOM/elsewhere"), "ROOM/shell", &["ROOM/elsewhere"]),
        (None, "ROOM/shell", &["ROOM/repository/target/staticlib"]),
    ] {
        let told = told(&room, named, Some(at));
        let place = format!("cargo::error=there is no libengine.a in {}: ", places.join(", nor in "));
        let error = told.iter().find(|line| line.starts_with(&place)).unwrap_or_else(|| panic!("{told:?}"));
        assert!(error.contains("`make target/staticlib/libengine.a`") && error.contains("SEARCHROOM_LIB_DIR"), "{error}");
        assert!(!told.iter().any(|line| line.contains("link")), "{told:?}");
    }
}
