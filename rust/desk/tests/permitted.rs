//! What the system does not permit: the program run by a user who may not do everything. Where the tests are the
//! superuser's, that is nobody, in a folder that is open to all; else whoever runs them, and some cases are left out.

mod desk {
    pub mod parish;
    pub mod room;
}

use std::env;
use std::fs::{self, Permissions};
use std::os::unix::fs::{MetadataExt, PermissionsExt, chown};
use std::os::unix::process::CommandExt;
use std::process::Command;

use desk::parish::{QUESTION, parish};
use desk::room::{Room, Said};

const NOBODY: u32 = 65_534;
/// A group of which nobody is a member.
const GROUP: u32 = 12_345;

const TALLY: [&str; 5] = ["ask", "parish", QUESTION, "--tally", "t.bin"];

fn set_mode(room: &Room, file: &str, mode: u32) {
    fs::set_permissions(room.path(file), Permissions::from_mode(mode)).unwrap();
}

/// A room that is open to all, with a copy of the program; and do the tests run as the superuser? The repository may
/// stand where nobody comes, so the room is where everybody does.
fn open_room() -> (Room, bool) {
    let (made, room) = (parish(), Room::below(&env::temp_dir()));
    for file in ["parish.csv", "parish/catalogue.bin", "parish/columns.csv"] {
        room.set(file, fs::read(made.path(file)).unwrap());
        set_mode(&room, file, 0o666);
    }
    fs::copy(env!("CARGO_BIN_EXE_searchroom"), room.path("program")).unwrap();
    for folder in [".", "parish"] {
        set_mode(&room, folder, 0o777);
    }
    let is_superuser = fs::metadata(room.path("parish.csv")).unwrap().uid() == 0;
    (room, is_superuser)
}

/// Runs the program as a user who is not the superuser.
fn run(room: &Room, is_superuser: bool, words: &[&str]) -> Said {
    let mut command = Command::new(room.path("program"));
    command.args(words).current_dir(room.path("."));
    if is_superuser {
        command.uid(NOBODY).gid(NOBODY);
    }
    Said::of(command.output().expect("the program, which everybody may run"))
}

/// A file that its own user made read-only is not replaced, though the folder would let them.
#[test]
fn read_only_files() {
    let (room, is_superuser) = open_room();
    let cases: [(&str, &[&str]); 5] = [
        ("t.bin", &TALLY),
        ("c.bin", &["ask", "parish", QUESTION, "--copy", "c.bin"]),
        ("a.svg", &["draw", "parish", QUESTION, "-o", "a.svg"]),
        ("parish/catalogue.bin", &["import", "parish.csv", "parish"]),
        ("parish/columns.csv", &["import", "parish.csv", "parish"]),
    ];
    for (file, words) in cases {
        run(&room, is_superuser, words).done();
        let before = fs::read(room.path(file)).unwrap();
        set_mode(&room, file, 0o444);
        let said = run(&room, is_superuser, words).failed(1);
        assert_eq!(said, format!("searchroom: cannot write {file}: Permission denied (os error 13)\n"));
        assert_eq!(fs::read(room.path(file)).unwrap(), before);
        let beside = [".new", ".next"].map(|ending| room.path(&format!("{file}{ending}")));
        assert!(beside.iter().all(|path| !path.exists()), "{file}");
        set_mode(&room, file, 0o666);
        run(&room, is_superuser, words).done();
    }
}

/// Where the group cannot be kept, the new one may do what all others may, and no more.
#[test]
fn group_that_is_not_kept() {
    let (room, is_superuser) = open_room();
    if !is_superuser {
        return;
    }
    run(&room, true, &TALLY).done();
    for (before, after) in [(0o660, 0o600), (0o640, 0o600), (0o664, 0o644), (0o600, 0o600)] {
        chown(room.path("t.bin"), Some(NOBODY), Some(GROUP)).unwrap();
        set_mode(&room, "t.bin", before);
        run(&room, true, &TALLY).done();
        let found = fs::metadata(room.path("t.bin")).unwrap();
        assert_eq!((found.uid(), found.gid(), found.mode() & 0o7777), (NOBODY, NOBODY, after), "{before:o}");
    }
}

/// What is closed to the user may be held by somebody: it is named in the end, and stays.
#[test]
fn closed_file_beside() {
    let (room, is_superuser) = open_room();
    room.set("t.bin.new", "");
    set_mode(&room, "t.bin.new", if is_superuser { 0o600 } else { 0o000 });
    let said = run(&room, is_superuser, &TALLY).failed(1);
    let why = "if another user's run made it, try again when that has ended; if none is running, have it removed";
    assert!(said.ends_with(&format!("t.bin.new is closed to you: {why}\n")), "{said}");
    assert!(room.path("t.bin.new").exists() && !room.path("t.bin").exists());
    set_mode(&room, "t.bin.new", 0o666);
    run(&room, is_superuser, &TALLY).done();
}

/// In a folder with the sticky bit another user's file can be written, but neither removed nor replaced.
#[test]
fn sticky_folder() {
    let (room, is_superuser) = open_room();
    if !is_superuser {
        return;
    }
    chown(room.path("."), Some(0), None).unwrap();
    set_mode(&room, ".", 0o1777);
    for (file, what) in [("t.bin.new", "remove"), ("t.bin", "replace")] {
        room.set(file, [0; 128]);
        set_mode(&room, file, 0o666);
        let said = run(&room, true, &TALLY).failed(1);
        let why = "Operation not permitted (os error 1); only its owner may do so in this folder: use another";
        assert!(said.starts_with(&format!("searchroom: cannot {what} ")), "{said}");
        assert!(said.ends_with(&format!("/{file}: {why}\n")), "{said}");
        assert_eq!(fs::read(room.path(file)).unwrap(), [0; 128]);
        fs::remove_file(room.path(file)).unwrap();
        assert!(!room.path("t.bin.new").exists());
    }
}
