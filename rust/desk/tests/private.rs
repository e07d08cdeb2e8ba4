//! Who may read what the program writes: as before, from the first byte on, and nobody else where it tells who looked
//! at what.

mod desk {
    pub mod held;
    pub mod parish;
    pub mod room;
}

use std::fs::{self, Metadata, Permissions};
use std::os::unix::fs::{MetadataExt, PermissionsExt, chown};
use std::process::{Command, Stdio};
use std::thread;
use std::time::Duration;

use desk::held::held;
use desk::parish::{QUESTION, TABLE, parish};
use desk::room::{Room, Said};

const BOTH: [&str; 7] = ["ask", "parish", QUESTION, "--tally", "t.bin", "--copy", "c.bin"];
const DRAW: [&str; 5] = ["draw", "parish", QUESTION, "-o", "a.svg"];

/// The program, about to run under this umask.
fn under_umask(room: &Room, umask: &str, words: &[&str]) -> Command {
    let program = room.command(words);
    let mut shell = Command::new("sh");
    shell.args(["-c", &format!("umask {umask}; exec \"$0\" \"$@\"")]).arg(program.get_program());
    shell.args(program.get_args()).current_dir(room.path(".")).stdin(Stdio::null());
    shell
}

fn found(room: &Room, file: &str) -> Metadata {
    fs::metadata(room.path(file)).expect(file)
}

fn mode(room: &Room, file: &str) -> u32 {
    found(room, file).mode() & 0o7777
}

/// A new tally and a new copy are the owner's alone; a new catalogue, its names and a picture are as the umask has it.
#[test]
fn new_files() {
    for (umask, usual) in [("022", 0o644), ("002", 0o664), ("077", 0o600), ("000", 0o666)] {
        let room = parish();
        room.set("deeds.csv", TABLE);
        for words in [&BOTH[..], &DRAW, &["import", "deeds.csv", "deeds"]] {
            Said::of(under_umask(&room, umask, words).output().expect("a shell")).done();
        }
        let modes =
            ["t.bin", "c.bin", "a.svg", "deeds/catalogue.bin", "deeds/columns.csv"].map(|file| mode(&room, file));
        assert_eq!(modes, [0o600, 0o600, usual, usual, usual], "umask {umask}");
    }
}

/// While it is written, too, nobody else can open a file: neither a new one nor one that was private.
#[test]
fn from_the_first_byte() {
    for before in [None, Some(0o600), Some(0o640)] {
        let room = parish();
        if let Some(mode) = before {
            room.set("c.bin", "");
            fs::set_permissions(room.path("c.bin"), Permissions::from_mode(mode)).unwrap();
        }
        let tally = held(&room.path("t.bin.new"));
        let mut command = under_umask(&room, "000", &BOTH);
        let mut running = command.stdout(Stdio::null()).spawn().expect("a shell");
        // The copy's file is there and empty, and the run waits for the tally.
        let as_before = before.unwrap_or(0o600);
        while fs::metadata(room.path("c.bin.new")).map_or(0, |found| found.mode() & 0o7777) != as_before {
            let seen = fs::metadata(room.path("c.bin.new")).map_or(0o600, |found| found.mode() & 0o7777);
            assert!(seen == 0o600 || seen == as_before, "{before:?}: {seen:o}");
            assert!(running.try_wait().expect("a run").is_none(), "{before:?}: it ended before");
            thread::sleep(Duration::from_millis(1));
        }
        assert_eq!(found(&room, "c.bin.new").len(), 0);
        drop(tally);
        assert!(running.wait().expect("a run").success());
        assert_eq!((mode(&room, "t.bin"), mode(&room, "c.bin")), (0o600, as_before));
    }
}

/// What another run left is not written to: whoever has it open would go on reading.
#[test]
fn left_file_is_not_written_to() {
    let room = parish();
    room.set("t.bin.new", "");
    let open = fs::File::open(room.path("t.bin.new")).unwrap();
    room.run(&BOTH).done();
    assert_eq!(open.metadata().unwrap().len(), 0);
    assert_eq!(mode(&room, "t.bin"), 0o600);
}

/// A run that is refused leaves neither file.
#[test]
fn refused_run() {
    let room = parish();
    room.run(&[&BOTH[..], &["--order", "0"]].concat()).failed(1);
    assert!(["t.bin", "t.bin.new", "c.bin", "c.bin.new"].iter().all(|file| !room.path(file).exists()));
}

/// A file that is replaced keeps its permissions, its group and, as the superuser runs this, its owner.
#[test]
fn replaced_files() {
    const OWNER: u32 = 54_321;
    const GROUP: u32 = 12_345;
    let room = parish();
    room.run(&BOTH).done();
    room.run(&DRAW).done();
    let files = ["t.bin", "c.bin", "a.svg", "parish/catalogue.bin", "parish/columns.csv"];
    let is_superuser = chown(room.path("t.bin"), Some(OWNER), Some(GROUP)).is_ok();
    for permissions in [0o660, 0o640, 0o600, 0o664] {
        for file in files {
            fs::set_permissions(room.path(file), Permissions::from_mode(permissions)).unwrap();
            if is_superuser {
                chown(room.path(file), Some(OWNER), Some(GROUP)).unwrap();
            }
        }
        let before = files.map(|file| (found(&room, file).uid(), found(&room, file).gid(), permissions));
        let inodes = files.map(|file| found(&room, file).ino());
        for words in [&BOTH[..], &DRAW, &["import", "parish.csv", "parish"]] {
            Said::of(under_umask(&room, "022", words).output().expect("a shell")).done();
        }
        assert_eq!(files.map(|file| (found(&room, file).uid(), found(&room, file).gid(), mode(&room, file))), before);
        assert!(files.iter().zip(inodes).all(|(file, inode)| found(&room, file).ino() != inode), "all were replaced");
    }
}
