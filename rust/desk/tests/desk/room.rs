//! A folder of its own for each test, and the program run in it as a person would.

use std::path::{Path, PathBuf};
use std::process::{Command, Output, Stdio};
use std::sync::atomic::{AtomicU32, Ordering};
use std::{fs, process, thread};

/// A folder in which the program is run, removed at the end unless the test fails.
pub struct Room {
    folder: PathBuf,
}

/// What the program left: its exit status and its two outputs.
#[derive(Debug)]
pub struct Said {
    status: Option<i32>,
    out: String,
    err: String,
}

impl Room {
    pub fn new() -> Room {
        Room::below(Path::new(env!("CARGO_TARGET_TMPDIR")))
    }

    /// A room in this folder.
    pub fn below(parent: &Path) -> Room {
        static ROOMS: AtomicU32 = AtomicU32::new(0);
        let number = ROOMS.fetch_add(1, Ordering::Relaxed);
        let folder = parent.join(format!("desk-{}-{number}", process::id()));
        // One that a failed test of an earlier process with this number left is not to be found again.
        let _ = fs::remove_dir_all(&folder);
        fs::create_dir_all(&folder).expect("a new folder");
        Room { folder }
    }

    pub fn path(&self, name: &str) -> PathBuf {
        self.folder.join(name)
    }

    /// Writes a file anew, its folder too where it is not there.
    pub fn set(&self, name: &str, bytes: impl AsRef<[u8]>) {
        let path = self.path(name);
        fs::create_dir_all(path.parent().expect("a folder")).expect("the file's folder");
        fs::write(path, bytes).expect("a file of the room");
    }

    /// The program, about to run in the room. A terminal that it does not have would take colours.
    pub fn command(&self, words: &[&str]) -> Command {
        let mut command = Command::new(env!("CARGO_BIN_EXE_searchroom"));
        command.args(words).current_dir(&self.folder).env_remove("NO_COLOR").env("TERM", "xterm");
        command.stdin(Stdio::null());
        command
    }

    /// Runs the program with these words. Nothing but an export, which gives values as they stand, may hold an escape.
    pub fn run(&self, words: &[&str]) -> Said {
        let said = Said::of(self.command(words).output().expect("the program runs"));
        let is_export = words.first() == Some(&"export");
        assert!(is_export || !(said.out.contains('\x1B') || said.err.contains('\x1B')), "{words:?}: {said:?}");
        said
    }
}

impl Drop for Room {
    fn drop(&mut self) {
        if !thread::panicking() {
            let _ = fs::remove_dir_all(&self.folder);
        }
    }
}

impl Said {
    pub fn of(output: Output) -> Said {
        let text = |bytes| String::from_utf8(bytes).expect("the program writes UTF-8");
        Said { status: output.status.code(), out: text(output.stdout), err: text(output.stderr) }
    }

    /// What was printed by a run that was done and did not complain.
    pub fn done(self) -> String {
        assert_eq!((self.status, self.err.as_str()), (Some(0), ""), "{self:?}");
        self.out
    }

    /// What a run that ends with this status complained of. It printed nothing else.
    pub fn failed(self, status: i32) -> String {
        assert_eq!((self.status, self.out.as_str()), (Some(status), ""), "{self:?}");
        self.err
    }
}
