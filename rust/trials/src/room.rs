use std::os::unix::fs::{MetadataExt, PermissionsExt};
use std::os::unix::process::CommandExt;
use std::path::{Path, PathBuf};
use std::process::{Command, Stdio};
use std::sync::Mutex;
use std::sync::atomic::{AtomicU32, Ordering};
use std::{env, fs, process};

/// Held while a program is copied or started: a program cannot be started while a copy of it is still open for writing,
/// and a process that another thread starts at that moment would keep it open.
static STARTING: Mutex<()> = Mutex::new(());

/// A folder of its own in which `consult` is run, removed at the end.
pub struct Room {
    folder: PathBuf,
}

impl Room {
    /// A folder that holds these three files and a copy of the program. The program is `target/bin/consult` of the
    /// repository, or the one that the environment variable `SEARCHROOM_CONSULT` names.
    pub fn new(catalogue: &[u8], question: &[u8], order: &[u8]) -> Room {
        static ROOMS: AtomicU32 = AtomicU32::new(0);
        let number = ROOMS.fetch_add(1, Ordering::Relaxed);
        let folder = env::temp_dir().join(format!("searchroom-room-{}-{number}", process::id()));
        fs::create_dir(&folder).expect("a new folder");
        fs::set_permissions(&folder, fs::Permissions::from_mode(0o755)).expect("its permissions");
        let room = Room { folder };
        let program = env::var_os("SEARCHROOM_CONSULT")
            .map_or_else(|| Path::new(env!("CARGO_MANIFEST_DIR")).join("../../target/bin/consult"), PathBuf::from);
        let copied = {
            let _alone = STARTING.lock();
            fs::copy(&program, room.path("consult"))
        };
        if let Err(error) = copied {
            panic!("{}: {error}; `make target/bin/consult` makes the program", program.display());
        }
        room.set("catalogue.bin", catalogue);
        room.set("question.bin", question);
        room.set("order.bin", order);
        room
    }

    pub fn path(&self, name: &str) -> PathBuf {
        self.folder.join(name)
    }

    /// Writes a file of the folder anew.
    pub fn set(&self, name: &str, bytes: &[u8]) {
        fs::write(self.path(name), bytes).expect("a file in the folder");
    }

    /// Runs the program in the folder and gives all that it prints. Who runs it is nobody in particular: where the test
    /// itself has every permission, the program is run without them.
    pub fn consult(&self) -> String {
        let mut command = Command::new(self.path("consult"));
        command.current_dir(&self.folder).env_clear();
        if fs::metadata(&self.folder).expect("the folder").uid() == 0 {
            const NOBODY: u32 = 65_534;
            command.uid(NOBODY).gid(NOBODY);
        }
        command.stdin(Stdio::null()).stdout(Stdio::piped()).stderr(Stdio::piped());
        let started = {
            let _alone = STARTING.lock();
            command.spawn()
        };
        let output = started.and_then(|child| child.wait_with_output()).expect("the program runs");
        assert!(output.status.code().is_some(), "the program was ended by a signal: {}", output.status);
        assert_eq!(String::from_utf8_lossy(&output.stderr), "", "the program complained");
        String::from_utf8(output.stdout).expect("the register is plain text")
    }
}

impl Drop for Room {
    fn drop(&mut self) {
        let _ = fs::remove_dir_all(&self.folder);
    }
}
