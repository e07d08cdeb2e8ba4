//! Files that are replaced in one step: written beside, then renamed, so that nobody ever finds half of one.

use std::fs::{self, File, OpenOptions, Permissions};
use std::io::{self, Write};
use std::os::unix::fs::{MetadataExt, OpenOptionsExt, PermissionsExt, fchown};
use std::path::Path;

use crate::failure::Failure;
use crate::lock::Lock;
use crate::reading::{self, if_there};
use crate::show::shown_path;
use crate::target::{NAME_ONE, Target};

/// For whom a file is made that was not there before.
#[derive(Clone, Copy, PartialEq, Eq)]
pub enum Access {
    /// Its owner alone: the file tells who looked at what.
    Private,
    /// Whomever the user's umask lets.
    Usual,
}

/// A file that is about to be replaced. As long as this stands no other run replaces it, for each locks the same file
/// beside it; so what is read of the file after [`Replacement::begin`] is what will be replaced.
pub struct Replacement {
    target: Target,
    lock: Lock,
}

impl Replacement {
    /// Begins to replace a file, or to make it. Waits for another run that has begun.
    pub fn begin(target: Target, access: Access) -> Result<Replacement, Failure> {
        if target.file.exists() {
            // A rename asks nobody whether the file itself may be written.
            let open = OpenOptions::new().write(true).custom_flags(libc::O_NONBLOCK).open(&target.file);
            open.map_err(|error| Failure::file("write", &target.named, &error))?;
        }
        let beside = target.beside();
        // Whoever opens the file goes on reading it whatever its permissions become; so it begins with the fewest.
        let is_private = || access == Access::Private || target.file.exists();
        let lock = Lock::take(&beside, || if is_private() { 0o600 } else { 0o666 })?;
        permit_as_before(&lock.file, &target.file).map_err(|error| Failure::file("write", &beside, &error))?;
        Ok(Replacement { target, lock })
    }

    /// The bytes of the file that will be replaced, at most so many; none if it is not there.
    pub fn read(&self, most: usize) -> Result<Option<Vec<u8>>, Failure> {
        let Target { named, file } = &self.target;
        let opened = reading::open(file, NAME_ONE)?;
        opened.map(|opened| reading::at_most(most, &opened, named)).transpose()
    }

    /// Refuses to replace a file of somebody else's: one that does not begin as the desk's do, and is not empty.
    pub fn refuse_others(&self, beginning: &[u8], what: &str) -> Result<(), Failure> {
        match self.read(beginning.len())? {
            Some(bytes) if !bytes.is_empty() && bytes != beginning => {
                let file = shown_path(&self.target.named);
                Err(Failure::Desk(format!("{file} is not {what}: name another file, or replace it with --force")))
            }
            _ => Ok(()),
        }
    }

    /// Writes the bytes beside the file, down to the disk.
    pub fn write(&mut self, bytes: &[u8]) -> Result<(), Failure> {
        let written = self.lock.file.write_all(bytes).and_then(|()| self.lock.file.sync_all());
        written.map_err(|error| Failure::file("write", &self.target.beside(), &error))
    }

    /// Gives what was written another name, under which it is still held, and is removed at the end unless it is kept.
    pub fn set_aside(mut self, to: &Path) -> Result<Lock, Failure> {
        self.lock.rename(to)?;
        Ok(self.lock)
    }

    /// Puts what was written in the file's place.
    pub fn finish(mut self) -> Result<(), Failure> {
        self.lock.rename(&self.target.file)?;
        self.lock.keep();
        Ok(())
    }
}

/// Gives a new file the group, the owner and the permissions of the one that it replaces, as far as the system allows.
fn permit_as_before(new: &File, replaced: &Path) -> io::Result<()> {
    let Some(before) = if_there(fs::metadata(replaced))? else { return Ok(()) };
    let group = Some(before.gid());
    let is_of_group = fchown(new, Some(before.uid()), group).or_else(|_| fchown(new, None, group)).is_ok();
    let mode = before.mode() & 0o777;
    // The permissions of a group are not for another one: it may do what all others may.
    let mode = if is_of_group { mode } else { mode & 0o707 | (mode & 0o007) << 3 };
    new.set_permissions(Permissions::from_mode(mode))
}
