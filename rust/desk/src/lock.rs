//! The lock of a file that is replaced: FILE.new beside it, where the new one is written.
//!
//! Whoever has locked, by the operating system, the very file that stands at that name holds it, and nobody else
//! removes or renames it. When a run is cut off the system frees its lock; what it left is then nobody's, and is
//! removed.

use std::fs::{self, File, OpenOptions, TryLockError};
use std::io;
use std::os::unix::fs::{MetadataExt, OpenOptionsExt};
use std::path::{Path, PathBuf};
use std::thread;
use std::time::{Duration, Instant};

use crate::failure::Failure;
use crate::ours;
use crate::reading::{is_same_file, not_a_file};
use crate::show::shown_path;
use crate::target::folder_of;

/// How long to wait for other runs while none goes ahead.
const PATIENCE: Duration = Duration::from_secs(5);

/// How long to wait for them in all.
const MOST_PATIENCE: Duration = Duration::from_secs(60);

pub struct Lock {
    path: PathBuf,
    pub file: File,
    /// Made here, and nobody's yet: to be removed at the end.
    to_remove: bool,
}

impl Lock {
    /// Makes the file, with the permissions that are due when it is made, and locks it. Waits for another run that
    /// holds it.
    pub fn take(path: &Path, mode: impl Fn() -> u32) -> Result<Lock, Failure> {
        let mut standing = None;
        let lock = patiently(|since| {
            let lock = Lock::attempt(path, mode())?;
            let found = fs::symlink_metadata(path).ok().map(|found| (found.ino(), found.ctime(), found.ctime_nsec()));
            if found != standing {
                // Another run goes ahead of this one.
                (standing, *since) = (found, Instant::now());
            }
            Ok(lock)
        })?;
        lock.ok_or_else(|| held(path))
    }

    fn attempt(path: &Path, mode: u32) -> Result<Option<Lock>, Failure> {
        match OpenOptions::new().write(true).create_new(true).mode(mode).open(path) {
            Ok(file) => Lock::of_made(path, file),
            Err(error) if error.kind() == io::ErrorKind::AlreadyExists => {
                // What was left is not written to: it may be a link of a file that has another name too.
                Lock::of_left(path)?.map_or(Ok(()), Lock::remove)?;
                Ok(None)
            }
            Err(error) => Err(failed("write", path, &error)),
        }
    }

    /// The lock of a file that was just made.
    fn of_made(path: &Path, file: File) -> Result<Option<Lock>, Failure> {
        let mut lock = Lock::of(path, file).inspect_err(|_| {
            // Where nothing can be locked nobody holds it.
            let _ = fs::remove_file(path);
        })?;
        lock.iter_mut().for_each(|lock| lock.to_remove = true);
        Ok(lock)
    }

    /// The lock of a file that a run left when it was cut off; none if it is not there, or another run holds it.
    fn of_left(path: &Path) -> Result<Option<Lock>, Failure> {
        let file = match open_standing(path) {
            Ok(file) => file,
            // It is gone, or closed: another user's, who alone may know whether it is held.
            Err(error) if matches!(error.kind(), io::ErrorKind::NotFound | io::ErrorKind::PermissionDenied) => {
                return Ok(None);
            }
            Err(error) => return Err(failed("open", path, &error)),
        };
        if !file.metadata().is_ok_and(|found| found.is_file()) {
            return Err(not_a_file(path, REMOVE));
        }
        match Lock::of(path, file)? {
            Some(lock) if !ours::may_be_left(&lock.file, path)? => {
                let path = shown_path(path);
                Err(Failure::Desk(format!(
                    "{path} is where a file is to be written, and holds something else: move it"
                )))
            }
            lock => Ok(lock),
        }
    }

    /// The same, but another run that holds it is waited for; none if it is not there.
    pub fn of_left_in_time(path: &Path) -> Result<Option<Lock>, Failure> {
        let lock = patiently(|_| match Lock::of_left(path)? {
            None if fs::symlink_metadata(path).is_ok() => Ok(None),
            lock => Ok(Some(lock)),
        })?;
        lock.ok_or_else(|| held(path))
    }

    /// Locks an opened file, which stays; none if another run holds it, or has put something else in its place.
    fn of(path: &Path, file: File) -> Result<Option<Lock>, Failure> {
        match file.try_lock() {
            Ok(()) => {}
            Err(TryLockError::WouldBlock) => return Ok(None),
            Err(TryLockError::Error(error)) => return Err(failed("lock", path, &error)),
        }
        let lock = Lock { path: path.to_path_buf(), file, to_remove: false };
        Ok(lock.stands().then_some(lock))
    }

    /// Is the locked file still the one that stands there?
    fn stands(&self) -> bool {
        let standing = fs::symlink_metadata(&self.path);
        standing.is_ok_and(|standing| self.file.metadata().is_ok_and(|own| is_same_file(&own, &standing)))
    }

    /// From now on the file stays, whatever comes.
    pub fn keep(&mut self) {
        self.to_remove = false;
    }

    /// Removes the file, while it is still held.
    pub fn remove(self) -> Result<(), Failure> {
        fs::remove_file(&self.path).map_err(|error| not_permitted("remove", &self.path, &error))
    }

    /// Gives the file another name, in the same folder, down to the disk.
    pub fn rename(&mut self, to: &Path) -> Result<(), Failure> {
        if !self.stands() {
            let path = shown_path(&self.path);
            return Err(Failure::Desk(format!("{path} was taken away while it was written: run this again")));
        }
        fs::rename(&self.path, to).map_err(|error| not_permitted("replace", to, &error))?;
        self.path = to.to_path_buf();
        // The name is there; of a folder that cannot be synced no more can be had.
        let _ = File::open(folder_of(to)).and_then(|folder| folder.sync_all());
        Ok(())
    }
}

impl Drop for Lock {
    fn drop(&mut self) {
        // While it is still held, so that nobody else's is removed. What stays if this fails is removed by the next
        // run.
        if self.to_remove && self.stands() {
            let _ = fs::remove_file(&self.path);
        }
    }
}

const REMOVE: &str = "it is where a file is to be written, so remove it";

/// Opens the file that stands there, and nothing to which a link leads; never waits.
fn open_standing(path: &Path) -> io::Result<File> {
    OpenOptions::new().read(true).write(true).custom_flags(libc::O_NOFOLLOW | libc::O_NONBLOCK).open(path)
}

/// What could not be done with a file; it may be none.
fn failed(what: &str, path: &Path, error: &io::Error) -> Failure {
    match fs::symlink_metadata(path) {
        Ok(found) if !found.is_file() => not_a_file(path, REMOVE),
        _ => Failure::file(what, path, error),
    }
}

/// What could not be done with a file in its folder. One with the sticky bit lets others write a file, but not remove
/// it.
fn not_permitted(what: &str, path: &Path, error: &io::Error) -> Failure {
    match error.kind() {
        io::ErrorKind::PermissionDenied => {
            let (path, why) = (shown_path(path), "only its owner may do so in this folder: use another");
            Failure::Desk(format!("cannot {what} {path}: {error}; {why}"))
        }
        _ => Failure::file(what, path, error),
    }
}

/// Patience has ended.
fn held(path: &Path) -> Failure {
    let is_closed = open_standing(path).is_err_and(|error| error.kind() == io::ErrorKind::PermissionDenied);
    let path = shown_path(path);
    Failure::Desk(match is_closed {
        true => {
            let theirs = "if another user's run made it, try again when that has ended";
            format!("{path} is closed to you: {theirs}; if none is running, have it removed")
        }
        false => format!("another run holds {path}: try again when it has ended"),
    })
}

/// Tries until something comes of it, or for as long as patience lasts since an instant that an attempt may set anew,
/// and never longer than a minute.
pub fn patiently<T>(mut attempt: impl FnMut(&mut Instant) -> Result<Option<T>, Failure>) -> Result<Option<T>, Failure> {
    let begun = Instant::now();
    let mut since = begun;
    loop {
        match attempt(&mut since)? {
            None if since.elapsed() < PATIENCE && begun.elapsed() < MOST_PATIENCE => {
                thread::sleep(Duration::from_millis(10))
            }
            done => return Ok(done),
        }
    }
}
