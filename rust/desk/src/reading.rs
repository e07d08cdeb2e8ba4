//! Files that are read: plain ones alone, and never more of one than could be of use.

use std::fs::{File, Metadata, OpenOptions};
use std::io::{self, Read, Seek};
use std::os::unix::fs::{MetadataExt, OpenOptionsExt};
use std::path::Path;

use crate::failure::Failure;
use crate::show::shown_path;

/// Opens a file to read it; none if it is not there. What is no file is refused, with the advice: a device may have no
/// end, and at a pipe the program would wait.
pub fn open(path: &Path, advice: &str) -> Result<Option<File>, Failure> {
    let failed = |error: io::Error| Failure::file("read", path, &error);
    // A pipe that nobody writes to is opened at once too, and found to be one.
    let opened = if_there(OpenOptions::new().read(true).custom_flags(libc::O_NONBLOCK).open(path)).map_err(failed)?;
    match opened {
        Some(file) if !file.metadata().map_err(failed)?.is_file() => Err(not_a_file(path, advice)),
        opened => Ok(opened),
    }
}

/// The bytes of a file from its beginning on, at most so many.
pub fn at_most(most: usize, file: &File, path: &Path) -> Result<Vec<u8>, Failure> {
    let (mut file, mut bytes) = (file, Vec::new());
    let read = file.rewind().and_then(|()| file.take(most as u64).read_to_end(&mut bytes));
    read.map_err(|error| Failure::file("read", path, &error))?;
    Ok(bytes)
}

/// What was asked of a file, if it is there.
pub fn if_there<T>(asked: io::Result<T>) -> io::Result<Option<T>> {
    match asked {
        Err(error) if error.kind() == io::ErrorKind::NotFound => Ok(None),
        asked => asked.map(Some),
    }
}

/// Is this one file, under whatever names?
pub fn is_same_file(one: &Metadata, other: &Metadata) -> bool {
    (one.dev(), one.ino()) == (other.dev(), other.ino())
}

pub fn not_a_file(path: &Path, advice: &str) -> Failure {
    Failure::Desk(format!("{} is not a file: {advice}", shown_path(path)))
}
