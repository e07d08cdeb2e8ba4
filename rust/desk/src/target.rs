//! Files that are named to be replaced, or made.

use std::fs;
use std::io;
use std::path::{Path, PathBuf};

use crate::failure::Failure;
use crate::reading::{if_there, not_a_file};
use crate::show::shown_path;

/// A file that is to be replaced, or made.
#[derive(Clone)]
pub struct Target {
    /// As it was named.
    pub named: PathBuf,
    /// The file itself, by one path alone: where a link is named, that to which it leads.
    pub file: PathBuf,
}

/// How many links to links are followed, as many as the system follows.
const LINKS: usize = 40;

/// What to do where something else than a file is named.
pub const NAME_ONE: &str = "name one, or one to be made";

/// What the name of a file that is being written ends with.
const BESIDE: &str = ".new";

impl Target {
    /// The file that a path names, be it there yet or not. A folder or a device is not to be replaced.
    pub fn of(path: &Path) -> Result<Target, Failure> {
        let mut file = path.to_path_buf();
        for _ in 0..LINKS {
            let Ok(link) = fs::read_link(&file) else { break };
            file = folder_of(&file).join(link);
        }
        let folder = folder_of(&file);
        let folder = fs::canonicalize(folder).map_err(|error| match error.kind() {
            io::ErrorKind::NotFound => Failure::Desk(format!("there is no folder {}: make it", shown_path(folder))),
            _ => Failure::file("find", folder, &error),
        })?;
        let file = file.file_name().map_or(folder.clone(), |name| folder.join(name));
        let found = if_there(fs::metadata(path)).map_err(|error| Failure::file("write", path, &error))?;
        let name = path.as_os_str().as_encoded_bytes();
        let is_named_a_folder = name.ends_with(b"/") || name.ends_with(b"/.");
        if found.is_some_and(|found| !found.is_file()) || is_named_a_folder {
            return Err(not_a_file(path, NAME_ONE));
        }
        Ok(Target { named: path.to_path_buf(), file })
    }

    pub fn is_same(&self, other: &Target) -> bool {
        self.file == other.file
    }

    /// Where the file is written before it is renamed.
    pub fn beside(&self) -> PathBuf {
        self.with_ending(BESIDE)
    }

    /// Is this where another file is written?
    pub fn is_beside(&self) -> bool {
        self.file.as_os_str().as_encoded_bytes().ends_with(BESIDE.as_bytes())
    }

    /// The path of a file whose name has an ending more.
    pub fn with_ending(&self, ending: &str) -> PathBuf {
        let mut name = self.file.as_os_str().to_owned();
        name.push(ending);
        PathBuf::from(name)
    }
}

/// The folder in which a file stands.
pub fn folder_of(file: &Path) -> &Path {
    file.parent().filter(|folder| !folder.as_os_str().is_empty()).unwrap_or(Path::new("."))
}
