//! A catalogue and its names, of one import, though another import go on meanwhile or have been cut off.

use std::fs::{File, Metadata};
use std::path::{Path, PathBuf};

use crate::catalogue;
use crate::columns;
use crate::failure::Failure;
use crate::folder::{catalogue_file, columns_file};
use crate::lock::patiently;
use crate::reading::{self, is_same_file};
use crate::show::{grouped, shown_path};
use crate::target::Target;

/// Where the names of an import and its catalogue stand from when it is made until both are in place.
pub fn next(own: &Target) -> PathBuf {
    own.with_ending(".next")
}

/// What is wrong with a file that no import wrote.
pub const FORM: &str = "is not of the form that an import writes";

/// What is wrong with the next names where their catalogue is missing.
pub const NO_CATALOGUE: &str = "has no catalogue.bin.next beside it";

/// Refuses what stands where an import that is made has its names or its catalogue, and does not begin as they do: they
/// come there whole.
pub fn refuse_others(path: &Path, bytes: &[u8], beginning: &[u8]) -> Result<(), Failure> {
    let is_own = bytes.starts_with(beginning);
    is_own.then_some(()).ok_or_else(|| not_left(path, FORM))
}

/// Files that no import can have left in this way.
pub fn not_left(path: &Path, why: &str) -> Failure {
    let path = shown_path(path);
    Failure::Desk(format!("{path} {why}: no import left it so; move it, and import the CSV file again"))
}

/// A file that was opened for its names.
struct Names {
    path: PathBuf,
    file: File,
    /// Those of an import that may not be in place yet.
    is_next: bool,
}

impl Names {
    /// The names that hold now; none if the folder has none.
    fn standing(folder: &Path) -> Result<Option<Names>, Failure> {
        let columns = columns_file(folder);
        // Without a folder there are none; where it is told what is wrong with it, this is not the place.
        let next = Target::of(&columns).ok().map(|columns| next(&columns));
        for (path, is_next) in next.map(|next| (next, true)).into_iter().chain([(columns, false)]) {
            if let Some(file) = reading::open(&path, REMOVE)? {
                return Ok(Some(Names { path, file, is_next }));
            }
        }
        Ok(None)
    }

    fn is_same(&self, other: &Names) -> bool {
        let same = |(one, other): (Metadata, Metadata)| is_same_file(&one, &other);
        self.is_next == other.is_next && self.file.metadata().ok().zip(other.file.metadata().ok()).is_some_and(same)
    }

    /// Does the import whose names these are no longer go on? Who imports holds them by a lock of their own.
    fn are_left(&self) -> bool {
        self.is_next && self.file.try_lock_shared().is_ok()
    }

    /// The file's path and its bytes.
    fn read(self) -> Result<Bytes, Failure> {
        let bytes = reading::at_most(columns::MAX_BYTES + 1, &self.file, &self.path)?;
        if bytes.len() > columns::MAX_BYTES {
            let (path, most) = (shown_path(&self.path), grouped(columns::MAX_BYTES));
            return Err(Failure::Desk(format!("{path} has more than {most} bytes: {REMOVE}")));
        }
        Ok((self.path, bytes))
    }
}

/// A file that was read, and its bytes.
type Bytes = (PathBuf, Vec<u8>);

/// A catalogue and its names, of one import.
pub struct Pair {
    pub catalogue: Bytes,
    pub names: Option<Bytes>,
    /// They are of an import that was cut off before they were in place.
    pub is_cut_off: bool,
}

impl Pair {
    pub fn read(folder: &Path) -> Result<Pair, Failure> {
        let both = patiently(|_| {
            let names = Names::standing(folder)?;
            let is_next = names.as_ref().is_some_and(|names| names.is_next);
            let catalogue = read_catalogue(folder, is_next)?;
            // Asked before the second look: names that are left and then still there were not put in place meanwhile.
            let is_cut_off = names.as_ref().is_some_and(Names::are_left);
            // An import that came between has put other names there.
            let is_same = match (&names, Names::standing(folder)?) {
                (Some(names), Some(standing)) => names.is_same(&standing),
                (names, standing) => names.is_none() && standing.is_none(),
            };
            if !is_same {
                return Ok(None);
            }
            let names = names.map(Names::read).transpose()?;
            let catalogue = catalogue.ok_or_else(|| match &names {
                Some((names, _)) if is_next => not_left(names, NO_CATALOGUE),
                _ => no_catalogue(folder),
            })?;
            if let Some((names, bytes)) = names.as_ref().filter(|_| is_next) {
                refuse_others(names, bytes, columns::FIRST_LINE.as_bytes())?;
                refuse_others(&catalogue.0, &catalogue.1, catalogue::BEGINNING)?;
            }
            Ok(Some(Pair { catalogue, names, is_cut_off }))
        })?;
        let folder = shown_path(folder);
        both.ok_or_else(|| {
            Failure::Desk(format!("{folder} is imported again and again: try again when that has ended"))
        })
    }
}

/// The catalogue, or so many of its bytes that the engine refuses them; none if it is not there. That of the next names
/// stands beside them.
fn read_catalogue(folder: &Path, is_next: bool) -> Result<Option<Bytes>, Failure> {
    let file = catalogue_file(folder);
    let path = if is_next { next(&Target::of(&file)?) } else { file };
    let Some(opened) = reading::open(&path, REMOVE)? else { return Ok(None) };
    let bytes = reading::at_most(catalogue::MAX_BYTES + 1, &opened, &path)?;
    Ok(Some((path, bytes)))
}

fn no_catalogue(folder: &Path) -> Failure {
    let (file, folder) = (shown_path(&catalogue_file(folder)), shown_path(folder));
    Failure::Desk(format!("there is no {file}: make it with `searchroom import FILE.csv {folder}`"))
}

/// What to do about a file of the folder's that is none.
const REMOVE: &str = "remove it, and import the CSV file again";
