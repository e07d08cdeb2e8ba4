//! A folder is written, in steps that can be cut off anywhere.

use std::fs;
use std::path::Path;

use crate::catalogue;
use crate::columns;
use crate::failure::Failure;
use crate::folder::{Folder, catalogue_file, columns_file, refuse_a_file};
use crate::lock::Lock;
use crate::pair::{FORM, NO_CATALOGUE, next, not_left, refuse_others};
use crate::reading;
use crate::replace::{Access, Replacement};
use crate::show::shown_path;
use crate::target::Target;

impl Folder {
    /// Writes a folder, which is made if it is not there. Files that no import wrote stay.
    ///
    /// Wherever this is cut off, the folder is that of the earlier import or of this one, or has no catalogue yet, and
    /// the next import goes on from there.
    pub fn save(&self, folder: &Path) -> Result<(), Failure> {
        refuse_a_file(folder)?;
        fs::create_dir_all(folder).map_err(|error| Failure::file("make", folder, &error))?;
        let (catalogue, columns) = (Target::of(&catalogue_file(folder))?, Target::of(&columns_file(folder))?);
        // The names come first: who holds them is the one import that goes on here.
        let mut new_columns = Replacement::begin(columns.clone(), Access::Usual)?;
        refuse_unimported(&catalogue, &columns, &new_columns)?;
        finish_cut_off(&catalogue, &columns)?;
        let mut new_catalogue = Replacement::begin(catalogue.clone(), Access::Usual)?;
        new_catalogue.write(&self.bytes)?;
        if !catalogue.file.exists() {
            // Nobody can ask yet. A catalogue never stands there without its names.
            new_columns.write(&columns::write(&self.headings))?;
            new_columns.finish()?;
            return new_catalogue.finish();
        }
        let mut kept = new_catalogue.set_aside(&next(&catalogue))?;
        new_columns.write(&columns::write(&self.headings))?;
        // In this one step the import is made: from now on whoever asks takes these names, and the catalogue with them.
        let mut names = new_columns.set_aside(&next(&columns))?;
        names.keep();
        kept.keep();
        Made { names, kept }.put_in_place(&self.bytes, &catalogue, &columns)
    }
}

/// An import that is made: its names and its catalogue, as they were set aside.
struct Made {
    names: Lock,
    kept: Lock,
}

impl Made {
    /// Puts the import in its place. The catalogue that was set aside stays until the names are there, so that whoever
    /// asks never takes new names with whatever stands in the catalogue's place.
    fn put_in_place(mut self, bytes: &[u8], catalogue: &Target, columns: &Target) -> Result<(), Failure> {
        let mut new_catalogue = Replacement::begin(catalogue.clone(), Access::Usual)?;
        new_catalogue.write(bytes)?;
        new_catalogue.finish()?;
        self.names.rename(&columns.file)?;
        self.kept.remove()
    }
}

/// Finishes an import that was made and then cut off. One that goes on is waited for.
fn finish_cut_off(catalogue: &Target, columns: &Target) -> Result<(), Failure> {
    let (next_catalogue, next_columns) = (next(catalogue), next(columns));
    let names = Lock::of_left_in_time(&next_columns)?;
    match (names, Lock::of_left_in_time(&next_catalogue)?) {
        // It was set aside by an import that was then not made, or that is in its place.
        (None, kept) => kept.map_or(Ok(()), Lock::remove),
        (Some(_), None) => Err(not_left(&next_columns, NO_CATALOGUE)),
        (Some(names), Some(kept)) => {
            let first_line = reading::at_most(columns::FIRST_LINE.len(), &names.file, &next_columns)?;
            refuse_others(&next_columns, &first_line, columns::FIRST_LINE.as_bytes())?;
            let bytes = reading::at_most(catalogue::MAX_BYTES + 1, &kept.file, &next_catalogue)?;
            refuse_others(&next_catalogue, &bytes, catalogue::BEGINNING)?;
            Made { names, kept }.put_in_place(&bytes, catalogue, columns)
        }
    }
}

/// Refuses files that no import made. An import that was made replaces them no more than this one does.
fn refuse_unimported(catalogue: &Target, columns: &Target, new_columns: &Replacement) -> Result<(), Failure> {
    match new_columns.read(columns::FIRST_LINE.len())? {
        None if catalogue.file.exists() => Err(not_imported(catalogue, "has no columns.csv beside it")),
        Some(bytes) if bytes != columns::FIRST_LINE.as_bytes() => Err(not_imported(columns, FORM)),
        _ => Ok(()),
    }
}

fn not_imported(file: &Target, why: &str) -> Failure {
    let file = shown_path(&file.named);
    Failure::Desk(format!("{file} {why}: no import made it; name another folder, or remove {file}"))
}
