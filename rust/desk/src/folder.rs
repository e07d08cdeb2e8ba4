//! A folder of the desk's: `catalogue.bin`, and `columns.csv`, which keeps the headings of the file it was imported from.

use std::io::{self, Write};
use std::path::{Path, PathBuf};

use crate::catalogue::{self, Catalogue};
use crate::columns;
use crate::failure::Failure;
use crate::heading::Heading;
use crate::pair::{Pair, next};
use crate::show::{grouped, shown_path};
use crate::target::Target;

pub struct Folder {
    /// The catalogue's bytes, as the engine takes them.
    pub bytes: Vec<u8>,
    pub catalogue: Catalogue,
    pub headings: Vec<Heading>,
}

pub fn catalogue_file(folder: &Path) -> PathBuf {
    folder.join("catalogue.bin")
}

pub fn columns_file(folder: &Path) -> PathBuf {
    folder.join("columns.csv")
}

impl Folder {
    /// Reads a folder. One without `columns.csv` has columns named by their numbers alone.
    pub fn open(folder: &Path) -> Result<Folder, Failure> {
        refuse_a_file(folder)?;
        let Pair { catalogue: (file, bytes), names, is_cut_off } = Pair::read(folder)?;
        if is_cut_off {
            tell_of_a_cut(folder);
        }
        let catalogue = Catalogue::read(&bytes).map_err(|refusal| {
            let size = match bytes.len() > catalogue::MAX_BYTES {
                true => format!(", which has more than {} bytes", grouped(catalogue::MAX_BYTES)),
                false => String::new(),
            };
            let help = format!("\n  in {}{size}: import the CSV file again", shown_path(&file));
            Failure::Refused { refusal, help }
        })?;
        let Some((file, names)) = names else {
            let headings = columns::with_mark(columns::unnamed(&catalogue), &catalogue);
            return Ok(Folder { bytes, catalogue, headings });
        };
        let headings = columns::read(&names).map(|headings| columns::with_mark(headings, &catalogue));
        let headings = headings.filter(|headings| columns::fit(headings, &catalogue)).ok_or_else(|| {
            let file = shown_path(&file);
            Failure::Desk(format!("{file} does not fit catalogue.bin: import the CSV file again, or remove {file}"))
        })?;
        Ok(Folder { bytes, catalogue, headings })
    }

    /// The names of the catalogue's columns, by their numbers.
    pub fn names(&self) -> Vec<&str> {
        self.headings.iter().filter(|heading| !heading.is_mark()).map(Heading::name).collect()
    }
}

/// Tells whoever asks that they get what an import has made that was cut off.
fn tell_of_a_cut(folder: &Path) {
    let folder = shown_path(folder);
    let what = "an import was cut off before its files were in place, and columns.csv.next and catalogue.bin.next hold";
    // Where nobody hears it the answer is still that of one import.
    let _ = writeln!(io::stderr(), "searchroom: in {folder} {what}: import the CSV file again to finish it");
}

/// A file for what a run writes. It may not be one of the folder's own, nor have a name in .new.
pub fn output(folder: &Path, path: &Path) -> Result<Target, Failure> {
    let file = Target::of(path)?;
    if file.is_beside() {
        let path = shown_path(path);
        return Err(Failure::Desk(format!("{path}: names in .new are for files being written; name another file")));
    }
    if is_own(folder, &file) {
        return Err(Failure::Desk(format!("{} is the catalogue's own: name another file", shown_path(path))));
    }
    Ok(file)
}

/// Is this the catalogue of a folder or its names, or where an import writes them?
pub fn is_own(folder: &Path, file: &Target) -> bool {
    let own = [catalogue_file(folder), columns_file(folder)].map(|own| Target::of(&own).ok());
    own.iter().flatten().any(|own| [own.file.clone(), own.beside(), next(own)].contains(&file.file))
}

pub fn refuse_a_file(folder: &Path) -> Result<(), Failure> {
    if folder.exists() && !folder.is_dir() {
        return Err(Failure::Desk(format!("{} is not a folder: name the folder of a catalogue", shown_path(folder))));
    }
    Ok(())
}
