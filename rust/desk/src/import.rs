//! `searchroom import`: a catalogue from a CSV file.

use std::io::{self, BufWriter, Write};
use std::path::Path;

use searchroom::{MAX_ENTRIES, check_catalogue};

use crate::catalogue::Column;
use crate::failure::Failure;
use crate::folder::{Folder, catalogue_file, is_own};
use crate::reading;
use crate::sheet::Noticed;
use crate::show::{counted, grouped, shown, shown_path};
use crate::target::Target;

/// The most bytes of a CSV file that is imported, 16 MiB: 8,192 for each entry that a catalogue can have.
const MAX_BYTES: usize = 8_192 * MAX_ENTRIES;

/// Imports a CSV file into a folder. Everything that does not fit is told on standard error, and then nothing is written.
pub fn import(file: &Path, folder: &Path, separator: u8, out: &mut dyn Write) -> Result<(), Failure> {
    // The names of a catalogue read as a CSV file too, and would be all that is left of it.
    if Target::of(file).is_ok_and(|file| is_own(folder, &file)) {
        return Err(Failure::Desk(format!("{} is the catalogue's own: {NAME_IT}", shown_path(file))));
    }
    let bytes = read(file)?;
    let mut noticed = Noticed::default();
    let imported = noticed.folder(&bytes, separator);
    let Some(imported) = imported else { return Err(faulty(&noticed, file)) };
    check_catalogue(&imported.bytes)?;
    imported.save(folder)?;
    report(&noticed, &imported, folder, out)
}

const NAME_IT: &str = "name the CSV file";

/// The bytes of the CSV file.
fn read(file: &Path) -> Result<Vec<u8>, Failure> {
    if file.is_dir() {
        return Err(Failure::Desk(format!("{} is a folder: {NAME_IT}", shown_path(file))));
    }
    let Some(opened) = reading::open(file, NAME_IT)? else {
        if file == Path::new("-") {
            return Err(Failure::Desk(format!("standard input is not read: {NAME_IT}")));
        }
        return Err(Failure::Desk(format!("there is no {}: {NAME_IT}", shown_path(file))));
    };
    let bytes = reading::at_most(MAX_BYTES + 1, &opened, file)?;
    if bytes.len() > MAX_BYTES {
        let (file, most, entries) = (shown_path(file), grouped(MAX_BYTES), grouped(MAX_ENTRIES));
        let what = format!("{file} has more than {most} bytes, and no more are read");
        return Err(Failure::Desk(format!("{what}: split it; a catalogue has at most {entries} entries")));
    }
    Ok(bytes)
}

/// Tells what was noticed and the faults of a file; gives the failure, with their number.
fn faulty(noticed: &Noticed, file: &Path) -> Failure {
    let file = shown_path(file);
    let mut err = BufWriter::new(io::stderr().lock());
    // What was noticed in the file as a whole, another separator above all, may be the cause of the faults.
    let remarks = noticed.remarks.iter().map(|remark| format!("{file}: {remark}"));
    for line in remarks.chain(noticed.faults.lines(&file)) {
        // Where nobody hears it the status still tells.
        let _ = writeln!(err, "{line}");
    }
    let faults = counted(noticed.faults.count(), "fault", "faults");
    Failure::Desk(format!("{faults} in {file}: nothing was written"))
}

/// Tells what was imported.
fn report(noticed: &Noticed, imported: &Folder, folder: &Path, out: &mut dyn Write) -> Result<(), Failure> {
    let Folder { catalogue, .. } = imported;
    let withdrawn = match catalogue.mark {
        Some(_) => format!(", {} of them withdrawn,", catalogue.withdrawn()),
        None => String::new(),
    };
    let entries = counted(catalogue.entries, "entry", "entries");
    let columns = counted(catalogue.columns.len(), "column", "columns");
    writeln!(out, "{entries}{withdrawn} in {columns}: {}", shown_path(&catalogue_file(folder)))?;
    let names: Vec<String> = imported.names().into_iter().map(shown).collect();
    let wide = names.iter().map(|name| name.chars().count()).max().unwrap_or(0);
    for (number, column) in catalogue.columns.iter().enumerate() {
        let sort = if matches!(column, Column::Numbers(_)) { "numbers" } else { "texts" };
        let note = noticed.notes[number].as_ref().map_or(String::new(), |note| format!(" ({note})"));
        let place = if catalogue.columns.len() > 10 { format!("c{number:<2}") } else { format!("c{number}") };
        writeln!(out, "{place}  {:<wide$}  {sort}, {} blank{note}", names[number], column.blanks())?;
    }
    for remark in &noticed.remarks {
        writeln!(out, "{remark}")?;
    }
    Ok(())
}
