//! `searchroom export`: the catalogue as CSV again.

use std::io::Write;
use std::path::Path;

use crate::failure::Failure;
use crate::folder::Folder;
use crate::heading::Holds;

/// Writes a folder's catalogue as CSV, its columns as they stood in the file that was imported.
pub fn export(folder: &Path, separator: u8, out: &mut dyn Write) -> Result<(), Failure> {
    let Folder { catalogue, headings, .. } = Folder::open(folder)?;
    let mut writer = csv::WriterBuilder::new().delimiter(separator).from_writer(Vec::new());
    let mut write = |values: Vec<String>| writer.write_record(values).expect("memory takes every record");
    write(headings.iter().map(|heading| heading.cell.clone()).collect());
    for entry in 0..catalogue.entries {
        let mut columns = catalogue.columns.iter();
        let value = |holds: &Holds| match holds {
            Holds::Mark { withdrawn, .. } if catalogue.is_withdrawn(entry) => withdrawn.clone(),
            Holds::Mark { present, .. } => present.clone(),
            _ => columns.next().and_then(|column| column.value(entry)).unwrap_or_default(),
        };
        write(headings.iter().map(|heading| &heading.holds).map(value).collect());
    }
    Ok(out.write_all(&writer.into_inner().expect("memory takes every record"))?)
}
