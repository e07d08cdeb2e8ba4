//! What the desk writes, told by how it begins.

use std::fs::File;
use std::path::Path;

use searchroom::Tally;

use crate::catalogue;
use crate::columns;
use crate::failure::Failure;
use crate::reading;

/// A look's field, with which a copy of the register begins: its tag and its length.
pub const COPY: &[u8] = &[76, 0, 4];

/// A picture's first words. Other programs' pictures begin in other ways.
pub const PICTURE: &str = "<svg xmlns=\"http://www.w3.org/2000/svg\" class=\"searchroom\" ";

/// Can a run have left this file when it was cut off? A tally shows it by its size alone; all else by how it begins, as
/// far as it goes.
pub fn may_be_left(file: &File, path: &Path) -> Result<bool, Failure> {
    let bytes = reading::at_most(Tally::BYTES + 1, file, path)?;
    let beginnings = [COPY, PICTURE.as_bytes(), catalogue::BEGINNING, columns::FIRST_LINE.as_bytes()];
    let is_begun = |beginning: &&[u8]| bytes.starts_with(beginning) || beginning.starts_with(&bytes);
    Ok(bytes.len() == Tally::BYTES || beginnings.iter().any(is_begun))
}
