//! A file that another run is writing.

use std::fs::File;
use std::path::Path;

/// Makes the file and locks it, as a run does that goes on; it ends with what this gives.
pub fn held(path: &Path) -> File {
    let file = File::create(path).expect("a new file");
    file.lock().expect("a lock");
    file
}
