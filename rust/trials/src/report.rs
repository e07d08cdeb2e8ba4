use std::fmt::Write;
use std::{env, fs, process};

/// Bytes up to this many are printed; more are written to a file, which is named instead.
const PRINTED: usize = 4_096;

/// The bytes in hexadecimal, for a test's failure message.
pub fn hex(bytes: &[u8]) -> String {
    if bytes.len() > PRINTED {
        let path = env::temp_dir().join(format!("searchroom-{}-{}.bin", process::id(), bytes.len()));
        if fs::write(&path, bytes).is_ok() {
            return format!("{} bytes in {}", bytes.len(), path.display());
        }
    }
    bytes.iter().fold(format!("{} bytes", bytes.len()), |mut text, byte| {
        let _ = write!(text, " {byte:02X}");
        text
    })
}
