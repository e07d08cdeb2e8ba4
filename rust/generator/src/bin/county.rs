//! Writes the county's catalogue.bin, question.bin and order.bin, and the register that is expected of `consult`:
//! `cargo run --release -p generator --bin county -- [--marked] FOLDER`. With `--marked` some deeds are withdrawn.

use std::ffi::OsString;
use std::path::Path;
use std::{env, fs, io};

use generator::{county, encode_catalogue, encode_question, marked_county};

fn main() -> io::Result<()> {
    let words: Vec<OsString> = env::args_os().skip(1).collect();
    let ((catalogue, question, order), folder) = match words.as_slice() {
        [option, folder] if option == "--marked" => (marked_county(), folder),
        [folder] if folder != "--marked" => (county(), folder),
        _ => panic!("usage: county [--marked] FOLDER"),
    };
    let folder = Path::new(folder);
    let (catalogue, question) = (encode_catalogue(&catalogue), encode_question(&question));
    fs::create_dir_all(folder)?;
    fs::write(folder.join("catalogue.bin"), &catalogue)?;
    fs::write(folder.join("question.bin"), &question)?;
    fs::write(folder.join("order.bin"), &order)?;
    fs::write(folder.join("expected"), evaluator::register(&catalogue, &question, &order))
}
