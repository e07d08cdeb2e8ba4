//! Every file is read to an end: no more of it than could be of use, and nothing that is no file.

mod desk {
    pub mod parish;
    pub mod room;
    pub mod started;
}

use std::fs::{self, File};
use std::os::unix::fs::symlink;
use std::process::{Command, Stdio};

use desk::parish::{QUESTION, TABLE, parish};
use desk::room::{Room, Said};
use desk::started::{ended, started};

/// Runs the program with little memory: of a file that goes on for long it can hold but a part.
fn with_little_memory(room: &Room, words: &[&str], mebibytes: usize) -> Said {
    let program = room.command(words);
    let mut shell = Command::new("sh");
    shell.args(["-c", &format!("ulimit -v {}; exec \"$0\" \"$@\"", 1024 * mebibytes)]).arg(program.get_program());
    shell.args(program.get_args()).current_dir(room.path(".")).stdout(Stdio::piped()).stderr(Stdio::piped());
    ended(shell.spawn().expect("a shell"))
}

/// A file of so many zeros, which takes no room on the disk.
fn set_zeros(room: &Room, name: &str, bytes: u64) {
    File::create(room.path(name)).and_then(|file| file.set_len(bytes)).expect("a file of zeros");
}

fn set_pipe(room: &Room, name: &str) {
    let _ = fs::remove_file(room.path(name));
    assert!(Command::new("mkfifo").arg(room.path(name)).status().expect("mkfifo").success());
}

const ASK: [&str; 3] = ["ask", "parish", QUESTION];

/// A pipe and a device are refused by name, wherever a file is read; nobody waits for them.
#[test]
fn what_is_no_file() {
    let room = parish();
    set_pipe(&room, "pipe");
    for (file, words) in [
        ("pipe", ["import", "pipe", "new"]),
        ("/dev/zero", ["import", "/dev/zero", "new"]),
        ("/dev/null", ["import", "/dev/null", "new"]),
    ] {
        let said = with_little_memory(&room, &words, 500).failed(1);
        assert_eq!(said, format!("searchroom: {file} is not a file: name the CSV file\n"));
    }
    for file in ["parish/catalogue.bin", "parish/columns.csv"] {
        for device in [None, Some("/dev/zero"), Some("/dev/null")] {
            let room = parish();
            match device {
                None => set_pipe(&room, file),
                Some(device) => {
                    fs::remove_file(room.path(file)).unwrap();
                    symlink(device, room.path(file)).unwrap();
                }
            }
            for words in [&ASK[..], &["export", "parish"], &["explain", "parish", QUESTION, "0"]] {
                let said = ended(started(&room, words)).failed(1);
                assert_eq!(
                    said,
                    format!("searchroom: {file} is not a file: remove it, and import the CSV file again\n"),
                    "{device:?}"
                );
            }
        }
    }
    assert!(!room.path("new").exists());
}

/// A word that other programs take for standard input.
#[test]
fn standard_input() {
    let room = parish();
    let said = room.run(&["import", "-", "new"]).failed(1);
    assert_eq!(said, "searchroom: standard input is not read: name the CSV file\n");
    room.set("-", TABLE);
    room.run(&["import", "-", "new"]).done();
}

/// The same where a run would add to a tally or replace a file.
#[test]
fn no_file_to_be_replaced() {
    let room = parish();
    set_pipe(&room, "pipe");
    for words in [["ask", "--tally"], ["ask", "--copy"], ["draw", "-o"]] {
        let run = started(&room, &[words[0], "parish", QUESTION, words[1], "pipe"]);
        assert_eq!(ended(run).failed(1), "searchroom: pipe is not a file: name one, or one to be made\n");
    }
}

/// Of a catalogue that is too large as much is read as the engine needs to refuse it.
#[test]
fn catalogue_too_large() {
    let room = parish();
    set_zeros(&room, "parish/catalogue.bin", 2 << 30);
    let said = with_little_memory(&room, &ASK, 500).failed(1);
    let size = "\n  in parish/catalogue.bin, which has more than 786,745 bytes: import the CSV file again\n";
    assert!(said.starts_with("searchroom: refused ") && said.ends_with(size), "{said}");
}

/// The largest catalogue is read whole, and with one byte more it is refused.
#[test]
fn largest_catalogue() {
    let room = Room::new();
    let names: String = (0..16).map(|column| format!("n{column},")).collect();
    let line = format!("{}no\n", "a text of 23 letters ab,".repeat(16));
    room.set("deeds.csv", format!("{names}withdrawn\n{}", line.repeat(2_048)));
    room.run(&["import", "deeds.csv", "deeds"]).done();
    let mut bytes = fs::read(room.path("deeds/catalogue.bin")).unwrap();
    assert_eq!(bytes.len(), 786_745);
    assert!(room.run(&["ask", "deeds", "n15 blank"]).done().starts_with("0 of 2048 entries found\n"));
    bytes.push(0);
    room.set("deeds/catalogue.bin", bytes);
    let said = room.run(&["ask", "deeds", "n15 blank"]).failed(1);
    assert!(said.starts_with("searchroom: refused ") && said.contains("has more than 786,745 bytes"), "{said}");
}

/// A tally that is too large is the engine's to refuse, and stays.
#[test]
fn tally_too_large() {
    let room = parish();
    set_zeros(&room, "tally.bin", 2 << 30);
    let said = with_little_memory(&room, &["ask", "parish", QUESTION, "--tally", "tally.bin"], 500).failed(1);
    assert!(said.starts_with("searchroom: refused 17: "), "{said}");
    assert!(
        said.ends_with("\n  the tally's file has more than 128 bytes: name another, or one that is not there yet\n")
    );
    assert_eq!(fs::metadata(room.path("tally.bin")).unwrap().len(), 2 << 30);
}

/// Names of more bytes than the longest cells have were written by no import.
#[test]
fn names_too_large() {
    let room = parish();
    set_zeros(&room, "parish/columns.csv", 2 << 30);
    let said = with_little_memory(&room, &ASK, 500).failed(1);
    let most = "more than 68,558 bytes: remove it, and import the CSV file again\n";
    assert_eq!(said, format!("searchroom: parish/columns.csv has {most}"));
}

/// A CSV file has at most 16 MiB.
#[test]
fn csv_file_too_large() {
    let room = Room::new();
    set_zeros(&room, "deeds.csv", 4 << 30);
    let said = with_little_memory(&room, &["import", "deeds.csv", "deeds"], 500).failed(1);
    let why = "more than 16,777,216 bytes, and no more are read: split it; a catalogue has at most 2,048 entries\n";
    assert_eq!(said, format!("searchroom: deeds.csv has {why}"));
    assert!(!room.path("deeds").exists());
    // One of just so many is read: what is told of it is its own.
    let spaces = " ".repeat((16 << 20) - TABLE.len());
    room.set("deeds.csv", format!("year{spaces}{}", &TABLE[4..]));
    let said = room.run(&["import", "deeds.csv", "deeds"]).failed(1);
    assert!(said.contains("a name has at most 1,000 letters; remove spaces\n"), "{said}");
    room.set("deeds.csv", format!("year {spaces}{}", &TABLE[4..]));
    assert_eq!(room.run(&["import", "deeds.csv", "deeds"]).failed(1), format!("searchroom: deeds.csv has {why}"));
}

/// The longest names of a file that is imported are read again.
#[test]
fn longest_names() {
    let cell = |place: usize| format!("{place}{:\u{3000}<998}", "😀".repeat(198));
    let names: Vec<String> = (10..26).map(cell).collect();
    let mark = format!("{:>1000}", "withdrawn");
    let room = Room::new();
    room.set("deeds.csv", format!("{},{mark}\n{}true\n{}false\n", names.join(","), ",".repeat(16), ",".repeat(16)));
    room.run(&["import", "deeds.csv", "deeds"]).done();
    let said = room.run(&["ask", "deeds", "c15 blank"]).done();
    assert!(said.starts_with("1 of 2 entries found (1 is withdrawn)\n"), "{said}");
    room.set(
        "deeds.csv",
        room.run(&["export", "deeds"]).done().replacen("\u{20}withdrawn", "\u{20}\u{20}withdrawn", 1),
    );
    let said = room.run(&["import", "deeds.csv", "deeds"]).failed(1);
    assert!(said.contains("deeds.csv, line 1, column 17, \" "), "{said}");
    assert!(said.contains("with its spaces a name has at most 1,000 letters; remove spaces\n"), "{said}");
}

/// A file may have as many cells, lines or letters as bytes. No more lines and letters are kept than are told, and of
/// the cells of one line little more than where each ends.
#[test]
fn cells_without_number() {
    let bytes = 16_000_000;
    let over = "15999985 columns over the 16 that fit beside the mark, first column 17; remove them";
    for (table, mebibytes, first) in [
        (
            ",".repeat(bytes),
            400,
            format!("deeds.csv: 16 columns without a name, first column 1; {NAMES}\ndeeds.csv: {over}\n"),
        ),
        (format!("a,b\n{}", ",\n".repeat(bytes / 2)), 200, entries(bytes / 2)),
        (format!("a\n{}", "1\n".repeat(bytes / 2)), 200, entries(bytes / 2)),
        (
            format!("a,b\n{}", ",".repeat(bytes)),
            400,
            "deeds.csv, line 2: 16000001 values; the first line has 2; ".to_owned(),
        ),
        (format!("a\n{}\n", "Ł".repeat(bytes / 2)), 200, "deeds.csv, line 2, column 1 (a), \"ŁŁŁ".to_owned()),
    ] {
        let room = Room::new();
        room.set("deeds.csv", table);
        let said = with_little_memory(&room, &["import", "deeds.csv", "deeds"], mebibytes).failed(1);
        assert!(said.contains(&first), "{first}: {said}");
        assert!(said.len() < 10_000, "{} bytes", said.len());
    }
}

const NAMES: &str = "write names into the first line, or remove the columns";

fn entries(number: usize) -> String {
    assert_eq!(number, 8_000_000);
    "deeds.csv, line 2050: 8,000,000 entries; at most 2,048 fit, so split the file before this line\n".to_owned()
}
