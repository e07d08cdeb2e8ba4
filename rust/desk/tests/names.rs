//! Names of files and folders, and whatever else was typed: in what the program says they steer no terminal.

mod desk {
    pub mod parish;
    pub mod room;
}

use std::ffi::OsStr;
use std::fs;
use std::os::unix::ffi::OsStrExt;
use std::os::unix::fs::symlink;
use std::process::Command;

use desk::parish::{QUESTION, parish};
use desk::room::{Room, Said};

/// Names, and how they are shown: with escape sequences, line breaks, bytes that are no UTF-8, letters of no width.
const NAMES: [(&[u8], &str); 5] = [
    (b"red\x1B[31m", "red\\1B[31m"),
    (b"two\nlines\r", "two\\0Alines\\0D"),
    (b"no \xE9 UTF-8\xC3", "no \\E9 UTF-8\\C3"),
    ("\u{9B}31m\u{7F}".as_bytes(), "\\9B31m\\7F"),
    ("gpj.\u{202E}csv\u{A0}".as_bytes(), "gpj.\\202Ecsv\\A0"),
];

/// Names that people see as they are.
const ORDINARY: [&str; 5] = ["two words", "Größe", "back\\slash", "say \"so\"", "日本"];

/// What the program says, to both outputs, when run with these words, in which NAME stands for the name.
fn said(room: &Room, words: &[&str], name: &[u8]) -> String {
    let words = words.iter().map(|word| {
        let parts: Vec<&[u8]> = word.split("NAME").map(str::as_bytes).collect();
        OsStr::from_bytes(&parts.join(name)).to_owned()
    });
    let output = room.command(&[]).args(words).output().expect("the program runs");
    let said = [output.stdout, output.stderr].concat();
    String::from_utf8(said).expect("the program writes UTF-8")
}

/// Each word names the file or folder as it is shown, and nothing that it says steers the terminal.
fn expect_shown(words: &[&str], name: &[u8], shown: &str) {
    let room = parish();
    let at = |after: &[u8]| room.path(".").join(OsStr::from_bytes(&[name, after].concat()));
    fs::create_dir(at(b"")).expect("a new folder");
    fs::copy(room.path("parish/catalogue.bin"), at(b"/catalogue.bin")).expect("a copy");
    fs::write(at(b"/columns.csv"), "header,values\nyear,text\n").expect("columns that do not fit");
    fs::create_dir(at(b".good")).expect("a new folder");
    fs::copy(room.path("parish/catalogue.bin"), at(b".good/catalogue.bin")).expect("a copy");
    fs::create_dir(at(b".bad")).expect("a new folder");
    fs::write(at(b".bad/catalogue.bin"), "none").expect("a catalogue that is none");
    fs::write(at(b".csv"), "year:number\nx\n").expect("a faulty file");
    let said = said(&room, words, name);
    assert!(said.contains(shown), "{words:?}: {shown} is not in {said:?}");
    assert!(!said.contains(|letter: char| letter.is_control() && letter != '\n'), "{words:?}: {said:?}");
    assert_eq!(said.contains('\u{202E}'), shown.contains('\u{202E}'), "{words:?}: {said:?}");
    assert_eq!(said.lines().filter(|line| line.starts_with("lines")).count(), 0, "{words:?}: {said:?}");
}

/// Words that are done or refused, each with a message in which the name stands.
const WORDS: [&[&str]; 22] = [
    &["import", "parish.csv", "new/NAME"],
    &["import", "parish.csv", "NAME"],
    &["import", "parish.csv", "NAME.bad"],
    &["import", "parish.csv", "NAME.csv"],
    &["import", "NAME.csv", "new"],
    &["import", "NAME", "new"],
    &["import", "missing/NAME.csv", "new"],
    &["import", "parish.csv/NAME", "new"],
    &["import", "parish.csv", "parish.csv/NAME"],
    &["export", "NAME"],
    &["export", "NAME.bad"],
    &["export", "NAME.csv"],
    &["ask", "missing/NAME", QUESTION],
    &["ask", "parish", QUESTION, "--tally", "NAME.bin"],
    &["ask", "parish", QUESTION, "--copy", "NAME.bin"],
    &["ask", "parish", QUESTION, "--tally", "missing/NAME/tally.bin"],
    &["ask", "parish", QUESTION, "--tally", "NAME"],
    &["ask", "parish", QUESTION, "--copy", "NAME.new"],
    &["ask", "NAME.good", "c0 blank", "--copy", "NAME.good/catalogue.bin"],
    &["explain", "NAME.bad", QUESTION, "0"],
    &["draw", "parish", QUESTION, "-o", "NAME.svg"],
    &["draw", "parish", QUESTION, "-o", "parish.csv/NAME"],
];

#[test]
fn names_are_shown_as_values_are() {
    for (name, shown) in NAMES {
        for words in WORDS {
            expect_shown(words, name, shown);
        }
    }
}

#[test]
fn ordinary_names_stay_as_they_are() {
    for name in ORDINARY {
        for words in WORDS {
            expect_shown(words, name.as_bytes(), name);
        }
    }
}

/// What to do is said with the folder's name too.
#[test]
fn advice_with_a_name() {
    let room = Room::new();
    let advice = "there is no red\\1B[31m/catalogue.bin: make it with `searchroom import FILE.csv red\\1B[31m`";
    assert_eq!(said(&room, &["ask", "NAME", "c0 blank"], b"red\x1B[31m"), format!("searchroom: {advice}\n"));
    room.set("red\x1B[31m.csv", "year:number\nx\n");
    let faults = said(&room, &["import", "NAME.csv", "new"], b"red\x1B[31m");
    let places = ["red\\1B[31m.csv, line 2, column 1 (year)", "searchroom: 1 fault in red\\1B[31m.csv: "];
    assert!(faults.lines().zip(places).all(|(line, place)| line.starts_with(place)), "{faults}");
}

/// Wrong usage repeats what was typed.
#[test]
fn wrong_usage_is_shown_as_values_are() {
    let room = parish();
    for words in [
        &["NAME"][..],
        &["help", "NAME"],
        &["--NAME"],
        &["-xNAME"],
        &["ask", "parish", QUESTION, "--NAME"],
        &["ask", "parish", QUESTION, "--jsomNAME"],
        &["ask", "parish", QUESTION, "NAME"],
        &["ask", "parish", QUESTION, "--json=NAME"],
        &["ask", "parish", QUESTION, "--reader", "NAME"],
        &["ask", "parish", QUESTION, "--order", "0,NAME"],
        &["explain", "parish", QUESTION, "NAME"],
        &["export", "parish", "--separator", "NAME"],
    ] {
        for name in ["red\x1B[31m", "two\nlines", "\u{9B}31m"] {
            let said = said(&room, words, name.as_bytes());
            assert!(said.starts_with("error: ") && said.contains("--help"), "{words:?}: {said:?}");
            assert!(!said.contains(|letter: char| letter.is_control() && letter != '\n'), "{words:?}: {said:?}");
            assert!(!said.contains("two\nlines"), "{words:?}: {said:?}");
            let shown = name.replace('\x1B', "\\1B").replace('\n', "\\0A").replace('\u{9B}', "\\9B");
            // Of a group of short options the first alone is repeated.
            assert!(said.contains(&shown) || words == ["-xNAME"], "{words:?}: {said:?}");
        }
    }
}

/// The program goes by its own name, whatever a link to it is called.
#[test]
fn name_of_the_program() {
    let room = Room::new();
    let link = room.path("red\x1B[31m");
    symlink(env!("CARGO_BIN_EXE_searchroom"), &link).expect("a link");
    let run = |word: &str| Said::of(Command::new(&link).arg(word).output().expect("the program runs"));
    assert!(run("ask").failed(2).contains("Usage: searchroom ask "));
    assert!(run("--help").done().contains("Usage: searchroom "));
}
