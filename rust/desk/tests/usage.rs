//! The program on the command line: wrong usage, help, terminals, pipes, and folders that cannot be used.

mod desk {
    pub mod parish;
    pub mod room;
}

use std::ffi::OsStr;
use std::fs::{self, File};
use std::os::unix::ffi::OsStrExt;
use std::os::unix::fs::symlink;
use std::path::Path;
use std::process::{Command, Stdio};

use desk::parish::{QUESTION, imported, parish};
use desk::room::{Room, Said};

const WORDS: [&str; 5] = ["import", "export", "ask", "explain", "draw"];

/// Wrong usage: nothing is printed, and standard error shows how it is done.
fn expect_usage(room: &Room, words: &[&str]) -> String {
    let said = room.run(words).failed(2);
    assert!(said.contains("Usage: searchroom") || said.contains("--help"), "{words:?}: {said}");
    said
}

#[test]
fn wrong_words() {
    let room = Room::new();
    assert!(expect_usage(&room, &[]).contains("Usage: searchroom"));
    for words in [&["find"][..], &["Ask"], &["ask"], &["import"], &["import", "a.csv"], &["export"], &["--nonsense"]] {
        expect_usage(&room, words);
    }
    for words in [&["ask", "parish"][..], &["explain", "parish", "year blank"], &["draw", "parish", "year blank"]] {
        expect_usage(&room, words);
    }
    for words in
        [&["export", "parish", "more"][..], &["import", "a", "b", "c"], &["help", "find"], &["ask", "a", "b", "c"]]
    {
        expect_usage(&room, words);
    }
}

#[test]
fn wrong_numbers_and_signs() {
    let room = parish();
    for reader in ["x", "-1", "1.5", "", "18446744073709551616", "0x3"] {
        expect_usage(&room, &["ask", "parish", "year blank", &format!("--reader={reader}")]);
    }
    for order in ["x", "0,x", "-1", "0;1", "0,,1", "", "256", "99999999999999999999"] {
        expect_usage(&room, &["ask", "parish", "year blank", &format!("--order={order}")]);
    }
    for entry in ["x", "-1", "1.5", "", "18446744073709551616"] {
        expect_usage(&room, &["explain", "parish", "year blank", "--", entry]);
    }
    for separator in ["", "ab", "\"", "\n", "é", "Tab"] {
        expect_usage(&room, &["export", "parish", &format!("--separator={separator}")]);
        expect_usage(&room, &["import", "parish.csv", "again", &format!("--separator={separator}")]);
    }
    assert!(!room.path("again").exists());
}

#[test]
fn strict_goes_with_no_other() {
    let room = parish();
    for other in [&["--json"][..], &["--order", "0"], &["--reader", "0"], &["--tally", "t.bin"], &["--copy", "c.bin"]] {
        expect_usage(&room, &[&["ask", "parish", "year blank", "--strict"], other].concat());
    }
    assert!(!room.path("t.bin").exists() && !room.path("c.bin").exists());
}

/// A question that is no UTF-8 cannot be one; a folder may have any name.
#[test]
fn words_that_are_no_utf_8() {
    let room = parish();
    let bad = OsStr::from_bytes(b"parish is \"\xE9\"");
    let said = room.command(&["ask", "parish"]).arg(bad).output().expect("the program runs");
    assert_eq!(said.status.code(), Some(2));
    let folder = OsStr::from_bytes(b"d\xE9\xE9ds");
    fs::rename(room.path("parish"), room.path(".").join(folder)).unwrap();
    let said = room.command(&["ask"]).arg(folder).arg(QUESTION).output().expect("the program runs");
    assert!(Said::of(said).done().starts_with("2 of 3 entries found\n"));
}

#[test]
fn help_of_each_word() {
    let room = Room::new();
    let all = room.run(&["--help"]).done();
    assert_eq!(room.run(&["help"]).done(), all);
    for word in WORDS {
        assert!(all.contains(&format!("\n  {word}")), "{all}");
        let example = format!("\n  searchroom {word} ");
        for words in [&["help", word][..], &[word, "--help"], &[word, "-h"]] {
            let said = room.run(words).done();
            assert!(said.contains(&example), "{words:?}: {said}");
            assert!(said.contains(&format!("Usage: searchroom {word} ")), "{words:?}: {said}");
        }
    }
}

#[test]
fn version() {
    for option in ["--version", "-V"] {
        assert_eq!(Room::new().run(&[option]).done(), format!("searchroom {}\n", env!("CARGO_PKG_VERSION")));
    }
}

/// The examples of a help text, in which the program is called by its name.
fn examples(help: &str) -> Vec<&str> {
    help.lines().filter_map(|line| line.strip_prefix("  ")).filter(|line| line.starts_with("searchroom ")).collect()
}

/// Each example of the help texts does what it says, in a folder with the repository's examples.
#[test]
fn examples_of_the_help_texts() {
    let room = Room::new();
    symlink(Path::new(env!("CARGO_MANIFEST_DIR")).join("../../examples"), room.path("examples")).unwrap();
    room.set("bonds.csv", "year;bond\n1701;7\n");
    let mut path = Path::new(env!("CARGO_BIN_EXE_searchroom")).parent().expect("a folder").to_owned().into_os_string();
    path.push(":/usr/bin:/bin");
    let helps = [&["import"][..], &["export"], &["ask"], &["explain"], &["draw"], &[]];
    for words in helps {
        let help = room.run(&[words, &["--help"]].concat()).done();
        assert!(!examples(&help).is_empty(), "{help}");
        for example in examples(&help) {
            let mut shell = Command::new("sh");
            shell.args(["-c", example]).current_dir(room.path(".")).env("PATH", &path).stdin(Stdio::null());
            let said = Said::of(shell.output().expect("a shell")).done();
            assert!(!said.is_empty() || example.contains('>'), "{example}: {said}");
        }
    }
}

/// More entries than a pipe holds.
fn long_list() -> Room {
    let lines: String = (0..2_048).map(|entry| format!("{entry},a name of some length\n")).collect();
    imported(&format!("number,name\n{lines}"))
}

/// Who reads the output may leave: the program ends without a word.
#[test]
fn closed_pipes() {
    let room = long_list();
    let cases: [&[&str]; 7] = [
        &["import", "parish.csv", "again"],
        &["draw", "parish", "number blank", "-o", "a.svg"],
        &["ask", "parish", "not number blank"],
        &["ask", "parish", "not number blank", "--json"],
        &["ask", "parish", "not number blank", "--tally", "tally.bin", "--reader", "2", "--copy", "copy.bin"],
        &["export", "parish"],
        &["explain", "parish", "number blank", "0"],
    ];
    for words in cases {
        let mut command = room.command(words);
        let mut running = command.stdout(Stdio::piped()).stderr(Stdio::piped()).spawn().expect("the program starts");
        drop(running.stdout.take());
        let left = Said::of(running.wait_with_output().expect("the program ends"));
        assert_eq!(left.done(), "", "{words:?}");
    }
    assert_eq!(fs::read(room.path("tally.bin")).unwrap()[16..24], 2_048_u64.to_be_bytes());
    assert_eq!(fs::read(room.path("copy.bin")).unwrap().len(), 7 * 2_048);
    assert!(room.path("again/columns.csv").exists() && room.path("a.svg").exists());
    assert!(!room.path("tally.bin.new").exists() && !room.path("copy.bin.new").exists());
}

/// An output that is full is told.
#[test]
fn full_output() {
    let room = long_list();
    let cases: [&[&str]; 6] = [
        &["ask", "parish", "not number blank"],
        &["ask", "parish", "number blank", "--json"],
        &["ask", "parish", "number blank", "--strict"],
        &["export", "parish"],
        &["explain", "parish", "number blank", "0"],
        &["draw", "parish", "number blank", "-o", "a.svg"],
    ];
    for words in cases {
        let full = File::options().write(true).open("/dev/full").expect("/dev/full");
        let left = room.command(words).stdout(full).output().expect("the program runs");
        let said = Said::of(left).failed(1);
        assert!(said.starts_with("searchroom: ") && said.contains("output"), "{words:?}: {said}");
    }
}

/// Runs the program at a terminal of python3's: what both outputs show there, and the exit status.
const AT_A_TERMINAL: &str = r#"
import os, pty, sys
streams, words = sys.argv[1], sys.argv[2:]
def collect(pid, end):
    shown = b""
    while True:
        try:
            part = os.read(end, 65536)
        except OSError:
            part = b""
        if not part:
            break
        shown += part
    os.waitpid(pid, 0)
    return shown
ours, theirs = pty.openpty()
reading, writing = os.pipe()
pid = os.fork()
if pid == 0:
    os.close(ours); os.close(reading)
    os.dup2(theirs if "o" in streams else writing, 1)
    os.dup2(theirs if "e" in streams else writing, 2)
    os.execv(words[0], words)
os.close(theirs); os.close(writing)
terminal = collect(pid, ours)
pipe = b""
while True:
    part = os.read(reading, 65536)
    if not part:
        break
    pipe += part
sys.stdout.buffer.write(terminal + b"\0" + pipe)
"#;

/// What the program shows at the terminal and what it sends into the pipe: `streams` has an o where standard output is the
/// terminal, an e where standard error is.
fn at_a_terminal(room: &Room, streams: &str, env: &[(&str, &str)], words: &[&str]) -> (String, String) {
    let mut python = Command::new("python3");
    python.args(["-c", AT_A_TERMINAL, streams, env!("CARGO_BIN_EXE_searchroom")]).args(words);
    python.current_dir(room.path(".")).env_remove("NO_COLOR").env("TERM", "xterm").envs(env.iter().copied());
    let shown = Said::of(python.stdin(Stdio::null()).output().expect("python3")).done();
    let (terminal, pipe) = shown.split_once('\0').expect("both");
    (terminal.replace("\r\n", "\n"), pipe.to_owned())
}

/// The text without its colours.
fn plain(text: &str) -> String {
    let mut parts = text.split('\x1B');
    let first = parts.next().expect("a first part").to_owned();
    parts.fold(first, |whole, part| whole + part.split_once('m').expect("a colour").1)
}

/// Each word's words and whether it speaks on standard output.
const SPEAKING: [(&[&str], bool); 4] = [
    (&["ask", "parish", QUESTION], true),
    (&["explain", "parish", QUESTION, "1"], true),
    (&["ask", "parish", "yeer blank"], false),
    (&["ask", "nowhere", "year blank"], false),
];

#[test]
fn colours_at_a_terminal() {
    let room = parish();
    for (words, is_output) in SPEAKING {
        let piped = if is_output { room.run(words).done() } else { room.run(words).failed(1) };
        for env in [&[][..], &[("NO_COLOR", "")]] {
            let (shown, _) = at_a_terminal(&room, "oe", env, words);
            assert!(shown.contains("\x1B["), "{words:?}, {env:?}: {shown:?}");
            assert_eq!(plain(&shown), piped, "{words:?}");
        }
        for env in [&[("NO_COLOR", "1")][..], &[("TERM", "dumb")], &[("NO_COLOR", "0")]] {
            assert_eq!(at_a_terminal(&room, "oe", env, words).0, piped, "{words:?}, {env:?}");
        }
    }
}

/// Of the two outputs only the one that is a terminal has colours.
#[test]
fn one_output_at_a_terminal() {
    let room = parish();
    for (words, is_output) in SPEAKING {
        let piped = if is_output { room.run(words).done() } else { room.run(words).failed(1) };
        let (own, other) = if is_output { ("o", "e") } else { ("e", "o") };
        let (shown, pipe) = at_a_terminal(&room, own, &[], words);
        assert!(shown.contains("\x1B[") && pipe.is_empty(), "{words:?}: {shown:?}, {pipe:?}");
        assert_eq!(at_a_terminal(&room, other, &[], words), (String::new(), piped), "{words:?}");
    }
}

/// What a program reads is never coloured.
#[test]
fn no_colours_in_data() {
    let room = parish();
    for words in
        [&["export", "parish"][..], &["ask", "parish", QUESTION, "--json"], &["ask", "parish", QUESTION, "--strict"]]
    {
        assert_eq!(at_a_terminal(&room, "oe", &[], words).0, room.run(words).done(), "{words:?}");
    }
}

#[test]
fn folders_that_cannot_be_used() {
    let room = parish();
    room.set("empty/notes.txt", "");
    room.set("file", "");
    fs::create_dir_all(room.path("unreadable/catalogue.bin")).unwrap();
    for (folder, named) in [
        ("missing", "missing/catalogue.bin"),
        ("empty", "empty/catalogue.bin"),
        ("file", "file"),
        ("unreadable", "unreadable/catalogue.bin"),
    ] {
        for words in every_word(folder) {
            let said = room.run(&words).failed(1);
            assert!(said.starts_with("searchroom: ") && said.contains(named), "{words:?}: {said}");
        }
    }
    assert!(!room.path("a.svg").exists() && !room.path("missing").exists());
}

/// A run of each word that reads a folder.
fn every_word(folder: &str) -> [Vec<&str>; 4] {
    [
        vec!["export", folder],
        vec!["ask", folder, "c0 blank"],
        vec!["explain", folder, "c0 blank", "0"],
        vec!["draw", folder, "c0 blank", "-o", "a.svg"],
    ]
}

/// Columns that are not those of the catalogue: what to do is said.
#[test]
fn columns_that_do_not_fit() {
    for columns in [
        &b"header,values\nyear,number\n"[..],
        b"header,values\nyear,text\nparish,text\n",
        b"header,values\nyear,number\nparish,text\nshelf,text\n",
        b"header,values\nyear,number\nparish,text\nwithdrawn,yes/no\n",
        b"header,values\nyear,number\nyear,text\n",
        b"header,values\nyear,number\nparish,texts\n",
        b"header,values\nyear\nparish\n",
        b"header,values\nyear,number\npar\xE9sh,text\n",
        b"",
    ] {
        let room = parish();
        room.set("parish/columns.csv", columns);
        for words in every_word("parish") {
            let said = room.run(&words).failed(1);
            let shown = String::from_utf8_lossy(columns);
            assert!(said.starts_with("searchroom: ") && said.contains("columns.csv"), "{shown:?}, {words:?}: {said}");
            assert!(said.contains("import"), "{shown:?}, {words:?}: {said}");
        }
    }
}

#[test]
fn columns_that_cannot_be_read() {
    let room = parish();
    fs::remove_file(room.path("parish/columns.csv")).unwrap();
    fs::create_dir(room.path("parish/columns.csv")).unwrap();
    for words in every_word("parish") {
        let said = room.run(&words).failed(1);
        assert!(said.starts_with("searchroom: ") && said.contains("parish/columns.csv"), "{words:?}: {said}");
    }
}

/// No word breaks down over names as long as they may be.
#[test]
fn longest_names() {
    let names: Vec<String> = (10..26).map(|column| format!("{column}{}", " é".repeat(99))).collect();
    let room = imported(&format!("{}\n{}\n", names.join(","), ["Ash"; 16].join(",")));
    let question = format!("any(not \"{}\" blank, c15 is \"ash\")", names[0]);
    for words in [&["ask", "parish", &question][..], &["explain", "parish", &question, "0"], &["export", "parish"]] {
        assert!(room.run(words).done().contains(&names[0]), "{words:?}");
    }
    room.run(&["draw", "parish", &question, "-o", "a.svg"]).done();
    assert!(room.run(&["ask", "parish", "yeer blank"]).failed(1).contains(&names[15]));
}
