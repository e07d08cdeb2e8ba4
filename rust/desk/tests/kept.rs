//! What is nobody's to replace stays, and what is read is of one import.

mod desk {
    pub mod parish;
    pub mod room;
    pub mod stepped;
}

use std::fs;
use std::os::unix::fs::symlink;
use std::thread;
use std::time::{Duration, Instant};

use desk::parish::{QUESTION, TABLE, parish};
use desk::room::Room;
use desk::stepped::Steps;

/// The catalogue's own two files are never an output.
#[test]
fn catalogue_is_no_output() {
    let room = parish();
    symlink("parish/catalogue.bin", room.path("link")).unwrap();
    let before = ["catalogue.bin", "columns.csv"].map(|name| fs::read(room.path("parish").join(name)).unwrap());
    for file in [
        "parish/catalogue.bin",
        "./parish/columns.csv",
        "parish/columns.csv.next",
        "parish/catalogue.bin.next",
        "parish/../parish/catalogue.bin",
        "link",
    ] {
        let words: [&[&str]; 3] = [&["ask", "--tally"], &["ask", "--copy"], &["draw", "-o"]];
        for words in words {
            let said = room.run(&[words[0], "parish", QUESTION, words[1], file]).failed(1);
            assert_eq!(said, format!("searchroom: {file} is the catalogue's own: name another file\n"));
        }
    }
    let after = ["catalogue.bin", "columns.csv"].map(|name| fs::read(room.path("parish").join(name)).unwrap());
    assert_eq!(before, after);
}

/// Nor are they what is imported into their own folder, however they are spelled: their names read as a table too.
#[test]
fn catalogue_is_not_imported() {
    let room = parish();
    symlink("parish/columns.csv", room.path("link")).unwrap();
    symlink("parish", room.path("there")).unwrap();
    let before = ["catalogue.bin", "columns.csv"].map(|name| fs::read(room.path("parish").join(name)).unwrap());
    for name in ["catalogue.bin.new", "catalogue.bin.next", "columns.csv.new", "columns.csv.next"] {
        fs::copy(room.path("parish.csv"), room.path("parish").join(name)).unwrap();
    }
    let all = ["", ".new", ".next"].map(|ending| ["columns.csv", "catalogue.bin"].map(|name| name.to_owned() + ending));
    let own = all.as_flattened().iter().map(|name| format!("parish/{name}"));
    for file in own.chain(["link", "there/columns.csv", "parish/../parish/columns.csv"].map(str::to_owned)) {
        let said = room.run(&["import", &file, "parish"]).failed(1);
        assert_eq!(said, format!("searchroom: {file} is the catalogue's own: name the CSV file\n"));
    }
    let after = ["catalogue.bin", "columns.csv"].map(|name| fs::read(room.path("parish").join(name)).unwrap());
    assert_eq!(before, after);
    // Into another folder they may be imported as any table.
    room.run(&["import", "parish/columns.csv", "names"]).done();
}

/// A tally and a copy in one file: told at once, however the file is spelled.
#[test]
fn tally_and_copy_in_one_file() {
    let room = parish();
    for copy in ["t.bin", "./t.bin", "parish/../t.bin"] {
        let started = Instant::now();
        let said = room.run(&["ask", "parish", QUESTION, "--tally", "t.bin", "--copy", copy]).failed(1);
        assert!(said.contains("--tally and --copy name the same file"), "{said}");
        assert!(started.elapsed() < Duration::from_secs(4), "it did not wait for itself");
        assert!(!room.path("t.bin").exists() && !room.path("t.bin.new").exists());
    }
}

/// A `columns.csv` of a person's own is not replaced, even if it is the file that is imported.
#[test]
fn columns_that_no_import_wrote() {
    let room = Room::new();
    for table in [TABLE, "", "notes on the columns\n"] {
        room.set("mine/columns.csv", table);
        room.set("deeds.csv", TABLE);
        for file in ["mine/columns.csv", "deeds.csv"] {
            let said = room.run(&["import", file, "mine"]).failed(1);
            let reason = match file {
                "mine/columns.csv" => "mine/columns.csv is the catalogue's own: name the CSV file",
                _ => "mine/columns.csv is not of the form that an import writes",
            };
            assert!(said.contains(reason), "{said}");
            assert_eq!(fs::read_to_string(room.path("mine/columns.csv")).unwrap(), table);
            assert_eq!(fs::read_dir(room.path("mine")).unwrap().count(), 1, "nothing beside it");
        }
    }
}

/// Where `columns.csv` is a link, it stays one, and leads to the new names.
#[test]
fn columns_by_a_link() {
    let room = parish();
    fs::rename(room.path("parish/columns.csv"), room.path("names.csv")).unwrap();
    symlink("../names.csv", room.path("parish/columns.csv")).unwrap();
    room.set("deeds.csv", "box,parish\n7,Ash\n");
    room.run(&["import", "deeds.csv", "parish"]).done();
    assert_eq!(fs::read_to_string(room.path("names.csv")).unwrap(), "header,values\nbox,number\nparish,text\n");
    assert!(fs::symlink_metadata(room.path("parish/columns.csv")).unwrap().is_symlink());
    assert!(room.run(&["ask", "parish", "box in 7..7"]).done().starts_with("1 of 1 entry found\n"));
}

/// Two tables that have the same columns in another order, imported in turn: whoever asks meanwhile finds the one entry by
/// its name, for names and catalogue are of one import.
#[test]
fn asked_while_it_is_imported() {
    let room = Room::new();
    for (file, table) in [("a.csv", "first,second\n1,2\n"), ("b.csv", "second,first\n2,1\n")] {
        room.set(file, table);
        room.run(&["import", file, "deeds"]).done();
    }
    thread::scope(|scope| {
        let importing = scope.spawn(|| {
            for turn in 0..150 {
                room.run(&["import", ["a.csv", "b.csv"][turn % 2], "deeds"]).done();
            }
        });
        let mut asked = 0;
        while !importing.is_finished() {
            let said = room.run(&["ask", "deeds", "all(first in 1..1, second in 2..2)"]).done();
            assert!(said.starts_with("1 of 1 entry found\n"), "run {asked}: {said}");
            asked += 1;
        }
        assert!(asked > 0);
    });
}

/// The same, step by step: at each of its calls of the system the reader is stopped until an import has come between.
#[test]
fn imported_at_each_step() {
    let room = Room::new();
    room.set("0.csv", "first,second\n1,2\n");
    room.set("1.csv", "second,first\n2,1\n");
    room.run(&["import", "0.csv", "deeds"]).done();
    let at_the_stop = "\"$DESK\" import $((STOP / 2 % 2)).csv deeds";
    let steps = Steps { first: "", at_the_stop, last: "" };
    let runs = steps.run(&room, "deeds", &["ask", "deeds", "all(first in 1..1, second in 2..2)"]);
    assert!(runs.len() > 10, "{runs:?}");
    for (step, (said, _)) in runs.iter().enumerate() {
        assert!(said.starts_with("1 of 1 entry found\n"), "step {step}: {said}");
    }
}

/// Step by step again, with an import that was cut off: at the stop another one finishes it and begins to write its
/// own.
#[test]
fn finished_at_each_step() {
    let room = Room::new();
    for (folder, table) in [("old", "first,second\n1,2\n"), ("new", "second,first\n2,1\n2,1\n")] {
        room.set("deeds.csv", table);
        room.run(&["import", "deeds.csv", folder]).done();
    }
    let first = "rm -rf deeds && cp -r old deeds && cp new/columns.csv deeds/columns.csv.next && \
                 cp new/catalogue.bin deeds/catalogue.bin.next";
    let at_the_stop = "cd deeds && cp catalogue.bin.next other && mv other catalogue.bin && \
                       mv columns.csv.next columns.csv && rm catalogue.bin.next && : > catalogue.bin.next";
    let steps = Steps { first, at_the_stop, last: "cat deeds/catalogue.bin.next | wc -c" };
    let runs = steps.run(&room, "deeds", &["ask", "deeds", "all(first in 1..1, second in 2..2)"]);
    assert!(runs.len() > 10, "{runs:?}");
    for (step, (said, left)) in runs.iter().enumerate() {
        let answer = said.lines().find(|line| !line.contains("was cut off"));
        assert_eq!(answer, Some("2 of 2 entries found"), "step {step}: {said}");
        assert_eq!(left.trim(), "0", "step {step}: it was not finished");
    }
}

/// A name in .new is where another file is written; nothing else may stand there.
#[test]
fn names_of_files_being_written() {
    let room = parish();
    symlink("x.new", room.path("to_new")).unwrap();
    for words in [["ask", "--tally"], ["ask", "--copy"], ["draw", "-o"]] {
        for file in ["t.bin.new", "parish/columns.csv.new", ".new", "to_new"] {
            let said = room.run(&[words[0], "parish", QUESTION, words[1], file]).failed(1);
            assert_eq!(
                said,
                format!("searchroom: {file}: names in .new are for files being written; name another file\n")
            );
            assert!(!room.path(file).exists());
        }
    }
}

/// A folder, or what can only be one, and what is no file at all.
#[test]
fn what_is_no_file() {
    let room = parish();
    for file in ["parish", "new/", "new/.", "parish/.", "parish/", "/dev/null", "/dev/stdout", ".", "/"] {
        for words in [["ask", "--tally"], ["ask", "--copy"], ["draw", "-o"]] {
            let said = room.run(&[words[0], "parish", QUESTION, words[1], file]).failed(1);
            let is_missing = file == "new/" && said.contains("there is no folder");
            assert!(
                is_missing || said == format!("searchroom: {file} is not a file: name one, or one to be made\n"),
                "{said}"
            );
        }
    }
    assert!(!room.path("new").exists());
}

/// Where the copy cannot be written the tally stays as it was.
#[test]
fn tally_stays_where_the_copy_fails() {
    let room = parish();
    room.run(&["ask", "parish", QUESTION, "--tally", "t.bin"]).done();
    let before = fs::read(room.path("t.bin")).unwrap();
    fs::create_dir(room.path("c.bin.new")).unwrap();
    let said = room.run(&["ask", "parish", QUESTION, "--tally", "t.bin", "--copy", "c.bin"]).failed(1);
    assert!(said.contains("c.bin.new is not a file"), "{said}");
    assert_eq!(fs::read(room.path("t.bin")).unwrap(), before);
    assert!(!room.path("t.bin.new").exists() && !room.path("c.bin").exists());
}

/// What a person may keep: no copy and no picture, be it so short.
const PRECIOUS: [&str; 7] = [
    "year,parish\n1701,Ash\n",
    "x",
    "L",
    "LL\0",
    "<svg",
    "<svg xmlns=\"http://www.w3.org/2000/svg\" width=\"24\" height=\"24\"></svg>\n",
    "\n",
];

/// A copy and a picture replace no file of somebody else's, and then nothing is run; with `--force` they do.
#[test]
fn no_other_file_is_replaced() {
    let room = parish();
    room.set("t.bin", [0; 128]);
    let cases: [(&[&str], &str); 2] = [
        (&["ask", "parish", QUESTION, "--tally", "t.bin", "--copy", "mine"], "a copy of a register"),
        (&["draw", "parish", QUESTION, "-o", "mine"], "a picture of the desk's"),
    ];
    for (words, what) in cases {
        for bytes in PRECIOUS {
            room.set("mine", bytes);
            let said = room.run(words).failed(1);
            let message = format!("searchroom: mine is not {what}: name another file, or replace it with --force\n");
            assert_eq!(said, message, "{bytes:?}");
            assert_eq!(fs::read_to_string(room.path("mine")).unwrap(), bytes);
            assert_eq!(fs::read(room.path("t.bin")).unwrap(), [0; 128], "{bytes:?}");
            assert!(!room.path("mine.new").exists() && !room.path("t.bin.new").exists(), "{bytes:?}");
        }
        room.run(&[words, &["--force"]].concat()).done();
        let forced = fs::read(room.path("mine")).unwrap();
        assert!(forced.starts_with(b"L\0\x04") || forced.starts_with(b"<svg xmlns="), "{words:?}");
        room.set("t.bin", [0; 128]);
    }
}

/// What an earlier run wrote is replaced without a word, and so is an empty file; the one is not taken for the other.
#[test]
fn own_files_are_replaced() {
    let room = parish();
    for (words, other) in [
        (["ask", "parish", QUESTION, "--copy", "file"], ["draw", "parish", QUESTION, "-o", "file"]),
        (["draw", "parish", QUESTION, "-o", "file"], ["ask", "parish", QUESTION, "--copy", "file"]),
    ] {
        room.set("file", "");
        room.run(&words).done();
        let first = fs::read(room.path("file")).unwrap();
        assert!(!first.is_empty());
        room.run(&words).done();
        assert_eq!(fs::read(room.path("file")).unwrap(), first);
        assert!(room.run(&other).failed(1).contains("--force"));
        assert_eq!(fs::read(room.path("file")).unwrap(), first);
    }
}

/// `--force` is for the copy alone: a tally is the engine's to judge.
#[test]
fn force_is_for_the_copy() {
    let room = parish();
    room.run(&["ask", "parish", QUESTION, "--force"]).failed(2);
    room.set("t.bin", "notes");
    let words = ["ask", "parish", QUESTION, "--tally", "t.bin", "--copy", "c.bin", "--force"];
    assert!(room.run(&words).failed(1).starts_with("searchroom: refused 17: "));
    assert_eq!(fs::read(room.path("t.bin")).unwrap(), b"notes");
}
