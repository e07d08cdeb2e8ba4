//! Runs and imports that are cut off, at whatever moment: nobody is kept waiting, and nothing is to be removed by hand.

mod desk {
    pub mod held;
    pub mod numbers;
    pub mod parish;
    pub mod room;
    pub mod signal;
    pub mod started;
    pub mod stepped;
}

use std::fs;
use std::os::unix::fs::symlink;
use std::process::{Child, Command};
use std::thread;
use std::time::{Duration, Instant};

use desk::held::held;
use desk::numbers::{LOOKS, ask, numbers};
use desk::parish::{QUESTION, TABLE, parish};
use desk::room::{Room, Said};
use desk::signal::signal;
use desk::started::{ended, started};
use desk::stepped::Steps;
use generator::Rng;

const SIGNALS: [i32; 2] = [libc::SIGKILL, libc::SIGINT];

/// Runs the program, which must not wait for another run: one that does gives up after five seconds, and says so.
fn at_once(room: &Room, words: &[&str]) -> Said {
    ended(started(room, words))
}

/// The names of the files in a folder of the room.
fn files(room: &Room, folder: &str) -> Vec<String> {
    let names = fs::read_dir(room.path(folder)).unwrap().map(|file| file.unwrap().file_name().into_string().unwrap());
    let mut names: Vec<String> = names.collect();
    names.sort();
    names
}

/// What a run that was cut off can have left is removed, whatever it is.
#[test]
fn left_by_a_run() {
    let room = parish();
    let copy = [76, 0, 4, 0, 0, 0, 1].repeat(40);
    let lefts: [&[u8]; 8] =
        [b"", &copy[..1], &copy[..40], &copy, b"<svg xm", b"header,", b"header,values\nyear,nu", &[7; 128]];
    let words = ["ask", "parish", QUESTION, "--tally", "t.bin", "--copy", "c.bin"];
    for (run, left) in lefts.into_iter().enumerate() {
        room.set("t.bin.new", left);
        room.set("c.bin.new", left);
        at_once(&room, &words).done();
        assert_eq!(numbers(&room, "t.bin")[0], (run as u64 + 1) * LOOKS);
        assert_eq!(fs::read(room.path("c.bin")).unwrap().len() as u64, 7 * LOOKS);
        assert!(!room.path("t.bin.new").exists() && !room.path("c.bin.new").exists());
    }
    let drawn = room.run(&["draw", "parish", QUESTION, "-o", "-"]).done();
    room.set("a.svg.new", &drawn[..drawn.len() / 2]);
    at_once(&room, &["draw", "parish", QUESTION, "-o", "a.svg"]).done();
    assert_eq!(fs::read_to_string(room.path("a.svg")).unwrap(), drawn);
}

/// What no run can have left is a person's, be it so short: it is named, and stays.
#[test]
fn left_by_a_person() {
    let room = parish();
    let notes = "what I thought of the tally\n".repeat(5);
    for note in
        [b"\n", b"x", &b"<svg>"[..], b"header;values\n", TABLE.as_bytes(), &[7; 127], &[7; 129], notes.as_bytes()]
    {
        room.set("t.bin.new", note);
        // Though the run be refused in any case.
        for order in ["0,1,2", "0"] {
            let said = at_once(&room, &[&ask("t.bin", "0")[..], &["--order", order]].concat()).failed(1);
            let message = "t.bin.new is where a file is to be written, and holds something else: move it";
            assert!(said.contains(message), "{note:?}: {said}");
            assert_eq!(fs::read(room.path("t.bin.new")).unwrap(), note);
        }
    }
    assert!(!room.path("t.bin").exists());
}

/// What was left is removed and not written to: a link's other name keeps its bytes.
#[test]
fn link_of_a_tally() {
    let room = parish();
    room.set("mine", [7; 128]);
    fs::hard_link(room.path("mine"), room.path("t.bin.new")).unwrap();
    at_once(&room, &ask("t.bin", "0")).done();
    assert_eq!(fs::read(room.path("mine")).unwrap(), [7; 128]);
}

/// What is no file is refused by name where a file is to be written, and no link is followed.
#[test]
fn no_file_beside() {
    let room = parish();
    room.set("mine", "");
    fs::create_dir(room.path("folder")).unwrap();
    let set_pipe = |path: &str| assert!(Command::new("mkfifo").arg(room.path(path)).status().unwrap().success());
    let beside = ["t.bin.new", "c.bin.new", "a.svg.new", "parish/catalogue.bin.new", "parish/columns.csv.new"];
    let words: [&[&str]; 5] = [
        &ask("t.bin", "0"),
        &["ask", "parish", QUESTION, "--copy", "c.bin"],
        &["draw", "parish", QUESTION, "-o", "a.svg"],
        &["import", "parish.csv", "parish"],
        &["import", "parish.csv", "parish"],
    ];
    for (file, words) in beside.into_iter().zip(words) {
        for target in ["pipe", "folder", "mine", "missing", "/dev/zero", "parish/columns.csv"] {
            let path = room.path(file);
            match target {
                "pipe" => set_pipe(file),
                "folder" => fs::create_dir(&path).unwrap(),
                _ if target.starts_with('/') => symlink(target, &path).unwrap(),
                _ => symlink(room.path(target), &path).unwrap(),
            }
            let said = at_once(&room, words).failed(1);
            assert!(said.contains(&format!("{file} is not a file: ")), "{file}, {target}: {said}");
            assert!(fs::symlink_metadata(&path).is_ok(), "{file}, {target}: it stays");
            fs::remove_file(&path).or_else(|_| fs::remove_dir(&path)).unwrap();
        }
        at_once(&room, words).done();
    }
    assert_eq!(fs::read(room.path("mine")).unwrap(), b"");
    assert!(!room.path("missing").exists());
}

/// A run is cut off while it holds one file and waits for another: what it left blocks nobody.
#[test]
fn cut_off_while_it_holds() {
    for number in SIGNALS {
        let room = parish();
        let words = ["ask", "parish", QUESTION, "--tally", "t.bin", "--copy", "c.bin"];
        let other = held(&room.path("t.bin.new"));
        let mut waiting = started(&room, &words);
        while !room.path("c.bin.new").exists() {
            assert!(waiting.try_wait().unwrap().is_none(), "the run holds the copy before it waits for the tally");
            thread::sleep(Duration::from_millis(1));
        }
        signal(&waiting, number);
        waiting.wait().unwrap();
        assert!(room.path("c.bin.new").exists(), "the run was cut off too late to leave anything");
        drop(other);
        at_once(&room, &words).done();
        assert_eq!(numbers(&room, "t.bin")[0], LOOKS);
        assert!(!room.path("t.bin.new").exists() && !room.path("c.bin.new").exists());
    }
}

/// Rounds of runs with one tally, each for another reader, most of them cut off at some moment. None of the others is
/// refused, and after each round the sum is exact: a run that ended has added its looks, one that was cut off its looks
/// or nothing, and nobody else anything.
#[test]
fn runs_cut_off_at_any_moment() {
    let room = parish();
    let (mut rng, since, mut before, mut cut_off) = (Rng::new(17), Instant::now(), [0; 16], 0);
    for round in 0..40 {
        let running: Vec<_> = (0..8).map(|reader| started(&room, &ask("t.bin", &reader.to_string()))).collect();
        for run in &running {
            thread::sleep(Duration::from_micros(rng.between(0, 2_000) as u64));
            if rng.chance(70) {
                signal(run, *rng.pick(&SIGNALS));
            }
        }
        let ended: Vec<bool> = running.into_iter().map(has_ended).collect();
        cut_off += ended.iter().filter(|&&ended| !ended).count();
        let after = if room.path("t.bin").exists() { numbers(&room, "t.bin") } else { before };
        for reader in 0..16 {
            let (added, ended) = (after[reader] - before[reader], ended.get(reader));
            let is_exact = added == LOOKS && ended.is_some() || added == 0 && ended != Some(&true);
            assert!(is_exact, "round {round}, reader {reader}, ended {ended:?}: {added}");
        }
        before = after;
        if since.elapsed() > Duration::from_secs(5) {
            break;
        }
    }
    assert!(cut_off > 0 && before != [0; 16], "{cut_off} were cut off: {before:?}");
    at_once(&room, &ask("t.bin", "15")).done();
    assert_eq!(numbers(&room, "t.bin")[15], LOOKS);
    assert!(!room.path("t.bin.new").exists());
}

/// Has the run ended by itself? Then it was done.
fn has_ended(run: Child) -> bool {
    let output = run.wait_with_output().unwrap();
    let has_ended = output.status.code().is_some();
    if has_ended {
        Said::of(output).done();
    }
    has_ended
}

/// The question finds its entry only where names and catalogue are of one import.
const BY_NAME: [&str; 3] = ["ask", "deeds", "all(first in 1..1, second in 2..2)"];

/// Two tables with the same columns in another order: the earlier import's, of one entry, and the later one's, of two.
const EARLIER: &str = "first,second\n1,2\n";
const LATER: &str = "second,first\n2,1\n2,1\n";

/// The files of a folder, each with its bytes.
type Files<'a> = &'a [(&'a str, &'a [u8])];

/// Where the names and the catalogue of an import stand that is made.
const NEXT: &str = "columns.csv.next";
const KEPT: &str = "catalogue.bin.next";

/// What a run says beside the line which tells that an import was cut off, and whether that was told.
fn heard(room: &Room, words: &[&str]) -> (Said, bool) {
    let mut output = room.command(words).output().unwrap();
    let note = "searchroom: in deeds an import was cut off before its files were in place, and columns.csv.next and \
                catalogue.bin.next hold: import the CSV file again to finish it\n";
    let is_told = output.stderr == note.as_bytes();
    if is_told {
        output.stderr.clear();
    }
    (Said::of(output), is_told)
}

/// Every state in which an import can be cut off: the files of the folder, and how many entries there are to ask, if
/// any.
#[test]
fn import_cut_off_after_each_step() {
    let [[old, old_names], [new, new_names]] = [EARLIER, LATER].map(|table| {
        let room = Room::new();
        room.set("deeds.csv", table);
        room.run(&["import", "deeds.csv", "deeds"]).done();
        ["catalogue.bin", "columns.csv"].map(|file| fs::read(room.path("deeds").join(file)).unwrap())
    });
    let (c, n, new_c, new_n) = ("catalogue.bin", "columns.csv", "catalogue.bin.new", "columns.csv.new");
    let (half, half_names, none): (&[u8], &[u8], &[u8]) = (&new[..new.len() / 2], &new_names[..20], b"");
    let (old, old_names) = ((c, &old[..]), (n, &old_names[..]));
    let (next, kept) = ((NEXT, &new_names[..]), (KEPT, &new[..]));
    let states: [(Files, usize); 23] = [
        (&[], 0),
        (&[(new_n, none)], 0),
        (&[(new_n, none), (new_c, none)], 0),
        (&[(new_n, none), (new_c, half)], 0),
        (&[(new_n, none), (new_c, &new)], 0),
        (&[(new_n, half_names), (new_c, &new)], 0),
        (&[(new_n, &new_names), (new_c, &new)], 0),
        (&[(n, &new_names), (new_c, &new)], 0),
        (&[old, old_names, (new_n, none)], 1),
        (&[old, old_names, (new_n, none), (new_c, none)], 1),
        (&[old, old_names, (new_n, none), (new_c, half)], 1),
        (&[old, old_names, (new_n, none), (new_c, &new)], 1),
        (&[old, old_names, (new_n, none), kept], 1),
        (&[old, old_names, (new_n, half_names), kept], 1),
        (&[old, old_names, (new_n, &new_names), kept], 1),
        (&[old, old_names, next, kept], 2),
        (&[old, old_names, next, kept, (new_c, none)], 2),
        (&[old, old_names, next, kept, (new_c, half)], 2),
        (&[old, old_names, next, kept, (new_c, &new)], 2),
        (&[(c, &new), old_names, next, kept], 2),
        (&[(c, &new), (n, &new_names), kept], 2),
        // Another import had begun to wait for this one, and was cut off too.
        (&[old, old_names, next, kept, (new_n, none)], 2),
        (&[(c, &new), old_names, next, kept, (new_n, none)], 2),
    ];
    for (state, entries) in states {
        let room = Room::new();
        fs::create_dir(room.path("deeds")).unwrap();
        state.iter().for_each(|(file, bytes)| room.set(&format!("deeds/{file}"), bytes));
        let label = || state.iter().map(|(file, bytes)| format!("{file} {}", bytes.len())).collect::<Vec<_>>();
        let (said, is_told) = heard(&room, &BY_NAME);
        match entries {
            0 => assert!(said.failed(1).contains("searchroom import FILE.csv"), "{:?}", label()),
            _ => assert!(said.done().starts_with(&format!("{entries} of ")), "{:?}", label()),
        }
        assert_eq!(is_told, state.contains(&next), "{:?}", label());
        room.set("deeds.csv", EARLIER);
        at_once(&room, &["import", "deeds.csv", "deeds"]).done();
        assert!(at_once(&room, &BY_NAME).done().starts_with("1 of 1 entry found\n"), "{:?}", label());
        assert_eq!(files(&room, "deeds"), [c, n], "{:?}", label());
    }
}

/// After a cut somebody puts other files in their places: names are never taken with another import's catalogue, and
/// every word tells of the cut.
#[test]
fn other_files_after_a_cut() {
    let room = Room::new();
    for (file, table) in [("a", EARLIER), ("b", LATER)] {
        room.set(&format!("{file}.csv"), table);
        room.run(&["import", &format!("{file}.csv"), file]).done();
    }
    let copy = |from: &str, to: &str| fs::copy(room.path(from), room.path(to)).unwrap();
    fs::create_dir(room.path("deeds")).unwrap();
    for (from, to) in [("b/columns.csv", NEXT), ("b/catalogue.bin", KEPT), ("b/catalogue.bin", "catalogue.bin")] {
        copy(from, &format!("deeds/{to}"));
    }
    for file in ["catalogue.bin", "columns.csv"] {
        copy(&format!("a/{file}"), &format!("deeds/{file}"));
    }
    let words: [&[&str]; 4] = [
        &BY_NAME,
        &["explain", "deeds", BY_NAME[2], "1"],
        &["draw", "deeds", BY_NAME[2], "-o", "-"],
        &["export", "deeds"],
    ];
    for words in words {
        let (said, is_told) = heard(&room, words);
        let of_b: Vec<&str> = words.iter().map(|&word| if word == "deeds" { "b" } else { word }).collect();
        assert_eq!(said.done(), room.run(&of_b).done(), "{words:?}");
        assert!(is_told, "{words:?}");
    }
    // The same without the catalogue that belongs to the names: no import leaves that.
    fs::remove_file(room.path("deeds").join(KEPT)).unwrap();
    let message = "columns.csv.next has no catalogue.bin.next beside it: no import left it so; move it, and import";
    for words in [&words[..], &[&["import", "a.csv", "deeds"]]].concat() {
        assert!(room.run(words).failed(1).contains(message), "{words:?}");
    }
    fs::remove_file(room.path("deeds").join(NEXT)).unwrap();
    assert!(room.run(&BY_NAME).done().starts_with("1 of 1 entry found\n"));
}

/// What no import can have left in the place of a made one is named, and nothing is replaced by it.
#[test]
fn next_files_that_no_import_made() {
    let room = parish();
    let own = ["catalogue.bin", "columns.csv"].map(|file| fs::read(room.path("parish").join(file)).unwrap());
    let [catalogue, names] = &own;
    let (short, form) = (&names[..9], "is not of the form that an import writes");
    let cases: [(Files, &str, &str); 7] = [
        (&[(NEXT, b"")], NEXT, "has no catalogue.bin.next beside it"),
        (&[(NEXT, short)], NEXT, "has no catalogue.bin.next beside it"),
        (&[(NEXT, names)], NEXT, "has no catalogue.bin.next beside it"),
        (&[(NEXT, b""), (KEPT, catalogue)], NEXT, form),
        (&[(NEXT, short), (KEPT, catalogue)], NEXT, form),
        (&[(NEXT, names), (KEPT, b"")], KEPT, form),
        (&[(NEXT, names), (KEPT, &[7; 128])], KEPT, form),
    ];
    for (files, named, why) in cases {
        files.iter().for_each(|(file, bytes)| room.set(&format!("parish/{file}"), bytes));
        let message = format!("parish/{named} {why}: no import left it so; move it, and import the CSV file again\n");
        for words in [["import", "parish.csv", "parish"], ["ask", "parish", QUESTION]] {
            let said = at_once(&room, &words).failed(1);
            assert!(said.starts_with("searchroom: ") && said.ends_with(&message), "{words:?}: {said}");
        }
        let after = ["catalogue.bin", "columns.csv"].map(|file| fs::read(room.path("parish").join(file)).unwrap());
        assert_eq!(after, own, "{named} {why}");
        for (file, bytes) in files {
            assert_eq!(fs::read(room.path("parish").join(file)).unwrap(), *bytes, "{named} {why}");
            fs::remove_file(room.path("parish").join(file)).unwrap();
        }
    }
    room.set("parish/catalogue.bin.next", "my notes");
    let said = at_once(&room, &["import", "parish.csv", "parish"]).failed(1);
    assert!(said.contains("catalogue.bin.next is where a file is to be written, and holds something else"), "{said}");
}

/// A catalogue that no import made stays, whatever an import that was cut off has left beside it.
#[test]
fn catalogue_that_no_import_made() {
    let room = parish();
    let [catalogue, names] =
        ["catalogue.bin", "columns.csv"].map(|file| fs::read(room.path("parish").join(file)).unwrap());
    let lefts: [Files; 4] = [
        &[],
        &[("columns.csv.new", b"")],
        &[("columns.csv.new", &names), ("catalogue.bin.new", &catalogue)],
        &[("catalogue.bin.new", &catalogue)],
    ];
    for left in lefts {
        room.set("mine/catalogue.bin", [&catalogue[..], &[87, 0, 1, 1]].concat());
        left.iter().for_each(|(file, bytes)| room.set(&format!("mine/{file}"), bytes));
        assert!(
            at_once(&room, &["ask", "mine", "c0 blank"]).done().starts_with("1 of 3 entries found (1 is withdrawn)\n")
        );
        let said = at_once(&room, &["import", "parish.csv", "mine"]).failed(1);
        assert!(said.contains("mine/catalogue.bin has no columns.csv beside it: no import made it"), "{said}");
        assert_eq!(fs::read(room.path("mine/catalogue.bin")).unwrap().len(), catalogue.len() + 4);
        fs::remove_dir_all(room.path("mine")).unwrap();
    }
}

/// Nor does an import that was made and cut off replace a file that no import made, when the next one finishes it.
#[test]
fn own_files_after_a_cut() {
    let room = parish();
    let [catalogue, names] =
        ["catalogue.bin", "columns.csv"].map(|file| fs::read(room.path("parish").join(file)).unwrap());
    let cases: [(Files, &str); 2] = [
        (&[("catalogue.bin", &catalogue)], "mine/catalogue.bin has no columns.csv beside it: no import made it"),
        (&[("columns.csv", TABLE.as_bytes())], "mine/columns.csv is not of the form that an import writes"),
    ];
    for (mine, message) in cases {
        for (file, bytes) in mine.iter().chain(&[(NEXT, &names[..]), (KEPT, &catalogue)]) {
            room.set(&format!("mine/{file}"), bytes);
        }
        let before = files(&room, "mine");
        let said = at_once(&room, &["import", "parish.csv", "mine"]).failed(1);
        assert!(said.contains(message), "{said}");
        assert_eq!(files(&room, "mine"), before);
        assert!(
            mine.iter().all(|(file, bytes)| fs::read(room.path("mine").join(file)).unwrap() == *bytes),
            "{message}"
        );
        fs::remove_dir_all(room.path("mine")).unwrap();
    }
}

/// An import is killed at each of its calls of the system, from the first file on, in a folder with an earlier import,
/// in a new one, and in one where an import was cut off before: whoever asks gets what was there or what is new, and
/// the next import is done.
#[test]
fn import_killed_at_each_step() {
    let room = Room::new();
    for (file, table) in [("a", EARLIER), ("b", LATER), ("c", "second,first\n2,1\n2,1\n2,1\n")] {
        room.set(&format!("{file}.csv"), table);
        room.run(&["import", &format!("{file}.csv"), file]).done();
    }
    let there_is_none =
        "searchroom: there is no deeds/catalogue.bin: make it with `searchroom import FILE.csv deeds`\n";
    let cut_off = "cp c/columns.csv deeds/columns.csv.next; cp c/catalogue.bin deeds/catalogue.bin.next";
    let cases = [
        ("rm -rf deeds; cp -r a deeds".to_owned(), "1 of 1 entry found\n"),
        ("rm -rf deeds".to_owned(), there_is_none),
        (format!("rm -rf deeds; cp -r a deeds; {cut_off}"), "3 of 3 entries found\n"),
    ];
    let ask = format!("\"$DESK\" ask deeds '{}' 2>&1 | grep -v 'was cut off' | head -n 1", BY_NAME[2]);
    let last = format!("{ask}; \"$DESK\" import a.csv deeds > /dev/null; {ask}; ls deeds");
    for (first, before) in cases {
        let steps = Steps { first: &first, at_the_stop: "", last: &last };
        let runs = steps.run(&room, "deeds", &["import", "b.csv", "deeds"]);
        let told = |start: &str| runs.iter().filter(|(_, said)| said.starts_with(start)).count();
        let (before, after) = (told(before), told("2 of 2 entries found\n"));
        assert!(
            before > 1 && after > 0 && before + after == runs.len() && runs.len() > 5,
            "{first}: {before}, {after}, {runs:?}"
        );
        for (step, (_, said)) in runs.iter().enumerate() {
            let is_done = said.ends_with("\n1 of 1 entry found\ncatalogue.bin\ncolumns.csv\n");
            assert!(is_done, "{first}, step {step}: {said}");
        }
    }
}

/// A catalogue that can no longer be replaced when the import is made: that is told, and nothing of the import is lost.
#[test]
fn catalogue_that_cannot_be_replaced() {
    let room = Room::new();
    for (file, table) in [("a", EARLIER), ("b", LATER)] {
        room.set(&format!("{file}.csv"), table);
    }
    let first = "rm -rf deeds; \"$DESK\" import a.csv deeds";
    let at_the_stop = "cd deeds && [ -e columns.csv.next ] && rm catalogue.bin && mkdir catalogue.bin";
    let last = format!("rmdir deeds/catalogue.bin; \"$DESK\" ask deeds '{}' 2> /dev/null", BY_NAME[2]);
    let steps = Steps { first, at_the_stop, last: &last };
    let runs = steps.run(&room, "deeds", &["import", "b.csv", "deeds"]);
    let failed: Vec<_> = runs.iter().filter(|(said, _)| said.contains("cannot replace ")).collect();
    assert!(!failed.is_empty(), "{runs:?}");
    assert!(failed.iter().all(|(_, said)| said.starts_with("2 of 2 entries found\n")), "{failed:?}");
}

/// Imports that are cut off at any moment, in an old folder or a new one: whoever asks gets the one catalogue or the
/// other with its own names, or is told to import, and the next import is done.
#[test]
fn imports_cut_off_at_any_moment() {
    let room = Room::new();
    let fill: String = (0..2_000).map(|line| format!("3,3,a text of line {line}\n")).collect();
    room.set("a.csv", format!("first,second,text\n1,2,\n{fill}"));
    room.set("b.csv", format!("second,first,text\n2,1,\n{fill}"));
    let since = Instant::now();
    room.run(&["import", "a.csv", "deeds"]).done();
    let (whole, mut rng) = (since.elapsed(), Rng::new(29));
    for turn in 0..60 {
        if turn % 8 == 7 {
            fs::remove_dir_all(room.path("deeds")).unwrap();
        }
        let importing = started(&room, &["import", ["b.csv", "a.csv"][turn % 2], "deeds"]);
        thread::sleep(whole.mul_f64(rng.between(0, 1_000) as f64 / 1_000.0));
        signal(&importing, *rng.pick(&SIGNALS));
        importing.wait_with_output().unwrap();
        let is_there = room.path("deeds/catalogue.bin").exists();
        let (said, _) = heard(&room, &BY_NAME);
        match is_there {
            true => assert!(said.done().starts_with("1 of 2001 entries found\n"), "turn {turn}"),
            false => assert!(said.failed(1).contains("searchroom import FILE.csv"), "turn {turn}"),
        }
        if !is_there || turn % 3 == 0 {
            at_once(&room, &["import", "a.csv", "deeds"]).done();
            assert!(at_once(&room, &BY_NAME).done().starts_with("1 of 2001 entries found\n"), "turn {turn}");
            assert_eq!(files(&room, "deeds"), ["catalogue.bin", "columns.csv"], "turn {turn}");
        }
    }
}
