//! `searchroom ask --tally`: the file that keeps each reader's looks from run to run.

mod desk {
    pub mod asked;
    pub mod held;
    pub mod numbers;
    pub mod parish;
    pub mod room;
    pub mod started;
}

use std::fs;
use std::os::unix::fs::{PermissionsExt, symlink};
use std::time::{Duration, Instant};

use desk::asked::Asked;
use desk::held::held;
use desk::numbers::{LOOKS, ask, numbers};
use desk::parish::{QUESTION, parish};
use desk::room::Room;
use desk::started::{ended, started};
use generator::Rng;
use searchroom::{Refusal, Tally};

/// All zeros but for this reader.
fn only(reader: usize, number: u64) -> [u64; 16] {
    std::array::from_fn(|other| if other == reader { number } else { 0 })
}

/// The run must be refused with this number, and leave the tally with these bytes, or none.
fn expect_refused(room: &Room, words: &[&str], number: u8, kept: Option<&[u8]>) {
    let said = room.run(words).failed(1);
    let text = Refusal::from_number(number).expect("a refusal").text();
    assert!(said.starts_with(&format!("searchroom: refused {number}: {text}\n")), "{words:?}: {said}");
    assert_eq!(fs::read(room.path("tally.bin")).ok().as_deref(), kept, "{words:?}");
    assert!(!room.path("tally.bin.new").exists(), "{words:?}");
}

#[test]
fn each_reader_has_a_number() {
    for reader in 0..16 {
        let room = parish();
        let said = room.run(&ask("tally.bin", &reader.to_string())).done();
        assert!(said.ends_with(&format!("\ntally of reader {reader}: 6 (tally.bin is new)\n")), "{said}");
        assert_eq!(numbers(&room, "tally.bin"), only(reader, LOOKS));
        let said = room.run(&ask("tally.bin", &reader.to_string())).done();
        assert!(said.ends_with(&format!("\ntally of reader {reader}: 12\n")), "{said}");
        assert_eq!(numbers(&room, "tally.bin"), only(reader, 2 * LOOKS));
    }
}

/// Without a reader it is reader 0; without a tally no file is made.
#[test]
fn reader_0_and_no_tally() {
    let room = parish();
    room.run(&["ask", "parish", QUESTION, "--tally", "tally.bin"]).done();
    assert_eq!(numbers(&room, "tally.bin"), only(0, LOOKS));
    let names = || {
        let mut names: Vec<_> = fs::read_dir(room.path(".")).unwrap().map(|entry| entry.unwrap().file_name()).collect();
        names.sort();
        names
    };
    let before = names();
    room.run(&["ask", "parish", QUESTION, "--reader", "3"]).done();
    assert_eq!(names(), before);
    assert_eq!(numbers(&room, "tally.bin"), only(0, LOOKS));
}

/// Runs of several readers over several catalogues with one tally: each number is the sum of that reader's looks.
#[test]
fn sums_over_random_runs() {
    let mut rng = Rng::new(7);
    let (mut sums, keeper) = ([0_u64; 16], Room::new());
    let tally = keeper.path("tally.bin");
    let tally = tally.to_str().expect("a path in UTF-8");
    for run in 0..60 {
        let asked = Asked::new(&mut rng, 30, 9);
        let reader = *rng.pick(&[0, 1, 7, 14, 15]);
        sums[reader] += asked.found().look_count() as u64;
        let (order, name) = (asked.order_word(), reader.to_string());
        let words = ["ask", "deeds", &asked.strict(), "--order", &order, "--reader", &name, "--tally", tally];
        let as_json = run % 2 == 0;
        let said = asked.room().run(&[&words[..], if as_json { &["--json"] } else { &[] }].concat()).done();
        let sum = sums[reader];
        let (is_new, new) = (run == 0, if run == 0 { format!(" ({tally} is new)") } else { String::new() });
        let told = match as_json {
            true => format!(",\"tally\":{sum},\"tally_is_new\":{is_new}}}\n"),
            false => format!("tally of reader {reader}: {sum}{new}\n"),
        };
        assert!(said.contains(&told), "run {run}: {told} in {said}\n{asked:?}");
        assert_eq!(numbers(&keeper, "tally.bin"), sums, "run {run}: {asked:?}");
    }
}

/// The bytes of the other readers stay as they are.
#[test]
fn other_numbers_stay() {
    let room = parish();
    let before: [u64; 16] = std::array::from_fn(|reader| 0x0102_0304_0506_0708 * (reader as u64 + 1));
    room.set("tally.bin", Tally::from_numbers(before).bytes());
    room.run(&ask("tally.bin", "9")).done();
    let expected = std::array::from_fn(|reader| before[reader] + if reader == 9 { LOOKS } else { 0 });
    assert_eq!(numbers(&room, "tally.bin"), expected);
}

#[test]
fn full_numbers() {
    let room = parish();
    for (before, sum) in [(u64::MAX - LOOKS, Some(u64::MAX)), (u64::MAX - LOOKS + 1, None), (u64::MAX, None)] {
        let bytes = Tally::from_numbers([before; 16]);
        room.set("tally.bin", bytes.bytes());
        match sum {
            Some(sum) => {
                let said = room.run(&ask("tally.bin", "2")).done();
                assert!(said.ends_with(&format!("tally of reader 2: {sum}\n")), "{said}");
                assert_eq!(numbers(&room, "tally.bin")[2], sum);
            }
            None => expect_refused(&room, &ask("tally.bin", "2"), 17, Some(bytes.bytes())),
        }
    }
}

#[test]
fn tallies_of_wrong_length() {
    let room = parish();
    for length in [0, 1, 8, 127, 129, 256] {
        let bytes = vec![7; length];
        room.set("tally.bin", &bytes);
        expect_refused(&room, &ask("tally.bin", "2"), 17, Some(&bytes));
    }
}

/// Whatever a run is refused for, it makes no tally and leaves one that is there.
#[test]
fn refused_runs_leave_the_tally() {
    let room = parish();
    let sound = [5; 128];
    let refusals: [(&[&str], u8); 6] = [
        (&["ask", "parish", "year", "--tally", "tally.bin"], 21),
        (&["ask", "parish", "year has \"a\"", "--tally", "tally.bin"], 11),
        (&["ask", "parish", "any(year blank,c0 blank)", "--tally", "tally.bin"], 13),
        (&["ask", "parish", QUESTION, "--tally", "tally.bin", "--order", "0,1"], 15),
        (&["ask", "parish", QUESTION, "--tally", "tally.bin", "--reader", "16"], 24),
        (&["ask", "parish", QUESTION, "--tally", "tally.bin", "--reader", "16", "--copy", "copy.bin"], 24),
    ];
    for (words, number) in refusals {
        expect_refused(&room, words, number, None);
    }
    room.set("tally.bin", sound);
    for (words, number) in refusals {
        expect_refused(&room, words, number, Some(&sound));
    }
    assert!(!room.path("copy.bin").exists() && !room.path("copy.bin.new").exists());
}

/// A tally that another run holds is waited for, and then it is told; nothing is altered.
#[test]
fn tally_that_is_held() {
    let room = parish();
    room.set("tally.bin", [0; 128]);
    let _held = held(&room.path("tally.bin.new"));
    let since = Instant::now();
    let said = room.run(&ask("tally.bin", "0")).failed(1);
    let waited = since.elapsed();
    assert!(said.starts_with("searchroom: another run holds ") && said.contains("tally.bin.new"), "{said}");
    assert!(said.ends_with(": try again when it has ended\n"), "{said}");
    assert!(waited > Duration::from_secs(4) && waited < Duration::from_secs(30), "waited {waited:?}");
    assert_eq!(numbers(&room, "tally.bin"), [0; 16]);
    assert!(room.path("tally.bin.new").exists(), "it is the other run's");
}

/// A run that waits goes on as soon as the other is done.
#[test]
fn waiting_run_goes_on() {
    let room = parish();
    let other = held(&room.path("tally.bin.new"));
    let waiting = started(&room, &ask("tally.bin", "4"));
    std::thread::sleep(Duration::from_millis(700));
    assert!(!room.path("tally.bin").exists(), "the run did not wait");
    room.set("tally.bin.new", Tally::from_numbers([LOOKS; 16]).bytes());
    fs::rename(room.path("tally.bin.new"), room.path("tally.bin")).unwrap();
    drop(other);
    ended(waiting).done();
    assert_eq!(numbers(&room, "tally.bin")[4], 2 * LOOKS, "what the other run wrote is added to");
}

/// Twenty runs at the same time leave the sum of twenty.
#[test]
fn runs_at_the_same_time() {
    let room = parish();
    let readers: Vec<String> = (0..20).map(|run| (run % 3).to_string()).collect();
    let running: Vec<_> = readers.iter().map(|reader| started(&room, &ask("tally.bin", reader))).collect();
    for run in running {
        ended(run).done();
    }
    let expected = std::array::from_fn(|reader| [7, 7, 6].get(reader).map_or(0, |runs| runs * LOOKS));
    assert_eq!(numbers(&room, "tally.bin"), expected);
    assert!(!room.path("tally.bin.new").exists());
}

/// A link stays one, wherever it leads, and its file has the sum.
#[test]
fn symbolic_links() {
    let room = parish();
    room.set("kept/real.bin", [0; 128]);
    symlink("kept/real.bin", room.path("tally.bin")).unwrap();
    symlink("tally.bin", room.path("second.bin")).unwrap();
    room.run(&ask("tally.bin", "1")).done();
    room.run(&ask("second.bin", "1")).done();
    for link in ["tally.bin", "second.bin"] {
        assert!(fs::symlink_metadata(room.path(link)).unwrap().is_symlink(), "{link}");
    }
    assert!(fs::symlink_metadata(room.path("kept/real.bin")).unwrap().is_file());
    assert_eq!(numbers(&room, "kept/real.bin"), only(1, 2 * LOOKS));
}

/// A link that leads to no file yet stays one too: its file is made.
#[test]
fn symbolic_link_to_no_file() {
    let room = parish();
    symlink("real.bin", room.path("tally.bin")).unwrap();
    room.run(&ask("tally.bin", "1")).done();
    assert!(fs::symlink_metadata(room.path("tally.bin")).unwrap().is_symlink());
    assert_eq!(numbers(&room, "real.bin"), only(1, LOOKS));
}

#[test]
fn permissions_are_kept() {
    let room = parish();
    for mode in [0o600, 0o644, 0o660, 0o666] {
        room.set("tally.bin", [0; 128]);
        fs::set_permissions(room.path("tally.bin"), fs::Permissions::from_mode(mode)).unwrap();
        room.run(&ask("tally.bin", "0")).done();
        assert_eq!(fs::metadata(room.path("tally.bin")).unwrap().permissions().mode() & 0o777, mode);
        assert_eq!(numbers(&room, "tally.bin"), only(0, LOOKS));
    }
}

#[test]
fn what_is_no_file() {
    let room = parish();
    fs::create_dir(room.path("folder")).unwrap();
    for (tally, named) in [
        ("folder", "folder"),
        ("/dev/null", "/dev/null"),
        ("missing/tally.bin", "missing"),
        ("parish.csv/tally.bin", "parish.csv"),
    ] {
        let said = room.run(&ask(tally, "0")).failed(1);
        assert!(said.starts_with("searchroom: ") && said.contains(named), "{tally}: {said}");
        assert!(!said.contains("refused"), "{tally}: {said}");
    }
    assert!(!room.path("folder.new").exists() && !room.path("missing").exists());
    assert!(!fs::metadata("/dev/null").unwrap().is_file());
}
