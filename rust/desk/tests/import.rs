//! `searchroom import`: which values are taken, what stands in catalogue.bin, and what is said of each fault.

mod desk {
    pub mod importing;
    pub mod room;
}

use std::fs;

use desk::importing::{columns, columns_csv, expect_faults, faults, import, split_fault, texts, told, written};
use desk::room::{Room, Said};
use evaluator::{BLANK_NUMBER, Catalogue, Column};
use generator::Rng;

/// A table of one column of texts with these values, each in quotes.
fn one_column(name: &str, values: impl Iterator<Item = String>) -> String {
    let lines: String = values.map(|value| format!("\"{}\"\n", value.replace('"', "\"\""))).collect();
    format!("{name}\n{lines}")
}

/// One column of these values alone: of numbers, or of texts just as they stand.
#[test]
fn what_is_a_number_and_what_is_not() {
    for (value, number) in [("0", 0), ("7", 7), ("10", 10), ("1700", 1_700), ("4294967294", BLANK_NUMBER - 1)] {
        assert_eq!(columns(format!("a\n{value}\n")).0, [Column::Numbers(vec![number])], "{value:?}");
    }
    let others = [
        "00",
        "01",
        "007",
        "+1",
        "-1",
        "-0",
        " 1",
        "1 ",
        "1.0",
        "1e3",
        "1,5",
        "1_000",
        "0x1F",
        "4294967295",
        "4294967296",
        "18446744073709551616",
        "99999999999999999999999",
        "½",
        "²",
        "1\u{A0}",
        "one",
        " ",
        "1\n",
    ];
    for value in others {
        let table = one_column("a", [value.to_owned()].into_iter());
        assert_eq!(columns(&table).0, [texts(&[value])], "{value:?}");
        let told = value.replace('\u{A0}', "\\A0").replace('\n', "\\0A");
        let place = format!("deeds.csv, line 2, column 1 (a), \"{told}\"");
        expect_faults(table.replacen('a', "a:number", 1), &[&place]);
    }
}

#[test]
fn one_text_makes_all_of_a_column_texts() {
    let (_, _, catalogue) = import("a,b\n1,1\n2,\n03,3\n");
    assert_eq!(catalogue.columns, [texts(&["1", "2", "03"]), Column::Numbers(vec![1, BLANK_NUMBER, 3])]);
}

#[test]
fn twenty_three_letters_and_twenty_four() {
    for letter in ["a", "é", "\u{FF}", " ", "\""] {
        let table = |letters| one_column("parish", [letter.repeat(letters)].into_iter());
        assert_eq!(columns(table(23)).0, [texts(&[&letter.repeat(23)])]);
        let place = format!("deeds.csv, line 2, column 1 (parish), {:?}", letter.repeat(24));
        assert_eq!(expect_faults(table(24), &[&place]), ["24 letters; a text has at most 23, so shorten it"]);
    }
    let line = "a,b,parish\n".to_owned() + &"1,2,x\n".repeat(10) + "1,2,Ashby-de-la-Zouch Saint Helen\n";
    let expected = r#"deeds.csv, line 12, column 3 (parish), "Ashby-de-la-Zouch Saint Helen": 29 letters; a text has at most 23, so shorten it"#;
    assert_eq!(faults(line), [expected]);
}

#[test]
fn two_thousand_and_forty_eight_entries_and_one_more() {
    let table = |entries| one_column("a", (0..entries).map(|entry: usize| entry.to_string()));
    let (_, said, catalogue) = import(table(2_048));
    assert_eq!(catalogue, Catalogue::unmarked(2_048, vec![Column::Numbers((0..2_048).collect())]));
    assert!(said.starts_with("2048 entries"), "{said}");
    let lines = faults(table(2_049));
    assert!(lines.len() == 1 && lines[0].starts_with("deeds.csv, line 2050: 2,049 entries"), "{lines:?}");
    assert!(lines[0].contains("at most 2,048"), "{lines:?}");
    assert_eq!(faults(table(5_000)).len(), 1, "one fault, however many entries");
}

/// 65,535 bytes are the most that a field has; a column of 2,048 texts of 23 letters has 49,152.
#[test]
fn as_much_as_a_catalogue_can_hold() {
    let names: Vec<String> = (0..16).map(|column| format!("column {column}")).collect();
    let line = vec!["é".repeat(23); 16].join(",");
    let table = format!("{},withdrawn\n", names.join(",")) + &format!("{line},x\n").repeat(2_048);
    let (_, _, catalogue) = import(table);
    let column = Column::Texts(vec![vec![0xE9; 23]; 2_048]);
    assert_eq!(catalogue, Catalogue { entries: 2_048, columns: vec![column; 16], mark: Some(vec![true; 2_048]) });
}

#[test]
fn no_entries() {
    for table in ["year,parish:text,withdrawn\n", "year,parish:text,withdrawn"] {
        let (_, _, catalogue) = import(table);
        let columns = vec![Column::Numbers(vec![]), Column::Texts(vec![])];
        assert_eq!(catalogue, Catalogue { entries: 0, columns, mark: Some(vec![]) });
    }
}

/// Every fault is told, in the order of the lines, and by column in a line.
#[test]
fn all_faults_are_told() {
    let table = "year:number,parish,shelf,withdrawn\n\
                 1701,Ash,1,no\n\
                 about 1702,Ashby-de-la-Zouch Saint Helen,1,maybe\n\
                 1703,Ash,1\n\
                 1704,Ash,1,no,2\n\
                 \n\
                 1705,Ő,2,No\n\
                 1706,Ash,3,no\n\
                 01,Ash,3,no\n";
    let places = [
        r#"deeds.csv, line 3, column 1 (year), "about 1702""#,
        r#"deeds.csv, line 3, column 2 (parish), "Ashby-de-la-Zouch Saint Helen""#,
        r#"deeds.csv, line 3, column 4 (withdrawn), "maybe""#,
        "deeds.csv, line 4",
        "deeds.csv, line 5",
        "deeds.csv, line 6",
        r#"deeds.csv, line 7, column 2 (parish), "Ő""#,
        r#"deeds.csv, line 7, column 4 (withdrawn), "No""#,
        r#"deeds.csv, line 9, column 1 (year), "01""#,
    ];
    let why = expect_faults(table, &places);
    assert_eq!(why[1], "29 letters; a text has at most 23, so shorten it");
    assert_eq!(why[3], "3 values; the first line has 4; an empty value keeps its separator");
    assert_eq!(why[4], "5 values; the first line has 4; a value that holds the separator stands in quotes");
    let one = expect_faults("a,b,c\n1\n", &["deeds.csv, line 2"]);
    assert_eq!(one, ["1 value; the first line has 3; an empty value keeps its separator"]);
    assert!(why[7].contains("\"no\""), "the first spelling is named: {}", why[7]);
}

#[test]
fn faults_leave_an_earlier_import_as_it_is() {
    let (room, _, _) = import("year,withdrawn\n1701,x\n");
    let files = || ["catalogue.bin", "columns.csv"].map(|name| fs::read(room.path("deeds").join(name)).unwrap());
    let before = files();
    room.set("deeds.csv", "year:number\nx\n");
    told(&room, &room.run(&["import", "deeds.csv", "deeds"]).failed(1));
    assert_eq!(files(), before);
    let mut names: Vec<_> = fs::read_dir(room.path("deeds")).unwrap().map(|entry| entry.unwrap().file_name()).collect();
    names.sort();
    assert_eq!(names, ["catalogue.bin", "columns.csv"]);
    room.set("deeds.csv", "parish\nAsh\nASHBY\n");
    room.run(&["import", "deeds.csv", "deeds"]).done();
    assert_eq!(written(&room), Catalogue::unmarked(2, vec![texts(&["Ash", "ASHBY"])]));
    assert_eq!(columns_csv(&room), "header,values\nparish,text\n");
}

#[test]
fn lines_end_with_either_sign() {
    let expected = columns("year,parish\n1701,Ash\n,\"a\nb\"\n");
    for table in [
        "year,parish\r\n1701,Ash\r\n,\"a\nb\"\r\n",
        "year,parish\r\n1701,Ash\n,\"a\nb\"",
        "year,parish\n1701,Ash\r\n,\"a\nb\"\r\n",
    ] {
        assert_eq!(columns(table), expected, "{table:?}");
    }
    // Between quotes it is kept as it stands.
    assert_eq!(columns("parish\r\n\"a\r\nb\"\r\n").0, [texts(&["a\r\nb"])]);
}

#[test]
fn quoted_values() {
    let table = "\"year\",\"par,ish\"\n\"1701\",\"Ash, St. \"\"Mary\"\"\"\n1702,\"two\nlines\"\n,\"\"\n\"\",a\"b\n";
    let (room, _, catalogue) = import(table);
    let years = Column::Numbers(vec![1_701, 1_702, BLANK_NUMBER, BLANK_NUMBER]);
    let parishes = texts(&["Ash, St. \"Mary\"", "two\nlines", "", "a\"b"]);
    assert_eq!(catalogue, Catalogue::unmarked(4, vec![years, parishes]));
    assert_eq!(columns_csv(&room), "header,values\nyear,number\n\"par,ish\",text\n");
}

/// A fault after a value of several lines is told with the line on which its own entry begins.
#[test]
fn lines_are_counted_through_quotes() {
    for end in ["\n", "\r\n"] {
        let lines = ["year:number,parish", "1,\"one", "", "two\"", "x,Ash", "3", "\"y\",\"a", "b\"", "", "z,"];
        let places = [
            r#"deeds.csv, line 5, column 1 (year), "x""#,
            "deeds.csv, line 6",
            r#"deeds.csv, line 7, column 1 (year), "y""#,
            "deeds.csv, line 9",
            r#"deeds.csv, line 10, column 1 (year), "z""#,
        ];
        expect_faults(lines.join(end) + end, &places);
    }
}

#[test]
fn values_are_kept_as_they_stand() {
    let values = [" Ash", "Ash ", "  ", "\tAsh", "a  b", "Ash\u{A0}", "'", "\\", "=1+1", "\u{0}", "\u{7F}\u{80}\u{9F}"];
    let (_, _, catalogue) = import(one_column("a", values.iter().map(|value| (*value).to_owned())));
    assert_eq!(catalogue.columns, [texts(&values)]);
    assert_eq!(columns("a,b\n Ash , 1\n").0, [texts(&[" Ash "]), texts(&[" 1"])]);
}

/// A letter of ISO 8859-1 is the byte of its number.
#[test]
fn every_letter_of_iso_8859_1() {
    let letters: Vec<String> = ('\u{A0}'..='\u{FF}').map(String::from).collect();
    let (_, _, catalogue) = import(one_column("a", letters.iter().cloned()));
    assert_eq!(catalogue.columns, [Column::Texts((0xA0..=0xFF).map(|byte| vec![byte]).collect())]);
}

#[test]
fn letters_outside_iso_8859_1() {
    for value in ["Ő", "Łódź", "€", "\u{100}", "日", "e\u{301}", "😀", "’"] {
        let place = format!("deeds.csv, line 3, column 2 (parish), {value:?}");
        let lines = faults(format!("year,parish\n1,é\n2,{value}\n"));
        assert!(lines.len() == 1 && lines[0].contains("ISO 8859-1"), "{value}: {lines:?}");
        let (at, _) = split_fault(&lines[0]);
        // A letter that stands on another one may be shown escaped.
        assert!(at == place || value.contains('\u{301}'), "{value}: {at}");
    }
}

/// A value may be wrong in two ways.
#[test]
fn long_text_with_letters_outside_iso_8859_1() {
    let value = format!("Ł{}", "a".repeat(23));
    let place = format!("deeds.csv, line 2, column 1 (parish), {value:?}");
    let why = expect_faults(format!("parish\n{value}\n"), &[&place, &place]);
    assert!(why[0].starts_with("24 letters; ") && why[1].starts_with("not in ISO 8859-1: Ł (U+0141); "), "{why:?}");
    // Of more letters than a value shows no more are listed.
    for (letters, end) in
        [(60, "; use other letters"), (61, ", …; use other letters"), (5_000, ", …; use other letters")]
    {
        let lines = faults(format!("parish\n{}\n", "Ł".repeat(letters)));
        let listed = vec!["Ł (U+0141)"; 60].join(", ");
        assert!(lines[1].ends_with(&format!("not in ISO 8859-1: {listed}{end}")), "{letters}: {lines:?}");
    }
}

#[test]
fn not_utf_8() {
    for value in [&b"Andr\xE9"[..], b"\xC3", b"\xFF\xFE", b"\xED\xA0\x80"] {
        let table = [b"year,parish\n1701,Ash\n1702,", value, b"\n"].concat();
        let lines = faults(&table);
        assert!(lines.len() == 1 && lines[0].contains("line 3") && lines[0].contains("UTF-8"), "{value:?}: {lines:?}");
    }
    assert_eq!(faults(b"y\xE9ar\n1701\n").len(), 1);
}

#[test]
fn empty_lines() {
    for (table, lines) in [
        ("a,b\n\n1,2\n", &[2][..]),
        ("a,b\n1,2\n\n", &[3]),
        ("a,b\n1,2\n\n\n3,4\n", &[3, 4]),
        ("a,b\r\n\r\n1,2\r\n\r\n", &[2, 4]),
        ("a\n\n1\n", &[2]),
        ("a\n1\n\n", &[3]),
    ] {
        let places: Vec<String> = lines.iter().map(|line| format!("deeds.csv, line {line}")).collect();
        expect_faults(table, &places.iter().map(String::as_str).collect::<Vec<_>>());
    }
    assert_eq!(columns("a\n\"\"\n1\n\"\"\n").0, [Column::Numbers(vec![BLANK_NUMBER, 1, BLANK_NUMBER])]);
    assert_eq!(columns("a\n\"\"\n\"\"").0, [Column::Numbers(vec![BLANK_NUMBER; 2])]);
    assert_eq!(columns("a,b\n,\n").0, vec![Column::Numbers(vec![BLANK_NUMBER]); 2]);
    expect_faults("\na\n1\n", &["deeds.csv, line 1"]);
}

#[test]
fn other_separators() {
    for (separator, word) in [(";", ";"), ("\t", "tab"), ("|", "|"), (",", ",")] {
        let room = Room::new();
        room.set("deeds.csv", ["year", "parish\n1701", "\"a;b,c|d\te\"\n"].join(separator));
        room.run(&["import", "deeds.csv", "deeds", "--separator", word]).done();
        let expected = vec![Column::Numbers(vec![1_701]), texts(&["a;b,c|d\te"])];
        assert_eq!(written(&room), Catalogue::unmarked(1, expected), "{word}");
        assert_eq!(columns_csv(&room), "header,values\nyear,number\nparish,text\n", "{word}");
    }
}

#[test]
fn catalogue_that_no_import_wrote_is_kept() {
    let room = Room::new();
    let parish = include_bytes!("../../../examples/parish/catalogue.bin");
    room.set("deeds/catalogue.bin", parish);
    room.set("deeds.csv", "year\n1701\n");
    let said = room.run(&["import", "deeds.csv", "deeds"]).failed(1);
    assert!(said.starts_with("searchroom: ") && said.contains("deeds/catalogue.bin"), "{said}");
    assert_eq!(fs::read(room.path("deeds/catalogue.bin")).unwrap(), parish);
    assert!(!room.path("deeds/columns.csv").exists());
}

#[test]
fn folder_is_made_or_filled() {
    for folder in ["new", "new/in/new", "old"] {
        let room = Room::new();
        room.set("old/notes.txt", "mine");
        room.set("deeds.csv", "year\n1701\n");
        room.run(&["import", "deeds.csv", folder]).done();
        assert!(room.path(folder).join("catalogue.bin").exists(), "{folder}");
        assert_eq!(fs::read(room.path("old/notes.txt")).unwrap(), b"mine");
    }
}

#[test]
fn files_that_cannot_be_read_or_written() {
    let room = Room::new();
    room.set("deeds.csv", "year\n1701\n");
    room.set("file", "");
    fs::create_dir(room.path("folder")).unwrap();
    for (words, named) in [
        (["import", "missing.csv", "deeds"], "missing.csv"),
        (["import", "folder", "deeds"], "folder"),
        (["import", "deeds.csv", "file"], "file"),
    ] {
        let said = room.run(&words).failed(1);
        assert!(said.starts_with("searchroom: ") && said.contains(named), "{words:?}: {said}");
        assert!(!room.path("deeds").exists(), "{words:?}");
    }
    assert_eq!(fs::read(room.path("file")).unwrap(), b"");
}

/// What is printed of a table that was taken: the numbers, and each column with its blanks.
#[test]
fn what_was_imported_is_told() {
    let (_, said, _) = import("year,parish,withdrawn\n1701,Ash,x\n,,\n,Ash,\n");
    let lines: Vec<String> = said.lines().map(|line| line.split_whitespace().collect::<Vec<_>>().join(" ")).collect();
    let expected = [
        "3 entries, 1 of them withdrawn, in 2 columns: deeds/catalogue.bin",
        "c0 year numbers, 2 blank",
        "c1 parish texts, 1 blank",
        "1 entry has no value at all, in line 3",
    ];
    assert_eq!(lines, expected);
    let (_, said, _) = import("date of deed\n1701\n");
    assert!(said.contains("date of deed  numbers, 0 blank\n"), "{said}");
}

/// The columns of what is told stand below each other, whatever the names are.
#[test]
fn what_was_imported_is_told_in_columns() {
    let names: Vec<String> = (0..12).map(|column| "é".repeat(column + 1)).collect();
    let (_, said, _) = import(format!("{}\n{}\n", names.join(","), ["1"; 12].join(",")));
    let place = |line: &str, word: &str| line.split(word).next().map(|before| before.chars().count());
    let lines: Vec<&str> = said.lines().skip(1).collect();
    assert_eq!(lines.len(), 12, "{said}");
    for word in ["é", "numbers"] {
        assert!(lines.iter().all(|line| place(line, word) == place(lines[0], word)), "{said}");
    }
}

/// A column that is nearly one of numbers, and what makes it one of texts.
#[test]
fn nearly_a_column_of_numbers() {
    let note = |csv: &str| {
        import(csv).1.lines().nth(1).and_then(|line| line.split_once(" (")).map(|(_, note)| note.to_owned())
    };
    let a_number = "a number is digits alone, no leading zero, at most 4,294,967,294)";
    let told = Some(format!("line 3 has \"12a\"; {a_number}"));
    assert_eq!(note("shelf\n1\n0012\n2\n"), Some(format!("line 3 has \"0012\"; {a_number}")));
    assert_eq!(note("shelf\n1\n12a\n2\n"), told);
    assert_eq!(note("shelf\n1\n12a\n"), told, "half of the values are numbers");
    assert_eq!(note("shelf\n\"\"\n12a\n2\n"), told, "blanks do not count");
    assert_eq!(note("shelf\n1\n12a\nx\n"), None, "under half are numbers");
    assert_eq!(note("shelf\n1\n12a\n2\n12b\n3\n"), told, "the first is named");
    assert_eq!(note("shelf:text\n1\n12a\n2\n"), None, "it was declared");
    assert_eq!(note("shelf:text\n1\n2\n"), None, "it was declared");
    assert_eq!(note("shelf\n1\n2\n"), None, "all are numbers");
}

/// A value is shown without control characters, and not longer than sixty letters.
#[test]
fn values_in_messages() {
    let lines =
        faults(one_column("a:number", ["two\nlines", "\u{1B}[31m", "\u{9B}x", "a\tb"].map(str::to_owned).into_iter()));
    assert_eq!(lines.len(), 4, "{lines:?}");
    assert!(lines.iter().all(|line| !line.contains(char::is_control)), "{lines:?}");
    assert!(lines[0].contains("two") && lines[0].contains("lines"), "{lines:?}");
    for letter in ["a", "é", "日"] {
        let line = |letters: usize| faults(format!("a\n{}\n", letter.repeat(letters))).remove(0);
        assert!(line(60).contains(&format!("\"{}\"", letter.repeat(60))), "{}", line(60));
        assert!(line(61).contains(&format!("\"{}…\"", letter.repeat(60))), "{}", line(61));
        assert!(line(5_000).contains(&format!("\"{}…\"", letter.repeat(60))), "{}", line(5_000));
    }
}

/// Bytes of all kinds, in pieces that tables are made of.
fn any_table(rng: &mut Rng) -> Vec<u8> {
    const PIECES: [&[u8]; 19] = [
        b",",
        b",",
        b"\n",
        b"\n",
        b"\r\n",
        b"\r",
        b"\"",
        b"\"\"",
        b"a",
        b"1",
        b"007",
        b"\xC3\xA9",
        b"\xFF",
        b"withdrawn",
        b":number",
        b":text",
        b"x",
        b"c0",
        b" ",
    ];
    let most = *rng.pick(&[3, 8, 20]);
    let mut table: Vec<u8> = rng.pick::<&[u8]>(&[b"a,b\n", b"a\n", b"a,withdrawn\n", b"\xEF\xBB\xBF", b""]).to_vec();
    for _ in 0..rng.between(0, most) {
        table.extend_from_slice(rng.pick::<&[u8]>(&PIECES));
    }
    table
}

/// Whatever the bytes are, they make a catalogue that can be exported, or faults and nothing else.
#[test]
fn any_bytes_are_taken_or_told() {
    let mut taken = 0;
    for seed in 0..400 {
        let table = any_table(&mut Rng::new(seed));
        let shown = String::from_utf8_lossy(&table).into_owned();
        let room = Room::new();
        room.set("deeds.csv", &table);
        let output = room.command(&["import", "deeds.csv", "deeds"]).output().expect("the program runs");
        if output.status.code() == Some(0) {
            taken += 1;
            let catalogue = written(&room);
            let exported = room.run(&["export", "deeds"]).done();
            room.set("deeds.csv", &exported);
            room.run(&["import", "deeds.csv", "deeds"]).done();
            assert_eq!(written(&room), catalogue, "seed {seed}: {shown:?}, exported {exported:?}");
        } else {
            assert!(!told(&room, &Said::of(output).failed(1)).is_empty(), "seed {seed}: {shown:?}");
            assert!(!room.path("deeds").exists(), "seed {seed}: {shown:?}");
        }
    }
    assert!((80..320).contains(&taken), "{taken} of 400 were taken: the comparison shows little");
}

/// A quote that is not closed takes the rest of the file: it is told where it begins.
#[test]
fn quote_that_is_not_closed() {
    for table in ["a,b\n1,x\n2,\"y\n3,z\n", "a,b\n1,x\n2,\"", "a,b\n1,x\n2,\"y\"\"\n"] {
        let lines = faults(table);
        assert!(lines.len() == 1 && lines[0].starts_with("deeds.csv, line 3"), "{table:?}: {lines:?}");
    }
}

/// Letters behind a closing quote would be taken into the value by another reader: they are a fault, with the line.
#[test]
fn letters_behind_a_closing_quote() {
    for line in ["\"Ash\"ton", "\"a\" b", "\"\"q", "\"a\"b\"c\""] {
        expect_faults(format!("parish,b\nx,1\n{line},2\n"), &["deeds.csv, line 3"]);
    }
    assert_eq!(columns("parish\nAsh\"ton\nsay \"so\"\n").0, [texts(&["Ash\"ton", "say \"so\""])]);
}

/// A space around a value is told, because nobody sees it and a search does.
#[test]
fn spaces_around_a_value_are_told() {
    let (_, said, _) = import("year, parish\n1701,Ash\n1702, Ashby\n");
    assert!(
        said.ends_with("c1  parish  texts, 0 blank (line 3 has \" Ashby\", with a space before or after; a search takes it for a letter)\n"),
        "{said}"
    );
    let (_, said, _) = import("year,parish\n1701,Ash by\n");
    assert!(!said.contains('('), "{said}");
}

/// What may surprise in a file as a whole is told: lines without a value, and a first line that looks like an entry.
#[test]
fn remarks() {
    let (_, said, _) = import("year,parish\n1701,Ash\n,\n,\n");
    assert!(said.ends_with("\n2 entries have no value at all, the first in line 3\n"), "{said}");
    let (_, said, _) = import("1701,Ash\n1702,Ashby\n");
    assert!(said.ends_with("\n1701 is taken for a column's name: the first line names the columns\n"), "{said}");
    let (_, said, _) = import("year,withdrawn\n1701,no\n,no\n");
    assert_eq!(said, "2 entries, 0 of them withdrawn, in 1 column: deeds/catalogue.bin\nc0  year  numbers, 1 blank\n");
}
