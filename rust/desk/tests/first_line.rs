//! The first line of a table that is imported: names, sorts, the mark and its words.

mod desk {
    pub mod importing;
    pub mod room;
}

use desk::importing::{columns, columns_csv, expect_faults, faults, import, texts};
use desk::room::Room;
use evaluator::{BLANK_NUMBER, Catalogue, Column};

/// Each word for withdrawn with each word for not, and the words as columns.csv keeps them.
#[test]
fn words_of_the_mark() {
    for yes in ["yes", "YES", "Yes", "true", "True", "1", "x", "X"] {
        for no in ["no", "NO", "No", "false", "FALSE", "0", ""] {
            let (room, said, catalogue) = import(format!("a,Withdrawn\n1,{yes}\n2,{no}\n3,{no}\n4,{yes}\n"));
            let columns = vec![Column::Numbers(vec![1, 2, 3, 4])];
            assert_eq!(catalogue, Catalogue { entries: 4, columns, mark: Some(vec![true, false, false, true]) });
            assert_eq!(columns_csv(&room), format!("header,values\na,number\nWithdrawn,{yes}/{no}\n"));
            assert!(said.starts_with("4 entries, 2 of them withdrawn, in "), "{said}");
        }
    }
}

#[test]
fn no_other_words_for_the_mark() {
    for value in ["y", "n", "withdrawn", "2", "01", "xx", "yes ", " yes", "-", "✓", "ja"] {
        let place = format!("deeds.csv, line 3, column 2 (withdrawn), {value:?}");
        expect_faults(format!("a,withdrawn\n1,yes\n2,{value}\n3,no\n"), &[&place]);
    }
}

/// One word for each: another spelling is a fault that names the one used first.
#[test]
fn one_word_for_withdrawn_and_one_for_not() {
    for (first, other) in [("yes", "Yes"), ("yes", "x"), ("1", "true"), ("X", "x"), ("no", "No"), ("0", "false")] {
        let place = format!("deeds.csv, line 4, column 2 (withdrawn), {other:?}");
        let why = expect_faults(format!("a,withdrawn\n1,{first}\n2,{first}\n3,{other}\n4,{first}\n"), &[&place]);
        assert!(why[0].contains(&format!("{first:?}")), "{first} and {other}: {why:?}");
    }
    expect_faults("a,withdrawn\n1,no\n2,\n3,yes\n", &[r#"deeds.csv, line 3, column 2 (withdrawn), """#]);
    expect_faults("a,withdrawn\n1,\n2,no\n3,yes\n", &[r#"deeds.csv, line 3, column 2 (withdrawn), "no""#]);
}

#[test]
fn mark_in_any_place() {
    for table in ["withdrawn,a,b\nx,1,2\n,3,4\n", "a, WITHDRAWN ,b\n1,x,2\n3,,4\n", "a,b,withdrawn\n1,2,x\n3,4,\n"] {
        let (columns, mark) = columns(table);
        assert_eq!(columns, [Column::Numbers(vec![1, 3]), Column::Numbers(vec![2, 4])], "{table:?}");
        assert_eq!(mark, Some(vec![true, false]), "{table:?}");
    }
}

#[test]
fn withdrawn_with_a_sort_is_an_ordinary_column() {
    assert_eq!(columns("withdrawn:text\nyes\n"), (vec![texts(&["yes"])], None));
    assert_eq!(columns("withdrawn:number\n1\n"), (vec![Column::Numbers(vec![1])], None));
    assert_eq!(columns("withdrawn on\n1\n"), (vec![Column::Numbers(vec![1])], None));
}

#[test]
fn faulty_names() {
    for (table, line) in [
        ("a,,b\n1,2,3\n", "column 2"),
        ("a,  \n1,2\n", "column 2"),
        (":number,a\n1,2\n", "column 1"),
        ("a,b,a\n1,2,3\n", "column 3"),
        ("year,b,YEAR\n1,2,3\n", "column 3"),
        ("Éa,éA\n1,2\n", "column 2"),
        ("a, a \n1,2\n", "column 2"),
        ("a:number,a:text\n1,2\n", "column 2"),
        ("withdrawn,a,Withdrawn\nx,1,x\n", "column 3"),
        ("a,withdrawn,withdrawn:text\n1,x,x\n", "column 3"),
        ("c1,a\n1,2\n", "column 1"),
        ("a,C0\n1,2\n", "column 2"),
        ("a,c7\n1,2\n", "column 2"),
        ("a,withdrawn,c2\n1,x,3\n", "column 3"),
        ("a,c99999999999999999999\n1,2\n", "column 2"),
    ] {
        let lines = faults(table);
        assert_eq!(lines.len(), 1, "{table:?}: {lines:?}");
        assert!(lines[0].starts_with(&format!("deeds.csv, line 1, {line}")), "{table:?}: {lines:?}");
    }
    assert_eq!(faults("a,,a,c0\n1,2,3,4\n").len(), 3, "every faulty name is told");
}

#[test]
fn names_of_two_hundred_letters_and_one_more() {
    for letter in ["a", "é", "日"] {
        let table = |letters: usize| format!("{}:number ,b\n1,2\n", letter.repeat(letters));
        assert_eq!(columns(table(200)).0.len(), 2);
        let lines = faults(table(201));
        assert!(lines.len() == 1 && lines[0].starts_with("deeds.csv, line 1, column 1, "), "{lines:?}");
        assert!(lines[0].contains("200 letters"), "{lines:?}");
        assert_eq!(faults(table(70_000)).len(), 1);
    }
}

/// Behind the file's own mark it would be lost at an export.
#[test]
fn byte_order_mark_in_a_name() {
    for name in ["\u{FEFF}a", "\u{FEFF}", "\u{FEFF}withdrawn", "\u{FEFF}:number"] {
        let lines = faults(format!("\u{FEFF}{name},b\n1,2\n"));
        assert!(lines.len() == 1 && lines[0].starts_with("deeds.csv, line 1, column 1, "), "{name:?}: {lines:?}");
    }
}

#[test]
fn names_that_are_taken() {
    for table in
        ["c0,c1\n1,2\n", "a,C1\n1,2\n", "c0,withdrawn,c1\n1,,2\n", "c,c1x\n1,2\n", "c 0,cc1\n1,2\n", "all,in\n1,2\n"]
    {
        assert_eq!(columns(table).0, [Column::Numbers(vec![1]), Column::Numbers(vec![2])], "{table:?}");
    }
    let (room, _, _) = import(" year ,box:Number,\"a \"\"b\"\"\",date: of\n1,2,3,4\n");
    let expected = "header,values\n year ,number\nbox:Number,number\n\"a \"\"b\"\"\",number\ndate: of,number\n";
    assert_eq!(columns_csv(&room), expected);
}

/// The mark of the byte order is no letter of the first name.
#[test]
fn byte_order_mark_is_skipped() {
    for table in ["\u{FEFF}withdrawn,year\nx,1701\n", "\u{FEFF}\"withdrawn\",year\nx,1701\n"] {
        let (room, _, catalogue) = import(table);
        let columns = vec![Column::Numbers(vec![1_701])];
        assert_eq!(catalogue, Catalogue { entries: 1, columns, mark: Some(vec![true]) }, "{table:?}");
        assert!(columns_csv(&room).starts_with("header,values\nwithdrawn,x/"), "{table:?}");
    }
    let lines = faults("year\n\u{FEFF}\n");
    assert!(lines.len() == 1 && lines[0].starts_with("deeds.csv, line 2, column 1 (year), "), "{lines:?}");
}

#[test]
fn sixteen_columns_beside_the_mark_and_one_more() {
    let table = |columns: usize| {
        let names: Vec<String> = (0..columns).map(|column| format!("n{column}")).collect();
        let values: Vec<String> = (0..columns).map(|column| column.to_string()).collect();
        format!("{},withdrawn\n{},no\n", names.join(","), values.join(","))
    };
    let (columns, mark) = columns(table(16));
    assert_eq!(columns, (0..16).map(|column| Column::Numbers(vec![column])).collect::<Vec<_>>());
    assert_eq!(mark, Some(vec![false]));
    let lines = faults(table(17));
    assert!(lines.len() == 1 && lines[0].contains("17") && lines[0].contains("16"), "{lines:?}");
}

/// At least one column stands beside the mark, and a file has a first line.
#[test]
fn no_column_at_all() {
    assert_eq!(faults("withdrawn\nno\n").len(), 1);
    assert_eq!(faults("withdrawn\n").len(), 1);
    for nothing in ["", "\u{FEFF}", "\n\n\n"] {
        let lines = faults(nothing);
        assert!(lines.len() == 1 && lines[0].starts_with("deeds.csv"), "{nothing:?}: {lines:?}");
    }
}

#[test]
fn sorts_are_guessed_or_declared() {
    let (room, _, catalogue) = import("year,parish,shelf:text,box:number,empty\n1701,Ash,12,7,\n,ASHBY,,,\n");
    let numbers = |first| Column::Numbers(vec![first, BLANK_NUMBER]);
    let expected = vec![
        numbers(1_701),
        texts(&["Ash", "ASHBY"]),
        texts(&["12", ""]),
        numbers(7),
        Column::Numbers(vec![BLANK_NUMBER; 2]),
    ];
    assert_eq!(catalogue, Catalogue::unmarked(2, expected));
    let expected = "header,values\nyear,number\nparish,text\nshelf:text,text\nbox:number,number\nempty,number\n";
    assert_eq!(columns_csv(&room), expected);
}

/// The names in the messages are shown in the same way.
#[test]
fn names_in_messages() {
    let lines = faults("\"two\nlines\u{1B}:number\",b\nx,1\n");
    assert!(lines.len() == 1 && lines[0].starts_with("deeds.csv, line 3, column 1 (two"), "{lines:?}");
    assert!(!lines[0].contains(char::is_control), "{lines:?}");
}

/// Another sign may separate the values: told, whether the file is taken for one column or has faults.
#[test]
fn separator_is_forgotten() {
    let hint = |option| format!("the first line has 2 values if separated by {option}: try --separator {option}\n");
    for (table, option) in
        [("year;parish\n1701;Ash\n", "';'"), ("year\tparish\n1701\tAsh\n", "tab"), ("a|b\n", "'|'"), ("a;b\n", "';'")]
    {
        let (_, said, catalogue) = import(table);
        assert_eq!(catalogue.columns.len(), 1);
        assert!(said.ends_with(&hint(option)), "{said}");
    }
    let room = Room::new();
    for table in ["name;depositor\nAsh;\"Lowther, Sir James\"\n", "name;depositor\nAsh;Ashburnham of Ashburnham\n"] {
        room.set("deeds.csv", table);
        let said = room.run(&["import", "deeds.csv", "deeds"]).failed(1);
        assert!(said.starts_with(&format!("deeds.csv: {}", hint("';'"))), "{said}");
    }
    for table in ["a;b\n1\n2\n", "year,parish\n1701,a;b\n", "\"a;b\",c\n1;2,3\n", "\"a;b\"\n\"1;2\"\n"] {
        assert!(!import(table).1.contains("--separator"), "{table}");
    }
}

/// Whatever faults follow, the separator that parts the first line into more columns is named before them.
#[test]
fn separator_is_named_first() {
    let titles = "Ashby-de-la-Zouch Saint Helen;1701;a, b\n".repeat(30);
    for (table, option, values) in [
        (format!("title;year;note\n{titles}"), "';'", 3),
        (format!("\u{FEFF}title, short;year;note\n{titles}"), "';'", 3),
        (format!("title;year;note\nAshby;1701\n{titles}").replace(';', "\t"), "tab", 3),
        (format!("title;\"a;b\";note\n{titles}").replace(';', "|"), "'|'", 3),
        ("a;b|c|d\n1;2|3|Ashby-de-la-Zouch Saint Helen\n".to_owned(), "'|'", 3),
    ] {
        let room = Room::new();
        room.set("bonds.csv", &table);
        let said = room.run(&["import", "bonds.csv", "bonds"]).failed(1);
        let first = format!(
            "bonds.csv: the first line has {values} values if separated by {option}: try --separator {option}\n"
        );
        assert!(said.starts_with(&first), "{table}: {said}");
    }
    let room = Room::new();
    room.set("bonds.csv", "title,year\nAshby-de-la-Zouch Saint Helen,1701\n");
    let said = room.run(&["import", "--separator", ";", "bonds.csv", "bonds"]).failed(1);
    assert!(said.starts_with("bonds.csv: the first line has 2 values if separated by ',': "), "{said}");
    let said = room.run(&["import", "bonds.csv", "bonds"]).failed(1);
    assert!(!said.contains("--separator"), "{said}");
}

/// One column whose name and values hold a comma, in quotes, is just that.
#[test]
fn one_column_with_a_sign_in_its_name() {
    for (name, value) in [("surname, forename", "Smith, J"), ("surname; forename", "Smith; J"), ("either|or", "left")] {
        let (_, _, catalogue) = import(format!("\"{name}\"\n\"{value}\"\n"));
        assert_eq!(catalogue.columns, [texts(&[value])], "{name}");
    }
}

/// Capitals make no difference to what a name declares, nor do spaces around it.
#[test]
fn sorts_in_capitals() {
    let (room, _, catalogue) = import("Shelf:Text,box : NUMBER ,Withdrawn:TEXT\n12,,x\n");
    assert_eq!(
        catalogue,
        Catalogue::unmarked(1, vec![texts(&["12"]), Column::Numbers(vec![BLANK_NUMBER]), texts(&["x"])])
    );
    let said = room.run(&["ask", "deeds", "all(shelf is \"12\", Box blank, withdrawn is \"X\")"]).done();
    assert!(said.starts_with("1 of 1 entry found\n"), "{said}");
}
