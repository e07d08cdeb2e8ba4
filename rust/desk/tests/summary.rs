//! `searchroom import` of a file with many faults: what they have in common stands first, a line for a column and kind.

mod desk {
    pub mod room;
}

use desk::room::Room;

/// What an import of this table says; it has faults.
fn said(table: &str) -> Vec<String> {
    let room = Room::new();
    room.set("bonds.csv", table);
    let said = room.run(&["import", "bonds.csv", "bonds"]).failed(1);
    assert!(!room.path("bonds").exists(), "{said}");
    said.lines().map(str::to_owned).collect()
}

/// A line with a value that is no number.
fn no_number(line: usize) -> String {
    format!(
        "bonds.csv, line {line}, column 1 (a), \"x\": not a number; write digits alone, no leading zero, at most 4,294,967,294"
    )
}

fn last(faults: usize) -> String {
    format!("searchroom: {faults} faults in bonds.csv: nothing was written")
}

/// So many faults of one kind, in lines 2, 3 and so on.
fn alike(faults: usize) -> String {
    format!("a:number\n{}", "x\n".repeat(faults))
}

fn summed_up(faults: usize) -> String {
    format!(
        "bonds.csv, column 1 (a): {faults} values that are not digits alone, first in line 2; \
         write numbers, or :text in place of :number"
    )
}

#[test]
fn five_faults_have_no_summary_and_six_have() {
    let lines = |faults: usize| (2..faults + 2).map(no_number);
    assert_eq!(said(&alike(5)), lines(5).chain([last(5)]).collect::<Vec<_>>());
    assert_eq!(said(&alike(6)), [summed_up(6)].into_iter().chain(lines(6)).chain([last(6)]).collect::<Vec<_>>());
}

#[test]
fn twenty_faults_are_told_one_by_one() {
    let head = |faults: usize| [summed_up(faults)].into_iter().chain((2..22).map(no_number));
    assert_eq!(said(&alike(20)), head(20).chain([last(20)]).collect::<Vec<_>>());
    for (faults, more) in [(21, "and 1 more"), (323, "and 303 more")] {
        assert_eq!(said(&alike(faults)), head(faults).chain([more.to_owned(), last(faults)]).collect::<Vec<_>>());
    }
    // The entry too many is one more fault, the only one of its kind, and those from it on are not judged.
    let lines = said(&alike(200_000));
    assert!(lines[0].starts_with("bonds.csv, line 2050: 200,000 entries; at most 2,048 fit"), "{lines:?}");
    let expected = head(2_048).chain(["and 2028 more".to_owned(), last(2_049)]);
    assert_eq!(lines[1..], expected.collect::<Vec<_>>());
}

/// What the summary asks for is taken.
#[test]
fn mended_file() {
    let room = Room::new();
    for table in [alike(6).replace('x', "1"), alike(6).replace("number", "text")] {
        room.set("bonds.csv", table);
        assert!(room.run(&["import", "bonds.csv", "bonds"]).done().starts_with("6 entries in 1 column: "));
    }
}

/// The list of an office: a line for each column and kind, whatever the order in which they were found.
#[test]
fn faults_are_summed_up_by_column() {
    let title = |line: usize| if line.is_multiple_of(2) { "T".repeat(20 + line) } else { "Łódź".to_owned() };
    let mut table = "Title,Year:number,Withdrawn\n".to_owned();
    for line in 2..32 {
        let year = ["c.1650", "01650", "16501650165"][line % 3];
        let withdrawn = ["yes", "Y", "x"][line % 3];
        table += &format!("{},{year},{withdrawn}\n", title(line));
    }
    table += "\na,1\n\nb,2\n";
    let lines = said(&table);
    let expected = [
        "bonds.csv: 2 empty lines, first line 32; remove them",
        "bonds.csv: 2 lines have another number of values than the first, first line 33; \
         an empty value keeps its separator, and one that holds the separator stands in quotes",
        "bonds.csv, column 1 (Title): 15 values with letters outside ISO 8859-1, the first Ł (U+0141) in line 3; \
         use other letters",
        "bonds.csv, column 1 (Title): 14 values over 23 letters, the longest 50, first in line 4; shorten them",
        "bonds.csv, column 2 (Year): 10 values over 4,294,967,294, first in line 2; \
         write numbers, or :text in place of :number",
        "bonds.csv, column 2 (Year): 10 values that are not digits alone, first in line 3; \
         write numbers, or :text in place of :number",
        "bonds.csv, column 2 (Year): 10 values with a leading zero, first in line 4; \
         write numbers, or :text in place of :number",
        "bonds.csv, column 3 (Withdrawn): 10 values in another word than before, first in line 3; use one word for each",
        "bonds.csv, column 3 (Withdrawn): 10 values that are neither yes nor no, first in line 4; \
         write yes, true, 1 or x if it is withdrawn, else no, false, 0 or nothing",
    ];
    assert_eq!(lines[..9], expected);
    assert!(lines[9].starts_with("bonds.csv, line 2, column 2 (Year), \"16501650165\": "), "{lines:?}");
    assert_eq!(lines[29..], ["and 63 more".to_owned(), last(83)]);
}

/// Each other kind, with the first line of what is said.
#[test]
fn every_kind_is_summed_up() {
    let six = |line: &str| line.repeat(6);
    for (table, first) in [
        (
            format!("a,b\n1,2\n{}", six("1,\"x\"y\n")),
            "6 lines have a quote that is not closed, or letters after a closing one, first line 3; a value in quotes begins and ends with one, and a quote inside is doubled",
        ),
        (format!("a\n1\n{}", six("\n")), "6 empty lines, first line 3; write \"\" for a blank value, or remove them"),
        (
            (1..23).map(|column| format!("n{column}")).collect::<Vec<_>>().join(","),
            "6 columns over the 16 that fit beside the mark, first column 17; remove them",
        ),
    ] {
        assert_eq!(said(&table)[0], format!("bonds.csv: {first}"), "{table}");
    }
    let room = Room::new();
    room.set("bonds.csv", [&b"a,b\n1,2\n"[..], &b"1,Andr\xE9\n".repeat(6)].concat());
    let lines = room.run(&["import", "bonds.csv", "bonds"]).failed(1);
    let first =
        "bonds.csv, column 2 (b): 6 values that are not UTF-8, first in line 3; save the file as \"CSV UTF-8\"\n";
    assert!(lines.starts_with(first), "{lines}");
}

/// Names are of as many kinds as there are reasons against one, each with its own advice.
#[test]
fn every_kind_of_names_is_summed_up() {
    let names = |name: &dyn Fn(usize) -> String| format!("ok,{}\n", (1..7).map(name).collect::<Vec<_>>().join(","));
    let spaces = " ".repeat(1_000);
    for (table, first) in [
        (
            names(&|at| format!("n{at}\u{200B}")),
            "names with letters that nobody sees, the first U+200B in column 2; remove these letters",
        ),
        (
            names(&|_| String::new()),
            "columns without a name, first column 2; write names into the first line, or remove the columns",
        ),
        (
            names(&|_| "OK".to_owned()),
            "names that an earlier column has too, first in column 2; give each column one of its own",
        ),
        (names(&|at| "é".repeat(200 + at)), "names over 200 letters, first in column 2; shorten them"),
        (
            names(&|at| format!("n{at}{spaces}")),
            "names over 1,000 letters with their spaces, first in column 2; remove spaces",
        ),
        (
            names(&|at| format!("c{}", at + 1)),
            "names that are columns of other numbers in a question, first in column 2; give them other names",
        ),
    ] {
        assert_eq!(said(&table)[0], format!("bonds.csv: 6 {first}"), "{table}");
    }
}

/// A list in another encoding has accents in the names too: the cause is told, not that the names do not fit.
#[test]
fn names_that_are_not_utf_8() {
    let room = Room::new();
    room.set("bonds.csv", b"\xE91,\xE92,\xE93,\xE94,\xE95,\xE96,b,B\n1,2,3,4,5,6,7,8\n");
    let said = room.run(&["import", "bonds.csv", "bonds"]).failed(1);
    let first = "bonds.csv: 6 names that are not UTF-8, first in column 1; save the file as \"CSV UTF-8\"\n";
    assert!(said.starts_with(first), "{said}");
    let other = "bonds.csv, line 1, column 8, \"B\": column 7 has that name too; each column needs its own\n";
    assert_eq!(said.matches(other).count(), 1, "{said}");
}

/// The only fault of its kind is told once: among the first, or else in the summary.
#[test]
fn only_fault_of_a_kind_is_told_once() {
    let table = |at: usize| {
        let line = |line: usize| if line == at { "x,é\u{100}\n" } else { "x,é\n" };
        format!("a:number,b\n{}", (2..27).map(line).collect::<String>())
    };
    let alone = |line: usize| {
        format!("bonds.csv, line {line}, column 2 (b), \"éĀ\": not in ISO 8859-1: Ā (U+0100); use other letters")
    };
    for (at, place) in [(2, 2), (10, 10), (26, 1)] {
        let lines = said(&table(at));
        assert_eq!(lines[0], summed_up(25), "{at}");
        assert_eq!(lines.iter().filter(|line| **line == alone(at)).count(), 1, "{at}: {lines:?}");
        assert_eq!(lines[place], alone(at), "{at}: {lines:?}");
        let more = if at == 26 { "and 5 more" } else { "and 6 more" };
        assert_eq!(lines[lines.len() - 2..], [more.to_owned(), last(26)], "{at}");
    }
}

/// However many columns a file has, what is said of it fits some pages.
#[test]
fn columns_beyond_all_measure() {
    let names: Vec<String> = (0..3_000).map(|column| format!("n{column}")).collect();
    let values = vec!["Ashby-de-la-Zouch Saint Helen"; 3_000].join(",");
    let lines = said(&format!("{}\n{values}\n{values}\n", names.join(",")));
    assert_eq!(lines[0], "bonds.csv: 2984 columns over the 16 that fit beside the mark, first column 17; remove them");
    assert!(lines[1].starts_with("bonds.csv, column 1 (n0): 2 values over 23 letters, "), "{}", lines[1]);
    // Of each line as many values are judged as fit with the mark.
    assert_eq!(lines.last(), Some(&last(2_984 + 2 * 17)));
    assert!(lines.len() <= 122, "{} lines", lines.len());
}

/// A line of very many names ends as soon as any other, and so does one that names the mark as often.
#[test]
fn names_without_number() {
    let names: Vec<String> = (0..200_000).map(|column| format!("{column:x}")).collect();
    let lines = said(&names.join(","));
    assert!(lines[1].starts_with("bonds.csv: 199984 columns over the 16 that fit beside the mark, "), "{}", lines[1]);
    assert_eq!(lines.last(), Some(&last(199_984)));
    let lines = said(&format!("a,{}", vec!["withdrawn"; 200_000].join(",")));
    let taken = "199999 names that an earlier column has too, first in column 3; give each column one of its own";
    assert_eq!(lines[0], format!("bonds.csv: {taken}"));
    assert!(lines[1].ends_with(": column 2 has that name too; each column needs its own"), "{}", lines[1]);
    // The mark may stand behind columns that do not fit.
    let lines = said(&format!("{},withdrawn,Withdrawn", names[..40].join(",")));
    let twice = "bonds.csv, line 1, column 42, \"Withdrawn\": column 41 has that name too; each column needs its own";
    assert!(lines.iter().any(|line| line == twice), "{lines:?}");
    assert_eq!(lines.last(), Some(&last(25)));
}

/// A file that is no list has no name for its column that fits a line.
#[test]
fn longest_name_in_a_fault() {
    let lines = said(&format!("{}:number\nx\n", "é".repeat(5_000)));
    let name = "é".repeat(60);
    assert!(lines[1].starts_with(&format!("bonds.csv, line 2, column 1 ({name}…), \"x\": ")), "{lines:?}");
}
