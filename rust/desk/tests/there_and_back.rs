//! `searchroom export`: what was imported comes out as it stood, and an export imported again makes the same catalogue.

mod desk {
    pub mod csv;
    pub mod room;
}

use std::fs;

use desk::csv::read_csv;
use desk::room::Room;
use evaluator::{BLANK_NUMBER, Catalogue, Column};
use generator::{Rng, encode_catalogue, latin_1};

/// A table as a person has it: the first line and the values, each as it stands.
struct Table {
    records: Vec<Vec<String>>,
}

/// How a table is written.
#[derive(Debug)]
struct Style {
    separator: char,
    /// Of the values that need no quotes, how many in a hundred stand in quotes.
    quoted: usize,
    line_end: &'static str,
    has_order_mark: bool,
    has_last_end: bool,
}

const YES: [&str; 6] = ["yes", "TRUE", "1", "x", "X", "Yes"];
const NO: [&str; 6] = ["no", "False", "0", "", "NO", "false"];

fn style(rng: &mut Rng) -> Style {
    Style {
        separator: *rng.pick(&[',', ',', ';', '\t']),
        quoted: *rng.pick(&[0, 30, 100]),
        line_end: rng.pick::<&str>(&["\n", "\r\n"]),
        has_order_mark: rng.chance(30),
        has_last_end: rng.chance(70),
    }
}

/// A table of up to 16 columns, some with a mark between them.
fn table(rng: &mut Rng) -> Table {
    let columns = match rng.below(6) {
        0 => 1,
        1 => 16,
        _ => rng.between(1, 5),
    };
    let entries = if rng.chance(10) { 0 } else { rng.between(1, 12) };
    let mut lines: Vec<Vec<String>> = (0..columns).map(|number| column(rng, number, entries)).collect();
    if columns == 1 {
        // One name alone that holds a separator is taken for several.
        lines[0][0].retain(|letter| !",;\t".contains(letter));
    }
    if rng.chance(40) {
        let place = rng.between(0, columns);
        lines.insert(place, mark(rng, entries));
    }
    Table { records: (0..=entries).map(|line| lines.iter().map(|column| column[line].clone()).collect()).collect() }
}

/// A header cell and the values below it.
fn column(rng: &mut Rng, number: usize, entries: usize) -> Vec<String> {
    let forms =
        ["n#", "date of deed #", "É#", "a,b;c #", "say \"#\"", " padded # ", "two\nlines #", "#", "tab\t#", "x:#"];
    let name = rng.pick::<&str>(&forms).replace('#', &number.to_string());
    let is_number = rng.chance(40);
    let sort = match rng.below(3) {
        0 if is_number => ":number",
        1 => ":text",
        _ => "",
    };
    let value = |rng: &mut Rng| if is_number { number_value(rng) } else { text_value(rng) };
    let mut cells = vec![name + sort];
    cells.extend((0..entries).map(|_| if rng.chance(20) { String::new() } else { value(rng) }));
    cells
}

fn number_value(rng: &mut Rng) -> String {
    let number = *rng.pick(&[0, 7, 10, 1_701, BLANK_NUMBER - 2, BLANK_NUMBER - 1]);
    if rng.chance(50) { number.to_string() } else { (rng.next_u64() as u32 >> 3).to_string() }
}

/// Up to 23 letters, of such as need quotes or are easily lost.
fn text_value(rng: &mut Rng) -> String {
    const LETTERS: &str = "aZ09 ,;\"'\t\n\r\\/éÉÿ\u{A0}\u{AD}×=#:\u{1}\u{7F}\u{80}\u{FF}";
    let letters: Vec<char> = LETTERS.chars().collect();
    let length = *rng.pick(&[1, 2, 3, 5, 8, 22, 23]);
    match rng.below(4) {
        0 => rng
            .pick::<&str>(&["01", "1 ", " 1", "4294967295", "12a", "yes", "null", "\"\"", ",", "\n", "\r\n"])
            .to_string(),
        _ => (0..length).map(|_| *rng.pick(&letters)).collect(),
    }
}

fn mark(rng: &mut Rng, entries: usize) -> Vec<String> {
    let (yes, no) = (*rng.pick::<&str>(&YES), *rng.pick::<&str>(&NO));
    let mut cells = vec![rng.pick::<&str>(&["withdrawn", "Withdrawn", " WITHDRAWN "]).to_string()];
    cells.extend((0..entries).map(|_| if rng.chance(30) { yes } else { no }.to_owned()));
    cells
}

/// The table in this style.
fn written(rng: &mut Rng, table: &Table, style: &Style) -> String {
    let mut cell = |value: &String, alone: bool| {
        let needs = value.contains([style.separator, '"', '\n', '\r']) || alone && value.is_empty();
        if needs || rng.chance(style.quoted) { format!("\"{}\"", value.replace('"', "\"\"")) } else { value.clone() }
    };
    let mut line = |record: &Vec<String>| {
        let cells: Vec<String> = record.iter().map(|value| cell(value, record.len() == 1)).collect();
        cells.join(&style.separator.to_string())
    };
    let lines: Vec<String> = table.records.iter().map(&mut line).collect();
    let order_mark = if style.has_order_mark { "\u{FEFF}" } else { "" };
    order_mark.to_owned() + &lines.join(style.line_end) + if style.has_last_end { style.line_end } else { "" }
}

fn separator_word(separator: char) -> String {
    if separator == '\t' { "tab".to_owned() } else { separator.to_string() }
}

fn files(room: &Room, folder: &str) -> [Vec<u8>; 2] {
    ["catalogue.bin", "columns.csv"].map(|name| fs::read(room.path(folder).join(name)).expect("an import's file"))
}

/// Hundreds of tables in several styles: the values come out as they went in, and go in again.
#[test]
fn random_tables() {
    for seed in 0..300 {
        let mut rng = Rng::new(seed);
        let (table, style) = (table(&mut rng), style(&mut rng));
        let text = written(&mut rng, &table, &style);
        let room = Room::new();
        room.set("deeds.csv", &text);
        room.run(&["import", "deeds.csv", "deeds", "--separator", &separator_word(style.separator)]).done();
        let other = *rng.pick(&[',', ';', '\t']);
        let exported = room.run(&["export", "deeds", "--separator", &separator_word(other)]).done();
        assert_eq!(
            read_csv(&exported, other),
            table.records,
            "seed {seed}, {style:?}:\n{text:?}\nexported:\n{exported:?}"
        );
        room.set("again.csv", &exported);
        room.run(&["import", "again.csv", "again", "--separator", &separator_word(other)]).done();
        assert_eq!(files(&room, "again"), files(&room, "deeds"), "seed {seed}, {style:?}:\n{text:?}");
    }
}

/// An export is UTF-8 with plain line ends, no byte order mark, and quotes only where they are needed.
#[test]
fn export_as_it_is_written() {
    let room = Room::new();
    let table = "\u{FEFF}\"year\",Parish Name ,withdrawn\r\n\"1701\",\"Ash\",\"X\"\r\n,\"a,b\",\"\"\r\n\"\",\"say \"\"é\"\"\",X";
    room.set("deeds.csv", table);
    room.run(&["import", "deeds.csv", "deeds"]).done();
    let expected = "year,Parish Name ,withdrawn\n1701,Ash,X\n,\"a,b\",\n,\"say \"\"é\"\"\",X\n";
    assert_eq!(room.run(&["export", "deeds"]).done(), expected);
    let expected = "year;Parish Name ;withdrawn\n1701;Ash;X\n;a,b;\n;\"say \"\"é\"\"\";X\n";
    assert_eq!(room.run(&["export", "deeds", "--separator", ";"]).done(), expected);
    let expected = expected.replace(';', "\t");
    assert_eq!(room.run(&["export", "deeds", "--separator", "tab"]).done(), expected);
}

/// A blank in a table of one column is not an empty line.
#[test]
fn one_column_of_blanks() {
    let room = Room::new();
    room.set("deeds.csv", "a\n\"\"\n1\n\"\"\n");
    room.run(&["import", "deeds.csv", "deeds"]).done();
    assert_eq!(room.run(&["export", "deeds"]).done(), "a\n\"\"\n1\n\"\"\n");
}

/// A mark of one word alone, at all entries or at none, comes out as it went in.
#[test]
fn mark_of_one_word() {
    for word in YES.iter().chain(&NO) {
        let table = format!("a,withdrawn\n1,{word}\n2,{word}\n");
        let room = Room::new();
        room.set("deeds.csv", &table);
        room.run(&["import", "deeds.csv", "deeds"]).done();
        assert_eq!(room.run(&["export", "deeds"]).done(), table, "{word:?}");
    }
}

/// What a catalogue without names must come out as.
fn nameless(catalogue: &Catalogue) -> Vec<Vec<String>> {
    let cells = |(number, column): (usize, &Column)| match column {
        Column::Numbers(numbers) => {
            let value = |&n: &u32| if n == BLANK_NUMBER { String::new() } else { n.to_string() };
            [vec![format!("c{number}")], numbers.iter().map(value).collect()].concat()
        }
        Column::Texts(texts) => {
            let values: Vec<String> =
                texts.iter().map(|text| text.iter().map(|&byte| char::from(byte)).collect()).collect();
            let sort = if values.iter().all(|value| value.is_empty() || is_number(value)) { ":text" } else { "" };
            [vec![format!("c{number}{sort}")], values].concat()
        }
    };
    let mut columns: Vec<Vec<String>> = catalogue.columns.iter().enumerate().map(cells).collect();
    if let Some(mark) = &catalogue.mark {
        let words = mark.iter().map(|&withdrawn| if withdrawn { "yes" } else { "no" });
        columns.push(["withdrawn"].into_iter().chain(words).map(str::to_owned).collect());
    }
    (0..=catalogue.entries).map(|line| columns.iter().map(|column| column[line].clone()).collect()).collect()
}

/// Just the numbers of the specification.
fn is_number(value: &str) -> bool {
    value.parse::<u32>().is_ok_and(|number| number != BLANK_NUMBER && number.to_string() == value)
}

/// Exports a catalogue that stands in a folder alone, and imports the export.
fn expect_nameless(label: &str, catalogue: &Catalogue) {
    let bytes = encode_catalogue(catalogue);
    let room = Room::new();
    room.set("given/catalogue.bin", &bytes);
    let exported = room.run(&["export", "given"]).done();
    assert_eq!(read_csv(&exported, ','), nameless(catalogue), "{label}: {catalogue:?}");
    room.set("deeds.csv", &exported);
    room.run(&["import", "deeds.csv", "deeds"]).done();
    assert_eq!(files(&room, "deeds")[0], bytes, "{label}: {catalogue:?}");
}

#[test]
fn random_catalogues_without_names() {
    for seed in 0..150 {
        expect_nameless(&format!("seed {seed}"), &generator::catalogue(&mut Rng::new(seed)));
    }
}

/// Texts that are numbers each, blank each, or none at all; numbers that are all blank.
#[test]
fn texts_that_look_like_numbers() {
    for values in [&["1701", "0", ""][..], &["", ""], &[], &["4294967294"], &["4294967295"], &["01", "1"], &["1 "]] {
        let texts = Column::Texts(values.iter().map(|value| latin_1(value)).collect());
        let blanks = Column::Numbers(vec![BLANK_NUMBER; values.len()]);
        for columns in [vec![texts.clone()], vec![blanks.clone()], vec![blanks, texts]] {
            expect_nameless(&format!("{values:?}"), &Catalogue::unmarked(values.len(), columns));
        }
    }
}

/// Nothing is exported where there is no catalogue, or one that its columns do not fit.
#[test]
fn folders_that_cannot_be_exported() {
    let room = Room::new();
    let said = room.run(&["export", "deeds"]).failed(1);
    assert!(said.starts_with("searchroom: ") && said.contains("deeds/catalogue.bin"), "{said}");
    room.set("deeds.csv", "a,withdrawn\n1,x\n");
    room.run(&["import", "deeds.csv", "deeds"]).done();
    for columns in ["a,text", "a,text\nwithdrawn,x/", "a,number\nb,number\nwithdrawn,x/", "a,number\nb,text", ""] {
        room.set("deeds/columns.csv", format!("header,values\n{columns}\n"));
        let said = room.run(&["export", "deeds"]).failed(1);
        assert!(said.starts_with("searchroom: ") && said.contains("deeds/columns.csv"), "{columns:?}: {said}");
        assert!(said.contains("import"), "{columns:?}: {said}");
    }
}

/// A mark that another program adds to an imported catalogue: the names stay, and the export has it as a last column.
#[test]
fn mark_that_is_added_later() {
    let room = Room::new();
    room.set("deeds.csv", "year,parish\n1701,Ash\n1702,Ashby\n");
    room.run(&["import", "deeds.csv", "deeds"]).done();
    let catalogue = fs::read(room.path("deeds/catalogue.bin")).unwrap();
    room.set("deeds/catalogue.bin", [&catalogue[..], &[87, 0, 1, 0b01]].concat());
    assert_eq!(room.run(&["export", "deeds"]).done(), "year,parish,withdrawn\n1701,Ash,yes\n1702,Ashby,no\n");
    let said = room.run(&["ask", "deeds", "not year blank"]).done();
    assert!(said.starts_with("1 of 2 entries found (1 is withdrawn)\n"), "{said}");
}

/// What a spreadsheet takes for a formula is a value as any other, and given as it is; the page says so.
#[test]
fn formulas_are_values() {
    let room = Room::new();
    let table = "deed\n=1+1\n@sum\n\"=\"\"a\"\"&\"\"b\"\"\"\n";
    room.set("deeds.csv", table);
    room.run(&["import", "deeds.csv", "deeds"]).done();
    assert_eq!(room.run(&["export", "deeds"]).done(), table);
    assert!(room.run(&["ask", "deeds", "deed starts \"=\""]).done().starts_with("2 of 3 entries found\n"));
    let page = fs::read_to_string(concat!(env!("CARGO_MANIFEST_DIR"), "/../../docs/DESK.md")).expect("the page");
    assert!(page.contains("one that begins with `=` is a formula to a spreadsheet"));
}
