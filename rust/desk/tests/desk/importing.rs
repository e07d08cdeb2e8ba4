//! Tables that are imported: what comes of them, or what is told of their faults.

use std::fs;

use evaluator::{Catalogue, Column, read_catalogue};
use generator::latin_1;

use crate::desk::room::Room;

/// Imports this table, which must be taken: the room, what was printed, and the catalogue.
pub fn import(csv: impl AsRef<[u8]>) -> (Room, String, Catalogue) {
    let room = Room::new();
    room.set("deeds.csv", csv);
    let said = room.run(&["import", "deeds.csv", "deeds"]).done();
    let catalogue = written(&room);
    (room, said, catalogue)
}

pub fn written(room: &Room) -> Catalogue {
    read_catalogue(&fs::read(room.path("deeds/catalogue.bin")).expect("catalogue.bin")).expect("an accepted catalogue")
}

pub fn columns_csv(room: &Room) -> String {
    fs::read_to_string(room.path("deeds/columns.csv")).expect("columns.csv")
}

/// The columns and the mark that this table makes.
pub fn columns(csv: impl AsRef<[u8]>) -> (Vec<Column>, Option<Vec<bool>>) {
    let (_, _, Catalogue { columns, mark, .. }) = import(csv);
    (columns, mark)
}

pub fn texts(values: &[&str]) -> Column {
    Column::Texts(values.iter().map(|value| latin_1(value)).collect())
}

/// The lines in which the faults of this table are told, without the last, which counts them. The folder is not made.
pub fn faults(csv: impl AsRef<[u8]>) -> Vec<String> {
    let room = Room::new();
    room.set("deeds.csv", csv);
    let told = told(&room, &room.run(&["import", "deeds.csv", "deeds"]).failed(1));
    assert!(!room.path("deeds").exists(), "{told:?}");
    told
}

/// The faults told one by one in what was said, which ends with their number. Remarks on the file as a whole and
/// a summary may stand before them, and behind them how many more there are.
pub fn told(room: &Room, said: &str) -> Vec<String> {
    let mut lines: Vec<String> = said.lines().map(str::to_owned).collect();
    let last = lines.pop().expect("a last line");
    let more = lines.last().and_then(|line| line.strip_prefix("and ")?.strip_suffix(" more"));
    let more: usize = more.map_or(0, |more| more.parse().expect("a number"));
    lines.retain(|line| line.starts_with("deeds.csv, line "));
    let number = if lines.len() + more == 1 { "1 fault".to_owned() } else { format!("{} faults", lines.len() + more) };
    assert_eq!(last, format!("searchroom: {number} in deeds.csv: nothing was written"), "{said}");
    assert!(!room.path("deeds/catalogue.bin.new").exists());
    lines
}

/// The table has these faults, each at this place, as it is told before the colon; gives what is told after it.
pub fn expect_faults(csv: impl AsRef<[u8]>, places: &[&str]) -> Vec<String> {
    let lines = faults(&csv);
    let shown = String::from_utf8_lossy(csv.as_ref());
    let (at, why): (Vec<_>, Vec<_>) = lines.iter().map(|line| split_fault(line)).unzip();
    assert_eq!(at, places, "{shown:?}");
    assert!(why.iter().all(|why| !why.is_empty()), "{shown:?}: {why:?}");
    why
}

/// What stands before the colon behind the value or the line, and what after it.
pub fn split_fault(line: &str) -> (String, String) {
    let from = line.rfind("\": ").map_or(0, |at| at + 1);
    let (_, why) = line[from..].split_once(": ").unwrap_or_else(|| panic!("no colon in {line:?}"));
    (line[..line.len() - why.len() - 2].to_owned(), why.to_owned())
}
