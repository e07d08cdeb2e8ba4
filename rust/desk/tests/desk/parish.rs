//! The parish of three entries: as it stands in the examples, and as a table with names.

use std::path::Path;

use crate::desk::room::Room;

/// The parish's table.
pub const TABLE: &str = "year,parish\n1701,Ash\n1822,ASHBY\n,\n";

/// The parish's question as a person types it.
pub const QUESTION: &str = r#"any(all(year in 1700..1799, parish starts "ash"), year blank)"#;

/// A room with the parish in the folder `parish`, imported.
pub fn parish() -> Room {
    imported(TABLE)
}

/// A room with this table in the folder `parish`.
pub fn imported(table: &str) -> Room {
    let room = Room::new();
    room.set("parish.csv", table);
    room.run(&["import", "parish.csv", "parish"]).done();
    assert!(Path::new(&room.path("parish/columns.csv")).exists());
    room
}
