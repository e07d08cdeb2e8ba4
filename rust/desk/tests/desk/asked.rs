//! Random catalogues and questions in a folder, some of them with names for the columns.

use evaluator::{Catalogue, Column, Found, Question, find, spelling};
use generator::{Rng, encode_catalogue, encode_question, question_of, running_order};

use crate::desk::room::Room;

/// Names of columns: words, words of the notation, and such as are no words.
const NAMES: [&str; 18] = [
    "year",
    "Parish",
    "shelf mark",
    "Größe",
    "all",
    "in",
    "not",
    "blank",
    "date of deed",
    "É",
    "is",
    "starts",
    "has",
    "any",
    "Box",
    "a,b",
    "say \"so\"",
    "back\\slash (1)",
];

/// A question asked of a catalogue in a running order.
#[derive(Debug)]
pub struct Asked {
    pub catalogue: Catalogue,
    pub question: Question,
    pub order: Vec<u8>,
    pub names: Vec<String>,
}

impl Asked {
    /// A question of up to so many conditions, of a catalogue of up to so many entries.
    pub fn new(rng: &mut Rng, most_entries: usize, most_conditions: usize) -> Asked {
        let (entries, columns) = (rng.between(0, most_entries), rng.between(1, 5));
        let catalogue = generator::catalogue_of(rng, entries, columns);
        let (count, depth) = (rng.between(1, most_conditions), rng.between(1, 8));
        let question = question_of(rng, &catalogue, count, depth);
        let mut names: Vec<String> = NAMES.iter().map(|&name| name.to_owned()).collect();
        rng.shuffle(&mut names);
        names.truncate(columns);
        if rng.chance(30) {
            names = (0..columns).map(|column| format!("c{column}")).collect();
        }
        Asked { catalogue, question, order: running_order(rng, count), names }
    }

    /// A room with the catalogue in the folder `deeds`, and its names, if they are others than c0, c1, ...
    pub fn room(&self) -> Room {
        let room = Room::new();
        room.set("deeds/catalogue.bin", encode_catalogue(&self.catalogue));
        let quoted = |name: &String| format!("\"{}\"", name.replace('"', "\"\""));
        let sort = |column: &Column| if matches!(column, Column::Numbers(_)) { "number" } else { "text" };
        let cells = self.names.iter().zip(&self.catalogue.columns);
        let mut table: String = cells.map(|(name, column)| format!("{},{}\n", quoted(name), sort(column))).collect();
        if self.catalogue.mark.is_some() {
            table += "withdrawn,yes/no\n";
        }
        if self.names[0] != "c0" {
            room.set("deeds/columns.csv", format!("header,values\n{table}"));
        }
        room
    }

    pub fn strict(&self) -> String {
        spelling(&encode_question(&self.question)).expect("a question that can be spelled")
    }

    /// The order as it is typed.
    pub fn order_word(&self) -> String {
        self.order.iter().map(u8::to_string).collect::<Vec<_>>().join(",")
    }

    /// What the evaluator finds.
    pub fn found(&self) -> Found {
        let order: Vec<usize> = self.order.iter().map(|&number| usize::from(number)).collect();
        find(&self.catalogue, &self.question, &order)
    }
}
