use bench::{by_hand, plain};
use generator::{Rng, encode_catalogue, encode_question, running_order};
use searchroom::MAX_ENTRIES;

use crate::against_sqlite::{SQLITE, counting, empty_table, insert};
use crate::asked::{Run, Tables, assert_by_hand, to_by_hand};
use crate::catalogue::{SUM, sum};
use crate::places;
use crate::sqlite::Statement;
use crate::table::{BY_HAND, Table};

const MILLION: usize = 1_000_000;

/// A million entries in 489 catalogues of four columns, 56 MB, which is more than the caches of most machines hold: a
/// check of all of them, which reads the texts alone (48 MB), and runs of one question over all.
pub fn report(table: &mut Table) {
    let mut rng = Rng::new(10);
    let database = empty_table();
    let sizes = (0..MILLION).step_by(MAX_ENTRIES).map(|first| MAX_ENTRIES.min(MILLION - first));
    let made = sizes.map(|entries| {
        let made = places::catalogue(&mut rng, entries);
        database.iter().for_each(|database| insert(database, &made));
        encode_catalogue(&made)
    });
    let catalogues: Vec<Vec<u8>> = made.collect();
    check(table, &catalogues);
    for count in [1, 6, 12, 20] {
        let question = places::question(&mut rng, count);
        let statement = database.as_ref().map(|database| counting(database, &question));
        let over = Over {
            catalogues: &catalogues,
            question: encode_question(&question),
            order: running_order(&mut rng, count),
            to_by_hand: to_by_hand(&question),
        };
        over.rows(table, &format!("run, conditions: {count}, a million entries"), statement.as_ref());
    }
}

fn check(table: &mut Table, catalogues: &[Vec<u8>]) {
    let what = "check_catalogue, a million entries";
    for bytes in catalogues {
        assert_eq!(by_hand::check_catalogue(bytes), searchroom::check_catalogue(bytes), "{what}");
    }
    let engine = || catalogues.iter().all(|bytes| searchroom::check_catalogue(bytes).is_ok());
    let by_hand = || catalogues.iter().all(|bytes| by_hand::check_catalogue(bytes).is_ok());
    assert!(engine(), "{what}: one is refused");
    table.row(what, SUM, None, engine, || catalogues.iter().map(|bytes| sum(bytes)).sum::<u64>());
    table.row(what, BY_HAND, None, engine, by_hand);
}

/// A question over many catalogues.
struct Over<'a> {
    catalogues: &'a [Vec<u8>],
    question: Vec<u8>,
    order: Vec<u8>,
    to_by_hand: f64,
}

impl Over<'_> {
    /// Rows of runs over all catalogues, of which the found counts are added up.
    fn rows(&self, table: &mut Table, what: &str, statement: Option<&Statement>) {
        let found = self.found_by(searchroom::run)();
        assert!(found == self.found_in_tree_order(), "{what}: the counts differ");
        for catalogue in self.catalogues {
            assert_by_hand(what, catalogue, &self.question, &self.order);
        }
        if let Some(statement) = statement {
            assert_eq!(statement.number(), found, "SQLite counts other entries");
            table.row(what, SQLITE, None, self.found_by(searchroom::run), || statement.number());
        }
        let in_tree_order = || self.found_in_tree_order();
        table.row(what, "plain Rust, in tree order", None, self.found_by(searchroom::run), in_tree_order);
        let aim = Some(self.to_by_hand);
        table.row(what, BY_HAND, aim, self.found_by(searchroom::run), self.found_by(by_hand::run));
    }

    fn found_by(&self, run: Run) -> impl FnMut() -> u32 {
        let mut tables = Tables::new();
        let mut found = move |catalogue| tables.fill(run, catalogue, &self.question, &self.order).found;
        move || self.catalogues.iter().map(|catalogue| u32::from(found(catalogue))).sum()
    }

    fn found_in_tree_order(&self) -> u32 {
        let mut listed = [0; 256];
        let mut found = |catalogue| {
            plain::run_in_tree_order(catalogue, &self.question, &self.order, &mut listed).expect("accepted")
        };
        self.catalogues.iter().map(|catalogue| found(catalogue)).sum()
    }
}
