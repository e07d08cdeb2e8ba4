use evaluator::{BLANK_NUMBER, Catalogue, Column, Condition, Question, Test, Tree};
use generator::Rng;

use crate::asked::Asked;
use crate::places;
use crate::sqlite::{Database, Statement};
use crate::table::Table;

/// How SQLite is called in its rows.
pub const SQLITE: &str = "SQLite, prepared count(*)";

/// So many rows are put into a table by one statement, for speed.
const ROWS_OF_INSERT: usize = 256;

/// Runs against SQLite, which keeps the rows decoded and need not check them again, and against the engine by hand.
/// SQLite's LIKE and NOCASE fold the letters A to Z alone and take off no accent, so texts and operands hold no other
/// letters. A blank is NULL, which meets neither a condition nor its NOT, as in the engine.
pub fn report(table: &mut Table) {
    let mut rng = Rng::new(8);
    let made = places::catalogue(&mut rng, 2_048);
    let database = empty_table();
    match &database {
        Some(database) => insert(database, &made),
        None => println!("SQLite's library (Debian: libsqlite3-0) is not installed: its lines are left out"),
    }
    for (count, aim) in [(1, 0.07), (6, 0.06), (12, 0.05), (20, 0.07)] {
        let question = places::question(&mut rng, count);
        let asked = Asked::new(&mut rng, &made, &question);
        let what = format!("run, conditions: {count}, four columns");
        if let Some(database) = &database {
            let statement = counting(database, &question);
            let mut engine = asked.engine();
            assert_eq!(u32::from(engine().found), statement.number(), "SQLite counts other entries");
            table.row(&what, SQLITE, Some(aim), engine, || statement.number());
        }
        asked.against_by_hand(table, &what);
    }
}

/// A database with a table for years and places, or none where SQLite is not installed.
pub fn empty_table() -> Option<Database> {
    let database = Database::open()?;
    database.execute("CREATE TABLE entries (c0 INTEGER, c1 TEXT, c2 INTEGER, c3 TEXT)");
    Some(database)
}

/// Puts the entries of a catalogue into the table.
pub fn insert(database: &Database, catalogue: &Catalogue) {
    let row = |entry| {
        let values: Vec<String> = catalogue.columns.iter().map(|column| value(column, entry)).collect();
        format!("({})", values.join(", "))
    };
    let rows: Vec<String> = (0..catalogue.entries).map(row).collect();
    for rows in rows.chunks(ROWS_OF_INSERT) {
        database.execute(&format!("INSERT INTO entries VALUES {}", rows.join(", ")));
    }
}

/// The statement that counts the entries of which a question's tree holds.
pub fn counting(database: &Database, question: &Question) -> Statement {
    database.prepare(&format!("SELECT count(*) FROM entries WHERE {}", sql(question, &question.tree)))
}

fn value(column: &Column, entry: usize) -> String {
    match column {
        Column::Numbers(numbers) if numbers[entry] == BLANK_NUMBER => "NULL".to_owned(),
        Column::Numbers(numbers) => numbers[entry].to_string(),
        Column::Texts(texts) if texts[entry].is_empty() => "NULL".to_owned(),
        Column::Texts(texts) => format!("'{}'", String::from_utf8_lossy(&texts[entry])),
    }
}

/// The question as the condition of a WHERE.
fn sql(question: &Question, tree: &Tree) -> String {
    let members = |members: &[Tree], by: &str| {
        let parts: Vec<String> = members.iter().map(|member| sql(question, member)).collect();
        format!("({})", parts.join(by))
    };
    match tree {
        Tree::AllOf(forest) => members(forest, " AND "),
        Tree::AnyOf(forest) => members(forest, " OR "),
        Tree::Condition(number) => condition_sql(&question.conditions[*number]),
    }
}

fn condition_sql(condition: &Condition) -> String {
    let column = format!("c{}", condition.column);
    let text = |operand: &[u8]| String::from_utf8_lossy(operand).into_owned();
    let sql = match &condition.test {
        Test::NumberFrom { low, high } => format!("{column} BETWEEN {low} AND {high}"),
        Test::Equals(operand) => format!("{column} = '{}' COLLATE NOCASE", text(operand)),
        Test::BeginsWith(operand) => format!("{column} LIKE '{}%'", text(operand)),
        Test::Contains(operand) => format!("{column} LIKE '%{}%'", text(operand)),
        Test::NumberBlank | Test::TextBlank => format!("{column} IS NULL"),
    };
    if condition.opposite { format!("(NOT ({sql}))") } else { format!("({sql})") }
}
