use count_calls::{BYTES, LINE, count, count_bytes, count_lines};
use generator::Rng;

use crate::table::Table;

/// The ratios wanted to counting byte by byte: of a whole table, and of whole lines side by side.
const OF_TABLE: Option<f64> = Some(0.15);
const OF_LINES: Option<f64> = Some(0.10);

/// The counts of ones alone, against the same bytes counted one by one, as the engine did before order 3: in one call where they
/// stand together, else in a call for each line.
pub fn report(table: &mut Table) {
    let bytes = Rng::new(6).bytes(BYTES);
    let whole = || count_bytes(&bytes);
    row(table, "count, 16,384 bytes", "byte by byte", OF_TABLE, || count(&bytes), whole);
    row(table, "count, 64 lines of 256 bytes", "byte by byte", OF_LINES, || count_lines(&bytes, 64, 256), whole);
    for (lines, size) in [(64, 255), (20, 256), (64, 8)] {
        let what = format!("count, {lines} lines of {size} bytes");
        let fronts = || bytes.chunks(LINE).take(lines).map(|line| count_bytes(&line[..size])).sum();
        row(table, &what, "byte by byte, a call a line", None, || count_lines(&bytes, lines, size), fronts);
    }
}

fn row(table: &mut Table, what: &str, other: &str, aim: Option<f64>, engine: impl Fn() -> u64, with: impl Fn() -> u64) {
    assert_eq!(engine(), with(), "{what}: the counts differ");
    table.row(what, other, aim, engine, with);
}
