use bench::{by_hand, plain};
use evaluator::{Catalogue, Column};
use generator::{Pattern, Rng, encode_catalogue, text};

use crate::table::{BY_HAND, Table};

/// How the sum is called in its rows.
pub const SUM: &str = "one pass summing the bytes";

/// The ratios wanted.
struct Aims {
    to_sum: Option<f64>,
    to_by_hand: Option<f64>,
}

const AT_2048: Aims = Aims { to_sum: Some(0.33), to_by_hand: Some(1.1) };
const AT_64: Aims = Aims { to_sum: Some(0.40), to_by_hand: None };
const NONE: Aims = Aims { to_sum: None, to_by_hand: None };

/// Checking a catalogue: against the plain check, against one pass that only sums the bytes, and against the check by
/// hand. With a mark, also against the engine's own check without.
pub fn report(table: &mut Table) {
    for (columns, entries, aims) in [(16, 2_048, AT_2048), (1, 2_048, AT_2048), (1, 64, AT_64)] {
        let what = format!("check_catalogue, {entries} entries, text columns: {columns}");
        against_all(table, &what, &aims, &encode_catalogue(&texts(columns, entries)));
    }
    let (what, unmarked) = ("check_catalogue, 64 entries, text columns: 1, mark", texts(1, 64));
    let mark = Some(Pattern::Half.of(&mut Rng::new(2), 64));
    let [with, without] = [Catalogue { mark, ..unmarked.clone() }, unmarked].map(|made| encode_catalogue(&made));
    against_all(table, what, &NONE, &with);
    let check = |bytes| move || searchroom::check_catalogue(bytes);
    table.row(what, "the same, no mark", None, check(&with), check(&without));
}

fn against_all(table: &mut Table, what: &str, aims: &Aims, bytes: &[u8]) {
    let size = searchroom::check_catalogue(bytes).expect("the benchmark's catalogues are sound");
    let plainly = || plain::check_catalogue(bytes).map(|read| (read.entries, read.columns.len()));
    assert_eq!(plainly(), Ok((size.entries.into(), size.columns.into())));
    assert_eq!(by_hand::check_catalogue(bytes), Ok(size));
    let engine = || searchroom::check_catalogue(bytes);
    table.row(what, "plain Rust check", None, engine, plainly);
    table.row(what, SUM, aims.to_sum, engine, || sum(bytes));
    table.row(what, BY_HAND, aims.to_by_hand, engine, || by_hand::check_catalogue(bytes));
}

/// A catalogue of text columns alone.
fn texts(columns: usize, entries: usize) -> Catalogue {
    let mut rng = Rng::new(1);
    let mut column = || Column::Texts((0..entries).map(|_| text(&mut rng)).collect());
    Catalogue::unmarked(entries, (0..columns).map(|_| column()).collect())
}

/// A plain pass over the bytes.
pub fn sum(bytes: &[u8]) -> u64 {
    bytes.iter().map(|&byte| u64::from(byte)).sum()
}
