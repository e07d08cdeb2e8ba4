use std::env;
use std::ops::Range;

/// Is less to be tried? Under valgrind (tests/valgrind) all of it would take minutes.
pub fn fewer() -> bool {
    env::var_os("SEARCHROOM_FEWER").is_some()
}

/// So many seeds, or an eighth of them.
pub fn seeds(count: u64) -> Range<u64> {
    0..if fewer() { count / 8 } else { count }
}

/// These numbers of entries, or those of them under 1,000.
pub fn sizes<const N: usize>(list: [usize; N]) -> impl Iterator<Item = usize> {
    list.into_iter().filter(|&size| size < 1_000 || !fewer())
}
