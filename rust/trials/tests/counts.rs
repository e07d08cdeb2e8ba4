//! The counts of ones, by themselves and as a run and a copy answer them, against a count written apart, bit by bit. Eight
//! bytes are counted at once and seven lines side by side, so what matters are the lengths and places at which a word or a
//! group of lines ends.

use count_calls::{BYTES, LINE, count, count_bytes, count_lines};
use evaluator::{Catalogue, Question, Tree, pack, refused};
use generator::{Rng, catalogue_of, question_of, running_order, with_outcomes};
use trials::{ENTRIES_AT_ENDS, Lent, Run, Side, compare_copy, compare_run, encode_tally_with, fewer, ones, trying};

/// The most lines that count.
const LINES: usize = BYTES / LINE;
/// Numbers of lines at the ends of groups of seven.
const GROUPS: [usize; 12] = [0, 1, 6, 7, 8, 13, 14, 15, 20, 62, 63, 64];

/// Random bytes, and ones and zeros alone.
fn tables(length: usize) -> [(&'static str, Vec<u8>); 3] {
    [("random", Rng::new(1).bytes(length)), ("ones", vec![0xFF; length]), ("zeros", vec![0; length])]
}

/// Counts a table both ways, its end or its start hard against an unreadable page.
fn expect(label: &str, table: &[u8], expected: u64) {
    trying(label);
    for side in Side::BOTH {
        let lent = Lent::new(table, side);
        let counted = [count(lent.bytes()), count_bytes(lent.bytes())];
        assert_eq!(counted, [expected; 2], "{label}, {side:?}: at once and byte by byte (left), due (right)");
    }
}

/// Counts the fronts of a table's lines, the table lent in the same way.
fn expect_lines(label: &str, table: &[u8], lines: usize, size: usize, expected: u64) {
    let label = format!("{label}: {lines} lines of {size} bytes");
    trying(&label);
    for side in Side::BOTH {
        let lent = Lent::new(table, side);
        let counted = count_lines(lent.bytes(), lines, size);
        assert_eq!(counted, expected, "{label}, {side:?}: counted (left), due (right)");
    }
}

/// The ones of the first `size` bytes of each of the first `lines` lines, of which only whole ones count.
fn ones_of_fronts(table: &[u8], lines: usize, size: usize) -> u64 {
    table.chunks_exact(LINE).take(lines.min(LINES)).map(|line| ones(&line[..size.min(LINE)])).sum()
}

/// From no byte on, and over the last that counts. The table's end, and at its other side its start, lies at every place of a
/// word.
#[test]
fn every_length() {
    const LONGEST: usize = BYTES + 16;
    let is_tried = |length: usize| !fewer() || length < 80 || length % 1_024 < 9 || length >= BYTES - 9;
    for (name, table) in tables(LONGEST) {
        let mut due = 0;
        for length in 0..=LONGEST {
            if is_tried(length) {
                expect(&format!("{name}, {length} bytes"), &table[..length], due);
            }
            if length < BYTES {
                due += ones(&table[length..=length]);
            }
        }
    }
}

/// Neither start nor end lies where a word of memory does, and the bytes beside them have other ones.
#[test]
fn every_start_and_end() {
    let lent = Lent::new(&Rng::new(2).bytes(600), Side::Front);
    for start in 0..=16 {
        for length in (0..=80).chain(248..=264).chain([500, 511, 512, 513]) {
            let (label, table) = (format!("{length} bytes from {start} on"), &lent.bytes()[start..start + length]);
            trying(&label);
            assert_eq!([count(table), count_bytes(table)], [ones(table); 2], "{label}");
        }
    }
}

/// A one alone, or a zero, at every place: a few words, and the last two that count with those that do not.
#[test]
fn each_bit_alone() {
    for (length, from) in [(64, 0), (61, 0), (BYTES, BYTES - 16), (BYTES + 16, BYTES - 16)] {
        for place in 8 * from..8 * length {
            let due = u64::from(place < 8 * BYTES);
            let label = format!("bit {place} of {length} bytes alone");
            let mut table = vec![0; length];
            table[place / 8] = 1 << (place % 8);
            expect(&label, &table, due);
            table.iter_mut().for_each(|byte| *byte = !*byte);
            expect(&label, &table, 8 * length.min(BYTES) as u64 - due);
        }
    }
}

#[test]
fn further_bytes_never_count() {
    for length in [BYTES + 1, BYTES + 8, 2 * BYTES - 1, 2 * BYTES, 65_535, 65_536, 1_000_000] {
        for front in [0x00, 0xFF, 0x81] {
            let table = [vec![front; BYTES], vec![0xFF; length - BYTES]].concat();
            let label = format!("{length} bytes, of {front} those that count");
            let due = ones(&table[..BYTES]);
            expect(&label, &table, due);
            expect_lines(&label, &table, 64, 256, due);
            expect_lines(&label, &table, 100, 256, due);
        }
    }
}

/// Every number of lines with every size of their fronts. The last line ends where readable memory does.
#[test]
fn every_number_of_lines_and_every_size() {
    let is_tried = |lines: usize, size: usize| !fewer() || GROUPS.contains(&lines) && (size % 8 < 2 || size % 8 == 7);
    for (name, table) in tables(BYTES) {
        for lines in 0..=LINES {
            let table = &table[..lines * LINE];
            for size in (0..=LINE).filter(|&size| is_tried(lines, size)) {
                let due = ones_of_fronts(table, lines, size);
                expect_lines(name, table, lines, size, due);
            }
        }
    }
}

/// More lines than the table has, or than count, and more bytes than a line has: also numbers that are small again once cut
/// short or multiplied.
#[test]
fn more_lines_and_larger_sizes_than_there_are() {
    const MORE_LINES: [usize; 9] = [64, 65, 70, 71, 256, 1 << 32, 1 << 56, (1 << 56) + 3, usize::MAX];
    const MORE_BYTES: [usize; 9] = [256, 257, 263, 264, 512, 1 << 32, (1 << 32) + 5, 1 << 61, usize::MAX];
    let table = Rng::new(3).bytes(70 * LINE);
    for lines in [0, 1, 6, 7, 8, 63, 64, 65, 70] {
        let table = &table[..lines * LINE];
        let due = ones(&table[..lines.min(LINES) * LINE]);
        for more_lines in MORE_LINES {
            for more_bytes in MORE_BYTES {
                expect_lines(&format!("table of {lines} lines"), table, more_lines, more_bytes, due);
            }
            expect_lines("fronts", table, more_lines, 77, ones_of_fronts(table, lines, 77));
        }
        for more_bytes in MORE_BYTES {
            expect_lines("seven lines at most", table, 7, more_bytes, ones_of_fronts(table, 7, LINE));
        }
    }
}

/// What a table has after its last whole line does not count, be it one byte or all but one.
#[test]
fn only_whole_lines_count() {
    for (name, table) in tables(66 * LINE) {
        for whole in GROUPS.into_iter().chain([65]) {
            for more in [0, 1, 7, 8, 9, 128, 248, 254, 255] {
                let table = &table[..whole * LINE + more];
                let label = format!("{name}, {} bytes", table.len());
                for size in [1, 8, 100, 249, 256] {
                    for lines in [whole, whole + 1, 64, 65] {
                        let due = ones_of_fronts(table, lines, size);
                        expect_lines(&label, table, lines, size, due);
                    }
                }
            }
        }
    }
}

/// Zeros in front of ones in every line, and ones in front of zeros.
#[test]
fn bytes_behind_the_fronts_never_count() {
    for size in 0..=LINE {
        for (front, behind) in [(0x00, 0xFF), (0xFF, 0x00)] {
            let table = [vec![front; size], vec![behind; LINE - size]].concat().repeat(LINES);
            for lines in GROUPS {
                let due = if front == 0 { 0 } else { 8 * size * lines };
                expect_lines(&format!("{front} before {behind}"), &table, lines, size, due as u64);
            }
        }
    }
}

/// In each group of seven lines every choice of them has ones: all that the lines can add up to at a place.
#[test]
fn every_choice_of_seven_lines() {
    for first in (0..LINES).step_by(7) {
        for choice in (0..128_usize).step_by(if fewer() { 9 } else { 1 }) {
            let mut table = vec![0; BYTES];
            let lines = (0..7).filter(|line| choice >> line & 1 == 1 && first + line < LINES);
            let chosen: Vec<usize> = lines.map(|line| first + line).collect();
            for line in &chosen {
                table[line * LINE..(line + 1) * LINE].fill(0xFF);
            }
            for size in [1, 8, 9, 255, 256] {
                let due = (8 * size * chosen.len()) as u64;
                expect_lines(&format!("lines {chosen:?} of ones"), &table, 64, size, due);
            }
        }
    }
}

/// A one alone at every place of fifteen lines: two groups of seven and a line.
#[test]
fn each_bit_of_lines_alone() {
    const LENGTH: usize = 15 * LINE;
    let mut table = vec![0; LENGTH];
    for place in (0..8 * LENGTH).step_by(if fewer() { 99 } else { 1 }) {
        table[place / 8] = 1 << (place % 8);
        let (line, byte) = (place / 8 / LINE, place / 8 % LINE);
        for (lines, size) in [(15, 256), (14, 256), (15, 250)] {
            let due = u64::from(line < lines && byte < size);
            expect_lines(&format!("bit {place} alone"), &table, lines, size, due);
        }
        table[place / 8] = 0;
    }
}

/// Numbers of entries at the ends of bytes and words, with numbers of conditions at the ends of groups of seven rows.
fn run_sizes() -> impl Iterator<Item = (usize, usize)> {
    const CONDITIONS: [usize; 10] = [1, 6, 7, 8, 13, 14, 15, 20, 63, 64];
    let sizes = ENTRIES_AT_ENDS.into_iter().flat_map(|entries| CONDITIONS.map(|count| (entries, count)));
    sizes.filter(|&(entries, count)| !fewer() || entries * count < 2_500)
}

/// Makes a run and its copy, which must count the ones of the rows that the run wrote. All that they are lent is ones, and
/// often more than they need. Gives the numbers of entries found and of looks.
fn expect_run(rng: &mut Rng, label: &str, catalogue: &Catalogue, question: &Question) -> (usize, usize) {
    let order = running_order(rng, question.conditions.len());
    let fit = Run::fitting(catalogue, question, &order);
    let (row, rows) = (fit.listed.len(), fit.looks.len());
    let mut lend = |needed| vec![0xFF; needed + *rng.pick(&[0, 1, 7, 8, 300, BYTES])];
    let given = Run { listed: lend(row), looks: lend(rows), ..fit };
    let ran = compare_run(label, &given);
    let ((listed, more_listed), (looks, more_looks)) = (ran.listed.split_at(row), ran.looks.split_at(rows));
    let (found, look_count) = (ones(listed) as usize, ones(looks) as usize);
    assert_eq!(ran.word, pack(found, 0, look_count), "{label}: answered (left), of the written rows (right)");
    assert_eq!(ran.tally, encode_tally_with(0, look_count as u64), "{label}");
    assert!(more_listed.iter().chain(more_looks).all(|&byte| byte == 0xFF), "{label}: further bytes were altered");
    let written = 7 * look_count;
    let copied = compare_copy(label, &given.copying(&lend(written)));
    assert_eq!(copied.word, pack(0, 0, written), "{label}, the copy");
    if let Some(less) = written.checked_sub(1) {
        let short = compare_copy(label, &given.copying(&vec![0xFF; less]));
        assert_eq!(short.word, refused(20), "{label}, the copy into one byte less");
    }
    (found, look_count)
}

#[test]
fn random_runs_count_their_rows() {
    let mut skipped = 0;
    for (entries, count) in run_sizes() {
        let mut rng = Rng::new((100 * entries + count) as u64);
        let made = catalogue_of(&mut rng, entries, 4);
        let asked = question_of(&mut rng, &made, count, 3);
        let (_, looks) = expect_run(&mut rng, &format!("{entries} entries, {count} conditions"), &made, &asked);
        skipped += made.present() * count - looks;
    }
    assert!(skipped > if fewer() { 1_000 } else { 100_000 }, "{skipped} looks skipped");
}

/// All of conditions that are met everywhere, and any of conditions that are met nowhere: every bit of the rows is one.
#[test]
fn runs_with_every_look_count_their_rows() {
    for (entries, count) in run_sizes() {
        let mut rng = Rng::new((100 * entries + count) as u64);
        for met in [true, false] {
            let (made, conditions) = with_outcomes(&mut rng, entries, &vec![vec![met; entries]; count]);
            let members = (0..count).map(Tree::Condition).collect();
            let tree = if met { Tree::AllOf(members) } else { Tree::AnyOf(members) };
            let label = format!("{entries} entries, {count} conditions, met: {met}");
            let counted = expect_run(&mut rng, &label, &made, &Question { tree, conditions });
            assert_eq!(counted, (if met { entries } else { 0 }, entries * count), "{label}");
        }
    }
}
