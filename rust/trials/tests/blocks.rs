//! Runs and copies over catalogues whose entries fill blocks of 64, or nearly do: what one entry gives must not reach its
//! neighbours, and the last block ends where the entries end.

use evaluator::{BLANK_NUMBER, Catalogue, Column, Condition, Question, Test, Tree, pack};
use generator::{
    BLOCK, Pattern, Rng, catalogue_of, near_text, operand, question_of, running_order, tree_of, with_blanks,
    with_outcomes,
};
use trials::{compare_both, compare_condition, fewer, look_count, seeds, sizes};

/// Sizes at the ends of blocks.
const SIZES: [usize; 17] = [0, 1, 2, 8, 62, 63, 64, 65, 66, 127, 128, 129, 191, 192, 193, 2_047, 2_048];
/// The same without the largest, where many runs are made at each.
const SMALLER: [usize; 8] = [1, 63, 64, 65, 100, 127, 128, 129];

const MOST: u32 = BLANK_NUMBER - 1;

/// The sizes, or but one of the large ones.
fn block_ends() -> impl Iterator<Item = usize> {
    SIZES.into_iter().filter(|&size| size != 2_048 || !fewer())
}

fn all_of(count: usize) -> Tree {
    Tree::AllOf((0..count).map(Tree::Condition).collect())
}

fn any_of(count: usize) -> Tree {
    Tree::AnyOf((0..count).map(Tree::Condition).collect())
}

#[test]
fn sizes_around_every_multiple_of_64() {
    let mut skipped = 0;
    let most = if fewer() { 1_000 } else { 2_048 };
    for size in (0..=most).filter(|size| [63, 0, 1].contains(&(size % BLOCK))) {
        let mut rng = Rng::new(size as u64);
        let columns = rng.between(1, 8);
        let made = catalogue_of(&mut rng, size, columns);
        let (count, depth) = (*rng.pick(&[1, 3, 6, 9, 13, 20]), rng.between(1, 8));
        let asked = question_of(&mut rng, &made, count, depth);
        let order = running_order(&mut rng, count);
        let ran = compare_both(&mut rng, &format!("{size} entries, {count} conditions"), &made, &asked, &order);
        skipped += made.present() * count - look_count(&ran);
    }
    assert!(skipped > 50_000, "{skipped} looks skipped");
}

/// Every number of entries to just above two blocks, and some at random.
#[test]
fn every_small_size() {
    let mut rng = Rng::new(1);
    let any: Vec<usize> = (0..30).map(|_| rng.between(131, 2_048)).collect();
    for size in (0..=130).chain(any) {
        let made = catalogue_of(&mut rng, size, 4);
        let asked = question_of(&mut rng, &made, 7, 3);
        let order = running_order(&mut rng, 7);
        compare_both(&mut rng, &format!("{size} entries"), &made, &asked, &order);
    }
}

/// Texts that all begin with one word, numbers that all lie in one range, and conditions on them that are met at every
/// entry, of every kind and its opposite.
fn met_everywhere(rng: &mut Rng, size: usize, count: usize) -> (Catalogue, Vec<Condition>) {
    const WORD: &[u8] = b"Kirkby St\xC9ph\xEBn";
    let cased = |rng: &mut Rng, part: &[u8]| -> Vec<u8> {
        let letter = |byte: u8| byte.is_ascii_alphabetic() || byte >= 192;
        part.iter().map(|&byte| if letter(byte) && rng.chance(50) { byte ^ 32 } else { byte }).collect()
    };
    let texts = (0..size).map(|_| [cased(rng, WORD), rng.bytes(4)].concat()).collect();
    let numbers = (0..size).map(|_| rng.between(1_500, 1_950) as u32).collect();
    let made = Catalogue::unmarked(size, vec![Column::Numbers(numbers), Column::Texts(texts)]);
    let mut conditions: Vec<Condition> = Vec::new();
    while conditions.len() < count {
        let (from, to) = (rng.below(WORD.len()), rng.between(1, WORD.len()));
        let part = cased(rng, &WORD[from.min(to - 1)..to]);
        let (column, test, opposite) = match rng.below(8) {
            0 => (0, Test::NumberFrom { low: rng.below(1_501) as u32, high: rng.between(1_950, 9_999) as u32 }, false),
            1 => (0, Test::NumberFrom { low: 0, high: rng.below(1_500) as u32 }, true),
            2 => (0, Test::NumberBlank, true),
            3 => (1, Test::BeginsWith(cased(rng, &WORD[..to])), false),
            4 => (1, Test::BeginsWith([b"k_", part.as_slice()].concat()), true),
            5 => (1, Test::Equals(cased(rng, &WORD[..to])), true),
            6 => (1, Test::TextBlank, true),
            _ => (1, Test::Contains(part), false),
        };
        let condition = Condition { column, test, opposite };
        if !conditions.contains(&condition) {
            conditions.push(condition);
        }
    }
    (made, conditions)
}

/// All of many that are all met, and any of many that none is: every look is due.
#[test]
fn every_condition_due_everywhere() {
    for size in block_ends() {
        for count in [1, 2, 12, 64] {
            let mut rng = Rng::new((size * 100 + count) as u64);
            let (made, mut conditions) = met_everywhere(&mut rng, size, count);
            let order = running_order(&mut rng, count);
            let label = format!("all due, {size} entries, {count} conditions");
            let asked = Question { tree: all_of(count), conditions: conditions.clone() };
            let ran = compare_both(&mut rng, &label, &made, &asked, &order);
            assert_eq!(ran.word, pack(size, 0, size * count), "{label}");
            conditions.iter_mut().for_each(|condition| condition.opposite = !condition.opposite);
            let asked = Question { tree: any_of(count), conditions };
            let ran = compare_both(&mut rng, &label, &made, &asked, &order);
            assert_eq!(ran.word, pack(0, 0, size * count), "{label}, opposite");
        }
    }
}

/// The first of the order settles every entry: no other condition is looked at anywhere.
#[test]
fn none_due_after_the_first() {
    for size in block_ends() {
        for count in [2, 12, 64] {
            let mut rng = Rng::new((size * 100 + count) as u64);
            let (made, mut conditions) = met_everywhere(&mut rng, size, count);
            let mut order = running_order(&mut rng, count);
            let label = format!("settled by the first, {size} entries, {count} conditions");
            let asked = Question { tree: any_of(count), conditions: conditions.clone() };
            assert_eq!(compare_both(&mut rng, &label, &made, &asked, &order).word, pack(size, 0, size), "{label}");
            // Two groups of which the first settles the question, once both its members are seen.
            conditions.iter_mut().for_each(|condition| condition.opposite = !condition.opposite);
            let rest = Tree::AllOf((2..count).map(Tree::Condition).collect());
            let pair = Tree::AnyOf(vec![Tree::Condition(0), Tree::Condition(1)]);
            let tree = if count == 2 { pair } else { Tree::AllOf(vec![pair, rest]) };
            order.sort_unstable();
            let ran = compare_both(&mut rng, &label, &made, &Question { tree, conditions }, &order);
            assert_eq!(ran.word, pack(0, 0, 2 * size), "{label}, two groups");
        }
    }
}

/// Outcomes that settle a group at some entries of a block and leave it open at others, in every kind of pattern.
#[test]
fn groups_settle_at_some_entries_of_a_block() {
    let mut skipped = 0;
    for seed in seeds(400) {
        let mut rng = Rng::new(seed);
        let size = if seed % 40 == 0 { *rng.pick(&[2_047, 2_048]) } else { *rng.pick(&SMALLER) };
        let count = if seed % 10 == 0 { rng.between(12, 64) } else { rng.between(2, 9) };
        let outcomes: Vec<Vec<bool>> = (0..count)
            .map(|_| {
                let pattern = *rng.pick(&Pattern::ALL);
                pattern.of(&mut rng, size)
            })
            .collect();
        let (made, conditions) = with_outcomes(&mut rng, size, &outcomes);
        let depth = rng.between(1, 8);
        let asked = Question { tree: tree_of(&mut rng, count, depth), conditions };
        let order = running_order(&mut rng, count);
        let ran = compare_both(&mut rng, &format!("patterns, seed {seed}"), &made, &asked, &order);
        skipped += size * count - look_count(&ran);
    }
    assert!(skipped > 20_000, "{skipped} looks skipped");
}

/// Of the 64 entries of a block, one has other outcomes: at each place in turn, for trees of every shape.
#[test]
fn one_entry_differs_from_its_neighbours() {
    for place in 0..BLOCK {
        for seed in seeds(8) {
            let mut rng = Rng::new((place * 10) as u64 + seed);
            let (size, block) = *rng.pick(&[(64, 0), (128, 0), (128, 64), (192, 64), (190, 64)]);
            let (count, depth) = (rng.between(1, 8), rng.between(1, 4));
            let row = |rng: &mut Rng| {
                let (usual, differs) = (rng.chance(50), rng.chance(70));
                (0..size).map(|entry| usual != (differs && entry == block + place)).collect()
            };
            let outcomes: Vec<Vec<bool>> = (0..count).map(|_| row(&mut rng)).collect();
            let (made, conditions) = with_outcomes(&mut rng, size, &outcomes);
            let asked = Question { tree: tree_of(&mut rng, count, depth), conditions };
            let order = running_order(&mut rng, count);
            compare_both(&mut rng, &format!("entry {place} differs, seed {seed}"), &made, &asked, &order);
        }
    }
}

#[test]
fn groups_nested_eight_deep_and_64_conditions() {
    for (seed, size) in block_ends().enumerate() {
        let mut rng = Rng::new(seed as u64);
        let made = catalogue_of(&mut rng, size, 6);
        let asked = question_of(&mut rng, &made, 64, 8);
        let forward: Vec<u8> = (0..64).collect();
        let backward: Vec<u8> = (0..64).rev().collect();
        let some = running_order(&mut rng, 64);
        let orders = if size > 200 { vec![some] } else { vec![forward, backward, some] };
        for order in orders {
            compare_both(&mut rng, &format!("64 conditions, {size} entries"), &made, &asked, &order);
        }
        // A group in a group, eight times, a condition beside each.
        let outcomes: Vec<Vec<bool>> = (0..8).map(|_| Pattern::Half.of(&mut rng, size)).collect();
        let (made, conditions) = with_outcomes(&mut rng, size, &outcomes);
        let mut tree = Tree::Condition(7);
        for number in (0..7).rev() {
            let members = vec![Tree::Condition(number), tree];
            tree = if rng.chance(50) { Tree::AllOf(members) } else { Tree::AnyOf(members) };
        }
        let asked = Question { tree: Tree::AnyOf(vec![tree]), conditions };
        let order = running_order(&mut rng, 8);
        compare_both(&mut rng, &format!("eight deep, {size} entries"), &made, &asked, &order);
    }
}

/// Blanks in every kind of pattern, one of them the ends of blocks, among values that meet a condition and values that do
/// not: neither the condition nor its opposite lists a blank, unless they ask for it.
#[test]
fn blanks_among_the_entries_of_a_block() {
    for size in sizes([63, 64, 65, 128, 2_048]) {
        for blanks in Pattern::ALL {
            let mut rng = Rng::new(size as u64);
            let (blank, met) = (blanks.of(&mut rng, size), Pattern::Half.of(&mut rng, size));
            let years = Column::Numbers(met.iter().map(|&met| if met { 1_750 } else { 1_900 }).collect());
            let parish = |met: &bool| if *met { b"Ashby".to_vec() } else { b"Kirk".to_vec() };
            let parishes = Column::Texts(met.iter().map(parish).collect());
            let [years, parishes] = [years, parishes].map(|column| with_blanks(column, |entry| blank[entry]));
            let values = |of: bool| (0..size).filter(|&entry| !blank[entry] && met[entry] == of).count();
            let (met, other) = (values(true), values(false));
            let (by_value, by_blank) = ([met, other], [size - met - other, met + other]);
            for (column, test, listed) in [
                (&years, Test::NumberFrom { low: 1_700, high: 1_799 }, by_value),
                (&years, Test::NumberBlank, by_blank),
                (&parishes, Test::Equals(b"ashby".to_vec()), by_value),
                (&parishes, Test::BeginsWith(b"ASH".to_vec()), by_value),
                (&parishes, Test::Contains(b"hb".to_vec()), by_value),
                (&parishes, Test::TextBlank, by_blank),
            ] {
                let label = format!("{size} entries, blank: {blanks:?}, {test:?}");
                let found = compare_condition(&mut rng, &label, column.clone(), test).map(|found| found.len());
                assert_eq!(found, listed, "{label}");
            }
        }
    }
}

/// Texts that match an operand, or would but for one byte, one place or one length.
#[test]
fn texts_that_nearly_match() {
    for seed in seeds(700) {
        let mut rng = Rng::new(seed);
        let size = *rng.pick(&SMALLER);
        let sought = operand(&mut rng);
        let texts = Column::Texts((0..size).map(|_| near_text(&mut rng, &sought)).collect());
        let label = format!("nearly matching, seed {seed}");
        for test in [Test::Equals(sought.clone()), Test::BeginsWith(sought.clone()), Test::Contains(sought)] {
            compare_condition(&mut rng, &label, texts.clone(), test);
        }
        compare_condition(&mut rng, &label, texts, Test::TextBlank);
    }
}

/// Every byte against every byte, alone, first and last, by each kind of condition: the fold table as a run works it.
#[test]
fn every_byte_against_every_byte() {
    let mut rng = Rng::new(2);
    let alone = (0..=255).map(|byte| vec![byte]);
    let first = (0..=255).map(|byte| vec![byte, b'-']);
    let last = (0..=255).map(|byte| vec![b'-', byte]);
    let texts = Column::Texts(alone.chain(first).chain(last).collect());
    for sought in (0..=255).step_by(if fewer() { 17 } else { 1 }) {
        for operand in [vec![sought], vec![sought, b'-'], vec![b'-', sought]] {
            for kind in [Test::Equals, Test::BeginsWith, Test::Contains] {
                let label = format!("byte {sought}");
                compare_condition(&mut rng, &label, texts.clone(), kind(operand.clone()));
            }
        }
    }
}

/// What is sought stands across two slots, or in a length byte, or in the padding: in no text.
#[test]
fn nothing_beside_the_text_is_searched() {
    let mut rng = Rng::new(3);
    for size in SMALLER {
        // Each text ends with x; the next slot begins with its length, 2 or 23, and with y.
        let texts = |long: usize| (0..size).map(|_| [&[b'y'][..], &vec![b'-'; long - 2], b"x"].concat()).collect();
        for (long, parts) in [
            (23, [&b"x\x17y"[..], b"\x17y", b"x\x17", b"\x17", b"x\0"]),
            (2, [&b"x\0\0"[..], b"x\0", b"\x02yx", b"\0\x02y", b"\0"]),
            (8, [&b"x\0"[..], b"\x08y", b"\0\0\0\0\0\0\0\0\0", b"\0y", b"y\0"]),
        ] {
            let column = Column::Texts(texts(long));
            for part in parts.map(<[u8]>::to_vec) {
                for test in [Test::Contains(part.clone()), Test::BeginsWith(part.clone()), Test::Equals(part)] {
                    compare_condition(&mut rng, "beside the text", column.clone(), test);
                }
            }
            let whole = [&[b'y'][..], &vec![b'-'; long - 2], b"x\0"].concat();
            if whole.len() <= 23 {
                compare_condition(&mut rng, "one byte of padding", column, Test::Equals(whole));
            }
        }
    }
}

#[test]
fn ranges_at_their_ends() {
    const ENDS: [u32; 14] =
        [0, 1, 255, 256, 1_700, 65_535, 65_536, 1 << 24, (1 << 31) - 1, 1 << 31, MOST - 1, MOST, BLANK_NUMBER, 77];
    for seed in seeds(300) {
        let mut rng = Rng::new(seed);
        let size = *rng.pick(&SMALLER);
        let bound = |rng: &mut Rng| (*rng.pick(&ENDS)).min(MOST);
        let (a, b) = (bound(&mut rng), bound(&mut rng));
        let (low, high) = if rng.chance(30) { (a, a) } else { (a.min(b), a.max(b)) };
        let near = [low, low.wrapping_sub(1), low + 1, high, high.wrapping_sub(1), high + 1, BLANK_NUMBER, 0, MOST];
        let number = |rng: &mut Rng| if rng.chance(70) { *rng.pick(&near) } else { *rng.pick(&ENDS) };
        let numbers = Column::Numbers((0..size).map(|_| number(&mut rng)).collect());
        let label = format!("ranges, seed {seed}");
        compare_condition(&mut rng, &label, numbers.clone(), Test::NumberFrom { low, high });
        compare_condition(&mut rng, &label, numbers, Test::NumberBlank);
    }
}

/// The last column ends at an unreadable page, and the first text begins just after the fields' first bytes: whatever is
/// read at once of a slot lies inside it. Every size up to three blocks, every kind, texts of every length.
#[test]
fn last_column_ends_where_memory_ends() {
    let mut rng = Rng::new(4);
    for size in (1..=130).chain([191, 192, 193, 2_047, 2_048]) {
        let length = size % 24;
        let texts = Column::Texts((0..size).map(|entry| vec![b'a'; (entry + length) % 24]).collect());
        let sought = vec![b'A'; rng.between(1, 23)];
        let test = match size % 4 {
            0 => Test::Equals(sought),
            1 => Test::BeginsWith(sought),
            2 => Test::Contains(sought),
            _ => Test::TextBlank,
        };
        compare_condition(&mut rng, &format!("{size} texts at the end"), texts.clone(), test);
        compare_condition(&mut rng, &format!("{size} texts at the end"), texts, Test::Contains(b"b".to_vec()));
        let numbers = Column::Numbers((0..size).map(|entry| entry as u32 % 5).collect());
        compare_condition(
            &mut rng,
            &format!("{size} numbers at the end"),
            numbers,
            Test::NumberFrom { low: 2, high: 3 },
        );
    }
}
