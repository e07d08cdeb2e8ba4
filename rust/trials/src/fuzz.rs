//! Abuse: inputs changed at random, over and over, with the evaluator as judge of every call.
//!
//! The archive cannot be instrumented, so the evaluator's answers stand in for coverage: an input whose answers were not
//! met before is kept and changed further.

use std::collections::HashSet;

use evaluator::{question_word, read_catalogue, spelling};
use generator::{
    MarkFault, Misspelling, Rng, catalogue_of, encode_catalogue, encode_question, faulty_mark, field, mark, misspell,
    question_of, running_order,
};

use searchroom::TYPED_BYTES;

use crate::{
    PARISH_CATALOGUE, PARISH_ORDER, Run, Seen, Typing, any_reader, any_tally, compare_catalogue, compare_copy,
    compare_outcome, compare_question, compare_run, compare_typed, damage_some, nearly_full_tally,
};

/// No more inputs than this are kept.
const KEPT: usize = 4_000;
/// A catalogue, question or text longer than this is cut, so that steps stay fast.
const LONGEST: usize = 3_000;

/// Bytes that mean something in some place.
const TELLING: [u8; 21] = [0, 1, 2, 3, 4, 5, 7, 8, 22, 23, 24, 63, 64, 65, 67, 78, 79, 80, 84, 87, 128];

/// What every call is made with.
#[derive(Clone, Default)]
struct Given {
    run: Run,
    /// The typed question.
    text: Vec<u8>,
}

impl Given {
    /// The run and its question as it is typed.
    fn of(run: Run) -> Given {
        Given { text: spelling(&run.question).expect("a typed form").into(), run }
    }
}

/// A fuzzing in progress. The same seed goes the same way.
pub struct Fuzz {
    seed: u64,
    rng: Rng,
    kept: Vec<Given>,
    met: HashSet<[u64; 6]>,
    steps: u64,
    seen: Seen,
}

impl Fuzz {
    pub fn new(seed: u64) -> Fuzz {
        let mut rng = Rng::new(seed);
        // One group more round it is too deep.
        let deepest = (0..8).fold(field(80, &[0, 1]), |question, _| field(65, &question));
        let deepest = Run::asking(PARISH_CATALOGUE.to_vec(), deepest, &[0]);
        let mut kept = vec![Given::default(), Given::of(Run::parish(PARISH_ORDER)), Given::of(deepest)];
        for count in [1, 2, 3, 4, 5, 6, 7, 8, 9, 63, 64, 64] {
            let (entries, columns, depth) = (rng.between(0, 18), rng.between(1, 4), rng.between(1, 8));
            let made = catalogue_of(&mut rng, entries, columns);
            let asked = question_of(&mut rng, &made, count, depth);
            let order = running_order(&mut rng, count);
            kept.push(Given::of(Run::asking(encode_catalogue(&made), encode_question(&asked), &order)));
        }
        Fuzz { seed, rng, kept, met: HashSet::new(), steps: 0, seen: Seen::none() }
    }

    /// How many inputs were tried, and how many kinds of answers were met.
    pub fn progress(&self) -> (u64, usize) {
        (self.steps, self.met.len())
    }

    /// How often each refusal number was answered.
    pub fn seen(&self) -> &Seen {
        &self.seen
    }

    /// Changes one of the kept inputs and makes every call with it. Panics where the engine and the evaluator differ.
    pub fn step(&mut self) {
        let mut given = self.rng.pick(&self.kept).clone();
        for _ in 0..self.rng.between(1, 3) {
            self.change(&mut given);
        }
        let answers = self.judge(&given);
        if self.met.insert(answers) {
            let room = if self.kept.len() < KEPT { self.kept.len() } else { self.rng.below(KEPT) };
            self.kept.insert(room, given);
            self.kept.truncate(KEPT);
        }
        self.steps += 1;
    }

    /// The answers of all calls, on which the engine and the evaluator must agree.
    fn judge(&mut self, Given { run, text }: &Given) -> [u64; 6] {
        let label = format!("fuzz seed {}, step {}", self.seed, self.steps);
        let [entry, condition] = [(); 2].map(|()| match self.rng.below(8) {
            0 => self.rng.next_u64(),
            1 => 1 << self.rng.below(64),
            _ => self.rng.below(8) as u64,
        });
        let ran = compare_run(&label, run).word;
        let copied = self.output(7 * (ran >> 40) as usize);
        let read = evaluator::typed(&run.catalogue, text, &[0; TYPED_BYTES]).word;
        let typed = self.output((read >> 40) as usize);
        let words = [
            ran,
            compare_catalogue(&label, &run.catalogue),
            compare_question(&label, &run.catalogue, &run.question),
            compare_outcome(&label, &run.catalogue, &run.question, entry, condition),
            compare_copy(&label, &run.copying(&copied)).word,
            compare_typed(&label, &Typing { catalogue: &run.catalogue, text, output: &typed }).word,
        ];
        self.seen.count_run(run, ran);
        words[1..].iter().for_each(|&word| self.seen.count(word));
        words
    }

    /// An output for a call that writes so many bytes: of just these, nearly so many, or any.
    fn output(&mut self, fit: usize) -> Vec<u8> {
        let length = match self.rng.below(8) {
            0 => fit.saturating_sub(self.rng.between(1, 8)),
            1 => self.rng.below(300),
            _ => fit + self.rng.below(9),
        };
        self.rng.bytes(length)
    }

    fn change(&mut self, Given { run: given, text }: &mut Given) {
        let rng = &mut self.rng;
        let Given { run: other, text: other_text } = rng.pick(&self.kept);
        match rng.below(14) {
            0..3 => change_bytes(rng, &mut given.catalogue, &other.catalogue),
            3..6 => change_bytes(rng, &mut given.question, &other.question),
            6 => change_bytes(rng, &mut given.order, &other.order),
            7 => change_tables(rng, given),
            8 => given.catalogue.clone_from(&other.catalogue),
            9..12 => change_text(rng, text, other_text, &given.question),
            12 => change_mark(rng, &mut given.catalogue),
            _ => {
                // One group more round it, alone, beside another question, or beside a short condition.
                let short = field(80, &[rng.below(3) as u8, rng.below(6) as u8, rng.byte()]);
                let beside = *rng.pick(&[&[], other.question.as_slice(), &short]);
                given.question = field(*rng.pick(&[65, 79]), &[&given.question, beside].concat());
            }
        }
        given.catalogue.truncate(LONGEST);
        given.question.truncate(LONGEST);
        text.truncate(LONGEST);
        if rng.chance(70) {
            fit(rng, given);
        }
    }
}

fn change_bytes(rng: &mut Rng, bytes: &mut Vec<u8>, other: &[u8]) {
    let mut place = |length: usize| rng.below(length + 1);
    let (a, b) = (place(bytes.len()), place(bytes.len()));
    let (from, to) = (a.min(b), a.max(b));
    match rng.below(8) {
        0 => drop(bytes.drain(from..to)),
        1 => {
            let copy = bytes[from..to].to_vec();
            bytes.splice(from..from, copy);
        }
        2 => {
            let taken = other[..rng.below(other.len() + 1)].to_vec();
            bytes.splice(from..to, taken);
        }
        3 | 4 if !bytes.is_empty() => {
            let at = rng.below(bytes.len());
            bytes[at] = *rng.pick(&TELLING);
        }
        5 if !bytes.is_empty() => {
            let at = rng.below(bytes.len());
            bytes[at] ^= 1 << rng.below(8);
        }
        _ => damage_some(rng, bytes, 100),
    }
}

/// Gives an accepted catalogue another mark, or none, or a faulty one.
fn change_mark(rng: &mut Rng, catalogue: &mut Vec<u8>) {
    let Ok(mut read) = read_catalogue(catalogue) else { return };
    read.mark = mark(rng, read.entries);
    let fault = *rng.pick(&MarkFault::ALL);
    let faulty = if rng.chance(20) { faulty_mark(rng, &read, fault) } else { None };
    *catalogue = faulty.unwrap_or_else(|| encode_catalogue(&read));
}

/// Spoils a typed text, puts a group round it and another one, or takes that of the question if it has one.
fn change_text(rng: &mut Rng, text: &mut Vec<u8>, other: &[u8], question: &[u8]) {
    match rng.below(8) {
        0 => *text = [rng.pick::<&[u8]>(&[b"all(", b"any("]), text.as_slice(), b",", other, b")"].concat(),
        1 => change_bytes(rng, text, other),
        2 => *text = spelling(question).unwrap_or_default().into(),
        _ => {
            let how = *rng.pick(&Misspelling::ALL);
            misspell(rng, text, how);
        }
    }
}

fn change_tables(rng: &mut Rng, given: &mut Run) {
    for table in [&mut given.listed, &mut given.looks, &mut given.tally] {
        if rng.chance(40) {
            let length = (table.len() + rng.below(4)).saturating_sub(rng.below(4));
            *table = rng.bytes(length);
        }
    }
    if rng.chance(20) {
        given.tally = nearly_full_tally(rng, given.reader);
    }
}

/// Gives an accepted question an order and tables that fit it, and mostly a reader and a tally that do.
fn fit(rng: &mut Rng, given: &mut Run) {
    let word = question_word(&given.catalogue, &given.question);
    if let (Ok(catalogue), 0) = (read_catalogue(&given.catalogue), word as u8) {
        let (row, count) = (catalogue.entries.div_ceil(8), (word >> 8) as usize);
        given.order = running_order(rng, count);
        (given.listed, given.looks) = (rng.bytes(row), rng.bytes(row * count));
        given.reader = any_reader(rng, 10);
        given.tally = any_tally(rng, given.reader, 10);
    }
}
