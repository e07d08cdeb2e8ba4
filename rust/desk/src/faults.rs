//! The faults of a CSV file, counted and told. However many there are, only the first of them are kept, and the first
//! of each kind.

use crate::fault::{self, Cell, Fault, What};

/// With more faults than these a summary stands before them.
const FEW: usize = 5;
/// How many faults are told one by one.
const TOLD: usize = 20;
/// How many kinds are summed up: more than a file has whose columns fit a catalogue.
const KINDS: usize = 100;

#[derive(Default)]
pub struct Faults {
    count: usize,
    /// The first, by their lines and columns.
    told: Vec<Fault>,
    kinds: Vec<Kind>,
}

/// The faults of one kind in one column, or in the lines as a whole.
struct Kind {
    key: Key,
    count: usize,
    first: Fault,
    /// The letters of the longest text, where texts are too long.
    longest: usize,
}

type Key = (Option<usize>, fault::Kind);

impl Faults {
    pub fn count(&self) -> usize {
        self.count
    }

    /// Adds a fault. Those of one kind in one column come as their lines do.
    pub fn add(&mut self, fault: Fault) {
        self.count += 1;
        self.sum_up(&fault);
        let at = self.told.partition_point(|other| place(other) <= place(&fault));
        if at < TOLD {
            self.told.insert(at, fault);
            self.told.truncate(TOLD);
        }
    }

    fn sum_up(&mut self, fault: &Fault) {
        let letters = if let What::Long(letters) = fault.what { letters } else { 0 };
        let key = key(fault);
        if let Some(kind) = self.kinds.iter_mut().find(|kind| kind.key == key) {
            kind.count += 1;
            kind.longest = kind.longest.max(letters);
        } else if self.kinds.len() < KINDS {
            self.kinds.push(Kind { key, count: 1, first: fault.clone(), longest: letters });
        }
    }

    /// The faults in lines: where there are more than a few first a summary, then the first of them, then how many are
    /// left.
    pub fn lines(&self, file: &str) -> Vec<String> {
        let one = |fault: &Fault| format!("{file}, {fault}");
        let mut kinds: Vec<&Kind> = self.kinds.iter().filter(|_| self.count > FEW).collect();
        kinds.sort_by_key(|kind| (kind.key.0, kind.first.line));
        // The only fault of a kind sums up nothing: it is told as it is, once.
        let is_told = |kind: &Kind| self.told.iter().any(|fault| key(fault) == kind.key);
        kinds.retain(|kind| kind.count > 1 || !is_told(kind));
        let alone = kinds.iter().filter(|kind| kind.count == 1).count();
        let summary = kinds.iter().map(|kind| if kind.count == 1 { one(&kind.first) } else { kind.line(file) });
        let mut lines: Vec<String> = summary.chain(self.told.iter().map(one)).collect();
        let more = self.count - self.told.len() - alone;
        if more > 0 {
            lines.push(format!("and {more} more"));
        }
        lines
    }
}

impl Kind {
    fn line(&self, file: &str) -> String {
        let Kind { count, first, longest, .. } = self;
        let column = first.cell.as_ref().map(Cell::column).unwrap_or_default();
        let many = first.what.many(*count, first.line, &column, *longest);
        if self.key.0.is_some() { format!("{file}, {column}: {many}") } else { format!("{file}: {many}") }
    }
}

fn place(fault: &Fault) -> (usize, Option<usize>) {
    (fault.line, fault.cell.as_ref().map(|cell| cell.place))
}

/// What a fault has in common with others.
fn key(fault: &Fault) -> Key {
    let column = fault.cell.as_ref().map(|cell| cell.place);
    (column.filter(|_| !fault.what.is_of_first_line()), fault.what.kind())
}
