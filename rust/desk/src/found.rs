//! A run of the engine's, its tables taken apart.

use searchroom::{Counts, Refusal, Tally, bit};

use crate::catalogue::Catalogue;
use crate::failure::Failure;
use crate::folder::Folder;
use crate::question::Question;
use crate::show::counted;

/// What an accepted run found.
pub struct Found {
    pub counts: Counts,
    /// The listed entries, ascending.
    pub listed: Vec<usize>,
    /// For each condition the number of entries at which it was looked at.
    pub looks: Vec<usize>,
}

impl Found {
    /// "2 of 3 entries found", and how many are withdrawn.
    pub fn listing(&self, catalogue: &Catalogue) -> String {
        let (entries, withdrawn) = (catalogue.entries, catalogue.withdrawn());
        let withdrawn = match withdrawn {
            0 => String::new(),
            _ => format!(" ({} withdrawn)", counted(withdrawn, "is", "are")),
        };
        format!("{} of {} found{withdrawn}", self.counts.found, counted(entries, "entry", "entries"))
    }

    /// "6 looks instead of 9": of a look at every condition of every entry still in the house.
    pub fn looking(&self, catalogue: &Catalogue) -> String {
        let looks = counted(self.counts.looks as usize, "look", "looks");
        format!("{looks} instead of {}", catalogue.present() * self.looks.len())
    }
}

/// Runs a question for a reader. The tally's bytes, as many as there are, are the engine's to judge.
pub fn run(
    folder: &Folder,
    question: &Question,
    order: &[u8],
    reader: u64,
    tally: &mut [u8],
) -> Result<Found, Failure> {
    let row = folder.catalogue.entries.div_ceil(8);
    let mut listed = vec![0; row];
    let mut looks = vec![0; row * question.conditions().len()];
    let counts = searchroom::run(&folder.bytes, &question.bytes, order, reader, &mut listed, &mut looks, tally)
        .map_err(|refusal| Failure::Refused { refusal, help: advice(refusal, question, tally.len()) })?;
    let ones = |row: &[u8]| (0..folder.catalogue.entries).filter(|&entry| bit(row, entry)).collect::<Vec<_>>();
    let looks = (0..question.conditions().len()).map(|number| ones(&looks[number * row..][..row]).len()).collect();
    Ok(Found { counts, listed: ones(&listed), looks })
}

/// Runs a question whose looks are added to no tally that is kept.
pub fn run_without_tally(folder: &Folder, question: &Question, order: &[u8]) -> Result<Found, Failure> {
    run(folder, question, order, 0, Tally::default().bytes_mut())
}

/// What to do about a refusal of the order or the tally; the others say it themselves.
fn advice(refusal: Refusal, question: &Question, tally_bytes: usize) -> String {
    match refusal {
        Refusal::BadOrder => match question.conditions().len() {
            1 => "\n  the question has one condition: its order is 0".to_owned(),
            count => format!("\n  the question has {count} conditions: name each number from 0 to {} once", count - 1),
        },
        Refusal::BadTally if tally_bytes != Tally::BYTES => {
            // One byte too many is the most that is read of it.
            let bytes = match tally_bytes > Tally::BYTES {
                true => format!("more than {} bytes", Tally::BYTES),
                false => counted(tally_bytes, "byte", "bytes"),
            };
            format!("\n  the tally's file has {bytes}: name another, or one that is not there yet")
        }
        Refusal::BadTally => "\n  keep this tally as it is, and begin another".to_owned(),
        _ => String::new(),
    }
}
