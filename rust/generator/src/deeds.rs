//! A county's list of deeds as a CSV file, in the sequence in which the bundles were handed in.

use std::iter::repeat_n;

use crate::Rng;
use crate::parish::likely_parishes;

/// Who handed deeds in: the name, how many deeds, and the first and the last year that they may be of. The deeds are
/// 2,000 together.
const DEPOSITORS: [(&str, usize, usize, usize); 40] = [
    ("Lowther, Sir James", 187, 1_617, 1_903),
    ("Dean and Chapter", 163, 1_560, 1_872),
    ("Diocesan Registry", 148, 1_571, 1_858),
    ("Pratt, Hume & Wade", 134, 1_780, 1_911),
    ("Clément & Sons", 118, 1_795, 1_911),
    ("Duchy of Lancaster", 95, 1_560, 1_847),
    ("Quarter Sessions", 83, 1_662, 1_888),
    ("Great Northern Railway", 77, 1_845, 1_911),
    ("Fairfax, Col. Thomas", 72, 1_588, 1_746),
    ("Thornhill of Langley", 66, 1_655, 1_911),
    ("County Council", 64, 1_889, 1_911),
    ("Oddy & Crewe", 61, 1_840, 1_911),
    ("Cavendish, Lady Anne", 58, 1_640, 1_811),
    ("St. John's College", 57, 1_560, 1_904),
    ("Fitzwilliam", 53, 1_702, 1_894),
    ("Musgrave, Sir Philip", 49, 1_560, 1_733),
    ("Tanner & Frith", 45, 1_861, 1_911),
    ("Ashburnham", 44, 1_563, 1_790),
    ("Board of Guardians", 41, 1_834, 1_911),
    ("Navigation Company", 38, 1_768, 1_852),
    ("Ashby Grammar School", 33, 1_584, 1_898),
    ("Stanhope, Earl", 31, 1_718, 1_877),
    ("Turnpike Trustees", 29, 1_739, 1_873),
    ("Pelham-Clay", 27, 1_733, 1_870),
    ("Trinity Hospital", 26, 1_602, 1_880),
    ("Molyneux, Hon. Mrs.", 24, 1_749, 1_856),
    ("Methodist Circuit", 22, 1_791, 1_911),
    ("Noël-Byron", 21, 1_771, 1_883),
    ("Du Maurier", 19, 1_834, 1_911),
    ("Brontë", 17, 1_802, 1_861),
    ("De Vere", 16, 1_560, 1_625),
    ("Society of Friends", 14, 1_672, 1_861),
    ("Calthorpe, Miss E.", 13, 1_866, 1_911),
    ("Gas Light & Coke Co.", 12, 1_823, 1_910),
    ("Fénelon", 11, 1_686, 1_764),
    ("The \"Bell\" Charity", 9, 1_631, 1_838),
    ("Siân Powys", 8, 1_851, 1_909),
    ("Müller, Johann", 7, 1_714, 1_789),
    ("Zoë Akroyd", 5, 1_880, 1_911),
    ("O'Hara, Dr. Brigid", 3, 1_846, 1_893),
];

/// The kinds of deeds: the name, how often, and the first and the last year in which they were drawn up.
const KINDS: [(&str, usize, usize, usize); 23] = [
    ("lease", 22, 1_560, 1_911),
    ("conveyance", 18, 1_660, 1_911),
    ("mortgage", 14, 1_560, 1_911),
    ("will", 10, 1_560, 1_911),
    ("lease and release", 10, 1_620, 1_845),
    ("bond", 8, 1_560, 1_911),
    ("surrender and admission", 7, 1_560, 1_911),
    ("settlement", 6, 1_560, 1_911),
    ("manor roll", 6, 1_560, 1_740),
    ("bargain and sale", 6, 1_560, 1_730),
    ("assignment", 5, 1_640, 1_911),
    ("abstract of title", 5, 1_780, 1_911),
    ("terrier", 4, 1_571, 1_836),
    ("marriage settlement", 4, 1_600, 1_911),
    ("probate of will", 4, 1_560, 1_911),
    ("final concord", 4, 1_560, 1_834),
    ("sale particulars", 4, 1_800, 1_911),
    ("inventory", 3, 1_560, 1_780),
    ("quitclaim", 2, 1_560, 1_650),
    ("apprentice indenture", 2, 1_600, 1_834),
    ("enclosure award", 2, 1_760, 1_869),
    ("tithe award", 1, 1_836, 1_852),
    ("letters patent", 1, 1_560, 1_911),
];

/// The CSV file's text: the columns' names and 2,000 deeds, in UTF-8.
pub fn deeds() -> String {
    let mut rng = Rng::new(1_882);
    let parishes = parishes(&mut rng);
    let mut bundles = Vec::new();
    for (place, &(depositor, deeds, first, last)) in DEPOSITORS.iter().enumerate() {
        // Whoever handed in more held land in more parishes; the depositors' lands lie side by side and overlap.
        let home = place * parishes.len() / DEPOSITORS.len();
        let lands: Vec<&str> = parishes.iter().cycle().skip(home).take(2 + deeds / 8).map(String::as_str).collect();
        let mut left = deeds;
        while left > 0 {
            let size = rng.between(1, 30).min(left);
            bundles.push(bundle(&mut rng, size, depositor, &lands, first, last));
            left -= size;
        }
    }
    rng.shuffle(&mut bundles);
    format!("year,parish,deed,depositor,withdrawn\n{}", bundles.concat())
}

/// The county's parishes, neighbours side by side. Those that begin with Ash are the most divided.
fn parishes(rng: &mut Rng) -> Vec<String> {
    let mut parishes = likely_parishes();
    for name in likely_parishes().iter().filter(|name| !name.contains(' ')) {
        for part in [" Magna", " Parva", "-on-Sea"] {
            if name.starts_with("Ash") || rng.chance(15) {
                parishes.push(format!("{name}{part}"));
            }
        }
    }
    rng.shuffle(&mut parishes);
    parishes
}

/// The lines of some deeds of one depositor, by year. A deed whose year is not known stands where it would with it.
fn bundle(rng: &mut Rng, size: usize, depositor: &str, lands: &[&str], first: usize, last: usize) -> String {
    let mut years: Vec<usize> = (0..size).map(|_| rng.between(first, last)).collect();
    years.sort_unstable();
    let line = |year: usize| {
        let known = if rng.chance(3) { String::new() } else { year.to_string() };
        // The nearer to home, the more deeds.
        let reach = rng.between(1, lands.len());
        let parish = if rng.chance(1) { "" } else { lands[rng.below(reach)] };
        let withdrawn = if rng.chance(9) { "yes" } else { "no" };
        [&known, parish, kind(rng, year), depositor, withdrawn].map(quoted).join(",") + "\n"
    };
    years.into_iter().map(line).collect()
}

/// A kind of deed that was drawn up in the year.
fn kind(rng: &mut Rng, year: usize) -> &'static str {
    let of_year = KINDS.iter().filter(|(_, _, first, last)| (*first..=*last).contains(&year));
    let choices: Vec<&str> = of_year.flat_map(|&(kind, often, _, _)| repeat_n(kind, often)).collect();
    choices[rng.below(choices.len())]
}

/// A value as it stands in the file: in quotes only if it must be.
fn quoted(value: &str) -> String {
    if value.contains([',', '"', '\n', '\r']) { format!("\"{}\"", value.replace('"', "\"\"")) } else { value.into() }
}
