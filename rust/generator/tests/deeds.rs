//! The example's list of deeds: as the generator makes it, and as the example's page describes it.

use std::collections::{HashMap, HashSet};

use generator::deeds;

const FILE: &str = include_str!("../../../examples/deeds/deeds.csv");

/// The values of each line as they stand, quotes included. No value has a line break.
fn lines() -> impl Iterator<Item = Vec<&'static str>> {
    FILE.split_terminator('\n').map(|line| {
        let mut in_quotes = false;
        let parts = line.split(move |letter| {
            in_quotes ^= letter == '"';
            letter == ',' && !in_quotes
        });
        parts.collect()
    })
}

/// A value without the quotes around it, those inside no longer doubled.
fn without_quotes(value: &str) -> String {
    let inside = value.strip_prefix('"').and_then(|rest| rest.strip_suffix('"'));
    inside.map_or(value.into(), |inside| inside.replace("\"\"", "\""))
}

/// Year, parish, deed, depositor and withdrawn of each deed.
fn entries() -> Vec<[String; 5]> {
    let values = |line: Vec<&str>| line.into_iter().map(without_quotes).collect::<Vec<_>>();
    lines().skip(1).map(|line| values(line).try_into().expect("five values")).collect()
}

#[test]
fn as_the_generator_makes_it() {
    assert!(FILE == deeds(), "examples/deeds/deeds.csv is not what `cargo run -p generator --bin deeds` writes");
}

#[test]
fn two_thousand_entries_in_five_columns() {
    assert_eq!(lines().next().unwrap(), ["year", "parish", "deed", "depositor", "withdrawn"]);
    assert!(FILE.ends_with('\n') && !FILE.contains('\r'));
    assert_eq!(lines().count(), 2_001);
    for (number, line) in (1..).zip(lines()) {
        assert_eq!(line.len(), 5, "line {number}");
    }
}

/// Values in quotes are those that must be, and some have commas, some quotes.
#[test]
fn quotes_only_where_needed() {
    let (mut commas, mut quotes) = (0, 0);
    for (number, line) in (1..).zip(lines()) {
        for stands in line {
            let value = without_quotes(stands);
            let (comma, quote) = (value.contains(','), value.contains('"'));
            let expected =
                if comma || quote { format!("\"{}\"", value.replace('"', "\"\"")) } else { value.to_string() };
            assert_eq!(stands, expected, "line {number}");
            commas += u32::from(comma);
            quotes += u32::from(quote);
        }
    }
    assert!(commas > 100 && quotes > 0, "{commas} with a comma, {quotes} with a quote");
}

/// Each text fits in a catalogue; one is as long as can be, and some depositors have accents.
#[test]
fn texts_of_at_most_23_letters() {
    let entries = entries();
    let texts: HashSet<&String> = entries.iter().flat_map(|entry| &entry[1..4]).collect();
    for text in &texts {
        assert!(text.chars().count() <= 23, "{text}");
        assert!(text.chars().all(|letter| matches!(letter, ' '..='~' | '\u{A0}'..='\u{FF}')), "{text}");
    }
    assert!(texts.iter().any(|text| text.chars().count() == 23));
    let depositors: HashSet<&String> = entries.iter().map(|entry| &entry[3]).collect();
    assert!(depositors.iter().filter(|depositor| !depositor.is_ascii()).count() >= 5);
}

/// Years are plain numbers or blank, from 1560 to 1911, and more of the later half.
#[test]
fn years_of_the_county() {
    let (mut earlier, mut later, mut blank) = (0, 0, 0);
    for [year, ..] in entries() {
        *match year.parse::<u32>() {
            Ok(number) => {
                assert_eq!(number.to_string(), year);
                assert!((1_560..=1_911).contains(&number), "{year}");
                if number < 1_736 { &mut earlier } else { &mut later }
            }
            Err(_) => {
                assert_eq!(year, "");
                &mut blank
            }
        } += 1;
    }
    assert!(later * 2 > earlier * 3, "{earlier} before 1736, {later} after");
    assert!((50..=70).contains(&blank), "{blank} blank");
}

#[test]
fn parishes_that_begin_with_ash() {
    let entries = entries();
    let ash = entries.iter().filter(|entry| entry[1].starts_with("Ash")).count();
    let blank = entries.iter().filter(|entry| entry[1].is_empty()).count();
    assert!(ash > 400, "{ash}");
    assert!((10..=30).contains(&blank), "{blank}");
}

#[test]
fn withdrawn_yes_or_no() {
    let entries = entries();
    let of = |word: &str| entries.iter().filter(|entry| entry[4] == word).count();
    assert_eq!(of("yes") + of("no"), 2_000);
    assert!((170..=190).contains(&of("yes")), "{} withdrawn", of("yes"));
}

/// Forty depositors, some with many times the deeds of others, most with deeds of less than two hundred years, none
/// with deeds of more than a fifth of the parishes.
#[test]
fn depositors_of_a_time_and_a_place() {
    let entries = entries();
    let mut handed_in: HashMap<&str, Vec<&[String; 5]>> = HashMap::new();
    for entry in &entries {
        handed_in.entry(&entry[3]).or_default().push(entry);
    }
    assert!(handed_in.len() == 40 && !handed_in.contains_key(""));
    let numbers = || handed_in.values().map(Vec::len);
    assert!(numbers().max().unwrap() > 150 && numbers().min().unwrap() < 10);
    let short = |deeds: &&Vec<&[String; 5]>| {
        let years = || deeds.iter().filter_map(|deed| deed[0].parse::<u32>().ok());
        years().max().unwrap() - years().min().unwrap() < 200
    };
    assert!(handed_in.values().filter(short).count() > 20);
    let county: HashSet<&String> = entries.iter().map(|entry| &entry[1]).collect();
    for (depositor, deeds) in &handed_in {
        let parishes: HashSet<&String> = deeds.iter().map(|deed| &deed[1]).collect();
        assert!(parishes.len() * 5 <= county.len(), "{depositor}: {} of {}", parishes.len(), county.len());
    }
}

#[test]
fn kinds_of_deeds() {
    let kinds: HashSet<String> = entries().into_iter().map(|[_, _, deed, _, _]| deed).collect();
    assert_eq!(kinds.len(), 23);
    for kind in ["lease", "conveyance", "mortgage", "will", "bond", "surrender and admission"] {
        assert!(kinds.contains(kind), "{kind}");
    }
    assert!(!kinds.contains(""));
}

/// The deeds stand in bundles: the next one seldom has another depositor or an earlier year.
#[test]
fn bundles_by_year() {
    let breaks = |pair: &&[[String; 5]]| {
        let [one, next] = pair else { unreachable!("a window of two") };
        one[3] != next[3] || (!next[0].is_empty() && next[0] < one[0])
    };
    let bundles = 1 + entries().windows(2).filter(breaks).count();
    assert!((100..200).contains(&bundles), "{bundles}");
}
