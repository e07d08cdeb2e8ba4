//! The C header repeats numbers of the crates: each is the same in both, and the header's version is the workspace's.
//! At each call it says since which release the call is there. Its example of a typed question is read into the bytes
//! that it shows.

use std::collections::BTreeMap;
use std::fs;
use std::path::Path;

use searchroom::{
    Answer, COPY_BYTES, MAX_COLUMNS, MAX_CONDITIONS, MAX_DEPTH, MAX_ENTRIES, MAX_TEXT, MAX_TYPED, Refusal, TYPED_BYTES,
    Tally, typed_question,
};
use trials::PARISH_CATALOGUE;

const HEADER: &str = include_str!("../../../include/searchroom.h");

/// A constant of the header and the crates' constant that it repeats.
const SAME: [(&str, &str); 31] = [
    ("MAX_ENTRIES", "Row::LIMIT"),
    ("MAX_COLUMNS", "Column::LIMIT"),
    ("MAX_TEXT", "Text::LIMIT"),
    ("MAX_CONDITIONS", "Predicate::LIMIT"),
    ("MAX_DEPTH", "Group::DEPTH_LIMIT"),
    ("READERS", "Reader::LIMIT"),
    ("COPY_FIELD_BYTES", "ProbeField::SIZE"),
    ("MAX_TYPED", "TypedText::LIMIT"),
    ("CATALOGUE_FIELD", "Refusal::FieldCut"),
    ("CATALOGUE_HEADER", "Refusal::NotCatalogue"),
    ("CATALOGUE_LIMITS", "Refusal::CountsOutOfRange"),
    ("COLUMN_FORM", "Refusal::NotColumn"),
    ("TEXT_SLOT", "Refusal::BadSlot"),
    ("CATALOGUE_LEFT_OVER", "Refusal::BytesLeftOver"),
    ("QUESTION_FIELD", "Refusal::MemberCut"),
    ("UNKNOWN_TAG", "Refusal::UnknownTag"),
    ("EMPTY_GROUP", "Refusal::EmptyGroup"),
    ("TOO_DEEP", "Refusal::TooDeep"),
    ("BAD_CONDITION", "Refusal::InvalidPayload"),
    ("TOO_MANY_CONDITIONS", "Refusal::TooManyPredicates"),
    ("REPEATED_CONDITION", "Refusal::RepeatedPayload"),
    ("QUESTION_LEFT_OVER", "Refusal::BytesAfterQuery"),
    ("BAD_ORDER", "Refusal::NotOrder"),
    ("SHORT_TABLE", "Refusal::TableTooShort"),
    ("BAD_TALLY", "Refusal::TallyRefused"),
    ("NO_SUCH_PLACE", "Refusal::NoSuchRowOrPredicate"),
    ("SHORT_OUTPUT", "Refusal::OutputTooShort"),
    ("MISSPELLED", "Refusal::TextMisspelled"),
    ("SHORT_TYPED_OUTPUT", "Refusal::TypedOutputTooShort"),
    ("BAD_MARK", "Refusal::BadMark"),
    ("NO_SUCH_READER", "Refusal::NoSuchReader"),
];

/// Refusal 19 is the program's, and no call of the library gives it.
const PROGRAM_ALONE: &str = "Refusal::Unreadable";

type Constants = BTreeMap<String, u64>;

/// The constants of the header's enums, without the prefix that all of them have.
fn header_constants() -> Constants {
    let constant = |line: &str| {
        let (name, rest) = line.strip_prefix("    SEARCHROOM_")?.split_once(" = ")?;
        let digits: String = rest.chars().take_while(char::is_ascii_digit).collect();
        Some((name.to_string(), digits.parse().expect(line)))
    };
    HEADER.lines().filter_map(constant).collect()
}

/// The name and value of an associated constant, if this line of a crate has one that is a decimal number.
fn constant(line: &str) -> Option<(&str, u64)> {
    let (name, rest) = line.strip_prefix("    pub const ")?.split_once(": ")?;
    let (_, value) = rest.strip_suffix(';')?.split_once(" = ")?;
    Some((name, value.parse().ok()?))
}

/// The name and number of a refusal, if this line of a crate gives one, as `Refusal::BadMark => 23,`.
fn refusal(line: &str) -> Option<(&str, u64)> {
    let (name, number) = line.trim_start().strip_suffix(',')?.split_once(" => ")?;
    name.strip_prefix("Refusal::")?;
    Some((name, number.parse().ok()?))
}

/// The crates' constants, each with the name of its type, as `Row::LIMIT`, and the numbers of their refusals.
fn crate_constants() -> Constants {
    let crates = Path::new(env!("CARGO_MANIFEST_DIR")).join("../../crates");
    let mut found = Constants::new();
    let mut add = |name: String, value| {
        assert_eq!(*found.entry(name.clone()).or_insert(value), value, "{name} has two values");
    };
    for folder in fs::read_dir(crates).unwrap() {
        for file in fs::read_dir(folder.unwrap().path().join("src")).unwrap() {
            let mut owner = String::new();
            for line in fs::read_to_string(file.unwrap().path()).unwrap().lines() {
                if let Some(of) = line.strip_prefix("impl ") {
                    owner = of.trim_end_matches(" {").to_string();
                } else if let Some((name, value)) = constant(line) {
                    add(format!("{owner}::{name}"), value);
                } else if let Some((name, number)) = refusal(line) {
                    add(name.to_string(), number);
                }
            }
        }
    }
    found
}

#[test]
fn header_has_the_constants_of_the_crates() {
    let of = crate_constants();
    let mut expected: Constants = SAME.iter().map(|&(name, same)| (name.to_string(), of[same])).collect();
    let row = of["Row::LIMIT"].div_ceil(8);
    expected.insert("ACCEPTED".to_string(), 0);
    expected.insert("MARK_BYTES".to_string(), row);
    expected.insert("LISTED_BYTES".to_string(), row);
    expected.insert("LOOKS_BYTES".to_string(), row * of["Predicate::LIMIT"]);
    expected.insert("TALLY_BYTES".to_string(), of["Reader::LIMIT"] * of["Counter::SIZE"]);
    let most_looks = of["Row::LIMIT"] * of["Predicate::LIMIT"];
    expected.insert("COPY_BYTES".to_string(), of["ProbeField::SIZE"] * most_looks);
    // The first field, text columns alone, and the mark.
    let head = of["Header::SIZE"];
    let column = head + of["Row::LIMIT"] * of["Text::SLOT_SIZE"];
    let catalogue = head + of["FirstField::SIZE"] + of["Column::LIMIT"] * column + head + row;
    expected.insert("CATALOGUE_BYTES".to_string(), catalogue);
    // Each condition as long as can be, in groups of its own down to the deepest, all in the outermost.
    let condition = head + of["Payload::HEAD"] + of["Text::LIMIT"];
    let groups = head * (of["Group::DEPTH_LIMIT"] - 1);
    expected.insert("TYPED_BYTES".to_string(), head + of["Predicate::LIMIT"] * (groups + condition));
    // The crates have no constants for these: that the engine answers the wrapper's numbers is seen in outcome.rs.
    for (name, answer) in [("NO", Answer::No), ("YES", Answer::Yes), ("BLANK", Answer::Blank)] {
        expected.insert(name.to_string(), answer.number().into());
    }
    let header = header_constants();
    for name in header.keys().chain(expected.keys()) {
        assert_eq!(header.get(name), expected.get(name), "SEARCHROOM_{name}: the header's and the crates'");
    }
    for (name, of_wrapper) in [
        ("MAX_ENTRIES", MAX_ENTRIES),
        ("MAX_COLUMNS", MAX_COLUMNS),
        ("MAX_TEXT", MAX_TEXT),
        ("MAX_CONDITIONS", MAX_CONDITIONS),
        ("MAX_DEPTH", MAX_DEPTH),
        ("READERS", Tally::READERS as usize),
        ("TALLY_BYTES", Tally::BYTES),
        ("COPY_BYTES", COPY_BYTES),
        ("MAX_TYPED", MAX_TYPED),
        ("TYPED_BYTES", TYPED_BYTES),
    ] {
        assert_eq!(header[name], of_wrapper as u64, "SEARCHROOM_{name}: the header's and the wrapper's");
    }
}

#[test]
fn every_refusal_of_the_crates_is_in_the_header_and_in_the_wrapper() {
    let mut of_crates: Vec<u64> = Vec::new();
    for (name, number) in crate_constants() {
        if name.starts_with("Refusal::") && name != PROGRAM_ALONE {
            assert!(SAME.iter().any(|&(_, same)| same == name), "{name} is not in the header");
            of_crates.push(number);
        }
    }
    of_crates.sort_unstable();
    let of_wrapper: Vec<u64> = Refusal::ALL.iter().map(|refusal| refusal.number().into()).collect();
    assert_eq!(of_crates, of_wrapper);
}

#[test]
fn refusals_have_the_same_texts_in_c_and_in_rust() {
    let numbers = header_constants();
    let text = |line: &str| {
        let (name, text) = line.trim().strip_prefix("case SEARCHROOM_")?.split_once(": return \"")?;
        Some((numbers[name], text.strip_suffix("\";")?.to_string()))
    };
    let of_c: BTreeMap<u64, String> = HEADER.lines().filter_map(text).collect();
    let of_rust = Refusal::ALL.iter().map(|refusal| (refusal.number().into(), refusal.text().to_string()));
    let accepted = [(0, "accepted".to_string())];
    assert_eq!(of_c, accepted.into_iter().chain(of_rust).collect());
}

#[test]
fn example_of_a_typed_question_is_read_into_its_bytes() {
    let (before, after) = HEADER.split_once("\n * is read into the 32 bytes\n").expect("the example");
    let text = before.lines().last().unwrap().trim_start_matches([' ', '*']);
    let digits = after.lines().next().unwrap().trim_start_matches([' ', '*']).split(' ');
    let bytes: Vec<u8> = digits.map(|two| u8::from_str_radix(two, 16).expect(two)).collect();
    assert_eq!(bytes.len(), 32);
    assert_eq!(typed_question(PARISH_CATALOGUE, text.as_bytes()), Ok(bytes), "{text}");
}

/// The release of the workspace.
const RELEASE: &str = env!("CARGO_PKG_VERSION");

/// The number that `#if` compares: of `0.7.1` it is 701.
fn release_number(release: &str) -> u32 {
    release.split('.').fold(0, |number, part| 100 * number + part.parse::<u32>().expect(release))
}

#[test]
fn header_has_the_version_of_the_workspace() {
    let number = release_number(RELEASE);
    assert!(HEADER.contains(&format!("\n#define SEARCHROOM_VERSION \"{RELEASE}\"\n")));
    assert!(HEADER.contains(&format!("\n#define SEARCHROOM_VERSION_NUMBER {number}\n")));
}

#[test]
fn every_call_says_since_which_release_it_is_there() {
    let texts: Vec<&str> = HEADER.split("\nuint64_t searchroom_").collect();
    let (_, before_calls) = texts.split_last().expect("the header");
    assert!(!before_calls.is_empty(), "the header declares no call");
    for before in before_calls {
        let comment = before.rsplit("/*").next().expect("a comment");
        let since = comment.lines().find_map(|line| line.strip_prefix(" * Since "));
        let since = since.unwrap_or_else(|| panic!("no release stands at the call:\n{comment}"));
        let releases = since.split(' ').filter(|word| word.starts_with(|first: char| first.is_ascii_digit()));
        let numbers: Vec<u32> = releases.map(|word| release_number(word.trim_end_matches(['.', ';']))).collect();
        assert!(!numbers.is_empty() && numbers.iter().all(|&number| number <= release_number(RELEASE)), "{since}");
    }
}
