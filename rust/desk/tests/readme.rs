//! What the pages say, done as a newcomer would: the commands are copied from the page, and print what it says.

mod desk {
    pub mod room;
}

use std::os::unix::fs::symlink;
use std::path::Path;
use std::process::Command;
use std::{env, fs};

use desk::room::{Room, Said};

const ROOT: &str = concat!(env!("CARGO_MANIFEST_DIR"), "/../..");

/// A page of the repository.
fn page(name: &str) -> String {
    fs::read_to_string(Path::new(ROOT).join(name)).expect("a page")
}

/// The blocks of a page that are set in by four spaces, without these. An empty line inside a block stays.
fn blocks(page: &str) -> Vec<String> {
    let mut blocks: Vec<String> = Vec::new();
    let mut inside = false;
    for line in page.lines() {
        match (line.strip_prefix("    "), inside) {
            (Some(text), true) => blocks.last_mut().expect("a block").extend([text, "\n"]),
            (Some(text), false) => blocks.push(format!("{text}\n")),
            (None, true) if line.is_empty() => blocks.last_mut().expect("a block").push('\n'),
            (None, _) => {}
        }
        inside = line.starts_with("    ") || inside && line.is_empty();
    }
    blocks.iter().map(|block| format!("{}\n", block.trim_end_matches('\n'))).collect()
}

/// A room that looks like the repository: the examples, and a folder for what is made.
fn repository() -> Room {
    let room = Room::new();
    symlink(Path::new(ROOT).join("examples"), room.path("examples")).expect("a link");
    fs::create_dir(room.path("target")).expect("a new folder");
    room
}

/// Runs commands in a shell that finds the program.
fn shell(room: &Room, commands: &str) -> Said {
    let program = Path::new(env!("CARGO_BIN_EXE_searchroom")).parent().expect("the program's folder");
    let path = format!("{}:{}", program.display(), env::var("PATH").expect("a search path"));
    let output = Command::new("sh").args(["-ec", commands]).current_dir(room.path("")).env("PATH", path).output();
    Said::of(output.expect("a shell"))
}

#[test]
fn readme_gets_from_a_csv_file_to_a_list_a_register_and_a_picture() {
    let blocks = blocks(&page("README.md"));
    let [make, commands, printed, explain, explained, ..] = blocks.as_slice() else { panic!("{blocks:?}") };
    assert_eq!(make, "make desk && PATH=$PWD/target/bin:$PATH\n");
    let room = repository();
    let said = shell(&room, commands).done();
    let (imported, rest) = said.split_at(said.len() - printed.len());
    assert!(
        imported.starts_with("2000 entries, 182 of them withdrawn, in 4 columns: target/deeds/catalogue.bin\n"),
        "{said}"
    );
    assert_eq!(rest, printed);
    assert_eq!(fs::read(room.path("target/deeds/tally.bin")).expect("the tally").len(), 128);
    let (question, _) = commands.split_once('\n').expect("the question stands in the first line");
    assert_eq!(shell(&room, &format!("{question}\n{explain}")).done(), *explained);
}

#[test]
fn readme_shows_the_picture_that_is_drawn() {
    let blocks = blocks(&page("README.md"));
    let room = repository();
    shell(&room, &blocks[1]).done();
    assert!(page("README.md").contains("](examples/deeds/question.svg)\n"));
    let drawn = fs::read_to_string(room.path("target/deeds/question.svg")).expect("the picture");
    assert_eq!(drawn, page("examples/deeds/question.svg"));
}

/// Every question of the example's page is taken, and finds something.
#[test]
fn questions_of_the_deeds() {
    let page = page("examples/deeds/README.md");
    let (_, questions) = page.split_once("\n## Questions\n").expect("the questions");
    let room = repository();
    room.run(&["import", "examples/deeds/deeds.csv", "target/deeds"]).done();
    let mut asked = 0;
    for question in blocks(questions).iter().filter(|block| !block.starts_with("searchroom ")) {
        let said = room.run(&["ask", "target/deeds", question]).done();
        assert!(!said.starts_with("0 of "), "{question}{said}");
        asked += 1;
    }
    assert_eq!(asked, 7);
}

/// The page of the desk shows faults, a caret and JSON as they are printed.
#[test]
fn page_of_the_desk() {
    let blocks = blocks(&page("docs/DESK.md"));
    let block = |start: &str| blocks.iter().find(|block| block.starts_with(start)).expect(start);
    let room = repository();

    room.set(
        "bonds.csv",
        "year,parish,withdrawn\n1701,Ashby-de-la-Zouch Saint Helen,yes\n1,a,no\n2,b,no\n3,c,no\n4,d\n",
    );
    assert_eq!(room.run(&["import", "bonds.csv", "bonds"]).failed(1), *block("bonds.csv, "));

    let parish = |letters: usize| format!("1701,{}\n", "a".repeat(letters));
    room.set("bonds.csv", format!("year,parish\n{}{}\n\n", parish(24).repeat(56), parish(88)));
    let said = room.run(&["import", "bonds.csv", "bonds"]).failed(1);
    assert!(said.starts_with(block("bonds.csv: 2 empty")), "{said}");
    room.set("bonds.csv", "year;parish;deed\n1701;Ashby-de-la-Zouch;lease\n");
    let said = room.run(&["import", "bonds.csv", "bonds"]).failed(1);
    assert!(said.starts_with(block("bonds.csv: the first line")), "{said}");

    room.set("parish.csv", "year,parish\n1701,Ash\n1822,ASHBY\n,\n");
    room.run(&["import", "parish.csv", "parish"]).done();
    let refused = block("searchroom: refused 21");
    let typed = refused.lines().nth(1).expect("the question").trim_start();
    assert_eq!(room.run(&["ask", "parish", typed]).failed(1), *refused);

    let question = r#"any(all(year in 1700..1799, parish starts "ash"), year blank)"#;
    let words = ["ask", "parish", question, "--reader", "3", "--tally", "tally.bin", "--json"];
    let on_one_line: String = block("{\"entries\"").lines().map(str::trim_start).collect();
    assert_eq!(room.run(&words).done(), on_one_line + "\n");
}
