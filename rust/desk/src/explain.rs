//! `searchroom explain`: a question's tree at one entry. The looks and their answers are those of the engine's copy of the
//! register; the desk only names the group that an answer settled.

use std::io::Write;

use searchroom::{Answer, copy_of, looks, outcome};

use crate::catalogue::Column;
use crate::failure::Failure;
use crate::folder::Folder;
use crate::found::run_without_tally;
use crate::notation::{Kind, Part};
use crate::question::Question;
use crate::request::Request;
use crate::show::{Paint, counted, shown};
use crate::words::Explain;

pub fn explain(explain: &Explain, paint: Paint, out: &mut dyn Write) -> Result<(), Failure> {
    let Request { folder, question, order } = Request::read(&explain.asked)?;
    let entry = existing(&folder, &question, explain.entry)?;
    let found = run_without_tally(&folder, &question, &order)?;
    let mut answers = vec![None; question.conditions().len()];
    for look in looks(&copy_of(&folder.bytes, &question.bytes, &order)?) {
        if usize::from(look.entry) == entry {
            answers[usize::from(look.condition)] = Some(look.answer);
        }
    }
    let at = AtEntry { withdrawn: folder.catalogue.is_withdrawn(entry), question, order, answers };
    print_entry(&folder, entry, &at.order, out)?;
    at.print_tree(&folder, paint, out)?;
    let made = at.answers.iter().flatten().count();
    let passed = at.answers.len() - made;
    let counts = format!("{}, {passed} passed", counted(made, "look", "looks"));
    match (at.withdrawn, found.listed.contains(&entry)) {
        (true, _) => writeln!(out, "\n{}", paint.bold("not listed: withdrawn"))?,
        (false, true) => writeln!(out, "\n{}", paint.bold(&format!("listed: {counts}")))?,
        (false, false) => writeln!(out, "\n{}", paint.bold(&format!("not listed: {counts}")))?,
    }
    Ok(())
}

/// An entry's number, if there is such an entry. Else the engine is asked, and works nothing out where it refuses.
fn existing(folder: &Folder, question: &Question, entry: u64) -> Result<usize, Failure> {
    let entries = folder.catalogue.entries;
    let found = usize::try_from(entry).ok().filter(|&entry| entry < entries);
    found.ok_or_else(|| {
        let refusal = outcome(&folder.bytes, &question.bytes, entry, 0).expect_err("there is no such entry");
        let help = match entries.checked_sub(1) {
            Some(last) => format!("\n  the entries are 0 to {last}"),
            None => "\n  the catalogue has no entries".to_owned(),
        };
        Failure::Refused { refusal, help }
    })
}

/// The entry's values, and the running order.
fn print_entry(folder: &Folder, entry: usize, order: &[u8], out: &mut dyn Write) -> Result<(), Failure> {
    let value = |(name, column): (&str, &Column)| {
        format!("{} {}", shown(name), column.value(entry).map_or("(blank)".to_owned(), |value| shown(&value)))
    };
    let values: Vec<String> = folder.names().into_iter().zip(&folder.catalogue.columns).map(value).collect();
    let order: Vec<String> = order.iter().map(u8::to_string).collect();
    writeln!(out, "entry {entry}: {}\nrunning order {}\n", values.join(", "), order.join(", "))?;
    Ok(())
}

/// A question at an entry.
struct AtEntry {
    question: Question,
    order: Vec<u8>,
    /// What each condition answered that was looked at.
    answers: Vec<Option<Answer>>,
    withdrawn: bool,
}

impl AtEntry {
    fn print_tree(&self, folder: &Folder, paint: Paint, out: &mut dyn Write) -> Result<(), Failure> {
        let names = folder.names();
        let settled = self.settled(self.order.len());
        let (mut depth, mut group) = (0, 0);
        let mut lines: Vec<(String, Option<String>)> = Vec::new();
        for part in &self.question.written.parts {
            let indent = "  ".repeat(depth);
            match part {
                Part::Opens(kind, _) => {
                    let state = match settled[group] {
                        Some(value) => format!("settled, {}", word(value)),
                        None => "not settled".to_owned(),
                    };
                    lines.push((format!("{indent}group {group}, {} of: {state}", kind.word()), None));
                    group += 1;
                    depth += 1;
                }
                Part::Condition(number) => {
                    let text = self.question.conditions()[*number].shown(&names);
                    lines.push((format!("{indent}condition {number}  {text}"), Some(self.told(*number, paint))));
                }
                Part::Closes => depth -= 1,
            }
        }
        let letters = |line: &str| line.chars().count();
        let conditions = lines.iter().filter(|(_, told)| told.is_some());
        let wide = conditions.map(|(line, _)| letters(line)).max().unwrap_or_default();
        for (line, told) in lines {
            match told {
                Some(told) => writeln!(out, "{line:<wide$}   {told}")?,
                None => writeln!(out, "{line}")?,
            }
        }
        Ok(())
    }

    /// What came of a condition: its answer, or why it was passed.
    fn told(&self, condition: usize, paint: Paint) -> String {
        match self.answers[condition] {
            Some(Answer::Yes) => format!("looked at: {}", paint.green("yes")),
            Some(Answer::No) => format!("looked at: {}", paint.red("no")),
            Some(Answer::Blank) => format!("looked at: {}", paint.red("blank")),
            None if self.withdrawn => paint.dim("passed: the entry is withdrawn"),
            None => paint.dim(&self.why_passed(condition)),
        }
    }

    /// The innermost settled group around a condition at its turn, and the look that settled it: the last one inside, because
    /// in a settled group nothing more is looked at.
    fn why_passed(&self, condition: usize) -> String {
        let turn = self.order.iter().position(|&number| usize::from(number) == condition);
        let turn = turn.expect("an accepted order holds every condition");
        let settled = self.settled(turn);
        let group = self.question.around(condition).find_map(|group| Some((group, settled[group]?)));
        let (group, value) = group.expect("a condition is passed where a group around it is settled");
        let inside = &self.question.groups[group].conditions;
        let looked =
            |&&number: &&u8| inside.contains(&usize::from(number)) && self.answers[usize::from(number)].is_some();
        let last = self.order[..turn].iter().rev().find(looked).expect("a look settles a group");
        format!("passed: group {group} is settled, {}, by condition {last}", word(value))
    }

    /// For each group the value to which the looks of the first turns settle it. A blank is taken as no.
    fn settled(&self, turns: usize) -> Vec<Option<bool>> {
        let Question { groups, .. } = &self.question;
        let mut known = vec![None; self.answers.len()];
        for &number in &self.order[..turns] {
            let condition = usize::from(number);
            known[condition] = self.answers[condition].map(|answer| answer == Answer::Yes);
        }
        let mut values = vec![None; groups.len()];
        // Those further in come first.
        for (number, group) in groups.iter().enumerate().rev() {
            let own =
                group.conditions.clone().filter(|&condition| self.question.around(condition).next() == Some(number));
            let inner = (0..groups.len()).filter(|&inner| groups[inner].parent == Some(number));
            let members: Vec<Option<bool>> = own.map(|c| known[c]).chain(inner.map(|inner| values[inner])).collect();
            let settling = group.kind == Kind::Any;
            values[number] = if members.contains(&Some(settling)) {
                Some(settling)
            } else {
                members.iter().all(Option::is_some).then_some(!settling)
            };
        }
        values
    }
}

fn word(value: bool) -> &'static str {
    if value { "yes" } else { "no" }
}
