use crate::refusal::Number;
use crate::run::find;
use crate::tables::read_order;
use crate::word::read_both;

const HEADER: &str = "consultation register\n";

/// What `consult` prints for the contents of its three files.
pub fn register(catalogue: &[u8], question: &[u8], order: &[u8]) -> String {
    accepted_register(catalogue, question, order).unwrap_or_else(refused_register)
}

/// What `consult` prints for a refusal.
pub fn refused_register(number: Number) -> String {
    format!("{HEADER}refused {number}\n")
}

fn accepted_register(catalogue: &[u8], question: &[u8], order: &[u8]) -> Result<String, Number> {
    let (catalogue, question) = read_both(catalogue, question)?;
    let order = read_order(order, question.conditions.len())?;
    let found = find(&catalogue, &question, &order);
    let mut lines = vec![format!("found {}", found.found_count())];
    let listed = (0..catalogue.entries).filter(|&entry| found.listed[entry]);
    lines.extend(listed.map(|entry| format!("entry {entry}")));
    lines.push(format!("looks {}", found.look_count()));
    let looks = (0..question.conditions.len()).map(|condition| (condition, found.looks_at(condition)));
    lines.extend(looks.map(|(condition, looks)| format!("condition {condition} {looks}")));
    Ok(HEADER.to_owned() + &lines.join("\n") + "\n")
}
