//! CSV written and read apart from the program's.

/// Reads CSV that is sound: records parted by line breaks, values by the separator, quotes doubled inside quotes.
pub fn read_csv(text: &str, separator: char) -> Vec<Vec<String>> {
    let mut records = Vec::new();
    let (mut record, mut value) = (Vec::new(), String::new());
    let mut letters = text.chars().peekable();
    let mut in_quotes = false;
    while let Some(letter) = letters.next() {
        match letter {
            '"' if in_quotes && letters.peek() == Some(&'"') => value.extend(letters.next()),
            '"' => in_quotes = !in_quotes,
            _ if in_quotes => value.push(letter),
            '\r' if letters.peek() == Some(&'\n') => {}
            '\n' => {
                record.push(std::mem::take(&mut value));
                records.push(std::mem::take(&mut record));
            }
            _ if letter == separator => record.push(std::mem::take(&mut value)),
            _ => value.push(letter),
        }
    }
    if !(record.is_empty() && value.is_empty()) {
        record.push(value);
        records.push(record);
    }
    records
}
