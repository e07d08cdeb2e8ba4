use super::catalogue::{Catalogue, Column, check_catalogue};
use super::question::read_question;

/// Checks the catalogue, reads the text into question bytes, checks these, and gives them out.
pub fn typed(catalogue: &[u8], text: &[u8], output: &mut [u8]) -> Result<usize, u8> {
    let catalogue = check_catalogue(catalogue)?;
    if text.len() > 16_384 {
        return Err(21);
    }
    let mut reader = Reader { catalogue: &catalogue, rest: text, bytes: Vec::with_capacity(text.len()) };
    if reader.member().is_none() || !reader.rest.is_empty() {
        return Err(21);
    }
    read_question(&catalogue, &reader.bytes)?;
    output.get_mut(..reader.bytes.len()).ok_or(22)?.copy_from_slice(&reader.bytes);
    Ok(reader.bytes.len())
}

/// What is left of the text, and the bytes read so far. None says that the text is misspelled.
struct Reader<'a> {
    catalogue: &'a Catalogue<'a>,
    rest: &'a [u8],
    bytes: Vec<u8>,
}

impl Reader<'_> {
    fn member(&mut self) -> Option<()> {
        let tag = if self.take(b"all(") {
            65
        } else if self.take(b"any(") {
            79
        } else {
            return self.condition();
        };
        let start = self.open(tag);
        self.member()?;
        while self.take(b",") {
            self.member()?;
        }
        if !self.take(b")") {
            return None;
        }
        self.close(start);
        Some(())
    }

    fn condition(&mut self) -> Option<()> {
        let opposite = if self.take(b"not ") { 128 } else { 0 };
        if !self.take(b"c") {
            return None;
        }
        let column = self.number(255)? as u8;
        let start = self.open(80);
        if self.take(b" in ") {
            self.bytes.extend_from_slice(&[column, opposite]);
            self.range()?;
        } else if self.take(b" blank") {
            let is_text = matches!(self.catalogue.columns.get(usize::from(column)), Some(Column::Texts(_)));
            self.bytes.extend_from_slice(&[column, opposite + if is_text { 5 } else { 1 }]);
        } else {
            let kind = if self.take(b" is \"") {
                2
            } else if self.take(b" starts \"") {
                3
            } else if self.take(b" has \"") {
                4
            } else {
                return None;
            };
            self.bytes.extend_from_slice(&[column, opposite + kind]);
            self.quoted()?;
        }
        self.close(start);
        Some(())
    }

    /// Two numbers with two dots between them.
    fn range(&mut self) -> Option<()> {
        let low = self.number(u32::MAX)?;
        if !self.take(b"..") {
            return None;
        }
        let high = self.number(u32::MAX)?;
        self.bytes.extend_from_slice(&low.to_be_bytes());
        self.bytes.extend_from_slice(&high.to_be_bytes());
        Some(())
    }

    fn number(&mut self, limit: u32) -> Option<u32> {
        if self.take(b"0") {
            return Some(0);
        }
        let mut number = 0;
        let mut digits = 0;
        while let Some(digit) = self.rest.get(digits).filter(|byte| byte.is_ascii_digit()) {
            number = 10 * number + u64::from(digit - b'0');
            if number > u64::from(limit) {
                return None;
            }
            digits += 1;
        }
        self.rest = &self.rest[digits..];
        (digits > 0).then_some(number as u32)
    }

    /// What stands in quotes, from behind the first to behind the last.
    fn quoted(&mut self) -> Option<()> {
        loop {
            let (&byte, rest) = self.rest.split_first()?;
            self.rest = rest;
            let byte = match byte {
                b'"' => return Some(()),
                b'\\' => self.escaped()?,
                32..=126 => byte,
                _ => return None,
            };
            self.bytes.push(byte);
        }
    }

    /// The byte that two digits behind a backslash stand for, which may not stand for itself.
    fn escaped(&mut self) -> Option<u8> {
        let (&[high, low], rest) = self.rest.split_first_chunk()?;
        self.rest = rest;
        let byte = 16 * digit(high)? + digit(low)?;
        let is_plain = matches!(byte, 32..=126) && byte != b'"' && byte != b'\\';
        (!is_plain).then_some(byte)
    }

    fn take(&mut self, word: &[u8]) -> bool {
        let after = self.rest.strip_prefix(word);
        self.rest = after.unwrap_or(self.rest);
        after.is_some()
    }

    /// A field's head, whose length is told when it is closed.
    fn open(&mut self, tag: u8) -> usize {
        self.bytes.extend_from_slice(&[tag, 0, 0]);
        self.bytes.len()
    }

    fn close(&mut self, start: usize) {
        let length = (self.bytes.len() - start) as u16;
        self.bytes[start - 2..start].copy_from_slice(&length.to_be_bytes());
    }
}

fn digit(byte: u8) -> Option<u8> {
    match byte {
        b'0'..=b'9' => Some(byte - b'0'),
        b'A'..=b'F' => Some(byte - b'A' + 10),
        _ => None,
    }
}
