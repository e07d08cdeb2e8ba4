use evaluator::{BLANK_NUMBER, Catalogue, Column};

use crate::encode::{encode_condition, field};
use crate::{Rng, condition, operand};

/// Question bytes whose lengths fit, with a fault in some places: at `faults` in a hundred members. Unlike a damage, a
/// fault is well wrapped, so that walks get past it to the next one.
pub fn faulty_question(rng: &mut Rng, catalogue: &Catalogue, faults: usize) -> Vec<u8> {
    let mut made = Faulty { catalogue, faults, fault: Faulty::any_fault, payloads: Vec::new() };
    let mut bytes = made.member(rng, 1);
    if rng.chance(faults) {
        let length = rng.between(1, 4);
        bytes.extend(rng.bytes(length));
    }
    bytes
}

/// The same with such faults alone as a typed text can spell: groups too deep, conditions repeated or unsound.
pub fn typable_question(rng: &mut Rng, catalogue: &Catalogue, faults: usize) -> Vec<u8> {
    Faulty { catalogue, faults, fault: Faulty::typable_fault, payloads: Vec::new() }.member(rng, 1)
}

struct Faulty<'a> {
    catalogue: &'a Catalogue,
    faults: usize,
    /// Makes a faulty member at a depth.
    fault: fn(&mut Faulty<'a>, &mut Rng, usize) -> Vec<u8>,
    payloads: Vec<Vec<u8>>,
}

impl Faulty<'_> {
    fn member(&mut self, rng: &mut Rng, depth: usize) -> Vec<u8> {
        if rng.chance(self.faults) {
            return (self.fault)(self, rng, depth);
        }
        if depth <= 8 && rng.chance(if depth == 1 { 90 } else { 45 }) {
            return self.group(rng, depth);
        }
        let payload = self.payload(rng);
        self.payloads.push(payload.clone());
        field(80, &payload)
    }

    fn group(&mut self, rng: &mut Rng, depth: usize) -> Vec<u8> {
        let tag = *rng.pick(&[65, 79]);
        // Now and then more members than a question may have conditions.
        let members = if depth == 1 && rng.chance(4) { 70 } else { rng.between(1, 4) };
        let mut payload = Vec::new();
        for _ in 0..members {
            if payload.len() < 8_000 {
                payload.extend(self.member(rng, depth + 1));
            }
        }
        field(tag, &payload)
    }

    /// A sound condition's payload. Of the texts that it asks for some are of any bytes.
    fn payload(&self, rng: &mut Rng) -> Vec<u8> {
        let mut payload = encode_condition(&condition(rng, self.catalogue));
        if matches!(payload[1] % 128, 2..=4) && rng.chance(30) {
            payload.splice(2.., operand(rng));
        }
        payload
    }

    fn any_fault(&mut self, rng: &mut Rng, depth: usize) -> Vec<u8> {
        match rng.below(7) {
            0 => field(*rng.pick(&[0, 64, 66, 67, 76, 78, 81, 84, 255]), &[0, 1]),
            1 => field(*rng.pick(&[65, 79]), &[]),
            2 => {
                let length = rng.between(1, 3);
                rng.bytes(length)
            }
            3 => {
                let deeper = (depth..=9).fold(field(80, &[0, 1]), |inner, _| field(65, &inner));
                if rng.chance(50) { deeper } else { (depth..=9).fold(Vec::new(), |inner, _| field(79, &inner)) }
            }
            4 if !self.payloads.is_empty() => field(80, rng.pick::<Vec<u8>>(&self.payloads)),
            _ => field(80, &self.faulty_payload(rng)),
        }
    }

    /// A condition's payload with one thing of it changed.
    fn faulty_payload(&self, rng: &mut Rng) -> Vec<u8> {
        let mut payload = self.payload(rng);
        match rng.below(6) {
            0 => payload[0] = *rng.pick(&[self.catalogue.columns.len() as u8, 16, 255]),
            1 => payload[1] = *rng.pick(&[6, 127, 134, 255]),
            2 => payload[1] = rng.below(6) as u8 + if rng.chance(50) { 128 } else { 0 },
            3 => payload.truncate(rng.below(payload.len())),
            4 => payload.push(rng.byte()),
            _ => payload[2..].fill(*rng.pick(&[0, 255])),
        }
        payload
    }

    fn typable_fault(&mut self, rng: &mut Rng, depth: usize) -> Vec<u8> {
        match rng.below(5) {
            0 => {
                let deepest = if rng.chance(10) { 300 } else { 9 };
                (depth..=deepest).fold(field(80, &self.payload(rng)), |inner, _| field(*rng.pick(&[65, 79]), &inner))
            }
            1 if !self.payloads.is_empty() => field(80, rng.pick::<Vec<u8>>(&self.payloads)),
            _ => field(80, &self.typable_payload(rng)),
        }
    }

    /// The payload of a condition that a text can spell, most often one that no question may have.
    fn typable_payload(&self, rng: &mut Rng) -> Vec<u8> {
        let columns = self.catalogue.columns.len();
        let missing = *rng.pick(&[columns as u8, 16, 99, 100, 255]);
        let column = if rng.chance(30) { missing } else { rng.below(columns) as u8 };
        let is_text = matches!(self.catalogue.columns.get(usize::from(column)), Some(Column::Texts(_)));
        let (kind, operand) = match rng.below(6) {
            0 => (if is_text { 5 } else { 1 }, Vec::new()),
            1 | 2 => {
                let (low, high) =
                    *rng.pick(&[(1, 0), (10, 9), (0, 9), (0, BLANK_NUMBER), (BLANK_NUMBER, BLANK_NUMBER)]);
                (0, [low.to_be_bytes(), high.to_be_bytes()].concat())
            }
            _ => {
                let length = *rng.pick(&[0, 1, 23, 24, 25, 60]);
                (rng.between(2, 4) as u8, rng.bytes(length))
            }
        };
        [&[column, kind + if rng.chance(35) { 128 } else { 0 }], operand.as_slice()].concat()
    }
}
