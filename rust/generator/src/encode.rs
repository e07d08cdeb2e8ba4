use evaluator::{Catalogue, Column, Condition, Question, Test, Tree};

/// A field's bytes. The payload has at most 65,535 bytes.
pub fn field(tag: u8, payload: &[u8]) -> Vec<u8> {
    let length = u16::try_from(payload.len()).expect("a field's payload has at most 65,535 bytes");
    let mut bytes = vec![tag];
    bytes.extend(length.to_be_bytes());
    bytes.extend(payload);
    bytes
}

/// A catalogue's bytes. Neither the number of entries nor that of columns is held to its limit.
pub fn encode_catalogue(catalogue: &Catalogue) -> Vec<u8> {
    let entries = u16::try_from(catalogue.entries).expect("entries fit two bytes");
    let columns = u8::try_from(catalogue.columns.len()).expect("columns fit one byte");
    let [e1, e2] = entries.to_be_bytes();
    let mut bytes = field(67, &[e1, e2, columns]);
    for column in &catalogue.columns {
        bytes.extend(match column {
            Column::Numbers(numbers) => field(78, &numbers.iter().flat_map(|n| n.to_be_bytes()).collect::<Vec<u8>>()),
            Column::Texts(texts) => field(84, &encode_texts(texts)),
        });
    }
    if let Some(withdrawn) = &catalogue.mark {
        bytes.extend(encode_mark(&encode_bits(withdrawn)));
    }
    bytes
}

/// The bytes of a mark with this payload, sound or not.
pub fn encode_mark(payload: &[u8]) -> Vec<u8> {
    field(87, payload)
}

/// The slots of a text column.
pub fn encode_texts(texts: &[Vec<u8>]) -> Vec<u8> {
    let mut bytes = Vec::with_capacity(24 * texts.len());
    for text in texts {
        let mut slot = [0; 24];
        slot[0] = u8::try_from(text.len()).expect("a text has at most 23 bytes");
        slot[1..=text.len()].copy_from_slice(text);
        bytes.extend(slot);
    }
    bytes
}

/// A row of bits, one for each entry.
pub fn encode_bits(entries: &[bool]) -> Vec<u8> {
    let byte = |eight: &[bool]| eight.iter().rev().fold(0, |byte, &bit| byte << 1 | u8::from(bit));
    entries.chunks(8).map(byte).collect()
}

/// A question's bytes.
pub fn encode_question(question: &Question) -> Vec<u8> {
    encode_tree(&question.tree, &question.conditions)
}

fn encode_tree(tree: &Tree, conditions: &[Condition]) -> Vec<u8> {
    let members =
        |members: &[Tree]| members.iter().flat_map(|member| encode_tree(member, conditions)).collect::<Vec<u8>>();
    match tree {
        Tree::AllOf(forest) => field(65, &members(forest)),
        Tree::AnyOf(forest) => field(79, &members(forest)),
        Tree::Condition(number) => field(80, &encode_condition(&conditions[*number])),
    }
}

/// A condition's payload.
pub fn encode_condition(condition: &Condition) -> Vec<u8> {
    let (kind, operand) = match &condition.test {
        Test::NumberFrom { low, high } => (0, [low.to_be_bytes(), high.to_be_bytes()].concat()),
        Test::NumberBlank => (1, Vec::new()),
        Test::Equals(operand) => (2, operand.clone()),
        Test::BeginsWith(operand) => (3, operand.clone()),
        Test::Contains(operand) => (4, operand.clone()),
        Test::TextBlank => (5, Vec::new()),
    };
    let column = u8::try_from(condition.column).expect("a column fits one byte");
    [&[column, kind + if condition.opposite { 128 } else { 0 }], operand.as_slice()].concat()
}
