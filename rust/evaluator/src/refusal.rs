//! The refusal numbers of "When a call declines" and of the orders, once each.

/// A refusal's number.
pub type Number = u8;

/// Fewer than three bytes left in the catalogue, or a field's length passes the end.
pub const CATALOGUE_FIELD: Number = 1;
/// The first field is not tag 67 with length 3.
pub const CATALOGUE_HEADER: Number = 2;
/// E over 2,048, or C zero or over 16.
pub const CATALOGUE_LIMITS: Number = 3;
/// A column's tag is wrong, or its length is not 4 × E or 24 × E.
pub const COLUMN_FORM: Number = 4;
/// A slot length over 23, or a non-zero byte after its text.
pub const TEXT_SLOT: Number = 5;
/// A byte after the last column that does not start the mark, or bytes after the mark.
pub const CATALOGUE_LEFT_OVER: Number = 6;
/// Fewer than three bytes left in the enclosing payload, or a field's length passes its end.
pub const QUESTION_FIELD: Number = 7;
/// A field's tag is not that of a group or a condition.
pub const UNKNOWN_TAG: Number = 8;
/// A group without a member.
pub const EMPTY_GROUP: Number = 9;
/// A group deeper than 8.
pub const TOO_DEEP: Number = 10;
/// A condition's payload is under two bytes, or names no such column, an unknown kind, a kind not fitting the column, or
/// an operand of wrong length or range.
pub const CONDITION: Number = 11;
/// The 65th condition.
pub const TOO_MANY_CONDITIONS: Number = 12;
/// A condition's payload is byte for byte that of an earlier one.
pub const REPEATED_CONDITION: Number = 13;
/// Bytes left over after the question's field.
pub const QUESTION_LEFT_OVER: Number = 14;
/// The order is not n bytes holding each number once.
pub const ORDER: Number = 15;
/// A table is too short.
pub const TABLE: Number = 16;
/// The tally is not 128 bytes, or this reader's sum would pass 2^64 − 1.
pub const TALLY: Number = 17;
/// No such entry or condition.
pub const NO_SUCH_PLACE: Number = 18;
/// `consult`: a file cannot be opened or read, or is longer than its limit.
pub const FILE: Number = 19;
/// The lent output is too short.
pub const OUTPUT: Number = 20;
/// A typed question is over 16,384 bytes or isn't so spelled.
pub const MISSPELLED: Number = 21;
/// The lent output is too short for the question that was typed.
pub const TYPED_OUTPUT: Number = 22;
/// The mark's length is not ceiling(E / 8), or a bit after the last entry's is one.
pub const MARK: Number = 23;
/// The reader is over 15.
pub const READER: Number = 24;
