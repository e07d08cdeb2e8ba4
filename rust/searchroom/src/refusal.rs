use std::error::Error;
use std::fmt;

/// Declares [`Refusal`] from one table: the name, its number, the text that says it, and for the documentation, where the text is
/// short, what it stands for.
macro_rules! refusals {
    ($($name:ident = $number:literal, $text:literal $(, $meaning:literal)?;)*) => {
        /// Why a call declines. The first check that fails decides; a refused call alters nothing that it was lent.
        ///
        /// ```
        /// let refusal = searchroom::check_catalogue(b"").unwrap_err();
        /// assert_eq!(refusal, searchroom::Refusal::CatalogueField);
        /// assert_eq!(refusal.number(), 1);
        /// println!("refused {}: {refusal}", refusal.number());
        /// ```
        #[derive(Clone, Copy, Debug, PartialEq, Eq, Hash)]
        #[non_exhaustive]
        #[repr(u8)]
        pub enum Refusal {
            $(#[doc = concat!($number, ": ", $text, "." $(, " ", $meaning, ".")?)] $name = $number,)*
        }

        impl Refusal {
            /// Every refusal, by ascending number.
            pub const ALL: &'static [Refusal] = &[$(Refusal::$name),*];

            /// The reason in plain words, the same as in C.
            pub fn text(self) -> &'static str {
                match self {
                    $(Refusal::$name => $text,)*
                }
            }
        }
    };
}

refusals! {
    CatalogueField = 1, "a field of the catalogue is cut short",
        "Fewer than three bytes are left where a field should start, or the field's length passes the end";
    CatalogueHeader = 2, "the catalogue does not start with a field of tag 67 and length 3";
    CatalogueLimits = 3, "the catalogue has over 2,048 entries, no column, or over 16 columns";
    ColumnForm = 4, "a column has a wrong tag or length", "The length has to fit the number of entries";
    TextSlot = 5, "a text slot has a length over 23 or a stray byte after its text", "The bytes after the text have to be zero";
    CatalogueLeftOver = 6, "bytes are left over after the last column or the mark of the catalogue";
    QuestionField = 7, "a field of the question is cut short",
        "Fewer than three bytes are left in the enclosing payload where a field should start, or the field's length passes its end";
    UnknownTag = 8, "a field of the question is neither a group nor a condition";
    EmptyGroup = 9, "a group of the question has no member";
    TooDeep = 10, "a group of the question stands deeper than 8";
    BadCondition = 11, "a condition has a wrong column, kind or operand",
        "Its payload is under two bytes, or names no such column, an unknown kind, a kind that does not fit the column, or an operand of wrong length or range";
    TooManyConditions = 12, "the question has over 64 conditions";
    RepeatedCondition = 13, "a condition is byte for byte an earlier one";
    QuestionLeftOver = 14, "bytes are left over after the question";
    BadOrder = 15, "the order does not hold each condition number once and nothing else";
    ShortTable = 16, "a table is too short";
    BadTally = 17, "the tally is not 128 bytes, or this reader's sum would pass 2^64 - 1";
    NoSuchPlace = 18, "there is no such entry or condition";
    ShortOutput = 20, "the output is too short for the copy";
    Misspelled = 21, "the typed question is over 16,384 bytes or misspelled";
    ShortTypedOutput = 22, "the output is too short for the typed question's bytes";
    BadMark = 23, "the mark of the catalogue has a wrong length or a stray bit",
        "The length has to fit the number of entries, and no bit after the last entry's may be one";
    NoSuchReader = 24, "there is no such reader: readers are 0 to 15";
}

impl Refusal {
    /// The refusal's number.
    pub fn number(self) -> u8 {
        self as u8
    }

    /// The refusal that has this number, if there is one.
    pub fn from_number(number: u8) -> Option<Refusal> {
        Refusal::ALL.iter().copied().find(|refusal| refusal.number() == number)
    }
}

impl fmt::Display for Refusal {
    fn fmt(&self, f: &mut fmt::Formatter<'_>) -> fmt::Result {
        f.write_str(self.text())
    }
}

impl Error for Refusal {}
