/*
 * searchroom.h - the search engine of a record office's catalogue, for C99 and C++.
 *
 * Link with libsearchroom.a (x86-64). The calls keep no state, allocate nothing and may be made from any thread that has
 * 256 KiB of stack left: each takes less.
 *
 * What a caller gives: byte slices, each a pointer and the number of bytes behind it, and numbers. Any bytes may be
 * given: the engine checks them itself, and there is nothing to check beforehand. A slice of 0 bytes may be NULL. Of
 * what is given, three things only are the caller's:
 *     a slice has the length given;
 *     a slice that a call writes overlaps no other slice of the same call and none of a call made at the same time (one
 *     tally is lent to one run at a time, even for different readers);
 *     nobody else writes to lent bytes while the call runs: no other thread, no other process through shared memory;
 *     and a mapped file is neither written nor cut meanwhile. The engine checks first and trusts afterwards: a length
 *     that changes in between can make it read past the slice's end.
 * So read a file into memory of your own before you lend it. Bytes of a map may be lent only where the map is private
 * and nobody writes or cuts the file until the call returns: a private map alone does not keep the file's changes out.
 *
 * What a caller gets: one 64-bit number, the packed word.
 *
 *     bits  0 to  7   the refusal's number, SEARCHROOM_ACCEPTED (0) where the call is accepted
 *     bits  8 to 23   first result
 *     bits 24 to 39   second result
 *     bits 40 to 63   third result
 *
 * Each call says below what its results are. A refusal comes with zeros for every result, and the call has then altered
 * nothing that it was lent. The first check that fails, in the order stated at the call, decides the number.
 *
 * Fields. Catalogues, questions and copies are made of fields: a one-byte tag, a two-byte length, then that many bytes, the
 * payload. All numbers are unsigned, most significant byte first. Entries, columns, conditions and readers count from 0.
 *
 * Rows of bits. The mark of a catalogue and the tables of a run are made of rows of bits. A row for E entries takes
 * searchroom_row_bytes(E) bytes, ceiling(E / 8): entry e is the bit of weight 2^(e mod 8) in byte e div 8 (searchroom_bit),
 * unused bits are zero.
 */
#ifndef SEARCHROOM_H
#define SEARCHROOM_H

#include <stddef.h>
#include <stdint.h>

/* The release, as text, which the pkg-config file repeats, and as a number for #if: major * 10000 + minor * 100 +
   patch. (Before 0.7.1 there was no number; #if takes it as 0.) Link the archive of the same release. Each call says
   below since which release it is there, and which of its parameters came later. */
#define SEARCHROOM_VERSION "0.7.2"
#define SEARCHROOM_VERSION_NUMBER 702

#ifdef __cplusplus
extern "C" {
#endif

/* Limits. */
enum {
    SEARCHROOM_MAX_ENTRIES = 2048,       /* entries of a catalogue */
    SEARCHROOM_MAX_COLUMNS = 16,         /* columns of a catalogue, which has at least one */
    SEARCHROOM_MAX_TEXT = 23,            /* bytes of a text in a catalogue, or of a text operand */
    SEARCHROOM_MARK_BYTES = 256,         /* the most bytes that the mark of a catalogue has, without its tag and length */
    SEARCHROOM_CATALOGUE_BYTES = 786745, /* the most bytes that a catalogue has, its mark included */
    SEARCHROOM_MAX_CONDITIONS = 64,      /* conditions of a question, which has at least one */
    SEARCHROOM_MAX_DEPTH = 8,            /* groups inside each other, the outermost being 1 */
    SEARCHROOM_LISTED_BYTES = 256,       /* the most bytes that a run writes to the listed table */
    SEARCHROOM_LOOKS_BYTES = 16384,      /* the most bytes that a run writes to the looks table */
    SEARCHROOM_READERS = 16,             /* readers, 0 to 15 */
    SEARCHROOM_TALLY_BYTES = 128,        /* bytes of the tally, eight for each reader */
    SEARCHROOM_COPY_FIELD_BYTES = 7,     /* bytes that a copy writes for each look */
    SEARCHROOM_COPY_BYTES = 917504,      /* the most bytes that a copy writes to its output */
    SEARCHROOM_MAX_TYPED = 16384,        /* bytes of a typed question */
    SEARCHROOM_TYPED_BYTES = 3139        /* the most bytes that searchroom_typed writes to its output */
};

/* Outcomes: what a condition answers at an entry. */
enum {
    SEARCHROOM_NO = 0,
    SEARCHROOM_YES = 1,
    SEARCHROOM_BLANK = 2 /* the field is blank: searchroom_check_question says which kinds answer so */
};

/* Refusal numbers. */
enum {
    SEARCHROOM_ACCEPTED = 0,
    /* Catalogue: fewer than three bytes left where a field should start, or the field's length passes the end. */
    SEARCHROOM_CATALOGUE_FIELD = 1,
    /* Catalogue: the first field is not tag 67 with length 3. */
    SEARCHROOM_CATALOGUE_HEADER = 2,
    /* Catalogue: over 2,048 entries, no column, or over 16 columns. */
    SEARCHROOM_CATALOGUE_LIMITS = 3,
    /* Catalogue: a column has a wrong tag, or a length that does not fit the number of entries. */
    SEARCHROOM_COLUMN_FORM = 4,
    /* Catalogue: a text slot has a length over 23, or a byte after its text that is not zero. */
    SEARCHROOM_TEXT_SLOT = 5,
    /* Catalogue: after the last column a byte that is not the mark's tag 87, or bytes left over after the mark. */
    SEARCHROOM_CATALOGUE_LEFT_OVER = 6,
    /* Question: fewer than three bytes left in the enclosing payload where a field should start, or the field's length
       passes its end. */
    SEARCHROOM_QUESTION_FIELD = 7,
    /* Question: a tag that is neither a group's nor a condition's. */
    SEARCHROOM_UNKNOWN_TAG = 8,
    /* Question: a group without a member. */
    SEARCHROOM_EMPTY_GROUP = 9,
    /* Question: a group deeper than 8. */
    SEARCHROOM_TOO_DEEP = 10,
    /* Question: a condition's payload is under two bytes, or names no such column, an unknown kind, a kind that does not
       fit the column, or an operand of wrong length or range. */
    SEARCHROOM_BAD_CONDITION = 11,
    /* Question: a 65th condition. */
    SEARCHROOM_TOO_MANY_CONDITIONS = 12,
    /* Question: a condition's payload is byte for byte that of an earlier one. */
    SEARCHROOM_REPEATED_CONDITION = 13,
    /* Question: bytes left over after its field. */
    SEARCHROOM_QUESTION_LEFT_OVER = 14,
    /* Run and copy: the order is not n bytes holding each condition number once. */
    SEARCHROOM_BAD_ORDER = 15,
    /* Run: the listed table or the looks table is too short. */
    SEARCHROOM_SHORT_TABLE = 16,
    /* Run: the tally is not 128 bytes, or this reader's sum would pass 2^64 - 1. */
    SEARCHROOM_BAD_TALLY = 17,
    /* Outcome: no such entry or condition. */
    SEARCHROOM_NO_SUCH_PLACE = 18,
    /* Copy: the output is too short for a field for each look. (19 is the program's: no call gives it.) */
    SEARCHROOM_SHORT_OUTPUT = 20,
    /* Typed question: the text is over 16,384 bytes, or is not spelled as searchroom_typed asks. */
    SEARCHROOM_MISSPELLED = 21,
    /* Typed question: the output is too short for the question's bytes. */
    SEARCHROOM_SHORT_TYPED_OUTPUT = 22,
    /* Catalogue: the mark has a length that does not fit the number of entries, or a one bit after the last entry's. */
    SEARCHROOM_BAD_MARK = 23,
    /* Run: there is no such reader: readers are 0 to 15. */
    SEARCHROOM_NO_SUCH_READER = 24
};

/* The refusal's number in a packed word, SEARCHROOM_ACCEPTED where the call is accepted. */
static inline unsigned searchroom_refusal(uint64_t word) { return (unsigned)(word & 0xFF); }

/* The three results in a packed word. */
static inline unsigned searchroom_first(uint64_t word) { return (unsigned)(word >> 8 & 0xFFFF); }
static inline unsigned searchroom_second(uint64_t word) { return (unsigned)(word >> 24 & 0xFFFF); }
static inline uint32_t searchroom_third(uint64_t word) { return (uint32_t)(word >> 40); }

/* The reason for a refusal, given by its number, in plain words, for messages. */
static inline const char *searchroom_refusal_text(unsigned refusal)
{
    switch (refusal) {
    case SEARCHROOM_ACCEPTED: return "accepted";
    case SEARCHROOM_CATALOGUE_FIELD: return "a field of the catalogue is cut short";
    case SEARCHROOM_CATALOGUE_HEADER: return "the catalogue does not start with a field of tag 67 and length 3";
    case SEARCHROOM_CATALOGUE_LIMITS: return "the catalogue has over 2,048 entries, no column, or over 16 columns";
    case SEARCHROOM_COLUMN_FORM: return "a column has a wrong tag or length";
    case SEARCHROOM_TEXT_SLOT: return "a text slot has a length over 23 or a stray byte after its text";
    case SEARCHROOM_CATALOGUE_LEFT_OVER: return "bytes are left over after the last column or the mark of the catalogue";
    case SEARCHROOM_QUESTION_FIELD: return "a field of the question is cut short";
    case SEARCHROOM_UNKNOWN_TAG: return "a field of the question is neither a group nor a condition";
    case SEARCHROOM_EMPTY_GROUP: return "a group of the question has no member";
    case SEARCHROOM_TOO_DEEP: return "a group of the question stands deeper than 8";
    case SEARCHROOM_BAD_CONDITION: return "a condition has a wrong column, kind or operand";
    case SEARCHROOM_TOO_MANY_CONDITIONS: return "the question has over 64 conditions";
    case SEARCHROOM_REPEATED_CONDITION: return "a condition is byte for byte an earlier one";
    case SEARCHROOM_QUESTION_LEFT_OVER: return "bytes are left over after the question";
    case SEARCHROOM_BAD_ORDER: return "the order does not hold each condition number once and nothing else";
    case SEARCHROOM_SHORT_TABLE: return "a table is too short";
    case SEARCHROOM_BAD_TALLY: return "the tally is not 128 bytes, or this reader's sum would pass 2^64 - 1";
    case SEARCHROOM_NO_SUCH_PLACE: return "there is no such entry or condition";
    case SEARCHROOM_SHORT_OUTPUT: return "the output is too short for the copy";
    case SEARCHROOM_MISSPELLED: return "the typed question is over 16,384 bytes or misspelled";
    case SEARCHROOM_SHORT_TYPED_OUTPUT: return "the output is too short for the typed question's bytes";
    case SEARCHROOM_BAD_MARK: return "the mark of the catalogue has a wrong length or a stray bit";
    case SEARCHROOM_NO_SUCH_READER: return "there is no such reader: readers are 0 to 15";
    default: return "unknown refusal";
    }
}

/*
 * Checks a catalogue.
 *
 * A catalogue is a field of tag 67 and length 3, which holds the number of entries E (two bytes, 0 to 2,048) and of
 * columns C (one byte, 1 to 16), and then C fields:
 *     tag 78, a number column: E numbers of four bytes; 4,294,967,295 is a blank;
 *     tag 84, a text column: E slots of 24 bytes, each a length 0 to 23, the text (any byte values), and zeros to the
 *     end; length 0 is a blank.
 * It may end with one field more:
 *     tag 87, the mark: a row of bits for E entries. A one bit marks a withdrawn entry.
 *
 * A withdrawn entry is never listed and never looked at, whatever the question: searchroom_run writes a zero bit for it in
 * every row, and searchroom_copy writes no field for it. All else goes on as before: the entry keeps its number and its values,
 * E counts it, the tables have a place for it, and searchroom_outcome works out a condition there as anywhere. To put an entry
 * back, clear its bit. A mark of zeros gives the same results as no mark.
 *
 * Results: first E, second C (searchroom_entries, searchroom_columns).
 * Refusals: 1 to 6 and 23, met while walking from front to back: at each field expected 1; at the first field 2, then 3; at
 * each column 4, then 5; after the last column, where the catalogue goes on, 6 if the next byte is not 87; at the mark 1, then
 * 23; at the end 6.
 * Writes nothing.
 * Since 0.1.0.
 */
uint64_t searchroom_check_catalogue(const uint8_t *catalogue, size_t catalogue_len);

static inline unsigned searchroom_entries(uint64_t word) { return searchroom_first(word); }
static inline unsigned searchroom_columns(uint64_t word) { return searchroom_second(word); }

/*
 * Checks a question against a catalogue.
 *
 * A question is one field:
 *     tag 65, an all-of group, or tag 79, an any-of group: the payload is its members, one or more, each again such a field;
 *     groups stand at most 8 deep;
 *     tag 80, a condition: a column byte, a kind byte, and an operand.
 * There are 1 to 64 conditions, numbered from 0 as they stand. Kinds:
 *     0  number from low to high: two four-byte numbers, low <= high < 4,294,967,295
 *     1  number blank: no operand
 *     2  text equals, 3 text begins with, 4 text contains: an operand of 1 to 23 bytes
 *     5  text blank: no operand
 *     128 to 133  the opposites of 0 to 5, yes where these answer no and no where they answer yes; operands as there
 * A blank field meets neither a condition nor its opposite: there kinds 0, 2, 3, 4 and their opposites 128, 130, 131, 132
 * answer SEARCHROOM_BLANK, and a run takes that as no. Kinds 1, 5, 129 and 133 ask for the blank itself and never answer so.
 * Text and operand are compared after folding (ISO/IEC 8859-1), so that a text is found in capitals or small letters, with or
 * without the accent: `Andre` finds `Andr\E9` (as searchroom_typed spells it), and `Andr\E9` finds `ANDRE`. Each byte is first
 * made small: 65 to 90, and 192 to 222 except 215, gain 32. Then it loses its accent:
 *     224 to 229 become 97 (a)      231 becomes 99 (c)            232 to 235 become 101 (e)     236 to 239 become 105 (i)
 *     241 becomes 110 (n)           242 to 246 become 111 (o)     249 to 252 become 117 (u)     253 and 255 become 121 (y)
 * Every other byte is unchanged, 230, 240, 248 and 254 among them. Whether a condition repeats an earlier one (13) is told
 * without folding: `Andre` and `Andr\E9` may stand in one question.
 *
 * Results: first the number of conditions n (searchroom_conditions).
 * Refusals: 1 to 6 and 23 for the catalogue; then 7 to 14, met while walking the question from front to back: at each field 7,
 * then 8; at a group 10, then 9; at a condition 12, then 11, then 13; at the end 14.
 * Writes nothing.
 * Since 0.1.0.
 */
uint64_t searchroom_check_question(const uint8_t *catalogue, size_t catalogue_len,
                                   const uint8_t *question, size_t question_len);

static inline unsigned searchroom_conditions(uint64_t word) { return searchroom_first(word); }

/*
 * Works out one condition of a question at one entry of a catalogue.
 *
 * Results: first the outcome, SEARCHROOM_NO, SEARCHROOM_YES or SEARCHROOM_BLANK (searchroom_answer). Compare it with these:
 * a blank is not zero. Whether the entry is withdrawn makes no difference.
 * Refusals: 1 to 14 and 23 as for searchroom_check_question; then 18, the entry is not below the number of entries or the
 * condition not below the number of conditions. Any 64-bit numbers may be given.
 * Writes nothing.
 * Since 0.1.0.
 */
uint64_t searchroom_outcome(const uint8_t *catalogue, size_t catalogue_len,
                            const uint8_t *question, size_t question_len,
                            uint64_t entry, uint64_t condition);

static inline unsigned searchroom_answer(uint64_t word) { return searchroom_first(word); }

/*
 * Runs a question over a catalogue in a running order, for a reader.
 *
 * A withdrawn entry is not listed, and no look is registered there. Every other entry is listed exactly if the question's tree
 * holds of it, blank taken as no. On each of these the conditions are taken in the running order, n bytes that hold each
 * condition number once. A look at a condition is registered exactly if it is due: with the conditions earlier in the order at
 * their true outcomes, blank as no again, some outcomes of the later ones make this condition alone decide the tree, its yes
 * and its no giving the tree different values. Any way of working in the same order that is right whatever the pattern of
 * outcomes makes each of these looks, so none makes fewer.
 *
 *     reader  the reader whose looks these are, 0 to 15; of an accepted run nothing but the tally depends on it
 *     listed  the listed table, at least one row of bits; its first row is written: the listed entries
 *     looks   the looks table, at least n rows; its first n rows are written, one for each condition in condition-number
 *             order: the entries at which a look at it is registered
 *     tally   the tally, exactly SEARCHROOM_TALLY_BYTES bytes: for each reader r the looks so far, a number in bytes 8r to
 *             8r + 7 (searchroom_tally_of); the look count is added to this reader's, every other byte stays as it is
 * Further bytes of listed and looks stay as they are. SEARCHROOM_LISTED_BYTES and SEARCHROOM_LOOKS_BYTES bytes are enough for
 * any run. A tally starts as zeros. Lend it to each run as the last left it: every number is then the sum of the look counts of
 * that reader's accepted runs. To start a reader again, write zeros to that reader's eight bytes. A tally of eight bytes, as
 * runs before 0.7.0 took it, is refused with 17: to keep its sum, put those bytes in the place of one reader in a tally of
 * zeros.
 *
 * Results: first the found count, the number of listed entries (searchroom_found); third the look count, the number of
 * registered looks (searchroom_look_count).
 * Refusals: 1 to 14 and 23 as for searchroom_check_question; then 15, then 16, then 24, the reader is over 15 (any 64-bit
 * number may be given), then 17. Nothing is then written.
 * Since 0.1.0; reader since 0.7.0.
 */
uint64_t searchroom_run(const uint8_t *catalogue, size_t catalogue_len,
                        const uint8_t *question, size_t question_len,
                        const uint8_t *order, size_t order_len,
                        uint64_t reader,
                        uint8_t *listed, size_t listed_len,
                        uint8_t *looks, size_t looks_len,
                        uint8_t *tally, size_t tally_len);

static inline unsigned searchroom_found(uint64_t word) { return searchroom_first(word); }
static inline uint32_t searchroom_look_count(uint64_t word) { return searchroom_third(word); }

/* The looks that a tally holds for a reader, 0 to 15. */
static inline uint64_t searchroom_tally_of(const uint8_t *tally, uint64_t reader)
{
    uint64_t number = 0;
    for (uint64_t at = 8 * reader; at < 8 * reader + 8; at++)
        number = number << 8 | tally[at];
    return number;
}

/* The number of bytes of a row of bits for so many entries. */
static inline size_t searchroom_row_bytes(unsigned entries) { return ((size_t)entries + 7) / 8; }

/* The bit of an entry in a row: 1 or 0. */
static inline unsigned searchroom_bit(const uint8_t *row, unsigned entry) { return row[entry / 8] >> entry % 8 & 1u; }

/*
 * Writes the steward's copy of the register: each look that searchroom_run registers on the same catalogue, question and
 * order, with what it found. They are the same for every reader, so a copy names none.
 *
 * Each look has one field, and no other field is written; a withdrawn entry has none. A field takes
 * SEARCHROOM_COPY_FIELD_BYTES bytes:
 *     byte 0         tag 76
 *     bytes 1 and 2  length 4
 *     bytes 3 and 4  the entry (searchroom_copied_entry)
 *     byte 5         the condition's number (searchroom_copied_condition)
 *     byte 6         the condition's outcome at that entry, as searchroom_outcome gives it: SEARCHROOM_NO, SEARCHROOM_YES or
 *                    SEARCHROOM_BLANK. It is the condition's own, so for kinds 128 to 133 the opposite is already taken
 *                    (searchroom_copied_outcome); compare it with these: a blank is not zero
 * Entries ascend. In which sequence the fields of one entry follow each other is left open: rely on none.
 *
 *     output  the output, at least SEARCHROOM_COPY_FIELD_BYTES bytes for each look; its front is written: the fields, one
 *             after the other
 * Further bytes of output stay as they are. SEARCHROOM_COPY_BYTES bytes are enough for any copy.
 *
 * Results: third the number of bytes written, SEARCHROOM_COPY_FIELD_BYTES times the look count (searchroom_written).
 * Refusals: 1 to 14 and 23 as for searchroom_check_question; then 15, then 20. Nothing is then written.
 * Since 0.2.0.
 */
uint64_t searchroom_copy(const uint8_t *catalogue, size_t catalogue_len,
                         const uint8_t *question, size_t question_len,
                         const uint8_t *order, size_t order_len,
                         uint8_t *output, size_t output_len);

/* The number of bytes that a copy or searchroom_typed wrote. */
static inline uint32_t searchroom_written(uint64_t word) { return searchroom_third(word); }

/* Of a field that a copy wrote, given by its first byte: the entry looked at. */
static inline unsigned searchroom_copied_entry(const uint8_t *field) { return field[3] * 256u + field[4]; }

/* Of such a field: the number of the condition looked at. */
static inline unsigned searchroom_copied_condition(const uint8_t *field) { return field[5]; }

/* Of such a field: the condition's outcome at the entry. */
static inline unsigned searchroom_copied_outcome(const uint8_t *field) { return field[6]; }

/*
 * Reads a typed question: the text that staff type becomes the question bytes that every other call takes.
 *
 * A typed question is one condition or one group:
 *     c0 in 1700..1799        the number in column 0 is from 1700 to 1799 (kind 0)
 *     c0 blank                column 0 is blank: kind 1, or kind 5 if the column holds texts; kind 1 where there is no such
 *                             column (the question is then refused with 11)
 *     c1 is "ash"             the text in column 1 equals "ash" (kind 2),
 *     c1 starts "ash"         begins with it (kind 3),
 *     c1 has "ash"            contains it (kind 4)
 *     not c0 in 1700..1799    `not ` before any of these: the opposite (kind + 128)
 *     all(MEMBER,MEMBER)      an all-of group (tag 65)
 *     any(MEMBER,MEMBER)      an any-of group (tag 79)
 * A group has one or more members, each again a condition or a group, with one comma between two and no `not ` before the
 * group.
 *
 * Outside quotes letters are small and no spaces stand but those shown. Nothing stands before or after: strip the newline at a
 * file's end. Columns are 0 to 255 and numbers 0 to 4,294,967,295, in decimal without leading zeros. Between quotes stand none
 * or more bytes. The bytes 32 to 126 stand for themselves, except the quote (34) and the backslash (92). These two and every
 * other byte are escaped, as a backslash and two digits 0-9A-F: `c1 is "\22Ash\22"`, `c1 has "Andr\E9"`. A byte that stands for
 * itself may not be escaped, and the digits a-f are not taken. The engine takes this spelling and no other, so each accepted
 * question has one typed form.
 *
 * The example parish has years in column 0 and names in column 1. Year 1700 to 1799 and parish beginning "ash", or year blank:
 *     any(all(c0 in 1700..1799,c1 starts "ash"),c0 blank)
 * is read into the 32 bytes
 *     4F 00 1D 41 00 15 50 00 0A 00 00 00 00 06 A4 00 00 07 07 50 00 05 01 03 61 73 68 50 00 02 00 01
 *
 *     text    the typed question, at most SEARCHROOM_MAX_TYPED bytes; no zero byte ends it
 *     output  the output; its front is written: the question bytes
 * Further bytes of output stay as they are. SEARCHROOM_TYPED_BYTES bytes are enough for any typed question.
 *
 * Results: third the number of bytes written (searchroom_written).
 * Refusals: 1 to 6 and 23 for the catalogue; then 21, the text is too long or not so spelled; then 10 to 13 as
 * searchroom_check_question gives them for the bytes read, 11 for instance where there is no such column, it holds the other
 * sort of values, or between the quotes is nothing or over 23 bytes (7, 8, 9 and 14 cannot come); then 22. Nothing is then
 * written.
 * Since 0.4.0.
 */
uint64_t searchroom_typed(const uint8_t *catalogue, size_t catalogue_len,
                          const uint8_t *text, size_t text_len,
                          uint8_t *output, size_t output_len);

#ifdef __cplusplus
}
#endif

#endif
