/* plush.h: the symbol resolver of Plush, as a library to link (libplush.a).
 *
 * Build it in the folder crates/plush with `rt lib`; it is then crates/plush/out/libplush.a, for x86-64 Linux.
 * docs/FORMAT.md says what sheets, names and answer rows are; the names of the constants below stand for its numbers.
 *
 * What every routine here does:
 * - Memory is the caller's. A routine reads what it is passed, writes the lent words and bytes and its own stack, keeps no pointer
 *   after it returns, allocates nothing, and has no static data.
 * - So several threads may call at the same time, each with lent words and bytes of its own; they may share sheets and names that
 *   nobody changes meanwhile.
 * - Any numbers and bytes are accepted as input: what does not fit is refused, and a call always ends.
 * - What the proofs take for granted is what a C compiler cannot see: a pointer is aligned and not null, also with length 0; so
 *   many elements stand behind it as the length says; lent words and bytes overlap nothing else that is passed.
 * - Stack: 2 MiB are enough for each call. A thread with less must be given more before it calls (pthread_attr_setstacksize).
 */
#ifndef PLUSH_H
#define PLUSH_H

#include <stddef.h>
#include <stdint.h>

#ifdef __cplusplus
extern "C" {
#endif

/* Resolves a sheet: every name in it gets its meaning, or the first question that gets a no is told.
 *
 * sheet, sheet_words     the sheet's rows, eight words each
 * names, name_bytes      the listed names, each ended by byte 10
 * answer, answer_words   lent: the answer rows, eight words each, and zeros to its end. If they do not fit, question 22 gets a no
 * report, report_words   lent, of any length, also 0: the words PLUSH_REPORT_.. as far as it goes, and zeros after the eighth
 *
 * Returns the number of the question that got a no (PLUSH_QUESTION_..), or 0: everything was resolved. After a refusal every
 * answer word is 0, and so are the numbers of rows and globals; position and name stand in the report.
 */
uint32_t plush_resolve(const uint32_t *sheet, size_t sheet_words, const uint8_t *names, size_t name_bytes, uint32_t *answer,
                       size_t answer_words, uint32_t *report, size_t report_words);

/* Tells in which order the units of a sheet start: each after all that it imports, and each time the lowest row among all that are ready.
 *
 * sheet, sheet_words     the sheet's rows, eight words each
 * names, name_bytes      the listed names, each ended by byte 10
 * list, list_words       lent: the row of each unit in that order, a word each, and zeros to its end. If they do not fit, question 22 gets a no
 * report, report_words   lent, of any length, also 0: the words PLUSH_REPORT_.. as far as it goes, and zeros after the eighth. The number of rows
 *                        is that of the units, the number of globals is 0
 *
 * Returns 0, or the question that got a no: PLUSH_QUESTION_ROWS_FIT to PLUSH_QUESTION_DEPTH_FITS; PLUSH_QUESTION_NO_CIRCLE if some chain of imports
 * comes back to its start, with the position of the lowest unit on such a chain in the report; then PLUSH_QUESTION_ROOM. No other question is asked.
 * After a refusal every word of the list is 0.
 */
uint32_t plush_order_units(const uint32_t *sheet, size_t sheet_words, const uint8_t *names, size_t name_bytes, uint32_t *list, size_t list_words,
                           uint32_t *report, size_t report_words);

/* Stores a sheet by column: word c of row r goes to place c * rows + r, and next and child are stored as their difference from r modulo
 * 2^32. plush_from_columns is the way back: handed the other's result at the source's length, each gives the source again, whatever its words.
 *
 * source, source_words   1 to 2,048 rows of eight words, else question 1 gets a no
 * target, target_words   lent: the source rearranged, and zeros to its end. If it is shorter than the source, question 22 gets a no
 *
 * Returns PLUSH_QUESTION_ROWS_FIT, PLUSH_QUESTION_ROOM or 0. After a refusal every target word is 0.
 */
uint32_t plush_to_columns(const uint32_t *source, size_t source_words, uint32_t *target, size_t target_words);
uint32_t plush_from_columns(const uint32_t *source, size_t source_words, uint32_t *target, size_t target_words);

/* Finds bytes among the fixed names and those of a list, through the name index of docs/FORMAT.md 3.
 *
 * names, name_bytes      the listed names, each ended by byte 10
 * name, bytes            what is looked for, any bytes, without an end
 * found, found_words     lent, of any length, also 0: the number, how many places of the index were read, and zeros to its end
 *
 * Returns the number, 0 where the bytes are no name of the list, or the list is refused by question 2; no place is read then.
 */
uint32_t plush_find_name(const uint8_t *names, size_t name_bytes, const uint8_t *name, size_t bytes, uint32_t *found, size_t found_words);

/* A session, which keeps what accepted entries at a prompt declared, is PLUSH_SESSION_WORDS words and PLUSH_SESSION_BYTES bytes of the caller's. They may be
 * copied and stored; between calls nobody else need write them, but any words and bytes are accepted as input: those that are no session are refused.
 *
 * words, session_words   lent: of any length; a session has PLUSH_SESSION_WORDS at least
 * bytes, session_bytes   lent: of any length; a session has PLUSH_SESSION_BYTES at least
 *
 * Makes the session a fresh one: zeros, and the fixed names.
 */
void plush_session_fresh(uint32_t *words, size_t session_words, uint8_t *bytes, size_t session_bytes);

/* Enters a sheet of one unit without imports into a session: its names are resolved over what earlier entries declared, and if nothing gets a no, the session
 * keeps what the entry declares.
 *
 * words, session_words   lent: the words of a session
 * bytes, session_bytes   lent: the bytes of a session
 * sheet, sheet_words     the entry's rows, eight words each; it starts at the session's number of globals (PLUSH_SESSION_GLOBALS) or above
 * names, name_bytes      the entry's listed names, each ended by byte 10
 * answer, answer_words   lent: the answer rows, eight words each, and zeros to its end. If they do not fit, question 22 gets a no
 * report, report_words   lent, of any length, also 0: the words PLUSH_REPORT_.. as far as it goes, and zeros after the eighth
 *
 * Returns the number of the question that got a no (PLUSH_QUESTION_..), or 0: the entry was accepted. A session that is none, whatever its words, bytes and
 * lengths, is refused by PLUSH_QUESTION_SESSION, and an entry that the session has no room for by PLUSH_QUESTION_SESSION_ROOM. After a refusal every answer
 * word is 0, the session's bytes are as before, and so are its words; but after questions 5 to 21 PLUSH_SESSION_GLOBALS is the next global of the walk where
 * it stopped. A session that passes question 23 passes it again afterwards.
 *
 * In answer rows names have the session's numbers, and functions and classes of entry e, which is PLUSH_SESSION_ENTRIES before it was accepted, have 2,048 * e
 * more than they would have in a sheet by itself. In the report of a refusal the name has the entry's number.
 */
uint32_t plush_enter(uint32_t *words, size_t session_words, uint8_t *bytes, size_t session_bytes, const uint32_t *sheet, size_t sheet_words,
                     const uint8_t *names, size_t name_bytes, uint32_t *answer, size_t answer_words, uint32_t *report, size_t report_words);

/* Previews an entry: what plush_enter would return, and write into answer and report. The session is only read, so that it has afterwards the words and bytes
 * that it had before, its number of globals included. The parameters and what is returned are those of plush_enter.
 */
uint32_t plush_preview(const uint32_t *words, size_t session_words, const uint8_t *bytes, size_t session_bytes, const uint32_t *sheet, size_t sheet_words,
                       const uint8_t *names, size_t name_bytes, uint32_t *answer, size_t answer_words, uint32_t *report, size_t report_words);

/* Withdraws the latest accepted entry of a session that is not yet withdrawn.
 *
 * words, session_words   lent: the words of a session
 * bytes, session_bytes   the bytes of a session
 * report, report_words   lent, of any length, also 0: the words PLUSH_REPORT_.. as far as it goes, and zeros after the eighth
 *
 * Returns 0, or the question that got a no: PLUSH_QUESTION_SESSION for words and bytes that are no session, PLUSH_QUESTION_ENTRY_LEFT where no entry is left; the
 * session is then as before. Else visible names, texts of names, classes and the number of entries are those before the withdrawn entry. The globals that it used
 * stay used: PLUSH_SESSION_GLOBALS is as before. All but the first word of the report are 0.
 */
uint32_t plush_withdraw(uint32_t *words, size_t session_words, const uint8_t *bytes, size_t session_bytes, uint32_t *report, size_t report_words);

/* Tells where the text of a name stands, without copying it.
 *
 * words, session_words   the words of a session
 * bytes, session_bytes   the bytes of a session
 * names, name_bytes      the listed names of an entry, each ended by byte 10
 * whose                  0: the number is the session's, as in answer rows; any other: the entry's, as in refusals of this entry
 * number                 the number of the name
 * place, place_words     lent, of any length, also 0: the words PLUSH_PLACE_.. as far as it goes, and zeros after the third
 *
 * Returns how many bytes the text has: it is bytes[start] or names[start] and those that follow, without an end. 0, and zeros in the place, where the number
 * names nothing, or where the list in which it would stand is refused: the entry's by question 2, the session's by question 23. Fixed names stand in the
 * session's bytes, also those of an entry.
 */
uint32_t plush_name_text(const uint32_t *words, size_t session_words, const uint8_t *bytes, size_t session_bytes, const uint8_t *names,
                         size_t name_bytes, uint32_t whose, uint32_t number, uint32_t *place, size_t place_words);

/* The words and bytes of a session. */
enum {
    PLUSH_SESSION_WORDS = 51088,
    PLUSH_SESSION_BYTES = 32936
};

/* The first words of a session: how many it has of what. */
enum {
    PLUSH_SESSION_GLOBALS = 0,
    PLUSH_SESSION_ENTRIES = 1, /* accepted ones */
    PLUSH_SESSION_SHOWN = 2, /* names on show: different visible ones, the nine core names among them */
    PLUSH_SESSION_NAMES = 3, /* listed ones */
    PLUSH_SESSION_NAME_BYTES = 4, /* of these, with their ends */
    PLUSH_SESSION_DECLARATIONS = 5,
    PLUSH_SESSION_CLASSES = 6,
    PLUSH_SESSION_MEMBERS = 7 /* of the classes: fields and methods */
};

/* The words of a place. */
enum {
    PLUSH_PLACE_LIST = 0, /* 0: in the session's bytes; 1: in the entry's names */
    PLUSH_PLACE_START = 1, /* the place of its first byte there */
    PLUSH_PLACE_LENGTH = 2,
    PLUSH_PLACE_WORDS = 3
};

/* The words of a report. */
enum {
    PLUSH_REPORT_QUESTION = 0, /* 0: resolved */
    PLUSH_REPORT_FILE = 1,
    PLUSH_REPORT_LINE = 2,
    PLUSH_REPORT_COLUMN = 3,
    PLUSH_REPORT_NAME = 4,
    PLUSH_REPORT_ROWS = 5, /* answer rows, or units */
    PLUSH_REPORT_GLOBALS = 6,
    PLUSH_REPORT_WORDS = 8
};

/* The words of a sheet row and of an answer row, and the answer words that the program plush_resolve lends: 2,048 rows. */
enum {
    PLUSH_ROW_WORDS = 8,
    PLUSH_ANSWER_WORDS = 16384
};

/* The columns of a sheet row. */
enum {
    PLUSH_COLUMN_KIND = 0,
    PLUSH_COLUMN_NEXT = 1, /* next row of the same child list, or 0 */
    PLUSH_COLUMN_CHILD = 2, /* first row of the row's own child list, or 0 */
    PLUSH_COLUMN_FILE = 3,
    PLUSH_COLUMN_LINE = 4,
    PLUSH_COLUMN_COLUMN = 5,
    PLUSH_COLUMN_A = 6,
    PLUSH_COLUMN_B = 7
};

/* The kinds of sheet rows. */
enum {
    PLUSH_KIND_HEADER = 0,
    PLUSH_KIND_UNIT = 2,
    PLUSH_KIND_IMPORT = 3,
    PLUSH_KIND_CLASS = 4,
    PLUSH_KIND_FUNCTION = 6,
    PLUSH_KIND_FUNCTION_EXPORT = 7,
    PLUSH_KIND_CONSTANT_EXPORT = 8,
    PLUSH_KIND_LISTED = 9, /* a name that an import lists */
    PLUSH_KIND_FIELD = 10,
    PLUSH_KIND_PARAMETER = 11,
    PLUSH_KIND_EXPRESSION_STATEMENT = 20, /* statements: 20 to 30 */
    PLUSH_KIND_ASSIGN = 21,
    PLUSH_KIND_RETURN = 22,
    PLUSH_KIND_BREAK = 23,
    PLUSH_KIND_CONTINUE = 24,
    PLUSH_KIND_BLOCK = 25,
    PLUSH_KIND_IF = 26,
    PLUSH_KIND_FOR = 27,
    PLUSH_KIND_ASSERT = 28,
    PLUSH_KIND_LET = 29,
    PLUSH_KIND_CLASS_DECLARATION = 30,
    PLUSH_KIND_NIL = 40, /* expressions: 40 to 59, but for 49 */
    PLUSH_KIND_TRUE = 41,
    PLUSH_KIND_FALSE = 42,
    PLUSH_KIND_INTEGER = 43,
    PLUSH_KIND_FLOAT = 44,
    PLUSH_KIND_STRING = 45,
    PLUSH_KIND_BYTES = 46,
    PLUSH_KIND_ARRAY = 47,
    PLUSH_KIND_DICT = 48,
    PLUSH_KIND_PAIR = 49, /* of a dict */
    PLUSH_KIND_IDENTIFIER = 50,
    PLUSH_KIND_HOST_CONSTANT = 51, /* $name */
    PLUSH_KIND_LITERAL = 52, /* a function literal */
    PLUSH_KIND_INDEX = 53,
    PLUSH_KIND_MEMBER = 54,
    PLUSH_KIND_INSTANCEOF = 55,
    PLUSH_KIND_UNARY = 56,
    PLUSH_KIND_BINARY = 57,
    PLUSH_KIND_TERNARY = 58,
    PLUSH_KIND_CALL = 59
};

/* Column b, where it is no row or number. */
enum {
    PLUSH_FLAG_MUTABLE = 1,
    PLUSH_FLAG_FIRST_CONSTANT = 2, /* 2 + g: a let that is constant at global g */
    PLUSH_FLAG_UNIT_FUNCTION = 1,
    PLUSH_FLAG_IMPORT_ALL = 1
};

/* Fixed names; the first listed name is PLUSH_NAME_LAST_FIXED + 1. */
enum {
    PLUSH_NAME_NULL = 22,
    PLUSH_NAME_INIT = 23, /* a constructor */
    PLUSH_NAME_MAIN_UNIT = 24,
    PLUSH_NAME_LAST_FIXED = 24
};

/* The codes of answer rows: word 1. Word 0 is the sheet row; the values follow from word 2 on, then zeros.
 *
 * In the row of an identifier the fourth value, word 5, is its distance: how many function boundaries lie between it and the
 * declaration that it means. That is 0 in the same function, and for globals, functions and classes, so it is above 0 exactly
 * where the code is PLUSH_CODE_CAPTURED. In a literal's source rows it is 0, also with that code.
 */
enum {
    PLUSH_CODE_NOTHING = 0,
    PLUSH_CODE_FUN = 1, /* function */
    PLUSH_CODE_CLASS = 2, /* class */
    PLUSH_CODE_GLOBAL = 3, /* index, 0, mutable */
    PLUSH_CODE_ARG = 4, /* index, function */
    PLUSH_CODE_LOCAL = 5, /* slot, function, mutable */
    PLUSH_CODE_CAPTURED = 6, /* index, 0, mutable, distance */
    PLUSH_CODE_TRUE = 7,
    PLUSH_CODE_FALSE = 8,
    PLUSH_CODE_FUNCTION_COUNTS = 20, /* local count, captures, escapes */
    PLUSH_CODE_CLASS_COUNTS = 22, /* parent or 0, 1 if it has children, fields, methods */
    PLUSH_CODE_FIELD = 23, /* slot, name */
    PLUSH_CODE_METHOD = 24 /* name, function */
};

/* The questions, by what gets a yes. */
enum {
    PLUSH_QUESTION_ROWS_FIT = 1, /* the sheet is 1 to 2,048 rows of eight */
    PLUSH_QUESTION_NAMES_FIT = 2, /* the name list */
    PLUSH_QUESTION_FORMAT_FITS = 3, /* every row */
    PLUSH_QUESTION_DEPTH_FITS = 4, /* every depth */
    PLUSH_QUESTION_IN_LOOP = 5, /* a break or continue stands in a loop */
    PLUSH_QUESTION_MUTABLE = 6, /* an assigned identifier is mutable */
    PLUSH_QUESTION_LET_FREE = 7, /* a let's name is free in its scope */
    PLUSH_QUESTION_DECLARED = 8, /* an identifier is declared */
    PLUSH_QUESTION_NULL_DECLARED = 9, /* the same of null */
    PLUSH_QUESTION_INSTANCEOF_CLASS = 10, /* instanceof names a class */
    PLUSH_QUESTION_PARENT_CLASS = 11, /* a class's parent names a class */
    PLUSH_QUESTION_CONSTRUCTED_RECORD = 12, /* a class called as a constructor has a record */
    PLUSH_QUESTION_METHOD_THERE = 13, /* a class has the method called on it */
    PLUSH_QUESTION_METHOD_ARITY = 14, /* with as many parameters as arguments */
    PLUSH_QUESTION_EXPORTED = 15, /* an imported unit has the listed name */
    PLUSH_QUESTION_NAME_FREE = 16, /* an import, class, parameter or literal let is new in its scope */
    PLUSH_QUESTION_KNOWN = 17, /* a host constant is MAIN_UNIT; a method's class is none of 3 to 9 */
    PLUSH_QUESTION_NO_CYCLE = 18, /* no class is its own ancestor */
    PLUSH_QUESTION_PARENT_RECORD = 19, /* a class's parent has a record */
    PLUSH_QUESTION_INIT_THERE = 20, /* a constructed class has an init */
    PLUSH_QUESTION_INIT_ARITY = 21, /* with one parameter more than arguments */
    PLUSH_QUESTION_ROOM = 22, /* the answer fits the lent words */
    PLUSH_QUESTION_SESSION = 23, /* the session is one; the entry is one unit without imports, and starts at its globals or above */
    PLUSH_QUESTION_SESSION_ROOM = 24, /* the session has room for the entry */
    PLUSH_QUESTION_ENTRY_LEFT = 25, /* an entry is left to withdraw */
    PLUSH_QUESTION_NO_CIRCLE = 29 /* no chain of imports comes back to its start */
};

/* The limits of what is accepted. */
enum {
    PLUSH_LIMIT_ROWS = 2048,
    PLUSH_LIMIT_LENT_ROWS = 2048, /* over the pipe; here any number may be lent */
    PLUSH_LIMIT_DEPTH = 64,
    PLUSH_LIMIT_GLOBALS = 1000000, /* that exist before the walk */
    PLUSH_LIMIT_FILES = 262144, /* numbered below this */
    PLUSH_LIMIT_NAMES = 1024,
    PLUSH_LIMIT_LIST_BYTES = 32768, /* of the whole list, with ends */
    PLUSH_LIMIT_NAME_BYTES = 255 /* of one name */
};

/* Classes that are there without being declared. A class of the sheet has the number PLUSH_CLASS_FIRST + its row, and a function
 * the number of its row. */
enum {
    PLUSH_CLASS_INT64 = 3,
    PLUSH_CLASS_FLOAT64 = 4,
    PLUSH_CLASS_STRING = 5,
    PLUSH_CLASS_ARRAY = 7,
    PLUSH_CLASS_BYTEARRAY = 8,
    PLUSH_CLASS_DICT = 9,
    PLUSH_CLASS_UIEVENT = 100,
    PLUSH_CLASS_AUDIO_NEEDED = 101,
    PLUSH_CLASS_AUDIO_DATA = 102,
    PLUSH_CLASS_FIRST = 256
};

#ifdef __cplusplus
}
#endif

#endif
