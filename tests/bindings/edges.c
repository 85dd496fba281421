/* edges: the C routine at the edges of what it is lent. Exit status 1 if a check fails. */
#include <stdio.h>
#include <string.h>

#include "plush.h"

#define STALE 0xA5A5A5A5u

/* S1 of document 01, `let f = |p| return p`, and its answer. */
static const uint32_t SHEET[80] = {
    0,  0, 1, 0, 0, 0, 0, 2,  2, 0, 2, 0, 0, 0, 0, 0,  6,  0, 3, 0, 1, 1,  0, 1,  25, 0, 4, 0, 1, 1,  0, 0,  29, 0, 5, 0, 1, 1,  25, 0,
    52, 0, 6, 0, 1, 9, 0, 0,  6, 0, 7, 0, 1, 9, 0, 0,  11, 8, 0, 0, 1, 10, 26, 0, 22, 0, 9, 0, 1, 13, 0, 0,  50, 0, 0, 0, 1, 20, 26, 0};
static const uint8_t NAMES[] = "f\np\n";
static const uint32_t ANSWER[32] = {2, 20, 0, 0, 0, 0, 0, 0, 4, 1, 6, 0, 0, 0, 0, 0, 6, 20, 0, 0, 0, 0, 0, 0, 9, 4, 0, 6, 0, 0, 0, 0};

static int failed;

static void check(int holds, const char *what) {
    if (!holds) {
        printf("FAILED: %s\n", what);
        failed = 1;
    }
}

static int all(const uint32_t *words, size_t count, uint32_t value) {
    for (size_t i = 0; i < count; i++) {
        if (words[i] != value) {
            return 0;
        }
    }
    return 1;
}

/* Resolves with lent words that hold something else before, in arrays that go on behind them: nothing may be written there. */
static uint32_t answer[64], report[16];

static uint32_t resolve(const uint32_t *sheet, size_t words, size_t name_bytes, size_t lent, size_t room) {
    memset(answer, 0xA5, sizeof answer);
    memset(report, 0xA5, sizeof report);
    uint32_t question = plush_resolve(sheet, words, NAMES, name_bytes, answer, lent, report, room);
    check(all(answer + lent, 64 - lent, STALE), "words after the lent answer words are as before");
    check(all(report + room, 16 - room, STALE), "words after the lent report words are as before");
    if (question != 0) {
        check(all(answer, lent, 0), "after a refusal every answer word is 0");
    }
    return question;
}

static void check_resolved(size_t lent, size_t room) {
    static const uint32_t line[16] = {0, 0, 0, 0, 0, 4, 0, 0};
    check(resolve(SHEET, 80, 4, lent, room) == 0, "S1 is resolved");
    check(memcmp(answer, ANSWER, sizeof ANSWER) == 0, "its answer rows");
    check(all(answer + 32, lent - 32, 0), "zeros after them");
    check(memcmp(report, line, room * sizeof *report) == 0, "its report, and zeros after the eighth word");
}

static void check_refused(uint32_t number, const uint32_t *sheet, size_t words, size_t name_bytes, size_t lent, const char *what) {
    for (size_t room = 0; room <= 16; room++) {
        uint32_t line[16] = {number};
        check(resolve(sheet, words, name_bytes, lent, room) == number, what);
        check(memcmp(report, line, room * sizeof *report) == 0, what);
    }
}

/* Three units, in rows 1, 5 and 9: the first imports the unit in row `first`, the second that in row `second`; the third imports none. */
static void check_order(uint32_t first, uint32_t second, size_t lent, const uint32_t line[8], const uint32_t order[3], const char *what) {
    const uint32_t sheet[96] = {
        0,  0, 1,  0, 0, 0, 0, 0,  2, 5, 2, 7, 1, 1, 0,      0,  3, 3, 0, 7, 1, 2, first,  0,  6,  0, 4, 7, 1, 3, 0, 1,
        25, 0, 0,  7, 1, 4, 0, 0,  2, 9, 6, 7, 2, 20000, 0,  0,  3, 7, 0, 7, 2, 2, second, 1,  6,  0, 8, 7, 2, 3, 0, 1,
        25, 0, 0,  7, 2, 4, 0, 0,  2, 0, 10, 7, 3, 1, 0,     0,  6, 0, 11, 7, 3, 3, 0,     1,  25, 0, 0, 7, 3, 4, 0, 0};
    for (size_t room = 0; room <= 16; room++) {
        uint32_t told[16] = {0};
        memcpy(told, line, 8 * sizeof *line);
        memset(answer, 0xA5, sizeof answer);
        memset(report, 0xA5, sizeof report);
        check(plush_order_units(sheet, 96, NAMES, 4, answer, lent, report, room) == line[PLUSH_REPORT_QUESTION], what);
        check(memcmp(report, told, room * sizeof *report) == 0 && all(report + room, 16 - room, STALE), what);
        size_t units = line[PLUSH_REPORT_ROWS];
        check(units == 0 || memcmp(answer, order, units * sizeof *order) == 0, what);
        check(all(answer + units, lent - units, 0) && all(answer + lent, 64 - lent, STALE), "zeros after the order, and as before after the list");
    }
}

static void check_orders(void) {
    static const uint32_t three[8] = {0, 0, 0, 0, 0, 3}, no_room[8] = {PLUSH_QUESTION_ROOM}, itself[8] = {PLUSH_QUESTION_NO_CIRCLE, 7, 2, 16383};
    static const uint32_t no_unit[8] = {PLUSH_QUESTION_FORMAT_FITS}, last_first[3] = {9, 5, 1}, second_last[3] = {9, 1, 5}, circle[8] = {PLUSH_QUESTION_NO_CIRCLE, 7, 1, 1};
    check_order(5, 9, 64, three, last_first, "each imports the next");
    check_order(5, 9, 3, three, last_first, "a word for each unit");
    check_order(9, 1, 3, three, second_last, "the second imports the first, which imports the third");
    check_order(5, 9, 2, no_room, NULL, "two words for three units");
    check_order(5, 9, 0, no_room, NULL, "no words for three units");
    check_order(5, 5, 0, itself, NULL, "the second imports itself, and the first leads there: its position, its column cut, whatever is lent");
    check_order(5, 1, 3, circle, NULL, "the first two import each other");
    check_order(5, 10, 3, no_unit, NULL, "an import of a row that is no unit");
}

/* S1 by column and back, in targets that go on behind the lent words. */
static void check_columns(void) {
    uint32_t columns[96], back[96];
    for (size_t lent = 79; lent <= 81; lent++) {
        memset(columns, 0xA5, sizeof columns);
        memset(back, 0xA5, sizeof back);
        uint32_t question = plush_to_columns(SHEET, 80, columns, lent);
        check(all(columns + lent, 96 - lent, STALE), "words after the lent target are as before");
        if (lent < 80) {
            check(question == PLUSH_QUESTION_ROOM && all(columns, lent, 0), "79 words for 80: question 22, and zeros");
            continue;
        }
        check(question == 0, "S1 is stored by column");
        for (size_t i = 0; i < 80; i++) {
            uint32_t row = (uint32_t)i / 8, column = (uint32_t)i % 8;
            int link = column == PLUSH_COLUMN_NEXT || column == PLUSH_COLUMN_CHILD;
            check(columns[10 * column + row] == SHEET[i] - (link ? row : 0), "a word of S1 by column");
        }
        check(all(columns + 80, lent - 80, 0), "zeros after it");
        check(plush_from_columns(columns, 80, back, lent) == 0, "it is taken back");
        check(memcmp(back, SHEET, sizeof SHEET) == 0 && all(back + 80, lent - 80, 0), "and is S1 again, with zeros after it");
        check(all(back + lent, 96 - lent, STALE), "words after the lent target are as before");
    }
    check(plush_to_columns(SHEET, 79, columns, 96) == PLUSH_QUESTION_ROWS_FIT && all(columns, 96, 0), "79 words are no rows of eight");
    check(plush_from_columns(SHEET, 0, back, 96) == PLUSH_QUESTION_ROWS_FIT && all(back, 96, 0), "an empty source");
}

/* Names found, in words that go on behind the lent ones. */
static void check_found(size_t name_bytes, const char *name, uint32_t number, uint32_t places, const char *what) {
    for (size_t lent = 0; lent <= 3; lent++) {
        const uint32_t told[3] = {number, places, 0};
        uint32_t found[4];
        memset(found, 0xA5, sizeof found);
        check(plush_find_name(NAMES, name_bytes, (const uint8_t *)name, strlen(name), found, lent) == number, what);
        check(memcmp(found, told, lent * sizeof *found) == 0, what);
        check(all(found + lent, 4 - lent, STALE), "words after the lent ones are as before");
    }
}

/* A fresh session, in words and bytes that go on behind the lent ones. */
static uint32_t session[PLUSH_SESSION_WORDS + 8];
static uint8_t session_bytes[PLUSH_SESSION_BYTES + 8];
static const char FIXED[] = "Int64\nFloat64\nString\nArray\nByteArray\nDict\nUIEvent\nAudioNeeded\nAudioData\nkind\nwindow_id\nkey\nbutton\nx\ny\ndx\ndy\n"
                            "text\nnum_samples\nnum_channels\ndevice_id\nnull\ninit\nMAIN_UNIT\n";

static void check_fresh(size_t words, size_t bytes) {
    memset(session, 0xA5, sizeof session);
    memset(session_bytes, 0xA5, sizeof session_bytes);
    plush_session_fresh(session, words, session_bytes, bytes);
    for (size_t i = 0; i < words; i++) {
        check(session[i] == (i == PLUSH_SESSION_SHOWN ? 9 : 0), "a fresh session shows the nine core names and has nothing else");
    }
    check(all(session + words, 8, STALE), "words after those of a fresh session are as before");
    for (size_t i = 0; i < bytes + 8; i++) {
        uint8_t byte = i >= bytes ? 0xA5 : i < strlen(FIXED) ? (uint8_t)FIXED[i] : 0;
        check(session_bytes[i] == byte, "the bytes of a fresh session, and those after them");
    }
}

/* Texts of names, by a place in words that go on behind the lent ones. */
static void check_text(size_t name_bytes, uint32_t whose, uint32_t number, const char *expected, uint32_t list, const char *what) {
    for (size_t lent = 0; lent <= 4; lent++) {
        uint32_t place[5], length = (uint32_t)strlen(expected);
        memset(place, 0xA5, sizeof place);
        check(plush_name_text(session, PLUSH_SESSION_WORDS, session_bytes, PLUSH_SESSION_BYTES, NAMES, name_bytes, whose, number, place, lent) == length,
              what);
        check(all(place + lent, 5 - lent, STALE), "words after the lent ones are as before");
        if (lent >= PLUSH_PLACE_WORDS) {
            const uint8_t *bytes = place[PLUSH_PLACE_LIST] == 0 ? session_bytes : NAMES;
            check(place[PLUSH_PLACE_LIST] == list && place[PLUSH_PLACE_LENGTH] == length, what);
            check(memcmp(bytes + place[PLUSH_PLACE_START], expected, length) == 0, what);
            check(length != 0 || place[PLUSH_PLACE_START] == 0, "no text stands at 0");
            check(all(place + PLUSH_PLACE_WORDS, lent - PLUSH_PLACE_WORDS, 0), "zeros after the third word of a place");
        }
    }
}

static void check_texts(void) {
    check_text(4, 0, 1, "Int64", 0, "the session's first name");
    check_text(4, 0, 24, "MAIN_UNIT", 0, "its last fixed one");
    check_text(4, 0, 25, "", 0, "a fresh session lists none");
    check_text(4, 0, 0, "", 0, "0 is no number");
    check_text(4, 1, 6, "Dict", 0, "a fixed name of the entry stands in the session");
    check_text(4, 1, 26, "p", 1, "the entry's second name");
    check_text(4, 7, 25, "f", 1, "any word but 0 says the entry's");
    check_text(4, 1, 27, "", 0, "past the entry's last");
    check_text(4, 1, 4294967295u, "", 0, "the largest number");
    check_text(3, 1, 25, "", 0, "the entry's list is refused");
    check_text(3, 1, 22, "null", 0, "which does not matter for a fixed name");
    session_bytes[0] = 'i';
    check_text(4, 0, 24, "", 0, "the session's names are refused");
    check_text(4, 1, 25, "f", 1, "which does not matter for the entry's");
}

/* The entries of crates/session/specs/Samples.antt, their answers, and what the session keeps of them: rows of entries, declarations, classes and members.
 * class A { init(a, p) { a.q = p; } m(a) {} } let f = || return nil; let var b = nil; */
static const uint32_t ENTRY_1[192] = {
    0, 0, 1, 0, 0, 0, 0, 14, 2, 0, 2, 0, 0, 0, 0, 0, 4, 14, 3, 0, 1, 2, 25, 0, 6, 11, 4, 0, 1, 3, 23, 0, 11, 5, 0, 0, 1, 4, 26, 0,
    11, 6, 0, 0, 1, 5, 27, 0, 25, 0, 7, 0, 1, 6, 0, 0, 21, 0, 8, 0, 1, 7, 0, 0, 54, 10, 9, 0, 1, 8, 28, 0, 50, 0, 0, 0, 1, 9, 26, 0,
    50, 0, 0, 0, 1, 10, 27, 0, 6, 0, 12, 0, 1, 11, 29, 0, 11, 13, 0, 0, 1, 12, 26, 0, 25, 0, 0, 0, 1, 13, 0, 0, 6, 0, 15, 0, 1, 14, 0, 1,
    25, 0, 16, 0, 1, 15, 0, 0, 29, 21, 17, 0, 1, 16, 30, 0, 52, 0, 18, 0, 1, 17, 0, 0, 6, 0, 19, 0, 1, 18, 0, 0, 22, 0, 20, 0, 1, 19, 0, 0,
    40, 0, 0, 0, 1, 20, 0, 0, 29, 23, 22, 0, 1, 21, 31, 1, 40, 0, 0, 0, 1, 22, 0, 0, 30, 0, 0, 0, 1, 23, 2, 0};
static const char NAMES_1[] = "A\na\np\nq\nm\nf\nb\n";
static const uint32_t ANSWER_1[96] = {
    2, 22, 0, 0, 1, 2, 0, 0, 2, 23, 0, 28, 0, 0, 0, 0, 2, 24, 23, 3, 0, 0, 0, 0, 2, 24, 29, 11, 0, 0, 0, 0, 3, 20, 0, 0, 0, 0, 0, 0, 9, 4, 0, 3, 0, 0, 0, 0,
    10, 4, 1, 3, 0, 0, 0, 0, 11, 20, 0, 0, 0, 0, 0, 0, 14, 20, 0, 0, 0, 0, 0, 0, 16, 1, 18, 0, 0, 0, 0, 0, 18, 20, 0, 0, 0, 0, 0, 0, 21, 3, 0, 0, 1, 0, 0, 0};
/* class B : A {} f; A(nil); A.m(nil); b = nil; let f = nil; */
static const uint32_t ENTRY_2[176] = {
    0, 0, 1, 0, 0, 0, 1, 3, 2, 0, 2, 0, 0, 0, 0, 0, 4, 3, 0, 0, 1, 2, 29, 26, 6, 0, 4, 0, 1, 3, 0, 1, 25, 0, 5, 0, 1, 4, 0, 0,
    20, 7, 6, 0, 1, 5, 0, 0, 50, 0, 0, 0, 1, 6, 25, 0, 20, 11, 8, 0, 1, 7, 0, 0, 59, 0, 9, 0, 1, 8, 0, 0, 50, 10, 0, 0, 1, 9, 26, 0,
    40, 0, 0, 0, 1, 10, 0, 0, 20, 16, 12, 0, 1, 11, 0, 0, 59, 0, 13, 0, 1, 12, 0, 0, 54, 15, 14, 0, 1, 13, 28, 0, 50, 0, 0, 0, 1, 14, 26, 0,
    40, 0, 0, 0, 1, 15, 0, 0, 21, 19, 17, 0, 1, 16, 0, 0, 50, 18, 0, 0, 1, 17, 27, 0, 40, 0, 0, 0, 1, 18, 0, 0, 29, 21, 20, 0, 1, 19, 25, 0,
    40, 0, 0, 0, 1, 20, 0, 0, 30, 0, 0, 0, 1, 21, 2, 0};
static const char NAMES_2[] = "f\nA\nb\nm\nB\n";
static const uint32_t ANSWER_2[80] = {
    2, 22, 258, 0, 1, 2, 0, 0, 2, 23, 0, 28, 0, 0, 0, 0, 2, 24, 23, 3, 0, 0, 0, 0, 2, 24, 29, 11, 0, 0, 0, 0, 3, 20, 0, 0, 0, 0, 0, 0, 6, 1, 18, 0, 0, 0, 0, 0,
    9, 2, 258, 0, 0, 0, 0, 0, 13, 1, 11, 0, 0, 0, 0, 0, 17, 3, 0, 0, 1, 0, 0, 0, 19, 3, 1, 0, 0, 0, 0, 0};
/* let c = nil; n; let d = nil; */
static const uint32_t ENTRY_3[80] = {
    0, 0, 1, 0, 0, 0, 2, 2, 2, 0, 2, 0, 0, 0, 0, 0, 6, 0, 3, 0, 1, 2, 0, 1, 25, 0, 4, 0, 1, 3, 0, 0, 29, 6, 5, 0, 1, 4, 25, 0,
    40, 0, 0, 0, 1, 5, 0, 0, 20, 8, 7, 0, 1, 6, 0, 0, 50, 0, 0, 0, 1, 7, 26, 0, 29, 0, 9, 0, 1, 8, 27, 0, 40, 0, 0, 0, 1, 9, 0, 0};
static const char NAMES_3[] = "c\nn\nd\n";
/* f; */
static const uint32_t ENTRY_4[48] = {
    0, 0, 1, 0, 0, 0, 2, 2, 2, 0, 2, 0, 0, 0, 0, 0, 6, 0, 3, 0, 1, 2, 0, 1, 25, 0, 4, 0, 1, 3, 0, 0, 20, 0, 5, 0, 1, 4, 0, 0, 50, 0, 0, 0, 1, 5, 25, 0};
static const char NAMES_4[] = "f\n";
static const uint32_t ANSWER_4[16] = {
    2, 20, 0, 0, 0, 0, 0, 0, 5, 3, 1, 0, 0, 0, 0, 0};
static const uint32_t ENTRIES[10] = {
    7, 14, 3, 1, 3, 8, 16, 5, 2, 6};
static const uint32_t DECLARATIONS[20] = {
    25, 2, 258, 0, 30, 1, 18, 0, 31, 3, 0, 1, 32, 2, 2306, 0, 30, 3, 1, 0};
static const uint32_t CLASSES[10] = {
    258, 25, 0, 1, 2, 2306, 32, 258, 1, 2};
static const uint32_t MEMBERS[18] = {
    28, 0, 0, 23, 3, 2, 29, 11, 1, 28, 0, 0, 23, 3, 2, 29, 11, 1};

/* Where the session's rows begin. */
enum { ENTRY_ROWS = 8, DECLARATION_ROWS = 5008, CLASS_ROWS = 21392, MEMBER_ROWS = 26512 };

/* The session's words are those counts and as many of the rows, its bytes the fixed names and those listed, with zeros to their ends. */
static void check_session(const uint32_t counts[8], const char *listed, const char *what) {
    static uint32_t words[PLUSH_SESSION_WORDS];
    static uint8_t bytes[PLUSH_SESSION_BYTES];
    memset(words, 0, sizeof words);
    memset(bytes, 0, sizeof bytes);
    memcpy(words, counts, 8 * sizeof *words);
    memcpy(words + ENTRY_ROWS, ENTRIES, 5 * counts[PLUSH_SESSION_ENTRIES] * sizeof *words);
    memcpy(words + DECLARATION_ROWS, DECLARATIONS, 4 * counts[PLUSH_SESSION_DECLARATIONS] * sizeof *words);
    memcpy(words + CLASS_ROWS, CLASSES, 5 * counts[PLUSH_SESSION_CLASSES] * sizeof *words);
    memcpy(words + MEMBER_ROWS, MEMBERS, 3 * counts[PLUSH_SESSION_MEMBERS] * sizeof *words);
    memcpy(bytes, FIXED, strlen(FIXED));
    memcpy(bytes + strlen(FIXED), listed, strlen(listed));
    check(memcmp(session, words, sizeof words) == 0 && all(session + PLUSH_SESSION_WORDS, 8, STALE), what);
    check(memcmp(session_bytes, bytes, sizeof bytes) == 0, what);
    for (size_t i = PLUSH_SESSION_BYTES; i < sizeof session_bytes; i++) {
        check(session_bytes[i] == 0xA5, "bytes after those of a session are as before");
    }
}

/* Previews a sheet and then enters it, in the session's first words, with lent words that hold something else before and go on behind those lent: both answer
 * alike, and the preview leaves the session as it is. */
static void check_entry(size_t words, const uint32_t *sheet, size_t sheet_words, const char *names, size_t lent, const uint32_t line[8], const uint32_t *rows,
                        const char *what) {
    static uint32_t answered[512], session_before[sizeof session / sizeof *session];
    static uint8_t bytes_before[sizeof session_bytes];
    size_t count = 8 * line[PLUSH_REPORT_ROWS];
    memcpy(session_before, session, sizeof session);
    memcpy(bytes_before, session_bytes, sizeof session_bytes);
    for (int entered = 0; entered < 2; entered++) {
        memset(answered, 0xA5, sizeof answered);
        memset(report, 0xA5, sizeof report);
        uint32_t question = entered ? plush_enter(session, words, session_bytes, PLUSH_SESSION_BYTES, sheet, sheet_words, (const uint8_t *)names, strlen(names),
                                                  answered, lent, report, 10)
                                    : plush_preview(session, words, session_bytes, PLUSH_SESSION_BYTES, sheet, sheet_words, (const uint8_t *)names, strlen(names),
                                                    answered, lent, report, 10);
        check(question == line[PLUSH_REPORT_QUESTION] && memcmp(report, line, 8 * sizeof *report) == 0, what);
        check(all(report + 8, 2, 0) && all(report + 10, 6, STALE), "zeros after the eighth word of the lent report, and as before after the last");
        check(count == 0 || memcmp(answered, rows, count * sizeof *rows) == 0, what);
        check(all(answered + count, lent - count, 0) && all(answered + lent, 512 - lent, STALE), "zeros after the answer rows, and as before after the last");
        check(entered || (memcmp(session, session_before, sizeof session) == 0 && memcmp(session_bytes, bytes_before, sizeof session_bytes) == 0),
              "a preview leaves the session as it is");
    }
}

/* Withdraws from the session's first words: its bytes are as before, and after a refusal its words too. */
static void check_withdrawal(size_t words, uint32_t question, const char *what) {
    static uint32_t session_before[sizeof session / sizeof *session];
    static uint8_t bytes_before[sizeof session_bytes];
    memcpy(session_before, session, sizeof session);
    memcpy(bytes_before, session_bytes, sizeof session_bytes);
    memset(report, 0xA5, sizeof report);
    check(plush_withdraw(session, words, session_bytes, PLUSH_SESSION_BYTES, report, 10) == question, what);
    check(report[0] == question && all(report + 1, 9, 0) && all(report + 10, 6, STALE), "a report of zeros but for its question");
    check(memcmp(session_bytes, bytes_before, sizeof session_bytes) == 0, "the bytes are as before");
    check(memcmp(session + 8, session_before + 8, sizeof session - 8 * sizeof *session) == 0, "the words after the counts are as before");
    check(question == 0 || memcmp(session, session_before, sizeof session) == 0, "a refusal changes nothing");
}

static void check_entries(void) {
    static const uint32_t told_1[8] = {0, 0, 0, 0, 0, 12, 1}, told_2[8] = {0, 0, 0, 0, 0, 10, 2}, told_3[8] = {8, 0, 1, 7, 26}, told_4[8] = {0, 0, 0, 0, 0, 2, 2};
    static const uint32_t no_session[8] = {PLUSH_QUESTION_SESSION}, no_room[8] = {PLUSH_QUESTION_ROOM}, full[8] = {PLUSH_QUESTION_SESSION_ROOM};
    static const uint32_t counts_1[8] = {1, 1, 12, 7, 14, 3, 1, 3}, counts_2[8] = {2, 2, 13, 8, 16, 5, 2, 6};
    static const uint32_t counts_3[8] = {3, 2, 13, 8, 16, 5, 2, 6}, broken[8] = {2, 2, 13, 9, 16, 5, 2, 6};
    static const char listed_1[] = "A\na\np\nq\nm\nf\nb\n", listed_2[] = "A\na\np\nq\nm\nf\nb\nB\n";
    check_fresh(PLUSH_SESSION_WORDS, PLUSH_SESSION_BYTES);
    check_entry(PLUSH_SESSION_WORDS, ENTRY_1, 192, NAMES_1, 480, told_1, ANSWER_1, "the first entry");
    check_session(counts_1, listed_1, "the session after it");
    check_text(4, 0, 30, "f", 0, "a name that it brought");
    check_entry(PLUSH_SESSION_WORDS, ENTRY_2, 176, NAMES_2, 79, no_room, NULL, "79 answer words for 10 rows");
    check_entry(PLUSH_SESSION_WORDS - 1, ENTRY_2, 176, NAMES_2, 480, no_session, NULL, "a word less than a session has");
    check_entry(0, ENTRY_2, 176, NAMES_2, 480, no_session, NULL, "no words of a session");
    check_session(counts_1, listed_1, "the session as before");
    check_entry(PLUSH_SESSION_WORDS, ENTRY_2, 176, NAMES_2, 480, told_2, ANSWER_2, "the second entry, which uses what the first declared");
    check_session(counts_2, listed_2, "the session after both");
    check_withdrawal(PLUSH_SESSION_WORDS, 0, "the second entry taken back");
    check(session[PLUSH_SESSION_GLOBALS] == 2 && session[PLUSH_SESSION_ENTRIES] == 1, "its global stays used");
    check(memcmp(session + PLUSH_SESSION_SHOWN, counts_1 + PLUSH_SESSION_SHOWN, 6 * sizeof *session) == 0, "the other counts are those before it");
    check_text(4, 0, 31, "b", 0, "a name of the first entry");
    check_text(4, 0, 32, "", 0, "a name that the second brought");
    check_withdrawal(PLUSH_SESSION_WORDS - 1, PLUSH_QUESTION_SESSION, "a word less than a session has");
    check_withdrawal(PLUSH_SESSION_WORDS, 0, "the first entry taken back");
    check_withdrawal(PLUSH_SESSION_WORDS, PLUSH_QUESTION_ENTRY_LEFT, "no entry is left");
    check(session[PLUSH_SESSION_GLOBALS] == 2 && session[PLUSH_SESSION_ENTRIES] == 0 && session[PLUSH_SESSION_SHOWN] == 9
              && all(session + PLUSH_SESSION_NAMES, 5, 0), "nothing is left but the globals and the core names");
    check_fresh(PLUSH_SESSION_WORDS, PLUSH_SESSION_BYTES);
    check_entry(PLUSH_SESSION_WORDS, ENTRY_1, 192, NAMES_1, 480, told_1, ANSWER_1, "the first entry once more");
    check_entry(PLUSH_SESSION_WORDS, ENTRY_2, 176, NAMES_2, 480, told_2, ANSWER_2, "and the second");
    check_session(counts_2, listed_2, "the session after both once more");
    session[PLUSH_SESSION_NAMES] = 9;
    check_entry(PLUSH_SESSION_WORDS, ENTRY_4, 48, NAMES_4, 480, no_session, NULL, "a count of names that is not theirs");
    check_session(broken, listed_2, "which changes nothing");
    session[PLUSH_SESSION_NAMES] = 8;
    for (uint32_t shown = 12; shown <= 14; shown += 2) {
        session[PLUSH_SESSION_SHOWN] = shown;
        check_entry(PLUSH_SESSION_WORDS, ENTRY_4, 48, NAMES_4, 480, no_session, NULL, "one name on show less or more than a recount finds");
        check_withdrawal(PLUSH_SESSION_WORDS, PLUSH_QUESTION_SESSION, "and nothing can be withdrawn");
        check(session[PLUSH_SESSION_SHOWN] == shown, "and the number stays");
    }
    session[PLUSH_SESSION_SHOWN] = 13;
    for (uint32_t entries = 2; entries < 1000; entries++) {
        check_entry(PLUSH_SESSION_WORDS, ENTRY_4, 48, NAMES_4, 480, told_4, ANSWER_4, "f is the latest f");
        check(session[PLUSH_SESSION_ENTRIES] == entries + 1, "and the entry is kept");
    }
    check_entry(PLUSH_SESSION_WORDS, ENTRY_4, 48, NAMES_4, 480, full, NULL, "a session keeps 1,000 entries");
    check(session[PLUSH_SESSION_ENTRIES] == 1000 && session[PLUSH_SESSION_GLOBALS] == 2, "and no more");

    check_fresh(PLUSH_SESSION_WORDS, PLUSH_SESSION_BYTES);
    check_entry(PLUSH_SESSION_WORDS, ENTRY_1, 192, NAMES_1, 480, told_1, ANSWER_1, "the first entry again");
    check_entry(PLUSH_SESSION_WORDS, ENTRY_2, 176, NAMES_2, 80, told_2, ANSWER_2, "the second again, with 80 words for 10 rows");
    check_entry(PLUSH_SESSION_WORDS, ENTRY_3, 80, NAMES_3, 480, told_3, NULL, "n is not declared: its position and the entry's number of its name");
    check_session(counts_3, listed_2, "the let before it used a global");
    check_entry(PLUSH_SESSION_WORDS, ENTRY_3, 80, NAMES_3, 480, no_session, NULL, "so an entry that starts at 2 is refused");
    check_session(counts_3, listed_2, "and nothing changes");
    check(plush_enter(session, 0, session_bytes, 0, ENTRY_4, 48, NAMES, 2, answer, 0, report, 0) == PLUSH_QUESTION_SESSION, "nothing lent at all");
    check(plush_preview(session, 0, session_bytes, 0, ENTRY_4, 48, NAMES, 2, answer, 0, report, 0) == PLUSH_QUESTION_SESSION, "nor to a preview");
    check_session(counts_3, listed_2, "nothing written");
}

int main(void) {
    check_fresh(0, 0);
    check_fresh(1, 167);
    check_fresh(PLUSH_SESSION_WORDS, PLUSH_SESSION_BYTES);
    check_texts();
    check_entries();
    check_found(4, "f", 25, 1, "f is found");
    check_found(4, "p", 26, 1, "p is found");
    check_found(4, "MAIN_UNIT", 24, 1, "a fixed name is found");
    check_found(4, "g", 0, 1, "g is absent");
    check_found(4, "", 0, 1, "no bytes are absent");
    check_found(3, "f", 0, 0, "a list without its end has no index");
    check_columns();
    check_orders();
    for (size_t room = 0; room <= 16; room++) {
        check_resolved(64, room);
    }
    check_resolved(32, 8);
    check_refused(PLUSH_QUESTION_ROWS_FIT, SHEET, 0, 4, 64, "an empty sheet");
    check_refused(PLUSH_QUESTION_ROWS_FIT, SHEET, 79, 4, 64, "a sheet whose words are no rows of eight");
    check_refused(PLUSH_QUESTION_NAMES_FIT, SHEET, 80, 3, 64, "a last name without its end");
    check_refused(PLUSH_QUESTION_FORMAT_FITS, SHEET, 72, 4, 64, "a link to a row that is not there");
    check_refused(PLUSH_QUESTION_FORMAT_FITS, SHEET, 80, 2, 64, "a name that is not listed");
    check_refused(PLUSH_QUESTION_ROOM, SHEET, 80, 4, 31, "31 answer words for 4 rows");
    check_refused(PLUSH_QUESTION_ROOM, SHEET, 80, 4, 0, "no answer words");

    uint32_t undeclared[80];
    memcpy(undeclared, SHEET, sizeof SHEET);
    undeclared[8 * 9 + PLUSH_COLUMN_A] = PLUSH_NAME_NULL;
    undeclared[8 * 9 + PLUSH_COLUMN_FILE] = 7;
    static const uint32_t line[8] = {PLUSH_QUESTION_NULL_DECLARED, 7, 1, 20, PLUSH_NAME_NULL, 0, 0, 0};
    check(resolve(undeclared, 80, 4, 64, 8) == PLUSH_QUESTION_NULL_DECLARED, "null is not declared");
    check(memcmp(report, line, sizeof line) == 0, "position and name of a refusal");
    puts(failed ? "edges: FAILED" : "edges: S1, refusals 1, 2, 3, 9 and 22, report slices of 0 to 16 words, orders of units and their refusals 3, 22 and 29, S1 by column and back, names found, fresh sessions, texts of names, entries and their refusals 8, 22, 23 and 24: as they must be");
    return failed;
}
