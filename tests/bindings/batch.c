/* batch: resolves the cases on standard input through the C routine and prints their reports, as the program prints them.
 *
 * A case is two 32-bit numbers, those of the sheet's words and of the bytes of its names, then these words and bytes. Of each the
 * routine is also asked with exactly the words that its answer takes, and with one less. Exit status 1 if that, or the words after
 * the answer rows, are not as they must be.
 */
#include <inttypes.h>
#include <stdio.h>
#include <stdlib.h>
#include <string.h>

#include "plush.h"

#define MOST 1000000

static uint32_t sheet[MOST], answer[PLUSH_ANSWER_WORDS], again[PLUSH_ANSWER_WORDS], report[PLUSH_REPORT_WORDS];
static uint8_t names[MOST];

static void must(int holds, const char *what) {
    if (!holds) {
        fprintf(stderr, "batch: %s\n", what);
        exit(1);
    }
}

static int are_zero(const uint32_t *words, size_t count) {
    while (count > 0 && words[count - 1] == 0) {
        count--;
    }
    return count == 0;
}

static void print_row(const uint32_t *row) {
    for (int i = 0; i < PLUSH_ROW_WORDS; i++) {
        printf("%10" PRIu32, row[i]);
    }
    putchar('\n');
}

static void check_room(const uint32_t size[2], size_t taken) {
    uint32_t line[PLUSH_REPORT_WORDS];
    memset(again, 0xA5, sizeof again);
    must(plush_resolve(sheet, size[0], names, size[1], again, taken, line, PLUSH_REPORT_WORDS) == 0, "just enough words");
    must(memcmp(again, answer, taken * sizeof *again) == 0 && memcmp(line, report, sizeof line) == 0, "the same answer");
    if (taken > 0) {
        must(plush_resolve(sheet, size[0], names, size[1], again, taken - 1, line, 1) == PLUSH_QUESTION_ROOM, "a word too few");
        must(line[0] == PLUSH_QUESTION_ROOM && are_zero(again, taken - 1), "zeros after question 22");
    }
}

int main(void) {
    uint32_t size[2];
    while (fread(size, sizeof *size, 2, stdin) == 2) {
        must(size[0] <= MOST && size[1] <= MOST, "a case is too long");
        must(fread(sheet, sizeof *sheet, size[0], stdin) == size[0], "a sheet is cut off");
        must(fread(names, 1, size[1], stdin) == size[1], "names are cut off");
        memset(answer, 0xA5, sizeof answer);
        memset(report, 0xA5, sizeof report);
        uint32_t question =
            plush_resolve(sheet, size[0], names, size[1], answer, PLUSH_ANSWER_WORDS, report, PLUSH_REPORT_WORDS);
        size_t taken = PLUSH_ROW_WORDS * (size_t)report[PLUSH_REPORT_ROWS];
        must(question == report[PLUSH_REPORT_QUESTION], "the number that is returned");
        must(taken <= PLUSH_ANSWER_WORDS && are_zero(answer + taken, PLUSH_ANSWER_WORDS - taken), "zeros after the rows");
        print_row(report);
        for (size_t at = 0; at < taken; at += PLUSH_ROW_WORDS) {
            print_row(answer + at);
        }
        if (question == 0) {
            check_room(size, taken);
        }
    }
    return 0;
}
