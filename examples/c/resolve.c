/* resolve SHEET NAMES: resolves a sheet, given as text, and prints in words what each of its names means.
 *
 *     (cd crates/plush && rt lib)
 *     gcc -std=c11 -O2 -Iinclude examples/c/resolve.c crates/plush/out/libplush.a -o resolve
 *     ./resolve crates/plush_resolve/data/sheet.txt crates/plush_resolve/data/names.txt
 *
 * An editor that has its sheet in memory needs no more than `show` and what it calls.
 */
#include <inttypes.h>
#include <stdio.h>
#include <stdlib.h>
#include <string.h>

#include "plush.h"

#define LINE_BYTES 81
#define FIELD_BYTES 10

/* The fixed names, by number; 0 is no name. */
static const char *const FIXED[] = {
    "no name",     "Int64", "Float64",   "String", "Array", "ByteArray", "Dict", "UIEvent", "AudioNeeded",
    "AudioData",   "kind",  "window_id", "key",    "button", "x",        "y",    "dx",      "dy",
    "text",        "num_samples", "num_channels", "device_id", "null", "init", "MAIN_UNIT"};

/* The bytes of a file, ended by 0; their number is written to `size`. */
static char *read_file(const char *path, size_t *size) {
    FILE *file = fopen(path, "rb");
    if (file == NULL) {
        perror(path);
        exit(2);
    }
    size_t room = 1 << 20;
    char *bytes = malloc(room);
    *size = bytes == NULL ? 0 : fread(bytes, 1, room - 1, file);
    fclose(file);
    if (bytes == NULL) {
        exit(2);
    }
    bytes[*size] = '\0';
    return bytes;
}

/* The words of a sheet's text: eight numbers of ten columns in a line. Returns how many there are. */
static size_t read_words(const char *text, size_t size, uint32_t *words) {
    size_t count = 0;
    for (size_t line = 0; line + LINE_BYTES <= size; line += LINE_BYTES) {
        for (size_t column = 0; column < PLUSH_ROW_WORDS; column++) {
            char field[FIELD_BYTES + 1] = {0};
            memcpy(field, text + line + column * FIELD_BYTES, FIELD_BYTES);
            words[count++] = (uint32_t)strtoul(field, NULL, 10);
        }
    }
    return count;
}

static void print_name(uint32_t number, const char *names) {
    if (number <= PLUSH_NAME_LAST_FIXED) {
        fputs(FIXED[number], stdout);
        return;
    }
    for (uint32_t left = number - PLUSH_NAME_LAST_FIXED; left > 1 && *names != '\0'; names++) {
        left -= *names == '\n';
    }
    printf("%.*s", (int)strcspn(names, "\n"), names);
}

/* How many functions out a captured name is declared: 0, and not printed, for what a literal hands on. */
static void print_distance(uint32_t distance) {
    if (distance > 0) {
        printf(", %" PRIu32 " %s out", distance, distance == 1 ? "function" : "functions");
    }
}

static void print_answer(const uint32_t *row, const char *names) {
    const char *mutable = row[4] == 1 ? "mutable " : "";
    switch (row[1]) {
    case PLUSH_CODE_NOTHING: printf("nothing is declared"); break;
    case PLUSH_CODE_FUN: printf("function %" PRIu32, row[2]); break;
    case PLUSH_CODE_CLASS: printf("class %" PRIu32, row[2]); break;
    case PLUSH_CODE_GLOBAL: printf("%sglobal %" PRIu32, mutable, row[2]); break;
    case PLUSH_CODE_ARG: printf("argument %" PRIu32 " of function %" PRIu32, row[2], row[3]); break;
    case PLUSH_CODE_LOCAL: printf("%slocal %" PRIu32 " of function %" PRIu32, mutable, row[2], row[3]); break;
    case PLUSH_CODE_CAPTURED:
        printf("%scapture %" PRIu32 " of its function", mutable, row[2]);
        print_distance(row[5]);
        break;
    case PLUSH_CODE_TRUE: printf("true"); break;
    case PLUSH_CODE_FALSE: printf("false"); break;
    case PLUSH_CODE_FUNCTION_COUNTS:
        printf("%" PRIu32 " locals, %" PRIu32 " captures, %" PRIu32 " escapes", row[2], row[3], row[4]);
        break;
    case PLUSH_CODE_CLASS_COUNTS:
        printf("parent %" PRIu32 ", %" PRIu32 " fields, %" PRIu32 " methods", row[2], row[4], row[5]);
        break;
    case PLUSH_CODE_FIELD: printf("field %" PRIu32 " is ", row[2]); print_name(row[3], names); break;
    case PLUSH_CODE_METHOD: printf("function %" PRIu32 " is method ", row[3]); print_name(row[2], names); break;
    default: printf("code %" PRIu32, row[1]);
    }
}

/* What an answer row says, after what its sheet row is. */
static void print_row(const uint32_t *row, const uint32_t *sheet, const char *names) {
    const uint32_t *of = sheet + PLUSH_ROW_WORDS * row[0];
    printf("row %" PRIu32 ": ", row[0]);
    switch (of[PLUSH_COLUMN_KIND]) {
    case PLUSH_KIND_LET:
    case PLUSH_KIND_IDENTIFIER:
    case PLUSH_KIND_HOST_CONSTANT:
    case PLUSH_KIND_MEMBER: print_name(of[PLUSH_COLUMN_A], names); printf(" is "); break;
    case PLUSH_KIND_INSTANCEOF: printf("instanceof asks for "); break;
    case PLUSH_KIND_LITERAL: printf("the literal hands on "); break;
    case PLUSH_KIND_FUNCTION: printf(row[1] == PLUSH_CODE_FUNCTION_COUNTS ? "the function has " : "its capture or escape is "); break;
    case PLUSH_KIND_CLASS: printf(row[1] == PLUSH_CODE_CLASS_COUNTS ? "the class has " : "its "); break;
    }
    print_answer(row, names);
    putchar('\n');
}

static int show(const uint32_t *sheet, size_t sheet_words, const char *names, size_t name_bytes) {
    uint32_t answer[PLUSH_ANSWER_WORDS], report[PLUSH_REPORT_WORDS];
    uint32_t question = plush_resolve(sheet, sheet_words, (const uint8_t *)names, name_bytes, answer, PLUSH_ANSWER_WORDS,
                                      report, PLUSH_REPORT_WORDS);
    if (question != 0) {
        printf("question %" PRIu32 " got a no: line %" PRIu32 ", column %" PRIu32 ", name %" PRIu32 "\n", question,
               report[PLUSH_REPORT_LINE], report[PLUSH_REPORT_COLUMN], report[PLUSH_REPORT_NAME]);
        return 1;
    }
    for (uint32_t i = 0; i < report[PLUSH_REPORT_ROWS]; i++)
        print_row(answer + PLUSH_ROW_WORDS * i, sheet, names);
    return 0;
}

int main(int argc, char **argv) {
    if (argc != 3) {
        fputs("resolve SHEET NAMES\n", stderr);
        return 2;
    }
    size_t text_bytes, name_bytes;
    char *text = read_file(argv[1], &text_bytes);
    char *names = read_file(argv[2], &name_bytes);
    uint32_t *sheet = malloc(sizeof(uint32_t) * PLUSH_ROW_WORDS * (text_bytes / LINE_BYTES + 1));
    if (sheet == NULL) {
        return 2;
    }
    int status = show(sheet, read_words(text, text_bytes, sheet), names, name_bytes);
    free(sheet);
    free(names);
    free(text);
    return status;
}
