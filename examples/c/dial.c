/* A dial string compiled through the library, and its listing. From the repository's root:
 *
 *     tools/build mezhukan
 *     cc -std=c11 -I include -o target/dial examples/c/dial.c target/staticlib/libmezhukan.a
 *     target/dial < examples/dial.txt
 *
 * It reads what `listing` reads (sheet line, rule count line, rules, program) and prints what that prints, a refusal too. */
#include <stdbool.h>
#include <stdio.h>
#include <stdlib.h>

#include "instructions.h"
#include "mezhukan.h"

enum { FIRST_ROOM = 4096 };

/* A part of the input. Its pointer is never null, which the library asks for. */
struct text {
    const uint8_t *at;
    size_t length;
};

/* All that the call gives back. */
struct answer {
    uint64_t numbers[MEZHUKAN_COMPILED];
    uint8_t code[MEZHUKAN_MAX_CODE];
    uint32_t constants[MEZHUKAN_MAX_CONSTANTS];
    uint16_t lines[MEZHUKAN_MAX_LINES * MEZHUKAN_ENTRY_SIZE];
};

static bool compile(struct text sheet, struct text rules, struct text program, struct answer *a) {
    return mezhukan_compile(sheet.at, sheet.length, rules.at, rules.length, program.at, program.length, a->code, MEZHUKAN_MAX_CODE,
                            a->constants, MEZHUKAN_MAX_CONSTANTS, a->lines, MEZHUKAN_MAX_LINES * MEZHUKAN_ENTRY_SIZE, a->numbers) == 0;
}

/* Takes so many lines with their LFs off a text, or those there are. */
static struct text cut_lines(struct text *rest, size_t count) {
    struct text lines = {rest->at, 0};
    while (count > 0 && lines.length < rest->length) {
        if (lines.at[lines.length] == '\n') count--;
        lines.length++;
    }
    rest->at += lines.length;
    rest->length -= lines.length;
    return lines;
}

/* The number in a count line: digits without a leading zero, at most MEZHUKAN_MAX_RULES, then LF. -1 if it is none. */
static int rule_count(struct text line) {
    int number = 0;
    if (line.length < 2 || line.at[line.length - 1] != '\n') return -1;
    if (line.at[0] == '0' && line.length > 2) return -1;
    for (size_t i = 0; i < line.length - 1; i++) {
        if (line.at[i] < '0' || line.at[i] > '9') return -1;
        number = number * 10 + (line.at[i] - '0');
        if (number > MEZHUKAN_MAX_RULES) return -1;
    }
    return number;
}

static long signed_value(uint32_t bits) {
    return bits <= INT32_MAX ? (long)bits : -1 - (long)(UINT32_MAX - bits);
}

static void print_refusal(unsigned long number, unsigned long place) {
    printf("%lu,%lu\n", number, place);
}

static void print_code(struct text sheet, const uint8_t *code, size_t length) {
    enum kind kinds[BYTES];
    read_kinds(sheet.at, sheet.length, kinds);
    for (size_t at = 0, next; at < length; at = next) {
        next = at + size_of_kind[kinds[code[at]]];
        printf("b,%zu", at);
        for (size_t i = at; i < next; i++) printf(",%u", (unsigned)code[i]);
        printf("\n");
    }
}

static void print_answer(struct text sheet, const struct answer *a) {
    const uint64_t *n = a->numbers;
    printf("0,%lu,%lu,%lu,%lu\n", (unsigned long)n[MEZHUKAN_CODE_LENGTH], (unsigned long)n[MEZHUKAN_DEPTH],
           (unsigned long)n[MEZHUKAN_CONSTANT_COUNT], (unsigned long)n[MEZHUKAN_ENTRY_COUNT]);
    for (size_t i = 0; i < n[MEZHUKAN_CONSTANT_COUNT]; i++) printf("k,%ld\n", signed_value(a->constants[i]));
    for (size_t i = 0; i < n[MEZHUKAN_ENTRY_COUNT]; i++) {
        const uint16_t *entry = a->lines + i * MEZHUKAN_ENTRY_SIZE;
        printf("l,%u,%u,%u\n", (unsigned)entry[0], (unsigned)entry[1], (unsigned)entry[2]);
    }
    print_code(sheet, a->code, n[MEZHUKAN_CODE_LENGTH]);
}

static void list(struct text input, struct answer *a) {
    struct text sheet = cut_lines(&input, 1), none = {input.at, 0};
    int count = rule_count(cut_lines(&input, 1));
    struct text rules = count < 0 ? none : cut_lines(&input, (size_t)count);
    bool compiled = compile(sheet, rules, count < 0 ? none : input, a);
    if (count < 0 && a->numbers[MEZHUKAN_NUMBER] != MEZHUKAN_BAD_SHEET) {
        print_refusal(MEZHUKAN_BAD_RULE, 0); /* a bad count line, after a good sheet */
    } else if (compiled) {
        print_answer(sheet, a);
    } else {
        print_refusal((unsigned long)a->numbers[MEZHUKAN_NUMBER], (unsigned long)a->numbers[MEZHUKAN_PLACE]);
    }
}

/* All of a file, in a block that its caller frees; null if it cannot be read. */
static uint8_t *read_all(FILE *file, size_t *length) {
    size_t room = FIRST_ROOM;
    uint8_t *text = malloc(room);
    *length = 0;
    while (text) {
        *length += fread(text + *length, 1, room - *length, file);
        if (*length < room) break;
        uint8_t *more = room <= SIZE_MAX / 2 ? realloc(text, room * 2) : NULL;
        if (!more) free(text);
        text = more;
        room *= 2;
    }
    if (text && ferror(file)) {
        free(text);
        text = NULL;
    }
    return text;
}

int main(void) {
    size_t length;
    uint8_t *text = read_all(stdin, &length);
    struct answer *a = malloc(sizeof *a);
    if (text && a) list((struct text){text, length}, a);
    bool good = text && a && fflush(stdout) == 0 && !ferror(stdout);
    if (!good) fprintf(stderr, "dial: cannot read standard input, or write standard output, or there is no memory\n");
    free(a);
    free(text);
    return good ? EXIT_SUCCESS : EXIT_FAILURE;
}
