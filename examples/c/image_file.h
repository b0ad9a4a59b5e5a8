/* A file of images on standard input, for the examples that ask the library about each.
 *
 * It has the sheet's line, then a line `depth,byte,byte,..` for each image, in decimal (the depth alone: an image with no bytes). A program's exit status
 * is 0 if every answer is good, 1 if one is not; 2 where a line is malformed or cannot be read, which one line on standard error names, and no line
 * behind it is looked at. */
#ifndef IMAGE_FILE_H
#define IMAGE_FILE_H

#include <stdbool.h>
#include <stdint.h>
#include <stdio.h>
#include <stdlib.h>

enum { FIRST_ROOM = 4096 };
enum status { GOOD, NOT_GOOD, FAILED };

/* Bytes of a line. The pointer is never null, which the library asks for. */
struct bytes {
    uint8_t *at;
    size_t length, room;
};

/* Prints the library's answer for an image; whether it is a good one. */
typedef bool answer_image(const struct bytes *sheet, const struct bytes *code, uint64_t depth);

/* How far the file is read. */
struct reader {
    unsigned long line;
    int next;  /* a byte, or EOF */
    bool full; /* there is no memory for more */
};

static int look(struct reader *r) {
    r->next = getchar();
    return r->next;
}

static bool make_room(struct bytes *b, size_t room) {
    uint8_t *more = realloc(b->at, room);
    if (!more) return false;
    b->at = more;
    b->room = room;
    return true;
}

static bool push(struct reader *r, struct bytes *b, uint8_t byte) {
    r->full = b->length == b->room && (b->room > SIZE_MAX / 2 || !make_room(b, b->room * 2));
    if (!r->full) b->at[b->length++] = byte;
    return !r->full;
}

/* A line with its LF. */
static bool read_sheet(struct reader *r, struct bytes *sheet) {
    while (r->next != EOF && r->next != '\n') {
        if (!push(r, sheet, (uint8_t)r->next)) return false;
        look(r);
    }
    return r->next == '\n' && push(r, sheet, '\n');
}

/* A number of at most `most`: digits without a leading zero. */
static bool read_number(struct reader *r, uint64_t most, uint64_t *number) {
    bool zero = r->next == '0';
    size_t digits = 0;
    for (*number = 0; r->next >= '0' && r->next <= '9'; digits++) {
        uint64_t digit = (uint64_t)(r->next - '0');
        if (*number > (most - digit) / 10) return false;
        *number = *number * 10 + digit;
        look(r);
    }
    return digits == 1 || (digits > 1 && !zero);
}

/* An image's line, up to its LF. */
static bool read_image(struct reader *r, uint64_t *depth, struct bytes *code) {
    code->length = 0;
    if (!read_number(r, UINT64_MAX, depth)) return false;
    while (r->next == ',') {
        uint64_t byte;
        look(r);
        if (!read_number(r, UINT8_MAX, &byte) || !push(r, code, (uint8_t)byte)) return false;
    }
    return r->next == '\n';
}

static enum status answer_all(struct reader *r, struct bytes *sheet, struct bytes *code, answer_image *answer) {
    enum status status = GOOD;
    uint64_t depth;
    look(r);
    if (!read_sheet(r, sheet)) return FAILED;
    for (r->line++; look(r) != EOF; r->line++) {
        if (!read_image(r, &depth, code)) return FAILED;
        if (!answer(sheet, code, depth)) status = NOT_GOOD;
    }
    return ferror(stdin) ? FAILED : status;
}

/* All that the program of this name does; its exit status. */
static int answer_file(const char *name, answer_image *answer) {
    struct bytes sheet = {NULL, 0, 0}, code = {NULL, 0, 0};
    struct reader r = {1, EOF, !make_room(&sheet, FIRST_ROOM) || !make_room(&code, FIRST_ROOM)};
    enum status status = r.full ? FAILED : answer_all(&r, &sheet, &code, answer);
    bool written = fflush(stdout) == 0 && !ferror(stdout);
    if (!written) {
        fprintf(stderr, "%s: standard output cannot be written\n", name);
    } else if (status == FAILED) {
        fprintf(stderr, "%s: line %lu %s\n", name, r.line, ferror(stdin) || r.full ? "cannot be read" : "is malformed");
    }
    free(sheet.at);
    free(code.at);
    return written ? (int)status : FAILED;
}

#endif
