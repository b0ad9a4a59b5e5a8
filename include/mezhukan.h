/* Mezhukan for C: a dial program turned into branch code, rewriting called alone, the check of an image, and the slowest call. The library is
 * target/staticlib/libmezhukan.a (`tools/build mezhukan`, x86-64); what is proved of the four functions stands in crates/mezhukan/src/lib.rt.
 *
 * A list is a pointer and a count of elements. Nothing is required of the contents of any list, nor of its length. What C must see to itself:
 * a pointer is not null and is aligned for its elements, even where the count is 0; so many elements stand there; no output overlaps
 * another list. No heap is used and nothing is kept between calls, so threads may call at once. A call takes
 * stack, the more the deeper a program nests (docs/DECISIONS.md has what was measured): give a thread MEZHUKAN_STACK. examples/c has
 * whole programs. */
#ifndef MEZHUKAN_H
#define MEZHUKAN_H

#include <stddef.h>
#include <stdint.h>

#ifdef __cplusplus
extern "C" {
#endif

/* Limits, all of them the definition's (crates/definition/specs/Limits.antt; tests/header holds the two against each other). An output shorter
 * than its limit is refused (14), a longer one is zeroed behind the result. So lend by these names, and compile a caller again when the library
 * changes: one from when the code limit was 16,384 bytes gets 14. */
#define MEZHUKAN_MAX_CODE 65535      /* bytes of code, emitted and finished: its end is a place too, and fits 16 bits */
#define MEZHUKAN_MAX_BACK 32768      /* bytes that a branch of finished code leads back at most, from the byte behind it */
#define MEZHUKAN_MAX_FORWARD 32767   /* bytes that it leads forward at most, from there */
#define MEZHUKAN_MAX_CONSTANTS 1024  /* constants */
#define MEZHUKAN_MAX_LINES 4096      /* line entries */
#define MEZHUKAN_ENTRY_SIZE 3        /* numbers of a line entry: offset, line, column */
#define MEZHUKAN_MAX_PROTECTED 4096  /* protected offsets of rewriting called alone */
#define MEZHUKAN_MAX_LABELS 4096     /* labels that emission creates */
#define MEZHUKAN_MAX_BRANCHES (MEZHUKAN_MAX_CODE / 3) /* branches in the code: the smallest has three bytes */
#define MEZHUKAN_MAX_OUTCOMES 21845  /* branch outcomes of the slowest call */
#define MEZHUKAN_MAX_PROGRAM 65536   /* bytes of a program */
#define MEZHUKAN_MAX_NESTING 64      /* nesting levels of a program */
#define MEZHUKAN_MAX_VARIABLES 1024  /* variables of a program */
#define MEZHUKAN_MAX_FIELD 65535     /* the largest number of a field that is no value */
#define MEZHUKAN_MAX_RULES 64        /* lines of a rule file */
#define MEZHUKAN_PASS_COUNT 3        /* passes of the rewriter */
#define MEZHUKAN_WIDTH 32            /* bits of a value */

/* Bytes of stack for a thread that calls: with so many tests/library runs every kind of nesting, as deep as it goes, and the longest code. */
#define MEZHUKAN_STACK 1048576

/* Refusals. Each has a place: a line of the program from 1 for 2 to 6, a line of the rules from 1 for 9, an offset for 8, the offset in finished
 * code of the lowest such branch for 15, for 7 some field at fault from 1 (0 if the line or the field count is bad), else 0. After a refusal every
 * element of every output is 0.
 *
 * Of 15: no file is malformed, but what lies between a branch and its target is too long: the body of a loop, a part of an IF, labels or arms of
 * a CASE, the right side of an AND_THEN or OR_ELSE. That is to be shortened, or the program to be split. Only the lowest such branch is named: behind
 * it there may be others. */
#define MEZHUKAN_BAD_TEXT 1         /* program empty, too long, or not ended by LF */
#define MEZHUKAN_BAD_FORM 2         /* wrong letter, wrong field count or malformed number */
#define MEZHUKAN_BAD_RANGE 3        /* a number outside its range */
#define MEZHUKAN_NO_LOOP 4          /* no open loop of that number */
#define MEZHUKAN_TOO_DEEP 5         /* nesting too deep */
#define MEZHUKAN_WRONG_LINES 6      /* a line missing or left over */
#define MEZHUKAN_BAD_SHEET 7        /* bad opcode sheet */
#define MEZHUKAN_BAD_CODE 8         /* rewriting alone: unlisted opcode, cut instruction, or an offset that is neither a start nor the end */
#define MEZHUKAN_BAD_RULE 9         /* bad rule line */
#define MEZHUKAN_CODE_FULL 10       /* code over its limit */
#define MEZHUKAN_LABELS_FULL 11     /* labels, or protected offsets, over their limit */
#define MEZHUKAN_LINES_FULL 12      /* line entries over their limit */
#define MEZHUKAN_CONSTANTS_FULL 13  /* constants over their limit */
#define MEZHUKAN_OUTPUT_SHORT 14    /* an output shorter than its limit */
#define MEZHUKAN_FAR_BRANCH 15      /* the call: a branch of finished code, reached or not, leads further than MEZHUKAN_MAX_BACK or MEZHUKAN_MAX_FORWARD */
#define MEZHUKAN_ASTRAY 20          /* an image's code: a run reaches a place that is neither start nor end, heights ignored */
#define MEZHUKAN_BAD_HEIGHT 21      /* an image's code: an empty stack popped, the depth exceeded, an unempty end, or a start at two heights */

/* What stands where in an answer: first the refusal's number, or 0, and its place, or 0; after a refusal all others are 0. */
enum {
    MEZHUKAN_NUMBER = 0,
    MEZHUKAN_PLACE = 1,
    MEZHUKAN_CHECKED = 2,     /* of the check: numbers of its answer */
    MEZHUKAN_CODE_LENGTH = 2, /* of the call and of rewriting alone: bytes of code given back */

    MEZHUKAN_DEPTH = 3,          /* of the call: no run of the code goes above this height of the stack */
    MEZHUKAN_CONSTANT_COUNT = 4, /* of the call: constants given back */
    MEZHUKAN_ENTRY_COUNT = 5,    /* of the call: line entries given back */
    MEZHUKAN_COMPILED = 6,       /* of the call: numbers of its answer */

    MEZHUKAN_ALONE_PROTECTED_COUNT = 3, /* of rewriting alone: protected offsets given back */
    MEZHUKAN_ALONE_ENTRY_COUNT = 4,     /* of rewriting alone: line entries given back */
    MEZHUKAN_REWRITTEN = 5,             /* of rewriting alone: numbers of its answer */

    MEZHUKAN_LOOPS = 2,             /* of the slowest call: 1 if the code holds a branch to its own start or before it, else 0 */
    MEZHUKAN_INSTRUCTION_COUNT = 3, /* of the slowest call: instructions on its longest run; 0 where it loops */
    MEZHUKAN_OUTCOME_COUNT = 4,     /* of the slowest call: outcomes given back */
    MEZHUKAN_MEASURED = 5           /* of the slowest call: numbers of its answer */
};

/* The call. The result is the answer's number: 0, or a refusal's. */
uint8_t mezhukan_compile(
    const uint8_t *sheet, size_t sheet_length,     /* the opcode sheet, a line of 33 numbers with its LF */
    const uint8_t *rules, size_t rules_length,     /* the rule file, 0 to MEZHUKAN_MAX_RULES lines */
    const uint8_t *program, size_t program_length, /* the program */
    uint8_t *code, size_t code_length,             /* out: finished code, then 0; at least MEZHUKAN_MAX_CODE */
    uint32_t *constants, size_t constants_length,  /* out: the constants as 32-bit two's complement, then 0; at least MEZHUKAN_MAX_CONSTANTS */
    uint16_t *lines, size_t lines_length,          /* out: the line entries, then 0; at least MEZHUKAN_MAX_LINES * MEZHUKAN_ENTRY_SIZE */
    uint64_t answer[MEZHUKAN_COMPILED]);           /* out: every element is set */

/* Rewriting and line mapping called alone; branch bytes are copied as they are. The result is the answer's number: 0, or a refusal's. */
uint8_t mezhukan_rewrite_alone(
    const uint8_t *sheet, size_t sheet_length,          /* the opcode sheet */
    const uint8_t *rules, size_t rules_length,          /* the rule file */
    const uint8_t *code, size_t code_length,            /* the code to rewrite */
    const uint16_t *protected_, size_t protected_length, /* offsets at which no pair may be rewritten: each a start or the end */
    const uint16_t *lines, size_t lines_length,         /* line entries, three numbers each; one or two numbers left over are not looked at */
    uint8_t *bytes, size_t bytes_length,                /* out: the code, then 0; at least MEZHUKAN_MAX_CODE */
    uint16_t *offsets, size_t offsets_length,           /* out: the protected offsets as moved, then 0; at least MEZHUKAN_MAX_PROTECTED */
    uint16_t *entries, size_t entries_length,           /* out: the line entries kept, then 0; at least MEZHUKAN_MAX_LINES * MEZHUKAN_ENTRY_SIZE */
    uint64_t answer[MEZHUKAN_REWRITTEN]);               /* out: every element is set */

/* The check of an image: code, made by whatever, against the sheet and its declared depth. Starts are those met by decoding from the first byte
 * on, up to an unlisted opcode or comparison byte or a cut instruction; what lies behind is no fault if no run gets there. Which variables and
 * constants the code names is not looked at. The result is the answer's number: 0 if it passes, else the first of 7, 10, 20 and 21 that holds. */
uint8_t mezhukan_check_image(
    const uint8_t *sheet, size_t sheet_length, /* the opcode sheet */
    const uint8_t *code, size_t code_length,   /* the image's code */
    uint64_t depth,                            /* its declared depth, any number */
    uint64_t answer[MEZHUKAN_CHECKED]);        /* out: every element is set */

/* The slowest call: the greatest number of instructions on any run of the code, a RET counted, and the branch outcomes that produce it, one for
 * each JMP_IF_NOT and CMP_BR on the way, in order; of equally long runs the one that falls through where they first differ. The code is an image's, or
 * what mezhukan_compile gave back, with its depth. Where a start of it, as the check decodes them, holds a branch to its own start or before it,
 * reached or not, MEZHUKAN_LOOPS is 1 and there is neither count nor outcome: that is no refusal. Which variables and constants the code names is
 * not looked at. The result is the answer's number: 0, or the first of 14, 7, 10, 20 and 21 that holds. */
uint8_t mezhukan_slowest(
    const uint8_t *sheet, size_t sheet_length, /* the opcode sheet */
    const uint8_t *code, size_t code_length,   /* the code */
    uint64_t depth,                            /* its depth, any number */
    uint8_t *outcomes, size_t outcomes_length, /* out: the outcomes, a byte each, 1 if taken, then 0; at least MEZHUKAN_MAX_OUTCOMES */
    uint64_t answer[MEZHUKAN_MEASURED]);       /* out: every element is set */

#ifdef __cplusplus
}
#endif

#endif
