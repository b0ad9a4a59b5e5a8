/* Which instruction starts with a byte, by the opcode sheet, for the examples that go through code. */
#ifndef INSTRUCTIONS_H
#define INSTRUCTIONS_H

#include <stddef.h>
#include <stdint.h>

enum { ROLES = 27, BYTES = 256 };

enum kind {
    PLAIN,
    OPERAND, /* loads and stores: a 16-bit operand */
    JMP,
    JMP_IF_NOT,
    CMP_BR, /* comparison, variable, constant */
    KINDS
};

/* How long each is. Of a branch the last two bytes are its offset. */
static const size_t size_of_kind[KINDS] = {1, 3, 3, 3, 8};

static enum kind kind_of_role(unsigned role) {
    switch (role) {
    case 2: case 3: case 4: return OPERAND;
    case 23: return JMP;
    case 24: return JMP_IF_NOT;
    case 25: return CMP_BR;
    default: return PLAIN;
    }
}

/* By a sheet that was accepted: its first numbers are the opcodes of the roles. */
static void read_kinds(const uint8_t *sheet, size_t length, enum kind kinds[BYTES]) {
    unsigned opcode = 0, role = 0;
    for (size_t i = 0; i < BYTES; i++) kinds[i] = PLAIN;
    for (size_t i = 0; i < length && role < ROLES; i++) {
        if (sheet[i] == ',') {
            kinds[opcode] = kind_of_role(role++);
            opcode = 0;
        } else {
            opcode = opcode * 10 + (unsigned)(sheet[i] - '0');
        }
    }
}

#endif
