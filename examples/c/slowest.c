/* The slowest calls of a file of images, through the library. From the repository's root:
 *
 *     tools/build mezhukan
 *     cc -std=c11 -I include -o target/slowest examples/c/slowest.c target/staticlib/libmezhukan.a
 *     target/slowest < examples/slowest.txt
 *
 * It reads a file of images (image_file.h has its form, and the exit status), and prints for each a line with the count of instructions, and behind it a
 * line `b,offset,kind,outcome` for each conditional branch on that run, in order; or a line `loops`; or `number,place` of a refusal. A good answer is
 * a count. */
#include "image_file.h"
#include "instructions.h"
#include "mezhukan.h"

static const char *const names[KINDS] = {[JMP_IF_NOT] = "JMP_IF_NOT", [CMP_BR] = "CMP_BR"};

/* The target of a branch that leads forward, behind which `next` stands. */
static size_t target(const struct bytes *code, size_t next) {
    return next + code->at[next - 2] + 256u * code->at[next - 1];
}

/* Goes through code that passes, by the outcomes, as far as they reach: the next one belongs to the next conditional branch. */
static void print_branches(const struct bytes *sheet, const struct bytes *code, const uint8_t *outcomes, size_t count) {
    enum kind kinds[BYTES];
    read_kinds(sheet->at, sheet->length, kinds);
    for (size_t at = 0, used = 0; used < count;) {
        enum kind kind = kinds[code->at[at]];
        size_t next = at + size_of_kind[kind];
        bool taken = kind == JMP;
        if (names[kind]) {
            taken = outcomes[used++];
            printf("b,%zu,%s,%s\n", at, names[kind], taken ? "taken" : "not taken");
        }
        at = taken ? target(code, next) : next;
    }
}

static bool slowest(const struct bytes *sheet, const struct bytes *code, uint64_t depth) {
    uint8_t outcomes[MEZHUKAN_MAX_OUTCOMES];
    uint64_t answer[MEZHUKAN_MEASURED];
    uint8_t number = mezhukan_slowest(sheet->at, sheet->length, code->at, code->length, depth, outcomes, sizeof outcomes, answer);
    if (number) {
        printf("%lu,%lu\n", (unsigned long)answer[MEZHUKAN_NUMBER], (unsigned long)answer[MEZHUKAN_PLACE]);
    } else if (answer[MEZHUKAN_LOOPS]) {
        printf("loops\n");
    } else {
        printf("%lu\n", (unsigned long)answer[MEZHUKAN_INSTRUCTION_COUNT]);
        print_branches(sheet, code, outcomes, answer[MEZHUKAN_OUTCOME_COUNT]);
    }
    return !number && !answer[MEZHUKAN_LOOPS];
}

int main(void) {
    return answer_file("slowest", slowest);
}
